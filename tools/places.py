#!/usr/bin/env python3
"""Lists the places in src/ of which docs/DESIGN-PASS.md speaks, point by point.

places.py [COMMIT]: with no commit, the files as they lie here. Run it at the top of the repository.
What it lists are candidates, found by their spelling; the page says which of them are places."""
import collections
import re
import subprocess
import sys

COMMIT = sys.argv[1] if len(sys.argv) > 1 else None


def git(*args):
    return subprocess.run(["git", *args], capture_output=True, text=True, check=True).stdout


def sources():
    if COMMIT:
        names = git("ls-tree", "-r", "--name-only", COMMIT, "crates").split()
    else:
        names = git("ls-files", "-co", "--exclude-standard", "crates").split()
    for name in sorted(n for n in names if "/src/" in n and n.endswith(".rt")):
        yield name, git("show", f"{COMMIT}:{name}") if COMMIT else open(name).read()


FILES = list(sources())


def show(point, title, places):
    print(f"{point}  {title}: {len(places)}")
    for place in places:
        print(f"     {place}")


def lines(pattern):
    found = []
    for name, text in FILES:
        for number, line in enumerate(text.split("\n"), 1):
            if re.search(pattern, line) and not line.lstrip().startswith(("//", "ghost use")):
                found.append(f"{name}:{number}: {line.strip()[:100]}")
    return found


def functions():
    """(file, name, parameters as [(name, type)], clauses)"""
    for name, text in FILES:
        for m in re.finditer(r"^ *(?:pub(?:\(crate\))? )?fn (\w+)(?:<[^>]*>)?\((.*?)\)(?= ->|\n| \{)", text, re.M | re.S):
            parameters = re.findall(r"(\w+): ([^,]+?(?:\[[^\]]*\])?)(?:,|$)", m.group(2).strip())
            head = text[m.end():]
            body = re.search(r"^ *\{$|^ *\{ *$", head, re.M)
            yield name, m.group(1), parameters, head[: body.start() if body else 400]


# 1. enums of which a variant carries a value; fields that are flags; numbers for kinds and refusals
enums = []
for name, text in FILES:
    for m in re.finditer(r"enum (\w+) \{(.*?)\n *\}", text, re.S):
        if "(" in re.sub(r"//.*", "", m.group(2)):
            enums.append(f"{name}: enum {m.group(1)}")
show("1a", "enums that carry values", enums)
show("1b", "fields that are an outcome or a flag", lines(r"^ *(pub )?\w+: (Outcome|Untold|Verdict|bool),$"))
show("1c", "numbers for kinds and refusals", lines(r"fn (number|kind|kind_of|purpose_of|gate_of|fault_of|verdict_number)\b|=> \d+,"))

# 2. what differs in a type, a size or a constant
shapes = collections.defaultdict(list)
for name, text in FILES:
    for m in re.finditer(r"struct (\w+)(?:<[^>]*>)? \{(.*?)\n\}", text, re.S):
        fields = re.sub(r"//.*", "", m.group(2))
        shapes[tuple(re.sub(r"\w+", "_", t) for t in re.findall(r": ([^\n]*),", fields))].append(f"{m.group(1)} ({name})")
show("2a", "structs of one shape", [", ".join(v) for k, v in shapes.items() if len(v) > 1])
bodies = collections.defaultdict(list)
for name, text in FILES:
    for m in re.finditer(r"^ *(?:pub(?:\(crate\))? )?fn (\w+)(.*?)^\{\n(.*?)^\}", text, re.M | re.S):
        code = re.sub(r"//.*", "", m.group(3))
        if code.count("\n") >= 5:
            bodies[re.sub(r"\s+", " ", re.sub(r"[A-Za-z_]\w*|\d+", "_", code))].append(f"{m.group(1)} ({name})")
show("2b", "functions whose bodies have one shape", [", ".join(v) for v in bodies.values() if len(v) > 1])
loops = collections.defaultdict(list)
for name, fn, parameters, _ in functions():
    m = re.match(r"(put|read|check)_(\w+?)s$", fn)
    if m:
        loops[m.group(1)].append(f"{fn} ({name})")
show("2c", "one verb over several lists", [f"{k}: " + ", ".join(v) for k, v in loops.items() if len(v) > 1])

# 3. loops
show("3", "while loops", lines(r"^ *while "))

# 4. written by hand: equality, order, copies, conversions, printing
show("4a", "functions of the names of library methods", lines(r"fn (least|same|copy\w*|fill\w*|letter|byte_or_zero|all_below|place_of)\b"))
show("4b", "casts to a narrower type", lines(r" as (u8|u16)\b"))
show("4c", "derives of Clone and Copy alone, or of Drop alone", lines(r"derive\((Clone, Copy|Drop)\)"))

# 5. facts in three contracts or more; parameters that travel together
facts = collections.Counter()
pairs = collections.Counter()
for name, fn, parameters, clauses in functions():
    asked = " ".join(re.findall(r"requires[^{]*\{(.*?)\}\n", clauses + "\n", re.S))
    for word in set(re.findall(r"(?<![\w.])[A-Z]\w+", asked)):
        facts[f"{name.split('/')[1]}: {word}"] += 1
    names = [p for p, _ in parameters if p not in ("rt", "out")]
    for i, a in enumerate(names):
        for b in names[i + 1:]:
            pairs[f"{name.split('/')[1]}: {a}, {b}"] += 1
show("5a", "facts that three functions or more ask", [f"{k} ({v})" for k, v in facts.most_common() if v >= 3])
show("5b", "parameters that travel together in four functions or more", [f"{k} ({v})" for k, v in pairs.most_common() if v >= 4])

# 6. arrays of a fixed length in structs, with or without a count; parallel arrays
show("6", "array fields", lines(r"^ *(pub )?\w+: \[[^;]+; \w+(::\w+)?\],$"))

# 7. switches on a step; function pointers
show("7", "matches on a number or a letter, and function pointers", lines(r"match (kind|words::letter|step|mode)\b|: fn\("))

# 8. answers, and those that cite Rattle's own names
if COMMIT:
    proofs = [n for n in git("ls-tree", "-r", "--name-only", COMMIT, "crates").split() if "/proofs/" in n]
    texts = {n: git("show", f"{COMMIT}:{n}") for n in proofs if n.endswith("Answers.antt")}
else:
    proofs = [n for n in git("ls-files", "-co", "--exclude-standard", "crates").split() if "/proofs/" in n]
    texts = {n: open(n).read() for n in proofs if n.endswith("Answers.antt")}
answers = sum(len(re.findall(r"^(?:pub )?\S+ : goal\.", t, re.M)) for t in texts.values())
own = sum(len(re.findall(r"\b(?:true|false|branch)-raw\b|-\d+-\d+\.given|-arg-\d", t)) for t in texts.values())
print(f"8   answers: {answers}; names of Rattle's own in them: {own}")
