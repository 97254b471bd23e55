#!/usr/bin/env python3
"""Spells the repository's own definitions and lemmas as the library spells its own: words in snake case.

usage: python3 tools/respell.py [--list]     at the top, once, right after the port's script

Names that specs/ and proofs/ declare (definitions, lemmas, fields, constructors, what a let or a binder names) and that have a dash
or a capital inside go to snake case; a type or a fact keeps its capital. Where two names would fall together, the lemma gets `_lem`.
Functions of src/, exported names, strings and files of input and output stay. The text of must-fail edits is turned with the rest.
"""
import os
import re
import sys

WORD = r"[A-Za-z][A-Za-z0-9_']*(?:-[A-Za-z0-9_']+)*[₀-₉]*'*"
TOKEN = re.compile(r"(?<![A-Za-z0-9_'\-◌⁻])" + WORD + r"(?![A-Za-z0-9_\-◌])")
LEAVE = {"mul-eq-zero"}


def files(kinds):
    for folder, dirs, names in os.walk("crates"):
        dirs[:] = sorted(d for d in dirs if d not in ("out", "target"))
        for n in sorted(names):
            if n.endswith(kinds):
                yield os.path.join(folder, n)


def walked(path):
    return os.path.basename(path) in ("Proof.antt", "Answers.antt", "Invariants.antt") and "/proofs/" in path and not re.search(r"/proofs/Answers\.antt$", path)


def uncomment(text):
    return re.sub(r"(?m)--(?=\s|$).*$", "", text)


def code(text):
    """A source without its comments and its ghost text."""
    text = re.sub(r"(?m)//.*$", "", text)
    text = re.sub(r"ghost use [^;]*;", "", text)
    return re.sub(r"(?:requires|ensures)\*?[^{;]*\{(?:[^{}]|\{[^{}]*\})*\}", "", text)


def snake(name):
    if name[0].isupper():
        # a fact or a type keeps its capital, also where it begins a lemma's name
        head, dash, rest = name.partition("-")
        return head + dash + rest if not dash else head + "-" + snake(rest)
    out = re.sub(r"(?<=[a-z0-9])([A-Z])", lambda m: "_" + m.group(1).lower(), name)
    return out.replace("-", "_")


def declared(text):
    text = uncomment(text)
    found = set()
    # a declaration or a field at the head of a line
    for m in re.finditer(r"(?m)^[ \t]*(?:(?:pub|abbrev|unfoldable|private|instance)\s+)*(" + WORD + r")(?=[ \t]+:[ \t\n]|[ \t]*[({][^\n=]*\)[ \t]*:|[ \t]+:$)", text):
        found.add(m.group(1))
    # several names of one line, as fields
    for m in re.finditer(r"(?m)^[ \t]*(?:(?:pub|abbrev|unfoldable)\s+)*((?:" + WORD + r"[ \t]+)+):[ \t\n]", text):
        found.update(m.group(1).split())
    for m in re.finditer(r"\blet\s+(" + WORD + r")\s*[:=]", text):
        found.add(m.group(1))
    for m in re.finditer(r"[({]((?:" + WORD + r"\s+)+):\s", text):
        found.update(m.group(1).split())
    for m in re.finditer(r"λ((?:\s+" + WORD + r")+)\.", text):
        found.update(m.group(1).split())
    # a record that is put together, or taken apart by a pattern, names fields of its declaration: no names of its own
    return found


def patterns(text):
    """Variables of patterns, on the left of the equations: tokens of a line up to its = that begins at its head."""
    found = set()
    for m in re.finditer(r"(?m)^[ \t]*(" + WORD + r")((?:[ \t]+[^=\n]*)?)[ \t]=[ \t\n]", uncomment(text)):
        found.update(TOKEN.findall(m.group(2)))
    return found


def main():
    texts = {p: open(p, encoding="utf-8").read() for p in files((".antt", ".rt", ".edit"))}
    own, all_tokens = set(), set()
    for p, t in texts.items():
        if p.endswith(".antt") and not walked(p):
            own |= declared(t)
        all_tokens |= set(TOKEN.findall(t))
    # what a library or the toolchain names: the words of `use` lines of its modules
    library = set()
    for p, t in texts.items():
        if p.endswith(".edit"):
            continue
        for m in re.finditer(r"(?m)^(?:ghost )?use ([^;{\n]*)\.\{([^}]*)\}", t):
            crate = re.match(r"Rattle\.(\w+)\.", m.group(1))
            mine = crate and os.path.isdir(os.path.join("crates", crate.group(1)))
            generated = ".declared." in m.group(1) or ".Statement" in m.group(1) or ".contracts." in m.group(1)
            if not mine or generated:
                library |= set(re.findall(WORD, m.group(2)))
    turn = {}
    for name in own:
        if name in LEAVE or name in library:
            continue
        new = snake(name)
        if new != name:
            turn[name] = new
    # names that fall together
    taken = {}
    for old, new in sorted(turn.items()):
        taken.setdefault(new, []).append(old)
    present = (own | library) - set(turn)
    for new, olds in sorted(taken.items()):
        if len(olds) > 1 or new in present or new in library:
            print(f"together: {new}: {olds}{' and one of that name' if new in present else ''}")
            # the definition has the plain name, written in camel case until now; a lemma of that name gets an ending
            definitions = [o for o in olds if "-" not in o]
            for o in olds:
                if "-" in o:
                    turn[o] = new + "_lem"
            if definitions and new in present and new in own:
                turn[new] = new + "_lem"
            elif definitions and new in library:
                turn[definitions[0]] = new + "_of"
            if not definitions and len(olds) == 1 and new not in present and new not in library:
                turn[olds[0]] = new
    for new in set(turn.values()):
        if list(turn.values()).count(new) > 1 or (new.endswith("_lem") and new in all_tokens):
            print("twice:", new, [o for o in turn if turn[o] == new])
    # a parameter, a field or a constant of the same spelling
    for p, t in texts.items():
        if p.endswith(".rt"):
            words = set(re.findall(r"\b[a-z_][a-z0-9_]*\b", code(t)))
            for old, new in sorted(turn.items()):
                if new in words and re.search(r"(?<![\w-])" + re.escape(old) + r"(?![\w-])", t):
                    print(f"beside: {p}: {old} -> {new}")
    if "--list" in sys.argv:
        for o, n in sorted(turn.items()):
            print(o, n)
        return
    sub = lambda m: turn.get(m.group(0), m.group(0))
    for p, t in texts.items():
        if p.endswith(".rt"):
            # ghost text alone: use lines and clauses
            new = re.sub(r"ghost use [^;]*;", lambda m: TOKEN.sub(sub, m.group(0)), t)
            new = re.sub(r"(?:requires|ensures)\*?(?: \w+)? \{.*\}[ \t]*$", lambda m: TOKEN.sub(sub, m.group(0)), new, flags=re.M)
            new = re.sub(r"(?m)//.*$", lambda m: TOKEN.sub(lambda w: sub(w) if re.search(r"[a-z][A-Z]", w.group(0)) else w.group(0), m.group(0)), new)
            new = re.sub(r"(?ms)^[ \t]*(?:requires|ensures)\*?(?: \w+)? \{$.*?^[ \t]*\}$", lambda m: TOKEN.sub(sub, m.group(0)), new)
        elif p.endswith(".edit"):
            new = t if re.search(r"(?m)^file: src/", t) else TOKEN.sub(sub, t)
        else:
            new = TOKEN.sub(sub, t)
        if new != t:
            open(p, "w", encoding="utf-8").write(new)


main()
