/* Calls every function of horncurlew.h but the report's; ends with 0 if each answers as the documents say of job A. */
#include "horncurlew.h"

#include <stdio.h>
#include <string.h>

static int failed = 0;

static void expect(int holds, const char *what) {
    if (!holds) {
        printf("not so: %s\n", what);
        failed = 1;
    }
}

int main(void) {
    /* An AND of two inputs; line 0 stuck at 0, line 0 at 1, line 1 at 1; fault c has part c. */
    static const uint8_t job[14] = {0x20, 0x20, 0x00, 0x10, 0x10, 0x60, 0x00,
                                    0x00, 0xa0, 0x00, 0x04, 0x81, 0x02, 0x18};
    static const uint8_t alike[9] = {0x20, 0x20, 0x00, 0x10, 0x10, 0x30, 0x00, 0x20, 0x80};
    /* With an OR of its inputs that nobody reads, up to the output line; and with that as a second output. */
    static const uint8_t loose[7] = {0x20, 0x40, 0x00, 0x12, 0x00, 0x08, 0x08};
    static const uint8_t two[17] = {0x20, 0x40, 0x00, 0x12, 0x00, 0x0a, 0x08, 0x18, 0x60,
                                    0x00, 0x00, 0xa0, 0x00, 0x04, 0x81, 0x02, 0x18};
    uint16_t work[32], numbers[8];
    uint8_t out[HORNCURLEW_LONGEST_JOB];

    expect(sizeof(horncurlew_choice_answer) == 320, "size of a choice");

    horncurlew_job_answer counts = horncurlew_check(job, sizeof job);
    expect(counts.number == 0 && counts.inputs == 2 && counts.gates == 1 && counts.faults == 3, "check");
    expect(counts.outputs == 1 && horncurlew_check(two, sizeof two).outputs == 2, "outputs");
    counts = horncurlew_check(NULL, 0);
    expect(counts.number == HORNCURLEW_BYTES_END && counts.inputs == 0, "check of no bytes");
    counts = horncurlew_check(loose, sizeof loose);
    expect(counts.number == HORNCURLEW_LOOSE_GATE && counts.inputs == 0, "check of a loose gate");

    horncurlew_length_answer length = horncurlew_rewrite(job, sizeof job, out, sizeof out);
    expect(length.number == 0 && length.length == 14 && memcmp(job, out, 14) == 0, "rewrite");
    length = horncurlew_rewrite(job, sizeof job, NULL, 0);
    expect(length.number == HORNCURLEW_MEMORY && length.length == 0, "rewrite without room");

    expect(horncurlew_table(job, sizeof job, 3, 0, out, 1) == 0 && out[0] == 0x50, "table");
    expect(horncurlew_table(two, sizeof two, 3, 1, out, 1) == 0 && out[0] == 0xf0, "table at the second output");
    expect(horncurlew_table(job, sizeof job, 4, 1, out, 1) == HORNCURLEW_CIRCUIT, "table of no circuit");
    expect(horncurlew_table(job, sizeof job, 3, 1, out, 1) == HORNCURLEW_OUTPUT_NUMBER, "table at no output");

    static const uint8_t table[1] = {0x5d};
    static const uint16_t spectrum[8] = {1, 2, 2, 3, 2, 3, 4, 5};
    expect(horncurlew_spectrum(3, table, 1, HORNCURLEW_MRM, 5, numbers, 8) == 0, "spectrum");
    expect(memcmp(numbers, spectrum, sizeof spectrum) == 0, "spectrum's numbers");
    expect(horncurlew_undo(3, spectrum, 8, HORNCURLEW_MRM, 5, out, 1) == 0 && out[0] == 0x5d, "undo");
    expect(horncurlew_undo(3, spectrum, 8, HORNCURLEW_RM, 5, out, 1) == HORNCURLEW_NO_SPECTRUM, "undo of another kind");

    horncurlew_choice_answer choice =
        horncurlew_choose(job, sizeof job, HORNCURLEW_ISOLATING, HORNCURLEW_MRM, 0, work, 16);
    expect(choice.number == 0 && choice.inputs == 2 && choice.gates == 1 && choice.faults == 3, "choose");
    expect(choice.outputs == 1 && choice.count == 2, "outputs and length of a signature");
    expect(choice.entry_indices[0] == 1 && choice.entry_indices[1] == 3, "indices of a signature");
    expect(choice.entry_outputs[0] == 0 && choice.entry_outputs[1] == 0, "outputs of a signature");
    for (size_t i = choice.count; i < HORNCURLEW_MOST_ENTRIES; i++)
        expect(choice.entry_indices[i] == 0 && choice.entry_outputs[i] == 0, "unused entries");
    choice = horncurlew_choose(job, sizeof job, HORNCURLEW_DETECTING, HORNCURLEW_RM, 0, work, 16);
    expect(choice.number == 0 && choice.count == 1 && choice.entry_indices[0] == 3, "choose detecting");
    choice = horncurlew_choose(alike, sizeof alike, HORNCURLEW_ISOLATING, HORNCURLEW_MRM, 0, work, 16);
    expect(choice.number == HORNCURLEW_ALIKE && choice.first == 0 && choice.second == 1, "alike");

    static const uint16_t indices[2] = {1, 3}, outputs[2] = {0, 0}, second[2] = {1, 1}, readings[2] = {0, 2};
    horncurlew_location_answer location =
        horncurlew_locate(job, sizeof job, HORNCURLEW_MRM, 0, indices, 2, outputs, 2, readings, 2, work, 16);
    expect(location.number == 0 && location.found == HORNCURLEW_PARTED, "locate");
    expect(location.part == 2 && location.circuit == 2 && location.agreeing == 0, "the part located");
    location = horncurlew_locate(two, sizeof two, HORNCURLEW_MRM, 0, indices, 2, second, 2, readings, 2, work, 32);
    expect(location.number == 0 && location.part == 1 && location.circuit == 1, "locate at the second output");
    location = horncurlew_locate(job, sizeof job, HORNCURLEW_MRM, 0, indices, 2, second, 2, readings, 2, work, 16);
    expect(location.number == HORNCURLEW_OUTPUT_NUMBER && location.found == 0, "locate at no output");
    location = horncurlew_locate(job, sizeof job, HORNCURLEW_MRM, 0, NULL, 0, NULL, 0, NULL, 0, work, 16);
    expect(location.number == 0 && location.found == HORNCURLEW_SEVERAL, "locate by nothing");
    expect(location.agreeing == 4 && location.circuit == 0 && location.part == 0, "circuits that agree with nothing");
    static const uint16_t no_readings[2] = {0, 4};
    location = horncurlew_locate(job, sizeof job, HORNCURLEW_MRM, 0, indices, 2, outputs, 2, no_readings, 2, work, 16);
    expect(location.number == 0 && location.found == HORNCURLEW_NOWHERE, "locate readings that no circuit has");
    return failed;
}
