/* Every function of horncurlew.h in turn, so that neither two fields of an answer nor two arguments of a call can be
 * exchanged unseen: the prover knows them by name, and C by their order. An answer is compared whole, as a text of its
 * fields in the header's order and of the lent memory. In some call of each function every two fields have different
 * values, and the call with two arguments of like type exchanged, those that are lent too, has another answer. */
#include "horncurlew.h"

#include <stdio.h>
#include <string.h>

#define COUNT(array) (sizeof(array) / sizeof *(array))
#define TOLD(...) told(COUNT(((size_t[]){__VA_ARGS__})), (size_t[]){__VA_ARGS__})

enum { JOB = 32, WORK = 112 };

/* Two jobs of 3 inputs, 5 gates, 2 outputs and 6 faults, no two circuits alike; and the first with its fault 2 as
 * fault 6 too. Fault c has part 40 - 5c. */
static const uint8_t first_job[JOB] = {0x30, 0xa8, 0x08, 0x02, 0x04, 0x00, 0x02, 0x0c,
                                       0x82, 0x01, 0x03, 0x04, 0x42, 0x87, 0x18, 0x0e,
                                       0x1e, 0x3c, 0x00, 0x17, 0x80, 0x00, 0x19, 0x43,
                                       0x06, 0x53, 0x02, 0x08, 0xf0, 0x18, 0x32, 0x80};
static const uint8_t second_job[JOB] = {0x30, 0xb0, 0x08, 0x24, 0x04, 0x1c, 0x06, 0x11,
                                        0x85, 0x00, 0x41, 0x01, 0x43, 0x07, 0x18, 0x04,
                                        0x0a, 0x3c, 0x00, 0x17, 0x80, 0x81, 0x19, 0x03,
                                        0x06, 0x52, 0x00, 0x04, 0xf0, 0x00, 0x02, 0x80};
static const uint8_t alike_job[JOB] = {0x30, 0xa8, 0x08, 0x02, 0x04, 0x00, 0x02, 0x0c,
                                       0x82, 0x01, 0x03, 0x04, 0x42, 0x87, 0x18, 0x0e,
                                       0x1e, 0x3c, 0x00, 0x17, 0x80, 0x00, 0x19, 0x43,
                                       0x06, 0x53, 0x02, 0x08, 0xfc, 0x00, 0x12, 0x80};
/* The text of the first job's spectra by MRM at polarity 2, a circuit a line, but for the last circuit. */
#define FIRST_SPECTRA " | 1 1 1 1 2 2 2 2 1 1 1 1 1 1 2 2" \
                      " 1 1 1 1 2 2 2 2 0 0 0 0 0 0 0 0" \
                      " 0 0 0 0 0 0 0 0 0 0 0 0 0 0 1 1" \
                      " 1 2 1 2 2 4 2 4 1 2 1 2 1 2 2 4" \
                      " 1 1 1 1 2 2 2 2 0 0 1 1 0 0 2 2" \
                      " 1 1 1 1 2 2 3 3 0 0 0 0 0 0 0 0"
#define SPECTRA FIRST_SPECTRA " 0 0 0 0 0 0 0 0 1 1 1 1 1 1 2 2"
#define ALIKE_SPECTRA FIRST_SPECTRA " 0 0 0 0 0 0 0 0 0 0 0 0 0 0 1 1"

static char texts[2][40000];
static size_t calls;
static int failed;

/* The text of an answer, in the place of the last but one. */
static char *told(size_t count, const size_t *fields) {
    char *text = texts[calls++ % 2], *end = text;
    for (size_t i = 0; i < count; i++)
        end += sprintf(end, i == 0 ? "%zu" : " %zu", fields[i]);
    return text;
}

/* The same with lent memory. */
static char *bytes_too(char *text, const uint8_t *bytes, size_t count) {
    char *end = text + strlen(text);
    end += sprintf(end, " |");
    for (size_t i = 0; i < count; i++)
        end += sprintf(end, " %02x", bytes[i]);
    return text;
}

static char *numbers_too(char *text, const uint16_t *numbers, size_t count) {
    char *end = text + strlen(text);
    end += sprintf(end, " |");
    for (size_t i = 0; i < count; i++)
        end += sprintf(end, " %d", numbers[i]);
    return text;
}

static void same(const char *what, const char *found, const char *expected) {
    if (strcmp(found, expected) != 0) {
        printf("%s: %s\n  not %s\n", what, found, expected);
        failed = 1;
    }
}

static void other(const char *exchanged, const char *found, const char *without) {
    if (strcmp(found, without) == 0) {
        printf("no other answer with %s exchanged: %s\n", exchanged, found);
        failed = 1;
    }
}

static char *check(const uint8_t *bytes, size_t length) {
    horncurlew_job_answer answer = horncurlew_check(bytes, length);
    return TOLD(answer.number, answer.inputs, answer.gates, answer.outputs, answer.faults);
}

static void test_check(void) {
    same("check", check(first_job, JOB), "0 3 5 2 6");
    same("check refused", check(first_job, 5), "1 0 0 0 0");
}

/* The bytes, and the bytes that stand in the lent memory before. */
static char *rewrite(const uint8_t *bytes, const uint8_t *before, size_t room) {
    uint8_t out[JOB];
    memcpy(out, before, JOB);
    horncurlew_length_answer answer = horncurlew_rewrite(bytes, JOB, out, room);
    return bytes_too(TOLD(answer.number, answer.length), out, 4);
}

static void test_rewrite(void) {
    same("rewrite", rewrite(first_job, second_job, JOB), "0 32 | 30 a8 08 02");
    same("rewrite refused", rewrite(first_job, second_job, JOB - 1), "10 0 | 30 b0 08 24");
    other("bytes and out", rewrite(first_job, second_job, JOB), rewrite(second_job, first_job, JOB));
}

static char *table(const uint8_t *bytes, size_t circuit, size_t output, const uint8_t *before, size_t room) {
    uint8_t out[JOB];
    memcpy(out, before, JOB);
    size_t number = horncurlew_table(bytes, JOB, circuit, output, out, room);
    return bytes_too(TOLD(number), out, 3);
}

static void test_table(void) {
    same("table", table(first_job, 3, 1, second_job, JOB), "0 | 3c b0 08");
    same("table of no circuit", table(first_job, 7, 2, second_job, JOB), "11 | 30 b0 08");
    same("table at no output", table(first_job, 6, 2, second_job, 0), "20 | 30 b0 08");
    other("bytes and out", table(first_job, 3, 1, second_job, JOB), table(second_job, 3, 1, first_job, JOB));
    other("circuit and output", table(first_job, 1, 0, second_job, JOB), table(first_job, 0, 1, second_job, JOB));
    other("circuit and out_length", table(first_job, 3, 0, second_job, 1), table(first_job, 1, 0, second_job, 3));
    other("output and out_length", table(first_job, 3, 0, second_job, 1), table(first_job, 3, 1, second_job, 0));
}

static char *spectrum(size_t inputs, uint8_t kind, size_t polarity) {
    static const uint8_t packed[1] = {0xe0};
    uint16_t out[10] = {7, 7, 7, 7, 7, 7, 7, 7, 7, 7};
    size_t number = horncurlew_spectrum(inputs, packed, 1, kind, polarity, out, 9);
    return numbers_too(TOLD(number), out, 10);
}

static void test_spectrum(void) {
    same("spectrum", spectrum(3, 1, 2), "0 | 1 1 2 3 1 1 2 3 7 7");
    same("spectrum refused", spectrum(3, 1, 8), "13 | 7 7 7 7 7 7 7 7 7 7");
    other("inputs and polarity", spectrum(3, 1, 2), spectrum(2, 1, 3));
    other("inputs and kind", spectrum(3, 1, 2), spectrum(1, 3, 2));
    other("kind and polarity", spectrum(3, 1, 2), spectrum(3, 2, 1));
}

static char *undo(size_t inputs, uint8_t kind, size_t polarity) {
    static const uint16_t numbers[8] = {1, 1, 2, 3, 1, 1, 2, 3};
    uint8_t out[3] = {7, 7, 7};
    size_t number = horncurlew_undo(inputs, numbers, 8, kind, polarity, out, 2);
    return bytes_too(TOLD(number), out, 3);
}

static void test_undo(void) {
    same("undo", undo(3, 1, 2), "0 | e0 07 07");
    same("undo refused", undo(3, 1, 8), "13 | 07 07 07");
    other("inputs and polarity", undo(3, 1, 2), undo(2, 1, 3));
    other("inputs and kind", undo(3, 1, 2), undo(1, 3, 2));
    other("kind and polarity", undo(3, 1, 2), undo(3, 2, 1));
}

static char *choose(const uint8_t *bytes, uint8_t purpose, uint8_t kind, size_t polarity, size_t room) {
    uint16_t work[WORK] = {0};
    horncurlew_choice_answer answer = horncurlew_choose(bytes, JOB, purpose, kind, polarity, work, room);
    char *text = TOLD(answer.number, answer.first, answer.second, answer.inputs, answer.gates, answer.outputs,
                      answer.faults, answer.count);
    numbers_too(text, answer.entry_indices, 5);
    numbers_too(text, &answer.entry_indices[HORNCURLEW_MOST_ENTRIES - 1], 1);
    numbers_too(text, answer.entry_outputs, 5);
    numbers_too(text, &answer.entry_outputs[HORNCURLEW_MOST_ENTRIES - 1], 1);
    return numbers_too(text, work, room);
}

static void test_choose(void) {
    same("choose", choose(first_job, 0, 1, 2, WORK), "0 0 0 3 5 2 6 4 | 0 1 2 6 0 | 0 | 1 0 1 0 0 | 0" SPECTRA);
    same("choose alike", choose(alike_job, 0, 1, 2, WORK),
         "15 2 6 0 0 0 0 0 | 0 0 0 0 0 | 0 | 0 0 0 0 0 | 0" ALIKE_SPECTRA);
    same("choose refused", choose(first_job, 0, 1, 2, 2), "10 0 0 0 0 0 0 0 | 0 0 0 0 0 | 0 | 0 0 0 0 0 | 0 | 0 0");
    other("purpose and kind", choose(first_job, 0, 1, 2, WORK), choose(first_job, 1, 0, 2, WORK));
    other("purpose and polarity", choose(first_job, 0, 1, 2, WORK), choose(first_job, 2, 1, 0, WORK));
    other("kind and polarity", choose(first_job, 0, 1, 2, WORK), choose(first_job, 0, 2, 1, WORK));
}

static char *locate(uint8_t kind, size_t polarity, uint16_t index, uint16_t output, uint16_t reading) {
    uint16_t work[WORK] = {7};
    horncurlew_location_answer answer =
        horncurlew_locate(first_job, JOB, kind, polarity, &index, 1, &output, 1, &reading, 1, work, WORK);
    char *text = TOLD(answer.number, answer.found, answer.part, answer.circuit, answer.agreeing);
    return answer.number == 0 ? numbers_too(text, work, WORK) : numbers_too(text, work, 4);
}

static void test_locate(void) {
    same("locate", locate(0, 2, 2, 1, 0),
         "0 2 0 1 3 | 1 1 1 1 0 0 0 0 1 1 1 1 1 1 0 0 1 1 1 1 0 0 0 0 0 0 0 0 0 0 0 0 0 0 0 0 0 0 0 0 0 0 0 0 0 0 1 1"
         " 1 0 1 0 0 0 0 0 1 0 1 0 1 0 0 0 1 1 1 1 0 0 0 0 0 0 1 1 0 0 0 0 1 1 1 1 0 0 1 1 0 0 0 0 0 0 0 0"
         " 0 0 0 0 0 0 0 0 1 1 1 1 1 1 0 0");
    same("locate a part", locate(1, 2, 7, 1, 4), "0 1 25 3 0" SPECTRA);
    same("locate nothing", locate(1, 2, 7, 1, 5), "0 0 0 0 0" SPECTRA);
    same("locate at no index", locate(1, 2, 8, 2, 4), "16 0 0 0 0 | 7 0 0 0");
    same("locate at no output", locate(1, 2, 7, 2, 4), "20 0 0 0 0 | 7 0 0 0");
    other("kind and polarity", locate(1, 2, 7, 1, 4), locate(2, 1, 7, 1, 4));
    other("indices and outputs", locate(1, 2, 0, 1, 1), locate(1, 2, 1, 0, 1));
    other("indices and readings", locate(1, 2, 7, 1, 4), locate(1, 2, 4, 1, 7));
    other("outputs and readings", locate(1, 2, 7, 1, 0), locate(1, 2, 7, 0, 1));
}

/* The number and what was found by the first so many entries of each list. The lists and the work are of one
 * type, and each is known by its length. */
static char *locate_lengths(size_t indices_length, size_t outputs_length, size_t readings_length, size_t work_length) {
    static const uint16_t indices[3] = {6, 1, 0}, outputs[3] = {0, 1, 0}, readings[3] = {2, 2, 0};
    uint16_t work[WORK];
    horncurlew_location_answer answer = horncurlew_locate(first_job, JOB, 1, 2, indices, indices_length, outputs,
                                                          outputs_length, readings, readings_length, work, work_length);
    char *text = TOLD(answer.number, answer.found, answer.part, answer.circuit, answer.agreeing);
    return answer.number == 0 ? numbers_too(text, work, WORK) : text;
}

static void test_locate_lengths(void) {
    same("locate by two", locate_lengths(2, 2, 2, WORK), "0 1 25 3 0" SPECTRA);
    same("locate with an index more", locate_lengths(3, 2, 2, WORK), "17 0 0 0 0");
    same("locate with an output more", locate_lengths(2, 3, 2, WORK), "17 0 0 0 0");
    same("locate with a reading more", locate_lengths(2, 2, 3, WORK), "17 0 0 0 0");
    same("locate with less work", locate_lengths(2, 2, 2, WORK - 1), "10 0 0 0 0");
}

static char *report(const uint8_t *bytes, const uint8_t *before, size_t work_length, size_t room) {
    static uint8_t out[HORNCURLEW_LARGEST_REPORT];
    uint16_t work[WORK] = {7, 7};
    memcpy(out, before, JOB);
    horncurlew_report_answer answer = horncurlew_report(bytes, JOB, work, work_length, out, room);
    return numbers_too(bytes_too(TOLD(answer.written, answer.length), out, 10), work, 4);
}

static void test_report(void) {
    enum { ROOM = HORNCURLEW_LARGEST_REPORT };
    same("report", report(first_job, second_job, WORK, ROOM), "1 122 | 69 6e 70 75 74 73 20 33 20 67 | 0 0 1 1");
    same("report refused", report(first_job, second_job, WORK - 1, ROOM),
         "1 11 | 72 65 66 75 73 65 64 20 31 30 | 7 7 0 0");
    same("report without room", report(first_job, second_job, WORK, ROOM - 1),
         "0 0 | 30 b0 08 24 04 1c 06 11 85 00 | 7 7 0 0");
    other("bytes and out", report(first_job, second_job, WORK, ROOM), report(second_job, first_job, WORK, ROOM));
}

int main(void) {
    same("version", TOLD(horncurlew_version()), "4");
    same("the header's version", TOLD(HORNCURLEW_VERSION), "4");
    test_check();
    test_rewrite();
    test_table();
    test_spectrum();
    test_undo();
    test_choose();
    test_locate();
    test_locate_lengths();
    test_report();
    return failed;
}
