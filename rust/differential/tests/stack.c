/* How much stack each function of horncurlew.h needs for the job on standard input. A call runs in a thread whose stack
 * was painted; what lies between the caller and the lowest place that lost its paint was needed, the answer included.
 * Prints a line for each function: the bytes that it needed, and those that the header gives it. */
#define _DEFAULT_SOURCE
#include "horncurlew.h"

#include <pthread.h>
#include <stdio.h>
#include <stdlib.h>
#include <string.h>
#include <sys/mman.h>

#define ROOM ((size_t)1 << 20)
#define PAINT UINT64_C(0x5aa5c33c96690ff0)
#define LISTED 300

static uint8_t job[HORNCURLEW_LONGEST_JOB + 1], bytes[HORNCURLEW_LONGEST_JOB], text[HORNCURLEW_LARGEST_REPORT];
static uint8_t table[HORNCURLEW_LARGEST_TABLE];
static uint16_t work[HORNCURLEW_MOST_WORK], numbers[HORNCURLEW_MOST_COEFFICIENTS];
static uint16_t indices[LISTED], outputs[LISTED], readings[LISTED];
static size_t length;

static void version(void) {
    horncurlew_version();
}

static void check(void) {
    horncurlew_check(job, length);
}

static void rewrite(void) {
    horncurlew_rewrite(job, length, bytes, sizeof bytes);
}

static void tables(void) {
    for (size_t circuit = 0; circuit < 65; circuit++)
        for (size_t output = 0; output <= HORNCURLEW_MOST_OUTPUTS; output++)
            horncurlew_table(job, length, circuit, output, table, sizeof table);
}

static void spectrum(void) {
    for (size_t polarity = 0; polarity < 256; polarity += 51)
        for (uint8_t kind = 0; kind < 2; kind++)
            horncurlew_spectrum(8, table, sizeof table, kind, polarity, numbers, HORNCURLEW_MOST_COEFFICIENTS);
}

static void undo(void) {
    for (size_t polarity = 0; polarity < 256; polarity += 51)
        for (uint8_t kind = 0; kind < 2; kind++) {
            horncurlew_spectrum(8, table, sizeof table, kind, polarity, numbers, HORNCURLEW_MOST_COEFFICIENTS);
            horncurlew_undo(8, numbers, HORNCURLEW_MOST_COEFFICIENTS, kind, polarity, bytes, sizeof bytes);
        }
}

static void choose(void) {
    for (uint8_t purpose = 0; purpose < 2; purpose++)
        for (uint8_t kind = 0; kind < 2; kind++)
            for (size_t polarity = 0; polarity < 256; polarity += 51)
                horncurlew_choose(job, length, purpose, kind, polarity, work, HORNCURLEW_MOST_WORK);
}

static void locate(void) {
    for (uint8_t kind = 0; kind < 2; kind++)
        for (size_t polarity = 0; polarity < 256; polarity += 51)
            horncurlew_locate(job, length, kind, polarity, indices, LISTED, outputs, LISTED, readings, LISTED, work,
                              HORNCURLEW_MOST_WORK);
}

static void report(void) {
    horncurlew_report(job, length, work, HORNCURLEW_MOST_WORK, text, sizeof text);
}

static const struct {
    const char *name;
    void (*calls)(void);
    int promised;
} functions[] = {
    {"version", version, HORNCURLEW_SMALL_STACK},   {"check", check, HORNCURLEW_SMALL_STACK},
    {"rewrite", rewrite, HORNCURLEW_SMALL_STACK},   {"table", tables, HORNCURLEW_SMALL_STACK},
    {"spectrum", spectrum, HORNCURLEW_SMALL_STACK}, {"undo", undo, HORNCURLEW_SMALL_STACK},
    {"choose", choose, HORNCURLEW_STACK},           {"locate", locate, HORNCURLEW_STACK},
    {"report", report, HORNCURLEW_STACK},
};

static volatile uintptr_t caller;

static void *run(void *calls) {
    volatile uint8_t here = 0;
    caller = (uintptr_t)&here;
    (*(void (**)(void))calls)();
    return NULL;
}

/* The bytes of stack that the calls needed. */
static size_t needed(void (*calls)(void)) {
    pthread_attr_t attributes;
    pthread_t thread;
    uint64_t *stack = mmap(NULL, ROOM, PROT_READ | PROT_WRITE, MAP_PRIVATE | MAP_ANONYMOUS, -1, 0);
    size_t place = 0;
    if (stack == MAP_FAILED)
        exit(1);
    for (size_t i = 0; i < ROOM / sizeof *stack; i++)
        stack[i] = PAINT;
    if (pthread_attr_init(&attributes) != 0 || pthread_attr_setstack(&attributes, stack, ROOM) != 0 ||
        pthread_create(&thread, &attributes, run, &calls) != 0 || pthread_join(thread, NULL) != 0)
        exit(1);
    while (stack[place] == PAINT)
        place++;
    size_t bytes_needed = caller - (uintptr_t)&stack[place];
    munmap(stack, ROOM);
    return bytes_needed;
}

int main(void) {
    length = fread(job, 1, sizeof job, stdin);
    for (size_t i = 0; i < LISTED; i++) {
        indices[i] = (uint16_t)(i % 2);
        outputs[i] = 0;
        readings[i] = 0;
    }
    for (size_t i = 0; i < sizeof functions / sizeof *functions; i++)
        printf("%s %zu %d\n", functions[i].name, needed(functions[i].calls), functions[i].promised);
    return 0;
}
