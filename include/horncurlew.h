/*
 * Reed-Muller signatures of a small logic circuit: the proved library, for C.
 *
 * A job holds a circuit of 1 to 8 inputs, up to 64 gates and 1 to 4 outputs, and a list of up to 63 single faults, each
 * with the number, 1 to 63, of the part that is mended for it; several faults may have one part. N is 2 to the power of
 * the number of inputs. Circuit 0 is the good one and has part 0, circuit c is the one with fault c, from 1, and has
 * its part. Outputs number from 0 in the order of the job's fields. An entry, of a signature or of a list, is an index
 * and an output.
 *
 * What a caller owes: a length is the number of elements, not of bytes, that its pointer is lent for; a pointer isn't
 * null unless its length is 0; it is aligned for its elements; and memory that a call may write overlaps nothing else
 * that the call is lent. The library keeps no pointer, has no global state, allocates nothing and has nothing to free;
 * calls from several threads are free of each other.
 *
 * Answers: number is 0 for success, else the number of the refusal, and places that an answer doesn't use are 0. A
 * refused call writes nothing, but for HORNCURLEW_ALIKE, which leaves the spectra in the work. A call that succeeds
 * writes the places that it names, from the start, and no others.
 */
#ifndef HORNCURLEW_H
#define HORNCURLEW_H

#include <stddef.h>
#include <stdint.h>

#ifdef __cplusplus
extern "C" {
#endif

/* The version of this header: raised with every change of the job's layout, of a function, a struct or a number below.
 * Where horncurlew_version() gives another number the library isn't the one that this header declares, and nothing else
 * of it may be called. */
#define HORNCURLEW_VERSION 4

/* The stack that a call needs, in bytes, with its answer: choosing, locating and the report, and any other call.
 * Measured on x86-64 Linux over the largest jobs, and rounded up (rust/differential/tests/stack.rs measures again, and
 * fails where a call needs more). A call needs no other memory than this and what it is lent. */
#define HORNCURLEW_STACK 65536
#define HORNCURLEW_SMALL_STACK 16384

/* The refusals. */
enum {
    HORNCURLEW_BYTES_END = 1,      /* the bytes end inside a field */
    HORNCURLEW_INPUTS = 2,         /* the number of inputs isn't 1 to 8 */
    HORNCURLEW_GATES = 3,          /* more than 64 gates */
    HORNCURLEW_GATE_LINE = 4,      /* a gate reads a line that isn't below its own */
    HORNCURLEW_ONE_LINE = 5,       /* a NOT or BUF with line b other than line a */
    HORNCURLEW_OUTPUT = 6,         /* an output line isn't one of the circuit's */
    HORNCURLEW_FAULT_LINE = 7,     /* a stuck line isn't one of the circuit's, or a bridged line is no input */
    HORNCURLEW_FAULT_PAIR = 8,     /* a stuck fault with b other than a, or a bridge with a not below b */
    HORNCURLEW_SPARE = 9,          /* a spare bit is 1, or a byte follows the end */
    HORNCURLEW_MEMORY = 10,        /* the lent memory is too short */
    HORNCURLEW_CIRCUIT = 11,       /* the circuit number is over the number of faults */
    HORNCURLEW_TABLE = 12,         /* a packed table of the wrong length, or with a spare bit 1 */
    HORNCURLEW_POLARITY = 13,      /* the polarity isn't below N */
    HORNCURLEW_NO_SPECTRUM = 14,   /* not exactly N numbers, or numbers that are no table's spectrum */
    HORNCURLEW_ALIKE = 15,         /* two circuits that must be told apart have equal tables at every output */
    HORNCURLEW_INDEX = 16,         /* an index isn't below N */
    HORNCURLEW_READINGS = 17,      /* the numbers of indices, outputs and readings differ */
    HORNCURLEW_FAULTS = 18,        /* a record with more than 63 faults; no call here takes a record */
    HORNCURLEW_LOOSE_GATE = 19,    /* a loose gate: its line is no output, nor does any output depend on it */
    HORNCURLEW_OUTPUT_NUMBER = 20, /* an output number that is too high; a record's outputs that aren't 1 to 4 */
    HORNCURLEW_PART = 21           /* a fault's part isn't 1 to 63 */
};

/* A kind of spectrum: Reed-Muller (sums modulo 2) or, any number but 0, modified Reed-Muller (plain sums). */
enum { HORNCURLEW_RM = 0, HORNCURLEW_MRM = 1 };

/* What a signature tells apart: every two circuits whose parts differ or, any number but 0, the good circuit and each
 * faulty one. Faults of one part need no telling apart, equal or not. */
enum { HORNCURLEW_ISOLATING = 0, HORNCURLEW_DETECTING = 1 };

/* The most outputs of a job. */
#define HORNCURLEW_MOST_OUTPUTS 4

/* The largest room that a call can need, in elements. */
#define HORNCURLEW_LONGEST_JOB 316       /* bytes of a job */
#define HORNCURLEW_LARGEST_TABLE 32      /* bytes of a packed table */
#define HORNCURLEW_MOST_COEFFICIENTS 256 /* numbers of a spectrum */
#define HORNCURLEW_MOST_WORK 65536       /* numbers of the work: 64 circuits of 4 outputs */
#define HORNCURLEW_MOST_ENTRIES 63       /* entries of a signature */
#define HORNCURLEW_LARGEST_REPORT 16736  /* bytes of a report; a report needs them whatever the job */

/* The counts of a job. */
typedef struct {
    size_t number;
    size_t inputs;
    size_t gates;
    size_t outputs;
    size_t faults;
} horncurlew_job_answer;

/* How many bytes were written. */
typedef struct {
    size_t number;
    size_t length;
} horncurlew_length_answer;

/* Under HORNCURLEW_ALIKE the first pair that is alike; on success the counts of the job, and the signature: the first
 * count entries, in the order of taking. Entry i is entry_indices[i] at output entry_outputs[i]. */
typedef struct {
    size_t number;
    size_t first;
    size_t second;
    size_t inputs;
    size_t gates;
    size_t outputs;
    size_t faults;
    size_t count;
    uint16_t entry_indices[HORNCURLEW_MOST_ENTRIES];
    uint16_t entry_outputs[HORNCURLEW_MOST_ENTRIES];
} horncurlew_choice_answer;

/* What was found of the circuits that agree with readings. */
enum {
    HORNCURLEW_NOWHERE = 0, /* no circuit agrees */
    HORNCURLEW_PARTED = 1,  /* one or more agree, and all of them have one part */
    HORNCURLEW_SEVERAL = 2  /* two or more agree, and they have different parts */
};

/* Which of these, in found. Under HORNCURLEW_PARTED the part, 0 if it is the good circuit's, and the lowest circuit
 * that agrees; how many agree isn't told. Under HORNCURLEW_SEVERAL the lowest circuit and how many agree. */
typedef struct {
    size_t number;
    size_t found;
    size_t part;
    size_t circuit;
    size_t agreeing;
} horncurlew_location_answer;

/* Whether a text was written, 1 or 0, and its length. */
typedef struct {
    size_t written;
    size_t length;
} horncurlew_report_answer;

/* Each function is given its refusals in the order in which they are looked for: the answer is the first that applies.
 * "Reading's" are those of horncurlew_check. */

/* HORNCURLEW_VERSION of the library's own header. */
size_t horncurlew_version(void);

/* Whether the bytes are a job, and its counts. Refusals, as the fields come: at each field 1 if the bytes end in it;
 * 2; 3; for each gate 4, 5; for each output 6, before the next is read; 19, before the fault count is read; for each
 * fault, once its four fields are read, 7, 8, 21; after the last field 9. */
horncurlew_job_answer horncurlew_check(const uint8_t *bytes, size_t bytes_length);

/* Reads a job and writes it again to out. Refusals: reading's, 10. */
horncurlew_length_answer horncurlew_rewrite(const uint8_t *bytes, size_t bytes_length, uint8_t *out,
                                            size_t out_length);

/* Writes the packed table of a circuit of a job at an output, (N + 7) / 8 bytes: entry m is bit 7 - m % 8 of byte
 * m / 8. The answer is the number. Refusals: reading's, 11, 20, 10. */
size_t horncurlew_table(const uint8_t *bytes, size_t bytes_length, size_t circuit, size_t output, uint8_t *out,
                        size_t out_length);

/* Writes the N coefficients of a packed table. The answer is the number. Refusals: 2, 12, 13, 10. */
size_t horncurlew_spectrum(size_t inputs, const uint8_t *table, size_t table_length, uint8_t kind, size_t polarity,
                           uint16_t *out, size_t out_length);

/* Writes the packed table that has this spectrum. The answer is the number. Refusals: 2, 13, 14, 10. */
size_t horncurlew_undo(size_t inputs, const uint16_t *numbers, size_t numbers_length, uint8_t kind, size_t polarity,
                       uint8_t *out, size_t out_length);

/* Chooses the signature of a job. The work needs N places for each output of each circuit, and then holds coefficient j
 * of circuit c at an output at place ((c * outputs) + output) * N + j, under HORNCURLEW_ALIKE too. Refusals: reading's,
 * 13, 10, 15. */
horncurlew_choice_answer horncurlew_choose(const uint8_t *bytes, size_t bytes_length, uint8_t purpose, uint8_t kind,
                                           size_t polarity, uint16_t *work, size_t work_length);

/* Finds the circuits of a job whose coefficients at the entries are the readings, in order, and their part where all of
 * them have one. Entry i is indices[i] at output outputs[i]; entries may come in any order and more than once. The work
 * is as in choosing. Refusals: reading's, 13, 16 for any of the indices, 20 for any of the outputs, 17 where the three
 * lengths aren't equal, 10. */
horncurlew_location_answer horncurlew_locate(const uint8_t *bytes, size_t bytes_length, uint8_t kind, size_t polarity,
                                             const uint16_t *indices, size_t indices_length, const uint16_t *outputs,
                                             size_t outputs_length, const uint16_t *readings, size_t readings_length,
                                             uint16_t *work, size_t work_length);

/* Writes the text that the report program prints for these bytes: an isolating signature by MRM at polarity 0, and the
 * readings of each circuit, or the refusal in words, work that is too short among them. No 0 ends the text. With fewer
 * than HORNCURLEW_LARGEST_REPORT bytes of out nothing is written, to the work neither. Refusals, in the text:
 * reading's, 10, 15. */
horncurlew_report_answer horncurlew_report(const uint8_t *bytes, size_t bytes_length, uint16_t *work,
                                           size_t work_length, uint8_t *out, size_t out_length);

#ifdef __cplusplus
}
#endif

#endif
