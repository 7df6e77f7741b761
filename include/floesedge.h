/* Floesedge: translate a model text into a program of records, name its slots, and run it.
 *
 * Link with libfloesedge.a, which tools/native-lib makes: the archive of `rt lib` in crates/floesedge_c. It needs memcpy
 * and memset and nothing else: no allocation, no file, no thread, no state kept between calls. Every call returns. Calls
 * that share no buffer may run at the same time.
 *
 * What is proved of the five functions holds for every content of the buffers: any text, any bytes as a program, any
 * floats. What C hands over is checked by nothing. The caller sees to it that
 *   - each pointer is valid for its length, counted in elements, for the whole call: readable where it is const,
 *     readable and writable otherwise;
 *   - each pointer is aligned for its type, so values and derivs as a double is;
 *   - no pointer is null, also where the length is 0 (point at any object; nothing is read or written there);
 *   - a buffer that is written to overlaps no other buffer of the same call;
 *   - nobody else writes to the buffers, and nobody reads what may be written, until the call has returned;
 *   - no buffer is larger than PTRDIFF_MAX bytes;
 *   - rounding is to nearest, and subnormal numbers are not flushed to 0, as every C program starts;
 *   - there is stack: 512 KiB for floesedge_translate and floesedge_names, 16 KiB for the others. Measured on x86-64 with
 *     an older kit, rattle-kit-5b, and with what a thread takes to begin: 400 KiB for translating a text of over 256
 *     bytes, 42 KiB for a shorter one, and 16 KiB more for its names; under 6 KiB for the others. */
#ifndef FLOESEDGE_H
#define FLOESEDGE_H

#include <stddef.h>
#include <stdint.h>

#ifdef __cplusplus
extern "C" {
#endif

/* ---- sizes */

enum {
    FLOESEDGE_FAULT_ROOM = 4096,    /* bytes to lend for the fault list; fewer is verdict 1 */
    FLOESEDGE_PROGRAM_ROOM = 65536, /* bytes that hold every program: 4,096 records */
    FLOESEDGE_NAMES_ROOM = 16368,   /* bytes that hold the names of every text: 1,023 entries */
    FLOESEDGE_SLOTS = 1024,         /* places to lend in values and in derivs; fewer is answer 1 */
    FLOESEDGE_RECORD_BYTES = 16,
    FLOESEDGE_FAULT_BYTES = 8,
    FLOESEDGE_NAME_BYTES = 16, /* of an entry: a name with its slot */
    FLOESEDGE_MOST_TEXT_BYTES = 32768,
    FLOESEDGE_MOST_LINES = 1024,
    FLOESEDGE_MOST_STATEMENTS = 512,
    FLOESEDGE_MOST_DEFINITIONS = 1023,
    FLOESEDGE_MOST_RECORDS = 4096
};

/* ---- the verdict of translating, and of naming slots */

enum {
    FLOESEDGE_TRANSLATED = 0,           /* the program is written, or the names; count is its records, or the names */
    FLOESEDGE_FAULT_LIST_SHORT = 1,     /* fewer than 4,096 bytes lent for the fault list */
    FLOESEDGE_TEXT_TOO_LONG = 2,        /* over 32,768 bytes */
    FLOESEDGE_TOO_MANY_LINES = 3,       /* over 1,024 */
    FLOESEDGE_TOO_MANY_STATEMENTS = 4,  /* over 512 */
    FLOESEDGE_STATEMENT_FAULTS = 5,     /* the fault list is written (codes 11 to 19), count is its faults */
    FLOESEDGE_TOO_MANY_DEFINITIONS = 6, /* over 1,023, doubles counted */
    FLOESEDGE_MODEL_FAULTS = 7,         /* the fault list is written (codes 21 to 26), count is its faults */
    FLOESEDGE_PROGRAM_TOO_LARGE = 8,    /* over 4,096 records, or over the bytes lent for them divided by 16 */
    FLOESEDGE_NAMES_SHORT = 10          /* of floesedge_names alone: under 16 bytes lent for each name */
};

typedef struct {
    uint32_t number; /* 0 to 8, or 10, as above */
    uint32_t count;  /* records or names for 0, faults for 5 and 7, else 0 */
} floesedge_verdict;

/* ---- faults: 8 bytes each, in line order, every number low byte first
 *
 *   0, 1  the statement's first line, from 1
 *   2     code
 *   3     0
 *   4, 5  the line of the place, from 1
 *   6, 7  the column of the place, from 1; columns count bytes
 *
 * The place is
 *   - for 14 to 18 the first byte of the token at fault, for 14 that byte itself, and for 19 the parenthesis;
 *   - for 11, and for 18 where the statement ends too early, the last byte of the statement's last line, its dots and
 *     spaces included, or column 1 if that line is empty; a comment is no line of the statement;
 *   - for 12, 13 and 21 to 26 the statement's first byte: its first line, column 1, space or not. */

enum {
    FLOESEDGE_FAULT_OPEN_END = 11,         /* the text ends while the statement continues */
    FLOESEDGE_FAULT_TOO_MANY_CARDS = 12,   /* more than 4 lines, comments aside */
    FLOESEDGE_FAULT_LINE_TOO_LONG = 13,    /* one of its lines, comments aside, has more than 72 bytes */
    FLOESEDGE_FAULT_BAD_BYTE = 14,         /* no letter A to Z, digit, point, space or mark */
    FLOESEDGE_FAULT_LONG_NAME = 15,        /* more than 6 characters */
    FLOESEDGE_FAULT_BAD_NUMBER = 16,       /* malformed */
    FLOESEDGE_FAULT_NUMBER_RANGE = 17,     /* too many digits, or a power of ten out of -22 to 22 */
    FLOESEDGE_FAULT_GRAMMAR = 18,          /* no statement of the language */
    FLOESEDGE_FAULT_TOO_DEEP = 19,         /* a seventeenth level of parentheses and calls */
    FLOESEDGE_FAULT_DEFINED_TWICE = 21,    /* defines a name that is already defined */
    FLOESEDGE_FAULT_UNDEFINED = 22,        /* names what nothing defines */
    FLOESEDGE_FAULT_INITIAL = 23,          /* its initial name is no constant */
    FLOESEDGE_FAULT_UNSORTABLE = 24,       /* in a loop without a state, or uses one that is */
    FLOESEDGE_FAULT_UNPAIRED = 25,         /* a PROCED or ENDPRO without its other, or a PROCED inside a block */
    FLOESEDGE_FAULT_INSIDE = 26            /* not allowed inside a block; or an output not set there, or named twice */
};

/* ---- records: 16 bytes each, every number low byte first, unused fields 0
 *
 *   0        kind, 1 to 15
 *   1        0
 *   2, 3     slot, of kinds 1, 2, 4 and 13 to 15
 *   4 to 7   the statement's first line
 *   8 to 15  the bits of a double, of kinds 1, 2 and 3
 *
 * Slot 0 is TIME. The names of the text have 1, 2, .. in the order of their definitions: floesedge_names tells them. */

enum {
    FLOESEDGE_CONSTANT = 1,
    FLOESEDGE_INITIAL = 2,
    FLOESEDGE_PUSH_VALUE = 3,
    FLOESEDGE_PUSH_SLOT = 4,
    FLOESEDGE_ADD = 5,
    FLOESEDGE_SUBTRACT = 6,
    FLOESEDGE_MULTIPLY = 7,
    FLOESEDGE_DIVIDE = 8,
    FLOESEDGE_NEGATE = 9,
    FLOESEDGE_INSW = 10,
    FLOESEDGE_LIMIT = 11,
    FLOESEDGE_COMPAR = 12,
    FLOESEDGE_STORE = 13,
    FLOESEDGE_DERIVATIVE = 14,
    FLOESEDGE_STORE_AGAIN = 15 /* to a slot that kind 13 has set */
};

/* ---- names: an entry of 16 bytes each, in the order of their slots, every number low byte first
 *
 *   0 to 7    the name, filled up with zeros; it has at most 6 bytes, so it can be read as a string of C
 *   8         what it is, 1 to 4
 *   9         0
 *   10, 11    slot; entry i, from 0, has slot i + 1
 *   12 to 15  the first line of the statement that defines it
 *
 * Every name that the text defines has one entry. TIME is slot 0 and has none; the name of a block defines nothing.
 * What a block sets is defined where it is set first. */

enum {
    FLOESEDGE_IS_CONSTANT = 1,
    FLOESEDGE_IS_STATE = 2,
    FLOESEDGE_IS_ASSIGNED = 3, /* by a statement outside blocks, or as an output of a block */
    FLOESEDGE_IS_HIDDEN = 4    /* set inside a block and no output: not known outside */
};

/* ---- the answer of evaluating, starting and stepping */

enum {
    FLOESEDGE_DONE = 0,
    FLOESEDGE_ROOM_SHORT = 1,  /* values or derivs has fewer than 1,024 places */
    FLOESEDGE_BAD_LENGTH = 2,  /* the program is no multiple of 16 bytes, or over 4,096 records */
    FLOESEDGE_BAD_RECORD = 3,  /* record is the number of the first bad one, from 0 */
    FLOESEDGE_BAD_END = 4      /* a value is left on the stack, or a state has no derivative */
};

typedef struct {
    uint32_t number; /* 0 to 4, as above */
    uint32_t record; /* 0 but for 3 */
} floesedge_answer;

/* ---- the functions */

/* Translates a text. Verdict 0 writes the program, 5 and 7 write the fault list, each from the front of its buffer.
 * Bytes past the written part, and the other buffer, stay as they were; any other verdict writes nothing. */
floesedge_verdict floesedge_translate(const uint8_t *text, size_t text_len,
                                      uint8_t *faults, size_t faults_len,
                                      uint8_t *program, size_t program_len);

/* Names the slots of a text. The verdict is that of translating it into FLOESEDGE_PROGRAM_ROOM bytes, and 5 and 7 write
 * the fault list; but where that is 0 and names_len is under 16 times the count of names, it is 10. Verdict 0 writes an
 * entry for each name, from the front of names, and count is that of names and not of records. Bytes past the written
 * part, and the other buffer, stay as they were; any other verdict writes nothing. */
floesedge_verdict floesedge_names(const uint8_t *text, size_t text_len,
                                  uint8_t *faults, size_t faults_len,
                                  uint8_t *names, size_t names_len);

/* For the three below: program_len is the length of the program alone, 16 times its count of records, and not of the
 * buffer it stands in. An answer other than 0 writes nothing. Every program of a verdict 0 is accepted. Places past
 * 1,024 stay as they were. The order of a program's statements is free as far as each stands after all it uses: what
 * moves whole, and that every value stays the same, is in docs/MANUAL.md, 'Putting a program into another order'. */

/* Evaluates: reads slot 0 and the states, writes the constants and the assigned names to values, and each state's
 * derivative to derivs. Other places stay. */
floesedge_answer floesedge_evaluate(const uint8_t *program, size_t program_len,
                                    double *values, size_t values_len,
                                    double *derivs, size_t derivs_len);

/* Starts: writes 0 to slot 0 and its initial value to each state. Other places stay. */
floesedge_answer floesedge_start(const uint8_t *program, size_t program_len,
                                 double *values, size_t values_len,
                                 double *derivs, size_t derivs_len);

/* One Euler step: evaluates, then adds h times its derivative to each state, and h to slot 0. The constants and the
 * assigned names are then those at the start of the step; evaluate to have them at its end. */
floesedge_answer floesedge_step(const uint8_t *program, size_t program_len, double h,
                                double *values, size_t values_len,
                                double *derivs, size_t derivs_len);

#ifdef __cplusplus
}
#endif

#endif
