/* Runs a deck: translates it, names its slots, starts it, and steps it with Euler's method.
 *
 *   run DECK H STEPS [EVERY [NAME...]]
 *
 * Prints a line for every EVERY-th time (1 if not given): TIME and the named slots, or all of them. Exit status: 0; 1
 * if the deck is refused, with the verdict and the faults with their places on standard error; 2 for a bad call or a
 * file that can't be read. */
#include <stdio.h>
#include <stdlib.h>
#include <string.h>

#include "floesedge.h"

static uint8_t text[FLOESEDGE_MOST_TEXT_BYTES + 1]; /* one more, so that a longer text is seen to be so */
static uint8_t faults[FLOESEDGE_FAULT_ROOM];
static uint8_t program[FLOESEDGE_PROGRAM_ROOM];
static uint8_t names[FLOESEDGE_NAMES_ROOM];
static double values[FLOESEDGE_SLOTS];
static double derivs[FLOESEDGE_SLOTS];

/* The name of a slot, as its entry has it; it ends with a zero. */
static const char *name_of(size_t slot) {
    return slot == 0 ? "TIME" : (const char *)(names + (slot - 1) * FLOESEDGE_NAME_BYTES);
}

/* The slot of a name, or -1. */
static int slot_of(const char *name, size_t slots) {
    for (size_t s = 0; s < slots; s++)
        if (strcmp(name_of(s), name) == 0) return (int)s;
    return -1;
}

static int is_number(const char *word, double *out) {
    char *end;
    *out = strtod(word, &end);
    return end != word && *end == '\0';
}

static int is_whole(const char *word, long least, long *out) {
    char *end;
    *out = strtol(word, &end, 10);
    return end != word && *end == '\0' && *out >= least;
}

static int two_bytes(const uint8_t *low) { return low[0] + 256 * low[1]; }

/* Places as compilers write them, DECK:LINE:COLUMN, so that an editor can jump there. */
static void print_refusal(const char *deck, floesedge_verdict v) {
    fprintf(stderr, "%s: verdict %u\n", deck, (unsigned)v.number);
    for (uint32_t i = 0; i < v.count; i++) {
        const uint8_t *f = faults + i * FLOESEDGE_FAULT_BYTES;
        int statement = two_bytes(f), line = two_bytes(f + 4), column = two_bytes(f + 6);
        fprintf(stderr, "%s:%d:%d: fault %d, statement of line %d\n", deck, line, column, f[2], statement);
    }
}

int main(int argc, char **argv) {
    if (argc < 4) {
        fprintf(stderr, "usage: run DECK H STEPS [EVERY [NAME...]]\n");
        return 2;
    }
    double h;
    long steps, every = 1;
    if (!is_number(argv[2], &h) || !is_whole(argv[3], 0, &steps) || (argc > 4 && !is_whole(argv[4], 1, &every))) {
        fprintf(stderr, "run: H is a number, STEPS a whole number from 0, EVERY a whole number from 1\n");
        return 2;
    }
    FILE *deck = fopen(argv[1], "rb");
    if (deck == NULL) {
        perror(argv[1]);
        return 2;
    }
    size_t text_len = fread(text, 1, sizeof text, deck);
    if (ferror(deck)) {
        perror(argv[1]);
        return 2;
    }
    fclose(deck);

    floesedge_verdict v = floesedge_translate(text, text_len, faults, sizeof faults, program, sizeof program);
    if (v.number != FLOESEDGE_TRANSLATED) {
        print_refusal(argv[1], v);
        return 1;
    }
    size_t program_len = (size_t)v.count * FLOESEDGE_RECORD_BYTES;

    /* a text that is translated has its names, for which there is room */
    floesedge_verdict named = floesedge_names(text, text_len, faults, sizeof faults, names, sizeof names);
    size_t slots = (size_t)named.count + 1;

    /* the columns: TIME, then the names given, or all */
    int columns[FLOESEDGE_SLOTS] = {0};
    size_t width = 1;
    if (argc > 5) {
        for (int i = 5; i < argc && width < FLOESEDGE_SLOTS; i++) {
            columns[width] = slot_of(argv[i], slots);
            if (columns[width++] < 0) {
                fprintf(stderr, "run: the deck defines no %s\n", argv[i]);
                return 2;
            }
        }
    } else {
        for (; width < slots; width++) columns[width] = (int)width;
    }
    for (size_t i = 0; i < width; i++) printf("%12s%s", name_of((size_t)columns[i]), i + 1 < width ? " " : "\n");

    /* a program of a verdict 0 is never refused, so the answers need no look */
    floesedge_start(program, program_len, values, FLOESEDGE_SLOTS, derivs, FLOESEDGE_SLOTS);
    for (long n = 0;; n++) {
        if (n % every == 0) {
            floesedge_evaluate(program, program_len, values, FLOESEDGE_SLOTS, derivs, FLOESEDGE_SLOTS);
            for (size_t i = 0; i < width; i++) printf("%12.7g%s", values[columns[i]], i + 1 < width ? " " : "\n");
        }
        if (n == steps) break;
        floesedge_step(program, program_len, h, values, FLOESEDGE_SLOTS, derivs, FLOESEDGE_SLOTS);
    }
    return 0;
}
