/* What the tests share: a check that goes on, and tables lent with rubbish in and around them. */
#ifndef TEST_H
#define TEST_H

#include <stdio.h>
#include <stdlib.h>
#include <string.h>

#include "shader_reader.h"

static int failures;

#define CHECK(what)                                                      \
    do {                                                                 \
        if (!(what)) {                                                   \
            fprintf(stderr, "%s:%d: %s\n", __FILE__, __LINE__, #what);   \
            failures++;                                                  \
        }                                                                \
    } while (0)

#define LENGTH(array) (sizeof(array) / sizeof *(array))
#define RUBBISH 0xA5A5A5A5u

enum { AROUND = 4 }; /* numbers of rubbish on each side */

typedef struct { uint32_t *memory, *table; size_t room; } lent;

static inline lent lend(size_t room) {
    lent t = {NULL, NULL, room};
    t.memory = malloc((room + 2 * AROUND) * sizeof *t.memory);
    if (!t.memory) exit(2);
    for (size_t i = 0; i < room + 2 * AROUND; i++) t.memory[i] = RUBBISH;
    t.table = t.memory + AROUND;
    return t;
}

/* Whether a lent table has the numbers and zeros behind them, and the rubbish around it stands. */
static inline int holds(lent t, const uint32_t *numbers, size_t count) {
    for (size_t i = 0; i < AROUND; i++) {
        if (t.memory[i] != RUBBISH || t.table[t.room + i] != RUBBISH) return 0;
    }
    for (size_t i = 0; i < t.room; i++) {
        if (t.table[i] != (i < count ? numbers[i] : 0)) return 0;
    }
    return 1;
}

/* The same, and the memory is given back. */
static inline int held(lent t, const uint32_t *numbers, size_t count) {
    int yes = holds(t, numbers, count);
    free(t.memory);
    return yes;
}

static inline const uint8_t *bytes_of(const char *text) { return (const uint8_t *)text; }

/* The exit status of a test. */
static inline int told(const char *name) {
    if (failures) fprintf(stderr, "%s: %d failed\n", name, failures);
    return failures != 0;
}

#endif
