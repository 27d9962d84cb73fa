/* Several threads read at once, the same sources into tables of their own: all answers equal those of one thread. */
#include <pthread.h>

#include "test.h"

enum { THREADS = 4, SOURCES = 6, LONGEST = 4000, ENTRY_ROOM = 5 * (2 * LONGEST + 1), ERROR_ROOM = 10 * LONGEST };

typedef struct { uint32_t entries[ENTRY_ROOM], errors[ERROR_ROOM], lines[LONGEST + 1]; } tables;

static uint8_t sources[SOURCES][LONGEST];
static size_t lengths[SOURCES];
static shader_reading answers[SOURCES];
static tables *readings[SOURCES];
static int rounds = 200;

static tables *make_tables(void) {
    tables *t = malloc(sizeof *t);
    if (!t) exit(2);
    memset(t, 0xA5, sizeof *t);
    return t;
}

static shader_reading read_into(int i, tables *t) {
    return shader_read(sources[i], lengths[i], t->entries, ENTRY_ROOM, t->errors, ERROR_ROOM, t->lines, LONGEST + 1);
}

static void make_sources(void) {
    static const char *const pieces[SOURCES] = {
        "#define f(a, b) a ## b\nfloat x = 1.0;\n",
        "#a\n",
        "#if defined(A) && \\\n A > 2\n#else x\n",
        "/* c */ a <<= b; // d\n",
        "#undef\n\n#extension x\n",
        "#define g ##a##b##c\n#version 450 core\n"};
    for (int i = 0; i < SOURCES; i++) {
        size_t piece = strlen(pieces[i]);
        while (lengths[i] + piece <= LONGEST) {
            memcpy(sources[i] + lengths[i], pieces[i], piece);
            lengths[i] += piece;
        }
        readings[i] = make_tables();
        answers[i] = read_into(i, readings[i]);
        CHECK(answers[i].refusal == 0 && answers[i].entries > 100);
    }
}

static int agrees(int i, tables *t) {
    shader_reading a = answers[i], b = read_into(i, t);
    return memcmp(&a, &b, sizeof a) == 0 && memcmp(readings[i], t, sizeof *t) == 0;
}

/* The number of readings that were not as they should be. */
static void *read_all(void *first) {
    tables *t = make_tables();
    size_t wrong = 0;
    for (int i = 0; i < rounds; i++) wrong += !agrees((int)((size_t)first + (size_t)i) % SOURCES, t);
    free(t);
    return (void *)wrong;
}

int main(int argc, char **argv) {
    pthread_t threads[THREADS];
    if (argc > 1) rounds = atoi(argv[1]);
    make_sources();
    for (size_t i = 0; i < THREADS; i++) {
        if (pthread_create(&threads[i], NULL, read_all, (void *)i) != 0) return 2;
    }
    for (size_t i = 0; i < THREADS; i++) {
        void *wrong;
        pthread_join(threads[i], &wrong);
        CHECK(wrong == NULL);
    }
    for (int i = 0; i < SOURCES; i++) free(readings[i]);
    return told("threads");
}
