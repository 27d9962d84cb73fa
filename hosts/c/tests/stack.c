/* How much stack each call takes, on the sources that take most, and that SHADER_STACK_BYTES suffice.
 *
 * A thread fills the stack below its own frame with a pattern and calls; the deepest byte that changed is looked for.
 * Then the call is made on a thread whose stack is SHADER_STACK_BYTES and the least that a thread may have. `stack say`
 * prints what was measured, with the two frames of the test. */
#define _GNU_SOURCE
#include <limits.h>
#include <pthread.h>
#include <sys/mman.h>

#include "test.h"

enum { STACK = 160 * 1024, OWN = 256, PATTERN = 0x5A, ROOM = 40000 };

typedef enum { READ, BODY, TOKENS, LINES, UNESCAPE, LOOKUP, PASTE, CALLS } which;
static const char *const names[CALLS] = {
    "shader_read",     "shader_define_body", "shader_tokens", "shader_line_table",
    "shader_unescape", "shader_lookup",      "shader_paste"};

static uint32_t entries[ROOM], errors[ROOM], lines[ROOM];
static uint8_t output[ROOM];

typedef struct {
    which call;
    const uint8_t *src;
    size_t bytes;
    unsigned char *low; /* where the stack ends */
    size_t depth;
    uint32_t refusal;
} job;

static uint32_t refusal_of(const job *j) {
    switch (j->call) {
    case READ: return shader_read(j->src, j->bytes, entries, ROOM, errors, ROOM, lines, ROOM).refusal;
    case BODY: return shader_define_body(j->src, j->bytes, entries, ROOM).refusal;
    case TOKENS: return shader_tokens(j->src, j->bytes, entries, ROOM).refusal;
    case LINES: return shader_line_table(j->src, j->bytes, lines, ROOM).refusal;
    case UNESCAPE: return shader_unescape(j->src, j->bytes, output, ROOM).refusal;
    case LOOKUP: return shader_lookup(lines, 1, 7).refusal;
    default: return shader_paste(SHADER_KIND_LANGLE, SHADER_KIND_LANGLE).refusal;
    }
}

/* Fills the stack below its frame, calls, and looks how far down it was written. */
static void *measure(void *given) {
    job *j = given;
    unsigned char *frame = __builtin_frame_address(0);
    for (unsigned char *p = j->low; p < frame - OWN; p++) *(volatile unsigned char *)p = PATTERN;
    j->refusal = refusal_of(j);
    unsigned char *deepest = j->low;
    while (deepest < frame - OWN && *(volatile unsigned char *)deepest == PATTERN) deepest++;
    j->depth = (size_t)(frame - deepest);
    return NULL;
}

static void *just_call(void *given) {
    job *j = given;
    j->refusal = refusal_of(j);
    return NULL;
}

/* Runs a job on a thread with a stack of that length, above a page that can't be touched. */
static void run_on(job *j, size_t stack, void *(*body)(void *)) {
    const size_t page = 4096;
    stack = (stack + page - 1) / page * page;
    unsigned char *memory = mmap(NULL, stack + page, PROT_READ | PROT_WRITE, MAP_PRIVATE | MAP_ANONYMOUS, -1, 0);
    pthread_attr_t attributes;
    pthread_t thread;
    if (memory == MAP_FAILED || mprotect(memory, page, PROT_NONE) != 0) exit(2);
    j->low = memory + page;
    pthread_attr_init(&attributes);
    if (pthread_attr_setstack(&attributes, j->low, stack) != 0) exit(2);
    if (pthread_create(&thread, &attributes, body, j) != 0) exit(2);
    pthread_join(thread, NULL);
    pthread_attr_destroy(&attributes);
    munmap(memory, stack + page);
}

static size_t deepest[CALLS];

static void try_source(const char *src) {
    for (int call = 0; call < CALLS; call++) {
        job j = {(which)call, bytes_of(src), strlen(src), NULL, 0, 0};
        run_on(&j, STACK, just_call); /* so that memset is bound */
        run_on(&j, STACK, measure);
        if (j.depth > deepest[call]) deepest[call] = j.depth;
        job k = j;
        run_on(&k, SHADER_STACK_BYTES + PTHREAD_STACK_MIN, just_call);
        CHECK(k.refusal == j.refusal && j.depth <= SHADER_STACK_BYTES);
    }
}

/* A body: its beginning, a piece so many times, its end. */
static void try_body(const char *front, const char *piece, int times, const char *back) {
    static char text[20000];
    strcpy(text, front);
    for (int i = 0; i < times; i++) strcat(text, piece);
    strcat(text, back);
    try_source(text);
}

int main(int argc, char **argv) {
    static const char *const fronts[] = {"#define f", "#define f(a, b", "#if ",    "#include ",
                                         "#pragma ",  "#line ",         "#error ", ""};
    static const char *const pieces[] = {"a##",         "##", "a ## ", "/**/ ## 1.0 \\\n", "(a <<= b) ## ",
                                         "a\\\n ## \"s\" // c \\\n"};
    static const int times[] = {0, 1, 255, 256, 257, 600};
    for (size_t f = 0; f < LENGTH(fronts); f++) {
        for (size_t p = 0; p < LENGTH(pieces); p++) {
            for (size_t t = 0; t < LENGTH(times); t++) try_body(fronts[f], pieces[p], times[t], t % 2 ? " a\n" : "");
        }
    }
    int say = argc > 1 && strcmp(argv[1], "say") == 0;
    for (int call = 0; call < CALLS && say; call++) printf("%s %zu\n", names[call], deepest[call]);
    return told("stack");
}
