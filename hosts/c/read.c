/* Prints the reading of a file, of any length, or its tokens, each with its text.
 *
 *     cc -O2 -Iinclude hosts/c/read.c build/libshader_reader.a -o build/read
 *     build/read listing FILE
 *     build/read tokens FILE
 *
 * - is standard input. The exit status is 0, or 1 where the source is refused, or 2 where the file can't be read or the
 * listing can't be written.
 */
#include <errno.h>
#include <stdio.h>
#include <stdlib.h>
#include <string.h>

#include "shader_reader.h"

typedef struct { uint8_t *bytes; size_t count; } source;
typedef struct { shader_reading answer; uint32_t *entries, *errors, *lines; } reading;

static void stop(const char *what, const char *why) {
    fprintf(stderr, "%s: %s\n", what, why);
    exit(2);
}

static void *or_stop(void *memory) {
    if (!memory) stop("read", "no memory is left");
    return memory;
}

/* A longer table in place of a shorter one. The old numbers aren't needed, and an empty table has no memory. */
static uint32_t *table(uint32_t *old, size_t room) {
    free(old);
    return room ? or_stop(malloc(room * sizeof *old)) : NULL;
}

/* The file up to one byte more than the longest source, which is enough to be refused. */
static source whole_file(const char *name) {
    FILE *file = strcmp(name, "-") == 0 ? stdin : fopen(name, "rb");
    if (!file) stop(name, strerror(errno));
    source src = {NULL, 0};
    size_t room = 0, got = 1;
    while (got > 0 && src.count <= SHADER_SOURCE_LIMIT) {
        if (src.count == room) {
            room = room ? 2 * room : 65536;
            src.bytes = or_stop(realloc(src.bytes, room));
        }
        got = fread(src.bytes + src.count, 1, room - src.count, file);
        src.count += got;
    }
    if (ferror(file)) stop(name, strerror(errno));
    fclose(file);
    return src;
}

/* The reading, over tables that grow until they are long enough. */
static reading read_source(source src) {
    shader_room room = shader_room_guess(src.count);
    reading got = {{0, 0, 0, 0}, table(NULL, room.entries), table(NULL, room.errors), table(NULL, room.lines)};
    for (;;) {
        got.answer = shader_read(src.bytes, src.count, got.entries, room.entries, got.errors, room.errors, got.lines,
                                 room.lines);
        shader_room more = shader_room_more(room, got.answer.refusal, src.count);
        if (more.entries != room.entries) got.entries = table(got.entries, more.entries);
        else if (more.errors != room.errors) got.errors = table(got.errors, more.errors);
        else if (more.lines != room.lines) got.lines = table(got.lines, more.lines);
        else return got;
        room = more;
    }
}

static void print_row(const char *word, const uint32_t *row, size_t numbers) {
    fputs(word, stdout);
    for (size_t i = 0; i < numbers; i++) printf(",%u", (unsigned)row[i]);
    putchar('\n');
}

static uint32_t print_listing(source src) {
    reading got = read_source(src);
    shader_reading answer = got.answer;
    print_row("answer", (uint32_t[]){answer.refusal, answer.entries, answer.errors, answer.lines}, 4);
    for (size_t i = 0; i < answer.entries; i++) {
        const uint32_t *row = got.entries + SHADER_ENTRY_NUMBERS * i;
        const char *word = row[SHADER_ENTRY_FORM] == SHADER_FORM_LEAF ? "leaf" : "node";
        print_row(word, row + SHADER_ENTRY_KIND, SHADER_ENTRY_NUMBERS - 1);
    }
    for (size_t i = 0; i < answer.errors; i++) {
        print_row("error", got.errors + SHADER_ERROR_NUMBERS * i, SHADER_ERROR_NUMBERS);
    }
    for (size_t i = 0; i < answer.lines; i++) print_row("line", got.lines + i, 1);
    free(got.entries);
    free(got.errors);
    free(got.lines);
    return answer.refusal;
}

static void print_text(const uint8_t *bytes, size_t count) {
    for (size_t i = 0; i < count; i++) {
        int plain = bytes[i] >= 32 && bytes[i] <= 126;
        printf(plain ? "%c" : "\\x%02x", bytes[i]);
    }
}

static uint32_t print_tokens(source src) {
    size_t room = src.count <= SHADER_SOURCE_LIMIT ? SHADER_TOKEN_NUMBERS * src.count : 0;
    uint32_t *tokens = table(NULL, room);
    shader_counted answer = shader_tokens(src.bytes, src.count, tokens, room);
    for (size_t i = 0; i < answer.count; i++) {
        shader_token token = shader_token_at(tokens, i);
        printf("%u,%u,%u,", (unsigned)token.kind, (unsigned)token.start, (unsigned)token.end);
        print_text(src.bytes + token.start, token.end - token.start);
        putchar('\n');
    }
    if (answer.refusal) printf("refused: %u\n", (unsigned)answer.refusal);
    free(tokens);
    return answer.refusal;
}

/* Why a source is refused, and where it stops being UTF-8 if that is why. */
static void print_refusal(const char *name, source src, uint32_t refusal) {
    size_t at = shader_utf8_error(src.bytes, src.count);
    fprintf(stderr, "%s: refused: %s", name, shader_refusal_text(refusal));
    if (refusal == SHADER_REFUSAL_UTF8) fprintf(stderr, ": byte 0x%02X at offset %zu", src.bytes[at], at);
    if (refusal == SHADER_REFUSAL_CUT) fprintf(stderr, ", the character begins at offset %zu", at);
    fputc('\n', stderr);
}

int main(int argc, char **argv) {
    int listing = argc == 3 && strcmp(argv[1], "listing") == 0;
    if (!listing && !(argc == 3 && strcmp(argv[1], "tokens") == 0)) {
        fputs("usage: read listing FILE\n       read tokens FILE\n", stderr);
        return 2;
    }
    source src = whole_file(argv[2]);
    uint32_t refusal = listing ? print_listing(src) : print_tokens(src);
    if (refusal) print_refusal(argv[2], src, refusal);
    free(src.bytes);
    if (fflush(stdout) != 0 || ferror(stdout)) stop("standard output", "it can't be written");
    return refusal != 0;
}
