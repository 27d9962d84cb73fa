/* Prints the rows that are lent for a source, one length after another, if each is refused: rooms.txt. The Rust package
 * is held to the same file. */
#include <stdio.h>

#include "shader_reader.h"

static size_t rows(shader_room room, uint32_t refusal) {
    switch (refusal) {
    case SHADER_REFUSAL_ENTRIES: return room.entries / SHADER_ENTRY_NUMBERS;
    case SHADER_REFUSAL_ERRORS: return room.errors / SHADER_ERROR_NUMBERS;
    default: return room.lines;
    }
}

static void print_rows(size_t bytes, const char *table, uint32_t refusal) {
    shader_room room = shader_room_guess(bytes);
    size_t before, now = rows(room, refusal);
    printf("%zu bytes, %s:", bytes, table);
    do {
        printf(" %zu", before = now);
        room = shader_room_more(room, refusal, bytes);
        now = rows(room, refusal);
    } while (now > before);
    putchar('\n');
}

int main(void) {
    const size_t lengths[] = {0, 1, 10, 300, 3072, 100000, SHADER_SOURCE_LIMIT, SHADER_SOURCE_LIMIT + 1};
    for (size_t i = 0; i < sizeof lengths / sizeof *lengths; i++) {
        print_rows(lengths[i], "entries", SHADER_REFUSAL_ENTRIES);
        print_rows(lengths[i], "errors", SHADER_REFUSAL_ERRORS);
        print_rows(lengths[i], "lines", SHADER_REFUSAL_LINES);
    }
    return 0;
}
