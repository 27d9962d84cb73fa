/* shader_find_line answers as shader_lookup does, on line tables made at random and on those of sources. */
#include "test.h"

static uint32_t state = 1;

static uint32_t below(uint32_t most) {
    state = state * 1664525u + 1013904223u;
    return (state >> 8) % most;
}

static void same(const uint32_t *lines, size_t count, uint32_t offset) {
    shader_place a = shader_lookup(lines, count, offset), b = shader_find_line(lines, count, offset);
    CHECK(a.refusal == 0 && b.refusal == 0 && a.line == b.line && a.column == b.column);
}

/* Offsets at each line start, beside it, and at the end of numbers. */
static void search_table(const uint32_t *lines, size_t count) {
    for (size_t i = 0; i < count; i++) {
        same(lines, count, lines[i]);
        same(lines, count, lines[i] + 1);
        if (lines[i] > 0) same(lines, count, lines[i] - 1);
    }
    same(lines, count, 4294967295u);
}

static void random_tables(void) {
    static uint32_t lines[300];
    for (int round = 0; round < 2000; round++) {
        size_t count = 1 + below(round < 1000 ? 8 : LENGTH(lines));
        lines[0] = 0;
        for (size_t i = 1; i < count; i++) lines[i] = lines[i - 1] + 1 + below(round % 3 ? 5 : 50000);
        search_table(lines, count);
    }
}

static void tables_of_sources(void) {
    static uint8_t src[200];
    static uint32_t lines[LENGTH(src) + 1];
    for (int round = 0; round < 500; round++) {
        size_t bytes = below(LENGTH(src));
        for (size_t i = 0; i < bytes; i++) src[i] = "\n\rab \\"[below(6)];
        shader_counted c = shader_line_table(src, bytes, lines, LENGTH(lines));
        CHECK(c.refusal == 0 && c.count > 0);
        search_table(lines, c.count);
    }
}

int main(void) {
    random_tables();
    tables_of_sources();
    return told("search");
}
