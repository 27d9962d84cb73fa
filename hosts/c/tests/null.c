/* NULL where a length is 0, for every pointer of every call, alone and with the others; a source that is too long is not
 * looked at. */
#include "test.h"

/* The source is NULL or has two bytes, and each table is NULL or long enough, by the bits of a number. */
static void read_lending(unsigned bits) {
    const uint8_t *src = bits & 1 ? NULL : bytes_of("#a");
    lent entries = lend(25), errors = lend(10), lines = lend(1);
    shader_reading r = shader_read(src, src ? 2 : 0, bits & 2 ? NULL : entries.table, bits & 2 ? 0 : 25,
                                   bits & 4 ? NULL : errors.table, bits & 4 ? 0 : 10, bits & 8 ? NULL : lines.table,
                                   bits & 8 ? 0 : 1);
    uint32_t expected = bits & 2            ? SHADER_REFUSAL_ENTRIES
                        : (bits & 4) && src ? SHADER_REFUSAL_ERRORS
                        : bits & 8          ? SHADER_REFUSAL_LINES
                                            : SHADER_REFUSAL_NONE;
    CHECK(r.refusal == expected);
    CHECK(r.entries == (expected ? 0u : src ? 5u : 1u));
    if (expected && !(bits & 2)) CHECK(holds(entries, NULL, 0));
    if (expected && !(bits & 4)) CHECK(holds(errors, NULL, 0));
    if (expected && !(bits & 8)) CHECK(holds(lines, NULL, 0));
    free(entries.memory);
    free(errors.memory);
    free(lines.memory);
}

typedef shader_counted (*counting)(const uint8_t *, size_t, uint32_t *, size_t);

/* A call that fills one table: no source, no table, neither. */
static void count_lending(counting call, uint32_t of_none, uint32_t short_table, uint32_t short_of_none) {
    lent t = lend(30);
    shader_counted c = call(NULL, 0, t.table, 30);
    CHECK(c.refusal == 0 && c.count == of_none);
    c = call(bytes_of("#a"), 2, NULL, 0);
    CHECK(c.refusal == short_table && c.count == 0);
    c = call(NULL, 0, NULL, 0);
    CHECK(c.refusal == short_of_none && c.count == 0);
    c = call(bytes_of("\xFF"), 1, NULL, 0);
    CHECK(c.refusal == SHADER_REFUSAL_UTF8 && c.count == 0);
    c = call(bytes_of("a\xC3"), 2, NULL, 0);
    CHECK(c.refusal == SHADER_REFUSAL_CUT && c.count == 0);
    free(t.memory);
}

static void unescape_lending(void) {
    uint8_t output[2] = {1, 1};
    shader_counted c = shader_unescape(NULL, 0, output, 2);
    CHECK(c.refusal == 0 && c.count == 0 && output[0] == 0 && output[1] == 0);
    c = shader_unescape(bytes_of("a"), 1, NULL, 0);
    CHECK(c.refusal == SHADER_REFUSAL_OUTPUT && c.count == 0);
    c = shader_unescape(bytes_of("\\\n"), 2, NULL, 0);
    CHECK(c.refusal == 0 && c.count == 0);
    c = shader_unescape(NULL, 0, NULL, 0);
    CHECK(c.refusal == 0 && c.count == 0);
    c = shader_unescape(bytes_of("a\xC3"), 2, NULL, 0);
    CHECK(c.refusal == SHADER_REFUSAL_CUT && c.count == 0);
}

static void too_long(void) {
    size_t bytes = SHADER_SOURCE_LIMIT + 1;
    CHECK(shader_read(NULL, bytes, NULL, 0, NULL, 0, NULL, 0).refusal == SHADER_REFUSAL_LENGTH);
    CHECK(shader_define_body(NULL, bytes, NULL, 0).refusal == SHADER_REFUSAL_LENGTH);
    CHECK(shader_tokens(NULL, bytes, NULL, 0).refusal == SHADER_REFUSAL_LENGTH);
    CHECK(shader_line_table(NULL, bytes, NULL, 0).refusal == SHADER_REFUSAL_LENGTH);
    CHECK(shader_unescape(NULL, SIZE_MAX, NULL, 0).refusal == SHADER_REFUSAL_LENGTH);
}

int main(void) {
    for (unsigned bits = 0; bits < 16; bits++) read_lending(bits);
    count_lending(shader_define_body, 1, SHADER_REFUSAL_ENTRIES, SHADER_REFUSAL_ENTRIES);
    count_lending(shader_tokens, 0, SHADER_REFUSAL_ENTRIES, SHADER_REFUSAL_NONE);
    count_lending(shader_line_table, 1, SHADER_REFUSAL_LINES, SHADER_REFUSAL_LINES);
    unescape_lending();
    too_long();
    CHECK(shader_lookup(NULL, 0, 3).refusal == SHADER_REFUSAL_LOOKUP);
    CHECK(shader_find_line(NULL, 0, 3).refusal == SHADER_REFUSAL_LOOKUP);
    CHECK(shader_utf8_error(NULL, 0) == 0);
    return told("null");
}
