/* Every call with known answers: tables just long enough, longer, and one number short, all lent with rubbish. */
#include "test.h"

/* The reading of #a, and of #undef, newline, foo, newline. */
static const uint32_t unknown_entries[] = {1, 86, 0, 0, 2, 1, 36, 1, 0, 2, 0, 28, 2,
                                           0, 1,  1, 36, 2, 1, 2, 0, 1, 3, 1, 2};
static const uint32_t unknown_errors[] = {SHADER_SORT_UNKNOWN_DIRECTIVE, 1, 2, 0, 1, 0, 0, 0, 1, 2};
static const uint32_t undef_errors[] = {
    SHADER_SORT_UNEXPECTED, 6, 7, 0, 6, SHADER_KIND_NEWLINE, SHADER_KIND_IDENT_KW, 0, 0, 0,
    SHADER_SORT_EXTRA_TOKENS, 7, 10, 1, 0, 0, 0, 0, 1, 6};
static const uint32_t undef_lines[] = {0, 7, 11};
static const uint32_t first_line[] = {0};

static shader_reading read_text(const char *text, lent entries, lent errors, lent lines) {
    return shader_read(bytes_of(text), strlen(text), entries.table, entries.room, errors.table, errors.room,
                       lines.table, lines.room);
}

static int reading_is(shader_reading r, uint32_t refusal, uint32_t entries, uint32_t errors, uint32_t lines) {
    return r.refusal == refusal && r.entries == entries && r.errors == errors && r.lines == lines;
}

static int counted_is(shader_counted c, uint32_t refusal, uint32_t count) {
    return c.refusal == refusal && c.count == count;
}

static void read_with(size_t entry_room, size_t error_room, size_t line_room, uint32_t refusal) {
    lent entries = lend(entry_room), errors = lend(error_room), lines = lend(line_room);
    shader_reading answer = read_text("#a", entries, errors, lines);
    size_t all = refusal == SHADER_REFUSAL_NONE;
    CHECK(all ? reading_is(answer, 0, 5, 1, 1) : reading_is(answer, refusal, 0, 0, 0));
    CHECK(held(entries, unknown_entries, all * 25));
    CHECK(held(errors, unknown_errors, all * 10));
    CHECK(held(lines, first_line, all * 1));
}

static void test_read(void) {
    read_with(25, 10, 1, SHADER_REFUSAL_NONE);
    read_with(100, 31, 7, SHADER_REFUSAL_NONE);
    read_with(24, 10, 1, SHADER_REFUSAL_ENTRIES);
    read_with(25, 9, 1, SHADER_REFUSAL_ERRORS);
    read_with(25, 10, 0, SHADER_REFUSAL_LINES);
    read_with(0, 0, 0, SHADER_REFUSAL_ENTRIES);
    read_with(25, 0, 0, SHADER_REFUSAL_ERRORS);
}

static void test_errors(void) {
    lent entries = lend(60), errors = lend(25), lines = lend(4);
    CHECK(reading_is(read_text("#undef\nfoo\n", entries, errors, lines), 0, 10, 2, 3));
    CHECK(held(errors, undef_errors, 20));
    CHECK(held(lines, undef_lines, 3));
    free(entries.memory);
}

/* a##b: PP_DEFINE_BODY, PP_CONCAT, and three leaves. */
static void test_define_body(void) {
    static const uint32_t entries[] = {1, 66, 0, 0, 4, 1, 59, 1, 0, 4, 0, 1, 2, 0, 1, 0, 58, 2, 1, 3, 0, 1, 2, 3, 4};
    lent exact = lend(25), longer = lend(31), shorter = lend(24);
    CHECK(counted_is(shader_define_body(bytes_of("a##b\nc"), 6, exact.table, 25), 0, 5));
    CHECK(counted_is(shader_define_body(bytes_of("a##b"), 4, longer.table, 31), 0, 5));
    CHECK(counted_is(shader_define_body(bytes_of("a##b"), 4, shorter.table, 24), SHADER_REFUSAL_ENTRIES, 0));
    CHECK(held(exact, entries, 25));
    CHECK(held(longer, entries, 25));
    CHECK(held(shorter, entries, 0));
}

static void test_tokens(void) {
    static const uint32_t tokens[] = {SHADER_KIND_LEFT_OP, 0, 2, SHADER_KIND_LANGLE, 2, 3, SHADER_KIND_LINECONT, 3, 5};
    lent exact = lend(9), longer = lend(20), shorter = lend(8);
    CHECK(counted_is(shader_tokens(bytes_of("<<<\\\n"), 5, exact.table, 9), 0, 3));
    CHECK(counted_is(shader_tokens(bytes_of("<<<\\\n"), 5, longer.table, 20), 0, 3));
    CHECK(counted_is(shader_tokens(bytes_of("<<<\\\n"), 5, shorter.table, 8), SHADER_REFUSAL_ENTRIES, 0));
    CHECK(held(exact, tokens, 9));
    CHECK(held(longer, tokens, 9));
    CHECK(held(shorter, tokens, 0));
}

static void test_line_table(void) {
    static const uint32_t starts[] = {0, 2, 3};
    lent exact = lend(3), longer = lend(9), shorter = lend(2);
    CHECK(counted_is(shader_line_table(bytes_of("\n\r\n"), 3, exact.table, 3), 0, 3));
    CHECK(counted_is(shader_line_table(bytes_of("\n\r\n"), 3, longer.table, 9), 0, 3));
    CHECK(counted_is(shader_line_table(bytes_of("\n\r\n"), 3, shorter.table, 2), SHADER_REFUSAL_LINES, 0));
    CHECK(held(exact, starts, 3));
    CHECK(held(longer, starts, 3));
    CHECK(held(shorter, starts, 0));
}

static void unescape_with(size_t room, uint32_t refusal) {
    uint8_t output[12];
    memset(output, 0xA5, sizeof output);
    shader_counted answer = shader_unescape(bytes_of("a\\\r\nb\\c"), 7, output + 1, room);
    CHECK(counted_is(answer, refusal, refusal ? 0 : 4));
    for (size_t i = 0; i < room; i++) CHECK(output[1 + i] == (refusal || i >= 4 ? 0 : "ab\\c"[i]));
    CHECK(output[0] == 0xA5 && output[1 + room] == 0xA5);
}

static void test_lookup(void) {
    static const uint32_t starts[] = {0, 7, 11}, falls[] = {0, 7, 7}, late[] = {1, 7};
    shader_place at = shader_lookup(starts, 3, 10), past = shader_lookup(starts, 3, 4294967295u);
    CHECK(at.refusal == 0 && at.line == 1 && at.column == 3);
    CHECK(past.refusal == 0 && past.line == 2 && past.column == 4294967295u - 11);
    at = shader_lookup(falls, 3, 10);
    CHECK(at.refusal == SHADER_REFUSAL_LOOKUP && at.line == 0 && at.column == 0);
    CHECK(shader_lookup(late, 2, 10).refusal == SHADER_REFUSAL_LOOKUP);
}

static int pasted_is(uint32_t lhs, uint32_t rhs, uint32_t refusal, uint32_t kind) {
    shader_pasted p = shader_paste(lhs, rhs);
    return p.refusal == refusal && p.kind == kind;
}

static void test_paste(void) {
    CHECK(pasted_is(SHADER_KIND_IDENT_KW, SHADER_KIND_DIGITS, 0, SHADER_KIND_IDENT_KW));
    CHECK(pasted_is(SHADER_KIND_LEFT_OP, SHADER_KIND_EQUAL, 0, SHADER_KIND_LEFT_ASSIGN));
    CHECK(pasted_is(SHADER_KIND_LANGLE, SHADER_KIND_LE_OP, 0, SHADER_KIND_ERROR));
    CHECK(pasted_is(SHADER_KIND_ROOT, SHADER_KIND_ROOT, 0, SHADER_KIND_ERROR));
    CHECK(pasted_is(0, 1, SHADER_REFUSAL_KIND, 0) && pasted_is(1, 0, SHADER_REFUSAL_KIND, 0));
    CHECK(pasted_is(SHADER_KIND_LINECONT, 1, SHADER_REFUSAL_KIND, 0));
    CHECK(pasted_is(1, SHADER_KIND_ROOT + 1, SHADER_REFUSAL_KIND, 0));
}

/* Refusals of every call on a source: that answer, and zeros in all tables. */
static void refused(const uint8_t *src, size_t bytes, uint32_t refusal) {
    lent a = lend(9), b = lend(9), c = lend(9), d = lend(9), e = lend(9), f = lend(9);
    uint8_t output[4] = {1, 1, 1, 1};
    CHECK(reading_is(shader_read(src, bytes, a.table, 9, b.table, 9, c.table, 9), refusal, 0, 0, 0));
    CHECK(counted_is(shader_define_body(src, bytes, d.table, 9), refusal, 0));
    CHECK(counted_is(shader_tokens(src, bytes, e.table, 9), refusal, 0));
    CHECK(counted_is(shader_line_table(src, bytes, f.table, 9), refusal, 0));
    CHECK(counted_is(shader_unescape(src, bytes, output, 3), refusal, 0));
    CHECK(held(a, NULL, 0) && held(b, NULL, 0) && held(c, NULL, 0) && held(d, NULL, 0) && held(e, NULL, 0));
    CHECK(held(f, NULL, 0) && output[0] == 0 && output[1] == 0 && output[2] == 0 && output[3] == 1);
}

/* One ## more than a body may hold, and as many as it may. */
static void test_concats(void) {
    static char text[16 + 2 * (SHADER_CONCAT_LIMIT + 1)];
    lent entries = lend(2000), errors = lend(9), lines = lend(9);
    strcpy(text, "#define a ");
    for (int i = 0; i <= SHADER_CONCAT_LIMIT; i++) strcat(text, "##");
    CHECK(reading_is(read_text(text, entries, errors, lines), SHADER_REFUSAL_CONCATS, 0, 0, 0));
    CHECK(counted_is(shader_define_body(bytes_of(text + 10), strlen(text + 10), entries.table, 2000), 3, 0));
    strcat(text, "\xC3"); /* 10 is checked before 3 */
    CHECK(reading_is(read_text(text, entries, errors, lines), SHADER_REFUSAL_CUT, 0, 0, 0));
    text[strlen(text) - 1] = 0;
    CHECK(held(errors, NULL, 0) && held(lines, NULL, 0) && held(entries, NULL, 0));
    entries = lend(5 * 600);
    CHECK(counted_is(shader_define_body(bytes_of(text + 12), strlen(text + 12), entries.table, entries.room), 0, 513));
    free(entries.memory);
}

/* A text and what ends it, in memory that is just as long: where it stops being UTF-8, and why it is refused. The text
 * is of whole characters unless its length is 5 n + 3. */
static void refused_behind(size_t text, const char *end, size_t bytes, uint32_t refusal) {
    uint8_t *src = malloc(text + bytes);
    if (!src) exit(2);
    for (size_t i = 0; i < text; i++) src[i] = (uint8_t)"a\n\xC3\xA4 "[i % 5];
    memcpy(src + text, end, bytes);
    refused(src, text + bytes, refusal);
    CHECK(shader_utf8_error(src, text + bytes) == text);
    free(src);
}

/* The first bytes of a character, alone and behind texts; the same before a bad byte. */
static void cut_behind(const char *character, size_t bytes) {
    char bad[4];
    memcpy(bad, character, bytes);
    bad[bytes] = '\xFF';
    for (size_t text = 0; text < 200; text++) {
        if (text % 5 == 3) continue;
        refused_behind(text, character, bytes, SHADER_REFUSAL_CUT);
        refused_behind(text, bad, bytes + 1, SHADER_REFUSAL_UTF8);
    }
}

static void test_cut(void) {
    static const char *const characters[] = {"\xC2\x80",         "\xDF\xBF",         "\xE0\xA0\x80",
                                             "\xE9\x80\xBF",     "\xED\x9F\xBF",     "\xEF\xBF\xBF",
                                             "\xF0\x90\x80\x80", "\xF1\x80\xBF\x80", "\xF4\x8F\xBF\xBF"};
    for (size_t i = 0; i < LENGTH(characters); i++) {
        for (size_t bytes = 1; bytes < strlen(characters[i]); bytes++) cut_behind(characters[i], bytes);
    }
}

/* Bytes that begin no character, at the end too, and bytes that don't go on with it. */
static void test_bad(void) {
    static const char *const ends[] = {"\x80",     "\xBF",     "\xC0",     "\xC1",     "\xF5",         "\xFF",
                                       "\xE0\x80", "\xE0\x9F", "\xED\xA0", "\xF0\x80", "\xF0\x8F",     "\xF4\x90",
                                       "\xFF\xC3", "\xC3\xC3", "\xE9 ",    "\xE9\xE9", "\xED\xA0\x80", "\xF0\x9F\xC3"};
    for (size_t i = 0; i < LENGTH(ends); i++) {
        refused_behind(0, ends[i], strlen(ends[i]), SHADER_REFUSAL_UTF8);
        refused_behind(65, ends[i], strlen(ends[i]), SHADER_REFUSAL_UTF8);
    }
}

int main(void) {
    test_read();
    test_errors();
    test_define_body();
    test_tokens();
    test_line_table();
    for (size_t room = 0; room < 10; room++) unescape_with(room, room < 4 ? SHADER_REFUSAL_OUTPUT : 0);
    test_lookup();
    test_paste();
    test_concats();
    test_cut();
    test_bad();
    uint8_t *longest = calloc(SHADER_SOURCE_LIMIT + 1, 1);
    if (!longest) return 2;
    longest[SHADER_SOURCE_LIMIT] = 0xC3; /* 1 is checked before 10 */
    refused(longest, SHADER_SOURCE_LIMIT + 1, SHADER_REFUSAL_LENGTH);
    longest[SHADER_SOURCE_LIMIT - 1] = 0xC3;
    refused(longest, SHADER_SOURCE_LIMIT, SHADER_REFUSAL_CUT);
    free(longest);
    return told("calls");
}
