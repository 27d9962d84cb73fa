/* Blanks: known answers for vertical tabs; tab, vertical tab, form feed and space are read alike. */
#include "test.h"

#define NODE(kind, level, start, end) SHADER_FORM_NODE, SHADER_KIND_##kind, level, start, end
#define LEAF(kind, level, start, end) SHADER_FORM_LEAF, SHADER_KIND_##kind, level, start, end
#define TOKEN(kind, start, end) SHADER_KIND_##kind, start, end

static void tokens_are(const char *text, const uint32_t *tokens, size_t numbers) {
    lent table = lend(numbers + 6);
    shader_counted answer = shader_tokens(bytes_of(text), strlen(text), table.table, table.room);
    CHECK(answer.refusal == 0 && answer.count == numbers / SHADER_TOKEN_NUMBERS);
    CHECK(held(table, tokens, numbers));
}

/* A source without errors. */
static void entries_are(const char *text, const uint32_t *entries, size_t numbers) {
    lent table = lend(numbers + 10), errors = lend(20), lines = lend(5);
    shader_reading answer = shader_read(bytes_of(text), strlen(text), table.table, table.room, errors.table,
                                        errors.room, lines.table, lines.room);
    CHECK(answer.refusal == 0 && answer.entries == numbers / SHADER_ENTRY_NUMBERS && answer.errors == 0);
    CHECK(held(table, entries, numbers) && held(errors, NULL, 0));
    free(lines.memory);
}

static void body_is(const char *text, const uint32_t *entries, size_t numbers) {
    lent table = lend(numbers + 10);
    shader_counted answer = shader_define_body(bytes_of(text), strlen(text), table.table, table.room);
    CHECK(answer.refusal == 0 && answer.count == numbers / SHADER_ENTRY_NUMBERS);
    CHECK(held(table, entries, numbers));
}

/* One token with the blanks beside it, no continuation behind a backslash, a part of comments and strings. */
static void test_tokens(void) {
    static const uint32_t beside[] = {TOKEN(WS, 0, 6), TOKEN(IDENT_KW, 6, 7), TOKEN(WS, 7, 8)};
    static const uint32_t behind[] = {TOKEN(BACKSLASH, 0, 1), TOKEN(WS, 1, 2), TOKEN(NEWLINE, 2, 3),
                                      TOKEN(BACKSLASH, 3, 5), TOKEN(WS, 5, 6)};
    static const uint32_t inside[] = {TOKEN(COMMENT, 0, 5), TOKEN(WS, 5, 6), TOKEN(QUOTE_STRING, 6, 9)};
    static const uint32_t line[] = {TOKEN(COMMENT, 0, 5), TOKEN(NEWLINE, 5, 6), TOKEN(WS, 6, 7)};
    tokens_are("\t\v\f \v\va\v", beside, LENGTH(beside));
    tokens_are("\\\v\na\\\v", behind, LENGTH(behind));
    tokens_are("/*\v*/\v\"\v\"", inside, LENGTH(inside));
    tokens_are("//\v\\\v\n\v", line, LENGTH(line));
}

/* Before a HASH, between it and the word, and before a bracket, which then opens no arguments. */
static void test_trees(void) {
    static const uint32_t directive[] = {NODE(ROOT, 0, 0, 9), NODE(PP_IF, 1, 0, 9),      LEAF(WS, 2, 0, 1),
                                         LEAF(HASH, 2, 1, 2), LEAF(WS, 2, 2, 3),         LEAF(IDENT_KW, 2, 3, 5),
                                         LEAF(WS, 2, 5, 6),   NODE(PP_IF_EXPR, 2, 6, 7), LEAF(IDENT_KW, 3, 6, 7),
                                         LEAF(WS, 2, 7, 8),   LEAF(NEWLINE, 2, 8, 9)};
    static const uint32_t define[] = {
        NODE(ROOT, 0, 0, 14),    NODE(PP_DEFINE, 1, 0, 14), LEAF(HASH, 2, 0, 1),     LEAF(IDENT_KW, 2, 1, 7),
        LEAF(WS, 2, 7, 8),       LEAF(IDENT_KW, 2, 8, 9),   LEAF(WS, 2, 9, 10),      NODE(PP_DEFINE_BODY, 2, 10, 13),
        LEAF(LPAREN, 3, 10, 11), LEAF(IDENT_KW, 3, 11, 12), LEAF(RPAREN, 3, 12, 13), LEAF(NEWLINE, 2, 13, 14)};
    static const uint32_t body[] = {NODE(PP_DEFINE_BODY, 0, 0, 5), NODE(PP_CONCAT, 1, 0, 5), LEAF(WS, 2, 0, 1),
                                    LEAF(PP_CONCAT_OP, 2, 1, 3),   LEAF(WS, 2, 3, 4),        LEAF(IDENT_KW, 2, 4, 5)};
    entries_are("\v#\vif\va\v\n", directive, LENGTH(directive));
    entries_are("#define\vf\v(a)\n", define, LENGTH(define));
    body_is("\v##\va\v\n", body, LENGTH(body));
}

/* It begins no line, and unescaping keeps it. */
static void test_others(void) {
    static const uint32_t starts[] = {0, 2};
    uint8_t output[4];
    lent lines = lend(3);
    CHECK(shader_line_table(bytes_of("\v\n\v"), 3, lines.table, 3).count == 2);
    CHECK(held(lines, starts, 2));
    CHECK(shader_unescape(bytes_of("\v\\\n\v"), 4, output, 4).count == 2 && memcmp(output, "\v\v\0", 4) == 0);
}

enum { LONGEST = 80 };

/* What the calls on a source give. */
typedef struct {
    shader_reading reading;
    shader_counted body, tokens, starts;
    uint32_t entries[5 * (8 * LONGEST + 1)], errors[80 * LONGEST], lines[LONGEST + 1];
    uint32_t body_entries[5 * (2 * LONGEST + 1)], token_rows[3 * LONGEST], line_starts[LONGEST + 1];
} answers;

static void ask(answers *all, const uint8_t *src, size_t bytes) {
    shader_room room = shader_room_bound(bytes);
    memset(all, 0, sizeof *all);
    all->reading =
        shader_read(src, bytes, all->entries, room.entries, all->errors, room.errors, all->lines, room.lines);
    all->body = shader_define_body(src, bytes, all->body_entries, 5 * (2 * bytes + 1));
    all->tokens = shader_tokens(src, bytes, all->token_rows, 3 * bytes);
    all->starts = shader_line_table(src, bytes, all->line_starts, bytes + 1);
}

/* A source in which another blank stands for each vertical tab is read the same way. */
static void alike(const uint8_t *src, size_t bytes) {
    static answers wanted, got;
    uint8_t other[LONGEST];
    if (bytes == 0 || bytes > LONGEST || !memchr(src, '\v', bytes)) return;
    ask(&wanted, src, bytes);
    CHECK(wanted.reading.refusal == 0);
    for (const char *blank = "\t\f "; *blank; blank++) {
        for (size_t i = 0; i < bytes; i++) other[i] = src[i] == '\v' ? (uint8_t)*blank : src[i];
        ask(&got, other, bytes);
        CHECK(memcmp(&wanted, &got, sizeof got) == 0);
    }
}

/* All rows of up to 4 of these bytes. */
static void short_rows(void) {
    static const char bytes[] = "\v #\n\\a(\"/*1<";
    const size_t n = LENGTH(bytes) - 1;
    for (size_t length = 1, count = n; length <= 4; length++, count *= n) {
        for (size_t number = 0; number < count; number++) {
            uint8_t row[4];
            for (size_t i = 0, rest = number; i < length; i++, rest /= n) row[i] = (uint8_t)bytes[rest % n];
            alike(row, length);
        }
    }
}

/* Sources of random pieces; the same at every run. */
static void random_rows(int count) {
    static const char *const pieces[] = {"\v",     "\v",    " ",       "#",       "#",      "\n", "\r\n",
                                         "define", "undef", "include", "version", "else",   "if", "\"",
                                         "line",   "a",     "f(",      ")",       ",",      ":",  "##",
                                         "1",      "\\\n",  "\\",      "<\v>",    "/*\v*/", "//", "\xC3\xA4"};
    uint64_t state = 1;
    while (count-- > 0) {
        char text[LONGEST + 1] = "";
        for (int i = 0; i < 12; i++) {
            state = state * 6364136223846793005u + 1442695040888963407u;
            const char *piece = pieces[(state >> 33) % LENGTH(pieces)];
            if (strlen(text) + strlen(piece) <= LONGEST) strcat(text, piece);
        }
        alike(bytes_of(text), strlen(text));
    }
}

int main(void) {
    test_tokens();
    test_trees();
    test_others();
    short_rows();
    random_rows(5000);
    return told("blanks");
}
