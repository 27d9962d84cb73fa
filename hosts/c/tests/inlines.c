/* What the header compiles into a host: sizes, rows as structs, names. The files named as arguments are read with the
 * guess, which must suffice for them. */
#include "test.h"

static shader_reading read_in(const uint8_t *src, size_t bytes, shader_room room) {
    lent entries = lend(room.entries), errors = lend(room.errors), lines = lend(room.lines);
    shader_reading r = shader_read(src, bytes, entries.table, room.entries, errors.table, room.errors, lines.table,
                                   room.lines);
    free(entries.memory);
    free(errors.memory);
    free(lines.memory);
    return r;
}

/* Sources that need much room: the bound suffices, and growing from the guess reaches an answer. */
static void test_room(const char *piece, size_t times, int errors) {
    size_t bytes = strlen(piece) * times;
    char *text = malloc(bytes + 1);
    if (!text) exit(2);
    text[0] = 0;
    for (size_t i = 0; i < times; i++) memcpy(text + i * strlen(piece), piece, strlen(piece));
    shader_room room = shader_room_guess(bytes), bound = shader_room_bound(bytes);
    shader_reading whole = read_in(bytes_of(text), bytes, bound), grown = read_in(bytes_of(text), bytes, room);
    int tries = 1;
    for (; grown.refusal && tries < 20; tries++) {
        room = shader_room_more(room, grown.refusal, bytes);
        grown = read_in(bytes_of(text), bytes, room);
    }
    CHECK(whole.refusal == 0 && grown.refusal == 0 && tries < 12);
    CHECK(whole.entries == grown.entries && whole.errors == grown.errors && whole.lines == grown.lines);
    CHECK((whole.errors > 0) == errors);
    CHECK(room.entries <= bound.entries && room.errors <= bound.errors && room.lines <= bound.lines);
    free(text);
}

static int room_is(shader_room room, size_t entries, size_t errors, size_t lines) {
    return room.entries == entries && room.errors == errors && room.lines == lines;
}

static void test_rooms(void) {
    size_t most = SHADER_SOURCE_LIMIT;
    CHECK(room_is(shader_room_bound(0), 5, 0, 1) && room_is(shader_room_guess(0), 5, 0, 1));
    CHECK(room_is(shader_room_bound(10), 405, 800, 11));
    CHECK(room_is(shader_room_guess(3072), 5 * 1600, 10 * 28, 256));
    CHECK(room_is(shader_room_bound(most), 5 * (8 * most + 1), 80 * most, most + 1));
    CHECK(room_is(shader_room_bound(most + 1), 5, 0, 1) && room_is(shader_room_guess((size_t)-1), 5, 0, 1));
    shader_room room = shader_room_guess(100000);
    for (uint32_t refusal = 0; refusal < 12; refusal++) {
        shader_room more = shader_room_more(room, refusal, 100000);
        CHECK((more.entries > room.entries) == (refusal == SHADER_REFUSAL_ENTRIES));
        CHECK((more.errors > room.errors) == (refusal == SHADER_REFUSAL_ERRORS));
        CHECK((more.lines > room.lines) == (refusal == SHADER_REFUSAL_LINES));
    }
    test_room("", 1, 0);
    test_room("#a\n", 1, 1);
    test_room("\n", 20000, 0);
    test_room("#a\n", 20000, 1);
    test_room("#define f(1 2 a b\n", 3000, 1);
    test_room("#()", 20000, 0);
    test_room("#define a(b) b ## c\n", 3000, 0);
}

/* #undef, newline, foo, newline: ROOT over PP_UNDEF over six entries, and two errors. */
static void test_rows(void) {
    static uint32_t entries[60], errors[30], lines[5], tokens[30];
    const uint8_t *src = bytes_of("#undef\nfoo\n");
    shader_reading r = shader_read(src, 11, entries, 60, errors, 30, lines, 5);
    CHECK(r.refusal == 0 && r.entries == 10 && r.errors == 2);
    shader_entry node = shader_entry_at(entries, 1), leaf = shader_entry_at(entries, 3);
    CHECK(node.form == SHADER_FORM_NODE && node.kind == SHADER_KIND_PP_UNDEF && node.level == 1);
    CHECK(node.start == 0 && node.end == 11);
    CHECK(leaf.form == SHADER_FORM_LEAF && leaf.kind == SHADER_KIND_IDENT_KW && leaf.start == 1 && leaf.end == 6);
    shader_error missing = shader_error_at(errors, 0), extra = shader_error_at(errors, 1);
    CHECK(missing.sort == SHADER_SORT_UNEXPECTED && missing.start == 6 && missing.end == 7);
    CHECK(missing.line == 0 && missing.column == 6 && missing.actual == SHADER_KIND_NEWLINE);
    CHECK(missing.expected[0] == SHADER_KIND_IDENT_KW && missing.expected[1] == 0 && missing.name_end == 0);
    CHECK(extra.sort == SHADER_SORT_EXTRA_TOKENS && extra.line == 1 && extra.name_start == 1 && extra.name_end == 6);
    CHECK(shader_entry_after(entries, 10, 0) == 10 && shader_entry_after(entries, 10, 1) == 10);
    CHECK(shader_entry_after(entries, 10, 2) == 3 && shader_entry_after(entries, 10, 4) == 7);
    CHECK(shader_tokens(src, 11, tokens, 30).count == 5);
    shader_token second = shader_token_at(tokens, 1);
    CHECK(second.kind == SHADER_KIND_IDENT_KW && second.start == 1 && second.end == 6);
}

static void test_names(void) {
    CHECK(strcmp(shader_kind_name(SHADER_KIND_ROOT), "ROOT") == 0);
    CHECK(strcmp(shader_kind_name(0), "?") == 0 && strcmp(shader_kind_name(87), "?") == 0);
    CHECK(strcmp(shader_kind_name(4294967295u), "?") == 0);
    CHECK(shader_kind_is_trivia(SHADER_KIND_WS) && !shader_kind_is_trivia(SHADER_KIND_NEWLINE));
    for (uint32_t i = 0; i <= 10; i++) CHECK(strcmp(shader_refusal_text(i), shader_refusal_text(99)) != 0);
    CHECK(strcmp(shader_refusal_text(10), "the file ends inside a character: the upload was cut") == 0);
    CHECK(strcmp(shader_sort_text(3), shader_sort_text(99)) == 0);
    CHECK(strcmp(shader_sort_text(SHADER_SORT_END_OF_INPUT), "unexpected end of input") == 0);
}

static void test_guess(const char *name) {
    static uint8_t src[1 << 20];
    FILE *file = fopen(name, "rb");
    if (!file) exit(2);
    size_t bytes = fread(src, 1, sizeof src, file);
    fclose(file);
    CHECK(bytes > 0 && read_in(src, bytes, shader_room_guess(bytes)).refusal == 0);
}

int main(int argc, char **argv) {
    test_rooms();
    test_rows();
    test_names();
    for (int i = 1; i < argc; i++) test_guess(argv[i]);
    return told("inlines");
}
