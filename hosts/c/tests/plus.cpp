// Every call and every inline function, from C++.
#include <cstring>
#include <iostream>
#include <vector>

#include "shader_reader.h"

static int failures;

static void check(bool right, const char *what) {
    if (right) return;
    std::cerr << "plus.cpp: " << what << '\n';
    failures++;
}

static const char text[] = "#define f(a) a ## 1\n#endif x\n";
static const std::uint8_t *const src = reinterpret_cast<const std::uint8_t *>(text);
static const std::size_t bytes = sizeof text - 1;

static void reading() {
    shader_room room = shader_room_guess(bytes);
    room = shader_room_more(room, SHADER_REFUSAL_ENTRIES, bytes);
    std::vector<std::uint32_t> entries(room.entries), errors(room.errors), lines(room.lines);
    shader_reading r = shader_read(src, bytes, entries.data(), room.entries, errors.data(), room.errors, lines.data(),
                                   room.lines);
    check(r.refusal == SHADER_REFUSAL_NONE && r.errors == 1 && r.lines == 3, "shader_read");
    check(shader_entry_at(entries.data(), 0).kind == SHADER_KIND_ROOT, "shader_entry_at");
    check(shader_entry_after(entries.data(), r.entries, 0) == r.entries, "shader_entry_after");
    shader_error error = shader_error_at(errors.data(), 0);
    check(error.sort == SHADER_SORT_EXTRA_TOKENS && error.line == 1 && error.column == 7, "shader_error_at");
    shader_place a = shader_lookup(lines.data(), r.lines, error.start);
    shader_place b = shader_find_line(lines.data(), r.lines, error.start);
    check(a.refusal == 0 && a.line == 1 && a.column == 7, "shader_lookup");
    check(b.refusal == 0 && b.line == 1 && b.column == 7, "shader_find_line");
}

static void others() {
    std::vector<std::uint32_t> table(SHADER_ENTRY_NUMBERS * (2 * bytes + 1));
    std::vector<std::uint8_t> output(bytes);
    check(shader_define_body(src, bytes, table.data(), table.size()).refusal == 0, "shader_define_body");
    check(shader_tokens(src, bytes, table.data(), table.size()).count == 19, "shader_tokens");
    check(shader_token_at(table.data(), 0).kind == SHADER_KIND_HASH, "shader_token_at");
    check(shader_line_table(src, bytes, table.data(), table.size()).count == 3, "shader_line_table");
    check(shader_unescape(src, bytes, output.data(), output.size()).count == bytes, "shader_unescape");
    check(shader_paste(SHADER_KIND_HASH, SHADER_KIND_HASH).kind == SHADER_KIND_PP_CONCAT_OP, "shader_paste");
    check(std::strcmp(shader_kind_name(SHADER_KIND_PP_DEFINE), "PP_DEFINE") == 0, "shader_kind_name");
    check(shader_kind_is_trivia(SHADER_KIND_COMMENT) != 0, "shader_kind_is_trivia");
    check(std::strcmp(shader_refusal_text(SHADER_REFUSAL_UTF8), "not UTF-8") == 0, "shader_refusal_text");
}

static void cut() {
    const std::uint8_t end[] = {'a', 0xE4, 0xB8};
    check(shader_line_table(end, 3, nullptr, 0).refusal == SHADER_REFUSAL_CUT, "SHADER_REFUSAL_CUT");
    check(shader_utf8_error(end, 3) == 1 && shader_utf8_error(src, bytes) == bytes, "shader_utf8_error");
}

int main() {
    reading();
    others();
    cut();
    return failures != 0;
}
