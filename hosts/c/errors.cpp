// Prints the errors of a source as compilers do: FILE:LINE:COLUMN, both from 1, columns in bytes.
//
//     c++ -std=c++11 -O2 -Iinclude hosts/c/errors.cpp build/libshader_reader.a -o build/errors
//     build/errors FILE
//
// The exit status is 0 without errors, 1 with errors or a refusal, 2 where the file can't be read.
#include <cstdint>
#include <fstream>
#include <iostream>
#include <iterator>
#include <sstream>
#include <string>
#include <vector>

#include "shader_reader.h"

struct Reading {
    shader_reading answer;
    std::vector<std::uint32_t> entries, errors, lines;
};

// Reads a source into tables that grow until they are long enough.
static Reading read(const std::vector<std::uint8_t> &src) {
    Reading got;
    shader_room room = shader_room_guess(src.size());
    for (;;) {
        got.entries.resize(room.entries);
        got.errors.resize(room.errors);
        got.lines.resize(room.lines);
        got.answer = shader_read(src.data(), src.size(), got.entries.data(), room.entries, got.errors.data(),
                                 room.errors, got.lines.data(), room.lines);
        switch (got.answer.refusal) {
        case SHADER_REFUSAL_ENTRIES:
        case SHADER_REFUSAL_ERRORS:
        case SHADER_REFUSAL_LINES: room = shader_room_more(room, got.answer.refusal, src.size()); break;
        default: return got;
        }
    }
}

// Some bytes of a source on one line. Control bytes, which a string may hold, are shown by their numbers.
static std::string shown(const std::vector<std::uint8_t> &src, std::size_t start, std::size_t end) {
    static const char digits[] = "0123456789abcdef";
    std::string text;
    for (std::size_t i = start; i < end; i++) {
        std::uint8_t byte = src[i];
        if (byte >= 32 && byte != 127) text += static_cast<char>(byte);
        else text += std::string("\\x") + digits[byte >> 4] + digits[byte & 15];
    }
    return text;
}

// What an error says: its sort, the directive's name, the kinds that were expected.
static std::string sentence(const shader_error &error, const std::vector<std::uint8_t> &src) {
    std::string text = shader_sort_text(error.sort);
    if (error.name_end > 0) text += " #" + shown(src, error.name_start, error.name_end);
    if (error.actual) text += std::string(" ") + shader_kind_name(error.actual);
    if (error.expected[0]) text += std::string(", expected ") + shader_kind_name(error.expected[0]);
    if (error.expected[1]) text += std::string(" or ") + shader_kind_name(error.expected[1]);
    return text;
}

// Why a source is refused, and where it stops being UTF-8 if that is why.
static std::string reason(std::uint32_t refusal, const std::vector<std::uint8_t> &src) {
    std::ostringstream text;
    std::size_t at = shader_utf8_error(src.data(), src.size());
    text << shader_refusal_text(refusal);
    if (refusal == SHADER_REFUSAL_UTF8)
        text << ": byte 0x" << std::hex << std::uppercase << +src[at] << std::dec << " at offset " << at;
    if (refusal == SHADER_REFUSAL_CUT) text << ", the character begins at offset " << at;
    return text.str();
}

int main(int argc, char **argv) {
    std::ifstream file;
    if (argc == 2) file.open(argv[1], std::ios::binary);
    if (argc != 2 || !file) {
        std::cerr << (argc == 2 ? std::string(argv[1]) + " can't be read\n" : "usage: errors FILE\n");
        return 2;
    }
    std::vector<std::uint8_t> src((std::istreambuf_iterator<char>(file)), std::istreambuf_iterator<char>());
    Reading got = read(src);
    if (got.answer.refusal) std::cout << argv[1] << ": refused: " << reason(got.answer.refusal, src) << '\n';
    for (std::uint32_t i = 0; i < got.answer.errors; i++) {
        shader_error error = shader_error_at(got.errors.data(), i);
        std::cout << argv[1] << ':' << error.line + 1 << ':' << error.column + 1 << ": ";
        std::cout << sentence(error, src) << '\n';
    }
    return got.answer.refusal != 0 || got.answer.errors != 0;
}
