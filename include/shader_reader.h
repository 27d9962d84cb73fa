/* shader_reader.h: the calls of libshader_reader.a, which reads GLSL sources into a lossless tree. C99 and C++11.
 *
 * What holds of every call:
 *
 * Answers. An answer begins with its refusal. SHADER_REFUSAL_NONE (0) means that the call was accepted; a refused call
 *   has counts of 0. Every number of a lent table is written: the answer and zeros behind it; on a refusal, zeros.
 * Units. An offset is a number of bytes from the start of the source, a range goes from its first byte to the byte
 *   behind its last. Lines and columns count from 0, and columns are bytes. `bytes` and the room of an output are in
 *   bytes, the room of a table in numbers (uint32_t); counts are of entries, errors, lines or tokens.
 * Pointers. Each is valid for its length: an input for reading, a table for writing. No table overlaps an input or
 *   another table. Where a length is 0 its pointer may be NULL. A table is aligned as a uint32_t is, bytes may stand
 *   anywhere. No pointer is kept. None of this is checked; on all else a call answers, whatever the bytes and lengths.
 * Threads. No call has global state, allocates or locks: any number of threads may call at once, on one source too,
 *   each with tables of its own.
 * Cost. Linear in the source's bytes and in the room that is lent, refused or not: shader_read, shader_define_body and
 *   shader_tokens clear what is left behind their answer, shader_line_table and shader_unescape clear all of the room
 *   before they write. Lend what the source needs; see "Sizes" below.
 * Stack. SHADER_STACK_BYTES suffice for every call.
 * Machine. x86-64 with the System V calling convention, ELF. The library needs memset and nothing else.
 *
 * hosts/c/read.c and hosts/c/errors.cpp are whole programs. */
#ifndef SHADER_READER_H
#define SHADER_READER_H

#include <stddef.h>
#include <stdint.h>

#ifdef __cplusplus
extern "C" {
#endif

/* The version of this header and of the library that it was delivered with. */
#define SHADER_READER_VERSION "0.3.0"
#define SHADER_READER_VERSION_MAJOR 0
#define SHADER_READER_VERSION_MINOR 3
#define SHADER_READER_VERSION_PATCH 0

/* The longest source, in bytes. */
#define SHADER_SOURCE_LIMIT 16777216

/* The most ## that a body may hold. */
#define SHADER_CONCAT_LIMIT 256

/* Stack that suffices for every call, with some to spare. Measured: shader_read 4,600 bytes and 336 more for each ## of
 * a body, at most 90,600; shader_define_body at most 89,400; the others less than 500. Where memset is bound at its
 * first call, the dynamic linker takes some 3,300 once. */
#define SHADER_STACK_BYTES 98304

/* Why a call is refused. Of several reasons the one that is checked first is given, which need not be the smallest
 * number: 10 is checked with 2, before 3. The calls list their refusals in checking order. */
enum shader_refusal {
    SHADER_REFUSAL_NONE = 0,    /* accepted */
    SHADER_REFUSAL_LENGTH = 1,  /* the source or text is longer than SHADER_SOURCE_LIMIT; it was not looked at */
    SHADER_REFUSAL_UTF8 = 2,    /* it is not UTF-8 (RFC 3629), nor does it end inside a character */
    SHADER_REFUSAL_CONCATS = 3, /* a body holds more than SHADER_CONCAT_LIMIT ## */
    SHADER_REFUSAL_ENTRIES = 4, /* the entry table or the token table is too short: lend a longer one */
    SHADER_REFUSAL_ERRORS = 5,  /* the error table is too short: lend a longer one */
    SHADER_REFUSAL_LINES = 6,   /* the line table is too short: lend a longer one */
    SHADER_REFUSAL_LOOKUP = 7,  /* the line table that is looked up in does not start at 0, or does not rise */
    SHADER_REFUSAL_OUTPUT = 8,  /* the output of unescaping is too short: lend a longer one */
    SHADER_REFUSAL_KIND = 9,    /* a kind to paste is 0, SHADER_KIND_LINECONT or above SHADER_KIND_ROOT */
    SHADER_REFUSAL_CUT = 10     /* it is UTF-8 up to its end, where a character begins that is not whole */
};

/* Kinds of leaves, tokens and nodes. SHADER_KIND_ERROR is the kind of leaves and of nodes. */
enum shader_kind {
    SHADER_KIND_IDENT_KW = 1,            /* identifier or keyword */
    SHADER_KIND_DEFINED = 2,             /* the word `defined` */
    SHADER_KIND_DIGITS = 3,              /* number */
    SHADER_KIND_PERIOD = 4,              /* . */
    SHADER_KIND_PLUS = 5,                /* + */
    SHADER_KIND_DASH = 6,                /* - */
    SHADER_KIND_SLASH = 7,               /* / */
    SHADER_KIND_ASTERISK = 8,            /* * */
    SHADER_KIND_PERCENT = 9,             /* % */
    SHADER_KIND_LANGLE = 10,             /* < */
    SHADER_KIND_RANGLE = 11,             /* > */
    SHADER_KIND_LBRACKET = 12,           /* [ */
    SHADER_KIND_RBRACKET = 13,           /* ] */
    SHADER_KIND_LPAREN = 14,             /* ( */
    SHADER_KIND_RPAREN = 15,             /* ) */
    SHADER_KIND_LBRACE = 16,             /* { */
    SHADER_KIND_RBRACE = 17,             /* } */
    SHADER_KIND_CARET = 18,              /* ^ */
    SHADER_KIND_BAR = 19,                /* | */
    SHADER_KIND_AMPERSAND = 20,          /* & */
    SHADER_KIND_TILDE = 21,              /* ~ */
    SHADER_KIND_EQUAL = 22,              /* = */
    SHADER_KIND_BANG = 23,               /* ! */
    SHADER_KIND_COLON = 24,              /* : */
    SHADER_KIND_SEMICOLON = 25,          /* ; */
    SHADER_KIND_COMMA = 26,              /* , */
    SHADER_KIND_QUESTION = 27,           /* ? */
    SHADER_KIND_HASH = 28,               /* # */
    SHADER_KIND_QUOTE_STRING = 29,       /* "string" */
    SHADER_KIND_ANGLE_STRING = 30,       /* <string>, behind include alone */
    SHADER_KIND_BACKSLASH = 31,          /* a backslash that continues no line */
    SHADER_KIND_WS = 32,                 /* tabs, vertical tabs, form feeds, spaces; in a tree a continuation too */
    SHADER_KIND_NEWLINE = 33,            /* LF, CR, or both together in either order */
    SHADER_KIND_COMMENT = 34,            /* comment of either form */
    SHADER_KIND_LINECONT = 35,           /* continuation, in a token listing alone */
    SHADER_KIND_ERROR = 36,              /* leaf: no token; node: a piece that breaks the grammar */
    SHADER_KIND_LEFT_OP = 37,            /* << */
    SHADER_KIND_RIGHT_OP = 38,           /* >> */
    SHADER_KIND_INC_OP = 39,             /* ++ */
    SHADER_KIND_DEC_OP = 40,             /* -- */
    SHADER_KIND_LE_OP = 41,              /* <= */
    SHADER_KIND_GE_OP = 42,              /* >= */
    SHADER_KIND_EQ_OP = 43,              /* == */
    SHADER_KIND_NE_OP = 44,              /* != */
    SHADER_KIND_AND_OP = 45,             /* && */
    SHADER_KIND_OR_OP = 46,              /* || */
    SHADER_KIND_XOR_OP = 47,             /* ^^ */
    SHADER_KIND_MUL_ASSIGN = 48,         /* *= */
    SHADER_KIND_DIV_ASSIGN = 49,         /* /= */
    SHADER_KIND_ADD_ASSIGN = 50,         /* += */
    SHADER_KIND_MOD_ASSIGN = 51,         /* %= */
    SHADER_KIND_LEFT_ASSIGN = 52,        /* <<= */
    SHADER_KIND_RIGHT_ASSIGN = 53,       /* >>= */
    SHADER_KIND_AND_ASSIGN = 54,         /* &= */
    SHADER_KIND_XOR_ASSIGN = 55,         /* ^= */
    SHADER_KIND_OR_ASSIGN = 56,          /* |= */
    SHADER_KIND_SUB_ASSIGN = 57,         /* -= */
    SHADER_KIND_PP_CONCAT_OP = 58,       /* ## */
    SHADER_KIND_PP_CONCAT = 59,          /* nodes from here on: what a ## joins */
    SHADER_KIND_PP_EMPTY = 60,           /* # alone on a line */
    SHADER_KIND_PP_INCLUDE = 61,         /* #include */
    SHADER_KIND_PP_INCLUDE_PATH = 62,    /* its body */
    SHADER_KIND_PP_DEFINE = 63,          /* #define */
    SHADER_KIND_PP_DEFINE_ARGS = 64,     /* its parameters with their brackets */
    SHADER_KIND_PP_DEFINE_ARG = 65,      /* one parameter */
    SHADER_KIND_PP_DEFINE_BODY = 66,     /* its body */
    SHADER_KIND_PP_UNDEF = 67,           /* #undef */
    SHADER_KIND_PP_IDENT = 68,           /* the name that a directive speaks of */
    SHADER_KIND_PP_IF = 69,              /* #if */
    SHADER_KIND_PP_IF_EXPR = 70,         /* the condition of #if or #elif */
    SHADER_KIND_PP_IFDEF = 71,           /* #ifdef */
    SHADER_KIND_PP_IFNDEF = 72,          /* #ifndef */
    SHADER_KIND_PP_ELSE = 73,            /* #else */
    SHADER_KIND_PP_ELIF = 74,            /* #elif */
    SHADER_KIND_PP_ENDIF = 75,           /* #endif */
    SHADER_KIND_PP_ERROR = 76,           /* #error */
    SHADER_KIND_PP_ERROR_BODY = 77,      /* its body */
    SHADER_KIND_PP_PRAGMA = 78,          /* #pragma */
    SHADER_KIND_PP_PRAGMA_BODY = 79,     /* its body */
    SHADER_KIND_PP_EXTENSION = 80,       /* #extension */
    SHADER_KIND_PP_VERSION = 81,         /* #version */
    SHADER_KIND_PP_VERSION_NUMBER = 82,  /* its number */
    SHADER_KIND_PP_VERSION_PROFILE = 83, /* its profile */
    SHADER_KIND_PP_LINE = 84,            /* #line */
    SHADER_KIND_PP_LINE_BODY = 85,       /* its body */
    SHADER_KIND_ROOT = 86                /* the whole source */
};

/* An entry of a tree is 5 numbers. Entries stand parent before children, left to right; a node's children are the
 * entries behind it of one level more, up to the next entry whose level is not above its own. The leaves, in order, are
 * the source from byte 0 to its end. */
#define SHADER_ENTRY_NUMBERS 5
enum shader_entry_column {
    SHADER_ENTRY_FORM = 0,  /* SHADER_FORM_LEAF or SHADER_FORM_NODE */
    SHADER_ENTRY_KIND = 1,
    SHADER_ENTRY_LEVEL = 2, /* 0 for the first entry */
    SHADER_ENTRY_START = 3,
    SHADER_ENTRY_END = 4
};
enum shader_form { SHADER_FORM_LEAF = 0, SHADER_FORM_NODE = 1 };

/* An error is 10 numbers. Fields that its sort does not have are 0. In every run the starts of errors never fell,
 * which is not proved. */
#define SHADER_ERROR_NUMBERS 10
enum shader_error_column {
    SHADER_ERROR_SORT = 0,
    SHADER_ERROR_START = 1,
    SHADER_ERROR_END = 2,
    SHADER_ERROR_LINE = 3,            /* of the start */
    SHADER_ERROR_COLUMN = 4,          /* of the start */
    SHADER_ERROR_ACTUAL = 5,          /* the kind that stands there: UNEXPECTED */
    SHADER_ERROR_EXPECTED = 6,        /* a kind that was expected: UNEXPECTED, END_OF_INPUT */
    SHADER_ERROR_SECOND_EXPECTED = 7, /* another one, or 0: the same sorts */
    SHADER_ERROR_NAME_START = 8,      /* the directive's name, without its #: UNKNOWN_DIRECTIVE, EXTRA_TOKENS */
    SHADER_ERROR_NAME_END = 9
};
enum shader_sort {
    SHADER_SORT_UNKNOWN_DIRECTIVE = 1,
    SHADER_SORT_EXTRA_TOKENS = 2, /* tokens behind a directive that is complete */
    SHADER_SORT_UNEXPECTED = 4,   /* a token where another was expected */
    SHADER_SORT_END_OF_INPUT = 5  /* the source ends where a token was expected */
};

/* A token is 3 numbers. */
#define SHADER_TOKEN_NUMBERS 3
enum shader_token_column { SHADER_TOKEN_KIND = 0, SHADER_TOKEN_START = 1, SHADER_TOKEN_END = 2 };

/* Answers. */
typedef struct { uint32_t refusal, entries, errors, lines; } shader_reading;
typedef struct { uint32_t refusal, count; } shader_counted;
typedef struct { uint32_t refusal, line, column; } shader_place;
typedef struct { uint32_t refusal, kind; } shader_pasted;

/* Reads a source: its tree, its errors, and the offset where each line starts. A source without errors keeps the
 * directive grammar, and one with errors breaks it. Refusals: 1, 2, 10, 3, 4, 5, 6. */
shader_reading shader_read(const uint8_t *src, size_t bytes, uint32_t *entries, size_t entry_room, uint32_t *errors,
                           size_t error_room, uint32_t *lines, size_t line_room);

/* Reads a define body, what stands before the first newline: a tree under a PP_DEFINE_BODY, without a ROOT. The count
 * is of entries; 5 * (2 * bytes + 1) numbers always suffice. Refusals: 1, 2, 10, 3, 4. */
shader_counted shader_define_body(const uint8_t *src, size_t bytes, uint32_t *entries, size_t room);

/* Lists the tokens of a source. 3 * bytes numbers always suffice. Refusals: 1, 2, 10, 4. */
shader_counted shader_tokens(const uint8_t *src, size_t bytes, uint32_t *tokens, size_t room);

/* The offset where each line starts. bytes + 1 numbers always suffice. Refusals: 1, 2, 10, 6. */
shader_counted shader_line_table(const uint8_t *src, size_t bytes, uint32_t *lines, size_t room);

/* The text without its continuations (a backslash with the newline behind it). The count is of bytes; as many as the
 * text has always suffice. Refusals: 1, 2, 10, 8. */
shader_counted shader_unescape(const uint8_t *text, size_t bytes, uint8_t *output, size_t room);

/* Line and column of an offset, past the end of the source too. `lines` has the line starts alone, as many as were
 * counted, without the zeros behind them. Refusal 7.
 * It reads the whole table at every call, since it refuses a table that does not rise: 376 microseconds at 560,771
 * lines. Over a table that a call has just filled use shader_find_line, which takes 0.1 there. */
shader_place shader_lookup(const uint32_t *lines, size_t count, uint32_t offset);

/* The kind of two tokens that ## joins, SHADER_KIND_ERROR if they make no token. Refusal 9. */
shader_pasted shader_paste(uint32_t lhs, uint32_t rhs);

/* What follows is compiled into the host, where it is used. */

/* As shader_lookup, by binary search: for a table that shader_read or shader_line_table has filled, which is not
 * checked again. */
static inline shader_place shader_find_line(const uint32_t *lines, size_t count, uint32_t offset) {
    shader_place place = {SHADER_REFUSAL_LOOKUP, 0, 0};
    size_t low = 0, high = count;
    if (count == 0) return place;
    while (high - low > 1) {
        size_t middle = low + (high - low) / 2;
        if (lines[middle] <= offset) low = middle;
        else high = middle;
    }
    place.refusal = SHADER_REFUSAL_NONE;
    place.line = low & UINT32_MAX;
    place.column = offset - lines[low];
    return place;
}

/* How long the character (RFC 3629) at the front of at least one byte is; 0 if no whole one stands there. */
static inline size_t shader_utf8_character(const uint8_t *src, size_t bytes) {
    uint8_t first = src[0];
    uint8_t low = first == 0xE0 ? 0xA0 : first == 0xF0 ? 0x90 : 0x80;
    uint8_t high = first == 0xED ? 0x9F : first == 0xF4 ? 0x8F : 0xBF;
    size_t length = first < 0x80 ? 1 : first < 0xE0 ? 2 : first < 0xF0 ? 3 : 4;
    if ((first >= 0x80 && first < 0xC2) || first > 0xF4 || bytes < length) return 0;
    if (length > 1 && (src[1] < low || src[1] > high)) return 0;
    for (size_t i = 2; i < length; i++) {
        if (src[i] < 0x80 || src[i] > 0xBF) return 0;
    }
    return length;
}

/* Where a source stops being UTF-8: the offset of the first byte at which no whole character stands, `bytes` if none is
 * bad. After SHADER_REFUSAL_UTF8 that is the first bad byte, after SHADER_REFUSAL_CUT the first byte of the character
 * that was cut. */
static inline size_t shader_utf8_error(const uint8_t *src, size_t bytes) {
    size_t at = 0, length = 1;
    while (at < bytes && length > 0) {
        length = shader_utf8_character(src + at, bytes - at);
        at += length;
    }
    return at;
}

/* Sizes. Lengths of the three tables of shader_read, in numbers. A source above SHADER_SOURCE_LIMIT, which is refused
 * whatever it is lent, has those of an empty one. */
typedef struct { size_t entries, errors, lines; } shader_room;

static inline size_t shader_at_most(size_t a, size_t b) { return a < b ? a : b; }

/* Lengths that always suffice, which is proved: 8 * bytes + 1 entries, 8 * bytes errors, bytes + 1 lines. That is 484
 * bytes for each byte of the source. In every run 2 * bytes + 1 entries and bytes errors sufficed, which is not
 * proved. */
static inline shader_room shader_room_bound(size_t bytes) {
    size_t n = bytes > SHADER_SOURCE_LIMIT ? 0 : bytes;
    shader_room room;
    room.entries = SHADER_ENTRY_NUMBERS * (8 * n + 1);
    room.errors = SHADER_ERROR_NUMBERS * 8 * n;
    room.lines = n + 1;
    return room;
}

/* Lengths to begin with: bytes / 2 + 64 entries, bytes / 256 + 16 errors, bytes / 16 + 64 lines, but never more than
 * the bound. That is 10.4 bytes for each byte of the source, and some 2,200 more. Of 4,963 shaders of two test suites,
 * glslang's and SPIRV-Cross's, 46 needed more entries, 1 more lines and none more errors. (bytes / 3 + 64 entries, 7.1
 * bytes for each byte, were too few for 874 of them, 2 * bytes / 5 + 64, 8.4 bytes, for 263.) */
static inline shader_room shader_room_guess(size_t bytes) {
    size_t n = bytes > SHADER_SOURCE_LIMIT ? 0 : bytes;
    shader_room bound = shader_room_bound(n), room;
    room.entries = shader_at_most(SHADER_ENTRY_NUMBERS * (n / 2 + 64), bound.entries);
    room.errors = shader_at_most(SHADER_ERROR_NUMBERS * (n / 256 + 16), bound.errors);
    room.lines = shader_at_most(n / 16 + 64, bound.lines);
    return room;
}

/* Lengths to try after SHADER_REFUSAL_ENTRIES, _ERRORS or _LINES: the table that was too short grows, up to the bound.
 * Nothing is lost by a refusal but the time of the call. Another refusal leaves the lengths as they are: it stands. */
static inline shader_room shader_room_more(shader_room room, uint32_t refusal, size_t bytes) {
    shader_room bound = shader_room_bound(bytes);
    size_t entries = 2 * room.entries + SHADER_ENTRY_NUMBERS * 64, errors = 8 * room.errors + SHADER_ERROR_NUMBERS * 16;
    if (refusal == SHADER_REFUSAL_ENTRIES) room.entries = shader_at_most(entries, bound.entries);
    if (refusal == SHADER_REFUSAL_ERRORS) room.errors = shader_at_most(errors, bound.errors);
    if (refusal == SHADER_REFUSAL_LINES) room.lines = bound.lines;
    return room;
}

/* Rows of the tables as structs. */
typedef struct { uint32_t form, kind, level, start, end; } shader_entry;
typedef struct { uint32_t sort, start, end, line, column, actual, expected[2], name_start, name_end; } shader_error;
typedef struct { uint32_t kind, start, end; } shader_token;

static inline shader_entry shader_entry_at(const uint32_t *entries, size_t i) {
    const uint32_t *row = entries + SHADER_ENTRY_NUMBERS * i;
    shader_entry entry;
    entry.form = row[SHADER_ENTRY_FORM];
    entry.kind = row[SHADER_ENTRY_KIND];
    entry.level = row[SHADER_ENTRY_LEVEL];
    entry.start = row[SHADER_ENTRY_START];
    entry.end = row[SHADER_ENTRY_END];
    return entry;
}

static inline shader_error shader_error_at(const uint32_t *errors, size_t i) {
    const uint32_t *row = errors + SHADER_ERROR_NUMBERS * i;
    shader_error error;
    error.sort = row[SHADER_ERROR_SORT];
    error.start = row[SHADER_ERROR_START];
    error.end = row[SHADER_ERROR_END];
    error.line = row[SHADER_ERROR_LINE];
    error.column = row[SHADER_ERROR_COLUMN];
    error.actual = row[SHADER_ERROR_ACTUAL];
    error.expected[0] = row[SHADER_ERROR_EXPECTED];
    error.expected[1] = row[SHADER_ERROR_SECOND_EXPECTED];
    error.name_start = row[SHADER_ERROR_NAME_START];
    error.name_end = row[SHADER_ERROR_NAME_END];
    return error;
}

static inline shader_token shader_token_at(const uint32_t *tokens, size_t i) {
    const uint32_t *row = tokens + SHADER_TOKEN_NUMBERS * i;
    shader_token token;
    token.kind = row[SHADER_TOKEN_KIND];
    token.start = row[SHADER_TOKEN_START];
    token.end = row[SHADER_TOKEN_END];
    return token;
}

/* Which entry follows entry i and all that stands below it: its next sibling, if the levels are equal. `count` if none
 * does. */
static inline size_t shader_entry_after(const uint32_t *entries, size_t count, size_t i) {
    uint32_t level = entries[SHADER_ENTRY_NUMBERS * i + SHADER_ENTRY_LEVEL];
    do i++;
    while (i < count && entries[SHADER_ENTRY_NUMBERS * i + SHADER_ENTRY_LEVEL] > level);
    return i;
}

/* Whether leaves or tokens of a kind are trivia: blanks, comments, continuations. */
static inline int shader_kind_is_trivia(uint32_t kind) {
    return kind == SHADER_KIND_WS || kind == SHADER_KIND_COMMENT || kind == SHADER_KIND_LINECONT;
}

/* The name of a kind, as "IDENT_KW"; "?" for a number that is none. */
static inline const char *shader_kind_name(uint32_t kind) {
    static const char *const names[] = {
        "?", "IDENT_KW", "DEFINED", "DIGITS", "PERIOD", "PLUS", "DASH", "SLASH", "ASTERISK", "PERCENT", "LANGLE",
        "RANGLE", "LBRACKET", "RBRACKET", "LPAREN", "RPAREN", "LBRACE", "RBRACE", "CARET", "BAR", "AMPERSAND", "TILDE",
        "EQUAL", "BANG", "COLON", "SEMICOLON", "COMMA", "QUESTION", "HASH", "QUOTE_STRING", "ANGLE_STRING",
        "BACKSLASH", "WS", "NEWLINE", "COMMENT", "LINECONT", "ERROR", "LEFT_OP", "RIGHT_OP", "INC_OP", "DEC_OP",
        "LE_OP", "GE_OP", "EQ_OP", "NE_OP", "AND_OP", "OR_OP", "XOR_OP", "MUL_ASSIGN", "DIV_ASSIGN", "ADD_ASSIGN",
        "MOD_ASSIGN", "LEFT_ASSIGN", "RIGHT_ASSIGN", "AND_ASSIGN", "XOR_ASSIGN", "OR_ASSIGN", "SUB_ASSIGN",
        "PP_CONCAT_OP", "PP_CONCAT", "PP_EMPTY", "PP_INCLUDE", "PP_INCLUDE_PATH", "PP_DEFINE", "PP_DEFINE_ARGS",
        "PP_DEFINE_ARG", "PP_DEFINE_BODY", "PP_UNDEF", "PP_IDENT", "PP_IF", "PP_IF_EXPR", "PP_IFDEF", "PP_IFNDEF",
        "PP_ELSE", "PP_ELIF", "PP_ENDIF", "PP_ERROR", "PP_ERROR_BODY", "PP_PRAGMA", "PP_PRAGMA_BODY", "PP_EXTENSION",
        "PP_VERSION", "PP_VERSION_NUMBER", "PP_VERSION_PROFILE", "PP_LINE", "PP_LINE_BODY", "ROOT"};
    return names[kind < sizeof names / sizeof *names ? kind : 0];
}

/* What an error of a sort is, in words. */
static inline const char *shader_sort_text(uint32_t sort) {
    switch (sort) {
    case SHADER_SORT_UNKNOWN_DIRECTIVE: return "unknown preprocessor directive";
    case SHADER_SORT_EXTRA_TOKENS: return "extra tokens in preprocessor directive";
    case SHADER_SORT_UNEXPECTED: return "unexpected token";
    case SHADER_SORT_END_OF_INPUT: return "unexpected end of input";
    default: return "unknown sort of error";
    }
}

/* Why a call is refused, in words. */
static inline const char *shader_refusal_text(uint32_t refusal) {
    switch (refusal) {
    case SHADER_REFUSAL_NONE: return "accepted";
    case SHADER_REFUSAL_LENGTH: return "longer than 16777216 bytes";
    case SHADER_REFUSAL_UTF8: return "not UTF-8";
    case SHADER_REFUSAL_CONCATS: return "more than 256 ## in one body";
    case SHADER_REFUSAL_ENTRIES: return "the entry or token table is too short";
    case SHADER_REFUSAL_ERRORS: return "the error table is too short";
    case SHADER_REFUSAL_LINES: return "the line table is too short";
    case SHADER_REFUSAL_LOOKUP: return "the line table does not start at 0, or does not rise";
    case SHADER_REFUSAL_OUTPUT: return "the output is too short";
    case SHADER_REFUSAL_KIND: return "a kind is 0, 35 or above 86";
    case SHADER_REFUSAL_CUT: return "the file ends inside a character: the upload was cut";
    default: return "unknown refusal";
    }
}

#ifdef __cplusplus
}
#endif

#endif
