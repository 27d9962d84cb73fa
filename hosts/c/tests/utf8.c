/* Where a source stops being UTF-8, and whether it is refused as bad or as cut, by the forms of RFC 3629: every row of
 * up to three bytes, and rows of four at the edges of the forms. */
#include "test.h"

/* RFC 3629, section 4: the length of a form, the lowest and the highest of each of its bytes. */
typedef struct { size_t length; uint8_t low[4], high[4]; } form;

static const form forms[] = {
    {1, {0x00}, {0x7F}},
    {2, {0xC2, 0x80}, {0xDF, 0xBF}},
    {3, {0xE0, 0xA0, 0x80}, {0xE0, 0xBF, 0xBF}},
    {3, {0xE1, 0x80, 0x80}, {0xEC, 0xBF, 0xBF}},
    {3, {0xED, 0x80, 0x80}, {0xED, 0x9F, 0xBF}},
    {3, {0xEE, 0x80, 0x80}, {0xEF, 0xBF, 0xBF}},
    {4, {0xF0, 0x90, 0x80, 0x80}, {0xF0, 0xBF, 0xBF, 0xBF}},
    {4, {0xF1, 0x80, 0x80, 0x80}, {0xF3, 0xBF, 0xBF, 0xBF}},
    {4, {0xF4, 0x80, 0x80, 0x80}, {0xF4, 0x8F, 0xBF, 0xBF}}};

static int fits(const form *f, const uint8_t *src, size_t bytes) {
    for (size_t i = 0; i < bytes; i++) {
        if (src[i] < f->low[i] || src[i] > f->high[i]) return 0;
    }
    return 1;
}

/* The length of the character at the front; 0 if no form is there whole. */
static size_t whole(const uint8_t *src, size_t bytes) {
    for (size_t i = 0; i < LENGTH(forms); i++) {
        if (forms[i].length <= bytes && fits(&forms[i], src, forms[i].length)) return forms[i].length;
    }
    return 0;
}

/* Whether the bytes are the beginning of a form, and less than it. */
static int begins(const uint8_t *src, size_t bytes) {
    for (size_t i = 0; i < LENGTH(forms); i++) {
        if (forms[i].length > bytes && fits(&forms[i], src, bytes)) return 1;
    }
    return 0;
}

static uint32_t refusal_of(const uint8_t *rest, size_t bytes) {
    if (bytes == 0) return SHADER_REFUSAL_NONE;
    return begins(rest, bytes) ? SHADER_REFUSAL_CUT : SHADER_REFUSAL_UTF8;
}

static void try_row(const uint8_t *row, size_t bytes) {
    uint32_t lines[5];
    size_t at = 0, length = 1;
    while (at < bytes && length > 0) {
        length = whole(row + at, bytes - at);
        at += length;
    }
    CHECK(shader_utf8_error(row, bytes) == at);
    CHECK(shader_line_table(row, bytes, lines, LENGTH(lines)).refusal == refusal_of(row + at, bytes - at));
}

static void short_rows(void) {
    uint8_t row[3];
    for (uint32_t number = 0; number < 1u << 24; number++) {
        row[0] = number & 255;
        row[1] = number >> 8 & 255;
        row[2] = number >> 16;
        if (number < 1u << 8) try_row(row, 1);
        if (number < 1u << 16) try_row(row, 2);
        try_row(row, 3);
    }
}

static const uint8_t edges[] = {0x00, 0x7F, 0x80, 0x8F, 0x90, 0x9F, 0xA0, 0xBF, 0xC0, 0xC1, 0xC2, 0xDF,
                                0xE0, 0xE1, 0xEC, 0xED, 0xEE, 0xEF, 0xF0, 0xF1, 0xF3, 0xF4, 0xF5, 0xFF};

static void rows_of_edges(void) {
    const size_t n = LENGTH(edges);
    for (size_t number = 0; number < n * n * n * n; number++) {
        uint8_t row[4];
        for (size_t i = 0, rest = number; i < 4; i++, rest /= n) row[i] = edges[rest % n];
        try_row(row, 4);
    }
}

int main(void) {
    short_rows();
    rows_of_edges();
    return told("utf8");
}
