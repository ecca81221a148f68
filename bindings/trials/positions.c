/* Lines, columns and UTF-16 units of each byte of random texts, beside counts of what stands before it; and the bytes of
   nodes by their spans. */
#include "trials.h"

/* How many bytes the line end has that a text begins with, or 0. */
static size_t line_end(const uint8_t *text, size_t length)
{
    if (length >= 2 && memcmp(text, "\r\n", 2) == 0)
        return 2;
    if (length >= 1 && text[0] >= '\n' && text[0] <= '\r')
        return 1;
    if (length >= 2 && memcmp(text, "\xc2\x85", 2) == 0)
        return 2;
    return length >= 3 && (memcmp(text, "\xe2\x80\xa8", 3) == 0 || memcmp(text, "\xe2\x80\xa9", 3) == 0) ? 3 : 0;
}

static int begins(uint8_t byte)
{
    return (byte & 0xc0) != 0x80;
}

/* Whether a byte has a position, and the position leads back to it in each unit. */
static int is_placed(typst_source *source, size_t byte, size_t start, const typst_position *wanted)
{
    typst_position told;
    size_t back[3] = {0, 0, 0};
    int is_right = typst_source_position(source, byte, &told) == TYPST_OK && memcmp(&told, wanted, sizeof told) == 0;

    is_right = is_right && typst_source_byte(source, told.line, told.column, TYPST_CHARACTERS, &back[0]) == TYPST_OK;
    is_right = is_right && typst_source_byte(source, told.line, told.utf16_column, TYPST_UTF16, &back[1]) == TYPST_OK;
    is_right = is_right && typst_source_byte(source, told.line, byte - start, TYPST_BYTES, &back[2]) == TYPST_OK;
    return is_right && back[0] == byte && back[1] == byte && back[2] == byte;
}

static void try_text(tally *tally, typst_source *source, const uint8_t *text, size_t length)
{
    typst_position at = {0, 0, 0, 0}, told;
    size_t byte, start = 0, end_at = (size_t)-1;

    for (byte = 0; byte <= length; byte++) {
        if (byte == end_at) {
            at.line++;
            at.column = at.utf16_column = 0;
            start = byte;
        }
        if (byte < length && !begins(text[byte])) {
            count(tally, typst_source_position(source, byte, &told) == TYPST_BAD_RANGE, "a byte within a character");
            continue;
        }
        count(tally, is_placed(source, byte, start, &at), "a position");
        if (byte < length) {
            size_t width = line_end(text + byte, length - byte), units = text[byte] >= 0xf0 ? 2 : 1;

            end_at = width > 0 && (end_at == (size_t)-1 || end_at <= byte) ? byte + width : end_at;
            at.column++;
            at.utf16_column += units;
            at.utf16 += units;
        }
    }
}

/* The bytes of each node by its span. */
static void try_spans(tally *tally, typst_source *source)
{
    whole all = read_whole(source);
    typst_stretch range = {7, 7};
    uint8_t found = 7;
    size_t i;

    for (i = 0; i < all.sizes.nodes; i++) {
        uint32_t code = typst_source_range(source, all.nodes[i].span, &found, &range);

        count(tally, code == TYPST_OK && found == 1 && range.start == all.nodes[i].start && range.end == all.nodes[i].end, "a span");
    }
    range.start = range.end = 7;
    count(tally, typst_source_range(source, all.nodes[0].span + 1, &found, &range) == TYPST_OK && found == 0, "no span");
    found = 7;
    count(tally, typst_source_range(source, all.nodes[0].span + (UINT64_C(1) << 48), &found, &range) == TYPST_OK && found == 0, "no file");
    found = 7;
    count(tally, typst_source_range(source, 0, &found, &range) == TYPST_OK && found == 0 && range.start == 7, "a detached span");
    free_whole(&all);
}

void try_positions(tally *tally, uint64_t seed, unsigned long many)
{
    uint64_t state = seed * 2654435761u + 88172645463325252u;

    while (many-- > 0) {
        uint8_t text[1024];
        size_t length = 0, pieces = drawn(&state, 20);
        typst_source *source;

        while (pieces-- > 0) {
            const char *one = piece(&state);
            memcpy(text + length, one, strlen(one));
            length += strlen(one);
        }
        source = made(text, length);
        try_text(tally, source, text, length);
        try_spans(tally, source);
        typst_source_free(source);
    }
}
