/* Names of kinds and tags by their numbers, and back. */
#include "trials.h"

#define KIND(number, name) number,
#define TAG(number, name) number,
static const uint32_t kinds[] = {TYPST_KINDS(KIND)}, tags[] = {TYPST_TAGS(TAG)};
#define KIND_COUNT (sizeof kinds / sizeof *kinds)
#define TAG_COUNT (sizeof tags / sizeof *tags)

/* Whether a name is put into room that is too small only as far as it fits. */
static int is_cut(size_t (*name)(uint32_t, uint8_t *, size_t), uint32_t number, const uint8_t *whole, size_t length)
{
    uint8_t room[64];

    memset(room, '?', sizeof room);
    return name(number, room, length / 2) == length && memcmp(room, whole, length / 2) == 0 && room[length / 2] == '?';
}

void try_names(tally *tally)
{
    uint8_t room[64], other[64];
    uint32_t number;

    count(tally, typst_kind_count() == KIND_COUNT, "the count of kinds");
    for (number = 0; number < KIND_COUNT; number++) {
        size_t length = typst_kind_name(number, room, sizeof room);
        uint32_t kind = typst_kind_of(room, length);

        count(tally, length > 0 && kind < KIND_COUNT && typst_kind_name(kind, other, sizeof other) == length
            && memcmp(room, other, length) == 0 && is_cut(typst_kind_name, number, room, length), "the name of a kind");
    }
    for (number = 1; number <= TAG_COUNT; number++) {
        size_t length = typst_tag_name(number, room, sizeof room);

        count(tally, length > 4 && memcmp(room, "typ-", 4) == 0 && is_cut(typst_tag_name, number, room, length), "the name of a tag");
    }
    memset(room, '?', sizeof room);
    count(tally, typst_kind_name(KIND_COUNT, room, 64) == 0 && typst_kind_name(UINT32_MAX, room, 64) == 0 && room[0] == '?', "no kind");
    count(tally, typst_tag_name(0, room, 64) == 0 && typst_tag_name(TAG_COUNT + 1, room, 64) == 0 && room[0] == '?', "no tag");
    count(tally, typst_kind_of(room, 0) == UINT32_MAX && typst_kind_of(room, 3) == UINT32_MAX, "no name");
    count(tally, typst_kind_of((const uint8_t *)"line comment", 12) == TYPST_KIND_LINE_COMMENT, "line comment");
    count(tally, typst_tag_name(TYPST_TAG_KEYWORD, room, 64) == 7 && memcmp(room, "typ-key", 7) == 0, "typ-key");
}
