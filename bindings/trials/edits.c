/* Random edits: a source that was edited reports the same as one that is newly made of the text. */
#include "trials.h"

/* From this length on a text is cut. */
#define LARGEST 1500

/* The text as it should be. */
typedef struct text {
    uint8_t bytes[LARGEST + 64];
    size_t length;
} text;

static void splice(text *text, size_t start, size_t end, const uint8_t *with, size_t length)
{
    memmove(text->bytes + start + length, text->bytes + end, text->length - end);
    memcpy(text->bytes + start, with, length);
    text->length += length - (end - start);
}

/* Whether the numbers of the nodes go up, and all name the file. */
static int is_numbered(const whole *all)
{
    size_t i;

    for (i = 0; i < all->sizes.nodes; i++)
        if (TYPST_SPAN_FILE(all->nodes[i].span) != 1 || (i > 0 && all->nodes[i].span <= all->nodes[i - 1].span))
            return 0;
    return 1;
}

/* Whether the nodes that meet a stretch are those of all nodes that do. */
static int is_part(typst_source *source, const whole *all, size_t start, size_t end)
{
    typst_node *room = room_for(all->sizes.nodes, sizeof *room);
    size_t i, met = 0, told = 0;
    int is_right = typst_source_nodes_in(source, start, end, room, all->sizes.nodes, &told) == TYPST_OK;

    for (i = 0; i < all->sizes.nodes && is_right; i++)
        if (all->nodes[i].start <= end && start <= all->nodes[i].end)
            is_right = met < told && memcmp(&room[met++], &all->nodes[i], sizeof *room) == 0;
    free(room);
    return is_right && met == told;
}

/* Whether records are those of a source's nodes, without numbers. */
static int is_unnumbered(const typst_node *room, const whole *all)
{
    size_t i;

    for (i = 0; i < all->sizes.nodes; i++) {
        typst_node node = all->nodes[i];
        node.span = 0;
        if (memcmp(&room[i], &node, sizeof node) != 0)
            return 0;
    }
    return 1;
}

/* Whether the calls without a source tell the same of a text as the source. */
static int is_parsed(const text *text, const whole *all)
{
    typst_node *room = room_for(all->sizes.nodes, sizeof *room);
    typst_remark *remarks = room_for(all->sizes.remarks, sizeof *remarks);
    uint8_t *messages = room_for(all->sizes.messages, 1);
    typst_sizes sizes = {0, 0, 0, 0};
    size_t told = 0;
    int is_right = typst_parse(TYPST_MARKUP, text->bytes, text->length, room, all->sizes.nodes, &told) == TYPST_OK
        && told == all->sizes.nodes && is_unnumbered(room, all);

    memset(room, 0, all->sizes.nodes * sizeof *room);
    is_right = is_right
        && typst_parse_all(TYPST_MARKUP, text->bytes, text->length, room, all->sizes.nodes, remarks, all->sizes.remarks,
               messages, all->sizes.messages, &sizes) == TYPST_OK
        && memcmp(&sizes, &all->sizes, sizeof sizes) == 0 && is_unnumbered(room, all)
        && memcmp(remarks, all->remarks, sizes.remarks * sizeof *remarks) == 0
        && memcmp(messages, all->messages, sizes.messages) == 0;
    free(room);
    free(remarks);
    free(messages);
    return is_right;
}

/* Whether a source reports of a text what one reports that is newly made of it. */
static int agrees(typst_source *source, const text *text, uint64_t *state)
{
    typst_source *fresh = made(text->bytes, text->length);
    whole one = read_whole(source), other = read_whole(fresh);
    size_t start = drawn(state, text->length + 1);
    int is_right = is_same(&one, &other, 0) && is_numbered(&one) && one.sizes.text == text->length
        && memcmp(one.text, text->bytes, text->length) == 0
        && is_part(source, &one, start, start + drawn(state, 80)) && is_parsed(text, &one);

    free_whole(&one);
    free_whole(&other);
    typst_source_free(fresh);
    return is_right;
}

/* Makes one edit: of a range, or by the whole text that comes of it. A text that has become long loses much. */
static uint32_t edit(typst_source *source, text *text, uint64_t *state, typst_stretch *changed)
{
    size_t start = boundary(text->bytes, text->length, drawn(state, text->length > LARGEST ? 10 : text->length + 1));
    size_t rest = text->length - start;
    size_t most = text->length > LARGEST / 2 || rest < 12 ? rest : 12;
    size_t cut = text->length > LARGEST ? rest / 2 : drawn(state, most + 1);
    size_t end = boundary(text->bytes, text->length, start + cut);
    const uint8_t *with = (const uint8_t *)piece(state);
    size_t length = strlen((const char *)with);

    splice(text, start, end, with, length);
    if (drawn(state, 4) == 0)
        return typst_source_replace(source, text->bytes, text->length, changed);
    return typst_source_edit(source, start, end, with, length, changed);
}

void try_edits(tally *tally, uint64_t seed, unsigned long many)
{
    uint64_t state = seed * 2654435761u + 88172645463325252u;
    text text = {{0}, 0};
    typst_source *source = made(text.bytes, 0), *copied;
    unsigned long i;

    for (i = 0; i < many; i++) {
        typst_stretch changed = {1, 0};
        uint32_t code = edit(source, &text, &state, &changed);
        int is_right = code == TYPST_OK && changed.start <= changed.end && changed.end <= text.length;

        count(tally, is_right && agrees(source, &text, &state), "an edit");
        if (drawn(&state, 50) == 0 && typst_source_clone(source, &copied) == TYPST_OK) {
            typst_source_free(source);
            source = copied;
        }
    }
    typst_source_free(source);
}
