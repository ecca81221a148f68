/* Chains: trees as deep as their text is long. */
#include "trials.h"

/* A text of a beginning, a link many times, and an end. */
static uint8_t *chain(const char *head, const char *link, const char *tail, size_t links, size_t *length)
{
    size_t front = strlen(head), each = strlen(link), back = strlen(tail), i;
    uint8_t *text = room_for(front + each * links + back, 1);

    memcpy(text, head, front);
    for (i = 0; i < links; i++)
        memcpy(text + front + i * each, link, each);
    memcpy(text + front + links * each, tail, back);
    *length = front + links * each + back;
    return text;
}

/* Whether a chain is read, reported, edited at its end and in its middle, and reported again as a newly made one is. */
static int is_done(const uint8_t *text, size_t length, size_t links, const char *with)
{
    typst_source *source = made(text, length), *copied;
    whole before = read_whole(source), after;
    typst_stretch changed;
    size_t deepest = 0, i, *depths = room_for(before.sizes.nodes, sizeof *depths);
    int is_right;

    for (i = 1, depths[0] = 0; i < before.sizes.nodes; i++) {
        depths[i] = depths[before.nodes[i].parent] + 1;
        deepest = depths[i] > deepest ? depths[i] : deepest;
    }
    is_right = deepest >= links && typst_source_clone(source, &copied) == TYPST_OK;
    is_right = is_right && typst_source_edit(source, length / 2, length / 2, (const uint8_t *)with, strlen(with), &changed) == TYPST_OK
        && typst_source_edit(source, length / 2, length / 2 + strlen(with), (const uint8_t *)"", 0, &changed) == TYPST_OK;
    after = read_whole(source);
    is_right = is_right && is_same(&before, &after, 0);
    free(depths);
    free_whole(&before);
    free_whole(&after);
    typst_source_free(source);
    typst_source_free(copied);
    return is_right;
}

void try_chains(tally *tally, size_t links)
{
    static const struct {
        const char *name, *head, *link, *tail;
    } chains[] = {{"sums", "#{1", "+1", "}"}, {"calls", "#f", "()", ""}, {"methods", "#a", ".b()", ""}, {"fields", "#a", ".b", ""},
        {"fractions", "$1", "/1", "$"}, {"factorials", "$1", "!", "$"}};
    size_t i, length;

    for (i = 0; i < sizeof chains / sizeof *chains; i++) {
        uint8_t *text = chain(chains[i].head, chains[i].link, chains[i].tail, links, &length);

        count(tally, is_done(text, length, links, " "), chains[i].name);
        free(text);
    }
}
