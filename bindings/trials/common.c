/* What the trials share. */
#include "trials.h"

void count(tally *tally, int is_right, const char *what)
{
    tally->all++;
    tally->right += is_right;
    if (!is_right && tally->all - tally->right <= 10)
        fprintf(stderr, "%s: not right, number %lu: %s\n", tally->name, tally->all, what);
}

void *room_for(size_t count, size_t size)
{
    void *room = malloc((count + 1) * size);

    if (room == NULL) {
        fputs("out of memory\n", stderr);
        exit(2);
    }
    return room;
}

typst_source *made(const uint8_t *text, size_t length)
{
    typst_source *source;
    uint32_t code = typst_source_new(1, text, length, &source);

    if (code != TYPST_OK) {
        fprintf(stderr, "typst_source_new: code %u\n", (unsigned)code);
        exit(2);
    }
    return source;
}

whole read_whole(typst_source *source)
{
    whole all;
    typst_said said;
    size_t nodes, text;

    if (typst_source_sizes(source, &all.sizes) != TYPST_OK)
        exit(2);
    all.nodes = room_for(all.sizes.nodes, sizeof *all.nodes);
    all.remarks = room_for(all.sizes.remarks, sizeof *all.remarks);
    all.messages = room_for(all.sizes.messages, 1);
    all.text = room_for(all.sizes.text, 1);
    text = typst_source_text(source, all.text, all.sizes.text);
    if (typst_source_nodes(source, all.nodes, all.sizes.nodes, &nodes) != TYPST_OK
        || typst_source_remarks(source, all.remarks, all.sizes.remarks, all.messages, all.sizes.messages, &said) != TYPST_OK
        || text != all.sizes.text || nodes != all.sizes.nodes || said.remarks != all.sizes.remarks
        || said.messages != all.sizes.messages) {
        fputs("the calls of a source tell different sizes\n", stderr);
        exit(2);
    }
    return all;
}

void free_whole(whole *all)
{
    free(all->nodes);
    free(all->remarks);
    free(all->messages);
    free(all->text);
}

/* Whether two records are the same, spans aside or not. */
static int is_same_node(const typst_node *one, const typst_node *other, int with_spans)
{
    typst_node first = *one, second = *other;

    if (!with_spans)
        first.span = second.span = 0;
    return memcmp(&first, &second, sizeof first) == 0;
}

int is_same(const whole *one, const whole *other, int with_spans)
{
    size_t i;

    if (memcmp(&one->sizes, &other->sizes, sizeof one->sizes) != 0)
        return 0;
    for (i = 0; i < one->sizes.nodes; i++)
        if (!is_same_node(&one->nodes[i], &other->nodes[i], with_spans))
            return 0;
    return memcmp(one->remarks, other->remarks, one->sizes.remarks * sizeof *one->remarks) == 0
        && memcmp(one->messages, other->messages, one->sizes.messages) == 0
        && memcmp(one->text, other->text, one->sizes.text) == 0;
}

size_t drawn(uint64_t *state, size_t limit)
{
    *state ^= *state << 13;
    *state ^= *state >> 7;
    *state ^= *state << 17;
    return limit == 0 ? 0 : (size_t)(*state >> 11) % limit;
}

const char *piece(uint64_t *state)
{
    static const char *const pieces[] = {"a", " ", "\n", "\n\n", "*", "_", "= ", "== ", "- ", "+ ", "/ ", ": ", "#",
        "#let x = 1\n", "#f(1, y: 2)", "[", "]", "{", "}", "(", ")", "$", "$x^2$", "/* */", "// c\n", "/*", "*/", "`",
        "```", "```rust fn```", "\"", "'", "\\", "@t", "<t>", "https://a.b/(c)", "é", "💛", "\r\n", "\xe2\x80\xa8", "1.5em",
        "#if x [a] else [b]", "#for i in (1, 2) { i }", "#(a, b) => a + b", "#show: it => it", "#import \"a\": b", ".", ";"};

    return pieces[drawn(state, sizeof pieces / sizeof *pieces)];
}

size_t boundary(const uint8_t *text, size_t length, size_t at)
{
    while (at > 0 && at < length && (text[at] & 0xc0) == 0x80)
        at--;
    return at;
}
