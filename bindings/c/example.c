/* Reads a document of Typst from standard input, and prints what the library says of it.
 *
 *     example                        of a small document: its tree, an edit, and the tree after it
 *     example tree                   the tree, with bytes and what is said of nodes
 *     example tags                   the bytes and the tag of each node that has one
 *     example html                   the text as HTML
 *     example edit START END TEXT    the bytes that an edit reads again, and the tree after it
 *
 * It ends with status 1 if a call is refused, and prints its code.
 */
#include "typst_syntax.h"

#include <stdio.h>
#include <stdlib.h>
#include <string.h>

#define NAMED(number, name) #name,
static const char *const kind_names[] = {TYPST_KINDS(NAMED)};
static const char *const tag_names[] = {"", TYPST_TAGS(NAMED)};

/* All of a source: its records, and the texts of what is said. */
typedef struct whole {
    typst_sizes sizes;
    typst_node *nodes;
    typst_remark *remarks;
    uint8_t *messages;
} whole;

/* Ends the program where a call was refused. */
static void must(uint32_t code, const char *call)
{
    if (code != TYPST_OK) {
        fprintf(stderr, "%s: code %u\n", call, (unsigned)code);
        exit(1);
    }
}

/* Room for so many things, and never none. */
static void *room_for(size_t count, size_t size)
{
    void *room = calloc(count + 1, size);
    if (room == NULL) {
        fputs("out of memory\n", stderr);
        exit(1);
    }
    return room;
}

/* Asks a source how much there is, makes room, and asks for all of it. */
static whole whole_of(typst_source *source)
{
    whole all;
    typst_said said;
    size_t count;

    must(typst_source_sizes(source, &all.sizes), "typst_source_sizes");
    all.nodes = room_for(all.sizes.nodes, sizeof *all.nodes);
    all.remarks = room_for(all.sizes.remarks, sizeof *all.remarks);
    all.messages = room_for(all.sizes.messages, 1);
    must(typst_source_nodes(source, all.nodes, all.sizes.nodes, &count), "typst_source_nodes");
    must(typst_source_remarks(source, all.remarks, all.sizes.remarks, all.messages, all.sizes.messages, &said),
        "typst_source_remarks");
    return all;
}

static void free_whole(whole *all)
{
    free(all->nodes);
    free(all->remarks);
    free(all->messages);
}

/* How many bytes the line end has that a text begins with, or 0. */
static size_t line_end(const uint8_t *text, size_t length)
{
    if (length >= 1 && text[0] >= '\n' && text[0] <= '\r')
        return 1;
    if (length >= 2 && memcmp(text, "\xc2\x85", 2) == 0)
        return 2;
    if (length >= 3 && (memcmp(text, "\xe2\x80\xa8", 3) == 0 || memcmp(text, "\xe2\x80\xa9", 3) == 0))
        return 3;
    return 0;
}

/* Prints a message in one line. */
static void print_message(const whole *all, const typst_remark *remark)
{
    const uint8_t *text = all->messages + remark->message;
    size_t i, width;

    for (i = 0; i < remark->message_len; i += width ? width : 1) {
        width = line_end(text + i, remark->message_len - i);
        putchar(width ? ' ' : text[i]);
    }
    putchar('\n');
}

static void indent(unsigned depth)
{
    while (depth-- > 0)
        fputs("  ", stdout);
}

/* Prints what is said of a node, from a remark on, and gives the first remark of another one. An error's own
   message stands in the node's line. */
static size_t print_remarks(const whole *all, const typst_node *node, size_t next, unsigned depth)
{
    static const char *const labels[] = {"", "error: ", "warning: ", "hint: "};
    size_t first = next;

    for (; next < all->sizes.remarks && all->remarks[next].node == node->number; next++) {
        if (next == first)
            putchar(node->flags & TYPST_IS_ERROR ? ' ' : '\n');
        if (next > first || !(node->flags & TYPST_IS_ERROR)) {
            indent(depth + 1);
            fputs(labels[all->remarks[next].severity], stdout);
        }
        print_message(all, &all->remarks[next]);
    }
    if (next == first)
        putchar('\n');
    return next;
}

/* Prints the nodes, each a level deeper than its parent. */
static void print_tree(typst_source *source)
{
    whole all = whole_of(source);
    unsigned *depths = room_for(all.sizes.nodes, sizeof *depths);
    size_t i, next = 0;

    for (i = 0; i < all.sizes.nodes; i++) {
        const typst_node *node = &all.nodes[i];
        depths[i] = i == 0 ? 0 : depths[node->parent] + 1;
        indent(depths[i]);
        printf("%s %u..%u", kind_names[node->kind], (unsigned)node->start, (unsigned)node->end);
        next = print_remarks(&all, node, next, depths[i]);
    }
    free(depths);
    free_whole(&all);
}

static void print_tags(typst_source *source)
{
    whole all = whole_of(source);
    size_t i;

    for (i = 0; i < all.sizes.nodes; i++) {
        const typst_node *node = &all.nodes[i];
        if (node->tag != 0)
            printf("%u..%u %s\n", (unsigned)node->start, (unsigned)node->end, tag_names[node->tag]);
    }
    free_whole(&all);
}

/* Prints a text as HTML: with room for as much as it mostly becomes, and again where that was too little. */
static void print_html(const uint8_t *text, size_t length)
{
    size_t room_length = 8 * length, count = 0;
    uint8_t *room = room_for(room_length, 1);

    must(typst_highlight_html(text, length, room, room_length, &count), "typst_highlight_html");
    if (count > room_length) {
        free(room);
        room_length = count;
        room = room_for(room_length, 1);
        must(typst_highlight_html(text, length, room, room_length, &count), "typst_highlight_html");
    }
    fwrite(room, 1, count, stdout);
    putchar('\n');
    free(room);
}

/* Edits a source and prints which bytes were read again, and the tree. */
static void print_edit(typst_source *source, size_t start, size_t end, const char *with)
{
    typst_stretch changed;

    must(typst_source_edit(source, start, end, (const uint8_t *)with, strlen(with), &changed), "typst_source_edit");
    printf("%zu..%zu\n", changed.start, changed.end);
    print_tree(source);
}

/* Reads standard input to its end. */
static uint8_t *read_all(size_t *length)
{
    size_t room = 1 << 16, more;
    uint8_t *text = room_for(room, 1);

    *length = 0;
    while ((more = fread(text + *length, 1, room - *length, stdin)) > 0) {
        *length += more;
        if (*length == room) {
            room *= 2;
            text = realloc(text, room);
            if (text == NULL)
                must(TYPST_NO_MEMORY, "realloc");
        }
    }
    return text;
}

static typst_source *source_of(const uint8_t *text, size_t length)
{
    typst_source *source;

    must(typst_source_new(1, text, length, &source), "typst_source_new");
    return source;
}

/* What a program without words shows: a star is missing, and an edit puts it there. */
static void show(void)
{
    const char *text = "= Hi *a\n#let x = (1, 2)\n";
    typst_source *source = source_of((const uint8_t *)text, strlen(text));

    print_tree(source);
    print_edit(source, 7, 7, "*");
    typst_source_free(source);
}

int main(int count, char **words)
{
    const char *word = count > 1 ? words[1] : "";
    typst_source *source;
    uint8_t *text;
    size_t length;

    if (typst_abi_version() != TYPST_ABI_VERSION) {
        fputs("the library has another version\n", stderr);
        return 1;
    }
    if (count == 1) {
        show();
        return 0;
    }
    text = read_all(&length);
    source = source_of(text, length);
    if (strcmp(word, "tree") == 0 && count == 2)
        print_tree(source);
    else if (strcmp(word, "tags") == 0 && count == 2)
        print_tags(source);
    else if (strcmp(word, "html") == 0 && count == 2)
        print_html(text, length);
    else if (strcmp(word, "edit") == 0 && count == 5)
        print_edit(source, strtoull(words[2], NULL, 10), strtoull(words[3], NULL, 10), words[4]);
    else
        fputs("usage: example [tree | tags | html | edit START END TEXT] < FILE\n", stderr);
    typst_source_free(source);
    free(text);
    return 0;
}
