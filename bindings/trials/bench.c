/* Times calls on the text of standard input: `bench ROUNDS` prints lines of a name and nanoseconds, the least of all
   rounds.
 *
 *     parse      typst_parse with the records of all nodes
 *     bare       typst_parse without room for records
 *     source     typst_source_new, the records of all nodes, and typst_source_free
 *     edit       a letter put into the middle, and taken out: half of both
 *     screen     the same, each followed by the records of the 4,000 bytes around it
 *     nodes      the records of all nodes of a source
 */
#define _POSIX_C_SOURCE 199309L
#include "typst_syntax.h"

#include <stdio.h>
#include <stdlib.h>
#include <string.h>
#include <time.h>

#define LARGEST (64u << 20)
#define SCREEN 4000u

typedef struct text {
    uint8_t *bytes;
    size_t length, middle;
    typst_node *room;
    size_t count;
    typst_source *source;
} text;

static double now(void)
{
    struct timespec time;

    clock_gettime(CLOCK_MONOTONIC, &time);
    return 1e9 * (double)time.tv_sec + (double)time.tv_nsec;
}

static void must(uint32_t code)
{
    if (code != TYPST_OK) {
        fprintf(stderr, "bench: code %u\n", (unsigned)code);
        exit(1);
    }
}

static double parse(text *it)
{
    double start = now();

    must(typst_parse(TYPST_MARKUP, it->bytes, it->length, it->room, it->count, &it->count));
    return now() - start;
}

static double bare(text *it)
{
    double start = now();
    size_t count;

    must(typst_parse(TYPST_MARKUP, it->bytes, it->length, it->room, 0, &count));
    return now() - start;
}

static double source(text *it)
{
    double start = now();
    typst_source *made;

    must(typst_source_new(1, it->bytes, it->length, &made));
    must(typst_source_nodes(made, it->room, it->count, &it->count));
    typst_source_free(made);
    return now() - start;
}

static double nodes(text *it)
{
    double start = now();

    must(typst_source_nodes(it->source, it->room, it->count, &it->count));
    return now() - start;
}

/* The records around the middle, if they are wanted. */
static void show(text *it, int with_screen)
{
    size_t count, half = SCREEN / 2, start = it->middle < half ? 0 : it->middle - half;

    if (with_screen)
        must(typst_source_nodes_in(it->source, start, start + SCREEN, it->room, it->count, &count));
}

static double edits(text *it, int with_screen)
{
    typst_stretch changed;
    double start = now();

    must(typst_source_edit(it->source, it->middle, it->middle, (const uint8_t *)"a", 1, &changed));
    show(it, with_screen);
    must(typst_source_edit(it->source, it->middle, it->middle + 1, (const uint8_t *)"", 0, &changed));
    show(it, with_screen);
    return (now() - start) / 2;
}

static double edit(text *it)
{
    return edits(it, 0);
}

static double screen(text *it)
{
    return edits(it, 1);
}

/* Prints the least time of so many rounds. */
static void tell(const char *name, double (*call)(text *), text *it, unsigned long rounds)
{
    double best = call(it);

    while (rounds-- > 1) {
        double time = call(it);
        best = time < best ? time : best;
    }
    printf("%s %.0f\n", name, best);
}

int main(int count, char **words)
{
    unsigned long rounds = count > 1 ? strtoul(words[1], NULL, 10) : 20;
    text it;

    it.bytes = malloc(LARGEST);
    it.length = fread(it.bytes, 1, LARGEST, stdin);
    for (it.middle = it.length / 2; it.middle > 0 && (it.bytes[it.middle] & 0xc0) == 0x80;)
        it.middle--;
    it.room = malloc((it.length + 64) * sizeof *it.room);
    it.count = it.length + 64;
    must(typst_source_new(1, it.bytes, it.length, &it.source));
    must(typst_source_nodes(it.source, it.room, it.count, &it.count));
    memset(it.room, 0, (it.length + 64) * sizeof *it.room);
    it.count = it.length + 64;
    tell("parse", parse, &it, rounds);
    tell("bare", bare, &it, rounds);
    it.count = it.length + 64;
    tell("source", source, &it, rounds);
    it.count = it.length + 64;
    tell("nodes", nodes, &it, rounds);
    it.count = it.length + 64;
    tell("edit", edit, &it, rounds);
    tell("screen", screen, &it, rounds);
    typst_source_free(it.source);
    free(it.room);
    free(it.bytes);
    return 0;
}
