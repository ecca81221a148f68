/* What the trials of the library share. */
#ifndef TRIALS_H
#define TRIALS_H

#include "typst_syntax.h"

#include <stdint.h>
#include <stdio.h>
#include <stdlib.h>
#include <string.h>

/* How many results were right, of how many. */
typedef struct tally {
    const char *name;
    unsigned long right, all;
} tally;

/* Counts a result, and reports the first ones that are wrong. */
void count(tally *tally, int is_right, const char *what);

/* All that a source reports of itself. */
typedef struct whole {
    typst_sizes sizes;
    typst_node *nodes;
    typst_remark *remarks;
    uint8_t *messages;
    uint8_t *text;
} whole;

whole read_whole(typst_source *source);
void free_whole(whole *all);

/* Whether two sources tell the same, spans aside or not. */
int is_same(const whole *one, const whole *other, int with_spans);

/* A source of a text, or the end of the program. */
typst_source *made(const uint8_t *text, size_t length);

/* Room that is never none, or the end of the program. */
void *room_for(size_t count, size_t size);

/* A number below a limit. */
size_t drawn(uint64_t *state, size_t limit);

/* A piece of Typst, drawn from a list. */
const char *piece(uint64_t *state);

/* The nearest byte before a place, or that one, at which a character begins. */
size_t boundary(const uint8_t *text, size_t length, size_t at);

/* The trials. Each adds to a tally. */
void try_edits(tally *tally, uint64_t seed, unsigned long many);
void try_refusals(tally *tally);
void try_codes(tally *tally);
void try_names(tally *tally);
void try_positions(tally *tally, uint64_t seed, unsigned long many);
void try_chains(tally *tally, size_t links);
void try_threads(tally *tally, unsigned long many);
void try_large(tally *tally);

/* From here on requests for memory with the numbers from `first` to `last` are refused, counted from 1. */
void refuse(unsigned long first, unsigned long last);

/* Ends that, and answers how many requests there were. */
unsigned long allow(void);

/* How many blocks of memory are in use. */
long blocks(void);

#endif
