/* Texts of 4 GB are refused, and not read: the program would end by a signal at the first byte. */
#define _DEFAULT_SOURCE
#include "trials.h"

#include <sys/mman.h>

void try_large(tally *tally)
{
    size_t length = (size_t)UINT32_MAX, told = 0;
    uint8_t *text = mmap(NULL, length + 4096, PROT_NONE, MAP_PRIVATE | MAP_ANONYMOUS | MAP_NORESERVE, -1, 0);
    typst_source *source = made((const uint8_t *)"*a*", 3), *none = NULL;
    whole before = read_whole(source), after;
    typst_sizes sizes;
    typst_stretch changed;
    typst_node node;
    uint32_t mode;

    if (text == MAP_FAILED)
        exit(2);
    for (mode = TYPST_MARKUP; mode <= TYPST_MATH; mode++) {
        count(tally, typst_parse(mode, text, length, &node, 1, &told) == TYPST_TOO_LARGE, "typst_parse");
        count(tally, typst_parse_all(mode, text, length, &node, 1, before.remarks, 0, before.text, 0, &sizes) == TYPST_TOO_LARGE,
            "typst_parse_all");
    }
    count(tally, typst_highlight_html(text, length, before.text, 0, &told) == TYPST_TOO_LARGE, "typst_highlight_html");
    count(tally, typst_source_new(1, text, length, &none) == TYPST_TOO_LARGE && none == NULL, "typst_source_new");
    count(tally, typst_source_new(1, text, length + 1, &none) == TYPST_TOO_LARGE && none == NULL, "typst_source_new");
    count(tally, typst_source_replace(source, text, length, &changed) == TYPST_TOO_LARGE, "typst_source_replace");
    count(tally, typst_source_edit(source, 0, 3, text, length, &changed) == TYPST_TOO_LARGE, "typst_source_edit of all");
    count(tally, typst_source_edit(source, 1, 1, text, length - 3, &changed) == TYPST_TOO_LARGE, "typst_source_edit within");
    after = read_whole(source);
    count(tally, is_same(&before, &after, 1), "a refused text changed something");
    free_whole(&before);
    free_whole(&after);
    typst_source_free(source);
    munmap(text, length + 4096);
}
