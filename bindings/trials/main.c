/* Tries the library: each word is a trial, which prints how many results agreed.
 *
 *     trials [edits SEED COUNT] [refusals] [codes] [names]
 *            [positions SEED COUNT] [chains LINKS] [threads COUNT] [large]
 *
 * It ends with status 1 where one didn't.
 */
#include "trials.h"

static unsigned long number(const char *word)
{
    return word == NULL ? 0 : strtoul(word, NULL, 10);
}

/* Makes the trial of a word, and answers how many words it took. */
static int try_one(tally *tally, char **words)
{
    tally->name = words[0];
    if (strcmp(words[0], "edits") == 0 && words[1] != NULL)
        return try_edits(tally, number(words[1]), number(words[2])), 3;
    if (strcmp(words[0], "positions") == 0 && words[1] != NULL)
        return try_positions(tally, number(words[1]), number(words[2])), 3;
    if (strcmp(words[0], "names") == 0)
        return try_names(tally), 1;
    if (strcmp(words[0], "chains") == 0)
        return try_chains(tally, number(words[1])), 2;
    if (strcmp(words[0], "threads") == 0)
        return try_threads(tally, number(words[1])), 2;
    if (strcmp(words[0], "refusals") == 0)
        return try_refusals(tally), 1;
    if (strcmp(words[0], "codes") == 0)
        return try_codes(tally), 1;
    if (strcmp(words[0], "large") == 0)
        return try_large(tally), 1;
    fprintf(stderr, "there is no trial %s\n", words[0]);
    exit(2);
}

int main(int count, char **words)
{
    int at, is_right = 1;

    for (at = 1; at < count;) {
        tally tally = {"", 0, 0};

        at += try_one(&tally, words + at);
        printf("%s: %lu of %lu agree\n", tally.name, tally.right, tally.all);
        fflush(stdout);
        is_right = is_right && tally.right == tally.all && tally.all > 0;
    }
    return !is_right;
}
