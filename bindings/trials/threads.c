/* Threads: two at a time, each with a source of its own, which is made by one and freed by another. */
#include "trials.h"

#include <pthread.h>

typedef struct job {
    tally tally;
    uint64_t seed;
    unsigned long many;
    typst_source *kept;
} job;

static void *work(void *given)
{
    job *job = given;
    const uint8_t *text = (const uint8_t *)"= Kept *a*";
    whole all = read_whole(job->kept);

    count(&job->tally, all.sizes.text == 10 && memcmp(all.text, text, 10) == 0, "a source of another thread");
    free_whole(&all);
    typst_source_free(job->kept);
    try_edits(&job->tally, job->seed, job->many);
    job->kept = made(text, 10);
    return NULL;
}

void try_threads(tally *tally, unsigned long many)
{
    pthread_t threads[2];
    job jobs[2];
    size_t i;

    for (i = 0; i < 2; i++) {
        jobs[i] = (job){{"threads", 0, 0}, i + 1, many, made((const uint8_t *)"= Kept *a*", 10)};
        if (pthread_create(&threads[i], NULL, work, &jobs[i]) != 0)
            exit(2);
    }
    for (i = 0; i < 2; i++) {
        pthread_join(threads[i], NULL);
        typst_source_free(jobs[i].kept);
        tally->right += jobs[i].tally.right;
        tally->all += jobs[i].tally.all;
    }
}
