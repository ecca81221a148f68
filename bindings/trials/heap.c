/* The heap with requests that can be refused and blocks that are counted. The linker puts these functions in the
   place of malloc, realloc and free (--wrap). */
#include "trials.h"

#include <errno.h>
#include <stdatomic.h>

void *__real_malloc(size_t size);
void *__real_realloc(void *old, size_t size);
void __real_free(void *block);

static atomic_ulong asked, from = -1UL, to;
static atomic_long live;

void refuse(unsigned long first, unsigned long last)
{
    asked = 0;
    from = first;
    to = last;
}

unsigned long allow(void)
{
    from = -1UL;
    return asked;
}

long blocks(void)
{
    return live;
}

static int is_refused(void)
{
    unsigned long number = atomic_fetch_add(&asked, 1) + 1;

    if (number < from || number > to)
        return 0;
    errno = ENOMEM;
    return 1;
}

void *__wrap_malloc(size_t size)
{
    void *block = is_refused() ? NULL : __real_malloc(size);

    live += block != NULL;
    return block;
}

void *__wrap_realloc(void *old, size_t size)
{
    void *block = is_refused() ? NULL : __real_realloc(old, size);

    live += block != NULL && old == NULL;
    return block;
}

void __wrap_free(void *block)
{
    live -= block != NULL;
    __real_free(block);
}
