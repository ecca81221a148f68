/* Laid under a program by LD_PRELOAD, refuses those of its requests for memory that have the numbers from
   REFUSE_FROM to REFUSE_TO, counted from 1, and in the end writes to the file REFUSE_COUNT how many there were. */
#include <errno.h>
#include <stdio.h>
#include <stdlib.h>

extern void *__libc_malloc(size_t), *__libc_realloc(void *, size_t), *__libc_memalign(size_t, size_t);

static unsigned long made, from = -1UL, to;

__attribute__((constructor)) static void begin(void) {
    const char *first = getenv("REFUSE_FROM"), *last = getenv("REFUSE_TO");
    made = 0;
    if (first && last)
        from = strtoul(first, NULL, 10), to = strtoul(last, NULL, 10);
}

static int refused(void) {
    made++;
    return from <= made && made <= to ? (errno = ENOMEM, 1) : 0;
}

void *malloc(size_t size) { return refused() ? NULL : __libc_malloc(size); }
void *realloc(void *old, size_t size) { return refused() ? NULL : __libc_realloc(old, size); }
void *aligned_alloc(size_t align, size_t size) { return refused() ? NULL : __libc_memalign(align, size); }

__attribute__((destructor)) static void end(void) {
    const char *name = getenv("REFUSE_COUNT");
    unsigned long count = made;
    from = -1UL;
    FILE *file = name ? fopen(name, "w") : NULL;
    if (file)
        fprintf(file, "%lu\n", count), fclose(file);
}
