/* Preloaded into a program, refuses memory: the allocation whose number is in the variable REFUSE, counted from 1, and,
   where REFUSE_ON is set, each one after it. Where it refuses one it makes the file that the variable REFUSED names. */
#define _GNU_SOURCE
#include <errno.h>
#include <fcntl.h>
#include <stdatomic.h>
#include <stddef.h>
#include <stdlib.h>
#include <unistd.h>

extern void *__libc_malloc(size_t);
extern void *__libc_calloc(size_t, size_t);
extern void *__libc_realloc(void *, size_t);
extern void *__libc_memalign(size_t, size_t);

static atomic_long count;
static long number;
static int refuses_on;

__attribute__((constructor)) static void begin(void)
{
    const char *which = getenv("REFUSE");
    refuses_on = getenv("REFUSE_ON") != NULL;
    number = which == NULL ? 0 : atol(which);
}

static int is_refused(void)
{
    const char *path;
    long at;
    if (number == 0)
        return 0;
    at = atomic_fetch_add(&count, 1) + 1;
    if (refuses_on ? at < number : at != number)
        return 0;
    path = getenv("REFUSED");
    if (path != NULL)
        close(open(path, O_WRONLY | O_CREAT, 0600));
    errno = ENOMEM;
    return 1;
}

void *malloc(size_t size) { return is_refused() ? NULL : __libc_malloc(size); }

void *calloc(size_t items, size_t size) { return is_refused() ? NULL : __libc_calloc(items, size); }

void *realloc(void *old, size_t size) { return is_refused() ? NULL : __libc_realloc(old, size); }

void *memalign(size_t align, size_t size) { return is_refused() ? NULL : __libc_memalign(align, size); }

void *aligned_alloc(size_t align, size_t size) { return is_refused() ? NULL : __libc_memalign(align, size); }

int posix_memalign(void **into, size_t align, size_t size)
{
    if (is_refused())
        return ENOMEM;
    *into = __libc_memalign(align, size);
    return *into == NULL ? ENOMEM : 0;
}
