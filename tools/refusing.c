/* Refuses one request for memory of the program into which it is loaded (LD_PRELOAD).
 *
 * REFUSED=N      the N-th request gets none; requests are counted from 1
 * REFUSED=N+     so do all after it
 * A refusal is told by a byte on file descriptor 3, so that a run in which there was none is known.
 * It stands on glibc's own names of its allocator. */
#include <errno.h>
#include <stddef.h>
#include <stdlib.h>
#include <unistd.h>

extern void *__libc_malloc(size_t size);
extern void *__libc_calloc(size_t count, size_t size);
extern void *__libc_realloc(void *old, size_t size);
extern void *__libc_memalign(size_t alignment, size_t size);

static unsigned long requests;

/* Whether this request is to be refused. */
static int is_refused(void)
{
    const char *wanted = getenv("REFUSED");
    char *rest;
    unsigned long place;

    requests++;
    if (wanted == NULL)
        return 0;
    place = strtoul(wanted, &rest, 10);
    if (requests != place && !(*rest == '+' && requests > place))
        return 0;
    /* Where nobody listens the refusal stands all the same. */
    if (write(3, "r", 1) != 1)
        errno = 0;
    errno = ENOMEM;
    return 1;
}

void *malloc(size_t size)
{
    return is_refused() ? NULL : __libc_malloc(size);
}

void *calloc(size_t count, size_t size)
{
    return is_refused() ? NULL : __libc_calloc(count, size);
}

void *realloc(void *old, size_t size)
{
    return is_refused() ? NULL : __libc_realloc(old, size);
}

void *aligned_alloc(size_t alignment, size_t size)
{
    return is_refused() ? NULL : __libc_memalign(alignment, size);
}

int posix_memalign(void **place, size_t alignment, size_t size)
{
    void *memory = is_refused() ? NULL : __libc_memalign(alignment, size);

    if (memory == NULL)
        return ENOMEM;
    *place = memory;
    return 0;
}
