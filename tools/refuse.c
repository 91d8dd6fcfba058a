/* Refuses one request for memory of the program that it is loaded into before the C library: the one whose number REFUSE_AT says, counted
   from 1. The program says so on standard error, by the line `refused`. It is compiled and loaded by tools/torture. */
#include <errno.h>
#include <stdatomic.h>
#include <stddef.h>
#include <stdlib.h>
#include <unistd.h>

extern void *__libc_malloc(size_t size);
extern void *__libc_calloc(size_t count, size_t size);
extern void *__libc_realloc(void *old, size_t size);
extern void *__libc_memalign(size_t alignment, size_t size);

/* How many requests are left up to the one that is refused; 0 or less where none is. */
static atomic_long left;

__attribute__((constructor)) static void begin(void)
{
    const char *at = getenv("REFUSE_AT");
    atomic_store(&left, at ? atol(at) : 0);
}

static int is_refused(void)
{
    static const char said[] = "refused\n";
    if (atomic_fetch_sub(&left, 1) != 1)
        return 0;
    if (write(STDERR_FILENO, said, sizeof said - 1) < 0)
        abort();
    errno = ENOMEM;
    return 1;
}

void *malloc(size_t size)
{
    return is_refused() ? NULL : __libc_malloc(size);
}

void *calloc(size_t count, size_t size)
{
    return is_refused() ? NULL : __libc_calloc(count, size);
}

void *realloc(void *old, size_t size)
{
    return is_refused() ? NULL : __libc_realloc(old, size);
}

void *aligned_alloc(size_t alignment, size_t size)
{
    return is_refused() ? NULL : __libc_memalign(alignment, size);
}

int posix_memalign(void **place, size_t alignment, size_t size)
{
    void *made = aligned_alloc(alignment, size);
    if (made == NULL)
        return ENOMEM;
    *place = made;
    return 0;
}
