/* Refuses an allocation of a program that is run with this library in LD_PRELOAD (glibc): the one with the
   number REFUSED, counted from 1, and where REFUSED_ON is set all that come later, too. When that number comes
   up a byte is written to the descriptor REFUSED_TO. */
#include <errno.h>
#include <stdlib.h>
#include <unistd.h>

void *__libc_malloc(size_t);
void *__libc_calloc(size_t, size_t);
void *__libc_realloc(void *, size_t);
void *__libc_memalign(size_t, size_t);

static long count, refused, descriptor;
static int goes_on;

__attribute__((constructor)) static void begin(void)
{
    const char *number = getenv("REFUSED"), *to = getenv("REFUSED_TO");
    refused = number ? atol(number) : 0;
    descriptor = to ? atol(to) : 2;
    goes_on = getenv("REFUSED_ON") != NULL;
    count = 0;
}

static int is_refused(void)
{
    count++;
    if (refused == 0 || count < refused || (count > refused && !goes_on))
        return 0;
    if (count == refused && write((int)descriptor, "", 1) != 1)
        abort();
    errno = ENOMEM;
    return 1;
}

void *malloc(size_t size)
{
    return is_refused() ? NULL : __libc_malloc(size);
}

void *calloc(size_t items, size_t size)
{
    return is_refused() ? NULL : __libc_calloc(items, size);
}

void *realloc(void *old, size_t size)
{
    return is_refused() ? NULL : __libc_realloc(old, size);
}

void *aligned_alloc(size_t alignment, size_t size)
{
    return is_refused() ? NULL : __libc_memalign(alignment, size);
}

int posix_memalign(void **out, size_t alignment, size_t size)
{
    void *made = is_refused() ? NULL : __libc_memalign(alignment, size);
    if (made == NULL)
        return ENOMEM;
    *out = made;
    return 0;
}
