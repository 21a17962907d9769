/* Loaded before the C library: counts the calls of malloc, calloc and realloc from 1 on, and refuses the one whose
   number REFUSED has, or where ONWARDS is there that one and all after it. It then writes a byte to the file of the
   number TOLD. */
#include <errno.h>
#include <stdatomic.h>
#include <stddef.h>
#include <stdlib.h>
#include <unistd.h>

void *__libc_malloc(size_t);
void *__libc_calloc(size_t, size_t);
void *__libc_realloc(void *, size_t);

static atomic_long calls;
static long refused;
static int told, onwards;

__attribute__((constructor)) static void begin(void)
{
    const char *number = getenv("REFUSED"), *file = getenv("TOLD");
    if (number && file) {
        told = atoi(file);
        refused = atol(number);
        onwards = getenv("ONWARDS") != NULL;
    }
    calls = 0;
}

static int is_refused(void)
{
    long call = atomic_fetch_add(&calls, 1) + 1;

    if (!refused || call < refused || (call > refused && !onwards))
        return 0;
    errno = write(told, "x", 1) == 1 ? ENOMEM : EIO;
    return errno == ENOMEM;
}

void *malloc(size_t size)
{
    return is_refused() ? NULL : __libc_malloc(size);
}

void *calloc(size_t count, size_t size)
{
    return is_refused() ? NULL : __libc_calloc(count, size);
}

void *realloc(void *old, size_t size)
{
    return is_refused() ? NULL : __libc_realloc(old, size);
}
