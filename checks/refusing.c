/* Stands before the C library's malloc and realloc (LD_PRELOAD) and refuses one call: the one whose number, from 1, is in REFUSED_CALL.
   Calls of both are counted together, in all threads. A byte is written to the descriptor in REFUSED_TOLD once it is refused. */
#include <errno.h>
#include <stdlib.h>
#include <unistd.h>

void *__libc_malloc(size_t size);
void *__libc_realloc(void *old, size_t size);

static long refused, told, calls;

static long number_in(const char *name)
{
    const char *text = getenv(name);
    return text == NULL ? 0 : atol(text);
}

__attribute__((constructor)) static void begin(void)
{
    told = number_in("REFUSED_TOLD");
    refused = number_in("REFUSED_CALL");
}

static int is_refused(void)
{
    if (refused == 0 || __atomic_add_fetch(&calls, 1, __ATOMIC_SEQ_CST) != refused)
        return 0;
    if (write(told, "r", 1) != 1)
        abort();
    errno = ENOMEM;
    return 1;
}

void *malloc(size_t size)
{
    return is_refused() ? NULL : __libc_malloc(size);
}

void *realloc(void *old, size_t size)
{
    return is_refused() ? NULL : __libc_realloc(old, size);
}
