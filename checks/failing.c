/* Stands before the C library's accept4 (LD_PRELOAD): the first FAILING_CALLS calls fail with the number in FAILING_ERRNO. */
#define _GNU_SOURCE
#include <errno.h>
#include <stdlib.h>
#include <sys/socket.h>
#include <sys/syscall.h>
#include <unistd.h>

static long calls;

static long number_in(const char *name)
{
    const char *text = getenv(name);
    return text == NULL ? 0 : atol(text);
}

int accept4(int listener, struct sockaddr *address, socklen_t *length, int flags)
{
    if (__atomic_add_fetch(&calls, 1, __ATOMIC_SEQ_CST) <= number_in("FAILING_CALLS")) {
        errno = (int)number_in("FAILING_ERRNO");
        return -1;
    }
    return (int)syscall(SYS_accept4, listener, address, length, flags);
}
