/*
 * What a program meets when memory or room runs out; end_to_end.py preloads it. The variables of the environment:
 *
 *   REFUSED  the request for memory that is refused, counted from 1
 *   TOLD     a descriptor, to which one byte is written when that request is refused
 *   MOST     the most bytes that a write to standard output takes
 *   FAILING  the write to standard output that is interrupted, counted from 1
 */
#include <errno.h>
#include <stddef.h>
#include <stdlib.h>
#include <sys/syscall.h>
#include <unistd.h>

void *__libc_malloc(size_t size);
void *__libc_realloc(void *at, size_t size);
ssize_t __write(int to, const void *from, size_t size);

static long number(const char *name, long otherwise)
{
    const char *value = getenv(name);
    return value ? atol(value) : otherwise;
}

static int is_refused(void)
{
    static long requests;
    if (++requests != number("REFUSED", 0))
        return 0;
    syscall(SYS_write, number("TOLD", -1), "", 1);
    return 1;
}

void *malloc(size_t size)
{
    return is_refused() ? NULL : __libc_malloc(size);
}

void *realloc(void *at, size_t size)
{
    return is_refused() ? NULL : __libc_realloc(at, size);
}

ssize_t write(int to, const void *from, size_t size)
{
    static long writes;
    size_t most = (size_t)number("MOST", (long)size);
    if (to == STDOUT_FILENO && ++writes == number("FAILING", 0)) {
        errno = EINTR;
        return -1;
    }
    return syscall(SYS_write, to, from, to == STDOUT_FILENO && size > most ? most : size);
}

ssize_t __write(int to, const void *from, size_t size)
{
    return write(to, from, size);
}
