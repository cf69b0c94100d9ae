// Stands between a program and the system, by LD_PRELOAD: reads of standard input and writes of standard output go as the environment
// says.
#define _GNU_SOURCE
#include <errno.h>
#include <stdlib.h>
#include <sys/syscall.h>
#include <unistd.h>

static long number(const char *name) {
    const char *text = getenv(name);
    return text ? atol(text) : 0;
}

static ssize_t fails(long code) {
    errno = (int)code;
    return -1;
}

// ONE_BY_ONE: each call takes one byte, and is interrupted seven times before it does. Behind `at` bytes each call fails by the code `error`.
static ssize_t call(long way, int fd, void *buffer, size_t count, long at, long error) {
    static long taken[2], calls[2];
    if (number("ONE_BY_ONE")) {
        calls[way] = (calls[way] + 1) % 8;
        if (calls[way]) return fails(EINTR);
        if (count > 1) count = 1;
    }
    if (error && taken[way] == at) return fails(error);
    if (error && count > (size_t)(at - taken[way])) count = (size_t)(at - taken[way]);
    ssize_t made = syscall(way == 0 ? SYS_read : SYS_write, fd, buffer, count);
    if (made > 0) taken[way] += made;
    return made;
}

ssize_t read(int fd, void *buffer, size_t count) {
    if (fd != 0) return syscall(SYS_read, fd, buffer, count);
    return call(0, fd, buffer, count, number("READ_AT"), number("READ_ERROR"));
}

ssize_t write(int fd, const void *buffer, size_t count) {
    if (fd != 1) return syscall(SYS_write, fd, buffer, count);
    return call(1, fd, (void *)buffer, count, number("WRITE_AT"), number("WRITE_ERROR"));
}
