/* Makes one read of a program's input or one write to its output fail: the FAIL_IO_CALL-th call of FAIL_IO, "read" or "write",
   counted from 1, gives EIO and takes nothing. Each other takes FAIL_IO_MOST octets at most.
   tests/fail_io has the C library's own functions replaced by these (LD_PRELOAD). */
#define _GNU_SOURCE
#include <errno.h>
#include <stdlib.h>
#include <string.h>
#include <sys/syscall.h>
#include <unistd.h>

static long calls;

/* How many octets a call on this stream may take, or -1 where it fails. */
static long asked_of(int file, int stream, const char *name, size_t length)
{
    const char *which = getenv("FAIL_IO");
    size_t most;
    if (file != stream || !which || strcmp(which, name) != 0)
        return (long)length;
    if (++calls == atol(getenv("FAIL_IO_CALL")))
        return -1;
    most = (size_t)atol(getenv("FAIL_IO_MOST"));
    return (long)(length < most ? length : most);
}

ssize_t read(int file, void *octets, size_t length)
{
    long most = asked_of(file, 0, "read", length);
    if (most < 0) {
        errno = EIO;
        return -1;
    }
    return syscall(SYS_read, file, octets, (size_t)most);
}

ssize_t write(int file, const void *octets, size_t length)
{
    long most = asked_of(file, 1, "write", length);
    if (most < 0) {
        errno = EIO;
        return -1;
    }
    return syscall(SYS_write, file, octets, (size_t)most);
}
