/* Reads and writes as a system may do them, for a program that is started with this library
 * preloaded. Each variable that is not set changes nothing.
 *
 *   READ_MOST   a read of a file brings at most so many bytes
 *   READ_NAME   the file whose reads may fail, by the end of its name
 *   READ_FAILS  how many bytes of it come before a read fails
 *   WRITE_SHOWN each write to standard output stands in brackets
 */
#define _GNU_SOURCE
#include <errno.h>
#include <stdio.h>
#include <stdlib.h>
#include <string.h>
#include <sys/syscall.h>
#include <sys/types.h>
#include <unistd.h>

static size_t come[64];

static int named(int fd, const char *end)
{
    char link[64], name[4096];
    ssize_t length;

    snprintf(link, sizeof link, "/proc/self/fd/%d", fd);
    length = readlink(link, name, sizeof name);
    return length >= (ssize_t)strlen(end) && memcmp(name + length - strlen(end), end, strlen(end)) == 0;
}

ssize_t read(int fd, void *bytes, size_t length)
{
    const char *most = getenv("READ_MOST"), *name = getenv("READ_NAME"), *fails = getenv("READ_FAILS");
    ssize_t got;

    if (most != NULL && (size_t)atoi(most) < length)
        length = atoi(most);
    if (name != NULL && fails != NULL && fd >= 0 && fd < 64 && named(fd, name)) {
        if (come[fd] >= (size_t)atoi(fails)) {
            errno = EIO;
            return -1;
        }
        if (length > atoi(fails) - come[fd])
            length = atoi(fails) - come[fd];
    }
    got = syscall(SYS_read, fd, bytes, length);
    if (got > 0 && fd >= 0 && fd < 64)
        come[fd] += got;
    return got;
}

ssize_t write(int fd, const void *bytes, size_t length)
{
    int shown = fd == 1 && getenv("WRITE_SHOWN") != NULL;
    ssize_t put;

    if (shown)
        syscall(SYS_write, fd, "[", 1);
    put = syscall(SYS_write, fd, bytes, length);
    if (shown)
        syscall(SYS_write, fd, "]", 1);
    return put;
}
