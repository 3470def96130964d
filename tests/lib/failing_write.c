/* A library to be loaded first: the first write to the file descriptor of the variable FAIL_WRITE_TO fails once, by the
   error of the variable FAIL_WITH; every other one is done. And one whose file descriptor 1 takes as many bytes as the
   variable ROOM_1 says, if it is there, and 2 as many as ROOM_2: at most three at a time, and each write to a full one
   fails by the error of FAIL_WITH, or takes no byte where that is 0. */
#define _GNU_SOURCE
#include <errno.h>
#include <stdlib.h>
#include <sys/syscall.h>
#include <sys/uio.h>
#include <unistd.h>

static int has_failed;

static int fails(int fd)
{
    const char *wanted = getenv("FAIL_WRITE_TO");

    if (wanted == NULL || has_failed || fd != atoi(wanted))
        return 0;
    has_failed = 1;
    errno = atoi(getenv("FAIL_WITH"));
    return 1;
}

static const char *room_of(int fd)
{
    return fd == 1 ? getenv("ROOM_1") : fd == 2 ? getenv("ROOM_2") : NULL;
}

static ssize_t write_into(const char *room, int fd, const void *bytes, size_t size)
{
    static size_t taken[3];
    size_t left = (size_t)atoi(room) - taken[fd];
    size_t most = left < 3 ? left : 3;

    if (size > 0 && most == 0) {
        errno = atoi(getenv("FAIL_WITH"));
        return errno ? -1 : 0;
    }
    ssize_t done = syscall(SYS_write, fd, bytes, size < most ? size : most);
    taken[fd] += done > 0 ? (size_t)done : 0;
    return done;
}

ssize_t write(int fd, const void *bytes, size_t size)
{
    const char *room = room_of(fd);

    if (room)
        return write_into(room, fd, bytes, size);
    return fails(fd) ? -1 : syscall(SYS_write, fd, bytes, size);
}

ssize_t writev(int fd, const struct iovec *parts, int count)
{
    if (room_of(fd))
        return count > 0 ? write(fd, parts[0].iov_base, parts[0].iov_len) : 0;
    return fails(fd) ? -1 : syscall(SYS_writev, fd, parts, count);
}
