/* For tests: a system of whose reads one fails, the FAIL_AT-th, or each from the FAIL_FROM-th on: by errno FAIL_WITH, or
 * EIO. With FAIL_SEEN only those are counted that look at, open or read what was looked at before, and was there.
 * The path of each that is counted is a line of the file CALLS_TO, and that of each file that is read to its end one of
 * the file ENDS_TO. Nothing is at the path ABSENT, whoever asks. A name in a directory is listed as another that isn't
 * longer, where LISTED_AS is NAME=OTHER.
 * And one whose file changes meanwhile: the OTHER_AT-th read that gives the cookie of a modulefile gives another. And
 * one that lists the environment of a process otherwise: the file ENVIRON_IN is opened in place of its list. */
#define _GNU_SOURCE
#include <dlfcn.h>
#include <dirent.h>
#include <errno.h>
#include <fcntl.h>
#include <stdarg.h>
#include <stdio.h>
#include <stdlib.h>
#include <string.h>
#include <sys/stat.h>
#include <unistd.h>

static long asked;

static long number_in(const char *name)
{
    const char *text = getenv(name);
    return text ? atol(text) : 0;
}

/* The paths that were there. */
static char *seen[1024];
static int seen_count;

static void note(const char *path)
{
    if (seen_count < 1024)
        seen[seen_count++] = strdup(path);
}

/* Whether a call is about this place. A directory is opened with a slash at its end. */
static int is_about(const char *path, const char *place)
{
    size_t length = strlen(path);
    if (length > 0 && path[length - 1] == '/')
        length -= 1;
    return strlen(place) == length && strncmp(place, path, length) == 0;
}

static int was_seen(const char *path)
{
    for (int i = 0; i < seen_count; i++)
        if (is_about(path, seen[i]))
            return 1;
    return 0;
}

/* What is open, by the numbers of the files. */
static char *opened[1024];

static int keep_open(int file, const char *path)
{
    if (file >= 0 && file < 1024) {
        free(opened[file]);
        opened[file] = strdup(path);
    }
    return file;
}

static const char *path_of(int file)
{
    return file >= 0 && file < 1024 && opened[file] ? opened[file] : "";
}

static void write_down(const char *variable, const char *path)
{
    const char *list = getenv(variable);
    FILE *file = list ? fopen(list, "a") : NULL;
    if (!file)
        return;
    fprintf(file, "%s\n", path);
    fclose(file);
}

static int is_absent(const char *path)
{
    const char *absent = getenv("ABSENT");
    return absent && is_about(path, absent);
}

/* Whether a call fails: by a path, or by a file that is open and has this path. */
static int fails(const char *path, int is_open)
{
    static long one, all, with, only_seen;
    static int is_read;
    if (!is_read) {
        is_read = 1;
        one = number_in("FAIL_AT");
        all = number_in("FAIL_FROM");
        with = number_in("FAIL_WITH");
        only_seen = number_in("FAIL_SEEN");
    }
    if (!is_open && is_absent(path)) {
        errno = ENOENT;
        return 1;
    }
    if (only_seen && !is_open && !was_seen(path))
        return 0;
    asked += 1;
    write_down("CALLS_TO", path);
    if (asked != one && (all == 0 || asked < all))
        return 0;
    errno = with ? (int)with : EIO;
    return 1;
}

/* What was read begins otherwise, if it is that read. */
static void change(char *bytes, ssize_t count)
{
    static const char cookie[] = "#%Module";
    static long begun;
    if (count < (ssize_t)strlen(cookie) || memcmp(bytes, cookie, strlen(cookie)) != 0)
        return;
    begun += 1;
    if (begun == number_in("OTHER_AT"))
        bytes[0] = ' ';
}

/* Among these entries of a directory each that is to be listed otherwise is. */
static void rename_listed(char *entries, ssize_t size)
{
    const char *name = getenv("LISTED_AS");
    const char *other = name ? strchr(name, '=') : NULL;
    if (!other)
        return;
    size_t length = other - name;
    for (ssize_t at = 0; at < size;) {
        struct dirent64 *entry = (struct dirent64 *)(entries + at);
        if (strlen(entry->d_name) == length && strncmp(entry->d_name, name, length) == 0)
            strcpy(entry->d_name, other + 1);
        at += entry->d_reclen;
    }
}

static const char *opened_for(const char *path)
{
    const char *listed = getenv("ENVIRON_IN");
    return listed && strcmp(path, "/proc/self/environ") == 0 ? listed : path;
}

static mode_t mode_in(int flags, va_list rest)
{
    return flags & O_CREAT ? va_arg(rest, mode_t) : 0;
}

int open(const char *path, int flags, ...)
{
    static int (*real)(const char *, int, ...);
    va_list rest;
    va_start(rest, flags);
    mode_t mode = mode_in(flags, rest);
    va_end(rest);
    if (!real)
        real = dlsym(RTLD_NEXT, "open");
    return fails(path, 0) ? -1 : keep_open(real(opened_for(path), flags, mode), path);
}

int openat(int dir, const char *path, int flags, ...)
{
    static int (*real)(int, const char *, int, ...);
    va_list rest;
    va_start(rest, flags);
    mode_t mode = mode_in(flags, rest);
    va_end(rest);
    if (!real)
        real = dlsym(RTLD_NEXT, "openat");
    return fails(path, 0) ? -1 : keep_open(real(dir, opened_for(path), flags, mode), path);
}

ssize_t read(int file, void *to, size_t count)
{
    static ssize_t (*real)(int, void *, size_t);
    if (!real)
        real = dlsym(RTLD_NEXT, "read");
    if (fails(path_of(file), 1))
        return -1;
    ssize_t given = real(file, to, count);
    if (given == 0)
        write_down("ENDS_TO", path_of(file));
    change(to, given);
    return given;
}

ssize_t getdents64(int dir, void *to, size_t count)
{
    static ssize_t (*real)(int, void *, size_t);
    if (!real)
        real = dlsym(RTLD_NEXT, "getdents64");
    /* So the system ends the list of a directory that was removed. */
    int is_end = number_in("FAIL_SEEN") && number_in("FAIL_WITH") == ENOENT;
    if (!is_end && fails(path_of(dir), 1))
        return -1;
    ssize_t given = real(dir, to, count);
    rename_listed(to, given);
    return given;
}

int statx(int dir, const char *restrict path, int flags, unsigned int mask, struct statx *restrict to)
{
    static int (*real)(int, const char *, int, unsigned int, struct statx *);
    if (!real)
        real = dlsym(RTLD_NEXT, "statx");
    int is_open = !path || !*path;
    if (fails(is_open ? path_of(dir) : path, is_open))
        return -1;
    int answer = real(dir, path, flags, mask, to);
    if (answer == 0 && !is_open)
        note(path);
    return answer;
}
