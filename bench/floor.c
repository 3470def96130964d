/*
 * The least that a program does for `avail`: it lists the files below a directory, reads the first bytes of each,
 * sorts the names, and prints them.
 *
 *     floor DIRECTORY        opens each file below its folder
 *     floor DIRECTORY kit    makes the calls that a program of the kit can't do without: by whole paths, each in a
 *                            buffer of zeros that is handed on by value, and each file is looked at before it is opened
 */
#define _GNU_SOURCE
#include <dirent.h>
#include <fcntl.h>
#include <stdio.h>
#include <stdlib.h>
#include <string.h>
#include <sys/stat.h>
#include <unistd.h>

enum { COOKIE = 8, LONGEST = 4096 };

/* A path as the kit hands it to the system. */
struct path {
    char text[LONGEST];
};

static const char *top;
static int as_kit;
static char **names;
static size_t count, room;

static void fail(const char *what)
{
    perror(what);
    exit(1);
}

static void add(const char *name)
{
    if (count == room) {
        room = room ? 2 * room : 64;
        names = realloc(names, room * sizeof *names);
        if (!names)
            fail("realloc");
    }
    names[count] = strdup(name);
    if (!names[count++])
        fail("strdup");
}

static struct path path_of(const char *name)
{
    struct path path = {""};

    if (strlen(top) + strlen(name) + 2 > sizeof path.text)
        fail(name);
    stpcpy(stpcpy(stpcpy(path.text, top), "/"), name);
    return path;
}

__attribute__((noinline)) static int open_whole(struct path path, int flags)
{
    return open(path.text, flags);
}

__attribute__((noinline)) static int is_file(struct path path)
{
    struct stat found;

    return stat(path.text, &found) == 0 && S_ISREG(found.st_mode);
}

static int open_below(int folder, const char *entry, const char *name, int flags)
{
    return as_kit ? open_whole(path_of(name), flags) : openat(folder, entry, flags);
}

static void read_cookie(int folder, const char *entry, const char *name)
{
    char first[COOKIE];
    int opened;

    if (as_kit && !is_file(path_of(name)))
        fail(name);
    opened = open_below(folder, entry, name, O_RDONLY);
    if (opened < 0 || read(opened, first, sizeof first) < 0)
        fail(name);
    close(opened);
}

static void list(int folder, const char *prefix)
{
    DIR *entries = fdopendir(folder);
    struct dirent *entry;

    if (!entries)
        fail(prefix);
    while ((entry = readdir(entries))) {
        char name[LONGEST];

        if (entry->d_name[0] == '.')
            continue;
        snprintf(name, sizeof name, "%s%s", prefix, entry->d_name);
        if (entry->d_type == DT_DIR) {
            strncat(name, "/", sizeof name - strlen(name) - 1);
            list(open_below(folder, entry->d_name, name, O_RDONLY | O_DIRECTORY), name);
        } else {
            read_cookie(folder, entry->d_name, name);
            add(name);
        }
    }
    closedir(entries);
}

static int compare(const void *left, const void *right)
{
    return strcmp(*(char *const *)left, *(char *const *)right);
}

int main(int words, char **word)
{
    if (words < 2)
        return 2;
    top = word[1];
    as_kit = words > 2;
    list(open(top, O_RDONLY | O_DIRECTORY), "");
    qsort(names, count, sizeof *names, compare);
    for (size_t each = 0; each < count; each++)
        puts(names[each]);
    return 0;
}
