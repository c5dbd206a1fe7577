/* trusted.c - finds one of our commands, but never one that another user could have put there: the
 * rule of the Python package (client/trust.py).
 *
 * A path must be absolute. Each folder and link on the way, and the file, must belong to root or to
 * this user, and no other user may write to them. A folder such as /tmp, in which users can't
 * rename what is not theirs, may be on the way. */
#define _GNU_SOURCE

#include "private.h"

#include <limits.h>
#include <stdio.h>
#include <stdlib.h>
#include <string.h>
#include <sys/stat.h>
#include <unistd.h>

#define CLONE "/crates/ctf_c/out/"
#define BUILT "/clients/rust/target/release/"
#define MOST_LINKS 40

/* libctfd.so knows where it is; the archive is a part of a program, which may be anywhere. */
#pragma weak ctfd__place

/* Whether nobody else can replace a file, or write to it. */
static bool is_closed(const struct stat *about)
{
    if (about->st_uid != 0 && about->st_uid != geteuid())
        return false;
    if (S_ISLNK(about->st_mode) || (S_ISDIR(about->st_mode) && (about->st_mode & S_ISVTX) != 0))
        return true;
    if ((about->st_mode & S_IWOTH) != 0)
        return false;
    return (about->st_mode & S_IWGRP) == 0 || about->st_uid == 0;
}

/* The state of following a path: `done` is the part already followed, without links, and `left` the
 * rest. */
struct way {
    char done[PATH_MAX], left[PATH_MAX];
    int links;
};

/* Puts the target of a link before the rest; false if that is too long. */
static bool follow(struct way *way, const char *link)
{
    char target[PATH_MAX], rest[PATH_MAX];
    ssize_t len = readlink(link, target, sizeof target - 1);
    if (len < 0 || ++way->links > MOST_LINKS)
        return false;
    target[len] = '\0';
    if (target[0] == '/')
        way->done[0] = '\0';
    memcpy(rest, way->left, sizeof rest);
    return snprintf(way->left, sizeof way->left, "%s/%s", target, rest) < PATH_MAX;
}

/* Takes the next name from the rest; false at its end. */
static bool next_name(struct way *way, char *name)
{
    const char *begin = way->left + strspn(way->left, "/");
    size_t len = strcspn(begin, "/");
    memcpy(name, begin, len);
    name[len] = '\0';
    memmove(way->left, begin + len, strlen(begin + len) + 1);
    return len != 0;
}

/* Follows a path by one name; false if others may write there, or it does not exist. */
static bool step(struct way *way, const char *name)
{
    char found[PATH_MAX];
    struct stat about;
    if (strcmp(name, ".") == 0)
        return true;
    if (strcmp(name, "..") == 0) {
        char *last = strrchr(way->done, '/');
        if (last != NULL)
            *last = '\0';
        return true;
    }
    if (snprintf(found, sizeof found, "%s/%s", way->done, name) >= PATH_MAX ||
        lstat(found, &about) != 0 || !is_closed(&about))
        return false;
    if (S_ISLNK(about.st_mode))
        return follow(way, found);
    memcpy(way->done, found, sizeof found);
    return true;
}

/* Whether a path leads to a program that no other user could have put there. */
static bool is_trusted(const char *path)
{
    struct way way;
    struct stat about;
    char name[PATH_MAX];
    if (path[0] != '/' || strlen(path) >= PATH_MAX || access(path, X_OK) != 0 ||
        lstat("/", &about) != 0 || !is_closed(&about))
        return false;
    way.done[0] = '\0';
    way.links = 0;
    strcpy(way.left, path);
    while (next_name(&way, name)) {
        if (!step(&way, name))
            return false;
    }
    return stat(way.done, &about) == 0 && S_ISREG(about.st_mode);
}

/* Whether a folder, the first `len` bytes of a path, has a trusted command; writes its path
 * then. */
static bool is_in(const char *folder, size_t len, const char *name, char *path)
{
    return len < PATH_MAX && folder[0] == '/' &&
        snprintf(path, PATH_MAX, "%.*s/%s", (int)len, folder, name) < PATH_MAX && is_trusted(path);
}

/* Looks next to the program that CTFD names. */
static bool beside_program(const char *name, char *path)
{
    const char *program = secure_getenv("CTFD");
    const char *last = program != NULL ? strrchr(program, '/') : NULL;
    return last != NULL && is_in(program, (size_t)(last - program), name, path);
}

/* The last `/lib/` in a path. */
static const char *last_lib(const char *path)
{
    const char *at, *found = NULL;
    for (at = strstr(path, "/lib/"); at != NULL; at = strstr(at + 1, "/lib/"))
        found = at;
    return found;
}

/* Looks in the clone that contains the shared library, or else in the folder `bin` next to its
 * `lib`. */
static bool beside_library(const char *name, char *path)
{
    char folder[PATH_MAX], place[PATH_MAX];
    const char *at;
    if (ctfd__place == NULL || !ctfd__place(place))
        return false;
    at = strstr(place, CLONE);
    if (at != NULL)
        return snprintf(folder, sizeof folder, "%.*s" BUILT, (int)(at - place), place) < PATH_MAX &&
            is_in(folder, strlen(folder) - 1, name, path);
    at = last_lib(place);
    return at != NULL &&
        snprintf(folder, sizeof folder, "%.*s/bin", (int)(at - place), place) < PATH_MAX &&
        is_in(folder, strlen(folder), name, path);
}

/* Looks in the folders of PATH that are absolute. */
static bool on_path(const char *name, char *path)
{
    const char *at = secure_getenv("PATH");
    while (at != NULL && *at != '\0') {
        size_t len = strcspn(at, ":");
        if (is_in(at, len, name, path))
            return true;
        at += len + (at[len] == ':');
    }
    return false;
}

bool ctfd__find_command(const char *name, char *path)
{
    return beside_program(name, path) || beside_library(name, path) || on_path(name, path);
}
