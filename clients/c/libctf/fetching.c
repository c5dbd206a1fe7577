/* fetching.c - the types of a program that has none, by its build-id, from the stores that
 * CTFD_STORE names. The command `ctfd-store fetch` asks the stores, within its own limits. What the
 * library accepts it writes to a file in memory, which is then read like any ELF file. */
#define _GNU_SOURCE

#include "private.h"

#include <errno.h>
#include <fcntl.h>
#include <limits.h>
#include <signal.h>
#include <spawn.h>
#include <stdio.h>
#include <stdlib.h>
#include <string.h>
#include <sys/mman.h>
#include <sys/stat.h>
#include <sys/wait.h>
#include <unistd.h>

#define COMMAND "ctfd-store"
#define STORES "CTFD_STORE"
/* The exit status if no store has the build. */
#define ABSENT 1
/* The first descriptor that is none of the standard streams. */
#define FIRST_FREE 3

/* Whether stores are named. A program with more rights than its user asks none. */
static bool has_stores(void)
{
    const char *named = secure_getenv(STORES);
    return named != NULL && named[strspn(named, " \t\n")] != '\0';
}

/* A file in memory, whose descriptor is no standard stream; negative on error. */
static int memory_file(void)
{
    int made = memfd_create("ctfd types", MFD_CLOEXEC), fd;
    if (made < 0 || made >= FIRST_FREE)
        return made;
    fd = fcntl(made, F_DUPFD_CLOEXEC, FIRST_FREE);
    (void)close(made);
    return fd;
}

/* Starts a command that writes to a file. It inherits everything but the standard streams. No
 * signal is blocked, and those on which it depends are not ignored. */
static int start(const char *path, char **words, int output, pid_t *child)
{
    posix_spawn_file_actions_t files;
    posix_spawnattr_t rest;
    sigset_t signals;
    int failed = posix_spawn_file_actions_init(&files);
    if (failed != 0)
        return failed;
    failed = posix_spawnattr_init(&rest);
    if (failed != 0) {
        (void)posix_spawn_file_actions_destroy(&files);
        return failed;
    }
    (void)sigemptyset(&signals);
    (void)posix_spawnattr_setsigmask(&rest, &signals);
    (void)sigaddset(&signals, SIGCHLD);
    (void)sigaddset(&signals, SIGPIPE);
    (void)sigaddset(&signals, SIGXFSZ);
    (void)posix_spawnattr_setsigdefault(&rest, &signals);
    (void)posix_spawnattr_setflags(&rest, POSIX_SPAWN_SETSIGMASK | POSIX_SPAWN_SETSIGDEF);
    failed = posix_spawn_file_actions_addopen(&files, 0, "/dev/null", O_RDONLY, 0);
    if (failed == 0)
        failed = posix_spawn_file_actions_adddup2(&files, output, 1);
    if (failed == 0)
        failed = posix_spawn_file_actions_addopen(&files, 2, "/dev/null", O_WRONLY, 0);
    if (failed == 0)
        failed = posix_spawn(child, path, &files, &rest, words, environ);
    (void)posix_spawnattr_destroy(&rest);
    (void)posix_spawn_file_actions_destroy(&files);
    return failed;
}

/* Waits for the command; 0 or an error. If the program has already waited for it, or ignores its
 * children, the output says how it ended: the command writes all or nothing. */
static int end_of(pid_t child, int output)
{
    struct stat about;
    int status;
    pid_t ended;
    do {
        ended = waitpid(child, &status, 0);
    } while (ended < 0 && errno == EINTR);
    if (ended == child && WIFEXITED(status) && WEXITSTATUS(status) == ABSENT)
        return CTFD__NO_SECTION;
    if (ended == child && !(WIFEXITED(status) && WEXITSTATUS(status) == 0))
        return CTFD__NOT_FETCHED;
    return fstat(output, &about) == 0 && about.st_size > 0 ? 0 : CTFD__NOT_FETCHED;
}

/* Runs the command that writes the types of a build; 0 or an error. */
static int fetch(char *digits, int output)
{
    char path[PATH_MAX], name[] = COMMAND, word[] = "fetch", end[] = "--", out[] = "-";
    char *words[] = { name, word, end, digits, out, NULL };
    pid_t child;
    if (!ctfd__find_command(COMMAND, path) || start(path, words, output, &child) != 0)
        return CTFD__NOT_FETCHED;
    return end_of(child, output);
}

int ctfd__fetch(const struct ctfd_elf_lists *lists, int *made)
{
    char digits[2 * CTFD_LONGEST_ID + 1] = "";
    size_t i;
    int failed, output;
    if (lists->id_len == 0 || !has_stores())
        return CTFD__NO_SECTION;
    for (i = 0; i < lists->id_len; i++)
        snprintf(digits + 2 * i, 3, "%02x", lists->id[i]);
    output = memory_file();
    if (output < 0)
        return CTFD__SYSTEM + errno;
    failed = fetch(digits, output);
    if (failed == 0) {
        *made = output;
        return 0;
    }
    (void)close(output);
    return failed;
}
