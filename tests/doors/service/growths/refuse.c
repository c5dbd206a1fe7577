/* Refuses memory: a library that is preloaded into ctfd, for tests/doors/service/growths.
 *
 * Counts the calls that allocate memory, from 1, after the first read of standard input, or from
 * the program's start if REFUSE_AT_START is not 0. REFUSE_COUNT calls, from number REFUSE_FROM on,
 * fail as if there were no memory. At exit, prints on standard error how many calls there were and
 * how many were refused.
 *
 * The functions of glibc below are called by their internal names, since a preloaded library cannot
 * look up the others before it allocates memory.
 */
#include <errno.h>
#include <stddef.h>
#include <stdio.h>
#include <stdlib.h>
#include <sys/syscall.h>
#include <unistd.h>

void *__libc_malloc(size_t size);
void *__libc_calloc(size_t count, size_t size);
void *__libc_realloc(void *old, size_t size);
void *__libc_memalign(size_t alignment, size_t size);

static int counts;
static unsigned long first, many, asked, refused;

/* Counts a call, and returns whether it is refused. */
static int is_refused(void)
{
    if (!counts)
        return 0;
    asked++;
    if (first == 0 || asked < first || asked - first >= many)
        return 0;
    refused++;
    errno = ENOMEM;
    return 1;
}

void *malloc(size_t size)
{
    return is_refused() ? NULL : __libc_malloc(size);
}

void *calloc(size_t count, size_t size)
{
    return is_refused() ? NULL : __libc_calloc(count, size);
}

void *realloc(void *old, size_t size)
{
    return is_refused() ? NULL : __libc_realloc(old, size);
}

void *memalign(size_t alignment, size_t size)
{
    return is_refused() ? NULL : __libc_memalign(alignment, size);
}

void *aligned_alloc(size_t alignment, size_t size)
{
    return memalign(alignment, size);
}

int posix_memalign(void **where, size_t alignment, size_t size)
{
    void *memory = memalign(alignment, size);

    if (memory == NULL)
        return ENOMEM;
    *where = memory;
    return 0;
}

ssize_t read(int file, void *buffer, size_t size)
{
    if (file == STDIN_FILENO)
        counts = 1;
    return syscall(SYS_read, file, buffer, size);
}

static unsigned long number(const char *name)
{
    const char *text = getenv(name);

    return text == NULL ? 0 : strtoul(text, NULL, 10);
}

__attribute__((constructor)) static void begin(void)
{
    first = number("REFUSE_FROM");
    many = number("REFUSE_COUNT");
    counts = number("REFUSE_AT_START") != 0;
}

__attribute__((destructor)) static void tell(void)
{
    counts = 0;
    fprintf(stderr, "refuse: %lu asked, %lu refused\n", asked, refused);
}
