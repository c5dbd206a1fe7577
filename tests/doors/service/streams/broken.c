/* Breaks streams: a library that is preloaded into ctfd, for tests/doors/service/streams.
 *
 * A read of standard input returns at most READ_SIZE bytes, and a write to standard output takes at
 * most WRITE_SIZE. Both are counted from 1. Read number READ_FAILS, and write number WRITE_FAILS,
 * fail with the error FAILS_BY; write number WRITE_EMPTY takes no bytes and does not fail. If
 * READS_TOLD is not 0, a line on standard error before each read says how many bytes were written
 * so far. At exit, a line says how many reads and writes there were.
 *
 * READ_BOUND, if it is not 0, replaces the program's own bound on reads. That is a number in its
 * code, 2^40: an instruction `movabs $0x10000000000, %r`, immediately followed by a comparison of
 * two registers, which must be there exactly once. (A number made of a tag and other bytes may have
 * the same value, but no comparison follows it.) Otherwise a line says how often it is there, and
 * the exit status is NO_BOUND.
 */
#define _GNU_SOURCE
#include <errno.h>
#include <link.h>
#include <stdint.h>
#include <stdio.h>
#include <stdlib.h>
#include <string.h>
#include <sys/mman.h>
#include <sys/syscall.h>
#include <unistd.h>

#define MOST_READS ((uint64_t)1 << 40)
#define NO_BOUND 99

static unsigned long read_size, write_size, read_fails, write_fails, write_empty, fails_by;
static unsigned long reads, writes, written, reads_told;

/* The first 2^40 that was found in the program's code, and how many there are. */
struct found {
    unsigned char *first;
    unsigned long count;
};

static size_t least(size_t one, size_t other)
{
    return one < other ? one : other;
}

static ssize_t failed(void)
{
    errno = (int)fails_by;
    return -1;
}

ssize_t read(int file, void *buffer, size_t size)
{
    if (file != STDIN_FILENO)
        return syscall(SYS_read, file, buffer, size);
    if (reads_told)
        dprintf(STDERR_FILENO, "broken: %lu bytes before a read\n", written);
    if (++reads == read_fails)
        return failed();
    return syscall(SYS_read, file, buffer, least(size, read_size));
}

ssize_t write(int file, const void *buffer, size_t size)
{
    ssize_t taken;

    if (file != STDOUT_FILENO)
        return syscall(SYS_write, file, buffer, size);
    if (++writes == write_fails)
        return failed();
    if (writes == write_empty)
        return 0;
    taken = syscall(SYS_write, file, buffer, least(size, write_size));
    written += taken < 0 ? 0 : (unsigned long)taken;
    return taken;
}

/* Finds `movabs $0x10000000000, %r` followed by `cmp %r, %r` in code: two bytes, the number in
 * eight, and three bytes. */
static void find_in(unsigned char *code, size_t size, struct found *found)
{
    const uint64_t most = MOST_READS;

    for (size_t at = 0; at + 13 <= size; at++) {
        int is_movabs = (code[at] & 0xfe) == 0x48 && (code[at + 1] & 0xf8) == 0xb8;
        int is_compared = (code[at + 10] & 0xf8) == 0x48 && (code[at + 11] & 0xfd) == 0x39;

        if (!is_movabs || !is_compared || memcmp(code + at + 2, &most, sizeof most) != 0)
            continue;
        found->first = found->count++ ? found->first : code + at + 2;
    }
}

/* Searches the program's own code, which dl_iterate_phdr passes first. */
static int find_bounds(struct dl_phdr_info *program, size_t size, void *found)
{
    (void)size;
    for (int i = 0; i < program->dlpi_phnum; i++) {
        const ElfW(Phdr) *part = &program->dlpi_phdr[i];

        if (part->p_type == PT_LOAD && part->p_flags & PF_X)
            find_in((unsigned char *)program->dlpi_addr + part->p_vaddr, part->p_filesz, found);
    }
    return 1;
}

/* Replaces the program's own bound on reads. */
static void put_bound(uint64_t bound)
{
    struct found found = { NULL, 0 };
    uintptr_t page = (uintptr_t)sysconf(_SC_PAGESIZE);
    unsigned char *from;
    size_t size;

    dl_iterate_phdr(find_bounds, &found);
    if (found.count != 1) {
        fprintf(stderr, "broken: 2^40 is in the code %lu times\n", found.count);
        _exit(NO_BOUND);
    }
    from = found.first - (uintptr_t)found.first % page;
    size = (size_t)(found.first - from) + sizeof bound;
    if (mprotect(from, size, PROT_READ | PROT_WRITE) != 0) {
        perror("broken: mprotect");
        _exit(NO_BOUND);
    }
    memcpy(found.first, &bound, sizeof bound);
    mprotect(from, size, PROT_READ | PROT_EXEC);
}

static unsigned long number(const char *name)
{
    const char *text = getenv(name);

    return text == NULL ? 0 : strtoul(text, NULL, 10);
}

__attribute__((constructor)) static void begin(void)
{
    read_size = number("READ_SIZE");
    write_size = number("WRITE_SIZE");
    read_fails = number("READ_FAILS");
    write_fails = number("WRITE_FAILS");
    write_empty = number("WRITE_EMPTY");
    fails_by = number("FAILS_BY");
    reads_told = number("READS_TOLD");
    if (number("READ_BOUND") != 0)
        put_bound(number("READ_BOUND"));
}

__attribute__((destructor)) static void tell(void)
{
    fprintf(stderr, "broken: %lu reads, %lu writes\n", reads, writes);
}
