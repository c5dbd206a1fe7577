/* reading.c - opens files: those that are a CTF section and, with the part for ELF files, ELF
 * files. */
#define _DEFAULT_SOURCE

#include "private.h"

#include <errno.h>
#include <fcntl.h>
#include <stdlib.h>
#include <string.h>
#include <sys/stat.h>
#include <unistd.h>

/* The greatest size of a dictionary in bytes. */
#define LONGEST 67108864

/* Not linked if a program leaves out the part for ELF files. */
#pragma weak ctfd_elf_read

/* Reads that many bytes from the beginning of a file, or fewer if it ends; 0 or a number of
 * errno. */
static int read_front(int fd, char *bytes, size_t wanted, size_t *got)
{
    *got = 0;
    while (*got < wanted) {
        ssize_t more = pread(fd, bytes + *got, wanted - *got, (off_t)*got);
        if (more < 0 && errno == EINTR)
            continue;
        if (more < 0)
            return errno;
        if (more == 0)
            break;
        *got += (size_t)more;
    }
    return 0;
}

/* A section with a list from the part for ELF files. */
static ctf_sect_t section_of(const struct ctfd_elf_list *list)
{
    ctf_sect_t made;
    memset(&made, 0, sizeof made);
    made.cts_data = list->at;
    made.cts_size = list->len;
    return made;
}

/* Gives a file the model with pointers of 4 bytes. On an error the file is closed. */
static ctf_file_t *as_ilp32(ctf_file_t *fp, int *error)
{
    int why;
    if (ctf_setmodel(fp, CTF_MODEL_ILP32) == 0)
        return fp;
    why = fp->error;
    ctf_close(fp);
    return ctfd__refused(error, why);
}

/* Whether a label of ctfd-convert says that the program's pointers have 4 bytes. */
static bool has_label_of_ilp32(ctf_file_t *fp)
{
    static const char label[] = "ctfd.model=ilp32";
    struct ctfd *types;
    uint32_t last;
    return ctfd__opened(fp, &types) == CTFD_OK &&
        ctfd_label_last(types, label, sizeof label - 1, &last) == CTFD_OK;
}

/* Opens lists and gives them to the file. On an error they are freed. */
static ctf_file_t *open_owned(struct ctfd_elf_lists *lists, int *error)
{
    ctf_sect_t ctf = section_of(&lists->ctf), symbols = section_of(&lists->symbols),
               strings = section_of(&lists->strings);
    bool has_symbols = lists->symbols.at != NULL && lists->strings.at != NULL;
    ctf_file_t *fp;
    symbols.cts_entsize = CTFD_SYMBOL;
    fp = ctfd__open(
        &ctf, has_symbols ? &symbols : NULL, has_symbols ? &strings : NULL, true, error);
    if (fp != NULL && fp->owned[0] == NULL) {
        fp->owned[0] = lists->ctf.at;
        lists->ctf.at = NULL;
    }
    if (fp != NULL && has_symbols) {
        fp->owned[1] = lists->symbols.at;
        fp->owned[2] = lists->strings.at;
        lists->symbols.at = lists->strings.at = NULL;
    }
    if (fp != NULL && fp->lists.len[1] / CTFD_SYMBOL == lists->variables.len) {
        fp->variables = (unsigned char *)lists->variables.at;
        lists->variables.at = NULL;
    }
    free(lists->variables.at);
    free(lists->ctf.at);
    free(lists->symbols.at);
    free(lists->strings.at);
    return fp != NULL && lists->ilp32 ? as_ilp32(fp, error) : fp;
}

/* Opens a file that is a CTF section and nothing else. */
static ctf_file_t *open_section(int fd, size_t size, int *error)
{
    struct ctfd_elf_lists lists;
    ctf_file_t *fp;
    int failed;
    if (size > LONGEST)
        return ctfd__refused(error, CTFD_DICT_TOO_BIG);
    memset(&lists, 0, sizeof lists);
    lists.ctf.at = malloc(size + 1);
    if (lists.ctf.at == NULL)
        return ctfd__refused(error, CTFD_MEMORY);
    failed = read_front(fd, (char *)lists.ctf.at, size, &lists.ctf.len);
    if (failed != 0) {
        free(lists.ctf.at);
        return ctfd__refused(error, CTFD__SYSTEM + failed);
    }
    fp = open_owned(&lists, error);
    return fp != NULL && has_label_of_ilp32(fp) ? as_ilp32(fp, error) : fp;
}

/* Reads the types that a store has for the build of a file. */
static int read_fetched(int fd, struct ctfd_elf_lists *lists)
{
    int made = -1;
    int failed = ctfd__fetch(lists, &made);
    if (failed != 0)
        return failed;
    failed = ctfd_elf_read(made, fd, lists);
    (void)close(made);
    return failed == 0 || failed == CTFD_MEMORY ? failed : CTFD__NOT_FETCHED;
}

/* Opens an ELF file. If it has no types, stores are asked for them by its build-id. */
static ctf_file_t *open_elf(int fd, int *error)
{
    struct ctfd_elf_lists lists;
    int failed;
    memset(&lists, 0, sizeof lists);
    failed = ctfd_elf_read == NULL ? CTFD__NO_PART : ctfd_elf_read(fd, fd, &lists);
    if (failed == CTFD__NO_SECTION)
        failed = read_fetched(fd, &lists);
    return failed != 0 ? ctfd__refused(error, failed) : open_owned(&lists, error);
}

ctf_file_t *ctf_fdopen(int fd, int *error)
{
    struct stat about;
    char magic[4];
    size_t got;
    int failed;
    if (fstat(fd, &about) != 0)
        return ctfd__refused(error, CTFD__SYSTEM + errno);
    if (!S_ISREG(about.st_mode))
        return ctfd__refused(error, CTFD__SYSTEM + EINVAL);
    failed = read_front(fd, magic, sizeof magic, &got);
    if (failed != 0)
        return ctfd__refused(error, CTFD__SYSTEM + failed);
    if (got == sizeof magic && memcmp(magic, "\177ELF", sizeof magic) == 0)
        return open_elf(fd, error);
    return open_section(fd, (size_t)about.st_size, error);
}

/* Refuses anything but a regular file before opening it, which might block or have side effects;
 * and again after that, since the file may have changed meanwhile. */
ctf_file_t *ctf_open(const char *name, int *error)
{
    struct stat about;
    ctf_file_t *fp;
    int fd;
    if (stat(name, &about) == 0 && !S_ISREG(about.st_mode))
        return ctfd__refused(error, CTFD__SYSTEM + EINVAL);
    fd = open(name, O_RDONLY | O_NONBLOCK | O_NOCTTY | O_CLOEXEC);
    if (fd < 0)
        return ctfd__refused(error, CTFD__SYSTEM + errno);
    fp = ctf_fdopen(fd, error);
    (void)close(fd);
    return fp;
}
