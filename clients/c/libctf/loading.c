/* loading.c - replaces the part for ELF files in libctfd.so, and loads it when it is needed, so
 * that the library itself depends on no other. */
#define _GNU_SOURCE

#include "private.h"

#include <dlfcn.h>
#include <stdlib.h>
#include <string.h>

HIDDEN int ctfd_elf_read(int fd, int program, struct ctfd_elf_lists *lists);
HIDDEN int ctfd_elf_inflate(const void *bytes, size_t len, struct ctfd_elf_list *made);

/* Looks up a call of the part, which is next to this library, or in a folder of the system. The
 * part stays loaded, so it is loaded only once. */
static bool found(const char *name, void *call, size_t size)
{
    void *part = dlopen(CTFD_ELF_PART, RTLD_NOW | RTLD_LOCAL);
    void *at = part != NULL ? dlsym(part, name) : NULL;
    if (at == NULL)
        return false;
    memcpy(call, &at, size);
    return true;
}

int ctfd_elf_read(int fd, int program, struct ctfd_elf_lists *lists)
{
    int (*call)(int, int, struct ctfd_elf_lists *);
    if (!found("ctfd_elf_read", &call, sizeof call))
        return CTFD__NO_PART;
    return call(fd, program, lists);
}

int ctfd_elf_inflate(const void *bytes, size_t len, struct ctfd_elf_list *made)
{
    int (*call)(const void *, size_t, struct ctfd_elf_list *);
    if (!found("ctfd_elf_inflate", &call, sizeof call))
        return CTFD__NO_PART;
    return call(bytes, len, made);
}

/* Follows links to the library, such as those from one folder of the system to another. */
bool ctfd__place(char *path)
{
    static const char here;
    Dl_info about;
    return dladdr(&here, &about) != 0 && about.dli_fname != NULL &&
        realpath(about.dli_fname, path) != NULL;
}
