/* Shared by the C tests: reading files, printing names as a dump does, and counting checks. */
#ifndef CTFD_TEST_COMMON_H
#define CTFD_TEST_COMMON_H

#include "ctfd.h"

#include <stdio.h>
#include <stdlib.h>
#include <string.h>

struct bytes {
    uint8_t *at;
    size_t len;
};

static const char *const kind_names[] = { "unknown", "integer", "float", "pointer", "array",
    "function", "struct", "union", "enum", "forward", "typedef", "volatile", "const", "restrict" };

static unsigned checks, failures;

#define CHECK(holds) \
    do { \
        checks++; \
        if (!(holds)) { \
            failures++; \
            printf("%s:%d: not so: %s\n", __FILE__, __LINE__, #holds); \
        } \
    } while (0)

/* Prints the number of checks and failures, and returns the exit status. */
static inline int counted(const char *what)
{
    printf("%s: %u checks, %u failed\n", what, checks, failures);
    return failures != 0;
}

/* Reads a whole file; exits if it cannot be read. */
static inline struct bytes read_file(const char *name)
{
    FILE *file = fopen(name, "rb");
    struct bytes all = { NULL, 0 };
    size_t room = 0, got;
    if (file == NULL) {
        perror(name);
        exit(2);
    }
    do {
        if (all.len == room) {
            room = room == 0 ? 65536 : 2 * room;
            all.at = (uint8_t *)realloc(all.at, room);
            if (all.at == NULL)
                exit(2);
        }
        got = fread(all.at + all.len, 1, room - all.len, file);
        all.len += got;
    } while (got != 0);
    fclose(file);
    return all;
}

/* Reads a file in a folder. */
static inline struct bytes read_in(const char *folder, const char *name)
{
    char path[4096];
    snprintf(path, sizeof path, "%s/%s", folder, name);
    return read_file(path);
}

static inline void free_bytes(struct bytes *all)
{
    free(all->at);
    all->at = NULL;
    all->len = 0;
}

/* Prints a name in quotes, with \x and two digits for each byte that is not plain ASCII. */
static inline void print_name(const char *text, size_t len)
{
    size_t i;
    putchar('"');
    for (i = 0; i < len; i++) {
        unsigned char byte = (unsigned char)text[i];
        if (byte < 0x20 || byte > 0x7e || byte == '"' || byte == '\\')
            printf("\\x%02x", byte);
        else
            putchar(byte);
    }
    putchar('"');
}

static inline enum ctfd_status open_alone(
    struct ctfd *types, const struct bytes *ctf, bool ilp32, uint64_t *place)
{
    return ctfd_open(types, ctf->at, ctf->len, "", 0, "", 0, false, false, ilp32, place);
}

#endif
