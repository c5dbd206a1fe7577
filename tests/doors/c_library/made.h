/* made.h - writes dictionaries byte by byte. */
#ifndef CTFD_TEST_MADE_H
#define CTFD_TEST_MADE_H

#include "ctfd_libctf.h"

#include <stdlib.h>
#include <string.h>

#define MADE_HEADER 36

/* A dictionary in a buffer that is large enough. */
struct made {
    uint8_t *at;
    size_t len;
    unsigned types;
};

static inline void put16(struct made *made, unsigned value)
{
    made->at[made->len++] = (uint8_t)value;
    made->at[made->len++] = (uint8_t)(value >> 8);
}

static inline void put32(struct made *made, uint32_t value)
{
    put16(made, value & 0xffff);
    put16(made, value >> 16);
}

/* The first fields of a record, whose name is at an offset in the strings. */
static inline void put_head(struct made *made, uint32_t name, unsigned info, unsigned size)
{
    put32(made, name);
    put16(made, info);
    put16(made, size);
}

/* Begins with a header without sections. */
static inline void begin_made(struct made *made)
{
    unsigned i;
    made->len = 0;
    put32(made, 0x0002cff1);
    for (i = 0; i < 8; i++)
        put32(made, 0);
}

/* Ends the types, appends the strings, and stores the position of the strings and their length. */
static inline void end_made(struct made *made, const char *strings, size_t len)
{
    size_t end = made->len;
    memcpy(made->at + end, strings, len);
    made->len = MADE_HEADER - 8;
    put32(made, (uint32_t)(end - MADE_HEADER));
    put32(made, (uint32_t)len);
    made->len = end + len;
}

static inline ctf_file_t *open_made(const struct made *made, int *error)
{
    ctf_sect_t section;
    memset(&section, 0, sizeof section);
    section.cts_data = made->at;
    section.cts_size = made->len;
    return ctf_bufopen(&section, NULL, NULL, error);
}

#endif
