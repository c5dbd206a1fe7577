/* c_library.h - shared by the programs of bench/c_library.py: the dictionary's bytes, lists of what
 * to ask about, and the measurement of rounds. */
#ifndef CTFD_BENCH_C_LIBRARY_H
#define CTFD_BENCH_C_LIBRARY_H

#include <stdint.h>
#include <stdio.h>
#include <stdlib.h>
#include <string.h>
#include <time.h>

#define MOST 200000

struct numbers {
    long at[MOST];
    size_t len;
};

struct named_list {
    struct named {
        char *text;
        size_t len;
        long of;
    } at[MOST];
    size_t len;
};

static char *bytes;
static size_t bytes_len;
static uint64_t sum;

static inline void read_file(const char *name)
{
    FILE *file = fopen(name, "rb");
    if (file == NULL || fseek(file, 0, SEEK_END) != 0)
        exit(2);
    bytes_len = (size_t)ftell(file);
    rewind(file);
    bytes = malloc(bytes_len);
    if (bytes == NULL || fread(bytes, 1, bytes_len, file) != bytes_len)
        exit(2);
    fclose(file);
}

static inline void add_number(struct numbers *list, long number)
{
    if (list->len < MOST)
        list->at[list->len++] = number;
}

static inline void add_named(struct named_list *list, const char *text, size_t len, long of)
{
    struct named made = { malloc(len + 1), len, of };
    if (made.text == NULL)
        exit(2);
    memcpy(made.text, text, len);
    made.text[len] = '\0';
    if (list->len < MOST)
        list->at[list->len++] = made;
    else
        free(made.text);
}

/* Whether a question is one of the words, which are separated by blanks. */
static inline int is_one_of(const char *question, const char *words)
{
    size_t len = strlen(question);
    const char *at;
    for (at = words; (at = strstr(at, question)) != NULL; at += len) {
        if ((at == words || at[-1] == ' ') && (at[len] == ' ' || at[len] == '\0'))
            return 1;
    }
    return 0;
}

/* Runs rounds, and prints the number of calls in a round, the nanoseconds that all rounds took, and
 * the size of the dictionary in bytes. */
static inline void measure(const char *question, long rounds, size_t (*round_of)(const char *))
{
    struct timespec from, to;
    size_t calls = 0;
    long i;
    clock_gettime(CLOCK_PROCESS_CPUTIME_ID, &from);
    for (i = 0; i < rounds; i++)
        calls = round_of(question);
    clock_gettime(CLOCK_PROCESS_CPUTIME_ID, &to);
    printf("%zu %lld %zu %llu\n", calls,
        (to.tv_sec - from.tv_sec) * 1000000000LL + to.tv_nsec - from.tv_nsec, bytes_len,
        (unsigned long long)sum);
}

#endif
