/* random.h - a random sequence that depends only on the seed, and counted comparisons. */
#ifndef MAKING_RANDOM_H
#define MAKING_RANDOM_H

#include <stdio.h>
#include <stdlib.h>

static unsigned long long state;
static unsigned long compared, differing;
static unsigned round_number;

static inline void seed(unsigned long long number)
{
    state = 88172645463325252ull + 77 * number;
}

/* A random number below a bound. */
static inline unsigned below(unsigned bound)
{
    state ^= state << 13;
    state ^= state >> 7;
    state ^= state << 17;
    return (unsigned)((state >> 11) % bound);
}

/* Counts a comparison, and prints the first ones that differ. */
static inline void same(const char *what, long type, long long wanted, long long seen)
{
    compared++;
    if (wanted != seen && differing++ < 20)
        printf(
            "round %u, type %ld: %s is %lld, not %lld\n", round_number, type, what, seen, wanted);
}

static inline int told(const char *test)
{
    printf("%s: %lu comparisons, %lu differ\n", test, compared, differing);
    return differing != 0;
}

#endif
