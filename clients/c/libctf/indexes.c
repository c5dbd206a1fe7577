/* indexes.c - enumerators by their values and names. The first look-up in an enum compares each
 * enumerator; the second makes an index, with hashes that nobody outside can predict. */
#define _DEFAULT_SOURCE

#include "private.h"

#include <stdlib.h>
#include <string.h>

/* The most bytes of a name that are hashed: names may be long, and overlap. */
#define HASHED 255

/* A hash table of enumerators. Numbers count from 1; 0 is none. The numbers of the first entries of
 * all lists come after the entries. */
struct ctfd__index {
    uint32_t mask;
    struct entry {
        uint32_t hash;
        uint32_t next;
    } entries[];
};

static uint32_t *heads_of(struct ctfd__index *index, uint32_t count)
{
    return (uint32_t *)(void *)(index->entries + count);
}

/* An index with room for that many enumerators; NULL if there is no memory. */
static struct ctfd__index *new_index(ctf_file_t *fp, uint32_t count)
{
    uint32_t heads = 2;
    size_t size;
    struct ctfd__index *made;
    while (heads < count)
        heads *= 2;
    size = sizeof *made + count * sizeof made->entries[0] + heads * sizeof(uint32_t);
    made = (struct ctfd__index *)calloc(1, size);
    if (made == NULL)
        return NULL;
    made->mask = heads - 1;
    fp->details_bytes += size;
    return made;
}

/* Puts an enumerator at the front of its list. The last is put first, so the first is found
 * first. */
static void put(struct ctfd__index *index, uint32_t count, uint32_t i, uint32_t hash)
{
    uint32_t *head = heads_of(index, count) + (hash & index->mask);
    index->entries[i].hash = hash;
    index->entries[i].next = *head;
    *head = i + 1;
}

/* ---- by values */

static uint32_t hash_of_value(ctf_file_t *fp, int32_t value)
{
    uint64_t hash = (uint64_t)(uint32_t)value * (fp->texts.seed[0] | 1);
    return (uint32_t)(hash >> 32);
}

static struct ctfd__index *index_values(ctf_file_t *fp, const struct ctfd__details *details)
{
    uint32_t i;
    struct ctfd__index *made = new_index(fp, details->count);
    (void)ctfd__hash(&fp->texts, "", 0); /* makes the seed */
    for (i = details->count; made != NULL && i-- > 0;)
        put(made, details->count, i, hash_of_value(fp, (int32_t)(uint32_t)details->items[i].at));
    return made;
}

uint32_t ctfd__of_value(ctf_file_t *fp, struct ctfd__details *details, int32_t value)
{
    struct ctfd__index *index;
    uint32_t i = 0, count = details->count;
    if (details->was_asked && details->by_value == NULL)
        details->by_value = index_values(fp, details);
    details->was_asked = true;
    index = details->by_value;
    if (index == NULL) {
        while (i < count && details->items[i].at != (uint32_t)value)
            i++;
        return i;
    }
    i = heads_of(index, count)[hash_of_value(fp, value) & index->mask];
    while (i != 0 && details->items[i - 1].at != (uint32_t)value)
        i = index->entries[i - 1].next;
    return i != 0 ? i - 1 : count;
}

/* ---- by names, if all of them are in the file's lists */

static uint32_t hash_of_name(ctf_file_t *fp, const char *name)
{
    return (uint32_t)ctfd__hash(&fp->texts, name, strnlen(name, HASHED));
}

static struct ctfd__index *index_names(ctf_file_t *fp, const struct ctfd__details *details)
{
    uint32_t i;
    struct ctfd__index *made = new_index(fp, details->count);
    for (i = details->count; made != NULL && i-- > 0;)
        put(made, details->count, i, hash_of_name(fp, details->items[i].name));
    return made;
}

uint32_t ctfd__of_name(ctf_file_t *fp, struct ctfd__details *details, const char *name)
{
    struct ctfd__index *index;
    uint32_t i = 0, hash, count = details->count;
    if (details->was_asked && details->by_name == NULL)
        details->by_name = index_names(fp, details);
    details->was_asked = true;
    index = details->by_name;
    if (index == NULL) {
        while (i < count && strcmp(details->items[i].name, name) != 0)
            i++;
        return i;
    }
    hash = hash_of_name(fp, name);
    i = heads_of(index, count)[hash & index->mask];
    while (i != 0 &&
        (index->entries[i - 1].hash != hash || strcmp(details->items[i - 1].name, name) != 0))
        i = index->entries[i - 1].next;
    return i != 0 ? i - 1 : count;
}
