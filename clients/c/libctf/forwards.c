/* forwards.c - what forwards of an opened dictionary declare: libctf's look-ups find the definition
 * if there is one. The whole dictionary is read when the first forward is found. */
#include "private.h"

#include <stdlib.h>
#include <string.h>

/* The number of rows that one call reads. */
#define ROWS 64

/* A hash table of definitions by name; its size is a power of two. */
struct table {
    ctf_file_t *fp;
    struct place {
        const char *name;
        uint16_t t;
        uint8_t kind;
    } * places;
    uint32_t mask;
};

/* The place of a name, or the empty one for it. */
static struct place *place_of(const struct table *table, uint8_t kind, const char *name)
{
    uint32_t at = (uint32_t)ctfd__hash(&table->fp->texts, name, strlen(name)) & table->mask;
    struct place *place = &table->places[at];
    while (place->name != NULL && (place->kind != kind || strcmp(place->name, name) != 0)) {
        at = (at + 1) & table->mask;
        place = &table->places[at];
    }
    return place;
}

static const char *name_in(const ctf_file_t *fp, const struct ctfd_type_row *row)
{
    if (row->name_list == CTFD_NOWHERE)
        return "";
    return (const char *)fp->lists.data[row->name_list == CTFD_IN_SECTION ? 0 : 2] + row->name_at;
}

/* A function that is called for each row, with its number. */
typedef void row_f(struct table *table, uint32_t i, const struct ctfd_type_row *row);

static enum ctfd_status each_row(struct table *table, row_f *call)
{
    struct ctfd_type_row rows[ROWS];
    uint64_t all = 1;
    uint32_t i, from;
    enum ctfd_status status = CTFD_OK;
    for (from = 0; status == CTFD_OK && from < all; from += ROWS) {
        status = ctfd_types(&table->fp->types, from, rows, ROWS, &all);
        for (i = 0; status == CTFD_OK && i < ROWS && from + i < all; i++)
            call(table, from + i, &rows[i]);
    }
    return status;
}

/* Enters the first visible definition of a name. */
static void enter_definition(struct table *table, uint32_t i, const struct ctfd_type_row *row)
{
    bool is_tagged = row->kind == CTFD_STRUCT || row->kind == CTFD_UNION || row->kind == CTFD_ENUM;
    struct place *place;
    if (!is_tagged || row->root == 0 || row->name_list == CTFD_NOWHERE)
        return;
    place = place_of(table, (uint8_t)row->kind, name_in(table->fp, row));
    if (place->name != NULL)
        return;
    place->name = name_in(table->fp, row);
    place->kind = (uint8_t)row->kind;
    place->t = (uint16_t)(i + 1);
}

static void enter_forward(struct table *table, uint32_t i, const struct ctfd_type_row *row)
{
    uint32_t tag = 0;
    uint16_t number = (uint16_t)(i + 1 + table->fp->definitions_before);
    if (row->kind == CTFD_FORWARD && row->name_list != CTFD_NOWHERE &&
        ctfd_tag(&table->fp->types, number, &tag) == CTFD_OK)
        table->fp->definitions[i] = place_of(table, (uint8_t)tag, name_in(table->fp, row))->t;
}

/* Makes the file's table of definitions; false if there is no memory. */
static bool find_definitions(ctf_file_t *fp)
{
    struct table table = { fp, NULL, 0 };
    uint32_t count = 0, before = 0;
    bool is_done;
    if (ctfd__own_types(fp, &count, &before) != CTFD_OK)
        return false;
    for (table.mask = 63; table.mask < 2 * count; table.mask = 2 * table.mask + 1)
        continue;
    fp->definitions = (uint16_t *)calloc(count + 1, sizeof *fp->definitions);
    fp->definitions_before = before;
    table.places = (struct place *)calloc(table.mask + 1, sizeof *table.places);
    is_done = fp->definitions != NULL && table.places != NULL &&
        each_row(&table, enter_definition) == CTFD_OK && each_row(&table, enter_forward) == CTFD_OK;
    free(table.places);
    if (!is_done) {
        free(fp->definitions);
        fp->definitions = NULL;
    }
    return is_done;
}

uint16_t ctfd__definition_of(ctf_file_t *fp, uint16_t t)
{
    ctf_file_t *of = fp->parent != NULL && t <= CTF_MAX_PTYPE ? fp->parent : fp;
    struct ctfd *types;
    uint32_t place;
    if (of->recipe != NULL || of->is_left || ctfd__opened(of, &types) != CTFD_OK ||
        (of->definitions == NULL && !find_definitions(of)))
        return t;
    place = t - of->definitions_before - 1u;
    return of->definitions[place] != 0 ? (uint16_t)(of->definitions[place] + of->definitions_before)
                                       : t;
}
