/* visits.c - visits of a type and all that it contains, by ctfd_visit. */
#include "private.h"

#include <stdlib.h>

/* The first number of rows, and the greatest: no program has a type that contains so much. */
#define FIRST 128
#ifndef MOST
#define MOST 4194304
#endif

/* The deepest nesting of types: those of a child, and those of its parent. */
#define DEEPEST 1027

/* A visit. Rows are requested again, twice as many, if there are more; and if a callback has
 * changed what is open. */
struct visit {
    ctf_file_t *fp;
    uint16_t t;
    struct ctfd_visit_row *rows; /* `first`, or a block */
    size_t rows_len;
    uint64_t count; /* of filled rows, or one more than rows_len */
    uint64_t generation; /* of what was open when they were filled */
    size_t counted; /* how many rows `passed` takes into account */
    uint16_t passed[DEEPEST + 2]; /* for each depth, the number of members passed */
    struct ctfd_visit_row first[FIRST];
};

/* Fills the rows. */
static enum ctfd_status fill(struct visit *visit)
{
    struct ctfd *types;
    enum ctfd_status status = ctfd__opened(visit->fp, &types);
    visit->generation = visit->fp->generation;
    visit->counted = 0;
    if (status != CTFD_OK)
        return status;
    return ctfd_visit(types, visit->t, visit->rows, visit->rows_len, &visit->count);
}

/* Requests twice as many rows. */
static enum ctfd_status widen(struct visit *visit)
{
    struct ctfd_visit_row *more;
    size_t len = 2 * visit->rows_len;
    if (len > MOST)
        return CTFD_TOO_BIG;
    more = (struct ctfd_visit_row *)malloc(len * sizeof *more);
    if (more == NULL)
        return CTFD_MEMORY;
    if (visit->rows != visit->first)
        free(visit->rows);
    visit->rows = more;
    visit->rows_len = len;
    return fill(visit);
}

/* A row by its number; NULL after the last, and on an error. */
static const struct ctfd_visit_row *row_at(struct visit *visit, size_t i, enum ctfd_status *status)
{
    if (visit->generation != visit->fp->generation)
        *status = fill(visit);
    while (*status == CTFD_OK && i == visit->rows_len && visit->count > visit->rows_len)
        *status = widen(visit);
    return *status == CTFD_OK && i < visit->count ? &visit->rows[i] : NULL;
}

/* The index of a row's member in its holder: the number of rows with its depth since the last row
 * with a lower depth. */
static size_t index_of(struct visit *visit, const struct ctfd_visit_row *row)
{
    size_t i = visit->counted, end = (size_t)(row - visit->rows);
    for (; i <= end; i++) {
        uint32_t depth = visit->rows[i].depth;
        visit->passed[depth] = (uint16_t)(i == 0 ? 1 : visit->passed[depth] + 1);
        visit->passed[depth + 1] = 0;
    }
    visit->counted = i;
    return (size_t)visit->passed[row->depth] - 1;
}

/* The name of a member, by its index in its holder; NULL with the error set if it can't be kept. */
static const char *keep_name(ctf_file_t *fp, uint16_t holder, size_t index)
{
    struct ctfd_member member = { 0, 0, 0 };
    do {
        if (ctfd__done(
                fp, ctfd_member(&fp->types, holder, index, fp->room, fp->room_len, &member)) != 0)
            return NULL;
        if (member.name_len < fp->room_len)
            return ctfd__kept(fp, (size_t)member.name_len);
    } while (ctfd__make_room(fp, member.name_len));
    return NULL;
}

/* The name of a row's member. */
static const char *name_of(struct visit *visit, const struct ctfd_visit_row *row)
{
    const ctf_file_t *fp = visit->fp;
    if (row->name_list == CTFD_NOWHERE)
        return "";
    if (!ctfd__is_lent(fp, row->holder))
        return keep_name(visit->fp, row->holder, index_of(visit, row));
    return (const char *)fp->lists.data[row->name_list == CTFD_IN_SECTION ? 0 : 2] + row->name_at;
}

/* Sets the error for a type that resolves to none. */
static void tell_missing(ctf_file_t *fp, uint16_t t)
{
    uint16_t resolved = 0;
    if (ctfd__done(fp, ctfd_resolve(&fp->types, t, &resolved)) == 0)
        (void)ctfd__fail(fp, CTFD_NO_TYPE);
}

/* ---- created dictionaries: by their lists, and those of their parents */

/* A step of a visit: a member's name, type, offset and depth. */
struct step {
    const char *name;
    uint16_t type;
    uint64_t offset;
    int depth;
};

static int visit_step(ctf_file_t *fp, struct step at, ctf_visit_f *each, void *arg);

/* Visits the members of a struct or union, each as it is when its turn comes. */
static int visit_members(ctf_file_t *fp, uint16_t t, struct step at, ctf_visit_f *each, void *arg)
{
    const struct ctfd__details *details;
    uint32_t i;
    for (i = 0; (details = ctfd__details(fp, t)) != NULL && i < details->count; i++) {
        struct ctfd__item item = details->items[i];
        struct step in = { ctfd__item_name(fp, t, i), item.type, at.offset + item.at,
            at.depth + 1 };
        int said = in.name == NULL ? (int)CTF_ERR : visit_step(fp, in, each, arg);
        if (said != 0)
            return said;
    }
    return details != NULL ? 0 : (int)CTF_ERR;
}

static int visit_step(ctf_file_t *fp, struct step at, ctf_visit_f *each, void *arg)
{
    uint16_t t = 0;
    uint32_t kind = 0;
    int said;
    enum ctfd_status status = ctfd__resolution_of(fp, at.type, &t);
    if (status == CTFD_OK)
        status = t == 0 ? CTFD_NO_TYPE : ctfd__kind_of(fp, t, &kind);
    if (status == CTFD_OK && at.depth >= DEEPEST)
        status = CTFD_VALUE_DEEP;
    if (status != CTFD_OK)
        return (int)ctfd__fail(fp, (int)status);
    said = each(at.name, (ctf_id_t)at.type, (ulong_t)at.offset, at.depth, arg);
    if (said != 0 || (kind != CTFD_STRUCT && kind != CTFD_UNION))
        return said;
    return visit_members(fp, t, at, each, arg);
}

int ctf_type_visit(ctf_file_t *fp, ctf_id_t type, ctf_visit_f *each, void *arg)
{
    const struct ctfd_visit_row *row;
    struct step first = { "", (uint16_t)type, 0, 0 };
    struct visit visit;
    enum ctfd_status status;
    size_t i;
    int said = 0;
    if (!ctfd__is_type(fp, type))
        return (int)CTF_ERR;
    if (fp->recipe != NULL)
        return visit_step(fp, first, each, arg);
    visit.fp = fp;
    visit.t = (uint16_t)type;
    visit.rows = visit.first;
    visit.rows_len = FIRST;
    status = fill(&visit);
    for (i = 0; said == 0 && (row = row_at(&visit, i, &status)) != NULL; i++) {
        const char *name = name_of(&visit, row);
        if (name != NULL && row->stands_for != 0) {
            said = each(name, (ctf_id_t)row->type, (ulong_t)row->offset, (int)row->depth, arg);
            continue;
        }
        if (name != NULL)
            tell_missing(fp, row->type);
        said = (int)CTF_ERR;
    }
    if (visit.rows != visit.first)
        free(visit.rows);
    return status == CTFD_OK ? said : (int)ctfd__fail(fp, (int)status);
}
