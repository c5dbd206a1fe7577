/* recipe_sizes.c - sizes, alignments and offsets in a created dictionary, of pending types too,
 * since later additions depend on them. The rules are those of the proved draft. */
#include "private.h"

#define MOST_TYPES 32766

enum ctfd_status ctfd__recipe_resolution(ctf_file_t *fp, uint16_t t, ctf_file_t **of, uint16_t *to)
{
    uint32_t steps = 0;
    *of = fp;
    for (;;) {
        const struct ctfd__type *type;
        *to = t;
        if (t == 0)
            return CTFD_OK;
        *of = ctfd__owner(fp, t);
        if (*of != fp)
            return ctfd__resolution_of(*of, t, to);
        type = ctfd__own_type(fp, t);
        if (type == NULL)
            return CTFD_NO_TYPE;
        if ((type->kind != CTFD_TYPEDEF && type->kind < CTFD_VOLATILE) || steps++ > MOST_TYPES)
            return CTFD_OK;
        t = type->is.to;
    }
}

static uint64_t pointer_size(const ctf_file_t *fp)
{
    return fp->model == CTF_MODEL_ILP32 ? 4 : 8;
}

static uint64_t enum_size(const struct ctfd__type *type)
{
    return type->size != 0 ? type->size : 4;
}

/* Follows arrays of arrays as deep as the format allows. */
static enum ctfd_status size_in(ctf_file_t *fp, uint16_t t, uint32_t depth, uint64_t *bytes)
{
    ctf_file_t *of;
    const struct ctfd__type *type;
    uint16_t to;
    enum ctfd_status status = ctfd__recipe_resolution(fp, t, &of, &to);
    if (status != CTFD_OK)
        return status;
    if (to == 0 || depth > 2 * CTFD_DEEPEST)
        return CTFD_INCOMPLETE;
    if (of != fp)
        return ctfd__size_of(of, to, bytes);
    type = ctfd__own_type(fp, to);
    switch (type->kind) {
    case CTFD_ARRAY:
        status = size_in(fp, type->is.array.contents, depth + 1, bytes);
        if (status == CTFD_OK && type->is.array.count != 0 &&
            *bytes > UINT64_MAX / type->is.array.count)
            status = CTFD_TOO_BIG;
        *bytes *= type->is.array.count;
        return status;
    case CTFD_POINTER: *bytes = pointer_size(fp); return CTFD_OK;
    case CTFD_FUNCTION: *bytes = 0; return CTFD_OK;
    case CTFD_ENUM: *bytes = enum_size(type); return CTFD_OK;
    case CTFD_UNKNOWN:
    case CTFD_FORWARD: return CTFD_INCOMPLETE;
    default: *bytes = type->size; return CTFD_OK;
    }
}

enum ctfd_status ctfd__recipe_size(ctf_file_t *fp, uint16_t t, uint64_t *bytes)
{
    return size_in(fp, t, 0, bytes);
}

static enum ctfd_status align_in(ctf_file_t *fp, uint16_t t, uint32_t depth, uint64_t *bytes);

/* A number that changes whenever alignments may change, here or in the parent. */
static uint64_t state_of(const ctf_file_t *fp)
{
    const ctf_file_t *parent = fp->parent;
    bool has_recipe = parent != NULL && parent->recipe != NULL;
    return 1 + fp->recipe->changes + (has_recipe ? parent->recipe->changes : 0);
}

/* The alignment of the first member or, since all members of a union are at 0, the greatest in a
 * union. */
static enum ctfd_status align_of_members(
    ctf_file_t *fp, struct ctfd__type *type, uint32_t depth, uint64_t *bytes)
{
    const struct ctfd__details *details = type->details;
    uint64_t state = state_of(fp);
    uint32_t i, count = type->kind == CTFD_UNION || details->count == 0 ? details->count : 1;
    *bytes = type->align;
    if (type->align_state == state)
        return CTFD_OK;
    *bytes = 0;
    for (i = 0; i < count; i++) {
        uint64_t member = 0;
        enum ctfd_status status = align_in(fp, details->items[i].type, depth + 1, &member);
        if (status != CTFD_OK)
            return status;
        *bytes = member > *bytes ? member : *bytes;
    }
    type->align = *bytes;
    type->align_state = state;
    return CTFD_OK;
}

static enum ctfd_status align_in(ctf_file_t *fp, uint16_t t, uint32_t depth, uint64_t *bytes)
{
    ctf_file_t *of;
    struct ctfd__type *type;
    uint16_t to;
    enum ctfd_status status = ctfd__recipe_resolution(fp, t, &of, &to);
    if (status != CTFD_OK)
        return status;
    if (to == 0 || depth > 2 * CTFD_DEEPEST)
        return CTFD_INCOMPLETE;
    if (of != fp)
        return ctfd__align_of(of, to, bytes);
    type = ctfd__own_type(fp, to);
    switch (type->kind) {
    case CTFD_POINTER:
    case CTFD_FUNCTION: *bytes = pointer_size(fp); return CTFD_OK;
    case CTFD_ENUM: *bytes = enum_size(type); return CTFD_OK;
    case CTFD_UNKNOWN:
    case CTFD_FORWARD: return CTFD_INCOMPLETE;
    case CTFD_ARRAY: return align_in(fp, type->is.array.contents, depth + 1, bytes);
    case CTFD_STRUCT:
    case CTFD_UNION: return align_of_members(fp, type, depth, bytes);
    default: *bytes = type->size; return CTFD_OK;
    }
}

enum ctfd_status ctfd__recipe_align(ctf_file_t *fp, uint16_t t, uint64_t *bytes)
{
    return align_in(fp, t, 0, bytes);
}

/* ---- offsets */

/* The width of an integer or a float; for other types, all bits of their bytes. */
enum ctfd_status ctfd__bits_of(ctf_file_t *fp, uint16_t t, ctfd__wide *bits)
{
    struct ctfd_encoding encoding;
    ctf_file_t *of;
    uint64_t bytes;
    uint16_t to;
    uint32_t kind;
    enum ctfd_status status = ctfd__recipe_size(fp, t, &bytes);
    if (status == CTFD_OK)
        status = ctfd__recipe_resolution(fp, t, &of, &to);
    if (status != CTFD_OK)
        return status;
    kind = of == fp ? ctfd__own_type(fp, to)->kind : CTFD_UNKNOWN;
    if (of != fp && (status = ctfd__kind_of(of, to, &kind)) != CTFD_OK)
        return status;
    *bits = (ctfd__wide)8 * bytes;
    if (kind != CTFD_INTEGER && kind != CTFD_FLOAT)
        return CTFD_OK;
    if (of == fp)
        encoding = ctfd__own_type(fp, to)->is.encoding;
    else if ((status = ctfd__encoding_of(of, to, &encoding)) != CTFD_OK)
        return status;
    *bits = encoding.bits;
    return CTFD_OK;
}

/* The first offset after the last member, in bits, that is at a whole byte and that the alignment
 * allows; 0 in a union. */
enum ctfd_status ctfd__place_for(
    ctf_file_t *fp, const struct ctfd__type *type, uint16_t member, ctfd__wide *at)
{
    const struct ctfd__details *details = type->details;
    const struct ctfd__item *last;
    ctfd__wide bits = 0, bytes;
    uint64_t align = 0;
    enum ctfd_status status;
    *at = 0;
    if (type->kind == CTFD_UNION || details->count == 0)
        return CTFD_OK;
    last = &details->items[details->count - 1];
    status = ctfd__bits_of(fp, last->type, &bits);
    if (status == CTFD_OK)
        status = ctfd__recipe_align(fp, member, &align);
    if (status != CTFD_OK)
        return status;
    bytes = (last->at + bits + 7) / 8;
    if (align > 1)
        bytes = (bytes + align - 1) / align * align;
    *at = 8 * bytes;
    return CTFD_OK;
}
