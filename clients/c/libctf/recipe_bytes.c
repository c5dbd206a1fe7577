/* recipe_bytes.c - the bytes of a created dictionary. All that is visible is added to a draft of
 * the proved library, in the order of the additions; the library checks and encodes it. Sizes of
 * structs and offsets of members are stated, so the bytes agree with earlier answers, however the
 * parent has changed since. If only types were added since the last time, only these are added to
 * the draft. */
#include "private.h"

#include <stdlib.h>
#include <string.h>

const char *const ctfd__symbol_labels[CTFD_SORTS] = {
    "ctfd.data:", "ctfd.function:", "ctfd.variable:"
};

static enum ctfd_status put_item(ctf_file_t *fp, struct ctfd *to, const struct ctfd__put *put)
{
    const struct ctfd__type *in = &fp->recipe->types[put->in];
    const struct ctfd__item *item = &in->details->items[put->item];
    uint16_t t = ctfd__number_of(fp, put->in);
    size_t len = strlen(item->name);
    if (in->kind == CTFD_ENUM)
        return ctfd_add_enumerator(to, t, item->name, len, (int32_t)(uint32_t)item->at);
    return ctfd_add_member_at(to, t, item->name, len, item->type, item->at, in->size);
}

static enum ctfd_status put_function(struct ctfd *to, const struct ctfd__type *type)
{
    const struct ctfd__details *details = type->details;
    uint16_t t, arguments[CTF_MAX_VLEN + 1];
    uint32_t i;
    for (i = 0; i < details->count; i++)
        arguments[i] = details->items[i].type;
    return ctfd_add_function(to, type->name, strlen(type->name), type->root != 0, type->is.returned,
        arguments, details->count, &t);
}

/* A call that adds a type which refers to another. */
typedef enum ctfd_status add_reference_f(
    struct ctfd *, const char *, size_t, bool, uint16_t, uint16_t *);

static add_reference_f *adder_of(uint32_t kind)
{
    switch (kind) {
    case CTFD_POINTER: return ctfd_add_pointer;
    case CTFD_TYPEDEF: return ctfd_add_typedef;
    case CTFD_VOLATILE: return ctfd_add_volatile;
    case CTFD_CONST: return ctfd_add_const;
    case CTFD_RESTRICT: return ctfd_add_restrict;
    default: return NULL;
    }
}

static enum ctfd_status put_type(struct ctfd *to, const struct ctfd__type *type)
{
    const struct ctfd_encoding *encoding = &type->is.encoding;
    const struct ctfd_array *array = &type->is.array;
    const char *name = type->name;
    uint16_t t;
    size_t len = strlen(name);
    bool root = type->root != 0;
    switch (type->kind) {
    case CTFD_INTEGER:
        return ctfd_add_integer(to, name, len, root, (uint8_t)encoding->encoding,
            (uint8_t)encoding->offset, (uint16_t)encoding->bits, type->size, &t);
    case CTFD_FLOAT:
        return ctfd_add_float(to, name, len, root, (uint8_t)encoding->encoding,
            (uint8_t)encoding->offset, (uint16_t)encoding->bits, type->size, &t);
    case CTFD_ARRAY:
        return ctfd_add_array(to, name, len, root, array->contents, array->index, array->count, &t);
    case CTFD_FUNCTION: return put_function(to, type);
    case CTFD_STRUCT: return ctfd_add_struct(to, name, len, root, type->size, &t);
    case CTFD_UNION: return ctfd_add_union(to, name, len, root, type->size, &t);
    case CTFD_ENUM: return ctfd_add_enum(to, name, len, root, type->size, &t);
    case CTFD_FORWARD: return ctfd_add_forward(to, name, len, root, type->tag, &t);
    case CTFD_UNKNOWN: return ctfd_add_unknown(to, name, len, root, &t);
    default: return adder_of(type->kind)(to, name, len, root, type->is.to, &t);
    }
}

/* The number of types, items and labels in a draft. */
struct stand {
    uint32_t types, puts, marks;
};

/* Adds to an encoder's draft what comes after the first `from` types, items and labels, in order. A
 * forward that was promoted is added as the type that it became. */
static enum ctfd_status put_all(ctf_file_t *fp, struct ctfd *to, struct stand from)
{
    const struct ctfd__recipe *of = fp->recipe;
    enum ctfd_status status = CTFD_OK;
    while (status == CTFD_OK && (from.types < of->visible || from.puts < of->puts_len)) {
        const struct ctfd__put *put = from.puts < of->puts_len ? &of->puts[from.puts] : NULL;
        if (put == NULL || (put->types > from.types && from.types < of->visible)) {
            status = put_type(to, &of->types[from.types++]);
            continue;
        }
        if (put->in < of->visible)
            status = put_item(fp, to, put);
        from.puts++;
    }
    for (; status == CTFD_OK && from.marks < of->marks_visible; from.marks++)
        status = ctfd_add_label(to, of->marks[from.marks].name, strlen(of->marks[from.marks].name),
            of->marks[from.marks].last);
    return status;
}

static int by_names(const void *a, const void *b)
{
    const struct ctfd__symbol *left = (const struct ctfd__symbol *)a;
    const struct ctfd__symbol *right = (const struct ctfd__symbol *)b;
    return left->sort != right->sort ? left->sort - right->sort : strcmp(left->name, right->name);
}

/* Adds the labels of symbols, ordered by their names. */
static enum ctfd_status put_symbols(ctf_file_t *fp, struct ctfd *to)
{
    struct ctfd__recipe *of = fp->recipe;
    enum ctfd_status status = CTFD_OK;
    uint32_t i;
    if (of->symbols_len != 0)
        qsort(of->symbols, of->symbols_len, sizeof *of->symbols, by_names);
    for (i = 0; status == CTFD_OK && i < of->symbols_len; i++) {
        const char *begin = ctfd__symbol_labels[of->symbols[i].sort];
        size_t first = strlen(begin), len = first + strlen(of->symbols[i].name);
        if (!ctfd__make_room(fp, len))
            return CTFD_MEMORY;
        memcpy(fp->room, begin, first);
        memcpy(fp->room + first, of->symbols[i].name, len - first);
        status = ctfd_add_label(to, fp->room, len, of->symbols[i].type);
    }
    return status;
}

/* Creates an empty draft, over the parent in its present state. */
static enum ctfd_status begin(ctf_file_t *fp, struct ctfd *draft)
{
    uint64_t place;
    struct ctfd *parent;
    enum ctfd_status status;
    if (fp->parent == NULL)
        return ctfd_create(draft, fp->model == CTF_MODEL_ILP32, &place);
    status = ctfd__opened(fp->parent, &parent);
    return status == CTFD_OK ? ctfd_create_child(draft, parent, "PARENT", 6, "", 0, &place)
                             : status;
}

/* Writes everything again, in place of the old draft. */
static enum ctfd_status write_anew(ctf_file_t *fp)
{
    struct ctfd draft = CTFD_NONE;
    struct stand none = { 0, 0, 0 };
    uint64_t types, place;
    enum ctfd_status status = begin(fp, &draft);
    if (status == CTFD_OK)
        status = put_all(fp, &draft, none);
    if (status == CTFD_OK)
        status = put_symbols(fp, &draft);
    if (status == CTFD_OK)
        status = ctfd_update(&draft, &types, &place);
    if (status != CTFD_OK) {
        ctfd_close(&draft);
        return status;
    }
    ctfd_close(&fp->recipe->draft);
    fp->recipe->draft = draft;
    return CTFD_OK;
}

/* Adds what is new to the draft. */
static enum ctfd_status write_more(ctf_file_t *fp)
{
    struct ctfd__recipe *of = fp->recipe;
    struct stand from = { of->written.types, of->written.puts, of->written.marks };
    uint64_t types, place;
    enum ctfd_status status = put_all(fp, &of->draft, from);
    if (status == CTFD_OK)
        status = ctfd_update(&of->draft, &types, &place);
    if (status != CTFD_OK)
        (void)ctfd_discard(&of->draft, &types);
    return status;
}

enum ctfd_status ctfd__write(ctf_file_t *fp)
{
    struct ctfd__recipe *of = fp->recipe;
    uint64_t of_parent = 0;
    bool is_anew;
    enum ctfd_status status;
    if (fp->parent != NULL && fp->parent->recipe != NULL) {
        status = ctfd__write(fp->parent);
        if (status != CTFD_OK)
            return status;
        of_parent = 1 + fp->parent->recipe->changes;
    }
    is_anew = !of->draft.full || of->written.is_stale || of_parent != of->written.of_parent;
    if (!is_anew && of->written.changes == 1 + of->changes)
        return CTFD_OK;
    status = is_anew ? write_anew(fp) : write_more(fp);
    if (status != CTFD_OK)
        return status;
    /* Items of pending types are added again from the beginning, which is rare. */
    of->written.is_stale = of->visible != of->count;
    of->written.types = of->visible;
    of->written.puts = of->puts_len;
    of->written.marks = of->marks_visible;
    of->written.changes = 1 + of->changes;
    of->written.of_parent = of_parent;
    return CTFD_OK;
}
