/* recipe.c - created dictionaries: additions are stored as they were requested, and questions are
 * answered from them. So a type may get members and enumerators at any time, and additions to the
 * parent are seen. Nothing is written until bytes are needed. */
#include "private.h"

#include <stdlib.h>
#include <string.h>

#define MOST_TYPES 32766

bool ctfd__new_recipe(ctf_file_t *fp)
{
    fp->recipe = (struct ctfd__recipe *)calloc(1, sizeof *fp->recipe);
    return fp->recipe != NULL;
}

static void free_details(struct ctfd__type *type)
{
    if (type->details == NULL)
        return;
    free(type->details->by_value);
    free(type->details->by_name);
    free(type->details);
    type->details = NULL;
    type->items_room = 0;
}

void ctfd__free_recipe(ctf_file_t *fp)
{
    struct ctfd__recipe *of = fp->recipe;
    uint32_t i;
    if (of == NULL)
        return;
    for (i = 0; i < of->count; i++)
        free_details(&of->types[i]);
    ctfd_close(&of->draft);
    free(of->types);
    free(of->names);
    free(of->buckets);
    free(of->parent_pointers);
    free(of->puts);
    free(of->marks);
    free(of->symbols);
    free(of);
}

/* ---- numbers */

uint16_t ctfd__number_of(const ctf_file_t *fp, uint32_t place)
{
    return (uint16_t)(fp->parent != NULL ? place + 0x8001 : place + 1);
}

uint32_t ctfd__place_of(const ctf_file_t *fp, uint16_t t)
{
    if (fp->parent != NULL)
        return t > 0x8000 ? t - 0x8001u : UINT32_MAX;
    return t != 0 && t <= CTF_MAX_PTYPE ? t - 1u : UINT32_MAX;
}

uint32_t ctfd__visible_count(const ctf_file_t *fp)
{
    return fp->recipe->shows_all ? fp->recipe->count : fp->recipe->visible;
}

struct ctfd__type *ctfd__own_type(const ctf_file_t *fp, uint16_t t)
{
    uint32_t place = ctfd__place_of(fp, t);
    return place < fp->recipe->count ? &fp->recipe->types[place] : NULL;
}

struct ctfd__type *ctfd__visible_type(const ctf_file_t *fp, uint16_t t)
{
    uint32_t place = ctfd__place_of(fp, t);
    return place < ctfd__visible_count(fp) ? &fp->recipe->types[place] : NULL;
}

bool ctfd__is_there(ctf_file_t *fp, uint16_t t)
{
    uint32_t kind;
    ctf_file_t *of = ctfd__owner(fp, t);
    return of == fp ? ctfd__own_type(fp, t) != NULL : ctfd__kind_of(of, t, &kind) == CTFD_OK;
}

/* ---- memory */

bool ctfd__room_for_one(void *block, uint32_t len, uint32_t *room, size_t size)
{
    void **at = (void **)block, *more;
    uint32_t wanted = *room == 0 ? 16 : 2 * *room;
    if (len < *room)
        return true;
    more = realloc(*at, wanted * size);
    if (more == NULL)
        return false;
    *at = more;
    *room = wanted;
    return true;
}

/* Walks that use the old details have to look them up again. */
bool ctfd__room_for_items(ctf_file_t *fp, struct ctfd__type *type, uint32_t items)
{
    struct ctfd__details *more;
    uint32_t room = type->items_room;
    if (type->details != NULL && items <= room)
        return true;
    if (type->details != NULL)
        room = room == 0 ? 4 : 2 * room;
    if (room < items)
        room = items;
    more = (struct ctfd__details *)realloc(
        type->details, sizeof *more + room * sizeof(struct ctfd__item));
    if (more == NULL)
        return false;
    if (type->details == NULL)
        memset(more, 0, sizeof *more);
    type->details = more;
    type->items_room = (uint16_t)room;
    more->kind = type->kind;
    fp->dropped++;
    return true;
}

/* Drops the indexes by value and name. */
static void forget_indexes(struct ctfd__details *details)
{
    free(details->by_value);
    free(details->by_name);
    details->by_value = details->by_name = NULL;
    details->was_asked = false;
}

/* ---- changes */

/* Suspends opened children, which import the changed parent when they are next asked. */
static void close_children(ctf_file_t *fp)
{
    ctf_file_t *child;
    for (child = fp->children; child != NULL; child = child->sibling) {
        if (!child->types.full)
            continue;
        child->behind = child->types;
        child->types = (struct ctfd)CTFD_NONE;
        ctfd__forget(child);
    }
}

void ctfd__change(ctf_file_t *fp)
{
    fp->recipe->changes++;
    if (fp->children != NULL)
        close_children(fp);
}

void ctfd__touch(ctf_file_t *fp, const struct ctfd__type *type)
{
    ctfd__change(fp);
    if ((uint32_t)(type - fp->recipe->types) < fp->recipe->written.types)
        fp->recipe->written.is_stale = true;
}

/* ---- types */

static bool has_details(uint32_t kind)
{
    return kind == CTFD_FUNCTION || kind == CTFD_STRUCT || kind == CTFD_UNION || kind == CTFD_ENUM;
}

enum ctfd_status ctfd__add_type(
    ctf_file_t *fp, uint32_t kind, uint32_t tag, const char *name, bool root, uint16_t *t)
{
    struct ctfd__recipe *of = fp->recipe;
    struct ctfd__type *type;
    void *block = of->types;
    const char *kept;
    bool fits;
    if (of->count >= MOST_TYPES)
        return CTFD_FULL;
    fits = ctfd__room_for_one(&block, of->count, &of->room, sizeof *of->types);
    of->types = (struct ctfd__type *)block;
    kept = fits && ctfd__room_for_name(of) ? ctfd__keep(fp, name, strlen(name)) : NULL;
    if (kept == NULL)
        return CTFD_MEMORY;
    type = &of->types[of->count];
    memset(type, 0, sizeof *type);
    type->name = kept;
    type->kind = (uint8_t)kind;
    type->tag = (uint8_t)tag;
    type->root = root;
    if (has_details(kind) && !ctfd__room_for_items(fp, type, 0))
        return CTFD_MEMORY;
    *t = ctfd__number_of(fp, of->count);
    ctfd__enter_name(of, of->count++);
    if (fp->is_live)
        ctfd__show(fp);
    ctfd__change(fp);
    return CTFD_OK;
}

/* Makes pending additions visible. */
void ctfd__show(ctf_file_t *fp)
{
    struct ctfd__recipe *of = fp->recipe;
    for (; of->visible < of->count; of->visible++)
        ctfd__show_name(of, of->visible);
    of->marks_visible = of->marks_len;
}

/* ---- pointers */

/* The place of the last pointer to a type; NULL if the table has no room for it. */
static uint16_t *pointer_to(const ctf_file_t *fp, uint16_t t)
{
    struct ctfd__recipe *of = fp->recipe;
    struct ctfd__type *type;
    if (fp->parent != NULL && t <= CTF_MAX_PTYPE)
        return t < of->parent_pointers_len ? &of->parent_pointers[t] : NULL;
    type = ctfd__own_type(fp, t);
    return type != NULL ? &type->pointer : NULL;
}

/* Makes room in the table for a type of the parent. If that fails, pointers to it are not found. */
static void widen_parent_pointers(struct ctfd__recipe *of, uint16_t t)
{
    uint32_t len = of->parent_pointers_len == 0 ? 64 : of->parent_pointers_len;
    uint16_t *more;
    while (len <= t)
        len *= 2;
    if (len == of->parent_pointers_len)
        return;
    more = (uint16_t *)realloc(of->parent_pointers, len * sizeof *more);
    if (more == NULL)
        return;
    memset(more + of->parent_pointers_len, 0, (len - of->parent_pointers_len) * sizeof *more);
    of->parent_pointers = more;
    of->parent_pointers_len = len;
}

void ctfd__lead(ctf_file_t *fp, uint16_t t, uint16_t to)
{
    struct ctfd__type *type = ctfd__own_type(fp, t);
    uint16_t *last;
    type->is.to = to;
    if (type->kind != CTFD_POINTER || to == 0)
        return;
    if (fp->parent != NULL && to <= CTF_MAX_PTYPE)
        widen_parent_pointers(fp->recipe, to);
    last = pointer_to(fp, to);
    if (last == NULL)
        return;
    type->older_pointer = *last;
    *last = t;
}

/* Removes a pointer from the list of pointers to its type. */
static void unlead(ctf_file_t *fp, uint32_t place)
{
    struct ctfd__type *type = &fp->recipe->types[place];
    bool leads = type->kind == CTFD_POINTER && type->is.to != 0;
    uint16_t t = ctfd__number_of(fp, place), *at = leads ? pointer_to(fp, type->is.to) : NULL;
    while (at != NULL && *at != 0 && *at != t)
        at = &ctfd__own_type(fp, *at)->older_pointer;
    if (at != NULL && *at != 0)
        *at = type->older_pointer;
}

/* ---- members and enumerators */

static bool has_item(const struct ctfd__details *details, const char *kept)
{
    uint32_t i;
    for (i = 0; kept[0] != '\0' && i < details->count; i++) {
        if (details->items[i].name == kept)
            return true;
    }
    return false;
}

/* The reason why an item can't be added to a type, apart from the item itself; also finds the type,
 * and keeps the item's name. */
static enum ctfd_status refusal_of_item(ctf_file_t *fp, uint16_t t, bool is_of_enum,
    const char *name, struct ctfd__type **type, const char **kept)
{
    uint32_t kind;
    if (ctfd__owner(fp, t) != fp)
        return ctfd__kind_of(fp->parent, t, &kind) == CTFD_OK ? CTFD_SETTLED : CTFD_NO_TYPE;
    *type = ctfd__own_type(fp, t);
    if (*type == NULL)
        return CTFD_NO_TYPE;
    kind = (*type)->kind;
    if (is_of_enum ? kind != CTFD_ENUM : kind != CTFD_STRUCT && kind != CTFD_UNION)
        return CTFD_WRONG_KIND;
    if ((*type)->details->count >= CTF_MAX_VLEN)
        return CTFD_VLEN_FULL;
    *kept = ctfd__keep(fp, name, strlen(name));
    if (*kept == NULL)
        return CTFD_MEMORY;
    return has_item((*type)->details, *kept) ? CTFD_DUPLICATE : CTFD_OK;
}

/* Adds an item after the others, and records the addition. */
static enum ctfd_status put_item(
    ctf_file_t *fp, struct ctfd__type *type, const char *kept, uint64_t at, uint16_t names)
{
    struct ctfd__recipe *of = fp->recipe;
    struct ctfd__details *details;
    struct ctfd__put *put;
    void *block = of->puts;
    bool fits = ctfd__room_for_one(&block, of->puts_len, &of->puts_room, sizeof *of->puts);
    of->puts = (struct ctfd__put *)block;
    if (!fits || !ctfd__room_for_items(fp, type, type->details->count + 1))
        return CTFD_MEMORY;
    details = type->details;
    forget_indexes(details);
    put = &of->puts[of->puts_len++];
    put->in = (uint16_t)(type - of->types);
    put->item = (uint16_t)details->count;
    put->types = (uint16_t)of->count;
    details->items[details->count].name = kept;
    details->items[details->count].at = at;
    details->items[details->count++].type = names;
    ctfd__touch(fp, type);
    return CTFD_OK;
}

enum ctfd_status ctfd__add_member(
    ctf_file_t *fp, uint16_t t, const char *name, uint16_t type, bool has_offset, uint64_t offset)
{
    struct ctfd__type *in;
    const char *kept;
    ctfd__wide bits = 0, at = offset, end;
    enum ctfd_status status = refusal_of_item(fp, t, false, name, &in, &kept);
    if (status != CTFD_OK)
        return status;
    if (type != 0 && !ctfd__is_there(fp, type))
        return CTFD_BAD_REF;
    status = ctfd__bits_of(fp, type, &bits);
    if (status == CTFD_OK && !has_offset)
        status = ctfd__place_for(fp, in, type, &at);
    if (status != CTFD_OK)
        return status;
    end = (at + bits + 7) / 8;
    if (at > UINT64_MAX || end > UINT64_MAX)
        return CTFD_BAD_OFFSET;
    status = put_item(fp, in, kept, (uint64_t)at, type);
    if (status == CTFD_OK && in->size < end)
        in->size = (uint64_t)end;
    return status;
}

enum ctfd_status ctfd__add_enumerator(ctf_file_t *fp, uint16_t t, const char *name, int32_t value)
{
    struct ctfd__type *in;
    const char *kept;
    enum ctfd_status status = refusal_of_item(fp, t, true, name, &in, &kept);
    return status == CTFD_OK ? put_item(fp, in, kept, (uint32_t)value, 0) : status;
}

/* ---- labels and symbols */

enum ctfd_status ctfd__add_mark(ctf_file_t *fp, const char *name, uint32_t last)
{
    struct ctfd__recipe *of = fp->recipe;
    const char *kept = ctfd__keep(fp, name, strlen(name));
    void *block = of->marks;
    bool fits;
    uint32_t i;
    for (i = 0; kept != NULL && i < of->marks_len; i++) {
        if (of->marks[i].name == kept)
            return CTFD_DUPLICATE;
    }
    fits = ctfd__room_for_one(&block, of->marks_len, &of->marks_room, sizeof *of->marks);
    of->marks = (struct ctfd__mark *)block;
    if (!fits || kept == NULL)
        return CTFD_MEMORY;
    of->marks[of->marks_len].name = kept;
    of->marks[of->marks_len++].last = last;
    ctfd__change(fp);
    return CTFD_OK;
}

enum ctfd_status ctfd__add_symbol(ctf_file_t *fp, const char *name, uint16_t type, uint8_t sort)
{
    struct ctfd__recipe *of = fp->recipe;
    const char *kept = ctfd__keep(fp, name, strlen(name));
    void *block = of->symbols;
    bool fits;
    uint32_t i;
    for (i = 0; kept != NULL && i < of->symbols_len; i++) {
        if (of->symbols[i].name == kept && of->symbols[i].sort == sort)
            return CTFD_DUPLICATE;
    }
    fits = ctfd__room_for_one(&block, of->symbols_len, &of->symbols_room, sizeof *of->symbols);
    of->symbols = (struct ctfd__symbol *)block;
    if (!fits || kept == NULL)
        return CTFD_MEMORY;
    of->symbols[of->symbols_len].name = kept;
    of->symbols[of->symbols_len].type = type;
    of->symbols[of->symbols_len++].sort = sort;
    of->written.is_stale = true;
    ctfd__change(fp);
    return CTFD_OK;
}

/* ---- changes of existing types */

bool ctfd__promote(ctf_file_t *fp, uint16_t t, uint32_t kind, uint64_t size)
{
    struct ctfd__type *type = ctfd__own_type(fp, t);
    type->kind = (uint8_t)kind;
    if (!ctfd__room_for_items(fp, type, 0)) {
        type->kind = CTFD_FORWARD;
        return false;
    }
    type->size = size;
    type->tag = 0;
    ctfd__define_name(fp->recipe, (uint32_t)(type - fp->recipe->types));
    ctfd__touch(fp, type);
    return true;
}

/* Removes an item of a type; those after it move. The size stays, as in libctf. */
static void take_out(ctf_file_t *fp, struct ctfd__type *type, uint32_t item)
{
    struct ctfd__recipe *of = fp->recipe;
    struct ctfd__details *details = type->details;
    uint16_t in = (uint16_t)(type - of->types);
    uint32_t i;
    memmove(details->items + item, details->items + item + 1,
        (--details->count - item) * sizeof details->items[0]);
    for (i = 0; i < of->puts_len; i++)
        of->puts[i].item -= of->puts[i].in == in && of->puts[i].item > item;
    forget_indexes(details);
    fp->dropped++;
    ctfd__touch(fp, type);
}

/* Whether an added item has a type after the first `count`. */
static bool names_later(const ctf_file_t *fp, const struct ctfd__put *put, uint32_t count)
{
    const struct ctfd__type *in = &fp->recipe->types[put->in];
    uint32_t place = ctfd__place_of(fp, in->details->items[put->item].type);
    return in->kind != CTFD_ENUM && place != UINT32_MAX && place >= count;
}

/* Drops the items of types after the first `count`, and the items of older types that have such
 * types. Looks only at items that were added since there were that many types. */
static void drop_puts(ctf_file_t *fp, uint32_t count)
{
    struct ctfd__recipe *of = fp->recipe;
    uint32_t i, kept, from = of->puts_len;
    while (from > 0 && of->puts[from - 1].types > count)
        from--;
    for (i = kept = from; i < of->puts_len; i++) {
        struct ctfd__put put = of->puts[i];
        if (put.in >= count)
            continue;
        if (names_later(fp, &put, count)) {
            take_out(fp, &of->types[put.in], put.item);
            continue;
        }
        put.types = (uint16_t)count;
        of->puts[kept++] = put;
    }
    of->puts_len = kept;
    if (of->written.puts > kept)
        of->written.is_stale = true;
}

void ctfd__drop_types(ctf_file_t *fp, uint32_t count)
{
    struct ctfd__recipe *of = fp->recipe;
    if (count >= of->count)
        return;
    drop_puts(fp, count);
    while (of->count > count) {
        ctfd__leave_name(of, of->count - 1);
        unlead(fp, of->count - 1);
        free_details(&of->types[--of->count]);
        if (of->visible > of->count)
            of->visible = of->count;
    }
    if (of->written.types > count)
        of->written.is_stale = true;
    fp->dropped++;
    ctfd__change(fp);
}

/* Removes the last type. Any other becomes a type of an unknown kind, so that numbers stay
 * valid. */
void ctfd__delete_type(ctf_file_t *fp, uint16_t t)
{
    struct ctfd__recipe *of = fp->recipe;
    uint32_t i, kept, place = ctfd__place_of(fp, t);
    struct ctfd__type *type = &of->types[place];
    if (place + 1 == of->count) {
        ctfd__drop_types(fp, place);
        return;
    }
    for (i = kept = 0; i < of->puts_len; i++) {
        if (of->puts[i].in != place)
            of->puts[kept++] = of->puts[i];
    }
    of->puts_len = kept;
    ctfd__leave_name(of, place);
    unlead(fp, place);
    free_details(type);
    type->kind = CTFD_UNKNOWN;
    type->name = "";
    type->root = 0;
    fp->dropped++;
    ctfd__touch(fp, type);
}
