/* recipe_names.c - types by name in a created dictionary. Each name has a list of its types, the
 * last one first, and stores which of them a look-up finds: so neither an addition nor a look-up
 * walks over pending types with the same name. */
#include "private.h"

#include <stdlib.h>

/* The name space of a type: structs, unions and enums have one each; all others share one. */
static uint8_t space_of(uint32_t kind, uint32_t tag)
{
    if (kind == CTFD_FORWARD)
        kind = tag;
    return kind == CTFD_STRUCT || kind == CTFD_UNION || kind == CTFD_ENUM ? (uint8_t)kind : 0;
}

/* The bucket of a kept text. Kept texts are equal exactly if their addresses are. */
static uint32_t bucket_of(const struct ctfd__recipe *of, const char *text, uint8_t space)
{
    uint64_t mixed = ((uint64_t)(uintptr_t)text / 8 + space) * 0x9e3779b97f4a7c15u;
    return (uint32_t)(mixed >> 32) & (of->buckets_len - 1);
}

static void enter(struct ctfd__recipe *of, uint32_t i)
{
    struct ctfd__name *name = &of->names[i];
    uint32_t *bucket = &of->buckets[bucket_of(of, name->text, name->space)];
    name->next = *bucket;
    *bucket = i + 1;
}

bool ctfd__room_for_name(struct ctfd__recipe *of)
{
    uint32_t i, *buckets, len = of->buckets_len == 0 ? 64 : 2 * of->buckets_len;
    void *block = of->names;
    bool fits = ctfd__room_for_one(&block, of->names_len, &of->names_room, sizeof *of->names);
    of->names = (struct ctfd__name *)block;
    if (!fits || of->names_len < of->buckets_len)
        return fits;
    buckets = (uint32_t *)calloc(len, sizeof *buckets);
    if (buckets == NULL)
        return false;
    free(of->buckets);
    of->buckets = buckets;
    of->buckets_len = len;
    for (i = 0; i < of->names_len; i++)
        enter(of, i);
    return true;
}

/* The entry of a name; NULL if there is none. */
static struct ctfd__name *name_of(const struct ctfd__recipe *of, const char *text, uint8_t space)
{
    uint32_t i = of->buckets_len == 0 ? 0 : of->buckets[bucket_of(of, text, space)];
    while (i != 0 && (of->names[i - 1].text != text || of->names[i - 1].space != space))
        i = of->names[i - 1].next;
    return i != 0 ? &of->names[i - 1] : NULL;
}

/* The entry of a type's name; NULL for types that look-ups do not find. With `is_made`, a missing
 * entry is made, for which there must be room. */
static struct ctfd__name *name_at(struct ctfd__recipe *of, uint32_t place, bool is_made)
{
    const struct ctfd__type *type = &of->types[place];
    uint8_t space = space_of(type->kind, type->tag);
    struct ctfd__name *name;
    if (type->root == 0 || type->name[0] == '\0' || type->kind == CTFD_UNKNOWN)
        return NULL;
    name = name_of(of, type->name, space);
    if (name != NULL || !is_made)
        return name;
    name = &of->names[of->names_len];
    *name = (struct ctfd__name){ type->name, 0, 0, 0, 0, space };
    enter(of, of->names_len++);
    return name;
}

static bool is_forward(const struct ctfd__recipe *of, uint16_t type)
{
    return of->types[type - 1].kind == CTFD_FORWARD;
}

void ctfd__enter_name(struct ctfd__recipe *of, uint32_t place)
{
    struct ctfd__name *name = name_at(of, place, true);
    if (name == NULL)
        return;
    of->types[place].older = name->newest;
    name->newest = (uint16_t)(place + 1);
    if (!is_forward(of, name->newest))
        name->definition = name->newest;
}

void ctfd__show_name(struct ctfd__recipe *of, uint32_t place)
{
    struct ctfd__name *name = name_at(of, place, false);
    uint16_t type = (uint16_t)(place + 1);
    if (name == NULL)
        return;
    if (name->visible == 0 || !is_forward(of, type) || is_forward(of, name->visible))
        name->visible = type;
}

void ctfd__define_name(struct ctfd__recipe *of, uint32_t place)
{
    struct ctfd__name *name = name_at(of, place, false);
    if (name != NULL && name->definition < place + 1)
        name->definition = (uint16_t)(place + 1);
}

/* The last type of a list, among the first `count`, that is no forward; else, with `has_forwards`,
 * the last forward. */
static uint16_t found_in(
    const struct ctfd__recipe *of, uint16_t newest, uint32_t count, bool has_forwards)
{
    uint16_t type, forward = 0;
    for (type = newest; type != 0; type = of->types[type - 1].older) {
        if (type > count)
            continue;
        if (!is_forward(of, type))
            return type;
        if (forward == 0)
            forward = type;
    }
    return has_forwards ? forward : 0;
}

void ctfd__leave_name(struct ctfd__recipe *of, uint32_t place)
{
    struct ctfd__name *name = name_at(of, place, false);
    uint16_t *at, type = (uint16_t)(place + 1);
    if (name == NULL)
        return;
    at = &name->newest;
    while (*at != 0 && *at != type)
        at = &of->types[*at - 1].older;
    if (*at != 0)
        *at = of->types[place].older;
    if (name->definition == type)
        name->definition = found_in(of, name->newest, UINT32_MAX, false);
    if (name->visible == type)
        name->visible = found_in(of, name->newest, of->visible, true);
}

static const struct ctfd__name *lookup(ctf_file_t *fp, uint32_t kind, const char *text, size_t len)
{
    const char *kept = ctfd__kept_text(fp, text, len);
    return kept != NULL ? name_of(fp->recipe, kept, space_of(kind, 0)) : NULL;
}

uint16_t ctfd__named(ctf_file_t *fp, uint32_t kind, const char *name, size_t len)
{
    const struct ctfd__name *there = lookup(fp, kind, name, len);
    return there != NULL && there->visible != 0 ? ctfd__number_of(fp, there->visible - 1u) : 0;
}

uint16_t ctfd__named_among(
    ctf_file_t *fp, uint32_t kind, const char *name, size_t len, uint32_t count)
{
    const struct ctfd__name *there = lookup(fp, kind, name, len);
    uint16_t type = 0;
    if (there != NULL && there->definition != 0 && there->definition <= count)
        type = there->definition;
    else if (there != NULL)
        type = found_in(fp->recipe, there->newest, count, true);
    return type != 0 ? ctfd__number_of(fp, type - 1u) : 0;
}
