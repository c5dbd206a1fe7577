/* lists.c - members and enumerators. */
#include "private.h"

#include <string.h>

/* The items of a type, which must be an enum, or a struct or union; NULL with the error set for
 * others. */
static struct ctfd__details *details_of(ctf_file_t *fp, uint16_t t, bool is_of_enum)
{
    struct ctfd__details *details = ctfd__details(fp, t);
    if (details != NULL && (is_of_enum ? details->kind == CTFD_ENUM : ctfd__has_members(details)))
        return details;
    if (details != NULL || fp->error == CTFD_WRONG_KIND)
        (void)ctfd__fail(fp, is_of_enum ? CTFD__NOT_ENUM : CTFD_WRONG_KIND);
    return NULL;
}

/* A walk over a list of items. */
struct walk {
    ctf_file_t *fp, *of; /* the file of the call, and the one that has the type */
    const struct ctfd__details *details; /* valid until `of` drops its details */
    const char *name; /* of the item that was found last */
    uint64_t dropped;
    uint16_t t;
    bool is_of_enum;
};

static struct walk walk_of(ctf_file_t *fp, uint16_t t, bool is_of_enum)
{
    struct walk walk = { fp, ctfd__owner(fp, t), NULL, NULL, 0, t, is_of_enum };
    return walk;
}

/* An item by its number, with its name. NULL on an error and after the last item; `left` is false
 * after the last. If a callback has changed what is open, the details are looked up again. */
static inline const struct ctfd__item *item_at(struct walk *walk, uint32_t i, bool *left)
{
    const struct ctfd__item *item;
    if (walk->details == NULL || walk->dropped != walk->of->dropped) {
        walk->details = details_of(walk->fp, walk->t, walk->is_of_enum);
        walk->dropped = walk->of->dropped;
    }
    *left = walk->details == NULL || i < walk->details->count;
    if (walk->details == NULL || !*left)
        return NULL;
    item = &walk->details->items[i];
    walk->name = item->name;
    if (walk->name == NULL || walk->of != walk->fp)
        walk->name = ctfd__item_name(walk->fp, walk->t, i);
    return walk->name != NULL ? item : NULL;
}

int ctf_member_iter(ctf_file_t *fp, ctf_id_t type, ctf_member_f *each, void *arg)
{
    const struct ctfd__item *item;
    struct walk walk;
    uint32_t i;
    bool left;
    type = ctf_type_resolve(fp, type);
    if (type == CTF_ERR)
        return (int)CTF_ERR;
    walk = walk_of(fp, (uint16_t)type, false);
    for (i = 0; (item = item_at(&walk, i, &left)) != NULL; i++) {
        int said = each(walk.name, (ctf_id_t)item->type, (ulong_t)item->at, arg);
        if (said != 0)
            return said;
    }
    return left ? (int)CTF_ERR : 0;
}

/* The value of an enumerator. */
static int value_of(const struct ctfd__item *item)
{
    return (int)(int32_t)(uint32_t)item->at;
}

int ctf_enum_iter(ctf_file_t *fp, ctf_id_t type, ctf_enum_f *each, void *arg)
{
    const struct ctfd__item *item;
    struct walk walk;
    uint32_t i;
    bool left;
    type = ctf_type_resolve(fp, type);
    if (type == CTF_ERR)
        return (int)CTF_ERR;
    walk = walk_of(fp, (uint16_t)type, true);
    for (i = 0; (item = item_at(&walk, i, &left)) != NULL; i++) {
        int said = each(walk.name, value_of(item), arg);
        if (said != 0)
            return said;
    }
    return left ? (int)CTF_ERR : 0;
}

/* The first name with a value; NULL if no enumerator has it. */
const char *ctf_enum_name(ctf_file_t *fp, ctf_id_t type, int value)
{
    struct ctfd__details *details;
    ctf_file_t *of;
    uint32_t i;
    type = ctf_type_resolve(fp, type);
    if (type == CTF_ERR || (details = details_of(fp, (uint16_t)type, true)) == NULL)
        return NULL;
    of = ctfd__owner(fp, (uint16_t)type);
    i = ctfd__of_value(of, details, (int32_t)value);
    if (i < details->count && details->items[i].name != NULL && of == fp)
        return details->items[i].name;
    if (i < details->count)
        return ctfd__item_name(fp, (uint16_t)type, i);
    (void)ctfd__fail(fp, CTFD__NO_ENUMERATOR);
    return NULL;
}

/* Finds the value of the first enumerator with a name. */
static enum ctfd_status find_value(
    ctf_file_t *fp, uint16_t t, struct ctfd__details *details, const char *name, int32_t *value)
{
    ctf_file_t *of = ctfd__owner(fp, t);
    uint32_t i;
    if (of->recipe == NULL && !ctfd__is_lent(of, t))
        return ctfd_enum_value(&of->types, t, name, strlen(name), value);
    i = ctfd__of_name(of, details, name);
    if (i == details->count)
        return CTFD_NO_MEMBER;
    *value = (int32_t)value_of(&details->items[i]);
    return CTFD_OK;
}

int ctf_enum_value(ctf_file_t *fp, ctf_id_t type, const char *name, int *value)
{
    struct ctfd__details *details;
    int32_t found = 0;
    type = ctf_type_resolve(fp, type);
    if (type == CTF_ERR || (details = details_of(fp, (uint16_t)type, true)) == NULL)
        return (int)CTF_ERR;
    if (find_value(fp, (uint16_t)type, details, name, &found) != CTFD_OK)
        return (int)ctfd__fail(fp, CTFD__NO_ENUMERATOR);
    if (value != NULL)
        *value = (int)found;
    return 0;
}
