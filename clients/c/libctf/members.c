/* members.c - members by name, including those in members without a name. */
#include "private.h"

#include <stdlib.h>
#include <string.h>

/* A search. Each struct and union is searched once, so the cost is linear in their members. */
struct search {
    ctf_file_t *fp;
    const char *name;
    unsigned char *searched; /* a bit for each type; NULL until one is nested */
    uint64_t offset;
    uint16_t type;
};

/* Marks a type as searched. Returns 1 if it was searched already, 0 if not, -1 if there is no
 * memory. */
static int is_searched(struct search *search, uint16_t t)
{
    unsigned char bit = (unsigned char)(1u << t % 8);
    if (search->searched == NULL)
        search->searched = (unsigned char *)calloc(65536 / 8, 1);
    if (search->searched == NULL)
        return -1;
    if ((search->searched[t / 8] & bit) != 0)
        return 1;
    search->searched[t / 8] |= bit;
    return 0;
}

/* The struct or union of a member without a name; 0 if it is none. */
static uint16_t nested_in(ctf_file_t *fp, uint16_t member)
{
    uint32_t kind = 0;
    uint16_t t = 0;
    if (member == 0 || ctfd__resolution_of(fp, member, &t) != CTFD_OK || t == 0 ||
        ctfd__kind_of(fp, t, &kind) != CTFD_OK)
        return 0;
    return kind == CTFD_STRUCT || kind == CTFD_UNION ? t : 0;
}

static enum ctfd_status search_in(struct search *search, uint16_t t, uint32_t depth);

/* Searches a member without a name, at an offset in its parent. */
static enum ctfd_status search_nested(
    struct search *search, uint16_t member, uint64_t at, uint32_t depth)
{
    uint16_t t = depth == 0 ? 0 : nested_in(search->fp, member);
    enum ctfd_status status;
    int was = t != 0 ? is_searched(search, t) : 1;
    if (was != 0)
        return was < 0 ? CTFD_MEMORY : CTFD_NO_MEMBER;
    status = search_in(search, t, depth - 1);
    search->offset += at;
    return status;
}

static enum ctfd_status search_in(struct search *search, uint16_t t, uint32_t depth)
{
    const struct ctfd__details *details = ctfd__details(search->fp, t);
    bool is_own = ctfd__owner(search->fp, t) == search->fp;
    enum ctfd_status status = CTFD_NO_MEMBER;
    uint32_t i;
    for (i = 0; details != NULL && i < details->count && status == CTFD_NO_MEMBER; i++) {
        struct ctfd__item item = details->items[i];
        if (item.name == NULL || !is_own)
            item.name = ctfd__item_name(search->fp, t, i);
        if (item.name == NULL)
            return CTFD_MEMORY;
        if (strcmp(item.name, search->name) == 0) {
            search->offset = item.at;
            search->type = item.type;
            return CTFD_OK;
        }
        if (*item.name == '\0')
            status = search_nested(search, item.type, item.at, depth);
        /* Reading others may have dropped these. */
        if (*item.name == '\0' || !is_own)
            details = ctfd__details(search->fp, t);
    }
    return details == NULL ? CTFD_MEMORY : status;
}

/* Finds the struct or union to which a type resolves; else returns the reason why there is none. */
static enum ctfd_status aggregate_of(ctf_file_t *fp, uint16_t t, uint16_t *to)
{
    uint32_t kind = 0;
    enum ctfd_status status = ctfd__resolution_of(fp, t, to);
    if (status == CTFD_OK && *to != 0)
        status = ctfd__kind_of(fp, *to, &kind);
    if (status == CTFD_OK && kind != CTFD_STRUCT && kind != CTFD_UNION)
        status = CTFD_NOT_AGGREGATE;
    return status;
}

/* The proved library finds the type's own members; those in members without a name are searched
 * here. */
int ctf_member_info(ctf_file_t *fp, ctf_id_t type, const char *name, ctf_membinfo_t *member)
{
    struct search search = { fp, name, NULL, 0, 0 };
    uint16_t t = 0;
    enum ctfd_status status;
    if (!ctfd__is_type(fp, type))
        return (int)CTF_ERR;
    status = CTFD_NO_SLOT;
    if (fp->recipe == NULL)
        status = ctfd_field(
            &fp->types, (uint16_t)type, name, strlen(name), &search.offset, &search.type);
    if (status == CTFD_NO_SLOT || status == CTFD_NO_MEMBER) {
        status = aggregate_of(fp, (uint16_t)type, &t);
        if (status == CTFD_OK)
            status = search_in(&search, t, CTFD_DEEPEST);
        free(search.searched);
    }
    if (ctfd__done(fp, status) != 0)
        return (int)CTF_ERR;
    member->ctm_type = (ctf_id_t)search.type;
    member->ctm_offset = (ulong_t)search.offset;
    return 0;
}
