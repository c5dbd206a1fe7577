/* recipe_answers.c - look-ups, pointers and lists of a created dictionary: of its visible types,
 * and those of its parent. */
#include "private.h"

#include <string.h>

struct ctfd__details *ctfd__recipe_details(ctf_file_t *fp, uint16_t t)
{
    ctf_file_t *of = ctfd__owner(fp, t);
    const struct ctfd__type *type;
    if (of != fp) {
        struct ctfd__details *details = ctfd__details(of, t);
        if (details == NULL)
            fp->error = of->error;
        return details;
    }
    type = ctfd__visible_type(fp, t);
    if (type != NULL && type->details != NULL && type->kind != CTFD_FUNCTION)
        return type->details;
    (void)ctfd__fail(fp, type == NULL ? CTFD_NO_TYPE : CTFD_WRONG_KIND);
    return NULL;
}

/* ---- pointers */

/* The last visible pointer in a list of pointers; 0 if there is none. */
static uint16_t last_visible(const ctf_file_t *fp, uint16_t pointer)
{
    while (pointer != 0 && ctfd__visible_type(fp, pointer) == NULL)
        pointer = ctfd__own_type(fp, pointer)->older_pointer;
    return pointer;
}

/* The last pointer to exactly this type: an own one before the parent's. */
static uint16_t pointer_to(ctf_file_t *fp, uint16_t t)
{
    const struct ctfd__recipe *of = fp->recipe;
    const struct ctfd__type *type;
    uint16_t pointer = 0;
    if (ctfd__owner(fp, t) == fp) {
        type = ctfd__own_type(fp, t);
        return type != NULL ? last_visible(fp, type->pointer) : 0;
    }
    if (t < of->parent_pointers_len)
        pointer = last_visible(fp, of->parent_pointers[t]);
    if (pointer != 0)
        return pointer;
    if (fp->parent->recipe != NULL)
        return pointer_to(fp->parent, t);
    return ctfd__pointer_of(fp->parent, t, &pointer) == CTFD_OK ? pointer : 0;
}

enum ctfd_status ctfd__recipe_pointer(ctf_file_t *fp, uint16_t t, uint16_t *to)
{
    uint16_t end;
    enum ctfd_status status = ctfd__resolution_of(fp, t, &end);
    if (status != CTFD_OK)
        return status;
    *to = pointer_to(fp, t);
    if (*to == 0 && end != 0 && end != t)
        *to = pointer_to(fp, end);
    return *to != 0 ? CTFD_OK : CTFD_NOT_FOUND;
}

/* ---- look-ups: the name of a type, followed by stars */

/* The keyword before a tag. */
struct tag {
    const char *word;
    size_t len;
    uint32_t kind;
};

/* The keyword that may begin with a letter. */
static const struct tag *tag_of(char first)
{
    static const struct tag of_struct = { "struct", 6, CTFD_STRUCT },
                            of_union = { "union", 5, CTFD_UNION },
                            of_enum = { "enum", 4, CTFD_ENUM };
    switch (first) {
    case 's': return &of_struct;
    case 'u': return &of_union;
    case 'e': return &of_enum;
    default: return NULL;
    }
}

/* The own type with a name without stars. */
static enum ctfd_status find_base(ctf_file_t *fp, const char *text, size_t len, uint16_t *t)
{
    const struct tag *tag = tag_of(*text);
    if (tag != NULL &&
        (len < tag->len || memcmp(text, tag->word, tag->len) != 0 ||
            (len > tag->len && text[tag->len] != ' ')))
        tag = NULL;
    if (tag != NULL && len == tag->len)
        return CTFD_BAD_SYNTAX;
    *t = tag == NULL ? ctfd__named(fp, 0, text, len)
                     : ctfd__named(fp, tag->kind, text + tag->len + 1, len - tag->len - 1);
    return *t != 0 ? CTFD_OK : CTFD_NOT_FOUND;
}

/* The type that `in` has for a name, followed by pointers that `fp` has. */
static enum ctfd_status find_in(
    ctf_file_t *fp, ctf_file_t *in, const char *text, size_t len, size_t stars, uint16_t *t)
{
    uint16_t at = 0;
    enum ctfd_status status = in->recipe != NULL ? find_base(in, text, len, &at)
                                                 : ctfd__type_named(in, text, len, &at);
    for (; status == CTFD_OK && stars > 0; stars--)
        status = ctfd__recipe_pointer(fp, at, &at);
    if (status == CTFD_OK)
        *t = at;
    return status;
}

/* Looks here, then in the parent, to whose types there may be pointers here. */
enum ctfd_status ctfd__recipe_find(ctf_file_t *fp, const char *text, size_t len, uint16_t *t)
{
    size_t stars = 0;
    enum ctfd_status status;
    while (len > 0 && (text[len - 1] == '*' || text[len - 1] == ' '))
        stars += text[--len] == '*';
    if (len == 0)
        return CTFD_BAD_SYNTAX;
    status = find_in(fp, fp, text, len, stars, t);
    if (status == CTFD_NOT_FOUND && fp->parent != NULL)
        status = find_in(fp, fp->parent, text, len, stars, t);
    return status;
}
