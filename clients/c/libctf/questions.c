/* questions.c - questions to any file. If the file has its dictionary open, the proved library
 * answers. For other files it returns CTFD_NO_SLOT, and the functions here answer: from the recipe
 * of a created dictionary, or by importing the changed parent into a child again. */
#include "private.h"

/* If the parent can't be written, the child keeps the old one; it is tried again at the next
 * change. */
enum ctfd_status ctfd__renew(ctf_file_t *fp)
{
    uint64_t place;
    if (!fp->behind.full)
        return CTFD_NO_SLOT;
    fp->types = fp->behind;
    fp->behind = (struct ctfd)CTFD_NONE;
    if (ctfd__write(fp->parent) == CTFD_OK)
        (void)ctfd_import(&fp->types, &fp->parent->recipe->draft, &place);
    return CTFD_OK;
}

enum ctfd_status ctfd__written(ctf_file_t *fp, struct ctfd **types)
{
    enum ctfd_status status;
    if (fp->recipe == NULL)
        return ctfd__renew(fp);
    status = ctfd__write(fp);
    *types = &fp->recipe->draft;
    return status;
}

/* Whether a recipe has a type, which is then stored. Else stores which file to ask: this one, which
 * is open again, or the parent of a created dictionary. If neither is possible, the status is not
 * CTFD_OK. */
static bool is_own(ctf_file_t *fp, uint16_t t, const struct ctfd__type **type, ctf_file_t **asked,
    enum ctfd_status *status)
{
    *asked = fp;
    *type = NULL;
    if (fp->recipe == NULL) {
        *status = ctfd__renew(fp);
        return false;
    }
    *asked = ctfd__owner(fp, t);
    if (*asked == fp)
        *type = ctfd__visible_type(fp, t);
    *status = *type == NULL && *asked == fp ? CTFD_NO_TYPE : CTFD_OK;
    return *type != NULL;
}

enum ctfd_status ctfd__indirect_kind(ctf_file_t *fp, uint16_t t, uint32_t *kind)
{
    const struct ctfd__type *type;
    ctf_file_t *asked;
    enum ctfd_status status;
    if (!is_own(fp, t, &type, &asked, &status))
        return status == CTFD_OK ? ctfd__kind_of(asked, t, kind) : status;
    *kind = type->kind;
    return CTFD_OK;
}

enum ctfd_status ctfd__indirect_root(ctf_file_t *fp, uint16_t t, uint32_t *root)
{
    const struct ctfd__type *type;
    ctf_file_t *asked;
    enum ctfd_status status;
    if (!is_own(fp, t, &type, &asked, &status))
        return status == CTFD_OK ? ctfd__root_of(asked, t, root) : status;
    *root = type->root;
    return CTFD_OK;
}

enum ctfd_status ctfd__indirect_tag(ctf_file_t *fp, uint16_t t, uint32_t *tag)
{
    const struct ctfd__type *type;
    ctf_file_t *asked;
    enum ctfd_status status;
    if (!is_own(fp, t, &type, &asked, &status))
        return status == CTFD_OK ? ctfd__tag_of(asked, t, tag) : status;
    if (type->kind != CTFD_FORWARD)
        return CTFD_WRONG_KIND;
    *tag = type->tag;
    return CTFD_OK;
}

enum ctfd_status ctfd__indirect_resolution(ctf_file_t *fp, uint16_t t, uint16_t *to)
{
    const struct ctfd__type *type;
    ctf_file_t *asked;
    enum ctfd_status status;
    if (!is_own(fp, t, &type, &asked, &status))
        return status == CTFD_OK ? ctfd__resolution_of(asked, t, to) : status;
    return ctfd__recipe_resolution(fp, t, &asked, to);
}

enum ctfd_status ctfd__indirect_reference(ctf_file_t *fp, uint16_t t, uint16_t *to)
{
    const struct ctfd__type *type;
    ctf_file_t *asked;
    enum ctfd_status status;
    if (!is_own(fp, t, &type, &asked, &status))
        return status == CTFD_OK ? ctfd__reference_of(asked, t, to) : status;
    if (type->kind != CTFD_POINTER && type->kind < CTFD_TYPEDEF)
        return CTFD_NOT_REFERENCE;
    *to = type->is.to;
    return CTFD_OK;
}

/* Asks the dictionary itself, since a pointer to a type of the parent may be an own type. */
enum ctfd_status ctfd__indirect_pointer(ctf_file_t *fp, uint16_t t, uint16_t *to)
{
    enum ctfd_status status;
    if (fp->recipe != NULL)
        return ctfd__recipe_pointer(fp, t, to);
    status = ctfd__renew(fp);
    return status == CTFD_OK ? ctfd_pointer(&fp->types, t, to) : status;
}

enum ctfd_status ctfd__indirect_return(ctf_file_t *fp, uint16_t t, uint16_t *to)
{
    const struct ctfd__type *type;
    ctf_file_t *asked;
    enum ctfd_status status;
    if (!is_own(fp, t, &type, &asked, &status))
        return status == CTFD_OK ? ctfd__return_of(asked, t, to) : status;
    if (type->kind != CTFD_FUNCTION)
        return CTFD_WRONG_KIND;
    *to = type->is.returned;
    return CTFD_OK;
}

enum ctfd_status ctfd__indirect_size(ctf_file_t *fp, uint16_t t, uint64_t *bytes)
{
    const struct ctfd__type *type;
    ctf_file_t *asked;
    enum ctfd_status status;
    if (!is_own(fp, t, &type, &asked, &status))
        return status == CTFD_OK ? ctfd__size_of(asked, t, bytes) : status;
    return ctfd__recipe_size(fp, t, bytes);
}

enum ctfd_status ctfd__indirect_align(ctf_file_t *fp, uint16_t t, uint64_t *bytes)
{
    const struct ctfd__type *type;
    ctf_file_t *asked;
    enum ctfd_status status;
    if (!is_own(fp, t, &type, &asked, &status))
        return status == CTFD_OK ? ctfd__align_of(asked, t, bytes) : status;
    return ctfd__recipe_align(fp, t, bytes);
}

enum ctfd_status ctfd__indirect_array(ctf_file_t *fp, uint16_t t, struct ctfd_array *array)
{
    const struct ctfd__type *type;
    ctf_file_t *asked;
    enum ctfd_status status;
    if (!is_own(fp, t, &type, &asked, &status))
        return status == CTFD_OK ? ctfd__array_of(asked, t, array) : status;
    if (type->kind != CTFD_ARRAY)
        return CTFD_WRONG_KIND;
    *array = type->is.array;
    return CTFD_OK;
}

enum ctfd_status ctfd__indirect_encoding(ctf_file_t *fp, uint16_t t, struct ctfd_encoding *encoding)
{
    const struct ctfd__type *type;
    ctf_file_t *asked;
    enum ctfd_status status;
    if (!is_own(fp, t, &type, &asked, &status))
        return status == CTFD_OK ? ctfd__encoding_of(asked, t, encoding) : status;
    if (type->kind != CTFD_INTEGER && type->kind != CTFD_FLOAT)
        return CTFD_WRONG_KIND;
    *encoding = type->is.encoding;
    return CTFD_OK;
}

/* A last argument of 0 means that more may follow. */
enum ctfd_status ctfd__indirect_signature(ctf_file_t *fp, uint16_t t, struct ctfd_function *out)
{
    const struct ctfd__type *type;
    ctf_file_t *asked;
    enum ctfd_status status;
    uint32_t count;
    if (!is_own(fp, t, &type, &asked, &status))
        return status == CTFD_OK ? ctfd__signature_of(asked, t, out) : status;
    if (type->kind != CTFD_FUNCTION)
        return CTFD_WRONG_KIND;
    count = type->details->count;
    out->ret = type->is.returned;
    out->varargs = count != 0 && type->details->items[count - 1].type == 0;
    out->arguments = count - out->varargs;
    return CTFD_OK;
}

enum ctfd_status ctfd__indirect_find(ctf_file_t *fp, const char *text, size_t len, uint16_t *t)
{
    enum ctfd_status status;
    if (fp->recipe != NULL)
        return ctfd__recipe_find(fp, text, len, t);
    status = ctfd__renew(fp);
    return status == CTFD_OK ? ctfd_find(&fp->types, text, len, t) : status;
}

enum ctfd_status ctfd__own_types(ctf_file_t *fp, uint32_t *count, uint32_t *before)
{
    struct ctfd *types;
    uint64_t all = 0;
    uint32_t child = fp->parent != NULL;
    enum ctfd_status status = CTFD_OK;
    if (fp->recipe != NULL) {
        all = ctfd__visible_count(fp);
    } else {
        status = ctfd__opened(fp, &types);
        if (status == CTFD_OK)
            status = ctfd_count(types, &all);
        if (status == CTFD_OK)
            status = ctfd_child(types, &child);
    }
    *count = (uint32_t)all;
    *before = child != 0 ? CTF_MAX_PTYPE + 1u : 0;
    return status;
}

struct ctfd *ctfd_of(ctf_file_t *fp)
{
    struct ctfd *types;
    return ctfd__done(fp, ctfd__opened(fp, &types)) == 0 ? types : NULL;
}
