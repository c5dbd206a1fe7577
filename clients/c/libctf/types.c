/* types.c - kinds, sizes, references and other properties of types, and iteration over types. */
#include "private.h"

/* A question that the proved library answers costs no more than its call: all that is left to do if
 * it refuses is in functions of their own, which ask once more. */
#define COLD __attribute__((noinline, cold))

static COLD int other_kind(ctf_file_t *fp, ctf_id_t type)
{
    uint32_t kind = 0;
    if (!ctfd__is_type(fp, type) || ctfd__done(fp, ctfd__kind_of(fp, (uint16_t)type, &kind)) != 0)
        return (int)CTF_ERR;
    return (int)kind;
}

/* Whether a number may be that of a type: as ctfd__is_type, but without setting the error. */
static inline bool may_be_type(ctf_id_t type)
{
    return (ulong_t)type <= CTF_MAX_TYPE;
}

int ctf_type_kind(ctf_file_t *fp, ctf_id_t type)
{
    uint32_t kind;
    if (may_be_type(type) && ctfd_kind(&fp->types, (uint16_t)type, &kind) == CTFD_OK)
        return (int)kind;
    return other_kind(fp, type);
}

/* A question whose answer is a number of bytes. */
typedef enum ctfd_status bytes_f(ctf_file_t *fp, uint16_t t, uint64_t *bytes);

static enum ctfd_status size_of(ctf_file_t *fp, uint16_t t, uint64_t *bytes)
{
    return ctfd__size_of(fp, t, bytes);
}

static enum ctfd_status align_of(ctf_file_t *fp, uint16_t t, uint64_t *bytes)
{
    return ctfd__align_of(fp, t, bytes);
}

/* A number of bytes, if it fits into a ssize_t. */
static COLD ssize_t other_bytes(ctf_file_t *fp, ctf_id_t type, bytes_f *call)
{
    uint64_t bytes = 0;
    enum ctfd_status status;
    if (!ctfd__is_type(fp, type))
        return (ssize_t)CTF_ERR;
    status = call(fp, (uint16_t)type, &bytes);
    if (status == CTFD_OK && bytes > (uint64_t)PTRDIFF_MAX)
        status = CTFD_TOO_BIG;
    return ctfd__done(fp, status) == 0 ? (ssize_t)bytes : (ssize_t)CTF_ERR;
}

ssize_t ctf_type_size(ctf_file_t *fp, ctf_id_t type)
{
    uint64_t bytes;
    if (may_be_type(type) && ctfd_size(&fp->types, (uint16_t)type, &bytes) == CTFD_OK &&
        bytes <= (uint64_t)PTRDIFF_MAX)
        return (ssize_t)bytes;
    return other_bytes(fp, type, size_of);
}

ssize_t ctf_type_align(ctf_file_t *fp, ctf_id_t type)
{
    uint64_t bytes;
    if (may_be_type(type) && ctfd_align(&fp->types, (uint16_t)type, &bytes) == CTFD_OK &&
        bytes <= (uint64_t)PTRDIFF_MAX)
        return (ssize_t)bytes;
    return other_bytes(fp, type, align_of);
}

/* A question whose answer is a type. */
typedef enum ctfd_status type_f(ctf_file_t *fp, uint16_t t, uint16_t *to);

static enum ctfd_status resolution_of(ctf_file_t *fp, uint16_t t, uint16_t *to)
{
    return ctfd__resolution_of(fp, t, to);
}

static enum ctfd_status reference_of(ctf_file_t *fp, uint16_t t, uint16_t *to)
{
    return ctfd__reference_of(fp, t, to);
}

static enum ctfd_status pointer_of(ctf_file_t *fp, uint16_t t, uint16_t *to)
{
    return ctfd__pointer_of(fp, t, to);
}

static COLD ctf_id_t other_type(ctf_file_t *fp, ctf_id_t type, type_f *call)
{
    uint16_t to = 0;
    if (!ctfd__is_type(fp, type) || ctfd__done(fp, call(fp, (uint16_t)type, &to)) != 0)
        return CTF_ERR;
    return (ctf_id_t)to;
}

ctf_id_t ctf_type_resolve(ctf_file_t *fp, ctf_id_t type)
{
    uint16_t to;
    if (may_be_type(type) && ctfd_resolve(&fp->types, (uint16_t)type, &to) == CTFD_OK)
        return (ctf_id_t)to;
    return other_type(fp, type, resolution_of);
}

ctf_id_t ctf_type_reference(ctf_file_t *fp, ctf_id_t type)
{
    uint16_t to;
    if (may_be_type(type) && ctfd_reference(&fp->types, (uint16_t)type, &to) == CTFD_OK)
        return (ctf_id_t)to;
    return other_type(fp, type, reference_of);
}

/* Most types have no pointer, so a refusal is not asked again. */
ctf_id_t ctf_type_pointer(ctf_file_t *fp, ctf_id_t type)
{
    uint16_t to;
    enum ctfd_status status = CTFD_NO_TYPE;
    if (may_be_type(type))
        status = ctfd_pointer(&fp->types, (uint16_t)type, &to);
    if (status == CTFD_OK)
        return (ctf_id_t)to;
    if (status != CTFD_NO_SLOT)
        return ctfd__fail(fp, (int)status);
    return other_type(fp, type, pointer_of);
}

int ctf_type_encoding(ctf_file_t *fp, ctf_id_t type, ctf_encoding_t *encoding)
{
    struct ctfd_encoding out;
    if (!ctfd__is_type(fp, type) ||
        ctfd__done_of(fp, ctfd__encoding_of(fp, (uint16_t)type, &out), CTFD__NOT_NUMBER) != 0)
        return (int)CTF_ERR;
    encoding->cte_format = out.encoding;
    encoding->cte_offset = out.offset;
    encoding->cte_bits = out.bits;
    return 0;
}

int ctf_array_info(ctf_file_t *fp, ctf_id_t type, ctf_arinfo_t *array)
{
    struct ctfd_array out;
    if (!ctfd__is_type(fp, type) ||
        ctfd__done_of(fp, ctfd__array_of(fp, (uint16_t)type, &out), CTFD__NOT_ARRAY) != 0)
        return (int)CTF_ERR;
    array->ctr_contents = (ctf_id_t)out.contents;
    array->ctr_index = (ctf_id_t)out.index;
    array->ctr_nelems = out.count;
    return 0;
}

int ctf_type_cmp(ctf_file_t *lfp, ctf_id_t ltype, ctf_file_t *rfp, ctf_id_t rtype)
{
    int order = ltype < rtype ? -1 : ltype > rtype;
    if (lfp == rfp)
        return order;
    if (CTF_TYPE_ISPARENT(ltype) && lfp->parent != NULL)
        lfp = lfp->parent;
    if (CTF_TYPE_ISPARENT(rtype) && rfp->parent != NULL)
        rfp = rfp->parent;
    if (lfp == rfp)
        return order;
    return lfp < rfp ? -1 : 1;
}

/* ---- all types */

/* Types that a callback adds to a created dictionary are visited too. */
int ctf_type_iter(ctf_file_t *fp, boolean_t hidden, ctf_type_f *each, void *arg)
{
    uint32_t i, count = 0, before = 0, root = 0;
    enum ctfd_status status = ctfd__own_types(fp, &count, &before);
    for (i = 1; status == CTFD_OK && i <= count; i++) {
        uint16_t t = (uint16_t)(before + i);
        status = ctfd__root_of(fp, t, &root);
        if (status == CTFD_OK && (root != 0 || hidden != B_FALSE)) {
            int said = each((ctf_id_t)t, root != 0 ? B_TRUE : B_FALSE, arg);
            if (said != 0)
                return said;
            if (fp->recipe != NULL)
                count = ctfd__visible_count(fp);
        }
    }
    return ctfd__done(fp, status);
}
