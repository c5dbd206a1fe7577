/* drafts.c - the calls that create a dictionary and add to it. */
#define _DEFAULT_SOURCE

#include "private.h"

#include <errno.h>
#include <limits.h>
#include <string.h>
#include <unistd.h>

ctf_file_t *ctf_create(int *error)
{
    ctf_file_t *fp = ctfd__new(error);
    if (fp == NULL)
        return NULL;
    if (ctfd__new_recipe(fp))
        return fp;
    ctfd__free(fp);
    return ctfd__refused(error, CTFD_MEMORY);
}

/* Whether an addition is allowed, by its flag and a type that it refers to; else sets the error. */
static bool may_add(ctf_file_t *fp, uint_t flag, ctf_id_t type)
{
    if (flag > CTF_ADD_ROOT || type < 0 || type > CTF_MAX_TYPE) {
        (void)ctfd__system(fp, EINVAL);
        return false;
    }
    if (fp->recipe == NULL) {
        (void)ctfd__fail(fp, CTFD_READ_ONLY);
        return false;
    }
    if (type != 0 && !ctfd__is_there(fp, (uint16_t)type)) {
        (void)ctfd__fail(fp, CTFD_BAD_REF);
        return false;
    }
    return true;
}

/* Adds a type for the caller to fill. Returns its number, or CTF_ERR. A forward has a tag. */
static ctf_id_t add(ctf_file_t *fp, uint_t flag, uint32_t kind, uint32_t tag, const char *name,
    struct ctfd__type **type)
{
    uint16_t t = 0;
    enum ctfd_status status = ctfd__add_type(
        fp, kind, tag, name != NULL ? name : "", flag == CTF_ADD_ROOT, &t);
    if (ctfd__done(fp, status) != 0)
        return CTF_ERR;
    fp->is_touched = true;
    *type = ctfd__own_type(fp, t);
    return (ctf_id_t)t;
}

/* Whether the format can hold an encoding; else sets the error. */
static bool is_encoding(ctf_file_t *fp, const ctf_encoding_t *encoding)
{
    if (encoding != NULL && encoding->cte_format <= 0xff && encoding->cte_offset <= 0xff &&
        encoding->cte_bits <= 0xffff)
        return true;
    (void)ctfd__system(fp, EINVAL);
    return false;
}

/* The size of storage for that many bits, in bytes: a power of two, as in libctf. */
static uint64_t storage_of(uint_t bits)
{
    uint64_t bytes = 1;
    if (bits == 0)
        return 0;
    while (8 * bytes < bits)
        bytes *= 2;
    return bytes;
}

static ctf_id_t add_scalar(
    ctf_file_t *fp, uint_t flag, uint32_t kind, const char *name, const ctf_encoding_t *encoding)
{
    struct ctfd__type *made;
    ctf_id_t t;
    if (!is_encoding(fp, encoding) || !may_add(fp, flag, 0))
        return CTF_ERR;
    t = add(fp, flag, kind, 0, name, &made);
    if (t == CTF_ERR)
        return t;
    made->size = storage_of(encoding->cte_bits);
    made->is.encoding.encoding = encoding->cte_format;
    made->is.encoding.offset = encoding->cte_offset;
    made->is.encoding.bits = encoding->cte_bits;
    return t;
}

ctf_id_t ctf_add_integer(
    ctf_file_t *fp, uint_t flag, const char *name, const ctf_encoding_t *encoding)
{
    return add_scalar(fp, flag, CTFD_INTEGER, name, encoding);
}

ctf_id_t ctf_add_float(
    ctf_file_t *fp, uint_t flag, const char *name, const ctf_encoding_t *encoding)
{
    return add_scalar(fp, flag, CTFD_FLOAT, name, encoding);
}

static ctf_id_t add_reference(
    ctf_file_t *fp, uint_t flag, const char *name, ctf_id_t type, uint32_t kind)
{
    struct ctfd__type *made;
    ctf_id_t t;
    if (!may_add(fp, flag, type))
        return CTF_ERR;
    t = add(fp, flag, kind, 0, name, &made);
    if (t != CTF_ERR)
        ctfd__lead(fp, (uint16_t)t, (uint16_t)type);
    return t;
}

ctf_id_t ctf_add_pointer(ctf_file_t *fp, uint_t flag, const char *name, ctf_id_t type)
{
    return add_reference(fp, flag, name, type, CTFD_POINTER);
}

ctf_id_t ctf_add_typedef(ctf_file_t *fp, uint_t flag, const char *name, ctf_id_t type)
{
    return add_reference(fp, flag, name, type, CTFD_TYPEDEF);
}

ctf_id_t ctf_add_volatile(ctf_file_t *fp, uint_t flag, const char *name, ctf_id_t type)
{
    return add_reference(fp, flag, name, type, CTFD_VOLATILE);
}

ctf_id_t ctf_add_const(ctf_file_t *fp, uint_t flag, const char *name, ctf_id_t type)
{
    return add_reference(fp, flag, name, type, CTFD_CONST);
}

ctf_id_t ctf_add_restrict(ctf_file_t *fp, uint_t flag, const char *name, ctf_id_t type)
{
    return add_reference(fp, flag, name, type, CTFD_RESTRICT);
}

static void fill_array(struct ctfd__type *made, const ctf_arinfo_t *array)
{
    made->is.array.contents = (uint16_t)array->ctr_contents;
    made->is.array.index = (uint16_t)array->ctr_index;
    made->is.array.count = array->ctr_nelems;
}

ctf_id_t ctf_add_array(ctf_file_t *fp, uint_t flag, const ctf_arinfo_t *array)
{
    struct ctfd__type *made;
    uint32_t kind;
    ctf_id_t t;
    if (array == NULL)
        return ctfd__system(fp, EINVAL);
    if (!may_add(fp, flag, array->ctr_contents) || !may_add(fp, flag, array->ctr_index))
        return CTF_ERR;
    if (fp->is_live && ctfd__kind_of(fp, (uint16_t)array->ctr_index, &kind) == CTFD_OK &&
        kind == CTFD_FORWARD)
        return ctfd__fail(fp, CTFD_INCOMPLETE);
    t = add(fp, flag, CTFD_ARRAY, 0, "", &made);
    if (t != CTF_ERR)
        fill_array(made, array);
    return t;
}

ctf_id_t ctf_add_function(
    ctf_file_t *fp, uint_t flag, const char *name, const ctf_funcinfo_t *info, const ctf_id_t *argv)
{
    struct ctfd__type *made;
    ctf_id_t t;
    uint_t i, count;
    if (info == NULL || (info->ctc_flags & ~(uint_t)CTF_FUNC_VARARG) != 0 ||
        (info->ctc_argc != 0 && argv == NULL))
        return ctfd__system(fp, EINVAL);
    if (!may_add(fp, flag, info->ctc_return))
        return CTF_ERR;
    count = info->ctc_argc + info->ctc_flags;
    if (count > CTF_MAX_VLEN)
        return ctfd__fail(fp, CTFD_VLEN_FULL);
    for (i = 0; i < info->ctc_argc; i++) {
        if (!may_add(fp, flag, argv[i]))
            return CTF_ERR;
    }
    t = add(fp, flag, CTFD_FUNCTION, 0, name, &made);
    if (t == CTF_ERR)
        return t;
    if (!ctfd__room_for_items(fp, made, count)) {
        ctfd__drop_types(fp, fp->recipe->count - 1);
        return ctfd__fail(fp, CTFD_MEMORY);
    }
    made->is.returned = (uint16_t)info->ctc_return;
    made->details->count = count;
    memset(made->details->items, 0, count * sizeof made->details->items[0]);
    for (i = 0; i < info->ctc_argc; i++)
        made->details->items[i].type = (uint16_t)argv[i];
    return t;
}

/* Adds a struct, union or enum. A forward of its name becomes this type and keeps its number. */
static ctf_id_t add_tagged(
    ctf_file_t *fp, uint_t flag, uint32_t kind, const char *name, uint64_t size)
{
    struct ctfd__type *made;
    uint16_t t;
    ctf_id_t added;
    if (!may_add(fp, flag, 0))
        return CTF_ERR;
    t = name != NULL && *name != '\0' ? ctfd__named(fp, kind, name, strlen(name)) : 0;
    made = t != 0 ? ctfd__own_type(fp, t) : NULL;
    if (made != NULL && made->kind == CTFD_FORWARD) {
        if (!ctfd__promote(fp, t, kind, size))
            return ctfd__fail(fp, CTFD_MEMORY);
        return (ctf_id_t)t;
    }
    added = add(fp, flag, kind, 0, name, &made);
    if (added != CTF_ERR)
        made->size = size;
    return added;
}

ctf_id_t ctf_add_struct(ctf_file_t *fp, uint_t flag, const char *name)
{
    return add_tagged(fp, flag, CTFD_STRUCT, name, 0);
}

ctf_id_t ctf_add_union(ctf_file_t *fp, uint_t flag, const char *name)
{
    return add_tagged(fp, flag, CTFD_UNION, name, 0);
}

ctf_id_t ctf_add_enum(ctf_file_t *fp, uint_t flag, const char *name, size_t size)
{
    return add_tagged(fp, flag, CTFD_ENUM, name, size != 0 ? size : 4);
}

ctf_id_t ctf_add_forward(ctf_file_t *fp, uint_t flag, const char *name, uint_t kind)
{
    struct ctfd__type *made;
    uint16_t there;
    if (kind != CTF_K_STRUCT && kind != CTF_K_UNION && kind != CTF_K_ENUM)
        return ctfd__fail(fp, CTFD_WRONG_KIND);
    if (!may_add(fp, flag, 0))
        return CTF_ERR;
    there = name != NULL && *name != '\0' ? ctfd__named(fp, kind, name, strlen(name)) : 0;
    if (there != 0)
        return (ctf_id_t)there;
    return add(fp, flag, CTFD_FORWARD, kind, name, &made);
}

int ctf_add_member(ctf_file_t *fp, ctf_id_t sou, const char *name, ctf_id_t type, ulong_t offset)
{
    if (!ctfd__is_type(fp, sou) || !ctfd__is_type(fp, type))
        return (int)CTF_ERR;
    if (fp->recipe == NULL)
        return (int)ctfd__fail(fp, CTFD_READ_ONLY);
    return ctfd__done(fp,
        ctfd__add_member(fp, (uint16_t)sou, name != NULL ? name : "", (uint16_t)type,
            offset != ULONG_MAX, offset));
}

int ctf_add_enumerator(ctf_file_t *fp, ctf_id_t type, const char *name, int value)
{
    if (name == NULL)
        return (int)ctfd__system(fp, EINVAL);
    if (!ctfd__is_type(fp, type))
        return (int)CTF_ERR;
    if (fp->recipe == NULL)
        return (int)ctfd__fail(fp, CTFD_READ_ONLY);
    return ctfd__done(fp, ctfd__add_enumerator(fp, (uint16_t)type, name, value));
}

/* An own type that may be changed; NULL with the error set for others. */
static struct ctfd__type *own_type(ctf_file_t *fp, ctf_id_t type)
{
    struct ctfd__type *made = NULL;
    if (!ctfd__is_type(fp, type))
        return NULL;
    if (fp->recipe != NULL && ctfd__owner(fp, (uint16_t)type) == fp)
        made = ctfd__own_type(fp, (uint16_t)type);
    if (made == NULL)
        (void)ctfd__fail(fp, fp->recipe == NULL ? CTFD_READ_ONLY : CTFD_NO_TYPE);
    return made;
}

int ctf_set_array(ctf_file_t *fp, ctf_id_t type, const ctf_arinfo_t *array)
{
    struct ctfd__type *made = own_type(fp, type);
    if (made == NULL || !may_add(fp, 0, array->ctr_contents) || !may_add(fp, 0, array->ctr_index))
        return (int)CTF_ERR;
    if (made->kind != CTFD_ARRAY)
        return (int)ctfd__fail(fp, CTFD_WRONG_KIND);
    fill_array(made, array);
    ctfd__touch(fp, made);
    return 0;
}

int ctf_delete_type(ctf_file_t *fp, ctf_id_t type)
{
    if (own_type(fp, type) == NULL)
        return (int)CTF_ERR;
    ctfd__delete_type(fp, (uint16_t)type);
    return 0;
}

/* Makes pending additions visible. */
int ctf_update(ctf_file_t *fp)
{
    if (fp->recipe == NULL)
        return (int)ctfd__fail(fp, CTFD_READ_ONLY);
    if (fp->recipe->visible != fp->recipe->count)
        ctfd__change(fp);
    ctfd__show(fp);
    return 0;
}

int ctf_discard(ctf_file_t *fp)
{
    if (fp->recipe == NULL)
        return (int)ctfd__fail(fp, CTFD_READ_ONLY);
    ctfd__drop_types(fp, fp->recipe->visible);
    fp->recipe->marks_len = fp->recipe->marks_visible;
    fp->labels = fp->recipe->marks_len;
    return 0;
}

int ctf_write(ctf_file_t *fp, int fd)
{
    char piece[4096];
    uint64_t from = 0, len = 0;
    struct ctfd *types;
    if (ctfd__done(fp, ctfd__opened(fp, &types)) != 0)
        return (int)CTF_ERR;
    do {
        size_t put = 0, got;
        if (ctfd__done(fp, ctfd_bytes(types, from, piece, sizeof piece, &len)) != 0)
            return (int)CTF_ERR;
        got = len - from < sizeof piece ? (size_t)(len - from) : sizeof piece;
        while (put < got) {
            ssize_t more = write(fd, piece + put, got - put);
            if (more < 0 && errno != EINTR)
                return (int)ctfd__system(fp, errno);
            if (more > 0)
                put += (size_t)more;
        }
        from += got;
    } while (from < len);
    return 0;
}
