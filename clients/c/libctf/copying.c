/* copying.c - ctf_add_type: copies a type of one file, with all that it needs, to another file.
 *
 * If there is already a type with a copied type's name, kind and contents, it is used; a forward
 * there becomes what is copied. Each type is copied once in a call, so cycles end. Structs, unions
 * and enums are first made with their size, and get their items in turn: so the recursion is only
 * as deep as a declaration. */
#include "private.h"

#include <stdlib.h>
#include <string.h>

/* The types copied so far: their numbers in the source, and their new ones. */
struct copy {
    ctf_file_t *to, *from;
    struct {
        uint16_t was, is;
    } * known;
    uint32_t known_len; /* a power of two */
    uint32_t count;
    uint32_t depth;
    uint32_t there; /* the number of types that the other file had */
    struct empty {
        uint16_t in, names;
    } * empty; /* numbers here, and in the source, of types to fill */
    uint32_t empty_len, empty_room;
};

static uint32_t slot(const struct copy *copy, uint16_t was)
{
    uint32_t at = (was * 0x9e3779b1u >> 8) & (copy->known_len - 1);
    while (copy->known[at].was != 0 && copy->known[at].was != was)
        at = (at + 1) & (copy->known_len - 1);
    return at;
}

static bool keep(struct copy *copy, uint16_t was, ctf_id_t is)
{
    uint32_t at, i;
    if (2 * copy->count >= copy->known_len) {
        struct copy old = *copy;
        copy->known_len = old.known_len == 0 ? 64 : 2 * old.known_len;
        copy->known = calloc(copy->known_len, sizeof *copy->known);
        if (copy->known == NULL) {
            *copy = old;
            (void)ctfd__fail(copy->to, CTFD_MEMORY);
            return false;
        }
        for (i = 0; i < old.known_len; i++) {
            if (old.known[i].was != 0)
                copy->known[slot(copy, old.known[i].was)] = old.known[i];
        }
        free(old.known);
    }
    at = slot(copy, was);
    copy->count += copy->known[at].was == 0;
    copy->known[at].was = was;
    copy->known[at].is = (uint16_t)is;
    return true;
}

static long refused(struct copy *copy)
{
    return ctfd__fail(copy->to, copy->from->error);
}

static long conflict(struct copy *copy)
{
    return ctfd__fail(copy->to, CTFD__CONFLICT);
}

static ctf_id_t copied(struct copy *copy, ctf_id_t type);

/* The tag of a forward. */
static uint32_t tag_of(ctf_file_t *fp, uint16_t t)
{
    uint32_t tag = 0;
    return ctfd__tag_of(fp, t, &tag) == CTFD_OK ? tag : 0;
}

/* The name of a type in the source. Texts of both files live until these are closed. */
static const char *name_in(struct copy *copy, uint16_t t)
{
    const char *name = ctfd__declared(copy->from, t);
    if (name == NULL)
        (void)refused(copy);
    return name;
}

/* A type to compare with: it needs the same items, and in an enum no more. */
struct compared {
    struct copy *copy;
    ctf_id_t with;
    bool is_of_enum;
};

static int same_member(const char *name, ctf_id_t type, ulong_t offset, void *arg)
{
    struct compared *compared = (struct compared *)arg;
    ctf_membinfo_t there;
    (void)type;
    if (*name == '\0')
        return 0;
    return ctf_member_info(compared->copy->to, compared->with, name, &there) != 0 ||
        there.ctm_offset != offset;
}

static int same_enumerator(const char *name, int value, void *arg)
{
    struct compared *compared = (struct compared *)arg;
    int there;
    return ctf_enum_value(compared->copy->to, compared->with, name, &there) != 0 || there != value;
}

static bool says_the_same(struct copy *copy, uint16_t t, uint32_t kind, uint16_t there)
{
    struct compared compared = { copy, (ctf_id_t)there, kind == CTFD_ENUM };
    struct ctfd_encoding was, is;
    const struct ctfd__details *details;
    uint32_t count;
    switch (kind) {
    case CTFD_INTEGER:
    case CTFD_FLOAT:
        return ctfd__encoding_of(copy->from, t, &was) == CTFD_OK &&
            ctfd__encoding_of(copy->to, there, &is) == CTFD_OK && was.encoding == is.encoding &&
            was.offset == is.offset && was.bits == is.bits;
    case CTFD_STRUCT:
    case CTFD_UNION:
        return ctf_type_size(copy->from, (ctf_id_t)t) == ctf_type_size(copy->to, there) &&
            ctf_member_iter(copy->from, (ctf_id_t)t, same_member, &compared) == 0;
    case CTFD_ENUM:
        details = ctfd__details(copy->from, t);
        count = details != NULL ? details->count : 0;
        details = ctfd__details(copy->to, there);
        return details != NULL && details->count == count &&
            ctf_enum_iter(copy->from, (ctf_id_t)t, same_enumerator, &compared) == 0;
    default: return true;
    }
}

struct filled {
    struct copy *copy;
    ctf_id_t in;
};

static int copy_member(const char *name, ctf_id_t type, ulong_t offset, void *arg)
{
    struct filled *filled = (struct filled *)arg;
    ctf_id_t is = copied(filled->copy, type);
    struct ctfd__type *made = ctfd__own_type(filled->copy->to, (uint16_t)filled->in);
    uint64_t size = made->size;
    int status = is == CTF_ERR ? -2
                               : ctf_add_member(filled->copy->to, filled->in, name, is, offset);
    made = ctfd__own_type(filled->copy->to, (uint16_t)filled->in);
    if (status == 0 && made->size < size)
        made->size = size;
    return status != 0 ? -2 : 0;
}

static int copy_enumerator(const char *name, int value, void *arg)
{
    struct filled *filled = (struct filled *)arg;
    return ctf_add_enumerator(filled->copy->to, filled->in, name, value) != 0 ? -2 : 0;
}

/* Copies a struct, union or enum without its items, which are added later. */
static ctf_id_t copy_tagged(
    struct copy *copy, uint_t flag, uint16_t t, uint32_t kind, const char *name)
{
    ctf_id_t is;
    uint64_t size = 0;
    enum ctfd_status status = ctfd__size_of(copy->from, t, &size);
    if (status != CTFD_OK)
        return ctfd__fail(copy->to, (int)status);
    if (copy->empty_len == copy->empty_room) {
        uint32_t room = copy->empty_room == 0 ? 16 : 2 * copy->empty_room;
        struct empty *more = realloc(copy->empty, room * sizeof *more);
        if (more == NULL)
            return ctfd__fail(copy->to, CTFD_MEMORY);
        copy->empty = more;
        copy->empty_room = room;
    }
    if (kind == CTFD_STRUCT)
        is = ctf_add_struct(copy->to, flag, name);
    else if (kind == CTFD_UNION)
        is = ctf_add_union(copy->to, flag, name);
    else
        is = ctf_add_enum(copy->to, flag, name, (size_t)size);
    if (is == CTF_ERR)
        return CTF_ERR;
    ctfd__own_type(copy->to, (uint16_t)is)->size = size;
    copy->empty[copy->empty_len].in = (uint16_t)is;
    copy->empty[copy->empty_len++].names = t;
    return is;
}

/* Adds the items of all types that wait for them; more may come to wait by that. */
static bool fill(struct copy *copy)
{
    uint32_t i, kind = 0;
    for (i = 0; i < copy->empty_len; i++) {
        struct empty one = copy->empty[i];
        struct filled filled = { copy, (ctf_id_t)one.in };
        int said;
        (void)ctfd__kind_of(copy->from, one.names, &kind);
        said = kind == CTFD_ENUM
            ? ctf_enum_iter(copy->from, (ctf_id_t)one.names, copy_enumerator, &filled)
            : ctf_member_iter(copy->from, (ctf_id_t)one.names, copy_member, &filled);
        if (said == -1)
            (void)refused(copy);
        if (said != 0)
            return false;
    }
    return true;
}

static ctf_id_t copy_function(struct copy *copy, uint_t flag, uint16_t t, const char *name)
{
    ctf_funcinfo_t info;
    ctf_id_t *argv, is = CTF_ERR;
    uint_t i;
    if (ctf_func_info_by_id(copy->from, (ctf_id_t)t, &info) != 0)
        return refused(copy);
    argv = (ctf_id_t *)malloc((info.ctc_argc + 1) * sizeof *argv);
    if (argv == NULL)
        return ctfd__fail(copy->to, CTFD_MEMORY);
    (void)ctf_func_args_by_id(copy->from, (ctf_id_t)t, info.ctc_argc, argv);
    info.ctc_return = copied(copy, info.ctc_return);
    for (i = 0; info.ctc_return != CTF_ERR && i < info.ctc_argc; i++) {
        argv[i] = copied(copy, argv[i]);
        if (argv[i] == CTF_ERR)
            break;
    }
    if (info.ctc_return != CTF_ERR && i == info.ctc_argc)
        is = ctf_add_function(copy->to, flag, name, &info, argv);
    free(argv);
    return is;
}

static ctf_id_t copy_reference(
    struct copy *copy, uint_t flag, uint16_t t, uint32_t kind, const char *name)
{
    uint16_t to = 0;
    ctf_id_t is;
    enum ctfd_status status = ctfd__reference_of(copy->from, t, &to);
    if (status != CTFD_OK)
        return ctfd__fail(copy->to, (int)status);
    is = copied(copy, (ctf_id_t)to);
    if (is == CTF_ERR)
        return CTF_ERR;
    switch (kind) {
    case CTFD_POINTER: return ctf_add_pointer(copy->to, flag, name, is);
    case CTFD_TYPEDEF: return ctf_add_typedef(copy->to, flag, name, is);
    case CTFD_VOLATILE: return ctf_add_volatile(copy->to, flag, name, is);
    case CTFD_CONST: return ctf_add_const(copy->to, flag, name, is);
    default: return ctf_add_restrict(copy->to, flag, name, is);
    }
}

/* Adds a copy of a type that is not there. */
static ctf_id_t copy_type(
    struct copy *copy, uint_t flag, uint16_t t, uint32_t kind, const char *name)
{
    ctf_encoding_t encoding;
    ctf_arinfo_t array;
    uint16_t made;
    switch (kind) {
    case CTFD_INTEGER:
    case CTFD_FLOAT: {
        uint64_t size = 0;
        ctf_id_t is;
        if (ctf_type_encoding(copy->from, (ctf_id_t)t, &encoding) != 0 ||
            ctfd__size_of(copy->from, t, &size) != CTFD_OK)
            return refused(copy);
        is = kind == CTFD_INTEGER ? ctf_add_integer(copy->to, flag, name, &encoding)
                                  : ctf_add_float(copy->to, flag, name, &encoding);
        if (is != CTF_ERR)
            ctfd__own_type(copy->to, (uint16_t)is)->size = size;
        return is;
    }
    case CTFD_ARRAY:
        if (ctf_array_info(copy->from, (ctf_id_t)t, &array) != 0)
            return refused(copy);
        array.ctr_contents = copied(copy, array.ctr_contents);
        array.ctr_index = array.ctr_contents == CTF_ERR ? CTF_ERR : copied(copy, array.ctr_index);
        return array.ctr_index == CTF_ERR ? CTF_ERR : ctf_add_array(copy->to, flag, &array);
    case CTFD_FUNCTION: return copy_function(copy, flag, t, name);
    case CTFD_STRUCT:
    case CTFD_UNION:
    case CTFD_ENUM: return copy_tagged(copy, flag, t, kind, name);
    case CTFD_FORWARD: return ctf_add_forward(copy->to, flag, name, tag_of(copy->from, t));
    case CTFD_UNKNOWN:
        return ctfd__done(
                   copy->to, ctfd__add_type(copy->to, CTFD_UNKNOWN, 0, name, flag != 0, &made)) != 0
            ? CTF_ERR
            : (ctf_id_t)made;
    default: return copy_reference(copy, flag, t, kind, name);
    }
}

/* The number of a source's type in the other file: of the one that is there, or of a copy. */
static ctf_id_t placed(struct copy *copy, uint16_t t)
{
    uint32_t kind = 0, root = 0, tag, is_kind = 0;
    uint16_t there = 0;
    const char *name;
    ctf_id_t is;
    enum ctfd_status status = ctfd__kind_of(copy->from, t, &kind);
    if (status == CTFD_OK)
        status = ctfd__root_of(copy->from, t, &root);
    if (status != CTFD_OK)
        return ctfd__fail(copy->to, (int)status);
    name = name_in(copy, t);
    if (name == NULL)
        return CTF_ERR;
    tag = kind == CTFD_FORWARD ? tag_of(copy->from, t) : kind;
    if (root != 0 && *name != '\0')
        there = ctfd__named_among(copy->to, tag, name, strlen(name), copy->there);
    if (there != 0 && ctfd__kind_of(copy->to, there, &is_kind) == CTFD_OK) {
        if (is_kind == kind && kind != CTFD_FORWARD)
            return says_the_same(copy, t, kind, there) ? (ctf_id_t)there : conflict(copy);
        if (kind == CTFD_FORWARD)
            return (ctf_id_t)there;
        if (is_kind != CTFD_FORWARD)
            return conflict(copy);
    }
    is = copy_type(copy, root != 0 ? CTF_ADD_ROOT : CTF_ADD_NONROOT, t, kind, name);
    if (is == CTF_ERR)
        return CTF_ERR;
    return keep(copy, t, is) ? is : CTF_ERR;
}

static ctf_id_t copied(struct copy *copy, ctf_id_t type)
{
    ctf_id_t is;
    uint32_t at;
    if (type == 0)
        return 0;
    if (copy->known_len != 0 && copy->known[at = slot(copy, (uint16_t)type)].was != 0)
        return copy->known[at].is;
    /* Each step uses stack, so deeper types are refused. */
    if (copy->depth > 4 * CTFD_DEEPEST)
        return ctfd__fail(copy->to, CTFD_VALUE_DEEP);
    copy->depth++;
    is = placed(copy, (uint16_t)type);
    copy->depth--;
    return is;
}

/* Finds names of pending types too. */
ctf_id_t ctf_add_type(ctf_file_t *fp, ctf_file_t *from, ctf_id_t type)
{
    struct copy copy = { fp, from, NULL, 0, 0, 0, 0, NULL, 0, 0 };
    ctf_id_t is;
    if (fp->recipe == NULL)
        return ctfd__fail(fp, CTFD_READ_ONLY);
    if (!ctfd__is_type(fp, type) || fp == from)
        return fp == from ? type : CTF_ERR;
    copy.there = fp->recipe->count;
    fp->recipe->shows_all = true;
    fp->is_touched = true;
    is = copied(&copy, type);
    if (is != CTF_ERR && !fill(&copy))
        is = CTF_ERR;
    free(copy.known);
    free(copy.empty);
    fp->recipe->shows_all = false;
    if (is == CTF_ERR)
        ctfd__drop_types(fp, copy.there);
    return is;
}
