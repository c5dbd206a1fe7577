/* Walks of libctf's calls over random valid dictionaries: index types of arrays form cycles,
 * callbacks make calls themselves, and each allocation of the calls is refused in turn. The answers
 * through both headers are equal.
 *
 * usage: walks ROUNDS [SEED]
 *
 * Whether two types are compatible is also computed by a different method: at first all pairs that
 * look alike count as compatible; then pairs that refer to incompatible ones are removed until none
 * is left to remove. Linked with --wrap for malloc, calloc and realloc.
 */
#include "ctfd_libctf.h"

#include "common.h"
#include "made.h"

#include <errno.h>
#include <limits.h>

#define MOST 24

void *__real_malloc(size_t size);
void *__real_calloc(size_t count, size_t size);
void *__real_realloc(void *old, size_t size);

static unsigned long allocations, refused_at;

static bool is_refused(void)
{
    return ++allocations == refused_at;
}

void *__wrap_malloc(size_t size)
{
    return is_refused() ? NULL : __real_malloc(size);
}

void *__wrap_calloc(size_t count, size_t size)
{
    return is_refused() ? NULL : __real_calloc(count, size);
}

void *__wrap_realloc(void *old, size_t size)
{
    return is_refused() ? NULL : __real_realloc(old, size);
}

static uint64_t state;

static uint32_t next(void)
{
    state ^= state << 13;
    state ^= state >> 7;
    state ^= state << 17;
    return (uint32_t)(state >> 16);
}

static uint32_t below(uint32_t n)
{
    return n == 0 ? 0 : next() % n;
}

/* ---- dictionaries, written byte by byte */

/* The strings of each dictionary: "", "a", "b" and "c", at offsets 0, 1, 3 and 5. */
static const char strings[] = "\0a\0b\0c";

static unsigned some_name(void)
{
    static const unsigned names[] = { 0, 1, 1, 3, 5 };
    return names[below(5)];
}

static void put_record(struct made *made, unsigned kind, unsigned vlen, unsigned size)
{
    uint32_t name = kind == CTF_K_ARRAY || kind == CTF_K_POINTER ? 0 : some_name();
    put_head(made, name, kind << 11 | (below(4) != 0) << 10 | vlen, size);
}

/* Adds a type: most types that it refers to precede it; the index of an array may be any type. */
static void put_type(struct made *made, unsigned number)
{
    unsigned i, members, earlier = number - 1;
    switch (number == 1 ? 0 : below(9)) {
    case 1:
    case 2:
    case 3:
        put_record(made, CTF_K_ARRAY, 0, 0);
        put16(made, 1 + below(earlier));
        put16(made, 1 + below(made->types));
        put32(made, 1 + below(2));
        break;
    case 4: put_record(made, CTF_K_POINTER, 0, below(number)); break;
    case 5: put_record(made, CTF_K_TYPEDEF + below(4), 0, 1 + below(earlier)); break;
    case 6:
        members = below(4);
        put_record(made, below(2) == 0 ? CTF_K_STRUCT : CTF_K_UNION, members, 8);
        for (i = 0; i < members; i++) {
            put32(made, some_name());
            put16(made, 1 + below(earlier));
            put16(made, 8 * i);
        }
        break;
    case 7:
        members = below(6);
        put_record(made, CTF_K_ENUM, members, 4);
        for (i = 0; i < members; i++) {
            put32(made, some_name());
            put32(made, below(4) - 1);
        }
        break;
    case 8:
        put_record(made, CTF_K_FUNCTION, 2, below(number));
        put16(made, below(number));
        put16(made, 1 + below(earlier));
        break;
    default: put_record(made, CTF_K_INTEGER, 0, 4); put32(made, (1 + below(2)) << 24 | 32);
    }
}

static void make_dictionary(struct made *made)
{
    unsigned i;
    begin_made(made);
    made->types = 1 + below(MOST);
    for (i = 1; i <= made->types; i++)
        put_type(made, i);
    end_made(made, strings, sizeof strings);
}

/* ---- compatible types, by removing pairs that are not */

struct shape {
    int kind;
    char name[32];
    ctf_encoding_t encoding;
    ctf_arinfo_t array;
    ctf_id_t to;
    ssize_t size;
};

/* The type behind typedefs and qualifiers; all zero for void. */
static struct shape shape_of(ctf_file_t *fp, ctf_id_t type)
{
    struct shape shape;
    memset(&shape, 0, sizeof shape);
    type = type == 0 ? 0 : ctf_type_resolve(fp, type);
    shape.to = type;
    if (type == 0)
        return shape;
    shape.kind = ctf_type_kind(fp, type);
    if (shape.kind != CTF_K_ARRAY && shape.kind != CTF_K_POINTER && shape.kind != CTF_K_FUNCTION)
        CHECK(ctf_type_name(fp, type, shape.name, sizeof shape.name) != NULL);
    if (shape.kind == CTF_K_INTEGER)
        CHECK(ctf_type_encoding(fp, type, &shape.encoding) == 0);
    if (shape.kind == CTF_K_ARRAY)
        CHECK(ctf_array_info(fp, type, &shape.array) == 0);
    if (shape.kind == CTF_K_POINTER)
        shape.array.ctr_contents = ctf_type_reference(fp, type);
    if (shape.kind == CTF_K_STRUCT || shape.kind == CTF_K_UNION)
        shape.size = ctf_type_size(fp, type);
    return shape;
}

static bool alike(const struct shape *l, const struct shape *r, bool is_one_file)
{
    if (is_one_file && l->to == r->to)
        return true;
    if (l->to == 0 || r->to == 0)
        return l->to == r->to;
    return l->kind == r->kind && strcmp(l->name, r->name) == 0 && l->kind != CTF_K_FUNCTION &&
        memcmp(&l->encoding, &r->encoding, sizeof l->encoding) == 0 &&
        l->array.ctr_nelems == r->array.ctr_nelems && l->size == r->size;
}

static struct shape lefts[MOST + 1], rights[MOST + 1];
static bool same[MOST + 1][MOST + 1];

/* Whether all pairs to which a pair refers are in `same`. True if both are the same type. */
static bool holds(int l, int r, bool is_one_file)
{
    const struct shape *left = &lefts[l], *right = &rights[r];
    if ((is_one_file && left->to == right->to) || left->to == 0 ||
        (left->kind != CTF_K_ARRAY && left->kind != CTF_K_POINTER))
        return true;
    return same[left->array.ctr_contents][right->array.ctr_contents] &&
        (left->kind == CTF_K_POINTER || same[left->array.ctr_index][right->array.ctr_index]);
}

static void compare_all(ctf_file_t *lfp, int lcount, ctf_file_t *rfp, int rcount)
{
    bool is_one = lfp == rfp, is_changed = true;
    int l, r;
    for (l = 0; l <= lcount; l++)
        lefts[l] = shape_of(lfp, l);
    for (r = 0; r <= rcount; r++)
        rights[r] = shape_of(rfp, r);
    for (l = 0; l <= lcount; l++)
        for (r = 0; r <= rcount; r++)
            same[l][r] = alike(&lefts[l], &rights[r], is_one);
    while (is_changed) {
        is_changed = false;
        for (l = 0; l <= lcount; l++)
            for (r = 0; r <= rcount; r++)
                if (same[l][r] && !holds(l, r, is_one)) {
                    same[l][r] = false;
                    is_changed = true;
                }
    }
    for (l = 1; l <= lcount; l++)
        for (r = 1; r <= rcount; r++)
            CHECK(ctf_type_compat(lfp, l, rfp, r) == same[l][r]);
}

/* ---- equal answers through both headers, if both have a call */

struct list {
    struct ctfd *types;
    ctf_id_t of;
    size_t len;
};

static int same_member(const char *name, ctf_id_t type, ulong_t offset, void *arg)
{
    struct list *list = (struct list *)arg;
    struct ctfd_member member = { 0, 0, 0 };
    char text[8];
    CHECK(ctfd_member(list->types, (uint16_t)list->of, list->len++, text, sizeof text, &member) ==
        CTFD_OK);
    CHECK(member.type == type && member.offset == offset && member.name_len == strlen(name) &&
        memcmp(text, name, strlen(name)) == 0);
    return 0;
}

static int same_enumerator(const char *name, int value, void *arg)
{
    struct list *list = (struct list *)arg;
    char text[8];
    uint64_t len = 0;
    int32_t found = 0;
    CHECK(ctfd_enumerator(list->types, (uint16_t)list->of, list->len++, text, sizeof text, &found,
              &len) == CTFD_OK);
    CHECK(found == value && len == strlen(name) && memcmp(text, name, len) == 0);
    return 0;
}

/* The status of a call of libctf, which leaves it in the file. */
static enum ctfd_status ended(ctf_file_t *fp, long said)
{
    return said < 0 ? ctf_fault(fp) : CTFD_OK;
}

static void compare_lists(ctf_file_t *fp, struct ctfd *types, ctf_id_t t)
{
    struct ctfd_member member = { 0, 0, 0 };
    struct list members = { types, t, 0 }, enumerators = { types, t, 0 };
    uint64_t len = 0;
    int32_t value = 0;
    char text[8];
    uint16_t to = 0;
    if (ctfd_resolve(types, (uint16_t)t, &to) != CTFD_OK || to == 0)
        return;
    members.of = enumerators.of = to;
    if (ended(fp, ctf_member_iter(fp, t, same_member, &members)) != CTFD_OK)
        CHECK(ctf_fault(fp) == ctfd_member(types, to, 0, text, 0, &member));
    else
        CHECK(ctfd_member(types, to, members.len, text, 0, &member) == CTFD_NO_MEMBER);
    if (ended(fp, ctf_enum_iter(fp, t, same_enumerator, &enumerators)) != CTFD_OK)
        CHECK(ctf_fault(fp) == ctfd_enumerator(types, to, 0, text, 0, &value, &len));
    else
        CHECK(ctfd_enumerator(types, to, enumerators.len, text, 0, &value, &len) == CTFD_NO_MEMBER);
}

/* Compares the first enumerator with a value, or with a name, with a search through all of them. */
static void compare_enumerators(ctf_file_t *fp, struct ctfd *types, ctf_id_t t)
{
    static const char *const names[] = { "", "a", "b", "c", "d" };
    int32_t value = 0;
    int wanted;
    uint64_t len = 0;
    unsigned i, asked = below(10);
    char text[8];
    enum ctfd_status status;
    if (asked < 5) {
        const char *name = ctf_enum_name(fp, t, (int)asked - 1);
        for (i = 0; (status = ctfd_enumerator(
                         types, (uint16_t)t, i, text, sizeof text, &value, &len)) == CTFD_OK &&
             value != (int32_t)asked - 1;
             i++)
            continue;
        CHECK((name != NULL) == (status == CTFD_OK) &&
            (name != NULL ? strlen(name) == len && memcmp(name, text, len) == 0
                          : ctf_fault(fp) == status));
        return;
    }
    for (i = 0; (status = ctfd_enumerator(
                     types, (uint16_t)t, i, text, sizeof text, &value, &len)) == CTFD_OK;
         i++) {
        if (len == strlen(names[asked - 5]) && memcmp(text, names[asked - 5], len) == 0)
            break;
    }
    CHECK(ended(fp, ctf_enum_value(fp, t, names[asked - 5], &wanted)) == status);
    CHECK(status != CTFD_OK || wanted == value);
}

/* Compares sizes and alignments, which depend on the data model. */
static void compare_sizes(ctf_file_t *fp, struct ctfd *types, ctf_id_t t)
{
    uint64_t bytes = 0;
    enum ctfd_status status = ctfd_size(types, (uint16_t)t, &bytes);
    ssize_t said = ctf_type_size(fp, t);
    CHECK(ended(fp, said) == status && (status != CTFD_OK || (uint64_t)said == bytes));
    status = ctfd_align(types, (uint16_t)t, &bytes);
    said = ctf_type_align(fp, t);
    CHECK(ended(fp, said) == status && (status != CTFD_OK || (uint64_t)said == bytes));
}

static void compare_details(ctf_file_t *fp, struct ctfd *types, ctf_id_t t)
{
    struct ctfd_encoding encoding;
    struct ctfd_array array;
    ctf_encoding_t own_encoding;
    ctf_arinfo_t own_array;
    ctf_funcinfo_t info;
    ctf_id_t args[4] = { -1, -1, -1, -1 };
    uint64_t len = 0;
    uint16_t to = 0;
    enum ctfd_status status = ctfd_encoding(types, (uint16_t)t, &encoding);
    CHECK(ended(fp, ctf_type_encoding(fp, t, &own_encoding)) == status);
    CHECK(status != CTFD_OK ||
        (own_encoding.cte_format == encoding.encoding &&
            own_encoding.cte_offset == encoding.offset && own_encoding.cte_bits == encoding.bits));
    status = ctfd_array(types, (uint16_t)t, &array);
    CHECK(ended(fp, ctf_array_info(fp, t, &own_array)) == status);
    CHECK(status != CTFD_OK ||
        (own_array.ctr_contents == array.contents && own_array.ctr_index == array.index &&
            own_array.ctr_nelems == array.count));
    status = ctfd_return(types, (uint16_t)t, &to);
    CHECK(ended(fp, ctf_func_info_by_id(fp, t, &info)) == status);
    CHECK(ended(fp, ctf_func_args_by_id(fp, t, 4, args)) == status);
    if (status != CTFD_OK)
        return;
    CHECK(info.ctc_return == to && ctfd_length(types, (uint16_t)t, &len) == CTFD_OK &&
        len == info.ctc_argc + info.ctc_flags);
    CHECK(ctfd_argument(types, (uint16_t)t, 0, &to) == CTFD_OK && args[0] == to);
}

/* Compares look-ups of names, each twice since found names are cached, and one with blanks. */
static void compare_found(ctf_file_t *fp, struct ctfd *types)
{
    static const char *const names[] = { "a", "b", "c", "struct a", "union b", "enum c", "a *",
        "struct a *", "b **", "d", "" };
    unsigned i;
    for (i = 0; i < 2 * (sizeof names / sizeof names[0]); i++) {
        const char *name = names[i / 2];
        uint16_t t = 0;
        enum ctfd_status status = ctfd_find(types, name, strlen(name), &t);
        ctf_id_t found = ctf_lookup_by_name(fp, name);
        CHECK(status == CTFD_OK ? found == t : found == CTF_ERR && ctf_fault(fp) == status);
    }
    CHECK(ctf_lookup_by_name(fp, " struct   a ") == ctf_lookup_by_name(fp, "struct a"));
}

/* Asks each question twice, since first answers are cached. */
static void compare_headers(ctf_file_t *fp, const struct made *made, bool is_ilp32)
{
    struct ctfd types = CTFD_NONE;
    uint64_t place;
    ctf_id_t t;
    int turn;
    CHECK(ctfd_open(&types, made->at, made->len, "", 0, "", 0, false, false, is_ilp32, &place) ==
        CTFD_OK);
    CHECK(ctf_setmodel(fp, is_ilp32 ? CTF_MODEL_ILP32 : CTF_MODEL_LP64) == 0);
    compare_found(fp, &types);
    for (t = 0; t <= (ctf_id_t)made->types + 1; t++) {
        for (turn = 0; turn < 2; turn++) {
            compare_sizes(fp, &types, t);
            compare_details(fp, &types, t);
            compare_lists(fp, &types, t);
        }
        for (turn = 0; turn < 6 && ctf_type_kind(fp, t) == CTF_K_ENUM; turn++)
            compare_enumerators(fp, &types, t);
    }
    ctfd_close(&types);
}

/* ---- callbacks that make calls */

struct inside {
    ctf_file_t *fp;
    int types, depth, left;
};

static void walk(struct inside *in);

static int again(const char *name, struct inside *in)
{
    char text[64];
    ctf_id_t type = (ctf_id_t)below((uint32_t)in->types + 2);
    CHECK(name != NULL && strlen(name) <= 1);
    switch (below(8)) {
    case 0: (void)ctf_setmodel(in->fp, below(2) == 0 ? CTF_MODEL_ILP32 : CTF_MODEL_LP64); break;
    case 1: (void)ctf_type_qname(in->fp, type, text, sizeof text, "m"); break;
    case 2: (void)ctf_import(in->fp, NULL); break;
    case 3: ctf_close(ctf_dup(in->fp)); break;
    case 4: (void)ctf_type_compat(in->fp, type, in->fp, 1); break;
    default:
        if (in->depth < 3) {
            in->depth++;
            walk(in);
            in->depth--;
        }
    }
    return --in->left <= 0;
}

static int on_member(const char *name, ctf_id_t type, ulong_t offset, void *arg)
{
    (void)type;
    (void)offset;
    return again(name, (struct inside *)arg);
}

static int on_visit(const char *name, ctf_id_t type, ulong_t offset, int depth, void *arg)
{
    CHECK(depth <= MOST);
    return on_member(name, type, offset, arg);
}

static int on_enumerator(const char *name, int value, void *arg)
{
    (void)value;
    return again(name, (struct inside *)arg);
}

static int on_type(ctf_id_t type, boolean_t root, void *arg)
{
    (void)type;
    (void)root;
    return again("", (struct inside *)arg);
}

static int on_string(const char *text, void *arg)
{
    return again(text, (struct inside *)arg);
}

/* Makes a random walk from a random type. */
static void walk(struct inside *in)
{
    ctf_id_t type = (ctf_id_t)below((uint32_t)in->types + 2);
    char text[64];
    int value = 0;
    switch (below(8)) {
    case 0: (void)ctf_member_iter(in->fp, type, on_member, in); break;
    case 1: (void)ctf_enum_iter(in->fp, type, on_enumerator, in); break;
    case 2: (void)ctf_type_visit(in->fp, type, on_visit, in); break;
    case 3: (void)ctf_type_iter(in->fp, B_TRUE, on_type, in); break;
    case 4: (void)ctf_string_iter(in->fp, on_string, in); break;
    case 5: (void)ctf_type_cname(in->fp, type, text, below(sizeof text), "v"); break;
    case 6: (void)ctf_enum_name(in->fp, type, 1); break;
    default: (void)ctf_enum_value(in->fp, type, "a", &value);
    }
}

/* ---- refused allocations */

/* Makes the same calls each time; with an allocation refused, each answer is right or an error. */
static void some_calls(struct made *made)
{
    char text[64];
    int error = 0;
    unsigned t;
    ctf_file_t *fp = open_made(made, &error), *more;
    struct inside in = { fp, (int)made->types, 3, 20 };
    ctf_funcinfo_t info;
    if (fp == NULL) {
        CHECK(error == ENOMEM);
        return;
    }
    for (t = 1; t <= made->types; t++) {
        CHECK(ctf_type_kind(fp, t) > 0 && ctf_type_resolve(fp, t) >= 0);
        if (ctf_type_cname(fp, t, text, sizeof text, "v") == NULL)
            CHECK(ctf_fault(fp) == CTFD_MEMORY || ctf_errno(fp) == ECTF_NAMELEN);
        (void)ctf_member_iter(fp, t, on_member, &in);
        (void)ctf_enum_iter(fp, t, on_enumerator, &in);
        if (ctf_enum_name(fp, t, 1) == NULL)
            CHECK(ctf_fault(fp) != CTFD_OK);
        (void)ctf_enum_value(fp, t, "a", NULL);
        (void)ctf_func_info_by_id(fp, t, &info);
        (void)ctf_type_compat(fp, t, fp, 1);
    }
    more = ctf_dup(fp);
    if (more == NULL)
        CHECK(ctf_fault(fp) == CTFD_MEMORY);
    else if (ctf_type_compat(fp, 1, more, 1) == 0)
        CHECK(ctf_fault(fp) == CTFD_MEMORY || ctf_fault(more) == CTFD_MEMORY);
    ctf_close(more);
    (void)ctf_setmodel(fp, CTF_MODEL_ILP32);
    (void)ctf_lookup_by_name(fp, "const  struct a");
    CHECK(ctf_lookup_by_name(fp, "a") == ctf_lookup_by_name(fp, "a"));
    ctf_close(fp);
}

static void refuse_each(struct made *made)
{
    uint64_t was = state;
    for (refused_at = 1;; refused_at++) {
        state = was;
        allocations = 0;
        some_calls(made);
        if (allocations < refused_at)
            break;
    }
    refused_at = 0;
}

int main(int argc, char **argv)
{
    unsigned i, rounds, accepted = 0;
    static uint8_t places[2][8192];
    struct made left = { places[0], 0, 0 }, right = { places[1], 0, 0 };
    if (argc < 2)
        return 2;
    rounds = (unsigned)strtoul(argv[1], NULL, 10);
    state = (argc > 2 ? strtoull(argv[2], NULL, 10) : 1) * 0x9e3779b97f4a7c15 + 1;
    for (i = 0; i < rounds; i++) {
        int error = 0, calls;
        ctf_file_t *lfp, *rfp;
        struct inside in = { NULL, 0, 0, 60 };
        make_dictionary(&left);
        make_dictionary(&right);
        lfp = open_made(&left, &error);
        rfp = open_made(&right, &error);
        if (lfp != NULL && rfp != NULL) {
            accepted++;
            compare_all(lfp, (int)left.types, lfp, (int)left.types);
            compare_all(lfp, (int)left.types, rfp, (int)right.types);
            compare_headers(lfp, &left, false);
            compare_headers(lfp, &left, true);
            in.fp = lfp;
            in.types = (int)left.types;
            for (calls = 0; calls < 10; calls++)
                walk(&in);
            if (i % 8 == 0)
                refuse_each(&left);
        }
        ctf_close(lfp);
        ctf_close(rfp);
    }
    CHECK(accepted == rounds);
    printf("%u of %u pairs of dictionaries accepted\n", accepted, rounds);
    return counted("walks");
}
