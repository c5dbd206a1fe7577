/* beside_ctfd ROUNDS SEED: random additions through libctf's calls, and the same through ctfd.h.
 * The numbers and refusals are equal, and then all answers and the bytes. Each round makes a parent
 * and a child of it. Names of types are compared with those of the opened bytes, since ctfd.h
 * spells qualified arrays of pointers differently. */
#include "ctfd_libctf.h"

#include "random.h"

#include <limits.h>
#include <string.h>

/* A dictionary that is made twice. */
struct pair {
    ctf_file_t *file;
    struct ctfd *draft;
    unsigned first; /* the number of its first type */
    unsigned count, of_parent;
    unsigned char kinds[65536];
};

/* The result of a libctf call, or its fault as a negative number; `drafted` is for ctfd.h. */
static long given(const struct pair *pair, long number)
{
    return number == CTF_ERR ? -(long)ctf_fault(pair->file) : number;
}

static long drafted(enum ctfd_status status, long number)
{
    return status == CTFD_OK ? number : -(long)status;
}

/* Usually an existing type, its own or the parent's; sometimes one that does not exist, or 0. */
static ctf_id_t some_type(const struct pair *pair)
{
    unsigned choice = below(20);
    if (choice == 0)
        return 0;
    if (choice == 1)
        return (ctf_id_t)(pair->first + pair->count + below(3));
    if (pair->of_parent != 0 && choice < 8)
        return (ctf_id_t)(1 + below(pair->of_parent));
    return pair->count != 0 ? (ctf_id_t)(pair->first + below(pair->count)) : 0;
}

struct added {
    const char *name;
    size_t len;
    unsigned flag;
    long file, draft;
};

static void add_number(struct pair *pair, struct added *it, bool is_float)
{
    ctf_encoding_t encoding = { below(4), below(3), 1 + below(130) };
    uint64_t bytes = 1;
    uint16_t t = 0;
    enum ctfd_status status;
    while (8 * bytes < encoding.cte_bits)
        bytes *= 2;
    it->file = is_float ? ctf_add_float(pair->file, it->flag, it->name, &encoding)
                        : ctf_add_integer(pair->file, it->flag, it->name, &encoding);
    status = (is_float ? ctfd_add_float : ctfd_add_integer)(pair->draft, it->name, it->len,
        it->flag != 0, (uint8_t)encoding.cte_format, (uint8_t)encoding.cte_offset,
        (uint16_t)encoding.cte_bits, bytes, &t);
    it->draft = drafted(status, t);
}

static void add_reference(struct pair *pair, struct added *it, unsigned kind)
{
    static const struct {
        ctf_id_t (*file)(ctf_file_t *, uint_t, const char *, ctf_id_t);
        enum ctfd_status (*draft)(struct ctfd *, const char *, size_t, bool, uint16_t, uint16_t *);
    } calls[] = { { ctf_add_pointer, ctfd_add_pointer }, { ctf_add_typedef, ctfd_add_typedef },
        { ctf_add_const, ctfd_add_const }, { ctf_add_volatile, ctfd_add_volatile },
        { ctf_add_restrict, ctfd_add_restrict } };
    ctf_id_t to = some_type(pair);
    uint16_t t = 0;
    enum ctfd_status status;
    if (kind != 1)
        it->name = "";
    it->file = calls[kind].file(pair->file, it->flag, it->name, to);
    status = calls[kind].draft(
        pair->draft, it->name, strlen(it->name), it->flag != 0, (uint16_t)to, &t);
    it->draft = drafted(status, t);
}

static void add_array(struct pair *pair, struct added *it)
{
    ctf_arinfo_t array = { some_type(pair), some_type(pair), 0 };
    uint16_t t = 0;
    enum ctfd_status status;
    array.ctr_nelems = below(3) != 0 ? below(20) : below(INT_MAX);
    it->file = ctf_add_array(pair->file, it->flag, &array);
    status = ctfd_add_array(pair->draft, "", 0, it->flag != 0, (uint16_t)array.ctr_contents,
        (uint16_t)array.ctr_index, array.ctr_nelems, &t);
    it->draft = drafted(status, t);
}

static void add_function(struct pair *pair, struct added *it)
{
    ctf_funcinfo_t info = { some_type(pair), below(5), below(2) };
    ctf_id_t arguments[6];
    uint16_t rows[7] = { 0 }, t = 0;
    unsigned i;
    enum ctfd_status status;
    for (i = 0; i < info.ctc_argc; i++)
        rows[i] = (uint16_t)(arguments[i] = some_type(pair));
    it->file = ctf_add_function(pair->file, it->flag, it->name, &info, arguments);
    status = ctfd_add_function(pair->draft, it->name, it->len, it->flag != 0,
        (uint16_t)info.ctc_return, rows, info.ctc_argc + info.ctc_flags, &t);
    it->draft = drafted(status, t);
}

static void add_tagged(struct pair *pair, struct added *it, unsigned kind)
{
    uint16_t t = 0;
    uint32_t tag = CTFD_STRUCT + below(3);
    size_t size = below(3) != 0 ? 4 : below(9);
    enum ctfd_status status;
    switch (kind) {
    case CTFD_STRUCT:
        it->file = ctf_add_struct(pair->file, it->flag, it->name);
        status = ctfd_add_struct(pair->draft, it->name, it->len, it->flag != 0, 0, &t);
        break;
    case CTFD_UNION:
        it->file = ctf_add_union(pair->file, it->flag, it->name);
        status = ctfd_add_union(pair->draft, it->name, it->len, it->flag != 0, 0, &t);
        break;
    case CTFD_ENUM:
        it->file = ctf_add_enum(pair->file, it->flag, it->name, size);
        status = ctfd_add_enum(
            pair->draft, it->name, it->len, it->flag != 0, size != 0 ? size : 4, &t);
        break;
    default:
        it->file = ctf_add_forward(pair->file, it->flag, it->name, tag);
        status = ctfd_add_forward(pair->draft, it->name, it->len, it->flag != 0, tag, &t);
    }
    it->draft = drafted(status, t);
}

static void add_type(struct pair *pair)
{
    static const unsigned char kinds[] = { CTFD_INTEGER, CTFD_FLOAT, CTFD_POINTER, CTFD_POINTER,
        CTFD_TYPEDEF, CTFD_CONST, CTFD_VOLATILE, CTFD_RESTRICT, CTFD_ARRAY, CTFD_FUNCTION,
        CTFD_STRUCT, CTFD_UNION, CTFD_ENUM, CTFD_FORWARD };
    char name[24];
    unsigned kind = kinds[below(sizeof kinds)];
    struct added it = { name, 0, below(5) != 0, 0, 0 };
    sprintf(name, "n%u_%u", pair->first, pair->count);
    if (below(4) == 0)
        name[0] = '\0';
    it.len = strlen(name);
    if (kind == CTFD_INTEGER || kind == CTFD_FLOAT)
        add_number(pair, &it, kind == CTFD_FLOAT);
    else if (kind == CTFD_ARRAY)
        add_array(pair, &it);
    else if (kind == CTFD_FUNCTION)
        add_function(pair, &it);
    else if (kind == CTFD_POINTER || kind >= CTFD_TYPEDEF)
        add_reference(pair, &it,
            kind == CTFD_POINTER        ? 0
                : kind == CTFD_TYPEDEF  ? 1
                : kind == CTFD_CONST    ? 2
                : kind == CTFD_VOLATILE ? 3
                                        : 4);
    else
        add_tagged(pair, &it, kind);
    it.file = given(pair, it.file);
    same("an added type", it.file, it.draft, it.file);
    if (it.file > 0) {
        pair->kinds[it.file] = (unsigned char)kind;
        pair->count++;
    }
}

/* Usually a type of the pair that may get members or enumerators. */
static ctf_id_t some_holder(const struct pair *pair)
{
    ctf_id_t in = 1;
    int tries;
    for (tries = 0; tries < 40 && pair->count != 0; tries++) {
        unsigned kind;
        in = (ctf_id_t)(pair->first + below(pair->count));
        kind = pair->kinds[in];
        if (kind == CTFD_STRUCT || kind == CTFD_UNION || kind == CTFD_ENUM || below(50) == 0)
            break;
    }
    return below(30) == 0 ? some_type(pair) : in;
}

/* Adds a member or enumerator. A member's type must precede its struct, unless it is a pointer:
 * this avoids cycles. */
static void add_item(struct pair *pair)
{
    char name[8];
    ctf_id_t in = some_holder(pair), to = some_type(pair);
    ulong_t offset = below(3) != 0 ? ULONG_MAX : below(40) != 0 ? below(500) : (ulong_t)state;
    bool is_placed = offset != ULONG_MAX;
    uint64_t at = 0;
    enum ctfd_status status;
    if (in == 0 || to == 0 ||
        (to >= in && to >= (ctf_id_t)pair->first && pair->kinds[to] != CTFD_POINTER))
        return;
    sprintf(name, "m%u", below(30));
    if (below(8) == 0)
        name[0] = '\0';
    if (pair->kinds[in] == CTFD_ENUM) {
        int value = (int)state;
        status = ctfd_add_enumerator(pair->draft, (uint16_t)in, name, strlen(name), value);
        same("an added enumerator", in, drafted(status, 0),
            given(pair, ctf_add_enumerator(pair->file, in, name, value)));
        return;
    }
    status = ctfd_add_member(pair->draft, (uint16_t)in, name, strlen(name), (uint16_t)to, is_placed,
        is_placed ? offset : 0, &at);
    same("an added member", in, drafted(status, 0),
        given(pair, ctf_add_member(pair->file, in, name, to, offset)));
}

/* ---- questions */

static void ask_numbers(const struct pair *pair, ctf_id_t t, uint32_t *kind)
{
    uint16_t to = 0;
    uint64_t bytes = 0;
    enum ctfd_status status = ctfd_kind(pair->draft, (uint16_t)t, kind);
    same("the kind", t, drafted(status, *kind), given(pair, ctf_type_kind(pair->file, t)));
    status = ctfd_resolve(pair->draft, (uint16_t)t, &to);
    same(
        "what it stands for", t, drafted(status, to), given(pair, ctf_type_resolve(pair->file, t)));
    status = ctfd_reference(pair->draft, (uint16_t)t, &to);
    same("the reference", t, drafted(status, to), given(pair, ctf_type_reference(pair->file, t)));
    status = ctfd_size(pair->draft, (uint16_t)t, &bytes);
    if (status == CTFD_OK && bytes > LONG_MAX)
        status = CTFD_TOO_BIG;
    same("the size", t, drafted(status, (long)bytes), given(pair, ctf_type_size(pair->file, t)));
    status = ctfd_align(pair->draft, (uint16_t)t, &bytes);
    if (status == CTFD_OK && bytes > LONG_MAX)
        status = CTFD_TOO_BIG;
    same("the alignment", t, drafted(status, (long)bytes),
        given(pair, ctf_type_align(pair->file, t)));
}

/* Asks for members by name, if all members of the struct or union have one. */
static void ask_members(const struct pair *pair, ctf_id_t t)
{
    struct ctfd_member member;
    char name[16];
    size_t i;
    for (i = 0; ctfd_member(pair->draft, (uint16_t)t, i, name, sizeof name, &member) == CTFD_OK;
         i++) {
        if (member.name_len == 0)
            return;
    }
    for (i = 0; ctfd_member(pair->draft, (uint16_t)t, i, name, sizeof name, &member) == CTFD_OK;
         i++) {
        ctf_membinfo_t seen = { 0, 0 };
        uint64_t at = 0;
        uint16_t type = 0;
        name[member.name_len] = '\0';
        if (ctfd_field(pair->draft, (uint16_t)t, name, member.name_len, &at, &type) != CTFD_OK)
            continue;
        same("a member", t, 0, ctf_member_info(pair->file, t, name, &seen));
        same("a member's place", t, (long long)at, (long long)seen.ctm_offset);
        same("a member's type", t, type, seen.ctm_type);
    }
}

static void look_up(const struct pair *pair, ctf_id_t t, uint32_t kind)
{
    static const char *const words[] = { "struct ", "union ", "enum " };
    char name[40] = "", text[60];
    uint64_t len = 0;
    uint32_t root = 0, tag = kind;
    uint16_t to = 0;
    enum ctfd_status status = ctfd_declared_name(
        pair->draft, (uint16_t)t, name, sizeof name - 1, &len);
    if (status != CTFD_OK || len == 0 || ctfd_root(pair->draft, (uint16_t)t, &root) != CTFD_OK ||
        root == 0)
        return;
    if (kind == CTFD_FORWARD)
        (void)ctfd_tag(pair->draft, (uint16_t)t, &tag);
    sprintf(
        text, "%s%s", tag >= CTFD_STRUCT && tag <= CTFD_ENUM ? words[tag - CTFD_STRUCT] : "", name);
    status = ctfd_find(pair->draft, text, strlen(text), &to);
    same("a look-up", t, drafted(status, to), given(pair, ctf_lookup_by_name(pair->file, text)));
}

/* A pointer that is found points to the type; libctf chooses which of several. */
static void ask_pointer(const struct pair *pair, ctf_id_t t)
{
    uint16_t to = 0;
    bool is_there = ctfd_pointer(pair->draft, (uint16_t)t, &to) == CTFD_OK;
    ctf_id_t seen = ctf_type_pointer(pair->file, t), leads;
    same("whether a pointer is there", t, is_there, seen > 0);
    if (seen <= 0)
        return;
    leads = ctf_type_reference(pair->file, seen);
    same("what the pointer leads to", t, 1, leads == t || leads == ctf_type_resolve(pair->file, t));
}

/* Compares the bytes, and the names of types with those that the opened bytes give. */
static void ask_bytes(const struct pair *pair, ctf_file_t *parent)
{
    const void *data = NULL;
    size_t size = 0;
    uint64_t len = 0;
    char *wanted, name[400], seen[400];
    ctf_sect_t section;
    ctf_file_t *opened;
    unsigned i;
    ctf_dataptr(pair->file, &data, &size);
    (void)ctfd_bytes(pair->draft, 0, "", 0, &len);
    same("how many bytes", 0, (long long)len, (long long)size);
    if (data == NULL || size != len)
        return;
    wanted = (char *)malloc(size + 1);
    (void)ctfd_bytes(pair->draft, 0, wanted, size, &len);
    same("the bytes", 0, 0, memcmp(wanted, data, size) != 0);
    memset(&section, 0, sizeof section);
    section.cts_data = wanted;
    section.cts_size = size;
    opened = ctf_bufopen(&section, NULL, NULL, NULL);
    same("whether they open", 0, 1, opened != NULL);
    if (opened != NULL && parent != NULL)
        same("their import", 0, 0, ctf_import(opened, parent));
    for (i = 0; opened != NULL && i < pair->count; i++) {
        ctf_id_t t = (ctf_id_t)(pair->first + i);
        name[0] = seen[0] = '\0';
        (void)ctf_type_name(opened, t, name, sizeof name);
        (void)ctf_type_name(pair->file, t, seen, sizeof seen);
        same("the name", t, 0, strcmp(name, seen) != 0);
    }
    ctf_close(opened);
    free(wanted);
}

static void ask_all(const struct pair *pair, ctf_file_t *parent)
{
    unsigned i;
    for (i = 0; i < pair->count + 2; i++) {
        ctf_id_t t = (ctf_id_t)(pair->first + i);
        uint32_t kind = 0;
        ask_numbers(pair, t, &kind);
        if (kind == CTFD_STRUCT || kind == CTFD_UNION)
            ask_members(pair, t);
        look_up(pair, t, kind);
        ask_pointer(pair, t);
    }
    ask_bytes(pair, parent);
}

/* Adds, updates and asks. Returns false if both refuse the update, for the same fault. */
static bool fill(struct pair *pair, ctf_file_t *parent)
{
    unsigned i, count = 1 + below(120);
    uint64_t types, place;
    enum ctfd_status status;
    for (i = 0; i < count; i++) {
        if (below(2) != 0)
            add_type(pair);
        else
            add_item(pair);
    }
    status = ctfd_update(pair->draft, &types, &place);
    (void)ctf_update(pair->file);
    if (status == CTFD_OK) {
        ask_all(pair, parent);
        return true;
    }
    ctf_dataptr(pair->file, NULL, NULL);
    same("a refused update", 0, status, ctf_fault(pair->file));
    return false;
}

int main(int argc, char **argv)
{
    unsigned rounds = argc > 1 ? (unsigned)atoi(argv[1]) : 100;
    static struct pair parent, child;
    seed(argc > 2 ? (unsigned long long)atoll(argv[2]) : 1);
    for (round_number = 0; round_number < rounds; round_number++) {
        struct ctfd draft = CTFD_NONE, draft_child = CTFD_NONE;
        uint64_t place;
        memset(&parent, 0, sizeof parent);
        memset(&child, 0, sizeof child);
        parent.file = ctf_create(NULL);
        parent.draft = &draft;
        parent.first = 1;
        (void)ctfd_create(&draft, false, &place);
        child.file = ctf_create(NULL);
        child.draft = &draft_child;
        child.first = 32769;
        if (fill(&parent, NULL)) {
            child.of_parent = parent.count;
            (void)ctfd_create_child(&draft_child, &draft, "PARENT", 6, "", 0, &place);
            same("the import", 0, 0, ctf_import(child.file, parent.file));
            (void)fill(&child, parent.file);
        }
        ctfd_close(&draft_child);
        ctfd_close(&draft);
        ctf_close(child.file);
        ctf_close(parent.file);
    }
    return told("beside ctfd.h");
}
