/* Refuses each allocation of a call in turn. The call must report it, free what it allocated, and
 * leave open dictionaries unchanged.
 *
 * usage: refuse EXAMPLES
 */
#include "common.h"

/* The library's allocation functions, which replace those in the archive. */
struct tried {
    bool ok;
    void *at;
};
struct tried rattle_alloc(size_t size, size_t align);
struct tried rattle_realloc(void *at, size_t kept, size_t size, size_t align);
void rattle_dealloc(void *at);

static unsigned long calls, refused_at;
static long live;
static char nothing;

struct tried rattle_alloc(size_t size, size_t align)
{
    struct tried tried = { false, &nothing };
    void *at;
    if (++calls == refused_at || (at = malloc(size != 0 ? size : align)) == NULL)
        return tried;
    live++;
    tried.ok = true;
    tried.at = at;
    return tried;
}

struct tried rattle_realloc(void *old, size_t kept, size_t size, size_t align)
{
    struct tried tried = { false, &nothing };
    void *at;
    (void)kept;
    if (++calls == refused_at || (at = realloc(old, size != 0 ? size : align)) == NULL)
        return tried;
    tried.ok = true;
    tried.at = at;
    return tried;
}

void rattle_dealloc(void *at)
{
    live--;
    free(at);
}

static struct bytes ctf, sym, strs, child_ctf;
static struct ctfd types = CTFD_NONE, base = CTFD_NONE, fresh = CTFD_NONE;
static uint64_t place;

static enum ctfd_status open_lua(void)
{
    return ctfd_open(
        &fresh, ctf.at, ctf.len, sym.at, sym.len, strs.at, strs.len, true, true, false, &place);
}

static enum ctfd_status lend_lua(void)
{
    return ctfd_open_lent(
        &fresh, ctf.at, ctf.len, sym.at, sym.len, strs.at, strs.len, true, true, false, &place);
}

static enum ctfd_status create(void)
{
    return ctfd_create(&fresh, false, &place);
}

static enum ctfd_status create_child(void)
{
    return ctfd_create_child(&fresh, &base, "base", 4, "label", 5, &place);
}

static enum ctfd_status import(void)
{
    return ctfd_import(&fresh, &base, &place);
}

static enum ctfd_status name(void)
{
    char text[64];
    uint64_t len = 0;
    enum ctfd_status status = ctfd_name(&types, 27, text, sizeof text, &len);
    CHECK(status != CTFD_OK || (len == 11 && memcmp(text, "lua_State *", 11) == 0));
    return status;
}

static enum ctfd_status show(void)
{
    static const uint8_t memory[4096];
    static char first[4096];
    static uint64_t first_len;
    char text[4096];
    uint64_t len = 0;
    uint16_t t = 0;
    enum ctfd_status status;
    CHECK(ctfd_find(&types, "struct lua_State", 16, &t) == CTFD_OK);
    status = ctfd_show(&types, t, memory, sizeof memory, 0, text, sizeof text, &len);
    if (status == CTFD_OK && first_len == 0) {
        memcpy(first, text, sizeof first);
        first_len = len;
    }
    CHECK(status != CTFD_OK || (len == first_len && memcmp(text, first, len) == 0));
    return status;
}

static enum ctfd_status path(void)
{
    uint64_t offset = 0, place = 77;
    uint16_t t = 0;
    enum ctfd_status status;
    CHECK(ctfd_find(&types, "struct lua_State", 16, &t) == CTFD_OK);
    status = ctfd_path(&types, t, "base_ci\0next", 13, &offset, &t, &place);
    CHECK(place == (status == CTFD_OK ? 77 : 0));
    return status;
}

static enum ctfd_status add(void)
{
    uint16_t args[2] = { 1, 0 }, t = 0;
    return ctfd_add_function(&fresh, "f", 1, true, 1, args, 2, &t);
}

static enum ctfd_status add_member(void)
{
    uint64_t at = 0;
    return ctfd_add_member(&fresh, 2, "next member", 11, 1, false, 0, &at);
}

static enum ctfd_status add_member_at(void)
{
    return ctfd_add_member_at(&fresh, 2, "stated member", 13, 1, 8, 5);
}

static enum ctfd_status update(void)
{
    uint64_t count = 0;
    enum ctfd_status status = ctfd_update(&fresh, &count, &place);
    CHECK(status == CTFD_OK || count == 0);
    return status;
}

/* A hash of answers about an open dictionary, which refused calls must not change. */
static uint64_t fingerprint(struct ctfd *d)
{
    uint64_t sum = 0, count = 0, bytes = 0, t;
    uint32_t child = 0;
    if (ctfd_count(d, &count) != CTFD_OK || ctfd_child(d, &child) != CTFD_OK)
        return 1;
    for (t = 1; t <= count; t++) {
        enum ctfd_status status = ctfd_size(d, (uint16_t)(child ? t + 32768 : t), &bytes);
        sum = 31 * sum + bytes + status;
    }
    return 31 * sum + ctfd_parent_count(d, &bytes);
}

/* Repeats a call until no allocation is refused, and prints the number of its allocations. */
static void refuse(const char *what, enum ctfd_status (*call)(void))
{
    uint64_t was = fingerprint(&fresh), others = fingerprint(&types) ^ fingerprint(&base);
    long held = live;
    for (refused_at = 1;; refused_at++) {
        enum ctfd_status status;
        calls = 0;
        status = call();
        if (calls < refused_at) {
            CHECK(status == CTFD_OK);
            break;
        }
        /* ctfd_show, if it is refused memory to grow its text, tries less, and may succeed. */
        CHECK(status == CTFD_MEMORY || (status == CTFD_OK && call == show));
        /* A draft may keep memory reserved for additions; it is freed with the draft. */
        CHECK(live == held ||
            (live > held && (call == add || call == add_member || call == add_member_at)));
        CHECK(fingerprint(&fresh) == was);
        CHECK((fingerprint(&types) ^ fingerprint(&base)) == others);
    }
    printf("%s: %lu allocations\n", what, calls);
    refused_at = 0;
}

/* Makes the calls that allocate no memory, according to the header. */
static void take_none(void)
{
    struct ctfd_member member;
    struct ctfd_encoding encoding;
    uint64_t wide = 0, t;
    uint32_t number = 0;
    uint16_t to = 0;
    int32_t value = 0;
    struct ctfd_member_row members[4];
    struct ctfd_enumerator_row enumerators[4];
    struct ctfd_visit_row visited[4];
    struct ctfd_type_row rows[4];
    struct ctfd_symbol_row symbols[4];
    struct ctfd_label_row labels[4];
    struct ctfd_function function;
    uint16_t arguments[4];
    char text[64];
    calls = 0;
    for (t = 0; t <= 527; t++) {
        (void)ctfd_kind(&types, (uint16_t)t, &number);
        (void)ctfd_size(&types, (uint16_t)t, &wide);
        (void)ctfd_align(&types, (uint16_t)t, &wide);
        (void)ctfd_resolve(&types, (uint16_t)t, &to);
        (void)ctfd_reference(&types, (uint16_t)t, &to);
        (void)ctfd_pointer(&types, (uint16_t)t, &to);
        (void)ctfd_encoding(&types, (uint16_t)t, &encoding);
        (void)ctfd_member(&types, (uint16_t)t, 1, text, sizeof text, &member);
        (void)ctfd_enumerator(&types, (uint16_t)t, 1, text, sizeof text, &value, &wide);
        (void)ctfd_members(&types, (uint16_t)t, 0, members, 4, &wide);
        (void)ctfd_enumerators(&types, (uint16_t)t, 0, enumerators, 4, &wide);
        (void)ctfd_visit(&types, (uint16_t)t, visited, 4, &wide);
        (void)ctfd_types(&types, (size_t)t, rows, 4, &wide);
        (void)ctfd_symbols(&types, (size_t)t, symbols, 4, &wide);
        (void)ctfd_labels(&types, (size_t)t, labels, 4, &wide);
        (void)ctfd_arguments(&types, (uint16_t)t, 0, arguments, 4, &wide);
        (void)ctfd_signature(&types, (uint16_t)t, &function);
        (void)ctfd_function_arguments(&types, (uint32_t)t, 0, arguments, 4, &wide);
        (void)ctfd_enum_name(&types, (uint16_t)t, 1, text, sizeof text, &wide);
        (void)ctfd_enum_value(&types, (uint16_t)t, "OP_MOVE", 7, &value);
        (void)ctfd_field(&types, (uint16_t)t, "next", 4, &wide, &to);
        (void)ctfd_declared_name(&types, (uint16_t)t, text, sizeof text, &wide);
        (void)ctfd_object(&types, (uint32_t)t, &to);
        (void)ctfd_symbol_name(&types, (uint32_t)t, text, sizeof text, &wide);
    }
    (void)ctfd_find(&types, "struct lua_State **", 19, &to);
    (void)ctfd_symbol(&types, "lua_close", 9, &number);
    (void)ctfd_label_last(&types, "lua", 3, &number);
    CHECK(calls == 0);
}

/* Writes a child and its parent as bytes. */
static void make_child(void)
{
    uint64_t count = 0;
    uint16_t t = 0;
    CHECK(ctfd_create(&base, false, &place) == CTFD_OK);
    CHECK(ctfd_add_integer(&base, "int", 3, true, 1, 0, 32, 4, &t) == CTFD_OK);
    CHECK(ctfd_update(&base, &count, &place) == CTFD_OK);
    CHECK(ctfd_create_child(&fresh, &base, "base", 4, "", 0, &place) == CTFD_OK);
    CHECK(ctfd_add_pointer(&fresh, "", 0, true, 1, &t) == CTFD_OK);
    CHECK(ctfd_update(&fresh, &count, &place) == CTFD_OK);
    child_ctf.at = (uint8_t *)malloc(4096);
    if (child_ctf.at == NULL)
        exit(2);
    CHECK(ctfd_bytes(&fresh, 0, child_ctf.at, 4096, &count) == CTFD_OK && count <= 4096);
    child_ctf.len = (size_t)count;
}

int main(int argc, char **argv)
{
    uint16_t t = 0;
    if (argc != 2)
        return 2;
    ctf = read_in(argv[1], "lua.ctf");
    sym = read_in(argv[1], "lua.sym");
    strs = read_in(argv[1], "lua.str");
    refuse("open", open_lua);
    types = fresh;
    memset(&fresh, 0, sizeof fresh);
    make_child();
    refuse("open in place of another", open_lua);
    refuse("open what is lent", lend_lua);
    CHECK(open_alone(&fresh, &child_ctf, false, &place) == CTFD_OK);
    refuse("import", import);
    refuse("import again", import);
    refuse("name", name);
    CHECK(show() == CTFD_OK);
    refuse("show", show);
    refuse("path", path);
    refuse("create a child", create_child);
    refuse("create", create);
    CHECK(ctfd_add_integer(&fresh, "int", 3, true, 1, 0, 32, 4, &t) == CTFD_OK);
    CHECK(ctfd_add_struct(&fresh, "s", 1, true, 0, &t) == CTFD_OK && t == 2);
    refuse("add a member", add_member);
    refuse("add a member at a place", add_member_at);
    refuse("add a function", add);
    refuse("update", update);
    take_none();
    ctfd_close(&fresh);
    ctfd_close(&base);
    ctfd_close(&types);
    CHECK(live == 0);
    free_bytes(&ctf);
    free_bytes(&sym);
    free_bytes(&strs);
    free_bytes(&child_ctf);
    return counted("refuse");
}
