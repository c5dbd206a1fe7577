/* Checks which calls are refused, and with which status; a refusal writes no result and closes
 * nothing.
 *
 * usage: refusals EXAMPLES
 */
#include "common.h"

/* Results, filled with a pattern that a refusal must leave unchanged. */
static struct results {
    uint64_t wide, len;
    uint32_t number;
    int32_t value;
    uint16_t to;
    struct ctfd_encoding encoding;
    struct ctfd_array array;
    struct ctfd_member member;
    struct ctfd_member_row members[2];
    struct ctfd_enumerator_row enumerators[2];
    struct ctfd_visit_row visited[2];
    struct ctfd_type_row types[2];
    struct ctfd_symbol_row symbols[2];
    struct ctfd_label_row labels[2];
    uint16_t arguments[2];
    struct ctfd_function function;
    struct ctfd_label label;
    char text[64];
} got, filled;

static void fill(void)
{
    memset(&filled, 0x5a, sizeof filled);
    memset(&got, 0x5a, sizeof got);
}

static bool is_untouched(void)
{
    return memcmp(&got, &filled, sizeof got) == 0;
}

#define REFUSED(call, status) \
    do { \
        CHECK((call) == (status)); \
        CHECK(is_untouched()); \
        memset(&got, 0x5a, sizeof got); \
    } while (0)

#define TEXT got.text, sizeof got.text

/* Asks every question about a type; all must be refused with the same status. */
static void refuse_type(struct ctfd *d, uint16_t t, enum ctfd_status status)
{
    static const uint8_t memory[16];
    uint64_t place;
    REFUSED(ctfd_kind(d, t, &got.number), status);
    REFUSED(ctfd_declared_name(d, t, TEXT, &got.len), status);
    REFUSED(ctfd_root(d, t, &got.number), status);
    REFUSED(ctfd_reference(d, t, &got.to), status);
    REFUSED(ctfd_tag(d, t, &got.number), status);
    REFUSED(ctfd_encoding(d, t, &got.encoding), status);
    REFUSED(ctfd_array(d, t, &got.array), status);
    REFUSED(ctfd_length(d, t, &got.wide), status);
    REFUSED(ctfd_member(d, t, 0, TEXT, &got.member), status);
    REFUSED(ctfd_enumerator(d, t, 0, TEXT, &got.value, &got.len), status);
    REFUSED(ctfd_members(d, t, 0, got.members, 2, &got.wide), status);
    REFUSED(ctfd_enumerators(d, t, 0, got.enumerators, 2, &got.wide), status);
    REFUSED(ctfd_visit(d, t, got.visited, 2, &got.wide), status);
    REFUSED(ctfd_enum_name(d, t, 0, TEXT, &got.len), status);
    REFUSED(ctfd_enum_value(d, t, "x", 1, &got.value), status);
    REFUSED(ctfd_return(d, t, &got.to), status);
    REFUSED(ctfd_argument(d, t, 0, &got.to), status);
    REFUSED(ctfd_arguments(d, t, 0, got.arguments, 2, &got.wide), status);
    REFUSED(ctfd_signature(d, t, &got.function), status);
    REFUSED(ctfd_resolve(d, t, &got.to), status);
    REFUSED(ctfd_size(d, t, &got.wide), status);
    REFUSED(ctfd_align(d, t, &got.wide), status);
    REFUSED(ctfd_field(d, t, "x", 1, &got.wide, &got.to), status);
    REFUSED(ctfd_path(d, t, "x", 2, &got.wide, &got.to, &place), status);
    REFUSED(ctfd_name(d, t, TEXT, &got.len), status);
    REFUSED(ctfd_show(d, t, memory, sizeof memory, 0, TEXT, &got.len), status);
}

/* 0 is not a type: all questions about it are refused, as in the protocol. */
static void ask_of_none(struct ctfd *d)
{
    static const uint8_t memory[16];
    REFUSED(ctfd_kind(d, 0, &got.number), CTFD_NO_TYPE);
    REFUSED(ctfd_declared_name(d, 0, TEXT, &got.len), CTFD_NO_TYPE);
    REFUSED(ctfd_root(d, 0, &got.number), CTFD_NO_TYPE);
    REFUSED(ctfd_reference(d, 0, &got.to), CTFD_NO_TYPE);
    REFUSED(ctfd_length(d, 0, &got.wide), CTFD_NO_TYPE);
    REFUSED(ctfd_member(d, 0, 0, TEXT, &got.member), CTFD_NO_TYPE);
    REFUSED(ctfd_size(d, 0, &got.wide), CTFD_NO_TYPE);
    REFUSED(ctfd_align(d, 0, &got.wide), CTFD_NO_TYPE);
    REFUSED(ctfd_field(d, 0, "x", 1, &got.wide, &got.to), CTFD_NO_TYPE);
    REFUSED(ctfd_show(d, 0, memory, sizeof memory, 0, TEXT, &got.len), CTFD_NO_TYPE);
    REFUSED(ctfd_pointer(d, 0, &got.to), CTFD_NO_TYPE);
    REFUSED(ctfd_resolve(d, 0, &got.to), CTFD_NO_TYPE);
    REFUSED(ctfd_name(d, 0, TEXT, &got.len), CTFD_NO_TYPE);
}

/* Makes all calls with a handle that has nothing open. */
static void refuse_all(struct ctfd *d)
{
    struct ctfd other = CTFD_NONE;
    uint64_t place = 0;
    refuse_type(d, 1, CTFD_NO_SLOT);
    REFUSED(ctfd_pointer(d, 1, &got.to), CTFD_NO_SLOT);
    REFUSED(ctfd_import(d, &other, &place), CTFD_NO_SLOT);
    REFUSED(ctfd_count(d, &got.wide), CTFD_NO_SLOT);
    REFUSED(ctfd_types(d, 0, got.types, 2, &got.wide), CTFD_NO_SLOT);
    REFUSED(ctfd_child(d, &got.number), CTFD_NO_SLOT);
    REFUSED(ctfd_parent_count(d, &got.wide), CTFD_NO_SLOT);
    REFUSED(ctfd_model(d, &got.number), CTFD_NO_SLOT);
    REFUSED(ctfd_parent_name(d, TEXT, &got.len), CTFD_NO_SLOT);
    REFUSED(ctfd_parent_label(d, TEXT, &got.len), CTFD_NO_SLOT);
    REFUSED(ctfd_label_count(d, &got.wide), CTFD_NO_SLOT);
    REFUSED(ctfd_label(d, 0, TEXT, &got.label), CTFD_NO_SLOT);
    REFUSED(ctfd_labels(d, 0, got.labels, 2, &got.wide), CTFD_NO_SLOT);
    REFUSED(ctfd_label_last(d, "lua", 3, &got.number), CTFD_NO_SLOT);
    REFUSED(ctfd_find(d, "int", 3, &got.to), CTFD_NO_SLOT);
    REFUSED(ctfd_symbol(d, "main", 4, &got.number), CTFD_NO_SLOT);
    REFUSED(ctfd_symbol_name(d, 0, TEXT, &got.len), CTFD_NO_SLOT);
    REFUSED(ctfd_object(d, 0, &got.to), CTFD_NO_SLOT);
    REFUSED(ctfd_function(d, 0, &got.function), CTFD_NO_SLOT);
    REFUSED(ctfd_function_argument(d, 0, 0, &got.to), CTFD_NO_SLOT);
    REFUSED(ctfd_function_arguments(d, 0, 0, got.arguments, 2, &got.wide), CTFD_NO_SLOT);
    REFUSED(ctfd_symbols(d, 0, got.symbols, 2, &got.wide), CTFD_NO_SLOT);
    REFUSED(ctfd_update(d, &got.wide, &place), CTFD_NO_SLOT);
    REFUSED(ctfd_discard(d, &got.wide), CTFD_NO_SLOT);
    REFUSED(ctfd_bytes(d, 0, TEXT, &got.wide), CTFD_NO_SLOT);
    REFUSED(ctfd_add_struct(d, "s", 1, true, 0, &got.to), CTFD_NO_SLOT);
    CHECK(!d->full);
    ctfd_close(d);
    CHECK(!d->full);
}

/* Questions about types of the wrong kind, and indexes past the ends of lists. */
static void refuse_kinds(struct ctfd *d)
{
    uint16_t s, i, e, f;
    uint64_t count = 0;
    CHECK(ctfd_find(d, "struct lua_State", 16, &s) == CTFD_OK);
    CHECK(ctfd_find(d, "int", 3, &i) == CTFD_OK);
    CHECK(ctfd_find(d, "enum OpMode", 11, &e) == CTFD_OK);
    CHECK(ctfd_find(d, "lua_CFunction", 13, &f) == CTFD_OK);
    REFUSED(ctfd_reference(d, s, &got.to), CTFD_NOT_REFERENCE);
    REFUSED(ctfd_encoding(d, s, &got.encoding), CTFD_WRONG_KIND);
    REFUSED(ctfd_array(d, s, &got.array), CTFD_WRONG_KIND);
    REFUSED(ctfd_tag(d, s, &got.number), CTFD_WRONG_KIND);
    REFUSED(ctfd_enumerator(d, s, 0, TEXT, &got.value, &got.len), CTFD_WRONG_KIND);
    REFUSED(ctfd_members(d, i, 0, got.members, 2, &got.wide), CTFD_WRONG_KIND);
    REFUSED(ctfd_members(d, e, 0, got.members, 2, &got.wide), CTFD_WRONG_KIND);
    REFUSED(ctfd_enumerators(d, i, 0, got.enumerators, 2, &got.wide), CTFD_WRONG_KIND);
    REFUSED(ctfd_enumerators(d, s, 0, got.enumerators, 2, &got.wide), CTFD_WRONG_KIND);
    REFUSED(ctfd_enum_name(d, s, 0, TEXT, &got.len), CTFD_WRONG_KIND);
    REFUSED(ctfd_enum_name(d, i, 0, TEXT, &got.len), CTFD_WRONG_KIND);
    REFUSED(ctfd_enum_value(d, s, "x", 1, &got.value), CTFD_WRONG_KIND);
    REFUSED(ctfd_enum_value(d, i, "x", 1, &got.value), CTFD_WRONG_KIND);
    REFUSED(ctfd_member(d, i, 0, TEXT, &got.member), CTFD_WRONG_KIND);
    REFUSED(ctfd_member(d, e, 0, TEXT, &got.member), CTFD_WRONG_KIND);
    REFUSED(ctfd_argument(d, i, 0, &got.to), CTFD_WRONG_KIND);
    REFUSED(ctfd_arguments(d, i, 0, got.arguments, 2, &got.wide), CTFD_WRONG_KIND);
    REFUSED(ctfd_signature(d, i, &got.function), CTFD_WRONG_KIND);
    REFUSED(ctfd_signature(d, f, &got.function), CTFD_WRONG_KIND);
    REFUSED(ctfd_return(d, f, &got.to), CTFD_WRONG_KIND);
    REFUSED(ctfd_field(d, i, "x", 1, &got.wide, &got.to), CTFD_NOT_AGGREGATE);
    REFUSED(ctfd_field(d, s, "x", 1, &got.wide, &got.to), CTFD_NO_MEMBER);
    CHECK(ctfd_length(d, s, &count) == CTFD_OK && count == 24);
    REFUSED(ctfd_member(d, s, 24, TEXT, &got.member), CTFD_NO_MEMBER);
    REFUSED(ctfd_member(d, s, SIZE_MAX, TEXT, &got.member), CTFD_NO_MEMBER);
    CHECK(ctfd_length(d, e, &count) == CTFD_OK);
    REFUSED(ctfd_enumerator(d, e, count, TEXT, &got.value, &got.len), CTFD_NO_MEMBER);
    REFUSED(ctfd_enumerator(d, e, SIZE_MAX, TEXT, &got.value, &got.len), CTFD_NO_MEMBER);
    REFUSED(ctfd_enum_name(d, e, INT32_MIN, TEXT, &got.len), CTFD_NO_MEMBER);
    REFUSED(ctfd_enum_value(d, e, "", 0, &got.value), CTFD_NO_MEMBER);
    REFUSED(ctfd_enum_value(d, e, "OP_MOVE\0", 8, &got.value), CTFD_NO_MEMBER);
}

static void refuse_names(struct ctfd *d)
{
    uint64_t place = 0;
    REFUSED(ctfd_find(d, "", 0, &got.to), CTFD_BAD_SYNTAX);
    REFUSED(ctfd_find(d, " int", 4, &got.to), CTFD_BAD_SYNTAX);
    REFUSED(ctfd_find(d, "int\0", 4, &got.to), CTFD_NOT_FOUND);
    REFUSED(ctfd_find(d, "struct int", 10, &got.to), CTFD_NOT_FOUND);
    REFUSED(ctfd_symbol(d, "no such name", 12, &got.number), CTFD_NO_SYMBOL);
    REFUSED(ctfd_symbol_name(d, UINT32_MAX, TEXT, &got.len), CTFD_NO_SYMBOL);
    REFUSED(ctfd_object(d, UINT32_MAX, &got.to), CTFD_NO_SYMBOL);
    REFUSED(ctfd_object(d, 4, &got.to), CTFD_NOT_DATA);
    REFUSED(ctfd_function(d, 19, &got.function), CTFD_NOT_FUNCTION);
    REFUSED(ctfd_function_argument(d, 4, 2, &got.to), CTFD_NO_MEMBER);
    REFUSED(ctfd_label_last(d, "none", 4, &got.number), CTFD_NO_LABEL);
    REFUSED(ctfd_label(d, 1, TEXT, &got.label), CTFD_NO_LABEL);
    REFUSED(ctfd_label(d, SIZE_MAX, TEXT, &got.label), CTFD_NO_LABEL);
    REFUSED(ctfd_parent_count(d, &got.wide), CTFD_NO_PARENT);
    REFUSED(ctfd_update(d, &got.wide, &place), CTFD_READ_ONLY);
    REFUSED(ctfd_discard(d, &got.wide), CTFD_READ_ONLY);
    REFUSED(ctfd_add_struct(d, "s", 1, true, 0, &got.to), CTFD_READ_ONLY);
    REFUSED(ctfd_add_label(d, "l", 1, 0), CTFD_READ_ONLY);
}

/* Text is truncated to the buffer; the full length is returned. */
static void cut_texts(struct ctfd *d)
{
    static const char wanted[] = "struct lua_State";
    uint16_t t = 0;
    size_t room_len;
    CHECK(ctfd_find(d, wanted, 16, &t) == CTFD_OK);
    for (room_len = 0; room_len <= 20; room_len++) {
        size_t put = room_len < 16 ? room_len : 16;
        CHECK(ctfd_name(d, t, got.text, room_len, &got.len) == CTFD_OK);
        CHECK(got.len == 16 && memcmp(got.text, wanted, put) == 0);
        CHECK(memcmp(got.text + put, filled.text, sizeof got.text - put) == 0);
        fill();
        put = room_len < 4 ? room_len : 4;
        CHECK(ctfd_member(d, t, 0, got.text, room_len, &got.member) == CTFD_OK);
        CHECK(got.member.name_len == 4 && memcmp(got.text, "next", put) == 0);
        CHECK(memcmp(got.text + put, filled.text, sizeof got.text - put) == 0);
        fill();
    }
}

/* A refused open returns the reason and the place, and leaves the open dictionary unchanged. */
static void refuse_opens(struct ctfd *d, const struct bytes *ctf)
{
    struct bytes bad = { (uint8_t *)malloc(ctf->len), ctf->len };
    uint64_t place = 77, count = 0;
    if (bad.at == NULL)
        exit(2);
    CHECK(ctfd_open(d, "", 0, "", 0, "", 0, false, false, false, &place) == CTFD_TOO_SHORT);
    CHECK(place == 0);
    memcpy(bad.at, ctf->at, ctf->len);
    bad.at[0] = 0;
    CHECK(open_alone(d, &bad, false, &place) == CTFD_BAD_MAGIC);
    bad.at[0] = ctf->at[0];
    bad.at[2] = 3;
    CHECK(open_alone(d, &bad, false, &place) == CTFD_BAD_VERSION);
    bad.at[2] = ctf->at[2];
    bad.at[3] = 1;
    CHECK(open_alone(d, &bad, false, &place) == CTFD_COMPRESSED);
    bad.at[3] = ctf->at[3];
    bad.len = 35;
    CHECK(open_alone(d, &bad, false, &place) == CTFD_SHORT_HEADER);
    bad.len = ctf->len - 1;
    CHECK(open_alone(d, &bad, false, &place) == CTFD_PAST_END);
    bad.len = ctf->len;
    CHECK(ctfd_open(d, bad.at, bad.len, "abc", 3, "", 0, true, false, false, &place) ==
        CTFD_BAD_SYMTAB);
    CHECK(ctfd_count(d, &count) == CTFD_OK && count == 526);
    CHECK(d->full);
    free(bad.at);
}

/* Imports that are refused; the parent that was imported before stays. */
static void refuse_imports(struct ctfd *lua)
{
    struct ctfd base = CTFD_NONE, child = CTFD_NONE, wide = CTFD_NONE, none = CTFD_NONE;
    uint64_t place = 0, count = 0;
    uint16_t i = 0, p = 0;
    struct bytes made = { (uint8_t *)malloc(4096), 0 };
    if (made.at == NULL)
        exit(2);
    REFUSED(ctfd_import(lua, &base, &place), CTFD_NO_SLOT);
    CHECK(ctfd_create(&base, false, &place) == CTFD_OK);
    CHECK(ctfd_import(lua, &base, &place) == CTFD_NOT_CHILD);
    CHECK(ctfd_add_integer(&base, "int", 3, true, 1, 0, 32, 4, &i) == CTFD_OK && i == 1);
    CHECK(ctfd_update(&base, &count, &place) == CTFD_OK && count == 1);
    CHECK(ctfd_create_child(&child, &base, "base", 4, "", 0, &place) == CTFD_OK);
    CHECK(ctfd_add_pointer(&child, "", 0, true, 1, &p) == CTFD_OK && p == 32769);
    CHECK(ctfd_update(&child, &count, &place) == CTFD_OK && count == 1);
    CHECK(ctfd_import(&child, lua, &place) == CTFD_FIXED_PARENT);
    CHECK(ctfd_bytes(&child, 0, made.at, 4096, &count) == CTFD_OK && count < 4096);
    made.len = (size_t)count;
    ctfd_close(&child);
    CHECK(open_alone(&child, &made, false, &place) == CTFD_OK);
    refuse_type(&child, 1, CTFD_NO_PARENT);
    REFUSED(ctfd_import(&child, &none, &place), CTFD_NO_SLOT);
    /* Without its parent, a child does not return even its own pointer to a type of the parent. */
    REFUSED(ctfd_pointer(&child, 1, &p), CTFD_NO_PARENT);
    CHECK(ctfd_create(&wide, true, &place) == CTFD_OK);
    CHECK(ctfd_import(&child, &wide, &place) == CTFD_MODEL_DIFFERS);
    CHECK(ctfd_create(&none, false, &place) == CTFD_OK);
    CHECK(ctfd_import(&child, &none, &place) == CTFD_PARENT_SHORT && place == 1);
    CHECK(ctfd_import(&child, &base, &place) == CTFD_OK);
    CHECK(ctfd_import(&child, &none, &place) == CTFD_PARENT_SHORT && place == 1);
    ctfd_close(&base);
    CHECK(ctfd_parent_count(&child, &count) == CTFD_OK && count == 1);
    CHECK(ctfd_size(&child, 1, &count) == CTFD_OK && count == 4);
    CHECK(ctfd_reference(&child, 32769, &i) == CTFD_OK && i == 1);
    CHECK(open_alone(&base, &made, false, &place) == CTFD_OK);
    CHECK(ctfd_import(&child, &base, &place) == CTFD_PARENT_IS_CHILD);
    CHECK(ctfd_parent_count(&child, &count) == CTFD_OK && count == 1);
    ctfd_close(&base);
    ctfd_close(&child);
    ctfd_close(&wide);
    ctfd_close(&none);
    free_bytes(&made);
}

/* Lent lists are read at their own address: they are checked like others, and a child keeps those
 * of its parent open. */
static void lend(const struct bytes *ctf)
{
    struct ctfd types = CTFD_NONE, child = CTFD_NONE;
    struct bytes lent = { (uint8_t *)malloc(ctf->len), ctf->len };
    uint64_t place = 77, count = 0;
    uint16_t t = 0;
    if (lent.at == NULL)
        exit(2);
    memcpy(lent.at, ctf->at, ctf->len);
    CHECK(
        ctfd_open_lent(&types, "", 0, "", 0, "", 0, false, false, false, &place) == CTFD_TOO_SHORT);
    CHECK(place == 0 && !types.full);
    CHECK(ctfd_open_lent(&types, lent.at, lent.len, "", 0, "", 0, false, false, true, &place) ==
        CTFD_OK);
    CHECK(ctfd_open_lent(&types, lent.at, lent.len - 1, "", 0, "", 0, false, false, false,
              &place) == CTFD_PAST_END);
    CHECK(ctfd_open_lent(&types, lent.at, 35, "", 0, "", 0, false, false, false, &place) ==
        CTFD_SHORT_HEADER);
    CHECK(ctfd_open_lent(&types, lent.at, lent.len, "abc", 3, "", 0, true, false, false, &place) ==
        CTFD_BAD_SYMTAB);
    CHECK(ctfd_count(&types, &count) == CTFD_OK && count == 526);
    CHECK(ctfd_create_child(&child, &types, "lua", 3, "", 0, &place) == CTFD_OK);
    ctfd_close(&types);
    CHECK(ctfd_find(&child, "struct lua_State", 16, &t) == CTFD_OK);
    CHECK(ctfd_length(&child, t, &count) == CTFD_OK && count == 24);
    ctfd_close(&child);
    free(lent.at);
}

/* Updates a draft of one type with a name of `letters` letters; the result must be `status`. */
static void write_long_name(size_t letters, enum ctfd_status status)
{
    struct ctfd draft = CTFD_NONE;
    char *name = (char *)malloc(letters);
    uint64_t count = 0, place = 0;
    uint16_t t = 0;
    if (name == NULL)
        exit(2);
    memset(name, 'a', letters);
    CHECK(ctfd_create(&draft, false, &place) == CTFD_OK);
    CHECK(ctfd_add_unknown(&draft, name, letters, true, &t) == CTFD_OK && t == 1);
    CHECK(ctfd_update(&draft, &count, &place) == status);
    CHECK(ctfd_count(&draft, &count) == CTFD_OK && count == (status == CTFD_OK ? 1 : 0));
    ctfd_close(&draft);
    free(name);
}

/* A header, a record, and a name between two zero bytes: 67,108,864 bytes in all, and one more. */
static void write_the_longest(void)
{
    write_long_name(67108818, CTFD_OK);
    write_long_name(67108819, CTFD_DICT_TOO_BIG);
}

int main(int argc, char **argv)
{
    struct ctfd types = CTFD_NONE;
    struct bytes ctf, sym, strs;
    uint64_t place = 0;
    if (argc != 2)
        return 2;
    fill();
    refuse_all(&types);
    ctf = read_in(argv[1], "lua.ctf");
    sym = read_in(argv[1], "lua.sym");
    strs = read_in(argv[1], "lua.str");
    CHECK(ctfd_open(&types, ctf.at, ctf.len, sym.at, sym.len, strs.at, strs.len, true, true, false,
              &place) == CTFD_OK);
    ask_of_none(&types);
    refuse_type(&types, 527, CTFD_NO_TYPE);
    REFUSED(ctfd_pointer(&types, 527, &got.to), CTFD_NO_TYPE);
    refuse_type(&types, 32769, CTFD_NO_TYPE);
    refuse_type(&types, 65535, CTFD_NO_TYPE);
    refuse_kinds(&types);
    refuse_names(&types);
    cut_texts(&types);
    refuse_opens(&types, &ctf);
    refuse_imports(&types);
    lend(&ctf);
    write_the_longest();
    ctfd_close(&types);
    refuse_all(&types);
    free_bytes(&ctf);
    free_bytes(&sym);
    free_bytes(&strs);
    return counted("refusals");
}
