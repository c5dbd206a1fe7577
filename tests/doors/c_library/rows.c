/* Compares rows of types, arguments, symbols and labels with the answers of single calls.
 *
 * usage: rows CTF SYM STR [PARENT]
 *
 * If SYM and STR are empty files, the dictionary has no such lists. With PARENT it is a child,
 * which is tested without its parent and with it. Each list is read in windows of three rows, each
 * of which begins two rows after the start of the one before, and past its end; unused rows must
 * stay unchanged.
 */
#include "common.h"

#define WINDOW 3

static struct ctfd types = CTFD_NONE, parent = CTFD_NONE;

/* The lists that rows refer to for names. */
static struct bytes section, strings;

/* A buffer for the longest text. */
static char room[1 << 17];

/* Whether a row's list has this name at `at`, followed by a zero byte. */
static bool stands(uint32_t list, uint64_t at, const char *name, uint64_t len)
{
    const struct bytes *bytes = list == CTFD_IN_SECTION ? &section : &strings;
    if (list == CTFD_NOWHERE)
        return len == 0 && at == 0;
    return at < bytes->len && len < bytes->len - at && memcmp(bytes->at + at, name, len) == 0 &&
        bytes->at[at + len] == 0;
}

/* Whether `len` bytes were not written. */
static bool is_left(const void *at, size_t len)
{
    const unsigned char *bytes = (const unsigned char *)at;
    size_t i;
    for (i = 0; i < len; i++) {
        if (bytes[i] != 0x5a)
            return false;
    }
    return true;
}

/* The number of rows in the window at `from` that are filled, if there are `all` items. */
static size_t told(uint64_t all, uint64_t from)
{
    return from >= all ? 0 : all - from < WINDOW ? (size_t)(all - from) : WINDOW;
}

static bool is_type(const struct ctfd_type_row *row)
{
    uint64_t size = 0, align = 0, length = 0, len = 0;
    uint32_t kind = 0, root = 0;
    uint16_t resolved = 0, reference = 0, t = row->type;
    return ctfd_kind(&types, t, &kind) == CTFD_OK && row->kind == kind &&
        ctfd_root(&types, t, &root) == CTFD_OK && row->root == root &&
        ctfd_length(&types, t, &length) == CTFD_OK && row->length == length &&
        row->size_status == ctfd_size(&types, t, &size) && row->size == size &&
        row->align_status == ctfd_align(&types, t, &align) && row->align == align &&
        row->resolved_status == ctfd_resolve(&types, t, &resolved) && row->resolved == resolved &&
        row->reference_status == ctfd_reference(&types, t, &reference) &&
        row->reference == reference &&
        ctfd_declared_name(&types, t, room, sizeof room, &len) == CTFD_OK &&
        stands(row->name_list, row->name_at, room, len);
}

static void compare_types(void)
{
    struct ctfd_type_row rows[WINDOW];
    uint64_t all = 0, from;
    uint32_t child = 0;
    CHECK(ctfd_count(&types, &all) == CTFD_OK && ctfd_child(&types, &child) == CTFD_OK);
    for (from = 0; from < all + 3; from += 2) {
        size_t i, here = told(all, from);
        uint64_t count = 0;
        memset(rows, 0x5a, sizeof rows);
        CHECK(ctfd_types(&types, from, rows, WINDOW, &count) == CTFD_OK && count == all);
        for (i = 0; i < here; i++)
            CHECK(rows[i].type == from + i + (child != 0 ? 32769 : 1) && is_type(&rows[i]));
        CHECK(is_left(rows + here, (WINDOW - here) * sizeof rows[0]));
    }
}

/* Compares the arguments of a type, or checks that rows and single call are refused alike. */
static void compare_arguments(uint16_t t)
{
    uint16_t rows[WINDOW], one = 0;
    uint64_t all = 0, count = 77, from;
    enum ctfd_status status = ctfd_argument(&types, t, 0, &one);
    if (status != CTFD_OK && status != CTFD_NO_MEMBER) {
        memset(rows, 0x5a, sizeof rows);
        CHECK(ctfd_arguments(&types, t, 0, rows, WINDOW, &count) == status && count == 77 &&
            is_left(rows, sizeof rows));
        return;
    }
    CHECK(ctfd_length(&types, t, &all) == CTFD_OK);
    for (from = 0; from < all + 3; from += 2) {
        size_t i, here = told(all, from);
        memset(rows, 0x5a, sizeof rows);
        CHECK(ctfd_arguments(&types, t, from, rows, WINDOW, &count) == CTFD_OK && count == all);
        for (i = 0; i < here; i++)
            CHECK(ctfd_argument(&types, t, from + i, &one) == CTFD_OK && rows[i] == one);
        CHECK(is_left(rows + here, (WINDOW - here) * sizeof rows[0]));
    }
}

/* Compares a function type's signature with single calls, or checks that it is refused alike. */
static void compare_signature(uint16_t t)
{
    struct ctfd_function function = { 77, 77, 77 };
    uint64_t all = 0;
    uint16_t returned = 0, last = 1;
    enum ctfd_status status = ctfd_return(&types, t, &returned);
    if (status != CTFD_OK) {
        CHECK(ctfd_signature(&types, t, &function) == status && function.arguments == 77 &&
            function.varargs == 77 && function.ret == 77);
        return;
    }
    CHECK(ctfd_length(&types, t, &all) == CTFD_OK);
    CHECK(all == 0 || ctfd_argument(&types, t, (size_t)all - 1, &last) == CTFD_OK);
    CHECK(ctfd_signature(&types, t, &function) == CTFD_OK && function.ret == returned);
    CHECK(function.varargs == (last == 0) && function.arguments == all - (last == 0));
}

/* Compares the arguments of a program's function, in the same way. */
static void compare_function(uint32_t number)
{
    struct ctfd_function function;
    uint16_t rows[WINDOW], one = 0;
    uint64_t count = 77, from;
    enum ctfd_status status = ctfd_function(&types, number, &function);
    if (status != CTFD_OK) {
        memset(rows, 0x5a, sizeof rows);
        CHECK(ctfd_function_arguments(&types, number, 0, rows, WINDOW, &count) == status &&
            count == 77 && is_left(rows, sizeof rows));
        return;
    }
    for (from = 0; from < function.arguments + 3; from += 2) {
        size_t i, here = told(function.arguments, from);
        memset(rows, 0x5a, sizeof rows);
        CHECK(ctfd_function_arguments(&types, number, from, rows, WINDOW, &count) == CTFD_OK &&
            count == function.arguments);
        for (i = 0; i < here; i++) {
            CHECK(ctfd_function_argument(&types, number, from + i, &one) == CTFD_OK &&
                rows[i] == one);
        }
        CHECK(is_left(rows + here, (WINDOW - here) * sizeof rows[0]));
    }
}

static bool is_symbol(const struct ctfd_symbol_row *row, const struct bytes *sym)
{
    struct ctfd_function function = { 0, 0, 0 };
    uint64_t len = 0;
    uint16_t type = 0;
    unsigned stands_for = sym->at[24 * (uint64_t)row->number + 4] % 16;
    enum ctfd_status status;
    if (stands_for == CTFD_FUNCTION_SYMBOL) {
        status = ctfd_function(&types, row->number, &function);
        type = function.ret;
    } else {
        status = ctfd_object(&types, row->number, &type);
    }
    return row->symbol_class == (stands_for < 3 ? stands_for : (unsigned)CTFD_OTHER_SYMBOL) &&
        row->type_status == status && row->type == type &&
        ctfd_symbol_name(&types, row->number, room, sizeof room, &len) == CTFD_OK &&
        stands(row->name_list, row->name_at, room, len);
}

static void compare_symbols(const struct bytes *sym)
{
    struct ctfd_symbol_row rows[WINDOW];
    uint64_t all = sym->len / 24, from;
    for (from = 0; from < all + 3; from += 2) {
        size_t i, here = told(all, from);
        uint64_t count = 77;
        memset(rows, 0x5a, sizeof rows);
        CHECK(ctfd_symbols(&types, from, rows, WINDOW, &count) == CTFD_OK && count == all);
        for (i = 0; i < here; i++)
            CHECK(rows[i].number == from + i && is_symbol(&rows[i], sym));
        CHECK(is_left(rows + here, (WINDOW - here) * sizeof rows[0]));
    }
}

static void compare_labels(void)
{
    struct ctfd_label_row rows[WINDOW];
    struct ctfd_label label;
    uint64_t all = 0, from;
    CHECK(ctfd_label_count(&types, &all) == CTFD_OK);
    for (from = 0; from < all + 3; from += 2) {
        size_t i, here = told(all, from);
        uint64_t count = 77;
        memset(rows, 0x5a, sizeof rows);
        CHECK(ctfd_labels(&types, from, rows, WINDOW, &count) == CTFD_OK && count == all);
        for (i = 0; i < here; i++) {
            CHECK(ctfd_label(&types, from + i, room, sizeof room, &label) == CTFD_OK &&
                rows[i].last == label.last &&
                stands(rows[i].name_list, rows[i].name_at, room, label.name_len));
        }
        CHECK(is_left(rows + here, (WINDOW - here) * sizeof rows[0]));
    }
}

static void compare_all(const struct bytes *sym)
{
    uint64_t number;
    compare_types();
    for (number = 0; number <= 65535; number++) {
        compare_arguments((uint16_t)number);
        compare_signature((uint16_t)number);
    }
    compare_symbols(sym);
    for (number = 0; number <= sym->len / 24; number++)
        compare_function((uint32_t)number);
    compare_labels();
}

int main(int argc, char **argv)
{
    struct bytes sym, above;
    uint64_t place = 0;
    if (argc != 4 && argc != 5)
        return 2;
    section = read_file(argv[1]);
    sym = read_file(argv[2]);
    strings = read_file(argv[3]);
    if (ctfd_open(&types, section.at, section.len, sym.at, sym.len, strings.at, strings.len,
            sym.len != 0, strings.len != 0, false, &place) != CTFD_OK)
        return 1;
    compare_all(&sym);
    if (argc == 5) {
        above = read_file(argv[4]);
        CHECK(ctfd_open(&parent, above.at, above.len, "", 0, "", 0, false, false, false, &place) ==
            CTFD_OK);
        CHECK(ctfd_import(&types, &parent, &place) == CTFD_OK);
        compare_all(&sym);
        free_bytes(&above);
    }
    ctfd_close(&types);
    ctfd_close(&parent);
    free_bytes(&section);
    free_bytes(&sym);
    free_bytes(&strings);
    return counted("rows");
}
