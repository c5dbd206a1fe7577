/* Asks one question repeatedly through the calls of ctfd.h, for bench/c_library.py.
 *
 * usage: c_library CTF QUESTION ROUNDS
 *
 * A round asks it about each type, member or name for which it makes sense; types, members,
 * enumerators and visits of structs are read in rows. Prints the number of calls or rows in a
 * round, the nanoseconds that all rounds took, and the size of the dictionary in bytes.
 */
#include "c_library.h"

#include "ctfd.h"

static struct ctfd types;
static struct numbers all, referring, arrays, functions, structs, enums, numeric;
static struct named_list names, members, enumerators;
static struct numbers values;

static void open_all(void)
{
    uint64_t place = 0;
    enum ctfd_status status = ctfd_open(
        &types, bytes, bytes_len, "", 0, "", 0, false, false, false, &place);
    if (status != CTFD_OK) {
        fprintf(stderr, "%s at %llu\n", ctfd_status_name(status), (unsigned long long)place);
        exit(1);
    }
}

static void collect_members(uint16_t t)
{
    struct ctfd_member member;
    char name[256];
    size_t i;
    add_number(&structs, t);
    for (i = 0; ctfd_member(&types, t, i, name, sizeof name, &member) == CTFD_OK; i++) {
        if (member.name_len != 0)
            add_named(&members, name, member.name_len, t);
    }
}

/* Collects each enumerator of an enum, with its value at the same index. */
static void collect_enumerators(uint16_t t)
{
    char name[256];
    uint64_t len = 0;
    int32_t value = 0;
    size_t i;
    add_number(&enums, t);
    for (i = 0; ctfd_enumerator(&types, t, i, name, sizeof name, &value, &len) == CTFD_OK; i++) {
        add_named(&enumerators, name, len, t);
        add_number(&values, value);
    }
}

static void collect_type(uint16_t t, uint32_t kind)
{
    uint64_t len = 0;
    char text[256];
    uint16_t found = 0;
    add_number(&all, t);
    if (kind == CTFD_POINTER || kind == CTFD_TYPEDEF || kind == CTFD_CONST || kind == CTFD_VOLATILE)
        add_number(&referring, t);
    if (kind == CTFD_ARRAY)
        add_number(&arrays, t);
    if (kind == CTFD_FUNCTION)
        add_number(&functions, t);
    if (kind == CTFD_INTEGER || kind == CTFD_FLOAT)
        add_number(&numeric, t);
    if (kind == CTFD_ENUM)
        collect_enumerators(t);
    if (kind == CTFD_STRUCT)
        collect_members(t);
    if ((kind == CTFD_STRUCT || kind == CTFD_TYPEDEF) &&
        ctfd_name(&types, t, text, sizeof text, &len) == CTFD_OK &&
        ctfd_find(&types, text, len, &found) == CTFD_OK)
        add_named(&names, text, len, t);
}

static void collect(void)
{
    uint64_t count = 0, t;
    ctfd_count(&types, &count);
    for (t = 1; t <= count; t++) {
        uint32_t kind = 0;
        ctfd_kind(&types, (uint16_t)t, &kind);
        collect_type((uint16_t)t, kind);
    }
}

/* The number of rows that a call fills. */
#define ROWS 64

/* The first byte of a name in the section; 0 for names in other lists. */
static unsigned char begins(uint32_t list, uint64_t at)
{
    return list == CTFD_IN_SECTION ? (unsigned char)bytes[at] : 0;
}

static size_t ask_members(void)
{
    static struct ctfd_member_row rows[ROWS];
    size_t i, at, from, calls = 0;
    for (i = 0; i < structs.len; i++) {
        uint64_t count = 1;
        for (from = 0; from < count; from += ROWS) {
            ctfd_members(&types, (uint16_t)structs.at[i], from, rows, ROWS, &count);
            for (at = 0; at < ROWS && from + at < count; at++)
                sum += rows[at].offset + rows[at].type +
                    begins(rows[at].name_list, rows[at].name_at);
        }
        calls += count;
    }
    return calls;
}

static size_t ask_enumerators(void)
{
    static struct ctfd_enumerator_row rows[ROWS];
    size_t i, at, from, calls = 0;
    for (i = 0; i < enums.len; i++) {
        uint64_t count = 1;
        for (from = 0; from < count; from += ROWS) {
            ctfd_enumerators(&types, (uint16_t)enums.at[i], from, rows, ROWS, &count);
            for (at = 0; at < ROWS && from + at < count; at++)
                sum += (uint64_t)rows[at].value + begins(rows[at].name_list, rows[at].name_at);
        }
        calls += count;
    }
    return calls;
}

static size_t ask_types(void)
{
    static struct ctfd_type_row rows[ROWS];
    uint64_t from, count = 1;
    for (from = 0; from < count; from += ROWS) {
        ctfd_types(&types, from, rows, ROWS, &count);
        sum += rows[0].size;
    }
    return (size_t)count;
}

/* Visits each struct with everything nested in it, in one call if the buffer is large enough. */
static size_t ask_visit(void)
{
    static struct ctfd_visit_row *rows;
    static size_t room = ROWS;
    size_t i, at, calls = 0;
    for (i = 0; i < structs.len; i++) {
        uint64_t count = 0;
        while (rows == NULL ||
            (ctfd_visit(&types, (uint16_t)structs.at[i], rows, room, &count) == CTFD_OK &&
                count > room)) {
            room *= 2;
            rows = realloc(rows, room * sizeof *rows);
            if (rows == NULL)
                exit(2);
        }
        for (at = 0; at < count; at++)
            sum += rows[at].offset + rows[at].type + rows[at].depth +
                begins(rows[at].name_list, rows[at].name_at);
        calls += count;
    }
    return calls;
}

/* Asks for the return type and the number of arguments of each function. */
static size_t ask_signatures(void)
{
    size_t i;
    for (i = 0; i < functions.len; i++) {
        uint16_t to = 0;
        uint64_t count = 0;
        ctfd_return(&types, (uint16_t)functions.at[i], &to);
        ctfd_length(&types, (uint16_t)functions.at[i], &count);
        sum += to + count;
    }
    return functions.len;
}

static size_t ask_figures(const char *question)
{
    struct ctfd_encoding encoding;
    struct ctfd_array array;
    size_t i;
    if (strcmp(question, "encoding") == 0) {
        for (i = 0; i < numeric.len; i++)
            if (ctfd_encoding(&types, (uint16_t)numeric.at[i], &encoding) == CTFD_OK)
                sum += encoding.bits;
        return numeric.len;
    }
    for (i = 0; i < arrays.len; i++)
        if (ctfd_array(&types, (uint16_t)arrays.at[i], &array) == CTFD_OK)
            sum += array.count;
    return arrays.len;
}

static size_t ask_named(const char *question)
{
    uint64_t offset = 0;
    uint16_t to = 0;
    size_t i;
    if (strcmp(question, "find") == 0) {
        for (i = 0; i < names.len; i++) {
            ctfd_find(&types, names.at[i].text, names.at[i].len, &to);
            sum += to;
        }
        return names.len;
    }
    for (i = 0; i < members.len; i++) {
        if (ctfd_field(&types, (uint16_t)members.at[i].of, members.at[i].text, members.at[i].len,
                &offset, &to) == CTFD_OK)
            sum += offset;
    }
    return members.len;
}

/* Looks up each enumerator by its value ("value"), or by its name. */
static size_t ask_firsts(const char *question)
{
    char text[256];
    uint64_t len = 0;
    int32_t value = 0;
    size_t i;
    for (i = 0; i < enumerators.len; i++) {
        const struct named *one = &enumerators.at[i];
        if (strcmp(question, "value") == 0)
            sum += ctfd_enum_name(&types, (uint16_t)one->of, (int32_t)values.at[i], text,
                       sizeof text, &len) == CTFD_OK;
        else if (ctfd_enum_value(&types, (uint16_t)one->of, one->text, one->len, &value) == CTFD_OK)
            sum += (uint64_t)value;
    }
    return enumerators.len;
}

static uint64_t ask_type(char question, uint16_t t)
{
    static char text[256];
    uint64_t wide = 0;
    uint32_t kind = 0;
    uint16_t to = 0;
    switch (question) {
    case 'k': ctfd_kind(&types, t, &kind); return kind;
    case 's': ctfd_size(&types, t, &wide); return wide;
    case 'a': ctfd_align(&types, t, &wide); return wide;
    case 'r': ctfd_resolve(&types, t, &to); return to;
    case 'p': ctfd_pointer(&types, t, &to); return to;
    default: ctfd_name(&types, t, text, sizeof text, &wide); return wide;
    }
}

/* Asks the question once about everything. Returns the number of calls; 0 if nothing suits it. */
static size_t round_of(const char *question)
{
    size_t i;
    if (strcmp(question, "open") == 0) {
        ctfd_close(&types);
        open_all();
        return 1;
    }
    if (strcmp(question, "member") == 0)
        return ask_members();
    if (strcmp(question, "enumerator") == 0)
        return ask_enumerators();
    if (strcmp(question, "signature") == 0)
        return ask_signatures();
    if (is_one_of(question, "encoding contents"))
        return ask_figures(question);
    if (is_one_of(question, "find field"))
        return ask_named(question);
    if (is_one_of(question, "value enumerated"))
        return ask_firsts(question);
    if (strcmp(question, "visit") == 0)
        return ask_visit();
    if (strcmp(question, "types") == 0)
        return ask_types();
    if (strcmp(question, "reference") == 0) {
        uint16_t to = 0;
        for (i = 0; i < referring.len; i++) {
            ctfd_reference(&types, (uint16_t)referring.at[i], &to);
            sum += to;
        }
        return referring.len;
    }
    for (i = 0; i < all.len; i++)
        sum += ask_type(*question, (uint16_t)all.at[i]);
    return all.len;
}

int main(int argc, char **argv)
{
    if (argc != 4)
        return 2;
    read_file(argv[1]);
    open_all();
    collect();
    measure(argv[2], strtol(argv[3], NULL, 10), round_of);
    return 0;
}
