/* Prints the answers of ctfd.h's calls about each type, for tests/doors/c_library/answers.py.
 *
 * usage: answers CTF SYM STR [lent]
 */
#include "common.h"

static struct ctfd types = CTFD_NONE;

/* The lists that rows refer to for names. */
static struct bytes section, strings;

/* A buffer for the longest text. */
static char room[1 << 17];
static char escaped[4 * sizeof room];

/* A name without quotes, escaped as in replies. */
static const char *shown(const char *text, uint64_t len)
{
    char *at = escaped;
    uint64_t i;
    for (i = 0; i < len; i++) {
        unsigned char byte = (unsigned char)text[i];
        if (byte < 0x20 || byte > 0x7e || byte == '"' || byte == '\\')
            at += sprintf(at, "\\x%02x", byte);
        else
            *at++ = (char)byte;
    }
    *at = '\0';
    return escaped;
}

static void tell(const char *what, unsigned t, enum ctfd_status status, uint64_t value)
{
    if (status == CTFD_OK)
        printf("%s %u: %llu\n", what, t, (unsigned long long)value);
    else
        printf("%s %u: %s\n", what, t, ctfd_status_name(status));
}

static void tell_text(const char *what, unsigned t, enum ctfd_status status, uint64_t len)
{
    printf("%s %u: %s\n", what, t, status == CTFD_OK ? shown(room, len) : ctfd_status_name(status));
}

static void numbers(uint16_t t)
{
    uint64_t wide = 0;
    uint32_t number = 0;
    uint16_t to = 0;
    enum ctfd_status status = ctfd_kind(&types, t, &number);
    printf("kind %u: %s\n", t, status == CTFD_OK ? kind_names[number] : ctfd_status_name(status));
    status = ctfd_length(&types, t, &wide);
    tell("length", t, status, wide);
    status = ctfd_root(&types, t, &number);
    tell("root", t, status, number);
    status = ctfd_size(&types, t, &wide);
    tell("size", t, status, wide);
    status = ctfd_align(&types, t, &wide);
    tell("align", t, status, wide);
    status = ctfd_resolve(&types, t, &to);
    tell("resolve", t, status, to);
    status = ctfd_reference(&types, t, &to);
    tell("reference", t, status, to);
    status = ctfd_pointer(&types, t, &to);
    tell("pointer", t, status, to);
    status = ctfd_return(&types, t, &to);
    tell("return", t, status, to);
    status = ctfd_tag(&types, t, &number);
    tell("tag", t, status, number);
}

static void figures(uint16_t t)
{
    struct ctfd_encoding encoding;
    struct ctfd_array array;
    enum ctfd_status status = ctfd_encoding(&types, t, &encoding);
    if (status == CTFD_OK)
        printf("encoding %u: %u %u %u\n", t, encoding.encoding, encoding.offset, encoding.bits);
    else
        printf("encoding %u: %s\n", t, ctfd_status_name(status));
    status = ctfd_array(&types, t, &array);
    if (status == CTFD_OK)
        printf("array %u: %u %u %u\n", t, array.contents, array.index, array.count);
    else
        printf("array %u: %s\n", t, ctfd_status_name(status));
}

/* Looks up a member's offset by its name, by a path of that one name, and by a path that continues
 * with a name that does not exist. */
static void places(uint16_t t, const char *name, uint64_t name_len)
{
    uint64_t offset = 0, place = 0;
    uint16_t to = 0;
    char *step = (char *)calloc(name_len + 3, 1);
    enum ctfd_status status = ctfd_field(&types, t, name, name_len, &offset, &to);
    if (step == NULL)
        exit(2);
    memcpy(step, name, name_len);
    printf("field %u %s: %s %llu %u\n", t, shown(name, name_len), ctfd_status_name(status),
        (unsigned long long)offset, to);
    offset = to = 0;
    status = ctfd_path(&types, t, step, name_len + 1, &offset, &to, &place);
    printf("path %u %s: %s %llu %u\n", t, shown(name, name_len), ctfd_status_name(status),
        (unsigned long long)offset, to);
    step[name_len + 1] = '?';
    status = ctfd_path(&types, t, step, name_len + 3, &offset, &to, &place);
    printf("further %u %s: %s %llu\n", t, shown(name, name_len), ctfd_status_name(status),
        (unsigned long long)place);
    free(step);
}

/* The first enumerator with the name in `room`, and the first one with the value. */
static void firsts(uint16_t t, uint64_t name_len, int32_t value)
{
    int32_t found = 0;
    uint64_t len = 0;
    enum ctfd_status status = ctfd_enum_value(&types, t, room, name_len, &found);
    printf("enum value %u %s: %s %d\n", t, shown(room, name_len), ctfd_status_name(status), found);
    status = ctfd_enum_name(&types, t, value, room, sizeof room, &len);
    printf("enum name %u %d: %s\n", t, value,
        status == CTFD_OK ? shown(room, len) : ctfd_status_name(status));
}

static void lists(uint16_t t)
{
    struct ctfd_member member;
    enum ctfd_status status;
    uint64_t len;
    int32_t value;
    uint16_t to;
    size_t i;
    for (i = 0; (status = ctfd_member(&types, t, i, room, sizeof room, &member)) == CTFD_OK; i++) {
        printf("member %u %zu: %s %llu %u\n", t, i, shown(room, member.name_len),
            (unsigned long long)member.offset, member.type);
        places(t, room, member.name_len);
    }
    printf("members %u: %zu %s\n", t, i, ctfd_status_name(status));
    for (i = 0;; i++) {
        status = ctfd_enumerator(&types, t, i, room, sizeof room, &value, &len);
        if (status != CTFD_OK)
            break;
        printf("enumerator %u %zu: %s %d\n", t, i, shown(room, len), value);
        firsts(t, len, value);
    }
    printf("enumerators %u: %zu %s\n", t, i, ctfd_status_name(status));
    for (i = 0; (status = ctfd_argument(&types, t, i, &to)) == CTFD_OK; i++)
        printf("argument %u %zu: %u\n", t, i, to);
    printf("arguments %u: %zu %s\n", t, i, ctfd_status_name(status));
}

/* Whether a row's list has this name at `at`, followed by a zero byte. */
static bool stands(uint32_t list, uint64_t at, const char *name, uint64_t len)
{
    const struct bytes *bytes = list == CTFD_IN_SECTION ? &section : &strings;
    if (list == CTFD_NOWHERE)
        return len == 0;
    return at < bytes->len && len < bytes->len - at && memcmp(bytes->at + at, name, len) == 0 &&
        bytes->at[at + len] == 0;
}

/* Prints each row that differs from the single call's answer, and each row written past the end. */
static void members_by_rows(uint16_t t)
{
    struct ctfd_member_row rows[3];
    struct ctfd_member one;
    uint64_t count = 1;
    size_t i, from;
    for (from = 0; from < count + 3; from += 2) {
        memset(rows, 0x5a, sizeof rows);
        if (ctfd_members(&types, t, from, rows, 3, &count) != CTFD_OK)
            return;
        for (i = 0; i < 3 && ctfd_member(&types, t, from + i, room, sizeof room, &one) == CTFD_OK;
             i++) {
            if (from + i >= count || rows[i].offset != one.offset || rows[i].type != one.type ||
                !stands(rows[i].name_list, rows[i].name_at, room, one.name_len))
                printf("member %u %zu: another row\n", t, from + i);
        }
        for (; i < 3; i++) {
            if (from + i < count || rows[i].offset != 0x5a5a5a5a5a5a5a5a)
                printf("member %u %zu: a row is written\n", t, from + i);
        }
    }
}

static void enumerators_by_rows(uint16_t t)
{
    struct ctfd_enumerator_row rows[3];
    uint64_t count = 1, len;
    int32_t value;
    size_t i, from;
    for (from = 0; from < count + 3; from += 2) {
        memset(rows, 0x5a, sizeof rows);
        if (ctfd_enumerators(&types, t, from, rows, 3, &count) != CTFD_OK)
            return;
        for (i = 0; i < 3 &&
             ctfd_enumerator(&types, t, from + i, room, sizeof room, &value, &len) == CTFD_OK;
             i++) {
            if (from + i >= count || rows[i].value != value ||
                !stands(rows[i].name_list, rows[i].name_at, room, len))
                printf("enumerator %u %zu: another row\n", t, from + i);
        }
        for (; i < 3; i++) {
            if (from + i < count || rows[i].name_at != 0x5a5a5a5a5a5a5a5a)
                printf("enumerator %u %zu: a row is written\n", t, from + i);
        }
    }
}

/* Compares the rows of a visit with single calls: each type, and then its members in turn. `next`
 * is the number of the next row to compare. */
static void visit_by_calls(
    const struct ctfd_visit_row *rows, size_t count, size_t *next, struct ctfd_visit_row at)
{
    struct ctfd_member one;
    uint32_t kind = CTFD_UNKNOWN;
    uint16_t holder = 0;
    size_t i;
    enum ctfd_status status = ctfd_resolve(&types, at.type, &holder);
    if (at.stands_for != (status == CTFD_OK ? holder : 0))
        printf("visit %u %zu: stands for another type\n", rows->type, *next - 1);
    if (status != CTFD_OK || ctfd_kind(&types, holder, &kind) != CTFD_OK ||
        (kind != CTFD_STRUCT && kind != CTFD_UNION))
        return;
    for (i = 0; *next < count && ctfd_member(&types, holder, i, room, sizeof room, &one) == CTFD_OK;
         i++) {
        const struct ctfd_visit_row *row = &rows[(*next)++];
        if (row->offset != at.offset + one.offset || row->type != one.type ||
            row->holder != holder || row->depth != at.depth + 1 ||
            !stands(row->name_list, row->name_at, room, one.name_len))
            printf("visit %u %zu: another row\n", rows->type, *next - 1);
        visit_by_calls(rows, count, next, *row);
    }
}

/* Checks the rows of a visit, in an array that is large enough, and in shorter ones. */
static void visit_by_rows(uint16_t t)
{
    static struct ctfd_visit_row rows[4096], fewer[4];
    uint64_t count = 0, all = 0, len;
    size_t next = 1;
    if (ctfd_visit(&types, t, rows, sizeof rows / sizeof rows[0], &all) != CTFD_OK || all == 0 ||
        all > sizeof rows / sizeof rows[0]) {
        if (ctfd_length(&types, t, &count) == CTFD_OK)
            printf("visit %u: not told\n", t);
        return;
    }
    visit_by_calls(rows, all, &next, rows[0]);
    if (next != all || rows[0].type != t || rows[0].offset != 0 || rows[0].depth != 0 ||
        rows[0].holder != t || rows[0].name_list != CTFD_NOWHERE || rows[0].name_at != 0)
        printf("visit %u: %llu rows\n", t, (unsigned long long)all);
    for (len = 0; len <= 4; len++) {
        memset(fewer, 0x5a, sizeof fewer);
        if (ctfd_visit(&types, t, fewer, len, &count) != CTFD_OK ||
            count != (all <= len ? all : len + 1) ||
            memcmp(fewer, rows, sizeof rows[0] * (all < len ? all : len)) != 0)
            printf("visit %u: another %llu rows\n", t, (unsigned long long)len);
        if (all < 4 && len == 4 && fewer[all].offset != 0x5a5a5a5a5a5a5a5a)
            printf("visit %u: a row is written\n", t);
    }
}

static void texts(uint16_t t)
{
    uint8_t memory[64];
    uint64_t len = 0;
    uint16_t found = 0;
    size_t i;
    enum ctfd_status status = ctfd_declared_name(&types, t, room, sizeof room, &len);
    tell_text("declared", t, status, len);
    status = ctfd_name(&types, t, room, sizeof room, &len);
    tell_text("name", t, status, len);
    if (status == CTFD_OK) {
        status = ctfd_find(&types, room, len, &found);
        tell("find", t, status, found);
    }
    for (i = 0; i < sizeof memory; i++)
        memory[i] = (uint8_t)(37 * i + t);
    status = ctfd_show(&types, t, memory, sizeof memory, t % 16, room, sizeof room, &len);
    tell_text("show", t, status, len);
}

/* Finds the symbol with the name in `room`. */
static void symbol_of(uint64_t len)
{
    uint32_t number = 0;
    enum ctfd_status status = ctfd_symbol(&types, room, len, &number);
    printf("symbol %s: %s\n", shown(room, len), status == CTFD_OK ? "" : ctfd_status_name(status));
    if (status == CTFD_OK)
        printf("symbol number %s: %u\n", escaped, number);
}

static void symbols(uint32_t count)
{
    uint32_t i;
    for (i = 0; i <= count; i++) {
        struct ctfd_function function = { 0, 0, 0 };
        uint64_t len = 0;
        uint16_t t = 0;
        enum ctfd_status status = ctfd_symbol_name(&types, i, room, sizeof room, &len);
        if (status == CTFD_OK)
            symbol_of(len);
        status = ctfd_object(&types, i, &t);
        tell("object", i, status, t);
        status = ctfd_function(&types, i, &function);
        printf("function %u: %s %u %llu %u\n", i, ctfd_status_name(status), function.ret,
            (unsigned long long)function.arguments, function.varargs);
        for (len = 0; len < function.arguments; len++) {
            t = 0;
            status = ctfd_function_argument(&types, i, len, &t);
            printf("function argument %u %llu: %s %u\n", i, (unsigned long long)len,
                ctfd_status_name(status), t);
        }
    }
}

int main(int argc, char **argv)
{
    static const uint16_t others[] = { 32767, 32768, 32769, 65535 };
    struct bytes ctf, sym, strs;
    uint64_t place = 0, count = 0, t;
    if (argc != 4 && argc != 5)
        return 2;
    ctf = read_file(argv[1]);
    sym = read_file(argv[2]);
    strs = read_file(argv[3]);
    section = ctf;
    strings = strs;
    /* With a fourth argument, the lists are lent. */
    if ((argc == 5 ? ctfd_open_lent : ctfd_open)(&types, ctf.at, ctf.len, sym.at, sym.len, strs.at,
            strs.len, true, true, false, &place) != CTFD_OK)
        return 1;
    ctfd_count(&types, &count);
    for (t = 0; t <= count + 1 + sizeof others / sizeof others[0]; t++) {
        uint16_t type = t <= count + 1 ? (uint16_t)t : others[t - count - 2];
        numbers(type);
        figures(type);
        lists(type);
        members_by_rows(type);
        enumerators_by_rows(type);
        visit_by_rows(type);
        texts(type);
    }
    symbols((uint32_t)(sym.len / 24));
    ctfd_close(&types);
    free_bytes(&ctf);
    free_bytes(&sym);
    free_bytes(&strs);
    return 0;
}
