/* Passes damaged dictionaries and damaged lines to the library, and makes random calls.
 *
 * usage: fuzz EXAMPLES ROUNDS [SEED]
 *
 * Meant for AddressSanitizer and UndefinedBehaviorSanitizer: the library is not instrumented, but
 * its memory from malloc is, and each buffer here is a block of exactly its length.
 */
#include "ctfd_libctf.h"

#include "common.h"

#define HANDLES 4

static uint64_t state;
static struct ctfd open_ones[HANDLES];
static unsigned opened, refused, answered, asked;

static uint32_t next(void)
{
    state ^= state << 13;
    state ^= state >> 7;
    state ^= state << 17;
    return (uint32_t)(state >> 16);
}

static uint32_t below(uint32_t n)
{
    return n == 0 ? 0 : next() % n;
}

/* A copy, damaged in up to three places and sometimes cut short. */
static struct bytes damaged(const struct bytes *from)
{
    struct bytes made = { NULL, from->len };
    uint32_t times = below(2) == 0 ? 0 : below(4), i;
    if (below(16) == 0)
        made.len = below((uint32_t)from->len + 1);
    made.at = (uint8_t *)malloc(made.len != 0 ? made.len : 1);
    if (made.at == NULL)
        exit(2);
    memcpy(made.at, from->at, made.len);
    for (i = 0; i < times && made.len != 0; i++) {
        uint32_t at = below(3) == 0 ? below(made.len < 36 ? (uint32_t)made.len : 36)
                                    : below((uint32_t)made.len);
        if (below(2) == 0)
            made.at[at] ^= (uint8_t)(1u << below(8));
        else
            made.at[at] = (uint8_t)(below(2) == 0 ? next() : 0xff * below(2));
    }
    return made;
}

/* A type number: usually in a dictionary's range, sometimes in a child's range, or any number. */
static uint16_t some_type(void)
{
    switch (below(8)) {
    case 0: return (uint16_t)next();
    case 1: return (uint16_t)(32768 + below(16));
    default: return (uint16_t)below(540);
    }
}

static size_t some_index(void)
{
    return below(16) == 0 ? SIZE_MAX - below(2) : below(20);
}

/* A short text, in a block of its own. */
static char *some_text(size_t *len)
{
    static const char *const words[] = { "int", "struct lua_State", "struct lua_State **", "next",
        "enum ", "union", "*", "", "lua_close", "struct  node", "main", "char *const" };
    const char *word = words[below(sizeof words / sizeof words[0])];
    char *made;
    *len = strlen(word);
    made = (char *)malloc(*len + 1);
    if (made == NULL)
        exit(2);
    memcpy(made, word, *len + 1);
    if (*len != 0 && below(4) == 0)
        made[below((uint32_t)*len)] = (char)next();
    return made;
}

/* A buffer for text: a block of exactly `room` bytes. */
static char *some_room(size_t *room)
{
    char *made;
    *room = below(3) == 0 ? 0 : below(64);
    made = (char *)malloc(*room != 0 ? *room : 1);
    if (made == NULL)
        exit(2);
    return made;
}

static void count(enum ctfd_status status)
{
    asked++;
    answered += status == CTFD_OK;
    CHECK(status <= CTFD_FIXED_PARENT);
}

/* Asks a question whose answer is a number. A refusal must leave the result unchanged. */
static void ask_number(struct ctfd *d)
{
    uint64_t wide = 77;
    uint32_t number = 77;
    uint16_t t = some_type(), to = 77;
    enum ctfd_status status;
    switch (below(18)) {
    case 0: status = ctfd_kind(d, t, &number); break;
    case 1: status = ctfd_length(d, t, &wide); break;
    case 2: status = ctfd_size(d, t, &wide); break;
    case 3: status = ctfd_align(d, t, &wide); break;
    case 4: status = ctfd_resolve(d, t, &to); break;
    case 5: status = ctfd_reference(d, t, &to); break;
    case 6: status = ctfd_pointer(d, t, &to); break;
    case 7: status = ctfd_return(d, t, &to); break;
    case 8: status = ctfd_argument(d, t, some_index(), &to); break;
    case 9: status = ctfd_root(d, t, &number); break;
    case 10: status = ctfd_tag(d, t, &number); break;
    case 11: status = ctfd_object(d, below(2000), &to); break;
    case 12: status = ctfd_function_argument(d, below(2000), some_index(), &to); break;
    case 13: status = ctfd_count(d, &wide); break;
    case 14: status = ctfd_child(d, &number); break;
    case 15: status = ctfd_parent_count(d, &wide); break;
    case 16: status = ctfd_model(d, &number); break;
    default: status = ctfd_label_count(d, &wide); break;
    }
    count(status);
    CHECK(status == CTFD_OK || (wide == 77 && number == 77 && to == 77));
}

static void ask_parts(struct ctfd *d)
{
    struct ctfd_encoding encoding = { 77, 77, 77 };
    struct ctfd_array array = { 77, 77, 77 };
    struct ctfd_function function = { 77, 77, 77 };
    uint16_t t = some_type();
    enum ctfd_status status = ctfd_encoding(d, t, &encoding);
    count(status);
    CHECK(status == CTFD_OK || encoding.bits == 77);
    status = ctfd_array(d, t, &array);
    count(status);
    CHECK(status == CTFD_OK || array.count == 77);
    status = ctfd_function(d, below(2000), &function);
    count(status);
    CHECK(status == CTFD_OK || function.arguments == 77);
}

/* Asks a question by name. */
static void ask_name(struct ctfd *d)
{
    size_t len;
    char *text = some_text(&len);
    uint64_t offset = 77, place;
    uint32_t number = 77;
    int32_t value = 77;
    uint16_t to = 77;
    enum ctfd_status status;
    switch (below(6)) {
    case 0: status = ctfd_find(d, text, len, &to); break;
    case 1: status = ctfd_symbol(d, text, len, &number); break;
    case 2: status = ctfd_label_last(d, text, len, &number); break;
    case 3: status = ctfd_field(d, some_type(), text, len, &offset, &to); break;
    case 4: status = ctfd_enum_value(d, some_type(), text, len, &value); break;
    default: status = ctfd_path(d, some_type(), text, len + below(2), &offset, &to, &place); break;
    }
    count(status);
    CHECK(status == CTFD_OK || (offset == 77 && number == 77 && value == 77 && to == 77));
    free(text);
}

/* Asks a question whose answer is a text. */
static void ask_text(struct ctfd *d)
{
    struct ctfd_member member = { 77, 77, 77 };
    struct ctfd_label label = { 77, 77 };
    struct bytes memory = { NULL, below(64) };
    size_t room;
    char *text = some_room(&room);
    uint64_t len = 77;
    int32_t value = 77;
    uint16_t t = some_type();
    enum ctfd_status status;
    memory.at = (uint8_t *)calloc(1, memory.len != 0 ? memory.len : 1);
    if (memory.at == NULL)
        exit(2);
    switch (below(11)) {
    case 0: status = ctfd_name(d, t, text, room, &len); break;
    case 1: status = ctfd_declared_name(d, t, text, room, &len); break;
    case 2: status = ctfd_show(d, t, memory.at, memory.len, below(600), text, room, &len); break;
    case 3: status = ctfd_member(d, t, some_index(), text, room, &member); break;
    case 4: status = ctfd_enumerator(d, t, some_index(), text, room, &value, &len); break;
    case 5: status = ctfd_symbol_name(d, below(2000), text, room, &len); break;
    case 6: status = ctfd_label(d, some_index(), text, room, &label); break;
    case 7: status = ctfd_parent_name(d, text, room, &len); break;
    case 8: status = ctfd_parent_label(d, text, room, &len); break;
    case 9: status = ctfd_enum_name(d, t, (int32_t)below(100), text, room, &len); break;
    default: status = ctfd_bytes(d, below(30000), text, room, &len); break;
    }
    count(status);
    CHECK(status == CTFD_OK ||
        (len == 77 && value == 77 && member.name_len == 77 && label.name_len == 77));
    free(text);
    free(memory.at);
}

/* Visits a type, with a block of exactly `len` rows. */
static void ask_visit(struct ctfd *d, uint16_t t, size_t len)
{
    struct ctfd_visit_row *rows = (struct ctfd_visit_row *)calloc(len != 0 ? len : 1, sizeof *rows);
    uint64_t all = 77;
    enum ctfd_status status;
    if (rows == NULL)
        exit(2);
    status = ctfd_visit(d, t, rows, len, &all);
    count(status);
    CHECK(status == CTFD_OK ? all <= len + 1 : all == 77 && rows[0].type == 0);
    free(rows);
}

/* Reads rows of arguments, of a function type and of a program's function. */
static void ask_arguments(struct ctfd *d, uint16_t t, size_t len)
{
    uint16_t *rows = (uint16_t *)calloc(len != 0 ? len : 1, sizeof *rows);
    uint64_t all = 77;
    enum ctfd_status status;
    if (rows == NULL)
        exit(2);
    status = ctfd_arguments(d, t, some_index(), rows, len, &all);
    count(status);
    CHECK(status == CTFD_OK ? all <= 1023 : all == 77 && rows[0] == 0);
    all = 77;
    rows[0] = 0;
    status = ctfd_function_arguments(d, below(2000), some_index(), rows, len, &all);
    count(status);
    CHECK(status == CTFD_OK ? all <= 1023 : all == 77 && rows[0] == 0);
    free(rows);
}

/* Reads rows of types, symbols and labels, into blocks of exactly their length. */
static void ask_dictionary(struct ctfd *d, size_t len)
{
    size_t room = len != 0 ? len : 1;
    struct ctfd_type_row *rows = (struct ctfd_type_row *)calloc(room, sizeof *rows);
    struct ctfd_symbol_row *symbols = (struct ctfd_symbol_row *)calloc(room, sizeof *symbols);
    struct ctfd_label_row *labels = (struct ctfd_label_row *)calloc(room, sizeof *labels);
    uint64_t all = 77;
    enum ctfd_status status;
    if (rows == NULL || symbols == NULL || labels == NULL)
        exit(2);
    status = ctfd_types(d, some_index(), rows, len, &all);
    count(status);
    CHECK(status == CTFD_OK ? all <= 65535 : all == 77 && rows[0].type == 0);
    all = 77;
    status = ctfd_symbols(d, below(2000), symbols, len, &all);
    count(status);
    CHECK(status == CTFD_OK || (all == 77 && symbols[0].name_at == 0));
    all = 77;
    status = ctfd_labels(d, some_index(), labels, len, &all);
    count(status);
    CHECK(status == CTFD_OK || (all == 77 && labels[0].name_at == 0));
    free(rows);
    free(symbols);
    free(labels);
}

/* Reads rows, into blocks of exactly their length. */
static void ask_rows(struct ctfd *d)
{
    size_t len = below(5), room = len != 0 ? len : 1;
    struct ctfd_member_row *members = (struct ctfd_member_row *)calloc(room, sizeof *members);
    struct ctfd_enumerator_row *enumerators = (struct ctfd_enumerator_row *)calloc(
        room, sizeof *enumerators);
    uint64_t all = 77;
    uint16_t t = some_type();
    enum ctfd_status status;
    if (members == NULL || enumerators == NULL)
        exit(2);
    status = ctfd_members(d, t, some_index(), members, len, &all);
    count(status);
    CHECK(status == CTFD_OK || (all == 77 && members[0].type == 0));
    all = 77;
    status = ctfd_enumerators(d, t, some_index(), enumerators, len, &all);
    count(status);
    CHECK(status == CTFD_OK || (all == 77 && enumerators[0].name_at == 0));
    free(members);
    free(enumerators);
    ask_visit(d, t, len);
    ask_arguments(d, t, len);
    ask_dictionary(d, len);
}

/* Adds something to a handle that may be a draft. */
static void add(struct ctfd *d)
{
    size_t len;
    char *name = some_text(&len);
    uint64_t wide = 0, place;
    uint16_t t = 0, args[3], to = some_type();
    bool root = below(2) == 0;
    args[0] = some_type();
    args[1] = some_type();
    args[2] = 0;
    switch (below(17)) {
    case 0: count(ctfd_add_integer(d, name, len, root, 1, 0, (uint16_t)next(), next(), &t)); break;
    case 1: count(ctfd_add_float(d, name, len, root, 2, 0, 64, 8, &t)); break;
    case 2: count(ctfd_add_pointer(d, name, len, root, to, &t)); break;
    case 3: count(ctfd_add_typedef(d, name, len, root, to, &t)); break;
    case 4: count(ctfd_add_const(d, name, len, root, to, &t)); break;
    case 5: count(ctfd_add_array(d, name, len, root, to, args[0], next(), &t)); break;
    case 6: count(ctfd_add_function(d, name, len, root, to, args, below(4), &t)); break;
    case 7: count(ctfd_add_struct(d, name, len, root, below(100), &t)); break;
    case 8: count(ctfd_add_union(d, name, len, root, 0, &t)); break;
    case 9: count(ctfd_add_enum(d, name, len, root, 4, &t)); break;
    case 10: count(ctfd_add_forward(d, name, len, root, below(12), &t)); break;
    case 11:
        count(ctfd_add_member(
            d, (uint16_t)below(20), name, len, (uint16_t)below(20), below(2) == 0, next(), &wide));
        break;
    case 15:
        count(ctfd_add_member_at(d, (uint16_t)below(20), name, len, (uint16_t)below(20), below(99),
            below(3) == 0 ? next() : below(20)));
        break;
    case 12: count(ctfd_add_enumerator(d, (uint16_t)below(20), name, len, (int32_t)next())); break;
    case 13: count(ctfd_add_label(d, name, len, next())); break;
    case 14: count(ctfd_discard(d, &wide)); break;
    default: count(ctfd_update(d, &wide, &place)); break;
    }
    free(name);
}

static void call(void)
{
    struct ctfd *d = &open_ones[below(HANDLES)];
    switch (below(7)) {
    case 0: ask_parts(d); break;
    case 1: ask_name(d); break;
    case 4: ask_rows(d); break;
    case 2: ask_text(d); break;
    case 3: add(d); break;
    default: ask_number(d); break;
    }
}

/* Opens, imports, creates a draft or closes, with a random handle. */
static void change(const struct bytes *dictionaries, size_t len, const struct bytes *lists)
{
    uint32_t at = below(HANDLES), other = (at + 1 + below(HANDLES - 1)) % HANDLES;
    struct bytes ctf = damaged(&dictionaries[below((uint32_t)len)]);
    struct bytes sym = damaged(&lists[0]), strs = damaged(&lists[1]);
    bool was = open_ones[at].full, has = below(2) == 0;
    uint64_t place = 0;
    enum ctfd_status status;
    switch (below(16)) {
    case 0: status = ctfd_import(&open_ones[at], &open_ones[other], &place); break;
    case 1: status = ctfd_create(&open_ones[at], has, &place); break;
    case 2:
        status = ctfd_create_child(&open_ones[at], &open_ones[other], "p", below(2), "", 0, &place);
        break;
    case 3:
        ctfd_close(&open_ones[at]);
        status = CTFD_OK;
        was = false;
        break;
    default:
        status = ctfd_open(&open_ones[at], ctf.at, ctf.len, sym.at, sym.len, strs.at, strs.len, has,
            has || below(2) == 0, below(4) == 0, &place);
    }
    opened += status == CTFD_OK;
    refused += status != CTFD_OK;
    CHECK(status == CTFD_OK || open_ones[at].full == was);
    free_bytes(&ctf);
    free_bytes(&sym);
    free_bytes(&strs);
}

/* A callback that stops after a number of calls. */
static int visited(const char *name, ctf_id_t type, ulong_t offset, int depth, void *left)
{
    (void)strlen(name);
    (void)type;
    (void)offset;
    (void)depth;
    return --*(int *)left == 0;
}

/* Makes the calls of libctf over a damaged dictionary. */
static void by_libctf(const struct bytes *dictionary)
{
    struct bytes copy = damaged(dictionary);
    ctf_sect_t section;
    ctf_file_t *fp;
    int error = 0, left = 1000;
    memset(&section, 0, sizeof section);
    section.cts_data = copy.at;
    section.cts_size = copy.len;
    fp = ctf_bufopen(&section, NULL, NULL, &error);
    if (fp != NULL) {
        char text[32];
        ctf_id_t type = (ctf_id_t)below(540);
        (void)ctf_type_name(fp, type, text, below(sizeof text));
        (void)ctf_type_qname(fp, type, text, sizeof text, "m");
        (void)ctf_type_visit(fp, type, visited, &left);
        (void)ctf_enum_name(fp, type, (int)below(4));
        (void)ctf_label_topmost(fp);
        (void)ctf_type_compat(fp, type, fp, (ctf_id_t)below(540));
        (void)ctf_setmodel(fp, CTF_MODEL_ILP32);
        (void)ctf_type_size(fp, -1 - (ctf_id_t)below(3));
        CHECK(ctf_fault(fp) == CTFD_NO_TYPE);
    } else {
        CHECK(error > CTFD_OK && ctf_errmsg(error)[0] != '\0');
    }
    ctf_close(fp);
    free_bytes(&copy);
}

/* Sends lines of the protocol, whole and damaged. */
static void send_lines(const struct bytes *lines, unsigned rounds)
{
    struct ctfd_service service = CTFD_NONE;
    size_t from = 0;
    unsigned i;
    CHECK(ctfd_begin(&service) == CTFD_OK);
    for (i = 0; i < rounds; i++) {
        const uint8_t *end;
        struct bytes line, made;
        size_t room;
        char *text = some_room(&room);
        uint64_t len = 0;
        if (from >= lines->len)
            from = 0;
        end = (const uint8_t *)memchr(lines->at + from, '\n', lines->len - from);
        line.at = lines->at + from;
        line.len = end != NULL ? (size_t)(end - line.at) : lines->len - from;
        from += line.len + 1;
        made = damaged(&line);
        CHECK(
            (below(2) == 0 ? ctfd_line(&service, (const char *)made.at, made.len, text, room, &len)
                           : ctfd_line_as(&service, 1 + (uint32_t)below(3), (const char *)made.at,
                                 made.len, text, room, &len)) == CTFD_OK);
        CHECK(len != 0);
        if (below(1000) == 0)
            CHECK(ctfd_leave(&service, (uint32_t)below(4)) == CTFD_OK);
        free(text);
        free_bytes(&made);
    }
    ctfd_end(&service);
}

int main(int argc, char **argv)
{
    struct bytes dictionaries[3], lists[2], lines[3];
    unsigned i, rounds;
    if (argc < 3)
        return 2;
    rounds = (unsigned)strtoul(argv[2], NULL, 10);
    state = argc > 3 ? strtoull(argv[3], NULL, 10) : 1;
    state = state * 0x9e3779b97f4a7c15 + 1;
    dictionaries[0] = read_in(argv[1], "lua.ctf");
    dictionaries[1] = read_in(argv[1], "written.ctf");
    dictionaries[2] = read_in(argv[1], "zlib.ctf");
    lists[0] = read_in(argv[1], "lua.sym");
    lists[1] = read_in(argv[1], "lua.str");
    lines[0] = read_in(argv[1], "struct.jsonl");
    lines[1] = read_in(argv[1], "draft.jsonl");
    lines[2] = read_in(argv[1], "symbols.jsonl");
    for (i = 0; i < rounds; i++) {
        unsigned questions = below(60);
        change(dictionaries, 3, lists);
        while (questions-- > 0)
            call();
        if (i % 4 == 0)
            by_libctf(&dictionaries[below(3)]);
    }
    for (i = 0; i < HANDLES; i++)
        ctfd_close(&open_ones[i]);
    for (i = 0; i < 3; i++)
        send_lines(&lines[i], rounds);
    for (i = 0; i < 3; i++) {
        free_bytes(&dictionaries[i]);
        free_bytes(&lines[i]);
    }
    free_bytes(&lists[0]);
    free_bytes(&lists[1]);
    printf("%u opened or changed, %u refused; %u of %u questions answered\n", opened, refused,
        answered, asked);
    return counted("fuzz");
}
