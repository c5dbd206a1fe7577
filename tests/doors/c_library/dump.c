/* Prints a dictionary as `ctfd dump` does, through the calls of ctfd.h, except the sizes of arrays.
 *
 * usage: dump CTF [--ilp32] [--parent CTF] [--sym FILE --str FILE]
 */
#include "common.h"

static struct ctfd types = CTFD_NONE, parent = CTFD_NONE;

/* A buffer for the longest text. */
static char room[1 << 17];

static void print_text(enum ctfd_status status, uint64_t len)
{
    if (status == CTFD_OK)
        print_name(room, (size_t)len);
    else
        printf("%s", ctfd_status_name(status));
}

static void print_number(const char *what, enum ctfd_status status, uint64_t number)
{
    if (status == CTFD_OK)
        printf(" %s=%llu", what, (unsigned long long)number);
    else
        printf(" %s=%s", what, ctfd_status_name(status));
}

static void print_head(void)
{
    uint64_t count = 0, len = 0, labels = 0, i;
    uint32_t child = 0;
    enum ctfd_status status;
    ctfd_count(&types, &count);
    ctfd_child(&types, &child);
    printf("ctf types=%llu child=%s parname=", (unsigned long long)count, child ? "yes" : "no");
    status = ctfd_parent_name(&types, room, sizeof room, &len);
    print_text(status, len);
    printf(" parlabel=");
    status = ctfd_parent_label(&types, room, sizeof room, &len);
    print_text(status, len);
    putchar('\n');
    ctfd_label_count(&types, &labels);
    for (i = 0; i < labels; i++) {
        struct ctfd_label label = { 0, 0 };
        status = ctfd_label(&types, i, room, sizeof room, &label);
        printf("label ");
        print_text(status, label.name_len);
        printf(" %u\n", label.last);
    }
}

static void print_arguments(uint32_t number, const struct ctfd_function *of)
{
    uint64_t i;
    for (i = 0; i < of->arguments; i++) {
        uint16_t argument = 0;
        if (ctfd_function_argument(&types, number, i, &argument) != CTFD_OK)
            exit(3);
        printf(i == 0 ? "%u" : ",%u", argument);
    }
    if (of->varargs)
        printf(of->arguments == 0 ? "0" : ",0");
}

static void print_symbols(uint32_t count)
{
    uint32_t i;
    for (i = 0; i < count; i++) {
        struct ctfd_function function = { 0, 0, 0 };
        enum ctfd_status status;
        uint64_t len = 0;
        uint16_t t = 0;
        bool is_object = ctfd_object(&types, i, &t) == CTFD_OK;
        if (!is_object && ctfd_function(&types, i, &function) != CTFD_OK)
            continue;
        printf("%s %u ", is_object ? "object" : "function", i);
        status = ctfd_symbol_name(&types, i, room, sizeof room, &len);
        print_text(status, len);
        if (is_object) {
            printf(" %u\n", t);
            continue;
        }
        printf(" return=%u args=", function.ret);
        print_arguments(i, &function);
        putchar('\n');
    }
}

static void print_function(uint16_t t)
{
    uint64_t i, count = 0;
    uint16_t ret = 0;
    ctfd_return(&types, t, &ret);
    ctfd_length(&types, t, &count);
    printf(" return=%u args=", ret);
    for (i = 0; i < count; i++) {
        uint16_t argument = 0;
        ctfd_argument(&types, t, i, &argument);
        printf(i == 0 ? "%u" : ",%u", argument);
    }
}

/* Prints the record's own fields, which follow the kind and the name. */
static void print_detail(uint16_t t, uint32_t kind)
{
    struct ctfd_encoding encoding = { 0, 0, 0 };
    struct ctfd_array array = { 0, 0, 0 };
    uint64_t bytes = 0;
    uint32_t tag = 0;
    uint16_t to = 0;
    enum ctfd_status status = ctfd_size(&types, t, &bytes);
    switch (kind) {
    case CTFD_INTEGER:
    case CTFD_FLOAT:
        print_number("size", status, bytes);
        ctfd_encoding(&types, t, &encoding);
        printf(" encoding=%u offset=%u bits=%u", encoding.encoding, encoding.offset, encoding.bits);
        break;
    case CTFD_STRUCT:
    case CTFD_UNION:
    case CTFD_ENUM: print_number("size", status, bytes); break;
    case CTFD_ARRAY:
        ctfd_array(&types, t, &array);
        printf(" contents=%u index=%u count=%u", array.contents, array.index, array.count);
        break;
    case CTFD_FUNCTION: print_function(t); break;
    case CTFD_FORWARD:
        ctfd_tag(&types, t, &tag);
        printf(" tag=%s", kind_names[tag]);
        break;
    case CTFD_UNKNOWN: break;
    default: ctfd_reference(&types, t, &to); printf(" to=%u", to);
    }
}

static void print_list(uint16_t t, uint32_t kind)
{
    uint64_t i, count = 0;
    ctfd_length(&types, t, &count);
    for (i = 0; i < count && (kind == CTFD_STRUCT || kind == CTFD_UNION); i++) {
        struct ctfd_member member = { 0, 0, 0 };
        enum ctfd_status status = ctfd_member(&types, t, i, room, sizeof room, &member);
        printf("  member ");
        print_text(status, member.name_len);
        printf(" offset=%llu type=%u\n", (unsigned long long)member.offset, member.type);
    }
    for (i = 0; i < count && kind == CTFD_ENUM; i++) {
        uint64_t len = 0;
        int32_t value = 0;
        enum ctfd_status status = ctfd_enumerator(&types, t, i, room, sizeof room, &value, &len);
        printf("  value ");
        print_text(status, len);
        printf(" %d\n", value);
    }
}

static void print_type(uint16_t t)
{
    uint32_t kind = 0, root = 0;
    uint64_t len = 0, bytes = 0;
    enum ctfd_status status;
    ctfd_kind(&types, t, &kind);
    ctfd_root(&types, t, &root);
    printf("type %u %s ", t, kind_names[kind]);
    status = ctfd_declared_name(&types, t, room, sizeof room, &len);
    print_text(status, len);
    printf(root ? " root" : " hidden");
    print_detail(t, kind);
    printf(" : ");
    status = ctfd_name(&types, t, room, sizeof room, &len);
    print_text(status, len);
    status = ctfd_size(&types, t, &bytes);
    print_number("bytes", status, bytes);
    status = ctfd_align(&types, t, &bytes);
    print_number("align", status, bytes);
    putchar('\n');
    print_list(t, kind);
}

static void stop(const char *what, enum ctfd_status status, const uint64_t *place)
{
    if (status == CTFD_OK)
        return;
    fprintf(stderr, "%s: %s at %llu\n", what, ctfd_status_name(status), (unsigned long long)*place);
    exit(1);
}

int main(int argc, char **argv)
{
    struct bytes ctf, sym = { NULL, 0 }, strs = { NULL, 0 }, above = { NULL, 0 };
    uint64_t place = 0, count = 0, t;
    uint32_t child = 0;
    bool ilp32 = false;
    int i;
    if (argc < 2)
        return 2;
    ctf = read_file(argv[1]);
    for (i = 2; i < argc; i++) {
        if (strcmp(argv[i], "--ilp32") == 0)
            ilp32 = true;
        else if (i + 1 < argc && strcmp(argv[i], "--sym") == 0)
            sym = read_file(argv[++i]);
        else if (i + 1 < argc && strcmp(argv[i], "--str") == 0)
            strs = read_file(argv[++i]);
        else if (i + 1 < argc && strcmp(argv[i], "--parent") == 0)
            above = read_file(argv[++i]);
        else
            return 2;
    }
    stop("open",
        ctfd_open(&types, ctf.at, ctf.len, sym.at != NULL ? sym.at : ctf.at, sym.len,
            strs.at != NULL ? strs.at : ctf.at, strs.len, sym.at != NULL, strs.at != NULL, ilp32,
            &place),
        &place);
    if (above.at != NULL) {
        stop("parent", open_alone(&parent, &above, ilp32, &place), &place);
        stop("import", ctfd_import(&types, &parent, &place), &place);
        ctfd_close(&parent);
    }
    print_head();
    print_symbols((uint32_t)(sym.len / 24));
    ctfd_count(&types, &count);
    ctfd_child(&types, &child);
    for (t = 1; t <= count; t++)
        print_type((uint16_t)(child ? t + 32768 : t));
    ctfd_close(&types);
    free_bytes(&ctf);
    free_bytes(&sym);
    free_bytes(&strs);
    free_bytes(&above);
    return 0;
}
