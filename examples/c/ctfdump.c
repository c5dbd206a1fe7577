/* A small ctfdump, by the calls of libctf(3LIB): prints the types of a dictionary.
 *
 * usage: ctfdump CTF [SYM STR]
 *
 * Nothing but the next line is not of libctf. What is printed is what `ctfd dump` prints, but for
 * the size in an array's record, which no call tells.
 */
#include <ctfd_libctf.h>

#include <errno.h>
#include <fcntl.h>
#include <stdio.h>
#include <stdlib.h>
#include <string.h>
#include <sys/stat.h>
#include <unistd.h>

static ctf_file_t *types;

/* Ends the program where something failed. */
static _Noreturn void fail(const char *what, const char *reason)
{
    fprintf(stderr, "ctfdump: %s: %s\n", what, reason);
    exit(1);
}

/* Why the last call failed. */
static const char *why(void)
{
    return ctf_errmsg(ctf_errno(types));
}

/* The same, in the word that a dump has. */
static void put_why(void)
{
    printf("%.*s", (int)strcspn(why(), ":"), why());
}

/* A name between quotes, bytes that are not plain as \x and two digits. */
static void put_name(const char *name)
{
    putchar('"');
    for (; *name != '\0'; name++) {
        unsigned char byte = (unsigned char)*name;
        if (byte < 0x20 || byte > 0x7e || byte == '"' || byte == '\\')
            printf("\\x%02x", byte);
        else
            putchar(byte);
    }
    putchar('"');
}

/* The name of a type as C spells it, in a buffer that the next call uses again. */
static const char *spelled(ctf_id_t type)
{
    static char text[65537];
    return ctf_type_name(types, type, text, sizeof text);
}

/* That name, or why there is none. */
static void put_spelled(ctf_id_t type)
{
    const char *name = spelled(type);
    if (name != NULL)
        put_name(name);
    else
        put_why();
}

/* The name in a type's own record: without the word in front, and none for what is put together. */
static const char *own_name(ctf_id_t type, int kind)
{
    const char *name = spelled(type);
    switch (kind) {
    case CTF_K_POINTER:
    case CTF_K_ARRAY:
    case CTF_K_FUNCTION:
    case CTF_K_VOLATILE:
    case CTF_K_CONST:
    case CTF_K_RESTRICT: return "";
    }
    if (name == NULL)
        fail("name", why());
    if (kind == CTF_K_STRUCT || kind == CTF_K_UNION || kind == CTF_K_ENUM || kind == CTF_K_FORWARD)
        name = strchr(name, ' ') + 1;
    return strcmp(name, "(anon)") == 0 ? "" : name;
}

static void put_number(const char *what, ssize_t number)
{
    printf(" %s=", what);
    if (number >= 0)
        printf("%zd", number);
    else
        put_why();
}

static int put_member(const char *name, ctf_id_t type, ulong_t offset, void *unused)
{
    (void)unused;
    printf("  member ");
    put_name(name);
    printf(" offset=%lu type=%ld\n", offset, type);
    return 0;
}

static int put_enumerator(const char *name, int value, void *unused)
{
    (void)unused;
    printf("  value ");
    put_name(name);
    printf(" %d\n", value);
    return 0;
}

/* What a function returns and takes; a last 0 stands for more. */
static void put_signature(const ctf_funcinfo_t *info, const ctf_id_t *args)
{
    uint_t i;
    printf(" return=%ld args=", info->ctc_return);
    for (i = 0; i < info->ctc_argc; i++)
        printf(i == 0 ? "%ld" : ",%ld", args[i]);
    if (info->ctc_flags & CTF_FUNC_VARARG)
        printf(i == 0 ? "0" : ",0");
}

/* What a type's record says behind its kind and its name. */
static void put_record(ctf_id_t type, int kind)
{
    ctf_encoding_t encoding;
    ctf_arinfo_t array;
    ctf_funcinfo_t info;
    ctf_id_t args[CTF_MAX_VLEN];
    switch (kind) {
    case CTF_K_INTEGER:
    case CTF_K_FLOAT:
        if (ctf_type_encoding(types, type, &encoding) != 0)
            fail("encoding", why());
        put_number("size", ctf_type_size(types, type));
        printf(" encoding=%u offset=%u bits=%u", encoding.cte_format, encoding.cte_offset,
            encoding.cte_bits);
        break;
    case CTF_K_STRUCT:
    case CTF_K_UNION:
    case CTF_K_ENUM: put_number("size", ctf_type_size(types, type)); break;
    case CTF_K_ARRAY:
        if (ctf_array_info(types, type, &array) != 0)
            fail("array", why());
        printf(" contents=%ld index=%ld count=%u", array.ctr_contents, array.ctr_index,
            array.ctr_nelems);
        break;
    case CTF_K_FUNCTION:
        if (ctf_func_info_by_id(types, type, &info) != 0 ||
            ctf_func_args_by_id(types, type, CTF_MAX_VLEN, args) != 0)
            fail("arguments", why());
        put_signature(&info, args);
        break;
    case CTF_K_FORWARD: printf(" tag=%.*s", (int)strcspn(spelled(type), " "), spelled(type)); break;
    case CTF_K_UNKNOWN: break;
    default: printf(" to=%ld", ctf_type_reference(types, type));
    }
}

static int put_type(ctf_id_t type, boolean_t root, void *unused)
{
    static const char *const names[] = { "unknown", "integer", "float", "pointer", "array",
        "function", "struct", "union", "enum", "forward", "typedef", "volatile", "const",
        "restrict" };
    int kind = ctf_type_kind(types, type);
    (void)unused;
    if (kind == CTF_ERR)
        fail("kind", why());
    printf("type %ld %s ", type, names[kind]);
    put_name(own_name(type, kind));
    printf(root ? " root" : " hidden");
    put_record(type, kind);
    printf(" : ");
    put_spelled(type);
    put_number("bytes", ctf_type_size(types, type));
    put_number("align", ctf_type_align(types, type));
    putchar('\n');
    if (kind == CTF_K_STRUCT || kind == CTF_K_UNION)
        return ctf_member_iter(types, type, put_member, NULL);
    return kind == CTF_K_ENUM ? ctf_enum_iter(types, type, put_enumerator, NULL) : 0;
}

static int count_type(ctf_id_t type, boolean_t root, void *last)
{
    (void)root;
    *(ctf_id_t *)last = type;
    return 0;
}

static int put_label(const char *name, void *unused)
{
    ctf_lblinfo_t info;
    (void)unused;
    if (ctf_label_info(types, name, &info) != 0)
        fail(name, why());
    printf("label ");
    put_name(name);
    printf(" %ld\n", info.ctb_typeidx);
    return 0;
}

/* One line for the dictionary. */
static void put_head(void)
{
    const char *name = ctf_parent_name(types), *label = ctf_parent_label(types);
    ctf_id_t last = 0;
    ctf_type_iter(types, B_TRUE, count_type, &last);
    printf("ctf types=%ld child=%s parname=", last & CTF_MAX_PTYPE,
        CTF_TYPE_ISCHILD(last) ? "yes" : "no");
    put_name(name != NULL ? name : "");
    printf(" parlabel=");
    put_name(label != NULL ? label : "");
    putchar('\n');
}

/* A symbol of which something is told. */
static void put_symbol(ulong_t symbol)
{
    char name[1024];
    ctf_funcinfo_t info;
    ctf_id_t args[CTF_MAX_VLEN], type = ctf_lookup_by_symbol(types, symbol);
    if (type == CTF_ERR && ctf_func_info(types, symbol, &info) != 0)
        return;
    printf("%s %lu ", type != CTF_ERR ? "object" : "function", symbol);
    put_name(ctf_symbol_name(types, symbol, name, sizeof name) != NULL ? name : "?");
    if (type != CTF_ERR)
        printf(" %ld", type);
    else if (ctf_func_args(types, symbol, CTF_MAX_VLEN, args) == 0)
        put_signature(&info, args);
    putchar('\n');
}

/* A file as a section; a symbol has 24 bytes. */
static ctf_sect_t section(const char *file)
{
    static const ctf_sect_t none;
    ctf_sect_t made = none;
    struct stat about;
    int fd = open(file, O_RDONLY);
    void *bytes = fd >= 0 && fstat(fd, &about) == 0 ? malloc((size_t)about.st_size + 1) : NULL;
    ssize_t len = bytes != NULL ? read(fd, bytes, (size_t)about.st_size) : -1;
    if (len < 0)
        fail(file, strerror(errno));
    close(fd);
    made.cts_data = bytes;
    made.cts_size = (size_t)len;
    made.cts_entsize = 24;
    return made;
}

int main(int argc, char **argv)
{
    ctf_sect_t ctf, symbols, strings;
    ulong_t symbol;
    int error = 0;
    if (argc != 2 && argc != 4) {
        fprintf(stderr, "usage: ctfdump CTF [SYM STR]\n");
        return 2;
    }
    ctf = section(argv[1]);
    symbols = argc == 4 ? section(argv[2]) : (ctf_sect_t){ 0 };
    strings = argc == 4 ? section(argv[3]) : (ctf_sect_t){ 0 };
    types = argc == 4 ? ctf_bufopen(&ctf, &symbols, &strings, &error)
                      : ctf_bufopen(&ctf, NULL, NULL, &error);
    if (types == NULL)
        fail(argv[1], ctf_errmsg(error));
    put_head();
    ctf_label_iter(types, put_label, NULL);
    for (symbol = 0; argc == 4 && symbol < symbols.cts_size / symbols.cts_entsize; symbol++)
        put_symbol(symbol);
    if (ctf_type_iter(types, B_TRUE, put_type, NULL) != 0)
        fail("types", why());
    ctf_close(types);
    return 0;
}
