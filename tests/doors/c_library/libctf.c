/* Tests the calls of libctf: their results, when ctf_errno changes, and arguments of callbacks.
 *
 * usage: libctf EXAMPLES FOLDER
 */
#include "ctfd_libctf.h"

#include "common.h"

#include <errno.h>
#include <fcntl.h>
#include <limits.h>
#include <sys/stat.h>
#include <unistd.h>

static ctf_file_t *lua;

/* The arguments that callbacks got. */
static struct seen {
    int calls, stop_at;
    ulong_t last_offset;
    ctf_id_t last_type;
    int last_value, deepest;
    const char *first_name, *last_name;
} seen;

static int told(const char *name, ctf_id_t type)
{
    if (seen.calls++ == 0)
        seen.first_name = name;
    seen.last_name = name;
    seen.last_type = type;
    return seen.calls == seen.stop_at ? 7 : 0;
}

static int on_member(const char *name, ctf_id_t type, ulong_t offset, void *arg)
{
    CHECK(arg == &seen);
    seen.last_offset = offset;
    return told(name, type);
}

static int on_enumerator(const char *name, int value, void *arg)
{
    CHECK(arg == &seen);
    seen.last_value = value;
    return told(name, 0);
}

static int on_visit(const char *name, ctf_id_t type, ulong_t offset, int depth, void *arg)
{
    CHECK(arg == &seen);
    seen.last_offset = offset;
    if (depth > seen.deepest)
        seen.deepest = depth;
    return told(name, type);
}

static int on_type(ctf_id_t type, boolean_t root, void *arg)
{
    CHECK(arg == &seen && (root == B_TRUE || root == B_FALSE));
    return told("", type);
}

static int on_label(const char *name, void *arg)
{
    CHECK(arg == &seen);
    return told(name, 0);
}

static int on_object(const char *name, ctf_id_t type, ulong_t symbol, void *arg)
{
    CHECK(arg == &seen && ctf_lookup_by_symbol(lua, symbol) == type);
    return told(name, type);
}

static int on_function(const char *name, ulong_t symbol, ctf_funcinfo_t *info, void *arg)
{
    ctf_funcinfo_t again = { 0, 0, 0 };
    CHECK(arg == &seen && ctf_func_info(lua, symbol, &again) == 0);
    CHECK(again.ctc_argc == info->ctc_argc && again.ctc_return == info->ctc_return);
    return told(name, info->ctc_return);
}

static void begin(int stop_at)
{
    memset(&seen, 0, sizeof seen);
    seen.stop_at = stop_at;
}

static bool is(const char *text, const char *wanted)
{
    return text != NULL && strcmp(text, wanted) == 0;
}

static void types(void)
{
    ctf_id_t state = ctf_lookup_by_name(lua, "struct lua_State");
    ctf_id_t alias = ctf_lookup_by_name(lua, "lua_State");
    ctf_id_t pointer = ctf_lookup_by_name(lua, "struct lua_State *");
    char text[64];
    CHECK(ctf_type_kind(lua, state) == CTF_K_STRUCT);
    CHECK(ctf_type_kind(lua, alias) == CTF_K_TYPEDEF);
    CHECK(ctf_type_size(lua, alias) == 200 && ctf_type_align(lua, alias) == 8);
    CHECK(ctf_type_resolve(lua, alias) == state && ctf_type_reference(lua, alias) == state);
    CHECK(ctf_type_pointer(lua, state) == pointer && ctf_type_reference(lua, pointer) == state);
    CHECK(ctf_errno(lua) == 0);
    CHECK(is(ctf_type_name(lua, state, text, sizeof text), "struct lua_State"));
    CHECK(is(
        ctf_type_qname(lua, pointer, text, sizeof text, "genunix"), "struct genunix`lua_State *"));
    CHECK(is(ctf_type_qname(lua, alias, text, sizeof text, "m"), "m`lua_State"));
    CHECK(ctf_type_lname(lua, state, text, 7) == 16 && is(text, "struct"));
    CHECK(ctf_type_name(lua, state, text, 16) == NULL && ctf_errno(lua) == ECTF_NAMELEN);
    CHECK(ctf_type_name(lua, state, text, 17) == text);
    CHECK(ctf_errno(lua) == ECTF_NAMELEN);
    CHECK(ctf_lookup_by_name(lua, "struct nothing") == CTF_ERR);
    CHECK(ctf_errno(lua) == ECTF_NOTYPE &&
        is(ctf_errmsg(ctf_errno(lua)),
            "NotFound: no type has this name, or no pointer leads there"));
    CHECK(ctf_type_kind(lua, 0) == -1 && ctf_errno(lua) == ECTF_BADID);
    CHECK(ctf_type_reference(lua, state) == CTF_ERR && ctf_errno(lua) == ECTF_NOTREF);
    CHECK(ctf_type_size(lua, 70000) == -1 && ctf_errno(lua) == ECTF_BADID);
    CHECK(ctf_type_cmp(lua, 1, lua, 2) == -1 && ctf_type_cmp(lua, 2, lua, 2) == 0);
    CHECK(ctf_type_compat(lua, alias, lua, state) == 1);
    CHECK(ctf_type_compat(lua, alias, lua, pointer) == 0);
}

static void parts(void)
{
    ctf_encoding_t encoding = { 0, 0, 0 };
    ctf_arinfo_t array = { 0, 0, 0 };
    ctf_id_t number = ctf_lookup_by_name(lua, "int"), i;
    CHECK(ctf_type_encoding(lua, number, &encoding) == 0);
    CHECK(encoding.cte_format == CTF_INT_SIGNED && encoding.cte_bits == 32);
    CHECK(ctf_array_info(lua, number, &array) == -1 && ctf_errno(lua) == ECTF_NOTARRAY);
    for (i = 1; ctf_type_kind(lua, i) != CTF_K_ARRAY; i++)
        ;
    CHECK(ctf_array_info(lua, i, &array) == 0 && array.ctr_contents != 0);
    CHECK(ctf_type_encoding(lua, i, &encoding) == -1 && ctf_errno(lua) == ECTF_NOTINTFP);
}

static void lists(void)
{
    ctf_membinfo_t member = { 0, 0 };
    ctf_id_t alias = ctf_lookup_by_name(lua, "lua_State"), mode;
    int value = 0;
    begin(0);
    CHECK(ctf_member_iter(lua, alias, on_member, &seen) == 0);
    CHECK(seen.calls == 24 && is(seen.first_name, "next") && is(seen.last_name, "hookmask"));
    CHECK(seen.last_offset == 192 * 8);
    begin(3);
    CHECK(ctf_member_iter(lua, alias, on_member, &seen) == 7 && is(seen.last_name, "marked"));
    CHECK(ctf_member_info(lua, alias, "hook", &member) == 0 && member.ctm_offset == 160 * 8);
    CHECK(ctf_member_info(lua, alias, "crook", &member) == -1);
    CHECK(ctf_errno(lua) == ECTF_NOMEMBNAM);
    CHECK(ctf_member_iter(lua, ctf_lookup_by_name(lua, "int"), on_member, &seen) == -1);
    CHECK(ctf_errno(lua) == ECTF_NOTSOU);
    mode = ctf_lookup_by_name(lua, "enum OpMode");
    begin(0);
    CHECK(ctf_enum_iter(lua, mode, on_enumerator, &seen) == 0);
    CHECK(seen.calls > 1 && is(seen.first_name, "iABC"));
    CHECK(is(ctf_enum_name(lua, mode, seen.last_value), seen.last_name));
    CHECK(ctf_enum_name(lua, mode, 0) == seen.first_name);
    CHECK(ctf_enum_value(lua, mode, seen.last_name, &value) == 0 && value == seen.last_value);
    CHECK(ctf_enum_name(lua, mode, 99) == NULL && ctf_errno(lua) == ECTF_NOENUMNAM);
    CHECK(ctf_enum_value(lua, mode, "none", &value) == -1);
    begin(0);
    CHECK(ctf_type_visit(lua, alias, on_visit, &seen) == 0);
    CHECK(is(seen.first_name, "") && seen.deepest > 1 && seen.calls > 24);
    CHECK(seen.last_offset == 192 * 8);
}

static void all(void)
{
    ctf_lblinfo_t label = { 0 };
    begin(0);
    CHECK(ctf_type_iter(lua, B_TRUE, on_type, &seen) == 0);
    CHECK(seen.calls == 526 && seen.last_type == 526);
    begin(5);
    CHECK(ctf_type_iter(lua, B_TRUE, on_type, &seen) == 7 && seen.last_type == 5);
    begin(0);
    CHECK(ctf_label_iter(lua, on_label, &seen) == 0 && is(seen.first_name, "lua"));
    CHECK(ctf_label_topmost(lua) == seen.first_name);
    CHECK(ctf_label_info(lua, "lua", &label) == 0 && label.ctb_typeidx == 526);
    CHECK(ctf_label_info(lua, "moon", &label) == -1 && ctf_errno(lua) == ECTF_NOLABEL);
    CHECK(ctf_parent_name(lua) == NULL && ctf_parent_file(lua) == NULL);
}

static void symbols(void)
{
    ctf_funcinfo_t info = { 0, 0, 0 };
    ctf_id_t args[3] = { -5, -5, -5 };
    char text[64];
    CHECK(ctf_func_info(lua, 4, &info) == 0);
    CHECK(info.ctc_return == 2 && info.ctc_argc == 2 && info.ctc_flags == 0);
    CHECK(ctf_func_args(lua, 4, 1, args) == 0 && args[0] == 27 && args[1] == -5);
    CHECK(ctf_func_args(lua, 4, 3, args) == 0 && args[1] == 3 && args[2] == -5);
    CHECK(ctf_lookup_by_symbol(lua, 19) == 348);
    CHECK(ctf_lookup_by_symbol(lua, 4) == CTF_ERR && ctf_errno(lua) == ECTF_NOTDATA);
    CHECK(ctf_func_info(lua, 19, &info) == -1 && ctf_errno(lua) == ECTF_NOTFUNC);
    CHECK(ctf_func_info(lua, 1UL << 40, &info) == -1 && ctf_errno(lua) == ECTF_NOSYMTAB);
    CHECK(is(ctf_symbol_name(lua, 4, text, sizeof text), "closepaux"));
    CHECK(ctf_symbol_name(lua, 4, text, 9) == NULL && ctf_errno(lua) == ECTF_NAMELEN);
    begin(0);
    CHECK(ctf_object_iter(lua, on_object, &seen) == 0 && is(seen.first_name, "nextage.0"));
    begin(0);
    CHECK(ctf_function_iter(lua, on_function, &seen) == 0 && is(seen.first_name, "closepaux"));
}

/* The function type to which a pointer to a function leads. */
static void functions(void)
{
    ctf_funcinfo_t info = { 0, 0, 0 };
    ctf_id_t args[2] = { -5, -5 };
    ctf_id_t alias = ctf_lookup_by_name(lua, "lua_CFunction");
    ctf_id_t function = ctf_type_reference(lua, ctf_type_reference(lua, alias));
    CHECK(ctf_type_kind(lua, function) == CTF_K_FUNCTION);
    CHECK(ctf_func_info_by_id(lua, function, &info) == 0 && info.ctc_argc == 1);
    CHECK(ctf_func_args_by_id(lua, function, 2, args) == 0 && args[0] == 27 && args[1] == -5);
    CHECK(ctf_func_info_by_id(lua, alias, &info) == -1);
    CHECK(ctf_type_size(lua, function) == 0);
}

static void models(const char *file)
{
    int error = 0;
    ctf_file_t *fp = ctf_open(file, &error), *again;
    ctf_id_t pointer;
    CHECK(fp != NULL && ctf_getmodel(fp) == CTF_MODEL_LP64);
    if (fp == NULL)
        return;
    pointer = ctf_lookup_by_name(fp, "struct lua_State *");
    CHECK(ctf_type_size(fp, pointer) == 8);
    CHECK(ctf_setmodel(fp, 9) == -1 && ctf_errno(fp) == EINVAL);
    CHECK(ctf_setmodel(fp, CTF_MODEL_ILP32) == 0 && ctf_type_size(fp, pointer) == 4);
    again = ctf_dup(fp);
    CHECK(again != NULL && ctf_getmodel(again) == CTF_MODEL_ILP32);
    ctf_setspecific(fp, &error);
    CHECK(ctf_getspecific(fp) == &error && ctf_import(fp, fp) == -1);
    CHECK(ctf_fault(fp) == CTFD_NOT_CHILD && ctf_import(fp, NULL) == 0);
    ctf_close(fp);
    CHECK(ctf_type_size(again, pointer) == 4);
    ctf_close(again);
    ctf_close(NULL);
}

/* Look-ups by names as programs write them, and the names that calls return. */
static void names(void)
{
    ctf_id_t state = ctf_lookup_by_name(lua, "struct lua_State");
    ctf_id_t pointer = ctf_lookup_by_name(lua, "struct lua_State *"), t;
    char text[256], again[256];
    CHECK(ctf_lookup_by_name(lua, "const struct  lua_State") == state);
    CHECK(ctf_lookup_by_name(lua, "  struct\tlua_State  ") == state);
    CHECK(ctf_lookup_by_name(lua, "volatile struct lua_State*const restrict") == pointer);
    CHECK(ctf_lookup_by_name(lua, "struct lua_State const *") == pointer);
    CHECK(ctf_lookup_by_name(lua, "static const char *") == ctf_lookup_by_name(lua, "char *"));
    CHECK(ctf_lookup_by_name(lua, "unsigned  int") == ctf_lookup_by_name(lua, "unsigned int"));
    CHECK(ctf_lookup_by_name(lua, "const") == CTF_ERR && ctf_errno(lua) == ECTF_SYNTAX);
    CHECK(ctf_lookup_by_name(lua, "") == CTF_ERR && ctf_errno(lua) == ECTF_SYNTAX);
    CHECK(ctf_lookup_by_name(lua, "constable") == CTF_ERR && ctf_errno(lua) == ECTF_NOTYPE);
    CHECK(is(ctf_type_cname(lua, pointer, text, sizeof text, "L"), "struct lua_State *L"));
    CHECK(is(ctf_type_cname(lua, state, text, sizeof text, "s"), "struct lua_State s"));
    CHECK(ctf_type_cname(lua, state, text, 18, "s") == NULL && ctf_errno(lua) == ECTF_NAMELEN);
    CHECK(ctf_type_qlname(lua, pointer, text, 8, "m") == 20 && is(text, "struct "));
    CHECK(ctf_type_qlname(lua, pointer, text, 0, NULL) == 18);
    CHECK(is(ctf_kind_name(lua, CTF_K_RESTRICT), "restrict") && ctf_kind_name(lua, 14) == NULL);
    for (t = 1; t <= 526; t++) {
        const char *name = ctf_type_name(lua, t, text, sizeof text);
        CHECK(name != NULL && is(ctf_type_cname(lua, t, again, sizeof again, ""), name));
    }
}

/* Declarations with nested declarators, for types of a draft. */
static void declarations(void)
{
    static const ctf_encoding_t signed_int = { CTF_INT_SIGNED, 0, 32 };
    int error = 0;
    ctf_file_t *fp = ctf_create(&error);
    ctf_arinfo_t info = { 1, 1, 10 };
    ctf_funcinfo_t signature = { 0, 0, 0 };
    ctf_id_t array, to_array, function, handler, unalterable, nothing;
    char text[64];
    CHECK(fp != NULL);
    if (fp == NULL)
        return;
    CHECK(ctf_add_integer(fp, CTF_ADD_ROOT, "int", &signed_int) == 1);
    array = ctf_add_array(fp, CTF_ADD_ROOT, &info);
    to_array = ctf_add_pointer(fp, CTF_ADD_ROOT, NULL, array);
    signature.ctc_return = to_array;
    function = ctf_add_function(fp, CTF_ADD_ROOT, NULL, &signature, NULL);
    handler = ctf_add_pointer(fp, CTF_ADD_ROOT, NULL, function);
    unalterable = ctf_add_const(fp, CTF_ADD_ROOT, NULL, handler);
    nothing = ctf_add_pointer(fp, CTF_ADD_ROOT, NULL, 0);
    CHECK(ctf_update(fp) == 0);
    CHECK(is(ctf_type_cname(fp, array, text, sizeof text, "a"), "int a[10]"));
    CHECK(is(ctf_type_cname(fp, to_array, text, sizeof text, "p"), "int (*p)[10]"));
    CHECK(is(ctf_type_cname(fp, function, text, sizeof text, "f"), "int (*f())[10]"));
    CHECK(is(ctf_type_cname(fp, handler, text, sizeof text, "h"), "int (*(*h)())[10]"));
    CHECK(is(ctf_type_cname(fp, unalterable, text, sizeof text, "h"), "int (*(*const h)())[10]"));
    CHECK(is(ctf_type_qname(fp, unalterable, text, sizeof text, "m"), "m`int (*(*const)())[10]"));
    CHECK(is(ctf_type_cname(fp, nothing, text, sizeof text, "v"), "void *v"));
    ctf_close(fp);
}

static int on_string(const char *text, void *arg)
{
    CHECK(arg == &seen && (*text == '\0') == (seen.calls == 0));
    return told("", 0);
}

/* The labels, bytes and strings of a draft. */
static void bytes(void)
{
    static const ctf_encoding_t signed_int = { CTF_INT_SIGNED, 0, 32 };
    const void *data = NULL;
    size_t size = 0;
    int error = 0;
    ctf_lblinfo_t label = { 0 };
    ctf_file_t *fp = ctf_create(&error);
    CHECK(fp != NULL);
    if (fp == NULL)
        return;
    CHECK(ctf_add_integer(fp, CTF_ADD_ROOT, "int", &signed_int) == 1);
    CHECK(ctf_add_label(fp, "one", 1, 0) == 0);
    CHECK(ctf_add_label(fp, "two", 1, 0) == -1 && ctf_errno(fp) == ENOTSUP);
    CHECK(ctf_add_label(fp, "two", 1, (uint_t)CTF_LABEL_LASTIDX) == 0);
    CHECK(ctf_add_label(fp, NULL, 1, 2) == -1 && ctf_update(fp) == 0);
    CHECK(is(ctf_label_topmost(fp), "two"));
    CHECK(ctf_label_info(fp, "one", &label) == 0 && label.ctb_typeidx == 1);
    ctf_dataptr(fp, &data, &size);
    CHECK(size > 36 && memcmp(data, "\xf1\xcf\x02", 3) == 0);
    begin(0);
    CHECK(ctf_string_iter(fp, on_string, &seen) == 0);
    CHECK(seen.calls == 4);
    begin(2);
    CHECK(ctf_string_iter(lua, on_string, &seen) == 7 && seen.calls == 2);
    ctf_dataptr(lua, &data, &size);
    CHECK(size > 20000 && memcmp(data, "\xf1\xcf\x02", 3) == 0);
    ctf_dataptr(lua, NULL, NULL);
    ctf_close(fp);
}

static void refused_files(const char *folder)
{
    int error = 0;
    char fifo[4096];
    snprintf(fifo, sizeof fifo, "%s/fifo", folder);
    CHECK(mkfifo(fifo, 0600) == 0);
    alarm(60);
    CHECK(ctf_open(fifo, &error) == NULL && error == EINVAL);
    CHECK(ctf_open("/dev/zero", &error) == NULL && error == EINVAL);
    alarm(0);
    CHECK(unlink(fifo) == 0);
    CHECK(ctf_open("/no/such/file", &error) == NULL && error == ENOENT);
    CHECK(is(ctf_errmsg(error), strerror(ENOENT)));
    CHECK(ctf_open(folder, &error) == NULL && error == EINVAL);
    CHECK(ctf_open("/proc/self/exe", &error) == NULL);
    CHECK(error == ECTF_NOCTFDATA || error == ECTF_ZMISSING);
    CHECK(strstr(ctf_errmsg(ECTF_ZMISSING), "libctfd_elf") != NULL);
    CHECK(ctf_bufopen(NULL, NULL, NULL, &error) == NULL && error == EINVAL);
    CHECK(ctf_version(0) == 2 && ctf_version(3) == -1);
}

/* Adds the types of a small program, and reads them back from the written file. */
static void drafts(const char *folder)
{
    static const ctf_encoding_t signed_int = { CTF_INT_SIGNED, 0, 32 };
    char path[4096];
    int error = 0, fd;
    ctf_file_t *fp = ctf_create(&error), *child = ctf_create(&error), *read;
    ctf_id_t number, node, to, color, array, function, args[1];
    ctf_arinfo_t info = { 0, 0, 5 };
    ctf_funcinfo_t signature = { 0, 1, CTF_FUNC_VARARG };
    ctf_membinfo_t member = { 0, 0 };
    CHECK(fp != NULL && child != NULL);
    if (fp == NULL || child == NULL)
        return;
    number = ctf_add_integer(fp, CTF_ADD_ROOT, "int", &signed_int);
    node = ctf_add_struct(fp, CTF_ADD_ROOT, "node");
    to = ctf_add_pointer(fp, CTF_ADD_NONROOT, NULL, node);
    CHECK(number == 1 && node == 2 && to == 3);
    CHECK(ctf_type_kind(fp, number) == -1);
    CHECK(ctf_add_member(fp, node, "value", number, ULONG_MAX) == 0);
    CHECK(ctf_add_member(fp, node, "next", to, ULONG_MAX) == 0);
    CHECK(ctf_add_member(fp, node, "next", to, ULONG_MAX) == -1);
    CHECK(ctf_errno(fp) == ECTF_DUPMEMBER);
    color = ctf_add_enum(fp, CTF_ADD_ROOT, "color", 0);
    CHECK(ctf_add_enumerator(fp, color, "red", -1) == 0);
    info.ctr_contents = info.ctr_index = number;
    array = ctf_add_array(fp, CTF_ADD_ROOT, &info);
    signature.ctc_return = args[0] = number;
    function = ctf_add_function(fp, CTF_ADD_ROOT, "", &signature, args);
    CHECK(array == 5 && function == 6);
    CHECK(ctf_add_forward(fp, CTF_ADD_ROOT, "f", CTF_K_INTEGER) == CTF_ERR);
    CHECK(ctf_add_typedef(fp, 9, "t", number) == CTF_ERR);
    CHECK(ctf_errno(fp) == EINVAL);
    CHECK(ctf_add_typedef(fp, CTF_ADD_ROOT, "t", 99) == CTF_ERR && ctf_fault(fp) == CTFD_BAD_REF);
    CHECK(ctf_update(fp) == 0 && ctf_type_size(fp, node) == 16);
    begin(0);
    CHECK(ctf_type_iter(fp, B_TRUE, on_type, &seen) == 0 && seen.calls == 6);
    begin(0);
    CHECK(ctf_type_iter(fp, B_FALSE, on_type, &seen) == 0 && seen.calls == 5);
    CHECK(ctf_add_union(fp, CTF_ADD_ROOT, "u") == 7 && ctf_discard(fp) == 0);
    CHECK(ctf_type_kind(fp, 7) == -1 && ctf_errno(fp) == ECTF_BADID);
    CHECK(ctf_func_info_by_id(fp, function, &signature) == 0);
    CHECK(signature.ctc_argc == 1 && signature.ctc_flags == CTF_FUNC_VARARG);
    CHECK(ctf_import(child, fp) == 0 && ctf_parent_file(child) == fp);
    CHECK(ctf_add_volatile(child, CTF_ADD_ROOT, NULL, number) == 32769);
    CHECK(ctf_update(child) == 0 && ctf_type_size(child, 32769) == 4);
    CHECK(ctf_import(child, fp) == -1 && ctf_fault(child) == CTFD_FIXED_PARENT);
    CHECK(is(ctf_parent_name(child), "PARENT"));
    snprintf(path, sizeof path, "%s/own.ctf", folder);
    fd = open(path, O_WRONLY | O_CREAT | O_TRUNC, 0600);
    CHECK(fd >= 0 && ctf_write(fp, fd) == 0 && close(fd) == 0);
    CHECK(ctf_write(fp, -1) == -1 && ctf_errno(fp) == EBADF);
    ctf_close(fp);
    CHECK(ctf_type_size(child, node) == 16);
    ctf_close(child);
    read = ctf_open(path, &error);
    CHECK(read != NULL);
    if (read == NULL)
        return;
    CHECK(ctf_lookup_by_name(read, "struct node") == node);
    CHECK(ctf_member_info(read, node, "next", &member) == 0 && member.ctm_offset == 64);
    CHECK(is(ctf_enum_name(read, color, -1), "red"));
    CHECK(ctf_add_struct(read, CTF_ADD_ROOT, "x") == CTF_ERR && ctf_errno(read) == ECTF_RDONLY);
    ctf_close(read);
}

/* Whether a name lies in a block. */
static bool stands_in(const char *name, const char *block, size_t size)
{
    return name >= block && name < block + size;
}

/* Opens the bytes of a draft: int, struct node with a member, and enum color with red = -1. */
static ctf_file_t *open_copy(char **copy, size_t *size)
{
    static const ctf_encoding_t signed_int = { CTF_INT_SIGNED, 0, 32 };
    ctf_file_t *made, *fp = ctf_create(NULL);
    const void *data = NULL;
    ctf_sect_t section;
    memset(&section, 0, sizeof section);
    CHECK(ctf_add_integer(fp, CTF_ADD_ROOT, "int", &signed_int) == 1);
    CHECK(ctf_add_struct(fp, CTF_ADD_ROOT, "node") == 2);
    CHECK(ctf_add_member(fp, 2, "value", 1, ULONG_MAX) == 0);
    CHECK(ctf_add_enum(fp, CTF_ADD_ROOT, "color", 0) == 3);
    CHECK(ctf_add_enumerator(fp, 3, "red", -1) == 0 && ctf_update(fp) == 0);
    ctf_dataptr(fp, &data, size);
    *copy = (char *)malloc(*size);
    memcpy(*copy, data, *size);
    ctf_close(fp);
    section.cts_data = *copy;
    section.cts_size = *size;
    made = ctf_bufopen(&section, NULL, NULL, NULL);
    CHECK(made != NULL);
    return made;
}

/* Names lie in the sections of an open file; if only a child of it is left, they are copies. */
static void lent_names(void)
{
    char *copy;
    size_t size;
    int value = 0;
    ctf_file_t *fp = open_copy(&copy, &size), *child = ctf_create(NULL);
    const char *name = ctf_enum_name(fp, 3, -1);
    CHECK(is(name, "red") && stands_in(name, copy, size));
    CHECK(ctf_setmodel(fp, CTF_MODEL_ILP32) == 0 && ctf_enum_name(fp, 3, -1) == name);
    CHECK(ctf_enum_value(fp, 3, "red", &value) == 0 && value == -1);
    CHECK(ctf_import(child, fp) == 0);
    name = ctf_enum_name(child, 3, -1);
    CHECK(is(name, "red") && !stands_in(name, copy, size));
    ctf_close(fp);
    memset(copy, 0xff, size);
    free(copy);
    CHECK(is(ctf_enum_name(ctf_parent_file(child), 3, -1), "red"));
    CHECK(ctf_enum_value(ctf_parent_file(child), 3, "red", &value) == 0 && value == -1);
    CHECK(ctf_enum_value(ctf_parent_file(child), 3, "blue", &value) == -1);
    begin(0);
    CHECK(ctf_member_iter(ctf_parent_file(child), 2, on_member, &seen) == 0);
    CHECK(seen.calls == 1 && is(seen.first_name, "value"));
    begin(0);
    CHECK(ctf_member_iter(child, 2, on_member, &seen) == 0 && is(seen.first_name, "value"));
    CHECK(ctf_enum_value(child, 3, "red", &value) == 0 && value == -1);
    CHECK(ctf_enum_name(child, 3, 0) == NULL && ctf_fault(child) == CTFD_NO_MEMBER);
    ctf_close(child);
}

/* One open file for both headers; and the fault behind an error code that several faults share. */
static void both_headers(void)
{
    /* A header, and a string section of one byte, which should be 0. */
    static const char damaged[37] = { '\xf1', '\xcf', 2, [32] = 1, [36] = 'x' };
    ctf_sect_t section;
    struct ctfd *types = ctfd_of(lua);
    uint32_t kind = 0;
    int error = 0;
    CHECK(types != NULL && ctfd_kind(types, 1, &kind) == CTFD_OK);
    CHECK((int)kind == ctf_type_kind(lua, 1));
    memset(&section, 0, sizeof section);
    section.cts_data = damaged;
    section.cts_size = 4;
    CHECK(ctf_bufopen(&section, NULL, NULL, &error) == NULL);
    CHECK(error == ECTF_NOCTFBUF && ctf_fault(NULL) == CTFD_SHORT_HEADER);
    section.cts_size = sizeof damaged;
    CHECK(ctf_bufopen(&section, NULL, NULL, &error) == NULL);
    CHECK(error == ECTF_CORRUPT && ctf_fault(NULL) == CTFD_BAD_STRINGS);
    CHECK(ctf_type_size(lua, 70000) == -1 && ctf_fault(lua) == CTFD_NO_TYPE);
    CHECK(ctf_setmodel(lua, 9) == -1 && ctf_fault(lua) == CTFD_OK && ctf_errno(lua) == EINVAL);
    CHECK(is(ctf_errmsg(ECTF_FAULT + CTFD_INCOMPLETE),
        "Incomplete: the type has no size, alignment or value"));
    CHECK(is(ctfd_version(), CTFD_VERSION));
}

int main(int argc, char **argv)
{
    struct bytes ctf, sym, strs;
    ctf_sect_t sections[3];
    char file[4096];
    int error = 0;
    if (argc != 3)
        return 2;
    memset(sections, 0, sizeof sections);
    ctf = read_in(argv[1], "lua.ctf");
    sym = read_in(argv[1], "lua.sym");
    strs = read_in(argv[1], "lua.str");
    sections[0].cts_data = ctf.at;
    sections[0].cts_size = ctf.len;
    sections[1].cts_data = sym.at;
    sections[1].cts_size = sym.len;
    sections[2].cts_data = strs.at;
    sections[2].cts_size = strs.len;
    lua = ctf_bufopen(&sections[0], &sections[1], &sections[2], &error);
    if (lua == NULL) {
        printf("open: %s\n", ctf_errmsg(error));
        return 1;
    }
    types();
    parts();
    lists();
    all();
    symbols();
    functions();
    names();
    bytes();
    both_headers();
    ctf_close(lua);
    snprintf(file, sizeof file, "%s/lua.ctf", argv[1]);
    models(file);
    declarations();
    refused_files(argv[2]);
    drafts(argv[2]);
    lent_names();
    free_bytes(&ctf);
    free_bytes(&sym);
    free_bytes(&strs);
    return counted("libctf");
}
