/* What gdb's ctfread does, following the list of its calls, through GNU's header: it iterates over
 * all types, and asks about each what a symbol table needs. The types are first made through the
 * same header, so GNU's own library prints the same. */
#include <ctf-api.h>

#include <stdio.h>
#include <stdlib.h>

static int on_member(const char *name, ctf_id_t type, unsigned long offset, void *arg)
{
    ctf_dict_t *fp = (ctf_dict_t *)arg;
    ctf_encoding_t encoding;
    printf("  %s: type %lu at %lu", name, type, offset);
    if (ctf_type_encoding(fp, type, &encoding) == 0)
        printf(", %u bits", encoding.cte_bits);
    puts("");
    return 0;
}

static int on_enumerator(const char *name, int value, void *arg)
{
    (void)arg;
    printf("  %s = %d\n", name, value);
    return 0;
}

/* read_func_kind_type and read_array_type */
static void read_parts(ctf_dict_t *fp, ctf_id_t type, int kind)
{
    ctf_funcinfo_t info;
    ctf_arinfo_t array;
    ctf_id_t arguments[8];
    uint32_t i;
    if (kind == CTF_K_ARRAY && ctf_array_info(fp, type, &array) == 0)
        printf("  %u of %lu by %lu\n", array.ctr_nelems, array.ctr_contents, array.ctr_index);
    if (kind != CTF_K_FUNCTION || ctf_func_type_info(fp, type, &info) != 0)
        return;
    printf("  returns %lu, %u arguments, %u\n", info.ctc_return, info.ctc_argc, info.ctc_flags);
    if (ctf_func_type_args(fp, type, info.ctc_argc, arguments) == 0) {
        for (i = 0; i < info.ctc_argc; i++)
            printf("  argument %lu\n", arguments[i]);
    }
}

/* ctf_add_type_cb */
static int on_type(ctf_id_t type, void *arg)
{
    ctf_dict_t *fp = (ctf_dict_t *)arg;
    int kind = ctf_type_kind(fp, type);
    const char *name = ctf_type_name_raw(fp, type);
    ctf_encoding_t encoding;
    printf("%lu: kind %d, name '%s'", type, kind, name != NULL ? name : "");
    if (kind != CTF_K_FUNCTION && kind != CTF_K_FORWARD)
        printf(", %ld bytes", (long)ctf_type_size(fp, type));
    if ((kind == CTF_K_INTEGER || kind == CTF_K_FLOAT) &&
        ctf_type_encoding(fp, type, &encoding) == 0)
        printf(", format %u, %u bits", encoding.cte_format, encoding.cte_bits);
    if (kind == CTF_K_FORWARD)
        printf(", of kind %d", ctf_type_kind_forwarded(fp, type));
    if (kind == CTF_K_POINTER || kind >= CTF_K_TYPEDEF)
        printf(", leads to %lu", ctf_type_reference(fp, type));
    puts("");
    if (kind == CTF_K_STRUCT || kind == CTF_K_UNION)
        ctf_member_iter(fp, type, on_member, fp);
    else if (kind == CTF_K_ENUM)
        ctf_enum_iter(fp, type, on_enumerator, fp);
    else
        read_parts(fp, type, kind);
    return 0;
}

static void make(ctf_dict_t *fp)
{
    ctf_encoding_t of_int = { CTF_INT_SIGNED, 0, 32 }, of_char = { CTF_INT_CHAR, 0, 8 },
                   of_double = { CTF_FP_DOUBLE, 0, 64 };
    ctf_id_t number = ctf_add_integer(fp, CTF_ADD_ROOT, "int", &of_int);
    ctf_id_t character = ctf_add_integer(fp, CTF_ADD_ROOT, "char", &of_char);
    ctf_id_t real = ctf_add_float(fp, CTF_ADD_ROOT, "double", &of_double);
    ctf_id_t node = ctf_add_struct(fp, CTF_ADD_ROOT, "node");
    ctf_id_t to_node = ctf_add_pointer(fp, CTF_ADD_ROOT, node);
    ctf_id_t constant = ctf_add_const(fp, CTF_ADD_ROOT, character);
    ctf_arinfo_t of_name = { constant, number, 16 };
    ctf_id_t name = ctf_add_array(fp, CTF_ADD_ROOT, &of_name), either, color;
    ctf_funcinfo_t info = { number, 2, CTF_FUNC_VARARG };
    ctf_id_t arguments[2] = { 0, 0 };
    arguments[0] = to_node;
    arguments[1] = real;
    ctf_add_function(fp, CTF_ADD_ROOT, &info, arguments);
    ctf_add_member(fp, node, "next", to_node);
    ctf_add_member(fp, node, "name", name);
    ctf_add_member(fp, node, "count", number);
    either = ctf_add_union(fp, CTF_ADD_ROOT, "either");
    ctf_add_member(fp, either, "number", number);
    ctf_add_member(fp, either, "real", real);
    color = ctf_add_enum(fp, CTF_ADD_ROOT, "color");
    ctf_add_enumerator(fp, color, "red", -1);
    ctf_add_enumerator(fp, color, "blue", 7);
    ctf_add_typedef(fp, CTF_ADD_ROOT, "node_t", node);
    ctf_add_volatile(fp, CTF_ADD_ROOT, number);
    ctf_add_restrict(fp, CTF_ADD_ROOT, to_node);
    ctf_add_forward(fp, CTF_ADD_ROOT, "elsewhere", CTF_K_UNION);
    ctf_add_objt_sym(fp, "first", node);
}

/* scan_partial_symbols: objects by name */
static void read_symbols(ctf_dict_t *fp)
{
    ctf_next_t *it = NULL;
    const char *name;
    ctf_id_t type;
    while ((type = ctf_symbol_next(fp, &it, &name, 0)) != CTF_ERR)
        printf("object %s: type %lu\n", name, type);
    printf("at the end: %d\n", ctf_errno(fp) == ECTF_NEXT_END);
}

int main(void)
{
    int error = 0;
    ctf_dict_t *fp = ctf_create(&error);
    if (fp == NULL)
        return 1;
    make(fp);
    ctf_type_iter(fp, on_type, fp);
    read_symbols(fp);
    ctf_dict_close(fp);
    return 0;
}
