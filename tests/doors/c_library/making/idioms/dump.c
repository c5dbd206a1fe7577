/* dump.c - what objdump does: prints a dictionary through ctf_dump, section by section, with each
 * line decorated. It prints the same with libctfd as with GNU's library. */
#include <ctf-api.h>

#include <stdio.h>
#include <stdlib.h>
#include <string.h>

static void check(int is_right, const char *what)
{
    if (!is_right) {
        printf("%s\n", what);
        exit(1);
    }
}

/* Replaces every second line by a new one, as a decorator may. */
static char *decorate(ctf_sect_names_t section, char *line, void *arg)
{
    unsigned *lines = (unsigned *)arg;
    char *made;
    if (++*lines % 2 != 0)
        return line;
    made = (char *)malloc(strlen(line) + 16);
    check(made != NULL, "memory");
    sprintf(made, "  %d| %s", (int)section, line);
    return made;
}

static void dump(ctf_dict_t *fp, ctf_sect_names_t section, ctf_dump_decorate_f *each)
{
    ctf_dump_state_t *state = NULL;
    unsigned lines = 0;
    char *text;
    while ((text = ctf_dump(fp, &state, section, each, &lines)) != NULL) {
        size_t len = strlen(text);
        printf("%s%s", text, len == 0 || text[len - 1] != '\n' ? "\n" : "");
        free(text);
    }
    check(state == NULL, "a state is left");
    printf("%d\n", ctf_errno(fp));
}

static ctf_id_t integer(ctf_dict_t *fp, const char *name, unsigned bits, unsigned format)
{
    ctf_encoding_t encoding = { format, 0, bits };
    return ctf_add_integer(fp, CTF_ADD_ROOT, name, &encoding);
}

static ctf_id_t enumeration(ctf_dict_t *fp, const char *name, int count)
{
    ctf_id_t made = ctf_add_enum(fp, CTF_ADD_ROOT, name);
    int i;
    for (i = 0; i < count; i++) {
        char text[16];
        sprintf(text, "%s_%d", name, i);
        check(ctf_add_enumerator(fp, made, text, i * i - 5) == 0, text);
    }
    return made;
}

static ctf_dict_t *types(void)
{
    int error = 0;
    ctf_dict_t *fp = ctf_create(&error);
    ctf_encoding_t real = { CTF_FP_DOUBLE, 0, 64 };
    ctf_arinfo_t array = { 0, 0, 12 };
    ctf_funcinfo_t no_arguments = { 0, 0, 0 };
    ctf_id_t i, c, f, point, pair, named, row, way;
    check(fp != NULL, "ctf_create");
    i = integer(fp, "int", 32, CTF_INT_SIGNED);
    c = integer(fp, "char", 8, CTF_INT_SIGNED | CTF_INT_CHAR);
    f = ctf_add_float(fp, CTF_ADD_ROOT, "double", &real);
    point = ctf_add_struct(fp, CTF_ADD_ROOT, "point");
    check(
        ctf_add_member(fp, point, "x", i) == 0 && ctf_add_member(fp, point, "y", f) == 0, "point");
    pair = ctf_add_union(fp, CTF_ADD_NONROOT, NULL);
    check(ctf_add_member(fp, pair, "a", i) == 0 && ctf_add_member(fp, pair, "b", c) == 0, "pair");
    named = ctf_add_struct(fp, CTF_ADD_ROOT, "named");
    check(ctf_add_member(fp, named, "at", point) == 0 && ctf_add_member(fp, named, "", pair) == 0,
        "named");
    array.ctr_contents = ctf_add_pointer(fp, CTF_ADD_ROOT, named);
    array.ctr_index = i;
    row = ctf_add_array(fp, CTF_ADD_ROOT, &array);
    way = ctf_add_typedef(fp, CTF_ADD_ROOT, "row_t", ctf_add_const(fp, CTF_ADD_ROOT, row));
    check(ctf_add_volatile(fp, CTF_ADD_ROOT, way) != CTF_ERR, "volatile");
    check(ctf_add_forward(fp, CTF_ADD_ROOT, "elsewhere", CTF_K_STRUCT) != CTF_ERR, "forward");
    no_arguments.ctc_return = i;
    check(ctf_add_function(fp, CTF_ADD_ROOT, &no_arguments, NULL) != CTF_ERR, "function");
    check(enumeration(fp, "few", 3) != CTF_ERR && enumeration(fp, "ten", 10) != CTF_ERR &&
            enumeration(fp, "many", 23) != CTF_ERR,
        "enums");
    check(ctf_add_variable(fp, "counter", i) == 0 && ctf_add_variable(fp, "rows", way) == 0,
        "variables");
    check(ctf_update(fp) == 0, "ctf_update");
    return fp;
}

int main(void)
{
    ctf_dict_t *fp = types();
    dump(fp, CTF_SECT_TYPE, NULL);
    dump(fp, CTF_SECT_TYPE, decorate);
    dump(fp, CTF_SECT_VAR, NULL);
    dump(fp, CTF_SECT_LABEL, decorate);
    dump(fp, CTF_SECT_FUNC, decorate);
    printf("%d\n", ctf_member_count(fp, ctf_lookup_by_name(fp, "enum many")));
    ctf_dict_close(fp);
    return 0;
}
