/* What libdtrace does with its two dictionaries, following the list of its calls: dt_open makes
 * both, and imports one; declarations come one by one, each followed by an update; pointers are
 * added when needed; a forward is defined later. For illumos' header, or with -DGNU for GNU's. */
#ifdef GNU
#include <ctf-api.h>
typedef ctf_dict_t dict;
#define add_ref(kind, d, n, t) ctf_add_##kind(d, CTF_ADD_ROOT, t)
#define add_member(d, s, n, t) ctf_add_member(d, s, n, t)
#define add_enum(d, n) ctf_add_enum(d, CTF_ADD_ROOT, n)
#define shut ctf_dict_close
#else
#include <ctfd_libctf.h>
typedef ctf_file_t dict;
#define add_ref(kind, d, n, t) ctf_add_##kind(d, CTF_ADD_ROOT, n, t)
#define add_member(d, s, n, t) ctf_add_member(d, s, n, t, ULONG_MAX)
#define add_enum(d, n) ctf_add_enum(d, CTF_ADD_ROOT, n, 4)
#define shut ctf_close
#endif
#include <limits.h>
#include <stdio.h>
#include <stdlib.h>

/* The dictionaries of C and of D: D's is a child of C's. */
static dict *of_c, *of_d;

static ctf_id_t must(dict *f, ctf_id_t t, const char *what)
{
    if (t == CTF_ERR) {
        printf("%s: %s\n", what, ctf_errmsg(ctf_errno(f)));
        exit(1);
    }
    return t;
}

/* dt_type_pointer: the existing pointer to a type, or a new one in D's dictionary. */
static ctf_id_t pointer(dict *f, ctf_id_t t)
{
    ctf_id_t p = ctf_type_pointer(f, t);
    if (p != CTF_ERR)
        return p;
    p = must(of_d, add_ref(pointer, of_d, NULL, t), "pointer");
    if (ctf_update(of_d) != 0)
        exit(1);
    return p;
}

static int on_member(const char *name, ctf_id_t type, unsigned long offset, void *arg)
{
    char text[100];
    printf("  %s %s at %lu\n", ctf_type_name(arg, type, text, sizeof text), name, offset);
    return 0;
}

static void show(dict *f, const char *name)
{
    char text[100];
    ctf_id_t t = ctf_lookup_by_name(f, name);
    if (t == CTF_ERR) {
        printf("%s: not there\n", name);
        return;
    }
    printf("%s: kind %d size %ld align %ld name %s\n", name, ctf_type_kind(f, t),
        (long)ctf_type_size(f, t), (long)ctf_type_align(f, t),
        ctf_type_name(f, t, text, sizeof text));
    if (ctf_type_kind(f, t) == CTF_K_STRUCT)
        ctf_member_iter(f, t, on_member, f);
}

/* dt_open: both dictionaries, and the base types of C. */
static void begin(void)
{
    static const struct {
        const char *name;
        ctf_encoding_t encoding;
    } base[] = { { "char", { CTF_INT_SIGNED | CTF_INT_CHAR, 0, 8 } },
        { "short", { CTF_INT_SIGNED, 0, 16 } }, { "int", { CTF_INT_SIGNED, 0, 32 } },
        { "long", { CTF_INT_SIGNED, 0, 64 } }, { "unsigned int", { 0, 0, 32 } },
        { "unsigned long long", { 0, 0, 64 } } };
    int error;
    size_t i;
    of_c = ctf_create(&error);
    of_d = ctf_create(&error);
    ctf_setmodel(of_c, CTF_MODEL_LP64);
    if (ctf_import(of_d, of_c) != 0)
        printf("import: %s\n", ctf_errmsg(ctf_errno(of_d)));
    for (i = 0; i < sizeof base / sizeof base[0]; i++)
        must(of_c, ctf_add_integer(of_c, CTF_ADD_ROOT, base[i].name, &base[i].encoding),
            base[i].name);
    if (ctf_update(of_c) != 0)
        exit(1);
}

/* A string type of D, from a pointer that C's dictionary lacks. */
static ctf_id_t add_string(void)
{
    ctf_id_t character = must(of_d, ctf_lookup_by_name(of_d, "char"), "char");
    ctf_id_t t = must(
        of_d, ctf_add_typedef(of_d, CTF_ADD_ROOT, "string_t", pointer(of_d, character)), "typedef");
    ctf_update(of_d);
    show(of_d, "string_t");
    show(of_d, "char *");
    return t;
}

/* dt_decl_sou: struct node { int value; struct later *next; char name[16]; }, member by member, and
 * then the definition of struct later. */
static ctf_id_t declare_structs(ctf_id_t number, ctf_id_t character)
{
    ctf_id_t node, later, to_later, array;
    ctf_arinfo_t info = { character, number, 16 };
    ctf_membinfo_t member;
    node = must(of_c, ctf_add_struct(of_c, CTF_ADD_ROOT, "node"), "struct");
    ctf_update(of_c);
    later = must(of_c, ctf_add_forward(of_c, CTF_ADD_ROOT, "later", CTF_K_STRUCT), "forward");
    ctf_update(of_c);
    to_later = must(of_c, add_ref(pointer, of_c, NULL, later), "pointer");
    ctf_update(of_c);
    array = must(of_c, ctf_add_array(of_c, CTF_ADD_ROOT, &info), "array");
    ctf_update(of_c);
    printf("%d ", add_member(of_c, node, "value", number));
    printf("%d ", add_member(of_c, node, "next", to_later));
    printf("%d ", add_member(of_c, node, "name", array));
    ctf_update(of_c);
    printf("%d\n", add_member(of_c, node, "name", number));
    show(of_d, "struct node");
    show(of_d, "struct later");
    printf("size of later: %ld\n", (long)ctf_type_size(of_d, later));
    must(of_c, ctf_add_struct(of_c, CTF_ADD_ROOT, "later"), "define");
    ctf_update(of_c);
    printf("%d\n", add_member(of_c, later, "n", node));
    ctf_update(of_c);
    show(of_d, "struct later");
    printf("pointer leads to kind %d\n", ctf_type_kind(of_d, ctf_type_reference(of_d, to_later)));
    printf("member n: %d", ctf_member_info(of_d, later, "n", &member));
    printf(" %lu\n", member.ctm_offset);
    return later;
}

/* dt_decl_enumerator */
static void declare_enum(void)
{
    static const char *const names[] = { "red", "green", "blue" };
    ctf_id_t color = must(of_c, add_enum(of_c, "color"), "enum");
    int i;
    ctf_update(of_c);
    for (i = 0; i < 3; i++)
        printf("%d ", ctf_add_enumerator(of_c, color, names[i], i * i));
    printf("%d\n", ctf_add_enumerator(of_c, color, "red", 9));
    ctf_update(of_c);
    printf("%s %s\n", ctf_enum_name(of_d, color, 4), ctf_enum_name(of_d, color, 1));
}

/* dt_node_decl fails half-way, and what is pending is discarded; then it succeeds. */
static ctf_id_t declare_in_d(ctf_id_t later)
{
    ctf_id_t whole;
    must(of_d, ctf_add_struct(of_d, CTF_ADD_ROOT, "half"), "half");
    printf("discard %d\n", ctf_discard(of_d));
    show(of_d, "struct half");
    must(of_d, ctf_add_struct(of_d, CTF_ADD_ROOT, "whole"), "whole");
    ctf_update(of_d);
    whole = must(of_d, ctf_lookup_by_name(of_d, "struct whole"), "whole");
    printf("%d ", add_member(of_d, whole, "later", later));
    printf("%d\n", add_member(of_d, whole, "p", pointer(of_d, whole)));
    ctf_update(of_d);
    show(of_d, "struct whole");
    show(of_d, "struct whole *");
    show(of_d, "struct node *");
    return whole;
}

int main(void)
{
    ctf_id_t number, character, string, later, whole;
    begin();
    number = must(of_d, ctf_lookup_by_name(of_d, "int"), "int");
    character = must(of_d, ctf_lookup_by_name(of_d, "char"), "char");
    string = add_string();
    later = declare_structs(number, character);
    declare_enum();
    whole = declare_in_d(later);
    printf("compat %d %d\n", ctf_type_compat(of_c, number, of_d, number),
        ctf_type_compat(of_d, whole, of_c, later));
    printf("kind of string_t: %d\n", ctf_type_kind(of_d, string));
    shut(of_d);
    shut(of_c);
    return 0;
}
