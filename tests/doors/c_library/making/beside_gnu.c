/* beside_gnu ROUNDS SEED: random calls of GNU's header that make dictionaries and ask about them,
 * with their results printed. Compiled with libctfd and with GNU's own library, it prints the same.
 *
 * It avoids what GNU's library (2.40) gets wrong: explicit offsets of first members and of members
 * of unions, which it changes to 0; members placed before others, after which a struct gets
 * smaller; members after an enum, which has no bits there; and names of functions and arrays, which
 * it does not spell as C does. */
#include <ctf-api.h>

#include "random.h"

#include <stdbool.h>
#include <string.h>

enum {
    PARENT,
    CHILD,
    BOTH,
    MOST = 4000
};

static ctf_dict_t *made[BOTH];
static ctf_id_t types[BOTH][MOST];
static int count[BOTH];

/* A type's number, with those of a child numbered from 100,000 in both libraries. */
static long number_of(ctf_id_t type)
{
    if (type == CTF_ERR)
        return -1;
    if ((type & 0x80000000ul) != 0)
        return 100000 + (long)(type & 0x7fffffff);
    return type > 0x7fff ? 100000 + (long)(type - 0x8000) : (long)type;
}

static ctf_id_t some_type(int which)
{
    int of = which == CHILD && below(2) != 0 && count[CHILD] != 0 ? CHILD : PARENT;
    return count[of] != 0 ? types[of][below((unsigned)count[of])] : 0;
}

static void show(const char *what, int which, ctf_id_t type)
{
    printf("%s %d %ld %d\n", what, which, number_of(type),
        type != CTF_ERR ? 0 : ctf_errno(made[which]));
}

/* ---- questions */

static int on_member(const char *name, ctf_id_t type, unsigned long offset, void *arg)
{
    (void)arg;
    printf("  .%s %ld %lu\n", name, number_of(type), offset);
    return 0;
}

static int on_enumerator(const char *name, int value, void *arg)
{
    (void)arg;
    printf("  =%s %d\n", name, value);
    return 0;
}

static void ask_members(ctf_dict_t *of, ctf_id_t type)
{
    ctf_membinfo_t member;
    char name[16];
    (void)ctf_member_iter(of, type, on_member, NULL);
    printf("  count %d\n", ctf_member_count(of, type));
    sprintf(name, "m%u", below(12));
    if (ctf_member_info(of, type, name, &member) == 0)
        printf("  %s at %lu %ld\n", name, member.ctm_offset, number_of(member.ctm_type));
    else
        printf("  no %s %d\n", name, ctf_errno(of));
}

static void ask_enumerators(ctf_dict_t *of, ctf_id_t type)
{
    const char *name;
    int value = 0;
    (void)ctf_enum_iter(of, type, on_enumerator, NULL);
    name = ctf_enum_name(of, type, (int)below(8));
    printf("  name %s value %d\n", name != NULL ? name : "none",
        ctf_enum_value(of, type, "m3", &value) == 0 ? value : -99);
}

static void ask(int which, ctf_id_t type)
{
    ctf_dict_t *of = made[which];
    ctf_arinfo_t array;
    char name[600];
    int kind = ctf_type_kind(of, type);
    long size;
    printf("ask %d %ld kind %d\n", which, number_of(type), kind);
    if (kind < 0)
        return;
    size = (long)ctf_type_size(of, type);
    printf("  size %ld", size < 0 ? -1 : size);
    if (size >= 0 && kind != CTF_K_FUNCTION)
        printf(" align %ld", (long)ctf_type_align(of, type));
    if (kind != CTF_K_FUNCTION && ctf_type_name(of, type, name, sizeof name) != NULL &&
        strpbrk(name, "([") == NULL)
        printf(" name %s", name);
    printf(" resolve %ld", number_of(ctf_type_resolve(of, type)));
    printf(" reference %ld\n", number_of(ctf_type_reference(of, type)));
    if (kind == CTF_K_STRUCT || kind == CTF_K_UNION)
        ask_members(of, type);
    else if (kind == CTF_K_ENUM)
        ask_enumerators(of, type);
    else if (kind == CTF_K_ARRAY && ctf_array_info(of, type, &array) == 0)
        printf("  [%u] of %ld\n", array.ctr_nelems, number_of(array.ctr_contents));
}

static void look_up(int which)
{
    static const char *const words[] = { "struct ", "union ", "enum " };
    char name[32];
    const char *word = words[below(3)];
    unsigned of = below(25);
    sprintf(name, "%sn%u%s", word, of, below(3) != 0 ? "" : " *");
    show(name, which, ctf_lookup_by_name(made[which], name));
}

/* ---- additions */

static ctf_id_t add_tagged(ctf_dict_t *to, unsigned kind, const char *name)
{
    switch (kind) {
    case 0:
    case 1: return ctf_add_struct(to, CTF_ADD_ROOT, below(5) != 0 ? name : NULL);
    case 2: return ctf_add_union(to, CTF_ADD_ROOT, below(5) != 0 ? name : NULL);
    case 3: return ctf_add_enum(to, CTF_ADD_ROOT, name);
    default: return ctf_add_forward(to, CTF_ADD_ROOT, name, CTF_K_STRUCT + below(3));
    }
}

/* Adds a type; returns 0 if there is no type yet to which it could refer. */
static ctf_id_t add_type(int which)
{
    ctf_dict_t *to = made[which];
    ctf_encoding_t encoding = { below(2), 0, 8u << below(4) };
    ctf_id_t type = some_type(which);
    ctf_arinfo_t array = { type, type, below(9) };
    unsigned choice = below(11), flag = below(5) != 0, of = below(25);
    char name[32];
    sprintf(name, choice < 2 ? "t%d_%d" : "n%u", choice < 2 ? which : (int)of, count[which]);
    if (choice != 0 && choice < 5 && type == 0)
        return 0;
    switch (choice) {
    case 0: return ctf_add_integer(to, flag, name, &encoding);
    case 1: return ctf_add_typedef(to, flag, name, type);
    case 2: return ctf_add_pointer(to, flag, type);
    case 3: return ctf_add_const(to, flag, type);
    case 4: return ctf_add_array(to, flag, &array);
    default: return add_tagged(to, choice - 5, name);
    }
}

/* Whether a type may be a member of another: it has a size, precedes it, and GNU's library places
 * it correctly. */
static int may_be_member(ctf_dict_t *of, ctf_id_t type, ctf_id_t in)
{
    int stands_for = ctf_type_kind(of, ctf_type_resolve(of, type));
    if (type == 0 || (type >= in && ctf_type_kind(of, type) != CTF_K_POINTER))
        return 0;
    return ctf_type_size(of, type) >= 0 && stands_for != CTF_K_FUNCTION && stands_for != CTF_K_ENUM;
}

static void add_item(void)
{
    int which = below(2) != 0 && count[CHILD] != 0 ? CHILD : PARENT, kind, got;
    ctf_dict_t *to = made[which];
    ctf_id_t in, type = some_type(which);
    char name[16];
    if (count[which] == 0)
        return;
    in = types[which][below((unsigned)count[which])];
    kind = ctf_type_kind(to, in);
    sprintf(name, "m%u", below(12));
    if (kind == CTF_K_ENUM) {
        got = ctf_add_enumerator(to, in, name, (int)below(8));
    } else if ((kind == CTF_K_STRUCT || kind == CTF_K_UNION) && may_be_member(to, type, in)) {
        unsigned place = 8 * ((unsigned)ctf_type_size(to, in) + below(20));
        bool is_placed = below(3) == 0 && kind == CTF_K_STRUCT && ctf_member_count(to, in) > 0;
        got = is_placed ? ctf_add_member_offset(to, in, name, type, place)
                        : ctf_add_member(to, in, name, type);
    } else {
        return;
    }
    printf("item %d %ld %s %d %d\n", which, number_of(in), name, got, got == 0 ? 0 : ctf_errno(to));
}

static void keep(int which, ctf_id_t type)
{
    int i;
    for (i = 0; i < count[which]; i++) {
        if (types[which][i] == type)
            return;
    }
    types[which][count[which]++] = type;
}

static void step(void)
{
    int which = below(3) == 0 ? CHILD : PARENT;
    unsigned choice = below(22);
    ctf_id_t type;
    if (choice < 11) {
        type = add_type(which);
        if (type != 0)
            show("add", which, type);
        if (type != 0 && type != CTF_ERR)
            keep(which, type);
    } else if (choice < 16) {
        add_item();
    } else if (choice == 16) {
        look_up(which);
    } else if ((type = some_type(which)) != 0) {
        ask(which, type);
    }
}

/* Rolls the child back to a snapshot, and prints which of its types are left. */
static void roll_back(ctf_snapshot_id_t to, int were)
{
    int i;
    printf("rollback %d\n", ctf_rollback(made[CHILD], to));
    for (i = 0; i < count[CHILD]; i++)
        printf("%ld %d\n", number_of(types[CHILD][i]),
            i < were ? ctf_type_kind(made[CHILD], types[CHILD][i]) : 0);
}

int main(int argc, char **argv)
{
    unsigned i, steps, rounds = argc > 1 ? (unsigned)atoi(argv[1]) : 100;
    int which, error = 0, j;
    seed(argc > 2 ? (unsigned long long)atoll(argv[2]) : 1);
    for (round_number = 0; round_number < rounds; round_number++) {
        ctf_snapshot_id_t snapshot = { 0, 0 };
        int were = 0;
        made[PARENT] = ctf_create(&error);
        made[CHILD] = ctf_create(&error);
        (void)ctf_import(made[CHILD], made[PARENT]);
        count[PARENT] = count[CHILD] = 0;
        steps = 20 + below(200);
        printf("round %u\n", round_number);
        for (i = 0; i < steps; i++) {
            step();
            if (i == steps / 2) {
                snapshot = ctf_snapshot(made[CHILD]);
                were = count[CHILD];
            }
        }
        for (which = PARENT; which < BOTH; which++) {
            for (j = 0; j < count[which]; j++)
                ask(which, types[which][j]);
        }
        roll_back(snapshot, were);
        ctf_dict_close(made[CHILD]);
        ctf_dict_close(made[PARENT]);
    }
    return 0;
}
