/* reopened ROUNDS SEED: random additions, updates, discards, deletions and promotions in a parent
 * and its child, through libctf's calls. Now and then both are written, and the opened bytes give
 * the same answers as the dictionaries in the making. */
#include "ctfd_libctf.h"

#include "random.h"

#include <limits.h>
#include <string.h>

enum {
    PARENT,
    CHILD,
    BOTH
};

static ctf_file_t *made[BOTH];
static unsigned count[BOTH], visible[BOTH];
static unsigned long refusals;

static ctf_id_t number(int which, unsigned place)
{
    return (ctf_id_t)((which == CHILD ? 32769 : 1) + place);
}

/* A type to which a dictionary may refer. */
static ctf_id_t some_type(int which)
{
    int of = which == CHILD && below(2) != 0 ? CHILD : PARENT;
    if (count[of] == 0)
        of = PARENT;
    return count[of] != 0 ? number(of, below(count[of])) : 0;
}

/* ---- comparison */

struct item {
    const char *name;
    long type, at;
};

struct items {
    struct item list[1100];
    int len;
};

static int on_member(const char *name, ctf_id_t type, ulong_t offset, void *arg)
{
    struct items *items = (struct items *)arg;
    struct item item = { name, type, (long)offset };
    items->list[items->len++] = item;
    return 0;
}

static int on_enumerator(const char *name, int value, void *arg)
{
    return on_member(name, 0, (ulong_t)value, arg);
}

static int on_visit(const char *name, ctf_id_t type, ulong_t offset, int depth, void *arg)
{
    unsigned long *sum = (unsigned long *)arg;
    *sum = *sum * 31 + (unsigned long)type + offset + (unsigned long)depth + (unsigned char)*name;
    return 0;
}

static void compare_items(ctf_file_t *wanted, ctf_file_t *seen, ctf_id_t t, bool is_enum)
{
    static struct items left, right;
    int i;
    left.len = right.len = 0;
    if (is_enum) {
        (void)ctf_enum_iter(wanted, t, on_enumerator, &left);
        (void)ctf_enum_iter(seen, t, on_enumerator, &right);
    } else {
        (void)ctf_member_iter(wanted, t, on_member, &left);
        (void)ctf_member_iter(seen, t, on_member, &right);
    }
    same("how many items", t, left.len, right.len);
    for (i = 0; i < left.len && i < right.len; i++) {
        same("an item's name", t, 0, strcmp(left.list[i].name, right.list[i].name) != 0);
        same("an item's type", t, left.list[i].type, right.list[i].type);
        same("an item's place", t, left.list[i].at, right.list[i].at);
    }
}

static void compare(ctf_file_t *wanted, ctf_file_t *seen, ctf_id_t t)
{
    char left[900] = "", right[900] = "";
    unsigned long sums[2] = { 0, 0 };
    int kind = ctf_type_kind(wanted, t);
    same("the kind", t, kind, ctf_type_kind(seen, t));
    if (kind < 0)
        return;
    same("the size", t, ctf_type_size(wanted, t), ctf_type_size(seen, t));
    same("the alignment", t, ctf_type_align(wanted, t), ctf_type_align(seen, t));
    same("what it stands for", t, ctf_type_resolve(wanted, t), ctf_type_resolve(seen, t));
    same("the reference", t, ctf_type_reference(wanted, t), ctf_type_reference(seen, t));
    (void)ctf_type_name(wanted, t, left, sizeof left);
    (void)ctf_type_name(seen, t, right, sizeof right);
    same("the name", t, 0, strcmp(left, right) != 0);
    if (kind == CTF_K_STRUCT || kind == CTF_K_UNION || kind == CTF_K_ENUM)
        compare_items(wanted, seen, t, kind == CTF_K_ENUM);
    (void)ctf_type_visit(wanted, t, on_visit, &sums[0]);
    (void)ctf_type_visit(seen, t, on_visit, &sums[1]);
    same("a visit", t, (long long)sums[0], (long long)sums[1]);
    same("compatibility", t, ctf_type_compat(wanted, t, seen, t),
        ctf_type_compat(seen, t, wanted, t));
}

/* Opens a copy of a dictionary's bytes; NULL if it cannot be written. */
static ctf_file_t *reopened(int which, char **copy)
{
    const void *data = NULL;
    size_t size = 0;
    ctf_sect_t section;
    ctf_file_t *opened;
    ctf_dataptr(made[which], &data, &size);
    *copy = NULL;
    if (data == NULL) {
        refusals++;
        return NULL;
    }
    *copy = (char *)malloc(size + 1);
    memcpy(*copy, data, size);
    memset(&section, 0, sizeof section);
    section.cts_data = *copy;
    section.cts_size = size;
    opened = ctf_bufopen(&section, NULL, NULL, NULL);
    same("whether the bytes open", 0, 1, opened != NULL);
    return opened;
}

static void compare_all(void)
{
    char *copies[BOTH];
    ctf_file_t *parent = reopened(PARENT, &copies[PARENT]),
               *child = reopened(CHILD, &copies[CHILD]);
    unsigned i;
    if (parent != NULL && child != NULL) {
        same("the import", 0, 0, ctf_import(child, parent));
        for (i = 0; i <= count[PARENT]; i++) {
            compare(made[PARENT], parent, number(PARENT, i));
            compare(made[CHILD], child, number(PARENT, i));
        }
        for (i = 0; i <= count[CHILD]; i++)
            compare(made[CHILD], child, number(CHILD, i));
    }
    ctf_close(child);
    ctf_close(parent);
    free(copies[CHILD]);
    free(copies[PARENT]);
}

static void update(int which)
{
    (void)ctf_update(made[which]);
    visible[which] = count[which];
}

/* ---- changes */

static ctf_id_t add_type(int which)
{
    ctf_file_t *to = made[which];
    ctf_encoding_t encoding = { below(2), 0, 8u << below(4) };
    ctf_id_t type = some_type(which), argument = some_type(which);
    ctf_arinfo_t array = { type, type, below(9) };
    ctf_funcinfo_t info = { type, 1, below(2) };
    unsigned flag = below(5) != 0;
    char name[16];
    sprintf(name, "n%u", below(20));
    switch (below(13)) {
    case 0: return ctf_add_integer(to, flag, name, &encoding);
    case 1:
    case 2: return ctf_add_pointer(to, flag, "", type);
    case 3: return ctf_add_typedef(to, flag, name, type);
    case 4: return ctf_add_volatile(to, flag, "", type);
    case 5: return ctf_add_array(to, flag, &array);
    case 6: return ctf_add_function(to, flag, name, &info, &argument);
    case 7:
    case 8: return ctf_add_struct(to, flag, below(5) != 0 ? name : NULL);
    case 9: return ctf_add_union(to, flag, name);
    case 10: return ctf_add_enum(to, flag, name, below(2) * 2);
    default: return ctf_add_forward(to, flag, name, CTF_K_STRUCT + below(3));
    }
}

/* Members are of older types, or of pointers. Members in a child may be of the parent's types,
 * whose sizes change later. */
static void add_item(int which)
{
    ctf_file_t *to = made[which];
    ctf_id_t in, member = some_type(which);
    char name[16];
    int kind;
    if (count[which] == 0 || member == 0)
        return;
    in = number(which, below(count[which]));
    sprintf(name, "m%u", below(14));
    if (below(6) == 0)
        name[0] = '\0';
    kind = ctf_type_kind(to, member);
    if (kind != CTF_K_POINTER && kind != CTF_K_INTEGER && member >= in)
        return;
    (void)ctf_add_member(to, in, name, member, below(3) != 0 ? ULONG_MAX : 8 * below(60));
    (void)ctf_add_enumerator(to, in, name, (int)below(9));
}

static void take_back(int which)
{
    if (which == PARENT)
        return;
    if (below(2) != 0) {
        (void)ctf_discard(made[which]);
        count[which] = visible[which];
    } else if (count[which] != 0 && below(3) == 0 &&
        ctf_delete_type(made[which], number(which, count[which] - 1)) == 0) {
        count[which]--;
        if (visible[which] > count[which])
            visible[which] = count[which];
    }
}

static void change(void)
{
    int which = below(3) == 0 ? CHILD : PARENT;
    unsigned choice = below(24);
    ctf_id_t t = CTF_ERR;
    if (choice < 13)
        t = add_type(which);
    else if (choice < 18)
        add_item(which);
    else if (choice == 18)
        update(which);
    else if (choice < 21)
        take_back(which);
    else if (choice < 23)
        (void)ctf_lookup_by_name(made[which], "struct n1 *");
    else if (below(8) == 0) {
        update(PARENT);
        update(CHILD);
        compare_all();
    }
    if (t != CTF_ERR) {
        unsigned place = (unsigned)(t - number(which, 0));
        if (place >= count[which])
            count[which] = place + 1;
    }
}

int main(int argc, char **argv)
{
    unsigned i, changes, rounds = argc > 1 ? (unsigned)atoi(argv[1]) : 100;
    seed(argc > 2 ? (unsigned long long)atoll(argv[2]) : 1);
    for (round_number = 0; round_number < rounds; round_number++) {
        made[PARENT] = ctf_create(NULL);
        made[CHILD] = ctf_create(NULL);
        (void)ctf_import(made[CHILD], made[PARENT]);
        memset(count, 0, sizeof count);
        memset(visible, 0, sizeof visible);
        changes = 10 + below(150);
        for (i = 0; i < changes; i++)
            change();
        update(PARENT);
        update(CHILD);
        compare_all();
        ctf_close(made[CHILD]);
        ctf_close(made[PARENT]);
    }
    printf("%lu could not be written\n", refusals);
    return told("reopened");
}
