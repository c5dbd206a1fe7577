/* copied CTF: copies each type of a dictionary into one in the making by ctf_add_type; the copies
 * give the same answers. Copying a type again returns the first copy. */
#include "ctfd_libctf.h"

#include "random.h"

#include <string.h>

static ctf_file_t *from, *to;

struct items {
    struct item {
        const char *name;
        ctf_id_t type;
        long at;
    } list[1100];
    int len;
};

static int on_member(const char *name, ctf_id_t type, ulong_t offset, void *arg)
{
    struct items *items = (struct items *)arg;
    items->list[items->len].name = name;
    items->list[items->len].type = type;
    items->list[items->len++].at = (long)offset;
    return 0;
}

static int on_enumerator(const char *name, int value, void *arg)
{
    return on_member(name, 0, (ulong_t)value, arg);
}

static void compare_names(const char *what, ctf_id_t wanted, ctf_id_t seen)
{
    char left[2000] = "", right[2000] = "";
    (void)ctf_type_name(from, wanted, left, sizeof left);
    (void)ctf_type_name(to, seen, right, sizeof right);
    same(what, wanted, 0, strcmp(left, right) != 0);
}

static void compare_items(ctf_id_t wanted, ctf_id_t seen, bool is_enum)
{
    static struct items left, right;
    int i;
    left.len = right.len = 0;
    if (is_enum) {
        (void)ctf_enum_iter(from, wanted, on_enumerator, &left);
        (void)ctf_enum_iter(to, seen, on_enumerator, &right);
    } else {
        (void)ctf_member_iter(from, wanted, on_member, &left);
        (void)ctf_member_iter(to, seen, on_member, &right);
    }
    same("how many items", wanted, left.len, right.len);
    for (i = 0; i < left.len && i < right.len; i++) {
        same("an item's name", wanted, 0, strcmp(left.list[i].name, right.list[i].name) != 0);
        same("an item's place", wanted, left.list[i].at, right.list[i].at);
        if (is_enum)
            continue;
        compare_names("an item's type", left.list[i].type, right.list[i].type);
        same("an item's size", wanted, ctf_type_size(from, left.list[i].type),
            ctf_type_size(to, right.list[i].type));
    }
}

static int on_type(ctf_id_t t, boolean_t root, void *arg)
{
    ctf_funcinfo_t wanted, seen;
    ctf_id_t copy = ctf_add_type(to, from, t);
    int kind = ctf_type_kind(from, t);
    char name[900];
    (void)arg;
    if (copy == CTF_ERR) {
        printf("type %ld: %s\n", t, ctf_errmsg(ctf_errno(to)));
        same("a copy", t, 1, 0);
        return 0;
    }
    (void)ctf_update(to);
    same("the kind", t, kind, ctf_type_kind(to, copy));
    same("the size", t, ctf_type_size(from, t), ctf_type_size(to, copy));
    same("the alignment", t, ctf_type_align(from, t), ctf_type_align(to, copy));
    compare_names("the name", t, copy);
    if (kind == CTF_K_STRUCT || kind == CTF_K_UNION || kind == CTF_K_ENUM) {
        compare_items(t, copy, kind == CTF_K_ENUM);
        if (root != B_FALSE && ctf_type_name(from, t, name, sizeof name) != NULL &&
            strchr(name, '(') == NULL)
            same("a second copy", t, copy, ctf_add_type(to, from, t));
    }
    if (kind == CTF_K_FUNCTION && ctf_func_info_by_id(from, t, &wanted) == 0 &&
        ctf_func_info_by_id(to, copy, &seen) == 0) {
        same("how many arguments", t, wanted.ctc_argc, seen.ctc_argc);
        same("whether others follow", t, wanted.ctc_flags, seen.ctc_flags);
    }
    return 0;
}

int main(int argc, char **argv)
{
    const void *data = NULL;
    size_t size = 0;
    from = ctf_open(argv[argc - 1], NULL);
    to = ctf_create(NULL);
    if (from == NULL || to == NULL)
        return 1;
    (void)ctf_type_iter(from, B_TRUE, on_type, NULL);
    ctf_dataptr(to, &data, &size);
    same("whether it can be written", 0, 1, data != NULL);
    ctf_close(to);
    ctf_close(from);
    return told("copied");
}
