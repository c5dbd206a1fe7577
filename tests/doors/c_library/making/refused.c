/* refused CTF: makes a parent, a child and a copied type, with each allocation refused in turn: the
 * call reports out of memory, and when repeated does what it would have done. */
#include "ctfd_libctf.h"

#include <limits.h>
#include <stdio.h>
#include <stdlib.h>
#include <string.h>

void *__real_malloc(size_t size);
void *__real_calloc(size_t count, size_t size);
void *__real_realloc(void *block, size_t size);

static long left = -1, refusals, bad;
static unsigned long sum;

static bool is_refused(void)
{
    if (left < 0 || left-- != 0)
        return false;
    refusals++;
    return true;
}

void *__wrap_malloc(size_t size)
{
    return is_refused() ? NULL : __real_malloc(size);
}

void *__wrap_calloc(size_t count, size_t size)
{
    return is_refused() ? NULL : __real_calloc(count, size);
}

void *__wrap_realloc(void *block, size_t size)
{
    return is_refused() ? NULL : __real_realloc(block, size);
}

/* Makes a call, and repeats it if it failed because memory was refused. */
#define TRY(file, call) \
    __extension__({ \
        long before_ = refusals, got_ = (long)(call); \
        if (refusals != before_ && got_ == -1) { \
            if (ctf_fault(file) != CTFD_MEMORY) { \
                bad++; \
                printf("%s: %s\n", #call, ctf_errmsg(ctf_errno(file))); \
            } \
            got_ = (long)(call); \
        } \
        sum = sum * 31 + (unsigned long)got_; \
        got_; \
    })

static int on_member(const char *name, ctf_id_t type, ulong_t offset, void *arg)
{
    (void)arg;
    sum = sum * 31 + (unsigned long)type + offset + strlen(name);
    return 0;
}

static long written(ctf_file_t *file)
{
    const void *data = NULL;
    size_t size = 0;
    ctf_dataptr(file, &data, &size);
    return data != NULL ? (long)size : -1;
}

static ctf_file_t *create(void)
{
    ctf_file_t *made = ctf_create(NULL);
    return made != NULL ? made : ctf_create(NULL);
}

static void fill_parent(ctf_file_t *parent, ctf_id_t types[4])
{
    static const ctf_encoding_t encoding = { CTF_INT_SIGNED, 0, 32 };
    char name[20];
    int i;
    types[0] = TRY(parent, ctf_add_integer(parent, CTF_ADD_ROOT, "int", &encoding));
    types[1] = TRY(parent, ctf_add_struct(parent, CTF_ADD_ROOT, "holder"));
    types[2] = TRY(parent, ctf_add_forward(parent, CTF_ADD_ROOT, "later", CTF_K_STRUCT));
    types[3] = TRY(parent, ctf_add_pointer(parent, CTF_ADD_ROOT, "", types[2]));
    TRY(parent, ctf_update(parent));
    for (i = 0; i < 20; i++) {
        sprintf(name, "m%d", i);
        TRY(parent, ctf_add_member(parent, types[1], name, types[i % 2 != 0 ? 0 : 3], ULONG_MAX));
    }
    TRY(parent, ctf_add_struct(parent, CTF_ADD_ROOT, "later"));
    TRY(parent, ctf_add_member(parent, types[2], "x", types[1], ULONG_MAX));
}

static void fill_child(ctf_file_t *child, const ctf_id_t types[4])
{
    char name[20];
    int i, value = 0;
    ctf_id_t color;
    for (i = 0; i < 70; i++) {
        sprintf(name, "t%d", i);
        TRY(child, ctf_add_typedef(child, CTF_ADD_ROOT, name, types[i % 2]));
        TRY(child, ctf_add_pointer(child, CTF_ADD_ROOT, "", 1 + i % 4));
    }
    color = TRY(child, ctf_add_enum(child, CTF_ADD_ROOT, "color", 4));
    for (i = 0; i < 9; i++) {
        sprintf(name, "e%d", i);
        TRY(child, ctf_add_enumerator(child, color, name, i));
    }
    TRY(child, ctf_update(child));
    TRY(child, ctf_enum_value(child, color, "e4", &value));
    TRY(child, ctf_enum_value(child, color, "e5", &value));
}

static void ask(ctf_file_t *child, const ctf_id_t types[4])
{
    ctf_membinfo_t member;
    char text[300];
    TRY(child, ctf_lookup_by_name(child, "t5"));
    TRY(child, ctf_lookup_by_name(child, "struct holder *"));
    TRY(child, ctf_type_size(child, types[1]));
    TRY(child, ctf_member_info(child, types[2], "x", &member));
    TRY(child, ctf_type_lname(child, types[3], text, sizeof text));
    TRY(child, ctf_member_iter(child, types[1], on_member, NULL));
}

static void live(ctf_file_t *target)
{
    ctf_file_t *parent = create(), *child = create();
    ctf_id_t types[4], copy;
    TRY(child, ctf_import(child, parent));
    fill_parent(parent, types);
    fill_child(child, types);
    ask(child, types);
    copy = TRY(child, ctf_add_type(child, target, ctf_lookup_by_name(target, "struct lua_State")));
    TRY(child, ctf_update(child));
    TRY(child, ctf_type_size(child, copy));
    TRY(child, ctf_member_iter(child, copy, on_member, NULL));
    TRY(child, ctf_add_label(child, "label", copy, 0));
    TRY(child, ctf_update(child));
    TRY(child, written(child));
    TRY(child, ctf_label_topmost(child) != NULL ? 0 : -1);
    TRY(child, ctf_add_struct(child, CTF_ADD_ROOT, "gone"));
    TRY(child, ctf_discard(child));
    TRY(parent, ctf_add_member(parent, types[1], "late", types[0], ULONG_MAX));
    TRY(child, written(child));
    ctf_close(child);
    ctf_close(parent);
}

int main(int argc, char **argv)
{
    ctf_file_t *target = ctf_open(argv[argc - 1], NULL);
    unsigned long wanted;
    long i, before;
    if (target == NULL)
        return 1;
    /* The first run fills the target's caches; from the second one on they are there. */
    live(target);
    sum = 0;
    live(target);
    wanted = sum;
    for (i = 0;; i++) {
        before = refusals;
        sum = 0;
        left = i;
        live(target);
        left = -1;
        if (refusals == before)
            break;
        if (sum != wanted && bad++ < 9)
            printf("allocation %ld: another end\n", i);
    }
    printf("refused: %ld allocations, %ld wrong\n", refusals, bad);
    ctf_close(target);
    return bad != 0;
}
