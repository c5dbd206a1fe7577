/* What mdb does with synthetic types: it has a dictionary of its own, copies types of a target into
 * it, and makes others, which it reads, deletes and makes again. */
#include <ctfd_libctf.h>
#include <limits.h>
#include <stdio.h>
#include <stdlib.h>

static int count;

static int on_type(ctf_id_t type, boolean_t root, void *arg)
{
    (void)type;
    (void)root;
    (void)arg;
    count++;
    return 0;
}

/* mdb_ctf_add_type: copies a type of the target with all types that it needs. */
static ctf_id_t copy_type(ctf_file_t *synthetic, ctf_file_t *target)
{
    char text[200];
    ctf_id_t there = ctf_lookup_by_name(target, "struct lua_State");
    ctf_id_t copy = ctf_add_type(synthetic, target, there);
    printf("copied %d, update %d\n", copy != CTF_ERR, ctf_update(synthetic));
    printf("%s: %zd bytes, there %zd\n", ctf_type_name(synthetic, copy, text, sizeof text),
        ctf_type_size(synthetic, copy), ctf_type_size(target, there));
    printf("found %d, again %d\n", ctf_lookup_by_name(synthetic, "struct lua_State") == copy,
        ctf_add_type(synthetic, target, there) == copy);
    ctf_type_iter(synthetic, B_TRUE, on_type, NULL);
    printf("%d types came along\n", count);
    return copy;
}

/* mdb_ctf_add_struct and mdb_ctf_add_member, and then mdb_ctf_type_delete. */
static void make_and_delete(ctf_file_t *synthetic, ctf_id_t copy)
{
    static const ctf_encoding_t encoding = { CTF_INT_SIGNED, 0, 32 };
    ctf_id_t number = ctf_add_integer(synthetic, CTF_ADD_ROOT, "mdb_int", &encoding);
    ctf_id_t own = ctf_add_struct(synthetic, CTF_ADD_ROOT, "mdb_syn");
    ctf_membinfo_t member;
    char name[8];
    int i;
    printf("%d", ctf_update(synthetic));
    for (i = 0; i < 3; i++) {
        sprintf(name, "f%d", i);
        printf(" %d", ctf_add_member(synthetic, own, name, i == 1 ? copy : number, ULONG_MAX));
    }
    printf(" %d,", ctf_update(synthetic));
    printf(" %zd bytes\n", ctf_type_size(synthetic, own));
    printf("member %d", ctf_member_info(synthetic, own, "f2", &member));
    printf(" at %lu\n", member.ctm_offset);
    printf("delete %d", ctf_delete_type(synthetic, own));
    printf(" %d:", ctf_update(synthetic));
    printf(" %ld\n", ctf_lookup_by_name(synthetic, "struct mdb_syn"));
    own = ctf_add_union(synthetic, CTF_ADD_ROOT, "mdb_syn");
    printf("anew %d, update %d\n", own != CTF_ERR, ctf_update(synthetic));
}

int main(int argc, char **argv)
{
    ctf_file_t *target = ctf_open(argv[argc - 1], NULL), *synthetic = ctf_create(NULL);
    ctf_id_t copy;
    if (target == NULL || synthetic == NULL)
        return 1;
    copy = copy_type(synthetic, target);
    make_and_delete(synthetic, copy);
    printf("foreign %ld, kept %zd\n", ctf_lookup_by_name(synthetic, "struct nothing"),
        ctf_type_size(synthetic, copy));
    ctf_close(synthetic);
    ctf_close(target);
    return 0;
}
