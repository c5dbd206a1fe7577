/* children - an opened child of a dictionary in the making sees the additions to it, even during a
 * walk; and the bytes of a child in the making agree with the answers given, whatever was added to
 * its parent since. */
#include "ctfd_libctf.h"

#include "../common.h"

#include <limits.h>

static const ctf_encoding_t signed_int = { CTF_INT_SIGNED, 0, 32 };

struct parent {
    ctf_file_t *file;
    ctf_id_t number, holder;
};

static struct parent new_parent(void)
{
    struct parent made = { ctf_create(NULL), 0, 0 };
    made.number = ctf_add_integer(made.file, CTF_ADD_ROOT, "int", &signed_int);
    made.holder = ctf_add_struct(made.file, CTF_ADD_ROOT, "holder");
    CHECK(ctf_add_member(made.file, made.holder, "a", made.number, ULONG_MAX) == 0);
    CHECK(ctf_update(made.file) == 0);
    return made;
}

/* Opens the bytes of a child, and imports the parent. */
static ctf_file_t *reopened(
    ctf_file_t *child, const struct parent *parent, char *block, size_t room)
{
    ctf_file_t *opened;
    const void *data = NULL;
    ctf_sect_t section;
    memset(&section, 0, sizeof section);
    ctf_dataptr(child, &data, &section.cts_size);
    CHECK(data != NULL && section.cts_size <= room);
    if (data == NULL)
        return NULL;
    memcpy(block, data, section.cts_size);
    section.cts_data = block;
    opened = ctf_bufopen(&section, NULL, NULL, NULL);
    CHECK(opened != NULL && ctf_import(opened, parent->file) == 0);
    return opened;
}

/* Writes and opens a child with an array of the parent's struct. */
static ctf_file_t *open_child(
    const struct parent *parent, ctf_id_t *array, char *block, size_t room)
{
    ctf_file_t *child = ctf_create(NULL), *opened;
    ctf_arinfo_t info = { parent->holder, parent->number, 5 };
    CHECK(ctf_import(child, parent->file) == 0);
    *array = ctf_add_array(child, CTF_ADD_ROOT, &info);
    CHECK(ctf_update(child) == 0);
    opened = reopened(child, parent, block, room);
    ctf_close(child);
    return opened;
}

/* Adds a member to the parent's struct while the child iterates over it. */
static int grow(const char *name, ctf_id_t type, ulong_t offset, void *arg)
{
    const struct parent *parent = (const struct parent *)arg;
    (void)name;
    (void)type;
    if (offset == 0) {
        CHECK(ctf_add_member(parent->file, parent->holder, "met", parent->number, ULONG_MAX) == 0);
        CHECK(ctf_update(parent->file) == 0);
    }
    checks++;
    return 0;
}

static void opened_children(void)
{
    struct parent parent = new_parent();
    ctf_id_t array = 0;
    char block[4096], text[40];
    ctf_file_t *child = open_child(&parent, &array, block, sizeof block), *other;
    ctf_membinfo_t member;
    CHECK(ctf_type_size(child, array) == 20);
    CHECK(ctf_lookup_by_name(child, "struct late") == CTF_ERR);
    CHECK(ctf_add_member(parent.file, parent.holder, "b", parent.number, ULONG_MAX) == 0);
    CHECK(ctf_add_struct(parent.file, CTF_ADD_ROOT, "late") == 3 && ctf_update(parent.file) == 0);
    CHECK(ctf_type_size(child, array) == 40);
    CHECK(ctf_lookup_by_name(child, "struct late") == 3 && ctf_type_kind(child, 3) == CTF_K_STRUCT);
    CHECK(ctf_member_info(child, parent.holder, "b", &member) == 0 && member.ctm_offset == 32);
    CHECK(ctf_member_iter(child, parent.holder, grow, &parent) == 0);
    CHECK(ctf_type_size(child, array) == 60);
    CHECK(ctf_type_name(child, array, text, sizeof text) != NULL);
    CHECK(strcmp(text, "struct holder [5]") == 0);
    other = ctf_dup(child);
    CHECK(other != NULL &&
        ctf_add_member(parent.file, parent.holder, "c", parent.number, ULONG_MAX) == 0);
    CHECK(ctf_update(parent.file) == 0);
    CHECK(ctf_type_size(other, array) == 80 && ctf_type_size(child, array) == 80);
    ctf_close(parent.file);
    CHECK(ctf_type_size(child, array) == 80);
    ctf_close(child);
    CHECK(ctf_type_size(other, array) == 80);
    ctf_close(other);
}

static int same_member(const char *name, ctf_id_t type, ulong_t offset, void *arg)
{
    const ctf_membinfo_t *wanted = (const ctf_membinfo_t *)arg;
    CHECK(
        strcmp(name, "second") != 0 || (wanted->ctm_type == type && wanted->ctm_offset == offset));
    return 0;
}

/* The child's struct and union are made when the parent's struct has 4 bytes. Before that grows,
 * after it, and with another member added, the written bytes agree with the answers. */
static void grown_parents(void)
{
    struct parent parent = new_parent();
    ctf_file_t *child = ctf_create(NULL), *opened;
    char block[4096];
    ctf_membinfo_t answered = { 0, 0 };
    ctf_id_t own, whole, round;
    CHECK(ctf_import(child, parent.file) == 0);
    own = ctf_add_struct(child, CTF_ADD_ROOT, "own");
    whole = ctf_add_union(child, CTF_ADD_ROOT, "whole");
    CHECK(ctf_add_member(child, own, "first", parent.holder, ULONG_MAX) == 0);
    CHECK(ctf_add_member(child, whole, "only", parent.holder, ULONG_MAX) == 0);
    CHECK(ctf_update(child) == 0);
    for (round = 0; round < 3; round++) {
        if (round == 1)
            CHECK(ctf_add_member(parent.file, parent.holder, "b", parent.number, ULONG_MAX) == 0);
        if (round == 2)
            CHECK(ctf_add_member(child, own, "second", parent.number, ULONG_MAX) == 0);
        CHECK(ctf_update(parent.file) == 0 && ctf_update(child) == 0);
        CHECK(ctf_type_size(child, parent.holder) == (round == 0 ? 4 : 8));
        CHECK(ctf_type_size(child, own) == (round == 2 ? 12 : 4));
        CHECK(ctf_type_size(child, whole) == 4);
        CHECK(round < 2 ||
            (ctf_member_info(child, own, "second", &answered) == 0 && answered.ctm_offset == 64));
        opened = reopened(child, &parent, block, sizeof block);
        CHECK(ctf_type_size(opened, own) == ctf_type_size(child, own));
        CHECK(ctf_type_size(opened, whole) == 4);
        CHECK(ctf_member_iter(opened, own, same_member, &answered) == 0);
        ctf_close(opened);
    }
    ctf_close(child);
    ctf_close(parent.file);
}

/* Of 30,000 pending types with one name, forwards among them, a look-up finds the last. */
static void many_of_one_name(void)
{
    ctf_file_t *file = ctf_create(NULL);
    ctf_id_t t = 0;
    int i;
    for (i = 0; i < 30000; i++)
        t = i % 100 == 7 ? ctf_add_forward(file, CTF_ADD_ROOT, "same", CTF_K_STRUCT)
                         : ctf_add_struct(file, CTF_ADD_ROOT, "same");
    CHECK(t == 30000 && ctf_lookup_by_name(file, "struct same") == CTF_ERR);
    CHECK(ctf_update(file) == 0 && ctf_lookup_by_name(file, "struct same") == 30000);
    CHECK(ctf_delete_type(file, 30000) == 0);
    CHECK(ctf_lookup_by_name(file, "struct same") == 29999);
    ctf_close(file);
}

int main(void)
{
    opened_children();
    grown_parents();
    many_of_one_name();
    return counted("children");
}
