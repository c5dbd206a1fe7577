/* making WHAT N: does N of one thing that libctf's callers do when making a dictionary, with ctfd's
 * or (-DGNU) GNU's header. */
#ifdef GNU
#include <ctf-api.h>
typedef ctf_dict_t file;
#define add_member(to, in, name, type) ctf_add_member(to, in, name, type)
#define add_pointer(to, type) ctf_add_pointer(to, CTF_ADD_ROOT, type)
#define add_enum(to, name) ctf_add_enum(to, CTF_ADD_ROOT, name)
#define end ctf_dict_close
#else
#include <ctfd_libctf.h>
typedef ctf_file_t file;
#define add_member(to, in, name, type) ctf_add_member(to, in, name, type, ULONG_MAX)
#define add_pointer(to, type) ctf_add_pointer(to, CTF_ADD_ROOT, NULL, type)
#define add_enum(to, name) ctf_add_enum(to, CTF_ADD_ROOT, name, 4)
#define end ctf_close
#endif

#include <limits.h>
#include <stdio.h>
#include <stdlib.h>
#include <string.h>

enum {
    STRUCTS = 2000,
    MEMBERS = 8,
    PARENTS = 20000
};

static ctf_encoding_t of_int = { CTF_INT_SIGNED, 0, 32 };
static char names[STRUCTS][32];
static ctf_id_t structs[STRUCTS];

/* Adds `count` items of a kind to a dictionary; every 20 members or enumerators get a new type. */
static void add(file *to, char kind, ctf_id_t number, long count)
{
    ctf_id_t in = 0;
    char name[32];
    long i;
    for (i = 0; i < count; i++) {
        sprintf(name, "n%ld", i);
        if (kind == 'm' && i % 20 == 0)
            in = ctf_add_struct(to, CTF_ADD_ROOT, name);
        if (kind == 'e' && i % 20 == 0)
            in = add_enum(to, name);
        if (kind == 'i' || kind == 'u')
            (void)ctf_add_integer(to, CTF_ADD_ROOT, name, &of_int);
        else if (kind == 'p')
            (void)add_pointer(to, number);
        else if (kind == 's')
            (void)ctf_add_struct(to, CTF_ADD_ROOT, name);
        else if (kind == 'S')
            (void)ctf_add_struct(to, CTF_ADD_ROOT, "same");
        else if (kind == 'm')
            (void)add_member(to, in, name, number);
        else
            (void)ctf_add_enumerator(to, in, name, (int)i);
        if (kind == 'u')
            (void)ctf_update(to);
    }
}

/* Creates a child of a large parent, and closes it, `count` times. */
static void import_and_close(file *parent, long count)
{
    int error;
    for (; count > 0; count--) {
        file *child = ctf_create(&error);
        (void)ctf_import(child, parent);
        end(child);
    }
}

static void write_all(file *of)
{
    size_t size = 0;
#ifdef GNU
    free(ctf_write_mem(of, &size, (size_t)1 << 30));
#else
    const void *data;
    ctf_dataptr(of, &data, &size);
#endif
}

static void add_structs(file *to, ctf_id_t number)
{
    char name[8];
    int i, j;
    for (i = 0; i < STRUCTS; i++) {
        sprintf(names[i], "struct n%d", i);
        structs[i] = ctf_add_struct(to, CTF_ADD_ROOT, names[i] + strlen("struct "));
        for (j = 0; j < MEMBERS; j++) {
            sprintf(name, "m%d", j);
            (void)add_member(to, structs[i], name, number);
        }
    }
    (void)ctf_update(to);
}

/* Asks a question about each struct, `count` times. */
static unsigned long ask(file *of, char what, long count)
{
    unsigned long sum = 0;
    ctf_membinfo_t member;
    char text[200];
    int i;
    for (; count > 0; count--) {
        for (i = 0; i < STRUCTS; i++) {
            if (what == 'K')
                sum += (unsigned long)ctf_type_kind(of, structs[i]);
            else if (what == 'Z')
                sum += (unsigned long)ctf_type_size(of, structs[i]);
            else if (what == 'A')
                sum += (unsigned long)ctf_type_align(of, structs[i]);
            else if (what == 'L')
                sum += (unsigned long)ctf_lookup_by_name(of, names[i]);
            else if (what == 'M')
                sum += (unsigned long)ctf_member_info(of, structs[i], "m5", &member);
            else
                sum += ctf_type_name(of, structs[i], text, sizeof text) != NULL;
        }
    }
    return sum;
}

int main(int argc, char **argv)
{
    char what = argc == 3 ? argv[1][0] : '?';
    long i, count = argc == 3 ? atol(argv[2]) : 0;
    int error;
    file *made = ctf_create(&error);
    ctf_id_t number = ctf_add_integer(made, CTF_ADD_ROOT, "int", &of_int);
    if (what == 'c') {
        for (i = 0; i < count; i++)
            end(ctf_create(&error));
    } else if (what == 'b') {
        add(made, 'i', number, PARENTS);
        (void)ctf_update(made);
        import_and_close(made, count);
    } else if (what == 'w') {
        add(made, 'i', number, count);
        (void)ctf_update(made);
        write_all(made);
    } else if (what >= 'A' && what <= 'Z' && what != 'S') {
        add_structs(made, number);
        printf("%lu\n", ask(made, what, count));
    } else {
        add(made, what, number, count);
    }
    end(made);
    return 0;
}
