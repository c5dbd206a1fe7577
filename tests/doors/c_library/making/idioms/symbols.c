/* symbols.c - what a tracer does: looks up the types of symbols by their numbers in a symbol table,
 * in a dictionary made with symbols by name. It prints the same with libctfd and GNU's library. */
#include <ctf-api.h>

#include <elf.h>
#include <stdio.h>
#include <stdlib.h>
#include <string.h>

#define SYMBOLS 6

static const char names[] = "\0add\0counter\0nothing\0each\0many";
static const unsigned name_at[SYMBOLS] = { 0, 1, 5, 13, 21, 26 };
static const unsigned char sorts[SYMBOLS] = { STT_NOTYPE, STT_FUNC, STT_OBJECT, STT_FUNC, STT_FUNC,
    STT_OBJECT };

static void check(int is_right, const char *what)
{
    if (!is_right) {
        printf("%s\n", what);
        exit(1);
    }
}

static ctf_id_t function(
    ctf_dict_t *fp, ctf_id_t result, unsigned count, ctf_id_t *arguments, unsigned flags)
{
    ctf_funcinfo_t info = { result, count, flags };
    return ctf_add_function(fp, CTF_ADD_ROOT, &info, arguments);
}

/* The bytes of a dictionary with three symbols. */
static unsigned char *made(size_t *len)
{
    int error = 0;
    ctf_dict_t *fp = ctf_create(&error);
    ctf_encoding_t encoding = { CTF_INT_SIGNED, 0, 32 };
    ctf_id_t number, pointer, both[2];
    unsigned char *bytes;
    check(fp != NULL, "ctf_create");
    number = ctf_add_integer(fp, CTF_ADD_ROOT, "int", &encoding);
    pointer = ctf_add_pointer(fp, CTF_ADD_ROOT, number);
    both[0] = number;
    both[1] = pointer;
    check(ctf_add_func_sym(fp, "add", function(fp, number, 2, both, 0)) == 0, "add");
    check(ctf_add_func_sym(fp, "each", function(fp, pointer, 1, &pointer, CTF_FUNC_VARARG)) == 0,
        "each");
    check(ctf_add_objt_sym(fp, "counter", pointer) == 0, "counter");
    check(ctf_update(fp) == 0, "ctf_update");
    bytes = ctf_write_mem(fp, len, (size_t)-1);
    check(bytes != NULL, "ctf_write_mem");
    ctf_dict_close(fp);
    return bytes;
}

static void tell(ctf_dict_t *fp, unsigned long symbol)
{
    char text[100];
    ctf_funcinfo_t info;
    ctf_id_t arguments[4] = { 0, 0, 0, 0 };
    ctf_id_t type = ctf_lookup_by_symbol(fp, symbol);
    unsigned i;
    printf("%lu: %s\n", symbol,
        type == CTF_ERR ? "no type"
            : ctf_type_kind(fp, type) == CTF_K_FUNCTION
            ? "a function"
            : ctf_type_name(fp, type, text, sizeof text));
    if (ctf_func_info(fp, symbol, &info) != 0 || ctf_func_args(fp, symbol, 4, arguments) != 0)
        return;
    printf("   %s, %u, %u:", ctf_type_name(fp, info.ctc_return, text, sizeof text), info.ctc_argc,
        info.ctc_flags);
    for (i = 0; i < info.ctc_argc; i++)
        printf(" %s", ctf_type_name(fp, arguments[i], text, sizeof text));
    printf("\n");
}

int main(void)
{
    Elf64_Sym table[SYMBOLS];
    ctf_sect_t ctf = { ".ctf", NULL, 0, 0 };
    ctf_sect_t symbols = { ".symtab", table, sizeof table, sizeof table[0] };
    ctf_sect_t strings = { ".strtab", names, sizeof names, 0 };
    unsigned char *bytes = made(&ctf.cts_size);
    ctf_dict_t *fp;
    int error = 0;
    unsigned i;
    memset(table, 0, sizeof table);
    for (i = 0; i < SYMBOLS; i++) {
        table[i].st_name = name_at[i];
        table[i].st_info = ELF64_ST_INFO(STB_GLOBAL, sorts[i]);
        table[i].st_shndx = i != 0;
        table[i].st_value = i;
    }
    ctf.cts_data = bytes;
    fp = ctf_bufopen(&ctf, &symbols, &strings, &error);
    check(fp != NULL, "ctf_bufopen");
    for (i = 0; i <= SYMBOLS; i++)
        tell(fp, i);
    ctf_dict_close(fp);
    free(bytes);
    return 0;
}
