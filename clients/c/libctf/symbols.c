/* symbols.c - the types of functions and objects, and function types. */
#include "private.h"

#include <string.h>

/* The number of arguments that one call reads. */
#define ROWS 32

/* Fills libctf's structure with a signature. */
static void tell_function(ctf_funcinfo_t *info, const struct ctfd_function *out)
{
    info->ctc_return = (ctf_id_t)out->ret;
    info->ctc_flags = out->varargs != 0 ? CTF_FUNC_VARARG : 0;
    info->ctc_argc = (uint_t)out->arguments;
}

int ctf_func_info_by_id(ctf_file_t *fp, ctf_id_t type, ctf_funcinfo_t *info)
{
    struct ctfd_function out;
    if (!ctfd__is_type(fp, type) ||
        ctfd__done_of(fp, ctfd__signature_of(fp, (uint16_t)type, &out), CTFD__NOT_SIGNATURE) != 0)
        return (int)CTF_ERR;
    tell_function(info, &out);
    return 0;
}

/* The arguments of a function type in a created dictionary. */
static void recipe_arguments(const struct ctfd__type *type, uint64_t count, ctf_id_t *argv)
{
    uint64_t i;
    for (i = 0; i < count; i++)
        argv[i] = (ctf_id_t)type->details->items[i].type;
}

int ctf_func_args_by_id(ctf_file_t *fp, ctf_id_t type, uint_t argc, ctf_id_t *argv)
{
    uint16_t rows[ROWS];
    struct ctfd_function out;
    struct ctfd *types;
    uint64_t all, count, from, i;
    if (!ctfd__is_type(fp, type) ||
        ctfd__done_of(fp, ctfd__signature_of(fp, (uint16_t)type, &out), CTFD__NOT_SIGNATURE) != 0)
        return (int)CTF_ERR;
    fp = ctfd__owner(fp, (uint16_t)type);
    count = out.arguments < argc ? out.arguments : argc;
    if (fp->recipe != NULL) {
        recipe_arguments(ctfd__visible_type(fp, (uint16_t)type), count, argv);
        return 0;
    }
    if (ctfd__done(fp, ctfd__opened(fp, &types)) != 0)
        return (int)CTF_ERR;
    for (from = 0; from < count; from += ROWS) {
        if (ctfd__done(fp, ctfd_arguments(types, (uint16_t)type, from, rows, ROWS, &all)) != 0)
            return (int)CTF_ERR;
        for (i = 0; i < ROWS && from + i < count; i++)
            argv[from + i] = (ctf_id_t)rows[i];
    }
    return 0;
}

/* The handle for questions on a symbol of an opened file. A created dictionary has no symbol
 * table. */
static enum ctfd_status symbol_table(ctf_file_t *fp, ulong_t symbol, struct ctfd **types)
{
    if (symbol > 0xffffffffUL || fp->recipe != NULL)
        return CTFD_NO_SYMBOL;
    return ctfd__opened(fp, types);
}

/* The signature of a symbol, from the entries of functions, or from the function type of its
 * label. */
static enum ctfd_status function_of(ctf_file_t *fp, ulong_t symbol, struct ctfd_function *out)
{
    struct ctfd *types;
    uint16_t type;
    enum ctfd_status status = symbol_table(fp, symbol, &types);
    if (status == CTFD_OK)
        status = ctfd_function(types, (uint32_t)symbol, out);
    if (status == CTFD_NO_INFO && ctfd__label_of_symbol(fp, symbol, CTFD_SORT_FUNCTION, &type))
        return ctfd__signature_of(fp, type, out);
    return status;
}

static enum ctfd_status object_of(ctf_file_t *fp, ulong_t symbol, uint16_t *t)
{
    struct ctfd *types;
    enum ctfd_status status = symbol_table(fp, symbol, &types);
    if (status == CTFD_OK)
        status = ctfd_object(types, (uint32_t)symbol, t);
    if (status == CTFD_NO_INFO && ctfd__label_of_symbol(fp, symbol, CTFD_SORT_OBJECT, t))
        return CTFD_OK;
    return status;
}

/* libctf has an error of its own for functions without type information. */
static int done_of_function(ctf_file_t *fp, enum ctfd_status status)
{
    if (status == CTFD_OK)
        return 0;
    return (int)ctfd__fail(fp, status == CTFD_NO_INFO ? CTFD__NO_FUNCTION_INFO : (int)status);
}

int ctf_func_info(ctf_file_t *fp, ulong_t symbol, ctf_funcinfo_t *info)
{
    struct ctfd_function out;
    if (done_of_function(fp, function_of(fp, symbol, &out)) != 0)
        return (int)CTF_ERR;
    tell_function(info, &out);
    return 0;
}

int ctf_func_args(ctf_file_t *fp, ulong_t symbol, uint_t argc, ctf_id_t *argv)
{
    uint16_t rows[ROWS];
    struct ctfd *types;
    uint64_t count = 0;
    uint_t i, from = 0;
    uint16_t type;
    enum ctfd_status status = symbol_table(fp, symbol, &types);
    do {
        uint_t more = argc - from < ROWS ? argc - from : ROWS;
        if (status == CTFD_OK)
            status = ctfd_function_arguments(types, (uint32_t)symbol, from, rows, more, &count);
        if (status == CTFD_NO_INFO && ctfd__label_of_symbol(fp, symbol, CTFD_SORT_FUNCTION, &type))
            return ctf_func_args_by_id(fp, (ctf_id_t)type, argc, argv);
        if (done_of_function(fp, status) != 0)
            return (int)CTF_ERR;
        for (i = 0; i < more && from + i < count; i++)
            argv[from + i] = (ctf_id_t)rows[i];
        from += more;
    } while (from < argc && from < count);
    return 0;
}

ctf_id_t ctf_lookup_by_symbol(ctf_file_t *fp, ulong_t symbol)
{
    uint16_t t = 0;
    return ctfd__done(fp, object_of(fp, symbol, &t)) == 0 ? (ctf_id_t)t : CTF_ERR;
}

/* The name of a symbol, which lives as long as the file. */
static const char *symbol_name(ctf_file_t *fp, uint32_t symbol)
{
    return ctfd__numbered(fp, ctfd_symbol_name, symbol);
}

/* NULL if there is no such symbol, or if its name does not fit. */
char *ctf_symbol_name(ctf_file_t *fp, ulong_t symbol, char *text, size_t size)
{
    struct ctfd *types;
    const char *name = NULL;
    if (ctfd__done(fp, symbol_table(fp, symbol, &types)) == 0)
        name = symbol_name(fp, (uint32_t)symbol);
    if (name == NULL)
        return NULL;
    if (strlen(name) >= size) {
        (void)ctfd__fail(fp, CTFD__NAME_LONG);
        return NULL;
    }
    memcpy(text, name, strlen(name) + 1);
    return text;
}

/* Calls `each` for the symbols that have types, in the order of the symbol table. */
int ctf_object_iter(ctf_file_t *fp, ctf_object_f *each, void *arg)
{
    uint32_t i, count = (uint32_t)(fp->lists.len[1] / CTFD_SYMBOL);
    for (i = 0; i < count; i++) {
        uint16_t t;
        const char *name;
        int said;
        if (object_of(fp, i, &t) != CTFD_OK)
            continue;
        name = symbol_name(fp, i);
        if (name == NULL)
            return (int)CTF_ERR;
        said = each(name, (ctf_id_t)t, i, arg);
        if (said != 0)
            return said;
    }
    return 0;
}

int ctf_function_iter(ctf_file_t *fp, ctf_function_f *each, void *arg)
{
    uint32_t i, count = (uint32_t)(fp->lists.len[1] / CTFD_SYMBOL);
    for (i = 0; i < count; i++) {
        struct ctfd_function out;
        ctf_funcinfo_t info;
        const char *name;
        int said;
        if (function_of(fp, i, &out) != CTFD_OK)
            continue;
        name = symbol_name(fp, i);
        if (name == NULL || ctf_func_info(fp, i, &info) != 0)
            return (int)CTF_ERR;
        said = each(name, i, &info, arg);
        if (said != 0)
            return said;
    }
    return 0;
}
