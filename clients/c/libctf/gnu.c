/* gnu.c - the calls that differ between GNU's libctf and illumos', with the names to which
 * gnu/ctf-api.h leads. */
#define _DEFAULT_SOURCE

#include "private.h"

#include <errno.h>
#include <limits.h>
#include <stdio.h>
#include <stdlib.h>
#include <string.h>

#define SEEN __attribute__((visibility("default")))

struct ctfd_gnu_archive {
    ctf_file_t *fp;
};

/* ---- errors: GNU's numbers, from 1000 on, and those of errno.h below */

SEEN int ctfd_gnu_errno(ctf_file_t *fp)
{
    return ctfd__gnu_number(fp->error);
}

SEEN const char *ctfd_gnu_errmsg(int number)
{
    int error;
    if (number == EREMOTEIO)
        return ctfd__message(CTFD__NOT_FETCHED);
    if (number < 1000)
        return strerror(number);
    if (number == 1007)
        return "a rule of the format is broken: ctf_fault says which";
    if (number == 1008)
        return "no section .SUNW_ctf or .ctf in the ELF file, or no libctfd_elf.so beside libctfd.so";
    if (number == 1031)
        return "No type information available for symbol.";
    for (error = CTFD__NO_PART; error < CTFD__ERRORS; error++) {
        if (ctfd__gnu_number(error) == number)
            return ctfd__message(error);
    }
    for (error = 1; error <= CTFD_FIXED_PARENT; error++) {
        if (ctfd__gnu_number(error) == number)
            return ctfd__message(error);
    }
    return "unknown error";
}

static void *refused(int *error, int why)
{
    ctfd__note_refusal(why);
    if (error != NULL)
        *error = ctfd__gnu_number(why);
    return NULL;
}

/* ---- open and close */

/* An archive of one file. NULL if the file was not opened; its error was noted. */
static struct ctfd_gnu_archive *archive_of(ctf_file_t *fp, int *error)
{
    struct ctfd_gnu_archive *made;
    if (fp == NULL)
        return refused(error, ctfd__refusal());
    made = (struct ctfd_gnu_archive *)malloc(sizeof *made);
    if (made == NULL) {
        ctf_close(fp);
        return refused(error, CTFD_MEMORY);
    }
    made->fp = fp;
    return made;
}

SEEN struct ctfd_gnu_archive *ctfd_gnu_open(const char *name, const char *target, int *error)
{
    (void)target;
    return archive_of(ctf_open(name, NULL), error);
}

SEEN struct ctfd_gnu_archive *ctfd_gnu_fdopen(
    int fd, const char *name, const char *target, int *error)
{
    (void)name;
    (void)target;
    return archive_of(ctf_fdopen(fd, NULL), error);
}

/* Ends a use. If others use the file, and it owns its lists, the file stays as it is. */
SEEN void ctfd_gnu_dict_close(ctf_file_t *fp)
{
    if (fp != NULL && fp->uses > 1 && (fp->owned[0] != NULL || fp->recipe != NULL))
        fp->uses--;
    else
        ctf_close(fp);
}

SEEN void ctfd_gnu_close(struct ctfd_gnu_archive *archive)
{
    if (archive != NULL)
        ctfd_gnu_dict_close(archive->fp);
    free(archive);
}

SEEN void ctfd_gnu_flush(struct ctfd_gnu_archive *archive)
{
    (void)archive;
}

SEEN size_t ctfd_gnu_archive_count(const struct ctfd_gnu_archive *archive)
{
    (void)archive;
    return 1;
}

SEEN void ctfd_gnu_ref(ctf_file_t *fp)
{
    fp->uses++;
}

SEEN ctf_file_t *ctfd_gnu_dict_open(
    const struct ctfd_gnu_archive *archive, const char *name, int *error)
{
    if (name != NULL && strcmp(name, ".ctf") != 0)
        return refused(error, CTFD__NO_ENTRY);
    archive->fp->uses++;
    return archive->fp;
}

/* A section in GNU's calls, which has fewer fields. */
struct gnu_section {
    const char *name;
    const void *data;
    size_t size, entsize;
};

static ctf_sect_t *section_of(const struct gnu_section *from, ctf_sect_t *made)
{
    if (from == NULL)
        return NULL;
    memset(made, 0, sizeof *made);
    made->cts_name = from->name;
    made->cts_data = from->data;
    made->cts_size = from->size;
    made->cts_entsize = from->entsize;
    return made;
}

SEEN ctf_file_t *ctfd_gnu_bufopen(const struct gnu_section *ctf, const struct gnu_section *symbols,
    const struct gnu_section *strings, int *error)
{
    ctf_sect_t made[3];
    ctf_file_t *fp = ctf_bufopen(section_of(ctf, &made[0]), section_of(symbols, &made[1]),
        section_of(strings, &made[2]), NULL);
    return fp != NULL ? fp : refused(error, ctfd__refusal());
}

SEEN ctf_file_t *ctfd_gnu_simple_open(const char *ctf, size_t ctf_len, const char *symbols,
    size_t symbols_len, size_t entsize, const char *strings, size_t strings_len, int *error)
{
    struct gnu_section sections[3] = { { ".ctf", ctf, ctf_len, 0 },
        { ".symtab", symbols, symbols_len, entsize }, { ".strtab", strings, strings_len, 0 } };
    bool has = symbols != NULL && strings != NULL;
    return ctfd_gnu_bufopen(
        &sections[0], has ? &sections[1] : NULL, has ? &sections[2] : NULL, error);
}

/* ---- iterators */

struct step {
    uint64_t base;
    uint16_t type;
    uint32_t i;
};

struct ctf_next {
    const void *over;
    int what;
    uint32_t i;
    uint32_t len, room; /* of the steps into members without a name */
    struct step *steps;
};

enum {
    MEMBERS = 1,
    ENUMERATORS,
    TYPES,
    SYMBOLS,
    FUNCTIONS,
    VARIABLES,
    ARCHIVES
};

SEEN void ctfd_gnu_next_destroy(struct ctf_next *it)
{
    if (it != NULL)
        free(it->steps);
    free(it);
}

/* Begins or continues an iterator; false with the error set if it is of another kind. */
static bool begun(struct ctf_next **it, int what, const void *over, int *error)
{
    *error = 0;
    if (*it == NULL) {
        *it = (struct ctf_next *)calloc(1, sizeof **it);
        if (*it == NULL) {
            *error = CTFD_MEMORY;
            return false;
        }
        (*it)->what = what;
        (*it)->over = over;
    }
    if ((*it)->what != what)
        *error = CTFD__NEXT_OTHER;
    else if ((*it)->over != over)
        *error = CTFD__NEXT_FILE;
    return *error == 0;
}

static void end(struct ctf_next **it)
{
    ctfd_gnu_next_destroy(*it);
    *it = NULL;
}

static bool begun_in(ctf_file_t *fp, struct ctf_next **it, int what)
{
    if (begun(it, what, fp, &fp->error))
        return true;
    return false;
}

/* The items for an iterator; NULL with the error set for other types. */
static struct ctfd__details *listed(ctf_file_t *fp, uint16_t t, bool is_of_enum)
{
    struct ctfd__details *details = ctfd__details(fp, t);
    if (details == NULL)
        return NULL;
    if (is_of_enum ? details->kind == CTFD_ENUM : ctfd__has_members(details))
        return details;
    (void)ctfd__fail(fp, CTFD_WRONG_KIND);
    return NULL;
}

SEEN const char *ctfd_gnu_enum_next(ctf_file_t *fp, ctf_id_t type, struct ctf_next **it, int *value)
{
    struct ctfd__details *details;
    ctf_id_t t = ctf_type_resolve(fp, type);
    uint32_t i;
    if (t == CTF_ERR || (details = listed(fp, (uint16_t)t, true)) == NULL ||
        !begun_in(fp, it, ENUMERATORS))
        return NULL;
    i = (*it)->i++;
    if (i >= details->count) {
        end(it);
        (void)ctfd__fail(fp, CTFD__NEXT_END);
        return NULL;
    }
    if (value != NULL)
        *value = (int)(int32_t)(uint32_t)details->items[i].at;
    return ctfd__item_name(fp, (uint16_t)t, i);
}

static bool step_in(ctf_file_t *fp, struct ctf_next *it, uint16_t t, uint64_t base)
{
    if (it->len == it->room) {
        uint32_t room = it->room == 0 ? 4 : 2 * it->room;
        struct step *more = (struct step *)realloc(it->steps, room * sizeof *more);
        if (more == NULL || it->len > CTFD_DEEPEST) {
            it->steps = more != NULL ? more : it->steps;
            (void)ctfd__fail(fp, more == NULL ? CTFD_MEMORY : CTFD_VALUE_DEEP);
            return false;
        }
        it->steps = more;
        it->room = room;
    }
    it->steps[it->len].base = base;
    it->steps[it->len].type = t;
    it->steps[it->len++].i = 0;
    return true;
}

SEEN ssize_t ctfd_gnu_member_next(ctf_file_t *fp, ctf_id_t type, struct ctf_next **it,
    const char **name, ctf_id_t *member, int flags)
{
    ctf_id_t t = ctf_type_resolve(fp, type);
    bool is_new = *it == NULL;
    if (t == CTF_ERR || listed(fp, (uint16_t)t, false) == NULL || !begun_in(fp, it, MEMBERS))
        return -1;
    if (is_new && !step_in(fp, *it, (uint16_t)t, 0))
        return -1;
    while ((*it)->len > 0) {
        struct step *top = &(*it)->steps[(*it)->len - 1];
        struct ctfd__details *details = listed(fp, top->type, false);
        const struct ctfd__item *item;
        const char *own;
        uint64_t at;
        uint32_t kind = 0;
        uint16_t in = 0;
        if (details == NULL)
            return -1;
        if (top->i >= details->count) {
            (*it)->len--;
            continue;
        }
        own = ctfd__item_name(fp, top->type, top->i);
        details = listed(fp, top->type, false);
        if (own == NULL || details == NULL)
            return -1;
        item = &details->items[top->i++];
        at = top->base + item->at;
        if (name != NULL)
            *name = own;
        if (member != NULL)
            *member = (ctf_id_t)item->type;
        if ((flags & 1) != 0 && *own == '\0' && item->type != 0 &&
            ctfd__resolution_of(fp, item->type, &in) == CTFD_OK && in != 0 &&
            ctfd__kind_of(fp, in, &kind) == CTFD_OK &&
            (kind == CTFD_STRUCT || kind == CTFD_UNION) && !step_in(fp, *it, in, at))
            return -1;
        return (ssize_t)at;
    }
    end(it);
    return (ssize_t)ctfd__fail(fp, CTFD__NEXT_END);
}

SEEN int ctfd_gnu_member_count(ctf_file_t *fp, ctf_id_t type)
{
    ctf_id_t t = ctf_type_resolve(fp, type);
    struct ctfd__details *details = t != CTF_ERR ? ctfd__details(fp, (uint16_t)t) : NULL;
    if (details != NULL && (details->kind == CTFD_ENUM || ctfd__has_members(details)))
        return (int)details->count;
    return details != NULL ? (int)ctfd__fail(fp, CTFD_WRONG_KIND) : -1;
}

SEEN ctf_id_t ctfd_gnu_type_next(ctf_file_t *fp, struct ctf_next **it, int *flag, int hidden)
{
    uint32_t count = 0, before = 0, root;
    if (!begun_in(fp, it, TYPES))
        return CTF_ERR;
    while (ctfd__own_types(fp, &count, &before) == CTFD_OK && (*it)->i++ < count) {
        uint16_t t = (uint16_t)(before + (*it)->i);
        if (ctfd__root_of(fp, t, &root) != CTFD_OK || (root == 0 && !hidden))
            continue;
        if (flag != NULL)
            *flag = (int)root;
        return (ctf_id_t)t;
    }
    end(it);
    return ctfd__fail(fp, CTFD__NEXT_END);
}

struct each_type {
    int (*each)(ctf_id_t, void *);
    int (*all)(ctf_id_t, int, void *);
    void *arg;
};

static int on_type(ctf_id_t type, boolean_t root, void *arg)
{
    const struct each_type *of = (const struct each_type *)arg;
    return of->each != NULL ? of->each(type, of->arg) : of->all(type, root != B_FALSE, of->arg);
}

SEEN int ctfd_gnu_type_iter(ctf_file_t *fp, int (*each)(ctf_id_t, void *), void *arg)
{
    struct each_type of = { each, NULL, arg };
    return ctf_type_iter(fp, B_FALSE, on_type, &of);
}

SEEN int ctfd_gnu_type_iter_all(ctf_file_t *fp, int (*each)(ctf_id_t, int, void *), void *arg)
{
    struct each_type of = { NULL, each, arg };
    return ctf_type_iter(fp, B_TRUE, on_type, &of);
}

SEEN ctf_file_t *ctfd_gnu_archive_next(const struct ctfd_gnu_archive *archive, struct ctf_next **it,
    const char **name, int skip_parent, int *error)
{
    int why = 0;
    uint32_t count = 0, before = 0;
    if (!begun(it, ARCHIVES, archive, &why))
        return refused(error, why);
    (void)ctfd__own_types(archive->fp, &count, &before);
    if ((*it)->i++ == 0 && (skip_parent == 0 || before != 0)) {
        if (name != NULL)
            *name = ".ctf";
        archive->fp->uses++;
        return archive->fp;
    }
    end(it);
    return refused(error, CTFD__NEXT_END);
}

SEEN int ctfd_gnu_archive_iter(const struct ctfd_gnu_archive *archive,
    int (*each)(ctf_file_t *, const char *, void *), void *arg)
{
    return each(archive->fp, ".ctf", arg);
}

/* ---- types */

SEEN int ctfd_gnu_isparent(ctf_file_t *fp, ctf_id_t type)
{
    (void)fp;
    return CTF_TYPE_ISPARENT(type);
}

SEEN int ctfd_gnu_ischild(ctf_file_t *fp, ctf_id_t type)
{
    (void)fp;
    return CTF_TYPE_ISCHILD(type);
}

SEEN int ctfd_gnu_kind_forwarded(ctf_file_t *fp, ctf_id_t type)
{
    int kind = ctf_type_kind(fp, type);
    uint32_t tag = 0;
    if (kind != CTF_K_FORWARD)
        return kind;
    return ctfd__done(fp, ctfd__tag_of(fp, (uint16_t)type, &tag)) == 0 ? (int)tag : -1;
}

/* GNU's name for a type without one ends in a blank. */
SEEN char *ctfd_gnu_type_aname(ctf_file_t *fp, ctf_id_t type)
{
    char *made, *at;
    ssize_t len = ctf_type_lname(fp, type, NULL, 0);
    if (len < 0)
        return NULL;
    made = (char *)malloc((size_t)len + 1);
    if (made == NULL || ctf_type_name(fp, type, made, (size_t)len + 1) == NULL) {
        free(made);
        return NULL;
    }
    at = strstr(made, "(anon)");
    if (at != NULL)
        memmove(at, at + 6, strlen(at + 6) + 1);
    return made;
}

SEEN ssize_t ctfd_gnu_type_lname(ctf_file_t *fp, ctf_id_t type, char *text, size_t size)
{
    char *made = ctfd_gnu_type_aname(fp, type);
    size_t len;
    if (made == NULL)
        return -1;
    len = strlen(made);
    if (size > 0)
        (void)snprintf(text, size, "%s", made);
    free(made);
    if (len >= size)
        (void)ctfd__fail(fp, CTFD__NAME_LONG);
    return (ssize_t)len;
}

SEEN char *ctfd_gnu_type_name(ctf_file_t *fp, ctf_id_t type, char *text, size_t size)
{
    ssize_t len = ctfd_gnu_type_lname(fp, type, text, size);
    return len >= 0 && (size_t)len < size ? text : NULL;
}

SEEN const char *ctfd_gnu_type_name_raw(ctf_file_t *fp, ctf_id_t type)
{
    return ctfd__is_type(fp, type) ? ctfd__declared(fp, (uint16_t)type) : NULL;
}

SEEN char *ctfd_gnu_type_aname_raw(ctf_file_t *fp, ctf_id_t type)
{
    const char *name = ctfd_gnu_type_name_raw(fp, type);
    return name != NULL ? strdup(name) : NULL;
}

/* ---- labels, except those that stand for symbols */

struct each_label {
    ctf_file_t *fp;
    int (*each)(const char *, const ctf_lblinfo_t *, void *);
    void *arg;
    bool is_met;
};

static bool is_of_symbol(const char *label)
{
    int sort;
    for (sort = 0; sort < CTFD_SORTS; sort++) {
        if (strncmp(label, ctfd__symbol_labels[sort], strlen(ctfd__symbol_labels[sort])) == 0)
            return true;
    }
    return false;
}

static int on_label(const char *name, void *arg)
{
    struct each_label *of = (struct each_label *)arg;
    ctf_lblinfo_t info;
    if (is_of_symbol(name))
        return 0;
    of->is_met = true;
    if (ctf_label_info(of->fp, name, &info) != 0)
        return (int)CTF_ERR;
    return of->each(name, &info, of->arg);
}

SEEN int ctfd_gnu_label_iter(
    ctf_file_t *fp, int (*each)(const char *, const ctf_lblinfo_t *, void *), void *arg)
{
    struct each_label of = { fp, each, arg, false };
    int said = ctf_label_iter(fp, on_label, &of);
    return said == 0 && !of.is_met ? (int)ctfd__fail(fp, CTFD__NO_LABELS) : said;
}

/* ---- symbols */

/* Finds a symbol of a created dictionary. */
static bool find_added(
    const struct ctfd__recipe *of, const char *name, bool variables, uint16_t *type)
{
    uint32_t i;
    for (i = 0; i < of->symbols_len; i++) {
        if ((of->symbols[i].sort == CTFD_SORT_VARIABLE) == variables &&
            strcmp(of->symbols[i].name, name) == 0) {
            *type = of->symbols[i].type;
            return true;
        }
    }
    return false;
}

/* Finds an object by its name in the symbol table. */
static bool find_object(ctf_file_t *fp, const char *name, bool variables, uint16_t *type)
{
    struct ctfd *types;
    uint32_t symbol = 0;
    return ctfd__opened(fp, &types) == CTFD_OK &&
        ctfd_symbol(types, name, strlen(name), &symbol) == CTFD_OK &&
        (!variables || fp->variables == NULL || fp->variables[symbol] != 0) &&
        ctfd_object(types, symbol, type) == CTFD_OK;
}

/* The sorts of labels that are variables, or all others. */
static unsigned sorts_of(bool variables)
{
    unsigned variable = 1u << CTFD_SORT_VARIABLE;
    return variables ? variable : ~variable;
}

static ctf_id_t symbol_of(ctf_file_t *fp, const char *name, bool variables)
{
    uint16_t type = 0;
    bool is_there = fp->recipe != NULL ? find_added(fp->recipe, name, variables, &type)
                                       : find_object(fp, name, variables, &type) ||
            ctfd__find_symbol_label(fp, name, sorts_of(variables), &type);
    return is_there ? (ctf_id_t)type : ctfd__fail(fp, CTFD__NO_SYMBOL_TYPE);
}

SEEN ctf_id_t ctfd_gnu_symbol_named(ctf_file_t *fp, const char *name)
{
    return symbol_of(fp, name, false);
}

/* Only a label gives the type of a function: entries of functions have no type numbers. */
SEEN ctf_id_t ctfd_gnu_symbol(ctf_file_t *fp, unsigned long symbol)
{
    uint16_t type;
    if (ctfd__label_of_symbol(fp, symbol, CTFD_SORT_FUNCTION, &type))
        return (ctf_id_t)type;
    return ctf_lookup_by_symbol(fp, symbol);
}

SEEN ctf_id_t ctfd_gnu_variable(ctf_file_t *fp, const char *name)
{
    return symbol_of(fp, name, true);
}

SEEN ctf_file_t *ctfd_gnu_arc_symbol_named(
    struct ctfd_gnu_archive *archive, const char *name, ctf_id_t *type, int *error)
{
    ctf_id_t found = symbol_of(archive->fp, name, false);
    if (found == CTF_ERR)
        return refused(error, archive->fp->error);
    if (type != NULL)
        *type = found;
    archive->fp->uses++;
    return archive->fp;
}

/* The next symbol of a created dictionary. */
static bool next_added(const struct ctfd__recipe *of, struct ctf_next *it, const char **name,
    uint8_t sort, uint16_t *type)
{
    while (it->i < of->symbols_len) {
        const struct ctfd__symbol *symbol = &of->symbols[it->i++];
        if (symbol->sort != sort)
            continue;
        *name = symbol->name;
        *type = symbol->type;
        return true;
    }
    return false;
}

/* Whether a symbol of the symbol table counts as a variable, for which the linker keeps no type. */
static bool is_variable(const ctf_file_t *fp, uint32_t i)
{
    return fp->variables != NULL && fp->variables[i] != 0;
}

/* The next symbol of an opened file: first those of its symbol table, then those of its labels. */
static bool next_symbol(
    ctf_file_t *fp, struct ctf_next *it, const char **name, uint8_t sort, uint16_t *type)
{
    uint32_t count = (uint32_t)(fp->lists.len[1] / CTFD_SYMBOL);
    struct ctfd_function function;
    struct ctfd *types;
    if (ctfd__opened(fp, &types) != CTFD_OK)
        return false;
    while (it->i < count) {
        uint32_t i = it->i++;
        *type = 0;
        if (is_variable(fp, i) != (sort == CTFD_SORT_VARIABLE) ||
            (sort == CTFD_SORT_FUNCTION ? ctfd_function(types, i, &function)
                                        : ctfd_object(types, i, type)) != CTFD_OK)
            continue;
        *name = ctfd__numbered(fp, ctfd_symbol_name, i);
        return *name != NULL;
    }
    while (it->i - count < ctfd__label_count(fp)) {
        if (ctfd__symbol_of_label(fp, it->i++ - count, name, type) == sort)
            return true;
    }
    return false;
}

static ctf_id_t next_of_sort(
    ctf_file_t *fp, struct ctf_next **it, const char **name, int what, uint8_t sort)
{
    uint16_t type = 0;
    if (!begun_in(fp, it, what))
        return CTF_ERR;
    if (fp->recipe != NULL ? next_added(fp->recipe, *it, name, sort, &type)
                           : next_symbol(fp, *it, name, sort, &type))
        return (ctf_id_t)type;
    end(it);
    return ctfd__fail(fp, CTFD__NEXT_END);
}

SEEN ctf_id_t ctfd_gnu_symbol_next(
    ctf_file_t *fp, struct ctf_next **it, const char **name, int functions)
{
    return next_of_sort(fp, it, name, functions ? FUNCTIONS : SYMBOLS,
        functions ? CTFD_SORT_FUNCTION : CTFD_SORT_OBJECT);
}

SEEN ctf_id_t ctfd_gnu_variable_next(ctf_file_t *fp, struct ctf_next **it, const char **name)
{
    return next_of_sort(fp, it, name, VARIABLES, CTFD_SORT_VARIABLE);
}

SEEN int ctfd_gnu_variable_iter(
    ctf_file_t *fp, int (*each)(const char *, ctf_id_t, void *), void *arg)
{
    struct ctf_next *it = NULL;
    const char *name = NULL;
    ctf_id_t type;
    while ((type = ctfd_gnu_variable_next(fp, &it, &name)) != CTF_ERR) {
        int said = each(name, type, arg);
        if (said != 0) {
            ctfd_gnu_next_destroy(it);
            return said;
        }
    }
    return fp->error == CTFD__NEXT_END ? 0 : -1;
}

static int add_symbol(ctf_file_t *fp, const char *name, ctf_id_t type, uint8_t sort)
{
    if (fp->recipe == NULL)
        return (int)ctfd__fail(fp, CTFD_READ_ONLY);
    if (!ctfd__is_type(fp, type) || !ctfd__is_there(fp, (uint16_t)type))
        return (int)ctfd__fail(fp, CTFD_NO_TYPE);
    return ctfd__done(fp, ctfd__add_symbol(fp, name, (uint16_t)type, sort));
}

SEEN int ctfd_gnu_add_objt_sym(ctf_file_t *fp, const char *name, ctf_id_t type)
{
    return add_symbol(fp, name, type, CTFD_SORT_OBJECT);
}

SEEN int ctfd_gnu_add_func_sym(ctf_file_t *fp, const char *name, ctf_id_t type)
{
    return add_symbol(fp, name, type, CTFD_SORT_FUNCTION);
}

SEEN int ctfd_gnu_add_variable(ctf_file_t *fp, const char *name, ctf_id_t type)
{
    return add_symbol(fp, name, type, CTFD_SORT_VARIABLE);
}

SEEN int ctfd_gnu_link_symbol(ctf_file_t *fp, void *symbol)
{
    (void)fp;
    (void)symbol;
    return 0;
}

/* ---- created dictionaries */

SEEN ctf_file_t *ctfd_gnu_create(int *error)
{
    ctf_file_t *fp = ctf_create(NULL);
    if (fp == NULL)
        return refused(error, ctfd__refusal());
    fp->is_live = true;
    return fp;
}

SEEN ctf_id_t ctfd_gnu_add_pointer(ctf_file_t *fp, uint_t flag, ctf_id_t type)
{
    return ctf_add_pointer(fp, flag, NULL, type);
}

SEEN ctf_id_t ctfd_gnu_add_const(ctf_file_t *fp, uint_t flag, ctf_id_t type)
{
    return ctf_add_const(fp, flag, NULL, type);
}

SEEN ctf_id_t ctfd_gnu_add_volatile(ctf_file_t *fp, uint_t flag, ctf_id_t type)
{
    return ctf_add_volatile(fp, flag, NULL, type);
}

SEEN ctf_id_t ctfd_gnu_add_restrict(ctf_file_t *fp, uint_t flag, ctf_id_t type)
{
    return ctf_add_restrict(fp, flag, NULL, type);
}

SEEN ctf_id_t ctfd_gnu_add_enum(ctf_file_t *fp, uint_t flag, const char *name)
{
    return ctf_add_enum(fp, flag, name, 4);
}

SEEN ctf_id_t ctfd_gnu_add_function(
    ctf_file_t *fp, uint_t flag, const ctf_funcinfo_t *info, const ctf_id_t *argv)
{
    return ctf_add_function(fp, flag, NULL, info, argv);
}

static ctf_id_t sized(ctf_file_t *fp, ctf_id_t t, size_t size)
{
    struct ctfd__type *type = t != CTF_ERR ? ctfd__own_type(fp, (uint16_t)t) : NULL;
    if (type != NULL)
        type->size = size;
    return t;
}

SEEN ctf_id_t ctfd_gnu_add_struct_sized(ctf_file_t *fp, uint_t flag, const char *name, size_t size)
{
    return sized(fp, ctf_add_struct(fp, flag, name), size);
}

SEEN ctf_id_t ctfd_gnu_add_union_sized(ctf_file_t *fp, uint_t flag, const char *name, size_t size)
{
    return sized(fp, ctf_add_union(fp, flag, name), size);
}

SEEN ctf_id_t ctfd_gnu_add_unknown(ctf_file_t *fp, uint_t flag, const char *name)
{
    uint16_t t = 0;
    if (fp->recipe == NULL)
        return ctfd__fail(fp, CTFD_READ_ONLY);
    fp->is_touched = true;
    return ctfd__done(fp,
               ctfd__add_type(fp, CTFD_UNKNOWN, 0, name != NULL ? name : "", flag != 0, &t)) != 0
        ? CTF_ERR
        : (ctf_id_t)t;
}

SEEN int ctfd_gnu_add_member(ctf_file_t *fp, ctf_id_t sou, const char *name, ctf_id_t type)
{
    return ctf_add_member(fp, sou, name, type, ULONG_MAX);
}

struct gnu_snapshot {
    unsigned long types, number;
};

SEEN struct gnu_snapshot ctfd_gnu_snapshot(ctf_file_t *fp)
{
    struct gnu_snapshot made = { 0, 0 };
    if (fp->recipe != NULL) {
        made.types = fp->recipe->count;
        made.number = ++fp->recipe->snapshots;
    }
    return made;
}

/* Removes the types after the snapshot. Members and enumerators that older types got since stay, as
 * in GNU's library, except those that would refer to a removed type. */
SEEN int ctfd_gnu_rollback(ctf_file_t *fp, struct gnu_snapshot to)
{
    if (fp->recipe == NULL)
        return (int)ctfd__fail(fp, CTFD_READ_ONLY);
    if (fp->recipe->written_snapshot >= to.number)
        return (int)ctfd__fail(fp, CTFD__ROLLED_PAST);
    ctfd__drop_types(fp, (uint32_t)to.types);
    fp->recipe->snapshots = to.number - 1;
    return 0;
}

SEEN unsigned char *ctfd_gnu_write_mem(ctf_file_t *fp, size_t *size, size_t threshold)
{
    const void *bytes = NULL;
    unsigned char *made;
    (void)threshold;
    ctf_dataptr(fp, &bytes, size);
    if (bytes == NULL)
        return NULL;
    made = (unsigned char *)malloc(*size + 1);
    if (made == NULL) {
        (void)ctfd__fail(fp, CTFD_MEMORY);
        return NULL;
    }
    memcpy(made, bytes, *size);
    if (fp->recipe != NULL)
        fp->recipe->written_snapshot = fp->recipe->snapshots;
    return made;
}
