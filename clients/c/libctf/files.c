/* files.c - open files: a dictionary of sections in memory, its data model, and its parent. */
#include "private.h"

#include <errno.h>
#include <stdlib.h>
#include <string.h>

/* Not linked if a program leaves out the part for ELF files. */
#pragma weak ctfd_elf_inflate

ctf_file_t *ctfd__refused(int *error, int why)
{
    ctfd__note_refusal(why);
    if (error != NULL)
        *error = ctfd__number(why);
    return NULL;
}

void ctfd__free(ctf_file_t *fp)
{
    size_t i;
    ctfd__forget(fp);
    ctfd__free_recipe(fp);
    ctfd__free_texts(&fp->texts);
    for (i = 0; i < 3; i++)
        free(fp->owned[i]);
    free(fp->variables);
    free(fp->bytes);
    free(fp->room);
    free(fp);
}

ctf_file_t *ctfd__new(int *error)
{
    ctf_file_t *fp = (ctf_file_t *)calloc(1, sizeof *fp);
    if (fp != NULL) {
        fp->uses = 1;
        fp->model = CTF_MODEL_LP64;
        fp->generation = 1;
        if (ctfd__make_room(fp, 255))
            return fp;
        ctfd__free(fp);
    }
    return ctfd__refused(error, CTFD_MEMORY);
}

/* Enters an opened child in the list of its created parent, whose changes suspend it. */
static void join_parent(ctf_file_t *fp)
{
    if (fp->recipe != NULL || fp->parent == NULL || fp->parent->recipe == NULL)
        return;
    fp->sibling = fp->parent->children;
    fp->parent->children = fp;
}

static void leave_parent(ctf_file_t *fp)
{
    ctf_file_t **at = fp->parent != NULL ? &fp->parent->children : NULL;
    while (at != NULL && *at != NULL && *at != fp)
        at = &(*at)->sibling;
    if (at != NULL && *at != NULL)
        *at = fp->sibling;
    fp->sibling = NULL;
}

/* Ends a use of a file. The last one closes it, and ends its use of the parent. */
static void end_use(ctf_file_t *fp)
{
    while (fp != NULL && --fp->uses == 0) {
        ctf_file_t *parent = fp->parent;
        leave_parent(fp);
        ctfd_close(&fp->types);
        ctfd_close(&fp->behind);
        ctfd__free(fp);
        fp = parent;
    }
}

/* If children keep the file, its names may no longer point into the caller's lists. */
void ctf_close(ctf_file_t *fp)
{
    if (fp != NULL && fp->recipe == NULL && fp->uses > 1 && !fp->is_left) {
        fp->is_left = true;
        ctfd__forget_details(fp);
    }
    end_use(fp);
}

/* ---- sections */

/* Opens the lists of a file behind a handle that has nothing open. */
static enum ctfd_status open_lists(const ctf_file_t *fp, int model, struct ctfd *types)
{
    const struct ctfd__lists *lists = &fp->lists;
    uint64_t place;
    return (fp->keeps_lists ? ctfd_open_lent : ctfd_open)(types, lists->data[0], lists->len[0],
        lists->data[1], lists->len[1], lists->data[2], lists->len[2], lists->has[1], lists->has[2],
        model == CTF_MODEL_ILP32, &place);
}

/* Opens the lists again, for another model or another parent. A refusal changes nothing. */
static int reopen(ctf_file_t *fp, int model, ctf_file_t *parent)
{
    struct ctfd types = CTFD_NONE, *of_parent;
    uint64_t place;
    enum ctfd_status status = open_lists(fp, model, &types);
    if (status == CTFD_OK && parent != NULL)
        status = ctfd__opened(parent, &of_parent);
    if (status == CTFD_OK && parent != NULL)
        status = ctfd_import(&types, of_parent, &place);
    if (status != CTFD_OK) {
        ctfd_close(&types);
        return ctfd__done(fp, status);
    }
    ctfd_close(&fp->types);
    ctfd_close(&fp->behind);
    ctfd__forget(fp);
    fp->types = types;
    fp->model = model;
    return 0;
}

static void take_list(struct ctfd__lists *lists, int i, const ctf_sect_t *section)
{
    bool there = section != NULL && section->cts_data != NULL;
    lists->has[i] = section != NULL;
    lists->data[i] = there ? section->cts_data : "";
    lists->len[i] = there ? section->cts_size : 0;
}

/* Lets a file own a block as one of its lists. */
static void own_list(ctf_file_t *fp, int i, void *block, size_t len)
{
    free(fp->owned[i]);
    fp->owned[i] = block;
    fp->lists.data[i] = block;
    fp->lists.len[i] = len;
    fp->lists.has[i] = true;
}

/* Converts symbols of ELF32 to ELF64: name, value and size, kind, other, section. */
static void widen(const unsigned char *from, size_t count, unsigned char *to)
{
    for (; count > 0; count--, from += CTFD_SYMBOL_32, to += CTFD_SYMBOL) {
        memcpy(to, from, 4);
        memcpy(to + 4, from + 12, 4);
        memcpy(to + 8, from + 4, 4);
        memcpy(to + 16, from + 8, 4);
    }
}

/* Symbols with an entry size of 16 bytes are converted to 24, and set the model to ILP32. */
static enum ctfd_status take_symbols(ctf_file_t *fp, const ctf_sect_t *symbols)
{
    size_t count;
    void *made;
    take_list(&fp->lists, 1, symbols);
    if (symbols == NULL || symbols->cts_entsize != CTFD_SYMBOL_32)
        return CTFD_OK;
    fp->model = CTF_MODEL_ILP32;
    count = fp->lists.len[1] / CTFD_SYMBOL_32;
    if (fp->lists.len[1] % CTFD_SYMBOL_32 != 0)
        return CTFD_BAD_SYMTAB;
    made = calloc(count + 1, CTFD_SYMBOL);
    if (made == NULL)
        return CTFD_MEMORY;
    widen((const unsigned char *)fp->lists.data[1], count, (unsigned char *)made);
    own_list(fp, 1, made, count * CTFD_SYMBOL);
    return CTFD_OK;
}

/* Inflates the dictionary and opens the result; 0 or an error. */
static int open_inflated(ctf_file_t *fp)
{
    struct ctfd_elf_list made = { NULL, 0 };
    int error;
    if (ctfd_elf_inflate == NULL)
        return CTFD__NO_PART;
    error = ctfd_elf_inflate(fp->lists.data[0], fp->lists.len[0], &made);
    if (error != 0)
        return error;
    own_list(fp, 0, made.at, made.len);
    return (int)open_lists(fp, fp->model, &fp->types);
}

ctf_file_t *ctf_bufopen(
    const ctf_sect_t *ctf, const ctf_sect_t *symbols, const ctf_sect_t *strings, int *error)
{
    return ctfd__open(ctf, symbols, strings, false, error);
}

ctf_file_t *ctfd__open(const ctf_sect_t *ctf, const ctf_sect_t *symbols, const ctf_sect_t *strings,
    bool is_kept, int *error)
{
    int failed;
    ctf_file_t *fp;
    if (ctf == NULL || (symbols == NULL) != (strings == NULL))
        return ctfd__refused(error, CTFD__SYSTEM + EINVAL);
    fp = ctfd__new(error);
    if (fp == NULL)
        return NULL;
    fp->keeps_lists = is_kept;
    take_list(&fp->lists, 0, ctf);
    take_list(&fp->lists, 2, strings);
    failed = (int)take_symbols(fp, symbols);
    if (failed == CTFD_OK)
        failed = (int)open_lists(fp, fp->model, &fp->types);
    if (failed == CTFD_COMPRESSED)
        failed = open_inflated(fp);
    if (failed == CTFD_OK)
        return fp;
    ctf_close(fp);
    return ctfd__refused(error, failed);
}

/* ---- the data model, the caller's data, and the bytes */

int ctf_setmodel(ctf_file_t *fp, int model)
{
    if (model != CTF_MODEL_ILP32 && model != CTF_MODEL_LP64)
        return (int)ctfd__system(fp, EINVAL);
    if (model == fp->model)
        return 0;
    if (fp->recipe == NULL)
        return reopen(fp, model, fp->parent);
    if (fp->is_touched)
        return ctfd__done(fp, CTFD_MODEL_DIFFERS);
    fp->recipe->written.is_stale = true;
    ctfd__change(fp);
    fp->model = model;
    return 0;
}

int ctf_getmodel(ctf_file_t *fp)
{
    return fp->model;
}

void ctf_setspecific(ctf_file_t *fp, void *data)
{
    fp->specific = data;
}

void *ctf_getspecific(ctf_file_t *fp)
{
    return fp->specific;
}

/* The bytes of a created dictionary, in a block that the file keeps. */
static const void *recipe_bytes(ctf_file_t *fp, size_t *size)
{
    uint64_t len = 0;
    char none;
    void *made;
    struct ctfd *types = &fp->recipe->draft;
    if (ctfd__done(fp, ctfd__write(fp)) != 0 ||
        ctfd__done(fp, ctfd_bytes(types, 0, &none, 0, &len)) != 0)
        return NULL;
    made = malloc((size_t)len + 1);
    if (made == NULL) {
        (void)ctfd__fail(fp, CTFD_MEMORY);
        return NULL;
    }
    if (ctfd__done(fp, ctfd_bytes(types, 0, made, (size_t)len, &len)) != 0) {
        free(made);
        return NULL;
    }
    free(fp->bytes);
    fp->bytes = made;
    *size = (size_t)len;
    return made;
}

void ctf_dataptr(ctf_file_t *fp, const void **bytes, size_t *size)
{
    size_t len = fp->recipe != NULL ? 0 : fp->lists.len[0];
    const void *data = fp->recipe != NULL ? recipe_bytes(fp, &len) : fp->lists.data[0];
    if (bytes != NULL)
        *bytes = data;
    if (size != NULL)
        *size = len;
}

/* A number of four bytes in a dictionary. */
static size_t number_at(const unsigned char *bytes)
{
    return bytes[0] | (size_t)bytes[1] << 8 | (size_t)bytes[2] << 16 | (size_t)bytes[3] << 24;
}

/* The rules ensure that the strings end within the bytes. The last may lack its zero byte, and then
 * is no name. */
int ctf_string_iter(ctf_file_t *fp, ctf_string_f *each, void *arg)
{
    const void *data = NULL;
    void *own;
    const char *at, *end;
    size_t size = 0;
    int said = 0;
    ctf_dataptr(fp, &data, &size);
    if (data == NULL)
        return (int)CTF_ERR;
    /* The block of a created dictionary is taken, since a callback may request newer bytes. */
    own = fp->bytes;
    fp->bytes = NULL;
    at = (const char *)data + 36 + number_at((const unsigned char *)data + 28);
    end = at + number_at((const unsigned char *)data + 32);
    while (at < end && said == 0) {
        const char *stop = (const char *)memchr(at, '\0', (size_t)(end - at));
        if (stop == NULL)
            break;
        said = each(at, arg);
        at = stop + 1;
    }
    free(own);
    return said;
}

/* ---- parents */

/* Whether a file names a parent. */
static enum ctfd_status is_child(ctf_file_t *fp, bool *child)
{
    struct ctfd *types;
    uint32_t names = fp->parent != NULL;
    enum ctfd_status status = fp->recipe != NULL ? CTFD_OK : ctfd__opened(fp, &types);
    if (status == CTFD_OK && fp->recipe == NULL)
        status = ctfd_child(types, &names);
    *child = names != 0;
    return status;
}

/* The reason why a file can't get a parent, apart from the parent's contents. */
static enum ctfd_status refusal_of_parent(ctf_file_t *fp, ctf_file_t *parent)
{
    bool child = false;
    enum ctfd_status status = is_child(parent, &child);
    if (status != CTFD_OK)
        return status;
    if (fp == parent)
        return child ? CTFD_PARENT_IS_CHILD : CTFD_NOT_CHILD;
    if (fp->recipe == NULL)
        return CTFD_OK;
    if (fp->is_touched || fp->parent != NULL)
        return CTFD_FIXED_PARENT;
    return child ? CTFD_PARENT_IS_CHILD : CTFD_OK;
}

/* Imports a parent into the handle of an opened child: of a created parent, what is visible. */
static enum ctfd_status import_parent(ctf_file_t *fp, ctf_file_t *parent)
{
    struct ctfd *types, *of_parent;
    uint64_t place;
    enum ctfd_status status = refusal_of_parent(fp, parent);
    if (status != CTFD_OK || fp->recipe != NULL)
        return status;
    status = ctfd__opened(parent, &of_parent);
    if (status == CTFD_OK)
        status = ctfd__opened(fp, &types);
    return status == CTFD_OK ? ctfd_import(types, of_parent, &place) : status;
}

int ctf_import(ctf_file_t *fp, ctf_file_t *parent)
{
    ctf_file_t *old = fp->parent;
    if (parent == NULL) {
        if (fp->recipe != NULL && old != NULL)
            return ctfd__done(fp, CTFD_FIXED_PARENT);
        if (old != NULL && reopen(fp, fp->model, NULL) != 0)
            return (int)CTF_ERR;
    } else {
        if (ctfd__done(fp, import_parent(fp, parent)) != 0)
            return (int)CTF_ERR;
        parent->uses++;
        fp->is_touched = true;
        fp->model = parent->model;
    }
    ctfd__forget(fp);
    leave_parent(fp);
    fp->parent = parent;
    join_parent(fp);
    end_use(old);
    return 0;
}

ctf_file_t *ctf_parent_file(ctf_file_t *fp)
{
    return fp->parent;
}

const char *ctf_parent_name(ctf_file_t *fp)
{
    const char *name;
    if (fp->recipe != NULL)
        return fp->parent != NULL ? "PARENT" : NULL;
    name = ctfd__text_of(fp, ctfd_parent_name);
    return name != NULL && *name != '\0' ? name : NULL;
}

const char *ctf_parent_label(ctf_file_t *fp)
{
    const char *name;
    if (fp->recipe != NULL)
        return NULL;
    name = ctfd__text_of(fp, ctfd_parent_label);
    return name != NULL && *name != '\0' ? name : NULL;
}

/* ---- ctf_dup */

/* Copies the lists that a file owns; false if there is no memory. */
static bool copy_owned(ctf_file_t *made, const ctf_file_t *fp)
{
    int i;
    for (i = 0; i < 3; i++) {
        void *block;
        if (fp->owned[i] == NULL)
            continue;
        block = malloc(fp->lists.len[i] + 1);
        if (block == NULL)
            return false;
        memcpy(block, fp->owned[i], fp->lists.len[i]);
        own_list(made, i, block, fp->lists.len[i]);
    }
    return true;
}

ctf_file_t *ctf_dup(ctf_file_t *fp)
{
    ctf_file_t *made;
    if (fp->recipe != NULL) {
        (void)ctfd__system(fp, ENOTSUP);
        return NULL;
    }
    made = ctfd__new(NULL);
    if (made == NULL) {
        (void)ctfd__fail(fp, CTFD_MEMORY);
        return NULL;
    }
    made->lists = fp->lists;
    made->keeps_lists = fp->keeps_lists;
    if (!copy_owned(made, fp) || reopen(made, fp->model, fp->parent) != 0) {
        (void)ctfd__fail(fp, made->error != 0 ? made->error : CTFD_MEMORY);
        ctf_close(made);
        return NULL;
    }
    made->parent = fp->parent;
    if (made->parent != NULL)
        made->parent->uses++;
    join_parent(made);
    return made;
}
