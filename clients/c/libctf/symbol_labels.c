/* symbol_labels.c - labels that stand for symbols. Version 2 has no symbols by name, so those that
 * GNU's calls add are written as labels such as "ctfd.function:NAME". */
#include "private.h"

#include <string.h>

uint32_t ctfd__label_count(ctf_file_t *fp)
{
    uint64_t count = 0;
    struct ctfd *types;
    if (ctfd__opened(fp, &types) != CTFD_OK || ctfd_label_count(types, &count) != CTFD_OK)
        return 0;
    return (uint32_t)count;
}

/* Reads a label into the file's buffer. Returns the length of its name, or -1. */
static int64_t read_label(ctf_file_t *fp, uint32_t i, uint16_t *type)
{
    struct ctfd_label label;
    struct ctfd *types;
    if (ctfd__opened(fp, &types) != CTFD_OK)
        return -1;
    do {
        if (ctfd_label(types, i, fp->room, fp->room_len, &label) != CTFD_OK)
            return -1;
    } while (label.name_len >= fp->room_len && ctfd__make_room(fp, label.name_len));
    if (label.name_len >= fp->room_len)
        return -1;
    *type = (uint16_t)label.last;
    return (int64_t)label.name_len;
}

/* The sort whose prefix a label has, or -1. */
static int sort_of(const char *label, size_t len)
{
    int sort;
    for (sort = 0; sort < CTFD_SORTS; sort++) {
        size_t prefix = strlen(ctfd__symbol_labels[sort]);
        if (len >= prefix && memcmp(label, ctfd__symbol_labels[sort], prefix) == 0)
            return sort;
    }
    return -1;
}

int ctfd__symbol_of_label(ctf_file_t *fp, uint32_t i, const char **name, uint16_t *type)
{
    int64_t len = read_label(fp, i, type);
    int sort = len < 0 ? -1 : sort_of(fp->room, (size_t)len);
    size_t prefix;
    if (sort < 0)
        return -1;
    prefix = strlen(ctfd__symbol_labels[sort]);
    *name = ctfd__keep(fp, fp->room + prefix, (size_t)len - prefix);
    return *name != NULL ? sort : -1;
}

bool ctfd__find_symbol_label(ctf_file_t *fp, const char *name, unsigned sorts, uint16_t *type)
{
    uint32_t i, count = ctfd__label_count(fp);
    size_t name_len = strlen(name);
    for (i = 0; i < count; i++) {
        int64_t len = read_label(fp, i, type);
        int sort = len < 0 ? -1 : sort_of(fp->room, (size_t)len);
        size_t prefix;
        if (sort < 0 || (sorts & 1u << sort) == 0)
            continue;
        prefix = strlen(ctfd__symbol_labels[sort]);
        if ((size_t)len == prefix + name_len && memcmp(fp->room + prefix, name, name_len) == 0)
            return true;
    }
    return false;
}

bool ctfd__label_of_symbol(ctf_file_t *fp, ulong_t symbol, int sort, uint16_t *type)
{
    const char *name;
    if (symbol > 0xffffffffUL || fp->recipe != NULL || ctfd__label_count(fp) == 0)
        return false;
    name = ctfd__numbered(fp, ctfd_symbol_name, (uint32_t)symbol);
    return name != NULL && ctfd__find_symbol_label(fp, name, 1u << sort, type);
}
