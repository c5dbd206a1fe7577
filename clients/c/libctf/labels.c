/* labels.c - labels: marks of the tools that wrote a dictionary. */
#include "private.h"

#include <errno.h>
#include <string.h>

/* The label with a number, with its name kept; NULL after the last, or on an error. */
static const char *label_at(ctf_file_t *fp, size_t i)
{
    struct ctfd_label out;
    struct ctfd *types;
    if (ctfd__done(fp, ctfd__opened(fp, &types)) != 0)
        return NULL;
    do {
        enum ctfd_status status = ctfd_label(types, i, fp->room, fp->room_len, &out);
        if (ctfd__done(fp, status) != 0)
            return NULL;
        if (out.name_len < fp->room_len)
            return ctfd__kept(fp, (size_t)out.name_len);
    } while (ctfd__make_room(fp, out.name_len));
    return NULL;
}

static enum ctfd_status count_labels(ctf_file_t *fp, uint64_t *count)
{
    struct ctfd *types;
    enum ctfd_status status = ctfd__opened(fp, &types);
    return status == CTFD_OK ? ctfd_label_count(types, count) : status;
}

int ctf_label_iter(ctf_file_t *fp, ctf_label_f *each, void *arg)
{
    uint64_t i, count = 0;
    if (ctfd__done(fp, count_labels(fp, &count)) != 0)
        return (int)CTF_ERR;
    if (count == 0)
        return (int)ctfd__fail(fp, CTFD__NO_LABELS);
    for (i = 0; i < count; i++) {
        const char *name = label_at(fp, (size_t)i);
        int said = name == NULL ? (int)CTF_ERR : each(name, arg);
        if (said != 0)
            return said;
    }
    return 0;
}

/* The last label; NULL if there is none. */
const char *ctf_label_topmost(ctf_file_t *fp)
{
    uint64_t count = 0;
    if (ctfd__done(fp, count_labels(fp, &count)) != 0)
        return NULL;
    if (count == 0) {
        (void)ctfd__fail(fp, CTFD__NO_LABELS);
        return NULL;
    }
    return label_at(fp, (size_t)count - 1);
}

int ctf_label_info(ctf_file_t *fp, const char *name, ctf_lblinfo_t *info)
{
    uint32_t last = 0;
    struct ctfd *types;
    enum ctfd_status status = ctfd__opened(fp, &types);
    if (status == CTFD_OK)
        status = ctfd_label_last(types, name, strlen(name), &last);
    if (ctfd__done(fp, status) != 0)
        return (int)CTF_ERR;
    info->ctb_typeidx = (ctf_id_t)last;
    return 0;
}

/* The format stores labels in the order in which they are added, so no earlier position is
 * possible. */
int ctf_add_label(ctf_file_t *fp, const char *name, ctf_id_t last, uint_t position)
{
    if (name == NULL || last < 0 || last > CTF_MAX_TYPE)
        return (int)ctfd__system(fp, EINVAL);
    if (position < fp->labels)
        return (int)ctfd__system(fp, ENOTSUP);
    if (fp->recipe == NULL)
        return (int)ctfd__fail(fp, CTFD_READ_ONLY);
    if (ctfd__done(fp, ctfd__add_mark(fp, name, (uint32_t)last)) != 0)
        return (int)CTF_ERR;
    fp->labels++;
    fp->is_touched = true;
    return 0;
}
