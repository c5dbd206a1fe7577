/* details.c - members and enumerators, read once. They are dropped if what is open changes, and all
 * at once if they take too much memory; then they are read again. */
#include "private.h"

#include <stdlib.h>
#include <string.h>

/* The most bytes that they take; tests use fewer. */
#ifndef MOST_BYTES
#define MOST_BYTES 16777216
#endif

/* Details are allocated in blocks, which are all freed at the same time. */
#define BLOCK_BYTES 8192

struct ctfd__block {
    struct ctfd__block *next;
    size_t size, used;
};

/* Memory for details, which is not cleared; NULL if there is none. */
static void *taken(ctf_file_t *fp, size_t size)
{
    struct ctfd__block *block = fp->blocks;
    if (block == NULL || block->size - block->used < size) {
        size_t room = size > BLOCK_BYTES ? size : BLOCK_BYTES;
        block = (struct ctfd__block *)malloc(sizeof *block + room);
        if (block == NULL)
            return NULL;
        block->next = fp->blocks;
        block->size = room;
        block->used = 0;
        fp->blocks = block;
    }
    block->used += size;
    return (char *)(block + 1) + block->used - size;
}

static void free_blocks(ctf_file_t *fp)
{
    while (fp->blocks != NULL) {
        struct ctfd__block *next = fp->blocks->next;
        free(fp->blocks);
        fp->blocks = next;
    }
}

void ctfd__forget_details(ctf_file_t *fp)
{
    size_t i, j;
    if (fp->details_bytes == 0)
        return;
    fp->dropped++;
    for (i = 0; i < sizeof fp->pages / sizeof fp->pages[0]; i++) {
        for (j = 0; fp->pages[i] != NULL && j < CTFD_PAGE; j++) {
            struct ctfd__details *gone = fp->pages[i]->details[j];
            if (gone == NULL)
                continue;
            free(gone->by_value);
            free(gone->by_name);
            fp->pages[i]->details[j] = NULL;
        }
    }
    free_blocks(fp);
    fp->details_bytes = 0;
}

void ctfd__forget(ctf_file_t *fp)
{
    size_t i;
    fp->generation++;
    ctfd__forget_details(fp);
    free(fp->definitions);
    fp->definitions = NULL;
    if (!fp->has_pages)
        return;
    fp->has_pages = false;
    for (i = 0; i < sizeof fp->pages / sizeof fp->pages[0]; i++) {
        free(fp->pages[i]);
        fp->pages[i] = NULL;
    }
}

/* The page of a type; NULL if there is no memory, and then nothing is kept. */
static struct ctfd__page *page_of(ctf_file_t *fp, uint16_t t)
{
    struct ctfd__page *page = fp->pages[t / CTFD_PAGE];
    if (page == NULL)
        page = fp->pages[t / CTFD_PAGE] = (struct ctfd__page *)calloc(1, sizeof *page);
    fp->has_pages = true;
    return page;
}

/* The number of rows that one call reads. */
#define ROWS 32

/* A name in the file's own lists; NULL if it has to be copied later. */
static const char *lent(const ctf_file_t *fp, bool is_lent, uint32_t list, uint64_t at)
{
    if (!is_lent)
        return NULL;
    switch (list) {
    case CTFD_IN_SECTION: return (const char *)fp->lists.data[0] + at;
    case CTFD_IN_STRINGS: return (const char *)fp->lists.data[2] + at;
    default: return "";
    }
}

/* The number of rows that the next call reads. */
static uint32_t some(uint32_t left)
{
    return left < ROWS ? left : ROWS;
}

static enum ctfd_status read_members(ctf_file_t *fp, uint16_t t, struct ctfd__details *made)
{
    struct ctfd_member_row rows[ROWS];
    bool is_lent = ctfd__is_lent(fp, t);
    enum ctfd_status status = CTFD_OK;
    uint64_t count;
    uint32_t i, from;
    for (from = 0; status == CTFD_OK && from < made->count; from += ROWS) {
        uint32_t more = some(made->count - from);
        status = ctfd_members(&fp->types, t, from, rows, more, &count);
        for (i = 0; status == CTFD_OK && i < more; i++) {
            struct ctfd__item *item = &made->items[from + i];
            item->name = lent(fp, is_lent, rows[i].name_list, rows[i].name_at);
            item->at = rows[i].offset;
            item->type = rows[i].type;
        }
    }
    return status;
}

static enum ctfd_status read_enumerators(ctf_file_t *fp, uint16_t t, struct ctfd__details *made)
{
    struct ctfd_enumerator_row rows[ROWS];
    bool is_lent = ctfd__is_lent(fp, t);
    enum ctfd_status status = CTFD_OK;
    uint64_t count;
    uint32_t i, from;
    for (from = 0; status == CTFD_OK && from < made->count; from += ROWS) {
        uint32_t more = some(made->count - from);
        status = ctfd_enumerators(&fp->types, t, from, rows, more, &count);
        for (i = 0; status == CTFD_OK && i < more; i++) {
            struct ctfd__item *item = &made->items[from + i];
            item->name = lent(fp, is_lent, rows[i].name_list, rows[i].name_at);
            item->at = (uint32_t)rows[i].value;
            item->type = 0;
        }
    }
    return status;
}

/* The number of items of a type. */
static enum ctfd_status count_items(ctf_file_t *fp, uint16_t t, uint32_t kind, uint64_t *count)
{
    if (kind == CTFD_STRUCT || kind == CTFD_UNION || kind == CTFD_ENUM)
        return ctfd_length(&fp->types, t, count);
    return CTFD_WRONG_KIND;
}

/* Details of a kind with room for that many items, entered into the file's pages. */
static struct ctfd__details *placed(ctf_file_t *fp, uint16_t t, uint32_t kind, size_t count)
{
    static const struct ctfd__details none;
    size_t size = sizeof(struct ctfd__details) + count * sizeof(struct ctfd__item);
    struct ctfd__page *page = page_of(fp, t);
    struct ctfd__details *made;
    if (fp->details_bytes + size > MOST_BYTES)
        ctfd__forget_details(fp);
    made = page != NULL ? (struct ctfd__details *)taken(fp, size) : NULL;
    if (made == NULL)
        return NULL;
    *made = none;
    made->kind = kind;
    made->count = (uint32_t)count;
    page->details[t % CTFD_PAGE] = made;
    fp->details_bytes += size;
    return made;
}

struct ctfd__details *ctfd__read(ctf_file_t *fp, uint16_t t)
{
    uint32_t kind = 0;
    uint64_t count = 0;
    struct ctfd__details *made;
    enum ctfd_status status;
    if (fp->recipe != NULL)
        return ctfd__recipe_details(fp, t);
    status = ctfd__kind_of(fp, t, &kind);
    if (status == CTFD_OK)
        status = count_items(fp, t, kind, &count);
    if (ctfd__done(fp, status) != 0)
        return NULL;
    made = placed(fp, t, kind, (size_t)count);
    if (made == NULL) {
        (void)ctfd__fail(fp, CTFD_MEMORY);
        return NULL;
    }
    status = kind == CTFD_ENUM ? read_enumerators(fp, t, made) : read_members(fp, t, made);
    if (status == CTFD_OK)
        return made;
    fp->pages[t / CTFD_PAGE]->details[t % CTFD_PAGE] = NULL;
    (void)ctfd__done(fp, status);
    return NULL;
}

/* Reads the name of an item into the buffer. */
static enum ctfd_status read_name(
    ctf_file_t *fp, uint16_t t, uint32_t kind, uint32_t i, uint64_t *len)
{
    struct ctfd_member member = { 0, 0, 0 };
    enum ctfd_status status;
    int32_t value = 0;
    if (kind == CTFD_ENUM)
        return ctfd_enumerator(&fp->types, t, i, fp->room, fp->room_len, &value, len);
    status = ctfd_member(&fp->types, t, i, fp->room, fp->room_len, &member);
    *len = member.name_len;
    return status;
}

/* Keeps the name of an item; NULL with the error set if there is no memory. */
static const char *keep_name(ctf_file_t *fp, uint16_t t, uint32_t i)
{
    struct ctfd__details *details = ctfd__details(fp, t);
    uint64_t len = 0;
    if (details == NULL)
        return NULL;
    do {
        if (ctfd__done(fp, read_name(fp, t, details->kind, i, &len)) != 0)
            return NULL;
        if (len < fp->room_len)
            return details->items[i].name = ctfd__kept(fp, (size_t)len);
    } while (ctfd__make_room(fp, len));
    return NULL;
}

/* A created parent keeps its names as long as it has children. The lists of an opened one may be
 * freed before the child is closed, so names in them are copied. */
const char *ctfd__item_name(ctf_file_t *fp, uint16_t t, uint32_t i)
{
    ctf_file_t *of = ctfd__owner(fp, t);
    const struct ctfd__details *details = ctfd__details(of, t);
    const char *name = details != NULL ? details->items[i].name : NULL;
    if (details != NULL && name == NULL)
        name = keep_name(of, t, i);
    if (of == fp || of->recipe != NULL || name == NULL) {
        fp->error = name == NULL ? of->error : fp->error;
        return name;
    }
    name = ctfd__keep(fp, name, strlen(name));
    if (name == NULL)
        (void)ctfd__fail(fp, CTFD_MEMORY);
    return name;
}
