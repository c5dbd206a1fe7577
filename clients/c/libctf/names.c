/* names.c - names that are returned to callers: each is kept once, until its file is closed. */
#define _DEFAULT_SOURCE

#include "private.h"

#include <stdlib.h>
#include <string.h>
#include <sys/random.h>

struct ctfd__text {
    struct ctfd__text *next;
    uint64_t hash;
    size_t len;
    char text[];
};

bool ctfd__make_room(ctf_file_t *fp, uint64_t len)
{
    char *more;
    if (len < fp->room_len)
        return true;
    more = (char *)realloc(fp->room, (size_t)len + 1);
    if (more == NULL) {
        (void)ctfd__fail(fp, CTFD_MEMORY);
        return false;
    }
    fp->room = more;
    fp->room_len = (size_t)len + 1;
    return true;
}

/* ---- SipHash-1-3 of a text, with the table's own seed, which the author of names can't
 * predict. */

struct sip {
    uint64_t v0, v1, v2, v3;
};

static uint64_t turned(uint64_t word, int bits)
{
    return word << bits | word >> (64 - bits);
}

static void sip_round(struct sip *it)
{
    it->v0 += it->v1;
    it->v1 = turned(it->v1, 13) ^ it->v0;
    it->v0 = turned(it->v0, 32);
    it->v2 += it->v3;
    it->v3 = turned(it->v3, 16) ^ it->v2;
    it->v0 += it->v3;
    it->v3 = turned(it->v3, 21) ^ it->v0;
    it->v2 += it->v1;
    it->v1 = turned(it->v1, 17) ^ it->v2;
    it->v2 = turned(it->v2, 32);
}

static void sip_word(struct sip *it, uint64_t word)
{
    it->v3 ^= word;
    sip_round(it);
    it->v0 ^= word;
}

/* Takes a seed from the system or, if it gives none, from addresses in memory. */
static void seed(struct ctfd__texts *texts)
{
    texts->is_seeded = true;
    if (getrandom(texts->seed, sizeof texts->seed, GRND_NONBLOCK) == sizeof texts->seed)
        return;
    texts->seed[0] = (uint64_t)(uintptr_t)texts;
    texts->seed[1] = (uint64_t)(uintptr_t)&texts ^ (uint64_t)(uintptr_t)&seed;
}

static struct sip begun(struct ctfd__texts *texts)
{
    struct sip it;
    if (!texts->is_seeded)
        seed(texts);
    it.v0 = texts->seed[0] ^ 0x736f6d6570736575;
    it.v1 = texts->seed[1] ^ 0x646f72616e646f6d;
    it.v2 = texts->seed[0] ^ 0x6c7967656e657261;
    it.v3 = texts->seed[1] ^ 0x7465646279746573;
    return it;
}

uint64_t ctfd__hash(struct ctfd__texts *texts, const char *text, size_t len)
{
    struct sip it = begun(texts);
    uint64_t word;
    size_t at;
    for (at = 0; at + 8 <= len; at += 8) {
        memcpy(&word, text + at, 8);
        sip_word(&it, word);
    }
    word = (uint64_t)len << 56;
    for (; at < len; at++)
        word |= (uint64_t)(unsigned char)text[at] << 8 * (at % 8);
    sip_word(&it, word);
    it.v2 ^= 0xff;
    sip_round(&it);
    sip_round(&it);
    sip_round(&it);
    return it.v0 ^ it.v1 ^ it.v2 ^ it.v3;
}

/* Doubles the number of heads, so that lists stay short. */
static bool more_heads(struct ctfd__texts *texts)
{
    size_t i, len = texts->heads_len == 0 ? 64 : 2 * texts->heads_len;
    struct ctfd__text **heads = (struct ctfd__text **)calloc(len, sizeof *heads);
    if (heads == NULL)
        return false;
    for (i = 0; i < texts->heads_len; i++) {
        while (texts->heads[i] != NULL) {
            struct ctfd__text *moved = texts->heads[i];
            struct ctfd__text **head = &heads[moved->hash & (len - 1)];
            texts->heads[i] = moved->next;
            moved->next = *head;
            *head = moved;
        }
    }
    free(texts->heads);
    texts->heads = heads;
    texts->heads_len = len;
    return true;
}

/* The text in a table; NULL if it is not there. */
static struct ctfd__text *text_in(
    const struct ctfd__texts *texts, uint64_t hash, const char *text, size_t len)
{
    struct ctfd__text *it = texts->heads[(size_t)hash & (texts->heads_len - 1)];
    while (it != NULL && (it->hash != hash || it->len != len || memcmp(it->text, text, len) != 0))
        it = it->next;
    return it;
}

/* The text in a table, added if it is not there; NULL if there is no memory. */
static struct ctfd__text *kept_in(struct ctfd__texts *texts, const char *text, size_t len)
{
    struct ctfd__text *made, **head;
    uint64_t hash;
    if (texts->count >= texts->heads_len && !more_heads(texts))
        return NULL;
    hash = ctfd__hash(texts, text, len);
    made = text_in(texts, hash, text, len);
    if (made != NULL)
        return made;
    made = (struct ctfd__text *)malloc(sizeof *made + len + 1);
    if (made == NULL)
        return NULL;
    head = &texts->heads[(size_t)hash & (texts->heads_len - 1)];
    memcpy(made->text, text, len);
    made->text[len] = '\0';
    made->len = len;
    made->hash = hash;
    made->next = *head;
    *head = made;
    texts->count++;
    return made;
}

const char *ctfd__kept(ctf_file_t *fp, size_t len)
{
    const struct ctfd__text *text = kept_in(&fp->texts, fp->room, len);
    if (text != NULL)
        return text->text;
    (void)ctfd__fail(fp, CTFD_MEMORY);
    return NULL;
}

const char *ctfd__keep(ctf_file_t *fp, const char *text, size_t len)
{
    const struct ctfd__text *kept = len == 0 ? NULL : kept_in(&fp->texts, text, len);
    return kept != NULL ? kept->text : len == 0 ? "" : NULL;
}

const char *ctfd__kept_text(ctf_file_t *fp, const char *text, size_t len)
{
    const struct ctfd__text *kept;
    if (len == 0 || fp->texts.heads_len == 0)
        return NULL;
    kept = text_in(&fp->texts, ctfd__hash(&fp->texts, text, len), text, len);
    return kept != NULL ? kept->text : NULL;
}

void ctfd__free_texts(struct ctfd__texts *texts)
{
    size_t i;
    for (i = 0; i < texts->heads_len; i++) {
        while (texts->heads[i] != NULL) {
            struct ctfd__text *gone = texts->heads[i];
            texts->heads[i] = gone->next;
            free(gone);
        }
    }
    free(texts->heads);
}

const char *ctfd__text_of(ctf_file_t *fp, ctfd__text_f *call)
{
    uint64_t len = 0;
    struct ctfd *types;
    if (ctfd__done(fp, ctfd__opened(fp, &types)) != 0)
        return NULL;
    do {
        if (ctfd__done(fp, call(types, fp->room, fp->room_len, &len)) != 0)
            return NULL;
        if (len < fp->room_len)
            return ctfd__kept(fp, (size_t)len);
    } while (ctfd__make_room(fp, len));
    return NULL;
}

const char *ctfd__numbered(ctf_file_t *fp, ctfd__numbered_f *call, uint32_t number)
{
    uint64_t len = 0;
    struct ctfd *types;
    if (ctfd__done(fp, ctfd__opened(fp, &types)) != 0)
        return NULL;
    do {
        if (ctfd__done(fp, call(types, number, fp->room, fp->room_len, &len)) != 0)
            return NULL;
        if (len < fp->room_len)
            return ctfd__kept(fp, (size_t)len);
    } while (ctfd__make_room(fp, len));
    return NULL;
}

/* The name of a type of a created dictionary, or of its parent. */
static const char *recipe_name(ctf_file_t *fp, uint16_t t)
{
    ctf_file_t *of = ctfd__owner(fp, t);
    const struct ctfd__type *type = of == fp ? ctfd__visible_type(fp, t) : NULL;
    const char *name = NULL;
    if (type != NULL)
        return type->name;
    if (of != fp)
        name = ctfd__declared(of, t);
    if (name == NULL)
        (void)ctfd__fail(fp, of != fp ? of->error : CTFD_NO_TYPE);
    return name;
}

const char *ctfd__declared(ctf_file_t *fp, uint16_t t)
{
    uint64_t len = 0;
    struct ctfd *types;
    if (fp->recipe != NULL)
        return recipe_name(fp, t);
    if (ctfd__done(fp, ctfd__opened(fp, &types)) != 0)
        return NULL;
    do {
        enum ctfd_status status = ctfd_declared_name(types, t, fp->room, fp->room_len, &len);
        if (ctfd__done(fp, status) != 0)
            return NULL;
        if (len < fp->room_len)
            return ctfd__kept(fp, (size_t)len);
    } while (ctfd__make_room(fp, len));
    return NULL;
}
