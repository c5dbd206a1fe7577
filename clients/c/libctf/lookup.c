/* lookup.c - types by names as programs write them, with qualifiers and blanks. */
#include "private.h"

#include <string.h>

static bool is_blank(char byte)
{
    return byte == ' ' || (byte >= '\t' && byte <= '\r');
}

/* The words that libctf ignores in a name. */
static bool is_qualifier(const char *word, size_t len)
{
    static const char *const words[] = { "const", "volatile", "restrict", "_Restrict", "static",
        "auto", "extern", "register" };
    size_t i;
    for (i = 0; i < sizeof words / sizeof words[0]; i++) {
        if (strlen(words[i]) == len && memcmp(words[i], word, len) == 0)
            return true;
    }
    return false;
}

static size_t blanks(const char *text)
{
    size_t len = 0;
    while (is_blank(text[len]))
        len++;
    return len;
}

/* The length of a word, which ends before a blank, a star or the end; a star is a word by
 * itself. */
static size_t word_at(const char *text)
{
    size_t len = 0;
    if (*text == '*')
        return 1;
    while (text[len] != '\0' && text[len] != '*' && !is_blank(text[len]))
        len++;
    return len;
}

/* Writes the words of a name without qualifiers, with one blank between words, and returns the
 * length. The buffer must have twice the name's length. */
static size_t plain(const char *name, char *made)
{
    size_t len = 0, word;
    for (name += blanks(name); (word = word_at(name)) != 0; name += word, name += blanks(name)) {
        if (is_qualifier(name, word))
            continue;
        if (len != 0 && *name != '*')
            made[len++] = ' ';
        memcpy(made + len, name, word);
        len += word;
    }
    return len;
}

/* If a name with a tag leads to a forward, the definition, or the pointer to it. */
static uint16_t defined(ctf_file_t *fp, const char *name, size_t len, uint16_t t)
{
    size_t base = len, stars = 0;
    uint16_t at = t, to = 0;
    uint32_t kind = 0;
    if (*name != 's' && *name != 'u' && *name != 'e')
        return t;
    for (; base > 0 && (name[base - 1] == '*' || name[base - 1] == ' '); base--)
        stars += name[base - 1] == '*';
    if (stars != 0 && ctfd__type_named(fp, name, base, &at) != CTFD_OK)
        return t;
    if (ctfd__kind_of(fp, at, &kind) != CTFD_OK || kind != CTFD_FORWARD)
        return t;
    at = ctfd__definition_of(fp, at);
    for (; stars > 0 && ctfd__pointer_of(fp, at, &to) == CTFD_OK; stars--)
        at = to;
    return stars == 0 ? at : t;
}

static enum ctfd_status find(ctf_file_t *fp, const char *name, size_t len, uint16_t *t)
{
    enum ctfd_status status;
    if (fp->recipe != NULL)
        return ctfd__recipe_find(fp, name, len, t);
    status = ctfd__type_named(fp, name, len, t);
    if (status == CTFD_OK)
        *t = defined(fp, name, len, *t);
    return status;
}

/* The name is tried unchanged first: it may be that of a type with blanks in it. */
ctf_id_t ctf_lookup_by_name(ctf_file_t *fp, const char *name)
{
    size_t len = strlen(name), plain_len;
    uint16_t t = 0;
    enum ctfd_status status = find(fp, name, len, &t);
    if (status == CTFD_NOT_FOUND || status == CTFD_BAD_SYNTAX) {
        /* A word after a star gets a blank, so the result may be longer than the name. */
        if (!ctfd__make_room(fp, 2 * (uint64_t)len))
            return CTF_ERR;
        plain_len = plain(name, fp->room);
        if (plain_len != len || memcmp(fp->room, name, len) != 0)
            status = find(fp, fp->room, plain_len, &t);
    }
    return ctfd__done(fp, status) == 0 ? (ctf_id_t)t : CTF_ERR;
}
