/* spelling.c - names of types as C spells them, also with a qualifier in them, or around a name. */
#include "private.h"

#include <stdio.h>
#include <stdlib.h>
#include <string.h>

/* ---- declarations
 *
 * A declaration begins with a type that has a name of its own. Around the declared name there are
 * stars, brackets and qualifiers, which are found from the outermost type inwards: those to the
 * left of the name from its right end, those to the right from their left end.
 */

/* A text that grows at its end. `is_full` is set if memory for that was refused. */
struct grown {
    char *at;
    size_t len, room;
    bool is_full;
};

/* Makes room for further bytes at the end, and returns where they begin. */
static char *more(struct grown *text, size_t len)
{
    if (text->len + len > text->room) {
        size_t room = 2 * (text->len + len) + 64;
        char *made = (char *)realloc(text->at, room);
        if (made == NULL) {
            text->is_full = true;
            return NULL;
        }
        text->at = made;
        text->room = room;
    }
    text->len += len;
    return text->at + text->len - len;
}

static void append(struct grown *text, const char *piece, size_t len)
{
    char *at = more(text, len);
    if (at != NULL && len != 0)
        memcpy(at, piece, len);
}

/* Appends a reversed piece, to a text that is reversed at the end. */
static void append_turned(struct grown *text, const char *piece)
{
    size_t i, len = strlen(piece);
    char *at = more(text, len);
    for (i = 0; at != NULL && i < len; i++)
        at[i] = piece[len - 1 - i];
}

/* The text around a name, and the type that the declaration begins with: 0 for void. `of_pointer`
 * has a bit for each qualifier of the pointer whose star comes next. */
struct declaration {
    struct grown front, left, right;
    bool is_named;
    bool repeats; /* qualifiers that occur twice are written twice, as by the proved library */
    uint32_t of_pointer;
    uint16_t base;
};

static uint32_t kind_of(ctf_file_t *fp, uint16_t t)
{
    uint32_t kind = CTFD_UNKNOWN;
    return t != 0 && ctfd__kind_of(fp, t, &kind) == CTFD_OK ? kind : CTFD_UNKNOWN;
}

static const char *qualifier_of(uint32_t kind)
{
    switch (kind) {
    case CTFD_VOLATILE: return "volatile";
    case CTFD_CONST: return "const";
    case CTFD_RESTRICT: return "restrict";
    default: return NULL;
    }
}

/* The type of which a pointer, an array, a function or a qualifier is made; false for other
 * types. */
static bool inner_of(ctf_file_t *fp, uint16_t t, uint32_t kind, uint16_t *to)
{
    struct ctfd_array array;
    if (kind == CTFD_POINTER || qualifier_of(kind) != NULL)
        return ctfd__reference_of(fp, t, to) == CTFD_OK;
    if (kind == CTFD_FUNCTION)
        return ctfd__return_of(fp, t, to) == CTFD_OK;
    if (kind != CTFD_ARRAY || ctfd__array_of(fp, t, &array) != CTFD_OK)
        return false;
    *to = array.contents;
    return true;
}

/* The kind of a type without its qualifiers. */
static uint32_t qualified(ctf_file_t *fp, uint16_t t)
{
    uint32_t kind = kind_of(fp, t);
    int steps = 0;
    while (qualifier_of(kind) != NULL && steps++ < 2 * CTFD_DEEPEST) {
        if (!inner_of(fp, t, kind, &t))
            return CTFD_UNKNOWN;
        kind = kind_of(fp, t);
    }
    return kind;
}

/* Whether a qualifier of a type qualifies pointers: the type itself or, since C has no qualified
 * arrays, the elements of an array. */
static bool qualifies_pointers(ctf_file_t *fp, uint16_t t, bool *is_array)
{
    uint32_t kind = kind_of(fp, t);
    int steps = 0;
    *is_array = false;
    while ((qualifier_of(kind) != NULL || kind == CTFD_ARRAY) && steps++ < 2 * CTFD_DEEPEST) {
        *is_array = *is_array || kind == CTFD_ARRAY;
        if (!inner_of(fp, t, kind, &t))
            return false;
        kind = kind_of(fp, t);
    }
    return kind == CTFD_POINTER;
}

/* Whether the spelled name of a type is that of another type in C: it has an array's qualifiers at
 * the front of everything, even if they qualify an array of pointers. */
static bool is_misspelled(ctf_file_t *fp, uint16_t t)
{
    bool is_array = false;
    uint16_t to = 0;
    int steps = 0;
    for (; t != 0 && steps < 2 * CTFD_DEEPEST; t = to, steps++) {
        uint32_t kind = kind_of(fp, t);
        if (!inner_of(fp, t, kind, &to))
            return false;
        if (qualifier_of(kind) != NULL && qualifies_pointers(fp, to, &is_array) && is_array)
            return true;
    }
    return false;
}

/* Writes a star, with brackets around it if it points to an array or a function. */
static void put_star(ctf_file_t *fp, struct declaration *made, uint16_t to)
{
    uint32_t kind = qualified(fp, to);
    append_turned(&made->left, "*");
    made->of_pointer = 0;
    if (kind == CTFD_ARRAY || kind == CTFD_FUNCTION) {
        append_turned(&made->left, "(");
        append(&made->right, ")", 1);
    }
}

/* Writes a qualifier. That of a pointer comes after its star, and only once, since an array and its
 * elements may both have it. Any other comes at the front of everything. */
static void put_qualifier(ctf_file_t *fp, struct declaration *made, uint32_t kind, uint16_t of)
{
    const char *word = qualifier_of(kind);
    bool is_array;
    if (!qualifies_pointers(fp, of, &is_array)) {
        append(&made->front, word, strlen(word));
        append(&made->front, " ", 1);
        return;
    }
    if (!made->repeats && (made->of_pointer & 1u << kind) != 0)
        return;
    made->of_pointer |= 1u << kind;
    if (made->is_named || made->left.len != 0 || made->right.len != 0 || is_array)
        append_turned(&made->left, " ");
    append_turned(&made->left, word);
}

/* Writes what a type adds to the declaration. Returns whether it leads to another type. */
static bool put_step(ctf_file_t *fp, struct declaration *made, uint16_t t, uint16_t *to)
{
    uint32_t kind = kind_of(fp, t);
    struct ctfd_array array;
    char count[16];
    if (kind == CTFD_ARRAY && ctfd__array_of(fp, t, &array) == CTFD_OK) {
        append(&made->right, count, (size_t)sprintf(count, "[%u]", array.count));
        *to = array.contents;
        return true;
    }
    if (!inner_of(fp, t, kind, to))
        return false;
    if (kind == CTFD_POINTER)
        put_star(fp, made, *to);
    else if (kind == CTFD_FUNCTION)
        append(&made->right, "()", 2);
    else
        put_qualifier(fp, made, kind, *to);
    return true;
}

static void declare(ctf_file_t *fp, struct declaration *made, uint16_t t)
{
    uint16_t to = 0;
    int steps = 0;
    while (t != 0 && steps++ < 2 * CTFD_DEEPEST && put_step(fp, made, t, &to))
        t = to;
    made->base = t;
}

/* Writes as much of a spelled name as fits, and a zero byte. Returns its full length. */
static ssize_t spelled(ctf_file_t *fp, uint16_t t, char *text, size_t size)
{
    char none;
    uint64_t len = 0;
    struct ctfd *types;
    enum ctfd_status status = ctfd__opened(fp, &types);
    if (status == CTFD_OK)
        status = ctfd_name(types, t, size == 0 ? &none : text, size, &len);
    if (ctfd__done(fp, status) != 0)
        return (ssize_t)CTF_ERR;
    if (size > 0)
        text[len < size ? len : size - 1] = '\0';
    return (ssize_t)len;
}

static void append_qualifier(struct grown *text, const char *qualifier)
{
    if (qualifier == NULL)
        return;
    append(text, qualifier, strlen(qualifier));
    append(text, "`", 1);
}

/* As append_base, for a created dictionary. */
static bool append_recipe_base(
    ctf_file_t *fp, struct grown *text, uint16_t base, uint32_t kind, const char *qualifier)
{
    const char *name = ctfd__declared(fp, base);
    uint32_t tag = kind;
    if (name == NULL)
        return false;
    if (kind == CTFD_FORWARD)
        (void)ctfd__tag_of(fp, base, &tag);
    if (tag == CTFD_STRUCT)
        append(text, "struct ", 7);
    else if (tag == CTFD_UNION)
        append(text, "union ", 6);
    else if (tag == CTFD_ENUM)
        append(text, "enum ", 5);
    append_qualifier(text, qualifier);
    name = *name != '\0' ? name : "(anon)";
    append(text, name, strlen(name));
    return true;
}

/* Appends the name with which a declaration begins; a qualifier comes before the type's own
 * name. */
static bool append_base(ctf_file_t *fp, struct grown *text, uint16_t base, const char *qualifier)
{
    uint32_t kind = kind_of(fp, base);
    size_t word = 0;
    ssize_t len;
    if (base == 0) {
        append(text, "void", 4);
        return true;
    }
    if (fp->recipe != NULL)
        return append_recipe_base(fp, text, base, kind, qualifier);
    while ((len = spelled(fp, base, fp->room, fp->room_len)) >= (ssize_t)fp->room_len) {
        if (!ctfd__make_room(fp, (uint64_t)len))
            return false;
    }
    if (len < 0)
        return false;
    if (kind == CTFD_STRUCT || kind == CTFD_UNION || kind == CTFD_ENUM || kind == CTFD_FORWARD) {
        const char *blank = (const char *)memchr(fp->room, ' ', (size_t)len);
        word = blank != NULL ? (size_t)(blank - fp->room) + 1 : 0;
    }
    append(text, fp->room, word);
    append_qualifier(text, qualifier);
    append(text, fp->room + word, (size_t)len - word);
    return true;
}

/* Appends the whole declaration. */
static bool assemble(ctf_file_t *fp, struct declaration *made, struct grown *text,
    const char *qualifier, const char *name)
{
    size_t i;
    char *at;
    append(text, made->front.at, made->front.len);
    if (!append_base(fp, text, made->base, qualifier))
        return false;
    if (made->left.len + made->right.len + strlen(name) != 0)
        append(text, " ", 1);
    at = more(text, made->left.len);
    for (i = 0; at != NULL && i < made->left.len; i++)
        at[i] = made->left.at[made->left.len - 1 - i];
    append(text, name, strlen(name));
    append(text, made->right.at, made->right.len);
    if (text->is_full || made->front.is_full || made->left.is_full || made->right.is_full) {
        (void)ctfd__fail(fp, CTFD_MEMORY);
        return false;
    }
    return true;
}

/* Writes as much of a text as fits, and a zero byte. Returns its full length. */
static ssize_t put(const struct grown *made, char *text, size_t size)
{
    size_t len = made->len < size ? made->len : size - (size != 0);
    if (size != 0) {
        memcpy(text, made->at, len);
        text[len] = '\0';
    }
    return (ssize_t)made->len;
}

static ssize_t spell(
    ctf_file_t *fp, ctf_id_t type, char *text, size_t size, const char *qualifier, const char *name)
{
    struct declaration made;
    struct grown whole = { NULL, 0, 0, false };
    uint32_t kind = CTFD_UNKNOWN;
    ssize_t len = (ssize_t)CTF_ERR;
    if (!ctfd__is_type(fp, type) || ctfd__done(fp, ctfd__kind_of(fp, (uint16_t)type, &kind)) != 0)
        return (ssize_t)CTF_ERR;
    memset(&made, 0, sizeof made);
    made.is_named = *name != '\0';
    made.repeats = fp->recipe != NULL && qualifier == NULL && !made.is_named &&
        !is_misspelled(fp, (uint16_t)type);
    declare(fp, &made, (uint16_t)type);
    if (assemble(fp, &made, &whole, qualifier, name))
        len = put(&whole, text, size);
    free(made.front.at);
    free(made.left.at);
    free(made.right.at);
    free(whole.at);
    return len;
}

/* Returns a length, after setting the error if the buffer is too small. */
static ssize_t measured(ctf_file_t *fp, ssize_t len, size_t size)
{
    if (len >= 0 && (size_t)len >= size)
        (void)ctfd__fail(fp, CTFD__NAME_LONG);
    return len;
}

ssize_t ctf_type_lname(ctf_file_t *fp, ctf_id_t type, char *text, size_t size)
{
    if (!ctfd__is_type(fp, type))
        return (ssize_t)CTF_ERR;
    if (fp->recipe != NULL || is_misspelled(fp, (uint16_t)type))
        return measured(fp, spell(fp, type, text, size, NULL, ""), size);
    return measured(fp, spelled(fp, (uint16_t)type, text, size), size);
}

ssize_t ctf_type_qlname(
    ctf_file_t *fp, ctf_id_t type, char *text, size_t size, const char *qualifier)
{
    if (qualifier == NULL)
        return ctf_type_lname(fp, type, text, size);
    return measured(fp, spell(fp, type, text, size, qualifier, ""), size);
}

/* The text; NULL if it did not fit, or on an error. */
static char *fitting(ssize_t len, char *text, size_t size)
{
    return len >= 0 && (size_t)len < size ? text : NULL;
}

char *ctf_type_name(ctf_file_t *fp, ctf_id_t type, char *text, size_t size)
{
    return fitting(ctf_type_lname(fp, type, text, size), text, size);
}

char *ctf_type_qname(ctf_file_t *fp, ctf_id_t type, char *text, size_t size, const char *qualifier)
{
    return fitting(ctf_type_qlname(fp, type, text, size, qualifier), text, size);
}

char *ctf_type_cname(ctf_file_t *fp, ctf_id_t type, char *text, size_t size, const char *name)
{
    if (name == NULL)
        return ctf_type_name(fp, type, text, size);
    return fitting(measured(fp, spell(fp, type, text, size, NULL, name), size), text, size);
}
