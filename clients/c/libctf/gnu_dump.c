/* gnu_dump.c - the text of a dictionary, item by item, in the format of GNU's ctf_dump. */
#define _DEFAULT_SOURCE

#include "private.h"

#include <stdio.h>
#include <stdlib.h>
#include <string.h>

#define SEEN __attribute__((visibility("default")))

/* The sections, with their numbers in GNU's header. */
enum {
    HEADER,
    LABELS,
    OBJECTS,
    FUNCTIONS,
    VARIABLES,
    TYPES,
    STRINGS
};

/* How a type is written: followed by those that it leads to, with the width of a bit-field, after
 * the word ID. */
enum {
    CHAIN = 1,
    WIDTH = 2,
    ID = 4
};

/* All items of a section, which are made at once and returned one by one. */
struct ctfd_gnu_dump {
    ctf_file_t *fp;
    int section;
    uint32_t given, len, room;
    char **items;
};

static void free_dump(struct ctfd_gnu_dump *of)
{
    while (of->len > 0)
        free(of->items[--of->len]);
    free(of->items);
    free(of);
}

/* An item that is being written. */
struct item {
    FILE *out;
    char *text;
    size_t len;
};

static bool begin(struct ctfd_gnu_dump *of, struct item *item)
{
    item->text = NULL;
    item->out = open_memstream(&item->text, &item->len);
    if (item->out == NULL)
        (void)ctfd__fail(of->fp, CTFD_MEMORY);
    return item->out != NULL;
}

static void drop(struct item *item)
{
    (void)fclose(item->out);
    free(item->text);
}

static bool append(struct ctfd_gnu_dump *of, struct item *item)
{
    if (fclose(item->out) != 0 ||
        !ctfd__room_for_one(&of->items, of->len, &of->room, sizeof of->items[0])) {
        free(item->text);
        (void)ctfd__fail(of->fp, CTFD_MEMORY);
        return false;
    }
    of->items[of->len++] = item->text;
    return true;
}

/* ---- types */

static void put_encoding(FILE *out, ctf_file_t *fp, ctf_id_t t, ssize_t size, int how)
{
    ctf_encoding_t encoding;
    bool is_whole;
    if (ctf_type_encoding(fp, t, &encoding) != 0)
        return;
    is_whole = size >= 0 && encoding.cte_bits == 8 * (size_t)size;
    if (!is_whole && (how & WIDTH) != 0)
        fprintf(out, ":%u", encoding.cte_bits);
    if (!is_whole || encoding.cte_offset != 0)
        fprintf(out, " [0x%x:0x%x]", encoding.cte_offset, encoding.cte_bits);
    fprintf(out, " (format 0x%x)", encoding.cte_format);
}

/* The type that a type refers to, or that an array contains; CTF_ERR if there is none. */
static ctf_id_t next_of(ctf_file_t *fp, ctf_id_t t, int kind)
{
    ctf_arinfo_t array;
    if (kind != CTF_K_ARRAY)
        return ctf_type_reference(fp, t);
    return ctf_array_info(fp, t, &array) == 0 ? array.ctr_contents : CTF_ERR;
}

/* Writes a type; false if it has no name. */
static bool put_one(FILE *out, ctf_file_t *fp, ctf_id_t t, int kind, int how)
{
    ssize_t size = ctf_type_size(fp, t), align = ctf_type_align(fp, t);
    char *name = ctfd_gnu_type_aname(fp, t);
    if (name == NULL)
        return false;
    fprintf(
        out, "%s0x%lx: (kind %i) %s", (how & ID) != 0 ? "ID " : "", (unsigned long)t, kind, name);
    free(name);
    if (kind == CTF_K_INTEGER || kind == CTF_K_FLOAT)
        put_encoding(out, fp, t, size, how);
    if (kind != CTF_K_FUNCTION && size >= 0)
        fprintf(out, " (size 0x%lx)", (unsigned long)size);
    if (align >= 0)
        fprintf(out, " (aligned at 0x%lx)", (unsigned long)align);
    return true;
}

/* Writes a type and, with CHAIN, those that it leads to, up to a limit, since pointers may form a
 * cycle. */
static bool put_type(FILE *out, ctf_file_t *fp, ctf_id_t t, int how)
{
    unsigned steps;
    for (steps = 0; steps < CTFD_DEEPEST; steps++) {
        int kind = t != 0 ? ctf_type_kind(fp, t) : CTF_K_UNKNOWN;
        if (t == 0) {
            fputs(" (type not represented in CTF)", out);
            return true;
        }
        if (!put_one(out, fp, t, kind, how))
            return false;
        if ((how & CHAIN) == 0)
            return true;
        t = next_of(fp, t, kind);
        if (t == CTF_ERR)
            return true;
        fputs(" -> ", out);
    }
    fputs("...", out);
    return true;
}

/* The context for writing the members of a type. */
struct members {
    struct ctfd_gnu_dump *of;
    FILE *out;
    int indent;
};

static int put_member(const char *name, ctf_id_t t, ulong_t offset, int depth, void *arg)
{
    const struct members *with = (const struct members *)arg;
    if (depth == 0)
        return 0;
    fprintf(with->out, "%*s[0x%lx] %s: ", with->indent + 4 * (depth - 1), "", offset,
        name != NULL ? name : "");
    if (!put_type(with->out, with->of->fp, t, WIDTH | ID))
        return -1;
    fputc('\n', with->out);
    return 0;
}

/* Writes the first five enumerators and the last five. */
static void put_enumerators(FILE *out, ctf_file_t *fp, ctf_id_t t, int indent)
{
    struct ctf_next *it = NULL;
    int count = ctfd_gnu_member_count(fp, t), i = 0, value = 0;
    const char *name;
    while ((name = ctfd_gnu_enum_next(fp, t, &it, &value)) != NULL) {
        i++;
        if (i <= 5 || i >= count - 4)
            fprintf(out, "%*s%s: %i\n", indent, "", name, value);
        if (i == 5 && count > 10)
            fprintf(out, "%*s...\n", indent, "");
    }
}

static int hex_digits(ctf_id_t t)
{
    int digits = 1;
    while ((t >>= 4) != 0)
        digits++;
    return digits;
}

/* Adds an item for a type. A type without a name in C is left out. */
static int add_type(ctf_id_t t, int root, void *arg)
{
    struct ctfd_gnu_dump *of = (struct ctfd_gnu_dump *)arg;
    int kind = ctf_type_kind(of->fp, t), indent = 4 + hex_digits(t);
    struct item item;
    (void)root;
    if (!begin(of, &item))
        return -1;
    if (!put_type(item.out, of->fp, t, CHAIN)) {
        drop(&item);
        return of->fp->error == CTFD_MEMORY ? -1 : 0;
    }
    fputc('\n', item.out);
    if (kind == CTF_K_STRUCT || kind == CTF_K_UNION) {
        struct members with = { of, item.out, indent };
        if (ctf_type_visit(of->fp, t, put_member, &with) != 0) {
            drop(&item);
            return of->fp->error == CTFD_MEMORY ? -1 : 0;
        }
    } else if (kind == CTF_K_ENUM) {
        put_enumerators(item.out, of->fp, t, indent);
    }
    return append(of, &item) ? 0 : -1;
}

/* ---- names with their types: labels, symbols, variables */

static int add_named(struct ctfd_gnu_dump *of, const char *name, ctf_id_t t)
{
    struct item item;
    if (!begin(of, &item))
        return -1;
    if (name != NULL)
        fprintf(item.out, "%s -> ", name);
    if (!put_type(item.out, of->fp, t, CHAIN)) {
        drop(&item);
        return of->fp->error == CTFD_MEMORY ? -1 : 0;
    }
    return append(of, &item) ? 0 : -1;
}

static int add_label(const char *name, const ctf_lblinfo_t *info, void *arg)
{
    return add_named((struct ctfd_gnu_dump *)arg, name, info->ctb_typeidx);
}

static int add_variable(const char *name, ctf_id_t t, void *arg)
{
    return add_named((struct ctfd_gnu_dump *)arg, name, t);
}

static int add_symbols(struct ctfd_gnu_dump *of, int functions)
{
    struct ctf_next *it = NULL;
    const char *name = NULL;
    ctf_id_t t;
    while ((t = ctfd_gnu_symbol_next(of->fp, &it, &name, functions)) != CTF_ERR) {
        if (add_named(of, name, t) != 0) {
            ctfd_gnu_next_destroy(it);
            return -1;
        }
    }
    return 0;
}

/* ---- the header and the strings */

static unsigned long word_at(const unsigned char *bytes, size_t at)
{
    return bytes[at] | (unsigned long)bytes[at + 1] << 8 | (unsigned long)bytes[at + 2] << 16 |
        (unsigned long)bytes[at + 3] << 24;
}

static int add_words(struct ctfd_gnu_dump *of, const char *what, const char *words)
{
    struct item item;
    if (*words == '\0')
        return 0;
    if (!begin(of, &item))
        return -1;
    fprintf(item.out, "%s: %s\n", what, words);
    return append(of, &item) ? 0 : -1;
}

static int add_range(
    struct ctfd_gnu_dump *of, const char *what, unsigned long from, unsigned long to)
{
    char words[64];
    if (from == to)
        return 0;
    (void)snprintf(words, sizeof words, "0x%lx -- 0x%lx (0x%lx bytes)", from, to - 1, to - from);
    return add_words(of, what, words);
}

/* The header's words are in order, as the rules ensure. */
static int add_header(struct ctfd_gnu_dump *of)
{
    static const char *const sections[] = { "Label section", "Data object section",
        "Function info section", "Type section" };
    const void *data = NULL;
    const unsigned char *bytes;
    const char *parent = ctf_parent_name(of->fp);
    char words[32];
    unsigned i;
    ctf_dataptr(of->fp, &data, NULL);
    bytes = (const unsigned char *)data;
    if (bytes == NULL)
        return -1;
    (void)snprintf(words, sizeof words, "0x%x", bytes[0] | (unsigned)bytes[1] << 8);
    if (add_words(of, "Magic number", words) != 0)
        return -1;
    (void)snprintf(words, sizeof words, "%u (CTF_VERSION_%u)", bytes[2], bytes[2]);
    if (add_words(of, "Version", words) != 0 ||
        (parent != NULL && add_words(of, "Parent name", parent) != 0))
        return -1;
    for (i = 0; i < sizeof sections / sizeof sections[0]; i++) {
        if (add_range(of, sections[i], word_at(bytes, 12 + 4 * i), word_at(bytes, 16 + 4 * i)) != 0)
            return -1;
    }
    return add_range(
        of, "String section", word_at(bytes, 28), word_at(bytes, 28) + word_at(bytes, 32));
}

struct strings {
    struct ctfd_gnu_dump *of;
    unsigned long at;
};

static int add_string(const char *text, void *arg)
{
    struct strings *with = (struct strings *)arg;
    struct item item;
    if (!begin(with->of, &item))
        return -1;
    fprintf(item.out, "0x%lx: %s", with->at, text);
    with->at += strlen(text) + 1;
    return append(with->of, &item) ? 0 : -1;
}

/* ---- ctf_dump */

static int add_all(struct ctfd_gnu_dump *of)
{
    struct strings with = { of, 0 };
    switch (of->section) {
    case HEADER: return add_header(of);
    case LABELS:
        if (ctfd_gnu_label_iter(of->fp, add_label, of) == 0)
            return 0;
        return of->fp->error == CTFD__NO_LABELS ? 0 : -1;
    case OBJECTS:
    case FUNCTIONS: return add_symbols(of, of->section == FUNCTIONS);
    case VARIABLES: return ctfd_gnu_variable_iter(of->fp, add_variable, of);
    case TYPES: return ctfd_gnu_type_iter_all(of->fp, add_type, of);
    case STRINGS: return ctf_string_iter(of->fp, add_string, &with);
    default: return (int)ctfd__fail(of->fp, CTFD__NO_DUMP);
    }
}

/* An item whose lines are decorated by the caller's function, which may return another line for
 * each. */
static char *decorated(struct ctfd_gnu_dump *of, char *text,
    char *(*each)(int section, char *line, void *arg), void *arg)
{
    struct item item;
    char *line = text;
    if (!begin(of, &item))
        return NULL;
    while (line != NULL && *line != '\0') {
        char *end = strchr(line, '\n'), *put;
        if (end != NULL)
            *end = '\0';
        put = each(of->section, line, arg);
        fprintf(item.out, "%s%s", line != text ? "\n" : "", put != NULL ? put : "");
        if (put != line)
            free(put);
        if (end != NULL)
            *end = '\n';
        line = end != NULL ? end + 1 : NULL;
    }
    if (fclose(item.out) == 0)
        return item.text;
    free(item.text);
    (void)ctfd__fail(of->fp, CTFD_MEMORY);
    return NULL;
}

static struct ctfd_gnu_dump *begun(ctf_file_t *fp, int section)
{
    struct ctfd_gnu_dump *of = (struct ctfd_gnu_dump *)calloc(1, sizeof *of);
    if (of == NULL) {
        (void)ctfd__fail(fp, CTFD_MEMORY);
        return NULL;
    }
    of->fp = fp;
    of->section = section;
    if (add_all(of) == 0)
        return of;
    free_dump(of);
    return NULL;
}

/* The next item of a section, which the caller frees. NULL after the last, with an error of 0, or
 * if an item is refused; the state is then freed. */
SEEN char *ctfd_gnu_dump(ctf_file_t *fp, struct ctfd_gnu_dump **state, int section,
    char *(*each)(int section, char *line, void *arg), void *arg)
{
    struct ctfd_gnu_dump *of = *state;
    char *made = NULL;
    if (of == NULL && (of = begun(fp, section)) == NULL)
        return NULL;
    *state = NULL;
    if (of->section != section) {
        (void)ctfd__fail(fp, CTFD__OTHER_DUMP);
        free_dump(of);
        return NULL;
    }
    fp->error = 0;
    if (of->given < of->len) {
        char *text = of->items[of->given++];
        made = each != NULL ? decorated(of, text, each, arg) : strdup(text);
        if (made == NULL)
            (void)ctfd__fail(fp, CTFD_MEMORY);
    }
    if (made == NULL)
        free_dump(of);
    else
        *state = of;
    return made;
}
