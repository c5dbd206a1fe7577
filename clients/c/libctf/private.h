/* private.h - the structure of a ctf_file_t, and declarations for the files of this folder.
 *
 * Below, a created dictionary is one from ctf_create; what was added to it is its recipe. All
 * others are opened. */
#ifndef CTFD_LIBCTF_PRIVATE_H
#define CTFD_LIBCTF_PRIVATE_H

/* A shared library hides everything but the declarations of its headers. */
#pragma GCC visibility push(default)
#include "ctfd_libctf.h"
#pragma GCC visibility pop

#define HIDDEN __attribute__((visibility("hidden")))

/* The longest chain of types: the rules of the format allow no longer one. */
#define CTFD_DEEPEST 512

/* The size of a symbol of ELF64, with which dictionaries are opened, and of ELF32, in bytes. */
#define CTFD_SYMBOL 24
#define CTFD_SYMBOL_32 16

struct ctfd__text;

/* A set of texts that were returned to the caller, by a hash that nobody outside can predict. */
struct ctfd__texts {
    struct ctfd__text **heads;
    size_t heads_len;
    size_t count;
    uint64_t seed[2];
    bool is_seeded;
};

/* The lists of a dictionary, which libctf's callers keep until they close it. */
struct ctfd__lists {
    const void *data[3];
    size_t len[3];
    bool has[3];
};

/* A member with its offset in bits, or an enumerator with its value. If the name is in the file's
 * own lists, it points there; else it is NULL until somebody asks for it, and then it is kept. */
struct ctfd__item {
    const char *name;
    uint64_t at;
    uint16_t type;
};

struct ctfd__block;
struct ctfd__index;

/* The items of a struct, a union or an enum. */
struct ctfd__details {
    uint32_t kind, count;
    bool was_asked; /* for an enumerator by its value or name */
    struct ctfd__index *by_value, *by_name;
    struct ctfd__item items[];
};

/* The number of types on a page: small, so that a file that is asked about few types stays
 * small. */
#define CTFD_PAGE 64

/* The items of some types; NULL for types that were not read. */
struct ctfd__page {
    struct ctfd__details *details[CTFD_PAGE];
};

struct ctfd__recipe;
struct ctfd_elf_lists;

struct ctf_file {
    /* What questions are asked of. Nothing is open here for a created dictionary, which answers
     * from its recipe, nor for a child whose created parent has changed since its import: a
     * question is then refused with CTFD_NO_SLOT, and asked in an indirect way. So for all other
     * files the check is free. */
    struct ctfd types;
    struct ctfd__recipe *recipe; /* of a created dictionary; else NULL */
    struct ctfd behind; /* what is open of a child whose parent has changed */
    struct ctf_file *parent;
    struct ctf_file *children, *sibling; /* opened files that imported this created one */
    unsigned uses;
    int error;
    int model;
    bool is_live; /* additions are visible at once, as in GNU's library */
    bool is_touched;
    bool is_left; /* closed, but kept by a child: the lists may go at any time */
    bool keeps_lists; /* all lists are owned, so they are not copied */
    void *specific;
    unsigned char *variables; /* for each symbol, whether GNU's linker makes it a variable */
    void *owned[3]; /* copies of lists that the caller does not keep */
    void *bytes; /* of a created one, for ctf_dataptr and ctf_string_iter */
    struct ctfd__lists lists;
    struct ctfd__texts texts;
    struct ctfd__page *pages[65536 / CTFD_PAGE];
    bool has_pages;
    uint16_t *definitions; /* of forwards, by their indexes; NULL until one was found */
    uint32_t definitions_before; /* the number of the first type, less 1 */
    struct ctfd__block *blocks;
    size_t details_bytes;
    uint64_t dropped; /* how many times details were dropped */
    uint64_t generation; /* the number of changes to what is open, from 1 */
    uint64_t labels;
    char *room;
    size_t room_len;
};

/* Errors: a status, one of these, or a number of errno.h plus CTFD__SYSTEM. errors.c maps them to
 * the numbers of illumos and GNU, which have several errors for some statuses. */
enum {
    CTFD__NO_PART = 100, /* the part for ELF files is missing */
    CTFD__NO_SECTION, /* an ELF file without a dictionary */
    CTFD__BAD_ELF,
    CTFD__NOT_INFLATED,
    CTFD__NAME_LONG, /* the caller's buffer is too small */
    CTFD__NOT_ENUM, /* a type of the wrong kind, as the next three */
    CTFD__NOT_ARRAY,
    CTFD__NOT_NUMBER,
    CTFD__NOT_SIGNATURE,
    CTFD__NO_ENUMERATOR,
    CTFD__NO_FUNCTION_INFO,
    CTFD__NO_LABELS,
    CTFD__CONFLICT, /* another type with this name exists already */
    CTFD__ROLLED_PAST, /* a roll-back past what was written */
    CTFD__NEXT_END, /* an iterator is at its end */
    CTFD__NEXT_OTHER, /* an iterator of another call */
    CTFD__NEXT_FILE, /* an iterator over another file */
    CTFD__NO_ENTRY, /* no dictionary with this name in the file */
    CTFD__NO_SYMBOL_TYPE, /* no type for a symbol with this name */
    CTFD__NO_DUMP, /* ctf_dump of a section that does not exist */
    CTFD__OTHER_DUMP, /* ctf_dump of another section than it began with */
    CTFD__NOT_FETCHED, /* asking a store for a build failed */
    CTFD__ERRORS,
    CTFD__SYSTEM = 1000
};

/* Sets the error and returns CTF_ERR, as libctf's ctf_set_errno. */
static inline long ctfd__fail(ctf_file_t *fp, int error)
{
    fp->error = error;
    return CTF_ERR;
}

static inline long ctfd__system(ctf_file_t *fp, int error)
{
    return ctfd__fail(fp, CTFD__SYSTEM + error);
}

/* 0, or CTF_ERR if a call was refused. */
static inline int ctfd__done(ctf_file_t *fp, enum ctfd_status status)
{
    return status == CTFD_OK ? 0 : (int)ctfd__fail(fp, (int)status);
}

/* As ctfd__done, for a call that needs types of certain kinds; `of_wrong_kind` is the error for
 * others. */
static inline int ctfd__done_of(ctf_file_t *fp, enum ctfd_status status, int of_wrong_kind)
{
    if (status == CTFD_OK)
        return 0;
    return (int)ctfd__fail(fp, status == CTFD_WRONG_KIND ? of_wrong_kind : (int)status);
}

/* Whether a number may be that of a type. Others, such as 0, set the error. */
static inline bool ctfd__is_type(ctf_file_t *fp, ctf_id_t type)
{
    if (type > 0 && type <= CTF_MAX_TYPE)
        return true;
    (void)ctfd__fail(fp, CTFD_NO_TYPE);
    return false;
}

/* ---- names.c */

/* Keeps a text: equal texts have the same address. NULL if there is no memory. */
HIDDEN const char *ctfd__keep(ctf_file_t *fp, const char *text, size_t len);

/* The address of a kept text; NULL if it is not kept. */
HIDDEN const char *ctfd__kept_text(ctf_file_t *fp, const char *text, size_t len);

/* Makes the buffer large enough for a text of that length and its zero byte. */
HIDDEN bool ctfd__make_room(ctf_file_t *fp, uint64_t len);

/* Keeps the text at the beginning of the buffer for the life of the file. */
HIDDEN const char *ctfd__kept(ctf_file_t *fp, size_t len);
HIDDEN void ctfd__free_texts(struct ctfd__texts *texts);

/* A hash of a text that nobody outside can predict. */
HIDDEN uint64_t ctfd__hash(struct ctfd__texts *texts, const char *text, size_t len);

/* Types of calls that write a text, and functions that keep the text that such a call writes; NULL
 * if it is refused. */
typedef enum ctfd_status ctfd__text_f(struct ctfd *types, char *text, size_t size, uint64_t *len);
typedef enum ctfd_status ctfd__numbered_f(
    struct ctfd *types, uint32_t number, char *text, size_t size, uint64_t *len);
HIDDEN const char *ctfd__text_of(ctf_file_t *fp, ctfd__text_f *call);
HIDDEN const char *ctfd__numbered(ctf_file_t *fp, ctfd__numbered_f *call, uint32_t number);

/* The name in a type's record. */
HIDDEN const char *ctfd__declared(ctf_file_t *fp, uint16_t t);

/* ---- details.c: lists of items, each read once */

/* Reads the items of a type. NULL with the error set if they can't be read, or it has none. */
HIDDEN struct ctfd__details *ctfd__read(ctf_file_t *fp, uint16_t t);

/* The items of a type. Valid until a callback is called or other items are requested. */
static inline struct ctfd__details *ctfd__details(ctf_file_t *fp, uint16_t t)
{
    const struct ctfd__page *page = fp->pages[t / CTFD_PAGE];
    struct ctfd__details *known = page != NULL ? page->details[t % CTFD_PAGE] : NULL;
    return known != NULL ? known : ctfd__read(fp, t);
}

/* Drop all items; drop all that was read, since what is open changes. */
HIDDEN void ctfd__forget_details(ctf_file_t *fp);
HIDDEN void ctfd__forget(ctf_file_t *fp);

/* Whether names of a type point into the file's lists, which the caller keeps until it is closed:
 * those of a parent's types are copied. A recipe keeps its own names. */
static inline bool ctfd__is_lent(const ctf_file_t *fp, uint16_t t)
{
    return !fp->is_left && (fp->parent == NULL || t > CTF_MAX_PTYPE);
}

/* The name of an item, which lives as long as the file is open; NULL with the error set if there is
 * no memory. */
HIDDEN const char *ctfd__item_name(ctf_file_t *fp, uint16_t t, uint32_t i);

static inline bool ctfd__has_members(const struct ctfd__details *details)
{
    return details->kind == CTFD_STRUCT || details->kind == CTFD_UNION;
}

/* ---- forwards.c */

/* The visible struct, union or enum that a forward declares, if the dictionary with the forward
 * defines it; else the forward. */
HIDDEN uint16_t ctfd__definition_of(ctf_file_t *fp, uint16_t t);

/* ---- indexes.c: the number of the first enumerator with a value or a name; the number of all
 * enumerators if there is none. Call ctfd__of_name only if ctfd__is_lent says that all names are
 * known. */

HIDDEN uint32_t ctfd__of_value(ctf_file_t *fp, struct ctfd__details *details, int32_t value);
HIDDEN uint32_t ctfd__of_name(ctf_file_t *fp, struct ctfd__details *details, const char *name);

/* ---- files.c */

/* Opens lists as ctf_bufopen does. With `is_kept`, they stay as long as the file, which will own
 * them; else they are copied, since a child may need them longer than the caller keeps them. */
HIDDEN ctf_file_t *ctfd__open(const ctf_sect_t *ctf, const ctf_sect_t *symbols,
    const ctf_sect_t *strings, bool is_kept, int *error);

/* A file with nothing open and with a text buffer; NULL with the error if there is no memory. */
HIDDEN ctf_file_t *ctfd__new(int *error);
HIDDEN void ctfd__free(ctf_file_t *fp);

/* Stores the error, unless the pointer is NULL. Returns NULL. */
HIDDEN ctf_file_t *ctfd__refused(int *error, int why);

/* ---- fetching.c: types by build-id */

/* Asks the stores that CTFD_STORE names for the types of a build. Gives a file in memory for the
 * caller to close, or returns an error; CTFD__NO_SECTION if no store is named or none has the
 * build. */
HIDDEN int ctfd__fetch(const struct ctfd_elf_lists *lists, int *made);

/* ---- trusted.c */

/* Writes the path of one of our commands, PATH_MAX bytes; false if there is none that only trusted
 * users can have put there. */
HIDDEN bool ctfd__find_command(const char *name, char *path);

/* Writes the path of libctfd.so, PATH_MAX bytes; false if it is not known. Not in the archive. */
HIDDEN bool ctfd__place(char *path);

/* ---- errors.c: the numbers of illumos and of GNU */

HIDDEN int ctfd__number(int error);
HIDDEN int ctfd__gnu_number(int error);

/* The text of an error, which begins with the name of its fault. */
HIDDEN const char *ctfd__message(int error);

/* The last error of a call on this thread that failed to open a file. */
HIDDEN void ctfd__note_refusal(int error);
HIDDEN int ctfd__refusal(void);

/* ---- questions.c: questions to any file; those to one with nothing open go an indirect way */

/* Opens a child again if its created parent has changed; CTFD_NO_SLOT if nothing is open for
 * another reason. */
HIDDEN enum ctfd_status ctfd__renew(ctf_file_t *fp);

/* The handle of what is open; for a created dictionary, of what was last written of it. */
HIDDEN enum ctfd_status ctfd__written(ctf_file_t *fp, struct ctfd **types);

static inline enum ctfd_status ctfd__opened(ctf_file_t *fp, struct ctfd **types)
{
    *types = &fp->types;
    return fp->types.full ? CTFD_OK : ctfd__written(fp, types);
}

HIDDEN enum ctfd_status ctfd__indirect_kind(ctf_file_t *fp, uint16_t t, uint32_t *kind);
HIDDEN enum ctfd_status ctfd__indirect_root(ctf_file_t *fp, uint16_t t, uint32_t *root);
HIDDEN enum ctfd_status ctfd__indirect_tag(ctf_file_t *fp, uint16_t t, uint32_t *tag);
HIDDEN enum ctfd_status ctfd__indirect_resolution(ctf_file_t *fp, uint16_t t, uint16_t *to);
HIDDEN enum ctfd_status ctfd__indirect_reference(ctf_file_t *fp, uint16_t t, uint16_t *to);
HIDDEN enum ctfd_status ctfd__indirect_pointer(ctf_file_t *fp, uint16_t t, uint16_t *to);
HIDDEN enum ctfd_status ctfd__indirect_return(ctf_file_t *fp, uint16_t t, uint16_t *to);
HIDDEN enum ctfd_status ctfd__indirect_size(ctf_file_t *fp, uint16_t t, uint64_t *bytes);
HIDDEN enum ctfd_status ctfd__indirect_align(ctf_file_t *fp, uint16_t t, uint64_t *bytes);
HIDDEN enum ctfd_status ctfd__indirect_array(ctf_file_t *fp, uint16_t t, struct ctfd_array *array);
HIDDEN enum ctfd_status ctfd__indirect_encoding(
    ctf_file_t *fp, uint16_t t, struct ctfd_encoding *encoding);
HIDDEN enum ctfd_status ctfd__indirect_signature(
    ctf_file_t *fp, uint16_t t, struct ctfd_function *out);
HIDDEN enum ctfd_status ctfd__indirect_find(
    ctf_file_t *fp, const char *text, size_t len, uint16_t *t);

static inline enum ctfd_status ctfd__kind_of(ctf_file_t *fp, uint16_t t, uint32_t *kind)
{
    enum ctfd_status status = ctfd_kind(&fp->types, t, kind);
    if (status == CTFD_OK || status != CTFD_NO_SLOT)
        return status;
    return ctfd__indirect_kind(fp, t, kind);
}

static inline enum ctfd_status ctfd__root_of(ctf_file_t *fp, uint16_t t, uint32_t *root)
{
    enum ctfd_status status = ctfd_root(&fp->types, t, root);
    if (status == CTFD_OK || status != CTFD_NO_SLOT)
        return status;
    return ctfd__indirect_root(fp, t, root);
}

static inline enum ctfd_status ctfd__tag_of(ctf_file_t *fp, uint16_t t, uint32_t *tag)
{
    enum ctfd_status status = ctfd_tag(&fp->types, t, tag);
    if (status == CTFD_OK || status != CTFD_NO_SLOT)
        return status;
    return ctfd__indirect_tag(fp, t, tag);
}

static inline enum ctfd_status ctfd__resolution_of(ctf_file_t *fp, uint16_t t, uint16_t *to)
{
    enum ctfd_status status = ctfd_resolve(&fp->types, t, to);
    if (status == CTFD_OK || status != CTFD_NO_SLOT)
        return status;
    return ctfd__indirect_resolution(fp, t, to);
}

static inline enum ctfd_status ctfd__reference_of(ctf_file_t *fp, uint16_t t, uint16_t *to)
{
    enum ctfd_status status = ctfd_reference(&fp->types, t, to);
    if (status == CTFD_OK || status != CTFD_NO_SLOT)
        return status;
    return ctfd__indirect_reference(fp, t, to);
}

static inline enum ctfd_status ctfd__pointer_of(ctf_file_t *fp, uint16_t t, uint16_t *to)
{
    enum ctfd_status status = ctfd_pointer(&fp->types, t, to);
    if (status == CTFD_OK || status != CTFD_NO_SLOT)
        return status;
    return ctfd__indirect_pointer(fp, t, to);
}

static inline enum ctfd_status ctfd__return_of(ctf_file_t *fp, uint16_t t, uint16_t *to)
{
    enum ctfd_status status = ctfd_return(&fp->types, t, to);
    if (status == CTFD_OK || status != CTFD_NO_SLOT)
        return status;
    return ctfd__indirect_return(fp, t, to);
}

static inline enum ctfd_status ctfd__size_of(ctf_file_t *fp, uint16_t t, uint64_t *bytes)
{
    enum ctfd_status status = ctfd_size(&fp->types, t, bytes);
    if (status == CTFD_OK || status != CTFD_NO_SLOT)
        return status;
    return ctfd__indirect_size(fp, t, bytes);
}

static inline enum ctfd_status ctfd__align_of(ctf_file_t *fp, uint16_t t, uint64_t *bytes)
{
    enum ctfd_status status = ctfd_align(&fp->types, t, bytes);
    if (status == CTFD_OK || status != CTFD_NO_SLOT)
        return status;
    return ctfd__indirect_align(fp, t, bytes);
}

static inline enum ctfd_status ctfd__array_of(ctf_file_t *fp, uint16_t t, struct ctfd_array *array)
{
    enum ctfd_status status = ctfd_array(&fp->types, t, array);
    if (status == CTFD_OK || status != CTFD_NO_SLOT)
        return status;
    return ctfd__indirect_array(fp, t, array);
}

static inline enum ctfd_status ctfd__encoding_of(
    ctf_file_t *fp, uint16_t t, struct ctfd_encoding *encoding)
{
    enum ctfd_status status = ctfd_encoding(&fp->types, t, encoding);
    if (status == CTFD_OK || status != CTFD_NO_SLOT)
        return status;
    return ctfd__indirect_encoding(fp, t, encoding);
}

static inline enum ctfd_status ctfd__signature_of(
    ctf_file_t *fp, uint16_t t, struct ctfd_function *out)
{
    enum ctfd_status status = ctfd_signature(&fp->types, t, out);
    if (status == CTFD_OK || status != CTFD_NO_SLOT)
        return status;
    return ctfd__indirect_signature(fp, t, out);
}

static inline enum ctfd_status ctfd__type_named(
    ctf_file_t *fp, const char *text, size_t len, uint16_t *t)
{
    enum ctfd_status status = ctfd_find(&fp->types, text, len, t);
    if (status == CTFD_OK || status != CTFD_NO_SLOT)
        return status;
    return ctfd__indirect_find(fp, text, len, t);
}

/* The number of visible own types, and the number of the first one less 1. */
HIDDEN enum ctfd_status ctfd__own_types(ctf_file_t *fp, uint32_t *count, uint32_t *before);

/* ---- recipe*.c: created dictionaries, as lists of additions */

/* A type that was added. Members, enumerators and arguments are in its details. */
struct ctfd__type {
    const char *name;
    uint64_t size;
    uint64_t align, align_state; /* a computed alignment, and when; a state of 0 is never */
    struct ctfd__details *details;
    union {
        struct ctfd_array array;
        struct ctfd_encoding encoding;
        uint16_t to; /* what a pointer, a typedef or a qualifier refers to */
        uint16_t returned;
    } is;
    uint16_t items_room; /* the room of the details, in items */
    uint16_t older; /* the index + 1 of the type with its name added before it; 0 for none */
    uint16_t pointer, older_pointer; /* the last pointer to it; of a pointer, the one before it */
    uint8_t kind, tag, root;
};

/* A name in one of the name spaces. Types count from 1; 0 is none. */
struct ctfd__name {
    const char *text;
    uint32_t next; /* in its bucket, counted from 1 */
    uint16_t newest, definition, visible; /* types: the last, the last that is no forward, and
                                           * the one that look-ups find */
    uint8_t space;
};

struct ctfd__mark {
    const char *name;
    uint32_t last;
};

/* The addition of a member or an enumerator to a type, and the number of types at that time. A type
 * grows by the size that a member's type had then, so additions are written in the same order. */
struct ctfd__put {
    uint16_t in, item, types;
};

/* A symbol of a created dictionary. Version 2 identifies symbols by their numbers in a program, so
 * this one is written as a label with its name and its type. */
struct ctfd__symbol {
    const char *name;
    uint16_t type;
    uint8_t sort;
};

enum {
    CTFD_SORT_OBJECT,
    CTFD_SORT_FUNCTION,
    CTFD_SORT_VARIABLE,
    CTFD_SORTS
};

/* The beginnings of symbols' labels, by their sort. */
HIDDEN extern const char *const ctfd__symbol_labels[CTFD_SORTS];

struct ctfd__recipe {
    struct ctfd__type *types; /* from number 1 on, without a child's bit */
    uint32_t count, room, visible; /* `visible` are those of the last update, */
    bool shows_all; /* or all of them, while a type is copied into them */
    struct ctfd__name *names;
    uint32_t names_len, names_room;
    uint32_t *buckets;
    uint32_t buckets_len; /* a power of two */
    uint16_t *parent_pointers; /* the last pointer to each type of the parent */
    uint32_t parent_pointers_len;
    struct ctfd__put *puts;
    uint32_t puts_len, puts_room;
    struct ctfd__mark *marks;
    uint32_t marks_len, marks_room, marks_visible;
    struct ctfd__symbol *symbols;
    uint32_t symbols_len, symbols_room;
    uint64_t changes; /* the number of changes */
    uint64_t snapshots, written_snapshot; /* the last, and the last that was written */
    struct ctfd draft; /* the proved draft, with what was written last */
    struct {
        uint64_t changes, of_parent; /* 1 + the changes in its bytes; 0 is never */
        uint32_t types, puts, marks;
        bool is_stale; /* by something else than later additions */
    } written;
};

HIDDEN bool ctfd__new_recipe(ctf_file_t *fp);
HIDDEN void ctfd__free_recipe(ctf_file_t *fp);

/* The file that has a type: the parent of a created dictionary, or the file itself. */
static inline ctf_file_t *ctfd__owner(ctf_file_t *fp, uint16_t t)
{
    return fp->recipe != NULL && fp->parent != NULL && t <= CTF_MAX_PTYPE ? fp->parent : fp;
}

/* An own type, pending or not; a visible one; the number of visible ones. NULL if there is none. */
HIDDEN struct ctfd__type *ctfd__own_type(const ctf_file_t *fp, uint16_t t);
HIDDEN struct ctfd__type *ctfd__visible_type(const ctf_file_t *fp, uint16_t t);
HIDDEN uint32_t ctfd__visible_count(const ctf_file_t *fp);

/* The number of an own type by its index, and its index by the number; UINT32_MAX if it is no own
 * type. */
HIDDEN uint16_t ctfd__number_of(const ctf_file_t *fp, uint32_t place);
HIDDEN uint32_t ctfd__place_of(const ctf_file_t *fp, uint16_t t);

/* Whether additions may refer to a type: an own one, or a visible one of the parent. */
HIDDEN bool ctfd__is_there(ctf_file_t *fp, uint16_t t);

/* Makes room for one more item of `size` bytes in an array that grows. */
HIDDEN bool ctfd__room_for_one(void *block, uint32_t len, uint32_t *room, size_t size);

/* Adds a type and writes its number. */
HIDDEN enum ctfd_status ctfd__add_type(
    ctf_file_t *fp, uint32_t kind, uint32_t tag, const char *name, bool root, uint16_t *t);
HIDDEN enum ctfd_status ctfd__add_member(
    ctf_file_t *fp, uint16_t t, const char *name, uint16_t type, bool has_offset, uint64_t offset);
HIDDEN enum ctfd_status ctfd__add_enumerator(
    ctf_file_t *fp, uint16_t t, const char *name, int32_t value);
HIDDEN enum ctfd_status ctfd__add_mark(ctf_file_t *fp, const char *name, uint32_t last);
HIDDEN enum ctfd_status ctfd__add_symbol(
    ctf_file_t *fp, const char *name, uint16_t type, uint8_t sort);

/* Makes room for that many items of a type; false if there is no memory. */
HIDDEN bool ctfd__room_for_items(ctf_file_t *fp, struct ctfd__type *type, uint32_t items);

/* Lets a reference refer to a type. */
HIDDEN void ctfd__lead(ctf_file_t *fp, uint16_t t, uint16_t to);

/* Notes that an existing type has changed, so what was written may be stale. */
HIDDEN void ctfd__touch(ctf_file_t *fp, const struct ctfd__type *type);

/* Counts a change, and suspends opened children. */
HIDDEN void ctfd__change(ctf_file_t *fp);

/* Turns a forward into the type that it declares, with its number; false if there is no memory. */
HIDDEN bool ctfd__promote(ctf_file_t *fp, uint16_t t, uint32_t kind, uint64_t size);

/* Makes all additions visible; removes the types after the first `count`; removes a type. */
HIDDEN void ctfd__show(ctf_file_t *fp);
HIDDEN void ctfd__drop_types(ctf_file_t *fp, uint32_t count);
HIDDEN void ctfd__delete_type(ctf_file_t *fp, uint16_t t);

/* ---- recipe_names.c */

/* Makes room for one more name; enters the name of a type, removes it, makes it visible, and marks
 * it as defined. */
HIDDEN bool ctfd__room_for_name(struct ctfd__recipe *of);
HIDDEN void ctfd__enter_name(struct ctfd__recipe *of, uint32_t place);
HIDDEN void ctfd__leave_name(struct ctfd__recipe *of, uint32_t place);
HIDDEN void ctfd__show_name(struct ctfd__recipe *of, uint32_t place);
HIDDEN void ctfd__define_name(struct ctfd__recipe *of, uint32_t place);

/* The type with a name in a kind's name space, among the visible ones, or the first `count`: a
 * definition before a forward, the last before others. 0 if there is none. */
HIDDEN uint16_t ctfd__named(ctf_file_t *fp, uint32_t kind, const char *name, size_t len);
HIDDEN uint16_t ctfd__named_among(
    ctf_file_t *fp, uint32_t kind, const char *name, size_t len, uint32_t count);

/* ---- recipe_sizes.c: sizes of types, pending or not */

HIDDEN enum ctfd_status ctfd__recipe_resolution(
    ctf_file_t *fp, uint16_t t, ctf_file_t **of, uint16_t *to);
HIDDEN enum ctfd_status ctfd__recipe_size(ctf_file_t *fp, uint16_t t, uint64_t *bytes);
HIDDEN enum ctfd_status ctfd__recipe_align(ctf_file_t *fp, uint16_t t, uint64_t *bytes);

/* A number of bits, of up to 2^64 - 1 bytes. */
__extension__ typedef unsigned __int128 ctfd__wide;

/* The size of a value in bits, and the default offset of a new member. */
HIDDEN enum ctfd_status ctfd__bits_of(ctf_file_t *fp, uint16_t t, ctfd__wide *bits);
HIDDEN enum ctfd_status ctfd__place_for(
    ctf_file_t *fp, const struct ctfd__type *type, uint16_t member, ctfd__wide *at);

/* ---- recipe_answers.c: answers on visible types */

HIDDEN struct ctfd__details *ctfd__recipe_details(ctf_file_t *fp, uint16_t t);
HIDDEN enum ctfd_status ctfd__recipe_pointer(ctf_file_t *fp, uint16_t t, uint16_t *to);
HIDDEN enum ctfd_status ctfd__recipe_find(
    ctf_file_t *fp, const char *text, size_t len, uint16_t *t);

/* ---- recipe_bytes.c */

/* Writes what is visible to the proved draft, which checks it. */
HIDDEN enum ctfd_status ctfd__write(ctf_file_t *fp);

/* ---- symbol_labels.c: labels that stand for symbols */

HIDDEN uint32_t ctfd__label_count(ctf_file_t *fp);

/* The sort of the symbol for which a label stands, with its kept name; -1 if it stands for none. */
HIDDEN int ctfd__symbol_of_label(ctf_file_t *fp, uint32_t i, const char **name, uint16_t *type);

/* Finds the first label of a symbol with this name; `sorts` has a bit for each sort. */
HIDDEN bool ctfd__find_symbol_label(
    ctf_file_t *fp, const char *name, unsigned sorts, uint16_t *type);

/* Finds the first label of a symbol of the file's symbol table, by its number, and of one sort. */
HIDDEN bool ctfd__label_of_symbol(ctf_file_t *fp, ulong_t symbol, int sort, uint16_t *type);

/* ---- gnu.c: those of GNU's calls that gnu_dump.c uses */

struct ctf_next;
char *ctfd_gnu_type_aname(ctf_file_t *fp, ctf_id_t type);
int ctfd_gnu_member_count(ctf_file_t *fp, ctf_id_t type);
const char *ctfd_gnu_enum_next(ctf_file_t *fp, ctf_id_t type, struct ctf_next **it, int *value);
int ctfd_gnu_type_iter_all(ctf_file_t *fp, int (*each)(ctf_id_t, int, void *), void *arg);
int ctfd_gnu_label_iter(
    ctf_file_t *fp, int (*each)(const char *, const ctf_lblinfo_t *, void *), void *arg);
ctf_id_t ctfd_gnu_symbol_next(
    ctf_file_t *fp, struct ctf_next **it, const char **name, int functions);
int ctfd_gnu_variable_iter(ctf_file_t *fp, int (*each)(const char *, ctf_id_t, void *), void *arg);
void ctfd_gnu_next_destroy(struct ctf_next *it);

/* ---- the part for ELF files: elf.c, which a program may leave out */

/* A list that was found, in a block that the caller frees; `at` is NULL if there is none. */
struct ctfd_elf_list {
    void *at;
    size_t len;
};

/* The most bytes of a build-id, as in debuginfod. */
#define CTFD_LONGEST_ID 64

struct ctfd_elf_lists {
    struct ctfd_elf_list ctf;
    struct ctfd_elf_list symbols;
    struct ctfd_elf_list strings;
    struct ctfd_elf_list variables; /* a byte for each symbol of a linked file: see elf.c */
    bool ilp32;
    size_t id_len; /* of a file without a dictionary that has a build-id; else 0 */
    unsigned char id[CTFD_LONGEST_ID];
};

/* Finds the dictionary in an ELF file, inflated, and the symbol table that it belongs to, in the
 * form of ELF64. What `program` exports is no variable to GNU's linker: `program` is the file, or
 * the one for which the file was fetched. Returns 0, or an error of ctf_open; then there is nothing
 * to free. */
int ctfd_elf_read(int fd, int program, struct ctfd_elf_lists *lists);

/* Inflates a dictionary whose header says that it is compressed. */
int ctfd_elf_inflate(const void *bytes, size_t len, struct ctfd_elf_list *made);

#endif
