/* ctfd.h - the types of a C program, from a CTF dictionary (version 2), in process.
 *
 * ctfd_open checks a dictionary and opens it behind a handle. The other calls take the handle,
 * return a status, and write their results through their last pointers:
 *
 *     struct ctfd types = CTFD_NONE;
 *     uint64_t place, bytes;
 *     uint16_t t;
 *     if (ctfd_open(&types, ctf, ctf_len, "", 0, "", 0, false, false, false, &place) == CTFD_OK &&
 *         ctfd_find(&types, "struct point", 12, &t) == CTFD_OK &&
 *         ctfd_size(&types, t, &bytes) == CTFD_OK)
 *         printf("%llu bytes\n", (unsigned long long)bytes);
 *     ctfd_close(&types);
 *
 * Link libctfd.a: `cc own.c $(pkg-config --cflags --libs ctfd)`. docs/C.md has more to read.
 *
 * What the caller must ensure
 * - A handle is initialized with CTFD_NONE, and only these calls write its fields. It may be moved;
 *   do not use the old copy then. ctfd_close frees what is open.
 * - No pointer is null, not even with a length of 0; each points to as many bytes or items as
 *   stated. No two arguments of a call overlap, so a handle is not its own parent. A `bool` is 0 or
 *   1.
 * - Calls with one handle do not run at the same time, and neither do calls with handles that share
 *   a dictionary: a child and its parent after an import, and all handles that imported the same
 *   parent. They stay on the thread that opened them. Handles that share nothing may be used on
 *   different threads.
 * - No call is made from a signal handler.
 * - 256 KiB of stack are free. On a thread we measured at most 112 KiB, to show structs nested 512
 *   deep, and 200 KiB in a child of a parent with such structs.
 * Every other error is reported by a status, whatever the bytes, numbers, names and lines are.
 *
 * What the caller can rely on
 * - A refused call leaves everything that is open unchanged, and writes nothing but `place`, which
 *   says where the fault is (docs/FAULTS.md); 0 if the fault has no place.
 * - All arguments are copied, except those of ctfd_open_lent: the caller may free them at once.
 * - Text is truncated to the `text_len` bytes at `text`, without a zero byte at the end. `*len` is
 *   the full length, as by snprintf: if it is greater, call again with that much room.
 * - Each call may return CTFD_NO_SLOT, if nothing is open. Calls that take a type number may return
 *   CTFD_NO_TYPE and, for a child that imported no parent, CTFD_NO_PARENT.
 * - Calls allocate no memory unless they are said to. Those that do may return CTFD_MEMORY.
 *
 * Types are numbered from 1, and those of a child from 32769; in a child, lower numbers are types
 * of its parent. 0 stands for no type, such as what a pointer to void points to; calls on it are
 * refused with CTFD_NO_TYPE. Sizes and alignments are in bytes, offsets in bits. Symbols, members,
 * enumerators, arguments and labels are numbered from 0.
 */
#ifndef CTFD_H
#define CTFD_H

#include <stdbool.h>
#include <stddef.h>
#include <stdint.h>

/* The version of this header, and of the library that comes with it. */
#define CTFD_VERSION "0.2.0"

#ifdef __cplusplus
extern "C" {
#endif

/* A handle: an open dictionary or draft, or nothing. */
struct ctfd {
    bool full;
    void *at;
};

/* A service of the line protocol, or nothing. */
struct ctfd_service {
    bool full;
    void *at;
};

/* The initial value of each handle. */
/* clang-format off */
#define CTFD_NONE { false, NULL }
/* clang-format on */

/* CTFD_OK, or 1 + the number of a fault in docs/FAULTS.md, which says what to do about it. */
enum ctfd_status {
    CTFD_OK = 0,
    CTFD_MEMORY = 1, /* memory was refused */
    CTFD_TOO_SHORT = 2, /* fewer than 4 bytes */
    CTFD_BAD_MAGIC = 3, /* the first two bytes are no CTF */
    CTFD_BAD_VERSION = 4, /* not version 2 */
    CTFD_COMPRESSED = 5, /* the body is compressed */
    CTFD_SHORT_HEADER = 6, /* fewer than 36 bytes */
    CTFD_BAD_ORDER = 7, /* the sections are not in order */
    CTFD_BAD_ALIGN = 8, /* a section is not aligned */
    CTFD_PAST_END = 9, /* a section ends past the bytes */
    CTFD_BAD_STRINGS = 10, /* the strings do not begin with a zero byte */
    CTFD_TRUNCATED = 11, /* a record is cut off */
    CTFD_BAD_KIND = 12, /* a record has an unknown kind */
    CTFD_TOO_MANY = 13, /* more than 32,766 types */
    CTFD_BAD_NAME = 14, /* a reference to a name names nothing */
    CTFD_BAD_REFERENCE = 15, /* a record names a type that is not there */
    CTFD_VALUE_DEEP = 16, /* values hold each other more than 512 deep */
    CTFD_DECL_DEEP = 17, /* a declaration of more than 512 steps */
    CTFD_BAD_FUNCS = 18, /* the entry of a function is bad */
    CTFD_BAD_SYMBOL_TYPE = 19, /* a symbol names a type that is not there */
    CTFD_BAD_SYMTAB = 20, /* the symbol table's size is not a multiple of 24 bytes */
    CTFD_NOT_CHILD = 21, /* the dictionary names no parent */
    CTFD_PARENT_IS_CHILD = 22, /* the parent names a parent itself */
    CTFD_PARENT_SHORT = 23, /* the parent has fewer types than are named */
    CTFD_NO_PARENT = 24, /* a type of a parent, and none is imported */
    CTFD_NO_TYPE = 25, /* no type has this number */
    CTFD_NOT_REFERENCE = 26, /* no pointer, typedef or qualifier */
    CTFD_INCOMPLETE = 27, /* the type has no size, alignment or value */
    CTFD_TOO_BIG = 28, /* a size or an offset is past 64 bits */
    CTFD_NO_MEMBER = 29, /* no member of this name or number */
    CTFD_NOT_AGGREGATE = 30, /* no struct or union */
    CTFD_WRONG_KIND = 31, /* not asked of types of this kind */
    CTFD_TOO_LONG = 32, /* a text of more than 65,536 bytes */
    CTFD_NOT_FOUND = 33, /* no type has this name, or no pointer leads there */
    CTFD_BAD_SYNTAX = 34, /* the text is not the name of a type */
    CTFD_NO_SYMBOL = 35, /* no symbol of this name or number */
    CTFD_NOT_DATA = 36, /* the symbol is not an object */
    CTFD_NOT_FUNCTION = 37, /* the symbol is not a function */
    CTFD_NO_INFO = 38, /* the symbol has no type information */
    CTFD_NO_LABEL = 39, /* no label of this name or number */
    CTFD_BAD_REF = 40, /* the new type refers to a type that does not exist */
    CTFD_FULL = 41, /* the draft has 32,766 types */
    CTFD_DUPLICATE = 42, /* the name is there already */
    CTFD_SETTLED = 43, /* the type was updated, or is the parent's */
    CTFD_VLEN_FULL = 44, /* 1,023 members, enumerators or arguments */
    CTFD_DEEP_MEMBER = 45, /* the member's type is more than 512 deep */
    CTFD_BAD_OFFSET = 46, /* the member's place exceeds 64 bits, or the stated size */
    CTFD_NAME_HAS_ZERO = 47, /* a name has a zero byte */
    CTFD_DICT_TOO_BIG = 48, /* more than 67,108,864 bytes */
    CTFD_SHORT_MEMORY = 49, /* a value lies past the memory */
    CTFD_NO_SLOT = 50, /* nothing is open behind the handle */
    CTFD_SLOTS_FULL = 51, /* all slots are in use */
    CTFD_STAGE_FULL = 52, /* a list of more than 67,108,864 bytes */
    CTFD_READ_ONLY = 53, /* the dictionary is not a draft */
    CTFD_NAME_TAKEN = 54, /* the name is published already */
    CTFD_NOT_PUBLISHED = 55, /* nothing is published by this name */
    CTFD_NOT_UPDATED = 56, /* something is pending */
    CTFD_LONG_REPLY = 57, /* a reply of more than 4,194,304 bytes */
    CTFD_NOT_JSON = 58, /* the line is not JSON */
    CTFD_BAD_REQUEST = 59, /* the line is not a request */
    CTFD_LONG_LINE = 60, /* a line of more than 1,048,576 bytes */
    CTFD_MODEL_DIFFERS = 61, /* child and parent have other data models */
    CTFD_QUOTA_FULL = 62, /* more than a session may hold */
    CTFD_FIXED_PARENT = 63 /* the parent of a draft is fixed */
};

/* The name of a status, as docs/FAULTS.md and replies have it: "NoType". "" for other numbers. */
static inline const char *ctfd_status_name(unsigned status)
{
    /* clang-format off */
    static const char *const names[] = {
        "Ok", "Memory", "TooShort", "BadMagic", "BadVersion", "Compressed", "ShortHeader",
        "BadOrder", "BadAlign", "PastEnd", "BadStrings", "Truncated", "BadKind", "TooMany",
        "BadName", "BadReference", "ValueDeep", "DeclDeep", "BadFuncs", "BadSymbolType",
        "BadSymtab", "NotChild", "ParentIsChild", "ParentShort", "NoParent", "NoType",
        "NotReference", "Incomplete", "TooBig", "NoMember", "NotAggregate", "WrongKind", "TooLong",
        "NotFound", "BadSyntax", "NoSymbol", "NotData", "NotFunction", "NoInfo", "NoLabel",
        "BadRef", "Full", "Duplicate", "Settled", "VlenFull", "DeepMember", "BadOffset",
        "NameHasZero", "DictTooBig", "ShortMemory", "NoSlot", "SlotsFull", "StageFull", "ReadOnly",
        "NameTaken", "NotPublished", "NotUpdated", "LongReply", "NotJson", "BadRequest", "LongLine",
        "ModelDiffers", "QuotaFull", "FixedParent"
    };
    /* clang-format on */
    return status < sizeof names / sizeof names[0] ? names[status] : "";
}

/* Kinds of types, with their numbers in sys/ctf.h. */
enum ctfd_kind {
    CTFD_UNKNOWN = 0,
    CTFD_INTEGER = 1,
    CTFD_FLOAT = 2,
    CTFD_POINTER = 3,
    CTFD_ARRAY = 4,
    CTFD_FUNCTION = 5,
    CTFD_STRUCT = 6,
    CTFD_UNION = 7,
    CTFD_ENUM = 8,
    CTFD_FORWARD = 9,
    CTFD_TYPEDEF = 10,
    CTFD_VOLATILE = 11,
    CTFD_CONST = 12,
    CTFD_RESTRICT = 13
};

/* Data models: pointers of 8 bytes, and of 4. */
enum ctfd_model {
    CTFD_LP64 = 0,
    CTFD_ILP32 = 1
};

/* ---- open, close, import */

/* Checks the CTF section of a program and opens a copy of it, in place of what was open. `sym` and
 * `strs` are the program's symbol table (ELF64) and its strings; pass "", 0 and false if there is
 * none. `ilp32` means that the program's pointers have 4 bytes. Statuses: CTFD_TOO_SHORT to
 * CTFD_BAD_SYMTAB for the first rule that is broken, with its place; what was open then stays open.
 * Allocates memory. */
enum ctfd_status ctfd_open(struct ctfd *handle, const void *ctf, size_t ctf_len, const void *sym,
    size_t sym_len, const void *strs, size_t strs_len, bool has_sym, bool has_strs, bool ilp32,
    uint64_t *place);

/* Checks and opens a CTF section as ctfd_open, but without a copy: for mapped files. The lists must
 * stay where they are, unchanged, until no handle has the dictionary, or has it as a parent by
 * ctfd_import or ctfd_create_child. A handle gives it up if a call closes it, or opens, creates or
 * imports another in its place; a refused call does not count. Allocates memory for tables: at most
 * 34 bytes for each type and 20 for each symbol stay allocated. */
enum ctfd_status ctfd_open_lent(struct ctfd *handle, const void *ctf, size_t ctf_len,
    const void *sym, size_t sym_len, const void *strs, size_t strs_len, bool has_sym, bool has_strs,
    bool ilp32, uint64_t *place);

/* Closes what is open, if anything is. Handles that imported it keep it. */
void ctfd_close(struct ctfd *handle);

/* Makes the dictionary of `parent` the parent of that of `handle`, in place of an earlier parent.
 * The handles share it: `parent` may then be closed, or opened anew. Statuses: CTFD_FIXED_PARENT
 * for a draft, CTFD_NOT_CHILD, CTFD_PARENT_IS_CHILD, CTFD_MODEL_DIFFERS, CTFD_PARENT_SHORT (the
 * place is how many types the parent needs). Allocates memory. */
enum ctfd_status ctfd_import(struct ctfd *handle, struct ctfd *parent, uint64_t *place);

/* ---- the dictionary as a whole */

/* The number n of own types, which are numbered 1 to n, or 32769 to 32768 + n in a child. */
enum ctfd_status ctfd_count(struct ctfd *handle, uint64_t *out);

/* 1 if the dictionary is a child, else 0. */
enum ctfd_status ctfd_child(struct ctfd *handle, uint32_t *out);

/* The number of types of the imported parent; CTFD_NO_PARENT if none is imported. */
enum ctfd_status ctfd_parent_count(struct ctfd *handle, uint64_t *out);

/* The data model: CTFD_LP64 or CTFD_ILP32. */
enum ctfd_status ctfd_model(struct ctfd *handle, uint32_t *out);

/* The names of the parent and of the parent's label, as in the header of the dictionary; empty if
 * there is none. */
enum ctfd_status ctfd_parent_name(struct ctfd *handle, char *text, size_t text_len, uint64_t *len);
enum ctfd_status ctfd_parent_label(struct ctfd *handle, char *text, size_t text_len, uint64_t *len);

/* A label is a mark by the tool that wrote the dictionary: the types up to `last` existed then. */
struct ctfd_label {
    uint64_t name_len;
    uint32_t last;
};

/* ctfd_label_count gives the number of labels, ctfd_label a label by its number, and
 * ctfd_label_last the last type that the first label with a name covers. The last two return
 * CTFD_NO_LABEL if there is no such label. */
enum ctfd_status ctfd_label_count(struct ctfd *handle, uint64_t *out);
enum ctfd_status ctfd_label(
    struct ctfd *handle, size_t index, char *name, size_t name_len, struct ctfd_label *out);
enum ctfd_status ctfd_label_last(
    struct ctfd *handle, const char *name, size_t name_len, uint32_t *out);

/* A row for a label. The list with its name is the dictionary's own. */
struct ctfd_label_row {
    uint64_t name_at; /* The offset of its name in the list, in bytes. */
    uint32_t name_list; /* The list that has its name: a number of `enum ctfd_list`. */
    uint32_t last; /* The last type that it covers. */
};

/* Fills rows with the labels from number `from` on, as ctfd_members. */
enum ctfd_status ctfd_labels(struct ctfd *handle, size_t from, struct ctfd_label_row *rows,
    size_t rows_len, uint64_t *count);

/* ---- the record of a type: typedefs are not followed */

/* The type's kind: a number of enum ctfd_kind. */
enum ctfd_status ctfd_kind(struct ctfd *handle, uint16_t t, uint32_t *out);

/* The name in the type's record, without struct, union or enum; empty if it has none. */
enum ctfd_status ctfd_declared_name(
    struct ctfd *handle, uint16_t t, char *text, size_t text_len, uint64_t *len);

/* 1 if look-ups by name find the type, else 0. */
enum ctfd_status ctfd_root(struct ctfd *handle, uint16_t t, uint32_t *out);

/* The type that a pointer points to, a typedef renames, or volatile, const or restrict qualifies; 0
 * for no type. CTFD_NOT_REFERENCE for other kinds. */
enum ctfd_status ctfd_reference(struct ctfd *handle, uint16_t t, uint16_t *out);

/* What a forward declares: CTFD_STRUCT, CTFD_UNION or CTFD_ENUM. CTFD_WRONG_KIND for other
 * kinds. */
enum ctfd_status ctfd_tag(struct ctfd *handle, uint16_t t, uint32_t *out);

/* How an integer or a float is stored: the encoding's number in the format, the offset of the value
 * in its storage and its width, both in bits. For an integer the number is a sum of 1 (signed), 2
 * (character), 4 (boolean) and 8 (varargs). */
struct ctfd_encoding {
    uint32_t encoding;
    uint32_t offset;
    uint32_t bits;
};

/* The encoding of an integer or a float. CTFD_WRONG_KIND for other kinds. */
enum ctfd_status ctfd_encoding(struct ctfd *handle, uint16_t t, struct ctfd_encoding *out);

/* The parts of an array: the number of elements, their type, and the type of the index. */
struct ctfd_array {
    uint32_t count;
    uint16_t contents;
    uint16_t index;
};

/* The parts of an array. CTFD_WRONG_KIND for other kinds. */
enum ctfd_status ctfd_array(struct ctfd *handle, uint16_t t, struct ctfd_array *out);

/* The number of members, enumerators or arguments; 0 for kinds without a list. */
enum ctfd_status ctfd_length(struct ctfd *handle, uint16_t t, uint64_t *out);

/* A member without its name: its offset in bits, the length of its name, and its type. */
struct ctfd_member {
    uint64_t offset;
    uint64_t name_len;
    uint16_t type;
};

/* A member of a struct or union, by its number, and its name. CTFD_NO_MEMBER if the number is too
 * great; CTFD_WRONG_KIND for other kinds. */
enum ctfd_status ctfd_member(struct ctfd *handle, uint16_t t, size_t index, char *name,
    size_t name_len, struct ctfd_member *out);

/* An enumerator of an enum, by its number: its name, its value, and the length of its name. Refused
 * as ctfd_member. */
enum ctfd_status ctfd_enumerator(struct ctfd *handle, uint16_t t, size_t index, char *name,
    size_t name_len, int32_t *value, uint64_t *len);

/* The name of the first enumerator of an enum with a value, and the value of the first with a name.
 * CTFD_NO_MEMBER if there is none; CTFD_WRONG_KIND for other kinds. */
enum ctfd_status ctfd_enum_name(
    struct ctfd *handle, uint16_t t, int32_t value, char *text, size_t text_len, uint64_t *len);
enum ctfd_status ctfd_enum_value(
    struct ctfd *handle, uint16_t t, const char *name, size_t name_len, int32_t *value);

/* The lists in which rows give their names. A name begins at the offset `name_at` in a list of the
 * dictionary that has the type, and a zero byte follows it. If `name_list` is 0, the list is the
 * CTF section; if it is 1, the strings of the symbol table; if it is 2, the name is empty. The
 * lists are the bytes passed to ctfd_open or ctfd_open_lent; for a draft, those that ctfd_bytes
 * gives. In a child, types below 32769 are the parent's, and so are their lists. */
enum ctfd_list {
    CTFD_IN_SECTION = 0,
    CTFD_IN_STRINGS = 1,
    CTFD_NOWHERE = 2
};

/* A row for a member of a struct or union. */
struct ctfd_member_row {
    uint64_t offset; /* Its offset in bits. */
    uint64_t name_at; /* The offset of its name in the list, in bytes. */
    uint32_t name_list; /* The list that has its name: a number of `enum ctfd_list`. */
    uint16_t type; /* The number of its type. */
};

/* A row for an enumerator. */
struct ctfd_enumerator_row {
    uint64_t name_at; /* The offset of its name in the list, in bytes. */
    uint32_t name_list; /* The list that has its name: a number of `enum ctfd_list`. */
    int32_t value; /* Its value. */
};

/* Fills rows with the members of a struct or union, or the enumerators of an enum, from number
 * `from` on, up to the end of the list or of the rows; further rows are unchanged. `*count` is the
 * length of the whole list. CTFD_WRONG_KIND for other kinds. */
enum ctfd_status ctfd_members(struct ctfd *handle, uint16_t t, size_t from,
    struct ctfd_member_row *rows, size_t rows_len, uint64_t *count);
enum ctfd_status ctfd_enumerators(struct ctfd *handle, uint16_t t, size_t from,
    struct ctfd_enumerator_row *rows, size_t rows_len, uint64_t *count);

/* A row for one of the dictionary's own types. The size, the alignment, the resolved type and the
 * reference come with the status of the call that gives only this, such as ctfd_size; if it is a
 * refusal, the number is 0. */
struct ctfd_type_row {
    uint64_t size; /* Its size in bytes. */
    uint64_t align; /* Its alignment in bytes. */
    uint64_t length; /* The number of its members, enumerators or arguments. */
    uint64_t name_at; /* The offset of the name in its record, in bytes of the list. */
    uint32_t name_list; /* The list that has the name: a number of `enum ctfd_list`. */
    uint32_t kind; /* Its kind: a number of `enum ctfd_kind`. */
    uint32_t root; /* 1 if look-ups by name find it, else 0. */
    uint32_t size_status; /* The status of ctfd_size. */
    uint32_t align_status; /* The status of ctfd_align. */
    uint32_t resolved_status; /* The status of ctfd_resolve. */
    uint32_t reference_status; /* The status of ctfd_reference. */
    uint16_t type; /* Its number. */
    uint16_t resolved; /* The number of the type that it resolves to. */
    uint16_t reference; /* The number of the type that it points to, renames or qualifies. */
};

/* Fills rows with the dictionary's own types, from number `from` on, counted from 0, up to the last
 * type or the end of the rows; further rows are unchanged. `*count` is the number of own types. For
 * rows of a parent's types, use a handle of the parent. */
enum ctfd_status ctfd_types(
    struct ctfd *handle, size_t from, struct ctfd_type_row *rows, size_t rows_len, uint64_t *count);

/* A row of a visit: a member of the struct or union `holder`. `stands_for` is what ctfd_resolve
 * gives for the member's type, 0 if that is refused. `offset` is UINT64_MAX past 64 bits. The lists
 * with the name are those of the dictionary that has `holder`. The outermost type comes first, with
 * depth 0, without a name, and as its own holder. */
struct ctfd_visit_row {
    uint64_t offset; /* Its offset from the beginning of the outermost type, in bits. */
    uint64_t name_at; /* The offset of its name in the list, in bytes. */
    uint32_t name_list; /* The list that has its name: a number of `enum ctfd_list`. */
    uint32_t depth; /* The number of structs and unions around it. */
    uint16_t type; /* The number of its type. */
    uint16_t holder; /* The number of the struct or union that it is a member of. */
    uint16_t stands_for; /* The type that its type resolves to; 0 if that is none. */
};

/* Fills rows with a type and all that it contains: the members of the struct or union that it
 * resolves to, in order, each followed by all that it contains. Elements of arrays and targets of
 * pointers are not visited, and a member whose type is no struct or union, or is missing, contains
 * nothing. `*count` is the number of rows that all of it takes; if that is more than rows_len,
 * `*count` is rows_len + 1: call again with more rows, such as twice as many. Takes time linear in
 * the rows that it fills. */
enum ctfd_status ctfd_visit(
    struct ctfd *handle, uint16_t t, struct ctfd_visit_row *rows, size_t rows_len, uint64_t *count);

/* The type that a function type returns, and the type of an argument by its number; a last argument
 * 0 means that more may follow. Refused as ctfd_member. */
enum ctfd_status ctfd_return(struct ctfd *handle, uint16_t t, uint16_t *out);
enum ctfd_status ctfd_argument(struct ctfd *handle, uint16_t t, size_t index, uint16_t *out);

/* Fills rows with the types of a function type's arguments, as ctfd_argument gives them, from
 * number `from` on, up to the last argument or the end of the rows; further rows are unchanged.
 * `*count` is the number of all arguments, as ctfd_length gives it. CTFD_WRONG_KIND for other
 * kinds. */
enum ctfd_status ctfd_arguments(
    struct ctfd *handle, uint16_t t, size_t from, uint16_t *rows, size_t rows_len, uint64_t *count);

/* ---- sizes, members, names and values: typedefs and qualifiers are followed */

/* The type that a type resolves to through typedefs and qualifiers; 0 if that is no type. */
enum ctfd_status ctfd_resolve(struct ctfd *handle, uint16_t t, uint16_t *out);

/* The size and the alignment of a type, in bytes. CTFD_INCOMPLETE for a forward, an unknown kind
 * and no type; CTFD_TOO_BIG for an array of 2^64 bytes or more. The alignment of a struct is that
 * of its first member. */
enum ctfd_status ctfd_size(struct ctfd *handle, uint16_t t, uint64_t *out);
enum ctfd_status ctfd_align(struct ctfd *handle, uint16_t t, uint64_t *out);

/* The offset in bits of the first member with a name in a struct or union, and its type.
 * CTFD_NOT_AGGREGATE, CTFD_NO_MEMBER. */
enum ctfd_status ctfd_field(struct ctfd *handle, uint16_t t, const char *name, size_t name_len,
    uint64_t *offset, uint16_t *to);

/* The offset in bits and the type of a member of a member: `names` has the name of each step, each
 * followed by a zero byte, such as "address\0street" with names_len 15. Without names the results
 * are 0 and `t` itself. Refused as ctfd_field; CTFD_TOO_BIG past 64 bits. `*place` is then the
 * number of the step, from 0. Allocates memory. */
enum ctfd_status ctfd_path(struct ctfd *handle, uint16_t t, const char *names, size_t names_len,
    uint64_t *offset, uint16_t *to, uint64_t *place);

/* The type's name as C spells it, as in a cast: "struct point *", "int (*)[10]". CTFD_TOO_LONG past
 * 65,536 bytes. Allocates memory. */
enum ctfd_status ctfd_name(
    struct ctfd *handle, uint16_t t, char *text, size_t text_len, uint64_t *len);

/* The value of a type that begins at bit `offset` of `memory`, as a debugger shows it, such as
 * "{x = 1, y = -2}". CTFD_SHORT_MEMORY, CTFD_INCOMPLETE, CTFD_TOO_BIG, CTFD_TOO_LONG. Allocates
 * memory. */
enum ctfd_status ctfd_show(struct ctfd *handle, uint16_t t, const void *memory, size_t memory_len,
    uint64_t offset, char *text, size_t text_len, uint64_t *len);

/* ---- look-up */

/* The type with a name, such as "int", "struct point" or "struct point **". Only types that are
 * visible to look-ups are found; of several types the one with the least number, own types first.
 * CTFD_NOT_FOUND, CTFD_BAD_SYNTAX. */
enum ctfd_status ctfd_find(struct ctfd *handle, const char *text, size_t text_len, uint16_t *out);

/* The least pointer to a type; if there is none, to the type that it resolves to.
 * CTFD_NOT_FOUND. */
enum ctfd_status ctfd_pointer(struct ctfd *handle, uint16_t t, uint16_t *out);

/* ---- the program's symbols */

/* The number of the first symbol with a name, among those for which a dictionary can have types;
 * CTFD_NO_SYMBOL. */
enum ctfd_status ctfd_symbol(struct ctfd *handle, const char *name, size_t name_len, uint32_t *out);

/* The name of a symbol; CTFD_NO_SYMBOL. */
enum ctfd_status ctfd_symbol_name(
    struct ctfd *handle, uint32_t number, char *text, size_t text_len, uint64_t *len);

/* The type of an object. CTFD_NO_SYMBOL, CTFD_NOT_DATA, CTFD_NO_INFO if the dictionary has none. */
enum ctfd_status ctfd_object(struct ctfd *handle, uint32_t number, uint16_t *out);

/* The number of a function's arguments, 1 in `varargs` if more may follow, and its return type. */
struct ctfd_function {
    uint64_t arguments;
    uint32_t varargs;
    uint16_t ret;
};

/* The signature of a function, and the type of an argument by its number. CTFD_NO_SYMBOL,
 * CTFD_NOT_FUNCTION, CTFD_NO_INFO, and CTFD_NO_MEMBER if there is no such argument. */
enum ctfd_status ctfd_function(struct ctfd *handle, uint32_t number, struct ctfd_function *out);
enum ctfd_status ctfd_function_argument(
    struct ctfd *handle, uint32_t number, size_t index, uint16_t *out);

/* The signature of a function type, by the type's number. CTFD_WRONG_KIND for other kinds. */
enum ctfd_status ctfd_signature(struct ctfd *handle, uint16_t t, struct ctfd_function *out);

/* Fills rows with the types of a function's arguments, from number `from` on, as ctfd_arguments;
 * `*count` is the number of its arguments. Refused as ctfd_function. */
enum ctfd_status ctfd_function_arguments(struct ctfd *handle, uint32_t number, size_t from,
    uint16_t *rows, size_t rows_len, uint64_t *count);

/* The class of a symbol, from the low four bits of its st_info. */
enum ctfd_symbol_class {
    CTFD_OTHER_SYMBOL = 0,
    CTFD_OBJECT_SYMBOL = 1,
    CTFD_FUNCTION_SYMBOL = 2
};

/* A row for a symbol. The type is the return type of a function, with the status of ctfd_function,
 * or else the type of an object, with the status of ctfd_object; if that is a refusal, the type is
 * 0. The list with its name is the dictionary's own. */
struct ctfd_symbol_row {
    uint64_t name_at; /* The offset of its name in the list, in bytes. */
    uint32_t name_list; /* The list that has its name: 1, or 2 if it has none. */
    uint32_t number; /* Its number. */
    uint32_t symbol_class; /* Its class: a number of `enum ctfd_symbol_class`. */
    uint32_t type_status; /* The status of its type. */
    uint16_t type; /* The number of its type. */
};

/* Fills rows with the symbols of the table from number `from` on, up to the last symbol or the end
 * of the rows, including those without type information; further rows are unchanged. `*count` is
 * the number of all symbols, at most 2^32. */
enum ctfd_status ctfd_symbols(struct ctfd *handle, size_t from, struct ctfd_symbol_row *rows,
    size_t rows_len, uint64_t *count);

/* ---- drafts: dictionaries to which types are added
 *
 * A handle holds a draft as it holds a dictionary, and all calls above see the dictionary of its
 * last update. Additions are pending until the next update. Refusals are those of docs/FAULTS.md,
 * among them CTFD_READ_ONLY if the handle holds no draft. All these calls allocate memory, except
 * ctfd_discard and ctfd_bytes.
 */

/* ctfd_create opens an empty draft, in place of what was open. ctfd_create_child opens one over a
 * parent, which stays for good; `parname` and `parlabel` are the names of the parent and of its
 * label for the header, and the draft has the parent's data model. CTFD_BAD_REQUEST if `parname` is
 * empty. */
enum ctfd_status ctfd_create(struct ctfd *handle, bool ilp32, uint64_t *place);
enum ctfd_status ctfd_create_child(struct ctfd *handle, struct ctfd *parent, const char *parname,
    size_t parname_len, const char *parlabel, size_t parlabel_len, uint64_t *place);

/* Each adds a type and writes its number. `root` means that look-ups by name find the type. A last
 * argument 0 of a function means that more may follow; `tag` is CTFD_STRUCT, CTFD_UNION or
 * CTFD_ENUM. */
enum ctfd_status ctfd_add_integer(struct ctfd *handle, const char *name, size_t name_len, bool root,
    uint8_t encoding, uint8_t offset, uint16_t bits, uint64_t size, uint16_t *out);
enum ctfd_status ctfd_add_float(struct ctfd *handle, const char *name, size_t name_len, bool root,
    uint8_t encoding, uint8_t offset, uint16_t bits, uint64_t size, uint16_t *out);
enum ctfd_status ctfd_add_pointer(
    struct ctfd *handle, const char *name, size_t name_len, bool root, uint16_t to, uint16_t *out);
enum ctfd_status ctfd_add_typedef(
    struct ctfd *handle, const char *name, size_t name_len, bool root, uint16_t to, uint16_t *out);
enum ctfd_status ctfd_add_volatile(
    struct ctfd *handle, const char *name, size_t name_len, bool root, uint16_t to, uint16_t *out);
enum ctfd_status ctfd_add_const(
    struct ctfd *handle, const char *name, size_t name_len, bool root, uint16_t to, uint16_t *out);
enum ctfd_status ctfd_add_restrict(
    struct ctfd *handle, const char *name, size_t name_len, bool root, uint16_t to, uint16_t *out);
enum ctfd_status ctfd_add_array(struct ctfd *handle, const char *name, size_t name_len, bool root,
    uint16_t contents, uint16_t index, uint32_t count, uint16_t *out);
enum ctfd_status ctfd_add_function(struct ctfd *handle, const char *name, size_t name_len,
    bool root, uint16_t ret, const uint16_t *args, size_t args_len, uint16_t *out);
enum ctfd_status ctfd_add_struct(struct ctfd *handle, const char *name, size_t name_len, bool root,
    uint64_t size, uint16_t *out);
enum ctfd_status ctfd_add_union(struct ctfd *handle, const char *name, size_t name_len, bool root,
    uint64_t size, uint16_t *out);
enum ctfd_status ctfd_add_enum(struct ctfd *handle, const char *name, size_t name_len, bool root,
    uint64_t size, uint16_t *out);
enum ctfd_status ctfd_add_forward(
    struct ctfd *handle, const char *name, size_t name_len, bool root, uint32_t tag, uint16_t *out);
enum ctfd_status ctfd_add_unknown(
    struct ctfd *handle, const char *name, size_t name_len, bool root, uint16_t *out);

/* Adds a member to a pending struct or union, at `offset` bits if `has_offset`, else after its last
 * member, and writes its offset in bits. */
enum ctfd_status ctfd_add_member(struct ctfd *handle, uint16_t t, const char *name, size_t name_len,
    uint16_t type, bool has_offset, uint64_t offset, uint64_t *out);

/* Adds a member to a pending struct or union, at `offset` bits, and sets the size of the struct or
 * union to `size` bytes, more or fewer than before. The member's type may be incomplete, and the
 * member may extend past the new end; CTFD_BAD_OFFSET if this member, or an earlier one, begins
 * past it. */
enum ctfd_status ctfd_add_member_at(struct ctfd *handle, uint16_t t, const char *name,
    size_t name_len, uint16_t type, uint64_t offset, uint64_t size);

/* ctfd_add_enumerator adds an enumerator to a pending enum; ctfd_add_label adds a label that covers
 * the types up to `last`. */
enum ctfd_status ctfd_add_enumerator(
    struct ctfd *handle, uint16_t t, const char *name, size_t name_len, int32_t value);
enum ctfd_status ctfd_add_label(
    struct ctfd *handle, const char *name, size_t name_len, uint32_t last);

/* ctfd_update writes all pending additions to the dictionary; ctfd_discard drops them. Both give
 * the number of types that the dictionary then has. */
enum ctfd_status ctfd_update(struct ctfd *handle, uint64_t *types, uint64_t *place);
enum ctfd_status ctfd_discard(struct ctfd *handle, uint64_t *types);

/* The bytes of the open dictionary's CTF section, from byte `from` on, at most bytes_len of them.
 * `*len` is the number of all bytes. */
enum ctfd_status ctfd_bytes(
    struct ctfd *handle, uint64_t from, void *bytes, size_t bytes_len, uint64_t *len);

/* ---- the line protocol in process
 *
 * A service answers lines of JSON as `ctfd serve` does (docs/PROTOCOL.md); all its sessions are in
 * this process. ctfd_end, ctfd_reply and ctfd_leave allocate no memory, the others may.
 */

/* Begins a service with new sessions, in place of an earlier service. */
enum ctfd_status ctfd_begin(struct ctfd_service *handle);

/* Ends the service, if there is one. */
void ctfd_end(struct ctfd_service *handle);

/* Answers a line, which is passed without its newline; the reply ends in one. The reply also
 * reports refusals: the status is CTFD_OK whenever the handle has a service. If the reply is longer
 * than `text_len`, ctfd_reply gives it again. */
enum ctfd_status ctfd_line(struct ctfd_service *handle, const char *line, size_t line_len,
    char *text, size_t text_len, uint64_t *len);

/* Answers a line of `session`, whatever number its `s` has; the reply has the number of the line,
 * or that of `session` if the line is an object without `s`. Session 0 makes no requests:
 * CTFD_BAD_REQUEST, and nothing is written. */
enum ctfd_status ctfd_line_as(struct ctfd_service *handle, uint32_t session, const char *line,
    size_t line_len, char *text, size_t text_len, uint64_t *len);

/* Publishes a CTF section for session 0, as `ctfd serve NAME=FILE` does, under a name that is not
 * in use. The section is copied. CTFD_BAD_REQUEST if the name is not allowed, CTFD_NAME_TAKEN, and
 * the statuses of ctfd_open. */
enum ctfd_status ctfd_load(struct ctfd_service *handle, const char *name, size_t name_len,
    const void *ctf, size_t ctf_len);

/* Forgets a session: what it has, and what it has published. Other sessions keep what they took
 * from it. */
enum ctfd_status ctfd_leave(struct ctfd_service *handle, uint32_t session);

/* Writes the last reply again. */
enum ctfd_status ctfd_reply(
    struct ctfd_service *handle, char *text, size_t text_len, uint64_t *len);

/* Checks that the compiler lays out these types as the library has them. */
#ifdef __cplusplus
#define CTFD_ASSERT(holds) static_assert(holds, "ctfd.h: the layout is another one")
#else
#define CTFD_ASSERT(holds) _Static_assert(holds, "ctfd.h: the layout is another one")
#endif
CTFD_ASSERT(sizeof(enum ctfd_status) == 4);
CTFD_ASSERT(sizeof(struct ctfd) == 16 && sizeof(bool) == 1 && sizeof(size_t) == 8);
CTFD_ASSERT(sizeof(struct ctfd_encoding) == 12 && sizeof(struct ctfd_array) == 8);
CTFD_ASSERT(sizeof(struct ctfd_member) == 24 && sizeof(struct ctfd_label) == 16);
CTFD_ASSERT(sizeof(struct ctfd_function) == 16);
CTFD_ASSERT(sizeof(struct ctfd_member_row) == 24 && sizeof(struct ctfd_enumerator_row) == 16);
CTFD_ASSERT(sizeof(struct ctfd_visit_row) == 32 && sizeof(struct ctfd_type_row) == 72);
CTFD_ASSERT(sizeof(struct ctfd_symbol_row) == 32 && sizeof(struct ctfd_label_row) == 16);
#undef CTFD_ASSERT

#ifdef __cplusplus
}
#endif
#endif
