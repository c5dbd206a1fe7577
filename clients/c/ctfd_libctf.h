/* ctfd_libctf.h - the calls of libctf(3LIB), as libctfd has them.
 *
 * A program that was written for libctf includes this file in place of <libctf.h> or
 * <sys/ctf_api.h>, and links libctfd.so or libctfd.a. Type numbers, offsets, the order of lists,
 * return values, the calls that follow typedefs, the arguments of callbacks and the changes of
 * ctf_errno are those of illumos.
 * These differ:
 * - A dictionary is checked in full when it is opened, and refused for any fault.
 * - ctf_import refuses a parent that lacks types to which the child refers.
 * docs/C.md has a table of all calls, including those that are missing here.
 *
 * Only one thread at a time may use a ctf_file_t, or several that share a parent (ctfd.h). Names
 * that are returned or passed to callbacks live as long as their ctf_file_t; those of members and
 * enumerators are in the sections that the caller passed. A callback may make any call, except
 * ctf_close of the file for which it is called.
 */
#ifndef CTFD_LIBCTF_H
#define CTFD_LIBCTF_H

#include "ctfd.h"

#include <sys/types.h>

#ifdef __cplusplus
extern "C" {
#endif

#ifndef __sun
typedef unsigned int uint_t;
typedef unsigned long ulong_t;
typedef enum {
    B_FALSE,
    B_TRUE
} boolean_t;
#endif

/* ---- types and constants, by their names in sys/ctf_api.h and sys/ctf.h */

typedef struct ctf_file ctf_file_t;
typedef long ctf_id_t;

typedef struct ctf_sect {
    const char *cts_name;
    ulong_t cts_type;
    ulong_t cts_flags;
    const void *cts_data;
    size_t cts_size;
    size_t cts_entsize;
    off_t cts_offset;
} ctf_sect_t;

typedef struct ctf_encoding {
    uint_t cte_format;
    uint_t cte_offset;
    uint_t cte_bits;
} ctf_encoding_t;

typedef struct ctf_membinfo {
    ctf_id_t ctm_type;
    ulong_t ctm_offset;
} ctf_membinfo_t;

typedef struct ctf_arinfo {
    ctf_id_t ctr_contents;
    ctf_id_t ctr_index;
    uint_t ctr_nelems;
} ctf_arinfo_t;

typedef struct ctf_funcinfo {
    ctf_id_t ctc_return;
    uint_t ctc_argc;
    uint_t ctc_flags;
} ctf_funcinfo_t;

typedef struct ctf_lblinfo {
    ctf_id_t ctb_typeidx;
} ctf_lblinfo_t;

typedef int ctf_visit_f(const char *name, ctf_id_t type, ulong_t offset, int depth, void *arg);
typedef int ctf_member_f(const char *name, ctf_id_t type, ulong_t offset, void *arg);
typedef int ctf_enum_f(const char *name, int value, void *arg);
typedef int ctf_type_f(ctf_id_t type, boolean_t root, void *arg);
typedef int ctf_label_f(const char *name, void *arg);
typedef int ctf_string_f(const char *text, void *arg);
typedef int ctf_function_f(const char *name, ulong_t symbol, ctf_funcinfo_t *info, void *arg);
typedef int ctf_object_f(const char *name, ctf_id_t type, ulong_t symbol, void *arg);

#define CTF_ERR (-1L)
#define CTF_VERSION 2
#define CTF_FUNC_VARARG 0x1
#define CTF_ADD_NONROOT 0
#define CTF_ADD_ROOT 1
#define CTF_LABEL_LASTIDX (-1)
#define CTF_MODEL_ILP32 1
#define CTF_MODEL_LP64 2
#define CTF_MODEL_NATIVE CTF_MODEL_LP64
#define CTF_MAX_TYPE 0xffff
#define CTF_MAX_PTYPE 0x7fff
#define CTF_MAX_VLEN 0x3ff
#define CTF_TYPE_ISPARENT(id) ((id) <= CTF_MAX_PTYPE)
#define CTF_TYPE_ISCHILD(id) ((id) > CTF_MAX_PTYPE)

#define CTF_K_UNKNOWN 0
#define CTF_K_INTEGER 1
#define CTF_K_FLOAT 2
#define CTF_K_POINTER 3
#define CTF_K_ARRAY 4
#define CTF_K_FUNCTION 5
#define CTF_K_STRUCT 6
#define CTF_K_UNION 7
#define CTF_K_ENUM 8
#define CTF_K_FORWARD 9
#define CTF_K_TYPEDEF 10
#define CTF_K_VOLATILE 11
#define CTF_K_CONST 12
#define CTF_K_RESTRICT 13
#define CTF_K_MAX 31

#define CTF_INT_SIGNED 0x01
#define CTF_INT_CHAR 0x02
#define CTF_INT_BOOL 0x04
#define CTF_INT_VARARGS 0x08
#define CTF_FP_SINGLE 1
#define CTF_FP_DOUBLE 2
#define CTF_FP_CPLX 3
#define CTF_FP_DCPLX 4
#define CTF_FP_LDCPLX 5
#define CTF_FP_LDOUBLE 6
#define CTF_FP_INTRVL 7
#define CTF_FP_DINTRVL 8
#define CTF_FP_LDINTRVL 9
#define CTF_FP_IMAGRY 10
#define CTF_FP_DIMAGRY 11
#define CTF_FP_LDIMAGRY 12

/* The values of ctf_errno: a number of <errno.h>, or one of these, which libctf has too. */
#define ECTF_BASE 1000

/* This, plus a number of enum ctfd_status: faults for which libctf has no number. */
#define ECTF_FAULT 1100

enum {
    ECTF_FMT = ECTF_BASE, /* the file is neither CTF nor ELF */
    ECTF_ELFVERS, /* a damaged ELF file */
    ECTF_CTFVERS, /* not version 2 */
    ECTF_ENDIAN,
    ECTF_SYMTAB,
    ECTF_SYMBAD,
    ECTF_STRBAD,
    ECTF_CORRUPT, /* a rule of the format is broken: see ctf_fault */
    ECTF_NOCTFDATA, /* an ELF file without .SUNW_ctf and .ctf */
    ECTF_NOCTFBUF, /* no CTF */
    ECTF_NOSYMTAB, /* no such symbol */
    ECTF_NOPARENT,
    ECTF_DMODEL,
    ECTF_MMAP,
    ECTF_ZMISSING, /* the part for ELF files, libctfd_elf, is missing */
    ECTF_ZINIT,
    ECTF_ZALLOC,
    ECTF_DECOMPRESS, /* a body that does not inflate to the size in its header */
    ECTF_STRTAB,
    ECTF_BADNAME,
    ECTF_BADID,
    ECTF_NOTSOU,
    ECTF_NOTENUM,
    ECTF_NOTSUE,
    ECTF_NOTINTFP,
    ECTF_NOTARRAY,
    ECTF_NOTREF,
    ECTF_NAMELEN, /* a name does not fit into the caller's buffer */
    ECTF_NOTYPE,
    ECTF_SYNTAX,
    ECTF_NOTFUNC,
    ECTF_NOFUNCDAT,
    ECTF_NOTDATA,
    ECTF_NOTYPEDAT,
    ECTF_NOLABEL,
    ECTF_NOLABELDATA,
    ECTF_NOTSUP,
    ECTF_NOENUMNAM,
    ECTF_NOMEMBNAM,
    ECTF_RDONLY,
    ECTF_DTFULL,
    ECTF_FULL,
    ECTF_DUPMEMBER,
    ECTF_CONFLICT, /* another type with this name exists already */
    ECTF_REFERENCED,
    ECTF_NOTDYN
};

/* ---- errors */

/* The last error of a file. A successful call does not change it. */
int ctf_errno(ctf_file_t *fp);

/* The text of an error. It begins with the name of a fault that has the number, as "NoType: no type
 * has this number", except for numbers of one question's refusal, such as ECTF_NOTENUM. */
const char *ctf_errmsg(int error);

/* Not in libctf: the fault of the last error of a file; for NULL, that of the last call on this
 * thread that failed to open a file. CTFD_OK if the error is no fault. Many faults share a number
 * of libctf: ctfd_status_name(ctf_fault(NULL)) says which rule is broken. */
enum ctfd_status ctf_fault(ctf_file_t *fp);

/* The version of the format. There is only one. */
int ctf_version(int version);

/* ---- open and close */

/* Opens sections in memory, which must stay unchanged until the file is closed. cts_entsize says
 * whether the symbols are those of ELF32, and then the model is ILP32. A compressed dictionary is
 * inflated if the part for ELF files is installed; else it is refused. */
ctf_file_t *ctf_bufopen(
    const ctf_sect_t *ctf, const ctf_sect_t *symbols, const ctf_sect_t *strings, int *error);

/* Opens a file that is a CTF section, or an ELF file that has one. Anything but a regular file is
 * refused at once, with EINVAL. An ELF file without a section is looked up by its build-id in the
 * stores that CTFD_STORE in the environment names: EREMOTEIO if that failed, or if the result was
 * refused. */
ctf_file_t *ctf_open(const char *name, int *error);
ctf_file_t *ctf_fdopen(int fd, int *error);

/* Opens the same dictionary once more, independently. Dictionaries from ctf_create are refused. */
ctf_file_t *ctf_dup(ctf_file_t *fp);
void ctf_close(ctf_file_t *fp);

int ctf_setmodel(ctf_file_t *fp, int model);
int ctf_getmodel(ctf_file_t *fp);
void ctf_setspecific(ctf_file_t *fp, void *data);
void *ctf_getspecific(ctf_file_t *fp);

/* The bytes of the dictionary: those that were passed; for one from ctf_create, its visible part,
 * encoded. They live until the file is closed; those of ctf_create, until the next call of this
 * function. If it can't be encoded, the size is 0 and the error is set. */
void ctf_dataptr(ctf_file_t *fp, const void **bytes, size_t *size);

/* ---- parents */

/* Imports a parent; NULL drops the imported one. Import the parent of a dictionary from ctf_create
 * before you add anything; it can't be changed afterwards. A child sees additions to its parent. */
int ctf_import(ctf_file_t *fp, ctf_file_t *parent);
ctf_file_t *ctf_parent_file(ctf_file_t *fp);

/* NULL if the dictionary names no parent. */
const char *ctf_parent_name(ctf_file_t *fp);
const char *ctf_parent_label(ctf_file_t *fp);

/* ---- types */

int ctf_type_kind(ctf_file_t *fp, ctf_id_t type);
const char *ctf_kind_name(ctf_file_t *fp, int kind);
ssize_t ctf_type_size(ctf_file_t *fp, ctf_id_t type);
ssize_t ctf_type_align(ctf_file_t *fp, ctf_id_t type);
ctf_id_t ctf_type_resolve(ctf_file_t *fp, ctf_id_t type);
ctf_id_t ctf_type_reference(ctf_file_t *fp, ctf_id_t type);
ctf_id_t ctf_type_pointer(ctf_file_t *fp, ctf_id_t type);
int ctf_type_encoding(ctf_file_t *fp, ctf_id_t type, ctf_encoding_t *encoding);
int ctf_array_info(ctf_file_t *fp, ctf_id_t type, ctf_arinfo_t *array);

/* Both write as much of a type's name as fits, and a zero byte, and return the length of the whole
 * name. A qualifier is written before the name itself, with a `, such as "struct module`node *". */
ssize_t ctf_type_lname(ctf_file_t *fp, ctf_id_t type, char *text, size_t size);
ssize_t ctf_type_qlname(
    ctf_file_t *fp, ctf_id_t type, char *text, size_t size, const char *qualifier);

/* As the calls above, but these return `text`; NULL if the name does not fit. ctf_type_cname writes
 * the declaration of a name, such as "int (*name)[10]". */
char *ctf_type_name(ctf_file_t *fp, ctf_id_t type, char *text, size_t size);
char *ctf_type_qname(ctf_file_t *fp, ctf_id_t type, char *text, size_t size, const char *qualifier);
char *ctf_type_cname(ctf_file_t *fp, ctf_id_t type, char *text, size_t size, const char *name);

/* ctf_type_cmp orders types; ctf_type_compat returns 1 if two types are the same but for typedefs,
 * qualifiers and their dictionaries, else 0. */
int ctf_type_cmp(ctf_file_t *lfp, ctf_id_t ltype, ctf_file_t *rfp, ctf_id_t rtype);
int ctf_type_compat(ctf_file_t *lfp, ctf_id_t ltype, ctf_file_t *rfp, ctf_id_t rtype);

/* ---- members and enumerators: typedefs are followed */

int ctf_member_info(ctf_file_t *fp, ctf_id_t type, const char *name, ctf_membinfo_t *member);
int ctf_member_iter(ctf_file_t *fp, ctf_id_t type, ctf_member_f *each, void *arg);
int ctf_type_visit(ctf_file_t *fp, ctf_id_t type, ctf_visit_f *each, void *arg);
int ctf_enum_iter(ctf_file_t *fp, ctf_id_t type, ctf_enum_f *each, void *arg);

/* The first name with a value; NULL if no enumerator has it. */
const char *ctf_enum_name(ctf_file_t *fp, ctf_id_t type, int value);
int ctf_enum_value(ctf_file_t *fp, ctf_id_t type, const char *name, int *value);

/* ---- all types, look-up */

/* Calls `each` for the dictionary's own types: the visible ones, or all if `hidden`. */
int ctf_type_iter(ctf_file_t *fp, boolean_t hidden, ctf_type_f *each, void *arg);

/* Qualifiers and blanks in the name are ignored. */
ctf_id_t ctf_lookup_by_name(ctf_file_t *fp, const char *name);

/* Calls `each` for the strings in the dictionary's own table, in order. For a dictionary from
 * ctf_create they live until the call ends. */
int ctf_string_iter(ctf_file_t *fp, ctf_string_f *each, void *arg);

/* ---- functions and symbols */

int ctf_func_info_by_id(ctf_file_t *fp, ctf_id_t type, ctf_funcinfo_t *info);
int ctf_func_args_by_id(ctf_file_t *fp, ctf_id_t type, uint_t argc, ctf_id_t *argv);
int ctf_func_info(ctf_file_t *fp, ulong_t symbol, ctf_funcinfo_t *info);
int ctf_func_args(ctf_file_t *fp, ulong_t symbol, uint_t argc, ctf_id_t *argv);
ctf_id_t ctf_lookup_by_symbol(ctf_file_t *fp, ulong_t symbol);

/* The name of a symbol; NULL if there is no such symbol, or if the name does not fit. */
char *ctf_symbol_name(ctf_file_t *fp, ulong_t symbol, char *text, size_t size);

/* Both call `each` for the symbols that have types, in the order of the symbol table. */
int ctf_object_iter(ctf_file_t *fp, ctf_object_f *each, void *arg);
int ctf_function_iter(ctf_file_t *fp, ctf_function_f *each, void *arg);

/* ---- labels */

int ctf_label_iter(ctf_file_t *fp, ctf_label_f *each, void *arg);

/* The last label; NULL if there is none. */
const char *ctf_label_topmost(ctf_file_t *fp);
int ctf_label_info(ctf_file_t *fp, const char *name, ctf_lblinfo_t *info);

/* ---- dictionaries from ctf_create
 *
 * Additions become visible by the next ctf_update; ctf_discard drops those that are not visible. A
 * type may get members and enumerators at any time. If a struct, union or enum is added and there
 * is a forward of its name, the forward becomes this type and keeps its number. Rules on the whole
 * dictionary, such as how deep values may be nested, are checked when its bytes are needed. */

ctf_file_t *ctf_create(int *error);
ctf_id_t ctf_add_integer(
    ctf_file_t *fp, uint_t flag, const char *name, const ctf_encoding_t *encoding);
ctf_id_t ctf_add_float(
    ctf_file_t *fp, uint_t flag, const char *name, const ctf_encoding_t *encoding);
ctf_id_t ctf_add_pointer(ctf_file_t *fp, uint_t flag, const char *name, ctf_id_t type);
ctf_id_t ctf_add_typedef(ctf_file_t *fp, uint_t flag, const char *name, ctf_id_t type);
ctf_id_t ctf_add_volatile(ctf_file_t *fp, uint_t flag, const char *name, ctf_id_t type);
ctf_id_t ctf_add_const(ctf_file_t *fp, uint_t flag, const char *name, ctf_id_t type);
ctf_id_t ctf_add_restrict(ctf_file_t *fp, uint_t flag, const char *name, ctf_id_t type);
ctf_id_t ctf_add_array(ctf_file_t *fp, uint_t flag, const ctf_arinfo_t *array);
ctf_id_t ctf_add_function(ctf_file_t *fp, uint_t flag, const char *name, const ctf_funcinfo_t *info,
    const ctf_id_t *argv);
ctf_id_t ctf_add_struct(ctf_file_t *fp, uint_t flag, const char *name);
ctf_id_t ctf_add_union(ctf_file_t *fp, uint_t flag, const char *name);

/* A size of 0 means the size of an int. */
ctf_id_t ctf_add_enum(ctf_file_t *fp, uint_t flag, const char *name, size_t size);
ctf_id_t ctf_add_forward(ctf_file_t *fp, uint_t flag, const char *name, uint_t kind);

/* An offset of ULONG_MAX means after the last member. */
int ctf_add_member(ctf_file_t *fp, ctf_id_t sou, const char *name, ctf_id_t type, ulong_t offset);
int ctf_add_enumerator(ctf_file_t *fp, ctf_id_t type, const char *name, int value);

/* Adds a label after the others; any other position is refused with ENOTSUP. */
int ctf_add_label(ctf_file_t *fp, const char *name, ctf_id_t last, uint_t position);
int ctf_set_array(ctf_file_t *fp, ctf_id_t type, const ctf_arinfo_t *array);

/* Copies a type of another file with all that it needs. If there is already a type with the same
 * name, kind and contents, that one is used; if its contents differ, the error is ECTF_CONFLICT. */
ctf_id_t ctf_add_type(ctf_file_t *fp, ctf_file_t *from, ctf_id_t type);

/* Removes the last type. Any other becomes a type of an unknown kind, so that numbers stay
 * valid. */
int ctf_delete_type(ctf_file_t *fp, ctf_id_t type);
int ctf_update(ctf_file_t *fp);
int ctf_discard(ctf_file_t *fp);

/* Writes the bytes of the dictionary: of one from ctf_create, those of its visible part. */
int ctf_write(ctf_file_t *fp, int fd);

/* Not in libctf: the handle of ctfd.h that a file has open, for other calls of ctfd.h. It is valid
 * until the file is closed, or its model or parent changes; for a dictionary from ctf_create, or a
 * child of one, until that changes. NULL, with the error set, if such a dictionary can't be
 * encoded. Only ask questions with it, and do not open, create or close anything: the handle is the
 * file's. */
struct ctfd *ctfd_of(ctf_file_t *fp);

/* Not in libctf: the version of the library, the CTFD_VERSION with which it was compiled. */
const char *ctfd_version(void);

/* Not in libctf: the build of this library, as `ctfd --version` gives it for the program: "proved
 * build: " and the kit that checked its proofs, or "quick build: proofs not checked". */
const char *ctf_build(void);

#ifdef __cplusplus
}
#endif
#endif
