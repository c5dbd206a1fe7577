/* ctf-api.h - the calls of GNU's libctf (binutils 2.40), as libctfd has them: compile programs that
 * include GNU's header with this folder first on the include path, and link them with -lctfd.
 *
 * Calls that differ between GNU's library and illumos' have names of their own (ctfd_gnu_*), to
 * which these declarations lead. So one library serves both headers, and can be loaded next to
 * GNU's own.
 * - Additions to a dictionary are visible at once. Errors are numbers of errno.h, or ECTF_*.
 * - A file has one dictionary: ctf_open gives an archive with only this one, named ".ctf".
 * - The format is version 2: symbols have no names of their own, and there are no variables or
 *   slices. docs/C.md lists the calls that are missing here.
 */
#ifndef CTFD_GNU_CTF_API_H
#define CTFD_GNU_CTF_API_H

#include <stddef.h>
#include <stdint.h>
#include <sys/types.h>

#ifdef __cplusplus
extern "C" {
#endif

typedef struct ctf_file ctf_dict_t;
typedef struct ctfd_gnu_archive ctf_archive_t;
typedef unsigned long ctf_id_t;
typedef struct ctf_next ctf_next_t;
typedef struct ctfd_gnu_dump ctf_dump_state_t;

typedef struct ctf_sect {
    const char *cts_name;
    const void *cts_data;
    size_t cts_size;
    size_t cts_entsize;
} ctf_sect_t;

typedef struct ctf_link_sym {
    const char *st_name;
    size_t st_nameidx;
    int st_nameidx_set;
    uint32_t st_symidx;
    uint32_t st_shndx;
    uint32_t st_type;
    uint32_t st_value;
} ctf_link_sym_t;

typedef struct ctf_encoding {
    uint32_t cte_format;
    uint32_t cte_offset;
    uint32_t cte_bits;
} ctf_encoding_t;

typedef struct ctf_membinfo {
    ctf_id_t ctm_type;
    unsigned long ctm_offset;
} ctf_membinfo_t;

typedef struct ctf_arinfo {
    ctf_id_t ctr_contents;
    ctf_id_t ctr_index;
    uint32_t ctr_nelems;
} ctf_arinfo_t;

typedef struct ctf_funcinfo {
    ctf_id_t ctc_return;
    uint32_t ctc_argc;
    uint32_t ctc_flags;
} ctf_funcinfo_t;

typedef struct ctf_lblinfo {
    ctf_id_t ctb_type;
} ctf_lblinfo_t;

typedef struct ctf_snapshot_id {
    unsigned long dtd_id;
    unsigned long snapshot_id;
} ctf_snapshot_id_t;

typedef enum ctf_sect_names {
    CTF_SECT_HEADER,
    CTF_SECT_LABEL,
    CTF_SECT_OBJT,
    CTF_SECT_FUNC,
    CTF_SECT_VAR,
    CTF_SECT_TYPE,
    CTF_SECT_STR,
    CTF_SECT_OBJTIDX = CTF_SECT_OBJT,
    CTF_SECT_FUNCIDX = CTF_SECT_FUNC
} ctf_sect_names_t;

#define CTF_FUNC_VARARG 0x1
#define CTF_ERR ((ctf_id_t)-1L)
#define CTF_MODEL_ILP32 1
#define CTF_MODEL_LP64 2
#define CTF_MODEL_NATIVE CTF_MODEL_LP64
#define CTF_ADD_NONROOT 0
#define CTF_ADD_ROOT 1
#define CTF_MN_RECURSE 0x1

#define CTF_K_UNKNOWN 0
#define CTF_K_INTEGER 1
#define CTF_K_FLOAT 2
#define CTF_K_POINTER 3
#define CTF_K_ARRAY 4
#define CTF_K_FUNCTION 5
#define CTF_K_STRUCT 6
#define CTF_K_UNION 7
#define CTF_K_ENUM 8
#define CTF_K_FORWARD 9
#define CTF_K_TYPEDEF 10
#define CTF_K_VOLATILE 11
#define CTF_K_CONST 12
#define CTF_K_RESTRICT 13
#define CTF_K_SLICE 14
#define CTF_K_MAX 63

#define CTF_INT_SIGNED 0x01
#define CTF_INT_CHAR 0x02
#define CTF_INT_BOOL 0x04
#define CTF_INT_VARARGS 0x08
#define CTF_FP_SINGLE 1
#define CTF_FP_DOUBLE 2
#define CTF_FP_LDOUBLE 6

#define ECTF_BASE 1000
enum {
    ECTF_FMT = ECTF_BASE,
    ECTF_BFDERR,
    ECTF_CTFVERS,
    ECTF_BFD_AMBIGUOUS,
    ECTF_SYMTAB,
    ECTF_SYMBAD,
    ECTF_STRBAD,
    ECTF_CORRUPT,
    ECTF_NOCTFDATA,
    ECTF_NOCTFBUF,
    ECTF_NOSYMTAB,
    ECTF_NOPARENT,
    ECTF_DMODEL,
    ECTF_LINKADDEDLATE,
    ECTF_ZALLOC,
    ECTF_DECOMPRESS,
    ECTF_STRTAB,
    ECTF_BADNAME,
    ECTF_BADID,
    ECTF_NOTSOU,
    ECTF_NOTENUM,
    ECTF_NOTSUE,
    ECTF_NOTINTFP,
    ECTF_NOTARRAY,
    ECTF_NOTREF,
    ECTF_NAMELEN,
    ECTF_NOTYPE,
    ECTF_SYNTAX,
    ECTF_NOTFUNC,
    ECTF_NOFUNCDAT,
    ECTF_NOTDATA,
    ECTF_NOTYPEDAT,
    ECTF_NOLABEL,
    ECTF_NOLABELDATA,
    ECTF_NOTSUP,
    ECTF_NOENUMNAM,
    ECTF_NOMEMBNAM,
    ECTF_RDONLY,
    ECTF_DTFULL,
    ECTF_FULL,
    ECTF_DUPLICATE,
    ECTF_CONFLICT,
    ECTF_OVERROLLBACK,
    ECTF_COMPRESS,
    ECTF_ARCREATE,
    ECTF_ARNNAME,
    ECTF_SLICEOVERFLOW,
    ECTF_DUMPSECTUNKNOWN,
    ECTF_DUMPSECTCHANGED,
    ECTF_NOTYET,
    ECTF_INTERNAL,
    ECTF_NONREPRESENTABLE,
    ECTF_NEXT_END,
    ECTF_NEXT_WRONGFUN,
    ECTF_NEXT_WRONGFP,
    ECTF_FLAGS,
    ECTF_NEEDSBFD,
    ECTF_INCOMPLETE,
    ECTF_NONAME
};
#define ECTF_NERR (ECTF_NONAME - ECTF_BASE + 1)

typedef int ctf_visit_f(
    const char *name, ctf_id_t type, unsigned long offset, int depth, void *arg);
typedef int ctf_member_f(const char *name, ctf_id_t type, unsigned long offset, void *arg);
typedef int ctf_enum_f(const char *name, int value, void *arg);
typedef int ctf_variable_f(const char *name, ctf_id_t type, void *arg);
typedef int ctf_label_f(const char *name, const ctf_lblinfo_t *info, void *arg);
typedef char *ctf_dump_decorate_f(ctf_sect_names_t section, char *line, void *arg);
typedef int ctf_type_f(ctf_id_t type, void *arg);
typedef int ctf_type_all_f(ctf_id_t type, int flag, void *arg);
typedef int ctf_archive_member_f(ctf_dict_t *fp, const char *name, void *arg);

/* A call that only GNU has, or that differs from that of illumos. */
#define CTFD_GNU(name) __asm__("ctfd_gnu_" name)

/* ---- open and close
 *
 * An ELF file without a dictionary is looked up by its build-id in the stores that CTFD_STORE in
 * the environment names: EREMOTEIO if that failed, or if the result was refused. */
ctf_archive_t *ctf_open(const char *name, const char *target, int *error) CTFD_GNU("open");
ctf_archive_t *ctf_fdopen(int fd, const char *name, const char *target, int *error)
    CTFD_GNU("fdopen");
void ctf_close(ctf_archive_t *archive) CTFD_GNU("close");
void ctf_arc_close(ctf_archive_t *archive) CTFD_GNU("close");
void ctf_arc_flush_caches(ctf_archive_t *archive) CTFD_GNU("flush");
size_t ctf_archive_count(const ctf_archive_t *archive) CTFD_GNU("archive_count");
ctf_dict_t *ctf_dict_open(const ctf_archive_t *archive, const char *name, int *error)
    CTFD_GNU("dict_open");
ctf_dict_t *ctf_arc_open_by_name(const ctf_archive_t *archive, const char *name, int *error)
    CTFD_GNU("dict_open");
ctf_dict_t *ctf_bufopen(const ctf_sect_t *ctf, const ctf_sect_t *symbols, const ctf_sect_t *strings,
    int *error) CTFD_GNU("bufopen");
ctf_dict_t *ctf_simple_open(const char *ctf, size_t ctf_len, const char *symbols,
    size_t symbols_len, size_t entsize, const char *strings, size_t strings_len, int *error)
    CTFD_GNU("simple_open");
void ctf_ref(ctf_dict_t *fp) CTFD_GNU("ref");
void ctf_dict_close(ctf_dict_t *fp) CTFD_GNU("dict_close");
void ctf_file_close(ctf_dict_t *fp) CTFD_GNU("dict_close");
ctf_dict_t *ctf_parent_dict(ctf_dict_t *fp) __asm__("ctf_parent_file");
ctf_dict_t *ctf_parent_file(ctf_dict_t *fp);
const char *ctf_parent_name(ctf_dict_t *fp);
int ctf_import(ctf_dict_t *fp, ctf_dict_t *parent);
int ctf_setmodel(ctf_dict_t *fp, int model);
int ctf_getmodel(ctf_dict_t *fp);
void ctf_setspecific(ctf_dict_t *fp, void *data);
void *ctf_getspecific(ctf_dict_t *fp);
int ctf_errno(ctf_dict_t *fp) CTFD_GNU("errno");
const char *ctf_errmsg(int error) CTFD_GNU("errmsg");
int ctf_archive_iter(const ctf_archive_t *archive, ctf_archive_member_f *each, void *arg)
    CTFD_GNU("archive_iter");
ctf_dict_t *ctf_archive_next(const ctf_archive_t *archive, ctf_next_t **it, const char **name,
    int skip_parent, int *error) CTFD_GNU("archive_next");

/* ---- types */
int ctf_type_isparent(ctf_dict_t *fp, ctf_id_t type) CTFD_GNU("isparent");
int ctf_type_ischild(ctf_dict_t *fp, ctf_id_t type) CTFD_GNU("ischild");
ctf_id_t ctf_lookup_by_name(ctf_dict_t *fp, const char *name);
ctf_id_t ctf_type_resolve(ctf_dict_t *fp, ctf_id_t type);
char *ctf_type_aname(ctf_dict_t *fp, ctf_id_t type) CTFD_GNU("type_aname");
char *ctf_type_aname_raw(ctf_dict_t *fp, ctf_id_t type) CTFD_GNU("type_aname_raw");
const char *ctf_type_name_raw(ctf_dict_t *fp, ctf_id_t type) CTFD_GNU("type_name_raw");
ssize_t ctf_type_lname(ctf_dict_t *fp, ctf_id_t type, char *text, size_t size)
    CTFD_GNU("type_lname");
char *ctf_type_name(ctf_dict_t *fp, ctf_id_t type, char *text, size_t size) CTFD_GNU("type_name");
ssize_t ctf_type_size(ctf_dict_t *fp, ctf_id_t type);
ssize_t ctf_type_align(ctf_dict_t *fp, ctf_id_t type);
int ctf_type_kind(ctf_dict_t *fp, ctf_id_t type);
int ctf_type_kind_forwarded(ctf_dict_t *fp, ctf_id_t type) CTFD_GNU("kind_forwarded");
ctf_id_t ctf_type_reference(ctf_dict_t *fp, ctf_id_t type);
ctf_id_t ctf_type_pointer(ctf_dict_t *fp, ctf_id_t type);
int ctf_type_encoding(ctf_dict_t *fp, ctf_id_t type, ctf_encoding_t *encoding);
int ctf_type_visit(ctf_dict_t *fp, ctf_id_t type, ctf_visit_f *each, void *arg);
int ctf_type_cmp(ctf_dict_t *lfp, ctf_id_t ltype, ctf_dict_t *rfp, ctf_id_t rtype);
int ctf_type_compat(ctf_dict_t *lfp, ctf_id_t ltype, ctf_dict_t *rfp, ctf_id_t rtype);
int ctf_member_info(ctf_dict_t *fp, ctf_id_t type, const char *name, ctf_membinfo_t *member);
int ctf_array_info(ctf_dict_t *fp, ctf_id_t type, ctf_arinfo_t *array);
const char *ctf_enum_name(ctf_dict_t *fp, ctf_id_t type, int value);
int ctf_enum_value(ctf_dict_t *fp, ctf_id_t type, const char *name, int *value);
int ctf_member_count(ctf_dict_t *fp, ctf_id_t type) CTFD_GNU("member_count");
int ctf_member_iter(ctf_dict_t *fp, ctf_id_t type, ctf_member_f *each, void *arg);
ssize_t ctf_member_next(ctf_dict_t *fp, ctf_id_t type, ctf_next_t **it, const char **name,
    ctf_id_t *member, int flags) CTFD_GNU("member_next");
int ctf_enum_iter(ctf_dict_t *fp, ctf_id_t type, ctf_enum_f *each, void *arg);
const char *ctf_enum_next(ctf_dict_t *fp, ctf_id_t type, ctf_next_t **it, int *value)
    CTFD_GNU("enum_next");
int ctf_type_iter(ctf_dict_t *fp, ctf_type_f *each, void *arg) CTFD_GNU("type_iter");
int ctf_type_iter_all(ctf_dict_t *fp, ctf_type_all_f *each, void *arg) CTFD_GNU("type_iter_all");
ctf_id_t ctf_type_next(ctf_dict_t *fp, ctf_next_t **it, int *flag, int want_hidden)
    CTFD_GNU("type_next");
void ctf_next_destroy(ctf_next_t *it) CTFD_GNU("next_destroy");

/* ---- functions and symbols */
int ctf_func_info(ctf_dict_t *fp, unsigned long symbol, ctf_funcinfo_t *info);
int ctf_func_args(ctf_dict_t *fp, unsigned long symbol, uint32_t argc, ctf_id_t *argv);
int ctf_func_type_info(ctf_dict_t *fp, ctf_id_t type, ctf_funcinfo_t *info) __asm__(
    "ctf_func_info_by_id");
int ctf_func_type_args(ctf_dict_t *fp, ctf_id_t type, uint32_t argc, ctf_id_t *argv) __asm__(
    "ctf_func_args_by_id");
ctf_id_t ctf_lookup_by_symbol(ctf_dict_t *fp, unsigned long symbol) CTFD_GNU("symbol");
ctf_id_t ctf_lookup_by_symbol_name(ctf_dict_t *fp, const char *name) CTFD_GNU("symbol_named");
ctf_id_t ctf_symbol_next(ctf_dict_t *fp, ctf_next_t **it, const char **name, int functions)
    CTFD_GNU("symbol_next");
ctf_id_t ctf_lookup_variable(ctf_dict_t *fp, const char *name) CTFD_GNU("variable");
int ctf_variable_iter(ctf_dict_t *fp, ctf_variable_f *each, void *arg) CTFD_GNU("variable_iter");
ctf_id_t ctf_variable_next(ctf_dict_t *fp, ctf_next_t **it, const char **name)
    CTFD_GNU("variable_next");
ctf_dict_t *ctf_arc_lookup_symbol_name(ctf_archive_t *archive, const char *name, ctf_id_t *type,
    int *error) CTFD_GNU("arc_symbol_named");

/* ---- labels, and dumps */
const char *ctf_label_topmost(ctf_dict_t *fp);
int ctf_label_info(ctf_dict_t *fp, const char *name, ctf_lblinfo_t *info);
int ctf_label_iter(ctf_dict_t *fp, ctf_label_f *each, void *arg) CTFD_GNU("label_iter");
char *ctf_dump(ctf_dict_t *fp, ctf_dump_state_t **state, ctf_sect_names_t section,
    ctf_dump_decorate_f *decorate, void *arg) CTFD_GNU("dump");

/* ---- dictionaries from ctf_create */
ctf_dict_t *ctf_create(int *error) CTFD_GNU("create");
ctf_id_t ctf_add_array(ctf_dict_t *fp, uint32_t flag, const ctf_arinfo_t *array);
ctf_id_t ctf_add_const(ctf_dict_t *fp, uint32_t flag, ctf_id_t type) CTFD_GNU("add_const");
ctf_id_t ctf_add_enum(ctf_dict_t *fp, uint32_t flag, const char *name) CTFD_GNU("add_enum");
ctf_id_t ctf_add_float(
    ctf_dict_t *fp, uint32_t flag, const char *name, const ctf_encoding_t *encoding);
ctf_id_t ctf_add_forward(ctf_dict_t *fp, uint32_t flag, const char *name, uint32_t kind);
ctf_id_t ctf_add_function(ctf_dict_t *fp, uint32_t flag, const ctf_funcinfo_t *info,
    const ctf_id_t *argv) CTFD_GNU("add_function");
ctf_id_t ctf_add_integer(
    ctf_dict_t *fp, uint32_t flag, const char *name, const ctf_encoding_t *encoding);
ctf_id_t ctf_add_pointer(ctf_dict_t *fp, uint32_t flag, ctf_id_t type) CTFD_GNU("add_pointer");
ctf_id_t ctf_add_type(ctf_dict_t *fp, ctf_dict_t *from, ctf_id_t type);
ctf_id_t ctf_add_typedef(ctf_dict_t *fp, uint32_t flag, const char *name, ctf_id_t type);
ctf_id_t ctf_add_restrict(ctf_dict_t *fp, uint32_t flag, ctf_id_t type) CTFD_GNU("add_restrict");
ctf_id_t ctf_add_struct(ctf_dict_t *fp, uint32_t flag, const char *name);
ctf_id_t ctf_add_union(ctf_dict_t *fp, uint32_t flag, const char *name);
ctf_id_t ctf_add_struct_sized(ctf_dict_t *fp, uint32_t flag, const char *name, size_t size)
    CTFD_GNU("add_struct_sized");
ctf_id_t ctf_add_union_sized(ctf_dict_t *fp, uint32_t flag, const char *name, size_t size)
    CTFD_GNU("add_union_sized");
ctf_id_t ctf_add_unknown(ctf_dict_t *fp, uint32_t flag, const char *name) CTFD_GNU("add_unknown");
ctf_id_t ctf_add_volatile(ctf_dict_t *fp, uint32_t flag, ctf_id_t type) CTFD_GNU("add_volatile");
int ctf_add_enumerator(ctf_dict_t *fp, ctf_id_t type, const char *name, int value);
int ctf_add_member(ctf_dict_t *fp, ctf_id_t sou, const char *name, ctf_id_t type)
    CTFD_GNU("add_member");
int ctf_add_member_offset(ctf_dict_t *fp, ctf_id_t sou, const char *name, ctf_id_t type,
    unsigned long offset) __asm__("ctf_add_member");
int ctf_add_variable(ctf_dict_t *fp, const char *name, ctf_id_t type) CTFD_GNU("add_variable");
int ctf_add_objt_sym(ctf_dict_t *fp, const char *name, ctf_id_t type) CTFD_GNU("add_objt_sym");
int ctf_add_func_sym(ctf_dict_t *fp, const char *name, ctf_id_t type) CTFD_GNU("add_func_sym");
int ctf_set_array(ctf_dict_t *fp, ctf_id_t type, const ctf_arinfo_t *array);
int ctf_update(ctf_dict_t *fp);
ctf_snapshot_id_t ctf_snapshot(ctf_dict_t *fp) CTFD_GNU("snapshot");
int ctf_rollback(ctf_dict_t *fp, ctf_snapshot_id_t to) CTFD_GNU("rollback");
int ctf_discard(ctf_dict_t *fp);
int ctf_write(ctf_dict_t *fp, int fd);
unsigned char *ctf_write_mem(ctf_dict_t *fp, size_t *size, size_t threshold) CTFD_GNU("write_mem");
int ctf_link_add_linker_symbol(ctf_dict_t *fp, ctf_link_sym_t *symbol) CTFD_GNU("link_symbol");

#ifdef __cplusplus
}
#endif
#endif
