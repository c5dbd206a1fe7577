/* errors.c - error numbers and messages, and the names of kinds. */
#include "private.h"

#include <errno.h>
#include <string.h>

/* The numbers of an error in illumos' libctf and in GNU's. */
struct numbers {
    short illumos, gnu;
};

/* Indexed by status. Those without a number in illumos get ECTF_FAULT plus the status. */
static const struct numbers statuses[] = {
    { 0, 0 },
    { ENOMEM, ENOMEM },
    { 1009, 1009 },
    { 1009, 1009 },
    { 1002, 1002 },
    { 1014, 1015 },
    { 1009, 1009 },
    { 1007, 1007 },
    { 1007, 1007 },
    { 1007, 1007 },
    { 1007, 1007 },
    { 1007, 1007 },
    { 1007, 1007 },
    { 1007, 1039 },
    { 1019, 1017 },
    { 1007, 1007 },
    { 1007, 1007 },
    { 1007, 1007 },
    { 1007, 1007 },
    { 1007, 1007 },
    { 1004, 1004 },
    { 0, 1011 },
    { 0, 1011 },
    { 0, 1011 },
    { 1011, 1011 },
    { 1020, 1018 },
    { 1026, 1024 },
    { 0, 1057 },
    { 0, 1007 },
    { 1038, 1036 },
    { 1021, 1019 },
    { 1021, 1019 },
    { 0, 1025 },
    { 1028, 1026 },
    { 1029, 1027 },
    { 1010, 1010 },
    { 1032, 1030 },
    { 1030, 1028 },
    { 1033, 1031 },
    { 1034, 1032 },
    { 1020, 1018 },
    { 1041, 1039 },
    { 1042, 1040 },
    { 0, 1037 },
    { 1040, 1038 },
    { 0, 1007 },
    { 0, 1007 },
    { 0, 1017 },
    { 0, 1039 },
    { 0, 1007 },
    { 0, 1050 },
    { 0, 1050 },
    { 0, 1050 },
    { 1039, 1037 },
    { 0, 1050 },
    { 0, 1050 },
    { 0, 1050 },
    { 0, 1050 },
    { 0, 1050 },
    { 0, 1050 },
    { 0, 1050 },
    { 1012, 1012 },
    { 0, 1050 },
    { 0, 1037 },
};

/* An error that is no status. */
struct error {
    struct numbers numbers;
    const char *message;
};

/* From CTFD__NO_PART on. */
static const struct error others[] = {
    { { 1014, 1008 },
        "an ELF file or a compressed section: link libctfd_elf, or put its .so beside libctfd.so" },
    { { 1008, 1008 },
        "the ELF file has no section .SUNW_ctf or .ctf: ctfd-convert --section makes one" },
    { { 1001, 1000 }, "the ELF file is damaged" },
    { { 1017, 1015 }, "the compressed section does not inflate to what its header says" },
    { { 1027, 1025 }, "the name does not fit into the buffer: ctf_type_lname returns its length" },
    { { 1022, 1020 }, "the type is no enum" },
    { { 1025, 1023 }, "the type is no array" },
    { { 1024, 1022 }, "the type is no integer or float" },
    { { 1030, 1028 }, "the type is no function" },
    { { 1037, 1035 }, "no enumerator of this name or value" },
    { { 1031, 1029 }, "the type of the function is not known" },
    { { 1035, 1033 }, "the dictionary has no labels" },
    { { 1043, 1041 }, "another type of this name is there already" },
    { { 1036, 1042 }, "a roll-back past what was written" },
    { { 1036, 1052 }, "the iterator is at its end" },
    { { 1036, 1053 }, "the iterator is of another call" },
    { { 1036, 1054 }, "the iterator is over another file" },
    { { 1008, 1045 }, "no dictionary of this name in the file: its only one is .ctf" },
    { { 1033, 1031 }, "no symbol of this name has a type" },
    { { 1036, 1047 }, "no section of this number to dump" },
    { { 1036, 1048 }, "the dump began with another section" },
    { { EREMOTEIO, EREMOTEIO },
        "the stores of CTFD_STORE gave no types: `ctfd-store fetch FILE -` says why" },
};

/* The last error of a call that failed to open a file. */
static _Thread_local int refusal;

void ctfd__note_refusal(int error)
{
    refusal = error;
}

int ctfd__refusal(void)
{
    return refusal;
}

/* NULL for errors of the system. */
static const struct numbers *numbers_of(int error)
{
    if (error >= 0 && (size_t)error < sizeof statuses / sizeof statuses[0])
        return &statuses[error];
    if (error >= CTFD__NO_PART && error < CTFD__ERRORS)
        return &others[error - CTFD__NO_PART].numbers;
    return NULL;
}

int ctfd__number(int error)
{
    const struct numbers *it = numbers_of(error);
    if (it == NULL)
        return error - CTFD__SYSTEM;
    return it->illumos != 0 || error == 0 ? it->illumos : ECTF_FAULT + error;
}

int ctfd__gnu_number(int error)
{
    const struct numbers *it = numbers_of(error);
    return it != NULL ? it->gnu : error - CTFD__SYSTEM;
}

/* The message of a status. */
static const char *status_message(int status)
{
    static const char *const messages[] = {
        "no error",
        "Memory: memory was refused",
        "TooShort: fewer than 4 bytes",
        "BadMagic: the first two bytes are no CTF",
        "BadVersion: not version 2",
        "Compressed: the body is compressed",
        "ShortHeader: fewer than 36 bytes",
        "BadOrder: the sections are not in order",
        "BadAlign: a section is not aligned",
        "PastEnd: a section ends past the bytes",
        "BadStrings: the strings do not begin with a zero byte",
        "Truncated: a record is cut off",
        "BadKind: a record has an unknown kind",
        "TooMany: more than 32,766 types",
        "BadName: a reference to a name names nothing",
        "BadReference: a record names a type that is not there",
        "ValueDeep: values hold each other more than 512 deep",
        "DeclDeep: a declaration of more than 512 steps",
        "BadFuncs: the entry of a function is bad",
        "BadSymbolType: a symbol names a type that is not there",
        "BadSymtab: the symbol table's size is not a multiple of 24 bytes",
        "NotChild: the dictionary names no parent",
        "ParentIsChild: the parent names a parent itself",
        "ParentShort: the parent has fewer types than are named",
        "NoParent: a type of a parent, and none is imported",
        "NoType: no type has this number",
        "NotReference: no pointer, typedef or qualifier",
        "Incomplete: the type has no size, alignment or value",
        "TooBig: a size or an offset is past 64 bits",
        "NoMember: no member of this name or number",
        "NotAggregate: no struct or union",
        "WrongKind: not asked of types of this kind",
        "TooLong: a text of more than 65,536 bytes",
        "NotFound: no type has this name, or no pointer leads there",
        "BadSyntax: the text is not the name of a type",
        "NoSymbol: no symbol of this name or number",
        "NotData: the symbol is not an object",
        "NotFunction: the symbol is not a function",
        "NoInfo: the symbol has no type information",
        "NoLabel: no label of this name or number",
        "BadRef: the new type refers to a type that does not exist",
        "Full: the draft has 32,766 types",
        "Duplicate: the name is there already",
        "Settled: the type was updated, or is the parent's",
        "VlenFull: 1,023 members, enumerators or arguments",
        "DeepMember: the member's type is more than 512 deep",
        "BadOffset: the member's place exceeds 64 bits, or the stated size",
        "NameHasZero: a name has a zero byte",
        "DictTooBig: more than 67,108,864 bytes",
        "ShortMemory: a value lies past the memory",
        "NoSlot: nothing is open behind the handle",
        "SlotsFull: all slots are in use",
        "StageFull: a list of more than 67,108,864 bytes",
        "ReadOnly: the dictionary is not a draft",
        "NameTaken: the name is published already",
        "NotPublished: nothing is published by this name",
        "NotUpdated: something is pending",
        "LongReply: a reply of more than 4,194,304 bytes",
        "NotJson: the line is not JSON",
        "BadRequest: the line is not a request",
        "LongLine: a line of more than 1,048,576 bytes",
        "ModelDiffers: child and parent have other data models",
        "QuotaFull: more than a session may hold",
        "FixedParent: the parent of a draft is fixed",
    };
    return messages[status];
}

const char *ctfd__message(int error)
{
    if (error >= 0 && (size_t)error < sizeof statuses / sizeof statuses[0])
        return status_message(error);
    if (error >= CTFD__NO_PART && error < CTFD__ERRORS)
        return others[error - CTFD__NO_PART].message;
    return strerror(error - CTFD__SYSTEM);
}

int ctf_errno(ctf_file_t *fp)
{
    return ctfd__number(fp->error);
}

enum ctfd_status ctf_fault(ctf_file_t *fp)
{
    int error = fp != NULL ? fp->error : refusal;
    switch (error) {
    case CTFD__NOT_ENUM:
    case CTFD__NOT_ARRAY:
    case CTFD__NOT_NUMBER:
    case CTFD__NOT_SIGNATURE: return CTFD_WRONG_KIND;
    case CTFD__NO_ENUMERATOR: return CTFD_NO_MEMBER;
    case CTFD__NO_FUNCTION_INFO: return CTFD_NO_INFO;
    case CTFD__NO_LABELS: return CTFD_NO_LABEL;
    default: return error < CTFD__NO_PART ? (enum ctfd_status)error : CTFD_OK;
    }
}

/* Messages for numbers that several faults share. */
static const char *of_several(int number)
{
    switch (number) {
    case ECTF_CORRUPT: return "a rule of the format is broken: ctf_fault says which";
    case ECTF_NOCTFBUF: return status_message(CTFD_BAD_MAGIC);
    case ECTF_NOPARENT: return status_message(CTFD_NO_PARENT);
    case ECTF_ZMISSING: return others[0].message;
    case EREMOTEIO: return others[CTFD__NOT_FETCHED - CTFD__NO_PART].message;
    case ECTF_NOTSUP: return "not possible: ctf_fault says why";
    default: return NULL;
    }
}

const char *ctf_errmsg(int number)
{
    const char *several = of_several(number);
    size_t i;
    if (several != NULL)
        return several;
    if (number != 0 && number < ECTF_BASE)
        return strerror(number);
    if (number > ECTF_FAULT && number <= ECTF_FAULT + CTFD_FIXED_PARENT)
        return status_message(number - ECTF_FAULT);
    for (i = 0; i < sizeof statuses / sizeof statuses[0]; i++) {
        if (statuses[i].illumos == number)
            return status_message((int)i);
    }
    for (i = 0; i < sizeof others / sizeof others[0]; i++) {
        if (others[i].numbers.illumos == number)
            return others[i].message;
    }
    return "unknown error";
}

int ctf_version(int version)
{
    if (version == 0 || version == CTF_VERSION)
        return CTF_VERSION;
    errno = version < 0 ? EINVAL : ENOTSUP;
    return -1;
}

const char *ctf_kind_name(ctf_file_t *fp, int kind)
{
    static const char *const names[] = { "unknown", "integer", "float", "pointer", "array",
        "function", "struct", "union", "enum", "forward", "typedef", "volatile", "const",
        "restrict" };
    if (kind >= 0 && (size_t)kind < sizeof names / sizeof names[0])
        return names[kind];
    (void)ctfd__system(fp, EINVAL);
    return NULL;
}
