/* elf.c - the part for ELF files, which uses elfutils' libelf and zlib. It finds the dictionary in
 * a file, inflates it, and finds the symbol table that its entries belong to.
 *
 * That is the table in a label of ctfd-convert, if its symbols are still the same; without such a
 * label, the table that the section links to; else .symtab. What strip leaves in .dynsym is never
 * taken for .symtab.
 */
#include "private.h"

#include <fcntl.h>
#include <gelf.h>
#include <libelf.h>
#include <stdlib.h>
#include <string.h>
#include <zlib.h>

#define HEADER 36
#define COMPRESSED 1
#define LONGEST 67108864
#define LABEL "ctfd.symbols="

struct file {
    Elf *elf;
    size_t names; /* the number of the section with the names of sections */
};

/* ---- inflating */

static uint64_t number_at(const unsigned char *bytes)
{
    return bytes[0] | (uint64_t)bytes[1] << 8 | (uint64_t)bytes[2] << 16 | (uint64_t)bytes[3] << 24;
}

static int zlib_error(int said)
{
    return said == Z_MEM_ERROR ? (int)CTFD_MEMORY : CTFD__NOT_INFLATED;
}

/* The header gives the length of the body, which has to be exact. */
int ctfd_elf_inflate(const void *bytes, size_t len, struct ctfd_elf_list *made)
{
    const unsigned char *from = (const unsigned char *)bytes;
    uint64_t wanted;
    unsigned char *to;
    uLongf body;
    uLong given;
    int said;
    if (len < HEADER)
        return CTFD_SHORT_HEADER;
    wanted = number_at(from + 28) + number_at(from + 32);
    if (HEADER + wanted > LONGEST || len > LONGEST)
        return CTFD_DICT_TOO_BIG;
    to = (unsigned char *)malloc(HEADER + (size_t)wanted + 1);
    if (to == NULL)
        return CTFD_MEMORY;
    memcpy(to, from, HEADER);
    to[3] &= (unsigned char)~COMPRESSED;
    body = (uLongf)wanted + 1;
    given = (uLong)(len - HEADER);
    said = uncompress2(to + HEADER, &body, from + HEADER, &given);
    if (said != Z_OK || body != wanted) {
        free(to);
        return said != Z_OK ? zlib_error(said) : CTFD__NOT_INFLATED;
    }
    made->at = to;
    made->len = HEADER + (size_t)wanted;
    return 0;
}

/* ---- sections */

static const char *name_of(const struct file *file, Elf_Scn *section, GElf_Shdr *header)
{
    if (gelf_getshdr(section, header) == NULL)
        return NULL;
    return elf_strptr(file->elf, file->names, header->sh_name);
}

/* The first section with a name that has bytes in the file. */
static Elf_Scn *named(const struct file *file, const char *name)
{
    Elf_Scn *section = NULL;
    while ((section = elf_nextscn(file->elf, section)) != NULL) {
        GElf_Shdr header;
        const char *found = name_of(file, section, &header);
        if (found != NULL && strcmp(found, name) == 0 && header.sh_type != SHT_NOBITS)
            return section;
    }
    return NULL;
}

/* The bytes of a section, up to the limit for a list, with ELF's own compression undone. A section
 * without bytes in the file is refused. */
static Elf_Data *data_of(Elf_Scn *section, int *error)
{
    GElf_Shdr header;
    Elf_Data *data;
    *error = CTFD__BAD_ELF;
    if (gelf_getshdr(section, &header) == NULL)
        return NULL;
    if ((header.sh_flags & SHF_COMPRESSED) != 0) {
        GElf_Chdr compressed;
        if (gelf_getchdr(section, &compressed) == NULL)
            return NULL;
        if (compressed.ch_size > LONGEST) {
            *error = CTFD_DICT_TOO_BIG;
            return NULL;
        }
        if (elf_compress(section, 0, 0) < 0)
            return NULL;
    } else if (header.sh_size > LONGEST) {
        *error = CTFD_DICT_TOO_BIG;
        return NULL;
    }
    data = elf_getdata(section, NULL);
    return data != NULL && data->d_buf == NULL && data->d_size != 0 ? NULL : data;
}

static int copied(const void *bytes, size_t len, struct ctfd_elf_list *made)
{
    made->at = malloc(len + 1);
    if (made->at == NULL)
        return CTFD_MEMORY;
    if (len != 0)
        memcpy(made->at, bytes, len);
    made->len = len;
    return 0;
}

/* Copies the dictionary of a section, inflated if its header says that it is compressed. */
static int take_dictionary(Elf_Scn *section, struct ctfd_elf_list *made)
{
    int error;
    Elf_Data *data = data_of(section, &error);
    const unsigned char *bytes;
    if (data == NULL)
        return error;
    bytes = (const unsigned char *)data->d_buf;
    if (data->d_size >= HEADER && bytes[2] == CTF_VERSION && (bytes[3] & COMPRESSED) != 0)
        return ctfd_elf_inflate(bytes, data->d_size, made);
    return copied(bytes, data->d_size, made);
}

/* ---- symbols */

/* Copies the symbols of a table to the form of ELF64 on this machine. */
static int take_symbols(Elf_Data *data, size_t count, struct ctfd_elf_list *made)
{
    Elf64_Sym *to = (Elf64_Sym *)malloc((count + 1) * sizeof *to);
    size_t i;
    if (to == NULL)
        return CTFD_MEMORY;
    for (i = 0; i < count; i++) {
        GElf_Sym symbol;
        if (gelf_getsym(data, (int)i, &symbol) == NULL) {
            free(to);
            return CTFD_BAD_SYMTAB;
        }
        to[i] = symbol;
    }
    made->at = to;
    made->len = count * sizeof *to;
    return 0;
}

/* Copies a symbol table and the strings that it links to. */
static int take_table(const struct file *file, Elf_Scn *section, struct ctfd_elf_lists *lists)
{
    GElf_Shdr header;
    Elf_Data *table, *strings;
    Elf_Scn *named_strings;
    int error;
    if (gelf_getshdr(section, &header) == NULL ||
        header.sh_entsize != gelf_fsize(file->elf, ELF_T_SYM, 1, EV_CURRENT) ||
        (named_strings = elf_getscn(file->elf, header.sh_link)) == NULL)
        return CTFD_BAD_SYMTAB;
    table = data_of(section, &error);
    if (table == NULL)
        return error;
    strings = data_of(named_strings, &error);
    if (strings == NULL)
        return error;
    error = copied(strings->d_buf, strings->d_size, &lists->strings);
    if (error == 0)
        error = take_symbols(table, table->d_size / (size_t)header.sh_entsize, &lists->symbols);
    return error;
}

static void drop_table(struct ctfd_elf_lists *lists)
{
    free(lists->symbols.at);
    free(lists->strings.at);
    memset(&lists->symbols, 0, sizeof lists->symbols);
    memset(&lists->strings, 0, sizeof lists->strings);
}

/* A label of ctfd-convert, which identifies the symbols that the dictionary's entries belong to. */
struct symbols_label {
    char table[16];
    unsigned long checksum;
};

/* Names may overlap: those that are read may have this many times the bytes of the tables. */
#define MOST_TIMES 64

struct reading {
    const struct ctfd_elf_list *strings;
    uint64_t left;
};

/* The length of a name, without its zero byte; the length of all strings if it does not end, or too
 * much has been read. */
static size_t length_of(struct reading *reading, size_t at)
{
    size_t most = reading->strings->len - at;
    const char *name = (const char *)reading->strings->at + at;
    const char *end;
    if (most > reading->left)
        most = (size_t)reading->left;
    end = (const char *)memchr(name, '\0', most);
    reading->left -= end != NULL ? (size_t)(end - name) : most;
    return end != NULL ? (size_t)(end - name) : reading->strings->len;
}

/* The length of the name of a considered symbol, for which a dictionary can have types; else 0. */
static size_t considered(struct reading *reading, const Elf64_Sym *symbol)
{
    int kind = ELF64_ST_TYPE(symbol->st_info);
    const char *name;
    size_t len;
    if ((kind != STT_OBJECT && kind != STT_FUNC) || symbol->st_shndx == SHN_UNDEF ||
        symbol->st_name == 0 || symbol->st_name >= reading->strings->len)
        return 0;
    name = (const char *)reading->strings->at + symbol->st_name;
    len = length_of(reading, symbol->st_name);
    if (len == reading->strings->len || strcmp(name, "_START_") == 0 ||
        strcmp(name, "_END_") == 0 ||
        (kind == STT_OBJECT && symbol->st_shndx == SHN_ABS && symbol->st_value == 0))
        return 0;
    return len;
}

/* Computes the checksum that ctfd-convert writes, from the kinds and names of considered symbols in
 * order. False if names overlap so much that there is too much to read. */
static bool checksum_of(const struct ctfd_elf_lists *lists, unsigned long *checksum)
{
    const Elf64_Sym *symbols = (const Elf64_Sym *)lists->symbols.at;
    size_t i, count = lists->symbols.len / sizeof *symbols;
    struct reading reading = { &lists->strings, 0 };
    uLong sum = crc32(0, NULL, 0);
    reading.left = MOST_TIMES * ((uint64_t)lists->strings.len + lists->symbols.len);
    for (i = 0; i < count && reading.left != 0; i++) {
        size_t len = considered(&reading, &symbols[i]);
        unsigned char kind = ELF64_ST_TYPE(symbols[i].st_info);
        if (len == 0)
            continue;
        sum = crc32(sum, &kind, 1);
        sum = crc32(
            sum, (const unsigned char *)lists->strings.at + symbols[i].st_name, (uInt)len + 1);
    }
    *checksum = sum;
    return i == count;
}

/* Reads "TABLE,OBJECTS,FUNCTIONS,CHECKSUM"; false if the text is something else. */
static bool read_label(const char *text, struct symbols_label *label)
{
    const char *comma = strchr(text, ',');
    char *end;
    if (comma == NULL || (size_t)(comma - text) >= sizeof label->table)
        return false;
    memcpy(label->table, text, (size_t)(comma - text));
    label->table[comma - text] = '\0';
    comma = strrchr(text, ',');
    label->checksum = strtoul(comma + 1, &end, 16);
    return end != comma + 1 && *end == '\0';
}

/* Looks for the label in a dictionary that is not checked yet; a damaged one has none. */
static bool find_label(const struct ctfd_elf_list *ctf, struct symbols_label *label)
{
    const unsigned char *bytes = (const unsigned char *)ctf->at;
    uint64_t at, end, strings, strings_end;
    if (ctf->len < HEADER)
        return false;
    at = HEADER + number_at(bytes + 12);
    end = HEADER + number_at(bytes + 16);
    strings = HEADER + number_at(bytes + 28);
    strings_end = strings + number_at(bytes + 32);
    if (strings_end > ctf->len || strings == strings_end || bytes[strings_end - 1] != '\0')
        return false;
    for (; at + 8 <= end && end <= ctf->len; at += 8) {
        uint64_t name = strings + number_at(bytes + at);
        const char *text = (const char *)bytes + name;
        if (name + sizeof LABEL <= strings_end && memcmp(text, LABEL, sizeof LABEL - 1) == 0)
            return read_label(text + sizeof LABEL - 1, label);
    }
    return false;
}

/* The table that the section links to, else .symtab, else NULL. */
static Elf_Scn *linked_table(const struct file *file, Elf_Scn *section)
{
    GElf_Shdr header;
    Elf_Scn *table;
    if (gelf_getshdr(section, &header) == NULL)
        return NULL;
    table = header.sh_link == 0 ? NULL : elf_getscn(file->elf, header.sh_link);
    if (table != NULL && gelf_getshdr(table, &header) != NULL &&
        (header.sh_type == SHT_SYMTAB || header.sh_type == SHT_DYNSYM))
        return table;
    return named(file, ".symtab");
}

/* The table in a label. NULL if the dictionary itself has the names of its symbols, which then have
 * no numbers in the file. */
static Elf_Scn *table_in_label(const struct file *file, const struct symbols_label *label)
{
    if (strcmp(label->table, ".symtab") != 0 && strcmp(label->table, ".dynsym") != 0)
        return NULL;
    return named(file, label->table);
}

/* If the file's symbols are not the dictionary's, it gets none. */
static int find_symbols(const struct file *file, Elf_Scn *section, struct ctfd_elf_lists *lists)
{
    struct symbols_label label;
    bool has_label = find_label(&lists->ctf, &label);
    Elf_Scn *table = has_label ? table_in_label(file, &label) : linked_table(file, section);
    unsigned long checksum;
    int error;
    if (table == NULL)
        return 0;
    error = take_table(file, table, lists);
    if (error != 0 || !has_label)
        return error;
    if (!checksum_of(lists, &checksum))
        return CTFD__BAD_ELF;
    if (checksum != label.checksum)
        drop_table(lists);
    return 0;
}

/* GNU's linker keeps types of symbols for those of .dynsym, and makes variables of the others. A
 * byte for each symbol says which are variables; a file that is not linked has none. */
static int compare_names(const void *a, const void *b)
{
    return strcmp(*(const char *const *)a, *(const char *const *)b);
}

static void find_variables(const struct file *file, struct ctfd_elf_lists *lists)
{
    GElf_Ehdr header;
    GElf_Shdr section;
    Elf_Scn *table = named(file, ".dynsym");
    Elf_Data *data = table != NULL ? elf_getdata(table, NULL) : NULL;
    size_t i, len = 0, count = lists->symbols.len / CTFD_SYMBOL;
    const Elf64_Sym *symbols = (const Elf64_Sym *)lists->symbols.at;
    const char **names, *name;
    GElf_Sym symbol;
    if (gelf_getehdr(file->elf, &header) == NULL || header.e_type == ET_REL || data == NULL ||
        gelf_getshdr(table, &section) == NULL || section.sh_entsize == 0 || symbols == NULL)
        return;
    names = (const char **)malloc(
        (size_t)(section.sh_size / section.sh_entsize + 1) * sizeof *names);
    lists->variables.at = malloc(count + 1);
    if (names == NULL || lists->variables.at == NULL) {
        free(names);
        free(lists->variables.at);
        lists->variables.at = NULL;
        return;
    }
    for (i = 0; gelf_getsym(data, (int)i, &symbol) != NULL; i++) {
        name = elf_strptr(file->elf, section.sh_link, symbol.st_name);
        if (name != NULL)
            names[len++] = name;
    }
    qsort(names, len, sizeof *names, compare_names);
    for (i = 0; i < count; i++) {
        bool is_there = symbols[i].st_name < lists->strings.len;
        name = is_there ? (const char *)lists->strings.at + symbols[i].st_name : "";
        ((unsigned char *)lists->variables.at)[i] = bsearch(&name, names, len, sizeof *names,
                                                        compare_names) == NULL;
    }
    lists->variables.len = count;
    free(names);
}

/* ---- the build */

/* Copies the build-id in a section of notes; false if it has none. */
static bool take_id(Elf_Data *notes, struct ctfd_elf_lists *lists)
{
    size_t at = 0, name, text;
    GElf_Nhdr note;
    while ((at = gelf_getnote(notes, at, &note, &name, &text)) != 0) {
        const char *bytes = (const char *)notes->d_buf;
        if (note.n_type != NT_GNU_BUILD_ID || note.n_namesz != sizeof ELF_NOTE_GNU ||
            memcmp(bytes + name, ELF_NOTE_GNU, sizeof ELF_NOTE_GNU) != 0)
            continue;
        if (note.n_descsz < 2 || note.n_descsz > CTFD_LONGEST_ID)
            return false;
        memcpy(lists->id, bytes + text, note.n_descsz);
        lists->id_len = note.n_descsz;
        return true;
    }
    return false;
}

/* Finds the build-id of a file, by which stores may have its types. */
static void find_id(const struct file *file, struct ctfd_elf_lists *lists)
{
    Elf_Scn *section = NULL;
    while ((section = elf_nextscn(file->elf, section)) != NULL) {
        GElf_Shdr header;
        Elf_Data *notes;
        int error;
        if (gelf_getshdr(section, &header) == NULL || header.sh_type != SHT_NOTE)
            continue;
        notes = data_of(section, &error);
        if (notes != NULL && take_id(notes, lists))
            return;
    }
}

/* ---- files */

/* Opens an ELF file; false if it is none. */
static bool open_file(int fd, struct file *file)
{
    if (elf_version(EV_CURRENT) == EV_NONE)
        return false;
    file->elf = elf_begin(fd, ELF_C_READ, NULL);
    if (file->elf == NULL)
        return false;
    if (elf_kind(file->elf) == ELF_K_ELF && elf_getshdrstrndx(file->elf, &file->names) == 0)
        return true;
    elf_end(file->elf);
    return false;
}

static int read_elf(
    const struct file *file, const struct file *program, struct ctfd_elf_lists *lists)
{
    Elf_Scn *section = named(file, ".SUNW_ctf");
    int error;
    if (section == NULL)
        section = named(file, ".ctf");
    if (section == NULL) {
        find_id(file, lists);
        return CTFD__NO_SECTION;
    }
    lists->ilp32 = gelf_getclass(file->elf) == ELFCLASS32;
    error = take_dictionary(section, &lists->ctf);
    if (error == 0)
        error = find_symbols(file, section, lists);
    if (error == 0)
        find_variables(program, lists);
    return error;
}

/* Frees the lists after an error; the build-id stays. */
static void drop_lists(struct ctfd_elf_lists *lists)
{
    free(lists->ctf.at);
    memset(&lists->ctf, 0, sizeof lists->ctf);
    drop_table(lists);
}

int ctfd_elf_read(int fd, int program, struct ctfd_elf_lists *lists)
{
    struct file file, other;
    int error = CTFD__BAD_ELF;
    memset(lists, 0, sizeof *lists);
    if (!open_file(fd, &file))
        return error;
    if (program == fd)
        error = read_elf(&file, &file, lists);
    else if (open_file(program, &other)) {
        error = read_elf(&file, &other, lists);
        elf_end(other.elf);
    }
    elf_end(file.elf);
    if (error != 0)
        drop_lists(lists);
    return error;
}
