/* Prints the rows of a visit of each type of a dictionary: by ctfd_visit with -DROWS, otherwise by
 * ctf_type_visit, which is GNU libctf's with -DGNU.
 *
 * usage: peer CTF < NUMBERS
 *
 * Prints a line for each type whose number it reads, and a line for each row: its depth, its offset
 * in bits, the kind and size of its type, and its name. The size is -1 if it is refused.
 */
#ifdef GNU
#include <ctf-api.h>
typedef ctf_dict_t types_t;
#else
#include "ctfd_libctf.h"
typedef ctf_file_t types_t;
#endif
#include <stdio.h>
#include <stdlib.h>
#include <string.h>

static unsigned char *bytes;
static size_t bytes_len;

static void read_file(const char *name)
{
    FILE *file = fopen(name, "rb");
    if (file == NULL || fseek(file, 0, SEEK_END) != 0)
        exit(2);
    bytes_len = (size_t)ftell(file);
    rewind(file);
    bytes = malloc(bytes_len);
    if (bytes == NULL || fread(bytes, 1, bytes_len, file) != bytes_len)
        exit(2);
    fclose(file);
}

static void print_row(unsigned depth, unsigned long offset, int kind, long size, const char *name)
{
    printf("  %u %lu %d %ld %s\n", depth, offset, kind, size, name);
}

#ifdef ROWS
#define MOST 4096

static struct ctfd types = CTFD_NONE;

static void open_types(void)
{
    uint64_t place;
    if (ctfd_open(&types, bytes, bytes_len, "", 0, "", 0, false, false, false, &place) != CTFD_OK)
        exit(2);
}

static void visit(long t)
{
    static struct ctfd_visit_row rows[MOST];
    uint64_t count = 0, size, i;
    uint32_t kind = 0;
    if (ctfd_visit(&types, (uint16_t)t, rows, MOST, &count) != CTFD_OK || count > MOST) {
        printf("  refused\n");
        return;
    }
    for (i = 0; i < count; i++) {
        ctfd_kind(&types, rows[i].type, &kind);
        print_row(rows[i].depth, (unsigned long)rows[i].offset, (int)kind,
            ctfd_size(&types, rows[i].type, &size) == CTFD_OK ? (long)size : -1,
            rows[i].name_list == CTFD_IN_SECTION ? (char *)bytes + rows[i].name_at : "");
    }
}
#else
static types_t *types;

static void open_types(void)
{
    ctf_sect_t section;
    int error = 0;
    memset(&section, 0, sizeof section);
    section.cts_name = ".ctf";
    section.cts_data = bytes;
    section.cts_size = bytes_len;
    types = ctf_bufopen(&section, NULL, NULL, &error);
    if (types == NULL)
        exit(2);
}

static int each(const char *name, ctf_id_t type, unsigned long offset, int depth, void *unused)
{
    (void)unused;
    print_row((unsigned)depth, offset, ctf_type_kind(types, type), (long)ctf_type_size(types, type),
        name);
    return 0;
}

static void visit(long t)
{
    if (ctf_type_visit(types, t, each, NULL) != 0)
        printf("  refused\n");
}
#endif

int main(int argc, char **argv)
{
    unsigned number = 0;
    long t;
    if (argc != 2)
        return 2;
    read_file(argv[1]);
    open_types();
    while (scanf("%ld", &t) == 1) {
        printf("type %u\n", ++number);
        visit(t);
    }
    return 0;
}
