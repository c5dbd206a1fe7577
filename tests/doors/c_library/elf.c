/* Opens an ELF file, and prints its data model, the size of a type, and its objects and functions.
 *
 * usage: elf FILE NAME
 */
#include "ctfd_libctf.h"

#include <stdio.h>

static ctf_file_t *types;

static const char *spelled(ctf_id_t type, const char *name)
{
    static char text[256];
    const char *made = type == 0 ? "void" : ctf_type_cname(types, type, text, sizeof text, name);
    return made != NULL ? made : "?";
}

static int on_object(const char *name, ctf_id_t type, ulong_t symbol, void *unused)
{
    (void)symbol;
    (void)unused;
    printf("object %s\n", spelled(type, name));
    return 0;
}

static int on_function(const char *name, ulong_t symbol, ctf_funcinfo_t *info, void *unused)
{
    (void)symbol;
    (void)unused;
    printf("function %s, %u arguments: ", name, info->ctc_argc);
    printf("%s\n", spelled(info->ctc_return, ""));
    return 0;
}

int main(int argc, char **argv)
{
    int error = 0;
    if (argc != 3)
        return 2;
    types = ctf_open(argv[1], &error);
    if (types == NULL) {
        printf("%s\n", ctf_errmsg(error));
        return 1;
    }
    printf("model %d, %zd bytes\n", ctf_getmodel(types),
        ctf_type_size(types, ctf_lookup_by_name(types, argv[2])));
    ctf_object_iter(types, on_object, NULL);
    ctf_function_iter(types, on_function, NULL);
    ctf_close(types);
    return 0;
}
