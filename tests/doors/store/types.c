/* types.c - opens a file by ctf_open of illumos' header, or with -DGNU of GNU's, and prints the
 * size of a type and the types of symbols; on failure, the number of the error and its text. */
#ifdef GNU
#include <ctf-api.h>
typedef ctf_dict_t types_t;
#else
#include <ctfd_libctf.h>
typedef ctf_file_t types_t;
#endif

#include <signal.h>
#include <stdio.h>
#include <string.h>

#ifdef GNU
static int told(types_t *types, int functions)
{
    ctf_next_t *it = NULL;
    const char *name;
    ctf_id_t type;
    char text[100];
    int count = 0;
    while ((type = ctf_symbol_next(types, &it, &name, functions)) != CTF_ERR) {
        printf("%s%s%s\n", name, functions ? "" : ": ",
            functions ? "" : ctf_type_name(types, type, text, sizeof text));
        count++;
    }
    return count;
}

static int variable(const char *name, ctf_id_t type, void *types)
{
    char text[100];
    printf("%s: %s\n", name, ctf_type_name((types_t *)types, type, text, sizeof text));
    return 0;
}

static void print_symbols(types_t *types)
{
    printf("%d objects\n", told(types, 0));
    printf("%d functions\n", told(types, 1));
    (void)ctf_variable_iter(types, variable, types);
}
#else
static int object(const char *name, ctf_id_t type, ulong_t symbol, void *types)
{
    char text[100];
    (void)symbol;
    printf("%s: %s\n", name, ctf_type_name((types_t *)types, type, text, sizeof text));
    return 0;
}

static int function(const char *name, ulong_t symbol, ctf_funcinfo_t *info, void *types)
{
    char text[100];
    (void)symbol;
    printf("%s: %s of %u\n", name,
        ctf_type_name((types_t *)types, info->ctc_return, text, sizeof text), info->ctc_argc);
    return 0;
}

static void print_symbols(types_t *types)
{
    (void)ctf_object_iter(types, object, types);
    (void)ctf_function_iter(types, function, types);
}
#endif

static void print(types_t *types)
{
    ctf_id_t type = ctf_lookup_by_name(types, "struct packet");
    printf("struct packet: %ld bytes\n", (long)ctf_type_size(types, type));
    print_symbols(types);
}

/* With a second argument, it ignores SIGCHLD, so that no child process can be waited for. */
int main(int count, char **words)
{
    int error = 0;
    if (count > 2)
        (void)signal(SIGCHLD, SIG_IGN);
#ifdef GNU
    ctf_archive_t *file = ctf_open(words[1], NULL, &error);
    types_t *types = file != NULL ? ctf_dict_open(file, NULL, &error) : NULL;
#else
    types_t *types = ctf_open(words[1], &error);
#endif
    if (types == NULL) {
        printf("%d: %s\n", error, ctf_errmsg(error));
        return 1;
    }
    print(types);
#ifdef GNU
    ctf_dict_close(types);
    ctf_arc_close(file);
#else
    ctf_close(types);
#endif
    return 0;
}
