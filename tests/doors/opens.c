/* opens.c - opens a file by ctf_open, lists its types if asked to, and counts its objects. */
#include <ctfd_libctf.h>

#include <stdio.h>

static ctf_file_t *types;
static unsigned long symbols;

static int print_type(ctf_id_t type, boolean_t root, void *is_named)
{
    char name[400] = "", declared[400] = "";
    (void)root;
    if (ctf_type_name(types, type, name, sizeof name) == NULL ||
        ctf_type_cname(types, type, declared, sizeof declared, "v") == NULL)
        snprintf(name, sizeof name, "%s", ctf_errmsg(ctf_errno(types)));
    if (is_named != NULL)
        printf("%ld\t%s\t%s\n", (long)type, name, declared);
    return 0;
}

static int count_object(const char *name, ctf_id_t type, ulong_t symbol, void *arg)
{
    (void)name, (void)type, (void)symbol, (void)arg;
    symbols++;
    return 0;
}

int main(int count, char **words)
{
    int error = 0;
    char text[4];
    types = count > 1 ? ctf_open(words[1], &error) : NULL;
    if (types == NULL) {
        printf("refused: %s\n", ctf_errmsg(error));
        return 1;
    }
    (void)ctf_type_iter(types, B_TRUE, print_type, count > 2 ? words[2] : NULL);
    (void)ctf_object_iter(types, count_object, NULL);
    printf("%lu objects\n", symbols);
    if (ctf_type_name(types, 1, text, 2) == NULL)
        printf("two bytes: %s\n", ctf_errmsg(ctf_errno(types)));
    ctf_close(types);
    return 0;
}
