/* Represents an object file that was compiled for libctf: it declares the functions that it calls,
 * and includes no header of ctfd.
 *
 * usage: unchanged CTF
 */
#include <stdio.h>

struct ctf_file;
struct ctf_file *ctf_open(const char *name, int *error);
const char *ctf_errmsg(int error);
long ctf_lookup_by_name(struct ctf_file *fp, const char *name);
ssize_t ctf_type_size(struct ctf_file *fp, long type);
int ctf_member_iter(struct ctf_file *fp, long type,
    int (*each)(const char *, long, unsigned long, void *), void *arg);
void ctf_close(struct ctf_file *fp);

static int count(const char *name, long type, unsigned long offset, void *arg)
{
    (void)name;
    (void)type;
    (void)offset;
    ++*(int *)arg;
    return 0;
}

int main(int argc, char **argv)
{
    int error = 0, members = 0;
    struct ctf_file *fp = argc == 2 ? ctf_open(argv[1], &error) : NULL;
    long state;
    if (fp == NULL) {
        printf("%s\n", ctf_errmsg(error));
        return 1;
    }
    state = ctf_lookup_by_name(fp, "struct lua_State");
    ctf_member_iter(fp, state, count, &members);
    printf("%zd bytes, %d members\n", ctf_type_size(fp, state), members);
    ctf_close(fp);
    return 0;
}
