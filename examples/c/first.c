#include <ctfd_libctf.h>
#include <stdio.h>

int main(void)
{
    int error;
    ctf_file_t *types = ctf_open("examples/lua.ctf", &error);
    ctf_id_t state = types != NULL ? ctf_lookup_by_name(types, "struct lua_State") : CTF_ERR;
    printf("struct lua_State: %zd bytes\n", state != CTF_ERR ? ctf_type_size(types, state) : -1);
    ctf_close(types);
    return state == CTF_ERR;
}
