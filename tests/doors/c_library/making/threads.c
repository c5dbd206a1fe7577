/* threads - eight threads, each with its own dictionaries in the making. */
#include "ctfd_libctf.h"

#include <limits.h>
#include <pthread.h>
#include <stdio.h>
#include <string.h>

enum {
    THREADS = 8,
    LIVES = 40,
    TYPES = 200
};

static bool live(long thread)
{
    static const ctf_encoding_t encoding = { CTF_INT_SIGNED, 0, 32 };
    ctf_file_t *parent = ctf_create(NULL), *child = ctf_create(NULL);
    const void *data = NULL;
    char name[20];
    ctf_id_t number, holder = 0;
    int i;
    (void)ctf_import(child, parent);
    number = ctf_add_integer(parent, CTF_ADD_ROOT, "int", &encoding);
    (void)ctf_update(parent);
    for (i = 0; i < TYPES; i++) {
        sprintf(name, "n%ld_%d", thread, i);
        if (i % 10 == 0) {
            holder = ctf_add_struct(i % 20 != 0 ? parent : child, CTF_ADD_ROOT, name);
            (void)ctf_update(parent);
            (void)ctf_update(child);
        }
        (void)ctf_add_member(
            holder > CTF_MAX_PTYPE ? child : parent, holder, name, number, ULONG_MAX);
        (void)ctf_add_pointer(child, CTF_ADD_ROOT, "", holder);
        (void)ctf_lookup_by_name(child, name);
    }
    (void)ctf_update(child);
    ctf_dataptr(child, &data, NULL);
    ctf_close(child);
    ctf_close(parent);
    return data != NULL;
}

static void *live_all(void *arg)
{
    int i;
    for (i = 0; i < LIVES; i++) {
        if (!live((long)arg))
            return arg;
    }
    return NULL;
}

int main(void)
{
    pthread_t threads[THREADS];
    long i, failed = 0;
    void *left = NULL;
    for (i = 0; i < THREADS; i++)
        (void)pthread_create(&threads[i], NULL, live_all, (void *)(i + 1));
    for (i = 0; i < THREADS; i++) {
        (void)pthread_join(threads[i], &left);
        failed += left != NULL;
    }
    printf("threads: %d, %ld failed\n", THREADS, failed);
    return failed != 0;
}
