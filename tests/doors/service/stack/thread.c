/* Answers the lines on standard input with ctfd_line, in its own thread, and prints the replies.
 * usage: thread KIB
 * The thread's stack has KIB kibibytes, and holds little besides the library's frames.
 */
#include <ctfd.h>
#include <limits.h>
#include <pthread.h>
#include <stdio.h>
#include <stdlib.h>
#include <string.h>

enum {
    LINE = 1 << 21,
    REPLY = 1 << 23
};

struct buffers {
    char *line, *reply;
};

static void *answer(void *given)
{
    struct buffers *buffers = given;
    struct ctfd_service service = CTFD_NONE;
    uint64_t len = 0;
    if (ctfd_begin(&service) != CTFD_OK)
        return "ctfd_begin";
    while (fgets(buffers->line, LINE, stdin) != NULL) {
        size_t line_len = strcspn(buffers->line, "\n");
        if (ctfd_line(&service, buffers->line, line_len, buffers->reply, REPLY, &len) != CTFD_OK)
            return "ctfd_line";
        fwrite(buffers->reply, 1, len, stdout);
    }
    ctfd_end(&service);
    return NULL;
}

int main(int argc, char **argv)
{
    struct buffers buffers = { malloc(LINE), malloc(REPLY) };
    pthread_attr_t attributes;
    pthread_t thread;
    void *failed = "no thread";
    size_t bytes = argc == 2 ? strtoul(argv[1], NULL, 10) * 1024 : 0;
    if (buffers.line == NULL || buffers.reply == NULL || bytes < PTHREAD_STACK_MIN)
        return 2;
    if (pthread_attr_init(&attributes) == 0 && pthread_attr_setstacksize(&attributes, bytes) == 0 &&
        pthread_create(&thread, &attributes, answer, &buffers) == 0)
        pthread_join(thread, &failed);
    free(buffers.line);
    free(buffers.reply);
    if (failed != NULL)
        fprintf(stderr, "thread: %s\n", (char *)failed);
    return failed != NULL;
}
