/* Answers the lines on standard input with ctfd_line, and prints the replies, as `ctfd serve` does.
 * Asks for each reply first without a buffer, and then again with ctfd_reply.
 */
#include "common.h"

int main(void)
{
    struct ctfd_service service = CTFD_NONE;
    char *line = (char *)malloc(1 << 21), *reply = (char *)malloc(1 << 23);
    uint64_t len = 0, again = 0;
    if (line == NULL || reply == NULL)
        return 2;
    if (ctfd_line(&service, "{}", 2, reply, 1 << 23, &len) != CTFD_NO_SLOT ||
        ctfd_reply(&service, reply, 1 << 23, &len) != CTFD_NO_SLOT)
        return 3;
    if (ctfd_begin(&service) != CTFD_OK)
        return 3;
    while (fgets(line, 1 << 21, stdin) != NULL) {
        size_t line_len = strcspn(line, "\n");
        if (ctfd_line(&service, line, line_len, reply, 0, &len) != CTFD_OK)
            return 3;
        if (ctfd_reply(&service, reply, 1 << 23, &again) != CTFD_OK || again != len)
            return 3;
        printf("%.*s", (int)len, reply);
    }
    ctfd_end(&service);
    ctfd_end(&service);
    free(line);
    free(reply);
    return 0;
}
