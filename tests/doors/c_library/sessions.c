/* Tests lines of sessions, the dictionaries that the operator publishes, and the end of sessions.
 *
 * usage: sessions EXAMPLES COUNT LINES..
 *
 * EXAMPLES is the folder of lua.ctf. Each of LINES is a file whose lines begin with a session's
 * number. At the end COUNT sessions come and go, and resident memory must not grow.
 */
#include "common.h"

#include <unistd.h>

#define ROOM (1 << 23)

static char reply[ROOM];
static unsigned compared;

/* Sends a line as a session, and returns the reply without its newline. */
static const char *as(struct ctfd_service *service, uint32_t session, const char *line)
{
    uint64_t len = 0;
    enum ctfd_status status = ctfd_line_as(
        service, session, line, strlen(line), reply, ROOM - 1, &len);
    CHECK(status == CTFD_OK && len > 0 && len < ROOM && reply[len - 1] == '\n');
    reply[status == CTFD_OK && len > 0 && len < ROOM ? len - 1 : 0] = 0;
    return reply;
}

static bool is(const char *seen, const char *wanted)
{
    if (strcmp(seen, wanted) != 0)
        printf("%s, and wanted was %s\n", seen, wanted);
    return strcmp(seen, wanted) == 0;
}

static enum ctfd_status load(
    struct ctfd_service *service, const char *name, const struct bytes *ctf)
{
    return ctfd_load(service, name, strlen(name), ctf->at, ctf->len);
}

/* A line that is one byte longer than allowed, and one of the greatest length. */
static void check_length(struct ctfd_service *service)
{
    size_t most = 1048576;
    char *line = (char *)malloc(most + 2);
    memset(line, ' ', most + 1);
    memcpy(line, "{}", 2);
    line[most + 1] = 0;
    CHECK(is(as(service, 7, line),
        "{\"fault\":{\"code\":59,\"name\":\"LongLine\",\"place\":0},\"s\":0}"));
    line[most] = 0;
    CHECK(is(as(service, 7, line),
        "{\"fault\":{\"code\":58,\"name\":\"BadRequest\",\"place\":0},\"s\":7}"));
    free(line);
}

/* The rules of docs/SERVING.md for the session number in a line. */
static void check_numbers(void)
{
    struct ctfd_service service = CTFD_NONE;
    CHECK(ctfd_begin(&service) == CTFD_OK);
    CHECK(is(as(&service, 7, "{\"s\":1,\"op\":\"create\"}"), "{\"ok\":{\"d\":1},\"s\":1}"));
    CHECK(is(as(&service, 7, "{\"op\":\"create\"}"), "{\"ok\":{\"d\":2},\"s\":7}"));
    CHECK(is(as(&service, 7, " \t\r\n {\"op\":\"create\"} "), "{\"ok\":{\"d\":3},\"s\":7}"));
    CHECK(is(as(&service, 8, "{\"s\":4294967295,\"op\":\"create\"}"),
        "{\"ok\":{\"d\":1},\"s\":4294967295}"));
    CHECK(is(as(&service, 4294967295u, "{\"s\":7,\"op\":\"create\",\"s\":9}"),
        "{\"ok\":{\"d\":1},\"s\":9}"));
    static const char *const without[] = { "{}", "{\"op\":\"nothing\"}", "{\"op\":1}" };
    for (size_t i = 0; i < sizeof without / sizeof *without; i++)
        CHECK(is(as(&service, 7, without[i]),
            "{\"fault\":{\"code\":58,\"name\":\"BadRequest\",\"place\":0},\"s\":7}"));
    static const char *const others[] = { "{\"s\":0,\"op\":\"create\"}", "{\"s\":null}",
        "{\"s\":4294967296,\"op\":\"create\"}", "{\"s\":-1}", "{\"s\":1.5}", "{\"s\":\"1\"}",
        "{\"s\":[1]}", "1", "null", "\"{\"", "[{\"s\":1,\"op\":\"create\"}]", " true " };
    for (size_t i = 0; i < sizeof others / sizeof *others; i++)
        CHECK(is(as(&service, 7, others[i]),
            "{\"fault\":{\"code\":58,\"name\":\"BadRequest\",\"place\":0},\"s\":0}"));
    static const char *const broken[] = { "", "{", "{\"s\":1,}", "{}{}", "\xff", "{\"a\":01}" };
    for (size_t i = 0; i < sizeof broken / sizeof *broken; i++)
        CHECK(is(as(&service, 7, broken[i]),
            "{\"fault\":{\"code\":57,\"name\":\"NotJson\",\"place\":0},\"s\":0}"));
    check_length(&service);
    ctfd_end(&service);
}

/* If the service is not open, or the session is 0, nothing is written. */
static void check_refusals(const struct bytes *ctf)
{
    struct ctfd_service service = CTFD_NONE;
    char text[8] = "as it is";
    uint64_t len = 77;
    CHECK(ctfd_line_as(&service, 1, "{}", 2, text, sizeof text, &len) == CTFD_NO_SLOT);
    CHECK(load(&service, "lua", ctf) == CTFD_NO_SLOT);
    CHECK(ctfd_leave(&service, 1) == CTFD_NO_SLOT);
    CHECK(ctfd_begin(&service) == CTFD_OK);
    CHECK(ctfd_line_as(&service, 0, "{}", 2, text, sizeof text, &len) == CTFD_BAD_REQUEST);
    CHECK(len == 77 && memcmp(text, "as it is", 8) == 0);
    CHECK(ctfd_line_as(&service, 1, "{}", 2, text, 0, &len) == CTFD_OK && len > 8);
    CHECK(memcmp(text, "as it is", 8) == 0);
    uint64_t again = 0;
    CHECK(ctfd_reply(&service, reply, ROOM, &again) == CTFD_OK && again == len);
    ctfd_end(&service);
}

/* The operator's dictionaries, which `ctfd serve NAME=FILE` publishes. */
static void check_operator(const struct bytes *ctf)
{
    struct ctfd_service service = CTFD_NONE;
    struct bytes nothing = { NULL, 0 };
    static const char take[] = "{\"s\":1,\"op\":\"take\",\"owner\":0,\"name\":\"lua\"}";
    CHECK(ctfd_begin(&service) == CTFD_OK);
    CHECK(strstr(as(&service, 5, take), "\"NotPublished\"") != NULL);
    CHECK(load(&service, "lua", &nothing) == CTFD_TOO_SHORT);
    CHECK(load(&service, "lua", ctf) == CTFD_OK);
    CHECK(ctfd_reply(&service, reply, ROOM, &(uint64_t){ 0 }) == CTFD_OK);
    CHECK(strstr(reply, "\"NotPublished\"") != NULL);
    CHECK(load(&service, "lua", ctf) == CTFD_NAME_TAKEN);
    CHECK(load(&service, "", ctf) == CTFD_BAD_REQUEST);
    CHECK(load(&service, "a b", ctf) == CTFD_BAD_REQUEST);
    CHECK(load(&service, "another", ctf) == CTFD_OK);
    CHECK(is(as(&service, 5, take), "{\"ok\":{\"d\":1,\"types\":526},\"s\":1}"));
    CHECK(ctfd_leave(&service, 5) == CTFD_OK);
    CHECK(is(as(&service, 5, take), "{\"ok\":{\"d\":1,\"types\":526},\"s\":1}"));
    CHECK(ctfd_leave(&service, 0) == CTFD_OK);
    CHECK(strstr(as(&service, 6, take), "\"NotPublished\"") != NULL);
    CHECK(is(as(&service, 5, "{\"s\":1,\"op\":\"name\",\"d\":1,\"t\":1}"),
        "{\"ok\":{\"name\":\"unsigned int\"},\"s\":1}"));
    ctfd_end(&service);
}

/* A session that leaves withdraws what it published, but nothing of other sessions. */
static void check_leaving(const struct bytes *ctf)
{
    struct ctfd_service service = CTFD_NONE;
    static const char take[] = "{\"op\":\"take\",\"owner\":5,\"name\":\"mine\"}";
    CHECK(ctfd_begin(&service) == CTFD_OK);
    CHECK(load(&service, "lua", ctf) == CTFD_OK);
    CHECK(strstr(as(&service, 5, "{\"op\":\"take\",\"owner\":0,\"name\":\"lua\"}"), "\"ok\"") !=
        NULL);
    CHECK(strstr(as(&service, 5, "{\"op\":\"publish\",\"d\":1,\"name\":\"mine\"}"), "\"ok\"") !=
        NULL);
    CHECK(strstr(as(&service, 5, "{\"op\":\"reset\"}"), "\"ok\"") != NULL);
    CHECK(is(as(&service, 6, take), "{\"ok\":{\"d\":1,\"types\":526},\"s\":6}"));
    CHECK(ctfd_leave(&service, 5) == CTFD_OK);
    CHECK(ctfd_leave(&service, 5) == CTFD_OK);
    CHECK(strstr(as(&service, 7, take), "\"NotPublished\"") != NULL);
    CHECK(is(as(&service, 6, "{\"op\":\"name\",\"d\":1,\"t\":1}"),
        "{\"ok\":{\"name\":\"unsigned int\"},\"s\":6}"));
    CHECK(is(as(&service, 5, "{\"op\":\"create\"}"), "{\"ok\":{\"d\":1},\"s\":5}"));
    ctfd_end(&service);
}

/* The session number at the start of a line, and the text behind it; 0 if there is none. */
static uint32_t numbered(const char *line, const char **behind)
{
    char *end = NULL;
    if (strncmp(line, "{\"s\":", 5) != 0)
        return 0;
    unsigned long long number = strtoull(line + 5, &end, 10);
    *behind = end;
    return *end == ',' && number <= 4294967295u ? (uint32_t)number : 0;
}

/* Checks that a reply equals the plain service's, except for the session number. */
static void compare(const char *wanted, const char *seen, uint32_t number)
{
    const char *end = strstr(wanted, "},\"s\":");
    for (const char *next = end; next != NULL; next = strstr(next + 1, "},\"s\":"))
        end = next;
    char number_text[32];
    snprintf(number_text, sizeof number_text, "},\"s\":%u}", number);
    CHECK(end != NULL && strncmp(seen, wanted, (size_t)(end - wanted)) == 0 &&
        is(seen + (end - wanted), number_text));
}

/* Sends each line of a file as its session: unchanged, with another number, and without one. */
static void check_lines(const char *name)
{
    struct ctfd_service plain = CTFD_NONE, given[3] = { CTFD_NONE, CTFD_NONE, CTFD_NONE };
    char *line = (char *)malloc(1 << 21), *made = (char *)malloc(1 << 21);
    char *wanted = (char *)malloc(ROOM);
    FILE *file = fopen(name, "r");
    if (line == NULL || made == NULL || wanted == NULL || file == NULL)
        exit(2);
    CHECK(ctfd_begin(&plain) == CTFD_OK);
    for (size_t i = 0; i < 3; i++)
        CHECK(ctfd_begin(&given[i]) == CTFD_OK);
    while (fgets(line, 1 << 21, file) != NULL) {
        const char *behind = NULL;
        uint64_t len = 0;
        line[strcspn(line, "\n")] = 0;
        uint32_t session = numbered(line, &behind);
        if (session == 0 || strstr(behind, "\"s\":") != NULL)
            continue;
        compared++;
        CHECK(ctfd_line(&plain, line, strlen(line), wanted, ROOM - 1, &len) == CTFD_OK);
        wanted[len - 1] = 0;
        compare(wanted, as(&given[0], session, line), session);
        snprintf(made, 1 << 21, "{\"s\":77%s", behind);
        compare(wanted, as(&given[1], session, made), 77);
        snprintf(made, 1 << 21, "{%s", behind + 1);
        compare(wanted, as(&given[2], session, made), session);
    }
    ctfd_end(&plain);
    for (size_t i = 0; i < 3; i++)
        ctfd_end(&given[i]);
    fclose(file);
    free(line);
    free(made);
    free(wanted);
}

/* The resident memory of this process, in bytes. */
static size_t resident(void)
{
    size_t all = 0, pages = 0;
    FILE *file = fopen("/proc/self/statm", "r");
    if (file == NULL || fscanf(file, "%zu %zu", &all, &pages) != 2)
        exit(2);
    fclose(file);
    return pages * (size_t)sysconf(_SC_PAGESIZE);
}

/* Sessions that take, stage or draft something and then reset or leave. */
static void come_and_go(struct ctfd_service *service, uint32_t from, uint32_t count)
{
    static const char *const does[] = { "{\"op\":\"take\",\"owner\":0,\"name\":\"lua\"}",
        "{\"op\":\"part\",\"section\":\"ctf\",\"bytes\":\"cff1\"}", "{\"op\":\"create\"}",
        "{\"op\":\"part\",\"section\":\"ctf\",\"bytes\":\"\"}", "{\"op\":\"close\",\"d\":1}" };
    uint64_t len = 0;
    for (uint32_t session = from; session < from + count; session++) {
        const char *line = does[session % 5];
        CHECK(ctfd_line_as(service, session, line, strlen(line), reply, ROOM, &len) == CTFD_OK);
        if (session % 5 > 2)
            continue;
        if (session % 2 == 0)
            CHECK(ctfd_leave(service, session) == CTFD_OK);
        else
            CHECK(ctfd_line_as(service, session, "{\"op\":\"reset\"}", 14, reply, ROOM, &len) ==
                CTFD_OK);
    }
}

static void check_memory(const struct bytes *ctf, uint32_t count)
{
    struct ctfd_service service = CTFD_NONE;
    CHECK(ctfd_begin(&service) == CTFD_OK && load(&service, "lua", ctf) == CTFD_OK);
    come_and_go(&service, 1, 20000);
    size_t before = resident();
    come_and_go(&service, 20001, count);
    size_t after = resident();
    printf("%u sessions came and went: %zu bytes before, %zu behind\n", count, before, after);
    CHECK(after <= before + 262144);
    ctfd_end(&service);
}

int main(int argc, char **argv)
{
    if (argc < 3)
        return 2;
    struct bytes ctf = read_in(argv[1], "lua.ctf");
    check_numbers();
    check_refusals(&ctf);
    check_operator(&ctf);
    check_leaving(&ctf);
    for (int i = 3; i < argc; i++)
        check_lines(argv[i]);
    CHECK(compared > 100 || argc == 3);
    check_memory(&ctf, (uint32_t)strtoul(argv[2], NULL, 10));
    free_bytes(&ctf);
    return counted("sessions");
}
