/* Clients of a socket that measure how fast lines are answered, and an echo server to compare with.
 *
 * usage: lines PATH CLIENTS AT_ONCE BURST SECONDS BEGIN LINES
 *        lines --echo PATH
 *
 * CLIENTS clients connect to the Unix socket; each sends BEGIN and reads the replies. Then this
 * prints `ready`, and waits for a newline. From then on, AT_ONCE clients at a time each send a
 * burst, which is LINES repeated BURST times; when a client has all its replies, the next one takes
 * its turn. After SECONDS, prints the number of replies, the seconds, and the microseconds within
 * which half of the bursts, and 99 % of them, were answered. Each newline ends a reply.
 */
#define _GNU_SOURCE
#include <errno.h>
#include <stdint.h>
#include <stdio.h>
#include <stdlib.h>
#include <string.h>
#include <sys/epoll.h>
#include <sys/socket.h>
#include <sys/un.h>
#include <time.h>
#include <unistd.h>

enum {
    EVENTS = 256,
    ROOM = 1 << 18,
    WAITS = 1 << 24
};
static char room[ROOM];

struct client {
    int socket;
    size_t unsent, owed; /* unsent bytes of the burst, and replies still to come */
    double since;
};

static void fail(const char *what)
{
    perror(what);
    exit(1);
}

static double now(void)
{
    struct timespec time;
    clock_gettime(CLOCK_MONOTONIC, &time);
    return time.tv_sec + time.tv_nsec * 1e-9;
}

static struct sockaddr_un address(const char *path)
{
    struct sockaddr_un made = { .sun_family = AF_UNIX };
    strncpy(made.sun_path, path, sizeof made.sun_path - 1);
    return made;
}

static size_t newlines(const char *data, size_t len)
{
    size_t count = 0;
    for (size_t at = 0; at < len; at++)
        count += data[at] == '\n';
    return count;
}

static void send_all(int to, const char *data, size_t len)
{
    while (len > 0) {
        ssize_t sent = send(to, data, len, 0);
        if (sent < 0)
            fail("send");
        data += sent;
        len -= sent;
    }
}

/* Connects a client, which sends BEGIN and reads the replies to it. */
static int connected(const char *path, const char *begin)
{
    struct sockaddr_un to = address(path);
    int made = socket(AF_UNIX, SOCK_STREAM, 0);
    while (connect(made, (struct sockaddr *)&to, sizeof to) < 0)
        if (errno == EAGAIN || errno == ECONNREFUSED || errno == ENOENT)
            usleep(1000);
        else
            fail(path);
    send_all(made, begin, strlen(begin));
    for (size_t owed = newlines(begin, strlen(begin)); owed > 0;) {
        ssize_t len = recv(made, room, ROOM, 0);
        if (len <= 0)
            fail("recv");
        owed -= newlines(room, len);
    }
    return made;
}

static void start(struct client *client, const char *burst, size_t len, size_t lines)
{
    client->since = now();
    client->owed = lines;
    client->unsent = len;
    ssize_t sent = send(client->socket, burst, len, MSG_DONTWAIT);
    if (sent > 0)
        client->unsent -= sent;
    else if (errno != EAGAIN)
        fail("send");
}

static int by_size(const void *left, const void *right)
{
    float a = *(const float *)left, b = *(const float *)right;
    return (a > b) - (a < b);
}

static void ask(const char *path, int count, int at_once, size_t times, double seconds,
    const char *begin, const char *line)
{
    size_t len = strlen(line) * times, lines = newlines(line, strlen(line)) * times;
    char *burst = malloc(len + 1);
    struct client *all = calloc(count, sizeof *all);
    float *waits = malloc(WAITS * sizeof *waits);
    for (size_t at = 0; at < times; at++)
        strcpy(burst + at * strlen(line), line);
    int ready = epoll_create1(0), next = at_once;
    struct epoll_event events[EVENTS];
    for (int at = 0; at < count; at++) {
        struct epoll_event event = { .events = EPOLLIN, .data.ptr = &all[at] };
        all[at].socket = connected(path, begin);
        if (epoll_ctl(ready, EPOLL_CTL_ADD, all[at].socket, &event) < 0)
            fail("epoll");
    }
    puts("ready");
    fflush(stdout);
    getchar();
    double began = now(), until = began + seconds;
    size_t answered = 0, bursts = 0;
    for (int at = 0; at < at_once; at++)
        start(&all[at], burst, len, lines);
    while (now() < until) {
        int found = epoll_wait(ready, events, EVENTS, 100);
        for (int at = 0; at < found; at++) {
            struct client *client = events[at].data.ptr;
            ssize_t got = recv(client->socket, room, ROOM, MSG_DONTWAIT);
            if (got <= 0)
                fail("closed");
            size_t replies = newlines(room, got);
            answered += replies;
            client->owed -= replies;
            if (client->unsent > 0) { /* replies make room for unsent bytes */
                ssize_t sent = send(
                    client->socket, burst + len - client->unsent, client->unsent, MSG_DONTWAIT);
                if (sent > 0)
                    client->unsent -= sent;
            }
            if (client->owed == 0) {
                waits[bursts++ % WAITS] = (now() - client->since) * 1e6;
                next = (next + 1) % count;
                start(&all[count == at_once ? client - all : next], burst, len, lines);
            }
        }
    }
    double took = now() - began;
    if (bursts > WAITS)
        bursts = WAITS;
    qsort(waits, bursts, sizeof *waits, by_size);
    printf("%zu %.6f %.1f %.1f\n", answered, took, bursts ? waits[bursts / 2] : 0,
        bursts ? waits[bursts * 99 / 100] : 0);
}

/* Serves connections, writing back what is read. */
static void echo(const char *path)
{
    struct sockaddr_un at = address(path);
    int listener = socket(AF_UNIX, SOCK_STREAM, 0), ready = epoll_create1(0);
    if (bind(listener, (struct sockaddr *)&at, sizeof at) < 0 || listen(listener, 1024) < 0)
        fail(path);
    struct epoll_event events[EVENTS], event = { .events = EPOLLIN, .data.fd = listener };
    epoll_ctl(ready, EPOLL_CTL_ADD, listener, &event);
    for (;;) {
        int found = epoll_wait(ready, events, EVENTS, -1);
        for (int place = 0; place < found; place++) {
            int from = events[place].data.fd;
            if (from == listener) {
                event.data.fd = accept(listener, NULL, NULL);
                epoll_ctl(ready, EPOLL_CTL_ADD, event.data.fd, &event);
                continue;
            }
            ssize_t len = recv(from, room, ROOM, 0);
            if (len <= 0)
                close(from);
            else
                send_all(from, room, len);
        }
    }
}

int main(int argc, char **argv)
{
    if (argc == 3 && strcmp(argv[1], "--echo") == 0)
        echo(argv[2]);
    if (argc != 8) {
        fprintf(stderr, "usage: lines PATH CLIENTS AT_ONCE BURST SECONDS BEGIN LINES\n");
        return 2;
    }
    ask(argv[1], atoi(argv[2]), atoi(argv[3]), atoi(argv[4]), atof(argv[5]), argv[6], argv[7]);
}
