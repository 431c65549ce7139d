/* Asks a server on loopback over some connections at once, each of which asks again when it has its answer.

   usage: load PORT CONNECTIONS REQUESTS SECONDS PATH

   In PATH a # stands for the number of the request. It ends when all are answered or the seconds are over, and writes how many were
   answered, how many bytes their bodies had, and the seconds that went by. An answer has to tell its length. */
#define _GNU_SOURCE
#include <arpa/inet.h>
#include <errno.h>
#include <stdio.h>
#include <stdlib.h>
#include <string.h>
#include <strings.h>
#include <sys/epoll.h>
#include <sys/socket.h>
#include <time.h>
#include <unistd.h>

enum { MOST_HEAD = 16384, SLICE = 262144 };

struct connection {
    int fd;
    long left; /* bytes of the body that are to come, or -1 before its head is whole */
    size_t held;
    char head[MOST_HEAD + 1];
};

static const char *path;
static long asked, wanted, answered;
static long long body_bytes;
static char slice[SLICE];

static void stop(const char *what) {
    fprintf(stderr, "load: %s\n", what);
    exit(1);
}

static double now(void) {
    struct timespec it;
    clock_gettime(CLOCK_MONOTONIC, &it);
    return it.tv_sec + it.tv_nsec / 1e9;
}

/* Sends the next request, if there is one. */
static void ask(struct connection *c) {
    char text[1024];
    const char *mark = strchr(path, '#');
    int before = mark ? (int)(mark - path) : (int)strlen(path);
    char number[24] = "";
    if (asked == wanted)
        return;
    asked++;
    if (mark)
        snprintf(number, sizeof number, "%ld", asked);
    int n = snprintf(text, sizeof text, "GET %.*s%s%s HTTP/1.1\r\nHost: a.test\r\nUser-Agent: load\r\nAccept: */*\r\n\r\n", before, path,
                     number, mark ? mark + 1 : "");
    c->left = -1;
    c->held = 0;
    if (n >= (int)sizeof text || send(c->fd, text, n, MSG_NOSIGNAL) != n)
        stop("a request wasn't sent");
}

/* The length that a whole head tells; status 200 alone is right. */
static long length_of(const char *head) {
    const char *at = strcasestr(head, "\ncontent-length:");
    if (strncmp(head, "HTTP/1.1 200", 12) != 0 || !at)
        stop("an answer isn't 200, or tells no length");
    return strtol(at + 16, NULL, 10);
}

/* Takes bytes of an answer. */
static void take(struct connection *c, const char *bytes, size_t n) {
    if (c->left < 0) {
        size_t room = MOST_HEAD - c->held, part = n < room ? n : room, held = c->held;
        memcpy(c->head + held, bytes, part);
        c->held += part;
        c->head[c->held] = 0;
        char *end = strstr(c->head, "\r\n\r\n");
        if (!end) {
            if (c->held == MOST_HEAD)
                stop("a head is too long");
            return;
        }
        size_t used = (size_t)(end + 4 - c->head) - held;
        *end = 0;
        c->left = length_of(c->head);
        body_bytes += c->left;
        bytes += used;
        n -= used;
    }
    if ((long)n > c->left)
        stop("an answer is too long");
    c->left -= (long)n;
    if (c->left == 0) {
        answered++;
        ask(c);
    }
}

static void connect_all(struct connection *all, int count, int port, int poll) {
    struct sockaddr_in to = {.sin_family = AF_INET, .sin_port = htons((unsigned short)port)};
    to.sin_addr.s_addr = htonl(INADDR_LOOPBACK);
    for (int i = 0; i < count; i++) {
        struct epoll_event event = {.events = EPOLLIN, .data.ptr = &all[i]};
        all[i].fd = socket(AF_INET, SOCK_STREAM, 0);
        if (connect(all[i].fd, (struct sockaddr *)&to, sizeof to) != 0)
            stop("no connection");
        epoll_ctl(poll, EPOLL_CTL_ADD, all[i].fd, &event);
    }
}

int main(int argc, char **argv) {
    if (argc != 6)
        stop("usage: load PORT CONNECTIONS REQUESTS SECONDS PATH");
    int count = atoi(argv[2]), poll = epoll_create1(0);
    struct connection *all = calloc((size_t)count, sizeof *all);
    struct epoll_event ready[256];
    wanted = atol(argv[3]);
    path = argv[5];
    connect_all(all, count, atoi(argv[1]), poll);
    double began = now(), end = began + atof(argv[4]);
    for (int i = 0; i < count; i++)
        ask(&all[i]);
    while (answered < wanted && now() < end) {
        int n = epoll_wait(poll, ready, 256, 100);
        for (int i = 0; i < n; i++) {
            struct connection *c = ready[i].data.ptr;
            ssize_t got = recv(c->fd, slice, SLICE, 0);
            if (got <= 0)
                stop("a connection was closed");
            take(c, slice, (size_t)got);
        }
    }
    printf("%ld %lld %.6f\n", answered, body_bytes, now() - began);
    return 0;
}
