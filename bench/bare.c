/* A bare server: whatever is asked, it answers with a head and a body from memory, so many bytes a send, and does nothing else. Its
   connections take turns, of one send each. It is the least that a server takes which copies a body into the system.

   usage: bare PORT BYTES [LENGTH]

   The body has LENGTH bytes, or a million. A short one goes with its head. A long one stands in segments of 16,384, of which one send takes
   as many as are wanted. It serves until it is killed. */
#define _GNU_SOURCE
#include <arpa/inet.h>
#include <errno.h>
#include <netinet/in.h>
#include <netinet/tcp.h>
#include <stdio.h>
#include <stdlib.h>
#include <string.h>
#include <sys/epoll.h>
#include <sys/socket.h>
#include <sys/uio.h>
#include <unistd.h>

enum { LONGEST = 1000000, SEGMENT = 16384, SEGMENTS = (LONGEST + SEGMENT - 1) / SEGMENT, HEAD = 100, MOST = 1024 };

struct connection {
    int asked; /* an answer is under way */
    int full;  /* the system takes nothing of it now */
    size_t sent;
};

static struct connection connections[MOST];
static char *segments[SEGMENTS];
static char head[HEAD + SEGMENT]; /* with the body behind it, where that is short */
static size_t body = LONGEST, head_length;
static int highest;

static void stop(const char *what) {
    perror(what);
    exit(1);
}

static int listener(int port) {
    int on = 1, fd = socket(AF_INET, SOCK_STREAM | SOCK_NONBLOCK, 0);
    struct sockaddr_in address = {.sin_family = AF_INET, .sin_port = htons(port), .sin_addr.s_addr = htonl(INADDR_LOOPBACK)};
    setsockopt(fd, SOL_SOCKET, SO_REUSEADDR, &on, sizeof on);
    if (fd < 0 || bind(fd, (struct sockaddr *)&address, sizeof address) < 0 || listen(fd, 512) < 0)
        stop("listen");
    return fd;
}

static void watch(int poll, int fd, unsigned events) {
    struct epoll_event event = {.events = events, .data.fd = fd};
    if (epoll_ctl(poll, EPOLL_CTL_ADD, fd, &event) < 0)
        stop("epoll_ctl");
}

static void accept_all(int poll, int from) {
    int fd, on = 1;
    while ((fd = accept4(from, NULL, NULL, SOCK_NONBLOCK)) >= 0 && fd < MOST) {
        setsockopt(fd, IPPROTO_TCP, TCP_NODELAY, &on, sizeof on);
        connections[fd] = (struct connection){0};
        highest = fd > highest ? fd : highest;
        watch(poll, fd, EPOLLIN | EPOLLOUT | EPOLLET);
    }
}

static void drop(int fd) {
    close(fd);
    connections[fd].asked = 0;
}

static void hear(int fd) {
    char request[SEGMENT];
    ssize_t n = read(fd, request, sizeof request);
    if (n == 0 || (n < 0 && errno != EAGAIN))
        drop(fd);
    else if (n > 0) {
        int is_short = body <= SEGMENT;
        connections[fd].asked = !is_short;
        connections[fd].sent = 0;
        if (send(fd, head, head_length + (is_short ? body : 0), is_short ? 0 : MSG_MORE) < 0)
            drop(fd);
    }
}

static void serve(int fd, size_t bytes) {
    struct connection *connection = &connections[fd];
    struct iovec parts[SEGMENTS + 1];
    size_t at = connection->sent, left = bytes;
    int count = 0;
    for (; left > 0 && at < body && count < SEGMENTS; count++) {
        size_t in = at % SEGMENT, most = body - at < left ? body - at : left;
        parts[count].iov_base = segments[at / SEGMENT] + in;
        parts[count].iov_len = SEGMENT - in < most ? SEGMENT - in : most;
        at += parts[count].iov_len;
        left -= parts[count].iov_len;
    }
    ssize_t n = writev(fd, parts, count);
    if (n < 0 && errno == EAGAIN)
        connection->full = 1;
    else if (n < 0)
        drop(fd);
    else if ((connection->sent += n) == body)
        connection->asked = 0;
}

int main(int words, char **word) {
    if (words != 3 && words != 4)
        return 2;
    size_t bytes = strtoul(word[2], NULL, 10);
    if (words == 4 && ((body = strtoul(word[3], NULL, 10)) == 0 || body > LONGEST))
        return 2;
    head_length = snprintf(head, HEAD, "HTTP/1.1 200 OK\r\ncontent-length: %zu\r\n\r\n", body);
    memset(head + head_length, 'a', SEGMENT);
    for (int i = 0; i < SEGMENTS; i++) {
        segments[i] = malloc(SEGMENT);
        memset(segments[i], 'a' + i % 26, SEGMENT);
    }
    int from = listener(atoi(word[1])), poll = epoll_create1(0), due = 0;
    struct epoll_event events[256];
    watch(poll, from, EPOLLIN);
    for (;;) {
        int n = epoll_wait(poll, events, 256, due ? 0 : -1);
        for (int i = 0; i < n; i++) {
            int fd = events[i].data.fd;
            if (fd == from) {
                accept_all(poll, from);
                continue;
            }
            if (events[i].events & EPOLLOUT)
                connections[fd].full = 0;
            if (events[i].events & EPOLLIN)
                hear(fd);
        }
        due = 0;
        for (int fd = 0; fd <= highest; fd++) {
            if (connections[fd].asked && !connections[fd].full)
                serve(fd, bytes);
            due |= connections[fd].asked && !connections[fd].full;
        }
    }
}
