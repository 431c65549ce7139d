/* Preloaded into a server, it sets how the sockets that this one listens at, and those of its clients, keep from congestion: by NAME, as "cubic". */
#define _GNU_SOURCE
#include <dlfcn.h>
#include <netinet/in.h>
#include <netinet/tcp.h>
#include <string.h>
#include <sys/socket.h>

int listen(int fd, int most) {
    int (*own)(int, int) = dlsym(RTLD_NEXT, "listen");
    if (setsockopt(fd, IPPROTO_TCP, TCP_CONGESTION, NAME, strlen(NAME)) < 0)
        return -1;
    return own(fd, most);
}
