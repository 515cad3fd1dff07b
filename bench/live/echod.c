/* The smallest server to compare with: echo on port 7 and discard on port 9 of its address, by epoll, over the kernel's TCP. */
#include <arpa/inet.h>
#include <netinet/tcp.h>
#include <stdlib.h>
#include <sys/epoll.h>
#include <sys/socket.h>
#include <unistd.h>

struct conn { int fd, port, listens; size_t from, to; char text[65536]; };
static int polls;

static struct conn *watch(int fd, int port, int listens) {
    struct conn *c = calloc(1, sizeof *c);
    c->fd = fd; c->port = port; c->listens = listens;
    struct epoll_event e = { .events = EPOLLIN, .data.ptr = c };
    epoll_ctl(polls, EPOLL_CTL_ADD, fd, &e);
    return c;
}

static void listens_on(const char *ip, int port) {
    struct sockaddr_in at = { .sin_family = AF_INET, .sin_port = htons(port) };
    int fd = socket(AF_INET, SOCK_STREAM, 0), on = 1;
    inet_pton(AF_INET, ip, &at.sin_addr);
    setsockopt(fd, SOL_SOCKET, SO_REUSEADDR, &on, sizeof on);
    if (bind(fd, (void *)&at, sizeof at) || listen(fd, 1024)) exit(1);
    watch(fd, port, 1);
}

/* Reads where nothing waits to be written, and writes what waits. At the end, or at an error, the connection goes. */
static void serve(struct conn *c) {
    if (c->from == c->to) {
        ssize_t n = recv(c->fd, c->text, sizeof c->text, 0);
        if (n <= 0) { close(c->fd); free(c); return; }
        c->from = 0; c->to = c->port == 7 ? n : 0;
    }
    if (c->from < c->to) {
        ssize_t n = send(c->fd, c->text + c->from, c->to - c->from, MSG_DONTWAIT | MSG_NOSIGNAL);
        if (n > 0) c->from += n;
    }
    struct epoll_event e = { .events = c->from < c->to ? EPOLLOUT : EPOLLIN, .data.ptr = c };
    epoll_ctl(polls, EPOLL_CTL_MOD, c->fd, &e);
}

int main(int words, char **word) {
    polls = epoll_create1(0);
    if (words != 2) return 2;
    listens_on(word[1], 7);
    listens_on(word[1], 9);
    for (;;) {
        struct epoll_event es[64];
        int n = epoll_wait(polls, es, 64, -1), on = 1;
        for (int i = 0; i < n; i++) {
            struct conn *c = es[i].data.ptr;
            if (!c->listens) { serve(c); continue; }
            int fd = accept(c->fd, 0, 0);
            if (fd < 0) continue;
            setsockopt(fd, IPPROTO_TCP, TCP_NODELAY, &on, sizeof on);
            watch(fd, c->port, 0);
        }
    }
}
