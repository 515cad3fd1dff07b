/* A client of many connections: load HOST echo|discard|pings CONNECTIONS SECONDS

   echo sends and reads at once, discard sends, pings sends 100 bytes and waits for them. Each byte that comes back is checked. Behind the time
   each connection half closes, and reads to its end. It prints how many bytes went to and fro, or how many pings; when it began and ended, in
   seconds of the machine's clock; and the median and the 99th percentile of a ping in microseconds. */
#include <arpa/inet.h>
#include <errno.h>
#include <fcntl.h>
#include <netinet/tcp.h>
#include <stdint.h>
#include <stdio.h>
#include <stdlib.h>
#include <string.h>
#include <sys/epoll.h>
#include <sys/socket.h>
#include <time.h>
#include <unistd.h>

enum { BLOCK = 1 << 20, PING = 100, AT_ONCE = 1 << 16, SLOWEST = 1 << 20 };

struct conn { int fd; uint64_t sent, back, asked; };

static unsigned char block[BLOCK + AT_ONCE];
static uint32_t times[SLOWEST];         /* how many pings took so many microseconds */
static uint64_t total, pings, end;
static int polls, echo, ping;

static uint64_t now(void) {
    struct timespec t;
    clock_gettime(CLOCK_MONOTONIC, &t);
    return t.tv_sec * 1000000ull + t.tv_nsec / 1000;
}

static void fail(const char *why) {
    fprintf(stderr, "load: %s: %s\n", why, strerror(errno));
    exit(1);
}

static void wait_for(struct conn *c, int how, uint32_t events) {
    struct epoll_event e = { .events = events, .data.ptr = c };
    epoll_ctl(polls, how, c->fd, &e);
}

/* Sends what the connection takes; behind the time it half closes. */
static void put(struct conn *c) {
    size_t length = ping ? PING : AT_ONCE;
    if (now() >= end) {
        shutdown(c->fd, SHUT_WR);
        wait_for(c, EPOLL_CTL_MOD, EPOLLIN);
        return;
    }
    ssize_t n = send(c->fd, block + c->sent % BLOCK, length, MSG_NOSIGNAL);
    if (n < 0 && errno != EAGAIN) fail("send");
    if (n > 0) c->sent += n;
    if (ping) c->asked = now();
}

static void answered(struct conn *c) {
    uint64_t took = now() - c->asked;
    times[took < SLOWEST ? took : SLOWEST - 1]++;
    pings++;
    put(c);
}

/* Reads what is there. 1 at the connection's end. */
static int take(struct conn *c) {
    static unsigned char text[AT_ONCE];
    ssize_t n = recv(c->fd, text, sizeof text, 0);
    if (n < 0 && errno == EAGAIN) return 0;
    if (n < 0) fail("recv");
    if (n == 0) {
        if (c->back != (echo || ping ? c->sent : 0)) fail("an end that came too early");
        total += c->sent;
        close(c->fd);
        return 1;
    }
    if (memcmp(text, block + c->back % BLOCK, n)) fail("other bytes came back");
    c->back += n;
    if (ping && c->back == c->sent) answered(c);
    return 0;
}

static void open_conn(struct conn *c, const struct sockaddr_in *to) {
    int on = 1;
    c->fd = socket(AF_INET, SOCK_STREAM, 0);
    setsockopt(c->fd, IPPROTO_TCP, TCP_CONGESTION, "cubic", 5);
    setsockopt(c->fd, IPPROTO_TCP, TCP_NODELAY, &on, sizeof on);
    if (connect(c->fd, (const void *)to, sizeof *to)) fail("connect");
    fcntl(c->fd, F_SETFL, O_NONBLOCK);
    wait_for(c, EPOLL_CTL_ADD, ping ? EPOLLIN : EPOLLIN | EPOLLOUT);
}

static uint32_t percentile(int of_hundred) {
    uint64_t below = 0;
    uint32_t took = 0;
    while (took < SLOWEST - 1 && (below += times[took]) * 100 < pings * of_hundred) took++;
    return took;
}

int main(int words, char **word) {
    if (words != 5) return 2;
    echo = !strcmp(word[2], "echo");
    ping = !strcmp(word[2], "pings");
    int count = atoi(word[3]), open = count;
    struct sockaddr_in to = { .sin_family = AF_INET, .sin_port = htons(echo || ping ? 7 : 9) };
    inet_pton(AF_INET, word[1], &to.sin_addr);
    for (size_t i = 0; i < sizeof block; i++) block[i] = i % BLOCK * 2654435761u >> 13;
    polls = epoll_create1(0);
    struct conn *conns = calloc(count, sizeof *conns);
    for (int i = 0; i < count; i++) open_conn(conns + i, &to);
    uint64_t start = now();
    end = start + (uint64_t)(atof(word[4]) * 1e6);
    for (int i = 0; ping && i < count; i++) put(conns + i);
    while (open) {
        struct epoll_event es[256];
        int n = epoll_wait(polls, es, 256, 30000);
        if (n == 0) fail("nothing came for 30 seconds");
        for (int i = 0; i < n; i++) {
            struct conn *c = es[i].data.ptr;
            if (es[i].events & (EPOLLIN | EPOLLHUP | EPOLLERR) && take(c)) open--;
            else if (es[i].events & EPOLLOUT) put(c);
        }
    }
    printf("%llu %.6f %.6f %u %u\n", (unsigned long long)(ping ? pings : total), start / 1e6, now() / 1e6, percentile(50), percentile(99));
    return 0;
}
