/* Echo on a TUN device: 10.9.0.2 answers, and this machine is 10.9.0.1. As root:
 *     cc -O2 -Ibindings/include bindings/c/tun_echo.c libsqtcp.a -o tun_echo && ./tun_echo
 * and elsewhere: nc 10.9.0.2 7. The device goes with the program. */
#include <arpa/inet.h>
#include <errno.h>
#include <fcntl.h>
#include <linux/if_tun.h>
#include <net/if.h>
#include <poll.h>
#include <sqtcp.h>
#include <stdio.h>
#include <string.h>
#include <sys/ioctl.h>
#include <sys/random.h>
#include <sys/socket.h>
#include <time.h>
#include <unistd.h>

enum { TICK = 100000 };                                  /* microseconds from one tick to the next */

static uint64_t microseconds(void) {
    struct timespec t;
    clock_gettime(CLOCK_MONOTONIC, &t);
    return (uint64_t)t.tv_sec * 1000000 + (uint64_t)t.tv_nsec / 1000;
}

static int give(int socket, struct ifreq *request, unsigned long what, const char *address) {
    struct sockaddr_in end = {.sin_family = AF_INET};
    inet_pton(AF_INET, address, &end.sin_addr);
    memcpy(&request->ifr_addr, &end, sizeof end);
    return ioctl(socket, what, request);
}

/* A TUN device with this address, that is up; -1 and errno where there is none. */
static int device(const char *name, const char *address) {
    struct ifreq request = {.ifr_flags = IFF_TUN | IFF_NO_PI};
    int tun = open("/dev/net/tun", O_RDWR | O_NONBLOCK), by = socket(AF_INET, SOCK_DGRAM, 0);
    strncpy(request.ifr_name, name, IFNAMSIZ - 1);
    if (tun < 0 || by < 0 || ioctl(tun, TUNSETIFF, &request) < 0) return -1;
    if (give(by, &request, SIOCSIFADDR, address) < 0 || give(by, &request, SIOCSIFNETMASK, "255.255.255.0") < 0) return -1;
    request.ifr_flags = IFF_UP | IFF_RUNNING;
    if (ioctl(by, SIOCSIFFLAGS, &request) < 0) return -1;
    close(by);
    return tun;
}

int main(void) {
    static uint8_t datagram[65535];
    sqtcp server = {0};
    sqtcp_setting setting = {.address = 0x0a090002, .broadcast = 0x0a0900ff, .places = 1000, .bytes = 64 << 20, .idle = 60000000,
                             .pings = 1000, .segment = 1460, .echo = 7, .discard = 9, .daytime = 13, .chargen = 19};
    int tun = device("sqtcp0", "10.9.0.1");
    if (tun < 0) return perror("a TUN device (as root)"), 1;
    if (getrandom(setting.secret, sizeof setting.secret, 0) != 16 || sqtcp_open(&server, &setting) != SQTCP_DONE) return 1;
    fprintf(stderr, "10.9.0.2 serves echo at port 7\n");
    for (uint64_t ticked = 0;;) {
        struct pollfd ready = {.fd = tun, .events = POLLIN};
        poll(&ready, 1, TICK / 1000);
        ssize_t n = read(tun, datagram, sizeof datagram);
        uint64_t now = microseconds();
        if (n < 0 && errno != EAGAIN && errno != EINTR) return perror("read"), 1;
        if (n > 0) sqtcp_datagram(&server, now, datagram, (size_t)n);   /* NO_MEMORY: the server goes on */
        if (now - ticked >= TICK) sqtcp_tick(&server, ticked = now);
        for (size_t size; (size = sqtcp_next(&server, datagram, sizeof datagram)) != 0;)
            if (write(tun, datagram, size) < 0 && errno != EAGAIN) return perror("write"), 1;
    }
}
