/* The smallest server: datagrams come on descriptor 0, and what is sent goes to descriptor 1, one datagram in each read and write. */
#include <sqtcp.h>
#include <sys/random.h>
#include <time.h>
#include <unistd.h>

static uint64_t microseconds(void) {
    struct timespec t;
    clock_gettime(CLOCK_MONOTONIC, &t);
    return (uint64_t)t.tv_sec * 1000000 + (uint64_t)t.tv_nsec / 1000;
}

int main(void) {
    static uint8_t datagram[65535];
    sqtcp server = {0};
    sqtcp_setting setting = {.address = 0x0a090002, .broadcast = 0x0a0900ff, .places = 100, .bytes = 1 << 20, .segment = 1460, .echo = 7};
    if (getrandom(setting.secret, sizeof setting.secret, 0) != 16 || sqtcp_open(&server, &setting) != SQTCP_DONE) return 1;
    for (ssize_t n; (n = read(0, datagram, sizeof datagram)) > 0;) {
        sqtcp_datagram(&server, microseconds(), datagram, (size_t)n);   // where memory is missing it goes on
        for (size_t size; (size = sqtcp_next(&server, datagram, sizeof datagram)) != 0;)
            if (write(1, datagram, size) < 0) return 1;
    }
    sqtcp_close(&server);
}
