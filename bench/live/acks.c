/* The least that a discard server on a TUN device can do, to see what the parts of the work take: acks EVERY SUM
 *
 * Standard input is the device. Each EVERYth segment is acknowledged, and each SYN and FIN. SUM is how the segment is summed:
 *     0    not at all
 *     1    two bytes at a time, the carry added at once, as sqlive does it
 *     2    four bytes at a time, the carries added at the end
 * The sum is compared with nothing, and nothing is kept: no connection, no window, no order. */
#include <arpa/inet.h>
#include <stdlib.h>
#include <string.h>
#include <time.h>
#include <unistd.h>

enum { FIN = 1, SYN = 2, RST = 4, ACK = 16 };
static volatile unsigned sink;

static unsigned by_two(const unsigned char *p, int n, unsigned sum) {
    for (; n > 1; n -= 2, p += 2) {
        sum += p[0] << 8 | p[1];
        sum = (sum & 0xffff) + (sum >> 16);
        __asm__ volatile("" : "+r"(sum));             /* step by step, as it is written */
    }
    return n ? by_two((unsigned char[]){ *p, 0 }, 2, sum) : sum;
}

static unsigned by_four(const unsigned char *p, int n) {
    unsigned long sum = 0;
    for (unsigned word; n > 3; n -= 4, p += 4) { memcpy(&word, p, 4); sum += word; }
    return sum ^ sum >> 32;
}

static void put(unsigned char *at, unsigned value) { value = htonl(value); memcpy(at, &value, 4); }

/* The acknowledgement of a datagram into out, of at most 48 bytes; its length. */
static int answer(const unsigned char *in, int n, unsigned char *out) {
    const unsigned char *tcp = in + 20;
    int flags = tcp[13], options = flags & SYN ? 8 : 0, length = 40 + options;
    unsigned seq, sum;
    memcpy(&seq, tcp + 4, 4);
    memset(out, 0, length);
    memcpy(out, (unsigned char[]){ 0x45, 0, 0, length, 0, 0, 0x40, 0, 64, 6 }, 10);
    memcpy(out + 12, in + 16, 4);
    memcpy(out + 16, in + 12, 4);
    sum = 0xffff - by_two(out, 20, 0);
    out[10] = sum >> 8; out[11] = sum;
    memcpy(out + 20, tcp + 2, 2);
    memcpy(out + 22, tcp, 2);
    put(out + 24, flags & SYN ? 1000 : 1001);
    put(out + 28, ntohl(seq) + n - 20 - 4 * (tcp[12] >> 4) + !!(flags & (SYN | FIN)));
    memcpy(out + 32, (unsigned char[]){ (5 + options / 4) << 4, (flags & (SYN | FIN)) | ACK, 0x80, 0 }, 4);   /* a window of 1 MiB, scaled by 5 */
    memcpy(out + 40, "\2\4\5\xb4\3\3\5", options);
    sum = 0xffff - by_two(out + 12, length - 12, 6 + length - 20);
    out[36] = sum >> 8; out[37] = sum;
    return length;
}

int main(int words, char **word) {
    static unsigned char in[65536], out[48];
    if (words != 3) return 2;
    int every = atoi(word[1]), way = atoi(word[2]), held = 0, n;
    struct timespec now;
    while ((n = read(0, in, sizeof in)) > 0) {
        clock_gettime(CLOCK_MONOTONIC, &now);
        if (n < 40 || in[0] != 0x45 || in[9] != 6) continue;
        if (way == 1) sink += by_two(in + 20, n - 20, 0);
        if (way == 2) sink += by_four(in + 20, n - 20);
        int flags = in[33], text = n - 20 - 4 * (in[32] >> 4);
        if (flags & RST || !(text || flags & (SYN | FIN))) continue;
        if (!(flags & (SYN | FIN)) && ++held < every) continue;
        held = 0;
        if (write(1, out, answer(in, n, out)) < 0) return 1;
    }
    return 0;
}
