/* Echo in memory by the stack that it's linked with: echo CONNECTIONS BYTES ROUNDS. On each connection in turn a segment with text comes, and the
 * stack must answer it by one segment with the same text, which the next one acknowledges. Prints how many segments came in a second. */
#include <stdio.h>
#include <stdlib.h>
#include <string.h>
#include <time.h>
#include "stack.h"

enum { HEAD = 40, MOST = 1460, ACK = 0x10, PSH = 0x08, SYN = 0x02, FIRST_PORT = 4000, ROUNDS_A_TICK = 4096 };

struct end { uint32_t seq, ack; };

static uint8_t datagram[HEAD + MOST], answer[2048];
static uint64_t now = 1000000;

static void must(int it, const char *what) {
    if (it) return;
    fprintf(stderr, "echo: %s\n", what);
    exit(1);
}

static void put(uint8_t *at, uint32_t n, int bytes) {
    for (int i = 0; i < bytes; i++) at[i] = (uint8_t)(n >> 8 * (bytes - 1 - i));
}

static uint32_t get(const uint8_t *at, int bytes) {
    uint32_t n = 0;
    for (int i = 0; i < bytes; i++) n = n << 8 | at[i];
    return n;
}

static uint32_t add(const uint8_t *at, size_t n) {
    uint32_t sum = 0;
    for (size_t i = 0; i < n; i++) sum += i % 2 ? at[i] : (uint32_t)at[i] << 8;
    return sum;
}

static uint16_t fold(uint32_t sum) {
    while (sum >> 16) sum = (sum & 0xffff) + (sum >> 16);
    return (uint16_t)~sum;
}

/* The sum of the text is known, so that the client takes next to no time. */
static void hands(int port, struct end end, int flags, size_t n, uint32_t text_sum) {
    put(datagram + 2, (uint32_t)(HEAD + n), 2);
    put(datagram + 10, 0, 2);
    put(datagram + 10, fold(add(datagram, 20)), 2);
    put(datagram + 20, (uint32_t)port, 2);
    put(datagram + 24, end.seq, 4);
    put(datagram + 28, end.ack, 4);
    datagram[33] = (uint8_t)flags;
    put(datagram + 36, 0, 2);
    put(datagram + 36, fold(add(datagram + 12, 28) + 6 + 20 + (uint32_t)n + text_sum), 2);
    stack_hears(now += 2, datagram, HEAD + n);
}

static struct end shakes_hands(int port) {
    struct end end = {.seq = 1000};
    memcpy(datagram + HEAD, (uint8_t[]){2, 4, MOST >> 8, MOST & 255}, 4);
    datagram[32] = 0x60;
    hands(port, end, SYN, 4, 0x0204 + MOST);
    datagram[32] = 0x50;
    must(stack_says(answer) >= HEAD && answer[33] == (SYN | ACK), "no SYN,ACK");
    end = (struct end){end.seq + 1, get(answer + 24, 4) + 1};
    hands(port, end, ACK, 0, 0);
    must(stack_says(answer) == 0, "an answer to an ACK");
    return end;
}

static void echoes(int port, struct end *end, size_t n, uint32_t text_sum) {
    hands(port, *end, PSH | ACK, n, text_sum);
    must(stack_says(answer) == HEAD + n && get(answer + 24, 4) == end->ack, "not the next text");
    must(memcmp(answer + HEAD, datagram + HEAD, n) == 0 && get(answer + 28, 4) == end->seq + n, "another text");
    must(stack_says(answer) == 0, "a second answer");
    *end = (struct end){end->seq + (uint32_t)n, end->ack + (uint32_t)n};
}

static double seconds(void) {
    struct timespec t;
    clock_gettime(CLOCK_PROCESS_CPUTIME_ID, &t);
    return (double)t.tv_sec + (double)t.tv_nsec / 1e9;
}

int main(int count, char **words) {
    must(count == 4, "words: CONNECTIONS BYTES ROUNDS");
    size_t connections = strtoul(words[1], NULL, 10), n = strtoul(words[2], NULL, 10), rounds = strtoul(words[3], NULL, 10);
    must(connections > 0 && connections < 60000 && n > 0 && n <= MOST && n % 2 == 0, "numbers out of range");
    struct end *ends = calloc(connections, sizeof *ends);
    memcpy(datagram, (uint8_t[]){0x45, 0, 0, 0, 0, 0, 0x40, 0, 64, 6, 0, 0, 10, 9, 0, 1, 10, 9, 0, 2, 0, 0, 0, 7}, 24);
    memcpy(datagram + 32, (uint8_t[]){0x50, 0, 0xff, 0xff}, 4);
    stack_opens(connections);
    for (size_t i = 0; i < connections; i++) ends[i] = shakes_hands(FIRST_PORT + (int)i);
    for (size_t i = 0; i < n; i++) datagram[HEAD + i] = (uint8_t)(i * 7);
    uint32_t text_sum = add(datagram + HEAD, n);
    double begun = seconds();
    for (size_t i = 0; i < rounds; i++) {
        echoes(FIRST_PORT + (int)(i % connections), &ends[i % connections], n, text_sum);
        if (i % ROUNDS_A_TICK == 0) stack_ticks(now);
        while (stack_says(answer) != 0) {}
    }
    printf("%.0f\n", (double)rounds / (seconds() - begun));
    return 0;
}
