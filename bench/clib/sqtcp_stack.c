/* Echo by libsqtcp. */
#include <sqtcp.h>
#include <stdlib.h>
#include "stack.h"

static sqtcp server;

static void must(uint32_t answer) {
    if (answer != SQTCP_DONE) abort();
}

void stack_opens(size_t connections) {
    sqtcp_setting setting = {.address = 0x0a090002, .broadcast = 0x0a0900ff, .places = connections, .idle = 7200000000, .bytes = 1 << 30,
                             .segment = 1460, .echo = 7};
    must(sqtcp_open(&server, &setting));
}

void stack_hears(uint64_t now, const uint8_t *datagram, size_t n) { must(sqtcp_datagram(&server, now, datagram, n)); }
void stack_ticks(uint64_t now) { must(sqtcp_tick(&server, now)); }
size_t stack_says(uint8_t *room) { return sqtcp_next(&server, room, 2048); }
