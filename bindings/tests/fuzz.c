/* The calls in any order over any bytes, for libFuzzer: clang -fsanitize=fuzzer,address,undefined. An input says which calls, on which of two
 * servers, and what they are given: any bytes, or segments whose checksums are right and whose numbers lie near what the server expects.
 * Looked at after each call: the answer is one that the call may give; a buffer is written as far as it should be; what is sent is an IPv4
 * datagram of the server's own, with right checksums; a closed server has nothing. */
#include <sqtcp.h>
#include <stdlib.h>
#include <string.h>

enum { US = 0x0a090002, PEER = 0x0a090001, SERVERS = 2, PORTS = 6, FIRST_PORT = 4000, ROOM = 65535, ACK = 16, SYN = 2, UNWRITTEN = 0x5a };

#define MUST(it) do { if (!(it)) __builtin_trap(); } while (0)

struct input { const uint8_t *at; size_t left; };
struct side { uint32_t next, wanted; };                  /* of a client's port: its next number, and the server's */

static sqtcp servers[SERVERS];
static struct side sides[SERVERS][PORTS];
static uint64_t places[SERVERS], now;
static uint8_t room[ROOM + 1], unwritten[ROOM + 1], body[ROOM + 2];

static uint32_t take(struct input *in, size_t bytes) {
    uint32_t n = 0;
    for (; bytes > 0 && in->left > 0; bytes--, in->left--) n = n << 8 | *in->at++;
    return n;
}

static uint32_t add(const uint8_t *at, size_t n, uint32_t sum) {
    for (size_t i = 0; i < n; i++) sum += i % 2 ? at[i] : (uint32_t)at[i] << 8;
    return sum;
}

static uint16_t fold(uint32_t sum) {
    while (sum >> 16) sum = (sum & 0xffff) + (sum >> 16);
    return (uint16_t)~sum;
}

static void put(uint8_t *at, uint32_t n, int bytes) {
    for (int i = 0; i < bytes; i++) at[i] = (uint8_t)(n >> 8 * (bytes - 1 - i));
}

static uint32_t get(const uint8_t *at, int bytes) {
    uint32_t n = 0;
    for (int i = 0; i < bytes; i++) n = n << 8 | at[i];
    return n;
}

/* The sum over a datagram's segment with the addresses, the protocol and the length (RFC 9293, 3.1). */
static uint16_t segment_sum(const uint8_t *datagram, size_t n) {
    return fold(add(datagram + 20, n - 20, add(datagram + 12, 8, 6 + (uint32_t)(n - 20))));
}

static uint32_t near(struct input *in, uint32_t number) {
    uint32_t how = take(in, 1);
    return how < 192 ? number : how < 240 ? number + take(in, 1) - 128 : take(in, 4);
}

/* Each port of the client talks to one service, but now and then. */
static uint32_t service_of(uint32_t port) {
    static const uint16_t services[PORTS] = {7, 7, 9, 13, 19, 80};
    return services[port % PORTS];
}

/* A segment with right sums: the body's first bytes. Its length. */
static size_t tcp_segment(uint32_t port, uint32_t service, uint32_t seq, uint32_t ack, uint32_t flags, uint32_t window, uint32_t option, size_t text) {
    size_t options = option ? 4 : 0, n = 40 + options + text;
    memset(body, (int)text, n);
    memset(body, 0, 40);
    body[0] = 0x45;
    put(body + 2, (uint32_t)n, 2);
    body[8] = 64;
    body[9] = 6;
    put(body + 12, PEER, 4);
    put(body + 16, US, 4);
    put(body + 20, FIRST_PORT + port, 2);
    put(body + 22, service, 2);
    put(body + 24, seq, 4);
    put(body + 28, ack, 4);
    body[32] = (uint8_t)((20 + options) / 4 << 4);
    body[33] = (uint8_t)flags;
    put(body + 34, window, 2);
    if (options) put(body + 40, option, 4);
    put(body + 10, fold(add(body, 20, 0)), 2);
    put(body + 36, segment_sum(body, n), 2);
    return n;
}

/* What follows on what the client's port has said, in most cases. */
static size_t segment(struct input *in, struct side *of) {
    static const uint8_t likely[] = {ACK, ACK, ACK | 8, ACK | 8, ACK | 8, ACK | 1, 4, SYN};
    uint32_t port = take(in, 1) % PORTS, kind = take(in, 1);
    struct side *side = &of[port];
    size_t text = kind & 16 ? take(in, kind & 32 ? 1 : 2) % 1461 : 0;
    uint32_t flags = (kind & 192) == 192 ? take(in, 1) : likely[kind & 7], window = kind & 8 ? take(in, 2) : 65535;
    uint32_t service = kind == 255 ? service_of(take(in, 1)) : service_of(port), option = (kind & 67) == 67 ? take(in, 4) : 0;
    size_t n = tcp_segment(port, service, near(in, side->next), near(in, side->wanted), flags, window, option, text);
    side->next = get(body + 24, 4) + (uint32_t)text + (flags & 1) + (flags >> 1 & 1);
    return n;
}

/* What is sent has right lengths and sums, and comes from the server. */
static void is_ours(const uint8_t *datagram, size_t n, struct side *of) {
    MUST(n >= 28 && n <= ROOM && datagram[0] == 0x45 && get(datagram + 2, 2) == n);
    MUST(fold(add(datagram, 20, 0)) == 0 && get(datagram + 12, 4) == US);
    if (datagram[9] != 6) return;
    MUST(n >= 40 && segment_sum(datagram, n) == 0);
    uint32_t port = get(datagram + 22, 2) - FIRST_PORT, flags = datagram[33];
    if (port >= PORTS) return;
    of[port].wanted = get(datagram + 24, 4) + (uint32_t)(n - 20 - (size_t)(datagram[32] >> 4) * 4) + (flags & 1) + (flags >> 1 & 1);
    of[port].next = get(datagram + 28, 4);
}

static void opens(struct input *in, int which) {
    sqtcp_setting setting = {.address = US, .broadcast = 0x0a0900ff, .places = take(in, 1) % 5, .idle = take(in, 3), .bytes = take(in, 3),
                             .pings = take(in, 1), .host = take(in, 1) & 1 ? PEER : 0, .segment = (uint16_t)take(in, 2), .echo = 7, .discard = 9,
                             .daytime = 13, .chargen = 19};
    bool was = servers[which].open;
    uint32_t answer = sqtcp_open(&servers[which], &setting);
    MUST(answer == (was ? SQTCP_REFUSED : SQTCP_DONE) && servers[which].open);
    if (!was) places[which] = setting.places;
    if (!was) memset(sides[which], 0, sizeof sides[which]);
}

static void hears(int which, size_t n) {
    uint8_t *exact = malloc(n ? n : 1);                  /* so that a byte beyond it is seen */
    memcpy(exact, body, n);
    uint32_t answer = sqtcp_datagram(&servers[which], now, exact, n);
    free(exact);
    bool late = now > (uint64_t)1 << 62 || n > ROOM;
    MUST(answer == (late ? SQTCP_REFUSED : servers[which].open ? SQTCP_DONE : SQTCP_CLOSED));
}

static void anything(struct input *in, int which) {
    size_t n = in->left < 64 ? in->left : take(in, 1) % 64;
    memcpy(body, in->at, n);
    in->at += n;
    in->left -= n;
    hears(which, n);
}

/* What isn't to be written has the byte that it had. */
static void is_unwritten(size_t from, size_t n) {
    MUST(memcmp(room + from, unwritten + from, n) == 0);
}

static void sends(struct input *in, int which) {
    size_t size = sqtcp_next_size(&servers[which]), most = take(in, 1) < 32 ? take(in, 2) % (ROOM + 1) : ROOM;
    MUST(sqtcp_next(&servers[which], room, most) == size);
    bool written = size > 0 && size <= most;
    if (written) is_ours(room, size, sides[which]);
    else MUST(sqtcp_next_size(&servers[which]) == size);
    size_t from = written ? size : 0;
    is_unwritten(from, sizeof room - from < 64 ? sizeof room - from : 64);
    memset(room, UNWRITTEN, from);
    if (!servers[which].open) MUST(size == 0);
}

/* A client's port opens a connection, as far as the server lets it. */
static void connects(struct input *in, int which) {
    uint32_t port = take(in, 1) % PORTS, option = take(in, 1) & 1 ? 0x020405b4 : 0;
    hears(which, tcp_segment(port, service_of(port), take(in, 2), 0, SYN, 65535, option, 0));
    sends(in, which);
    struct side *side = &sides[which][port];
    hears(which, tcp_segment(port, service_of(port), side->next, side->wanted, ACK, 65535, 0, 0));
}

static void moves(int which) {
    sqtcp other = servers[which];
    memset(&servers[which], 0, sizeof other);
    MUST(sqtcp_next_size(&servers[which]) == 0 && sqtcp_tick(&servers[which], 0) == SQTCP_CLOSED);
    servers[which] = other;
}

static void ticks(struct input *in, int which) {
    uint32_t how = take(in, 1);
    if (how == 255) now = UINT64_MAX - take(in, 1);
    else if (how == 254) now = (uint64_t)1 << 62;
    else if (how == 253) now = take(in, 4);
    else now += (uint64_t)take(in, 2) << how % 16;
    bool late = now > (uint64_t)1 << 62;
    MUST(sqtcp_tick(&servers[which], now) == (late ? SQTCP_REFUSED : servers[which].open ? SQTCP_DONE : SQTCP_CLOSED));
    if (late) now = 0;
}

static void does(struct input *in) {
    uint32_t what = take(in, 1);
    int which = what >> 7;
    switch (what & 15) {
    case 0: opens(in, which); break;
    case 1: if ((what & 112) == 0) sqtcp_close(&servers[which]); break;
    case 2: ticks(in, which); break;
    case 3: anything(in, which); break;
    case 4: hears(which, take(in, 1) == 0 ? ROOM + take(in, 1) % 3 - 1 : 0); break;
    case 5: moves(which); break;
    case 6: sends(in, which); break;
    case 7: case 8: connects(in, which); break;
    default: hears(which, segment(in, sides[which])); break;
    }
    for (uint32_t i = take(in, 1) % 8; i > 0; i--) sends(in, which);
    MUST(sqtcp_connections(&servers[which]) <= (servers[which].open ? places[which] : 0));
}

int LLVMFuzzerTestOneInput(const uint8_t *at, size_t left) {
    struct input in = {at, left};
    sqtcp_setting setting = {.address = US, .broadcast = 0x0a0900ff, .places = 4, .idle = 60000000, .bytes = 1 << 20, .pings = 2, .segment = 1460,
                             .echo = 7, .discard = 9, .daytime = 13, .chargen = 19};
    now = 1000000;
    memset(sides, 0, sizeof sides);
    memset(room, UNWRITTEN, sizeof room);
    memset(unwritten, UNWRITTEN, sizeof unwritten);
    MUST(sqtcp_open(&servers[0], &setting) == SQTCP_DONE);
    places[0] = setting.places;
    while (in.left > 0) does(&in);
    is_unwritten(0, sizeof room);
    for (int i = 0; i < SERVERS; i++) sqtcp_close(&servers[i]);
    for (int i = 0; i < SERVERS; i++) MUST(!servers[i].open && sqtcp_next_size(&servers[i]) == 0);
    return 0;
}
