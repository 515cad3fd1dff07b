/* Each misuse that has an answer gets it: a server that is closed, opened twice, closed twice or moved; times and lengths out of range; buffers
 * that are too small. Prints the first that doesn't, with its line, and ends with 1. */
#include <sqtcp.h>
#include <stdio.h>
#include <string.h>

#define MUST(it) do { if (!(it)) { printf("line %d: %s\n", __LINE__, #it); return 1; } } while (0)
#define LAST_TIME ((uint64_t)1 << 62)

/* A SYN of 10.9.0.1, port 4000, to port 7 of 10.9.0.2, whose checksums are right. */
static const uint8_t syn[] = {0x45, 0, 0, 0x28, 0, 1, 0, 0, 0x40, 6, 0x66, 0xbb, 10, 9, 0, 1, 10, 9, 0, 2, 0x0f, 0xa0, 0, 7, 0, 0,
                              0, 0x64, 0, 0, 0, 0, 0x50, 2, 0xff, 0xff, 0x8b, 0xc3, 0, 0};
static uint8_t bytes[65536], room[65535];

static int closed(sqtcp *server) {
    memset(room, 0x55, sizeof room);
    MUST(sqtcp_datagram(server, 1, syn, sizeof syn) == SQTCP_CLOSED);
    MUST(sqtcp_datagram(server, LAST_TIME, syn, sizeof syn) == SQTCP_CLOSED);
    MUST(sqtcp_datagram(server, LAST_TIME + 1, syn, sizeof syn) == SQTCP_REFUSED);
    MUST(sqtcp_tick(server, 1) == SQTCP_CLOSED);
    MUST(sqtcp_tick(server, UINT64_MAX) == SQTCP_REFUSED);
    MUST(sqtcp_next_size(server) == 0);
    MUST(sqtcp_next(server, room, sizeof room) == 0);
    MUST(room[0] == 0x55);
    MUST(sqtcp_connections(server) == 0);
    sqtcp_close(server);
    MUST(!server->open);
    return 0;
}

static int opened(sqtcp *server, const sqtcp_setting *setting) {
    MUST(sqtcp_open(server, setting) == SQTCP_DONE && server->open);
    MUST(sqtcp_next_size(server) == 0 && sqtcp_connections(server) == 0);
    MUST(sqtcp_datagram(server, 1, syn, sizeof syn) == SQTCP_DONE);
    MUST(sqtcp_connections(server) == 1);
    MUST(sqtcp_open(server, setting) == SQTCP_REFUSED);
    MUST(sqtcp_connections(server) == 1);
    MUST(sqtcp_datagram(server, LAST_TIME + 1, syn, sizeof syn) == SQTCP_REFUSED);
    MUST(sqtcp_datagram(server, 2, bytes, 65536) == SQTCP_REFUSED);
    MUST(sqtcp_datagram(server, 2, bytes, SIZE_MAX / 2) == SQTCP_REFUSED);
    MUST(sqtcp_datagram(server, 2, bytes, 65535) == SQTCP_DONE);
    MUST(sqtcp_datagram(server, 2, bytes, 0) == SQTCP_DONE);
    MUST(sqtcp_tick(server, LAST_TIME + 1) == SQTCP_REFUSED);
    return 0;
}

static int answered(sqtcp *server) {
    size_t size = sqtcp_next_size(server);
    MUST(size == 44);                                    /* a SYN,ACK with its MSS */
    memset(room, 0x55, sizeof room);
    MUST(sqtcp_next(server, room, 0) == size && sqtcp_next(server, room, size - 1) == size);
    MUST(room[0] == 0x55 && sqtcp_next_size(server) == size);
    MUST(sqtcp_next(server, room, size) == size);
    MUST(room[0] == 0x45 && room[33] == 0x12 && room[size] == 0x55);
    MUST(sqtcp_next(server, room, sizeof room) == 0 && sqtcp_next_size(server) == 0);
    return 0;
}

static int moved(sqtcp *server) {
    sqtcp other = *server;
    memset(server, 0, sizeof *server);
    MUST(sqtcp_connections(&other) == 1);
    if (closed(server)) return 1;
    MUST(sqtcp_tick(&other, LAST_TIME) == SQTCP_DONE);
    MUST(sqtcp_datagram(&other, 0, syn, sizeof syn) == SQTCP_DONE);        /* a time that goes back is no fault */
    sqtcp_close(&other);
    return closed(&other);
}

int main(void) {
    sqtcp server = {0};
    sqtcp_setting setting = {.address = 0x0a090002, .broadcast = 0x0a0900ff, .places = 4, .bytes = 1 << 20, .segment = 1460, .echo = 7};
    sqtcp_setting nothing = {0};
    if (closed(&server) || opened(&server, &setting) || answered(&server) || moved(&server)) return 1;
    MUST(sqtcp_open(&server, &nothing) == SQTCP_DONE);
    MUST(sqtcp_datagram(&server, 1, syn, sizeof syn) == SQTCP_DONE && sqtcp_connections(&server) == 0);
    sqtcp_close(&server);
    memset(&nothing, 0xff, sizeof nothing);
    MUST(sqtcp_open(&server, &nothing) == SQTCP_DONE);
    MUST(sqtcp_datagram(&server, 1, syn, sizeof syn) == SQTCP_DONE && sqtcp_tick(&server, LAST_TIME) == SQTCP_DONE);
    sqtcp_close(&server);
    return closed(&server);
}
