/* sqtcp: the server's side of TCP (RFC 9293 over IPv4) as an engine without socket, clock and thread.
 * You hand it IPv4 datagrams and the time, and take out the datagrams that are to be sent.
 *
 * The code behind these calls is proved: docs/C.md says what of. Your side isn't, and these duties stay with you:
 *   - Each pointer is to whole memory of its type, aligned, not NULL; writable where it isn't const. Lengths are true.
 *     Pointers of one call don't overlap; two to const memory may. For no bytes give any pointer that isn't NULL.
 *   - A struct sqtcp begins with all bytes zero: that is a server that isn't open. An open one may be moved, never copied.
 *     Never write its fields. One call at a time, all from one thread; none from a signal handler.
 *   - malloc, realloc and free are of one allocator, and what it gives is aligned to 16 bytes.
 *   - The processor has what x86-64-v2 asks for, and the stack is large enough.
 *   - The secret is random, and nobody else knows it.
 *
 * Whatever you hand in, the calls have an answer: no datagram, length, time or setting is undefined.
 * Times are in microseconds since any moment that stays, at most 2^62. Addresses and ports are in host byte order. */
#ifndef SQTCP_H
#define SQTCP_H
#include <stdbool.h>
#include <stddef.h>
#include <stdint.h>
#ifdef __cplusplus
extern "C" {
#endif

enum {
    SQTCP_DONE = 0,
    SQTCP_NO_MEMORY = 1,        /* malloc answered NULL: the server goes on, and may have lost a connection */
    SQTCP_REFUSED = 2,          /* the time is later than 2^62, the datagram over 65,535 bytes, or the server is open already */
    SQTCP_CLOSED = 3            /* the server isn't open */
};

/* A server. All bytes zero: it isn't open, and each call has an answer for that. */
typedef struct sqtcp {
    void *at;
    bool open;
} sqtcp;

typedef struct sqtcp_setting {
    uint64_t idle;              /* how long a silent connection stays where the table is full, in microseconds */
    uint64_t bytes;             /* how many bytes of text all connections together may hold */
    uint64_t places;            /* how many connections are kept at once */
    uint8_t secret[16];         /* behind the initial sequence numbers (RFC 6528): random, and nobody else's */
    uint32_t address;           /* the IPv4 address that it answers for */
    uint32_t broadcast;         /* the broadcast address of its network */
    uint32_t pings;             /* how many echo requests are answered from one tick to the next */
    uint32_t host;              /* whose orders it obeys (UDP: "drain", "counts"); 0: nobody's */
    uint16_t segment;           /* the most bytes of text in a segment that is sent; below 64 counts as 64 */
    uint16_t echo;              /* the port of each service; 0: not had. Echo (RFC 862) */
    uint16_t discard;           /* RFC 863 */
    uint16_t daytime;           /* RFC 867 */
    uint16_t chargen;           /* the character generator (RFC 864) */
    uint8_t ttl;                /* TTL of each datagram that is sent; 0: 64 */
    uint8_t dscp;               /* its DSCP (RFC 2474), 0 to 63; modulo 64 beyond that */
} sqtcp_setting;

/* Opens a server, with no connection: DONE, NO_MEMORY, or REFUSED where it is open; that one stays as it is. */
uint32_t sqtcp_open(sqtcp *server, const sqtcp_setting *setting);

/* Closes it, and frees what it has. Where it isn't open nothing happens. */
void sqtcp_close(sqtcp *server);

/* An IPv4 datagram of n bytes comes: DONE, NO_MEMORY, REFUSED, CLOSED. */
uint32_t sqtcp_datagram(sqtcp *server, uint64_t now, const uint8_t *datagram, size_t n);

/* The time comes to all connections; call it ten times a second or so: DONE, NO_MEMORY, REFUSED, CLOSED. */
uint32_t sqtcp_tick(sqtcp *server, uint64_t now);

/* The length of the next datagram that is to be sent; 0: there is none. */
size_t sqtcp_next_size(sqtcp *server);

/* The next datagram goes into the buffer, and its length comes back; 0: there is none. Is it longer than room, it stays where it is, and
 * nothing is written. 65,535 bytes are room for each. */
size_t sqtcp_next(sqtcp *server, uint8_t *buffer, size_t room);

/* How many connections there are. */
size_t sqtcp_connections(sqtcp *server);

#ifdef __cplusplus
}
#endif
#endif
