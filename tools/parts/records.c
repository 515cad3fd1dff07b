/* The records of a pcap file, quickly: where they begin, what each counts as and whose it is, and copies of them by shard.

   records.py compiles this file and calls it, and has the same in Python for machines without a compiler; the tests compare the two. What
   a record counts as follows packets.py line by line. Every read stands behind a check that the bytes are there. */
#include <stdint.h>
#include <stdlib.h>
#include <string.h>

typedef uint8_t u8;
typedef uint16_t u16;
typedef uint32_t u32;
typedef uint64_t u64;

enum { SERVED, NOFIT, SERVER, OTHER, FRAGMENT, CUT, MALFORMED, BADSUM, KINDS };
enum { ETHERNET = 1, RAW = 101, COOKED = 113 };
enum { FIN = 1, SYN = 2 };
enum { HEAD = 16, MOST_BODY = 262144, LEAST_WEIGHT = 64 };
enum { BLOCK = 32, PACKET = 6 };    /* of pcapng: the least length of an enhanced packet block, and its kind */
#define LAST_TIME (1ull << 53)
enum { SECOND = 1000000, GAP = 100000, MOST_AGAIN = 64, LONGEST_WAIT = 60, MOST_TEXT = 1460, USUAL_TEXT = 536, LINE = 108 };

struct form { u32 swapped, unit, link, verify; };

/* What one connection has, as the file `connections` of a table has it. */
struct connection {
    u8 ends[12];
    u16 text;               /* bytes that may be sent to it again: those since its last SYN, at most a segment's */
    u16 again;              /* how often, at most, something was sent again since then */
    u64 records, octets;
    u64 report;             /* about how many bytes of report its items make at most, the last time aside */
    u64 first, last;        /* the first segment's time, and the greatest */
};

struct found {
    u64 counts[KINDS];
    u64 records, last, rest, end, failed;   /* failed: 1 a record is too long, 2 no memory */
    u64 conns, room, seed;
    struct connection *conn;
    u32 *places;                            /* a table of numbers from 1, open addressing */
    int32_t *owners;
};

static u32 little(const u8 *p) { return p[0] | p[1] << 8 | p[2] << 16 | (u32)p[3] << 24; }
static u32 big(const u8 *p) { return (u32)p[0] << 24 | p[1] << 16 | p[2] << 8 | p[3]; }
static u32 big2(const u8 *p) { return p[0] << 8 | p[1]; }
static u32 field(const struct form *f, const u8 *p) { return f->swapped ? big(p) : little(p); }

static u32 sum(u64 total, const u8 *p, u64 size)
{
    for (; size > 1; p += 2, size -= 2)
        total += big2(p);
    if (size)
        total += p[0] << 8;
    while (total >> 16)
        total = (total & 0xffff) + (total >> 16);
    return (u32)total;
}

struct segment { const u8 *ip, *tcp, *end; };

static int tcp_part(const struct form *f, const u8 *ip, const u8 *tcp, const u8 *end, struct segment *s)
{
    u64 size = end - tcp;
    if (size < 20 || (tcp[12] >> 2 & 60) < 20 || (tcp[12] >> 2 & 60) > size)
        return MALFORMED;
    if (f->verify) {
        u64 pseudo = sum(6 + (size & 0xffff), ip + 12, 8);
        if (size > 65535 || sum(0, ip, tcp - ip) != 0xffff || sum(pseudo, tcp, size) != 0xffff)
            return BADSUM;
    }
    *s = (struct segment){ip, tcp, end};
    if (tcp[2] == 0 && (tcp[3] == 7 || tcp[3] == 9))
        return SERVED;
    return tcp[0] == 0 && (tcp[1] == 7 || tcp[1] == 9) ? SERVER : OTHER;
}

static int classify(const struct form *f, const u8 *body, u64 size, struct segment *s)
{
    const u8 *end = body + size, *ip = body;
    u64 link = f->link == ETHERNET ? 14 : f->link == COOKED ? 16 : 0, length, header;
    if (size < link)
        return CUT;
    if (link) {
        u32 kind = big2(body + link - 2);
        ip = body + link;
        if (f->link == ETHERNET && kind == 0x8100) {
            if (end - ip < 4)
                return CUT;
            kind = big2(ip + 2);
            ip += 4;
        }
        if (kind != 0x0800)
            return OTHER;
    } else if (size && body[0] >> 4 == 6)
        return OTHER;
    if (ip == end)
        return CUT;
    if (ip[0] >> 4 != 4 || (ip[0] & 15) < 5)
        return MALFORMED;
    if (end - ip < 20)
        return CUT;
    header = 4 * (ip[0] & 15);
    length = big2(ip + 2);
    if (length && length < header)
        return MALFORMED;
    if (big2(ip + 6) & 0x3fff)
        return FRAGMENT;
    if (ip[9] != 6)
        return OTHER;
    length = length ? length : (u64)(end - ip);
    if ((u64)(end - ip) < length || (u64)(end - ip) < header)
        return CUT;
    return tcp_part(f, ip, ip + header, ip + length, s);
}

static u64 mix(u64 a)
{
    a ^= a >> 32;
    a *= 0xd6e8feb86659fd93u;
    a ^= a >> 32;
    a *= 0xd6e8feb86659fd93u;
    return a ^ a >> 32;
}

static u64 hash(const struct found *t, const u8 *ends)
{
    u64 a, b = 0;
    memcpy(&a, ends, 8);
    memcpy(&b, ends + 8, 4);
    return mix(mix(a ^ t->seed) + b);
}

static int grow(struct found *t)
{
    u64 room = t->room ? 2 * t->room : 1024;
    struct connection *conn = realloc(t->conn, room * sizeof *conn);
    u32 *places;
    if (conn)
        t->conn = conn;
    places = conn ? calloc(2 * room, sizeof *places) : NULL;
    if (!places)
        return 0;
    free(t->places);
    t->places = places;
    t->room = room;
    for (u64 c = 0; c < t->conns; c++) {
        u64 at = hash(t, conn[c].ends) & (2 * room - 1);
        while (places[at])
            at = (at + 1) & (2 * room - 1);
        places[at] = (u32)c + 1;
    }
    return 1;
}

/* The connection of these two addresses and ports, or -1 without memory. */
static int64_t connection_of(struct found *t, const u8 *ends)
{
    u64 at;
    if (t->conns == t->room && (t->conns == 0x7fffffff || !grow(t)))
        return -1;
    at = hash(t, ends) & (2 * t->room - 1);
    while (t->places[at] && memcmp(t->conn[t->places[at] - 1].ends, ends, 12))
        at = (at + 1) & (2 * t->room - 1);
    if (!t->places[at]) {
        memset(&t->conn[t->conns], 0, sizeof *t->conn);
        memcpy(t->conn[t->conns].ends, ends, 12);
        t->places[at] = (u32)++t->conns;
    }
    return t->places[at] - 1;
}

/* How often a retransmission timer that begins at a second and doubles runs out in this time. */
static u32 timeouts(u64 time)
{
    u64 wait = 1;
    u32 n = 0;
    for (time /= SECOND; time >= wait && n < MOST_AGAIN; n++) {
        time -= wait;
        wait = 2 * wait < LONGEST_WAIT ? 2 * wait : LONGEST_WAIT;
    }
    return n;
}

static u64 least(u64 a, u64 b) { return a < b ? a : b; }

/* What the report grows by, at most, while nothing comes from it: whatever was acknowledged, what is sent again has a segment's bytes, and
   after 64 times the connection is given up. */
static void wait_until(struct connection *c, u64 time)
{
    u64 again;
    if (!c->text || time < c->last || time - c->last < GAP)
        return;
    again = least(timeouts(time - c->last), MOST_AGAIN - c->again);
    c->again += (u16)again;
    c->report += again * (LINE + 2 * c->text);
}

/* What this segment adds to the report: its replies, and what was sent again in the time before it. */
static void weigh(struct connection *c, u64 time, const struct segment *s)
{
    u32 flags = s->tcp[13];
    u64 text = s->tcp[3] == 7 ? s->end - s->tcp - (s->tcp[12] >> 2 & 60) : 0;
    wait_until(c, time);
    if (flags & SYN)
        c->again = 0, c->text = 0;
    text += (flags & (SYN | FIN)) != 0;
    c->text = (u16)least(c->text + text, MOST_TEXT);
    c->report += LINE * (1 + text / USUAL_TEXT) + 2 * text;
    c->first = c->records ? c->first : time;
    c->last = time > c->last ? time : c->last;
}

static int serve(struct found *t, u64 time, u64 size, const struct segment *s)
{
    u8 ends[12];
    int64_t c;
    memcpy(ends, s->ip + 12, 8);
    memcpy(ends + 8, s->tcp, 4);
    if ((c = connection_of(t, ends)) < 0)
        return 0;
    weigh(&t->conn[c], time, s);
    t->conn[c].records++;
    t->conn[c].octets += size;
    t->owners[t->records++] = (int32_t)c;
    return 1;
}

/* Scans the records from `at` up to `end`, and leaves in `t` what it found. t->end is where the first record stands that isn't whole. */
void scan(const u8 *data, u64 at, u64 end, const struct form *f, struct found *t)
{
    while (end - at >= HEAD) {
        u64 length = field(f, data + at + 8), time;
        struct segment s;
        int kind;
        if (length > MOST_BODY)
            t->failed = 1;
        if (t->failed || end - at - HEAD < length)
            break;
        time = (u64)field(f, data + at) * SECOND + field(f, data + at + 4) / f->unit;
        t->last = time > t->last ? time : t->last;
        kind = classify(f, data + at + HEAD, length, &s);
        t->counts[kind]++;
        if (kind != SERVED) {
            t->rest += HEAD + length > LEAST_WEIGHT ? HEAD + length : LEAST_WEIGHT;
            t->owners[t->records++] = -1;
        } else if (!serve(t, time, HEAD + length, &s)) {
            t->failed = 2;
            break;
        }
        at += HEAD + length;
    }
    t->end = at;
}

void forget(struct found *t)
{
    free(t->conn);
    free(t->places);
    t->conn = NULL;
    t->places = NULL;
}

/* Where the first record at or behind `wanted` begins, from a record at `at`; `records` grows by those before it. The same as `end` in
   scan where the records end before. */
u64 walk(const u8 *data, u64 at, u64 end, u64 wanted, const struct form *f, u64 *records)
{
    while (at < wanted && end - at >= HEAD) {
        u64 length = field(f, data + at + 8);
        if (length > MOST_BODY || end - at - HEAD < length)
            break;
        at += HEAD + length;
        ++*records;
    }
    return at;
}

static void put(u8 *p, u32 n)
{
    p[0] = (u8)n, p[1] = (u8)(n >> 8), p[2] = (u8)(n >> 16), p[3] = (u8)(n >> 24);
}

/* Packets of a pcapng on their way into a pcap's records. */
struct packets {
    u64 at, end;                /* where the next block stands, and where the file ends */
    u64 made, room;             /* bytes of records that were made, and that there is room for */
    u64 count, last;            /* packets so far, and the last one's time in microseconds */
    u32 swapped, interfaces;
    const u64 *ticks;           /* by interface, in a second */
};

/* Takes enhanced packet blocks one after another, until there is something else, or room is short. Whatever isn't plainly right is left. */
void take_packets(const u8 *data, struct packets *p, u8 *out)
{
    struct form f = {p->swapped, 1, 0, 0};
    for (; p->end - p->at >= BLOCK; p->count++) {
        const u8 *block = data + p->at;
        u64 length = field(&f, block + 4), size = field(&f, block + 20), seconds;
        unsigned __int128 time;
        u32 interface = field(&f, block + 8);
        u8 *to = out + p->made;
        if (field(&f, block) != PACKET || length % 4 || length < BLOCK || length > p->end - p->at || field(&f, block + length - 4) != length)
            return;
        if (interface >= p->interfaces || size > MOST_BODY || ((size + 3) & ~(u64)3) > length - BLOCK || p->room - p->made < HEAD + size)
            return;
        time = (unsigned __int128)((u64)field(&f, block + 12) << 32 | field(&f, block + 16)) * SECOND / p->ticks[interface];
        if (time >= LAST_TIME)
            return;
        seconds = least((u64)time / SECOND, 0xffffffff);
        if ((u64)time - seconds * SECOND > 0xffffffff)
            return;
        p->last = (u64)time;
        put(to, (u32)seconds);
        put(to + 4, (u32)((u64)time - seconds * SECOND));
        put(to + 8, (u32)size);
        put(to + 12, (u32)size);
        memcpy(to + HEAD, block + 28, size);
        p->made += HEAD + size;
        p->at += length;
    }
}

/* How records go to shards: a connection's to its shard; those of no connection fill shards of their own by weight. */
struct dealing {
    const u32 *shards;      /* by connection */
    u64 conns, total;       /* connections, and shards */
    u64 first_rest, rest_weight, weight, end;
};

/* The record's shard and size; 0 where there is no such record or shard. */
static u64 next(const u8 *data, u64 at, const struct form *f, int32_t owner, struct dealing *d, u64 *shard)
{
    u64 size = d->end - at < HEAD ? 0 : HEAD + (u64)field(f, data + at + 8);
    *shard = 0;
    if (!size || d->end - at < size || (owner >= 0 && (u64)owner >= d->conns))
        return 0;
    if (owner >= 0) {
        *shard = d->shards[owner];
    } else {
        *shard = d->first_rest + d->weight / d->rest_weight;
        d->weight += size > LEAST_WEIGHT ? size : LEAST_WEIGHT;
    }
    return *shard < d->total ? size : 0;
}

/* How many of these records fill `room` bytes, and in `sizes` by shard the bytes. */
u64 measure(const u8 *data, u64 at, const struct form *f, const int32_t *owners, u64 count, const struct dealing *dealing, u64 room, u64 *sizes)
{
    struct dealing d = *dealing;
    u64 n, held = 0;
    for (n = 0; n < count; n++) {
        u64 shard, size = next(data, at, f, owners[n], &d, &shard);
        if (!size || held + size > room)
            break;
        sizes[shard] += size;
        held += size;
        at += size;
    }
    return n;
}

/* Copies records that were measured, each behind the others of its shard: places[s] is where the next of shard s goes. Returns where the
   record behind them stands. */
u64 scatter(const u8 *data, u64 at, const struct form *f, const int32_t *owners, u64 count, struct dealing *d, u64 *places, u8 *out)
{
    for (u64 n = 0; n < count; n++) {
        u64 shard, size = next(data, at, f, owners[n], d, &shard);
        u8 *to = out + places[shard];
        places[shard] += size;
        put(to, field(f, data + at));
        put(to + 4, field(f, data + at + 4) / f->unit);
        put(to + 8, field(f, data + at + 8));
        put(to + 12, field(f, data + at + 12));
        memcpy(to + HEAD, data + at + HEAD, size - HEAD);
        at += size;
    }
    return at;
}
