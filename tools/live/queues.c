/* Moves datagrams between the queues of a TUN device and the pipes of a server's rings.

     queues JOIN COUNTS CAPTURE TUN IN OUT [TUN IN OUT ..]       from COUNTS on, each word is the number of a descriptor that it inherits

   For each queue, one thread takes datagrams from TUN and writes them to the pipe IN as frames, and one takes frames from the pipe OUT and
   writes their datagrams to TUN. A frame is a length and a time in eight bytes each, big-endian, and so many bytes; the time is in
   microseconds since 1970: the system's at the start, and from there on by a clock that nobody sets. After a pause of the machine it goes on
   twice as fast, until it has caught up: so deadlines of the pause don't all fire at once. Every 20 ms IN gets a frame without bytes, the time
   alone; not before the last one was taken, so that a server that is late isn't made later by many at once.

   The thread that reads OUT waits for nothing else, so a server that writes is never held up for long. A full IN is waited for, and
   meanwhile the device keeps datagrams, and loses what is too many for its queue.

   The device gives and takes long segments: what the kernel would cut, or has joined, crosses it in one datagram of up to 64 KiB, behind a head
   that says so (linux/virtio_net.h). So IN gets segments that are longer than any on a wire, and this program fills in their checksums, which
   the kernel leaves open. Of what comes from OUT, segments that follow one another are joined, for the kernel to cut. Where JOIN is 0
   the device has one segment in each datagram, and no head.

   The kernel gives a datagram to one queue. What is for the whole server, as an order of its host, every ring gets: a queue that takes such a
   datagram posts it to the others, each of which brings it at its own next round. What finds a full box is lost, as on any wire.

   SIGTERM ends each IN, so that the server answers what came, and ends. When each OUT has ended, so does the program.
   COUNTS is a file of memory that the launcher reads: what each queue brought and took.
   CAPTURE, where it isn't -1, has a head of pcap (raw IP), and gets what is brought and taken of TCP, what is brought with the time of its
   frame: so the capture has the times that the server had, which a tap beside the device has not. JOIN is 0 then. Where it can't be
   written any more, it ends behind its last whole record; that is told, and so is the status. */
#define _GNU_SOURCE
#include <arpa/inet.h>
#include <errno.h>
#include <fcntl.h>
#include <linux/virtio_net.h>
#include <poll.h>
#include <pthread.h>
#include <signal.h>
#include <stdatomic.h>
#include <stdint.h>
#include <stdio.h>
#include <stdlib.h>
#include <string.h>
#include <sys/ioctl.h>
#include <sys/mman.h>
#include <time.h>
#include <unistd.h>

enum { HEAD = 16, LONGEST = 65535, GATHERED = 1 << 16, TICK = 20000, MOST_STEP = 100000 };
enum { ICMP_PROTOCOL = 1, TCP_PROTOCOL = 6, UDP_PROTOCOL = 17, PROTOCOL = 9 };
enum { LEAST_PART = 8, TARGET_PORT = 2, SYSTAT = 11, UNREACHABLE = 3, TIME_EXCEEDED = 11, PARAMETER_PROBLEM = 12 };
enum { IP_LENGTH = 2, IP_SUM = 10, ENDS = 12, TCP = 20, SEQ = 24, ACK = 28, FLAGS = 33, WINDOW = 34, TCP_SUM = 36, TEXT = 40, PSH_FLAG = 8, ACK_FLAG = 16 };

/* One direction of a queue, in a line of the processor's cache that no other thread writes. */
struct counts { _Alignas(64) _Atomic uint64_t datagrams; _Atomic uint64_t bytes, refused; };
_Static_assert(sizeof(struct counts) == 64, "as the launcher reads it");

/* Datagrams that other queues took, for this one to bring too. */
enum { LETTERS = 16, LETTER = 1500 };
struct box { pthread_mutex_t lock; size_t count; size_t length[LETTERS]; unsigned char letter[LETTERS][LETTER]; };

struct queue { int tun, in, out; long number; struct counts *inward, *outward; pthread_t reads; struct box *box; };

static struct queue *all_queues;
static long queues;

static atomic_bool ending;
/* How long the device's head of a datagram is: it has its place in the end of a frame's head, which is read by then, or isn't written yet. */
static size_t device_head;
/* How far the system's time was before the clock that nobody sets, at the start. */
static uint64_t begun;
/* The time that was told last, and the system's then. */
static uint64_t told, looked;
static pthread_mutex_t telling = PTHREAD_MUTEX_INITIALIZER;
/* What was brought and taken, in the order of its times: a descriptor, or -1 where it isn't kept; where its last whole record ends; and whether
   the next one couldn't be written. */
static int capture;
static off_t captured;
static int lacks;
static pthread_mutex_t capturing = PTHREAD_MUTEX_INITIALIZER;

static uint64_t micros(clockid_t clock) {
    struct timespec t;
    clock_gettime(clock, &t);
    return t.tv_sec * 1000000ull + t.tv_nsec / 1000;
}

/* The time that is told at a look at the clock, behind what was told at the last one: the clock's, but no more than twice what has passed, of which
   a tenth of a second counts at most. */
static uint64_t told_after(uint64_t told, uint64_t looked, uint64_t now) {
    uint64_t passed = now - looked < MOST_STEP ? now - looked : MOST_STEP;
    return told + 2 * passed < now ? told + 2 * passed : now;
}

static uint64_t now(void) {
    pthread_mutex_lock(&telling);
    uint64_t time = begun + micros(CLOCK_MONOTONIC);
    told = told_after(told, looked, time);
    looked = time;
    time = told;
    pthread_mutex_unlock(&telling);
    return time;
}

static void put_number(unsigned char *to, uint64_t number) {
    for (int i = 7; i >= 0; i--, number >>= 8) to[i] = number;
}

static uint64_t number_at(const unsigned char *from) {
    uint64_t number = 0;
    for (int i = 0; i < 8; i++) number = number << 8 | from[i];
    return number;
}

static size_t put_head(unsigned char *to, uint64_t length, uint64_t time) {
    put_number(to, length);
    put_number(to + 8, time);
    return HEAD;
}

static void count(struct counts *to, uint64_t datagrams, uint64_t bytes) {
    atomic_fetch_add_explicit(&to->datagrams, datagrams, memory_order_relaxed);
    atomic_fetch_add_explicit(&to->bytes, bytes, memory_order_relaxed);
}

static int write_whole(int to, const unsigned char *bytes, size_t length) {
    for (size_t at = 0; at < length;) {
        ssize_t n = write(to, bytes + at, length - at);
        if (n < 0 && errno != EINTR) return 0;
        if (n > 0) at += n;
    }
    return 1;
}

/* Appends a datagram to the capture. Where that can't be, the capture ends behind its last whole record. */
static void append(uint64_t time, const unsigned char *datagram, uint32_t length) {
    static unsigned char record[HEAD + LONGEST];
    uint32_t head[4] = { time / 1000000, time % 1000000, length, length };
    memcpy(record, head, HEAD);
    memcpy(record + HEAD, datagram, length);
    lacks = !write_whole(capture, record, HEAD + length);
    if (!lacks) {
        captured += HEAD + length;
        return;
    }
    fprintf(stderr, "sqlive: the capture ends here: %s\n", strerror(errno));
    if (ftruncate(capture, captured)) perror("sqlive: the capture's last record is cut");
}

/* Keeps a datagram that is brought or taken now, where it is to be kept, and tells the time. */
static uint64_t kept(const unsigned char *datagram, size_t length) {
    if (capture < 0) return now();
    pthread_mutex_lock(&capturing);
    uint64_t time = now();
    if (!lacks && length >= TCP && datagram[0] >> 4 == 4 && datagram[PROTOCOL] == TCP_PROTOCOL) append(time, datagram, length);
    pthread_mutex_unlock(&capturing);
    return time;
}

/* The sum of RFC 1071, in this machine's order of bytes, and not negated. */
static uint16_t sum_of(const unsigned char *bytes, size_t length, uint64_t sum) {
    uint32_t word;
    uint16_t last = 0;
    for (; length >= sizeof word; bytes += sizeof word, length -= sizeof word) {
        memcpy(&word, bytes, sizeof word);
        sum += word;
    }
    if (length >= sizeof last) {
        memcpy(&last, bytes, sizeof last);
        sum += last;
        bytes += sizeof last;
        length -= sizeof last;
    }
    last = 0;
    memcpy(&last, bytes, length);
    for (sum += last; sum >> 16;) sum = (sum & 0xffff) + (sum >> 16);
    return sum;
}

static void put_sum(unsigned char *to, uint16_t sum) {
    memcpy(to, &sum, sizeof sum);
}

/* Fills in the checksum that the kernel leaves open. Where it stands there is the sum of what the segment's own bytes don't have. */
static void fill_sum(unsigned char *datagram, size_t length) {
    struct virtio_net_hdr head;
    memcpy(&head, datagram - device_head, sizeof head);
    size_t from = head.csum_start, at = from + head.csum_offset;
    if (head.flags & VIRTIO_NET_HDR_F_NEEDS_CSUM && at + 2 <= length) put_sum(datagram + at, ~sum_of(datagram + from, length - from, 0));
}

/* Whether a datagram is for the whole server, and not for one connection: UDP to the port of systat, or a router's word that a segment didn't arrive. */
static int for_all_rings(const unsigned char *datagram, size_t length) {
    if (length < TCP || datagram[0] >> 4 != 4) return 0;
    size_t header = 4 * (datagram[0] & 15);
    const unsigned char *part = datagram + header;
    if (length < header + LEAST_PART) return 0;
    if (datagram[PROTOCOL] == UDP_PROTOCOL) return part[TARGET_PORT] == SYSTAT >> 8 && part[TARGET_PORT + 1] == (SYSTAT & 0xff);
    return datagram[PROTOCOL] == ICMP_PROTOCOL && (part[0] == UNREACHABLE || part[0] == TIME_EXCEEDED || part[0] == PARAMETER_PROBLEM);
}

/* Posts a datagram to all other queues. Nobody holds a box's lock for longer than it takes to copy what is in it. */
static void post(const struct queue *from, const unsigned char *datagram, size_t length) {
    if (length > LETTER) return;
    for (struct queue *to = all_queues; to < all_queues + queues; to++) {
        if (to == from) continue;
        pthread_mutex_lock(&to->box->lock);
        if (to->box->count < LETTERS) {
            to->box->length[to->box->count] = length;
            memcpy(to->box->letter[to->box->count++], datagram, length);
        }
        pthread_mutex_unlock(&to->box->lock);
    }
}

/* Frames of what was posted to this queue, behind so many bytes that are there. */
static size_t take_letters(struct queue *q, unsigned char *frames, size_t used) {
    pthread_mutex_lock(&q->box->lock);
    for (size_t k = 0; k < q->box->count; k++) {
        size_t length = q->box->length[k];
        memcpy(frames + used + HEAD, q->box->letter[k], length);
        used += put_head(frames + used, length, now()) + length;
    }
    q->box->count = 0;
    pthread_mutex_unlock(&q->box->lock);
    return used;
}

/* Frames of what the device has now, behind so many bytes that are there; -1 where it gives nothing any more. */
static ssize_t take_datagrams(struct queue *q, unsigned char *frames, size_t used) {
    uint64_t datagrams = 0, bytes = 0;
    int over = 0;
    while (used < GATHERED) {
        ssize_t n = read(q->tun, frames + used + HEAD - device_head, device_head + LONGEST) - (ssize_t)device_head;
        if (n <= 0) {
            over = n < 0 && errno != EAGAIN && errno != EINTR;
            break;
        }
        if (device_head) fill_sum(frames + used + HEAD, n);
        if (for_all_rings(frames + used + HEAD, n)) post(q, frames + used + HEAD, n);
        used += put_head(frames + used, n, kept(frames + used + HEAD, n)) + n;
        datagrams++;
        bytes += n;
    }
    count(q->inward, datagrams, bytes);
    return over ? -1 : (ssize_t)used;
}

/* Whether of what was written to a pipe all is taken but for the last so many bytes. */
static int is_taken(int pipe, uint64_t behind) {
    int left;
    return ioctl(pipe, FIONREAD, &left) || (uint64_t)left <= behind;
}

static void *take(void *of) {
    struct queue *q = of;
    unsigned char *frames = malloc(HEAD + LETTERS * (HEAD + LETTER) + GATHERED + HEAD + LONGEST);
    uint64_t next = 0, behind = 0;          /* the time of the next frame without bytes, and how much was written behind the last one */
    while (frames && !ending) {
        uint64_t at = now();
        size_t used = 0;
        if (at >= next && is_taken(q->in, behind)) {
            used = put_head(frames, 0, at);
            next = at + TICK;
        } else {
            struct pollfd waits = { q->tun, POLLIN, 0 };
            poll(&waits, 1, at < next ? (next - at) / 1000 + 1 : 1);
        }
        size_t timed = used;
        used = take_letters(q, frames, used);
        ssize_t length = take_datagrams(q, frames, used);
        if (length < 0) {
            fprintf(stderr, "sqlive: queue %ld of the device gives nothing any more: %s\n", q->number, strerror(errno));
            break;
        }
        if (length && !write_whole(q->in, frames, length)) break;
        behind = timed ? length - timed : behind + length;
    }
    close(q->in);
    return 0;
}

/* A datagram for the device, with those behind it that were joined to it: how long it is, how many they are, and how long the first text is. */
struct joined { unsigned char *datagram; size_t length, count, text; };

/* What the device refuses is lost, as on any wire. */
static void put_datagram(struct queue *q, struct joined *all) {
    if (!all->count) return;
    if (device_head) {
        struct virtio_net_hdr head = { 0 };
        if (all->count > 1) {
            unsigned char *ip = all->datagram;
            ip[IP_LENGTH] = all->length >> 8;
            ip[IP_LENGTH + 1] = all->length;
            put_sum(ip + IP_SUM, 0);
            put_sum(ip + IP_SUM, ~sum_of(ip, TCP, 0));
            put_sum(ip + TCP_SUM, sum_of(ip + ENDS, TCP - ENDS, htons(TCP_PROTOCOL) + htons(all->length - TCP)));
            head = (struct virtio_net_hdr){ .flags = VIRTIO_NET_HDR_F_NEEDS_CSUM, .gso_type = VIRTIO_NET_HDR_GSO_TCPV4, .hdr_len = TEXT, .gso_size = all->text,
                                            .csum_start = TCP, .csum_offset = TCP_SUM - TCP };
        }
        memcpy(all->datagram - device_head, &head, device_head);
    }
    kept(all->datagram, all->length);
    if (write(q->tun, all->datagram - device_head, device_head + all->length) < 0)
        atomic_fetch_add_explicit(&q->outward->refused, all->count, memory_order_relaxed);
    all->count = 0;
}

/* Whether a datagram is a segment with text over IPv4, neither with options, that only acknowledges and may push. */
static int is_plain(const unsigned char *datagram, size_t length) {
    return length > TEXT && datagram[0] == 0x45 && datagram[PROTOCOL] == TCP_PROTOCOL && datagram[32] == 0x50 && (datagram[FLAGS] & ~PSH_FLAG) == ACK_FLAG;
}

static uint32_t seq_of(const unsigned char *datagram) {
    uint32_t seq;
    memcpy(&seq, datagram + SEQ, sizeof seq);
    return ntohl(seq);
}

/* Whether the text of this plain segment goes on where the joined one's ends, and nothing else of it is new. A shorter text, or a push, ends a row. */
static int goes_on(const struct joined *all, const unsigned char *datagram, size_t length) {
    const unsigned char *first = all->datagram;
    return all->length == TEXT + all->count * all->text && length - TEXT <= all->text && all->length + length - TEXT <= LONGEST && !(first[FLAGS] & PSH_FLAG)
        && !memcmp(first + ENDS, datagram + ENDS, SEQ - ENDS) && !memcmp(first + ACK, datagram + ACK, 4) && !memcmp(first + WINDOW, datagram + WINDOW, 2)
        && seq_of(datagram) == (uint32_t)(seq_of(first) + all->length - TEXT);
}

/* Joins a datagram to those that wait, or gives these to the device, and it waits in their place. */
static void join(struct queue *q, struct joined *all, unsigned char *datagram, size_t length) {
    int plain = device_head && is_plain(datagram, length);
    if (plain && all->count && all->text && goes_on(all, datagram, length)) {
        all->datagram[FLAGS] = datagram[FLAGS];
        memmove(all->datagram + all->length, datagram + TEXT, length - TEXT);
        all->length += length - TEXT;
        all->count++;
        return;
    }
    put_datagram(q, all);
    *all = (struct joined){ datagram, length, 1, plain ? length - TEXT : 0 };
}

/* How many of these bytes are whole frames, whose datagrams the device got; -1 where they are no frames. */
static ssize_t give_datagrams(struct queue *q, unsigned char *frames, size_t length) {
    size_t at = 0;
    uint64_t datagrams = 0, bytes = 0;
    struct joined all = { 0 };
    while (length - at >= HEAD) {
        uint64_t size = number_at(frames + at);
        if (size > LONGEST) return -1;
        if (length - at - HEAD < size) break;
        if (size) join(q, &all, frames + at + HEAD, size);
        datagrams++;
        bytes += size;
        at += HEAD + size;
    }
    put_datagram(q, &all);
    count(q->outward, datagrams, bytes);
    return at;
}

static void *give(void *of) {
    struct queue *q = of;
    size_t room = GATHERED + HEAD + LONGEST, have = 0;
    unsigned char *frames = malloc(room);
    ssize_t n;
    while (frames && ((n = read(q->out, frames + have, room - have)) > 0 || (n < 0 && errno == EINTR))) {
        have += n < 0 ? 0 : n;
        ssize_t given = give_datagrams(q, frames, have);
        if (given < 0) {
            fprintf(stderr, "sqlive: what ring %ld writes is no frame\n", q->number);
            break;
        }
        have -= given;
        memmove(frames, frames + given, have);
    }
    close(q->out);
    return 0;
}

static void *await_end(void *signals) {
    int got;
    sigwait(signals, &got);
    ending = 1;
    return 0;
}

int main(int words, char **word) {
    if (words < 7 || words % 3 != 1) {
        fputs("usage: queues JOIN COUNTS CAPTURE TUN IN OUT [TUN IN OUT ..]\n", stderr);
        return 2;
    }
    queues = (words - 4) / 3;
    device_head = atoi(word[1]) ? sizeof(struct virtio_net_hdr) : 0;
    struct queue *of = all_queues = calloc(queues, sizeof *of);
    struct box *boxes = calloc(queues, sizeof *boxes);
    struct counts *counts = mmap(0, 2 * queues * sizeof *counts, PROT_READ | PROT_WRITE, MAP_SHARED, atoi(word[2]), 0);
    if (!of || !boxes || counts == MAP_FAILED) {
        perror("sqlive: queues.c");
        return 1;
    }
    begun = micros(CLOCK_REALTIME) - micros(CLOCK_MONOTONIC);
    told = looked = begun + micros(CLOCK_MONOTONIC);
    capture = atoi(word[3]);
    captured = lseek(capture, 0, SEEK_CUR);
    signal(SIGPIPE, SIG_IGN);
    signal(SIGXFSZ, SIG_IGN);
    sigset_t end;
    sigemptyset(&end);
    sigaddset(&end, SIGTERM);
    pthread_sigmask(SIG_BLOCK, &end, 0);
    pthread_t other;
    int failed = pthread_create(&other, 0, await_end, &end);
    for (long k = 0; k < queues; k++) {
        char **its = word + 4 + 3 * k;
        of[k] = (struct queue){ atoi(its[0]), atoi(its[1]), atoi(its[2]), k, counts + 2 * k, counts + 2 * k + 1, 0, boxes + k };
        pthread_mutex_init(&of[k].box->lock, 0);
        fcntl(of[k].tun, F_SETFL, O_NONBLOCK);
    }
    for (long k = 0; k < queues; k++)
        failed |= pthread_create(&of[k].reads, 0, give, of + k) || pthread_create(&other, 0, take, of + k);
    if (failed) {
        fputs("sqlive: queues.c: no threads\n", stderr);
        return 1;
    }
    for (long k = 0; k < queues; k++) pthread_join(of[k].reads, 0);
    return lacks;
}
