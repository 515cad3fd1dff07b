/* A client over lwIP's TCP: lwip_client DEVICE CLIENT FIRST SERVER PORT COUNT QUIET
 *
 * Opens COUNT connections to the server at once, from CLIENT's ports FIRST, FIRST + 1 and so on. On each it sends all of standard
 * input, reading at the same time, and half closes behind the last byte. What came back goes to standard output, one connection behind
 * the other. DEVICE is a descriptor whose reads and writes are whole IPv4 datagrams. Having closed, it serves the device until QUIET
 * milliseconds went by without a datagram, so that a lost acknowledgement of the server's FIN is sent again. Status 0: each connection
 * was read to its end, and none was reset.
 *
 * No thread of lwIP is started: this loop gives lwIP its datagrams and its time.
 */
#include <poll.h>
#include <stdio.h>
#include <stdlib.h>
#include <unistd.h>
#include <lwip/init.h>
#include <lwip/ip.h>
#include <lwip/tcp.h>
#include <lwip/timeouts.h>

struct conn { size_t sent, got, room; int shut; char *back; };

static int device, open_now;
static char *text;
static size_t size;

static void fail(const char *what, int error)
{
    fprintf(stderr, "lwip_client: %s, error %d\n", what, error);
    exit(1);
}

static err_t to_device(struct netif *netif, struct pbuf *p, const ip4_addr_t *to)
{
    char datagram[65536];
    pbuf_copy_partial(p, datagram, p->tot_len, 0);
    if (write(device, datagram, p->tot_len) < 0)
        fprintf(stderr, "lwip_client: a datagram was lost at the device\n");
    return ERR_OK;
}

static err_t set_up(struct netif *netif)
{
    netif->name[0] = 't';
    netif->name[1] = 'u';
    netif->mtu = 1500;
    netif->output = to_device;
    return ERR_OK;
}

/* Gives lwIP what it has room for, and the end behind it. */
static err_t send_more(struct conn *c, struct tcp_pcb *pcb)
{
    while (c->sent < size && tcp_sndbuf(pcb)) {
        size_t n = size - c->sent < tcp_sndbuf(pcb) ? size - c->sent : tcp_sndbuf(pcb);
        n = n < 4096 ? n : 4096;
        err_t error = tcp_write(pcb, text + c->sent, n, TCP_WRITE_FLAG_COPY);
        if (error == ERR_MEM)
            break;                        /* its queue is full: acknowledgements and the poll bring us here again */
        if (error)
            fail("tcp_write", error);
        c->sent += n;
    }
    if (c->sent == size && !c->shut && tcp_shutdown(pcb, 0, 1) == ERR_OK)
        c->shut = 1;
    return tcp_output(pcb);
}

static err_t on_connected(void *c, struct tcp_pcb *pcb, err_t error) { return send_more(c, pcb); }
static err_t on_sent(void *c, struct tcp_pcb *pcb, u16_t length) { return send_more(c, pcb); }
static err_t on_poll(void *c, struct tcp_pcb *pcb) { return send_more(c, pcb); }
static void on_error(void *c, err_t error) { fail("a connection was lost", error); }

static err_t on_text(void *arg, struct tcp_pcb *pcb, struct pbuf *p, err_t error)
{
    struct conn *c = arg;
    if (!p) {
        if (!c->shut)
            fail("the server's end came before ours", 0);
        open_now--;
        tcp_arg(pcb, NULL);
        tcp_recv(pcb, NULL);
        tcp_sent(pcb, NULL);
        tcp_poll(pcb, NULL, 0);
        tcp_err(pcb, NULL);
        return tcp_close(pcb);
    }
    if (c->got + p->tot_len > c->room && !(c->back = realloc(c->back, c->room = 2 * c->room + p->tot_len)))
        fail("memory", 0);
    pbuf_copy_partial(p, c->back + c->got, p->tot_len, 0);
    c->got += p->tot_len;
    tcp_recved(pcb, p->tot_len);
    pbuf_free(p);
    return ERR_OK;
}

/* Serves the device for at most so many milliseconds; whether a datagram came. */
static int serve(struct netif *netif, int wait)
{
    char datagram[65536];
    struct pollfd at = { .fd = device, .events = POLLIN };
    u32_t sleep = sys_timeouts_sleeptime();
    int came = poll(&at, 1, sleep < (u32_t)wait ? (int)sleep : wait) > 0;
    if (came) {
        ssize_t n = read(device, datagram, sizeof datagram);
        struct pbuf *p = n > 0 ? pbuf_alloc(PBUF_RAW, n, PBUF_RAM) : NULL;
        if (!p)
            fail("the device", (int)n);
        pbuf_take(p, datagram, n);
        if (netif->input(p, netif) != ERR_OK)
            pbuf_free(p);
    }
    sys_check_timeouts();
    return came;
}

int main(int words, char **word)
{
    static struct netif netif;
    ip4_addr_t here, mask, gateway;
    ip_addr_t server;
    if (words != 8 || !ip4addr_aton(word[2], &here) || !ipaddr_aton(word[4], &server))
        fail("words: DEVICE CLIENT FIRST SERVER PORT COUNT QUIET", words);
    device = atoi(word[1]);
    int count = open_now = atoi(word[6]);
    for (size_t room = 0, n = 1; n; size += n) {
        if (size == room && !(text = realloc(text, room = 2 * room + 65536)))
            fail("memory", 0);
        n = fread(text + size, 1, room - size, stdin);
    }
    lwip_init();
    IP4_ADDR(&mask, 255, 255, 255, 0);
    ip4_addr_set_zero(&gateway);
    netif_add(&netif, &here, &mask, &gateway, NULL, set_up, ip_input);
    netif_set_default(&netif);
    netif_set_up(&netif);
    netif_set_link_up(&netif);

    struct conn *conns = calloc(count, sizeof *conns);
    for (int i = 0; i < count; i++) {
        struct tcp_pcb *pcb = tcp_new();
        if (!pcb)
            fail("tcp_new", 0);
        tcp_arg(pcb, &conns[i]);
        tcp_recv(pcb, on_text);
        tcp_sent(pcb, on_sent);
        tcp_poll(pcb, on_poll, 1);
        tcp_err(pcb, on_error);
        err_t error = tcp_bind(pcb, IP_ANY_TYPE, atoi(word[3]) + i);
        if (error || (error = tcp_connect(pcb, &server, atoi(word[5]), on_connected)))
            fail("tcp_connect", error);
    }
    while (open_now)
        serve(&netif, 100);
    for (u32_t last = sys_now(), quiet = atoi(word[7]); sys_now() - last < quiet;)
        if (serve(&netif, 10))
            last = sys_now();
    for (int i = 0; i < count; i++)
        fwrite(conns[i].back, 1, conns[i].got, stdout);
    return fflush(stdout) ? 1 : 0;
}
