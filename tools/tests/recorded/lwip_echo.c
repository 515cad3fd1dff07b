/* An echo server (port 7) and a discard server (port 9) over lwIP's TCP: lwip_echo DEVICE ADDRESS LOSS
 *
 * DEVICE is a descriptor whose reads and writes are whole IPv4 datagrams; of those that it reads each LOSS-th is lost (0: none). It
 * serves until the device is closed. No thread of lwIP is started: this loop gives lwIP its datagrams and its time.
 */
#include <poll.h>
#include <stdio.h>
#include <stdlib.h>
#include <string.h>
#include <unistd.h>
#include <lwip/init.h>
#include <lwip/ip.h>
#include <lwip/tcp.h>
#include <lwip/timeouts.h>

/* A connection's text that wasn't sent back yet, and whether the client's end came. */
struct conn { struct pbuf *held; u16_t at; int ended; };

static int device;

static err_t to_device(struct netif *netif, struct pbuf *p, const ip4_addr_t *to)
{
    char datagram[65536];
    pbuf_copy_partial(p, datagram, p->tot_len, 0);
    if (write(device, datagram, p->tot_len) < 0)
        fprintf(stderr, "lwip_echo: a datagram was lost at the device\n");
    return ERR_OK;
}

static err_t set_up(struct netif *netif)
{
    netif->name[0] = 't';
    netif->name[1] = 'u';
    netif->mtu = 1500;
    netif->output = to_device;
    return ERR_OK;
}

/* Sends back what there is room for, and closes behind the last byte. */
static err_t send_back(struct conn *c, struct tcp_pcb *pcb)
{
    while (c->held && tcp_sndbuf(pcb)) {
        u16_t left = c->held->len - c->at, n = left < tcp_sndbuf(pcb) ? left : tcp_sndbuf(pcb);
        if (tcp_write(pcb, (char *)c->held->payload + c->at, n, TCP_WRITE_FLAG_COPY))
            break;
        c->at += n;
        if (c->at == c->held->len) {
            struct pbuf *next = c->held->next;
            u16_t length = c->held->len;
            if (next)
                pbuf_ref(next);
            pbuf_free(c->held);
            c->held = next;
            c->at = 0;
            tcp_recved(pcb, length);
        }
    }
    tcp_output(pcb);
    if (c->ended && !c->held) {
        tcp_arg(pcb, NULL);
        tcp_recv(pcb, NULL);
        tcp_sent(pcb, NULL);
        tcp_poll(pcb, NULL, 0);
        tcp_err(pcb, NULL);
        free(c);
        return tcp_close(pcb);
    }
    return ERR_OK;
}

static err_t on_sent(void *c, struct tcp_pcb *pcb, u16_t length) { return send_back(c, pcb); }
static err_t on_poll(void *c, struct tcp_pcb *pcb) { return c ? send_back(c, pcb) : ERR_OK; }
static void on_error(void *c, err_t error) { free(c); }

static err_t on_text(void *arg, struct tcp_pcb *pcb, struct pbuf *p, err_t error)
{
    struct conn *c = arg;
    if (!p)
        c->ended = 1;
    else if (pcb->local_port == 9) {
        tcp_recved(pcb, p->tot_len);
        pbuf_free(p);
    } else if (c->held)
        pbuf_cat(c->held, p);
    else
        c->held = p;
    return send_back(c, pcb);
}

static err_t on_open(void *arg, struct tcp_pcb *pcb, err_t error)
{
    struct conn *c = calloc(1, sizeof *c);
    if (!c)
        return ERR_MEM;
    tcp_arg(pcb, c);
    tcp_recv(pcb, on_text);
    tcp_sent(pcb, on_sent);
    tcp_poll(pcb, on_poll, 1);
    tcp_err(pcb, on_error);
    return ERR_OK;
}

static void listen_at(int port)
{
    struct tcp_pcb *pcb = tcp_new();
    if (tcp_bind(pcb, IP_ANY_TYPE, port) || !(pcb = tcp_listen(pcb)))
        exit(1);
    tcp_accept(pcb, on_open);
}

int main(int words, char **word)
{
    static struct netif netif;
    ip4_addr_t here, mask, gateway;
    if (words != 4 || !ip4addr_aton(word[2], &here))
        return 2;
    int loss = atoi(word[3]), count = 0;
    device = atoi(word[1]);
    lwip_init();
    IP4_ADDR(&mask, 255, 255, 255, 0);
    ip4_addr_set_zero(&gateway);
    netif_add(&netif, &here, &mask, &gateway, NULL, set_up, ip_input);
    netif_set_default(&netif);
    netif_set_up(&netif);
    netif_set_link_up(&netif);
    listen_at(7);
    listen_at(9);
    for (;;) {
        char datagram[65536];
        struct pollfd at = { .fd = device, .events = POLLIN };
        u32_t sleep = sys_timeouts_sleeptime();
        if (poll(&at, 1, sleep < 100 ? (int)sleep : 100) > 0) {
            ssize_t n = read(device, datagram, sizeof datagram);
            if (n <= 0)
                return 0;
            if (loss && ++count % loss == 0)
                continue;
            struct pbuf *p = pbuf_alloc(PBUF_RAW, n, PBUF_RAM);
            if (p) {
                pbuf_take(p, datagram, n);
                if (netif.input(p, &netif) != ERR_OK)
                    pbuf_free(p);
            }
        }
        sys_check_timeouts();
    }
}
