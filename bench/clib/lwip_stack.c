/* Echo by lwIP's raw API, as its own raw echo does it: what came is written in the callback. No thread of lwIP is started. */
#include <lwip/init.h>
#include <lwip/ip.h>
#include <lwip/tcp.h>
#include <lwip/timeouts.h>
#include <stdlib.h>
#include <string.h>
#include "stack.h"

enum { SLOTS = 64 };

static struct netif device;
static uint8_t sent[SLOTS][2048];
static size_t sizes[SLOTS], first, last;

static err_t sends(struct netif *netif, struct pbuf *p, const ip4_addr_t *to) {
    (void)netif, (void)to;
    if (last - first == SLOTS || p->tot_len > sizeof sent[0]) abort();
    sizes[last % SLOTS] = p->tot_len;
    pbuf_copy_partial(p, sent[last++ % SLOTS], p->tot_len, 0);
    return ERR_OK;
}

static err_t made(struct netif *netif) {
    netif->name[0] = 't';
    netif->name[1] = 'u';
    netif->mtu = 1500;
    netif->output = sends;
    return ERR_OK;
}

static err_t comes(void *arg, struct tcp_pcb *pcb, struct pbuf *p, err_t error) {
    (void)arg, (void)error;
    if (!p) return tcp_close(pcb);
    for (struct pbuf *part = p; part; part = part->next)
        if (tcp_write(pcb, part->payload, part->len, TCP_WRITE_FLAG_COPY) != ERR_OK) abort();
    tcp_recved(pcb, p->tot_len);
    pbuf_free(p);
    return ERR_OK;
}

static err_t accepted(void *arg, struct tcp_pcb *pcb, err_t error) {
    (void)arg;
    if (error != ERR_OK) abort();
    tcp_nagle_disable(pcb);
    tcp_recv(pcb, comes);
    return ERR_OK;
}

void stack_opens(size_t connections) {
    (void)connections;
    ip4_addr_t here, mask, gateway;
    IP4_ADDR(&here, 10, 9, 0, 2);
    IP4_ADDR(&mask, 255, 255, 255, 0);
    ip4_addr_set_zero(&gateway);
    lwip_init();
    netif_add(&device, &here, &mask, &gateway, NULL, made, ip_input);
    netif_set_default(&device);
    netif_set_up(&device);
    netif_set_link_up(&device);
    struct tcp_pcb *pcb = tcp_new();
    if (!pcb || tcp_bind(pcb, IP_ADDR_ANY, 7) != ERR_OK || !(pcb = tcp_listen_with_backlog(pcb, 255))) abort();
    tcp_accept(pcb, accepted);
}

void stack_hears(uint64_t now, const uint8_t *datagram, size_t n) {
    (void)now;
    struct pbuf *p = pbuf_alloc(PBUF_RAW, (u16_t)n, PBUF_RAM);
    if (!p) abort();
    pbuf_take(p, datagram, (u16_t)n);
    if (device.input(p, &device) != ERR_OK) abort();
}

void stack_ticks(uint64_t now) {
    (void)now;
    sys_check_timeouts();
}

size_t stack_says(uint8_t *room) {
    if (first == last) return 0;
    size_t n = sizes[first % SLOTS];
    memcpy(room, sent[first++ % SLOTS], n);
    return n;
}
