/* lwIP over one receive and one transmit queue, with two servers. Port 7 echoes. Port 80 answers `GET /N` with N bytes, of which byte k is k
 * modulo 251. All of lwIP runs in the driver's thread, so it needs no lock and none of lwIP's own threads. */
#include "port.h"

#include <lwip/etharp.h>
#include <lwip/init.h>
#include <lwip/netif.h>
#include <lwip/pbuf.h>
#include <lwip/tcp.h>
#include <lwip/timeouts.h>
#include <netif/ethernet.h>

#include <inttypes.h>
#include <stdio.h>
#include <stdlib.h>
#include <string.h>
#include <unistd.h>

enum {
    DESCRIPTORS = 256,
    MTU = 1500,
    LEAST_MTU = 576,
    MOST_MTU = 9000,
    ECHO_PORT = 7,
    HTTP_PORT = 80,
    PERIOD = 251,        /* of the bytes of a page. It is prime, so a lost or repeated block shows */
    PIECE = 4 * TCP_MSS, /* bytes handed to lwIP at once */
    REQUEST_ROOM = 1024,
    POLL_HALF_SECONDS = 1, /* between two attempts when lwIP had no memory */
};

struct stack {
    struct port *port;
    struct worker *receives, *transmits; /* two, because a transmit queue posts a worker's oldest packets */
    struct netif netif;
    uint16_t mtu;
    uint64_t without_pbuf, without_room; /* frames that were lost for want of a pbuf, or of room in the transmit queue */
    uint8_t frame[MOST_MTU + SIZEOF_ETH_HDR];
    uint8_t pattern[PERIOD + PIECE];
};

struct connection {
    struct stack *stack;
    struct tcp_pcb *pcb;
    bool echoes, ended;  /* ended: the client sends no more */
    struct pbuf *unsent; /* echo: received, and not sent back */
    char request[REQUEST_ROOM];
    size_t have;
    bool answering;
    uint64_t at, end;    /* the next byte of the page, and its length */
};

/* ---- The network interface. */

static err_t output(struct netif *netif, struct pbuf *p)
{
    struct stack *stack = netif->state;
    const uint8_t *bytes = p->payload;
    if (p->tot_len > sizeof stack->frame)
        return ERR_BUF;
    if (p->next) {
        pbuf_copy_partial(p, stack->frame, p->tot_len, 0);
        bytes = stack->frame;
    }
    if (worker_put(stack->transmits, bytes, p->tot_len))
        return ERR_OK;
    port_post(stack->port, stack->transmits);
    if (worker_put(stack->transmits, bytes, p->tot_len))
        return ERR_OK;
    stack->without_room++;
    return ERR_MEM; /* TCP sends it again */
}

/* The hardware address is locally administered, and ends with the IPv4 address. */
static err_t begin(struct netif *netif)
{
    const struct stack *stack = netif->state;
    netif->name[0] = 'p';
    netif->name[1] = '8';
    netif->output = etharp_output;
    netif->linkoutput = output;
    netif->mtu = stack->mtu;
    netif->hwaddr_len = ETH_HWADDR_LEN;
    netif->hwaddr[0] = 0x02;
    netif->hwaddr[1] = 0x82;
    memcpy(netif->hwaddr + 2, netif_ip4_addr(netif), sizeof(ip4_addr_t));
    netif->flags = NETIF_FLAG_BROADCAST | NETIF_FLAG_ETHARP | NETIF_FLAG_ETHERNET | NETIF_FLAG_LINK_UP;
    return ERR_OK;
}

/* Hands the oldest packet to lwIP. */
static void input(struct stack *stack)
{
    uint8_t none;
    size_t len = worker_copy(stack->receives, 0, &none, 0);
    struct pbuf *p = pbuf_alloc(PBUF_RAW, (u16_t)len, PBUF_RAM);
    if (p) {
        worker_copy(stack->receives, 0, p->payload, len);
        if (ethernet_input(p, &stack->netif) != ERR_OK)
            pbuf_free(p);
    } else
        stack->without_pbuf++;
    worker_free(stack->receives, 0);
}

static enum turn turn(void *context)
{
    struct stack *stack = context;
    size_t taken = port_take(stack->port, stack->receives);
    for (size_t packet = 0; packet < taken; packet++)
        input(stack);
    sys_check_timeouts();
    if (port_post(stack->port, stack->transmits) || taken)
        return TURN_MOVED;
    return worker_packets(stack->transmits) ? TURN_WAITING : TURN_IDLE;
}

/* ---- The servers. */

static void forget(struct connection *c)
{
    if (c->unsent)
        pbuf_free(c->unsent);
    free(c);
}

/* A callback of lwIP has to return what this returns. */
static err_t hang_up(struct connection *c)
{
    struct tcp_pcb *pcb = c->pcb;
    tcp_arg(pcb, 0);
    tcp_recv(pcb, 0);
    tcp_sent(pcb, 0);
    tcp_err(pcb, 0);
    tcp_poll(pcb, 0, 0);
    forget(c);
    if (tcp_close(pcb) == ERR_OK)
        return ERR_OK;
    tcp_abort(pcb);
    return ERR_ABRT;
}

/* Sends back what fits. lwIP's window opens by the same amount, so `unsent` never holds more than a window. */
static void echo(struct connection *c)
{
    while (c->unsent) {
        struct pbuf *first = c->unsent;
        if (first->len > tcp_sndbuf(c->pcb) || tcp_write(c->pcb, first->payload, first->len, TCP_WRITE_FLAG_COPY) != ERR_OK)
            return;
        tcp_recved(c->pcb, first->len);
        c->unsent = first->next;
        if (c->unsent)
            pbuf_ref(c->unsent);
        pbuf_free(first); /* and takes one reference to the rest */
    }
}

static void send_page(struct connection *c)
{
    while (c->at < c->end) {
        uint64_t left = c->end - c->at, room = tcp_sndbuf(c->pcb), len = left < PIECE ? left : PIECE;
        if (len > room)
            len = room;
        if (len < left && len < TCP_MSS) /* no short segment within a page */
            return;
        if (tcp_write(c->pcb, c->stack->pattern + c->at % PERIOD, (u16_t)len, 0) != ERR_OK)
            return;
        c->at += len;
    }
}

static void answer(struct connection *c)
{
    char digits[11], head[96];
    uint32_t bytes = 0;
    bool found = sscanf(c->request, "GET /%10[0-9] ", digits) == 1 && read_number(digits, 0, UINT32_MAX, &bytes);
    int len = snprintf(head, sizeof head, "HTTP/1.0 %s\r\nContent-Length: %" PRIu32 "\r\n\r\n", found ? "200 OK" : "404 Not Found", bytes);
    c->end = bytes;
    c->answering = tcp_write(c->pcb, head, (u16_t)len, TCP_WRITE_FLAG_COPY) == ERR_OK;
    c->ended |= !c->answering;
}

/* Collects a request up to its empty line. One that is too long is answered as far as it was read. */
static void read_request(struct connection *c, struct pbuf *p)
{
    if (!c->answering) {
        c->have += pbuf_copy_partial(p, c->request + c->have, (u16_t)(sizeof c->request - 1 - c->have), 0);
        c->request[c->have] = 0;
        if (strstr(c->request, "\r\n\r\n") || c->have == sizeof c->request - 1)
            answer(c);
    }
    tcp_recved(c->pcb, p->tot_len);
    pbuf_free(p);
}

static err_t serve(struct connection *c)
{
    bool over;
    if (c->echoes) {
        echo(c);
        over = c->ended && !c->unsent;
    } else {
        send_page(c);
        over = c->answering ? c->at == c->end : c->ended;
    }
    tcp_output(c->pcb);
    return over ? hang_up(c) : ERR_OK;
}

static err_t on_receive(void *arg, struct tcp_pcb *pcb, struct pbuf *p, err_t err)
{
    struct connection *c = arg;
    (void)pcb, (void)err;
    if (!p)
        c->ended = true;
    else if (!c->echoes)
        read_request(c, p);
    else if (c->unsent)
        pbuf_cat(c->unsent, p);
    else
        c->unsent = p;
    return serve(c);
}

static err_t on_sent(void *arg, struct tcp_pcb *pcb, u16_t len)
{
    (void)pcb, (void)len;
    return serve(arg);
}

static err_t on_poll(void *arg, struct tcp_pcb *pcb)
{
    (void)pcb;
    return serve(arg);
}

static void on_error(void *arg, err_t err)
{
    (void)err;
    forget(arg);
}

static err_t on_accept(void *arg, struct tcp_pcb *pcb, err_t err)
{
    struct connection *c = err == ERR_OK && pcb ? calloc(1, sizeof *c) : 0;
    if (!c)
        return ERR_MEM;
    c->stack = arg;
    c->pcb = pcb;
    c->echoes = pcb->local_port == ECHO_PORT;
    tcp_arg(pcb, c);
    tcp_recv(pcb, on_receive);
    tcp_sent(pcb, on_sent);
    tcp_err(pcb, on_error);
    tcp_poll(pcb, on_poll, POLL_HALF_SECONDS);
    return ERR_OK;
}

static bool listen_at(struct stack *stack, u16_t number)
{
    struct tcp_pcb *pcb = tcp_new();
    if (!pcb || tcp_bind(pcb, IP_ADDR_ANY, number) != ERR_OK || !(pcb = tcp_listen(pcb)))
        return false;
    tcp_arg(pcb, stack);
    tcp_accept(pcb, on_accept);
    return true;
}

/* ---- The program. */

static bool start(struct stack *stack, const ip4_addr_t *address)
{
    ip4_addr_t mask, gateway;
    IP4_ADDR(&mask, 255, 255, 255, 0);
    ip4_addr_set_zero(&gateway);
    for (size_t k = 0; k < sizeof stack->pattern; k++)
        stack->pattern[k] = (uint8_t)(k % PERIOD);
    lwip_init();
    if (!netif_add(&stack->netif, address, &mask, &gateway, stack, begin, ethernet_input))
        return false;
    netif_set_default(&stack->netif);
    netif_set_up(&stack->netif);
    return listen_at(stack, ECHO_PORT) && listen_at(stack, HTTP_PORT);
}

static int run(struct stack *stack, const char *name, const ip4_addr_t *address)
{
    struct port_options options = {.descriptors = DESCRIPTORS};
    struct driver *driver = driver_new();
    if (!driver || !(stack->port = port_open(driver, name, &options)) || !(stack->receives = worker_new()) || !(stack->transmits = worker_new()))
        return 1;
    if (!start(stack, address)) {
        fprintf(stderr, "stack: lwIP does not start\n");
        return 1;
    }
    driver_run(driver, turn, stack);
    port_reclaim(stack->port, stack->receives, stack->transmits);
    bool whole = driver_close(driver);
    whole &= worker_close(stack->receives);
    whole &= worker_close(stack->transmits);
    printf("stack without-pbuf %" PRIu64 " without-room %" PRIu64 "\n", stack->without_pbuf, stack->without_room);
    return whole ? 0 : 1;
}

static int usage(void)
{
    fprintf(stderr, "usage: stack [-m MTU] PORT ADDRESS\n"
                    "  PORT     pkt:INTERFACE or tap:INTERFACE, with @NAMESPACE if it is in another network namespace\n"
                    "  ADDRESS  lwIP's IPv4 address, in a network of 24 bits\n"
                    "  -m       576 to 9,000 (1,500)\n");
    return 2;
}

int main(int count, char **words)
{
    static struct stack stack;
    uint32_t mtu = MTU;
    ip4_addr_t address;
    bool understood = true;
    int option;
    while ((option = getopt(count, words, "m:")) != -1)
        understood &= option == 'm' && read_number(optarg, LEAST_MTU, MOST_MTU, &mtu);
    if (!understood || count - optind != 2 || !ip4addr_aton(words[optind + 1], &address))
        return usage();
    stack.mtu = (uint16_t)mtu;
    return run(&stack, words[optind], &address);
}
