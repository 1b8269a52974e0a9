#include "harness.h"

#include <string.h>

enum { MOST_PENDING = 2048, SHORT_FRAME = 200, STEPS_PER_TURN = 24, DRAIN_TURNS = 200000 };

/* A forwarder: frames that were received and wait to be transmitted. */
struct forwarder {
    struct rte_mbuf *pending[MOST_PENDING];
    unsigned count;
};

unsigned random_below(struct harness *h, unsigned limit)
{
    uint64_t z = h->random += 0x9e3779b97f4a7c15; /* splitmix64 */
    z = (z ^ z >> 30) * 0xbf58476d1ce4e5b9;
    z = (z ^ z >> 27) * 0x94d049bb133111eb;
    return (unsigned)((z ^ z >> 31) >> 32) % limit;
}

/* Begins a frame, if the descriptors that the device knows of hold all of it. Two of three frames are short, to fill rings with many. */
static bool begin_frame(struct harness *h)
{
    struct rx_device *d = &h->rx;
    unsigned most = h->path->scattered ? MOST_FRAME : SEGMENT;
    if (h->drains)
        return false;
    d->left = LEAST_FRAME + random_below(h, random_below(h, 3) ? SHORT_FRAME : most - LEAST_FRAME + 1);
    return (d->left + SEGMENT - 1) / SEGMENT <= places_between(h, d->use, d->known);
}

static void random_rx_step(struct harness *h)
{
    struct rx_device *d = &h->rx;
    unsigned length = d->left < SEGMENT ? d->left : SEGMENT;
    if (d->holds) {
        d->left -= length;
        write_back_rx(h, length, d->left == 0);
        return;
    }
    switch (random_below(h, 16)) {
    case 0:
        load_rx_tail(h);
        break;
    case 1:
        store_rx_head(h);
        break;
    default:
        if (d->in_frame || begin_frame(h))
            fetch_rx(h);
    }
}

static void random_tx_step(struct harness *h)
{
    if (report_tx(h) || send_tx(h))
        return;
    if (random_below(h, 4) == 0)
        load_tx_tail(h);
    else
        fetch_tx(h);
}

/* Lets the device try one step. It may be impossible, and then nothing happens. */
void random_step(struct harness *h, enum direction way)
{
    if (way == RX)
        random_rx_step(h);
    else
        random_tx_step(h);
}

/* Lets the device end what it has begun, as it must before it answers that a queue is disabled. */
void settle(struct harness *h, enum direction way)
{
    while (way == RX ? h->rx.holds || h->rx.in_frame : h->tx.holds || h->tx.in_frame || h->tx.owes)
        random_step(h, way);
    if (way == RX && h->controls[RX].serves && *reg(h, RDH) != h->rx.use)
        store_rx_head(h);
}

static void receive_some(struct harness *h, struct forwarder *f)
{
    unsigned ask = refills_in_place(h) ? 1 + random_below(h, BURST) : BURST;
    if (f->count + BURST <= MOST_PENDING)
        f->count += receive(h, f->pending + f->count, ask);
}

static void transmit_some(struct harness *h, struct forwarder *f)
{
    unsigned ask = 1 + random_below(h, BURST), done;
    if (f->count == 0)
        return;
    done = transmit(h, f->pending, ask < f->count ? ask : f->count);
    f->count -= done;
    memmove(f->pending, f->pending + done, f->count * sizeof *f->pending);
}

/* Five turns of eight are the device's. */
static void take_turn(struct harness *h, struct forwarder *f)
{
    unsigned what = random_below(h, 8);
    if (what == 7)
        transmit_some(h, f);
    else if (what >= 5)
        receive_some(h, f);
    else
        for (unsigned k = random_below(h, STEPS_PER_TURN); k > 0; k--)
            random_step(h, what % 2 ? RX : TX);
}

static void run_epoch(struct harness *h, bool is_last)
{
    struct forwarder f = {.count = 0};
    unsigned turn = 0;
    start(h);
    h->drains = false;
    for (; turn < h->options.turns; turn++)
        take_turn(h, &f);
    h->drains = is_last;
    for (; is_last && (h->rx.holds || h->rx.in_frame || f.count || h->tx.bytes < h->rx.bytes); turn++) {
        if (turn == h->options.turns + DRAIN_TURNS)
            fault(h, "frames do not leave: stored %lu, taken %lu, posted %lu, sent %lu", h->counts.stored, h->counts.taken,
                h->counts.posted, h->counts.sent);
        take_turn(h, &f);
    }
    stop(h);
    for (unsigned k = 0; k < f.count; k++)
        rte_pktmbuf_free(f.pending[k]);
    if (!rte_mempool_full(h->pool))
        fault(h, "%u buffers are missing after the queues were stopped", rte_mempool_in_use_count(h->pool));
}

/* Queues that are started, used and stopped. In the last epoch all frames leave before the queues are stopped. */
void run_traffic(struct harness *h)
{
    for (unsigned k = 0; k < h->options.epochs; k++)
        run_epoch(h, k + 1 == h->options.epochs);
    print_list(h);
}
