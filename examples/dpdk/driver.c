#define _GNU_SOURCE
#include "harness.h"

#include <rte_cycles.h>
#include <rte_errno.h>
#include <rte_memzone.h>

#include <sched.h>
#include <signal.h>
#include <string.h>
#include <ucontext.h>

static const struct rx_path PATHS[] = {
    {"ixgbe_recv_pkts", ixgbe_recv_pkts, false, false, false},
    {"ixgbe_recv_pkts_bulk_alloc", ixgbe_recv_pkts_bulk_alloc, false, true, false},
    {"ixgbe_recv_pkts_vec", ixgbe_recv_pkts_vec, false, true, true},
    {"ixgbe_recv_pkts_lro_single_alloc", ixgbe_recv_pkts_lro_single_alloc, true, false, false},
    {"ixgbe_recv_pkts_lro_bulk_alloc", ixgbe_recv_pkts_lro_bulk_alloc, true, true, false},
    {"ixgbe_recv_scattered_pkts_vec", ixgbe_recv_scattered_pkts_vec, true, true, true},
};

/* DPDK's delay callback and the signal handler take no argument of ours. */
static struct harness *watched;
static volatile bool is_stepping;

static void fits(bool it_does, const char *what)
{
    if (!it_does)
        fail("dpdk_22_11.h does not fit this library (%s): %s", rte_version(), what);
}

/* Starts DPDK's environment on one processor, and then lets the system choose the processor again. The driver warns of a transmit queue that
 * it stops with frames in it, which is part of the run. */
static void start_environment(const struct options *options)
{
    char lcore[16], no_vectors[] = "--force-max-simd-bitwidth=64"; /* then the driver chooses ixgbe_xmit_pkts_simple */
    char *words[] = {"harness", "--no-huge", "--no-pci", "--no-telemetry", "--no-shconf", "--log-level=4",
        "--log-level=pmd.net.ixgbe.init:3", "-m", "64", "-l", lcore, no_vectors, 0};
    int count = (int)(sizeof words / sizeof *words) - (strcmp(options->transmit, "ixgbe_xmit_pkts_simple") == 0 ? 1 : 2);
    cpu_set_t allowed;
    unsigned first = 0;
    if (sched_getaffinity(0, sizeof allowed, &allowed) != 0)
        fail("the processors that may be used are not known");
    while (!CPU_ISSET(first, &allowed))
        first++;
    snprintf(lcore, sizeof lcore, "%u", first);
    if (rte_eal_init(count, words) < 0)
        fail("DPDK's environment does not start: %s", rte_strerror(rte_errno));
    sched_setaffinity(0, sizeof allowed, &allowed);
}

static void find_path(struct harness *h)
{
    const char *transmit = h->options.transmit;
    for (size_t k = 0; k < sizeof PATHS / sizeof *PATHS; k++)
        if (strcmp(h->options.receive, PATHS[k].name) == 0)
            h->path = &PATHS[k];
    if (!h->path)
        fail("'%s' is not a receive function of the driver", h->options.receive);
    h->whole_path = strcmp(transmit, "ixgbe_xmit_pkts") == 0;
    if (!h->whole_path && strcmp(transmit, "ixgbe_xmit_pkts_simple") != 0 && strcmp(transmit, "ixgbe_xmit_pkts_vec") != 0)
        fail("'%s' is not a transmit function of the driver", transmit);
    if ((h->options.step || h->options.follow) && (!refills_in_place(h) || !h->whole_path))
        fail("--step and --follow need a receive function that refills in place, and ixgbe_xmit_pkts");
}

/* The driver posts the address that a buffer has for the device, and nothing reads memory through it. */
static void number_buffer(struct rte_mempool *pool, void *harness, void *object, unsigned index)
{
    struct harness *h = harness;
    struct rte_mbuf *buffer = object;
    (void)pool;
    buffer->buf_iova = (uint64_t)index * SEGMENT - RTE_PKTMBUF_HEADROOM;
    h->buffers[index] = buffer;
    h->numbers[index] = (uint16_t)index;
}

static void make_pool(struct harness *h)
{
    h->pool = rte_pktmbuf_pool_create("pool", 2 * h->options.ring + SPARE_BUFFERS, 0, 0, RTE_PKTMBUF_HEADROOM + SEGMENT, SOCKET_ID_ANY);
    if (!h->pool)
        fail("the pool of buffers could not be made: %s", rte_strerror(rte_errno));
    rte_mempool_obj_iter(h->pool, number_buffer, h);
}

static bool is_in_zone(const void *at, const char *name)
{
    const struct rte_memzone *zone = rte_memzone_lookup(name);
    return zone && (uintptr_t)at - (uintptr_t)zone->addr < zone->len;
}

/* Makes a port without a PCI device: registers and the driver's state are plain memory. */
static void make_port(struct harness *h)
{
    static const char name[] = "harness";
    static void *rx_queues[1], *tx_queues[1];
    static struct adapter adapter;
    struct device_data *data;
    adapter.hw_addr = h->registers;
    adapter.mac.type = MAC_82599EB;
    adapter.rx_bulk_alloc_allowed = h->path->bulk;
    adapter.rx_vec_allowed = h->path->vector;
    h->dev = rte_eth_dev_allocate(name);
    if (!h->dev)
        fail("DPDK has no port left");
    data = h->dev->data;
    fits(is_in_zone(data, "rte_eth_dev_data"), "the port's data is elsewhere");
    fits(strcmp(data->name, name) == 0, "the port has another name");
    fits(data->mtu == RTE_ETHER_MTU, "the port has another MTU");
    data->dev_private = &adapter;
    data->rx_queues = rx_queues;
    data->tx_queues = tx_queues;
    data->nb_rx_queues = data->nb_tx_queues = 1;
    data->scattered_rx = h->path->scattered;
    if (h->whole_path)
        data->dev_conf.txmode.offloads = RTE_ETH_TX_OFFLOAD_MULTI_SEGS;
}

static descriptor *ring_of(const struct harness *h, const char *way)
{
    char name[RTE_MEMZONE_NAMESIZE];
    const struct rte_memzone *zone;
    snprintf(name, sizeof name, "eth_p%u_q0_%s_ring", h->dev->data->port_id, way);
    zone = rte_memzone_lookup(name);
    fits(zone, "a descriptor ring has another name");
    return zone->addr;
}

static void make_queues(struct harness *h)
{
    const struct options *o = &h->options;
    struct rte_eth_rxconf rx = {.rx_free_thresh = (uint16_t)o->refill};
    struct rte_eth_txconf tx = {.tx_rs_thresh = (uint16_t)o->report, .tx_free_thresh = (uint16_t)o->clean};
    bool is_simple = strcmp(o->transmit, "ixgbe_xmit_pkts_simple") == 0;
    tx.offloads = h->dev->data->dev_conf.txmode.offloads;
    if (ixgbe_dev_rx_queue_setup(h->dev, 0, (uint16_t)o->ring, SOCKET_ID_ANY, &rx, h->pool) != 0)
        fail("the driver refuses a receive queue of %u with --refill=%u", o->ring, o->refill);
    if (ixgbe_dev_tx_queue_setup(h->dev, 0, (uint16_t)o->ring, SOCKET_ID_ANY, &tx) != 0)
        fail("the driver refuses a transmit queue of %u with --report=%u --clean=%u", o->ring, o->report, o->clean);
    fits(h->dev->data->rx_queues[0] && h->dev->data->tx_queues[0], "the queues are elsewhere");
    ixgbe_set_rx_function(h->dev);
    fits(h->dev->rx_pkt_burst == h->path->burst, "the driver chooses another receive function");
    fits(h->whole_path == (h->dev->tx_pkt_burst == ixgbe_xmit_pkts), "the driver chooses another transmit function");
    fits(is_simple == (h->dev->tx_pkt_burst == ixgbe_xmit_pkts_simple), "the driver chooses another transmit function");
    h->rx_ring = ring_of(h, "rx");
    h->tx_ring = ring_of(h, "tx");
}

/* One delay of the call that starts or stops a queue. The driver loads ENABLE after each delay. */
static void wait_once(struct harness *h, enum direction way)
{
    struct control *c = &h->controls[way];
    volatile uint32_t *control = reg(h, way == RX ? RXDCTL : TXDCTL);
    bool is_set = *control & ENABLE, asks = (c->word == 0 && is_set) || (c->word == 2 && !is_set);
    if (asks) {
        c->word++;
        add_control_move(h, way, c->word == 1 ? "C1" : "C5");
        *control ^= ENABLE; /* it changes when the device answers */
    } else {
        for (unsigned k = random_below(h, BURST); k > 0; k--)
            random_step(h, way);
        if (c->word == 2)
            return; /* before the driver asks to disable a transmit queue, it waits until TDH equals TDT */
        if (c->seen != c->word) {
            load_control(h, way);
        } else {
            settle(h, way);
            answer(h, way);
        }
    }
    add_control_move(h, way, "C4");
    c->driver_waits = c->word == 1 || c->word == 3;
}

static void on_delay(unsigned microseconds)
{
    (void)microseconds;
    for (int way = RX; way <= TX; way++)
        if (watched->controls[way].driver_waits)
            wait_once(watched, (enum direction)way);
}

/* Starts or stops a queue. The device answers while the call waits. */
static void call(struct harness *h, enum direction way, const char *name, int (*function)(struct rte_eth_dev *, uint16_t))
{
    size_t first = h->count;
    h->controls[way].driver_waits = true;
    if (function(h->dev, 0) != 0)
        fail("%s failed", name);
    fits(!h->controls[way].driver_waits, "the driver does not wait for ENABLE");
    if (!h->controls[way].serves) {
        watch_reclaimed(h, way);
    } else if (way == RX) {
        fits(*reg(h, RDT) == h->options.ring - 1, "the driver does not post a ring of buffers");
        watch_refilled(h);
    }
    check_call(h, name, first);
}

/* In the model, the driver clears head and tail when it renews a queue. DPDK programs them after the queue is enabled, so the harness clears
 * them here. */
void start(struct harness *h)
{
    h->rx = (struct rx_device){0};
    h->tx = (struct tx_device){0};
    h->rx_watch = (struct rx_watch){0};
    h->tx_watch = (struct tx_watch){0};
    *reg(h, RDH) = *reg(h, RDT) = *reg(h, TDH) = *reg(h, TDT) = 0;
    call(h, TX, "ixgbe_dev_tx_queue_start", ixgbe_dev_tx_queue_start);
    call(h, RX, "ixgbe_dev_rx_queue_start", ixgbe_dev_rx_queue_start);
}

void stop(struct harness *h)
{
    call(h, RX, "ixgbe_dev_rx_queue_stop", ixgbe_dev_rx_queue_stop);
    call(h, TX, "ixgbe_dev_tx_queue_stop", ixgbe_dev_tx_queue_stop);
}

enum { TRAP_FLAG = 0x100, STEPS_BETWEEN = 6 };

/* Runs after each instruction of the driver. */
static void on_trap(int number, siginfo_t *info, void *context)
{
    struct harness *h = watched;
    (void)number, (void)info;
    if (!is_stepping) {
        ((ucontext_t *)context)->uc_mcontext.gregs[REG_EFL] &= ~(greg_t)TRAP_FLAG;
        return;
    }
    h->counts.instructions++;
    watch_taken(h);
    watch_refilled(h);
    watch_cleaned(h);
    watch_posted(h);
    if (random_below(h, h->options.step) == 0) {
        size_t before = h->count;
        for (unsigned k = random_below(h, STEPS_BETWEEN); k > 0; k--)
            random_step(h, random_below(h, 2) ? RX : TX);
        h->counts.between += h->count - before;
    }
}

/* Sets the processor's trap flag. The first trap after the steps have ended clears it. */
static void begin_steps(const struct harness *h)
{
    if (!h->options.step)
        return;
    is_stepping = true;
    __asm__ volatile("pushfq; orq $0x100, (%%rsp); popfq" ::: "memory", "cc");
}

static void end_steps(void)
{
    is_stepping = false;
    __asm__ volatile("nop; nop" ::: "memory");
}

/* The call has found a descriptor without DD if it returns fewer frames than asked for, and had buffers to replace those that it took.
 * With steps the descriptor may have been written back since. */
static bool found_none(const struct harness *h, unsigned got, unsigned count)
{
    return refills_in_place(h) && !h->options.step && got < count && rte_mempool_avail_count(h->pool) > 0 && h->rx_watch.next != h->rx_watch.fill;
}

unsigned receive(struct harness *h, struct rte_mbuf **frames, unsigned count)
{
    size_t first = h->count;
    unsigned got;
    h->counts.calls++;
    begin_steps(h);
    got = h->dev->rx_pkt_burst(h->dev->data->rx_queues[0], frames, (uint16_t)count);
    end_steps();
    watch_taken(h);
    if (found_none(h, got, count))
        add_note(add_move(h, "r0 A6"), "none");
    watch_refilled(h);
    for (unsigned k = 0; k < got; k++)
        watch_returned(h, frames[k]);
    check_call(h, "rx_pkt_burst", first);
    return got;
}

/* With a report for each frame, a call that begins with few free descriptors loads the oldest report. With fewer reports it may load a
 * later one. */
static bool loads_oldest_report(const struct harness *h)
{
    unsigned outstanding = places_between(h, h->tx_watch.next, h->tx_watch.fill);
    return h->whole_path && !h->options.step && h->options.report == 1 && outstanding > 0 && h->options.ring - 1 - outstanding < h->options.clean;
}

unsigned transmit(struct harness *h, struct rte_mbuf **frames, unsigned count)
{
    size_t first = h->count;
    bool loads = loads_oldest_report(h);
    unsigned done;
    h->counts.calls++;
    begin_steps(h);
    done = h->dev->tx_pkt_burst(h->dev->data->tx_queues[0], frames, (uint16_t)count);
    end_steps();
    if (!watch_cleaned(h) && loads)
        add_note(add_move(h, "t0 B7"), "none");
    watch_posted(h);
    check_call(h, "tx_pkt_burst", first);
    h->counts.posted += done;
    return done;
}

void set_up(struct harness *h)
{
    struct sigaction action = {.sa_sigaction = on_trap, .sa_flags = SA_SIGINFO};
    watched = h;
    find_path(h);
    start_environment(&h->options);
    make_pool(h);
    make_port(h);
    make_queues(h);
    rte_delay_us_callback_register(on_delay);
    if (sigaction(SIGTRAP, &action, 0) != 0)
        fail("the handler of SIGTRAP cannot be set");
}
