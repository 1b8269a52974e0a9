#define _GNU_SOURCE
#include "port.h"
#include "link.h"

#include <poll82599.h>

#include <errno.h>
#include <inttypes.h>
#include <poll.h>
#include <pthread.h>
#include <sched.h>
#include <signal.h>
#include <stdatomic.h>
#include <stdio.h>
#include <stdlib.h>
#include <string.h>
#include <sys/eventfd.h>
#include <unistd.h>

enum {
    MOST_PORTS = 2,
    SPINS = 64,         /* idle turns before a thread sleeps */
    NAP_MS = 20,        /* the longest sleep; a signal or a timer of the caller may be seen that late */
    CHECK_TURNS = 4096, /* a device that never sleeps looks at its interface that often */
};

_Static_assert((int)LINK_MOST_FRAME >= (int)POLL82599_MOST_FRAME, "a link does not cut a frame that the library takes");

/* The library has no notifications: its calls are polled. A thread that wants to sleep says so, makes one more turn, and then sleeps. Whoever
 * moves something for it wakes it afterwards. No wake-up is lost because the loads and stores here and in the library are sequentially
 * consistent. */
enum depth { AWAKE, ASLEEP, ASLEEP_FOR_ROOM /* a device that also waits for free descriptors */ };

struct waker {
    int fd;
    unsigned idle;     /* turns in a row */
    _Atomic int depth; /* of the sleep */
};

struct driver {
    struct waker waker;
    struct port *ports[MOST_PORTS];
    unsigned count;
};

/* How far the driver has stopped a device: it stores no more frames, and the driver posts no more. */
enum stage { RUNNING, STORE_NO_MORE, POST_NO_MORE };

struct port {
    struct link link;
    struct driver *driver;
    struct poll82599_rx_queue rx; /* the driver's */
    struct poll82599_tx_queue tx;
    struct poll82599_rx_device rx_device; /* the device's */
    struct poll82599_tx_device tx_device;
    pthread_t device;
    struct waker waker;           /* wakes the device */
    _Atomic int stage;            /* set by the driver */
    atomic_bool gone, all_sent;   /* set by the device: the interface is gone; all that was posted is sent */
    bool quiet, holding;          /* of the device: it stores no more; the link's next frame waits for descriptors */
    unsigned turns, reported;     /* reported: a bit for each answer to an offer */
    uint8_t (*wire)[POLL82599_MOST_FRAME];
    uint64_t in, refused, held, sent, unposted;
    size_t untaken, unsent;
};

struct worker { struct poll82599_packets packets; };

static volatile sig_atomic_t interrupted;

static void interrupt(int signal)
{
    (void)signal;
    interrupted = 1;
}

/* Returns the answer, which has to be one of `answers`. The library gives others only to a wrong call, so they end the program. */
enum { ANSWER_0 = 1 << 0, ANSWER_1 = 1 << 1, ANSWER_2 = 1 << 2, ANSWER_3 = 1 << 3, ANSWER_4 = 1 << 4, ANSWER_5 = 1 << 5 };
static uint32_t expect(unsigned answers, const char *call, uint32_t answer)
{
    if (answer < 32 && answers >> answer & 1)
        return answer;
    fprintf(stderr, "%s: unexpected answer %" PRIu32 "\n", call, answer);
    abort();
}

/* Returns null after a message. */
static void *refuse(const char *name, const char *what)
{
    fprintf(stderr, "%s: %s\n", name, what);
    return 0;
}

bool read_number(const char *text, uint32_t least, uint32_t most, uint32_t *number)
{
    char *end;
    errno = 0;
    unsigned long read = strtoul(text, &end, 10);
    if (*text < '0' || *text > '9' || *end || errno || read < least || read > most)
        return false;
    *number = (uint32_t)read;
    return true;
}

/* ---- Wakers. */

static bool waker_open(struct waker *waker) { return (waker->fd = eventfd(0, EFD_NONBLOCK | EFD_CLOEXEC)) >= 0; }

/* Wakes a thread that sleeps at least this deeply. */
static void wake(struct waker *waker, int least)
{
    if (atomic_load(&waker->depth) >= least && atomic_exchange(&waker->depth, AWAKE) != AWAKE)
        expect(ANSWER_0, "eventfd_write", (uint32_t)eventfd_write(waker->fd, 1));
}

static void stay_awake(struct waker *waker)
{
    waker->idle = 0;
    if (atomic_load_explicit(&waker->depth, memory_order_relaxed) != AWAKE)
        atomic_store(&waker->depth, AWAKE);
}

/* After an idle turn: returns false for another turn, or sleeps until it is woken, the link is readable, or NAP_MS are over. */
static bool rest(struct waker *waker, int depth, int link)
{
    struct pollfd fds[] = {{waker->fd, POLLIN, 0}, {link, POLLIN, 0}};
    eventfd_t rings;
    if (++waker->idle < SPINS)
        return false;
    if (atomic_load(&waker->depth) != depth) {
        atomic_store(&waker->depth, depth);
        return false;
    }
    poll(fds, 2, NAP_MS); /* ignores a negative link */
    atomic_store(&waker->depth, AWAKE);
    eventfd_read(waker->fd, &rings); /* fails if nobody rang */
    return true;
}

/* ---- The device's thread. */

/* Answers the driver until both queues have this control word. */
static void device_answer(struct port *port, uint32_t wanted)
{
    for (;;) {
        uint32_t rx = poll82599_rx_device_control(&port->rx_device), tx = poll82599_tx_device_control(&port->tx_device);
        if (rx == wanted && tx == wanted)
            return;
        sched_yield();
    }
}

/* Reports the first frame that an offer with this answer does not store. */
static void device_report(struct port *port, uint32_t answer, size_t len)
{
    static const char *const why[] = {[2] = "its length is not 14 to 15,000", [4] = "the ring has too few descriptors for it",
                                      [5] = "too few descriptors are free"};
    if (answer == 1 || port->reported >> answer & 1)
        return;
    port->reported |= 1u << answer;
    fprintf(stderr, "%s: a frame of %zu bytes is dropped: %s; further ones are only counted\n", port->link.name, len, why[answer]);
}

/* Offers up to a burst of frames. Returns how many left the link. */
static unsigned device_receive(struct port *port)
{
    const uint8_t *frame;
    size_t len;
    unsigned count = 0;
    for (; count < LINK_BURST && link_peek(&port->link, &frame, &len); count++) {
        uint32_t answer = len > POLL82599_MOST_FRAME ? 2 : poll82599_offer(&port->rx_device, frame, len);
        expect(ANSWER_0 | ANSWER_1 | ANSWER_2 | ANSWER_4 | ANSWER_5, "offer", answer);
        port->held += answer == 0 && !port->holding;
        port->holding = answer == 0;
        if (port->holding)
            break;
        device_report(port, answer, len);
        port->refused += answer == 2;
        port->in++;
        link_pass(&port->link);
    }
    return count;
}

/* Writes up to a burst of the frames that were posted. Returns whether there may be more. */
static bool device_send(struct port *port)
{
    struct iovec frames[LINK_BURST];
    unsigned count = 0;
    uint32_t answer = 1;
    while (count < LINK_BURST && answer == 1) {
        size_t len;
        answer = expect(ANSWER_0 | ANSWER_1 | ANSWER_5, "turn", poll82599_turn(&port->tx_device, port->wire[count], sizeof port->wire[count], &len));
        if (answer == 1) {
            frames[count] = (struct iovec){port->wire[count], len};
            count++;
        }
    }
    if (count)
        link_write(&port->link, frames, count);
    port->sent += count;
    return count > 0 || answer == 5; /* 5: there was no memory, and a later call sends the frame */
}

static void device_turn(struct port *port, bool stopping)
{
    bool moved = !stopping && device_receive(port) > 0;
    moved |= device_send(port);
    if (stopping && !port->quiet) {
        expect(ANSWER_1, "rx_device_finish", poll82599_rx_device_finish(&port->rx_device));
        port->quiet = moved = true;
    }
    if (moved) {
        wake(&port->driver->waker, ASLEEP);
        stay_awake(&port->waker);
    }
    bool slept = !moved && rest(&port->waker, port->holding ? ASLEEP_FOR_ROOM : ASLEEP, port->holding || stopping ? -1 : port->link.fd);
    if (slept || ++port->turns % CHECK_TURNS == 0)
        atomic_store(&port->gone, link_check(&port->link) == LINK_GONE);
}

static void *device_run(void *of)
{
    struct port *port = of;
    int stage;
    device_answer(port, POLL82599_ON);
    while ((stage = atomic_load(&port->stage)) != POST_NO_MORE)
        device_turn(port, stage == STORE_NO_MORE);
    while (device_send(port)) {}
    atomic_store(&port->all_sent, true);
    device_answer(port, POLL82599_OFF);
    link_check(&port->link);
    return 0;
}

/* ---- The driver's thread. */

struct driver *driver_new(void)
{
    struct driver *driver = calloc(1, sizeof *driver);
    return driver && waker_open(&driver->waker) ? driver : refuse("driver", strerror(errno));
}

struct port *port_open(struct driver *driver, const char *name, const struct port_options *options)
{
    struct port *port = driver->count < MOST_PORTS ? calloc(1, sizeof *port) : 0;
    if (!port || !waker_open(&port->waker) || !(port->wire = malloc(LINK_BURST * sizeof *port->wire)))
        return refuse(name, "no memory for another port");
    if (!link_open(&port->link, name))
        return 0;
    uint32_t descriptors = options->descriptors;
    int32_t refusal = poll82599_rx_queue_new(descriptors, POLL82599_MOST_BATCH, POLL82599_BUFFER_BYTES, options->drop, &port->rx, &port->rx_device);
    if (!refusal)
        refusal = poll82599_tx_queue_new(descriptors, POLL82599_MOST_BATCH, 0, &port->tx, &port->tx_device);
    if (refusal)
        return refuse(name, refusal == 1 ? "a ring has 8 to 4,096 descriptors, a power of two" : "no memory for the queues");
    port->driver = driver;
    return driver->ports[driver->count++] = port;
}

/* Starts the devices and enables the queues. The devices' threads block the signals, so that these interrupt the driver's sleep. */
static void driver_start(struct driver *driver)
{
    struct sigaction action = {.sa_handler = interrupt};
    sigset_t signals;
    sigemptyset(&signals);
    sigaddset(&signals, SIGINT);
    sigaddset(&signals, SIGTERM);
    sigaction(SIGINT, &action, 0);
    sigaction(SIGTERM, &action, 0);
    pthread_sigmask(SIG_BLOCK, &signals, 0);
    for (unsigned k = 0; k < driver->count; k++) {
        struct port *port = driver->ports[k];
        int error = pthread_create(&port->device, 0, device_run, port);
        if (error) {
            refuse(port->link.name, strerror(error));
            exit(1);
        }
        while (expect(ANSWER_0 | ANSWER_1, "rx_queue_enable", poll82599_rx_queue_enable(&port->rx)) != 1)
            sched_yield();
        while (expect(ANSWER_0 | ANSWER_1, "tx_queue_enable", poll82599_tx_queue_enable(&port->tx)) != 1)
            sched_yield();
    }
    pthread_sigmask(SIG_UNBLOCK, &signals, 0);
}

static void port_set_stage(struct port *port, int stage)
{
    atomic_store(&port->stage, stage);
    wake(&port->waker, ASLEEP);
}

/* Disables both queues once all that was posted is sent. */
static void port_disable(struct port *port)
{
    port_set_stage(port, POST_NO_MORE);
    while (!atomic_load(&port->all_sent))
        sched_yield();
    expect(ANSWER_1, "rx_queue_disable", poll82599_rx_queue_disable(&port->rx));
    expect(ANSWER_1, "tx_queue_disable", poll82599_tx_queue_disable(&port->tx));
    while (expect(ANSWER_0 | ANSWER_1, "rx_queue_finish", poll82599_rx_queue_finish(&port->rx, &port->untaken)) != 1)
        sched_yield();
    while (expect(ANSWER_0 | ANSWER_1, "tx_queue_finish", poll82599_tx_queue_finish(&port->tx, &port->unsent)) != 1)
        sched_yield();
    pthread_join(port->device, 0);
}

/* Whether the driver has to stop. If so, stops the devices' storing. */
static bool driver_stops(struct driver *driver)
{
    bool stops = interrupted;
    for (unsigned k = 0; k < driver->count; k++)
        stops |= atomic_load(&driver->ports[k]->gone);
    for (unsigned k = 0; stops && k < driver->count; k++)
        port_set_stage(driver->ports[k], STORE_NO_MORE);
    return stops;
}

void driver_run(struct driver *driver, enum turn (*turn)(void *context), void *context)
{
    bool stopping = false, quiet;
    enum turn did;
    driver_start(driver);
    printf("ready\n");
    fflush(stdout);
    do {
        stopping = stopping || driver_stops(driver);
        quiet = stopping; /* asked before the turn, which takes all that was stored by then */
        for (unsigned k = 0; quiet && k < driver->count; k++)
            quiet = expect(ANSWER_0 | ANSWER_1, "rx_queue_is_quiet", poll82599_rx_queue_is_quiet(&driver->ports[k]->rx)) == 1;
        did = turn(context);
        if (did == TURN_MOVED)
            stay_awake(&driver->waker);
        else
            rest(&driver->waker, ASLEEP, -1);
    } while (!quiet || did != TURN_IDLE);
    for (unsigned k = 0; k < driver->count; k++)
        port_disable(driver->ports[k]);
}

size_t port_take(struct port *port, struct worker *worker)
{
    size_t count, posted;
    expect(ANSWER_1, "rx_batch", poll82599_rx_batch(&port->rx, &worker->packets, &count, &posted));
    if (posted)
        wake(&port->waker, ASLEEP_FOR_ROOM);
    return count;
}

size_t port_post(struct port *port, struct worker *worker)
{
    size_t count;
    if (expect(ANSWER_1 | ANSWER_3, "tx_batch", poll82599_tx_batch(&port->tx, &worker->packets, &count, NULL)) == 3) {
        if (!port->unposted++)
            refuse(port->link.name, "a packet is too long for the ring; further ones are only counted");
        worker_free(worker, 0);
        return 1;
    }
    if (count)
        wake(&port->waker, ASLEEP);
    return count;
}

void port_reclaim(struct port *port, struct worker *receives, struct worker *transmits)
{
    size_t count;
    expect(ANSWER_1, "rx_queue_reclaim", poll82599_rx_queue_reclaim(&port->rx, &receives->packets, &count));
    expect(ANSWER_1, "tx_queue_reclaim", poll82599_tx_queue_reclaim(&port->tx, &transmits->packets, &count));
}

static void port_print(const struct port *port, const struct poll82599_offered *offered)
{
    const struct link *link = &port->link;
    const struct { const char *name; uint64_t count; } counts[] = {
        {"in", port->in}, {"stored", offered->stored}, {"dropped", offered->dropped}, {"oversize", offered->oversize}, {"refused", port->refused},
        {"missed", link->missed}, {"held", port->held}, {"untaken", port->untaken}, {"unposted", port->unposted}, {"unsent", port->unsent},
        {"sent", port->sent}, {"out", link->written}, {"out-down", link->refused[REFUSED_DOWN]}, {"out-long", link->refused[REFUSED_LONG]},
        {"out-full", link->refused[REFUSED_FULL]}, {"out-other", link->refused[REFUSED_OTHER]},
    };
    printf("port %s", link->name);
    for (size_t k = 0; k < sizeof counts / sizeof *counts; k++)
        printf(" %s %" PRIu64, counts[k].name, counts[k].count);
    printf("\n");
}

static bool port_close(struct port *port)
{
    struct poll82599_offered offered = poll82599_rx_device_counts(&port->rx_device);
    port_print(port, &offered);
    bool whole = port->in == offered.offered + port->refused && !port->untaken && !port->unsent && port->link.state != LINK_GONE;
    whole &= poll82599_rx_queue_close(&port->rx, &port->rx_device) == 0;
    whole &= poll82599_tx_queue_close(&port->tx, &port->tx_device) == 0;
    link_close(&port->link);
    close(port->waker.fd);
    free(port->wire);
    free(port);
    return whole;
}

bool driver_close(struct driver *driver)
{
    bool whole = true;
    for (unsigned k = 0; k < driver->count; k++)
        whole &= port_close(driver->ports[k]);
    close(driver->waker.fd);
    free(driver);
    return whole;
}

/* ---- Workers. */

struct worker *worker_new(void)
{
    struct worker *worker = calloc(1, sizeof *worker);
    if (worker && poll82599_packets_new(POLL82599_MOST_BUFFERS, &worker->packets) == 0)
        return worker;
    free(worker);
    return refuse("worker", "no memory");
}

bool worker_put(struct worker *worker, const uint8_t *frame, size_t len)
{
    return expect(ANSWER_0 | ANSWER_1 | ANSWER_2, "packets_put", poll82599_packets_put(&worker->packets, frame, len)) == 1;
}

size_t worker_copy(struct worker *worker, size_t packet, uint8_t *bytes, size_t room)
{
    size_t len;
    expect(ANSWER_1 | ANSWER_4, "packet_copy", poll82599_packet_copy(&worker->packets, packet, bytes, room, &len));
    return len;
}

void worker_free(struct worker *worker, size_t packet) { expect(ANSWER_1, "packet_free", poll82599_packet_free(&worker->packets, packet)); }

size_t worker_packets(struct worker *worker) { return poll82599_packets_count(&worker->packets, 0); }

bool worker_close(struct worker *worker)
{
    size_t empty, packets = poll82599_packets_count(&worker->packets, &empty);
    printf("worker %zu of %d buffers back, %zu packets left\n", empty, POLL82599_MOST_BUFFERS, packets);
    bool whole = empty == POLL82599_MOST_BUFFERS && packets == 0;
    whole &= poll82599_packets_close(&worker->packets) == packets;
    free(worker);
    return whole;
}
