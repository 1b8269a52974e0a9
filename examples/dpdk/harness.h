/* DPDK's driver of the 82599 on plain memory, next to a device that makes one step per call. What both do is written down as moves.
 *
 * device.c   the device's steps, each of which is one move
 * watch.c    the driver's moves, read off the registers and descriptors that it changes; the table of its calls
 * driver.c   sets the driver up, calls it, and lets the device step between its instructions
 * traffic.c  a run with random steps: a forwarder, and a device that stores and sends frames
 * follow.c   a run that follows lists of moves
 * bugs.c     bugs to be planted into the driver's code
 * main.c     options, errors, and the list of moves */
#ifndef HARNESS_H
#define HARNESS_H

#include "dpdk_22_11.h"

#include <stddef.h>
#include <stdio.h>

enum {
    LEAST_RING = 64,
    MOST_PLACES = 4096,
    MOST_MOVES = 2000000,
    SPARE_BUFFERS = 500, /* of the pool, when both rings are full */
    MOST_BUFFERS = 2 * MOST_PLACES + SPARE_BUFFERS,
    MOST_NUMBER = 65535, /* of a buffer in moves */
    SEGMENT = 2048,      /* bytes in a buffer */
    LEAST_FRAME = 14,
    MOST_FRAME = 15000,
    BURST = 32, /* frames per call of the driver */
};

/* Registers of queue 0 (82599 datasheet, 8.2.3.8 and 8.2.3.9), and bits of written-back descriptors (7.1.6.2, 7.2.3.2.4). */
enum { RDH = 0x1010, RDT = 0x1018, RXDCTL = 0x1028, TDH = 0x6010, TDT = 0x6018, TXDCTL = 0x6028, BAR_BYTES = 512 << 10 };
#define ENABLE (UINT32_C(1) << 25)
#define RX_DD UINT64_C(1)
#define RX_EOP UINT64_C(2)
#define RX_LENGTH_AT 32
#define TX_DD (UINT64_C(1) << 32)

typedef volatile uint64_t descriptor[2];
enum direction { RX, TX };

struct line {
    char move[32], note[56];
};

/* A control word, which the hardware shows as the bit ENABLE. */
struct control {
    unsigned word, seen; /* the value, and the one that the device loaded or stored last */
    bool serves;         /* the device */
    bool driver_waits;   /* in the call that starts or stops the queue */
};

/* Places are indices of descriptors, and buffers indices in the pool. Bytes are counted since the queue was enabled. */
struct rx_device {
    unsigned use, known, buffer;
    bool holds, in_frame;
    unsigned left; /* bytes of the frame that are not stored yet, in a run with random steps */
    uint64_t bytes;
    struct {
        unsigned length;
        bool eop;
    } written[MOST_PLACES];
};

struct tx_fields {
    unsigned buffer, length, paylen;
    bool eop, rs;
};

struct tx_device {
    unsigned use, known, due; /* due: the place to report, if the device owes a report */
    bool holds, owes, in_frame;
    struct tx_fields held;
    uint64_t bytes, began;      /* sent, and before the current frame */
    bool reported[MOST_PLACES]; /* and not seen cleaned */
};

/* The driver, as far as its moves show. */
struct rx_watch {
    unsigned fill, next, buffers[MOST_PLACES];
    unsigned long taken, returned;       /* segments */
    struct line *takes[2 * MOST_PLACES]; /* the moves that took them: a frame may begin before a call that takes a whole ring */
    uint64_t bytes;
};

struct tx_watch {
    unsigned fill, next;
    struct {
        unsigned buffer;
        bool rs;
    } at[MOST_PLACES];
};

struct rx_path {
    const char *name;
    eth_rx_burst_t burst;
    bool scattered, bulk, vector;
};

struct options {
    const char *receive, *transmit, *bug, *descriptors;
    unsigned ring, refill, report, clean, seed, turns, epochs, step, follow;
};

struct harness {
    struct options options;
    struct line *lines; /* the list of moves, and what each of them shows */
    size_t count;
    struct control controls[2];
    struct rx_device rx;
    struct tx_device tx;
    struct rx_watch rx_watch;
    struct tx_watch tx_watch;
    _Alignas(uint64_t) uint8_t registers[BAR_BYTES];
    descriptor *rx_ring, *tx_ring;
    struct rte_eth_dev *dev;
    const struct rx_path *path;
    bool whole_path; /* ixgbe_xmit_pkts, not one of the two simpler functions */
    struct rte_mempool *pool;
    struct rte_mbuf *buffers[MOST_BUFFERS]; /* the device knows buffer k by the address 2,048 * k */
    uint16_t numbers[MOST_BUFFERS];         /* of buffers in moves: the index, or what a list says */
    const uint16_t *next_numbers;           /* of the receive buffers that are posted next, if a list says them */
    size_t numbers_left;
    FILE *descriptors; /* shows each descriptor */
    uint64_t random;
    bool drains; /* the device stores no more frames */
    struct {
        unsigned long calls, stored, taken, posted, sent, instructions, between;
    } counts;
};

/* main.c. `fail` says why nothing can be run, and exits with status 2. `fault` says why driver and device do not fit together, prints the
 * list up to here, and exits with status 1: what follows a fault means nothing. */
_Noreturn void fail(const char *form, ...) __attribute__((format(printf, 1, 2)));
_Noreturn void fault(const struct harness *h, const char *form, ...) __attribute__((format(printf, 2, 3)));
struct line *add_move(struct harness *h, const char *form, ...) __attribute__((format(printf, 2, 3)));
void add_note(struct line *line, const char *form, ...) __attribute__((format(printf, 2, 3)));
void print_list(const struct harness *h);
void show_descriptor(const struct harness *h, const char *form, const descriptor *at, const char *fields, ...) __attribute__((format(printf, 4, 5)));

/* device.c. A step returns whether it was possible. */
typedef bool device_step(struct harness *h);
device_step load_rx_tail, fetch_rx, store_rx_head, load_tx_tail, fetch_tx, send_tx, report_tx;
device_step *device_step_of(const char *move);
bool write_back_rx(struct harness *h, unsigned length, bool eop);
void load_control(struct harness *h, enum direction way);
void answer(struct harness *h, enum direction way);
void add_control_move(struct harness *h, enum direction way, const char *kind);
unsigned place_after(const struct harness *h, unsigned place);
unsigned places_between(const struct harness *h, unsigned from, unsigned to);
volatile uint32_t *reg(struct harness *h, unsigned offset);
uint8_t stream_byte(uint64_t at);
bool read_rx(const struct harness *h, unsigned place, unsigned *buffer);
bool read_tx(const struct harness *h, unsigned place, struct tx_fields *fields);

/* watch.c */
bool refills_in_place(const struct harness *h);
unsigned index_of(const struct rte_mbuf *buffer);
void watch_taken(struct harness *h);
void watch_refilled(struct harness *h);
void watch_returned(struct harness *h, const struct rte_mbuf *frame);
bool watch_cleaned(struct harness *h);
void watch_posted(struct harness *h);
void watch_reclaimed(struct harness *h, enum direction way);
void check_call(struct harness *h, const char *call, size_t first);

/* driver.c */
void set_up(struct harness *h);
void start(struct harness *h);
void stop(struct harness *h);
unsigned receive(struct harness *h, struct rte_mbuf **frames, unsigned count);
unsigned transmit(struct harness *h, struct rte_mbuf **frames, unsigned count);

/* traffic.c */
void run_traffic(struct harness *h);
void random_step(struct harness *h, enum direction way);
void settle(struct harness *h, enum direction way);
unsigned random_below(struct harness *h, unsigned limit);

/* follow.c, bugs.c */
void follow_lists(struct harness *h);
void plant(const char *name);

#endif
