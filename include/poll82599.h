/* Receive and transmit rings of the Intel 82599 for programs in C: the driver and the device of each ring run in threads of your
 * program. docs/LIBRARY.md has a table of all calls.
 *
 * A new ring is off. To enable it, both sides have to act; nothing happens in the background. Segment by segment:
 *
 *     1. driver       poll82599_rx_post until it returns 0, then poll82599_rx_set_tail (a receive ring; this may also come later)
 *     2. driver       poll82599_rx_ask_enable
 *     3. controller   poll82599_rx_answer, again and again, until it returns 1
 *     4. driver       poll82599_rx_state, again and again, until it returns POLL82599_ON
 *
 * and the same with poll82599_tx_ for a transmit ring. In batches the driver calls poll82599_rx_queue_enable until it returns 1, and
 * the device calls poll82599_rx_device_control until it returns POLL82599_ON. Before step 3 the controller's poll82599_rx_store
 * returns 3, and before step 4 the driver's poll82599_rx_poll returns 3.
 *
 * To disable a ring: the driver calls ask_disable; the controller calls answer until it returns 1, which it does only between two
 * frames; the driver calls state until it returns POLL82599_OFF. Then untaken or unsent counts the segments that are left, reclaim
 * takes the buffers back one at a time until it returns 0, and renew makes the ring as new: off, with nothing posted.
 *
 * No call sleeps or wakes anybody, but a program can. Each store of a descriptor or a register is sequentially consistent and is made
 * before the call returns. So a thread may wake another, for example by an eventfd, after a call that made work for it: a device after
 * poll82599_rx_batch posted buffers or poll82599_tx_batch posted packets, a driver after poll82599_offer or poll82599_turn returned 1.
 * A thread that is about to sleep says so first, by a sequentially consistent store, and then looks once more. A device's thread calls
 * ..._device_control for each of its queues in turn, because a driver that enables several may wait for any of them.
 *
 * Results:
 * - poll82599_..._new, poll82599_decode, poll82599_encode, poll82599_moves and poll82599_once return 0 when it is done. Any other
 *   number is a refusal and leaves handles and bytes as they were.
 * - poll82599_..._close returns how many buffers were in the ring or the pool (poll82599_packets_close: how many packets there were;
 *   poll82599_counters_close: 0).
 * - poll82599_..._state and poll82599_..._device_control return a control word, POLL82599_OFF to POLL82599_DISABLE_ASKED.
 * - poll82599_packets_count, poll82599_pool_count and poll82599_rx_device_counts return counts.
 * - All other calls return 1 when it is done. 0 means not now, or nothing to do. The other numbers are listed at each call.
 * - A handle that is empty (never filled, or closed) or of another kind makes a call return POLL82599_NO_END, a close
 *   POLL82599_NOT_CLOSED, and the ..._close and ..._count of packets and of a pool SIZE_MAX. Then nothing happens.
 *
 * The exported functions are proved. The inline functions below, the compiler and the following duties of the caller are not checked:
 * - a handle begins as {0}, is passed by its address, and is never copied;
 * - a handle is in one call at a time. The two ends of a ring may be in calls of two threads at the same time;
 * - a handle may go to another thread between two calls, if a lock, the start or join of a thread, or a sequentially consistent
 *   atomic orders the two calls;
 * - the handles of a call differ; a ..._close call is given the two ends of one ring, which no other thread uses any more;
 * - a pointer to bytes has at least as many bytes as its length argument says. No pointer is null, unless a comment allows it. */
#ifndef POLL82599_H
#define POLL82599_H

#include <stddef.h>
#include <stdint.h>

#ifdef __cplusplus
extern "C" {
#endif

/* The version of the library. */
#define POLL82599_VERSION "0.1.0"

/* The limits. */
enum {
    POLL82599_LEAST_RING = 8,       /* descriptors of a ring: a power of two, at least this .. */
    POLL82599_MOST_RING = 4096,     /* .. and at most this */
    POLL82599_BUFFER_BYTES = 2048,  /* of a buffer, and the most in a segment */
    POLL82599_LEAST_FRAME = 14,     /* bytes of a frame, without its CRC: at least this .. */
    POLL82599_MOST_FRAME = 15000,
    POLL82599_MOST_SEGMENTS = 15,   /* of a frame; also fewer than the ring has descriptors */
    POLL82599_MOST_PAIRS = 8,       /* of queues in a list of moves */
    POLL82599_LEAST_BUFFERS = 16,   /* of a driver or a worker: at least this .. */
    POLL82599_MOST_BUFFERS = 256,
    POLL82599_POOL_BUFFERS = 65536, /* the most of a pool */
    POLL82599_COUNTERS = 8          /* of a set */
};

/* The results of the ..._new calls, in the `int32_t` that they return. */
enum poll82599_made {
    POLL82599_MADE = 0,
    POLL82599_MADE_NO_LENGTH = 1,   /* the length is not a power of two from 8 to 4,096 */
    POLL82599_MADE_NO_MEMORY = 2,
    POLL82599_MADE_NO_BUFFERS = 3,  /* the number of buffers is not 16 to 256; of a pool: not 16 to 65,536 */
    POLL82599_MADE_NO_SETTING = 4,  /* another argument is out of range */
    POLL82599_MADE_IN_USE = 5       /* a handle is not empty */
};

/* The results of the other calls on handles. A number has one meaning in a call; several calls share a number. */
enum poll82599_result {
    POLL82599_NOT_NOW = 0,      /* not now, or nothing to do; of ..._offer: too few descriptors are free, and the frame is held */
    POLL82599_DONE = 1,
    POLL82599_EMPTY = 2,        /* rx_poll: nothing is posted */
    POLL82599_UNFIT = 2,        /* rx_store.., tx_post.., offer, packets_put, packets_append: this length, or it cannot follow the frame so far */
    POLL82599_NOT_DISABLED = 2, /* untaken, unsent, ..reclaim: no disabling was seen answered */
    POLL82599_NOT_RENEWED = 2,  /* ..queue_enable: a disabling was seen answered, so renew first */
    POLL82599_STASH_FULL = 2,   /* packet_free: the worker would have too many empty buffers */
    POLL82599_NOT_ON = 3,       /* rx_poll, rx_store.., tx_send, offer, turn: the queue is off, or was said to be quiet */
    POLL82599_TOO_LONG = 3,     /* tx_batch: the oldest packet has too many segments */
    POLL82599_NO_ROOM = 4,      /* rx_poll, tx_send, turn, packet_copy: `room` is too small. After turn the frame waits in the device */
    POLL82599_OVERSIZE = 4,     /* offer: the frame needs at least as many descriptors as the ring has */
    POLL82599_DROPPED = 5,      /* offer: too few descriptors are free */
    POLL82599_NO_MEMORY = 5     /* turn */
};

/* What a call returns for a handle that is empty or of another kind, and for an unknown operation number; and what a close returns for
 * such a handle. */
#define POLL82599_NO_END UINT32_C(0xFFFFFFFF)
#define POLL82599_NOT_CLOSED INT64_C(-2)

/* The operation that a driver or a pool makes, its result, and a count of buffers or segments. */
struct poll82599_call {
    uint32_t operation;
    uint32_t answer;
    size_t count; /* to poll82599_pool_move: how many buffers to return */
};

/* The registers of queue 0 by their offsets in the datasheet (sections 8.2.3.8 and 8.2.3.9); those of queue q, below 64, are
 * POLL82599_QUEUE_STRIDE * q further on. They are names only: a ring has a word in memory for each register, and no call takes an
 * offset. */
enum {
    POLL82599_RDH = 0x1010,
    POLL82599_RDT = 0x1018,
    POLL82599_RXDCTL = 0x1028,
    POLL82599_TDH = 0x6010,
    POLL82599_TDT = 0x6018,
    POLL82599_TXDCTL = 0x6028,
    POLL82599_QUEUE_STRIDE = 0x40
};

/* The control word, which poll82599_rx_state and poll82599_tx_state load. */
enum { POLL82599_OFF = 0, POLL82599_ENABLE_ASKED = 1, POLL82599_ON = 2, POLL82599_DISABLE_ASKED = 3 };

/* The handles of the two ends of a receive ring. */
struct poll82599_rx_driver { uint8_t *end; };
struct poll82599_rx_controller { uint8_t *end; };

/* The operations of poll82599_rx_drive. Below is an inline function for each of them. */
enum poll82599_rx_driver_operation {
    POLL82599_RX_SET_TAIL = 0,
    POLL82599_RX_ASK_ENABLE = 1,
    POLL82599_RX_STATE = 2,
    POLL82599_RX_ASK_DISABLE = 3,
    POLL82599_RX_RECLAIM = 4,
    POLL82599_RX_RENEW = 5,
    POLL82599_RX_UNTAKEN = 6,
    POLL82599_RX_IS_QUIET = 7
};

int32_t poll82599_rx_new(uint32_t descriptors, uint32_t buffers, struct poll82599_rx_driver *driver, struct poll82599_rx_controller *controller);
void poll82599_rx_drive(struct poll82599_rx_driver *driver, struct poll82599_call *call);
int64_t poll82599_rx_close(struct poll82599_rx_driver *driver, struct poll82599_rx_controller *controller);

/* poll82599_rx_new makes a receive ring of `descriptors` descriptors: its driver, which has `buffers` empty buffers, and its controller.
 * The ring is off. Returns 0: done; 1: the length is not a power of two from 8 to 4,096; 2: no memory; 3: `buffers` is not 16 to 256;
 * 5: a handle is not empty. Only 0 changes the handles.
 *
 * poll82599_rx_close frees the ring and all its buffers. Returns how many buffers were in the ring, or -1 if it has another owner left;
 * both handles are then empty. Returns POLL82599_NOT_CLOSED if a handle is empty or of another kind; the handles then keep
 * what they hold. */

static inline uint32_t poll82599_rx_do(struct poll82599_rx_driver *driver, uint32_t operation)
{
    struct poll82599_call call = {operation, 0, 0};
    poll82599_rx_drive(driver, &call);
    return call.answer;
}

/* ---- The driver's thread. */

/* Posts an empty buffer in the next descriptor (section 7.1.6.1). The controller sees it after poll82599_rx_set_tail. Allowed before the
 * queue is on. Returns 1: done; 0: no free descriptor, no empty buffer, or a disabling was asked for. */
uint32_t poll82599_rx_post(struct poll82599_rx_driver *driver);

/* Stores RDT after the last posted descriptor (section 7.1.9). Returns 1: done; 0: a disabling was asked for. */
static inline uint32_t poll82599_rx_set_tail(struct poll82599_rx_driver *driver) { return poll82599_rx_do(driver, POLL82599_RX_SET_TAIL); }

/* Takes the next segment, in the order in which they were stored (section 7.1.6.2), and makes its buffer an empty one of the driver
 * again. Returns 1: its bytes are at the beginning of `bytes`, its length in `*len` and its EOP in `*eop`; 0: the next descriptor has
 * no DD yet; 2: nothing is posted; 3: the queue was not seen on, or was seen off; 4: `room` is below 2,048. Only 1 takes a segment or
 * writes to `bytes`. */
uint32_t poll82599_rx_poll(struct poll82599_rx_driver *driver, uint8_t *bytes, size_t room, uint32_t *len, uint32_t *eop);

/* Asks for the queue to be enabled (section 4.6.7). The controller has to answer. Returns 1: done; 0: this was asked before, and the
 * ring was not renewed since. */
static inline uint32_t poll82599_rx_ask_enable(struct poll82599_rx_driver *driver) { return poll82599_rx_do(driver, POLL82599_RX_ASK_ENABLE); }

/* Loads and returns the control word: POLL82599_ON once an enabling is answered, POLL82599_OFF in a new ring and once a disabling is
 * answered. Only by this call does the driver learn of an answer. */
static inline uint32_t poll82599_rx_state(struct poll82599_rx_driver *driver) { return poll82599_rx_do(driver, POLL82599_RX_STATE); }

/* Asks for the queue to be disabled. The controller has to answer. Returns 1: done; 0: poll82599_rx_state did not return POLL82599_ON
 * yet, or this was asked before. */
static inline uint32_t poll82599_rx_ask_disable(struct poll82599_rx_driver *driver) { return poll82599_rx_do(driver, POLL82599_RX_ASK_DISABLE); }

/* Loads the quiet word. Returns 1: the controller said that it stores no more; 0: it did not. If a later poll82599_rx_poll returns 0
 * or 2, everything that was stored has been taken. */
static inline uint32_t poll82599_rx_is_quiet(struct poll82599_rx_driver *driver) { return poll82599_rx_do(driver, POLL82599_RX_IS_QUIET); }

/* After the driver saw its disabling answered: loads RDH and puts into `*left` how many segments were stored and not taken. The number
 * is final. Returns 1: done; 0: a buffer was reclaimed before; 2: no disabling was seen answered. */
static inline uint32_t poll82599_rx_untaken(struct poll82599_rx_driver *driver, uint32_t *left)
{
    struct poll82599_call call = {POLL82599_RX_UNTAKEN, 0, 0};
    poll82599_rx_drive(driver, &call);
    *left = (uint32_t)call.count;
    return call.answer;
}

/* Takes back the oldest buffer that is still in the disabled ring (section 4.6.7). Returns 1: done; 0: none is left; 2: no disabling was
 * seen answered. */
static inline uint32_t poll82599_rx_reclaim(struct poll82599_rx_driver *driver) { return poll82599_rx_do(driver, POLL82599_RX_RECLAIM); }

/* Clears the registers of a disabled queue from which all buffers are back. The ring is then as new: off, and it can be enabled again.
 * Returns 1: done; 0: no disabling was seen answered, or a buffer is still in the ring. */
static inline uint32_t poll82599_rx_renew(struct poll82599_rx_driver *driver) { return poll82599_rx_do(driver, POLL82599_RX_RENEW); }

/* ---- The controller's thread. */

/* Loads the control word, and answers what the driver asks. Returns 1: an enabling or a disabling is now answered; 0: nothing was asked,
 * or a disabling has to wait until the unfinished frame is complete. */
uint32_t poll82599_rx_answer(struct poll82599_rx_controller *controller);

/* Stores a segment of 1 to 2,048 bytes, with EOP if `eop` is not 0 (section 7.1.6.2), and RDH if it ends its frame. A frame has 14 to
 * 15,000 bytes in up to 15 segments, and fewer segments than the ring has descriptors. Returns 1: done; 0: no descriptor is free; 2:
 * another length, or the segment cannot follow the frame so far; 3: the queue is off, or was said to be quiet. Only 1 stores anything. */
uint32_t poll82599_rx_store_segment(struct poll82599_rx_controller *controller, const uint8_t *bytes, size_t len, uint32_t eop);

/* Stores a frame of one segment, 14 to 2,048 bytes. Returns what poll82599_rx_store_segment returns. */
static inline uint32_t poll82599_rx_store(struct poll82599_rx_controller *controller, const uint8_t *frame, size_t len)
{
    return poll82599_rx_store_segment(controller, frame, len, 1);
}

/* Says that no more is stored until the queue is enabled again. Returns 1: done; 0: the queue is off, or a frame is unfinished. */
uint32_t poll82599_rx_set_quiet(struct poll82599_rx_controller *controller);

/* ---- Transmit rings. */

struct poll82599_tx_driver { uint8_t *end; };
struct poll82599_tx_controller { uint8_t *end; };

/* The operations of poll82599_tx_drive. */
enum poll82599_tx_driver_operation {
    POLL82599_TX_SET_TAIL = 0,
    POLL82599_TX_ASK_ENABLE = 1,
    POLL82599_TX_STATE = 2,
    POLL82599_TX_ASK_DISABLE = 3,
    POLL82599_TX_RECLAIM = 4,
    POLL82599_TX_RENEW = 5,
    POLL82599_TX_UNSENT = 6,
    POLL82599_TX_POLL_REPORT = 7
};

int32_t poll82599_tx_new(uint32_t descriptors, uint32_t buffers, uint32_t by_head, struct poll82599_tx_driver *driver, struct poll82599_tx_controller *controller);
void poll82599_tx_drive(struct poll82599_tx_driver *driver, struct poll82599_call *call);
int64_t poll82599_tx_close(struct poll82599_tx_driver *driver, struct poll82599_tx_controller *controller);

/* poll82599_tx_new and poll82599_tx_close return what poll82599_rx_new and poll82599_rx_close return. The ring is off. It reports what is
 * sent by DD in its descriptors (section 7.2.3.5), or, if `by_head` is not 0, by a word in memory that holds the head. */

static inline uint32_t poll82599_tx_do(struct poll82599_tx_driver *driver, uint32_t operation)
{
    struct poll82599_call call = {operation, 0, 0};
    poll82599_tx_drive(driver, &call);
    return call.answer;
}

/* ---- The driver's thread. */

/* Posts a segment of 1 to 2,048 bytes, with EOP and RS if they are not 0, and with PAYLEN (section 7.2.3.2.4). The bytes are copied. A
 * frame has 14 to 15,000 bytes in up to 15 segments, and fewer segments than the ring has descriptors. All its segments have the same
 * PAYLEN, the length of the whole frame; RS is allowed only with EOP. Allowed before the queue is on. Returns 1: done; 0: no free
 * descriptor, no empty buffer, or a disabling was asked for; 2: the segment cannot follow the frame so far. Only 1 posts anything. */
uint32_t poll82599_tx_post_segment(struct poll82599_tx_driver *driver, const uint8_t *bytes, size_t len, uint32_t eop, uint32_t rs, uint32_t paylen);

/* Posts a frame of one segment, 14 to 2,048 bytes, with EOP and RS. Returns what poll82599_tx_post_segment returns. */
static inline uint32_t poll82599_tx_post(struct poll82599_tx_driver *driver, const uint8_t *frame, size_t len)
{
    return poll82599_tx_post_segment(driver, frame, len, 1, 1, len <= POLL82599_MOST_FRAME ? (uint32_t)len : 0);
}

/* Stores TDT after the last posted descriptor (section 7.2.3.4). Returns 1: done; 0: a disabling was asked for, or a frame is unfinished. */
static inline uint32_t poll82599_tx_set_tail(struct poll82599_tx_driver *driver) { return poll82599_tx_do(driver, POLL82599_TX_SET_TAIL); }

/* Loads the oldest report that is outstanding (section 7.2.3.5). Returns 1: it is made, and so are all before it; 0: it is not made, none
 * is outstanding, or the queue was not seen on. */
static inline uint32_t poll82599_tx_poll_report(struct poll82599_tx_driver *driver) { return poll82599_tx_do(driver, POLL82599_TX_POLL_REPORT); }

/* Asks for the queue to be enabled (section 4.6.8). The controller has to answer. Returns 1: done; 0: this was asked before, and the
 * ring was not renewed since. */
static inline uint32_t poll82599_tx_ask_enable(struct poll82599_tx_driver *driver) { return poll82599_tx_do(driver, POLL82599_TX_ASK_ENABLE); }

/* Loads and returns the control word: POLL82599_ON once an enabling is answered, POLL82599_OFF in a new ring and once a disabling is
 * answered. Only by this call does the driver learn of an answer. */
static inline uint32_t poll82599_tx_state(struct poll82599_tx_driver *driver) { return poll82599_tx_do(driver, POLL82599_TX_STATE); }

/* Asks for the queue to be disabled. The controller has to answer. Returns 1: done; 0: poll82599_tx_state did not return POLL82599_ON
 * yet, or this was asked before. */
static inline uint32_t poll82599_tx_ask_disable(struct poll82599_tx_driver *driver) { return poll82599_tx_do(driver, POLL82599_TX_ASK_DISABLE); }

/* Takes back the buffer of the oldest descriptor that poll82599_tx_poll_report has found reported. Returns 1: done; 0: there is none, or
 * the queue is off. */
uint32_t poll82599_tx_clean(struct poll82599_tx_driver *driver);

/* After the driver saw its disabling answered: loads TDH and puts into `*left` how many segments were posted and not sent. The number is
 * final. Returns 1: done; 2: no disabling was seen answered. */
static inline uint32_t poll82599_tx_unsent(struct poll82599_tx_driver *driver, uint32_t *left)
{
    struct poll82599_call call = {POLL82599_TX_UNSENT, 0, 0};
    poll82599_tx_drive(driver, &call);
    *left = (uint32_t)call.count;
    return call.answer;
}

/* Takes back the oldest buffer that is still in the disabled ring. Returns 1: done; 0: none is left; 2: no disabling was seen answered. */
static inline uint32_t poll82599_tx_reclaim(struct poll82599_tx_driver *driver) { return poll82599_tx_do(driver, POLL82599_TX_RECLAIM); }

/* Clears the registers of a disabled queue from which all buffers are back. The ring is then as new: off, and it can be enabled again.
 * Returns 1: done; 0: no disabling was seen answered, or a buffer is still in the ring. */
static inline uint32_t poll82599_tx_renew(struct poll82599_tx_driver *driver) { return poll82599_tx_do(driver, POLL82599_TX_RENEW); }

/* ---- The controller's thread. */

/* Loads the control word, and answers what the driver asks. Returns 1: an enabling or a disabling is now answered; 0: nothing was asked,
 * or a disabling has to wait until the unfinished frame is sent. */
uint32_t poll82599_tx_answer(struct poll82599_tx_controller *controller);

/* Sends the next segment, in the order in which they were posted, and reports it if it asks for a report. Returns 1: its bytes are at the
 * beginning of `bytes`, its length in `*len` and its EOP in `*eop`; 0: none is ready; 3: the queue is off; 4: `room` is below 2,048.
 * Only 1 sends a segment or writes to `bytes`. */
uint32_t poll82599_tx_send(struct poll82599_tx_controller *controller, uint8_t *bytes, size_t room, uint32_t *len, uint32_t *eop);

/* ---- Packets and batches, in the manner of ixy and of an ixgbe driver.
 *
 * A worker's packets are its empty buffers and a list of up to 32 packets, the oldest first. A packet is named by its place in that list,
 * counted from 0. A queue is the driver's side of a ring, in batches. A device is the other side: it takes and sends whole frames, and
 * the library cuts them into segments and joins them again. A pool has more empty buffers than a worker: a worker refills from it, and
 * returns buffers to it. Queues, devices, packets and pools are handles, with the duties listed at the top. A ring is used either in
 * batches or segment by segment. */

struct poll82599_packets { uint8_t *end; };
struct poll82599_pool { uint8_t *end; };
struct poll82599_counters { uint8_t *end; };
struct poll82599_rx_queue { uint8_t *end; };
struct poll82599_rx_device { uint8_t *end; };
struct poll82599_tx_queue { uint8_t *end; };
struct poll82599_tx_device { uint8_t *end; };

enum {
    POLL82599_MOST_BATCH = 32,      /* packets in a batch, and in a worker's list */
    POLL82599_MOST_RS_EVERY = 4096 /* frames of which one asks for a report */
};

/* The counts of a receive device: each frame in `offered` was stored, dropped or oversize. */
struct poll82599_offered {
    uint64_t offered;
    uint64_t stored;
    uint64_t dropped;
    uint64_t oversize;
};

/* The operations of poll82599_pool_move and of the ..._queue_do calls. */
enum poll82599_pool_operation { POLL82599_POOL_REFILL = 0, POLL82599_POOL_RETURN = 1 };
enum poll82599_rx_queue_operation {
    POLL82599_RX_QUEUE_ENABLE = 0,
    POLL82599_RX_QUEUE_DISABLE = 1,
    POLL82599_RX_QUEUE_FINISH = 2,
    POLL82599_RX_QUEUE_RENEW = 3,
    POLL82599_RX_QUEUE_IS_QUIET = 4
};
enum poll82599_tx_queue_operation {
    POLL82599_TX_QUEUE_ENABLE = 0,
    POLL82599_TX_QUEUE_DISABLE = 1,
    POLL82599_TX_QUEUE_FINISH = 2,
    POLL82599_TX_QUEUE_RENEW = 3,
    POLL82599_TX_QUEUE_OUTSTANDING = 4
};

/* Exported functions; more are declared below. poll82599_pool_move and those called ..._do take the number of an operation; below is an
 * inline function for each operation. Those called ..._measure and ..._queue_batch take no null pointer; the inline functions
 * poll82599_packet_length, poll82599_packets_count, poll82599_rx_batch and poll82599_tx_batch call them, and take one. */
int32_t poll82599_packets_new(uint32_t buffers, struct poll82599_packets *packets);
uint32_t poll82599_packets_put(struct poll82599_packets *packets, const uint8_t *frame, size_t len);
uint32_t poll82599_packets_append(struct poll82599_packets *packets, const uint8_t *bytes, size_t len);
uint32_t poll82599_packet_move(struct poll82599_packets *packets, size_t packet, struct poll82599_packets *other);
uint32_t poll82599_packet_read(struct poll82599_packets *packets, size_t packet, size_t at, uint8_t *bytes, size_t len);
uint32_t poll82599_packet_write(struct poll82599_packets *packets, size_t packet, size_t at, const uint8_t *bytes, size_t len);
uint32_t poll82599_packet_measure(struct poll82599_packets *packets, size_t packet, size_t *len, size_t *segments);
uint32_t poll82599_packets_measure(struct poll82599_packets *packets, size_t *count, size_t *empty);
size_t poll82599_packets_close(struct poll82599_packets *packets);
int32_t poll82599_pool_new(uint32_t buffers, struct poll82599_pool *pool);
void poll82599_pool_move(struct poll82599_packets *packets, struct poll82599_pool *pool, struct poll82599_call *call);
size_t poll82599_pool_count(struct poll82599_pool *pool);
size_t poll82599_pool_close(struct poll82599_pool *pool);
int32_t poll82599_counters_new(struct poll82599_counters *counters);
int32_t poll82599_counters_reader(struct poll82599_counters *counters, struct poll82599_counters *reader);
uint32_t poll82599_counters_set(struct poll82599_counters *counters, size_t at, uint64_t number);
uint32_t poll82599_counters_get(struct poll82599_counters *reader, size_t at, uint64_t *number);
int64_t poll82599_counters_close(struct poll82599_counters *counters);
int32_t poll82599_rx_queue_new(uint32_t descriptors, size_t batch, size_t fill, uint32_t drop_en, struct poll82599_rx_queue *queue, struct poll82599_rx_device *device);
uint32_t poll82599_rx_queue_batch(struct poll82599_rx_queue *queue, struct poll82599_packets *packets, size_t *count, size_t *posted);
void poll82599_rx_queue_do(struct poll82599_rx_queue *queue, struct poll82599_call *call);
int64_t poll82599_rx_queue_close(struct poll82599_rx_queue *queue, struct poll82599_rx_device *device);
int32_t poll82599_tx_queue_new(uint32_t descriptors, uint16_t every, uint32_t by_head, struct poll82599_tx_queue *queue, struct poll82599_tx_device *device);
uint32_t poll82599_tx_queue_batch(struct poll82599_tx_queue *queue, struct poll82599_packets *packets, size_t *count, size_t *cleaned);
void poll82599_tx_queue_do(struct poll82599_tx_queue *queue, struct poll82599_call *call);
int64_t poll82599_tx_queue_close(struct poll82599_tx_queue *queue, struct poll82599_tx_device *device);

/* poll82599_packets_new makes a worker's packets: no packet, and `buffers` empty buffers. Returns 0: done; 2: no memory; 3: `buffers` is
 * not 16 to 256; 5: the handle is not empty. poll82599_packets_close frees them all and returns how many packets there were.
 *
 * poll82599_pool_new makes a pool of `buffers` empty buffers. Returns 0, 2 and 5 as above; 3: `buffers` is not 16 to 65,536.
 * poll82599_pool_count returns how many buffers are in the pool. poll82599_pool_close frees them and returns how many they were.
 *
 * poll82599_counters_new makes 8 counters, all 0, and the handle of the thread that writes them. poll82599_counters_reader makes a handle
 * by which another thread reads them. Both return 0, 2 and 5 as above; poll82599_counters_reader 4: the first handle is no writer's.
 *
 * poll82599_rx_queue_new makes a receive queue of `descriptors` descriptors. Its driver takes up to `batch` packets at once, 1 to 32.
 * Its device fills buffers to `fill` bytes, 1,024 or 2,048. When too few descriptors are free the device drops a frame if `drop_en` is
 * not 0, and else holds it (SRRCTL.Drop_En). The queue is off. Returns 0: done; 1: the length is not a power of two from 8 to 4,096; 2: no
 * memory; 4: `batch` or `fill` is another number; 5: a handle is not empty.
 *
 * poll82599_tx_queue_new makes a transmit queue, whose driver asks for a report with each `every`th frame, 1 to 4,096, and with the last
 * of a batch. It reports as poll82599_tx_new says. The queue is off. Returns 0, 1, 2 and 5 as above; 4: `every` is another number.
 *
 * poll82599_rx_queue_close and poll82599_tx_queue_close close a queue and its device, and return what poll82599_rx_close returns. The
 * buffers that lie in the ring are freed; take them back before with ..._queue_reclaim. */

/* ---- A worker's packets.
 *
 * poll82599_packets_put makes a packet of a frame of 14 to 15,000 bytes, behind the others. The bytes are copied. Returns 1: done; 0:
 * there are 32 packets, or too few empty buffers; 2: the length is another.
 *
 * poll82599_packets_append appends a segment of 1 to 2,048 bytes to the last packet, in a buffer of its own. So a packet is built from
 * pieces, of which the first has at least 14 bytes. Returns 1: done; 0: there is no packet, or no empty buffer; 2: the length is another,
 * or the packet would have more than 15 segments or 15,000 bytes.
 *
 * poll82599_packet_move moves a packet, with its buffers, behind the packets of another worker, and the packets behind it move up.
 * So a thread sorts packets by the queue that is to send them. Returns 1: done; 0: there is no such packet, or `other` has 32 packets.
 *
 * poll82599_packet_read copies `len` bytes of a packet, from its byte `at` on, to `bytes`, and poll82599_packet_write replaces them by
 * those of `bytes`, in place. The range may span several buffers. A call costs a pass over the packet's buffers, so read a header as a
 * whole. Returns 1: done; 0: there is no such packet, or it has fewer than `at + len` bytes. */

/* Copies a packet to the beginning of `bytes`. Returns 1: done; 0: there is no such packet; 4: `room` is too small. With 1 and 4, `*len`
 * is the packet's length. */
uint32_t poll82599_packet_copy(struct poll82599_packets *packets, size_t packet, uint8_t *bytes, size_t room, size_t *len);

/* Puts into `*len` how many bytes a packet has, and into `*segments`, unless `segments` is null, how many buffers. Returns 1: done; 0:
 * there is no such packet. */
static inline uint32_t poll82599_packet_length(struct poll82599_packets *packets, size_t packet, size_t *len, size_t *segments)
{
    size_t unused;
    return poll82599_packet_measure(packets, packet, len, segments ? segments : &unused);
}

/* Reads a byte of a packet. Returns 1: done; 0: there is no such packet or byte. */
uint32_t poll82599_packet_byte(struct poll82599_packets *packets, size_t packet, size_t at, uint8_t *byte);

/* Replaces a byte of a packet in place. Returns 1: done; 0: there is no such packet or byte. */
uint32_t poll82599_packet_touch(struct poll82599_packets *packets, size_t packet, size_t at, uint8_t byte);

/* Frees a packet: its buffers are empty ones of the worker again, and the packets behind it move up. Returns 1: done; 0: there is no such
 * packet; 2: the worker would have more than 256 empty buffers. */
uint32_t poll82599_packet_free(struct poll82599_packets *packets, size_t packet);

/* Returns how many packets the worker has, and puts into `*empty`, unless `empty` is null, how many empty buffers. */
static inline size_t poll82599_packets_count(struct poll82599_packets *packets, size_t *empty)
{
    size_t count, unused;
    return poll82599_packets_measure(packets, &count, empty ? empty : &unused) == POLL82599_DONE ? count : SIZE_MAX;
}

/* ---- A pool of buffers.
 *
 * A worker has at most 256 empty buffers, and a ring has up to 4,096 descriptors. A worker that refills from a pool posts more. A pool is a
 * handle: one call at a time uses it. Several threads share a pool under a lock of the program, or each has a pool of its own. */

static inline uint32_t poll82599_pool_step(struct poll82599_packets *packets, struct poll82599_pool *pool, uint32_t operation, size_t wanted, size_t *count)
{
    struct poll82599_call call = {operation, 0, wanted};
    poll82599_pool_move(packets, pool, &call);
    if (count)
        *count = call.count;
    return call.answer;
}

/* Takes empty buffers from the pool until the worker has 256 or the pool is empty. Returns 1: done, `*count` buffers; 0: the worker has 256,
 * or the pool is empty. `count` may be null. */
static inline uint32_t poll82599_packets_refill(struct poll82599_packets *packets, struct poll82599_pool *pool, size_t *count) { return poll82599_pool_step(packets, pool, POLL82599_POOL_REFILL, 0, count); }

/* Returns up to `wanted` empty buffers of the worker to the pool. Returns 1: done, `*count` buffers; 0: none was wanted, the worker has none,
 * or the pool has 65,536. `count` may be null. */
static inline uint32_t poll82599_packets_return(struct poll82599_packets *packets, struct poll82599_pool *pool, size_t wanted, size_t *count) { return poll82599_pool_step(packets, pool, POLL82599_POOL_RETURN, wanted, count); }

/* ---- Counters.
 *
 * A thread tells others how far it is: it writes counters, and other threads read them, each by a reader of its own. A call makes a
 * load, and poll82599_counters_set also a store; none waits. What a counter counts is up to the program: the frames taken, posted or sent, for example.
 *
 * poll82599_counters_set writes counter `at`. Returns 1: done; 0: `at` is not below 8, or the counter is above `number`.
 * poll82599_counters_get reads counter `at`, by a reader's handle only. Returns 1: done; 0: `at` is not below 8. No counter falls from one
 * call of a reader to the next, and none is below what it was when the reader was made. */

/* ---- The driver's thread. */

static inline uint32_t poll82599_rx_queue_step(struct poll82599_rx_queue *queue, uint32_t operation, size_t *count)
{
    struct poll82599_call call = {operation, 0, 0};
    poll82599_rx_queue_do(queue, &call);
    if (count)
        *count = call.count;
    return call.answer;
}

/* Takes the packets that are complete, up to a batch of them and as many as the worker has room for, and appends them to the worker's.
 * Posts as many empty buffers of the worker as fit, and stores RDT once if it posted any; after ..._disable it posts nothing. The first
 * batch of a queue that is on takes nothing and posts the first buffers. Returns 1: done, `*count` packets were taken, and `*posted`
 * buffers were posted, for which a device may wait; both may be 0; 0: the queue was not seen on, or was seen off. `posted` may be null. */
static inline uint32_t poll82599_rx_batch(struct poll82599_rx_queue *queue, struct poll82599_packets *packets, size_t *count, size_t *posted)
{
    size_t unused;
    return poll82599_rx_queue_batch(queue, packets, count, posted ? posted : &unused);
}

/* Refills the worker from the pool, and then does poll82599_rx_batch. The results are those of poll82599_rx_batch. A loop until
 * `*posted` is 0 posts buffers in all free descriptors, unless the pool runs out or the queue is not on. */
static inline uint32_t poll82599_rx_batch_from(struct poll82599_rx_queue *queue, struct poll82599_packets *packets, struct poll82599_pool *pool, size_t *count, size_t *posted)
{
    poll82599_packets_refill(packets, pool, 0);
    return poll82599_rx_batch(queue, packets, count, posted);
}

/* Asks for the queue to be enabled, if nothing was asked yet, and loads the control word. Call it until it returns 1; meanwhile the device
 * has to call poll82599_rx_device_control. Returns 1: the queue is on; 0: it is not; 2: it was seen disabled, renew it first. */
static inline uint32_t poll82599_rx_queue_enable(struct poll82599_rx_queue *queue) { return poll82599_rx_queue_step(queue, POLL82599_RX_QUEUE_ENABLE, 0); }

/* Asks for the queue to be disabled. Returns 1: done; 0: the queue was not seen on, or this was asked before. */
static inline uint32_t poll82599_rx_queue_disable(struct poll82599_rx_queue *queue) { return poll82599_rx_queue_step(queue, POLL82599_RX_QUEUE_DISABLE, 0); }

/* Loads the control word, and once the disabling is answered RDH. Call it until it returns 1; meanwhile the device has to call
 * poll82599_rx_device_control. Returns 1, once: the queue is off, and `*left` segments were stored and not taken; 0: not yet, or 1 was
 * returned before. `left` may be null. */
static inline uint32_t poll82599_rx_queue_finish(struct poll82599_rx_queue *queue, size_t *left) { return poll82599_rx_queue_step(queue, POLL82599_RX_QUEUE_FINISH, left); }

/* Takes the buffers of a disabled queue back as empty ones of the worker, `*count` of them. Returns 1: these are all; 0: some are left,
 * because the worker has 256; 2: no disabling was seen answered. */
uint32_t poll82599_rx_queue_reclaim(struct poll82599_rx_queue *queue, struct poll82599_packets *packets, size_t *count);

/* Clears the registers of a disabled queue from which all buffers are back. The queue is then as new. Returns 1: done; 0: no disabling was
 * seen answered, or a buffer is still in the ring. */
static inline uint32_t poll82599_rx_queue_renew(struct poll82599_rx_queue *queue) { return poll82599_rx_queue_step(queue, POLL82599_RX_QUEUE_RENEW, 0); }

/* Loads the quiet word. Returns 1: the device said that it stores no more; 0: it did not. */
static inline uint32_t poll82599_rx_queue_is_quiet(struct poll82599_rx_queue *queue) { return poll82599_rx_queue_step(queue, POLL82599_RX_QUEUE_IS_QUIET, 0); }

static inline uint32_t poll82599_tx_queue_step(struct poll82599_tx_queue *queue, uint32_t operation, size_t *count)
{
    struct poll82599_call call = {operation, 0, 0};
    poll82599_tx_queue_do(queue, &call);
    if (count)
        *count = call.count;
    return call.answer;
}

/* Takes back the buffers of reported frames as empty ones of the worker. Posts the worker's packets from the oldest on as long as they
 * fit, the last one with a request for a report, and stores TDT once if it posted any; after ..._disable it posts nothing. Returns 1:
 * done, and `*count` packets were posted and belong to the queue; 0: the queue was not seen on, or was seen off; 3: the oldest
 * packet has at least as many segments as the ring has descriptors, and all packets stay. With 1 and 3, `*cleaned` buffers came back;
 * `cleaned` may be null. */
static inline uint32_t poll82599_tx_batch(struct poll82599_tx_queue *queue, struct poll82599_packets *packets, size_t *count, size_t *cleaned)
{
    size_t unused;
    return poll82599_tx_queue_batch(queue, packets, count, cleaned ? cleaned : &unused);
}

/* Takes back the buffers of reported frames as empty ones of the worker. Returns 1: done, `*count` buffers; 0: as above. */
uint32_t poll82599_tx_queue_clean(struct poll82599_tx_queue *queue, struct poll82599_packets *packets, size_t *count);

/* Puts into `*count` how many segments were posted whose buffers have not come back. If there is none, all that was posted was sent, or was
 * reclaimed. Returns 1. */
static inline uint32_t poll82599_tx_queue_outstanding(struct poll82599_tx_queue *queue, size_t *count) { return poll82599_tx_queue_step(queue, POLL82599_TX_QUEUE_OUTSTANDING, count); }

/* As the calls of a receive queue. `*left` is how many segments were posted and not sent. */
static inline uint32_t poll82599_tx_queue_enable(struct poll82599_tx_queue *queue) { return poll82599_tx_queue_step(queue, POLL82599_TX_QUEUE_ENABLE, 0); }
static inline uint32_t poll82599_tx_queue_disable(struct poll82599_tx_queue *queue) { return poll82599_tx_queue_step(queue, POLL82599_TX_QUEUE_DISABLE, 0); }
static inline uint32_t poll82599_tx_queue_finish(struct poll82599_tx_queue *queue, size_t *left) { return poll82599_tx_queue_step(queue, POLL82599_TX_QUEUE_FINISH, left); }
uint32_t poll82599_tx_queue_reclaim(struct poll82599_tx_queue *queue, struct poll82599_packets *packets, size_t *count);
static inline uint32_t poll82599_tx_queue_renew(struct poll82599_tx_queue *queue) { return poll82599_tx_queue_step(queue, POLL82599_TX_QUEUE_RENEW, 0); }

/* ---- The device's thread. */

/* Offers a frame that came in. Returns 1: it is stored, cut into segments of `fill` bytes, and RDH after it; 0: too few descriptors are
 * free, offer it again; 2: its length is not 14 to 15,000; 3: the queue is off, or the device has finished; 4: it needs at least as many
 * descriptors as the ring has (oversize); 5: too few descriptors are free, and it is dropped. Only 1 stores anything. */
uint32_t poll82599_offer(struct poll82599_rx_device *device, const uint8_t *frame, size_t len);

/* Loads the control word, and answers what the driver asks. Returns the control word that it stored, or else the one that it loaded:
 * POLL82599_ON once the queue is on, POLL82599_OFF in a new queue and once a disabling is answered. */
uint32_t poll82599_rx_device_control(struct poll82599_rx_device *device);

/* Says that no more is stored until the queue is enabled again. Returns 1: done; 0: the queue is off, or this was said before. */
uint32_t poll82599_rx_device_finish(struct poll82599_rx_device *device);

/* Counts the frames that were stored, dropped or oversize, and all of them together (`offered`). An offer that returned 0, 2 or 3 counts
 * nowhere. Returns 1: done. */
uint32_t poll82599_rx_device_count(struct poll82599_rx_device *device, struct poll82599_offered *counts);

/* Returns those counts; all are 0 for a handle that is empty or of another kind. */
static inline struct poll82599_offered poll82599_rx_device_counts(struct poll82599_rx_device *device)
{
    struct poll82599_offered counts = {0, 0, 0, 0};
    poll82599_rx_device_count(device, &counts);
    return counts;
}

/* Writes those counts to counters 0 to 3, in this order: stored, dropped, oversize, offered. So a thread that reads counter 3 first finds
 * at least as many frames in the other three. Returns 1: done. */
static inline uint32_t poll82599_rx_device_publish(struct poll82599_rx_device *device, struct poll82599_counters *counters)
{
    struct poll82599_offered counts = {0, 0, 0, 0};
    uint64_t numbers[4];
    uint32_t answer = poll82599_rx_device_count(device, &counts);
    size_t at;
    numbers[0] = counts.stored;
    numbers[1] = counts.dropped;
    numbers[2] = counts.oversize;
    numbers[3] = counts.offered;
    for (at = 0; at < 4 && answer == POLL82599_DONE; at++)
        answer = poll82599_counters_set(counters, at, numbers[at]);
    return answer;
}

/* Sends the next frame, in the order in which they were posted, and reports it if it asks for a report. Returns 1: the frame is at the
 * beginning of `bytes`, its length in `*len`; 0: none is ready; 3: the queue is off; 4: the frame is longer than `room`, its length in
 * `*len`; 5: no memory. Only 1 and 4 send anything. After 4 the frame waits in the device: the next call sends nothing, and hands that
 * frame out if it has room for it. */
uint32_t poll82599_turn(struct poll82599_tx_device *device, uint8_t *bytes, size_t room, size_t *len);

/* As poll82599_rx_device_control. */
uint32_t poll82599_tx_device_control(struct poll82599_tx_device *device);

/* ---- Plain data. These calls keep nothing between calls, and any thread may make them. */

/* The fields of a descriptor: the number of its buffer, the bytes in it, EOP, RS, and PAYLEN in bytes. EOP and RS are yes if not 0. A
 * field that a form does not have is 0 after decoding, and is ignored when encoding. */
struct poll82599_descriptor {
    uint32_t number;
    uint32_t len;
    uint32_t eop;
    uint32_t rs;
    uint32_t paylen;
};

/* The forms of a descriptor: as the driver posts it (sections 7.1.6.1 and 7.2.3.2.4), and as the controller writes it back (sections
 * 7.1.6.2 and 7.2.3.2.4). The bytes do not show which form it is. */
enum { POLL82599_RX_READ = 0, POLL82599_RX_BACK = 1, POLL82599_TX_READ = 2, POLL82599_TX_BACK = 3 };

enum { POLL82599_DESCRIPTOR_BYTES = 16 };

/* The results of the calls below, with NO_END of decode and encode. poll82599_moves also returns the numbers of refusals (docs/REFUSALS.md). */
enum poll82599_plain_result {
    POLL82599_PLAIN_DONE = 0,
    POLL82599_NOT_SIXTEEN = 1,      /* decode, encode: `len` is not 16 */
    POLL82599_NO_FRAME_LENGTH = 1,  /* once: `len` is not 14 to 14,336 */
    POLL82599_PAGE_SMALL = 1,       /* moves: `room` is too small */
    POLL82599_FIXED_BIT = 2,        /* decode: a bit that the profile fixes has another value */
    POLL82599_NOT_DESCRIBED = 2,    /* encode: no descriptor of the form has these fields */
    POLL82599_ONCE_NO_MEMORY = 2,   /* once */
    POLL82599_NOT_ADVANCED = 3,     /* decode: no advanced data descriptor */
    POLL82599_LENGTH_RANGE = 4,     /* decode: a length is out of range */
    POLL82599_ONCE_NO_ROOM = 4,     /* once: `room` is less than `len` */
    POLL82599_NO_QUEUES = 12,       /* moves: there can be no such queues */
    POLL82599_NOT_A_MOVE = 14       /* moves: a line is no move */
};

/* Decodes the `len` bytes of a descriptor. Returns 0: done; or the lowest of these numbers that applies: 1: `len` is not 16; 2: a bit that
 * the profile fixes has another value; 3: no advanced data descriptor; 4: a length is out of range; or 4,294,967,295: there is no such
 * form. Only 0 changes `*said`. */
uint32_t poll82599_decode(uint32_t form, const uint8_t *bytes, size_t len, struct poll82599_descriptor *said);

/* Encodes a descriptor into 16 bytes. Returns 0: done; 1: `len` is not 16; 2: no descriptor of the form has these fields (a number of
 * 65,536 or more, a length of 0 or above 2,048, RS without EOP, or PAYLEN not 14 to 15,000); 4,294,967,295: there is no such form. Only
 * 0 changes the bytes. */
uint32_t poll82599_encode(uint32_t form, const struct poll82599_descriptor *said, uint8_t *bytes, size_t len);

/* The queues for a list of moves: `pairs` queue pairs, 1 to 8, of `descriptors` descriptors each. If not 0: `enabled`, the queues begin
 * enabled; `by_head`, the transmit queues report by a head word; `json`, the output is JSON objects. */
struct poll82599_plan {
    uint32_t pairs;
    uint32_t descriptors;
    uint32_t enabled;
    uint32_t by_head;
    uint32_t json;
};

/* How many bytes the moves print, and the number of the first line that is no move, counted from 1. */
struct poll82599_moved {
    uint64_t needed;
    uint64_t line;
};

/* Makes the moves of a text, one a line, on new queues, and writes what they print to the beginning of `page` (docs/REPLAY.md describes
 * both texts). Returns 0: done; 1: `room` is less than `moved->needed`; or the number of a refusal: 14: line `moved->line` is no move;
 * 12: there can be no such queues; others: no memory. Only 0 changes the page. */
uint32_t poll82599_moves(const struct poll82599_plan *plan, const uint8_t *text, size_t len, uint8_t *page, size_t room, struct poll82599_moved *moved);

/* Passes a frame through a receive ring of 8 descriptors, whose controller and driver take turns on this thread, and copies what the
 * driver took to the beginning of `taken`. Returns 0: done; 1: `len` is not 14 to 14,336; 4: `room` is less than `len`; 2: no memory.
 * Only 0 changes `taken`. */
uint32_t poll82599_once(const uint8_t *frame, size_t len, uint8_t *taken, size_t room);

#ifdef __cplusplus
}
#endif
#endif
