/* A stand-in in plain C for the library's calls in batches that cycle.c makes. It makes the same steps at the rings: each is one sequentially
 * consistent load or store of a word that both ends share. Buffers of 2,048 bytes pass from one end to the other through the slots of the
 * descriptors, and frames are cut into segments and joined again. It disables no queue, and relies on a correct caller. */
#include <poll82599.h>

#include <stdatomic.h>
#include <stdlib.h>
#include <string.h>

enum { MOST_BUFFERS = 256, MOST_DESCRIPTORS = 256, MOST_SEGMENTS = 15 };

struct buffer {
    uint16_t len;
    uint8_t bytes[POLL82599_BUFFER_BYTES];
};

struct packet {
    struct buffer *segments[MOST_SEGMENTS];
    unsigned count;
};

struct worker {
    struct buffer *empty[MOST_BUFFERS];
    struct packet packets[POLL82599_MOST_BATCH + 1]; /* behind the packets, the segments of one that is not complete */
    unsigned empties, count;
};

/* The words of a descriptor in this stand-in: what is posted, and what is written back. */
enum { DD = 1, EOP = 2, RS = 4, LENGTH_SHIFT = 32, PAYLEN_SHIFT = 46 };

/* Places are counted from the beginning, and the low bits of a count choose the descriptor. Each end has cache lines of its own. */
struct ring {
    _Atomic uint64_t words[MOST_DESCRIPTORS];
    struct buffer *slots[MOST_DESCRIPTORS];
    uint64_t last; /* the number of descriptors, less 1 */
    size_t batch, fill;
    _Alignas(64) _Atomic uint64_t tail;
    _Alignas(64) _Atomic uint64_t head;
    _Alignas(64) _Atomic uint32_t control;
    /* the driver's: the places that it posted, took back, and may take back, and those with a request for a report */
    _Alignas(64) uint64_t posted, back, done, asked[MOST_DESCRIPTORS], asked_count, made_count;
    uint32_t is_on, every, frames;
    /* the device's: the next place, and the one after the last that it knows to be posted */
    _Alignas(64) uint64_t next, known, offered, stored;
    uint32_t is_serving;
};

static struct ring *new_ring(uint32_t descriptors, size_t batch, size_t fill, uint32_t every)
{
    struct ring *ring = aligned_alloc(_Alignof(struct ring), sizeof *ring);
    memset(ring, 0, sizeof *ring);
    ring->last = descriptors - 1;
    ring->batch = batch;
    ring->fill = fill;
    ring->every = every;
    return ring;
}

static uint64_t room(const struct ring *ring) { return ring->last - (ring->posted - ring->back); }

/* Puts a buffer into the next descriptor, and stores the descriptor's word. */
static void post(struct ring *ring, struct buffer *buffer, uint64_t word)
{
    uint64_t place = ring->posted++ & ring->last;
    ring->slots[place] = buffer;
    atomic_store(&ring->words[place], word);
}

static struct buffer *take_out(struct ring *ring, uint64_t place)
{
    struct buffer *buffer = ring->slots[place];
    ring->slots[place] = NULL;
    return buffer;
}

int32_t poll82599_packets_new(uint32_t buffers, struct poll82599_packets *packets)
{
    struct worker *worker = calloc(1, sizeof *worker);
    while (worker->empties < buffers)
        worker->empty[worker->empties++] = calloc(1, sizeof(struct buffer));
    packets->end = (uint8_t *)worker;
    return 0;
}

int32_t poll82599_rx_queue_new(uint32_t descriptors, size_t batch, size_t fill, uint32_t drop_en, struct poll82599_rx_queue *queue, struct poll82599_rx_device *device)
{
    (void)drop_en;
    queue->end = device->end = (uint8_t *)new_ring(descriptors, batch, fill, 0);
    return 0;
}

int32_t poll82599_tx_queue_new(uint32_t descriptors, uint16_t every, uint32_t by_head, struct poll82599_tx_queue *queue, struct poll82599_tx_device *device)
{
    (void)by_head;
    queue->end = device->end = (uint8_t *)new_ring(descriptors, 0, 0, every);
    return 0;
}

/* The driver asks for the enabling, or learns whether it is answered. */
static void enable(struct ring *ring, struct poll82599_call *call)
{
    uint32_t word = atomic_load(&ring->control);
    if (word == POLL82599_OFF)
        atomic_store(&ring->control, POLL82599_ENABLE_ASKED);
    call->answer = ring->is_on = word == POLL82599_ON;
}

void poll82599_rx_queue_do(struct poll82599_rx_queue *queue, struct poll82599_call *call) { enable((struct ring *)queue->end, call); }
void poll82599_tx_queue_do(struct poll82599_tx_queue *queue, struct poll82599_call *call) { enable((struct ring *)queue->end, call); }

/* The device answers the enabling. */
static uint32_t answer(struct ring *ring)
{
    if (atomic_load(&ring->control) == POLL82599_ENABLE_ASKED) {
        atomic_store(&ring->control, POLL82599_ON);
        ring->is_serving = 1;
    }
    return ring->is_serving ? POLL82599_ON : POLL82599_OFF;
}

/* Takes the packets that are complete, and posts a buffer for each segment at once, as the library does. */
uint32_t poll82599_rx_queue_batch(struct poll82599_rx_queue *queue, struct poll82599_packets *packets, size_t *count, size_t *posted)
{
    struct ring *ring = (struct ring *)queue->end;
    struct worker *worker = (struct worker *)packets->end;
    uint64_t before = ring->posted;
    *count = 0;
    if (!ring->is_on)
        return 0;
    while (*count < ring->batch && worker->count < POLL82599_MOST_BATCH && ring->back < ring->posted) {
        struct packet *packet = &worker->packets[worker->count];
        uint64_t place = ring->back & ring->last, word = atomic_load(&ring->words[place]);
        if (!(word & DD))
            break;
        packet->segments[packet->count++] = take_out(ring, place);
        ring->back++;
        if (worker->empties)
            post(ring, worker->empty[--worker->empties], 0);
        if (word & EOP) {
            worker->packets[++worker->count].count = 0;
            ++*count;
        }
    }
    while (room(ring) && worker->empties)
        post(ring, worker->empty[--worker->empties], 0);
    *posted = ring->posted - before;
    if (*posted)
        atomic_store(&ring->tail, ring->posted);
    return 1;
}

uint32_t poll82599_offer(struct poll82599_rx_device *device, const uint8_t *frame, size_t len)
{
    struct ring *ring = (struct ring *)device->end;
    uint64_t needed = (len + ring->fill - 1) / ring->fill;
    if (len < POLL82599_LEAST_FRAME || len > POLL82599_MOST_FRAME)
        return 2;
    if (!ring->is_serving)
        return 3;
    if (ring->known - ring->next < needed)
        ring->known = atomic_load(&ring->tail);
    if (ring->known - ring->next < needed)
        return 0;
    while (len) {
        size_t part = len < ring->fill ? len : ring->fill;
        uint64_t place = ring->next++ & ring->last;
        atomic_load(&ring->words[place]);
        struct buffer *buffer = ring->slots[place];
        memcpy(buffer->bytes, frame, part);
        buffer->len = (uint16_t)part;
        frame += part;
        len -= part;
        atomic_store(&ring->words[place], DD | (len ? 0 : EOP) | (uint64_t)part << LENGTH_SHIFT);
    }
    atomic_store(&ring->head, ring->next);
    ring->offered++;
    ring->stored++;
    return 1;
}

uint32_t poll82599_rx_device_control(struct poll82599_rx_device *device)
{
    return answer((struct ring *)device->end);
}

/* Takes back the buffers of all reports that are made. */
static size_t clean(struct ring *ring, struct worker *worker)
{
    uint64_t back = ring->back;
    while (ring->made_count < ring->asked_count) {
        uint64_t place = ring->asked[ring->made_count & ring->last];
        if (!(atomic_load(&ring->words[place & ring->last]) & DD))
            break;
        ring->done = place + 1;
        ring->made_count++;
    }
    while (ring->back < ring->done) {
        uint64_t place = ring->back++ & ring->last;
        atomic_store(&ring->words[place], 0);
        worker->empty[worker->empties++] = take_out(ring, place);
    }
    return ring->back - back;
}

/* Posts a packet, whose last segment asks for a report if it is the `every`th or the last of a batch. */
static void post_packet(struct ring *ring, const struct packet *packet, int is_last)
{
    uint64_t paylen = 0;
    for (unsigned k = 0; k < packet->count; k++)
        paylen += packet->segments[k]->len;
    int asks = ++ring->frames % ring->every == 0 || is_last;
    for (unsigned k = 0; k < packet->count; k++) {
        int ends = k + 1 == packet->count;
        if (ends && asks)
            ring->asked[ring->asked_count++ & ring->last] = ring->posted;
        post(ring, packet->segments[k], (ends ? EOP | (asks ? RS : 0) : 0) | (uint64_t)packet->segments[k]->len << 8 | paylen << PAYLEN_SHIFT);
    }
}

uint32_t poll82599_tx_queue_batch(struct poll82599_tx_queue *queue, struct poll82599_packets *packets, size_t *count, size_t *cleaned)
{
    struct ring *ring = (struct ring *)queue->end;
    struct worker *worker = (struct worker *)packets->end;
    size_t fit = 0;
    uint64_t left;
    *count = 0;
    if (!ring->is_on)
        return 0;
    *cleaned = clean(ring, worker);
    left = room(ring);
    while (fit < worker->count && worker->packets[fit].count <= left)
        left -= worker->packets[fit++].count;
    for (size_t k = 0; k < fit; k++)
        post_packet(ring, &worker->packets[k], k + 1 == fit);
    worker->count -= (unsigned)fit;
    memmove(worker->packets, worker->packets + fit, (worker->count + 1) * sizeof worker->packets[0]);
    if (fit)
        atomic_store(&ring->tail, ring->posted);
    *count = fit;
    return 1;
}

/* Joins the segments of the next frame, which must all be posted, and reports it if it asks for that. The caller has room for every frame. */
uint32_t poll82599_turn(struct poll82599_tx_device *device, uint8_t *bytes, size_t room, size_t *len)
{
    struct ring *ring = (struct ring *)device->end;
    uint64_t word, place;
    (void)room;
    *len = 0;
    if (!ring->is_serving)
        return 3;
    if (ring->known == ring->next)
        ring->known = atomic_load(&ring->tail);
    if (ring->known == ring->next)
        return 0;
    do {
        place = ring->next++ & ring->last;
        word = atomic_load(&ring->words[place]);
        memcpy(bytes + *len, ring->slots[place]->bytes, ring->slots[place]->len);
        *len += ring->slots[place]->len;
        atomic_store(&ring->head, ring->next);
    } while (!(word & EOP));
    if (word & RS)
        atomic_store(&ring->words[place], DD);
    return 1;
}

uint32_t poll82599_tx_device_control(struct poll82599_tx_device *device)
{
    return answer((struct ring *)device->end);
}
