#include "ring.h"

#include <stdatomic.h>
#include <stdlib.h>
#include <string.h>

struct buffer {
    uint16_t number;
    uint16_t len;
    uint8_t bytes[POLL82599_BUFFER_BYTES];
};

/* The shared words: the second word and the slot of each descriptor, and the four registers. */
struct ring {
    _Atomic uint64_t *words;
    struct buffer **slots;
    _Atomic uint64_t tail, head, control, quiet;
};

struct c_driver {
    struct ring *ring;
    uint32_t size, fill, next, out, state;
    uint32_t count;
    struct buffer *stash[256];
};

struct c_controller {
    struct ring *ring;
    uint32_t size, serve, ahead, serving;
    /* the unfinished frame: its segments and bytes so far */
    uint32_t segments, bytes;
};

int32_t poll82599_rx_new(uint32_t descriptors, uint32_t buffers, struct poll82599_rx_driver *driver, struct poll82599_rx_controller *controller)
{
    struct ring *ring = calloc(1, sizeof *ring);
    struct c_driver *d = calloc(1, sizeof *d);
    struct c_controller *c = calloc(1, sizeof *c);
    if (!ring || !d || !c || buffers > 256)
        return 2;
    ring->words = calloc(descriptors, sizeof *ring->words);
    ring->slots = calloc(descriptors, sizeof *ring->slots);
    d->ring = c->ring = ring;
    d->size = c->size = descriptors;
    for (; d->count < buffers; d->count++) {
        d->stash[d->count] = calloc(1, sizeof **d->stash);
        d->stash[d->count]->number = (uint16_t)d->count;
    }
    driver->end = d;
    controller->end = c;
    return 0;
}

uint32_t poll82599_rx_post(struct poll82599_rx_driver *driver)
{
    struct c_driver *d = driver->end;
    if (d->state > 2 || d->out + 1 >= d->size || d->count == 0)
        return 0;
    d->ring->slots[d->fill] = d->stash[--d->count];
    atomic_store(&d->ring->words[d->fill], 0); /* A1 */
    d->fill = d->fill + 1 == d->size ? 0 : d->fill + 1;
    d->out++;
    return 1;
}

uint32_t poll82599_rx_set_tail(struct poll82599_rx_driver *driver)
{
    struct c_driver *d = driver->end;
    if (d->state > 2)
        return 0;
    atomic_store(&d->ring->tail, d->fill); /* A2 */
    return 1;
}

uint32_t poll82599_rx_poll(struct poll82599_rx_driver *driver, uint8_t *bytes, size_t room, uint32_t *len, uint32_t *eop)
{
    struct c_driver *d = driver->end;
    *len = *eop = 0;
    if (room < POLL82599_BUFFER_BYTES)
        return 4;
    if (d->state != 2)
        return 3;
    if (d->out == 0)
        return 2;
    uint64_t word = atomic_load(&d->ring->words[d->next]); /* A6 */
    if (!(word & 1))
        return 0;
    struct buffer *buffer = d->ring->slots[d->next];
    d->ring->slots[d->next] = NULL;
    d->next = d->next + 1 == d->size ? 0 : d->next + 1;
    d->out--;
    *len = (uint32_t)(word >> 32 & 0xFFFF);
    *eop = (uint32_t)(word >> 1 & 1);
    memcpy(bytes, buffer->bytes, *len);
    buffer->len = 0;
    d->stash[d->count++] = buffer;
    return 1;
}

uint32_t poll82599_rx_ask_enable(struct poll82599_rx_driver *driver)
{
    struct c_driver *d = driver->end;
    if (d->state != 0)
        return 0;
    d->state = 1;
    atomic_store(&d->ring->control, POLL82599_ENABLE_ASKED); /* C1 */
    return 1;
}

uint32_t poll82599_rx_state(struct poll82599_rx_driver *driver)
{
    struct c_driver *d = driver->end;
    uint64_t word = atomic_load(&d->ring->control); /* C4 */
    if (d->state == 1 && word == POLL82599_ON)
        d->state = 2;
    return (uint32_t)word;
}

uint32_t poll82599_rx_answer(struct poll82599_rx_controller *controller)
{
    struct c_controller *c = controller->end;
    uint64_t word = atomic_load(&c->ring->control); /* C2 */
    if (word != POLL82599_ENABLE_ASKED || c->serving)
        return 0;
    c->serving = 1;
    c->serve = c->ahead = 0;
    atomic_store(&c->ring->control, POLL82599_ON); /* C3 */
    return 1;
}

/* Whether `len` more bytes may follow in the unfinished frame, and may end it if `eop` is set. */
static int may_follow(const struct c_controller *c, size_t len, uint32_t eop)
{
    if (len == 0 || len > POLL82599_BUFFER_BYTES)
        return 0;
    if (c->segments >= POLL82599_MOST_SEGMENTS || c->segments + 1 >= c->size || len > POLL82599_MOST_FRAME - c->bytes)
        return 0;
    return !eop || c->bytes + len >= POLL82599_LEAST_FRAME;
}

uint32_t poll82599_rx_store_segment(struct poll82599_rx_controller *controller, const uint8_t *bytes, size_t len, uint32_t eop)
{
    struct c_controller *c = controller->end;
    if (!c->serving)
        return 3;
    if (!may_follow(c, len, eop))
        return 2;
    if (c->ahead == 0) {
        uint64_t tail = atomic_load(&c->ring->tail); /* A3 */
        c->ahead = (uint32_t)(tail + c->size - c->serve) % c->size;
        if (c->ahead == 0)
            return 0;
    }
    uint64_t word = atomic_load(&c->ring->words[c->serve]); /* A4 */
    struct buffer *buffer = c->ring->slots[c->serve];
    if (word & 1)
        return 3;
    memcpy(buffer->bytes, bytes, len);
    buffer->len = (uint16_t)len;
    atomic_store(&c->ring->words[c->serve], 1 | (eop ? 2 : 0) | (uint64_t)len << 32); /* A5 */
    c->serve = c->serve + 1 == c->size ? 0 : c->serve + 1;
    c->ahead--;
    if (!eop) {
        c->segments++;
        c->bytes += (uint32_t)len;
        return 1;
    }
    c->segments = c->bytes = 0;
    atomic_store(&c->ring->head, c->serve); /* A7 */
    return 1;
}

int64_t poll82599_rx_close(struct poll82599_rx_driver *driver, struct poll82599_rx_controller *controller)
{
    struct c_driver *d = driver->end;
    int64_t left = 0;
    for (uint32_t place = 0; place < d->size; place++)
        if (d->ring->slots[place]) {
            free(d->ring->slots[place]);
            left++;
        }
    while (d->count > 0)
        free(d->stash[--d->count]);
    free((void *)d->ring->words);
    free(d->ring->slots);
    free(d->ring);
    free(d);
    free(controller->end);
    driver->end = NULL;
    controller->end = NULL;
    return left;
}
