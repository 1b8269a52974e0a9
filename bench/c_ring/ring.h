/* A receive ring in C that makes the same steps as the library's: each is one sequentially consistent load or store of a word that
 * both ends share, and a buffer passes from one end to the other through the slot of its descriptor. It has the calls of the library
 * that passing frames needs, including frames of several segments, with the same refusals, and no proofs. */
#ifndef C_RING_H
#define C_RING_H

#include <stddef.h>
#include <stdint.h>

enum { POLL82599_BUFFER_BYTES = 2048, POLL82599_LEAST_FRAME = 14, POLL82599_MOST_FRAME = 15000, POLL82599_MOST_SEGMENTS = 15 };
enum { POLL82599_OFF = 0, POLL82599_ENABLE_ASKED = 1, POLL82599_ON = 2, POLL82599_DISABLE_ASKED = 3 };

struct poll82599_rx_driver { struct c_driver *end; };
struct poll82599_rx_controller { struct c_controller *end; };

int32_t poll82599_rx_new(uint32_t descriptors, uint32_t buffers, struct poll82599_rx_driver *driver, struct poll82599_rx_controller *controller);
uint32_t poll82599_rx_post(struct poll82599_rx_driver *driver);
uint32_t poll82599_rx_set_tail(struct poll82599_rx_driver *driver);
uint32_t poll82599_rx_poll(struct poll82599_rx_driver *driver, uint8_t *bytes, size_t room, uint32_t *len, uint32_t *eop);
uint32_t poll82599_rx_ask_enable(struct poll82599_rx_driver *driver);
uint32_t poll82599_rx_state(struct poll82599_rx_driver *driver);
uint32_t poll82599_rx_answer(struct poll82599_rx_controller *controller);
uint32_t poll82599_rx_store_segment(struct poll82599_rx_controller *controller, const uint8_t *bytes, size_t len, uint32_t eop);
int64_t poll82599_rx_close(struct poll82599_rx_driver *driver, struct poll82599_rx_controller *controller);

static inline uint32_t poll82599_rx_store(struct poll82599_rx_controller *controller, const uint8_t *frame, size_t len)
{
    return poll82599_rx_store_segment(controller, frame, len, 1);
}

#endif
