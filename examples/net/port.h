/* Ports for the programs of this folder. A port joins a link (link.h) to a receive queue and a transmit queue of the library. Its device is
 * a thread that offers the link's frames to the receive queue, and writes the transmit queue's frames to the link. The driver is the
 * thread that calls these functions; it has one or two ports.
 *
 * Only port.c calls the library. */
#ifndef PORT_H
#define PORT_H

#include <stdbool.h>
#include <stddef.h>
#include <stdint.h>

struct driver; /* the ports of a thread, and how they wake it */
struct port;
struct worker; /* empty buffers, and a list of packets, the oldest first */

struct port_options {
    uint32_t descriptors; /* of each queue: a power of two from 8 to 4,096 */
    bool drop;            /* while too few descriptors are free, drop incoming frames. Otherwise the link keeps them */
};

/* These return null after a message on standard error. */
struct driver *driver_new(void);
struct port *port_open(struct driver *driver, const char *name, const struct port_options *options);
struct worker *worker_new(void);

/* What the driver did in one turn. */
enum turn { TURN_IDLE, TURN_WAITING /* moved nothing, but has packets to post */, TURN_MOVED };

/* Enables all queues, prints `ready`, and calls `turn` again and again. Sleeps while there is nothing to do. After SIGINT or SIGTERM, or when
 * an interface is gone, the devices store no more; the driver calls `turn` until everything stored is taken and posted; the devices send
 * all that is posted; and all queues are disabled. */
void driver_run(struct driver *driver, enum turn (*turn)(void *context), void *context);

/* Takes packets from the receive queue and appends them to the worker's. Returns how many. */
size_t port_take(struct port *port, struct worker *worker);

/* Posts the worker's oldest packets to the transmit queue, as many as fit. Returns how many left the worker. */
size_t port_post(struct port *port, struct worker *worker);

/* After driver_run: takes the buffers of the receive queue back to one worker, and those of the transmit queue to the other. */
void port_reclaim(struct port *port, struct worker *receives, struct worker *transmits);

/* Appends a packet with these bytes. Returns false if the list is full, too few buffers are empty, or the length is not 14 to 15,000. */
bool worker_put(struct worker *worker, const uint8_t *frame, size_t len);

/* Copies a packet, and returns its length. Copies nothing if `room` is less. */
size_t worker_copy(struct worker *worker, size_t packet, uint8_t *bytes, size_t room);

void worker_free(struct worker *worker, size_t packet);
size_t worker_packets(struct worker *worker);

/* These print counts on standard output and free everything. They return true if nothing was lost inside: all buffers are back and no packet
 * is left; all that was stored was taken, and all that was posted was sent; and the interfaces still exist. */
bool worker_close(struct worker *worker);
bool driver_close(struct driver *driver);

/* Reads a decimal number. Returns false if the text is something else, or the number is not in the range. */
bool read_number(const char *text, uint32_t least, uint32_t most, uint32_t *number);

#endif
