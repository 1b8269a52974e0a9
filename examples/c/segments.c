/* Passes frames of several segments through both kinds of rings on one thread, and checks what is left after a queue is disabled. Prints
 * a line for each check, and exits with status 1 if one fails. */
#include <poll82599.h>

#include <stdio.h>
#include <string.h>

enum { FRAME = 5000 };

static int failed;

static void check(int good, const char *what)
{
    printf("%s: %s\n", good ? "ok" : "WRONG", what);
    failed |= !good;
}

/* Stores a frame in segments of 2,048 bytes. Returns how many segments it took, or 0 if one was refused. */
static uint32_t store(struct poll82599_rx_controller *controller, const uint8_t *frame, size_t len)
{
    uint32_t count = 0;
    for (size_t at = 0; at < len; count++) {
        size_t piece = len - at < POLL82599_BUFFER_BYTES ? len - at : POLL82599_BUFFER_BYTES;
        if (poll82599_rx_store_segment(controller, frame + at, piece, at + piece == len) != 1)
            return 0;
        at += piece;
    }
    return count;
}

static void receive(const uint8_t *frame)
{
    struct poll82599_rx_driver driver = {0};
    struct poll82599_rx_controller controller = {0};
    uint8_t got[FRAME + POLL82599_BUFFER_BYTES];
    uint32_t len, eop = 0, left;
    size_t taken = 0;
    check(poll82599_rx_new(8, 16, &driver, &controller) == 0, "make a receive ring of 8");
    while (poll82599_rx_post(&driver))
        ;
    poll82599_rx_set_tail(&driver);
    poll82599_rx_ask_enable(&driver);
    poll82599_rx_answer(&controller);
    poll82599_rx_state(&driver);
    check(store(&controller, frame, FRAME) == 3, "store a frame of 5,000 bytes in 3 segments");
    check(poll82599_rx_store_segment(&controller, frame, 13, 1) == 2, "13 bytes are too short for a frame");
    while (!eop && poll82599_rx_poll(&driver, got + taken, POLL82599_BUFFER_BYTES, &len, &eop) == 1)
        taken += len;
    check(taken == FRAME && memcmp(got, frame, FRAME) == 0, "the frame is taken unchanged");
    check(store(&controller, frame, 60) == 1, "store one more frame, which is not taken");
    poll82599_rx_ask_disable(&driver);
    poll82599_rx_answer(&controller);
    poll82599_rx_state(&driver);
    check(poll82599_rx_untaken(&driver, &left) == 1 && left == 1, "one segment is left after the queue is disabled");
    check(poll82599_rx_close(&driver, &controller) == 4, "close the ring with 4 buffers in it");
}

static void transmit(const uint8_t *frame)
{
    struct poll82599_tx_driver driver = {0};
    struct poll82599_tx_controller controller = {0};
    uint8_t got[FRAME + POLL82599_BUFFER_BYTES];
    uint32_t len, eop = 0, left, answer = 1;
    size_t sent = 0;
    check(poll82599_tx_new(8, 16, 0, &driver, &controller) == 0, "make a transmit ring of 8");
    poll82599_tx_ask_enable(&driver);
    poll82599_tx_answer(&controller);
    poll82599_tx_state(&driver);
    for (size_t at = 0; at < FRAME; at += 2000)
        answer &= poll82599_tx_post_segment(&driver, frame + at, FRAME - at < 2000 ? FRAME - at : 2000, FRAME - at <= 2000, FRAME - at <= 2000, FRAME);
    check(answer == 1, "post a frame of 5,000 bytes in 3 segments");
    check(poll82599_tx_post_segment(&driver, frame, 60, 1, 1, 61) == 2, "PAYLEN must be the length of the whole frame");
    check(poll82599_tx_set_tail(&driver) == 1, "store the tail");
    while (!eop && poll82599_tx_send(&controller, got + sent, POLL82599_BUFFER_BYTES, &len, &eop) == 1)
        sent += len;
    check(sent == FRAME && memcmp(got, frame, FRAME) == 0, "the frame is sent unchanged");
    check(poll82599_tx_poll_report(&driver) == 1, "the frame is reported");
    check(poll82599_tx_clean(&driver) + poll82599_tx_clean(&driver) + poll82599_tx_clean(&driver) == 3, "clean its 3 buffers");
    poll82599_tx_post(&driver, frame, 60);
    poll82599_tx_ask_disable(&driver);
    poll82599_tx_answer(&controller);
    poll82599_tx_state(&driver);
    check(poll82599_tx_unsent(&driver, &left) == 1 && left == 1, "one segment is unsent after the queue is disabled");
    check(poll82599_tx_close(&driver, &controller) == 1, "close the ring with 1 buffer in it");
}

/* Calls with empty handles, and with handles of the wrong kind. */
static void use_empty_handles(const uint8_t *frame)
{
    struct poll82599_rx_driver driver = {0};
    struct poll82599_rx_controller controller = {0};
    struct poll82599_tx_driver tx_driver = {0};
    struct poll82599_tx_controller tx_controller = {0};
    uint8_t got[POLL82599_BUFFER_BYTES];
    uint32_t len, eop;
    check(poll82599_rx_post(&driver) == POLL82599_NO_END, "post a buffer with an empty driver");
    check(poll82599_rx_poll(&driver, got, sizeof got, &len, &eop) == POLL82599_NO_END, "poll with an empty driver");
    check(poll82599_rx_store(&controller, frame, 60) == POLL82599_NO_END, "store with an empty controller");
    check(poll82599_tx_post(&tx_driver, frame, 60) == POLL82599_NO_END, "post a frame with an empty driver");
    check(poll82599_tx_send(&tx_controller, got, sizeof got, &len, &eop) == POLL82599_NO_END, "send with an empty controller");
    check(poll82599_rx_close(&driver, &controller) == POLL82599_NOT_CLOSED, "close a receive ring with empty ends");
    check(poll82599_tx_close(&tx_driver, &tx_controller) == POLL82599_NOT_CLOSED, "close a transmit ring with empty ends");
    check(poll82599_rx_new(8, 16, &driver, &controller) == 0, "make a receive ring of 8");
    check(poll82599_tx_post((struct poll82599_tx_driver *)&driver, frame, 60) == POLL82599_NO_END, "post a frame with a receive driver cast to a transmit driver");
    check(poll82599_tx_close((struct poll82599_tx_driver *)&driver, &tx_controller) == POLL82599_NOT_CLOSED, "close that driver with an empty controller");
    check(poll82599_tx_close((struct poll82599_tx_driver *)&driver, (struct poll82599_tx_controller *)&controller) == POLL82599_NOT_CLOSED, "close a receive ring as a transmit ring");
    check(poll82599_rx_close(&driver, &controller) == 0, "close the receive ring with no buffer in it");
}

int main(void)
{
    uint8_t frame[FRAME];
    for (size_t at = 0; at < sizeof frame; at++)
        frame[at] = (uint8_t)(at * 7 + at / 256);
    receive(frame);
    transmit(frame);
    use_empty_handles(frame);
    return failed;
}
