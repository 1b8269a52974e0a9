/* Passes frames through a receive and a transmit queue on one thread, in batches: each frame is offered, taken, posted and sent. Prints the
 * processor time in nanoseconds per frame, or with a third argument that of offer, rx_batch, tx_batch and turn. Reading the clock counts
 * too: once in a run, or once per call and batch. The queues are the library's, or those of plain.c.
 *
 *     cycle [FRAMES [BYTES [each]]] */
#include <poll82599.h>

#include <stdio.h>
#include <stdlib.h>
#include <string.h>
#include <time.h>

enum { BATCH = 32, BUFFERS = 256, DESCRIPTORS = 256, MARKED = 20, CALLS = 4 };

static struct poll82599_rx_queue rx;
static struct poll82599_rx_device rx_device;
static struct poll82599_tx_queue tx;
static struct poll82599_tx_device tx_device;
static struct poll82599_packets packets;

static uint8_t frame[POLL82599_BUFFER_BYTES], sent[POLL82599_BUFFER_BYTES];
static size_t bytes = 60;

static void fail(const char *call)
{
    fprintf(stderr, "cycle: %s did not do what it should\n", call);
    exit(1);
}

static void offer(void)
{
    for (unsigned k = 0; k < BATCH; k++) {
        frame[MARKED] = (uint8_t)k;
        if (poll82599_offer(&rx_device, frame, bytes) != 1)
            fail("offer");
    }
}

static void take(void)
{
    size_t count;
    if (poll82599_rx_batch(&rx, &packets, &count, NULL) != 1 || count != BATCH)
        fail("rx_batch");
}

static void post(void)
{
    size_t count;
    if (poll82599_tx_batch(&tx, &packets, &count, NULL) != 1 || count != BATCH)
        fail("tx_batch");
}

static void turn(void)
{
    for (unsigned k = 0; k < BATCH; k++) {
        size_t len;
        if (poll82599_turn(&tx_device, sent, sizeof sent, &len) != 1 || len != bytes || sent[MARKED] != k)
            fail("turn");
    }
}

static double now(void)
{
    struct timespec at;
    clock_gettime(CLOCK_THREAD_CPUTIME_ID, &at);
    return (double)at.tv_sec * 1e9 + (double)at.tv_nsec;
}

/* Makes and enables both queues, and posts the first buffers. */
static void begin(void)
{
    size_t count;
    if (poll82599_rx_queue_new(DESCRIPTORS, BATCH, POLL82599_BUFFER_BYTES, 0, &rx, &rx_device) || poll82599_tx_queue_new(DESCRIPTORS, BATCH, 0, &tx, &tx_device) ||
        poll82599_packets_new(BUFFERS, &packets))
        fail("new");
    poll82599_rx_queue_enable(&rx);
    poll82599_tx_queue_enable(&tx);
    poll82599_rx_device_control(&rx_device);
    poll82599_tx_device_control(&tx_device);
    if (poll82599_rx_queue_enable(&rx) != 1 || poll82599_tx_queue_enable(&tx) != 1)
        fail("enable");
    if (poll82599_rx_batch(&rx, &packets, &count, NULL) != 1 || count != 0)
        fail("the first rx_batch");
}

int main(int words, char **word)
{
    static void (*const calls[CALLS])(void) = {offer, take, post, turn};
    double spent[CALLS] = {0}, begun, last;
    uint64_t frames = words > 1 ? strtoull(word[1], 0, 10) : 1000000;
    int each = words > 3;
    if (words > 2)
        bytes = strtoull(word[2], 0, 10);
    if (frames < BATCH || bytes <= MARKED || bytes > POLL82599_BUFFER_BYTES) {
        fputs("usage: cycle [FRAMES [BYTES [each]]]      at least 32 frames of 21 to 2,048 bytes\n", stderr);
        return 2;
    }
    begin();
    frames -= frames % BATCH;
    begun = last = now();
    for (uint64_t done = 0; done < frames; done += BATCH)
        for (unsigned call = 0; call < CALLS; call++) {
            calls[call]();
            if (each) {
                double at = now();
                spent[call] += at - last;
                last = at;
            }
        }
    if (each)
        printf("%.1f %.1f %.1f %.1f\n", spent[0] / (double)frames, spent[1] / (double)frames, spent[2] / (double)frames, spent[3] / (double)frames);
    else
        printf("%.1f\n", (now() - begun) / (double)frames);
    return 0;
}
