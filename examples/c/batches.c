/* A poll-mode forwarder in batches, with the main loop of ixy. One thread is the receive device, to which frames are offered. One drives a
 * receive and a transmit queue, and increments byte 1 of each packet in place. One is the transmit device, which compares each frame that
 * it sends and counts them for the driver. Once all are sent, the driver disables both queues and takes all buffers back.
 *
 *     batches [FRAMES [BYTES [BY_HEAD]]]     14 to 15,000 bytes; the library cuts frames into segments */
#include <poll82599.h>

#include <pthread.h>
#include <sched.h>
#include <stdio.h>
#include <stdlib.h>
#include <string.h>
#include <time.h>

enum { BATCH = 32, BUFFERS = 256 };

static struct poll82599_rx_queue rx;
static struct poll82599_rx_device rx_device;
static struct poll82599_tx_queue tx;
static struct poll82599_tx_device tx_device;
static struct poll82599_packets packets;
static struct poll82599_counters sent, sent_reader;

static uint64_t frames = 100000;
static size_t bytes = 60;
static size_t back;

/* Makes frame k, as offered. */
static void fill(uint8_t *frame, uint64_t k)
{
    for (size_t at = 0; at < bytes; at++)
        frame[at] = (uint8_t)((k * 2654435761u >> (at & 15)) + at);
}

/* Yields the processor after 1,000 attempts without success. */
static void wait(unsigned *tries)
{
    if (++*tries > 1000) {
        sched_yield();
        *tries = 0;
    }
}

/* The receive device's thread. */
static void *offer(void *unused)
{
    static uint8_t frame[POLL82599_MOST_FRAME];
    unsigned tries = 0;
    (void)unused;
    while (poll82599_rx_device_control(&rx_device) != POLL82599_ON)
        wait(&tries);
    for (uint64_t k = 0; k < frames;) {
        fill(frame, k);
        if (poll82599_offer(&rx_device, frame, bytes) == 1)
            k++;
        else
            wait(&tries);
    }
    poll82599_rx_device_finish(&rx_device);
    while (poll82599_rx_device_control(&rx_device) != POLL82599_OFF)
        wait(&tries);
    return 0;
}

/* The transmit device's thread. */
static void *turn(void *unused)
{
    static uint8_t got[POLL82599_MOST_FRAME], wanted[POLL82599_MOST_FRAME];
    uint64_t wrong = 0, k = 0;
    unsigned tries = 0;
    (void)unused;
    while (poll82599_tx_device_control(&tx_device) != POLL82599_ON)
        wait(&tries);
    while (k < frames) {
        size_t len;
        if (poll82599_turn(&tx_device, got, sizeof got, &len) != 1) {
            poll82599_counters_set(&sent, 0, k);
            wait(&tries);
            continue;
        }
        fill(wanted, k++);
        wanted[1]++;
        wrong += len != bytes || memcmp(got, wanted, bytes) != 0;
    }
    poll82599_counters_set(&sent, 0, k);
    while (poll82599_tx_device_control(&tx_device) != POLL82599_OFF)
        wait(&tries);
    return (void *)(uintptr_t)wrong;
}

/* One turn of the forwarder. Returns how many packets were posted; those that did not fit wait for the next turn. */
static size_t forward(void)
{
    static size_t waiting;
    size_t taken, posted;
    uint8_t byte;
    if (poll82599_rx_batch(&rx, &packets, &taken, NULL) != 1)
        return 0;
    for (size_t packet = waiting; packet < waiting + taken; packet++) {
        poll82599_packet_byte(&packets, packet, 1, &byte);
        poll82599_packet_touch(&packets, packet, 1, (uint8_t)(byte + 1));
    }
    waiting += taken;
    if (poll82599_tx_batch(&tx, &packets, &posted, NULL) != 1)
        return 0;
    waiting -= posted;
    return posted;
}

/* Disables both queues and takes all buffers back. Returns how many segments were left in the queues. */
static size_t stop(void)
{
    size_t untaken, unsent, count;
    unsigned tries = 0;
    poll82599_rx_queue_disable(&rx);
    poll82599_tx_queue_disable(&tx);
    while (poll82599_rx_queue_finish(&rx, &untaken) != 1)
        wait(&tries);
    while (poll82599_tx_queue_finish(&tx, &unsent) != 1)
        wait(&tries);
    if (poll82599_rx_queue_reclaim(&rx, &packets, &count) == 1)
        back += count;
    if (poll82599_tx_queue_reclaim(&tx, &packets, &count) == 1)
        back += count;
    return untaken + unsent;
}

static size_t drive(void)
{
    unsigned tries = 0;
    while (poll82599_rx_queue_enable(&rx) != 1)
        wait(&tries);
    while (poll82599_tx_queue_enable(&tx) != 1)
        wait(&tries);
    for (uint64_t posted = 0; posted < frames;) {
        size_t more = forward();
        posted += more;
        if (!more)
            wait(&tries);
    }
    for (uint64_t number = 0; number < frames; wait(&tries))
        poll82599_counters_get(&sent_reader, 0, &number);
    return stop();
}

int main(int count, char **words)
{
    struct timespec begun, ended;
    pthread_t offering, turning;
    uint32_t by_head = 0;
    void *wrong;
    if (count > 1)
        frames = strtoull(words[1], 0, 10);
    if (count > 2)
        bytes = strtoull(words[2], 0, 10);
    if (count > 3)
        by_head = (uint32_t)strtoul(words[3], 0, 10);
    if (bytes < POLL82599_LEAST_FRAME || bytes > POLL82599_MOST_FRAME)
        return 2;
    if (poll82599_rx_queue_new(128, BATCH, POLL82599_BUFFER_BYTES, 0, &rx, &rx_device) || poll82599_tx_queue_new(128, BATCH, by_head, &tx, &tx_device) ||
        poll82599_packets_new(BUFFERS, &packets) || poll82599_counters_new(&sent) || poll82599_counters_reader(&sent, &sent_reader))
        return 1;
    clock_gettime(CLOCK_MONOTONIC, &begun);
    pthread_create(&offering, 0, offer, 0);
    pthread_create(&turning, 0, turn, 0);
    size_t left = drive();
    pthread_join(offering, 0);
    pthread_join(turning, &wrong);
    clock_gettime(CLOCK_MONOTONIC, &ended);
    struct poll82599_offered counts = poll82599_rx_device_counts(&rx_device);
    printf("%llu frames of %zu bytes, %llu wrong\n", (unsigned long long)counts.stored, bytes, (unsigned long long)(uintptr_t)wrong);
    printf("left in the queues: %zu segments; reclaimed: %zu buffers\n", left, back);
    poll82599_counters_close(&sent_reader);
    poll82599_counters_close(&sent);
    printf("closed with %lld and %lld buffers in the rings, and %zu packets\n", (long long)poll82599_rx_queue_close(&rx, &rx_device), (long long)poll82599_tx_queue_close(&tx, &tx_device), poll82599_packets_close(&packets));
    double took = (double)(ended.tv_sec - begun.tv_sec) * 1e9 + (double)(ended.tv_nsec - begun.tv_nsec);
    fprintf(stderr, "%.0f ns/frame\n", frames ? took / (double)frames : 0);
    return wrong != 0;
}
