/* A poll-mode forwarder segment by segment, with the main loop of ixy. One thread is the device that stores frames. One drives a receive
 * and a transmit ring, and increments byte 1 of each frame. One is the device that sends the frames, and compares each of them.
 *
 *     forward [FRAMES [BYTES [BY_HEAD]]] */
#include <poll82599.h>

#include <pthread.h>
#include <sched.h>
#include <stdio.h>
#include <stdlib.h>
#include <string.h>
#include <time.h>

enum { BATCH = 32 };

static struct poll82599_rx_driver rx;
static struct poll82599_rx_controller rx_device;
static struct poll82599_tx_driver tx;
static struct poll82599_tx_controller tx_device;

static uint64_t frames = 100000;
static size_t bytes = 60;

/* Makes frame k, as stored. */
static void fill(uint8_t *frame, uint64_t k)
{
    for (size_t at = 0; at < bytes; at++)
        frame[at] = (uint8_t)((k * 2654435761u >> (at & 15)) + at);
}

/* Yields the processor after 1,000 attempts without success. */
static void wait(unsigned *tries)
{
    if (++*tries > 1000) {
        sched_yield();
        *tries = 0;
    }
}

static void *store(void *unused)
{
    uint8_t frame[POLL82599_BUFFER_BYTES];
    unsigned tries = 0;
    (void)unused;
    while (!poll82599_rx_answer(&rx_device))
        wait(&tries);
    for (uint64_t k = 0; k < frames;) {
        fill(frame, k);
        if (poll82599_rx_store(&rx_device, frame, bytes) == 1)
            k++;
        else
            wait(&tries);
    }
    return 0;
}

static void *send(void *unused)
{
    uint8_t got[POLL82599_BUFFER_BYTES], wanted[POLL82599_BUFFER_BYTES];
    uint64_t wrong = 0;
    unsigned tries = 0;
    (void)unused;
    while (!poll82599_tx_answer(&tx_device))
        wait(&tries);
    for (uint64_t k = 0; k < frames;) {
        uint32_t len, eop;
        if (poll82599_tx_send(&tx_device, got, sizeof got, &len, &eop) != 1) {
            wait(&tries);
            continue;
        }
        fill(wanted, k++);
        wanted[1]++;
        wrong += len != bytes || eop != 1 || memcmp(got, wanted, bytes) != 0;
    }
    return (void *)(uintptr_t)wrong;
}

/* Posts all buffers, asks for both queues to be enabled, and waits until they are. */
static void enable(void)
{
    unsigned tries = 0;
    while (poll82599_rx_post(&rx))
        ;
    poll82599_rx_set_tail(&rx);
    poll82599_rx_ask_enable(&rx);
    poll82599_tx_ask_enable(&tx);
    while (poll82599_rx_state(&rx) != POLL82599_ON)
        wait(&tries);
    while (poll82599_tx_state(&tx) != POLL82599_ON)
        wait(&tries);
}

/* Takes the buffers of reported frames back. */
static void clean(void)
{
    while (poll82599_tx_poll_report(&tx))
        ;
    while (poll82599_tx_clean(&tx))
        ;
}

static void drive(void)
{
    uint8_t frame[POLL82599_BUFFER_BYTES];
    uint64_t taken = 0;
    unsigned tries = 0;
    enable();
    while (taken < frames) {
        uint32_t len, eop, batch = 0;
        while (batch < BATCH && poll82599_rx_poll(&rx, frame, sizeof frame, &len, &eop) == 1) {
            frame[1]++;
            while (poll82599_tx_post(&tx, frame, len) != 1) {
                poll82599_tx_set_tail(&tx);
                clean();
                wait(&tries);
            }
            poll82599_rx_post(&rx);
            batch++;
        }
        taken += batch;
        if (batch) {
            poll82599_rx_set_tail(&rx);
            poll82599_tx_set_tail(&tx);
        } else {
            wait(&tries);
        }
        clean();
    }
}

int main(int count, char **words)
{
    struct timespec begun, ended;
    pthread_t storing, sending;
    uint32_t by_head = 0;
    void *wrong;
    if (count > 1)
        frames = strtoull(words[1], 0, 10);
    if (count > 2)
        bytes = strtoull(words[2], 0, 10);
    if (count > 3)
        by_head = (uint32_t)strtoul(words[3], 0, 10);
    if (bytes < POLL82599_LEAST_FRAME || bytes > POLL82599_BUFFER_BYTES)
        return 2;
    if (poll82599_rx_new(128, 200, &rx, &rx_device) || poll82599_tx_new(128, 200, by_head, &tx, &tx_device))
        return 1;
    clock_gettime(CLOCK_MONOTONIC, &begun);
    pthread_create(&storing, 0, store, 0);
    pthread_create(&sending, 0, send, 0);
    drive();
    pthread_join(storing, 0);
    pthread_join(sending, &wrong);
    clock_gettime(CLOCK_MONOTONIC, &ended);
    printf("%llu frames, %llu wrong\n", (unsigned long long)frames, (unsigned long long)(uintptr_t)wrong);
    printf("closed with %lld and %lld buffers in the rings\n", (long long)poll82599_rx_close(&rx, &rx_device), (long long)poll82599_tx_close(&tx, &tx_device));
    double took = (double)(ended.tv_sec - begun.tv_sec) * 1e9 + (double)(ended.tv_nsec - begun.tv_nsec);
    fprintf(stderr, "%.0f ns/frame\n", frames ? took / (double)frames : 0);
    return wrong != 0;
}
