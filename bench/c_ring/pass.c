/* Passes frames through a receive ring and prints the nanoseconds per frame. Two threads share the ring, and the driver's measures
 * wall-clock time. With a third argument one thread makes the steps of both ends, 32 frames at each end in turn, and measures its processor
 * time, which other work on the machine hardly changes. The ring is the library's, or with -DPLAIN that of ring.c.
 *
 *     pass [FRAMES [BYTES [alone]]] */
#ifdef PLAIN
#include "ring.h"
#else
#include <poll82599.h>
#endif

#include <pthread.h>
#include <sched.h>
#include <stdio.h>
#include <stdlib.h>
#include <string.h>
#include <time.h>

static uint64_t frames = 1000000;
static size_t bytes = 60;

/* Yields the processor after 1,000 attempts without success. */
static void wait(unsigned *tries)
{
    if (++*tries > 1000) {
        sched_yield();
        *tries = 0;
    }
}

static void *serve(void *context)
{
    struct poll82599_rx_controller *controller = context;
    uint8_t frame[POLL82599_BUFFER_BYTES];
    unsigned tries = 0;
    memset(frame, 7, sizeof frame);
    while (!poll82599_rx_answer(controller))
        wait(&tries);
    for (uint64_t k = 0; k < frames; k++) {
        memcpy(frame, &k, sizeof k);
        while (poll82599_rx_store(controller, frame, bytes) != 1)
            wait(&tries);
    }
    return NULL;
}

static double now(clockid_t clock)
{
    struct timespec at;
    clock_gettime(clock, &at);
    return (double)at.tv_sec * 1e9 + (double)at.tv_nsec;
}

/* Takes up to `most` frames, posts a buffer for each, and counts the wrong ones. Returns how many frames it took. */
static uint64_t take(struct poll82599_rx_driver *driver, uint64_t taken, uint64_t most, uint64_t *wrong)
{
    uint8_t got[POLL82599_BUFFER_BYTES];
    uint32_t len, eop;
    uint64_t batch = 0;
    while (batch < most && poll82599_rx_poll(driver, got, sizeof got, &len, &eop) == 1) {
        uint64_t wanted = taken + batch++;
        *wrong += len != bytes || eop != 1 || memcmp(got, &wanted, sizeof wanted) != 0;
        poll82599_rx_post(driver);
    }
    if (batch)
        poll82599_rx_set_tail(driver);
    return batch;
}

static uint64_t alone(struct poll82599_rx_driver *driver, struct poll82599_rx_controller *controller)
{
    uint8_t frame[POLL82599_BUFFER_BYTES];
    uint64_t taken = 0, stored = 0, wrong = 0;
    memset(frame, 7, sizeof frame);
    while (taken < frames) {
        for (uint64_t k = 0; k < 32 && stored < frames; k++, stored++) {
            memcpy(frame, &stored, sizeof stored);
            wrong += poll82599_rx_store(controller, frame, bytes) != 1;
        }
        taken += take(driver, taken, stored - taken, &wrong);
    }
    return wrong;
}

static uint64_t together(struct poll82599_rx_driver *driver)
{
    uint64_t taken = 0, wrong = 0;
    unsigned tries = 0;
    while (taken < frames) {
        uint64_t batch = take(driver, taken, frames - taken < 32 ? frames - taken : 32, &wrong);
        taken += batch;
        if (!batch)
            wait(&tries);
    }
    return wrong;
}

int main(int argc, char **argv)
{
    struct poll82599_rx_driver driver = {0};
    struct poll82599_rx_controller controller = {0};
    unsigned tries = 0;
    pthread_t thread;
    if (argc > 1)
        frames = strtoull(argv[1], NULL, 10);
    if (argc > 2)
        bytes = strtoull(argv[2], NULL, 10);
    clockid_t clock = argc > 3 ? CLOCK_THREAD_CPUTIME_ID : CLOCK_MONOTONIC;
    if (bytes < 14 || bytes > POLL82599_BUFFER_BYTES || poll82599_rx_new(128, 200, &driver, &controller) != 0)
        return 2;
    while (poll82599_rx_post(&driver))
        ;
    poll82599_rx_set_tail(&driver);
    poll82599_rx_ask_enable(&driver);
    if (argc > 3)
        poll82599_rx_answer(&controller);
    else if (pthread_create(&thread, NULL, serve, &controller) != 0)
        return 2;
    while (poll82599_rx_state(&driver) != POLL82599_ON)
        wait(&tries);
    double from = now(clock);
    uint64_t wrong = argc > 3 ? alone(&driver, &controller) : together(&driver);
    double took = now(clock) - from;
    if (argc <= 3)
        pthread_join(thread, NULL);
    poll82599_rx_close(&driver, &controller);
    printf("%.0f ns/frame, %llu wrong\n", took / (double)frames, (unsigned long long)wrong);
    return wrong != 0;
}
