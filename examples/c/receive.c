/* A receive ring between two threads, a driver and a controller. In each epoch the driver enables the queue, the controller stores its
 * frames and then says that it stores no more. The driver takes and compares the frames, disables the queue, reclaims its buffers and
 * renews the ring.
 *
 *     receive [FRAMES [BYTES [EPOCHS]]] */
#include <poll82599.h>

#include <pthread.h>
#include <sched.h>
#include <stdio.h>
#include <stdlib.h>
#include <string.h>
#include <time.h>

static uint64_t frames = 100000, epochs = 2;
static size_t bytes = 60;

/* Makes frame k of an epoch. */
static void fill(uint8_t *frame, uint64_t k)
{
    for (size_t at = 0; at < bytes; at++)
        frame[at] = (uint8_t)((k * 2654435761u >> (at & 15)) + at);
}

/* Yields the processor after 1,000 attempts without success. */
static void wait(unsigned *tries)
{
    if (++*tries > 1000) {
        sched_yield();
        *tries = 0;
    }
}

static uint64_t take_frames(struct poll82599_rx_driver *driver)
{
    uint8_t got[POLL82599_BUFFER_BYTES], wanted[POLL82599_BUFFER_BYTES];
    uint64_t wrong = 0, taken = 0;
    unsigned tries = 0;
    while (poll82599_rx_post(driver))
        ;
    poll82599_rx_set_tail(driver);
    poll82599_rx_ask_enable(driver);
    while (poll82599_rx_state(driver) != POLL82599_ON)
        wait(&tries);
    for (;;) {
        uint32_t len, eop, batch = 0, quiet = poll82599_rx_is_quiet(driver);
        while (batch < 32 && poll82599_rx_poll(driver, got, sizeof got, &len, &eop) == 1) {
            fill(wanted, taken++);
            wrong += len != bytes || eop != 1 || memcmp(got, wanted, bytes) != 0;
            poll82599_rx_post(driver);
            batch++;
        }
        if (batch)
            poll82599_rx_set_tail(driver);
        else if (quiet)
            break;
        else
            wait(&tries);
    }
    poll82599_rx_ask_disable(driver);
    while (poll82599_rx_state(driver) != POLL82599_OFF)
        wait(&tries);
    while (poll82599_rx_reclaim(driver) == 1)
        ;
    return wrong + (taken != frames) + (poll82599_rx_renew(driver) != 1);
}

static void *drive(void *end)
{
    uint64_t wrong = 0;
    for (uint64_t epoch = 0; epoch < epochs; epoch++)
        wrong += take_frames(end);
    return (void *)wrong;
}

static void *serve(void *end)
{
    struct poll82599_rx_controller *controller = end;
    uint8_t frame[POLL82599_BUFFER_BYTES];
    unsigned tries = 0;
    for (uint64_t epoch = 0; epoch < epochs; epoch++) {
        while (!poll82599_rx_answer(controller))
            wait(&tries);
        for (uint64_t k = 0; k < frames;) {
            fill(frame, k);
            if (poll82599_rx_store(controller, frame, bytes) == 1)
                k++;
            else
                wait(&tries);
        }
        poll82599_rx_set_quiet(controller);
        while (!poll82599_rx_answer(controller))
            wait(&tries);
    }
    return 0;
}

int main(int count, char **words)
{
    struct poll82599_rx_driver driver = {0};
    struct poll82599_rx_controller controller = {0};
    struct timespec begun, ended;
    pthread_t threads[2];
    void *wrong;
    if (count > 1)
        frames = strtoull(words[1], 0, 10);
    if (count > 2)
        bytes = strtoull(words[2], 0, 10);
    if (count > 3)
        epochs = strtoull(words[3], 0, 10);
    if (bytes < POLL82599_LEAST_FRAME || bytes > POLL82599_BUFFER_BYTES)
        return 2;
    int32_t length = poll82599_rx_new(7, 200, &driver, &controller);
    int32_t buffers = poll82599_rx_new(128, 257, &driver, &controller);
    printf("refused: a ring of 7 descriptors (%d), 257 buffers (%d)\n", (int)length, (int)buffers);
    if (poll82599_rx_new(128, 200, &driver, &controller))
        return 1;
    clock_gettime(CLOCK_MONOTONIC, &begun);
    pthread_create(&threads[0], 0, drive, &driver);
    pthread_create(&threads[1], 0, serve, &controller);
    pthread_join(threads[1], 0);
    pthread_join(threads[0], &wrong);
    clock_gettime(CLOCK_MONOTONIC, &ended);
    printf("%llu frames in each of %llu epochs, %llu wrong\n", (unsigned long long)frames, (unsigned long long)epochs, (unsigned long long)(uintptr_t)wrong);
    printf("closed with %lld buffers in the ring\n", (long long)poll82599_rx_close(&driver, &controller));
    double took = (ended.tv_sec - begun.tv_sec) * 1e9 + (ended.tv_nsec - begun.tv_nsec);
    fprintf(stderr, "%.0f ns/frame\n", took / (double)(frames * epochs));
    return wrong != 0;
}
