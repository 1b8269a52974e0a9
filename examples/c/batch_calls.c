/* Makes each call of the batch interface on one thread, and causes nearly every result that it can return. Prints a line for each check,
 * and exits with status 1 if one fails. */
#include <poll82599.h>

#include <stdio.h>
#include <string.h>

static int wrong;

static void expect(const char *what, long long got, long long wanted)
{
    printf("%s: %s: %lld\n", got == wanted ? "ok" : "WRONG", what, got);
    wrong += got != wanted;
}

static struct poll82599_packets packets;
static struct poll82599_pool pool;
static struct poll82599_counters counters, reader;
static struct poll82599_rx_queue rx;
static struct poll82599_rx_device rx_device;
static struct poll82599_tx_queue tx;
static struct poll82599_tx_device tx_device;
static uint8_t frame[POLL82599_MOST_FRAME + 1], got[POLL82599_MOST_FRAME];
static size_t count, moved, len, empty;
static uint64_t number;
static uint8_t byte;

/* Calls with empty handles, at the start and after everything is closed. */
static void use_empty_handles(void)
{
    expect("put a packet, empty packets", poll82599_packets_put(&packets, frame, 60), POLL82599_NO_END);
    expect("count, empty packets", poll82599_packets_count(&packets, NULL) == SIZE_MAX, 1);
    expect("refill, empty handles", poll82599_packets_refill(&packets, &pool, &count), POLL82599_NO_END);
    expect("count, empty pool", poll82599_pool_count(&pool) == SIZE_MAX, 1);
    expect("close an empty pool", poll82599_pool_close(&pool) == SIZE_MAX, 1);
    expect("write, empty counters", poll82599_counters_set(&counters, 0, 1), POLL82599_NO_END);
    expect("read, empty reader", poll82599_counters_get(&reader, 0, &number), POLL82599_NO_END);
    expect("make a reader of empty counters", poll82599_counters_reader(&counters, &reader), 4);
    expect("close empty counters", poll82599_counters_close(&counters), POLL82599_NOT_CLOSED);
    expect("read, empty packets", poll82599_packet_read(&packets, 0, 0, got, 1), POLL82599_NO_END);
    expect("write, empty packets", poll82599_packet_write(&packets, 0, 0, frame, 1), POLL82599_NO_END);
    expect("receive a batch, empty queue", poll82599_rx_batch(&rx, &packets, &count, &moved), POLL82599_NO_END);
    expect("enable, empty receive queue", poll82599_rx_queue_enable(&rx), POLL82599_NO_END);
    expect("offer, empty device", poll82599_offer(&rx_device, frame, 60), POLL82599_NO_END);
    expect("post a batch, empty queue", poll82599_tx_batch(&tx, &packets, &count, &moved), POLL82599_NO_END);
    expect("renew, empty transmit queue", poll82599_tx_queue_renew(&tx), POLL82599_NO_END);
    expect("turn, empty device", poll82599_turn(&tx_device, got, sizeof got, &len), POLL82599_NO_END);
    expect("close an empty receive queue", poll82599_rx_queue_close(&rx, &rx_device), POLL82599_NOT_CLOSED);
    expect("close an empty transmit queue", poll82599_tx_queue_close(&tx, &tx_device), POLL82599_NOT_CLOSED);
    expect("close empty packets", poll82599_packets_close(&packets) == SIZE_MAX, 1);
}

/* Calls with handles of the wrong kind, by a cast, and with one full and one empty handle. */
static void mix_handles(void)
{
    struct poll82599_packets none = {0};
    expect("receive a batch into empty packets", poll82599_rx_batch(&rx, &none, &count, NULL), POLL82599_NO_END);
    expect("return buffers to a queue cast to a pool", poll82599_packets_return(&packets, (struct poll82599_pool *)&rx, 1, &count), POLL82599_NO_END);
    expect("close packets cast to counters", poll82599_counters_close((struct poll82599_counters *)&packets), POLL82599_NOT_CLOSED);
    expect("close packets cast to a pool", poll82599_pool_close((struct poll82599_pool *)&packets) == SIZE_MAX, 1);
    expect("offer, transmit device cast to a receive device", poll82599_offer((struct poll82599_rx_device *)&tx_device, frame, 60), POLL82599_NO_END);
    expect("close a receive queue with a transmit device", poll82599_rx_queue_close(&rx, (struct poll82599_rx_device *)&tx_device), POLL82599_NOT_CLOSED);
    expect("close a transmit device cast to packets", poll82599_packets_close((struct poll82599_packets *)&tx_device) == SIZE_MAX, 1);
}

static void make(void)
{
    expect("make packets of 15 buffers", poll82599_packets_new(15, &packets), 3);
    expect("make packets of 16 buffers", poll82599_packets_new(16, &packets), 0);
    expect("make packets in a handle in use", poll82599_packets_new(32, &packets), 5);
    expect("number of packets", (long long)poll82599_packets_count(&packets, &empty), 0);
    expect("empty buffers", (long long)empty, 16);
    expect("make a receive queue of 7 descriptors", poll82599_rx_queue_new(7, 32, 1024, 0, &rx, &rx_device), 1);
    expect("make a receive queue with batches of 33", poll82599_rx_queue_new(8, 33, 1024, 0, &rx, &rx_device), 4);
    expect("make a receive queue with buffers filled to 512 bytes", poll82599_rx_queue_new(8, 32, 512, 0, &rx, &rx_device), 4);
    expect("make a receive queue of 8 descriptors", poll82599_rx_queue_new(8, 2, 1024, 0, &rx, &rx_device), 0);
    expect("make a receive queue in handles in use", poll82599_rx_queue_new(64, 2, 1024, 0, &rx, &rx_device), 5);
    expect("make a transmit queue without reports", poll82599_tx_queue_new(8, 0, 0, &tx, &tx_device), 4);
    expect("make a transmit queue beside a handle in use", poll82599_tx_queue_new(8, 32, 1, &tx, (struct poll82599_tx_device *)&rx_device), 5);
    expect("make a transmit queue of 8 descriptors", poll82599_tx_queue_new(8, 32, 1, &tx, &tx_device), 0);
}

/* Packets 0 and 1 go to another worker, and come back in the other order and then in this one. */
static void sort_packets(void)
{
    static struct poll82599_packets others;
    expect("move a packet to empty packets", poll82599_packet_move(&packets, 0, &others), POLL82599_NO_END);
    expect("make packets of another worker", poll82599_packets_new(16, &others), 0);
    expect("move packet 2", poll82599_packet_move(&packets, 2, &others), 0);
    expect("move packet 0", poll82599_packet_move(&packets, 0, &others), 1);
    expect("move packet 0, which was packet 1", poll82599_packet_move(&packets, 0, &others), 1);
    expect("number of packets left", (long long)poll82599_packets_count(&packets, NULL), 0);
    expect("number of packets moved", (long long)poll82599_packets_count(&others, &empty), 2);
    expect("empty buffers of the other worker", (long long)empty, 16);
    expect("move packet 0 back", poll82599_packet_move(&others, 0, &packets), 1);
    expect("move packet 0 back, which was packet 1", poll82599_packet_move(&others, 0, &packets), 1);
    expect("copy packet 1", poll82599_packet_copy(&packets, 1, got, sizeof got, &len), 1);
    expect("bytes copied", (long long)len, 60);
    expect("close the other worker's packets", (long long)poll82599_packets_close(&others), 0);
}

/* A packet of 15 segments, built from pieces of 1,000 bytes. */
static void build_a_packet(void)
{
    static struct poll82599_packets pieces;
    expect("make packets of 16 buffers", poll82599_packets_new(16, &pieces), 0);
    expect("append to no packet", poll82599_packets_append(&pieces, frame, 1), 0);
    expect("put the first 1,000 bytes", poll82599_packets_put(&pieces, frame, 1000), 1);
    expect("append no byte", poll82599_packets_append(&pieces, frame, 0), 2);
    expect("append 2,049 bytes", poll82599_packets_append(&pieces, frame, 2049), 2);
    for (size_t at = 1000; at < 14000; at += 1000)
        wrong += poll82599_packets_append(&pieces, frame + at, 1000) != 1;
    expect("append 1,001 bytes to 14,000", poll82599_packets_append(&pieces, frame, 1001), 2);
    expect("append the last 1,000 bytes", poll82599_packets_append(&pieces, frame + 14000, 1000), 1);
    expect("append a byte to 15,000", poll82599_packets_append(&pieces, frame, 1), 2);
    expect("copy what was built", poll82599_packet_copy(&pieces, 0, got, sizeof got, &len), 1);
    expect("bytes copied", (long long)len, 15000);
    expect("the bytes differ", memcmp(got, frame, 15000) != 0, 0);
    expect("put a packet into the last buffer", poll82599_packets_put(&pieces, frame, 60), 1);
    expect("append without a buffer", poll82599_packets_append(&pieces, frame, 60), 0);
    expect("close these packets", (long long)poll82599_packets_close(&pieces), 2);
    expect("append to empty packets", poll82599_packets_append(&pieces, frame, 60), POLL82599_NO_END);
}

/* Ranges of a packet of 5,000 bytes, which lies in buffers of 2,048, 2,048 and 904 bytes. */
static void use_ranges(void)
{
    static const uint8_t patch[3000] = {1, 2, 3};
    size_t segments;
    expect("length of packet 0", poll82599_packet_length(&packets, 0, &len, &segments), 1);
    expect("bytes", (long long)len, 5000);
    expect("segments", (long long)segments, 3);
    expect("length of packet 1", poll82599_packet_length(&packets, 1, &len, NULL), 0);
    expect("read 34 bytes from byte 2,040 on", poll82599_packet_read(&packets, 0, 2040, got, 34), 1);
    expect("the bytes differ", memcmp(got, frame + 2040, 34) != 0, 0);
    expect("read 5,000 bytes", poll82599_packet_read(&packets, 0, 0, got, 5000), 1);
    expect("the bytes differ", memcmp(got, frame, 5000) != 0, 0);
    expect("read no byte at the end", poll82599_packet_read(&packets, 0, 5000, got, 0), 1);
    expect("read 2 bytes from byte 4,999 on", poll82599_packet_read(&packets, 0, 4999, got, 2), 0);
    expect("read from the greatest place on", poll82599_packet_read(&packets, 0, SIZE_MAX, got, 2), 0);
    expect("read from packet 1", poll82599_packet_read(&packets, 1, 0, got, 1), 0);
    memcpy(got, frame, 5000);
    memcpy(got + 1500, patch, sizeof patch);
    expect("write 3,000 bytes from byte 1,500 on", poll82599_packet_write(&packets, 0, 1500, patch, sizeof patch), 1);
    expect("write beyond the end", poll82599_packet_write(&packets, 0, 2001, patch, sizeof patch), 0);
    expect("write to packet 1", poll82599_packet_write(&packets, 1, 0, patch, 1), 0);
    static uint8_t now[5000];
    expect("read what was written", poll82599_packet_read(&packets, 0, 0, now, sizeof now), 1);
    expect("the bytes differ", memcmp(got, now, sizeof now) != 0, 0);
    expect("write the bytes back", poll82599_packet_write(&packets, 0, 0, frame, 5000), 1);
    expect("segments", (long long)(poll82599_packet_length(&packets, 0, &len, &segments), segments), 3);
}

static void hold_packets(void)
{
    build_a_packet();
    expect("put a packet of 13 bytes", poll82599_packets_put(&packets, frame, 13), 2);
    expect("put a packet of 15,001 bytes", poll82599_packets_put(&packets, frame, sizeof frame), 2);
    expect("put a packet of 5,000 bytes", poll82599_packets_put(&packets, frame, 5000), 1);
    expect("number of packets", (long long)poll82599_packets_count(&packets, &empty), 1);
    expect("empty buffers", (long long)empty, 13);
    use_ranges();
    expect("read byte 4,999", poll82599_packet_byte(&packets, 0, 4999, &byte), 1);
    expect("value of byte 4,999", byte, frame[4999]);
    expect("write byte 4,999", poll82599_packet_touch(&packets, 0, 4999, (uint8_t)(byte + 1)), 1);
    expect("write byte 5,000", poll82599_packet_touch(&packets, 0, 5000, 0), 0);
    expect("read a byte of packet 1", poll82599_packet_byte(&packets, 1, 0, &byte), 0);
    expect("copy into 4,999 bytes", poll82599_packet_copy(&packets, 0, got, 4999, &len), 4);
    expect("copy", poll82599_packet_copy(&packets, 0, got, sizeof got, &len), 1);
    frame[4999]++;
    expect("bytes copied", (long long)len, 5000);
    expect("the bytes differ", memcmp(got, frame, 5000) != 0, 0);
    expect("copy packet 1", poll82599_packet_copy(&packets, 1, got, sizeof got, &len), 0);
    expect("free packet 1", poll82599_packet_free(&packets, 1), 0);
    expect("put a packet of 60 bytes", poll82599_packets_put(&packets, frame, 60), 1);
    sort_packets();
    expect("free packet 1", poll82599_packet_free(&packets, 1), 1);
    expect("empty buffers", (long long)(poll82599_packets_count(&packets, &empty), empty), 13);
}

static void receive(void)
{
    expect("batch, disabled queue", poll82599_rx_batch(&rx, &packets, &count, &moved), 0);
    expect("disable, disabled queue", poll82599_rx_queue_disable(&rx), 0);
    expect("reclaim, disabled queue", poll82599_rx_queue_reclaim(&rx, &packets, &count), 2);
    expect("offer, disabled queue", poll82599_offer(&rx_device, frame, 60), 3);
    expect("ask for the queue to be enabled", poll82599_rx_queue_enable(&rx), 0);
    expect("the device answers", poll82599_rx_device_control(&rx_device), POLL82599_ON);
    expect("the driver sees the answer", poll82599_rx_queue_enable(&rx), 1);
    expect("offer, no buffer posted", poll82599_offer(&rx_device, frame, 60), 0);
    expect("batch", poll82599_rx_batch(&rx, &packets, &count, &moved), 1);
    expect("packets of the batch", (long long)count, 0);
    expect("buffers posted by the batch", (long long)moved, 7);
    expect("offer 13 bytes", poll82599_offer(&rx_device, frame, 13), 2);
    expect("offer 8,000 bytes, 8 descriptors of 1,024", poll82599_offer(&rx_device, frame, 8000), 4);
    expect("offer 3,000 bytes", poll82599_offer(&rx_device, frame, 3000), 1);
    expect("finish", poll82599_rx_device_finish(&rx_device), 1);
    expect("finish again", poll82599_rx_device_finish(&rx_device), 0);
    expect("the queue is quiet", poll82599_rx_queue_is_quiet(&rx), 1);
    expect("batch", poll82599_rx_batch(&rx, &packets, &count, &moved), 1);
    expect("packets of the batch", (long long)count, 1);
    expect("buffers posted by the batch", (long long)moved, 3);
    expect("copy", poll82599_packet_copy(&packets, 1, got, sizeof got, &len), 1);
    expect("the bytes differ", len != 3000 || memcmp(got, frame, 3000) != 0, 0);
    struct poll82599_offered counts = poll82599_rx_device_counts(&rx_device);
    expect("offered", (long long)counts.offered, 2);
    expect("stored", (long long)counts.stored, 1);
    expect("oversize", (long long)counts.oversize, 1);
}

static void transmit(void)
{
    expect("batch, disabled queue", poll82599_tx_batch(&tx, &packets, &count, &moved), 0);
    expect("clean, disabled queue", poll82599_tx_queue_clean(&tx, &packets, &count), 0);
    expect("turn, disabled queue", poll82599_turn(&tx_device, got, sizeof got, &len), 3);
    expect("ask for the queue to be enabled", poll82599_tx_queue_enable(&tx), 0);
    expect("the device answers", poll82599_tx_device_control(&tx_device), POLL82599_ON);
    expect("the driver sees the answer", poll82599_tx_queue_enable(&tx), 1);
    expect("turn, nothing posted", poll82599_turn(&tx_device, got, sizeof got, &len), 0);
    expect("batch", poll82599_tx_batch(&tx, &packets, &count, &moved), 1);
    expect("packets of the batch", (long long)count, 2);
    expect("buffers cleaned by the batch", (long long)moved, 0);
    expect("ask how many segments are outstanding", poll82599_tx_queue_outstanding(&tx, &count), 1);
    expect("outstanding segments", (long long)count, 6);
    expect("turn, room of 4,999 bytes", poll82599_turn(&tx_device, got, 4999, &len), 4);
    expect("length of the frame that waits", (long long)len, 5000);
    expect("turn, room of 5,000 bytes", poll82599_turn(&tx_device, got, 5000, &len), 1);
    expect("the bytes differ", len != 5000 || memcmp(got, frame, 5000) != 0, 0);
    expect("turn, room of 3,000 bytes", poll82599_turn(&tx_device, got, 3000, &len), 1);
    expect("the bytes differ", len != 3000 || memcmp(got, frame, 3000) != 0, 0);
    expect("clean", poll82599_tx_queue_clean(&tx, &packets, &count), 1);
    expect("buffers cleaned", (long long)count, 6);
    expect("outstanding segments", (long long)(poll82599_tx_queue_outstanding(&tx, &count), count), 0);
}

static void stop(void)
{
    size_t left;
    expect("renew, enabled queue", poll82599_rx_queue_renew(&rx), 0);
    expect("ask for the queue to be disabled", poll82599_rx_queue_disable(&rx), 1);
    expect("finish before the answer", poll82599_rx_queue_finish(&rx, &left), 0);
    expect("the device answers", poll82599_rx_device_control(&rx_device), POLL82599_OFF);
    expect("finish after the answer", poll82599_rx_queue_finish(&rx, &left), 1);
    expect("segments left in the queue", (long long)left, 0);
    expect("enable before renewing", poll82599_rx_queue_enable(&rx), 2);
    expect("reclaim", poll82599_rx_queue_reclaim(&rx, &packets, &count), 1);
    expect("renew", poll82599_rx_queue_renew(&rx), 1);
    expect("ask for the queue to be disabled", poll82599_tx_queue_disable(&tx), 1);
    expect("the device answers", poll82599_tx_device_control(&tx_device), POLL82599_OFF);
    expect("finish after the answer", poll82599_tx_queue_finish(&tx, &left), 1);
    expect("segments left in the queue", (long long)left, 0);
    expect("reclaim", poll82599_tx_queue_reclaim(&tx, &packets, &count), 1);
    expect("buffers reclaimed", (long long)count, 0);
    expect("renew", poll82599_tx_queue_renew(&tx), 1);
    expect("number of packets", (long long)poll82599_packets_count(&packets, &empty), 0);
    expect("empty buffers", (long long)empty, 16);
    expect("close the receive queue; buffers in it", poll82599_rx_queue_close(&rx, &rx_device), 0);
    expect("close the transmit queue; buffers in it", poll82599_tx_queue_close(&tx, &tx_device), 0);
    expect("number of packets", (long long)poll82599_packets_close(&packets), 0);
}

/* A pool, from which a worker of 16 buffers refills. */
static void use_a_pool(void)
{
    expect("make a pool of 15 buffers", poll82599_pool_new(15, &pool), 3);
    expect("make a pool of 65,537 buffers", poll82599_pool_new(65537, &pool), 3);
    expect("make a pool of 4,200 buffers", poll82599_pool_new(4200, &pool), 0);
    expect("make a pool in a handle in use", poll82599_pool_new(16, &pool), 5);
    expect("make packets of 16 buffers", poll82599_packets_new(16, &packets), 0);
    expect("refill", poll82599_packets_refill(&packets, &pool, &count), 1);
    expect("buffers that came", (long long)count, 240);
    expect("refill 256 buffers", poll82599_packets_refill(&packets, &pool, NULL), 0);
    expect("return no buffer", poll82599_packets_return(&packets, &pool, 0, NULL), 0);
    expect("return 56 buffers", poll82599_packets_return(&packets, &pool, 56, &count), 1);
    expect("buffers that went", (long long)count, 56);
    expect("return 1,000 of 200 buffers", poll82599_packets_return(&packets, &pool, 1000, &count), 1);
    expect("buffers that went", (long long)count, 200);
    expect("return one of no buffers", poll82599_packets_return(&packets, &pool, 1, NULL), 0);
    expect("buffers in the pool", (long long)poll82599_pool_count(&pool), 4216);
}

/* Reads a counter, and expects this number. */
static void expect_counter(size_t at, long long wanted)
{
    number = 99;
    expect("read a counter", poll82599_counters_get(&reader, at, &number), 1);
    expect("its number", (long long)number, wanted);
}

/* Counters, which the device of the next queue writes. */
static void use_counters(void)
{
    expect("make counters", poll82599_counters_new(&counters), 0);
    expect("make counters in a handle in use", poll82599_counters_new(&counters), 5);
    expect("write counter 7", poll82599_counters_set(&counters, 7, 5), 1);
    expect("make a reader", poll82599_counters_reader(&counters, &reader), 0);
    expect("make a reader in a handle in use", poll82599_counters_reader(&counters, &reader), 5);
    expect("make a reader of a reader", poll82599_counters_reader(&reader, &counters), 4);
    expect("write counter 7 with less", poll82599_counters_set(&counters, 7, 4), 0);
    expect("write counter 7 with as much", poll82599_counters_set(&counters, 7, 5), 1);
    expect("write counter 8", poll82599_counters_set(&counters, 8, 6), 0);
    expect("write by a reader", poll82599_counters_set(&reader, 7, 6), POLL82599_NO_END);
    expect_counter(7, 5);
    expect_counter(6, 0);
    expect("read counter 8", poll82599_counters_get(&reader, 8, &number), 0);
    expect("read by the writer", poll82599_counters_get(&counters, 7, &number), POLL82599_NO_END);
    expect("the number stays", (long long)number, 0);
}

/* Frame k of the ring of 4,096. */
static const uint8_t *numbered(size_t k)
{
    frame[0] = (uint8_t)k;
    frame[1] = (uint8_t)(k / 256);
    return frame;
}

/* Takes all frames that were stored. Returns how many of them are frames 0, 1, 2 and so on. */
static size_t take_numbered(void)
{
    size_t right = 0, taken;
    for (size_t k = 0; poll82599_rx_batch_from(&rx, &packets, &pool, &taken, NULL) == 1 && taken;)
        for (; taken; taken--) {
            poll82599_packet_copy(&packets, 0, got, sizeof got, &len);
            right += len == 60 && memcmp(got, numbered(k++), 60) == 0;
            if (poll82599_packet_free(&packets, 0) == 2 && poll82599_packets_return(&packets, &pool, 128, NULL) == 1)
                poll82599_packet_free(&packets, 0);
        }
    return right;
}

/* A ring of 4,096 descriptors, filled from the pool: 4,095 buffers are posted, 4,095 frames are stored, and none is dropped. */
static void fill_a_long_ring(void)
{
    size_t posted = 0, stored = 0, left;
    expect("make a receive queue of 4,096 descriptors", poll82599_rx_queue_new(4096, 32, 2048, 1, &rx, &rx_device), 0);
    expect("ask for the queue to be enabled", poll82599_rx_queue_enable(&rx), 0);
    expect("the device answers", poll82599_rx_device_control(&rx_device), POLL82599_ON);
    expect("the driver sees the answer", poll82599_rx_queue_enable(&rx), 1);
    do {
        wrong += poll82599_rx_batch_from(&rx, &packets, &pool, &count, &moved) != 1;
        posted += moved;
    } while (moved);
    expect("buffers posted", (long long)posted, 4095);
    for (size_t k = 0; k < 4095; k++)
        stored += poll82599_offer(&rx_device, numbered(k), 60) == 1;
    expect("frames stored", (long long)stored, 4095);
    expect("frames taken in order", (long long)take_numbered(), 4095);
    expect("frames dropped", (long long)poll82599_rx_device_counts(&rx_device).dropped, 0);
    expect("write the device's counts", poll82599_rx_device_publish(&rx_device, &counters), 1);
    expect("write a device's counts by a reader", poll82599_rx_device_publish(&rx_device, &reader), POLL82599_NO_END);
    expect("close the counters", poll82599_counters_close(&counters), 0);
    expect_counter(0, 4095);
    expect_counter(1, 0);
    expect_counter(3, 4095);
    expect("close the reader", poll82599_counters_close(&reader), 0);
    expect("ask for the queue to be disabled", poll82599_rx_queue_disable(&rx), 1);
    expect("the device answers", poll82599_rx_device_control(&rx_device), POLL82599_OFF);
    expect("finish after the answer", poll82599_rx_queue_finish(&rx, &left), 1);
    while (poll82599_rx_queue_reclaim(&rx, &packets, &count) == 0)
        poll82599_packets_return(&packets, &pool, 256, NULL);
    poll82599_packets_return(&packets, &pool, 256, NULL);
    expect("close the receive queue; buffers in it", poll82599_rx_queue_close(&rx, &rx_device), 0);
    expect("number of packets", (long long)poll82599_packets_close(&packets), 0);
    expect("close the pool; buffers in it", (long long)poll82599_pool_close(&pool), 4216);
}

int main(void)
{
    for (size_t at = 0; at < sizeof frame; at++)
        frame[at] = (uint8_t)(at * 7 + at / 256);
    use_empty_handles();
    make();
    mix_handles();
    hold_packets();
    receive();
    transmit();
    stop();
    use_a_pool();
    use_counters();
    fill_a_long_ring();
    use_empty_handles();
    return wrong != 0;
}
