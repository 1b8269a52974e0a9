/* The calls for plain data, for programs with their own rings: encodes and decodes descriptors, runs a list of moves as an oracle for a
 * driver or a device, and passes frames through a ring of 8. Prints a line for each check, and exits with status 1 if one fails. */
#include <poll82599.h>

#include <stdio.h>
#include <string.h>

static int failed;

static void check(int good, const char *what)
{
    printf("%s: %s\n", good ? "ok" : "WRONG", what);
    failed |= !good;
}

static void descriptors(void)
{
    static const uint8_t posted[] = {0, 0x28, 0, 0, 0, 0, 0, 0, 0x3c, 0, 0x30, 0x2b, 0, 0, 0x0f, 0};
    static const uint8_t back[] = {0, 0, 0, 0, 0, 0, 0, 0, 0x03, 0, 0, 0, 0x3c, 0, 0, 0};
    struct poll82599_descriptor given = {.number = 5, .len = 60, .eop = 1, .rs = 1, .paylen = 60}, read = {0};
    uint8_t bytes[POLL82599_DESCRIPTOR_BYTES] = {0};
    check(poll82599_encode(POLL82599_TX_READ, &given, bytes, sizeof bytes) == 0, "encode a transmit descriptor");
    check(memcmp(bytes, posted, sizeof posted) == 0, "its bytes are those in the README");
    check(poll82599_decode(POLL82599_TX_READ, bytes, sizeof bytes, &read) == 0 && memcmp(&given, &read, sizeof given) == 0, "decode it again");
    check(poll82599_decode(POLL82599_RX_READ, bytes, sizeof bytes, &read) == 2, "it is not a receive descriptor");
    check(memcmp(&given, &read, sizeof given) == 0, "a refusal leaves the fields unchanged");
    check(poll82599_decode(POLL82599_RX_BACK, back, sizeof back, &read) == 0 && read.len == 60 && read.eop == 1, "decode a written-back frame of 60 bytes");
    given.paylen = 13;
    check(poll82599_encode(POLL82599_TX_READ, &given, bytes, sizeof bytes) == 2, "PAYLEN must be at least 14");
    check(memcmp(bytes, posted, sizeof posted) == 0, "a refusal leaves the bytes unchanged");
}

static void moves(void)
{
    static const char text[] = "r0 A1 5\nr0 A2\nr0 A6\n", faulty[] = "r0 A1 5\nr0 A9\n";
    static const char page[] = "r0 A1 place 0\nr0 A2 tail 1\nr0 A6 none\nmoves 3 of 3\n";
    struct poll82599_plan plan = {.pairs = 1, .descriptors = 8, .enabled = 1};
    struct poll82599_moved moved = {0};
    uint8_t room[128];
    check(poll82599_moves(&plan, (const uint8_t *)text, sizeof text - 1, room, 3, &moved) == 1 && moved.needed == sizeof page - 1, "a page that is too small: the length that is needed");
    check(poll82599_moves(&plan, (const uint8_t *)text, sizeof text - 1, room, sizeof room, &moved) == 0 && memcmp(room, page, sizeof page - 1) == 0, "the page of the moves");
    check(poll82599_moves(&plan, (const uint8_t *)faulty, sizeof faulty - 1, room, sizeof room, &moved) == 14 && moved.line == 2, "line 2 is not a move");
}

static void once(void)
{
    static uint8_t frame[14336], taken[14337];
    for (size_t at = 0; at < sizeof frame; at++)
        frame[at] = (uint8_t)(at * 7 + at / 256);
    taken[14] = taken[14336] = 0xa5;
    check(poll82599_once(frame, 14, taken, 14) == 0 && memcmp(frame, taken, 14) == 0 && taken[14] == 0xa5, "pass 14 bytes through a ring");
    check(poll82599_once(frame, sizeof frame, taken, sizeof taken) == 0 && memcmp(frame, taken, sizeof frame) == 0 && taken[14336] == 0xa5, "pass 14,336 bytes through a ring");
    check(poll82599_once(frame, 13, taken, sizeof taken) == 1 && poll82599_once(taken, sizeof taken, frame, sizeof frame) == 1, "13 and 14,337 bytes are not a frame");
    check(poll82599_once(frame, 60, taken, 59) == 4, "a room of 59 bytes is too small for 60");
}

int main(void)
{
    descriptors();
    moves();
    once();
    return failed;
}
