#include "harness.h"

#include <stdlib.h>
#include <string.h>

/* A list that driver and device follow. Moves that are misspelt are found when the caller compares the list with what was made. */
struct list {
    char (*moves)[sizeof((struct line *)0)->move];
    uint16_t *numbers; /* the buffers of A1, in order */
    size_t count, posts, at;
    uint64_t bytes; /* posted for transmission */
};

static bool is_kind(const struct list *list, size_t at, const char *kind)
{
    return at < list->count && strncmp(list->moves[at], kind, strlen(kind)) == 0;
}

/* The numbers after queue and kind, each at most MOST_NUMBER. */
static void read_numbers(const char *move, unsigned *numbers, unsigned count)
{
    const char *at = move + strlen("r0 A1");
    for (unsigned k = 0; k < count; k++) {
        int length = 0;
        if (sscanf(at, " %5u%n", &numbers[k], &length) != 1 || numbers[k] > MOST_NUMBER)
            fail("standard input: '%s' is not a move", move);
        at += length;
    }
}

/* Reads a list up to its line '# end'. Returns whether there is one. */
static bool read_list(struct list *list)
{
    char line[256];
    unsigned number;
    list->count = list->posts = list->at = list->bytes = 0;
    while (fgets(line, sizeof line, stdin)) {
        line[strcspn(line, "\n")] = 0;
        if (strcmp(line, "# end") == 0)
            return true;
        if (line[0] == 0 || line[0] == '#')
            continue;
        if (list->count == MOST_MOVES || strlen(line) < strlen("r0 A1") || strlen(line) >= sizeof *list->moves)
            fail("standard input: '%.40s' is not a move, or one too many", line);
        strcpy(list->moves[list->count++], line);
        if (!is_kind(list, list->count - 1, "r0 A1"))
            continue;
        read_numbers(line, &number, 1);
        list->numbers[list->posts++] = (uint16_t)number;
    }
    if (list->count)
        fail("standard input: the last list has no line '# end'");
    return false;
}

/* Returns how many frames one call asks for that makes the next A6 moves: a call ends when it has that many, or when it finds no DD. */
static unsigned frames_asked(const struct harness *h, const struct list *list)
{
    unsigned place = h->rx_watch.next, frames = 0;
    bool ends = true;
    for (size_t k = list->at; is_kind(list, k, "r0 A6"); k++, place = place_after(h, place)) {
        if (place == h->rx.use)
            return frames + 1;
        ends = h->rx.written[place].eop || !h->path->scattered;
        frames += ends;
    }
    return ends ? frames : frames + 1;
}

static void follow_receive(struct harness *h, const struct list *list)
{
    struct rte_mbuf *frames[MOST_PLACES];
    unsigned got = receive(h, frames, frames_asked(h, list));
    for (unsigned k = 0; k < got; k++)
        rte_pktmbuf_free(frames[k]);
}

/* A buffer with the number and length of this B1, and the next bytes of the stream. */
static struct rte_mbuf *segment_of(struct harness *h, struct list *list, const char *move, bool *eop)
{
    unsigned n[5]; /* buffer, length, EOP, RS, PAYLEN */
    struct rte_mbuf *it = rte_pktmbuf_alloc(h->pool);
    read_numbers(move, n, 5);
    if (!it || n[1] > SEGMENT)
        fail("standard input: '%s' cannot be followed", move);
    h->numbers[index_of(it)] = (uint16_t)n[0];
    it->data_len = (uint16_t)n[1];
    it->pkt_len = n[1];
    for (unsigned k = 0; k < n[1]; k++)
        rte_pktmbuf_mtod(it, uint8_t *)[k] = stream_byte(list->bytes++);
    *eop = n[2];
    return it;
}

/* One call with the frames of the B1 moves up to the next B2. */
static void follow_transmit(struct harness *h, struct list *list)
{
    struct rte_mbuf *frames[MOST_PLACES];
    unsigned count = 0;
    bool eop = true;
    for (size_t k = list->at; is_kind(list, k, "t0 B1") || is_kind(list, k, "t0 B7") || is_kind(list, k, "t0 B8"); k++) {
        struct rte_mbuf *it;
        if (!is_kind(list, k, "t0 B1"))
            continue;
        bool begins = eop;
        if (count == MOST_PLACES)
            fail("standard input: more than %d frames are transmitted at once", MOST_PLACES);
        it = segment_of(h, list, list->moves[k], &eop);
        if (begins)
            frames[count++] = it;
        else if (rte_pktmbuf_chain(frames[count - 1], it) != 0)
            fail("standard input: a frame has too many segments");
    }
    transmit(h, frames, count);
}

static bool step_device(struct harness *h, const char *move)
{
    device_step *step = device_step_of(move);
    unsigned n[2]; /* length, EOP */
    if (step)
        return step(h);
    if (strncmp(move, "r0 A5", strlen("r0 A5")) != 0)
        return false;
    read_numbers(move, n, 2);
    return write_back_rx(h, n[0], n[1]);
}

/* Makes the next moves of the list: one of the device, or those of one call of the driver. */
static void follow_one(struct harness *h, struct list *list)
{
    size_t before = h->count;
    const char *move = list->moves[list->at];
    if (is_kind(list, list->at, "r0 A6"))
        follow_receive(h, list);
    else if (is_kind(list, list->at, "t0 B1") || is_kind(list, list->at, "t0 B7"))
        follow_transmit(h, list);
    else if (!step_device(h, move))
        fault(h, "move %zu of the list, '%s', cannot be made", list->at + 1, move);
    if (h->count == before)
        fault(h, "the driver does nothing where move %zu of the list is '%s'", list->at + 1, move);
    list->at += h->count - before;
}

/* Starts the queues, and drops the moves of their control words: lists begin with enabled queues. */
static void start_enabled(struct harness *h)
{
    size_t all;
    h->count = 0;
    start(h);
    all = h->count;
    h->count = 0;
    for (size_t k = 0; k < all; k++)
        if (h->lines[k].move[strlen("r0 ")] != 'C')
            h->lines[h->count++] = h->lines[k];
}

/* Lets the device forget what it has begun, so that the queues can be stopped wherever a list ends. */
static void abandon(struct harness *h)
{
    h->rx.holds = h->rx.in_frame = false;
    h->tx.holds = h->tx.owes = h->tx.in_frame = false;
    *reg(h, TDH) = h->tx.use = h->tx.known = *reg(h, TDT);
}

/* Follows each list of standard input, and prints the moves that were made: the list itself, if the driver is as the list expects. */
void follow_lists(struct harness *h)
{
    struct list list = {.moves = calloc(MOST_MOVES, sizeof *list.moves), .numbers = calloc(MOST_MOVES, sizeof *list.numbers)};
    if (!list.moves || !list.numbers)
        fail("out of memory");
    h->drains = true;
    while (read_list(&list)) {
        h->next_numbers = list.numbers;
        h->numbers_left = list.posts;
        start_enabled(h);
        for (list.at = h->count; list.at < list.count;)
            follow_one(h, &list);
        print_list(h);
        abandon(h);
        stop(h);
    }
    free(list.moves);
    free(list.numbers);
}
