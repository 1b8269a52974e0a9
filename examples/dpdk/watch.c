#include "harness.h"

#include <regex.h>
#include <string.h>

/* The driver's calls, and the moves of the driver that each of them makes: a regular expression over the kinds, each followed by a space.
 * docs/CONFORMANCE.md says how thresholds decide when a call refills, cleans, and asks for a report. */
static const struct {
    const char *call, *moves;
} CALLS[] = {
    {"ixgbe_dev_rx_queue_start", "^C1 (C4 )+(A1 )+A2 $"},
    {"ixgbe_dev_tx_queue_start", "^C1 (C4 )+$"},
    {"rx_pkt_burst", "^(A6 )*((A1 |A6 )*A1 A2 )?(A6 )*$"},
    {"tx_pkt_burst", "^(B7 )*(B8 )*((B1 |B7 |B8 )*B1 B2 )?$"},
    {"ixgbe_dev_rx_queue_stop", "^C5 (C4 )+(C6 )*C9 C10 C11 $"},
    {"ixgbe_dev_tx_queue_stop", "^C5 (C4 )+(C6 )*C9 C10 $"},
};
static const char DRIVER[] = "A1 A2 A6 B1 B2 B7 B8 C1 C4 C5 C6 C9 C10 C11 "; /* the kinds that the driver makes */

/* Compares the driver's moves since `first` with the table. */
void check_call(struct harness *h, const char *call, size_t first)
{
    static char kinds[32 * MOST_PLACES];
    size_t length = 0, row = 0;
    regex_t form;
    for (size_t k = first; k < h->count; k++) {
        char word[8] = "";
        sscanf(h->lines[k].move, "%*s %6s", word);
        strcat(word, " ");
        if (strstr(DRIVER, word) && length + sizeof word < sizeof kinds)
            length += (size_t)sprintf(kinds + length, "%s", word);
    }
    kinds[length] = 0;
    while (strcmp(CALLS[row].call, call) != 0)
        row++;
    if (regcomp(&form, CALLS[row].moves, REG_EXTENDED | REG_NOSUB) != 0)
        fail("the moves of %s are no regular expression", call);
    if (regexec(&form, kinds, 0, 0, 0) != 0)
        fault(h, "%s made the moves '%s'", call, kinds);
    regfree(&form);
}

unsigned index_of(const struct rte_mbuf *buffer)
{
    return (unsigned)((buffer->buf_iova + RTE_PKTMBUF_HEADROOM) / SEGMENT);
}

bool refills_in_place(const struct harness *h)
{
    return !h->path->bulk && !h->path->vector;
}

/* The note is the device's until the driver returns the segment. A driver that is stopped never returns the beginning of a frame. */
static void take(struct harness *h)
{
    struct rx_watch *w = &h->rx_watch;
    struct line *line = add_move(h, "r0 A6");
    add_note(line, "buffer %u length %u eop %d", h->numbers[w->buffers[w->next]], h->rx.written[w->next].length, h->rx.written[w->next].eop);
    w->takes[w->taken++ % (2 * MOST_PLACES)] = line;
    w->next = place_after(h, w->next);
}

/* A place that was written back and shows no DD has been refilled, so its segment has been taken. */
void watch_taken(struct harness *h)
{
    struct rx_watch *w = &h->rx_watch;
    while (refills_in_place(h) && w->next != w->fill && w->next != h->rx.use && !(h->rx_ring[w->next][1] & RX_DD))
        take(h);
}

/* Functions that do not refill in place leave a descriptor alone until they post it again. So there a segment counts as taken at the
 * latest moment: when its frame is returned, or when its place is posted. */
void watch_refilled(struct harness *h)
{
    struct rx_watch *w = &h->rx_watch;
    unsigned tail = *reg(h, RDT), buffer;
    if (tail == w->fill)
        return;
    if (tail >= h->options.ring)
        fault(h, "RDT is %u", tail);
    for (; w->fill != tail; w->fill = place_after(h, w->fill)) {
        if (!read_rx(h, w->fill, &buffer))
            fault(h, "receive descriptor %u was posted as %016lx %016lx", w->fill, h->rx_ring[w->fill][0], h->rx_ring[w->fill][1]);
        if (!refills_in_place(h) && place_after(h, w->fill) == w->next)
            take(h);
        if (h->numbers_left) {
            h->numbers[buffer] = *h->next_numbers++;
            h->numbers_left--;
        }
        show_descriptor(h, "rx read", &h->rx_ring[w->fill], "buffer %u", buffer);
        add_note(add_move(h, "r0 A1 %u", h->numbers[buffer]), "place %u", w->fill);
        w->buffers[w->fill] = buffer;
    }
    add_note(add_move(h, "r0 A2"), "tail %u", tail);
}

void watch_returned(struct harness *h, const struct rte_mbuf *frame)
{
    struct rx_watch *w = &h->rx_watch;
    unsigned length = 0;
    for (const struct rte_mbuf *it = frame; it; it = it->next) {
        if (w->returned == w->taken)
            take(h);
        add_note(w->takes[w->returned++ % (2 * MOST_PLACES)], "buffer %u length %u eop %d", h->numbers[index_of(it)], it->data_len, !it->next);
        for (unsigned k = 0; k < it->data_len; k++, w->bytes++)
            if (rte_pktmbuf_mtod(it, const uint8_t *)[k] != stream_byte(w->bytes))
                fault(h, "received byte %lu is wrong", w->bytes);
        length += it->data_len;
    }
    if (length != frame->pkt_len)
        fault(h, "pkt_len is %u in a frame of %u bytes", frame->pkt_len, length);
    h->counts.taken++;
}

/* The reports up to this place, and then the places that they cover. */
static void clean_to(struct harness *h, unsigned last)
{
    struct tx_watch *w = &h->tx_watch;
    unsigned end = place_after(h, last);
    for (unsigned place = w->next; place != end; place = place_after(h, place)) {
        if (!w->at[place].rs)
            continue;
        add_note(add_move(h, "t0 B7"), "reported %u", place);
        h->tx.reported[place] = false;
    }
    for (; w->next != end; w->next = place_after(h, w->next))
        add_note(add_move(h, "t0 B8"), "buffer %u", h->numbers[w->at[w->next].buffer]);
}

/* ixgbe_xmit_pkts clears the DD of the report that it finds. It may skip reports before that one. */
bool watch_cleaned(struct harness *h)
{
    const struct tx_watch *w = &h->tx_watch;
    unsigned last = MOST_PLACES;
    for (unsigned place = w->next; h->whole_path && place != w->fill; place = place_after(h, place))
        if (h->tx.reported[place] && !(h->tx_ring[place][1] & TX_DD))
            last = place;
    if (last == MOST_PLACES)
        return false;
    clean_to(h, last);
    return true;
}

/* The other two functions leave no sign of cleaning. So there places count as cleaned at the latest moment: when they are needed. */
static void make_room(struct harness *h)
{
    const struct tx_watch *w = &h->tx_watch;
    unsigned place = w->next;
    if (h->whole_path || place_after(h, w->fill) != w->next)
        return;
    while (place != w->fill && !w->at[place].rs)
        place = place_after(h, place);
    if (place != w->fill)
        clean_to(h, place);
}

void watch_posted(struct harness *h)
{
    struct tx_watch *w = &h->tx_watch;
    struct tx_fields f;
    unsigned tail = *reg(h, TDT);
    if (tail == w->fill)
        return;
    if (tail >= h->options.ring)
        fault(h, "TDT is %u", tail);
    for (; w->fill != tail; w->fill = place_after(h, w->fill)) {
        if (!read_tx(h, w->fill, &f))
            fault(h, "transmit descriptor %u was posted as %016lx %016lx", w->fill, h->tx_ring[w->fill][0], h->tx_ring[w->fill][1]);
        make_room(h);
        show_descriptor(h, "tx read", &h->tx_ring[w->fill], "buffer %u length %u eop %d rs %d paylen %u", f.buffer, f.length, f.eop, f.rs, f.paylen);
        add_note(add_move(h, "t0 B1 %u %u %d %d %u", h->numbers[f.buffer], f.length, f.eop, f.rs, f.paylen), "place %u", w->fill);
        w->at[w->fill].buffer = f.buffer;
        w->at[w->fill].rs = f.rs;
    }
    add_note(add_move(h, "t0 B2"), "tail %u", tail);
}

/* A call that stops a queue frees its buffers and resets it. */
void watch_reclaimed(struct harness *h, enum direction way)
{
    struct rx_watch *r = &h->rx_watch;
    struct tx_watch *t = &h->tx_watch;
    char queue = way == RX ? 'r' : 't';
    for (; way == RX && r->next != r->fill; r->next = place_after(h, r->next))
        add_note(add_move(h, "r0 C6"), "buffer %u", h->numbers[r->buffers[r->next]]);
    for (; way == TX && t->next != t->fill; t->next = place_after(h, t->next))
        add_note(add_move(h, "t0 C6"), "buffer %u", h->numbers[t->at[t->next].buffer]);
    add_note(add_move(h, "%c0 C9", queue), "head 0");
    add_note(add_move(h, "%c0 C10", queue), "tail 0");
    if (way == RX)
        add_note(add_move(h, "r0 C11"), "quiet 0");
}
