#include "harness.h"

#include <string.h>

/* Fields of a transmit descriptor's second word in the read format (7.2.3.2.4). */
#define TX_LENGTH UINT64_C(0xffff)
#define TX_DATA (UINT64_C(3) << 20)
#define TX_EOP (UINT64_C(1) << 24)
#define TX_IFCS (UINT64_C(1) << 25)
#define TX_RS (UINT64_C(1) << 27)
#define TX_DEXT (UINT64_C(1) << 29)
#define TX_PAYLEN_AT 46

unsigned place_after(const struct harness *h, unsigned place)
{
    return (place + 1) % h->options.ring;
}

unsigned places_between(const struct harness *h, unsigned from, unsigned to)
{
    return (to + h->options.ring - from) % h->options.ring;
}

volatile uint32_t *reg(struct harness *h, unsigned offset)
{
    return (volatile uint32_t *)(h->registers + offset);
}

static uint8_t *bytes_of(const struct harness *h, unsigned buffer)
{
    return (uint8_t *)h->buffers[buffer]->buf_addr + RTE_PKTMBUF_HEADROOM;
}

/* The device stores frames of this endless sequence of bytes. Forwarded, they are the same sequence on the wire. */
uint8_t stream_byte(uint64_t at)
{
    return (uint8_t)(at * 2654435761u >> 24 ^ at >> 8);
}

static bool read_address(const struct harness *h, uint64_t address, unsigned *buffer)
{
    *buffer = (unsigned)(address / SEGMENT);
    return address % SEGMENT == 0 && address / SEGMENT < MOST_BUFFERS && h->buffers[*buffer];
}

bool read_rx(const struct harness *h, unsigned place, unsigned *buffer)
{
    return read_address(h, h->rx_ring[place][0], buffer) && h->rx_ring[place][1] == 0;
}

/* Refuses what `poll82599 decode tx read` refuses, and buffers that do not exist. */
bool read_tx(const struct harness *h, unsigned place, struct tx_fields *f)
{
    uint64_t word = h->tx_ring[place][1], rest = word & ~(TX_LENGTH | TX_EOP | TX_RS | UINT64_MAX << TX_PAYLEN_AT);
    f->length = (unsigned)(word & TX_LENGTH);
    f->eop = word & TX_EOP;
    f->rs = word & TX_RS;
    f->paylen = (unsigned)(word >> TX_PAYLEN_AT);
    if (rest != (TX_DATA | TX_IFCS | TX_DEXT) || (f->rs && !f->eop))
        return false;
    if (f->length < 1 || f->length > SEGMENT || f->paylen < LEAST_FRAME || f->paylen > MOST_FRAME)
        return false;
    return read_address(h, h->tx_ring[place][0], &f->buffer);
}

bool load_rx_tail(struct harness *h)
{
    if (!h->controls[RX].serves)
        return false;
    h->rx.known = *reg(h, RDT);
    add_note(add_move(h, "r0 A3"), "free %u", places_between(h, h->rx.use, h->rx.known));
    return true;
}

bool fetch_rx(struct harness *h)
{
    struct rx_device *d = &h->rx;
    if (!h->controls[RX].serves || d->holds || d->known == d->use)
        return false;
    if (!read_rx(h, d->use, &d->buffer))
        fault(h, "the device fetched receive descriptor %u: %016lx %016lx", d->use, h->rx_ring[d->use][0], h->rx_ring[d->use][1]);
    d->holds = true;
    add_note(add_move(h, "r0 A4"), "place %u buffer %u", d->use, h->numbers[d->buffer]);
    return true;
}

bool write_back_rx(struct harness *h, unsigned length, bool eop)
{
    struct rx_device *d = &h->rx;
    if (!d->holds || length < 1 || length > SEGMENT)
        return false;
    for (unsigned k = 0; k < length; k++)
        bytes_of(h, d->buffer)[k] = stream_byte(d->bytes++);
    h->rx_ring[d->use][0] = 0;
    h->rx_ring[d->use][1] = RX_DD | (eop ? RX_EOP : 0) | (uint64_t)length << RX_LENGTH_AT;
    show_descriptor(h, "rx back", &h->rx_ring[d->use], "dd 1 eop %d length %u", eop, length);
    add_note(add_move(h, "r0 A5 %u %d", length, eop), "place %u", d->use);
    d->written[d->use].length = length;
    d->written[d->use].eop = eop;
    d->use = place_after(h, d->use);
    d->holds = false;
    d->in_frame = !eop;
    h->counts.stored += eop;
    return true;
}

bool store_rx_head(struct harness *h)
{
    if (!h->controls[RX].serves || h->rx.holds)
        return false;
    *reg(h, RDH) = h->rx.use;
    add_note(add_move(h, "r0 A7"), "head %u", h->rx.use);
    return true;
}

bool load_tx_tail(struct harness *h)
{
    if (!h->controls[TX].serves)
        return false;
    h->tx.known = *reg(h, TDT);
    add_note(add_move(h, "t0 B3"), "ready %u", places_between(h, h->tx.use, h->tx.known));
    return true;
}

bool fetch_tx(struct harness *h)
{
    struct tx_device *d = &h->tx;
    if (!h->controls[TX].serves || d->holds || d->owes || d->known == d->use)
        return false;
    if (!read_tx(h, d->use, &d->held))
        fault(h, "the device fetched transmit descriptor %u: %016lx %016lx", d->use, h->tx_ring[d->use][0], h->tx_ring[d->use][1]);
    d->holds = true;
    add_note(add_move(h, "t0 B4"), "place %u buffer %u length %u eop %d rs %d", d->use, h->numbers[d->held.buffer], d->held.length,
        d->held.eop, d->held.rs);
    return true;
}

static void check_sent(struct harness *h)
{
    struct tx_device *d = &h->tx;
    for (unsigned k = 0; k < d->held.length; k++, d->bytes++)
        if (bytes_of(h, d->held.buffer)[k] != stream_byte(d->bytes))
            fault(h, "byte %lu on the wire is wrong", d->bytes);
    if (!d->held.eop)
        return;
    if (d->bytes - d->began != d->held.paylen)
        fault(h, "PAYLEN is %u in a frame of %lu bytes", d->held.paylen, d->bytes - d->began);
    d->began = d->bytes;
    h->counts.sent++;
}

bool send_tx(struct harness *h)
{
    struct tx_device *d = &h->tx;
    if (!d->holds)
        return false;
    check_sent(h);
    d->owes = d->held.rs;
    d->due = d->use;
    d->use = place_after(h, d->use);
    d->holds = false;
    d->in_frame = !d->held.eop;
    *reg(h, TDH) = d->use;
    add_note(add_move(h, "t0 B5"), "head %u", d->use);
    return true;
}

bool report_tx(struct harness *h)
{
    struct tx_device *d = &h->tx;
    if (!d->owes)
        return false;
    h->tx_ring[d->due][0] = 0;
    h->tx_ring[d->due][1] = TX_DD;
    d->reported[d->due] = true;
    d->owes = false;
    show_descriptor(h, "tx back", &h->tx_ring[d->due], "dd 1");
    add_note(add_move(h, "t0 B6"), "place %u", d->due);
    return true;
}

device_step *device_step_of(const char *move)
{
    static const struct {
        const char *move;
        device_step *step;
    } STEPS[] = {
        {"r0 A3", load_rx_tail}, {"r0 A4", fetch_rx}, {"r0 A7", store_rx_head},
        {"t0 B3", load_tx_tail}, {"t0 B4", fetch_tx}, {"t0 B5", send_tx}, {"t0 B6", report_tx},
    };
    for (size_t k = 0; k < sizeof STEPS / sizeof *STEPS; k++)
        if (strcmp(move, STEPS[k].move) == 0)
            return STEPS[k].step;
    return 0;
}

void add_control_move(struct harness *h, enum direction way, const char *kind)
{
    add_note(add_move(h, "%c0 %s", way == RX ? 'r' : 't', kind), "control %u", h->controls[way].word);
}

void load_control(struct harness *h, enum direction way)
{
    h->controls[way].seen = h->controls[way].word;
    add_control_move(h, way, "C2");
}

/* Answers the request that it loaded, 1 or 3. */
void answer(struct harness *h, enum direction way)
{
    struct control *c = &h->controls[way];
    volatile uint32_t *control = reg(h, way == RX ? RXDCTL : TXDCTL);
    c->serves = c->seen == 1;
    c->word = c->seen = c->serves ? 2 : 0;
    *control = c->serves ? *control | ENABLE : *control & ~ENABLE;
    add_control_move(h, way, "C3");
}
