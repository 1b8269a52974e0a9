#include "harness.h"

#include <errno.h>
#include <stdarg.h>
#include <stdlib.h>
#include <string.h>

static const char USAGE[] =
    "usage: harness [--OPTION=VALUE ..]\n"
    "\n"
    "  receive, transmit       names of the driver's functions [ixgbe_recv_pkts, ixgbe_xmit_pkts]\n"
    "  ring                    descriptors per ring, a power of two from 64 to 4,096 [64]\n"
    "  refill, report, clean   rx_free_thresh, tx_rs_thresh, tx_free_thresh [32 each]\n"
    "  seed, turns, epochs     of a run with random steps; an epoch starts and stops the queues [1, 2000, 1]\n"
    "  step                    the device steps after about one of so many instructions of the driver [0: never]\n"
    "  bug                     is planted into the driver\n"
    "  descriptors             a file that shows each descriptor that is posted or written back; not with step\n"
    "  follow                  1: follow the lists of moves on standard input, for enabled queues [0]\n"
    "\n"
    "Prints what driver and device did in the form of `schedules --expect`. Exit status 1 if they do not fit together.\n";

void fail(const char *form, ...)
{
    va_list rest;
    va_start(rest, form);
    fputs("harness: ", stderr);
    vfprintf(stderr, form, rest);
    fputc('\n', stderr);
    exit(2);
}

void fault(const struct harness *h, const char *form, ...)
{
    va_list rest;
    print_list(h);
    va_start(rest, form);
    fputs("fault: ", stderr);
    vfprintf(stderr, form, rest);
    fputc('\n', stderr);
    exit(1);
}

/* Allocates nothing: it runs between the driver's instructions too. */
struct line *add_move(struct harness *h, const char *form, ...)
{
    va_list rest;
    if (h->count == MOST_MOVES)
        fail("more than %d moves; ask for fewer turns", MOST_MOVES);
    va_start(rest, form);
    vsnprintf(h->lines[h->count].move, sizeof h->lines->move, form, rest);
    va_end(rest);
    h->lines[h->count].note[0] = 0;
    return &h->lines[h->count++];
}

void add_note(struct line *line, const char *form, ...)
{
    va_list rest;
    va_start(rest, form);
    vsnprintf(line->note, sizeof line->note, form, rest);
    va_end(rest);
}

void print_list(const struct harness *h)
{
    for (size_t k = 0; k < h->count; k++)
        puts(h->lines[k].move);
    puts("# end");
    for (size_t k = 0; k < h->count; k++) {
        const char *move = h->lines[k].move;
        printf("%.*s %s\n", (int)(strlen("r0 ") + strcspn(move + strlen("r0 "), " ")), move, h->lines[k].note);
    }
    printf("moves %zu of %zu\n", h->count, h->count);
}

/* Shows a descriptor's bytes and fields, if a file for them was asked for. */
void show_descriptor(const struct harness *h, const char *form, const descriptor *at, const char *fields, ...)
{
    va_list rest;
    if (!h->descriptors)
        return;
    fprintf(h->descriptors, "%s %016lx%016lx ", form, __builtin_bswap64((*at)[0]), __builtin_bswap64((*at)[1]));
    va_start(rest, fields);
    vfprintf(h->descriptors, fields, rest);
    va_end(rest);
    fputc('\n', h->descriptors);
}

static unsigned number_of(const char *word, const char *value, unsigned least, unsigned most)
{
    char *end;
    errno = 0;
    unsigned long number = strtoul(value, &end, 10);
    if (*value < '0' || *value > '9' || *end || errno || number < least || number > most)
        fail("%s: a number from %u to %u is expected", word, least, most);
    return (unsigned)number;
}

static bool set_option(struct options *o, const char *word)
{
    const struct {
        const char *name, **text;
        unsigned *number, least, most;
    } known[] = {
        {"--receive=", &o->receive, 0, 0, 0},
        {"--transmit=", &o->transmit, 0, 0, 0},
        {"--bug=", &o->bug, 0, 0, 0},
        {"--descriptors=", &o->descriptors, 0, 0, 0},
        {"--ring=", 0, &o->ring, LEAST_RING, MOST_PLACES},
        {"--refill=", 0, &o->refill, 0, MOST_PLACES},
        {"--report=", 0, &o->report, 1, MOST_PLACES},
        {"--clean=", 0, &o->clean, 1, MOST_PLACES},
        {"--seed=", 0, &o->seed, 0, UINT32_MAX},
        {"--turns=", 0, &o->turns, 1, MOST_MOVES},
        {"--epochs=", 0, &o->epochs, 1, MOST_MOVES},
        {"--step=", 0, &o->step, 0, MOST_MOVES},
        {"--follow=", 0, &o->follow, 0, 1},
    };
    for (size_t k = 0; k < sizeof known / sizeof *known; k++) {
        const char *value = word + strlen(known[k].name);
        if (strncmp(word, known[k].name, strlen(known[k].name)) != 0)
            continue;
        if (known[k].text)
            *known[k].text = value;
        else
            *known[k].number = number_of(word, value, known[k].least, known[k].most);
        return true;
    }
    return false;
}

int main(int count, char **words)
{
    static struct harness h = {.options = {.receive = "ixgbe_recv_pkts", .transmit = "ixgbe_xmit_pkts", .ring = 64, .refill = 32,
        .report = 32, .clean = 32, .seed = 1, .turns = 2000, .epochs = 1}};
    for (int k = 1; k < count; k++)
        if (!set_option(&h.options, words[k])) {
            fprintf(stderr, "%s", USAGE);
            return 2;
        }
    if (h.options.ring & (h.options.ring - 1))
        fail("--ring=%u: a power of two is expected", h.options.ring);
    h.random = h.options.seed;
    h.lines = calloc(MOST_MOVES, sizeof *h.lines);
    if (!h.lines)
        fail("out of memory");
    if (h.options.descriptors && (h.options.step || !(h.descriptors = fopen(h.options.descriptors, "w"))))
        fail("--descriptors=%s: it cannot be written, or not with --step", h.options.descriptors);
    set_up(&h);
    if (h.options.bug)
        plant(h.options.bug);
    if (h.options.follow)
        follow_lists(&h);
    else
        run_traffic(&h);
    fprintf(stderr, "%lu calls; frames stored %lu, taken %lu, posted %lu, sent %lu", h.counts.calls, h.counts.stored, h.counts.taken,
        h.counts.posted, h.counts.sent);
    if (h.counts.instructions)
        fprintf(stderr, "; %lu instructions with %lu moves between them", h.counts.instructions, h.counts.between);
    fputc('\n', stderr);
    if (h.descriptors && fclose(h.descriptors) != 0)
        fail("--descriptors=%s: the file cannot be written", h.options.descriptors);
    free(h.lines);
    return rte_eal_cleanup() == 0 ? 0 : 1;
}
