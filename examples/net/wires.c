/* Forwards between two Linux interfaces, in poll mode: what comes in at one port leaves at the other, unchanged. Packets move between the
 * queues without a copy. Each direction has a worker of its own, because a transmit queue posts a worker's oldest packets first. */
#include "port.h"

#include <stdio.h>
#include <unistd.h>

enum { DESCRIPTORS = 256, LEAST_RING = 8, MOST_RING = 4096, PORTS = 2 };

struct flow {
    struct port *from, *to;
    struct worker *worker;
};

/* One turn of a flow. */
static enum turn forward(struct flow *flow)
{
    size_t moved = port_take(flow->from, flow->worker);
    moved += port_post(flow->to, flow->worker);
    if (moved)
        return TURN_MOVED;
    return worker_packets(flow->worker) ? TURN_WAITING : TURN_IDLE;
}

static enum turn forward_both(void *context)
{
    struct flow *flows = context;
    enum turn one = forward(&flows[0]), other = forward(&flows[1]);
    return one > other ? one : other;
}

static bool open_all(struct driver *driver, struct flow flows[PORTS], char **names, const struct port_options *options)
{
    for (int k = 0; k < PORTS; k++) {
        struct port *port = port_open(driver, names[k], options);
        flows[k].from = flows[1 - k].to = port;
        flows[k].worker = port ? worker_new() : 0;
        if (!flows[k].worker)
            return false;
    }
    return true;
}

static bool close_all(struct driver *driver, struct flow flows[PORTS])
{
    bool whole = true;
    for (int k = 0; k < PORTS; k++)
        port_reclaim(flows[k].from, flows[k].worker, flows[1 - k].worker);
    whole &= driver_close(driver);
    for (int k = 0; k < PORTS; k++)
        whole &= worker_close(flows[k].worker);
    return whole;
}

static int usage(void)
{
    fprintf(stderr, "usage: wires [-r DESCRIPTORS] [-d] PORT PORT\n"
                    "  PORT  pkt:INTERFACE or tap:INTERFACE, with @NAMESPACE if it is in another network namespace\n"
                    "  -r    descriptors of each ring: a power of two from 8 to 4,096 (256)\n"
                    "  -d    drop frames while too few descriptors are free; without it the interface's socket keeps them\n");
    return 2;
}

int main(int count, char **words)
{
    struct port_options options = {.descriptors = DESCRIPTORS};
    struct flow flows[PORTS] = {0};
    bool understood = true;
    int option;
    while ((option = getopt(count, words, "r:d")) != -1)
        switch (option) {
        case 'r': understood &= read_number(optarg, LEAST_RING, MOST_RING, &options.descriptors); break;
        case 'd': options.drop = true; break;
        default: understood = false;
        }
    if (!understood || count - optind != PORTS)
        return usage();
    struct driver *driver = driver_new();
    if (!driver || !open_all(driver, flows, words + optind, &options))
        return 1;
    driver_run(driver, forward_both, flows);
    return close_all(driver, flows) ? 0 : 1;
}
