#define _GNU_SOURCE
#include "link.h"

#include <arpa/inet.h>
#include <errno.h>
#include <fcntl.h>
#include <linux/if_packet.h>
#include <linux/if_tun.h>
#include <net/ethernet.h>
#include <net/if.h>
#include <sched.h>
#include <stdio.h>
#include <stdlib.h>
#include <string.h>
#include <sys/ioctl.h>
#include <sys/mman.h>
#include <sys/socket.h>
#include <unistd.h>

enum {
    SLOT = 16384,             /* holds a header and a frame of LINK_MOST_FRAME */
    SLOTS = 2048,
    BLOCK = 65536,            /* the kernel allocates the slots in blocks */
    TAG = 4,                  /* bytes of a VLAN tag, */
    TAG_AT = 12,              /* which follows the two addresses */
    SEND_WAIT_US = 10000,     /* how long a full send buffer delays the device */
    NAME_ROOM = 96,
};

#define SPACES "/var/run/netns/"

static bool fail(const struct link *link, const char *what)
{
    fprintf(stderr, "%s: %s: %s\n", link->name, what, strerror(errno));
    return false;
}

static bool open_tap(struct link *link)
{
    struct ifreq request = {.ifr_flags = IFF_TAP | IFF_NO_PI};
    memcpy(request.ifr_name, link->interface, sizeof link->interface);
    link->fd = open("/dev/net/tun", O_RDWR | O_NONBLOCK | O_CLOEXEC);
    if (link->fd < 0)
        return fail(link, "/dev/net/tun");
    if (ioctl(link->fd, TUNSETIFF, &request))
        return fail(link, "the TAP interface could not be made");
    link->slots = malloc(SLOT);
    return link->slots || fail(link, "memory");
}

/* The kernel writes incoming frames to slots in shared memory. Its socket buffer would be too small for a user without privileges. */
static bool open_packet(struct link *link)
{
    struct sockaddr_ll at = {.sll_family = AF_PACKET, .sll_protocol = htons(ETH_P_ALL)};
    struct packet_mreq all = {.mr_type = PACKET_MR_PROMISC};
    struct tpacket_req slots = {BLOCK, SLOTS / (BLOCK / SLOT), SLOT, SLOTS};
    struct timeval wait = {.tv_usec = SEND_WAIT_US};
    int version = TPACKET_V2, reserve = TAG, on = 1;
    at.sll_ifindex = all.mr_ifindex = (int)if_nametoindex(link->interface);
    if (!at.sll_ifindex)
        return fail(link, "interface");
    link->fd = socket(AF_PACKET, SOCK_RAW | SOCK_CLOEXEC, 0);
    if (link->fd < 0)
        return fail(link, "packet socket");
    const struct { int level, option; const void *value; socklen_t len; } options[] = {
        {SOL_PACKET, PACKET_VERSION, &version, sizeof version}, {SOL_PACKET, PACKET_RESERVE, &reserve, sizeof reserve},
        {SOL_PACKET, PACKET_IGNORE_OUTGOING, &on, sizeof on}, {SOL_PACKET, PACKET_QDISC_BYPASS, &on, sizeof on},
        {SOL_SOCKET, SO_SNDTIMEO, &wait, sizeof wait}, {SOL_PACKET, PACKET_RX_RING, &slots, sizeof slots},
        {SOL_PACKET, PACKET_ADD_MEMBERSHIP, &all, sizeof all},
    };
    for (size_t k = 0; k < sizeof options / sizeof *options; k++)
        if (setsockopt(link->fd, options[k].level, options[k].option, options[k].value, options[k].len))
            return fail(link, "an option of the packet socket");
    link->slots = mmap(0, (size_t)SLOT * SLOTS, PROT_READ | PROT_WRITE, MAP_SHARED, link->fd, 0);
    if (link->slots == MAP_FAILED) {
        link->slots = 0;
        return fail(link, "memory of the packet socket");
    }
    return bind(link->fd, (struct sockaddr *)&at, sizeof at) == 0 || fail(link, "packet socket");
}

static bool open_here(struct link *link)
{
    link->query = socket(AF_INET, SOCK_DGRAM | SOCK_CLOEXEC, 0);
    if (link->query < 0)
        return fail(link, "socket");
    return link->is_tap ? open_tap(link) : open_packet(link);
}

static bool open_in(struct link *link, const char *space)
{
    char path[sizeof SPACES + NAME_ROOM];
    snprintf(path, sizeof path, SPACES "%s", space);
    int here = open("/proc/self/ns/net", O_RDONLY | O_CLOEXEC), there = open(path, O_RDONLY | O_CLOEXEC);
    bool opened = here >= 0 && there >= 0 && setns(there, CLONE_NEWNET) == 0;
    if (!opened)
        fail(link, path);
    else {
        opened = open_here(link);
        if (setns(here, CLONE_NEWNET))
            opened = fail(link, "return to the first namespace");
    }
    if (here >= 0)
        close(here);
    if (there >= 0)
        close(there);
    return opened;
}

bool link_open(struct link *link, const char *name)
{
    char words[NAME_ROOM], *interface, *space;
    *link = (struct link){.name = name, .fd = -1, .query = -1};
    int len = snprintf(words, sizeof words, "%s", name);
    interface = strchr(words, ':');
    if (interface)
        *interface++ = 0;
    space = interface ? strchr(interface, '@') : 0;
    if (space)
        *space++ = 0;
    link->is_tap = strcmp(words, "tap") == 0;
    bool known = link->is_tap || strcmp(words, "pkt") == 0;
    if (!known || len >= NAME_ROOM || !interface || !*interface || strlen(interface) >= sizeof link->interface) {
        fprintf(stderr, "%s: a port is pkt:INTERFACE or tap:INTERFACE, and may end with @NAMESPACE\n", name);
        return false;
    }
    memcpy(link->interface, interface, strlen(interface));
    return space ? open_in(link, space) : open_here(link);
}

void link_close(struct link *link)
{
    if (link->slots && link->is_tap)
        free(link->slots);
    else if (link->slots)
        munmap(link->slots, (size_t)SLOT * SLOTS);
    if (link->query >= 0)
        close(link->query);
    if (link->fd >= 0)
        close(link->fd);
    link->slots = 0;
    link->query = link->fd = -1;
}

static struct tpacket2_hdr *slot(const struct link *link) { return (struct tpacket2_hdr *)(link->slots + (size_t)link->next * SLOT); }

/* Puts the VLAN tag, which Linux stores in the header of the slot, back into the frame. */
static void put_tag(struct tpacket2_hdr *head)
{
    uint8_t *frame = (uint8_t *)head + head->tp_mac - TAG;
    uint16_t tag[] = {htons(head->tp_status & TP_STATUS_VLAN_TPID_VALID ? head->tp_vlan_tpid : ETH_P_8021Q), htons(head->tp_vlan_tci)};
    memmove(frame, frame + TAG, TAG_AT);
    memcpy(frame + TAG_AT, tag, TAG);
    head->tp_mac = (uint16_t)(head->tp_mac - TAG);
    head->tp_len += TAG;
    head->tp_snaplen += TAG;
    head->tp_status &= ~(uint32_t)TP_STATUS_VLAN_VALID;
}

static bool peek_packet(struct link *link, const uint8_t **frame, size_t *len)
{
    struct tpacket2_hdr *head = slot(link);
    uint32_t status = __atomic_load_n(&head->tp_status, __ATOMIC_ACQUIRE);
    if (!(status & TP_STATUS_USER))
        return false;
    if (status & TP_STATUS_VLAN_VALID)
        put_tag(head);
    if ((status & TP_STATUS_CSUMNOTREADY) && !link->warned) {
        link->warned = true;
        fprintf(stderr, "%s: frames arrive without checksum; turn off the sender's offloads with ethtool -K INTERFACE tx off\n", link->name);
    }
    *frame = (uint8_t *)head + head->tp_mac;
    *len = head->tp_len;
    return true;
}

static bool peek_tap(struct link *link, const uint8_t **frame, size_t *len)
{
    if (!link->pending) {
        ssize_t got = read(link->fd, link->slots, SLOT);
        if (got <= 0)
            return false;
        link->pending = (size_t)got;
    }
    *frame = link->slots;
    *len = link->pending;
    return true;
}

bool link_peek(struct link *link, const uint8_t **frame, size_t *len)
{
    return link->is_tap ? peek_tap(link, frame, len) : peek_packet(link, frame, len);
}

void link_pass(struct link *link)
{
    if (link->is_tap) {
        link->pending = 0;
        return;
    }
    __atomic_store_n(&slot(link)->tp_status, TP_STATUS_KERNEL, __ATOMIC_RELEASE);
    link->next = (link->next + 1) % SLOTS;
}

static void refuse(struct link *link, int error)
{
    static const char *const words[REFUSALS] = {"the interface is down", "a frame is longer than the interface's MTU",
                                                "the interface's queue is full", "the interface refuses a frame"};
    enum refusal why = REFUSED_OTHER;
    switch (error) {
    case ENETDOWN: case ENXIO: case ENODEV: case EIO: why = REFUSED_DOWN; break;
    case EMSGSIZE: why = REFUSED_LONG; break;
    case ENOBUFS: case EAGAIN: why = REFUSED_FULL; break;
    }
    if (!link->refused[why]++)
        fprintf(stderr, "%s: %s: %s; further frames are only counted\n", link->name, words[why], strerror(error));
}

void link_write(struct link *link, struct iovec *frames, unsigned count)
{
    struct mmsghdr heads[LINK_BURST] = {0};
    for (unsigned k = 0; k < count; k++)
        heads[k].msg_hdr = (struct msghdr){.msg_iov = &frames[k], .msg_iovlen = 1};
    for (unsigned done = 0; done < count;) {
        int sent = link->is_tap ? (write(link->fd, frames[done].iov_base, frames[done].iov_len) < 0 ? -1 : 1)
                                : sendmmsg(link->fd, heads + done, count - done, 0);
        if (sent > 0) {
            link->written += (unsigned)sent;
            done += (unsigned)sent;
        } else if (errno != EINTR) {
            refuse(link, errno);
            done++;
        }
    }
}

static enum link_state state_of(const struct link *link)
{
    struct ifreq request = {0};
    memcpy(request.ifr_name, link->interface, sizeof link->interface);
    if (ioctl(link->query, SIOCGIFFLAGS, &request))
        return LINK_GONE;
    return request.ifr_flags & IFF_UP ? LINK_UP : LINK_DOWN;
}

enum link_state link_check(struct link *link)
{
    static const char *const words[] = {"up", "down", "gone"};
    struct tpacket_stats stats;
    socklen_t len = sizeof stats;
    int error;
    if (!link->is_tap && !getsockopt(link->fd, SOL_PACKET, PACKET_STATISTICS, &stats, &len) && stats.tp_drops) {
        if (!link->missed)
            fprintf(stderr, "%s: frames are lost, because all slots of the packet socket are full; further ones are only counted\n", link->name);
        link->missed += stats.tp_drops; /* reading clears them */
    }
    len = sizeof error;
    getsockopt(link->fd, SOL_SOCKET, SO_ERROR, &error, &len); /* clears the error of an interface that went down, which would end each sleep */
    enum link_state state = link->state == LINK_GONE ? LINK_GONE : state_of(link);
    if (state != link->state)
        fprintf(stderr, "%s: the interface is %s\n", link->name, words[state]);
    return link->state = state;
}
