/* A link is a Linux interface as a source and a sink of frames. Its name is KIND:INTERFACE[@NAMESPACE].
 *
 * KIND `pkt` is a packet socket on an existing interface, such as one end of a veth pair. KIND `tap` makes a TAP interface, which
 * disappears with the program. NAMESPACE is the name of a network namespace, as `ip netns` lists it. */
#ifndef LINK_H
#define LINK_H

#include <stdbool.h>
#include <stddef.h>
#include <stdint.h>
#include <sys/uio.h>

/* Why an interface refused a frame. */
enum refusal { REFUSED_DOWN, REFUSED_LONG, REFUSED_FULL, REFUSED_OTHER, REFUSALS };

/* What is known of the interface. A link that is gone does not come back. */
enum link_state { LINK_UP, LINK_DOWN, LINK_GONE };

struct link {
    const char *name;
    int fd;                  /* readable when there is a frame */
    int query;               /* a socket in the interface's namespace, for questions about the interface */
    char interface[16];
    enum link_state state;
    uint8_t *slots;          /* pkt: the kernel writes frames here. tap: one frame */
    unsigned next;           /* pkt: the slot of the next frame */
    size_t pending;          /* tap: the length of a frame that was read and not passed, or 0 */
    bool is_tap;
    bool warned;             /* of frames without checksum */
    uint64_t missed;         /* frames that the kernel had no slot for */
    uint64_t written, refused[REFUSALS];
};

/* Opens the interface, and returns to the caller's namespace. After false the reason is on standard error. */
bool link_open(struct link *link, const char *name);
void link_close(struct link *link);

/* Looks at the next frame. Returns false if there is none. The bytes belong to the link, and stay until link_pass. A frame of more bytes than
 * LINK_MOST_FRAME may be cut, but `len` is then above LINK_MOST_FRAME. */
enum { LINK_MOST_FRAME = 15000 };
bool link_peek(struct link *link, const uint8_t **frame, size_t *len);
void link_pass(struct link *link);

/* Writes the frames, at most LINK_BURST. A frame that the interface refuses is counted, and the first one for each reason is reported. */
enum { LINK_BURST = 32 };
void link_write(struct link *link, struct iovec *frames, unsigned count);

/* Asks Linux for the state of the interface and for the frames that it missed, and reports a change of the state. */
enum link_state link_check(struct link *link);

#endif
