#!/usr/bin/env python3
"""An independent model of a receive and a transmit queue: registers, 16-byte descriptors in memory, and the driver's state.
It shares no code with the crates and exists to be tested by move lists.

    ring.py [--ring N] [--pairs N] [--off] [--head] < LISTS

LISTS are move lists as `schedules --expect` prints them: each ends with a line '# end' and is followed by the expected
output. The model makes the moves of each list on new queues and compares its output line by line. It prints how many
lists agreed, or the first difference. Exit status: 0 or 1.
"""
import argparse, struct, sys

OFF, SERVING, ENDED = "off", "serving", "ended"
OPEN, LIVE = ("New", "Asked", "On"), ("On", "Stopping")


class NotNow(Exception):
    """The step is not possible now."""


def need(*conditions):
    if not all(conditions):
        raise NotNow


class Queue:
    """The parts that both directions share. Places and registers count modulo the length of the ring."""

    def __init__(self, length, enabled):
        self.length = length
        self.memory = bytearray(16 * length)  # the descriptors
        self.head = self.tail = 0  # RDH and RDT, TDH and TDT
        self.control, self.seen = (2, 2) if enabled else (0, 0)  # the control word, and its value that the device last loaded or stored
        self.driver, self.device = ("On", SERVING) if enabled else ("New", OFF)
        self.fill = self.next = 0  # driver: where it posts, and where it takes or cleans
        self.buffers = [None] * length  # driver: the buffer that it posted at each place
        self.use = self.known = 0  # device: where it fetches, and the tail that it loaded last
        self.held = None  # the buffer that the device has fetched
        self.in_frame = False  # whether the last segment that was served did not end its frame

    def after(self, place):
        return (place + 1) % self.length

    def load(self, place):
        return struct.unpack_from("<QII", self.memory, 16 * place)

    def store(self, place, *parts):
        struct.pack_into("<QII", self.memory, 16 * place, *parts)

    def post_at_fill(self, buffer, *rest):
        need(self.driver in OPEN, self.after(self.fill) != self.next)
        place = self.fill
        self.store(place, buffer * 2048, *rest)
        self.buffers[place] = buffer
        self.fill = self.after(place)
        return f"place {place}"

    def publish(self):
        need(self.driver in OPEN)
        self.tail = self.fill
        return f"tail {self.tail}"

    def look(self, word):
        need(self.device == SERVING)
        self.known = self.tail
        return f"{word} {(self.known - self.use) % self.length}"

    def is_settled(self):
        return self.held is None and not self.in_frame and self.head == self.use

    def ask_enable(self):
        need(self.driver == "New")
        self.control, self.driver = 1, "Asked"
        return "control 1"

    def look_asked(self):
        self.seen = self.control
        return f"control {self.seen}"

    def answer(self):
        if self.seen == 1 and self.device != SERVING:
            self.control = self.seen = 2
            self.device = SERVING
            self.use = self.known = 0
            self.in_frame = False
        else:
            need(self.seen == 3, self.device == SERVING, self.is_settled())
            self.control = self.seen = 0
            self.device = ENDED
        return f"control {self.control}"

    def look_answered(self):
        if (self.driver, self.control) == ("Asked", 2):
            self.driver = "On"
        if (self.driver, self.control) == ("Stopping", 0):
            self.driver = "Stopped"
        return f"control {self.control}"

    def ask_disable(self):
        need(self.driver == "On")
        self.control, self.driver = 3, "Stopping"
        return "control 3"

    def take_back(self):
        buffer = self.buffers[self.next]
        self.next = self.after(self.next)
        return buffer

    def reclaim(self):
        need(self.driver == "Stopped", self.next != self.fill)
        return f"buffer {self.take_back()}"

    def clear_head(self):
        need(self.driver == "Stopped", self.next == self.fill)
        self.head, self.driver = 0, "Cleared"
        return "head 0"

    def clear_tail(self):
        need(self.driver == "Cleared")
        self.tail, self.driver = 0, "Tailed"
        return "tail 0"

    def renew(self):
        self.fill = self.next = 0
        self.driver = "New"

    STEPS = {"C1": ask_enable, "C2": look_asked, "C3": answer, "C4": look_answered, "C5": ask_disable, "C6": reclaim, "C9": clear_head}


class Receive(Queue):
    """A receive queue. A descriptor's status and length are written back into its second half (section 7.1.6.2)."""

    DD, EOP = 1, 2

    def __init__(self, length, enabled):
        super().__init__(length, enabled)
        self.quiet, self.still = 0, False

    def post(self, buffer):
        return self.post_at_fill(buffer, 0, 0)

    def look_free(self):
        return self.look("free")

    def fetch(self):
        need(self.device == SERVING, self.held is None, not self.still, self.known != self.use)
        self.held = self.load(self.use)[0] // 2048
        return f"place {self.use} buffer {self.held}"

    def write_back(self, length, eop):
        need(self.held is not None)
        place = self.use
        self.store(place, 0, self.DD | self.EOP * eop, length)
        self.use, self.held, self.in_frame = self.after(place), None, not eop
        return f"place {place}"

    def take(self):
        need(self.driver in LIVE, self.next != self.fill)
        _, status, length = self.load(self.next)
        if not status & self.DD:
            return "none"
        return f"buffer {self.take_back()} length {length & 0xFFFF} eop {int(bool(status & self.EOP))}"

    def set_head(self):
        need(self.device == SERVING, self.held is None)
        self.head = self.use
        return f"head {self.head}"

    def answer(self):
        said = super().answer()
        if self.device == SERVING:
            self.still = False
        return said

    def say_quiet(self):
        need(self.device == SERVING, self.held is None, not self.in_frame)
        self.quiet, self.still = 1, True
        return "quiet 1"

    def load_quiet(self):
        return f"quiet {self.quiet}"

    def clear_quiet(self):
        need(self.driver == "Tailed")
        self.quiet = 0
        self.renew()
        return "quiet 0"

    STEPS = {**Queue.STEPS, "A1": post, "A2": Queue.publish, "A3": look_free, "A4": fetch, "A5": write_back, "A6": take, "A7": set_head,
        "C3": answer, "C7": say_quiet, "C8": load_quiet, "C10": Queue.clear_tail, "C11": clear_quiet}


class Transmit(Queue):
    """A transmit queue. It reports by DD in the descriptors that have RS (section 7.2.3.2.4), or by a head word in memory."""

    EOP, RS, DD = 1 << 24, 1 << 27, 1
    DATA = 3 << 20 | 1 << 25 | 1 << 29  # an advanced data descriptor, with IFCS

    def __init__(self, length, enabled, by_head):
        super().__init__(length, enabled)
        self.by_head, self.head_word = by_head, 0
        self.owed = None  # the place that the device still has to report
        self.is_open = False  # whether the last posting does not end its frame
        self.asked = []  # driver: the places with RS that it has not seen reported
        self.cleanable = 0  # driver: how many buffers it may clean

    def post(self, buffer, length, eop, rs, paylen):
        place = self.fill
        said = self.post_at_fill(buffer, self.DATA | length | self.EOP * eop | self.RS * rs, paylen << 14)
        self.is_open = not eop
        if rs:
            self.asked.append(place)
        return said

    def publish_frames(self):
        need(not self.is_open)
        return self.publish()

    def look_ready(self):
        return self.look("ready")

    def fetch(self):
        need(self.device == SERVING, self.held is None, self.owed is None, self.known != self.use)
        address, command, _ = self.load(self.use)
        self.held = address // 2048, bool(command & self.EOP), bool(command & self.RS)
        return f"place {self.use} buffer {self.held[0]} length {command & 0xFFFF} eop {int(self.held[1])} rs {int(self.held[2])}"

    def send(self):
        need(self.held is not None)
        _, eop, rs = self.held
        if rs:
            self.owed = self.use
        self.use, self.held, self.in_frame = self.after(self.use), None, not eop
        self.head = self.use
        return f"head {self.head}"

    def report(self):
        need(self.owed is not None)
        place, self.owed = self.owed, None
        if self.by_head:
            self.head_word = self.after(place)
            return f"head {self.head_word}"
        address, command, status = self.load(place)
        self.store(place, address, command, status | self.DD)
        return f"place {place}"

    def load_report(self):
        need(self.driver in LIVE, self.asked)
        place = self.asked[0]
        if self.by_head:
            done = (place - self.next) % self.length < (self.head_word - self.next) % self.length
        else:
            done = self.load(place)[2] & self.DD
        if not done:
            return "none"
        self.asked.pop(0)
        self.cleanable = (place - self.next) % self.length + 1
        return f"reported {place}"

    def clean(self):
        need(self.driver in LIVE, self.cleanable > 0)
        self.cleanable -= 1
        return f"buffer {self.take_back()}"

    def is_settled(self):
        return super().is_settled() and self.owed is None

    def clear_tail(self):
        said = super().clear_tail()
        if not self.by_head:
            self.renew()
        return said

    def clear_report(self):
        need(self.by_head, self.driver == "Tailed")
        self.head_word = 0
        self.renew()
        return "head 0"

    def renew(self):
        super().renew()
        self.asked, self.cleanable, self.is_open = [], 0, False

    STEPS = {**Queue.STEPS, "B1": post, "B2": publish_frames, "B3": look_ready, "B4": fetch, "B5": send, "B6": report, "B7": load_report,
        "B8": clean, "C10": clear_tail, "C12": clear_report}


def lists_in(lines):
    """The moves of each list, and its expected output."""
    moves, expected, ended = [], [], False
    for line in (it.rstrip("\n") for it in lines):
        if not ended:
            if line == "# end":
                ended = True
            elif line and not line.startswith("#"):
                moves.append(line)
            continue
        expected.append(line)
        if line.startswith("moves "):
            yield moves, expected
            moves, expected, ended = [], [], False
    if moves or ended:
        raise SystemExit("the last list has no end, or no expected output")


def replay(moves, queues):
    """The output of the moves: a line for each, and one with the number of moves made."""
    made = 0
    for move in moves:
        name, kind, *numbers = move.split(" ")
        queue = queues.get(name)
        step = queue.STEPS.get(kind) if queue else None
        try:
            need(step)
            yield f"{name} {kind} {step(queue, *map(int, numbers))}"
            made += 1
        except NotNow:
            yield f"{name} {kind} not enabled"
    yield f"moves {made} of {len(moves)}"


def main(receive=Receive, transmit=Transmit):
    ask = argparse.ArgumentParser(description=__doc__, formatter_class=argparse.RawDescriptionHelpFormatter)
    ask.add_argument("--ring", type=int, default=8)
    ask.add_argument("--pairs", type=int, default=1)
    ask.add_argument("--off", action="store_true")
    ask.add_argument("--head", action="store_true")
    given = ask.parse_args()
    count = 0
    for moves, expected in lists_in(sys.stdin):
        queues = {f"r{k}": receive(given.ring, not given.off) for k in range(given.pairs)}
        queues.update({f"t{k}": transmit(given.ring, not given.off, given.head) for k in range(given.pairs)})
        for at, (got, wanted) in enumerate(zip(replay(moves, queues), expected)):
            if got != wanted:
                print(f"list {count + 1}, move {at + 1}: '{got}' instead of '{wanted}'")
                return 1
        count += 1
    print(f"{count} lists agreed")
    return 0


if __name__ == "__main__":
    sys.exit(main())
