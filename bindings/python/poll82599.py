"""Receive and transmit rings of the Intel 82599 between threads, over the proved library poll82599.

An emulator's test in ten lines, with the device in the hands of the test:

    from poll82599 import ON, Packets, RxQueue
    queue, device = RxQueue(64)
    packets = Packets(128)
    queue.enable()                          # the driver asks,
    assert device.control() == ON           # the device answers,
    assert queue.enable()                   # and the driver sees it
    queue.batch(packets)                    # posts the first buffers
    assert device.offer(bytes(60)) == "stored"
    assert queue.batch(packets) == 1
    assert packets.copy(0) == bytes(60)

The module loads libpoll82599.so.0 from the folder that the environment variable POLL82599_DIR names, which `./library FOLDER` or
`./run --install PREFIX` has filled, or else from where the system looks. docs/LIBRARY.md of the repository describes each call.
Calls release the interpreter lock, so the two ends of a ring can be in two threads. These wrappers are not proved, but tested.
"""
import ctypes
import os
from ctypes import POINTER, Structure, byref, c_int32, c_int64, c_size_t, c_uint8, c_uint16, c_uint32, c_uint64, c_void_p

OFF, ENABLE_ASKED, ON, DISABLE_ASKED = range(4)
BUFFER_BYTES, MOST_FRAME = 2048, 15_000


class Refused(Exception):
    """A call refused: `why` names the reason, such as "not on"."""

    def __init__(self, why):
        super().__init__(why)
        self.why = why


class _Handle(Structure):
    _fields_ = [("end", c_void_p)]


class _Call(Structure):
    _fields_ = [("operation", c_uint32), ("answer", c_uint32), ("count", c_size_t)]


class _Offered(Structure):
    _fields_ = [(name, c_uint64) for name in ("offered", "stored", "dropped", "oversize")]


class _Descriptor(Structure):
    _fields_ = [(name, c_uint32) for name in ("number", "len", "eop", "rs", "paylen")]


class _Plan(Structure):
    _fields_ = [(name, c_uint32) for name in ("pairs", "descriptors", "enabled", "by_head", "json")]


class _Moved(Structure):
    _fields_ = [("needed", c_uint64), ("line", c_uint64)]


def _loaded():
    folder = os.environ.get("POLL82599_DIR")
    library = ctypes.CDLL(os.path.join(folder, "lib", "libpoll82599.so.0") if folder else "libpoll82599.so.0")
    handle, size = POINTER(_Handle), c_size_t
    read, write = ctypes.c_char_p, POINTER(c_uint8)
    prototypes = {
        "rx_new": (c_int32, c_uint32, c_uint32, handle, handle),
        "rx_post": (c_uint32, handle),
        "rx_poll": (c_uint32, handle, write, size, POINTER(c_uint32), POINTER(c_uint32)),
        "rx_drive": (None, handle, POINTER(_Call)),
        "rx_store_segment": (c_uint32, handle, read, size, c_uint32),
        "rx_answer": (c_uint32, handle),
        "rx_set_quiet": (c_uint32, handle),
        "rx_close": (c_int64, handle, handle),
        "tx_new": (c_int32, c_uint32, c_uint32, c_uint32, handle, handle),
        "tx_post_segment": (c_uint32, handle, read, size, c_uint32, c_uint32, c_uint32),
        "tx_clean": (c_uint32, handle),
        "tx_drive": (None, handle, POINTER(_Call)),
        "tx_send": (c_uint32, handle, write, size, POINTER(c_uint32), POINTER(c_uint32)),
        "tx_answer": (c_uint32, handle),
        "tx_close": (c_int64, handle, handle),
        "packets_new": (c_int32, c_uint32, handle),
        "packets_put": (c_uint32, handle, read, size),
        "packets_append": (c_uint32, handle, read, size),
        "packet_move": (c_uint32, handle, size, handle),
        "packet_read": (c_uint32, handle, size, size, write, size),
        "packet_write": (c_uint32, handle, size, size, read, size),
        "packet_copy": (c_uint32, handle, size, write, size, POINTER(size)),
        "packet_touch": (c_uint32, handle, size, size, c_uint8),
        "packet_free": (c_uint32, handle, size),
        "packet_measure": (c_uint32, handle, size, POINTER(size), POINTER(size)),
        "packets_measure": (c_uint32, handle, POINTER(size), POINTER(size)),
        "packets_close": (size, handle),
        "pool_new": (c_int32, c_uint32, handle),
        "pool_move": (None, handle, handle, POINTER(_Call)),
        "pool_count": (size, handle),
        "pool_close": (size, handle),
        "counters_new": (c_int32, handle),
        "counters_reader": (c_int32, handle, handle),
        "counters_set": (c_uint32, handle, size, c_uint64),
        "counters_get": (c_uint32, handle, size, POINTER(c_uint64)),
        "counters_close": (c_int64, handle),
        "rx_queue_new": (c_int32, c_uint32, size, size, c_uint32, handle, handle),
        "rx_queue_batch": (c_uint32, handle, handle, POINTER(size), POINTER(size)),
        "rx_queue_reclaim": (c_uint32, handle, handle, POINTER(size)),
        "rx_queue_do": (None, handle, POINTER(_Call)),
        "offer": (c_uint32, handle, read, size),
        "rx_device_control": (c_uint32, handle),
        "rx_device_finish": (c_uint32, handle),
        "rx_device_count": (c_uint32, handle, POINTER(_Offered)),
        "rx_queue_close": (c_int64, handle, handle),
        "tx_queue_new": (c_int32, c_uint32, c_uint16, c_uint32, handle, handle),
        "tx_queue_batch": (c_uint32, handle, handle, POINTER(size), POINTER(size)),
        "tx_queue_clean": (c_uint32, handle, handle, POINTER(size)),
        "tx_queue_reclaim": (c_uint32, handle, handle, POINTER(size)),
        "tx_queue_do": (None, handle, POINTER(_Call)),
        "turn": (c_uint32, handle, write, size, POINTER(size)),
        "tx_device_control": (c_uint32, handle),
        "tx_queue_close": (c_int64, handle, handle),
        "decode": (c_uint32, c_uint32, read, size, POINTER(_Descriptor)),
        "encode": (c_uint32, c_uint32, POINTER(_Descriptor), write, size),
        "moves": (c_uint32, POINTER(_Plan), read, size, write, size, POINTER(_Moved)),
        "once": (c_uint32, read, size, write, size),
    }
    calls = {}
    for name, (result, *arguments) in prototypes.items():
        calls[name] = getattr(library, f"poll82599_{name}")
        calls[name].restype, calls[name].argtypes = result, arguments
    return calls


_calls = _loaded()
_made = {1: "the number of descriptors is not a power of two from 8 to 4,096", 2: "memory", 3: "the number of buffers is not 16 to 256, or of a pool 16 to 65,536",
         4: "a setting is out of range", 5: "a handle is in use"}


def _done(answer, **refusals):
    """Whether a call that answers 1 or 0 did something. The other answers are refusals, as in `_2="unfit"`."""
    if answer in (0, 1):
        return answer == 1
    if answer == 0xFFFFFFFF:
        raise Refused("closed")
    raise Refused(refusals.get(f"_{answer}", f"answer {answer}"))


def _room(size):
    return (c_uint8 * max(size, 1))()


class _Pair:
    """The handles of both ends of a ring, and how it is closed."""

    def __init__(self, kind, *arguments):
        self.driver, self.device, self.close = _Handle(), _Handle(), _calls[f"{kind}_close"]
        refusal = _calls[f"{kind}_new"](*arguments, byref(self.driver), byref(self.device))
        if refusal:
            raise Refused(_made[refusal])

    def __del__(self):
        if hasattr(self, "device"):
            self.close(byref(self.driver), byref(self.device))


def close(driver, device):
    """Closes the two ends of one ring, and returns how many buffers lay in it. Dropping both ends frees the ring as well."""
    if driver._pair is not device._pair:
        raise Refused("these are ends of two rings")
    in_ring = driver._pair.close(byref(driver._pair.driver), byref(driver._pair.device))
    if in_ring < 0:
        raise Refused("closed")
    return in_ring


def _handed(call, handle, **refusals):
    """The segment that a call hands out, as its bytes and EOP, or None if there is none."""
    room, count, eop = _room(BUFFER_BYTES), c_uint32(), c_uint32()
    answer = _calls[call](byref(handle), room, len(room), byref(count), byref(eop))
    return (bytes(room[: count.value]), bool(eop.value)) if _done(answer, **refusals) else None


class _Driver:
    """The calls that drivers of both directions have. Each returns whether it was done."""

    def __init__(self, pair):
        self._pair = pair

    def set_tail(self):
        return _done(self._step(0).answer)

    def ask_enable(self):
        return _done(self._step(1).answer)

    def state(self):
        """Loads the control word: OFF, ENABLE_ASKED, ON or DISABLE_ASKED."""
        return self._step(2).answer

    def ask_disable(self):
        return _done(self._step(3).answer)

    def reclaim(self):
        return _done(self._step(4).answer, _2="not disabled")

    def renew(self):
        return _done(self._step(5).answer)

    def _left(self):
        call = self._step(6)
        return call.count if _done(call.answer, _2="not disabled") else None

    def _step(self, operation):
        call = _Call(operation=operation)
        _calls[self._DRIVE](byref(self._pair.driver), byref(call))
        return call


class RxDriver(_Driver):
    _DRIVE = "rx_drive"

    def post(self):
        return _done(_calls["rx_post"](byref(self._pair.driver)))

    def poll(self):
        """The next segment, as its bytes and EOP, or None if it is not there yet."""
        return _handed("rx_poll", self._pair.driver, _2="nothing posted", _3="not on")

    def is_quiet(self):
        return _done(self._step(7).answer)

    def untaken(self):
        """How many segments were stored and not taken, or None once a buffer was reclaimed."""
        return self._left()


class RxController:
    def __init__(self, pair):
        self._pair = pair

    def answer(self):
        return _done(_calls["rx_answer"](byref(self._pair.device)))

    def store(self, segment, eop=True):
        """Stores a segment. False: no descriptor is free."""
        segment = bytes(segment)
        return _done(_calls["rx_store_segment"](byref(self._pair.device), segment, len(segment), eop), _2="unfit", _3="not on")

    def set_quiet(self):
        return _done(_calls["rx_set_quiet"](byref(self._pair.device)))


class TxDriver(_Driver):
    _DRIVE = "tx_drive"

    def post(self, segment, eop=True, rs=True, paylen=None):
        """Posts a segment of a frame of `paylen` bytes, by default one that is the whole frame. False: no room now."""
        segment = bytes(segment)
        paylen = len(segment) if paylen is None else paylen
        return _done(_calls["tx_post_segment"](byref(self._pair.driver), segment, len(segment), eop, rs, paylen), _2="unfit")

    def poll_report(self):
        return _done(self._step(7).answer)

    def clean(self):
        return _done(_calls["tx_clean"](byref(self._pair.driver)))

    def unsent(self):
        """How many segments were posted and not sent."""
        return self._left()


class TxController:
    def __init__(self, pair):
        self._pair = pair

    def answer(self):
        return _done(_calls["tx_answer"](byref(self._pair.device)))

    def send(self):
        """The next segment, as its bytes and EOP, or None if none is ready."""
        return _handed("tx_send", self._pair.device, _3="not on")


class Packets:
    """A worker's packets: its empty buffers, and a list of up to 32 packets, named by their places from 0."""

    def __init__(self, buffers=256):
        self._handle = _Handle()
        refusal = _calls["packets_new"](buffers, byref(self._handle))
        if refusal:
            raise Refused(_made[refusal])

    def __del__(self):
        _calls["packets_close"](byref(self._handle))

    def __len__(self):
        return self._counted()[0]

    def empty_buffers(self):
        return self._counted()[1]

    def put(self, frame):
        frame = bytes(frame)
        return _done(_calls["packets_put"](byref(self._handle), frame, len(frame)), _2="unfit")

    def append(self, piece):
        """Appends a segment of 1 to 2,048 bytes to the last packet."""
        piece = bytes(piece)
        return _done(_calls["packets_append"](byref(self._handle), piece, len(piece)), _2="unfit")

    def copy(self, packet):
        """The bytes of a packet, or None if there is no such packet."""
        room = _room(MOST_FRAME)
        count = c_size_t()
        answer = _calls["packet_copy"](byref(self._handle), packet, room, len(room), byref(count))
        return bytes(room[: count.value]) if _done(answer) else None

    def read(self, packet, at, count):
        """Bytes of a packet from `at` on, or None if there is no such packet, or it ends before the range."""
        room = _room(count)
        return bytes(room[:count]) if _done(_calls["packet_read"](byref(self._handle), packet, at, room, count)) else None

    def write(self, packet, at, piece):
        """Replaces the bytes of a packet from `at` on."""
        piece = bytes(piece)
        return _done(_calls["packet_write"](byref(self._handle), packet, at, piece, len(piece)))

    def length(self, packet):
        """How many bytes a packet has, and in how many buffers; or None if there is no such packet."""
        count, segments = c_size_t(), c_size_t()
        answer = _calls["packet_measure"](byref(self._handle), packet, byref(count), byref(segments))
        return (count.value, segments.value) if _done(answer) else None

    def touch(self, packet, at, byte):
        return _done(_calls["packet_touch"](byref(self._handle), packet, at, byte))

    def free(self, packet):
        return _done(_calls["packet_free"](byref(self._handle), packet), _2="stash full")

    def move(self, packet, other):
        """Moves a packet, with its buffers, behind the packets of another worker."""
        if other is self:
            raise ValueError("a packet moves to another worker")
        return _done(_calls["packet_move"](byref(self._handle), packet, byref(other._handle)))

    def refill(self, pool):
        """Takes empty buffers from a pool until the worker has 256 or the pool is empty. Returns how many."""
        return self._supplied(pool, _Call(operation=0))

    def give_back(self, pool, wanted):
        """Returns up to `wanted` empty buffers to a pool. Returns how many."""
        return self._supplied(pool, _Call(operation=1, count=wanted))

    def _supplied(self, pool, call):
        _calls["pool_move"](byref(self._handle), byref(pool._handle), byref(call))
        return call.count if _done(call.answer) else 0

    def _counted(self):
        """The numbers of packets and of empty buffers."""
        count, empty = c_size_t(), c_size_t()
        _calls["packets_measure"](byref(self._handle), byref(count), byref(empty))
        return count.value, empty.value


class Pool:
    """A pool of 16 to 65,536 empty buffers, from which workers refill. Threads share it under a lock."""

    def __init__(self, buffers):
        self._handle = _Handle()
        refusal = _calls["pool_new"](buffers, byref(self._handle))
        if refusal:
            raise Refused(_made[refusal])

    def __del__(self):
        _calls["pool_close"](byref(self._handle))

    def __len__(self):
        return _calls["pool_count"](byref(self._handle))


class Counters:
    """Eight counters, which one thread writes. Other threads read them, each by a reader of its own."""

    def __init__(self):
        self._handle = _Handle()
        refusal = _calls["counters_new"](byref(self._handle))
        if refusal:
            raise Refused(_made[refusal])

    def __del__(self):
        _calls["counters_close"](byref(self._handle))

    def set(self, at, number):
        """Writes a counter. False: `at` is not below 8, or the counter is above the number."""
        return _done(_calls["counters_set"](byref(self._handle), at, number))

    def reader(self):
        reader = CounterReader.__new__(CounterReader)
        reader._handle = _Handle()
        refusal = _calls["counters_reader"](byref(self._handle), byref(reader._handle))
        if refusal:
            raise Refused(_made[refusal])
        return reader


class CounterReader:
    """Reads counters. None falls from one reading to the next. `Counters.reader` makes one."""

    def __del__(self):
        _calls["counters_close"](byref(self._handle))

    def get(self, at):
        """A counter, or None if `at` is not below 8."""
        number = c_uint64()
        return number.value if _done(_calls["counters_get"](byref(self._handle), at, byref(number))) else None


class _Queue:
    """The calls that queues of both directions have."""

    def __init__(self, pair):
        self._pair = pair

    def enable(self):
        """Asks for the queue to be enabled, if nothing was asked yet, and returns whether it is on."""
        return _done(self._step(0).answer, _2="not renewed")

    def disable(self):
        return _done(self._step(1).answer)

    def finish(self):
        """Once the disabling is answered: how many segments are left. None before, and afterwards."""
        call = self._step(2)
        return call.count if _done(call.answer) else None

    def renew(self):
        return _done(self._step(3).answer)

    def batch(self, packets):
        """Takes packets and posts empty buffers, or takes reported buffers back and posts packets. Returns how many packets it took
        or posted; `moved` is then how many empty buffers were posted or came back."""
        moved = c_size_t()
        answer, count = self._moved("batch", packets, byref(moved))
        self.moved = moved.value
        if not _done(answer, _3="too long"):
            raise Refused("not on")
        return count

    def reclaim(self, packets):
        """Takes back the buffers of a disabled queue. Returns how many, and whether these are all."""
        answer, count = self._moved("reclaim", packets)
        return count, _done(answer, _2="not disabled")

    def _step(self, operation):
        call = _Call(operation=operation)
        _calls[f"{self._kind}_do"](byref(self._pair.driver), byref(call))
        return call

    def _moved(self, call, packets, *more):
        count = c_size_t()
        answer = _calls[f"{self._kind}_{call}"](byref(self._pair.driver), byref(packets._handle), byref(count), *more)
        return answer, count.value


class _RxQueue(_Queue):
    _kind = "rx_queue"

    def is_quiet(self):
        return _done(self._step(4).answer)


class _TxQueue(_Queue):
    _kind = "tx_queue"

    def outstanding(self):
        """How many segments were posted whose buffers have not come back."""
        return self._step(4).count

    def clean(self, packets):
        answer, count = self._moved("clean", packets)
        if not _done(answer):
            raise Refused("not on")
        return count


class RxDevice:
    def __init__(self, pair):
        self._pair = pair

    def offer(self, frame):
        """Offers a frame: "stored", "held", "dropped" or "oversize"."""
        frame = bytes(frame)
        answer = _calls["offer"](byref(self._pair.device), frame, len(frame))
        answers = {0: "held", 1: "stored", 4: "oversize", 5: "dropped"}
        return answers[answer] if answer in answers else _done(answer, _2="unfit", _3="not on")

    def control(self):
        """Loads the control word, answers what the driver asks, and returns the word that it stored, or else loaded."""
        return _calls["rx_device_control"](byref(self._pair.device))

    def finish(self):
        return _done(_calls["rx_device_finish"](byref(self._pair.device)))

    def counts(self):
        counts = _Offered()
        _calls["rx_device_count"](byref(self._pair.device), byref(counts))
        return {name: getattr(counts, name) for name in ("offered", "stored", "dropped", "oversize")}


class TxDevice:
    def __init__(self, pair):
        self._pair = pair

    def turn(self):
        """Sends the next frame and returns its bytes, or None if none is ready."""
        room, count = _room(MOST_FRAME), c_size_t()
        answer = _calls["turn"](byref(self._pair.device), room, len(room), byref(count))
        return bytes(room[: count.value]) if _done(answer, _3="not on", _5="memory") else None

    def control(self):
        return _calls["tx_device_control"](byref(self._pair.device))


def RxRing(descriptors, buffers=256):
    """A receive ring, segment by segment: its driver and its controller."""
    pair = _Pair("rx", descriptors, buffers)
    return RxDriver(pair), RxController(pair)


def TxRing(descriptors, buffers=256, by_head=False):
    """A transmit ring, segment by segment: its driver and its controller."""
    pair = _Pair("tx", descriptors, buffers, by_head)
    return TxDriver(pair), TxController(pair)


def RxQueue(descriptors, batch=32, fill=2048, drop_en=False):
    """A receive queue in batches, and its device."""
    pair = _Pair("rx_queue", descriptors, batch, fill, drop_en)
    return _RxQueue(pair), RxDevice(pair)


def TxQueue(descriptors, every=32, by_head=False):
    """A transmit queue in batches, and its device."""
    pair = _Pair("tx_queue", descriptors, every, by_head)
    return _TxQueue(pair), TxDevice(pair)


_FORMS = {"rx read": 0, "rx back": 1, "tx read": 2, "tx back": 3}


def decode(form, descriptor):
    """The fields of a descriptor of 16 bytes. The form is "rx read", "rx back", "tx read" or "tx back"."""
    said = _Descriptor()
    refusal = _calls["decode"](_FORMS[form], bytes(descriptor), len(descriptor), byref(said))
    if refusal:
        raise Refused({1: "not 16 bytes", 2: "a fixed bit differs", 3: "no advanced data descriptor", 4: "a length is out of range"}[refusal])
    return {name: getattr(said, name) for name, _ in said._fields_}


def encode(form, **fields):
    """The 16 bytes of a descriptor with these fields."""
    room = _room(16)
    if _calls["encode"](_FORMS[form], byref(_Descriptor(**fields)), room, 16):
        raise Refused("no descriptor of the form has these fields")
    return bytes(room)


def moves(text, pairs=1, descriptors=8, enabled=True, by_head=False, json=False):
    """Makes the moves of a text, one a line, on new queues, and returns what `replay` prints."""
    plan, text, moved, room = _Plan(pairs, descriptors, enabled, by_head, json), text.encode(), _Moved(), _room(65536)
    while True:
        answer = _calls["moves"](byref(plan), text, len(text), room, len(room), byref(moved))
        if answer == 0:
            return bytes(room[: moved.needed]).decode("ascii")
        if answer != 1:
            raise Refused({12: "there can be no such queues", 14: f"line {moved.line} is no move"}.get(answer, f"refusal {answer}"))
        room = _room(moved.needed)


def once(frame):
    """Passes a frame of 14 to 14,336 bytes through a receive ring of 8 descriptors, and returns what its driver took."""
    frame, room = bytes(frame), _room(len(frame))
    answer = _calls["once"](frame, len(frame), room, len(frame))
    if answer:
        raise Refused({1: "the frame does not have 14 to 14,336 bytes", 2: "memory"}[answer])
    return bytes(room[: len(frame)])
