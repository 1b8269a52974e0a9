"""Tests of the Python module, with the shared object: python3 -m unittest, in this folder, with POLL82599_DIR set."""
import gc
import threading
import unittest

import poll82599
from poll82599 import OFF, ON, Counters, Packets, Pool, Refused, RxQueue, RxRing, TxQueue, TxRing, close


def frame(k):
    return bytes((k * 31 + at) % 256 for at in range(60 + k % 1400))


def refusal(call, *words, **named):
    try:
        call(*words, **named)
    except Refused as refused:
        return refused.why
    raise AssertionError("nothing was refused")


class Rings(unittest.TestCase):
    def test_a_receive_ring_between_two_threads_delivers_each_frame_once(self):
        driver, controller = RxRing(64, 128)
        frames = 2000

        def serve():
            while not controller.answer():
                pass
            for k in range(frames):
                while not controller.store(frame(k)):
                    pass
            controller.set_quiet()

        serving = threading.Thread(target=serve)
        serving.start()
        while driver.post():
            pass
        driver.set_tail()
        self.assertTrue(driver.ask_enable())
        while driver.state() != ON:
            pass
        for k in range(frames):
            while (found := driver.poll()) is None:
                pass
            self.assertEqual(found, (frame(k), True))
            driver.post()
            driver.set_tail()
        serving.join()
        self.assertTrue(driver.is_quiet())
        self.assertEqual(close(driver, controller), 63)
        self.assertEqual(refusal(driver.post), "closed")

    def test_a_transmit_ring_sends_what_was_posted(self):
        driver, controller = TxRing(8, 16, by_head=True)
        driver.ask_enable()
        self.assertTrue(controller.answer())
        self.assertEqual(driver.state(), ON)
        self.assertTrue(driver.post(bytes(1000), eop=False, rs=False, paylen=1500))
        self.assertEqual(refusal(driver.post, bytes(501), paylen=1500), "unfit")
        self.assertTrue(driver.post(bytes(500), paylen=1500))
        self.assertTrue(driver.set_tail())
        self.assertEqual(controller.send(), (bytes(1000), False))
        self.assertEqual(controller.send(), (bytes(500), True))
        self.assertIsNone(controller.send())
        self.assertTrue(driver.poll_report() and driver.clean() and driver.clean())
        self.assertFalse(driver.clean())
        self.assertEqual(refusal(driver.unsent), "not disabled")
        driver.ask_disable()
        self.assertTrue(controller.answer())
        self.assertEqual((driver.state(), driver.unsent(), driver.reclaim(), driver.renew()), (OFF, 0, False, True))

    def test_ends_of_two_rings_are_not_closed_together(self):
        first, second = RxRing(8, 16), RxRing(8, 16)
        self.assertEqual(refusal(close, first[0], second[1]), "these are ends of two rings")
        self.assertEqual(close(*first), 0)
        del second
        gc.collect()

    def test_what_cannot_be_made_is_refused(self):
        self.assertIn("power of two", refusal(RxRing, 7))
        self.assertIn("16 to 256", refusal(Packets, 15))
        self.assertIn("setting", refusal(RxQueue, 8, batch=33))


class Batches(unittest.TestCase):
    def test_the_example_of_the_module(self):
        lines = poll82599.__doc__.split("\n\n")[2].splitlines()
        exec("\n".join(line.removeprefix("    ") for line in lines), {})

    def test_a_forwarder_sends_each_frame_once(self):
        (rx, rx_device), (tx, tx_device), packets = RxQueue(8, fill=1024), TxQueue(8, by_head=True), Packets(64)
        for queue, device in ((tx, tx_device), (rx, rx_device)):
            self.assertFalse(queue.enable())
            self.assertEqual(device.control(), ON)
            self.assertTrue(queue.enable())
        rx.batch(packets)
        offered, sent = 0, []
        while len(sent) < 200:
            if offered < 200 and rx_device.offer(frame(offered)) == "stored":
                offered += 1
            rx.batch(packets)
            for packet in range(len(packets)):
                packets.touch(packet, 0, 7)
            tx.batch(packets)
            while (bytes_sent := tx_device.turn()) is not None:
                sent.append(bytes_sent)
        self.assertEqual(sent, [b"\7" + frame(k)[1:] for k in range(200)])
        self.assertEqual(rx_device.counts(), {"offered": 200, "stored": 200, "dropped": 0, "oversize": 0})

    def test_ranges_are_read_and_replaced(self):
        packets = Packets(16)
        packets.put(bytes(3000))
        self.assertTrue(packets.write(0, 2046, b"abcd"))
        self.assertEqual((packets.read(0, 2045, 6), packets.length(0)), (b"\0abcd\0", (3000, 2)))
        self.assertEqual((packets.read(0, 2995, 6), packets.write(0, 2995, bytes(6)), packets.length(1)), (None, False, None))

    def test_packets_move_to_another_worker(self):
        packets, others = Packets(16), Packets(16)
        self.assertFalse(packets.append(b"x"))
        self.assertTrue(packets.put(frame(1)[:20]) and packets.append(frame(1)[20:]) and packets.put(frame(2)))
        self.assertEqual((packets.move(2, others), packets.move(0, others)), (False, True))
        self.assertRaises(ValueError, packets.move, 0, packets)
        self.assertEqual((len(packets), packets.copy(0), others.copy(0)), (1, frame(2), frame(1)))
        self.assertEqual(refusal(packets.append, b""), "unfit")
        self.assertEqual((packets.empty_buffers(), others.empty_buffers()), (13, 16))

    def test_a_ring_of_4096_is_filled_from_a_pool(self):
        (queue, device), packets, pool = RxQueue(4096, drop_en=True), Packets(16), Pool(4200)
        self.assertEqual((queue.enable(), device.control(), queue.enable()), (False, ON, True))
        posted = 0
        while packets.refill(pool):
            queue.batch(packets)
            posted += queue.moved
        self.assertEqual((posted, packets.empty_buffers() + len(pool)), (4095, 121))
        self.assertEqual({device.offer(frame(k)) for k in range(4095)}, {"stored"})
        for k in range(4095):
            if not len(packets):
                queue.batch(packets)
            self.assertEqual(packets.copy(0), frame(k))
            packets.free(0)
        self.assertEqual(packets.give_back(pool, 0), 0)
        self.assertIn("of a pool 16 to 65,536", refusal(Pool, 15))

    def test_a_thread_reads_counters(self):
        counters, seen = Counters(), []
        reader = counters.reader()

        def read():
            while not seen or seen[-1] < 100:
                seen.append(reader.get(0))

        thread = threading.Thread(target=read)
        thread.start()
        self.assertTrue(all(counters.set(0, number) for number in range(101)))
        thread.join()
        self.assertEqual(seen, sorted(seen))
        self.assertEqual((counters.set(0, 99), counters.set(8, 1), reader.get(8)), (False, False, None))

    def test_refusals_have_reasons(self):
        queue, device = RxQueue(8)
        packets = Packets(16)
        self.assertEqual(refusal(queue.batch, packets), "not on")
        self.assertEqual(refusal(queue.reclaim, packets), "not disabled")
        self.assertEqual(refusal(device.offer, bytes(60)), "not on")
        self.assertEqual(refusal(packets.put, bytes(13)), "unfit")


class PlainData(unittest.TestCase):
    def test_descriptors_are_decoded_and_encoded(self):
        fields = {"number": 5, "len": 60, "eop": 1, "rs": 1, "paylen": 60}
        descriptor = poll82599.encode("tx read", **fields)
        self.assertEqual(descriptor.hex(), "00280000000000003c00302b00000f00")
        self.assertEqual(poll82599.decode("tx read", descriptor), fields)
        self.assertEqual(refusal(poll82599.decode, "tx read", bytes(15)), "not 16 bytes")

    def test_moves_are_printed_as_replay_prints_them(self):
        self.assertEqual(poll82599.moves("r0 A1 5\n"), "r0 A1 place 0\nmoves 1 of 1\n")
        self.assertEqual(refusal(poll82599.moves, "no move\n"), "line 1 is no move")

    def test_a_frame_passes_through_a_ring(self):
        self.assertEqual(poll82599.once(frame(3)), frame(3))
        self.assertIn("14 to 14,336", refusal(poll82599.once, bytes(13)))


if __name__ == "__main__":
    unittest.main()
