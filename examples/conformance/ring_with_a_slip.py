#!/usr/bin/env python3
"""The model of ring.py with one bug: a fetch compares with the tail register instead of the tail that the device loaded last.

It runs like ring.py and must fail."""
import sys
from ring import Receive, SERVING, main, need


class Hasty(Receive):
    def fetch(self):
        need(self.device == SERVING, self.held is None, not self.still, self.tail != self.use)
        self.held = self.load(self.use)[0] // 2048
        return f"place {self.use} buffer {self.held}"

    STEPS = {**Receive.STEPS, "A4": fetch}


if __name__ == "__main__":
    sys.exit(main(receive=Hasty))
