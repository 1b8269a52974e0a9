#!/usr/bin/env python3
"""Counts how many bugs planted into ring.py some move lists find.

    slips.py TEXT[:OPTION..] ..

TEXT is a file of move lists as ring.py reads them. A slip is one change to the model: a condition is left out, or a field is
not set or set to another value. The changed model runs on each text as ring.py does, with the options after the text's
name, as in lists.txt:--off:--head. A text finds a slip if the model's output differs or the model fails. The program prints each slip with the texts that find it, and the
number of slips that each text finds.
"""
import contextlib, io, pathlib, re, sys

SOURCE = (pathlib.Path(__file__).parent / "ring.py").read_text()

# Texts of the model and their replacements. The first occurrence is replaced.
CHANGED = [
    ("self.known = self.tail", "pass"),
    ('self.control, self.driver = 1, "Asked"', 'self.control, self.driver = 2, "Asked"'),
    ("self.seen = self.control", "self.seen = 1"),
    ("self.use = self.known = 0", "self.known = 0"),
    ("self.use = self.known = 0", "self.use = 0"),
    ("            self.in_frame = False", "            pass"),
    ("self.control = self.seen = 0", "self.control = 0"),
    ("self.control = self.seen = 2", "self.control = 2"),
    ("self.device = ENDED", "self.device = OFF"),
    ('(self.driver, self.control) == ("Asked", 2)', 'self.driver == "Asked"'),
    ('(self.driver, self.control) == ("Stopping", 0)', 'self.driver == "Stopping"'),
    ("self.held is None and not self.in_frame and self.head", "not self.in_frame and self.head"),
    ("self.held is None and not self.in_frame and self.head", "self.held is None and self.head"),
    (" and self.head == self.use", ""),
    ("super().is_settled() and self.owed is None", "super().is_settled()"),
    ('self.head, self.driver = 0, "Cleared"', 'self.driver = "Cleared"'),
    ('self.tail, self.driver = 0, "Tailed"', 'self.driver = "Tailed"'),
    ("self.fill = self.next = 0\n        self.driver", "self.driver"),
    ("self.known != self.use)\n        self.held", "self.tail != self.use)\n        self.held"),
    ("self.known != self.use)\n        address", "self.tail != self.use)\n        address"),
    ("self.DD | self.EOP * eop", "self.DD | self.EOP"),
    ("self.in_frame = self.after(place), None, not eop", "self.in_frame = self.after(place), None, False"),
    ("            self.still = False", "            pass"),
    ("self.quiet, self.still = 1, True", "self.quiet, self.still = 1, False"),
    ("        self.quiet = 0\n        self.renew()", "        self.renew()"),
    ("self.is_open = not eop", "self.is_open = False"),
    ("        if rs:\n            self.asked.append(place)", "        self.asked.append(place)"),
    ("        if rs:\n            self.owed = self.use", "        self.owed = self.use"),
    ("self.head = self.use\n        return f\"head {self.head}\"\n\n    def report", "return f\"head {self.head}\"\n\n    def report"),
    ("place, self.owed = self.owed, None", "place = self.owed"),
    ("self.head_word = self.after(place)", "self.head_word = place"),
    ("self.store(place, address, command, status | self.DD)", "self.store(place, address, command, status)"),
    ("self.asked.pop(0)", "self.asked.pop()"),
    ("self.cleanable = (place - self.next) % self.length + 1", "self.cleanable = 1"),
    ("self.cleanable = (place - self.next) % self.length + 1", "self.cleanable = (self.fill - self.next) % self.length"),
    ("self.cleanable -= 1", "pass"),
    ("        self.head_word = 0\n        self.renew()", "        self.renew()"),
    ("self.asked, self.cleanable, self.is_open = [], 0, False", "self.cleanable, self.is_open = 0, False"),
    ("self.asked, self.cleanable, self.is_open = [], 0, False", "self.asked, self.is_open = [], False"),
    ("self.asked, self.cleanable, self.is_open = [], 0, False", "self.asked, self.cleanable = [], 0"),
]


def conditions(text):
    """The conditions in a call of `need`."""
    found, depth, begin = [], 0, 0
    for at, char in enumerate(text):
        depth += (char in "([") - (char in ")]")
        if char == "," and depth == 0:
            found.append(text[begin:at].strip())
            begin = at + 1
    return found + [text[begin:].strip()]


def first_line(text):
    return text.strip().partition("\n")[0]


def slips():
    """A description of each slip, and the changed model."""
    for call in re.finditer(r"need\((self.*|not self.*)\)\n", SOURCE):
        given = conditions(call.group(1))
        for at, left_out in enumerate(given):
            rest = ", ".join(given[:at] + given[at + 1 :])
            yield f"'{left_out}' left out of {call.group(0).strip()}", f"{SOURCE[:call.start()]}need({rest})\n{SOURCE[call.end():]}"
    for old, new in CHANGED:
        if old not in SOURCE:
            raise SystemExit(f"the model has no '{old}'")
        yield f"'{first_line(old)}' replaced by '{first_line(new)}'", SOURCE.replace(old, new, 1)


def agrees(model, text, options):
    """Whether the model's output for a text's lists is the expected one."""
    sys.argv, sys.stdin = ["ring.py", *options], io.StringIO(text)
    names = {"__name__": "model"}
    exec(model, names)
    with contextlib.redirect_stdout(io.StringIO()):
        try:
            return names["main"]() == 0
        except Exception:
            return False


def main():
    texts = [(name, pathlib.Path(name).read_text(), options) for name, *options in (word.split(":") for word in sys.argv[1:])]
    for name, text, options in texts:
        if not agrees(SOURCE, text, options):
            raise SystemExit(f"the model without a slip does not agree with {name}")
    count, by, by_any = 0, [0] * len(texts), 0
    for words, model in slips():
        found = [not agrees(model, text, options) for _, text, options in texts]
        count += 1
        by = [k + is_found for k, is_found in zip(by, found)]
        by_any += any(found)
        print(f"{words}: {', '.join(name for (name, _, _), it in zip(texts, found) if it) or 'not found'}")
    print(f"{count} slips", *(f"{name} finds {k}" for (name, _, _), k in zip(texts, by)), f"together {by_any}", sep="; ")
    return 0


if __name__ == "__main__":
    sys.exit(main())
