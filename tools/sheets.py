#!/usr/bin/env python3
"""Make test sheets, and compare a program with sheet.py on them.

    python3 sheets.py FOLDER N SEED
        writes N sheets, 00000.sheet .., into FOLDER (made if need be).
        The same seed gives the same sheets; sheet i does not depend on N.

    python3 sheets.py --compare PROGRAM FOLDER
        gives every *.sheet of FOLDER to PROGRAM on standard input and
        compares its standard output, byte for byte, with that of sheet.py.
        PROGRAM is a file to run (one ending in .py is run by this Python)
        or a command with arguments.  Ends with 'N sheets alike, M differ';
        exit status 1 if any differ, 2 for a wrong use.

    python3 sheets.py --count FOLDER
        only the counts of what the sheets reach, by sheet.py.

    python3 sheets.py --runs FOLDER N SEED
        writes N long runs that fill all lines of a book with sums, scalings
        and products, and show every seat after every call.

    python3 sheets.py --select CRATE N SEED
        writes the first N short sheets of a seed, a short run of each kind
        that shows every seat after every call, and the sheets of examples/
        into CRATE/data, their
        names into CRATE/args and what sheet.py writes of each, behind its
        name, into CRATE/stdout. Every number that a short sheet can reach
        must occur: that is all but 26.

    python3 sheets.py --longest FILE
        writes the longest sheet that is allowed, 65,536 bytes of show lines
        at a full book.

Refusals 1..15 and faults 20..26 can be reached by a sheet; 16 cannot, since
no call of a sheet refuses with it.
"""

import collections
import os
import random
import shlex
import subprocess
import sys

sys.dont_write_bytecode = True
import sheet  # noqa: E402

TIME_LIMIT = 60         # seconds for one run of PROGRAM
MOST_REPORTED = 20      # differences written in full
TOP = sheet.MOST_NUMBER

WORDS = ["set", "enter", "sum", "scale", "begin", "deal", "gather", "open",
         "show"]

EXAMPLES = os.path.join(os.path.dirname(os.path.abspath(__file__)), os.pardir,
                        "examples")

UNREACHED = {16: "no call of a sheet refuses with it"}


# ---------------------------------------------------------------------------
# Writing forms
# ---------------------------------------------------------------------------

def item_text(item):
    if isinstance(item, list):
        return "(" + " ".join(map(str, item)) + ")"
    return str(item)


def form_text(word, items):
    """The line of a form, as bytes."""
    parts = [word] + [item_text(item) for item in items]
    return ("(" + " ".join(parts) + ")\n").encode("ascii")


class Writer:
    """Writes a sheet call by call, keeping a book to know where it stands."""

    def __init__(self, rng, kind_number):
        self.rng = rng
        self.kind_number = kind_number
        self.book = sheet.Book(sheet.KINDS[kind_number])
        self.size = self.book.kind.size
        self.lines = [form_text("kind", [kind_number])]

    def data(self):
        return b"".join(self.lines)

    def put(self, word, items):
        """Add a call, right or wrong; answers whether the book took it."""
        self.lines.append(form_text(word, items))
        try:
            sheet.run_form(self.book, word, items)
            return True
        except sheet.Refusal:
            return False

    # -- where the book stands ----------------------------------------------

    @property
    def n(self):
        return self.book.n or 5

    @property
    def k(self):
        return self.book.k or 3

    def lines_in(self, *states):
        return [r for r in range(sheet.LINES) if self.book.state[r] in states]

    def undealt(self):
        product = self.book.product
        return [s for s in range(1, self.n + 1)
                if product and s not in product.letters]

    def ungathered(self):
        product = self.book.product
        return [s for s in range(1, self.n + 1)
                if product and s not in product.gathered]

    # -- arguments, right and wrong -----------------------------------------

    def pick(self, choices, otherwise):
        return self.rng.choice(choices) if choices else otherwise

    def code(self):
        """A code of the kind; the ends more often than others."""
        rng = self.rng
        if rng.random() < 0.25:
            return rng.choice([0, 1, 2, self.size // 2, self.size - 2,
                               self.size - 1])
        return rng.randrange(self.size)

    def no_code(self):
        return self.rng.choice([self.size, self.size, self.size + 1, TOP,
                                self.rng.randint(self.size, TOP)])

    def strip(self):
        if self.rng.random() < 0.1:
            return [self.rng.choice([0, self.size - 1])] * (self.k - 1)
        return [self.code() for _ in range(self.k - 1)]

    def no_strip(self):
        """Wrong length, a wrong code, or both."""
        rng = self.rng
        strip = self.strip()
        how = rng.randrange(4)
        if how in (0, 2):
            length = rng.choice([0, self.k - 2, self.k, rng.randint(0, 9)])
            strip = [self.code() for _ in range(length)]
        if how in (1, 2, 3) and strip:
            strip[rng.randrange(len(strip))] = self.no_code()
        return strip

    def high_line(self):
        return self.rng.choice([32, 32, 33, 63, 255, 256, 65536, 2147483648,
                                TOP, self.rng.randint(32, TOP)])

    def destination(self):
        return self.pick(self.lines_in(sheet.EMPTY),
                         self.rng.randrange(sheet.LINES))

    def no_destination(self):
        if self.rng.random() < 0.4:
            return self.high_line()
        awaited = self.lines_in(sheet.AWAITED)
        if awaited and self.rng.random() < 0.5:
            return awaited[0]
        return self.pick(self.lines_in(sheet.FULL), self.high_line())

    def source(self):
        return self.pick(self.lines_in(sheet.FULL),
                         self.rng.randrange(sheet.LINES))

    def no_source(self):
        if self.rng.random() < 0.4:
            return self.high_line()
        awaited = self.lines_in(sheet.AWAITED)
        if awaited and self.rng.random() < 0.5:
            return awaited[0]
        return self.pick(self.lines_in(sheet.EMPTY), self.high_line())

    def seat(self):
        return self.rng.randint(1, self.n)

    def no_seat(self):
        return self.rng.choice([0, 0, self.n + 1, self.n + 1, 9, 10, 256, TOP])

    def deal_seat(self):
        return self.pick(self.undealt(), self.seat())

    def no_deal_seat(self):
        undealt = self.undealt()
        dealt = [s for s in range(1, self.n + 1) if s not in undealt]
        if dealt and self.rng.random() < 0.6:
            return self.rng.choice(dealt)
        return self.no_seat()

    def gather_seat(self):
        return self.pick(self.ungathered(), self.seat())

    def no_gather_seat(self):
        ungathered = self.ungathered()
        gathered = [s for s in range(1, self.n + 1) if s not in ungathered]
        if gathered and self.rng.random() < 0.6:
            return self.rng.choice(gathered)
        return self.no_seat()

    def set_items(self):
        k = self.rng.randint(2, 5)
        n = self.rng.choice([2 * k - 1, 9, self.rng.randint(2 * k - 1, 9)])
        return [n, k]

    def no_set_items(self):
        rng = self.rng
        k = rng.choice([0, 1, 2, 3, 4, 5, 6, 7, 2147483648, TOP])
        if 2 <= k <= 5:
            n = rng.choice([0, 1, 2 * k - 2, 10, 11, TOP])
        else:
            n = rng.choice([0, 1, 3, 5, 9, 10, TOP])
        return [n, k]

    # What stands in each place of a call: (maker of right, maker of wrong).
    ROLES = {
        "enter":  [("destination", "no_destination"), ("seat", "no_seat"),
                   ("code", "no_code"), ("strip", "no_strip")],
        "sum":    [("destination", "no_destination"), ("source", "no_source"),
                   ("source", "no_source")],
        "scale":  [("destination", "no_destination"), ("source", "no_source"),
                   ("code", "no_code")],
        "begin":  [("destination", "no_destination"), ("source", "no_source"),
                   ("source", "no_source")],
        "deal":   [("deal_seat", "no_deal_seat"), ("strip", "no_strip")],
        "gather": [("gather_seat", "no_gather_seat")],
        "open":   [("source", "no_source")],
        "show":   [("seat", "no_seat")],
    }

    def items(self, word, wrong=()):
        """Items for a word; places in `wrong` are made wrong."""
        if word == "set":
            return self.no_set_items() if wrong else self.set_items()
        return [getattr(self, role[place in wrong])()
                for place, role in enumerate(self.ROLES[word])]

    # -- calls --------------------------------------------------------------

    def possible(self):
        """The words that the book can take now."""
        if self.book.is_unset():
            return ["set"]
        words = ["show"]
        full, empty = self.lines_in(sheet.FULL), self.lines_in(sheet.EMPTY)
        if full:
            words.append("open")
        if empty:
            words.append("enter")
        if empty and full:
            words += ["sum", "scale"]
            if self.book.product is None:
                words.append("begin")
        if self.book.product is not None:
            words.append("deal" if self.undealt() else "gather")
        return words

    def right_call(self, weights):
        """A call that the book takes, its word chosen by weight."""
        words = self.possible()
        word = self.rng.choices(words, [weights[w] for w in words])[0]
        self.put(word, self.items(word))

    def wrong_call(self, words=WORDS):
        """A call that is meant to be refused, often for several causes."""
        rng = self.rng
        if rng.random() < 0.5:
            # A word the book may well take, with one place wrong.
            able = [w for w in self.possible() if w in words] or words
            word = rng.choice(able)
            places = len(self.ROLES.get(word, [0]))
            wrong = {rng.randrange(places)}
        else:
            # Any word, any places wrong (perhaps none).
            word = rng.choice(words)
            places = len(self.ROLES.get(word, [0]))
            chance = rng.choice([0.0, 0.3, 0.6, 1.0])
            wrong = {p for p in range(places) if rng.random() < chance}
        self.put(word, self.items(word, wrong))

    def run(self, steps, wrong_rate, weights, most_bytes=None):
        """Many calls; stops early before the sheet passes most_bytes."""
        total = sum(map(len, self.lines))
        for _ in range(steps):
            if most_bytes is not None and total + 200 > most_bytes:
                break
            if self.rng.random() < wrong_rate:
                self.wrong_call()
            else:
                self.right_call(weights)
            total += len(self.lines[-1])

    def show_all(self):
        """Open every line and show every seat, those outside as well."""
        for line in range(sheet.LINES + 1):
            self.put("open", [line])
        for seat in range(self.n + 2):
            self.put("show", [seat])


MIXED = {"set": 1, "enter": 3, "sum": 2, "scale": 2, "begin": 3, "deal": 12,
         "gather": 12, "open": 3, "show": 2}
PRODUCTS = {"set": 1, "enter": 1, "sum": 0.3, "scale": 0.3, "begin": 8,
            "deal": 20, "gather": 20, "open": 1, "show": 2}
SLOW = {"set": 1, "enter": 1, "sum": 1, "scale": 1, "begin": 4, "deal": 2,
        "gather": 1, "open": 3, "show": 3}


# ---------------------------------------------------------------------------
# Recipes: each answers the bytes of a sheet
# ---------------------------------------------------------------------------

def mixed(rng, kind):
    """A long run of all calls, with some refused."""
    w = Writer(rng, kind)
    w.run(rng.randint(50, 400), rng.choice([0, 0.1, 0.3]), MIXED)
    if rng.random() < 0.5:
        w.show_all()
    return w.data()


def products(rng, kind):
    """Products of products until the lines run out."""
    w = Writer(rng, kind)
    w.put("set", w.set_items())
    for _ in range(rng.randint(1, 5)):
        w.put("enter", w.items("enter"))
    w.run(rng.randint(200, 700), rng.choice([0, 0.05, 0.2]), PRODUCTS)
    w.show_all()
    return w.data()


def refused(rng, kind):
    """Mostly refused calls, with enough right ones to move the book on."""
    w = Writer(rng, kind)
    w.run(rng.randint(100, 600), rng.choice([0.5, 0.7, 0.9]),
          rng.choice([MIXED, PRODUCTS, SLOW]))
    return w.data()


def unfinished(rng, kind):
    """A product in progress is looked at from all sides after each call."""
    w = Writer(rng, kind)
    w.put("set", w.set_items())
    for _ in range(rng.randint(1, 4)):
        w.put("enter", w.items("enter"))
    if rng.random() < 0.5:
        w.run(rng.randint(10, 60), 0.1, PRODUCTS)
    while w.book.product is not None:
        w.right_call({**PRODUCTS, "enter": 0, "sum": 0, "scale": 0})
    w.put("begin", w.items("begin"))
    for _ in range(rng.randint(0, 2 * w.n)):
        if w.book.product is None:
            break
        word = "deal" if w.undealt() else "gather"
        w.put(word, w.items(word))
        for _ in range(rng.randint(0, 2)):
            w.wrong_call(["begin", "deal", "gather", "open", "show", "enter",
                          "sum"])
        if rng.random() < 0.5:
            for seat in range(1, w.n + 1):
                w.put("show", [seat])
    w.show_all()
    return w.data()


def unset(rng, kind):
    """Every call on an unset book, right and wrong, then a short run."""
    w = Writer(rng, kind)
    for _ in range(rng.randint(1, 3)):
        for word in rng.sample(WORDS[1:], len(WORDS) - 1):
            places = len(w.ROLES[word])
            wrong = {p for p in range(places) if rng.random() < 0.4}
            w.put(word, w.items(word, wrong))
        if rng.random() < 0.5:
            w.put("set", w.no_set_items())
    w.run(rng.randint(0, 60), 0.3, MIXED)
    return w.data()


def limits(rng, kind):
    """set with many n and k, the ends of the limits among them."""
    w = Writer(rng, kind)
    pairs = [(n, k) for k in range(8) for n in range(12)]
    pairs += [(TOP, 2), (9, TOP), (TOP, TOP), (2147483649, 2147483649)]
    rng.shuffle(pairs)
    if rng.random() < 0.7:
        # The pairs outside the limits first, so that all are tried unset.
        pairs.sort(key=lambda p: 2 <= p[1] <= 5 and 2 * p[1] - 1 <= p[0] <= 9)
    for n, k in pairs:
        w.put("set", [n, k])
    w.run(rng.randint(20, 100), 0.2, MIXED)
    return w.data()


DAMAGE = b"()  \n0123456789aeknopz"


def damage(rng, data):
    """One stroke of damage to a sheet."""
    if not data:
        return bytes([rng.randrange(256)])
    place = rng.randrange(len(data))
    if rng.random() < 0.2:
        place = rng.randrange(min(len(data), 24))
    stray = (rng.choice(DAMAGE) if rng.random() < 0.7
             else rng.choice([0, 9, 13, 32, 40, 41, 47, 58, 65, 90, 96, 123,
                              127, 128, 176, 255, rng.randrange(256)]))
    how = rng.randrange(9)
    if how == 0:                                    # change a byte
        return data[:place] + bytes([stray]) + data[place + 1:]
    if how == 1:                                    # drop a byte
        return data[:place] + data[place + 1:]
    if how == 2:                                    # add a byte
        return data[:place] + bytes([stray]) + data[place:]
    if how == 3:                                    # cut off
        return data[:place]
    if how == 4:                                    # drop a stretch
        return data[:place] + data[place + rng.randint(2, 40):]
    if how == 5:                                    # say a stretch twice
        end = place + rng.randint(1, 40)
        return data[:end] + data[place:]
    if how == 6:                                    # change digits only
        changed = bytearray(data)
        digits = [p for p, byte in enumerate(changed) if 48 <= byte <= 57]
        for p in rng.sample(digits, min(len(digits), rng.randint(1, 8))):
            changed[p] = rng.randint(48, 57)
        return bytes(changed)
    if how == 7:                                    # add digits to a run
        digits = [p for p, byte in enumerate(data) if 48 <= byte <= 57]
        if not digits:
            return data + b"0"
        place = rng.choice(digits)
        more = "".join(rng.choice("0123456789")
                       for _ in range(rng.choice([1, 1, 2, 8, 9, 10, 30])))
        return data[:place] + more.encode() + data[place:]
    lines = data.splitlines(keepends=True)          # mix up lines
    i, j = rng.randrange(len(lines)), rng.randrange(len(lines))
    lines[i], lines[j] = lines[j], lines[i]
    return b"".join(lines)


def damaged(rng, kind):
    """A run with one to three strokes of damage."""
    w = Writer(rng, kind)
    w.run(rng.choice([3, 10, 30, 100]), rng.choice([0, 0.2]),
          rng.choice([MIXED, PRODUCTS, SLOW]))
    data = w.data()
    for _ in range(rng.choice([1, 1, 1, 2, 3])):
        data = damage(rng, data)
    return data


def odd_run(rng, bad_rate):
    """A run of digits, with a chance that it is not a number."""
    if rng.random() < bad_rate:
        return rng.choice(["00", "01", "0000000000", "00000000000",
                           "0123456789", "4294967296", "4294967300",
                           "5000000000", "9999999999", "10000000000",
                           "04294967295", "1" * rng.randint(11, 40),
                           "0" * rng.randint(2, 40), "9" * 5000])
    return rng.choice(["0", "1", "9", "31", "32", "255", "256", "999999999",
                       "1000000000", "2147483646", "2147483647", "4294967294",
                       "4294967295", str(rng.randint(0, TOP))])


def odd_line(rng):
    """A line near the line rule: odd runs, long lists, long words."""
    bad = rng.choice([0, 0, 0.1, 0.5])
    word = rng.choice(["enter", "deal", "show", "open", "kind", "set",
                       "".join(rng.choice("abcxyz") for _ in
                               range(rng.choice([1, 7, 8, 8, 9, 10])))])
    parts = [word]
    for _ in range(rng.randint(0, 5)):
        if rng.random() < 0.5:
            parts.append(odd_run(rng, bad))
        else:
            length = rng.choice([0, 1, 2, 8, 9, 10, 11, 20])
            parts.append("(" + " ".join(odd_run(rng, bad)
                                        for _ in range(length)) + ")")
    line = ("(" + " ".join(parts) + ")\n").encode("ascii")
    for _ in range(rng.choice([0, 0, 1, 2])):
        place = rng.randrange(len(line))
        stray = bytes([rng.choice(DAMAGE + b"\r\t[];-+A")])
        how = rng.randrange(3)
        if how == 0:
            line = line[:place] + stray + line[place + 1:]
        elif how == 1:
            line = line[:place] + stray + line[place:]
        elif len(line) > 1:
            line = line[:place] + line[place + 1:]
    return line


def tenth(rng):
    """A right deal or enter but for a list of ten or more numbers."""
    numbers = [odd_run(rng, rng.choice([0, 0, 0.1])) for _ in
               range(rng.randint(10, 14))]
    head = rng.choice(["deal 1", "enter 3 1 2"])
    return f"({head} ({' '.join(numbers)}))\n".encode("ascii")


def reader(rng, kind):
    """Right lines, then odd ones, some of which stop the reader."""
    w = Writer(rng, kind)
    w.run(rng.choice([0, 1, 5, 20]), 0.1, MIXED)
    head = w.data() if rng.random() < 0.85 else b""
    maker = rng.choice([odd_line, odd_line, tenth])
    tail = maker(rng)
    cut = rng.random()
    if cut < 0.25:                  # the sheet ends inside the odd line
        return head + tail[:rng.randrange(len(tail) + 1)]
    return head + tail + form_text("show", [1])


def wrong_form(rng, kind, started):
    """A form with a fault of layer 2 (most of the time), maybe several."""
    how = rng.randrange(7)
    if how == 0:
        word = rng.choice(["a", "kinds", "kin", "sets", "se", "opens", "shows",
                           "add", "mul", "product", "gathers", "abcdefgh",
                           "enterr", "dea", "sums"])
        items = [rng.randint(0, 9) for _ in range(rng.randint(0, 4))]
        if rng.random() < 0.3:
            items.append([1, 2])
        return form_text(word, items)
    if how in (1, 2):
        word = rng.choice(["kind"] + WORDS)
        items = [[1, 2] if item is list else rng.randint(1, 9)
                 for item in sheet.ITEMS[word]]
        change = rng.randrange(4)
        if change == 0:
            items.pop(rng.randrange(len(items)))
        elif change == 1:
            items.insert(rng.randint(0, len(items)),
                         rng.choice([7, [], [1]]))
        elif change == 2:
            place = rng.randrange(len(items))
            items[place] = 3 if isinstance(items[place], list) else \
                rng.choice([[], [items[place]], [1, 2]])
        else:
            rng.shuffle(items)
        return form_text(word, items)
    if how == 3:
        return form_text("kind", [rng.choice([0, 4, 5, 31, 256, 257, 258,
                                              TOP])])
    if how == 4:
        return form_text("kind", [rng.choice([1, 2, 3, kind])])
    if how == 5 and started:
        return form_text("kind", [])
    return form_text(rng.choice(["show", "open", "gather"]), [1])


def form(rng, kind):
    """Right lines, then a form that is wrong, with or without kind before."""
    started = rng.random() < 0.6
    head = b""
    if started:
        w = Writer(rng, kind)
        w.run(rng.choice([0, 1, 5, 30]), 0.1, MIXED)
        head = w.data()
    tail = wrong_form(rng, kind, started)
    if rng.random() < 0.2:          # the next line is wrong as well
        tail += odd_line(rng)
    return head + tail + form_text("kind", [kind]) + form_text("show", [1])


def pad(rng, data, length):
    """Lines '(show X)' or '(open X)' up to exactly the length."""
    short, long = 9, 18             # with one digit, with ten digits
    lines = [data]
    left = length - len(data)
    while left:
        fits = [size for size in range(short, long + 1)
                if left - size == 0 or left - size >= short]
        size = rng.choice(fits)
        digits = size - 8
        low = 0 if digits == 1 else 10 ** (digits - 1)
        value = rng.randint(low, min(TOP, 10 ** digits - 1))
        lines.append(form_text(rng.choice(["show", "open"]), [value]))
        left -= size
    return b"".join(lines)


def length(rng, kind, which):
    """Sheets about as long as a sheet may be, six ways in turn."""
    most = sheet.MOST_BYTES
    w = Writer(rng, kind)
    how = which % 6
    w.run(10 ** 6 if how in (0, 1, 2) else 100, rng.choice([0.2, 0.6]), MIXED,
          rng.choice([20000, most - 300]))
    if how == 0:                    # exactly the most
        return pad(rng, w.data(), most)
    if how == 1:                    # one more than the most
        return pad(rng, w.data(), most + 1)
    if how == 2:                    # exactly the most, the last line cut
        return pad(rng, w.data(), most + rng.randint(1, 8))[:most]
    if how == 3:                    # one more, the fault at the first byte
        return b"x" + pad(rng, w.data(), most)
    if how == 4:                    # one run of digits to the end
        data = w.data() + b"(show "
        return data + b"7" * (most + rng.choice([0, 1]) - len(data))
    return pad(rng, w.data(), most + rng.choice([11, 100, 65536, 200000]))


def tiny(rng, kind):
    """Sheets of next to nothing."""
    whole = form_text("kind", [kind]) + form_text("set", [3, 2])
    return rng.choice([
        b"", b"", b"\n", b"(", b")", b" ", b"0", b"a", b"()\n", b"(kind)\n",
        b"\n" + whole, whole + b"\n", whole + b" ", whole + b"(",
        whole[:rng.randrange(len(whole))], whole[:-1], form_text("kind", [kind]),
        whole.replace(b"\n", b"\r\n"), whole.replace(b" ", b"  "),
        b" " + whole, whole.upper(), b"\xef\xbb\xbf" + whole,
        bytes([rng.randrange(256)]),
        bytes(rng.randrange(256) for _ in range(rng.randint(1, 60))),
        bytes(rng.choice(DAMAGE) for _ in range(rng.randint(1, 60)))])


# Single lines at the edges of the rules, taken in turn.  Those of the first
# list come after a right start, those of the second stand first; one that
# does not end its line is the sheet's end.
EDGES = [(True, line) for line in [
    b"(show 4294967296)\n", b"(deal 1 (1 2 3 4 5 6 7 8 9 00))\n",
    b"(show 4294967295)\n", b"(deal 1 (1 2 3 4 5 6 7 8 9 10))\n",
    b"(show 1)", b"(deal 1 (1 2 3 4 5 6 7 8 9))\n",
    b"(abcdefgh 1)\n", b"(abcdefghi 1)\n",
    b"(show 4294967297)\n", b"(show 18446744073709551617)\n",
    b"(show 00)\n", b"(show 01)\n", b"(show 0)\n", b"(show 00",
    b"(show 00x)\n", b"(deal 1 (1 2 3 4 5 6 7 8 9 ))\n",
    b"(deal 1 (1 2 3 4 5 6 7 8 9 1", b"(deal 00 (1 2 3 4 5 6 7 8 9 1))\n",
    b"(deal 1 (1 2 3 4 5 6 7 8 9 1 00))\n", b"(deal 1 ())\n",
    b"(deal 1 ( ))\n", b"(deal 1 ((2)))\n", b"(deal 1 (2 ))\n",
    b"(deal 1(2))\n", b"(deal 1 (2)(3))\n", b"(deal 1 (1  2))\n",
    b"(show 1)\r\n", b"(show 1) \n", b"(show 1 )\n", b"(show  1)\n",
    b"( show 1)\n", b" (show 1)\n", b"(show 1))\n", b"(show 1)(show 1)\n",
    b"(show1)\n", b"(show 1a)\n", b"(show -1)\n", b"(Show 1)\n", b"()\n",
    b"\n", b"(show", b"(show ", b"(show\n", b"(", b"(show 1\n",
    b"(kind)\n", b"(kind 0)\n", b"(kind 1)\n", b"(sho)\n", b"(deal 1 2)\n",
    b"(enter 0 1 (2) (3))\n", b"(show)\n", b"(show 1 2)\n", b"(show (1))\n",
]] + [(False, line) for line in [
    b"(kind 0)\n", b"(kind 4)\n", b"(kind 4294967295)\n", b"(set 3 2)\n",
    b"(set 3)\n", b"(sets 3)\n", b"(kind 1 2)\n", b"(kind (1))\n",
    b"(kind 01)\n", b"(kind 1)",
]]
random.Random("edges").shuffle(EDGES)


def edge(rng, kind, which):
    """A line at the edge of the rules, number `which` of them."""
    after, line = EDGES[which % len(EDGES)]
    head = b""
    if after:
        w = Writer(rng, kind)
        w.run(rng.choice([0, 1, 6, 25]), 0.1, SLOW)
        head = w.data()
    if not line.endswith(b"\n"):
        return head + line
    return head + line + form_text("kind", [kind]) + form_text("show", [1])


SCHEDULE = [mixed, edge, products, damaged, refused, edge, reader, unfinished,
            form, damaged, edge, unset, mixed, reader, products, edge, limits,
            damaged, refused, form, unfinished, edge, reader, length, damaged,
            edge, tiny, mixed, refused, reader]


def make_sheet(seed, index):
    """The bytes of sheet number `index` of a seed."""
    rng = random.Random(f"sheets {seed} {index}")
    turn, slot = divmod(index, len(SCHEDULE))
    kind = (slot + turn) % 3 + 1
    recipe = SCHEDULE[slot]
    if recipe in (edge, length):    # these take their cases in turn
        which = turn * SCHEDULE.count(recipe) + SCHEDULE[:slot].count(recipe)
        return recipe(rng, kind, which)
    return recipe(rng, kind)


def generate(folder, count, seed):
    os.makedirs(folder, exist_ok=True)
    for index in range(count):
        path = os.path.join(folder, f"{index:05d}.sheet")
        with open(path, "wb") as file:
            file.write(make_sheet(seed, index))
    print(f"{count} sheets in {folder}")


# ---------------------------------------------------------------------------
# Counting and comparing
# ---------------------------------------------------------------------------

class Counts:
    """What the sheets reach, by the output of sheet.py."""

    def __init__(self):
        self.numbers = collections.Counter()    # refusal or fault -> times
        self.sheets = collections.Counter()     # the same -> sheets
        self.calls = collections.Counter()      # (word, refusal) -> times
        self.answers = collections.Counter()    # first word of output lines
        self.kinds = collections.Counter()      # kind taken -> sheets

    def add(self, data, output):
        forms = data.split(b"\n")
        seen = set()
        for index, line in enumerate(output.decode("ascii").splitlines()):
            parts = line.split(" ")
            self.answers[parts[0]] += 1
            if parts[0] == "no":
                layer, number = int(parts[1]), int(parts[4])
                self.numbers[number] += 1
                seen.add(number)
                if layer == 3:
                    word = forms[index][1:].split(b" ")[0].decode("ascii")
                    self.calls[word, number] += 1
            elif index == 0:
                self.kinds[forms[0].decode("ascii")] += 1
        for number in seen:
            self.sheets[number] += 1

    def write(self):
        print("answers: " + ", ".join(f"{word} {self.answers[word]}"
                                      for word in sorted(self.answers)))
        print("kinds: " + ", ".join(f"{form} in {self.kinds[form]} sheets"
                                    for form in sorted(self.kinds)))
        known = set(range(1, 17)) | set(range(20, 27))
        for number in sorted(known | set(self.numbers)):
            what = "refusal" if number < 20 else "fault"
            line = (f"{what} {number}: {self.numbers[number]} times "
                    f"in {self.sheets[number]} sheets")
            if number in UNREACHED:
                line += f" (cannot be reached: {UNREACHED[number]})"
            print(line)
        for word in WORDS:
            met = [f"{number} ({self.calls[word, number]})"
                   for number in range(1, 17) if self.calls[word, number]]
            print(f"refusals of {word}: " + ", ".join(met))


def sheet_files(folder):
    names = sorted(name for name in os.listdir(folder)
                   if name.endswith(".sheet"))
    if not names:
        print(f"no sheets in {folder}", file=sys.stderr)
        sys.exit(2)
    for name in names:
        with open(os.path.join(folder, name), "rb") as file:
            yield name, file.read()


def command_of(program):
    if os.path.isfile(program):
        if program.endswith(".py"):
            return [sys.executable, program]
        return [os.path.abspath(program)]
    return shlex.split(program)


def clip(text, most=160):
    """A line of output for the report, on one line and not too long."""
    shown = repr(text)[1:]
    return shown if len(shown) <= most else shown[:most] + ".."


def difference(expected, actual):
    """Where two outputs part: (line number, expected line, actual line)."""
    left, right = expected.split(b"\n"), actual.split(b"\n")
    for index in range(max(len(left), len(right))):
        a = left[index] if index < len(left) else None
        b = right[index] if index < len(right) else None
        if a != b:
            return (index + 1,
                    "nothing" if a is None else clip(a),
                    "nothing" if b is None else clip(b))
    return None


def report(name, data, expected, actual, end):
    """Write how one sheet differs."""
    print(f"{name}: {end or 'the outputs differ'}")
    where = difference(expected, actual)
    if where:
        number, a, b = where
        forms = data.split(b"\n")
        if number <= len(forms):
            print(f"  form {number}:   {clip(forms[number - 1])}")
        print(f"  sheet.py: {a}")
        print(f"  program:  {b}")


def compare(program, folder):
    """Answers the exit status."""
    command = command_of(program)
    counts = Counts()
    alike = differ = 0
    for name, data in sheet_files(folder):
        expected = sheet.run_sheet(data)
        counts.add(data, expected)
        end = None
        try:
            done = subprocess.run(command, input=data, timeout=TIME_LIMIT,
                                  stdout=subprocess.PIPE,
                                  stderr=subprocess.DEVNULL)
            actual = done.stdout
            if done.returncode < 0:
                end = f"the program was ended by signal {-done.returncode}"
        except subprocess.TimeoutExpired as late:
            actual = late.stdout or b""
            end = f"the program ran past {TIME_LIMIT} seconds"
        except OSError as error:
            print(f"cannot run {program}: {error}", file=sys.stderr)
            return 2
        if actual == expected and end is None:
            alike += 1
            continue
        differ += 1
        if differ <= MOST_REPORTED:
            report(name, data, expected, actual, end)
        else:
            print(f"{name}: differs")
    counts.write()
    print(f"{alike} sheets alike, {differ} differ")
    return 1 if differ else 0


def count(folder):
    counts = Counts()
    for _, data in sheet_files(folder):
        counts.add(data, sheet.run_sheet(data))
    counts.write()
    return 0


def shown_run(seed, index, lines):
    """A run over so many lines of the book, each seat shown after each call."""
    rng = random.Random(f"runs {seed} {index}")
    w = Writer(rng, index % 3 + 1)
    k = rng.randint(2, 5) if lines > 8 else 2
    n = rng.randint(2 * k - 1, sheet.MOST_SEATS) if lines > 8 else 3

    def put(word, items):
        w.put(word, items)
        for seat in range(1, n + 1):
            w.put("show", [seat])

    def code():
        return rng.randrange(w.size)

    def strip():
        return [code() for _ in range(k - 1)]

    put("set", [n, k])
    for line in range(lines):
        earlier = [rng.randrange(line) for _ in range(2)] if line else []
        word = rng.choice(["enter", "sum", "scale", "begin"]) if line > 1 else "enter"
        if word == "enter":
            put(word, [line, rng.randint(1, n), code(), strip()])
        elif word == "scale":
            put(word, [line, earlier[0], code()])
        else:
            put(word, [line] + earlier)
        if word == "begin":
            seats = list(range(1, n + 1))
            for seat in rng.sample(seats, n):
                put("deal", [seat, strip()])
            for seat in rng.sample(seats, n):
                put("gather", [seat])
    for line in range(lines):
        w.put("open", [line])
    return w.data()


def runs(folder, count, seed):
    os.makedirs(folder, exist_ok=True)
    for index in range(count):
        lines, data = sheet.LINES, b""
        while not data or len(data) > sheet.MOST_BYTES:
            data = shown_run(seed, index, lines)
            lines -= 1
        path = os.path.join(folder, f"run{index:03d}.sheet")
        with open(path, "wb") as file:
            file.write(data)
    print(f"{count} runs in {folder}")


MOST_SELECTED = 2500    # bytes of a sheet, and four times that of its text


def select(crate, count, seed):
    """Answers the exit status."""
    data_folder = os.path.join(crate, "data")
    os.makedirs(data_folder, exist_ok=True)
    for name in os.listdir(data_folder):
        os.remove(os.path.join(data_folder, name))
    counts = Counts()
    chosen, names, texts, index = [], [], [], 0
    while len(chosen) < count:
        data = make_sheet(seed, index)
        index += 1
        text = sheet.run_sheet(data)
        if len(data) > MOST_SELECTED or len(text) > 4 * MOST_SELECTED:
            continue
        chosen.append((f"{len(chosen):03d}.sheet", data))
    chosen += [(f"run{kind + 1}.sheet", shown_run(seed, kind, 6))
               for kind in range(3)]
    chosen += list(sheet_files(EXAMPLES))
    for name, data in chosen:
        text = sheet.run_sheet(data)
        counts.add(data, text)
        names.append(name)
        texts.append(text)
        with open(os.path.join(data_folder, name), "wb") as file:
            file.write(data)
    with open(os.path.join(crate, "args"), "w") as file:
        file.writelines(name + "\n" for name in names)
    with open(os.path.join(crate, "stdout"), "wb") as file:
        for name, text in zip(names, texts):
            file.write(name.encode() + b"\n" + text)
    counts.write()
    wanted = (set(range(1, 16)) | set(range(20, 26))) - set(counts.numbers)
    if wanted:
        print(f"not reached: {sorted(wanted)}", file=sys.stderr)
    return 1 if wanted else 0


def longest(path):
    top = 2147483646
    strip = [top] * 4
    lines = [b"(kind 2)\n", b"(set 9 5)\n"]
    lines += [form_text("enter", [line, 1, top, strip]) for line in range(32)]
    data = b"".join(lines)
    nines, left = 0, sheet.MOST_BYTES - len(data)
    while (left - 9 * nines) % 10:
        nines += 1
    tens = (left - 9 * nines) // 10
    data += b"(show 1)\n" * nines + b"(show 10)\n" * tens
    # as many of the longer lines as can be are turned into lines that show
    data = data.replace(b"(show 10)\n" * 9, b"(show 9)\n" * 10)
    with open(path, "wb") as file:
        file.write(data)
    print(f"{len(data)} bytes in {path}")


def main(arguments):
    if len(arguments) == 3 and arguments[0] == "--compare":
        return compare(arguments[1], arguments[2])
    if len(arguments) == 2 and arguments[0] == "--count":
        return count(arguments[1])
    if (len(arguments) == 4 and arguments[0] == "--select"
            and arguments[2].isdigit()):
        return select(arguments[1], int(arguments[2]), arguments[3])
    if (len(arguments) == 4 and arguments[0] == "--runs"
            and arguments[2].isdigit()):
        runs(arguments[1], int(arguments[2]), arguments[3])
        return 0
    if len(arguments) == 2 and arguments[0] == "--longest":
        longest(arguments[1])
        return 0
    if (len(arguments) == 3 and not arguments[0].startswith("--")
            and arguments[1].isdigit()):
        generate(arguments[0], int(arguments[1]), arguments[2])
        return 0
    print(__doc__, file=sys.stderr)
    return 2


if __name__ == "__main__":
    sys.exit(main(sys.argv[1:]))
