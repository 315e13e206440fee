#!/usr/bin/env python3
"""Run one sheet: standard input (bytes) to standard output.

A sheet is a list of forms, one on each line, that drive a book of shared
figures.  Every form is read (layer 1), judged (layer 2) and run (layer 3).
After a fault of layer 1 or 2 the run stops; a refusal of the book (layer 3)
is written in the form's place and the run goes on.

Use as a program:   python3 sheet.py < SHEET
Use as a module:    sheet.run_sheet(data) -> bytes
"""

import sys

MOST_BYTES = 65536          # a longer sheet is fault 26
MOST_LETTERS = 8            # in a word
MOST_DIGITS = 10            # in a number
MOST_NUMBER = 4294967295
MOST_IN_LIST = 9
LINES = 32                  # lines of a book
MOST_SEATS = 9


# ---------------------------------------------------------------------------
# Kinds of number
# ---------------------------------------------------------------------------

class Remainders:
    """Remainders by a prime modulus."""

    def __init__(self, modulus):
        self.size = modulus

    def sum(self, a, b):
        return (a + b) % self.size

    def negative(self, a):
        return (self.size - a) % self.size

    def product(self, a, b):
        return (a * b) % self.size

    def inverse(self, a):
        """By exponent: a^(modulus-2) is the inverse of a, a not 0."""
        return pow(a, self.size - 2, self.size)


class Bytes:
    """Bytes with the sum and product of FIPS 197 (modulus 0x11b)."""

    size = 256

    def sum(self, a, b):
        return a ^ b

    def negative(self, a):
        return a

    def product(self, a, b):
        """Shift and add to a 15-bit polynomial, then divide by 0x11b."""
        whole = 0
        for bit in range(8):
            if b >> bit & 1:
                whole ^= a << bit
        for bit in range(14, 7, -1):
            if whole >> bit & 1:
                whole ^= 0x11b << (bit - 8)
        return whole

    def inverse(self, a):
        """By search."""
        for b in range(1, 256):
            if self.product(a, b) == 1:
                return b
        raise ZeroDivisionError("no inverse")


KINDS = {1: Remainders(31), 2: Remainders(2147483647), 3: Bytes()}


def point(i):
    """Point i is code i, in every kind."""
    return i


def reciprocal(kind, i, j):
    """The inverse of the gap p_i - p_j."""
    return kind.inverse(kind.sum(point(i), kind.negative(point(j))))


def power(kind, base, exponent):
    """base^exponent by repeated product."""
    result = 1
    for _ in range(exponent):
        result = kind.product(result, base)
    return result


def share_along(kind, value, strip, seat):
    """value + c_1 p + c_2 p^2 + .. where p is the seat's point."""
    total = value
    for exponent, code in enumerate(strip, start=1):
        term = kind.product(code, power(kind, point(seat), exponent))
        total = kind.sum(total, term)
    return total


def weight(kind, n, i):
    """w_i: the product over seats j != i of (-p_j) * reciprocal(i, j)."""
    result = 1
    for j in range(1, n + 1):
        if j != i:
            result = kind.product(result, kind.negative(point(j)))
            result = kind.product(result, reciprocal(kind, i, j))
    return result


# ---------------------------------------------------------------------------
# The book
# ---------------------------------------------------------------------------

class Refusal(Exception):
    """The book refuses a call; .number says why."""

    def __init__(self, number):
        super().__init__(number)
        self.number = number


EMPTY, AWAITED, FULL = "empty", "awaited", "full"


class Product:
    """The product in hand: d is to become a times b."""

    def __init__(self, d, a, b):
        self.d, self.a, self.b = d, a, b
        self.letters = {}       # sender -> {receiver: letter}
        self.gathered = set()   # seats that have gathered


class Book:
    """A book of one kind.

    Every call first goes through its refusals in the order of the rules,
    by self.refuse(cause, condition), and changes the book only after them.
    """

    def __init__(self, kind):
        self.kind = kind
        self.n = None           # None while the book is unset
        self.k = None
        self.weights = {}       # seat -> weight
        self.state = [EMPTY] * LINES
        self.shares = {}        # (line, seat) -> share
        self.product = None     # the product in hand, or None

    # -- helpers ------------------------------------------------------------

    @staticmethod
    def refuse(number, condition):
        if condition:
            raise Refusal(number)

    def is_unset(self):
        return self.n is None

    def seats(self):
        return range(1, self.n + 1)

    def no_seat(self, seat):
        return not 1 <= seat <= self.n

    def no_code(self, code):
        return not 0 <= code < self.kind.size

    def refuse_strip(self, strip):
        """Causes 9 and 10, in this order."""
        self.refuse(9, len(strip) != self.k - 1)
        self.refuse(10, any(self.no_code(code) for code in strip))

    def refuse_lines(self, d, sources):
        """Causes 4, 5 and 6, in this order."""
        self.refuse(4, any(line >= LINES for line in [d] + sources))
        self.refuse(5, self.state[d] != EMPTY)
        self.refuse(6, any(self.state[line] != FULL for line in sources))

    def weighted(self, values):
        """w_1 values[1] + .. + w_n values[n]."""
        total = 0
        for seat in self.seats():
            part = self.kind.product(self.weights[seat], values[seat])
            total = self.kind.sum(total, part)
        return total

    # -- calls --------------------------------------------------------------

    def set(self, n, k):
        self.refuse(3, not self.is_unset())
        self.refuse(2, not 2 <= k <= 5 or not 2 * k - 1 <= n <= MOST_SEATS)
        self.n, self.k = n, k
        self.state = [EMPTY] * LINES
        self.shares = {}
        self.product = None
        self.weights = {i: weight(self.kind, n, i) for i in self.seats()}

    def enter(self, line, house, figure, strip):
        self.refuse(1, self.is_unset())
        self.refuse(4, line >= LINES)
        self.refuse(5, self.state[line] != EMPTY)
        self.refuse(7, self.no_seat(house))
        self.refuse(8, self.no_code(figure))
        self.refuse_strip(strip)
        for seat in self.seats():
            self.shares[line, seat] = share_along(self.kind, figure, strip, seat)
        self.state[line] = FULL

    def sum(self, d, a, b):
        self.refuse(1, self.is_unset())
        self.refuse_lines(d, [a, b])
        for seat in self.seats():
            self.shares[d, seat] = self.kind.sum(self.shares[a, seat],
                                                 self.shares[b, seat])
        self.state[d] = FULL

    def scale(self, d, a, c):
        self.refuse(1, self.is_unset())
        self.refuse_lines(d, [a])
        self.refuse(8, self.no_code(c))
        for seat in self.seats():
            self.shares[d, seat] = self.kind.product(c, self.shares[a, seat])
        self.state[d] = FULL

    def begin(self, d, a, b):
        self.refuse(1, self.is_unset())
        self.refuse(11, self.product is not None)
        self.refuse_lines(d, [a, b])
        self.product = Product(d, a, b)
        self.state[d] = AWAITED

    def deal(self, seat, strip):
        self.refuse(1, self.is_unset())
        self.refuse(12, self.product is None)
        self.refuse(7, self.no_seat(seat))
        self.refuse(13, seat in self.product.letters)
        self.refuse_strip(strip)
        own = self.kind.product(self.shares[self.product.a, seat],
                                self.shares[self.product.b, seat])
        self.product.letters[seat] = {
            receiver: share_along(self.kind, own, strip, receiver)
            for receiver in self.seats()}

    def gather(self, seat):
        self.refuse(1, self.is_unset())
        self.refuse(12, self.product is None)
        self.refuse(7, self.no_seat(seat))
        self.refuse(14, any(s not in self.product.letters
                            for s in self.seats()))
        self.refuse(15, seat in self.product.gathered)
        received = {sender: self.product.letters[sender][seat]
                    for sender in self.seats()}
        self.shares[self.product.d, seat] = self.weighted(received)
        self.product.gathered.add(seat)
        if len(self.product.gathered) == self.n:
            self.state[self.product.d] = FULL
            self.product = None

    def open(self, line):
        """Answers (total, [share_1, .., share_n])."""
        self.refuse(1, self.is_unset())
        self.refuse(4, line >= LINES)
        self.refuse(6, self.state[line] != FULL)
        shares = {seat: self.shares[line, seat] for seat in self.seats()}
        return self.weighted(shares), [shares[seat] for seat in self.seats()]

    def show(self, seat):
        """Answers the 82 numbers of what the seat holds."""
        self.refuse(1, self.is_unset())
        self.refuse(7, self.no_seat(seat))
        numbers = [0] * 82
        for line in range(LINES):
            if (line, seat) in self.shares:
                numbers[2 * line] = 1
                numbers[2 * line + 1] = self.shares[line, seat]
        if self.product is not None:
            for sender, letters in self.product.letters.items():
                numbers[62 + 2 * sender] = 1
                numbers[63 + 2 * sender] = letters[seat]
        return numbers


# ---------------------------------------------------------------------------
# Layer 1: the reader
# ---------------------------------------------------------------------------

class Fault(Exception):
    """A fault of layer 1 or 2."""

    def __init__(self, layer, column, cause):
        super().__init__(layer, column, cause)
        self.layer, self.column, self.cause = layer, column, cause


class BadByte(Exception):
    """The byte at the reader's place (or the sheet's end) is a cause 20."""


class LineReader:
    """Reads one line of the sheet that starts at a given place.

    The reader goes down the line rule.  Causes 21 and 22 are noted and the
    reading goes on; a cause 20 is noted and ends it.  Of the faults noted,
    the leftmost counts, and at one column the one of lowest number.
    """

    SMALL = frozenset(b"abcdefghijklmnopqrstuvwxyz")
    DIGITS = frozenset(b"0123456789")

    def __init__(self, data, start):
        self.data = data
        self.start = start
        self.place = start
        self.noted = []         # (column, cause)

    def read(self):
        """Answers (word, items, place after the line) or raises Fault.

        An item is an int, or a list of ints.
        """
        try:
            word, items = self.line()
        except BadByte:
            self.note(self.place, 20)
        if self.noted:
            column, cause = min(self.noted)
            raise Fault(1, column, cause)
        return word, items, self.place

    def note(self, place, cause):
        self.noted.append((place - self.start + 1, cause))

    def at(self, allowed):
        """Is there a byte here, and is it one of those allowed?"""
        return self.place < len(self.data) and self.data[self.place] in allowed

    def take(self, allowed):
        """Take one byte that must be one of those allowed."""
        if not self.at(allowed):
            raise BadByte
        self.place += 1

    def line(self):
        self.take(b"(")
        word = self.word()
        items = []
        while self.at(b" "):
            self.take(b" ")
            items.append(self.item())
        self.take(b")")
        self.take(b"\n")
        return word, items

    def word(self):
        first = self.place
        self.take(self.SMALL)
        while self.at(self.SMALL) and self.place - first < MOST_LETTERS:
            self.take(self.SMALL)
        return self.data[first:self.place].decode("ascii")

    def item(self):
        return self.list() if self.at(b"(") else self.number()

    def list(self):
        numbers = []
        self.take(b"(")
        if not self.at(b")"):
            numbers.append(self.number())
            while self.at(b" "):
                self.take(b" ")
                if len(numbers) == MOST_IN_LIST and self.at(self.DIGITS):
                    self.note(self.place, 22)
                numbers.append(self.number())
        self.take(b")")
        return numbers

    def number(self):
        """A run of digits; one that is not a number is noted, read as 0."""
        first = self.place
        self.take(self.DIGITS)
        while self.at(self.DIGITS):
            self.take(self.DIGITS)
        run = self.data[first:self.place]
        if (len(run) > MOST_DIGITS
                or int(run) > MOST_NUMBER
                or (run[:1] == b"0" and run != b"0")):
            self.note(first, 21)
            return 0
        return int(run)


# ---------------------------------------------------------------------------
# Layer 2: the form
# ---------------------------------------------------------------------------

# The items of every word: int for a number, list for a list.
ITEMS = {
    "kind":   [int],
    "set":    [int, int],
    "enter":  [int, int, int, list],
    "sum":    [int, int, int],
    "scale":  [int, int, int],
    "begin":  [int, int, int],
    "deal":   [int, list],
    "gather": [int],
    "open":   [int],
    "show":   [int],
}


def judge(word, items, book):
    """Raises the fault of layer 2, if any; book is None before kind."""
    if word not in ITEMS:
        raise Fault(2, 2, 23)
    if [type(item) for item in items] != ITEMS[word]:
        raise Fault(2, 1, 24)
    if word == "kind":
        wrong = book is not None or items[0] not in KINDS
    else:
        wrong = book is None
    if wrong:
        raise Fault(2, 1, 25)


# ---------------------------------------------------------------------------
# Running
# ---------------------------------------------------------------------------

def run_form(book, word, items):
    """Runs a call on the book; answers the output line (no line end)."""
    if word == "open":
        total, shares = book.open(items[0])
        return " ".join(map(str, ["open", items[0], total] + shares))
    if word == "show":
        numbers = book.show(items[0])
        return " ".join(map(str, ["show", items[0]] + numbers))
    calls = {"set": book.set, "enter": book.enter, "sum": book.sum,
             "scale": book.scale, "begin": book.begin, "deal": book.deal,
             "gather": book.gather}
    calls[word](*items)
    return "ok"


def output_lines(data):
    """Yields the output lines (str, no line end) for the bytes of a sheet."""
    if len(data) > MOST_BYTES:
        yield "no 1 0 0 26"
        return
    book = None
    place = 0
    number = 0
    while place < len(data):
        number += 1
        try:
            word, items, place = LineReader(data, place).read()
            judge(word, items, book)
        except Fault as fault:
            yield f"no {fault.layer} {number} {fault.column} {fault.cause}"
            return
        if word == "kind":
            book = Book(KINDS[items[0]])
            yield "ok"
            continue
        try:
            yield run_form(book, word, items)
        except Refusal as refusal:
            yield f"no 3 {number} 1 {refusal.number}"


def run_sheet(data):
    """The whole output, as bytes, for the bytes of a sheet."""
    return "".join(line + "\n" for line in output_lines(data)).encode("ascii")


def main():
    sys.stdout.buffer.write(run_sheet(sys.stdin.buffer.read()))
    sys.stdout.buffer.flush()


if __name__ == "__main__":
    main()
