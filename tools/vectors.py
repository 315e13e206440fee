#!/usr/bin/env python3
"""The expected output of the crate `vectors`, by an independent program.

Written from docs/RULES.md; it shares nothing with the engine. Remainders are Python's, bytes are polynomials
over two elements, reciprocals are found by trial or by Fermat's theorem, and a polynomial through given points
is found by solving linear equations.
"""

U32 = 4294967295


class Remainders:
    def __init__(self, name, size):
        self.name, self.size = name, size

    def add(self, a, b):
        return (a + b) % self.size

    def neg(self, a):
        return -a % self.size

    def mul(self, a, b):
        return a * b % self.size

    def inverse(self, a):
        return pow(a % self.size, self.size - 2, self.size)


class Bytes:
    name, size = "byte", 256

    def add(self, a, b):
        return (a % 256) ^ (b % 256)

    def neg(self, a):
        return a % 256

    def mul(self, a, b):
        # the sum of a times x^i for each bit i of b, modulo x^8 + x^4 + x^3 + x + 1
        a, b, r = a % 256, b % 256, 0
        while b:
            if b & 1:
                r ^= a
            b >>= 1
            a <<= 1
            if a & 0x100:
                a ^= 0x11B
        return r

    def inverse(self, a):
        return next(x for x in range(256) if self.mul(a, x) == 1)


def point(i):
    return i if i <= 9 else 0


def reciprocal(kind, i, j):
    if i == j or i > 9 or j > 9:
        return 0
    return kind.inverse(kind.add(point(i), kind.neg(point(j))))


def share(kind, figure, strip, seat):
    x, power, total = point(seat), 1, figure % kind.size
    for c in strip:
        power = kind.mul(power, x)
        total = kind.add(total, kind.mul(c, power))
    return total


def weight(kind, n, i):
    w = 1
    for j in range(1, n + 1):
        if j != i:
            w = kind.mul(w, kind.mul(kind.neg(point(j)), reciprocal(kind, i, j)))
    return w


def weighed(kind, weights, codes):
    total = 0
    for w, c in zip(weights, codes):
        total = kind.add(total, kind.mul(w, c))
    return total


def mask(kind, group, length):
    coefficients = [1]
    for s in group:
        r = reciprocal(kind, s, 0)
        shifted = [0] + [kind.mul(r, c) for c in coefficients]
        coefficients = [kind.add(c, kind.neg(d)) for c, d in zip(coefficients + [0], shifted)]
    return (coefficients + [0] * length)[1:length + 1]


def solve(kind, k, seats, shares):
    """The coefficients of the polynomial of degree below k through the points, or None: by elimination."""
    rows = []
    for s, y in zip(seats, shares):
        power, row = 1, []
        for _ in range(k):
            row.append(power)
            power = kind.mul(power, point(s))
        rows.append(row + [y])
    for column in range(k):
        pivot = next(r for r in range(column, len(rows)) if rows[r][column] != 0)
        rows[column], rows[pivot] = rows[pivot], rows[column]
        inverse = kind.inverse(rows[column][column])
        rows[column] = [kind.mul(c, inverse) for c in rows[column]]
        for r in range(len(rows)):
            if r != column:
                factor = rows[r][column]
                rows[r] = [kind.add(c, kind.neg(kind.mul(factor, d))) for c, d in zip(rows[r], rows[column])]
    if any(row[k] != 0 for row in rows[k:]):
        return None
    return [row[k] for row in rows[:k]]


def rebuild(kind, k, seats, shares):
    if not 2 <= k <= 5:
        return "no 2"
    if len(seats) != len(shares) or len(shares) < k or len(shares) > 9:
        return "no 17"
    if any(not 1 <= s <= 9 for s in seats) or len(set(seats)) != len(seats):
        return "no 18"
    if any(y >= kind.size for y in shares):
        return "no 8"
    polynomial = solve(kind, k, seats, shares)
    return "no 19" if polynomial is None else f"ok {polynomial[0]}"


CODES = [0, 1, 2, 30, 31, 32, 255, 256, 257, 2147483646, 2147483647, 2147483648, U32 - 1, U32]
NUMBERS = list(range(12)) + [U32]
CASES = [
    (2, [1, 3], [9, 19]), (2, [3, 1], [19, 9]), (2, [1, 2, 3], [9, 14, 19]), (2, [1, 2, 3], [9, 14, 18]),
    (2, [1, 3], [9, 18]), (3, [5, 2, 9], [1, 2, 3]), (5, [9, 8, 7, 6, 5], [0, 0, 0, 0, 1]),
    (5, [9, 8, 7, 6, 5, 4], [0] * 6), (4, list(range(1, 10)), [7] * 9), (4, list(range(1, 10)), [7] * 8 + [8]),
    (1, [1, 2], [1, 1]), (6, [1, 2, 3, 4, 5, 6], [1] * 6), (0, [], []), (U32, [1], [1]),
    (2, [1, 2], [1, 2, 3]), (2, [1, 2, 3], [1, 2]), (2, [1], [1]), (2, [], []), (3, [1, 2], [1, 2]),
    (2, [1, 2, 3, 4, 5, 6, 7, 8, 9, 1], [1] * 10), (2, [0, 1], [1, 2]), (2, [9, 10], [1, 2]), (2, [1, U32], [1, 2]),
    (2, [4, 2, 4], [1, 2, 1]), (2, [1, 2], [30, 31]), (2, [1, 2], [255, 256]), (2, [1, 2], [2147483647, U32]),
    (2, [1, 1], [U32, 1]),
]


def main():
    for kind in (Remainders("small", 31), Remainders("wide", 2147483647), Bytes()):
        name = kind.name
        print(f"{name} size {kind.size} unit 1")
        for a in CODES:
            print(f"{name} negative {a} is {kind.neg(a)}")
            for b in CODES:
                print(f"{name} {a} and {b}: sum {kind.add(a, b)}, product {kind.mul(a, b)}")
        for i in NUMBERS:
            print(f"{name} point {i} is {point(i)}")
            for j in NUMBERS:
                print(f"{name} reciprocal {i} {j} is {reciprocal(kind, i, j)}")
        for n in range(11):
            if n > 9:
                print(f"{name} weights of {n}: no 2, {[7] * n}")
            else:
                print(f"{name} weights of {n}: {[weight(kind, n, i) for i in range(1, n + 1)]}")
        for figure, strip in ((4, [5]), (83, [87]), (U32, [U32, 2147483647, 256, 31]), (7, [])):
            for seat in range(11):
                print(f"{name} share of {figure} along {strip} at {seat} is {share(kind, figure, strip, seat)}")
            shares = [share(kind, figure, strip, i) for i in range(1, 10)]
            for n in range(10):
                print(f"{name} {n} weighed shares are {weighed(kind, [weight(kind, n, i) for i in range(1, n + 1)], shares)}")
        for group, length in (([], 2), ([3], 1), ([9, 1, 4, 2], 4), ([0, 10, U32], 2)):
            print(f"{name} mask of {group} is {mask(kind, group, length)}")
        for k, seats, shares in CASES:
            print(f"{name} rebuild {k} {seats} {shares}: {rebuild(kind, k, seats, shares)}")


if __name__ == "__main__":
    main()
