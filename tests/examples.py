"""What the programs under examples/ must print, by the reference.

    python3 tests/examples.py > examples/expected.txt

The lines of P1 to P11 and of the page of 07 01 01 are those of 01, which
test_reference.py holds the reference to.
"""

import reference as r
from test_reference import Lent

ORDER = (r.SW, r.NW, r.SE, r.NE)


class Told(Lent):
    """A lent grid that says what each call answers, as the programs do."""

    def __init__(self, columns, rows, capacity=40, mode=r.OPEN):
        super().__init__(columns, rows, capacity, mode)
        print(f"build {self.answer.refusal} in use {self.answer.count}")

    def tape(self, *requests):
        answer = self.call(r.tape, bytes(requests))
        print(f"tape {answer.refusal} done {answer.done} at {answer.offset} mark {self.header.mark}")

    def scan(self, kind, room=40, order=ORDER):
        start = self.row(1)[r.LEVEL]
        answer = self.call(r.scan, 1, order, kind, start, 12, [0] * room)
        numbers = "".join(f" {number}" for number in answer.output[: answer.count])
        print(f"scan {answer.refusal} count {answer.count}:{numbers}")

    def lookup(self, speed, load):
        answer = self.call(r.lookup, speed, load)
        print(f"lookup {answer.refusal} leaf {answer.number} status {answer.status} value {answer.bits:016x}")

    def page(self, room=400):
        answer = self.call(r.page, bytes(room))
        print(f"page {answer.refusal} bytes {answer.count}")
        print(answer.output[: answer.count].decode("ascii"), end="")

    def count(self, level, status):
        answer = r.count(self.counts, level, status)
        print(f"count {answer.refusal} is {answer.count}")

    def lacking(self):
        for level in (0, 1):
            blank, measured, carried = (r.count(self.counts, level, status).count for status in r.STATUSES)
            print(f"level {level}: blank {blank} measured {measured} carried {carried}")

    def checked(self):
        print(f"check {self.check()}")

    def places(self, first, last):
        print("places" + "".join(" {}=({},{})".format(n, *self.place(n)) for n in range(first, last + 1)))

    def flagged(self, *numbers):
        print("flags" + "".join(f" {word}" for word in self.flags(*numbers)))

    def part(self, number, first, count):
        print(f"row {number}:" + "".join(f" {word}" for word in self.row(number)[first : first + count]))


def one_cell():
    print("P1 P2 and the page")
    m = Told(1, 1)
    built = list(m.table)
    m.places(2, 5)
    m.flagged(2, 3, 4, 5)
    m.page()

    print("P3 P4 P5")
    m.tape(1, 0, 2)
    m.places(6, 14)
    m.flagged(6, 7, 8, 9)
    m.tape(2, 0, 6, 2, 0, 7, 2, 0, 8, 2, 0, 9, 3, 0, 2)
    print("rows of the build", "yes" if list(m.table) == built else "no")
    for capacity in (14, 13):
        Told(1, 1, capacity).tape(1, 0, 2)


def more_cells():
    print("P6 P7 P8")
    m = Told(2, 1)
    m.scan(2)
    m.tape(1, 0, 4)
    m.scan(1)
    m.flagged(17, 16, 11, 18)
    m.tape(4, 0, 6)
    m.flagged(3, 8, 9, 17, 16, 11, 18)
    m.tape(1, 0, 10)
    m.part(10, r.NE, 4)

    print("P9")
    m = Told(3, 1)
    m.tape(4, 0, 6)
    m.scan(1)
    m.part(6, r.N, 4)
    m.part(8, r.N, 4)


def no_jump():
    print("no jump of two levels")
    m = Told(2, 1)
    m.tape(1, 0, 4, 1, 0, 11)
    m.tape(1, 0, 6, 1, 0, 11)
    m.part(6, r.NE, 4)
    m.part(11, r.NE, 4)
    m.tape(2, 0, 17, 2, 0, 19, 2, 0, 16, 2, 0, 20, 3, 0, 6)
    m.tape(2, 0, 25, 2, 0, 26, 2, 0, 27, 2, 0, 28, 3, 0, 11, 3, 0, 6)
    m.scan(3)
    m.checked()


def ring():
    print("a ring")
    m = Told(1, 3, mode=r.RING)
    m.places(4, 9)
    m.part(4, r.N, 4)
    m.part(8, r.N, 4)
    m.flagged(4, 5, 8, 6, 7, 9)
    m.tape(1, 0, 8)
    m.places(10, 18)
    m.part(12, r.N, 4)
    m.part(14, r.N, 4)
    m.flagged(12, 13, 14, 15)
    m.lookup(0, 3 * 4096 - 1)
    m.lookup(0, 3 * 4096)
    m.tape(1, 0, 12)
    m.tape(4, 0, 4, 1, 0, 12)
    m.flagged(12, 13, 14, 15)
    m.lookup(0, 0)
    m.scan(3)
    m.page()
    m.checked()
    m.header = m.header._replace(mode=r.OPEN)
    m.checked()
    m.header = m.header._replace(mode=2)
    m.checked()
    Told(1, 2, mode=r.RING)
    Told(1, 3, mode=2)


def counts():
    print("how many cells lack a measurement")
    m = Told(2, 1)
    m.lacking()
    m.tape(1, 0, 4)
    m.lacking()
    m.tape(5, 0, 10, 0x3F, 0xF8, 0, 0, 0, 0, 0, 0)
    m.lacking()
    m.tape(5, 0, 6, 0x3F, 0xF8, 0, 0, 0, 0, 0, 0, 1, 0, 6)
    m.lacking()
    m.tape(5, 0, 11, 0x3F, 0xF8, 0, 0, 0, 0, 0, 0, 1, 0, 4, 1, 0, 11)
    m.lacking()
    m.tape(2, 0, 10, 2, 0, 11, 2, 0, 12, 2, 0, 13, 3, 0, 4)
    m.lacking()
    m.tape(4, 0, 4)
    m.lacking()
    m.checked()
    m.count(13, 0)
    m.count(0, 3)
    m.count(2**32 - 1, 2**32 - 1)
    m.counts[4] += 1
    m.checked()
    m.tape(1, 0, 16)
    m.count(1, 1)
    m.scan(3)
    m.counts[4] -= 1
    m.checked()
    m.counts = m.counts[:38]
    m.checked()
    m.tape(1, 0, 16)
    m.count(13, 0)
    m.counts = m.counts + [0, 0]
    m.checked()
    m.count(1, 2)


def points():
    print("P10 P11")
    m = Told(1, 1)
    m.lookup(4095, 4095)
    m.lookup(4096, 0)
    m.lookup(4097, 0)
    m.tape(1, 0, 2, 1, 0, 2)

    print("rated speed")
    m = Told(2, 2)
    m.tape(4, 0, 9)
    m.lookup(4096, 4096)
    m.lookup(8192, 4095)
    m.lookup(0, 8192)
    m.lookup(8192, 4096)
    m.lookup(4097, 4097)
    m.lookup(4294967295, 4294967295)
    m = Told(2, 2)
    m.tape(4, 0, 7)
    m.lookup(0, 4096)

    print("values")
    m = Told(1, 1)
    m.tape(5, 0, 2, 0x3F, 0xF8, 0, 0, 0, 0, 0, 0)
    m.lookup(0, 0)
    m.tape(1, 0, 2)
    m.lookup(4095, 0)
    m.page()
    return m


def refusals(m):
    print("refusals")
    m.scan(3, 3)
    m.scan(3, 40, ORDER[:3])
    m.page(10)
    m.checked()
    m.table = list(m.table)
    m.table[r.WORDS * 6 + r.FLAGS] += 1
    m.checked()
    m.lookup(0, 0)
    m.header = m.header._replace(rows=33)
    m.checked()
    m.capacity = 4
    m.table, m.values = m.table[: r.WORDS * 5], m.values[:5]
    m.checked()
    m.tape(1, 0, 2)


one_cell()
more_cells()
no_jump()
ring()
counts()
refusals(points())
