#!/usr/bin/env python3
"""Writes the worked cases that the program `cases` compares the core with.

The first cases are written out by hand, expectations and all, in cases-by-hand.txt. The others are
each order in states picked by chance, and programs of orders picked by chance; what is to be found
there is worked out by a model of the machine, which is written from the rules and shares nothing
with the core. The model also runs the cases by hand, and must agree with them.
Use: tools/cases.py > crates/cases/data/cases.txt
"""

import copy
import pathlib
import sys

WORD = 1 << 48
HALF = 1 << 47
PART = 1 << 16
SLOT = 1  # the slot of the program

# command: operands, nest cells needed and left, links needed and left
ORDERS = {}


def orders(first, last, operands, nest, links="00"):
    for command in range(first, last + 1):
        ORDERS[command] = (operands, int(nest[0]), int(nest[1]), int(links[0]), int(links[1]))


for command, nest in enumerate("01 12 10 22 33 33 21 21 11 11 21 11 21 21 21 11 00 00 10".split(), 0x01):
    orders(command, command, "", nest)
orders(0x14, 0x14, "", "01", "10")
orders(0x15, 0x15, "", "10", "01")
orders(0x16, 0x16, "", "10")
orders(0x20, 0x27, "q", "00")
orders(0x28, 0x2B, "q", "01")
orders(0x2C, 0x32, "q", "10")
orders(0x33, 0x35, "q", "11")
orders(0x38, 0x3D, "q", "00")
orders(0x40, 0x42, "n", "11")
orders(0x43, 0x43, "h", "00", "10")
orders(0x50, 0x50, "a", "00")
orders(0x51, 0x51, "a", "00", "01")
orders(0x52, 0x57, "a", "10")
orders(0x58, 0x5F, "a", "00")
orders(0x60, 0x60, "i", "01")
orders(0x68, 0x69, "qa", "00")
orders(0x70, 0x71, "qe", "01")
orders(0x72, 0x73, "qe", "10")
for command in (0x78, 0x7A, 0x7C):
    orders(command, command, "kq", "01")
    orders(command + 1, command + 1, "kq", "10")
orders(0x80, 0x86, "kq", "00")
assert len(ORDERS) == 90

BYTES = {"q": 1, "k": 1, "n": 1, "h": 1, "a": 2, "e": 2, "i": 2}

BOUNDS = [
    None,
    "LIV 1 place",
    "LOV 2 lock on its words",
    "LIV 3 known command",
    "LIV 4 q and k",
    "NOUV 5 nest and links short",
    "NOUV 6 nest and links over 16",
    "LIV 7 shift length",
    "LIV 8 address",
    "LIV 9 buffer",
    "LIV 10 I and M",
    "LOV 11 buffer busy",
    "LOV 12 lock on a word touched",
]


class Broke(Exception):
    """An order broke a bound."""


class Refused(Exception):
    """A device refused."""


def signed(x, modulus=WORD):
    return x - modulus if x >= modulus // 2 else x


class Device:
    def __init__(self, cells, capacity, reads, seeks, writing, mirrored=False):
        self.cells, self.head, self.capacity = list(cells), 0, capacity
        self.reads, self.seeks, self.writing, self.mirrored = reads, seeks, writing, mirrored

    def shown(self, symbol):
        return 63 - symbol if self.mirrored else symbol

    def read(self):
        if not self.reads:
            raise Refused("wrong way")
        if self.head == len(self.cells):
            raise Refused("no more")
        cell = self.cells[self.head]
        self.head += 1
        if cell == 64:
            raise Refused("damaged")
        return self.shown(cell)

    def write(self, symbol):
        if self.writing != "yes":
            raise Refused(self.writing)
        if self.head == self.capacity:
            raise Refused("full")
        self.cells[self.head : self.head + 1] = [self.shown(symbol % 64)]
        self.head += 1

    def seek(self, cell):
        if not self.seeks:
            raise Refused("wrong way")
        if cell > len(self.cells):
            raise Refused("no such cell")
        self.head = cell


def reader(frames):
    sound = lambda f: not f & 64 and bin(f).count("1") % 2 == 0
    return Device([f % 64 if sound(f) else 64 for f in frames], 4096, True, False, "wrong way")


def drum(writing="yes", mirrored=False):
    return Device([0] * 4096, 4096, True, True, writing, mirrored)


class Machine:
    def __init__(self):
        self.area, self.nest, self.links = [0] * 32, [], []  # nest and links: the newest last
        self.q = [[0, 0, 0] for _ in range(16)]
        self.v = self.t = self.place = self.count = 0
        self.owner, self.work = {}, {}  # of a buffer: its slot; ("seeking",) or ("moving", i, m)
        self.devices = {1: reader([]), 2: Device([], 4096, False, False, "yes"), 3: drum(),
                        4: drum("no ring"), 5: drum(mirrored=True)}
        self.outcome, self.before = "done", None
        self.seen = set()

    # the next order and its bounds

    def byte(self, place):
        place %= PART
        return self.area[place // 6] >> (8 * (5 - place % 6)) & 255

    def locked(self, address):
        for n, work in self.work.items():
            if self.owner.get(n) == SLOT and work[0] == "moving":
                if work[1] // 32 <= address // 32 <= work[2] // 32:
                    return True
        return False

    def need(self, bound, holds):
        if not holds:
            self.seen.add(("bound", bound))
            raise Broke(BOUNDS[bound])

    def decode(self):
        inside = lambda place: place % PART < 6 * len(self.area)
        self.need(1, inside(self.place))
        command = self.byte(self.place)
        operands, *cells = ORDERS.get(command, ("", 0, 0, 0, 0))
        length = 1 + sum(BYTES[o] for o in operands)
        places = [(self.place + k) % PART for k in range(length)]
        self.need(1, all(inside(p) for p in places))
        self.need(2, not any(self.locked(p // 6) for p in places))
        self.need(3, command in ORDERS)
        values, at = {}, self.place + 1
        for o in operands:
            data = bytes(self.byte(at + k) for k in range(BYTES[o]))
            values[o] = int.from_bytes(data, "big", signed=o in "ni")
            at += BYTES[o]
        self.need(4, all(values.get(o, 0) <= 15 for o in "qk"))
        needed, left, links_needed, links_left = cells
        self.need(5, len(self.nest) >= needed and len(self.links) >= links_needed)
        self.need(6, len(self.nest) - needed + left <= 16)
        self.need(6, len(self.links) - links_needed + links_left <= 16)
        return command, values, at % PART

    def attempt(self):
        try:
            command, values, after = self.decode()
            self.outcome = "done"
            place, self.place = self.place, after
            try:
                self.order(command, **values)
            except (Broke, Refused):
                self.place = place
                raise
            self.count += 1
            self.seen.add(("order", command))
        except Broke as broke:
            self.outcome = str(broke)
        return self.outcome.startswith("done")

    # the orders

    def push(self, x):
        self.nest.append(x % WORD)

    def pop(self):
        return self.nest.pop()

    def number(self, x):
        """Pushes a number that may overflow."""
        if not -HALF <= x < HALF:
            self.v = 1
        self.push(x)

    def jump(self, a, goes):
        if goes:
            self.place = a

    def order(self, c, q=0, k=0, n=0, h=0, a=0, e=0, i=0):
        if c <= 0x06:
            self.order_move(c)
        elif c <= 0x10:
            self.order_words(c)
        elif c <= 0x16:
            self.order_control(c)
        elif c <= 0x32:
            self.order_q(c, q)
        elif c <= 0x35:
            self.order_shift(c - 0x33, signed(self.q[q][0], PART), 96, 96)
        elif c <= 0x3D:
            self.order_transfer(c, *self.q[q])
        elif c <= 0x42:
            self.order_shift(c - 0x40, n, 64, 63)
        elif c == 0x43:
            self.place = (self.links.pop() + 3 * h) % PART
        elif c <= 0x5F:
            self.order_jump(c, a)
        elif c == 0x60:
            self.push(i)
        elif c <= 0x69:
            self.jump(a, (self.q[q][0] == 0) == (c == 0x68))
        elif c <= 0x7D:
            self.order_store(c, k, q, e)
        else:
            for part, of in enumerate(("CQ", "IQ", "MQ")):
                parts = ["M", "I", "IM", "C", "CM", "CI", "Q"][c - 0x80]
                if set(parts) & set(of):
                    self.q[q][part] = self.q[k][part]
        self.q[0] = [0, 0, 0]

    def order_move(self, c):
        s = self.nest
        if c == 0x01:
            self.push(0)
        elif c == 0x02:
            self.push(s[-1])
        elif c == 0x03:
            s.pop()
        elif c == 0x04:
            s[-2:] = [s[-1], s[-2]]
        else:
            n1, n2, n3 = s[-1], s[-2], s[-3]
            new = (n2, n3, n1) if c == 0x05 else (n3, n1, n2)
            s[-3:] = [new[2], new[1], new[0]]

    def order_words(self, c):
        n1 = self.pop()
        if c in (0x09, 0x0A, 0x0C, 0x10):
            x = signed(n1)
            if c == 0x09:
                self.number(-x)
            elif c == 0x0A:
                self.number(abs(x))
            elif c == 0x0C:
                self.push(WORD - 1 - n1)
            else:
                self.push(bin(n1).count("1"))
            return
        n2 = self.pop()
        x, y = signed(n2), signed(n1)
        if c == 0x07:
            self.number(x + y)
        elif c == 0x08:
            self.number(x - y)
        elif c == 0x0B:
            self.push((x > y) - (x < y))
        else:
            self.push({0x0D: n2 & n1, 0x0E: n2 | n1, 0x0F: n2 ^ n1}[c])

    def order_control(self, c):
        if c == 0x12:
            self.v = 0
        elif c == 0x13:
            self.t = self.pop() // HALF
        elif c == 0x14:
            self.push(self.links.pop())
        elif c == 0x15:
            self.links.append(self.pop() % PART)
        elif c == 0x16:
            self.outcome = f"OUT {self.pop()}"

    def order_q(self, c, q):
        C, I, M = self.q[q]
        if c <= 0x27:
            self.q[q] = {
                0x20: [C, I, (M + I) % PART], 0x21: [C, I, (M - I) % PART],
                0x22: [-C % PART, I, M], 0x23: [(C - 1) % PART, I, M],
                0x24: [C, 1, M], 0x25: [C, 65535, M], 0x26: [C, 2, M], 0x27: [C, 65534, M],
            }[c]
        elif c == 0x28:
            self.push((C << 32) + (I << 16) + M)
        elif c <= 0x2B:
            self.push(signed(self.q[q][c - 0x29], PART))
        else:
            x = self.pop()
            if c == 0x2C:
                self.q[q] = [x >> 32, x >> 16 & 65535, x & 65535]
                return
            if c >= 0x30:
                self.q[q] = [0, 1, 0]
            self.q[q][(c - 0x2D) % 3] = x % PART

    def order_shift(self, kind, length, right, left):
        if kind == 2:
            right = left = 48
        self.need(7, -right <= length <= left)
        x = self.pop()
        if kind == 2:
            self.push((x << length % 48) % WORD | x >> (48 - length % 48))
        elif kind == 1:
            self.push(x << length if length >= 0 else x >> -length)
        elif length >= 0:
            self.number(signed(x) << length)
        else:
            self.push((signed(x) + (1 << -length - 1)) >> -length)

    def order_jump(self, c, a):
        if c == 0x50:
            return self.jump(a, True)
        if c == 0x51:
            self.links.append(self.place)
            return self.jump(a, True)
        if c <= 0x57:
            x = signed(self.pop())
            return self.jump(a, [x == 0, x != 0, x < 0, x >= 0, x > 0, x <= 0][c - 0x52])
        state = [not self.nest, not self.links, self.t == 1, self.v == 1][(c - 0x58) // 2]
        if c >= 0x5E:
            self.v = 0
        elif c >= 0x5C:
            self.t = 0
        # JEN, JEJ, JTR and JV are even
        self.jump(a, state == (c % 2 == 0))

    def order_store(self, c, k, q, e):
        mk, mq = self.q[k][2], self.q[q][2]
        half = c in (0x7C, 0x7D)
        address = (e + mq if c <= 0x73 else mk + (mq // 2 if half else mq)) % PART
        self.need(8, address < len(self.area))
        self.need(12, not self.locked(address))
        word = self.area[address] % WORD
        shift = 0 if mq % 2 else 24
        if c in (0x70, 0x71, 0x78, 0x7A):
            self.push(word)
        elif half and c == 0x7C:
            self.push((word >> shift) % (1 << 24) << 24)
        elif half:
            upper = self.pop() >> 24
            kept = word % (1 << 24) if shift else word >> 24 << 24
            self.area[address] = kept + (upper << shift)
        else:
            self.area[address] = self.pop()
        if c in (0x71, 0x73, 0x7A, 0x7B):
            C, I, M = self.q[q]
            self.q[q] = [(C - 1) % PART, I, (M + I) % PART]

    def order_transfer(self, c, n, i, m):
        self.need(9, n <= 15 and self.owner.get(n) == SLOT)
        if c <= 0x3B:
            self.need(10, i <= m < len(self.area))
        if c == 0x3D:
            self.t = int(n in self.work)
            return
        self.need(11, n not in self.work)
        if c <= 0x3B:
            self.need(12, not any(self.locked(w) for w in range(i, m + 1)))
        moved = [0]
        try:
            if n not in self.devices:
                raise Refused("nothing there")
            if c == 0x3C:
                self.devices[n].seek(m)
            elif c <= 0x39:
                self.read_words(self.devices[n], c == 0x39, i, m, moved)
            else:
                self.write_words(self.devices[n], c == 0x3B, i, m, moved)
        except Refused as refused:
            asked = {0x3C: "seek"}.get(c, "read" if c <= 0x39 else "write")
            self.seen.add((asked, str(refused)))
            raise Broke(f"DEV {n} {refused}, {moved[0]} moved")
        self.work[n] = ("seeking",) if c == 0x3C else ("moving", i, m)
        if moved[0]:
            self.outcome = f"done, {moved[0]} moved"

    def read_words(self, device, ends, i, m, moved):
        for address in range(i, m + 1):
            word = 0
            for k in range(8):
                try:
                    symbol = device.read()
                except Refused:
                    if k:
                        self.area[address] = word
                    raise
                moved[0] += 1
                word += symbol << 42 - 6 * k
                if ends and symbol == 61:
                    self.area[address] = word
                    return
            self.area[address] = word

    def write_words(self, device, ends, i, m, moved):
        for address in range(i, m + 1):
            for k in range(8):
                symbol = self.area[address] >> 42 - 6 * k & 63
                device.write(symbol)
                moved[0] += 1
                if ends and symbol == 61:
                    return

    # the lines of a case

    def give(self, key, x):
        if key == "size":
            self.area = [0] * x[0]
        elif key == "word":
            self.area[x[0] : x[0] + len(x) - 1] = x[1:]
        elif key == "nest":
            self.nest = [n % WORD for n in reversed(x)]
        elif key == "links":
            self.links = list(reversed(x))
        elif key == "q":
            self.q[x[0]] = [p % PART for p in x[1:]] if x[0] else [0, 0, 0]
        elif key in ("v", "t", "place"):
            setattr(self, key, x[0])
        elif key == "allot":
            self.owner[x[0]] = x[1] if len(x) > 1 else SLOT
        elif key in ("seeking", "moving"):
            self.work[x[0]] = (key, *x[1:])
        elif key == "head":
            self.devices[x[0]].seek(x[1])
        elif key == "fill":
            for _ in range(x[1]):
                self.devices[x[0]].write(0)
        elif key == "cells":
            self.devices[x[0]].seek(x[1])
            for symbol in x[2:]:
                self.devices[x[0]].write(symbol)
            self.devices[x[0]].seek(0)
        else:
            raise ValueError(key)

    def found(self, key, x):
        if key == "nest":
            return list(reversed(self.nest))
        if key == "links":
            return list(reversed(self.links))
        if key == "changed":
            return [a for a, b in enumerate(self.before) if self.area[a] != b]
        if key == "punched":
            return self.devices[2].cells
        if key == "word":
            return [x[0]] + self.area[x[0] : x[0] + len(x) - 1]
        if key == "cells":
            device = self.devices[x[0]]
            shown = device.cells[x[1] : x[1] + len(x) - 2]
            device.head = x[1] + len(x) - 2
            return x[:2] + [device.shown(s) for s in shown]
        if key == "q":
            return [x[0]] + self.q[x[0]]
        if key in ("idle", "seeking", "moving"):
            work = self.work.get(x[0], ("idle",))
            return [x[0], *work[1:]] if work[0] == key else []
        if key == "head":
            return [x[0], self.devices[x[0]].head]
        return [getattr(self, key)]

    def line(self, line):
        """Carries out a line of a case; what is found, where it says what to find."""
        key, _, rest = line.partition(" ")
        if key == "expect":
            return rest, self.outcome
        if key == "tape":
            self.devices[1] = reader(bytes.fromhex(rest))
            return None
        if key == "code":
            place, _, code = rest.partition(" ")
            for k, byte in enumerate(bytes.fromhex(code)):
                at = (int(place) + k) % PART
                shift = 8 * (5 - at % 6)
                self.area[at // 6] = self.area[at // 6] & ~(255 << shift) | byte << shift
            return None
        x = [int(n) for n in rest.replace("/", " ").split()]
        if key == "steps":
            if self.before is None:
                self.before = list(self.area)
            for _ in range(x[0]):
                if not self.attempt():
                    break
        elif key == "end":
            self.work.pop(x[0], None)
        elif self.before is None:
            self.give(key, x)
        else:
            modulus = {"nest": WORD, "q": PART}.get(key)
            return [n % modulus if modulus and n < 0 else n for n in x], self.found(key, x)
        return None

    def expectations(self):
        """All that can be compared, after the last order."""
        numbers = lambda name, items: " ".join([name, *map(str, items)])
        yield "expect " + self.outcome
        yield f"place {self.place}"
        yield f"count {self.count}"
        yield numbers("nest", reversed(self.nest))
        yield numbers("links", reversed(self.links))
        yield f"v {self.v}"
        yield f"t {self.t}"
        for n, (c, i, m) in enumerate(self.q):
            if c or i or m or n in self.named:
                yield f"q {n} {c}/{i}/{m}"
        changed = self.found("changed", [])
        yield numbers("changed", changed)
        for address in changed:
            yield f"word {address} {self.area[address]}"
        for n in sorted(self.owner):
            yield numbers(self.work.get(n, ("idle",))[0], [n, *self.work.get(n, ("idle",))[1:]])
            if n in self.devices:
                yield f"head {n} {self.devices[n].head}"
                if n == 2:
                    yield numbers("punched", self.devices[2].cells)


def cases_of(text):
    """The cases of a text: name and lines."""
    cases = []
    for line in text.splitlines():
        line = line.split("#")[0].strip()
        if line.startswith("case "):
            cases.append((line[5:], []))
        elif line:
            cases[-1][1].append(line)
    return cases


def run(name, lines):
    machine = Machine()
    for line in lines:
        answer = machine.line(line)
        if answer and answer[0] != answer[1]:
            sys.exit(f"{name}: {line}: the model found {answer[1]}")
    machine.named = {int(line.split()[1]) for line in lines if line.startswith("q ")}
    return machine


def check_cover(names, seen):
    assert len(names) == len(set(names)), "a name stands twice"
    assert {c for kind, c in seen if kind == "order"} == set(ORDERS)
    assert {b for kind, b in seen if kind == "bound"} == set(range(1, 13))
    refusals = {(a, r) for a, r in seen if a in ("read", "write", "seek")}
    assert refusals == {
        ("read", "wrong way"), ("read", "no more"), ("read", "damaged"), ("read", "nothing there"),
        ("write", "wrong way"), ("write", "no ring"), ("write", "full"), ("write", "nothing there"),
        ("seek", "wrong way"), ("seek", "no such cell"), ("seek", "nothing there"),
    }, refusals


class Chance:
    """Numbers by chance, the same in every run."""

    def __init__(self, seed):
        self.state = seed

    def below(self, n):
        self.state = (self.state * 6364136223846793005 + 1442695040888963407) % (1 << 64)
        return (self.state >> 33) % n

    def of(self, items):
        return items[self.below(len(items))]

    def word(self):
        kind = self.below(4)
        if kind == 0:
            return self.of([0, 1, 2, 3, -1, -2, -3, HALF - 1, -HALF, 1 - HALF, HALF // 2])
        if kind == 1:
            return self.below(1000) - 500
        return (self.below(1 << 24) << 24) + self.below(1 << 24)

    def q(self):
        part = lambda: self.of([0, 1, 2, 65535, self.below(8), self.below(65536)])
        return f"{part()}/{part()}/{self.of([self.below(64), part()])}"


NAMES = {
    0x01: "ZERO DUP ERASE REV PERM CAB + - NEG ABS SIGN NOT AND OR NEV BITS DUMMY VR =TR LINK =LINK OUT",
    0x20: "M+I M-I NC DC I=1 I=-1 I=2 I=-2 Q C I M =Q =C =I =M =RC =RI =RM SHAC SHLC SHCC",
    0x38: "RD RDE WR WRE SEEK BUSY", 0x40: "SHA SHL SHC EXIT",
    0x50: "J JS J=Z J!Z J<Z J>=Z J>Z J<=Z JEN JNEN JEJ JNEJ JTR JNTR JV JNV SET",
    0x68: "JCZ JCNZ", 0x70: "E EQ =E =EQ", 0x78: "MM =MM MMQ =MMQ MMH =MMH",
    0x80: "MTO ITO IMTO CTO CMTO CITO QTO",
}
NAME = {first + k: n for first, row in NAMES.items() for k, n in enumerate(row.split())}
assert set(NAME) == set(ORDERS)


def start_by_chance(chance, qs, stores, transfers):
    """How a case by chance begins. Orders stand in group 0; words 32 to 63 are stored in, the next 64 moved."""
    lines = []
    entry = lambda: chance.below(1 << 16) << 40 | chance.below(1 << 31) << 9 | chance.below(1 << 9)
    entries = lambda first: " ".join([f"word {first}", *(str(entry()) for _ in range(8))])
    if stores or transfers:
        lines.append("size 128" if transfers else "size 64")
    if transfers:
        sound = lambda s: s + 128 * (bin(s).count("1") % 2)
        frames = [chance.of([0xBD, chance.below(256), *map(sound, range(64))]) for _ in range(20)]
        lines.append("tape " + " ".join(f"{f:02X}" for f in frames))
        for q, n, first in ((4, 1, 64), (5, 2, 96), (6, chance.of([3, 4, 5]), 96)):
            at = first + chance.below(6)
            lines += [f"allot {n}", f"q {q} {n}/{at}/{at + chance.below(3)}"]
        lines += [entries(64), entries(96)]
    if stores:
        at = 32 + chance.below(6)
        lines += [entries(32), f"q 7 {chance.below(97) - 48}/{chance.below(3)}/{at}"]
    lines.append(" ".join(["nest", *(str(chance.word()) for _ in range(3 + chance.below(3)))]))
    lines.append(" ".join(["links", *(str(chance.below(200)) for _ in range(1 + chance.below(3)))]))
    lines += [f"q {n} {chance.q()}" for n in (1, 2, 3)[:qs]]
    lines += [f"v {chance.below(2)}", f"t {chance.below(2)}"]
    return lines


def code_by_chance(chance, command, q, after):
    """An order with operands by chance; its q is one of some, a jump goes on after some place."""
    code = [command]
    for o in ORDERS[command][0]:
        if o == "q":
            code.append(q)
        elif o == "k":
            code.append(0 if 0x78 <= command <= 0x7D else chance.below(4))
        elif o == "n":
            code.append((chance.below(97) - 48) % 256)
        elif o == "h":
            code.append(chance.below(4))
        elif o == "a":
            code += [0, after + chance.below(6)]
        elif o == "e":
            code += chance.of([[0, 0], [0, chance.below(4)], [255, 252]])
        else:
            code += [chance.below(256), chance.below(256)]
    return code


def q_for(chance, command):
    if 0x38 <= command <= 0x3D:
        return chance.of([4, 5, 6])
    return 7 if 0x70 <= command <= 0x7D else chance.below(4)


def orders_by_chance():
    """Each order twice, alone."""
    for command in sorted(ORDERS):
        for time in (1, 2):
            chance = Chance(1000 * time + command)
            transfer, store = 0x38 <= command <= 0x3D, 0x70 <= command <= 0x7D
            qs = 0 if transfer or store else len(set(ORDERS[command][0]) & set("qk")) * 2
            lines = start_by_chance(chance, qs, store, transfer)
            place = chance.below(180)
            q = q_for(chance, command)
            if 0x33 <= command <= 0x35:
                lines.append(f"q {q} {chance.below(97) - 48}/0/0")
            code = code_by_chance(chance, command, q, 100)
            lines += [f"place {place}", f"code {place} " + " ".join(f"{b:02X}" for b in code)]
            yield f"{NAME[command]}, state {time}", [*lines, "steps 1"]


def grow(machine, chance, place):
    """An order by chance at a place, and the machine after it, if it is done and goes on there."""
    command = chance.of(sorted(ORDERS))
    code = code_by_chance(chance, command, q_for(chance, command), place + 4)
    line = f"code {place} " + " ".join(f"{b:02X}" for b in code)
    grown = copy.deepcopy(machine)
    grown.line(line)
    done = grown.attempt()
    ends = place + len(code)
    fits = ends <= grown.place <= 180 and ends <= 186
    return line, grown if done and fits else None


def programs_by_chance(count):
    """Programs of orders by chance, the last of which need not be done."""
    for number in range(1, count + 1):
        chance = Chance(77 * number)
        lines = start_by_chance(chance, 3, True, True)
        machine = Machine()
        for line in lines:
            machine.line(line)
        for _ in range(200):
            line, grown = grow(machine, chance, machine.place)
            if grown:
                lines.append(line)
                machine = grown
        lines.append(line)
        yield f"program {number}", [*lines, "steps 200"]


HEADER = """\
# Worked cases of one program over a bank. In each case the lines before `steps` say how it begins,
# `steps` tries so many orders or those up to the first that does not go on, and the lines after it
# say what is to be found. All is zero, empty and idle at first, and the area has 32 words.
# On buffer 1 is a tape reader, on 2 a punch, on 3 a drum, on 4 a drum without its ring, on 5 a drum
# behind a code changer that shows symbol s as 63 - s. The program is in slot 1.
#
#   size N            words of the area                 expect OUTCOME    what the last order came to
#   code P HEX ..     bytes from place P on             count N           orders done
#   tape HEX ..       frames of the reader              place N, v N, t N
#   word A X ..       the entries from A on             word A X ..
#   nest X ..         N1 first                          nest X ..
#   links P ..        the newest first                  links P ..
#   q N C/I/M                                           q N C/I/M
#   place N, v N, t N                                   changed A ..      all words that changed
#   allot N [SLOT]    a buffer to the program           idle N, seeking N, moving N I M
#   seeking N, moving N I M   busy from the start       head N CELL
#   head N CELL       by a seek                         punched S ..      all that was punched
#   fill N COUNT      zeros written                     cells N FROM S .. the cells there, by reading
#   cells N FROM S .. symbols written, then head 0      end N             the host ends a transfer
"""


def main():
    by_hand = (pathlib.Path(__file__).parent / "cases-by-hand.txt").read_text()
    names, seen = [], set()
    print(HEADER)
    print("# By hand.\n")
    for name, lines in cases_of(by_hand):
        seen |= run(name, lines).seen
        names.append(name)
        after = " ".join(lines).split(" steps ")[-1]
        assert " expect " in after and " place " in after, name
    print(by_hand.strip())
    print("\n# By the model.\n")
    for name, lines in [*orders_by_chance(), *programs_by_chance(20)]:
        machine = run(name, lines)
        seen |= machine.seen
        names.append(name)
        print("\n".join([f"case {name}", *lines, *machine.expectations(), ""]))
    check_cover(names, seen)
    print(f"{len(names)} cases, {len(cases_of(by_hand))} by hand", file=sys.stderr)


if __name__ == "__main__":
    main()
