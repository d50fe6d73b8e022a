#!/usr/bin/env python3
"""Writes the values that crates/word_values compares with the functions of crates/word.

Run it at the top of the repository: tools/word-values.py > crates/word_values/data/values.txt
A line is a function's name, its arguments, '=', and its results. Everything is computed here from the rules, with
whole numbers of any size and with lists of 48 bits, D0 first; nothing is taken from the crate. The output is always
the same.
"""

WORD = 2**48
PART = 2**16
LOWEST, HIGHEST = -(2**47), 2**47 - 1


# ---- the rules

def word(n):
    """The word that is left of a number."""
    return n % WORD


def number(x):
    """The number that a word stands for."""
    return x if x <= HIGHEST else x - WORD


def overflows(n):
    return int(n < LOWEST or n > HIGHEST)


def checked(n):
    return [word(n), overflows(n)]


def bits(x):
    """The 48 bits of a word, D0 first."""
    return [int(c) for c in format(x, '048b')]


def unbits(places):
    return int(''.join(str(b) for b in places), 2)


def places(a, b, rule):
    return [unbits([rule(p, q) for p, q in zip(bits(a), bits(b))])]


def logical(length, x):
    b, zeros = bits(x), [0] * abs(length)
    return [unbits((b + zeros)[-48:] if length >= 0 else (zeros + b)[:48])]


def arithmetic(length, x):
    if length >= 0:
        return checked(number(x) * 2**length)
    return checked((number(x) + 2**(-length - 1)) // 2**-length)


def cyclic(length, x):
    if abs(length) > 48:
        return ['none']
    b = bits(x)
    for _ in range(abs(length)):
        b = b[1:] + b[:1] if length > 0 else b[-1:] + b[:-1]
    return [unbits(b)]


def part_number(p):
    """The number that a part stands for on the nest."""
    return p if p < 2**15 else p - PART


def split_q(x):
    b = bits(x)
    return [unbits(b[at:at + 16]) for at in (0, 16, 32)]


def join_q(c, i, m):
    return [unbits([int(d) for p in (c, i, m) for d in format(p, '016b')])]


def symbols(x):
    b = bits(x)
    return [unbits(b[at:at + 6]) for at in range(0, 48, 6)]


def pack(*eight):
    return [unbits([int(d) for s in eight for d in format(s % 64, '06b')])]


ONE_WORD = {
    'bits': lambda x: [x],
    'value': lambda x: [number(x)],
    'neg': lambda x: checked(-number(x)),
    'abs': lambda x: checked(abs(number(x))),
    'not': lambda x: [unbits([1 - p for p in bits(x)])],
    'ones': lambda x: [sum(bits(x))],
    'upper': lambda x: [unbits(bits(x)[:24] + [0] * 24)],
    'lower': lambda x: [unbits(bits(x)[24:] + [0] * 24)],
    'word_part': lambda x: [x % PART],
    'from_word': split_q,
    'split': symbols,
}
TWO_WORDS = {
    'add': lambda a, b: checked(number(a) + number(b)),
    'sub': lambda a, b: checked(number(a) - number(b)),
    'sign': lambda a, b: [word((number(a) > number(b)) - (number(a) < number(b)))],
    'and': lambda a, b: places(a, b, lambda p, q: p * q),
    'or': lambda a, b: places(a, b, lambda p, q: max(p, q)),
    'nev': lambda a, b: places(a, b, lambda p, q: int(p != q)),
    'with_upper': lambda a, b: [unbits(bits(b)[:24] + bits(a)[24:])],
    'with_lower': lambda a, b: [unbits(bits(a)[:24] + bits(b)[:24])],
}
SHIFTS = {'shift_logical': logical, 'shift_arithmetic': arithmetic, 'shift_cyclic': cyclic}
ONE_Q = {
    'word': join_q,
    'advance': lambda c, i, m: [c, i, (m + i) % PART],
    'retreat': lambda c, i, m: [c, i, (m - i) % PART],
    'negate_count': lambda c, i, m: [-c % PART, i, m],
    'count_down': lambda c, i, m: [(c - 1) % PART, i, m],
}
PART_AND_Q = {
    'with_c': lambda p, c, i, m: [p, i, m],
    'with_i': lambda p, c, i, m: [c, p, m],
    'with_m': lambda p, c, i, m: [c, i, p],
}
ONE_PART = {
    'part_word': lambda p: [word(part_number(p))],
    'link_word': lambda p: [p],
}
NUMBERS = {
    'new': (lambda n: [n % WORD], [0, 1, WORD - 1, WORD, WORD + 5, 2**63, 2**64 - 1, 2**64 - WORD]),
    'checked': (checked, [0, 1, -1, LOWEST - 1, LOWEST, LOWEST + 1, HIGHEST - 1, HIGHEST, HIGHEST + 1, WORD, -WORD, 2**63 - 1, -2**63]),
    'from_i16': (lambda n: [word(n)], [0, 1, 2, -1, -2, 32767, -32768, -32767, 255, -256]),
}


# ---- the values that are tried

class Picks:
    """Numbers that look like chance and are always the same."""

    def __init__(self):
        self.state = 1963

    def below(self, n):
        self.state = (self.state * 6364136223846793005 + 1442695040888963407) % 2**64
        return (self.state >> 11) % n


picks = Picks()
EXTREMES = [0, 1, 3, WORD - 1, WORD - 3, 2**47 - 1, 2**47, 2**47 + 1]
WORDS = EXTREMES + [2, 63, 64, 65535, 65536, 2**24 - 1, 2**24, 2**32, 2**46, 2**46 - 1, 2**46 + 2**47, WORD - 2**46 - 1, 0x0123456789AB, 0xFEDCBA987654] + [picks.below(WORD) for _ in range(8)]
LENGTHS = [-96, -95, -72, -65, -64, -63, -50, -49, -48, -47, -46, -25, -24, -7, -2, -1, 0, 1, 2, 7, 24, 25, 46, 47, 48, 49, 50, 63, 64, 65, 72, 95, 96]
SHIFTED = [0, 1, 3, WORD - 1, WORD - 3, 2**47 - 1, 2**47, 2**46, WORD - 2**46, 0x123456789ABC]
PARTS = [0, 1, 2, 3, 32767, 32768, 32769, 65533, 65534, 65535, 1000, 40000]
QS = [(0, 0, 0), (1, 1, 1), (65535, 65535, 65535), (0, 1, 0), (0, 1, 65535), (32768, 65535, 0), (65535, 2, 65534), (7, 65534, 1), (32767, 32768, 32768)] + [tuple(picks.below(PART) for _ in range(3)) for _ in range(4)]
PACKED = [[0] * 8, [63] * 8, list(range(1, 9)), [33, 61] + [0] * 6, [61] + [0] * 7, [0] * 7 + [61], [64] * 8, [255, 128, 127, 64, 63, 1, 0, 200]] + [[picks.below(64) for _ in range(8)] for _ in range(4)]


def put(name, arguments, results):
    print(name, *arguments, '=', *results)


def main():
    print('# Written by tools/word-values.py: name, arguments, =, results.')
    for name, (rule, tried) in NUMBERS.items():
        for n in tried:
            put(name, [n], rule(n))
    for name, rule in ONE_WORD.items():
        for x in WORDS:
            put(name, [x], rule(x))
    for name, rule in TWO_WORDS.items():
        pairs = [(a, b) for a in EXTREMES for b in EXTREMES] + [(picks.below(WORD), picks.below(WORD)) for _ in range(6)]
        for a, b in pairs:
            put(name, [a, b], rule(a, b))
    for name, rule in SHIFTS.items():
        for length in LENGTHS:
            for x in SHIFTED:
                put(name, [length, x], rule(length, x))
    for name, rule in ONE_Q.items():
        for q in QS:
            put(name, q, rule(*q))
    for name, rule in PART_AND_Q.items():
        for p, q in zip(PARTS, QS):
            put(name, (p, *q), rule(p, *q))
    for name, rule in ONE_PART.items():
        for p in PARTS:
            put(name, [p], rule(p))
    for base in PARTS:
        for modifier in (0, 1, 32768, 65535):
            put('address', [base, modifier], [(base + modifier) % PART])
    for eight in PACKED:
        put('pack', eight, pack(*eight))


main()
