#!/usr/bin/env python3
"""Writes the values that the program order_values compares the decoder and the table with.

It holds a list of the orders of its own, from the rules of the machine, and decodes on its own.
Use: tools/order-values.py > crates/order_values/data/order-values.txt
"""

# command: name, operands, nest cells needed and left, links needed and left
ORDERS = {
    0x01: ("ZERO", "", 0, 1, 0, 0), 0x02: ("DUP", "", 1, 2, 0, 0), 0x03: ("ERASE", "", 1, 0, 0, 0),
    0x04: ("REV", "", 2, 2, 0, 0), 0x05: ("PERM", "", 3, 3, 0, 0), 0x06: ("CAB", "", 3, 3, 0, 0),
    0x07: ("+", "", 2, 1, 0, 0), 0x08: ("-", "", 2, 1, 0, 0), 0x09: ("NEG", "", 1, 1, 0, 0),
    0x0A: ("ABS", "", 1, 1, 0, 0), 0x0B: ("SIGN", "", 2, 1, 0, 0), 0x0C: ("NOT", "", 1, 1, 0, 0),
    0x0D: ("AND", "", 2, 1, 0, 0), 0x0E: ("OR", "", 2, 1, 0, 0), 0x0F: ("NEV", "", 2, 1, 0, 0),
    0x10: ("BITS", "", 1, 1, 0, 0), 0x11: ("DUMMY", "", 0, 0, 0, 0), 0x12: ("VR", "", 0, 0, 0, 0),
    0x13: ("=TR", "", 1, 0, 0, 0), 0x14: ("LINK", "", 0, 1, 1, 0), 0x15: ("=LINK", "", 1, 0, 0, 1),
    0x16: ("OUT", "", 1, 0, 0, 0),
    0x43: ("EXIT", "h", 0, 0, 1, 0),
    0x50: ("J", "a", 0, 0, 0, 0), 0x51: ("JS", "a", 0, 0, 0, 1),
    0x60: ("SET", "i", 0, 1, 0, 0),
    0x68: ("JCZ", "qa", 0, 0, 0, 0), 0x69: ("JCNZ", "qa", 0, 0, 0, 0),
    0x70: ("E", "qe", 0, 1, 0, 0), 0x71: ("EQ", "qe", 0, 1, 0, 0),
    0x72: ("=E", "qe", 1, 0, 0, 0), 0x73: ("=EQ", "qe", 1, 0, 0, 0),
    0x78: ("MM", "kq", 0, 1, 0, 0), 0x79: ("=MM", "kq", 1, 0, 0, 0),
    0x7A: ("MMQ", "kq", 0, 1, 0, 0), 0x7B: ("=MMQ", "kq", 1, 0, 0, 0),
    0x7C: ("MMH", "kq", 0, 1, 0, 0), 0x7D: ("=MMH", "kq", 1, 0, 0, 0),
}


def run(first, names, operands, *cells):
    for command, name in enumerate(names.split(), first):
        ORDERS[command] = (name, operands, *cells)


run(0x20, "M+I M-I NC DC I=1 I=-1 I=2 I=-2", "q", 0, 0, 0, 0)
run(0x28, "Q C I M", "q", 0, 1, 0, 0)
run(0x2C, "=Q =C =I =M =RC =RI =RM", "q", 1, 0, 0, 0)
run(0x33, "SHAC SHLC SHCC", "q", 1, 1, 0, 0)
run(0x38, "RD RDE WR WRE SEEK BUSY", "q", 0, 0, 0, 0)
run(0x40, "SHA SHL SHC", "n", 1, 1, 0, 0)
run(0x52, "J=Z J#Z J<Z J>=Z J>Z J<=Z", "a", 1, 0, 0, 0)
run(0x58, "JEN JNEN JEJ JNEJ JTR JNTR JV JNV", "a", 0, 0, 0, 0)
run(0x80, "MTO ITO IMTO CTO CMTO CITO QTO", "kq", 0, 0, 0, 0)
assert len(ORDERS) == 90

BYTES = {"q": 1, "k": 1, "n": 1, "h": 1, "a": 2, "e": 2, "i": 2}


def value(code):
    """What the bytes say: the order, and the row of its command."""
    if code[0] not in ORDERS:
        return "unknown command; length 1, nest 0 to 0, links 0 to 0"
    name, operands, *cells = ORDERS[code[0]]
    words, at, fits = [name], 1, True
    for kind in operands:
        part = bytes(code[at : at + BYTES[kind]]).ljust(BYTES[kind], b"\0")
        number = int.from_bytes(part, "big", signed=kind in "ni")
        fits = fits and (kind not in "qk" or number <= 15)
        words.append(str(number))
        at += BYTES[kind]
    text = " ".join(words) if fits else "q or k over 15"
    needed, left, links, links_left = cells
    return f"{text}; length {at}, nest {needed} to {left}, links {links} to {links_left}"


# operand bytes that are tried with each kind of operands: the ends of each range and past them
TRIED = {
    "": [[], [0xFF, 0xFF, 0xFF]],
    "q": [[7], [0x0F], [0x10]],
    "n": [[0x7F], [0x80], [0xFF]],
    "h": [[0], [1], [0xFF]],
    "a": [[0x01, 0x02], [0xFF, 0xFE]],
    "i": [[0x00, 0x02], [0x7F, 0xFF], [0x80, 0x00], [0xFF, 0xFE]],
    "qa": [[0x01, 0x02, 0x03], [0x0F, 0xFF, 0xFE], [0x10, 0x00, 0x00]],
    "qe": [[0x01, 0x02, 0x03], [0x0F, 0xFF, 0xFE], [0x10, 0x00, 0x00]],
    "kq": [[0x01, 0x02], [0x0F, 0x00], [0x00, 0x0F], [0x10, 0x00], [0x00, 0x10], [0xFF, 0xFF]],
}


def main():
    print("# bytes = the order that they say; length, cells of the nest and links needed and left")
    for command in range(256):
        for operands in TRIED[ORDERS[command][1]] if command in ORDERS else [[], [0x10, 0x10]]:
            code = [command] + operands
            print(" ".join(f"{b:02X}" for b in code), "=", value(code))


main()
