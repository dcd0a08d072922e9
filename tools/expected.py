#!/usr/bin/env python3
"""What crates/vectors must write for a list of vectors (standard input), by a reading of document 01 that shares nothing with the port.

    python3 tools/vectors.py | python3 tools/expected.py
"""
import sys

ENDED, MALFORMED = "ended", "malformed"


class Fault(Exception):
    pass


def read_number(data, at, most):
    """Seven bits a byte, low group first, shortest form; judged when complete (document 02, T-09)."""
    value = 0
    for i in range(10):
        if at + i >= len(data):
            raise Fault(ENDED)
        byte = data[at + i]
        value |= (byte & 127) << (7 * i)
        if byte < 128:
            if (i > 0 and byte == 0) or value > most:
                raise Fault(MALFORMED)
            return value, at + i + 1
    raise Fault(MALFORMED)


def write_number(value):
    out = []
    while value >= 128:
        out.append(value % 128 + 128)
        value //= 128
    return bytes(out + [value])


def number(most, data):
    value, end = read_number(data, 0, int(most))
    return f"{value}", end, write_number(value)


def text(least, most, data):
    length, start = read_number(data, 0, int(most))
    if length < int(least):
        raise Fault(MALFORMED)
    if len(data) - start < length:
        raise Fault(ENDED)
    return f"{start} {length}", start + length, write_number(length) + data[start:start + length]


def time(data):
    folded, middle = read_number(data, 0, 2**64 - 1)
    nanos, end = read_number(data, middle, 999_999_999)
    seconds = -(folded + 1) // 2 if folded % 2 else folded // 2
    again = -2 * seconds - 1 if seconds < 0 else 2 * seconds
    return f"{seconds} {nanos}", end, write_number(again) + write_number(nanos)


def compare(data, start, length, name):
    part, name = list(data[int(start):int(start) + int(length)]), list(name)
    return "less" if part < name else "equal" if part == name else "greater"


# ---- the image

WORD, SIZE, FULL = 2**32 - 1, 2**63 - 1, 2**64 - 1


class Reader:
    """The fields of an image one after the other, and the places of what one inode has."""

    def __init__(self, data, inode):
        self.data, self.at, self.inode, self.node, self.records = data, 0, inode, None, []

    def number(self, most, least=0):
        value, self.at = read_number(self.data, self.at, most)
        if value < least:
            raise Fault(MALFORMED)
        return value

    def text(self, least, most):
        length = self.number(most, least)
        if len(self.data) - self.at < length:
            raise Fault(ENDED)
        self.at += length
        return self.data[self.at - length:self.at]

    def time(self):
        self.number(FULL)
        self.number(999_999_999)

    def rising(self, most, key, under):
        """A count, and as many keys that rise, each with what stands under it."""
        last = None
        for _ in range(self.number(most)):
            this = key()
            if last is not None and not last < this:
                raise Fault(MALFORMED)
            last = this
            under(this)
        return last

    def by_name(self, under):
        self.rising(WORD, lambda: self.text(1, 255), lambda name: under())

    def by_inode(self, under):
        self.rising(WORD, lambda: self.number(FULL), under)

    def maybe(self, thing):
        if self.number(1):
            thing()

    def base_node(self, inode):
        if inode == self.inode:
            self.node = self.at
        kind = self.number(6)
        for _ in range(4):
            self.number(WORD)
        for _ in range(3):
            self.time()
        self.by_name(lambda: self.text(0, 4096))
        if kind == 0:
            self.number(FULL)
            self.by_name(lambda: self.number(FULL))
        elif kind == 1:
            self.number(SIZE)
        elif kind == 2:
            self.text(0, 4095)
        elif kind in (4, 5):
            self.number(WORD)

    def record(self, inode):
        if inode == self.inode:
            self.records.append(self.at)
        code = self.number(7)
        if code == 0:
            return
        mask = self.number(511)
        for bit in range(9):
            if mask >> bit & 1:
                if bit < 4:
                    self.number(WORD)
                elif bit < 8:
                    self.time()
                else:
                    self.by_name(lambda: self.maybe(lambda: self.text(0, 4096)))
        if code == 1:
            self.maybe(lambda: self.number(FULL))
            self.by_name(lambda: self.number(FULL))
            self.by_name(lambda: None)
        elif code == 2:
            self.maybe(lambda: self.number(SIZE))
        elif code == 3:
            self.maybe(lambda: self.text(0, 4095))
        else:
            self.number(WORD)

    def batch(self, _):
        self.number(WORD)
        self.number(WORD)
        self.number(5, 1)
        self.time()
        self.by_inode(self.record)

    def store(self):
        self.by_inode(self.base_node)
        last = self.rising(16, lambda: self.number(FULL), self.batch)
        self.by_inode(self.record)
        following = self.number(FULL)
        if last is not None and not last < following:
            raise Fault(MALFORMED)
        self.number(WORD)
        self.number(WORD)
        self.number(5)
        if self.at < len(self.data):
            raise Fault(MALFORMED)


def image(inode, data):
    if len(data) > 65536:
        return "refused 1"
    reader = Reader(data, int(inode))
    try:
        reader.store()
    except Fault:
        return "refused 2"
    return " ".join(["-" if reader.node is None else str(reader.node)] + [str(place) for place in reader.records])


def hexadecimal(word):
    return b"" if word == "-" else bytes.fromhex(word)


def answer(words):
    call, *rest = words
    if call == "compare":
        return compare(hexadecimal(rest[0]), rest[1], rest[2], hexadecimal(rest[3]))
    if call == "image":
        return image(rest[0], hexadecimal(rest[1]))
    try:
        shown, end, again = {"number": number, "text": text, "time": time}[call](*rest[:-1], hexadecimal(rest[-1]))
        return f"{shown}, {end} bytes, written {again.hex().upper()}"
    except Fault as fault:
        return str(fault)


if __name__ == "__main__":
    for line in sys.stdin.read().splitlines():
        print(line if line.startswith("#") else f"{line} = {answer(line.split(' '))}")
