#!/usr/bin/env python3
"""The first part of the list that crates/vectors replays, on the bytes: chosen by hand from document 01, each field at its limits and one past
them. The other parts, the reads and the changes, are rust/oracle's.

    { python3 tools/vectors.py; cat rust/oracle/reads.in; } > crates/vectors/stdin
    { python3 tools/vectors.py | python3 tools/expected.py; cat rust/oracle/reads.out; } > crates/vectors/stdout
"""
FULL = 2**64 - 1
WORD = 2**32 - 1


def number(value):
    out = []
    while value >= 128:
        out.append(value % 128 + 128)
        value //= 128
    return bytes(out + [value])


def text(data):
    return number(len(data)) + data


def time(seconds=0, nanos=0):
    return number(2 * seconds if seconds >= 0 else -2 * seconds - 1) + number(nanos)


def listed(items):
    return number(len(items)) + b"".join(items)


def maybe(data):
    return b"\0" if data is None else b"\1" + data


# ---- an image's parts


def node(inode, kind, own=b"", perm=0o755, links=2, owner=0, group=0, times=((0, 0),) * 3, attributes=()):
    return (number(inode) + number(kind) + number(perm) + number(links) + number(owner) + number(group) + b"".join(time(*t) for t in times) +
            listed([text(name) + text(value) for name, value in attributes]) + own)


def directory(parent, entries=()):
    return number(parent) + listed([text(name) + number(inode) for name, inode in entries])


def fields(mode=None, owner=None, group=None, links=None, atime=None, mtime=None, ctime=None, created=None, attributes=None):
    given = [mode, owner, group, links, atime, mtime, ctime, created, attributes]
    out = number(sum(1 << bit for bit, field in enumerate(given) if field is not None))
    for bit, field in enumerate(given):
        if field is None:
            continue
        if bit < 4:
            out += number(field)
        elif bit < 8:
            out += time(*field)
        else:
            out += listed([text(name) + maybe(None if value is None else text(value)) for name, value in field])
    return out


def record(inode, code, given=number(0), own=b""):
    return number(inode) + number(code) + (given + own if code else b"")


def change(parent=None, added=(), removed=()):
    return (maybe(None if parent is None else number(parent)) + listed([text(name) + number(inode) for name, inode in added]) +
            listed([text(name) for name in removed]))


def batch(identity, records=(), size=0, operations=0, reason=5, committed=(0, 0)):
    return number(identity) + number(size) + number(operations) + number(reason) + time(*committed) + listed(list(records))


def store(base=(), batches=(), live=(), following=1, size=0, operations=0, request=0):
    return listed(list(base)) + listed(list(batches)) + listed(list(live)) + number(following) + number(size) + number(operations) + number(request)


# ---- the list


def line(*words):
    print(*[(word.hex().upper() or "-") if isinstance(word, bytes) else word for word in words])


def numbers():
    line("# Numbers: document 01's 300, and its bad number (P3).")
    line("number", FULL, b"\xac\x02")
    line("number", FULL, b"\x80\x00")
    line("# The least and the largest number of each count of bytes, and of each width.")
    for value in [0] + [128**k - d for k in range(1, 10) for d in (1, 0)] + [2**bits - 1 for bits in (8, 16, 32, 63, 64)]:
        line("number", FULL, number(value))
    line("# At a limit, and one above it.")
    for most in (0, 1, 5, 7, 16, 255, 511, 4095, 4096, 999_999_999, WORD, 2**63 - 1):
        line("number", most, number(most))
        line("number", most, number(most + 1))
    line("# Ten bytes: the tenth has room for one bit, and is the last.")
    for last in ("01", "02", "00", "7F", "81", "8101"):
        line("number", FULL, bytes.fromhex("FF" * 9 + last))
    line("number", FULL, bytes.fromhex("80" * 9 + "01"))
    line("# Not the shortest form, at each length.")
    for k in range(1, 10):
        line("number", FULL, b"\x80" * k + b"\0")
    line("# Bytes that end inside; a number that would be too large is not yet.")
    for k in range(10):
        line("number", FULL, b"\xff" * k)
    line("number", 5, b"\x80")
    line("number", 5, b"\x86\x80")
    line("# What follows a number is left alone.")
    line("number", FULL, b"\x05\xff")
    line("number", FULL, b"\xac\x02\x00")


def texts():
    line("# Texts: names of 1 to 255 bytes, targets to 4,095, values to 4,096.")
    for data in ("0161", "026869FF", "00", "", "0268", "02", "8002", "FF01", "FF01" + "78" * 255, "FF01" + "78" * 254, "8100", "81"):
        line("text", 1, 255, bytes.fromhex(data))
    for most, data in ((4095, "00"), (4095, "FF1F"), (4095, "8020"), (4096, "8020"), (4096, "8120"), (4095, "04C3A9C3A8"), (FULL, "FF" * 9 + "01")):
        line("text", 0, most, bytes.fromhex(data))
    line("text", 3, 3, b"\x03abc")
    line("text", 4, 3, b"\x03abc")


def times():
    line("# Times: seconds with their sign folded in, then nanoseconds.")
    for seconds, nanos in ((0, 0), (0, 1), (1, 0), (-1, 0), (-1, 999_999_999), (1, 999_999_999), (300, 5), (-2208988800, 0), (2**31, 0), (-2**31 - 1, 7),
                           (2**63 - 1, 999_999_999), (-2**63, 0), (-2**63, 999_999_999), (-1, 10**9), (-1, WORD)):
        line("time", time(seconds, nanos))
    for data in ("", "01", "80", "0180", "800000", "01808000", "FF" * 9 + "0100", "FF" * 9 + "0200", "0000FF"):
        line("time", bytes.fromhex(data))


def comparisons():
    line("# A part of the image against a name: less, equal or greater by bytes, also past the end.")
    for data, start, length, name in ((b"abc", 0, 3, b"abc"), (b"abc", 0, 3, b"abcd"), (b"abcd", 0, 4, b"abc"), (b"abc", 0, 2, b"ac"), (b"abc", 1, 2, b"bc"),
                                      (b"abc", 1, 1, b"bc"), (b"\xff\0", 0, 1, b"\x7f"), (b"\0\xff", 0, 1, b"\1"), (b"abc", 0, 0, b"a"), (b"abc", 0, 0, b""),
                                      (b"abc", 3, 5, b""), (b"abc", 9, 5, b""), (b"abc", 9, 5, b"a"), (b"abc", 2, 5, b"c"), (b"abc", 2, 5, b"b"),
                                      (b"abc", FULL, FULL, b""), (b"abc", 1, FULL, b"bc"), (b"", 0, 0, b"")):
        line("compare", data, start, length, name)


def images():
    root = bytes.fromhex("01 01 00 ED 03 02 00 00 00 00 00 00 00 00 00 01 00 00 00 01 00 00 00")
    line("# Images: the empty store (P1), cut short (P2), and document 01's root.")
    for inode, image in ((1, store()), (1, store()[:-1]), (1, b""), (1, root), (2, root), (0, root)):
        line("image", inode, image)
    line("# A node of every kind, with every field.")
    every = store([
        node(0, 0, directory(FULL, [(b"a", 7), (b"ab", FULL), (b"b", 0)]), owner=WORD, group=1, times=((-1, 999_999_999), (1, 0), (2**63 - 1, 5)),
             attributes=[(b"k", b""), (b"l", b"vv")]),
        node(1, 1, number(2**63 - 1), perm=0o644),
        node(2, 2, text(b"/t")),
        node(3, 3),
        node(4, 4, number(WORD)),
        node(5, 5, number(0)),
        node(FULL, 6),
    ])
    for inode in (0, 1, 2, 3, 4, 5, 6, FULL):
        line("image", inode, every)
    line("# A record of every kind, a tombstone, every field; an empty list of attribute changes.")
    every = store(live=[
        record(0, 0),
        record(1, 1, fields(0o7777, 1, 2, 3, (1, 1), (-1, 2), (3, 3), (4, 4), [(b"a", None), (b"b", b"x")]), change(1, [(b"n", 9)], [b"m"])),
        record(2, 2, fields(attributes=[]), maybe(number(2**63 - 1))),
        record(3, 3, fields(), maybe(text(b""))),
        record(4, 4, own=number(9)),
        record(5, 5, own=number(8)),
        record(6, 6, own=number(7)),
        record(FULL, 7, own=number(WORD)),
    ])
    for inode in (0, 1, 2, 3, 6, 7, FULL):
        line("image", inode, every)
    line("# One inode in the base, in batches and in live.")
    touched = lambda *inodes: [record(inode, 1, own=change()) for inode in inodes]
    spread = store([node(5, 0, directory(1))], [batch(1, touched(5), 3, 2, 1, (7, 7)), batch(4, touched(4, 6), reason=2), batch(9, touched(4, 5, 6), WORD, WORD, 3)],
                   touched(5), 10, 1, 2, 3)
    for inode in (5, 4, 6, 7):
        line("image", inode, spread)
    for count in (16, 17):
        line("image", 1, store(batches=[batch(k) for k in range(count)], following=17))
    line("image", 3, store(batches=[batch(k, [record(3, 0)]) for k in range(16)], live=[record(3, 0)], following=FULL))
    line("# Limits, and one past them.")
    for base in (node(1, 7), node(1, 1, number(2**63)), node(1, 4, number(2**32)), node(1, 3, perm=2**32), node(1, 3, links=WORD), node(1, 3, group=2**32),
                 node(1, 3, times=((0, 10**9), (0, 0), (0, 0))), node(1, 0, directory(1, [(b"", 2)])), node(1, 0, directory(1, [(b"x" * 255, 2)])),
                 node(1, 0, directory(1, [(b"x" * 256, 2)]))):
        line("image", 1, store([base]))
    for live in (record(1, 8), record(1, 1, number(512), change()), record(1, 2, own=number(2)), record(1, 2, own=maybe(number(2**63)))):
        line("image", 1, store(live=[live]))
    for reason in (0, 1, 5, 6):
        line("image", 1, store(batches=[batch(0, reason=reason)]))
    for request in (0, 5, 6):
        line("image", 1, store(request=request))
    for image in (store(batches=[batch(0, size=2**32)]), store(size=2**32), store(operations=2**32), store(following=FULL)):
        line("image", 1, image)
    line("# Keys that do not rise, ids not below next id, bytes that follow.")
    for base in ([node(1, 3), node(1, 3)], [node(2, 3), node(1, 3)], [node(1, 0, directory(1, [(b"a", 2), (b"a", 3)]))],
                 [node(1, 0, directory(1, [(b"b", 2), (b"a", 3)]))], [node(1, 0, directory(1, [(b"a", 2), (b"aa", 3)]))],
                 [node(1, 3, attributes=[(b"b", b""), (b"a", b"")])]):
        line("image", 1, store(base))
    for live in ([record(2, 0), record(2, 0)], [record(0, 0), record(1, 0)], [record(1, 1, own=change(removed=[b"b", b"a"]))],
                 [record(1, 1, fields(attributes=[(b"a", None), (b"a", b"")]), change())]):
        line("image", 1, store(live=live))
    for ids, following in (((1, 1), 5), ((2, 1), 5), ((1,), 1), ((1,), 2), ((1, 3), 3), ((1, 3), 4)):
        line("image", 1, store(batches=[batch(k) for k in ids], following=following))
    line("image", 1, store() + b"\0")
    line("image", 1, root + b"\0")
    line("# The spread image, cut short.")
    for k in range(1, len(spread), 5):
        line("image", 5, spread[:k])


if __name__ == "__main__":
    numbers()
    texts()
    times()
    comparisons()
    images()
