#!/usr/bin/env python3
"""The images that tests/listing/run.sh lists, each with the lines that document 01 gives for it, written by hand.

    python3 tests/listing/images.py FOLDER      makes FOLDER/NAME.img and FOLDER/NAME.out
"""
import pathlib
import sys

sys.path.insert(0, str(pathlib.Path(__file__).resolve().parents[2] / "tools"))
from vectors import FULL, WORD, batch, change, directory, fields, maybe, node, number, record, store, text

HEADING = "INODE T MODE LINKS SIZE"


def filled(size):
    """A root of `size` bytes: attributes fill it. Sixteen values of 128 bytes or more, so that each has a length of two bytes."""
    bare = len(node(1, 0, directory(1), attributes=[(b"a%02d" % k, b"x" * 128) for k in range(16)]))
    more = size - bare
    values = [128 + max(0, min(4096 - 128, more - k * (4096 - 128))) for k in range(16)]
    root = node(1, 0, directory(1), attributes=[(b"a%02d" % k, b"x" * length) for k, length in enumerate(values)])
    assert len(root) == size
    return root


# Every kind in the base, and every kind made by a delta on nothing. A file's permission is not cut to 12 bits, a link shows 777 whatever is
# stored, a file with 0 links is dropped and a directory with 0 links is not, a tombstone's inode is gone, a delta of another kind does nothing.
EVERY = store(
    base=[
        node(1, 0, directory(1, [(b"a", 2)])),
        node(2, 1, number(2**63 - 1), perm=0o100644, links=3),
        node(3, 2, text(b"/t"), perm=0o600, links=1),
        node(4, 3, perm=0, links=1),
        node(5, 4, number(WORD), perm=0o7, links=1),
        node(6, 5, number(0), perm=0o4777, links=1),
        node(7, 6, perm=WORD, links=WORD),
        node(8, 1, number(5), links=0),
        node(9, 0, directory(1), perm=0o700, links=0),
        node(10, 1, number(5), links=1),
        node(11, 1, number(6), perm=0o640, links=1),
        node(12, 2, text(b"old"), links=1),
        node(FULL, 6, perm=0o1000, links=10),
    ],
    batches=[
        batch(3, [record(12, 3, fields(mode=0o600), maybe(text(b"newer"))), record(20, 1, fields(), change(1, [(b"f", 21)])),
                  record(30, 2, fields(links=0), maybe(number(9)))]),
        batch(4, [record(11, 1, fields(mode=0o777), change(1)), record(21, 2, fields(mode=0o177777), maybe(number(1)))]),
    ],
    live=[record(10, 0), record(21, 2, fields(links=4), maybe(number(300))), record(22, 3, own=maybe(None)), record(23, 4, own=number(9)),
          record(24, 5, own=number(9)), record(25, 6, own=number(9)), record(26, 7, own=number(9))],
    following=9,
)
EVERY_LINES = """\
1 d 0755 2 0
2 - 100644 3 9223372036854775807
3 l 0777 1 2
4 p 0000 1 0
5 c 0007 1 0
6 b 4777 1 0
7 s 37777777777 4294967295 0
9 d 0700 0 0
11 - 0640 1 6
12 l 0777 1 5
20 d 0755 2 0
21 - 7777 4 300
22 l 0777 1 0
23 p 0644 1 0
24 c 0660 1 0
25 b 0660 1 0
26 s 0777 1 0
18446744073709551615 s 1000 10 0"""

ROOT = bytes.fromhex("01 01 00 ED 03 02 00 00 00 00 00 00 00 00 00 01 00 00 00 01 00 00 00")
ROOT_LINE = "1 d 0755 2 0"
BARE = len(store())

# A pipe on nothing: four bytes in live are fourteen in the snapshot.
PIPE = record(2, 4, own=number(0))
PIPE_NODE = node(2, 3, perm=0o644, links=1)
FITS = store([filled(65536 - BARE - len(PIPE_NODE))], live=[PIPE])
TOO_LONG = store([filled(65537 - BARE - len(PIPE_NODE))], live=[PIPE])

IMAGES = {
    "root": (ROOT, [HEADING, ROOT_LINE]),
    "every": (EVERY, [HEADING, EVERY_LINES]),
    "empty-store": (store(), [HEADING]),
    "empty-input": (b"", ["refused 2"]),
    "cut": (ROOT[:-1], ["refused 2"]),
    "more": (ROOT + b"\0", ["refused 2"]),
    "longest": (store([filled(65536 - BARE)]), [HEADING, ROOT_LINE]),
    "one-more": (store([filled(65537 - BARE)]), ["refused 1"]),
    "snapshot-fits": (FITS, [HEADING, ROOT_LINE, "2 p 0644 1 0"]),
    "snapshot-too-long": (TOO_LONG, ["refused 5"]),
}

assert len(IMAGES["longest"][0]) == 65536 and len(IMAGES["one-more"][0]) == 65537 and len(TOO_LONG) <= 65536

if __name__ == "__main__":
    folder = pathlib.Path(sys.argv[1])
    for name, (image, lines) in IMAGES.items():
        (folder / f"{name}.img").write_bytes(image)
        (folder / f"{name}.out").write_text("".join(line + "\n" for line in lines))
