#!/usr/bin/env python3
"""A pitch drive's store: the offset files of three blades, spread over the base, two batches that wait to be flushed, and the live layer.

    python3 examples/blades.py > examples/blades.img

Blade 1's file is still the base's. Blade 2's was written again in batch 7 and once more in live; blade 3's in batch 8. A file that was replaced
has no links left. Batch 8 also removed the lock.
"""
import pathlib
import sys

sys.path.insert(0, str(pathlib.Path(__file__).resolve().parents[1] / "tools"))
from vectors import batch, change, directory, fields, maybe, node, number, record, store

LAST_YEAR = ((1_735_689_600, 0),) * 3
JUNE, JULY, TODAY = (1_780_272_000, 0), (1_782_864_000, 0), (1_794_787_200, 0)


def file(inode, size):
    return node(inode, 1, number(size), perm=0o644, links=1, times=LAST_YEAR)


def new_file(inode, size, when):
    return record(inode, 2, fields(mode=0o644, links=1, mtime=when, ctime=when), maybe(number(size)))


def replaced(inode, when):
    return record(inode, 2, fields(links=0, ctime=when), maybe(None))


def names(when, added=(), removed=()):
    return record(1, 1, fields(mtime=when, ctime=when), change(None, added, removed))


BLADES = store(
    base=[
        node(1, 0, directory(1, [(b"blade-1.offset", 11), (b"blade-2.offset", 12), (b"blade-3.offset", 13), (b"pitch.lock", 14)]), times=LAST_YEAR),
        file(11, 64),
        file(12, 64),
        file(13, 64),
        file(14, 0),
    ],
    batches=[
        batch(7, [names(JUNE, [(b"blade-2.offset", 22)]), replaced(12, JUNE), new_file(22, 64, JUNE)], 64, 3, 1, JUNE),
        batch(8, [names(JULY, [(b"blade-3.offset", 23)], [b"pitch.lock"]), replaced(13, JULY), record(14, 0), new_file(23, 64, JULY)], 64, 4, 5, JULY),
    ],
    live=[names(TODAY, [(b"blade-2.offset", 32)]), replaced(22, TODAY), new_file(32, 72, TODAY)],
    following=9,
    size=72,
    operations=3,
)

if __name__ == "__main__":
    sys.stdout.buffer.write(BLADES)
