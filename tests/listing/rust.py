#!/usr/bin/env python3
"""Listings of the images whose snapshots the published Rust made (rust/oracle/changes.in and .out): a line for each node of the Rust's new image,
read by tools/expected.py, must be what the program writes of the old one.

    python3 tests/listing/rust.py PROGRAM
"""
import pathlib
import subprocess
import sys

ROOT = pathlib.Path(__file__).resolve().parents[2]
sys.path.insert(0, str(ROOT / "tools"))
from expected import FULL, SIZE, WORD, Reader, hexadecimal


class Lines(Reader):
    """The lines of the nodes of a base."""

    def __init__(self, data):
        super().__init__(data, None)
        self.lines = []

    def base_node(self, inode):
        kind, perm, links = self.number(6), self.number(WORD), self.number(WORD)
        self.number(WORD)
        self.number(WORD)
        for _ in range(3):
            self.time()
        self.by_name(lambda: self.text(0, 4096))
        size = 0
        if kind == 0:
            self.number(FULL)
            self.by_name(lambda: self.number(FULL))
        elif kind == 1:
            size = self.number(SIZE)
        elif kind == 2:
            perm, size = 0o777, len(self.text(0, 4095))
        elif kind in (4, 5):
            self.number(WORD)
        self.lines.append(f"{inode} {'d-lpcbs'[kind]} {perm:04o} {links} {size}\n")


def listing(answer):
    if answer.startswith("refused"):
        return answer + "\n"
    reader = Lines(hexadecimal(answer.split(" ")[1]))
    reader.store()
    return "INODE T MODE LINKS SIZE\n" + "".join(reader.lines)


def main(program):
    seen = 0
    for line in (ROOT / "rust/oracle/changes.out").read_text().splitlines():
        if not line.startswith("snapshot "):
            continue
        call, answer = line.split(" = ")
        image = hexadecimal(call.split(" ")[2])
        if answer == "refused 5":
            continue  # for want of a longer target, and the program lends the longest
        written = subprocess.run([program], input=image, capture_output=True, check=True).stdout.decode()
        if written != listing(answer):
            sys.exit(f"tests/listing/rust.py: of the image {image.hex()} the program writes\n{written}and the Rust's snapshot is\n{listing(answer)}")
        seen += 1
    if not seen:
        sys.exit("tests/listing/rust.py: rust/oracle/changes.out has no snapshot")
    print(f"tests/listing: {seen} listings of the Rust's snapshots")


main(sys.argv[1])
