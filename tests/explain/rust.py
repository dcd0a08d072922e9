#!/usr/bin/env python3
"""Explanations of the child lookups that the published Rust answered (rust/oracle/reads.out): the program's answer must be the Rust's, exactly one
layer decides, and what the line of that layer says is the answer.

    python3 tests/explain/rust.py PROGRAM
"""
import pathlib
import re
import subprocess
import sys

ROOT = pathlib.Path(__file__).resolve().parents[2]


def hexadecimal(word):
    return b"" if word == "-" else bytes.fromhex(word)


def decided(line):
    """The answer, by what the layer that decides says."""
    said = re.search(rb" as (\d+) \(decides\)$", line)
    return said.group(1) if said else b"none"


def main(program):
    seen = 0
    for line in (ROOT / "rust/oracle/reads.out").read_text().splitlines():
        if not line.startswith("child "):
            continue
        call, answer = line.split(" = ")
        answer = answer.removeprefix("inode ")
        _, inode, name, image = call.split(" ")
        name = hexadecimal(name)
        if b"\0" in name:
            continue  # no argument of a program has one
        written = subprocess.run([program, inode, name], input=hexadecimal(image), capture_output=True, check=True).stdout.splitlines()
        if answer.startswith("refused"):
            right = written == [answer.encode()]
        else:
            layers = written[1:-1]
            deciding = [line for line in layers if line.endswith(b" (decides)")]
            right = written[-1] == b"answer: " + answer.encode() and len(deciding) == 1 and decided(deciding[0]) == answer.encode()
        if not right:
            sys.exit(f"tests/explain/rust.py: {call}: the Rust answers {answer}, and the program writes\n" + b"\n".join(written).decode(errors="replace"))
        seen += 1
    if not seen:
        sys.exit("tests/explain/rust.py: rust/oracle/reads.out has no child lookup")
    print(f"tests/explain: {seen} lookups that the Rust answered")


main(sys.argv[1])
