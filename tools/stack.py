#!/usr/bin/env python3
"""The scratch of each call of the static library: the bytes of stack that its deepest chain of calls takes, by the frames in the compiled code.

    python3 tools/stack.py crates/ffi/out/libffi.a MOST      a table; it fails where a call takes more than MOST bytes

It needs ar and objdump. A frame is what is pushed and what is subtracted from the stack pointer; a call is a
reference of the kind that calls and jumps to other functions have. A chain that comes back to itself, or a stack pointer that is moved by a number known only when the code runs, fails.
"""
import os
import re
import subprocess
import sys
import tempfile


def run(*words, cwd=None):
    return subprocess.run(words, check=True, capture_output=True, text=True, cwd=cwd).stdout


def disassembled(library):
    with tempfile.TemporaryDirectory() as room:
        run("ar", "x", os.path.abspath(library), cwd=room)
        objects = [os.path.join(room, name) for name in sorted(os.listdir(room))]
        return run("objdump", "-dr", "--no-show-raw-insn", *objects)


def frames(code):
    """Of each function its own frame with the return address, and the names that it refers to."""
    own, uses, here = {}, {}, None
    for line in code.splitlines():
        if head := re.match(r"[0-9a-f]+ <(.*)>:$", line):
            here = head.group(1)
            own[here], uses[here] = 8, set()
        elif room := re.search(r"\bsub\s+(\S+),%rsp", line):
            if not room.group(1).startswith("$"):
                sys.exit(f"stack.py: {here} moves the stack by {room.group(1)}")
            own[here] += int(room.group(1)[1:], 16)
        elif re.search(r"\tpush\b", line):
            own[here] += 8
        elif name := re.search(r"R_X86_64_PLT32\s+(?:\.text\.)?([^\s-]+)", line):
            uses[here].add(name.group(1))
    return own, uses


def deepest(name, own, uses, above=()):
    if name in above:
        sys.exit(f"stack.py: {name} comes back to itself")
    if name not in own:
        return 0
    return own[name] + max((deepest(n, own, uses, above + (name,)) for n in uses[name]), default=0)


def main():
    library, most = sys.argv[1], int(sys.argv[2])
    own, uses = frames(disassembled(library))
    calls = sorted(name for name in own if name.startswith("appendfs_"))
    if not calls:
        sys.exit(f"stack.py: {library} exports no call")
    taken = {name: deepest(name, own, uses) for name in calls}
    for name in calls:
        print(f"{taken[name]:6} {name}")
    over = [name for name in calls if taken[name] > most]
    if over:
        sys.exit(f"stack.py: more than {most} bytes: {' '.join(over)}")


if __name__ == "__main__":
    if len(sys.argv) != 3:
        sys.exit(__doc__)
    main()
