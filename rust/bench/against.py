#!/usr/bin/env python3
"""Two static libraries against each other: by how much each call of the second is slower than the first's.

    against.py OLD.a NEW.a [LAYOUTS]

Where code stands in memory moves a call by several percent, with the same instructions. So each library is linked in several layouts (20), its functions
in another order in each, the two are timed in turn, and the medians over all layouts are compared. Before it is timed, each call is compared with the
original's answer. The benchmark is built once, over a stand-in for the library whose calls go on into a shared object, as for the planted faults. Needs
the Rattle kit, cargo, cc, and the published Rust (APPENDFS_SRC, or shared/docs/src beside the repository).
"""
import os
import statistics
import sys

HERE = os.path.dirname(os.path.abspath(__file__))
sys.path.insert(0, HERE + "/../differential/planted")
sys.dont_write_bytecode = True
import planted  # noqa: E402


def built():
    """The benchmark over the stand-in."""
    planted.stand_in(planted.exported())
    source = os.environ.get("APPENDFS_SRC", planted.ROOT + "/../shared/docs/src")
    target = planted.WORK + "/target"
    environment = dict(os.environ, APPENDFS_SRC=os.path.abspath(source), APPENDFS_LAYERS_LIB=planted.WORK + "/lib", CARGO_TARGET_DIR=target)
    planted.must(["cargo", "build", "--offline", "--profile", "measured"], cwd=HERE, env=environment)
    return target + "/measured/bench"


def times(bench, library, seed):
    """Nanoseconds by image and call, of one layout."""
    shared = planted.WORK + "/layout.so"
    planted.must([planted.TOOLS + "/bin/ld.lld", "-shared", f"--shuffle-sections=*={seed}", "--whole-archive", library, "-o", shared])
    said = planted.must([bench, "--ours"], env=dict(os.environ, PLANTED=shared)).stdout
    rows = [line.split("\t") for line in said.splitlines()]
    return {(int(length), name): float(nanos) for name, length, nanos in rows}


def main():
    libraries, layouts = sys.argv[1:3], "".join(sys.argv[3:]) or "20"
    if len(sys.argv) not in (3, 4) or not layouts.isdigit() or int(layouts) == 0:
        sys.exit(__doc__)
    bench = built()
    runs = [[times(bench, library, seed) for library in libraries] for seed in range(1, int(layouts) + 1)]
    for key in runs[0][0]:
        old, new = (statistics.median(run[which][key] for run in runs) for which in (0, 1))
        print(f"{key[0]:6} bytes  {key[1]:18} {old:10.1f} ns {new:10.1f} ns  {100 * (new / old - 1):+.1f} %")


main()
