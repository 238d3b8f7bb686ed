#!/usr/bin/env python3
"""Times what is done with regions: merge, the booleans, SIZE, the rectangles and the boundary of a region.

    bench/regions.py [SHAPE ..]     all shapes where none is given

For each shape and operation it runs the built program `region_times` three times, and prints the shape, its number,
the operation, what came of it, the processor's seconds of the quickest run, and the greatest peak of memory: of the
whole program, which begins with the making of the layout and, but for `none`, with the merging of both layers. So
`none` and `merge` have lines of their own, and nothing is taken off. `rt run -- mesh 2 and` in crates/region_times
builds the program.

    random      rectangles with sides of 20 to 220 units anywhere in a square of four times their area, half on either
                layer
    fine        the same with coordinates ten times finer
    wires       10,000 upright wires, and on the second layer squares, each on a wire
    mesh        on each layer so many wires across so many
    comb        a back with so many teeth, and on the second layer ten bars across
    column      unit squares above one another with gaps of one unit, which those of the second layer fill
    array       so many rows of so many cells
"""
import os
import resource
import subprocess
import sys

TOP = os.path.dirname(os.path.dirname(os.path.abspath(__file__)))
PROGRAM = f"{TOP}/crates/region_times/out/region_times"

BOOLEANS = ["and", "or", "not", "xor"]
SIZES = ["size 50", "size -20"]
ALL = BOOLEANS + SIZES + ["rectangles", "boundary"]

# The number and the operations of each shape.
SHAPES = {
    "random": (1_000_000, ALL),
    "fine": (1_000_000, ALL),
    "wires": (500_000, ALL),
    "mesh": (500, ALL),
    "comb": (250_000, ALL),
    "column": (524_288, BOOLEANS + ["size 1", "rectangles", "boundary"]),
    "array": (512, ALL),
}


def timed(words):
    """Runs the program: the processor's seconds, the peak of memory in bytes, the status, and what it said."""
    process = subprocess.Popen([PROGRAM, *words], stdout=subprocess.PIPE)
    said = process.stdout.read()
    _, status, usage = os.wait4(process.pid, 0)
    process.returncode = os.waitstatus_to_exitcode(status)
    process.stdout.close()
    return usage.ru_utime + usage.ru_stime, usage.ru_maxrss * 1024, process.returncode, said.decode()


def measure(shape, count, operation):
    """Times the program on a layout, and prints a line of it; False where it failed or said different things."""
    ran = [timed([shape, str(count), *operation.split()]) for _ in range(3)]
    said = ran[0][3]
    if any(run[2] != 0 or run[3] != said for run in ran):
        print(f"{shape} {count} {operation}: {[(run[2], run[3]) for run in ran]}")
        return False
    seconds, peak = min(run[0] for run in ran), max(run[1] for run in ran)
    print(f"{shape:>6} {count:>9,} {operation:>10} {said.strip():>26} {seconds:>8.3f} {mebibytes(peak):>8}", flush=True)
    return True


def mebibytes(peak):
    """A peak of memory; of one that isn't above this script's own the system tells only that."""
    own = resource.getrusage(resource.RUSAGE_SELF).ru_maxrss * 1024
    return f"{peak / 2**20:.0f}" if peak > own else f"< {own / 2**20:.0f}"


def main():
    if not os.path.isfile(PROGRAM):
        print(f"there is no program {PROGRAM}: rt run builds it")
        return 1
    print(f"{'shape':>6} {'number':>9} {'operation':>10} {'result':>26} {'seconds':>8} {'MiB':>8}")
    done = []
    for shape in sys.argv[1:] or SHAPES:
        count, operations = SHAPES[shape]
        done += [measure(shape, count, operation) for operation in ["none", "merge", *operations]]
    return 0 if all(done) else 1


if __name__ == "__main__":
    sys.exit(main())
