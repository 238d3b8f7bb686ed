"""Layouts of the first form for benchmarks, and timed runs of the built program on them."""
import concurrent.futures
import os
import resource
import struct
import subprocess
import sys
import time

TOP = os.path.dirname(os.path.dirname(os.path.abspath(__file__)))
sys.path.insert(0, f"{TOP}/examples/first")
from make import library, rectangle  # noqa: E402

PROGRAM = f"{TOP}/crates/drc_main/out/drc_main"
OUT = f"{TOP}/bench/out"

# The check's bound, in database units.
BOUND = 200

DECK = """LAYOUT SYSTEM GDSII
LAYOUT PATH "{layout}"
LAYOUT PRIMARY TOP
DRC RESULTS DATABASE "{results}" ASCII
LAYER M1 1
SHORT {{ @ short edge
LENGTH M1 < 0.2
}}
"""

# A layout without an element has a head and an end of two records, and an element has five points between two parts.
EMPTY, ELEMENT = library([]), rectangle(1, 0, 0, 1, 1)
HEAD, END = EMPTY[:-8], EMPTY[-8:]
BEFORE_POINTS, AFTER_POINTS = ELEMENT[:20], ELEMENT[-4:]
POINTS = struct.Struct(">10i")


def write_layout(path, rectangles):
    """Writes a layout of the rectangles that the call gives, on layer 1, and answers how many there are."""
    count = 0
    with open(path, "wb") as file:
        file.write(HEAD)
        for x0, y0, x1, y1 in rectangles():
            file.write(BEFORE_POINTS + POINTS.pack(x0, y0, x1, y0, x1, y1, x0, y1, x0, y0) + AFTER_POINTS)
            count += 1
        file.write(END)
    return count


def timed(deck):
    """Runs the program: the seconds that it took, its peak of memory in bytes, its status, and what it said."""
    began = time.perf_counter()
    process = subprocess.Popen([PROGRAM, "check", deck], cwd=OUT, stdout=subprocess.PIPE)
    said = process.stdout.read()
    _, status, usage = os.wait4(process.pid, 0)
    process.returncode = os.waitstatus_to_exitcode(status)
    process.stdout.close()
    return time.perf_counter() - began, usage.ru_maxrss * 1024, process.returncode, said.decode()


def measure(name, rectangles, runs, wanted=None):
    """Times the program on a layout, and prints a line of it; False where it failed or found another number."""
    deck = f"{name}.svrf"
    # The layout is written by a process of its own, so that this one stays small.
    with concurrent.futures.ProcessPoolExecutor(1) as writer:
        count = writer.submit(write_layout, f"{OUT}/{name}.gds", rectangles).result()
    with open(f"{OUT}/{deck}", "w") as file:
        file.write(DECK.format(layout=f"{name}.gds", results=f"{name}.db"))
    ran = [timed(deck) for _ in range(runs)]
    words = ran[0][3].split()
    found = int(words[3]) if words[:1] == ["checks"] else -1
    if wanted not in (None, found) or any(status != 0 or said != ran[0][3] for _, _, status, said in ran):
        print(f"{name}: {[(status, said) for _, _, status, said in ran]}, and {wanted} were to be found")
        return False
    seconds, peak = min(run[0] for run in ran), max(run[1] for run in ran)
    print(f"{name:>18} {count:>12,} {seconds:>9.3f} {mebibytes(peak):>9} {found:>12,}")
    return True


def mebibytes(peak):
    """A peak of memory; of one that isn't above this script's own the system tells only that."""
    own = resource.getrusage(resource.RUSAGE_SELF).ru_maxrss * 1024
    return f"{peak / 2**20:.1f}" if peak > own else f"< {own / 2**20:.1f}"


def begin():
    """Prints the head of the table; False where there is no program."""
    if not os.path.isfile(PROGRAM):
        print(f"there is no program {PROGRAM}: rt ci or ./drc builds it")
        return False
    os.makedirs(OUT, exist_ok=True)
    print(f"{'layout':>18} {'rectangles':>12} {'seconds':>9} {'MiB':>9} {'results':>12}    on {os.cpu_count()} cores")
    return True
