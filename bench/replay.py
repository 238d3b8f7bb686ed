#!/usr/bin/env python3
"""Times the replay of traces over chains of operations.

    bench/replay.py [N ..]      4,096 and 52,000 operations where no N is given; the trace of 52,000 has 4,175,974 bytes

For each N it writes the trace of a chain of N operations, of which each reads the one before, run by 64 workers in turn,
to bench/out/, runs the built program `chain_replay` on it three times, and prints N, the bytes of the trace, and the
seconds of the quickest run. `rt run -- 3 data/chain.txt` in crates/chain_replay builds the program.
"""
import os
import subprocess
import sys
import time

TOP = os.path.dirname(os.path.dirname(os.path.abspath(__file__)))
PROGRAM = f"{TOP}/crates/chain_replay/out/chain_replay"
OUT = f"{TOP}/bench/out"

WORKERS = 64


def cost(op):
    return op % 7 + 1


def trace(count):
    """The lines of the trace."""
    yield "DRCTRACE 1"
    yield f"operations {count}"
    yield f"workers {WORKERS}"
    yield "budget 1000000"
    for op in range(count):
        yield f"cost {op} {cost(op)}"
    for op in range(count):
        worker = op % WORKERS
        yield f"claim {worker} {op}"
        yield f"charge {worker} {op} {cost(op)}"
        yield f"publish {worker} {op}"
        if op > 0:
            yield f"release {worker} {op} 0"
    yield "end"


def measure(count):
    """Times the program on the trace, and prints a line of it; False where it said something else."""
    path = f"{OUT}/chain_{count}.txt"
    with open(path, "w") as file:
        file.writelines(f"{line}\n" for line in trace(count))
    wanted = f"replay ok operations {count} events {4 * count - 1} peak "
    seconds = []
    for _ in range(3):
        began = time.perf_counter()
        run = subprocess.run([PROGRAM, str(count), path], capture_output=True, text=True)
        seconds.append(time.perf_counter() - began)
        if run.returncode != 0 or not run.stdout.startswith(wanted):
            print(f"{count}: {run.returncode} {run.stdout}{run.stderr}")
            return False
    print(f"{count:>10,} {os.path.getsize(path):>12,} {min(seconds):>9.3f}")
    return True


def main():
    os.makedirs(OUT, exist_ok=True)
    counts = [int(word) for word in sys.argv[1:]] or [4096, 52000]
    print(f"{'operations':>10} {'bytes':>12} {'seconds':>9}")
    return 0 if all([measure(count) for count in counts]) else 1


if __name__ == "__main__":
    sys.exit(main())
