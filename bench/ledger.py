#!/usr/bin/env python3
"""Times runs of the ledger by 64 workers, each of which takes an operation in turn.

    bench/ledger.py [N ..]      4,096 and 65,536 operations where no N is given

For each N, each shape of wiring and each budget it runs the built program `ledger_rounds` five times, and prints the shape, N,
the budget, the events of the run, and the seconds of the quickest run: the whole program, with its start and the making
of the wiring and of the state. `rt run -- chain 4 6` in crates/ledger_rounds builds the program.

A chain's operations read the one before; a fan's all read operation 0 twice; a comb's odd ones read the one before and the
odd one before that.
"""
import os
import subprocess
import sys
import time

TOP = os.path.dirname(os.path.dirname(os.path.abspath(__file__)))
PROGRAM = f"{TOP}/crates/ledger_rounds/out/ledger_rounds"

# How many places all operations of a shape have.
PLACES = {
    "chain": lambda count: count - 1,
    "fan": lambda count: 2 * (count - 1),
    "comb": lambda count: 2 * (count // 2) - 1,
}

# None of it, the greatest cost, and more than all costs.
BUDGETS = [0, 7, 10**9]


def measure(shape, count, budget):
    """Times the program, and prints a line of it; False where it said something else."""
    events = 3 * count + PLACES[shape](count)
    wanted = f"ledger ok operations {count} events {events}\n"
    seconds = []
    for _ in range(5):
        began = time.perf_counter()
        run = subprocess.run([PROGRAM, shape, str(count), str(budget)], capture_output=True, text=True)
        seconds.append(time.perf_counter() - began)
        if run.returncode != 0 or run.stdout != wanted:
            print(f"{shape} {count} {budget}: {run.returncode} {run.stdout}{run.stderr}")
            return False
    print(f"{shape:>6} {count:>10,} {budget:>13,} {events:>10,} {min(seconds):>9.4f}")
    return True


def main():
    counts = [int(word) for word in sys.argv[1:]] or [4096, 65536]
    print(f"{'shape':>6} {'operations':>10} {'budget':>13} {'events':>10} {'seconds':>9}")
    done = [measure(shape, count, budget) for count in counts for shape in PLACES for budget in BUDGETS]
    return 0 if all(done) else 1


if __name__ == "__main__":
    sys.exit(main())
