#!/usr/bin/env python3
"""Times `fmt` of the built program on long decks.

    bench/deck.py

Each deck has the greatest size that a deck may have, 4,194,304 bytes, and the last one byte more: comments alone; chains
of operations, some 260,000 in all; checks with their notes; brackets inside brackets; one value of many parts; and
three that are refused near their ends. For each it prints the bytes, the seconds of the quickest of three runs, the
greatest peak of memory of the three, that peak over the bytes, and the bytes that were said. The decks and what was
said stand in bench/out/.
"""
import concurrent.futures
import os
import subprocess
import sys
import time

from layouts import OUT, PROGRAM, mebibytes

LONGEST = 4_194_304
RUNS = 3

HEAD = b"""LAYOUT SYSTEM GDSII
LAYOUT PATH "a.gds"
LAYOUT PRIMARY TOP
DRC RESULTS DATABASE "a.db" ASCII
LAYER M1 1
LAYER M2 2
"""


def filled(piece, end=b"", size=LONGEST):
    """The head, and as many of the pieces as a deck of this size holds, and the end; %d in a piece is its number."""
    parts, left, place = [HEAD], size - len(HEAD) - len(end), 0
    while True:
        one = piece.replace(b"%d", b"%d" % place)
        if len(one) > left:
            return b"".join(parts) + b" " * left + end
        parts.append(one)
        left -= len(one)
        place += 1


def in_head(words, piece):
    """A deck that is one statement behind the head, of as many of the pieces as fit."""
    deck = filled(piece, end=b"\n", size=LONGEST - len(words))
    return deck.replace(b"LAYER M2 2\n", b"LAYER M2 2\n" + words, 1)


DECKS = {
    "comments": lambda: filled(b"// the quick brown fox jumps over the lazy dog, and over the next one too\n"),
    "blocks": lambda: filled(b"/* a comment\n * of some lines, %d\n */\n"),
    "operations": lambda: filled(b"layer_%d = m1 and m2 not inside edge m1 or m2\n"),
    "checks": lambda: filled(b"check_%d { @ width of metal, in microns\n  int m1 < 0.%d abut < 90 singular\n}\n"),
    "brackets": lambda: filled(b"b_%d = " + b"(" * 64 + b"m1" + b")" * 64 + b"\n"),
    "one value": lambda: in_head(b"VARIABLE V 1 ", b"+ %d * .5 "),
    "names": lambda: in_head(b"DRC SELECT CHECK ", b"select_%d "),
    "wrong at its end": lambda: filled(b"layer_%d = m1 and m2\n", end=b"x = m1 and )"),
    "open at its end": lambda: filled(b"layer_%d = m1 and m2\n", end=b"/* and"),
    "a byte too long": lambda: filled(b"layer_%d = m1 and m2\n") + b" ",
}


def write_deck(name, path):
    """Writes a deck, and answers its size."""
    with open(path, "wb") as file:
        return file.write(DECKS[name]())


def timed(deck, said):
    """Runs the program: the seconds that it took, its peak of memory in bytes, and its status."""
    with open(said, "wb") as output:
        began = time.perf_counter()
        process = subprocess.Popen([PROGRAM, "fmt", deck], cwd=OUT, stdout=output)
        _, status, usage = os.wait4(process.pid, 0)
        process.returncode = os.waitstatus_to_exitcode(status)
        return time.perf_counter() - began, usage.ru_maxrss * 1024, process.returncode


def main():
    if not os.path.isfile(PROGRAM):
        print(f"there is no program {PROGRAM}: rt ci or ./drc builds it")
        return 1
    os.makedirs(OUT, exist_ok=True)
    print(f"{'deck':>18} {'bytes':>12} {'seconds':>9} {'MiB':>9} {'times':>6} {'said':>12} {'status':>6}")
    deck, said = f"{OUT}/deck.svrf", f"{OUT}/deck.said"
    for name in DECKS:
        # The deck is written by a process of its own, so that this one stays small.
        with concurrent.futures.ProcessPoolExecutor(1) as writer:
            size = writer.submit(write_deck, name, deck).result()
        ran = [timed(deck, said) for _ in range(RUNS)]
        seconds, peak = min(run[0] for run in ran), max(run[1] for run in ran)
        print(f"{name:>18} {size:>12,} {seconds:>9.3f} {mebibytes(peak):>9} {peak / size:>6.1f}"
              f" {os.path.getsize(said):>12,} {ran[0][2]:>6}")
    return 0


if __name__ == "__main__":
    sys.exit(main())
