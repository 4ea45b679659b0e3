#!/usr/bin/env python3
"""Measures layers below the commands by `layerbench`, which works in memory and tells its own time.

`frames`: a capture of 100,000 records and one of 200,000 are read by the reader of captures, in pieces of 1, 1,500 and
65,536 bytes. `hash`: 50,000,000 bytes are hashed at once. `cores`: the cores of 1,000,000 keys are found. `ring`:
1,000,000 numbers pass from one thread to another through a ring of 1, 16 and 256 places. `word` and `locked`: 1, 2 and
4 threads ask the budget word, and a plain budget behind a lock, 1,000,000 times each, and release at once what is
granted. `dues`: moments are set for 10,000, 100,000 and 1,000,000 ids, set anew, and taken out as they fall due.
`order`: a direction takes 10,000 and 100,000 segments of 100 bytes, each behind the one before. `held`: it takes 10,000
segments of 90 bytes over 100 and 1,000 fragments that are held. `events`: a worker serves 100,000 chunks of 100 bytes and 2,000
of 65,536, beside `copies` of as many texts as long as their lines.

The time is the best of the runs. Ends with 1 where a run fails, not all records, bytes, numbers and moments came in
their order, a plain budget or the word in one thread refused an ask, a direction took other bytes than those that no earlier segment
brought, a worker wrote more or less than the lines, or a hash or core is not that of toeplitz.py,
which is compared on shorter runs.
"""

import argparse
import pathlib
import subprocess
import sys

# The folder of the scripts stays as it is.
sys.dont_write_bytecode = True

import toeplitz

HERE = pathlib.Path(__file__).resolve().parent
PROGRAM = HERE.parent / "crates" / "layerbench" / "out" / "layerbench"
RUNS = 5
RECORDS = (100_000, 200_000)
LENGTH = 100
PIECES = (1, 1_500, 65_536)
RECORD_HEADER = 16
HASHED = 50_000_000
HASHED_BOTH = 20_001
KEYS = 1_000_000
KEYS_BOTH = 1_000
CORES = 16
ITEMS = 1_000_000
PLACES = (1, 16, 256)
ASKS = 1_000_000
THREADS = (1, 2, 4)
IDS = (10_000, 100_000, 1_000_000)
SEGMENTS = (10_000, 100_000)
OVER_HELD = 10_000
FRAGMENTS = (100, 1_000)
FRAGMENT_LENGTH = 90
FRAGMENT_SPACE = 100
SCATTER = 7_919
BEHIND_FRAGMENT = 20
CHUNKS = ((100_000, 100), (2_000, 65_536))


def best_run(program, words, want=None):
    """The least nanoseconds of the runs, with that run's first line, which has to be the one that is wanted, if any."""
    best = None
    for _ in range(RUNS):
        run = subprocess.run([program, *map(str, words), "timed"], capture_output=True, text=True, check=False)
        lines = run.stdout.splitlines()
        if run.returncode != 0 or len(lines) != 2 or want not in (None, lines[0]):
            sys.exit(f"layerbench {words}: status {run.returncode}, {lines[:1]} in place of {want!r}")
        nanos = int(lines[1].split()[1])
        best = (nanos, lines[0]) if best is None else min(best, (nanos, lines[0]))
    return best


def measured(program, words, want=None):
    return best_run(program, words, want)[0]


def print_row(cells):
    print("| " + " | ".join(map(str, cells)) + " |")


def bench_frames(program):
    print_row(("records", "piece B", "seconds", "ns/record", "ns/B", "MB/s"))
    print_row(["--:"] * 6)
    for piece in PIECES:
        for records in RECORDS:
            want = f"records {records} bytes {records * LENGTH}"
            nanos = measured(program, ("frames", records, LENGTH, piece), want)
            size = records * (RECORD_HEADER + LENGTH)
            print_row((
                records, piece, f"{nanos / 1e9:.4f}", f"{nanos / records:.0f}", f"{nanos / size:.2f}",
                f"{size * 1e3 / nanos:.0f}",
            ))


def core_of_client(client):
    ends = toeplitz.input_of(client, 40_000, "10.1.0.1", 443)
    return toeplitz.toeplitz(ends) % CORES


def bench_hash(program):
    short = toeplitz.toeplitz(bytes(i % 251 for i in range(HASHED_BOTH)))
    measured(program, ("hash", HASHED_BOTH), f"hash {short}")
    measured(program, ("cores", KEYS_BOTH), f"sum {sum(map(core_of_client, range(KEYS_BOTH)))}")
    nanos = measured(program, ("hash", HASHED))
    print(f"\nhash: {nanos / HASHED:.2f} ns/B, {HASHED * 1e3 / nanos:.0f} MB/s")
    nanos = measured(program, ("cores", KEYS))
    print(f"cores: {nanos / KEYS:.1f} ns/key")


def bench_rings(program):
    print_row(("places", "items", "seconds", "ns/item", "million items/s"))
    print_row(["--:"] * 5)
    for places in PLACES:
        nanos = measured(program, ("ring", ITEMS, places), f"right {ITEMS}")
        print_row((places, ITEMS, f"{nanos / 1e9:.4f}", f"{nanos / ITEMS:.1f}", f"{ITEMS * 1e3 / nanos:.2f}"))


def bench_budgets(program):
    print_row(("budget", "threads", "asks", "granted", "seconds", "ns/ask", "million asks and releases/s"))
    print_row(["--:"] * 7)
    for threads in THREADS:
        for budget in ("word", "locked"):
            asks = threads * ASKS
            want = f"granted {asks}" if budget == "locked" or threads == 1 else None
            nanos, line = best_run(program, (budget, threads, ASKS), want)
            granted = int(line.split()[1])
            if not 0 < granted <= asks:
                sys.exit(f"layerbench {budget}: {granted} of {asks} asks were granted")
            print_row((
                budget, threads, asks, granted, f"{nanos / 1e9:.4f}", f"{nanos / asks:.1f}",
                f"{(asks + granted) * 1e3 / nanos:.2f}",
            ))


def bench_dues(program):
    print_row(("ids", "seconds", "ns/id", "growth"))
    print_row(["--:"] * 4)
    before = None
    for ids in IDS:
        nanos = measured(program, ("dues", ids), f"in order {ids}")
        print_row((ids, f"{nanos / 1e9:.4f}", f"{nanos / ids:.0f}", "" if before is None else f"{nanos / before:.1f}"))
        before = nanos


def bytes_over_held(fragments):
    """How many positions the fragments and the segments over them cover."""
    starts = [FRAGMENT_SPACE * k for k in range(fragments)]
    for k in range(fragments, fragments + OVER_HELD):
        starts.append(FRAGMENT_SPACE * (k * SCATTER % 2**32 % fragments + 1) + BEHIND_FRAGMENT)
    return len({at for start in starts for at in range(start, start + FRAGMENT_LENGTH)})


def bench_directions(program):
    print_row(("segments", "fragments held", "seconds", "ns/segment"))
    print_row(["--:"] * 4)
    for segments in SEGMENTS:
        nanos = measured(program, ("order", segments, LENGTH), f"taken {segments * LENGTH}")
        print_row((segments, 0, f"{nanos / 1e9:.4f}", f"{nanos / segments:.0f}"))
    for fragments in FRAGMENTS:
        want = f"taken {bytes_over_held(fragments)}"
        nanos = measured(program, ("held", fragments, OVER_HELD, FRAGMENT_LENGTH), want)
        print_row((OVER_HELD, fragments, f"{nanos / 1e9:.4f}", f"{nanos / OVER_HELD:.0f}"))


def line_length(start, length):
    return len(f"data 1 > {start} 0 0 0 \n") + 2 * length


def bench_events(program):
    print_row(("events", "bytes each", "seconds", "ns/event", "ns/B of text", "x copy"))
    print_row(["--:"] * 6)
    for count, length in CHUNKS:
        text = sum(line_length(k * length, length) for k in range(count))
        nanos = measured(program, ("events", count, length), f"written {text}")
        line = text // count
        copy = measured(program, ("copies", count, line), f"copied {count * line}")
        print_row((
            count, length, f"{nanos / 1e9:.4f}", f"{nanos / count:.0f}", f"{nanos / text:.2f}", f"{nanos / copy:.1f}",
        ))


BENCHES = {"frames": bench_frames, "hash": bench_hash, "rings": bench_rings, "budgets": bench_budgets, "dues": bench_dues,
           "directions": bench_directions, "events": bench_events}


def main():
    parser = argparse.ArgumentParser(description=__doc__)
    parser.add_argument("program", nargs="?", default=PROGRAM, type=pathlib.Path)
    parser.add_argument("--only", action="append", choices=BENCHES, help="may be given several times; all where it is not")
    words = parser.parse_args()
    for name in words.only or BENCHES:
        BENCHES[name](words.program)
        print()


if __name__ == "__main__":
    main()
