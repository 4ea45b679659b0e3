#!/usr/bin/env python3
"""Measures `scaplab match` on captures that make_udp.py makes, with skipped records among them, and checks the file against the
numbers of the records that model.py accepts.

Time is the best of the runs, from the start of the program to its end. Peak memory is the largest resident size of
one more run, by /usr/bin/time. Ends with 1 where a run fails or a file differs.
"""

import argparse
import os
import pathlib
import sys
import tempfile

# The folder of the scripts stays as it is.
sys.dont_write_bytecode = True

import drill
import make_udp
import model

DATAGRAMS = (10_000, 100_000)
KEYS = 64
PAYLOAD = 100
PORT = 1024
COLUMNS = ("datagrams", "records", "capture B", "matches", "seconds", "us/record", "peak KiB", "equal")


def numbers_of(capture):
    """The numbers of the records with a datagram from or to the port."""
    settings = model.Settings(port=PORT)
    for number, (_, frame) in enumerate(model.frames(capture), start=1):
        try:
            source, target, _ = model.datagram(frame)
        except model.Skipped:
            continue
        if settings.accepts(source, target):
            yield number


def measure(program, folder, datagrams):
    """A row of the table."""
    capture, out = folder / "capture.pcap", folder / "out"
    make_udp.write_capture(capture, datagrams, KEYS, PAYLOAD, drill.SEED, mixed=True)
    words = [program, "match", f"port {PORT}", str(capture), str(out)]
    seconds = drill.best_seconds(lambda: drill.run_checked(words))
    note = folder / "peak"
    drill.run_checked([drill.TIME, "-o", str(note), "-f", "%M", *words])
    data = capture.read_bytes()
    records = sum(1 for _ in model.frames(data))
    numbers = list(numbers_of(data))
    text = "".join(f"{number}\n" for number in numbers).encode("ascii")
    equal = (folder / "out.match").read_bytes() == text
    return (
        f"{datagrams}", f"{records}", f"{len(data)}", f"{len(numbers)}", f"{seconds:.4f}", f"{seconds * 1e6 / records:.2f}",
        note.read_text().strip(), "yes" if equal else "NO",
    )


def parse_words():
    parser = argparse.ArgumentParser(description=__doc__, formatter_class=argparse.RawDescriptionHelpFormatter)
    parser.add_argument("program", nargs="?", type=pathlib.Path, default=drill.PROGRAM, help="the built scaplab")
    words = parser.parse_args()
    for needed in (words.program, pathlib.Path(drill.TIME)):
        if not os.access(needed, os.X_OK):
            parser.error(f"{needed} can't be run")
    return words


def main():
    program = str(parse_words().program.resolve())
    drill.print_row(COLUMNS)
    drill.print_row(["--:"] * len(COLUMNS))
    with tempfile.TemporaryDirectory() as folder:
        rows = [measure(program, pathlib.Path(folder), datagrams) for datagrams in DATAGRAMS]
    for row in rows:
        drill.print_row(row)
    equal = all(row[-1] == "yes" for row in rows)
    print("every file is the model's" if equal else "a file differs from the model's")
    sys.exit(0 if equal else 1)


if __name__ == "__main__":
    main()
