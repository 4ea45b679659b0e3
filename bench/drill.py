#!/usr/bin/env python3
"""Measures `scaplab drill` on captures that make_udp.py makes, by the settings that nothing is said of and by some that shed and
filter, and checks both output files against model.py.

Time is the best of the runs, from the start of the program to its end. Peak memory is the largest resident size of
one more run, by /usr/bin/time. The copy reads and writes the capture and both outputs once, in pieces of 64 KiB.
Ends with 1 where a run fails or a file differs from the model's.
"""

import argparse
import os
import pathlib
import subprocess
import sys
import tempfile
import time
from dataclasses import dataclass

# The folder of the scripts stays as it is.
sys.dont_write_bytecode = True

import make_udp
import model

HERE = pathlib.Path(__file__).resolve().parent
CRATES = HERE.parent / "crates"
PROGRAM = CRATES / "scaplab" / "out" / "scaplab"
TIME = "/usr/bin/time"
DATAGRAMS = (1_000, 10_000, 100_000)
KEYS = (1, 64, 10_000)
PAYLOAD = 100
SEED = 1
RUNS = 3
PIECE = 65_536
# Datagrams, keys and longest payload of captures that are only checked. Their payloads have any length from 0, and some records
# are skipped.
CHECKED = (
    (0, 1, 0), (1, 1, 0), (1, 1, 100), (2, 1, 3), (2, 2, 3),
    (1_000, 1, 1), (1_000, 64, 100), (1_000, 1_000, 100), (10_000, 64, 300),
)
# Settings of the tables, and those of checks alone: small chunks under a small budget, and the packets of one port.
MEASURED = (model.Settings(), model.Settings(limit=65_536))
ONLY_CHECKED = (model.Settings(limit=4_096, chunk=256), model.Settings(chunk=1), model.Settings(port=1024))
COLUMNS = (
    "datagrams", "keys", "capture B", "output B", "seconds", "us/datagram",
    "peak KiB", "peak B/datagram", "x copy", "equal",
)


@dataclass
class Files:
    """A capture and what a run makes of it."""

    folder: pathlib.Path

    @property
    def capture(self):
        return self.folder / "capture.pcap"

    @property
    def out(self):
        return self.folder / "out"

    @property
    def settings(self):
        return self.folder / "settings"

    @property
    def outputs(self):
        return [self.folder / "out.0", self.folder / "out.report"]

    @property
    def every(self):
        return [self.capture, *self.outputs]


def run_checked(words):
    run = subprocess.run(words, stdout=subprocess.PIPE, check=False)
    if run.returncode != 0 or run.stdout != b"done\n":
        sys.exit(f"{words}: status {run.returncode}, printed {run.stdout!r}")


@dataclass
class Drill:
    """The program, and the settings that it is given; none where they are the defaults."""

    program: str
    settings: model.Settings

    @property
    def name(self):
        return self.settings.text.strip().replace("\n", ", ") if self.has_settings else "no settings"

    @property
    def has_settings(self):
        return self.settings != model.Settings()

    def on(self, files):
        options = []
        if self.has_settings:
            files.settings.write_text(self.settings.text, encoding="ascii")
            options = ["--settings", str(files.settings)]
        return [self.program, "drill", *options, str(files.capture), str(files.out)]


def seconds_of(action):
    begin = time.perf_counter()
    action()
    return time.perf_counter() - begin


def best_seconds(action):
    return min(seconds_of(action) for _ in range(RUNS))


def start_seconds(program):
    """How long a run takes that only prints the usage line."""
    return best_seconds(lambda: subprocess.run([str(program)], stdout=subprocess.DEVNULL, check=False))


def peak_kib(drill, files):
    """The peak memory of a run. A child's own count would begin with the memory of this script, so `time` starts it."""
    note = files.folder / "peak"
    run_checked([TIME, "-o", str(note), "-f", "%M", *drill.on(files)])
    return int(note.read_text())


def copy_file(path, copy):
    with open(path, "rb", buffering=0) as source, open(copy, "wb", buffering=0) as target:
        while piece := source.read(PIECE):
            target.write(piece)


def copy_all(files):
    for path in files.every:
        copy_file(path, files.folder / "copy")


def is_as_modelled(drill, files):
    texts = model.files_of(files.capture.read_bytes(), drill.settings)
    return all(path.read_bytes() == text for path, text in zip(files.outputs, texts))


def size_of(paths):
    return sum(os.path.getsize(path) for path in paths)


def measure(drill, files, datagrams, keys):
    """A row of the table."""
    make_udp.write_capture(files.capture, datagrams, keys, PAYLOAD, SEED)
    seconds = best_seconds(lambda: run_checked(drill.on(files)))
    peak = peak_kib(drill, files)
    copy = best_seconds(lambda: copy_all(files))
    return (
        f"{datagrams}", f"{keys}", f"{size_of([files.capture])}", f"{size_of(files.outputs)}",
        f"{seconds:.4f}", f"{seconds * 1e6 / datagrams:.2f}", f"{peak}", f"{peak * 1024 / datagrams:.0f}",
        f"{seconds / copy:.1f}", "yes" if is_as_modelled(drill, files) else "NO",
    )


def print_row(cells):
    print("| " + " | ".join(cells) + " |", flush=True)


def print_table(drill, files):
    """Answers whether all files are the model's."""
    print(f"{drill.name}\n", flush=True)
    print_row(COLUMNS)
    print_row(["--:"] * len(COLUMNS))
    equal = True
    for datagrams in DATAGRAMS:
        for keys in KEYS:
            row = measure(drill, files, datagrams, min(keys, datagrams))
            print_row(row)
            equal = equal and row[-1] == "yes"
    print()
    return equal


def check(drill, files, datagrams, keys, longest):
    """Answers whether the files of a capture with payloads of mixed lengths and skipped records are the model's."""
    make_udp.write_capture(files.capture, datagrams, keys, longest, SEED, mixed=True)
    run_checked(drill.on(files))
    equal = is_as_modelled(drill, files)
    if not equal:
        print(f"differs: {drill.name}; make_udp.py {datagrams} {keys} {longest} {SEED} OUTPUT --mixed")
    return equal


def print_checks(drill, files):
    """Answers whether all files are the model's."""
    equal = [check(drill, files, *shape) for shape in CHECKED]
    print(f"{drill.name}: payloads of mixed lengths and skipped records: {sum(equal)} of {len(equal)} captures equal")
    return all(equal)


def parse_words():
    parser = argparse.ArgumentParser(description=__doc__, formatter_class=argparse.RawDescriptionHelpFormatter)
    parser.add_argument("program", nargs="?", type=pathlib.Path, default=PROGRAM, help="the built scaplab")
    words = parser.parse_args()
    for needed in (words.program, pathlib.Path(TIME)):
        if not os.access(needed, os.X_OK):
            parser.error(f"{needed} can't be run")
    return words


def main():
    words = parse_words()
    program = str(words.program.resolve())
    measured = [Drill(program, settings) for settings in MEASURED]
    checked = [Drill(program, settings) for settings in (*MEASURED, *ONLY_CHECKED)]
    with tempfile.TemporaryDirectory() as folder:
        files = Files(pathlib.Path(folder))
        print(f"start alone: {start_seconds(program):.4f} seconds\n", flush=True)
        equal = all([print_table(drill, files) for drill in measured])
        equal = all([print_checks(drill, files) for drill in checked]) and equal
    print("every file is the model's" if equal else "a file differs from the model's")
    sys.exit(0 if equal else 1)


if __name__ == "__main__":
    main()
