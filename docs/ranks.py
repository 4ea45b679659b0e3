#!/usr/bin/env python3
"""Prints the crates of crates.txt by rank: one more than the highest rank of those that a crate stands on."""
import pathlib

stands_on = {}
for line in (pathlib.Path(__file__).resolve().parent.parent / "crates.txt").read_text().splitlines():
    line = line.split("#")[0].strip()
    if line:
        name, crates = line.split(":")
        stands_on[name.split()[0]] = crates.split()


def rank(name):
    """0 for a crate of the kit."""
    if name not in stands_on:
        return 0
    return 1 + max((rank(below) for below in stands_on[name]), default=0)


for number in range(1, 1 + max(rank(name) for name in stands_on)):
    print(number, " ".join(name for name in stands_on if rank(name) == number))
