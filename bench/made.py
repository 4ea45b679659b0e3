#!/usr/bin/env python3
"""A made capture of a seed, worked out from the words of docs/FORMATS.md ("Captures that are made").

usage: made.py SEED COUNT OUTPUT

It shares no code with the crates. With `-` as OUTPUT it prints the length and the digest (FNV-1a, 64 bits) of the file,
which pcapgen's tests expect.
"""
import struct
import sys

HEAD = bytes.fromhex("d4c3b2a10200040000000000000000000000040001000000")
ETHERNET = bytes.fromhex("0200000000020200000000010800")


def records(seed, count):
    """The records of a seed, in order, each with its 16 bytes of header."""
    state = seed
    sent = {}

    def draw(k):
        nonlocal state
        state = (state * 6364136223846793005 + 1442695040888963407) % 2**64
        return (state >> 32) % k

    for i in range(count):
        flow, way, size, step = draw(64), draw(2), draw(200) + 1, draw(8)
        tcp = flow % 2 == 0
        begin = sent.get((flow, way), 0)
        if tcp and step == 0:
            begin = max(begin - 50, 0)
        elif tcp and step == 1:
            begin += size
        sent[flow, way] = max(sent.get((flow, way), 0), begin + size)
        payload = bytes((at + 7 * flow + 13 * way) % 251 for at in range(begin, begin + size))
        client = bytes([10, 0, 0, flow + 1]), 40000 + flow
        server = bytes([10, 1, 0, 1]), 80 if flow % 4 < 2 else 443
        source, target = (client, server) if way == 0 else (server, client)
        if tcp:
            sequence = (4294960000 + 100 * flow + way + begin) % 2**32
            header = struct.pack(">HHIIBBHHH", source[1], target[1], sequence, 0, 0x50, 0x18, 65535, 0, 0)
        else:
            header = struct.pack(">HHHH", source[1], target[1], 8 + size, 0)
        total = 20 + len(header) + size
        ip = struct.pack(">BBHHHBBH", 0x45, 0, total, 0, 0, 64, 6 if tcp else 17, 0) + source[0] + target[0]
        frame = ETHERNET + ip + header + payload
        yield struct.pack("<IIII", i // 1000, i % 1000 * 1000, len(frame), len(frame)) + frame


def digest(data):
    """FNV-1a, 64 bits."""
    value = 0xCBF29CE484222325
    for byte in data:
        value = ((value ^ byte) * 0x100000001B3) % 2**64
    return value


def main():
    seed, count, output = int(sys.argv[1]), int(sys.argv[2]), sys.argv[3]
    data = HEAD + b"".join(records(seed, count))
    if output == "-":
        print(len(data), f"{digest(data):016x}")
    else:
        with open(output, "wb") as file:
            file.write(data)


if __name__ == "__main__":
    main()
