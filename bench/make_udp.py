#!/usr/bin/env python3
"""Makes a capture of UDP datagrams: a little-endian microsecond pcap 2.4 file of IPv4 over Ethernet.

Every key has two ends of its own and about as many datagrams as every other. The order of the keys, the direction
of each datagram and its payload come from the seed, so the same arguments make the same file. A mixed capture also has records
that are skipped.
"""

import argparse
import random
import struct

ETHERNET = bytes.fromhex("020000000002" "020000000001" "0800")
HEADERS_SIZE = 16 + 14 + 20 + 8
MOST_CAPTURE = 16_777_216
FIRST_SECOND = 1_700_000_000
# Odd, so that multiplying by it gives every number below 2 ** 24 an address of its own.
ADDRESS_STEP = 0x9E3779
POOL_SIZE = 65_536


def file_header():
    return struct.pack("<IHHiIII", 0xA1B2C3D4, 2, 4, 0, 0, 262_144, 1)


def end_of(number):
    """The address and the port of an end, as they stand in a packet. No two numbers have one address."""
    address = (10 << 24) + number * ADDRESS_STEP % (1 << 24)
    port = 1024 + number * 7919 % 60_000
    return struct.pack(">I", address), struct.pack(">H", port)


def ends_of(key):
    return end_of(2 * key), end_of(2 * key + 1)


def ipv4(source, target, size):
    return struct.pack(">BBHHHBBH4s4s", 0x45, 0, 20 + size, 0, 0, 64, 17, 0, source, target)


def frame(source, target, payload):
    size = 8 + len(payload)
    udp = source[1] + target[1] + struct.pack(">HH", size, 0)
    return ETHERNET + ipv4(source[0], target[0], size) + udp + payload


def skipped_frame(rng, data):
    """A frame that is skipped, made of one that isn't: another protocol, a third tag, a fragment, or a cut frame; and sometimes
    one behind two tags, which isn't skipped."""
    tag = bytes.fromhex("81000005")
    form = int(rng.random() * 7)
    if form == 0:
        return data[:12] + bytes.fromhex("0806") + data[14:]
    if form == 1:
        return data[:12] + tag * 3 + data[12:]
    if form == 2:
        return data[:20] + bytes.fromhex("2000") + data[22:]
    if form == 3:
        return data[:23] + bytes([1]) + data[24:]
    if form == 4:
        return data[: int(rng.random() * 42)]
    if form == 5:
        return data[:38] + bytes.fromhex("0007") + data[40:]
    return data[:12] + bytes.fromhex("88a80006") + tag + data[12:]


def record(number, data, later=0):
    """The record of that number, counted from 0, so many milliseconds later. Records are a millisecond apart."""
    seconds, milliseconds = divmod(number + later, 1000)
    moment = (FIRST_SECOND + seconds, milliseconds * 1000)
    return struct.pack("<IIII", *moment, len(data), len(data)) + data


def shuffled_keys(rng, datagrams, keys):
    """The key of each datagram. Only `random` is called: its numbers are the same in every version of Python."""
    order = [number % keys for number in range(datagrams)]
    order.sort(key=lambda _: rng.random())
    return order


def payload_maker(rng, longest, mixed):
    """Makes payloads of the longest length, or of any length up to it where they are mixed."""
    pool = bytes(int(rng.random() * 256) for _ in range(POOL_SIZE + longest))

    def payload():
        start = int(rng.random() * POOL_SIZE)
        size = int(rng.random() * (longest + 1)) if mixed else longest
        return pool[start : start + size]

    return payload


def records(datagrams, keys, longest, seed, mixed=False):
    rng = random.Random(seed)
    payload = payload_maker(rng, longest, mixed)
    for number, key in enumerate(shuffled_keys(rng, datagrams, keys)):
        source, target = ends_of(key)
        if rng.random() < 0.5:
            source, target = target, source
        if mixed and rng.random() < 0.25:
            yield record(number, skipped_frame(rng, frame(source, target, payload())), int(rng.random() * 50))
        yield record(number, frame(source, target, payload()))


def write_capture(path, datagrams, keys, longest, seed, mixed=False):
    with open(path, "wb") as out:
        out.write(file_header())
        for data in records(datagrams, keys, longest, seed, mixed):
            out.write(data)


def parse_words():
    parser = argparse.ArgumentParser(description=__doc__, formatter_class=argparse.RawDescriptionHelpFormatter)
    parser.add_argument("datagrams", type=int)
    parser.add_argument("keys", type=int, help="at most the datagrams")
    parser.add_argument("payload", type=int, help="bytes of each payload")
    parser.add_argument("seed", type=int)
    parser.add_argument("output")
    parser.add_argument("--mixed", action="store_true", help="payloads of any length from 0 to PAYLOAD, among them skipped records")
    words = parser.parse_args()
    if words.datagrams < 0 or not 0 < words.keys <= max(words.datagrams, 1):
        parser.error("the keys are at least 1 and at most the datagrams")
    if words.payload < 0 or 24 + words.datagrams * (HEADERS_SIZE + words.payload) > MOST_CAPTURE:
        parser.error(f"the capture would have more than {MOST_CAPTURE} bytes")
    return words


def main():
    words = parse_words()
    write_capture(words.output, words.datagrams, words.keys, words.payload, words.seed, words.mixed)


if __name__ == "__main__":
    main()
