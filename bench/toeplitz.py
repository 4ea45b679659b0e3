#!/usr/bin/env python3
"""The Toeplitz hash bit by bit as docs/FORMATS.md says, over the ends whose hashes the tests of streamkey expect.

Prints for each pair of ends the hash and the core of 2, 3, 4 and 16. It shares no code with the crate: the key is a
text of bits, and each bit of the input that is set takes 32 of them.
"""

import ipaddress

KEY = "0110110101011010"

PAIRS = (
    ("10.0.0.1", 40_000, "10.0.0.2", 80),
    ("0.0.0.0", 0, "0.0.0.0", 0),
    ("255.255.255.255", 65_535, "0.0.0.1", 1),
    ("2001:db8::1", 53, "2001:db8::2", 40_000),
    ("fe80::1234:5678:9abc:def0", 443, "2001:db8:85a3::8a2e:370:7334", 50_123),
    ("10.0.0.2", 80, "2001:db8::1", 53),
)


def input_of(a, a_port, b, b_port):
    """The bytes that are hashed: both addresses, then both ports, in network order."""
    ends = ipaddress.ip_address(a).packed + ipaddress.ip_address(b).packed
    return ends + a_port.to_bytes(2, "big") + b_port.to_bytes(2, "big")


def toeplitz(data):
    bits = "".join(f"{byte:08b}" for byte in data)
    key = KEY * (len(bits) // len(KEY) + 3)
    value = 0
    for place, bit in enumerate(bits):
        if bit == "1":
            value ^= int(key[place:place + 32], 2)
    return value


def main():
    for a, a_port, b, b_port in PAIRS:
        value = toeplitz(input_of(a, a_port, b, b_port))
        other = toeplitz(input_of(b, b_port, a, a_port))
        cores = " ".join(f"{value % n}/{n}" for n in (2, 3, 4, 16))
        print(f"{a} {a_port} {b} {b_port}: 0x{value:08x}, the other way 0x{other:08x}, core {cores}")
    for text in (b"", b"\x80", b"\x00\x01", b"abc"):
        print(f"{text!r}: 0x{toeplitz(text):08x}")


if __name__ == "__main__":
    main()
