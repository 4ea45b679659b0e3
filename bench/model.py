#!/usr/bin/env python3
"""The two files of a capture as docs/RULES.md and docs/FORMATS.md say, for little-endian microsecond captures of Ethernet.

It shares no code with the program and none with make_udp.py. Another capture, one that isn't whole, and one with a segment of
TCP are a ValueError; the idle time is not looked at.
"""

import argparse
from dataclasses import dataclass
import struct

CHUNK = 16_384
MOST_WAITING = 255
# How many bytes of a drill's budget its only priority may fill.
LIMIT = 67_108_864


def require(holds, what):
    if not holds:
        raise ValueError(what)


def frames(capture):
    """The moment in nanoseconds and the bytes of each record."""
    require(capture[:6] == bytes.fromhex("d4c3b2a10200"), "not a little-endian microsecond capture")
    require(capture[20:22] == b"\x01\x00", "not Ethernet")
    at = 24
    while at < len(capture):
        require(at + 16 <= len(capture), "cut header")
        seconds, fraction, size = struct.unpack_from("<III", capture, at)
        require(at + 16 + size <= len(capture), "cut record")
        yield seconds * 10**9 + fraction * 1000, capture[at + 16 : at + 16 + size]
        at += 16 + size


class Skipped(Exception):
    """A record without a packet; its argument is the kind in the report's line of records."""


def expect(holds, kind):
    if not holds:
        raise Skipped(kind)


def number(data, at, size=2):
    return int.from_bytes(data[at : at + size], "big")


def behind_ethernet(frame):
    """The EtherType behind at most two tags, and what it leads to."""
    expect(len(frame) >= 14, "short")
    ether_type, rest = number(frame, 12), frame[14:]
    for _ in range(2):
        if ether_type in (0x8100, 0x88A8):
            expect(len(rest) >= 4, "short")
            ether_type, rest = number(rest, 2), rest[4:]
    return ether_type, rest


def behind_ipv4(packet):
    """The protocol, both addresses, the length that is declared for the body, and the body."""
    expect(len(packet) >= 20 and packet[0] >> 4 == 4, "short")
    size, total = (packet[0] & 15) * 4, number(packet, 2)
    expect(20 <= size <= len(packet) and (total == 0 or total >= size), "short")
    expect(number(packet, 6) & 0x3FFF == 0, "fragment")
    expect(packet[9] in (6, 17), "other")
    declared = total - size if total else len(packet) - size
    ends = [".".join(str(byte) for byte in packet[at : at + 4]) for at in (12, 16)]
    return packet[9], ends, declared, packet[size : size + declared]


def behind_ipv6(packet):
    expect(len(packet) >= 40 and packet[0] >> 4 == 6, "short")
    declared = number(packet, 4) or len(packet) - 40
    ends = [":".join(packet[at : at + 16].hex()[k : k + 4] for k in range(0, 32, 4)) for at in (8, 24)]
    following, rest = packet[6], packet[40 : 40 + declared]
    while following in (0, 43, 60):
        expect(len(rest) >= 2 and len(rest) >= (rest[1] + 1) * 8, "short")
        size = (rest[1] + 1) * 8
        following, declared, rest = rest[0], declared - size, rest[size:]
    if following == 44:
        raise Skipped("fragment" if len(rest) >= 8 else "short")
    expect(following in (6, 17), "other")
    return following, ends, declared, rest


def datagram(frame):
    """The source, the target and the payload of an Ethernet frame. A segment of TCP is a ValueError."""
    ether_type, packet = behind_ethernet(frame)
    expect(ether_type in (0x0800, 0x86DD), "other")
    protocol, ends, declared, body = behind_ipv4(packet) if ether_type == 0x0800 else behind_ipv6(packet)
    if protocol == 6:
        expect(len(body) >= 20 and 20 <= (body[12] >> 4) * 4 <= len(body), "short")
        raise ValueError("a segment of TCP")
    expect(len(body) >= 8 and not 1 <= number(body, 4) <= 7, "short")
    said = number(body, 4)
    size = declared if said == 0 or said > declared else said
    source, target = (f"{end} {number(body, at)}" for end, at in zip(ends, (0, 2)))
    return source, target, body[8:size]


@dataclass
class Settings:
    """The bytes of a budget that any priority may fill, the size of a chunk, and the port of the packets that are taken."""

    limit: int = LIMIT
    chunk: int = CHUNK
    port: int | None = None

    def accepts(self, source, target):
        return self.port is None or any(end.split()[1] == str(self.port) for end in (source, target))

    @property
    def text(self):
        """As a file of settings says it."""
        lines = [f"budget {self.limit} {self.limit} 1", f"chunk {self.chunk}"]
        if self.port is not None:
            lines.append(f"filter port {self.port}")
        return "".join(f"{line}\n" for line in lines)


class Half:
    """A direction: how many bytes came, the front, the open chunk, and the numbers of the report."""

    def __init__(self, chunk):
        self.chunk = chunk
        self.sent, self.front = 0, 0
        self.start, self.gap, self.parts = 0, 0, []
        self.delivered, self.shed, self.gaps, self.gap_bytes = 0, 0, 0, 0

    @property
    def open_bytes(self):
        return sum(len(part) for part in self.parts)

    def take(self, payload, granted):
        """The chunks that are handed over as these bytes come."""
        at = self.sent
        self.sent += len(payload)
        if not granted:
            self.shed += len(payload)
            return []
        closed = []
        if self.parts and self.front < at:
            closed.append(self.closed())
        if not self.parts:
            self.start, self.gap = at, at - self.front
        self.parts.append(payload)
        self.front = self.sent
        if self.open_bytes >= self.chunk:
            closed.append(self.closed())
        return closed

    def closed(self):
        """The start, the gap and the parts of the open chunk, which is open no longer."""
        chunk = self.start, self.gap, self.parts
        self.delivered += self.open_bytes
        self.gaps += self.gap > 0
        self.gap_bytes += self.gap
        self.parts = []
        return chunk

    def numbers(self):
        return f"{self.sent} {self.delivered} 0 0 0 {self.shed} {self.gaps} {self.gap_bytes}"


class Conversation:
    def __init__(self, number, source, chunk):
        self.number = number
        self.source = source
        self.halves = {">": Half(chunk), "<": Half(chunk)}

    def way_from(self, source):
        return ">" if source == self.source else "<"


class Replay:
    """One core and one worker, by settings."""

    def __init__(self, settings):
        self.settings = settings
        self.conversations = {}
        self.lines, self.entries = [], []
        self.waiting, self.answered = [], 0
        self.stamp, self.used, self.peak, self.refused = 0, 0, 0, 0
        self.records, self.clock, self.filtered = 0, 0, 0
        self.skipped = {"other": 0, "fragment": 0, "short": 0}

    def tell(self, number, line, charges=()):
        self.waiting.append((number, line, charges))

    def answer(self, most):
        """Answers events until no more than so many wait."""
        told = max(len(self.waiting) - most, 0)
        for number, line, charges in self.waiting[:told]:
            self.answered += 1
            self.lines.append(line)
            self.entries.append(f"ans {number} {self.answered} .{''.join(map(self.released, charges))}\n")
        del self.waiting[:told]

    def released(self, size):
        word = f" ~{size}@{self.stamp}"
        self.stamp, self.used = self.stamp + 1, self.used - size
        return word

    def look(self, size):
        """The word of a look for so many bytes, and whether they were granted."""
        granted = self.used + size <= self.settings.limit
        word = f" {'+' if granted else '-'}{size}@{self.stamp}:{self.used}"
        if granted:
            self.stamp, self.used = self.stamp + 1, self.used + size
            self.peak = max(self.peak, self.used)
        else:
            self.refused += 1
        return word, granted

    def hand_over(self, number, way, chunk):
        start, gap, parts = chunk
        line = f"data {number} {way} {start} {gap} 0 0 {b''.join(parts).hex()}\n"
        self.tell(number, line, [len(part) for part in parts])

    def conversation_of(self, source, target):
        key = frozenset((source, target))
        if key not in self.conversations:
            self.conversations[key] = Conversation(self.records, source, self.settings.chunk)
            self.tell(self.records, f"new {self.records} udp {source} {target}\n")
        return self.conversations[key]

    def take(self, moment, frame):
        """Takes a record: every one has a number, and its moment counts for the clock."""
        self.records, self.clock = self.records + 1, max(self.clock, moment)
        try:
            self.take_datagram(*datagram(frame))
        except Skipped as skipped:
            self.skipped[skipped.args[0]] += 1

    def take_datagram(self, source, target, payload):
        if not self.settings.accepts(source, target):
            self.filtered += 1
            return
        self.answer(0)
        conversation = self.conversation_of(source, target)
        way = conversation.way_from(source)
        half = conversation.halves[way]
        word, chunks = "", []
        if payload:
            word, granted = self.look(len(payload))
            chunks = half.take(payload, granted)
        self.entries.append(f"seg {conversation.number} {self.records} {self.clock}{word}\n")
        for chunk in chunks:
            self.hand_over(conversation.number, way, chunk)

    def end(self):
        """Ends all conversations in the order of their numbers, with fewer than 256 events waiting before each."""
        self.answer(0)
        for conversation in self.conversations.values():
            self.answer(MOST_WAITING)
            self.entries.append(f"end {conversation.number} {self.clock} finish\n")
            for way, half in conversation.halves.items():
                if half.parts:
                    self.hand_over(conversation.number, way, half.closed())
            self.tell(conversation.number, f"end {conversation.number} finish\n")
        self.answer(0)


def replay_of(capture, settings):
    replay = Replay(settings)
    for moment, frame in frames(capture):
        replay.take(moment, frame)
    replay.end()
    return replay


def report_lines(replay):
    yield "scap report 1\ncores 1 workers 1\ncore 0\n"
    yield from replay.entries
    yield "worker 0\n"
    if replay.answered:
        yield f"from 0 {replay.answered}\n"
    halves = []
    for conversation in replay.conversations.values():
        for way, half in conversation.halves.items():
            yield f"dir {conversation.number} {way} {half.numbers()}\n"
            halves.append(half)
    payload, delivered, shed = (sum(getattr(half, name) for half in halves) for name in ("sent", "delivered", "shed"))
    accepted = replay.records - replay.filtered - sum(replay.skipped.values())
    kinds = "".join(f" {kind} {count}" for kind, count in replay.skipped.items())
    yield f"records {replay.records} accepted {accepted} filtered {replay.filtered}{kinds}\n"
    yield f"bytes payload {payload} delivered {delivered} duplicate 0 late 0 cut 0 shed {shed}\n"
    yield f"budget stamps {replay.stamp} peak {replay.peak} refused {replay.refused}\n"
    yield "status 0\n"


def files_of(capture, settings):
    """The bytes of OUT.0 and of OUT.report."""
    replay = replay_of(capture, settings)
    return "".join(replay.lines).encode("ascii"), "".join(report_lines(replay)).encode("ascii")


def main():
    parser = argparse.ArgumentParser(description="Writes OUT.0 and OUT.report of a capture.")
    parser.add_argument("capture")
    parser.add_argument("out")
    parser.add_argument("--limit", type=int, default=LIMIT, help="bytes of the budget")
    parser.add_argument("--chunk", type=int, default=CHUNK, help="bytes of a chunk")
    parser.add_argument("--port", type=int, help="the port of the packets that are taken")
    words = parser.parse_args()
    with open(words.capture, "rb") as capture:
        texts = files_of(capture.read(), Settings(words.limit, words.chunk, words.port))
    for ending, text in zip((".0", ".report"), texts):
        with open(words.out + ending, "wb") as out:
            out.write(text)


if __name__ == "__main__":
    main()
