#!/usr/bin/env python3
"""The change request "Captures in pcap" read a second time, and random files for `to_pcap` and `from_pcap`.

    pcap.py check                                               the marked cases
    pcap.py to < capture, pcap.py from < pcap                   the moves
    pcap.py --to PATH --from PATH [--count 1000] [--seed 1]     the programs beside this script
    pcap.py vectors write|check                                 the programs' stdin and stdout

It shares with ../tests/model.py the reading of a block, and nothing with the product. A program's output and its line on standard
error must be those of the script, byte for byte, also where it refuses: a stream has then written what stands before.
"""

import argparse
import os
import random
import struct
import subprocess
import sys
import tempfile

import captures
import model

HERE = os.path.dirname(os.path.abspath(__file__))
HEAD = struct.pack("<IHHiIII", 0xa1b2c3d4, 2, 4, 0, 0, 127, 230)


class Refused(Exception):
    """A refusal's number, and what a stream has written before it."""

    def __init__(self, number, before):
        super().__init__(number)
        self.number, self.before = number, before


def record(time, frame):
    return struct.pack("<IIII", time // 1000, time % 1000 * 1000, len(frame), len(frame)) + frame


def to_pcap(capture):
    """"Move a block capture to pcap"; "Refusals: going, 15"."""
    out = HEAD
    for number in range((len(capture) + 511) // 512):
        try:
            frames = model.read_block(capture[512 * number:512 * (number + 1)], number)
        except model.Refused as refused:
            raise Refused(refused.number, out)
        out += b"".join(record(time, frame) for time, frame in frames)
    return out


class Cut(Exception):
    pass


class Place:
    """A reading place: "1 cut short"."""

    def __init__(self, data):
        self.data, self.at = data, 0

    def take(self, n):
        if len(self.data) - self.at < n:
            raise Cut()
        self.at += n
        return self.data[self.at - n:self.at]

    def number(self, n):
        return int.from_bytes(self.take(n), "little")


def read_header(place):
    """"in field order, 1 cut short; 2 other magic; 3 other header fields"."""
    if place.number(4) != 0xa1b2c3d4:
        return 2
    for size, value in ((2, 2), (2, 4), (4, 0), (4, 0), (4, 127), (4, 230)):
        if place.number(size) != value:
            return 3
    return 0


def read_record(place):
    """A frame with its time, or a number: "4 a frame over 127 or two lengths that differ; 18 (new) microseconds of a million or
    more or not whole milliseconds, a time over 32 bits of ms"."""
    seconds, micro = place.number(4), place.number(4)
    if micro >= 1000000 or micro % 1000 or seconds * 1000 + micro // 1000 > 0xffffffff:
        return 18
    length = place.number(4)
    if length > 127:
        return 4
    if place.number(4) != length:
        return 4
    return seconds * 1000 + micro // 1000, place.take(length)


def blocks(frames):
    """Three frames to a block; the last has what is left."""
    out = b""
    for number, at in enumerate(range(0, len(frames), 3)):
        block = captures.encode_block(number, frames[at:at + 3])
        captures.seal(block)
        out += bytes(block)
    return out


def from_pcap(data):
    place, frames = Place(data), []
    try:
        answer = read_header(place)
        while not answer and place.at < len(data):
            got = read_record(place)
            if isinstance(got, int):
                answer = got
            else:
                frames.append(got)
    except Cut:
        answer = 1
    if answer:
        raise Refused(answer, blocks(frames[:len(frames) // 3 * 3]))
    return blocks(frames)


# ------------------------------------------------------------------------------------------------------------- drawn files

TIMES = (0, 1, 999, 1000, 1001, 59999, 60000, 0x7fffffff, 0x80000000, 0xfffffffe, 0xffffffff, 4294967000, 4294966999)


def draw_frame(rng):
    length = rng.choice((0, 1, 2, 126, 127, 127, rng.randrange(128), rng.randrange(128)))
    return rng.choice(TIMES + (rng.randrange(2 ** 32),) * 6), rng.randbytes(length)


def draw_frames(rng):
    count = rng.choice((0, 1, 2, 3, 4, 5, 6, 7, rng.randrange(40), rng.randrange(40), rng.choice((300, 500, 3000))))
    return [draw_frame(rng) for _ in range(count)]


def draw_capture(rng):
    listed = captures.blocks_of(rng, draw_frames(rng))
    if rng.random() < 0.4:
        captures.damage(rng, listed)
    data = captures.encode(listed)
    if rng.random() < 0.1:
        data = data[:rng.randrange(len(data) + 1)]
    return data


def damage_record(rng, one):
    """One field of a record set to a value at its edge."""
    at, values = rng.choice((
        (0, (4294967, 4294968, 0xffffffff, 4294966)), (4, (1000000, 999999, 999001, 1, 500, 0xffffffff, 1000, 295000, 296000, 999000)),
        (8, (128, 127, 0, 0xffffffff, 0x100, 0x10000)), (12, (128, 127, 0, 0xffffffff, 0x7f000000))))
    return one[:at] + struct.pack("<I", rng.choice(values)) + one[at + 4:]


def draw_pcap(rng):
    records = [record(*frame) for frame in draw_frames(rng)]
    head = HEAD
    kind = rng.randrange(10)
    if kind < 3 and records:
        for _ in range(rng.choice((1, 1, 2))):
            i = rng.randrange(len(records))
            records[i] = damage_record(rng, records[i])
    elif kind == 3:
        at = rng.randrange(24)
        head = head[:at] + bytes([head[at] ^ 1 << rng.randrange(8)]) + head[at + 1:]
    elif kind == 4:
        head = rng.choice((struct.pack("<I", 0xa1b23c4d) + HEAD[4:], HEAD[:4][::-1] + HEAD[4:], struct.pack("<IHHiIII", 0xa1b2c3d4, 2, 4, 0, 0, 128, 230),
                           HEAD[:20] + struct.pack("<I", 195), HEAD[:20] + struct.pack("<I", 215), HEAD[:16] + struct.pack("<I", 65535) + HEAD[20:]))
    data = head + b"".join(records)
    if kind in (5, 6):
        data = data[:rng.choice((rng.randrange(len(data) + 1), rng.randrange(25), max(0, len(data) - rng.randrange(1, 17))))]
    return data


# ------------------------------------------------------------------------------------------------------------- programs

def expected(move, data):
    try:
        return move(data), b""
    except Refused as refused:
        return refused.before, b"no %d" % refused.number


def differs(path, move, data):
    """What a program wrote, where it is not what it must write."""
    out, line = expected(move, data)
    run = subprocess.run([path], input=data, capture_output=True)
    said = run.stderr.split(b" at ")[0].rstrip(b"\n")
    if run.stdout != out or said != line or run.returncode != 0:
        return f"{len(run.stdout)} bytes for {len(out)}, {run.stderr!r} for {line!r}, status {run.returncode}"
    return ""


def differs_named(path, move, data, folder):
    """The same with two arguments: the whole file or none, and nothing beside it."""
    out, line = expected(move, data)
    source, target = os.path.join(folder, "in"), os.path.join(folder, "out")
    with open(source, "wb") as file:
        file.write(data)
    if os.path.exists(target):
        os.remove(target)
    run = subprocess.run([path, source, target], capture_output=True)
    said = run.stderr.split(b" at ")[0].rstrip(b"\n")
    if said != line or run.stdout or sorted(os.listdir(folder)) != (["in"] if line else ["in", "out"]):
        return f"{run.stderr!r} for {line!r}, {sorted(os.listdir(folder))}"
    if not line and open(target, "rb").read() != out:
        return "another file"
    return ""


def compare(to, back, count, seed):
    seen = {}
    with tempfile.TemporaryDirectory() as folder:
        for i in range(count):
            rng = random.Random(f"pcap {seed} {i}")
            for path, move, draw in ((to, to_pcap, draw_capture), (back, from_pcap, draw_pcap)):
                data = draw(rng)
                wrong = differs(path, move, data) or (i % 10 == 0 and differs_named(path, move, data, folder))
                if wrong:
                    with open("differs.bin", "wb") as file:
                        file.write(data)
                    sys.exit(f"{path}, file {i} of seed {seed} (differs.bin): {wrong}")
                kind = (move.__name__, expected(move, data)[1].decode() or "whole")
                seen[kind] = seen.get(kind, 0) + 1
        for path in (to, back):
            for words in (["one"], ["a", "b", "c"]):
                run = subprocess.run([path, *words], input=b"", capture_output=True)
                if run.stdout or not run.stderr.startswith(b"usage: "):
                    sys.exit(f"{path} {words}: {run.stderr!r}")
    print(f"pcap: {2 * count} files, all as the second reading: " + ", ".join(f"{m} {k} {n}" for (m, k), n in sorted(seen.items())))


def check():
    """Cases written by hand."""
    assert to_pcap(b"") == bytes.fromhex("d4c3b2a1020004000000000000000000" "7f000000e6000000") == HEAD and from_pcap(HEAD) == b""
    one = blocks([(1234567, b"\x41\x88\x05")])
    assert to_pcap(one) == HEAD + bytes.fromhex("d2040000" "d8a60800" "03000000" "03000000" "418805") and from_pcap(to_pcap(one)) == one
    cases = ((b"", 1), (HEAD[:23], 1), (b"\xa1\xb2\xc3\xd4" + HEAD[4:], 2), (HEAD[:20] + b"\xc3\0\0\0", 3), (HEAD + b"\0" * 15, 1),
             (HEAD + struct.pack("<IIII", 0, 999, 0, 0), 18), (HEAD + struct.pack("<II", 0, 1000000), 18), (HEAD + struct.pack("<II", 4294967, 296000), 18),
             (HEAD + struct.pack("<III", 0, 0, 128), 4), (HEAD + struct.pack("<IIII", 0, 0, 1, 2), 4), (HEAD + struct.pack("<IIII", 0, 0, 1, 1), 1))
    for data, number in cases:
        assert expected(from_pcap, data) == (b"", b"no %d" % number), (data, number)
    assert len(from_pcap(HEAD + struct.pack("<IIII", 4294967, 295000, 0, 0))) == 512
    assert expected(to_pcap, one[:511]) == (HEAD, b"no 15")
    for i in range(200):
        rng = random.Random(f"check {i}")
        frames = draw_frames(rng)
        assert from_pcap(to_pcap(blocks(frames))) == blocks(frames)
    print("pcap: the marked cases hold")


def vectors(write):
    """stdin and stdout of the programs: an example's frames as text, made a capture by ../examples/make-capture, and made pcap by
    this script. pcap_peers.py shows that Scapy writes the same bytes."""
    root = os.path.join(HERE, "..")
    capture = open(os.path.join(root, "examples", "two-gateways.cap"), "rb").read()
    for name, data in (("to_pcap/stdin", capture), ("to_pcap/stdout", to_pcap(capture)), ("from_pcap/stdin", to_pcap(capture)), ("from_pcap/stdout", capture)):
        path = os.path.join(root, "crates", name)
        if write:
            open(path, "wb").write(data)
        elif open(path, "rb").read() != data:
            sys.exit(f"{path} is not as written")


def main():
    if sys.argv[1:2] == ["check"]:
        check()
        return vectors(False)
    if sys.argv[1:2] == ["vectors"]:
        return vectors(sys.argv[2] == "write")
    if sys.argv[1:] in (["to"], ["from"]):
        out, line = expected(to_pcap if sys.argv[1] == "to" else from_pcap, sys.stdin.buffer.read())
        sys.stdout.buffer.write(out)
        sys.stderr.write(line.decode() + "\n" * bool(line))
        return None
    parser = argparse.ArgumentParser(description=__doc__, formatter_class=argparse.RawDescriptionHelpFormatter)
    parser.add_argument("--to", required=True)
    parser.add_argument("--from", dest="back", required=True)
    parser.add_argument("--count", type=int, default=1000)
    parser.add_argument("--seed", default="1")
    arguments = parser.parse_args()
    return compare(arguments.to, arguments.back, arguments.count, arguments.seed)


if __name__ == "__main__":
    main()
