#!/usr/bin/env python3
"""Random captures for `heard`, each answer compared with model.py line by line.

    captures.py --heard PATH [--count 10000] [--seed 1] [--only N] [--jobs 1] [--save DIR]

Good captures, adversarial ones and damaged ones (README.md says what is in each). A capture's number and the seed give
the same capture again (`--only`). At the first difference the capture is made as small as it can be and still differ,
saved (its frames as text beside it), both answers are shown, and the status is 1.
"""

import argparse
import multiprocessing
import os
import random
import subprocess
import sys

import model
import scenes

BLOCK = 512
TOP = 2 ** 32 - 1


# ------------------------------------------------------------------------------------------------------------ captures

def crc(data, value=0):
    """The frame check of IEEE 802.15.4, bit by bit from its polynomial (model.py has it by table)."""
    for byte in data:
        value ^= byte
        for _ in range(8):
            value = value >> 1 ^ (0x8408 if value & 1 else 0)
    return value


CRC_BYTES = [crc(bytes([n])) for n in range(256)]


def quick_crc(data, value=0):
    for byte in data:
        value = value >> 8 ^ CRC_BYTES[(value ^ byte) & 0xff]
    return value


def encode_block(number, frames):
    block = bytearray(BLOCK)
    block[0:4] = number.to_bytes(4, "little")
    block[4] = len(frames)
    for i, (time, frame) in enumerate(frames):
        at = 6 + 132 * i
        block[at:at + 4] = time.to_bytes(4, "little")
        block[at + 4] = len(frame)
        block[at + 5:at + 5 + len(frame)] = frame
    return block


def seal(block, start=0, swap=False, invert=False):
    value = quick_crc(block[:510], start) ^ (0xffff if invert else 0)
    block[510:512] = value.to_bytes(2, "big" if swap else "little")


class Block:
    """Frames, and what was done to them: `pokes` are (place, value) before the frame check is set, `after` behind it,
    `check` how the frame check is worked out, `length` how many of the 512 bytes are there."""

    def __init__(self, frames, pokes=(), after=(), check=None, length=BLOCK, number=None):
        self.frames, self.pokes, self.after = list(frames), list(pokes), list(after)
        self.check, self.length, self.number = dict(check or {}), length, number

    def encode(self, place):
        block = encode_block(place if self.number is None else self.number, self.frames)
        for at, value in self.pokes:
            block[at] = value
        seal(block, **self.check)
        for at, value in self.after:
            block[at] = value
        return bytes(block[:self.length]) + bytes(max(0, self.length - BLOCK))

    def copy(self, **changes):
        fields = dict(frames=self.frames, pokes=self.pokes, after=self.after, check=self.check, length=self.length,
                      number=self.number)
        fields.update(changes)
        return Block(**fields)

    def plain(self):
        return not self.pokes and not self.after and not self.check and self.length == BLOCK and self.number is None


def encode(blocks):
    return b"".join(block.encode(place) for place, block in enumerate(blocks))


def blocks_of(rng, events):
    blocks = []
    full = rng.random() < 0.5
    at = 0
    while at < len(events):
        count = 3 if full else rng.choice((0, 1, 2, 3, 3, 3))
        blocks.append(Block(events[at:at + count]))
        at += count
    if rng.random() < 0.05:
        blocks.insert(rng.randrange(len(blocks) + 1), Block([]))
    return blocks


def damage(rng, blocks):
    """One thing wrong with a capture."""
    if not blocks:
        blocks.append(Block([]))
    at = rng.randrange(len(blocks))
    block = blocks[at]
    count = len(block.frames)
    kind = rng.choice((*range(20), 0, 0, 1, 3, 3, 3, 4, 7, 8, 9))
    value = rng.choice((1, 0x80, 0xff, rng.randrange(1, 256)))
    if kind == 0:
        blocks[at] = block.copy(number=rng.choice((at + 1, max(0, at - 1), at << 8, at << 24 & TOP, 0xffffffff, at ^ 0x100,
                                                   at ^ 0x10000, at ^ 0x1000000)))
    elif kind == 1:
        blocks[at] = block.copy(pokes=[(4, rng.choice((4, 4, 4, 5, 255, 0x83, count ^ 1, rng.randrange(4))))])
    elif kind == 2:
        blocks[at] = block.copy(pokes=[(5, value)])
    elif kind == 3 and count < 3:
        # A place that isn't used: its time, its length, or its frame bytes.
        start = 6 + 132 * rng.randrange(count, 3)
        blocks[at] = block.copy(pokes=[(start + rng.choice((0, 1, 2, 3, 4, 4, 5, 6, 130, 131, rng.randrange(132))), value)])
    elif kind == 4 and count:
        i = rng.randrange(count)
        length = len(block.frames[i][1])
        if length < 127:
            spot = rng.choice((length, 126, rng.randrange(length, 127)))
            blocks[at] = block.copy(pokes=[(6 + 132 * i + 5 + spot, value)])
    elif kind == 5 and count:
        blocks[at] = block.copy(pokes=[(6 + 132 * rng.randrange(count) + 4, rng.choice((128, 129, 255, 200)))])
    elif kind == 6 and count:
        i = rng.randrange(count)
        length = len(block.frames[i][1])
        blocks[at] = block.copy(pokes=[(6 + 132 * i + 4, rng.choice((max(0, length - 1), min(127, length + 1), 127, 0)))])
    elif kind == 7:
        blocks[at] = block.copy(pokes=[(rng.choice((402, 403, 509, 508, rng.randrange(402, 510))), value)])
    elif kind == 8:
        spot = rng.choice((510, 511))
        good = block.copy(length=BLOCK).encode(at)[spot]
        blocks[at] = block.copy(after=[(spot, good ^ 1 << rng.randrange(8))])
    elif kind == 9:
        blocks[at] = block.copy(check=rng.choice(({"swap": True}, {"invert": True}, {"start": 0xffff},
                                                  {"start": 0xffff, "invert": True})))
    elif kind == 10:
        spot = rng.randrange(510)
        blocks[at] = block.copy(after=[(spot, block.copy(length=BLOCK).encode(at)[spot] ^ 1 << rng.randrange(8))])
    elif kind in (11, 12):
        blocks[-1] = blocks[-1].copy(length=rng.choice((0, 1, 4, 5, 6, 510, 511, rng.randrange(512))))
    elif kind == 13:
        blocks[-1] = blocks[-1].copy(length=BLOCK + rng.choice((1, 2, 511, 512, 513, rng.randrange(1, 512))))
    elif kind == 14 and len(blocks) > 1:
        del blocks[at]
        blocks[:] = [b.copy(number=i if i < at else i + 1) for i, b in enumerate(blocks)]
    elif kind == 15:
        blocks.insert(at, block.copy(number=at))
        blocks[:] = [b.copy(number=i if i <= at else i - 1) for i, b in enumerate(blocks)]
    elif kind == 16 and len(blocks) > 1:
        other = rng.randrange(len(blocks))
        numbered = [b.copy(number=i) for i, b in enumerate(blocks)]
        numbered[at], numbered[other] = numbered[other], numbered[at]
        blocks[:] = numbered
    elif kind == 17:
        # A count above what is there is no damage: a place of zeros is a frame of no bytes at time 0.
        blocks[at] = block.copy(pokes=[(4, 3)])
    elif kind == 18:
        blocks[at] = block.copy(pokes=[(i, value) for i in range(rng.randrange(400), 510)][:rng.randrange(1, 110)])
    else:
        blocks[:] = [b.copy(number=i + 1) for i, b in enumerate(blocks)]
    return blocks


WORLD = scenes.heard_world()


def special(rng):
    """Captures of next to nothing: no bytes, zeros (a good block 0 of no frames is all zeros, its frame check too), and a
    block cut off just before a byte that is zero."""
    kind = rng.randrange(6)
    if kind == 0:
        return []
    if kind == 1:
        return [Block([]), Block([])][:rng.randrange(1, 3)]
    if kind == 2:
        return [Block([], length=rng.choice((1, 510, 511, rng.randrange(1, 512))))]
    if kind == 3:
        return [Block([], length=BLOCK + rng.choice((1, 511, 512, rng.randrange(1, 512))))]
    for time in range(1000):
        block = Block([(time, scenes.noise_frame(rng, WORLD))])
        if block.encode(0)[511] == 0:
            break
    return [block.copy(length=511)]


def make(seed, number):
    """The capture of this number."""
    rng = random.Random(f"capture {seed} {number}")
    if rng.random() < 0.005:
        return special(rng)
    events = scenes.run(rng, WORLD, 36)
    blocks = blocks_of(rng, events)
    if rng.random() < 0.25:
        blocks = damage(rng, blocks)
        if rng.random() < 0.1:
            blocks = damage(rng, blocks)
    return blocks


# ----------------------------------------------------------------------------------------------------------- comparing

def program(path):
    """Runs the program on a capture; anything odd in how it ends is part of the answer."""
    def answer(capture):
        try:
            done = subprocess.run([path], input=capture, stdout=subprocess.PIPE, stderr=subprocess.PIPE, timeout=20)
        except subprocess.TimeoutExpired:
            return ["it did not end within 20 seconds"]
        lines = done.stdout.decode("latin-1").split("\n")
        if lines[-1] == "":
            lines.pop()
        else:
            lines.append("the last line has no end")
        if done.returncode != 0:
            lines.append(f"status {done.returncode}: {done.stderr.decode('latin-1')[:300]}")
        return lines
    return answer


def smaller(blocks):
    """Captures with one thing less: the first ones take most away."""
    for count in (len(blocks) // 2, len(blocks) - 1):
        if 0 < count < len(blocks):
            yield blocks[:count]
    for i in range(len(blocks)):
        if len(blocks) > 1:
            yield blocks[:i] + blocks[i + 1:]
    if all(block.plain() for block in blocks):
        events = [event for block in blocks for event in block.frames]
        size = len(events) // 2
        while size:
            for i in range(0, len(events), size):
                rest = events[:i] + events[i + size:]
                yield [Block(rest[j:j + 3]) for j in range(0, len(rest), 3)]
            size //= 2
        if any(len(block.frames) < 3 for block in blocks[:-1]):
            yield [Block(events[j:j + 3]) for j in range(0, len(events), 3)]
    for i, block in enumerate(blocks):
        for j in range(len(block.frames)):
            yield blocks[:i] + [block.copy(frames=block.frames[:j] + block.frames[j + 1:])] + blocks[i + 1:]
        for name in ("pokes", "after"):
            marks = getattr(block, name)
            for j in range(len(marks)):
                yield blocks[:i] + [block.copy(**{name: marks[:j] + marks[j + 1:]})] + blocks[i + 1:]
        if block.number is not None:
            yield blocks[:i] + [block.copy(number=None)] + blocks[i + 1:]
        if block.check:
            yield blocks[:i] + [block.copy(check={})] + blocks[i + 1:]


def shrink(blocks, differs, most=2000):
    """The smallest capture found that still differs."""
    tries = 0
    found = True
    while found:
        found = False
        for candidate in smaller(blocks):
            tries += 1
            if tries > most:
                return blocks
            if differs(candidate):
                blocks, found = candidate, True
                break
    return blocks


def differs(answer, blocks):
    capture = encode(blocks)
    return answer(capture) != model.heard(capture)


def first_difference(answer, seed, numbers):
    """The number of the first capture that is answered otherwise than by the model, or None."""
    for number in numbers:
        if differs(answer, make(seed, number)):
            return number
    return None


def report(answer, seed, number, save):
    blocks = shrink(make(seed, number), lambda candidate: differs(answer, candidate))
    capture = encode(blocks)
    name = os.path.join(save, f"failing-capture-{seed}-{number}")
    with open(name + ".cap", "wb") as file:
        file.write(capture)
    with open(name + ".txt", "w") as file:
        for place, block in enumerate(blocks):
            marks = "" if block.plain() else f" pokes {block.pokes} after {block.after} check {block.check} " \
                                             f"length {block.length} number {block.number}"
            print(f"# block {place}{marks}", file=file)
            for time, frame in block.frames:
                print(time, frame.hex() or "-", file=file)
    print(f"FAILED: capture {number} of seed {seed} is answered otherwise than by model.py")
    print(f"made smaller: {len(blocks)} blocks, {len(capture)} bytes, saved as {name}.cap (frames in {name}.txt)")
    ours, theirs = model.heard(capture), answer(capture)
    for i in range(max(len(ours), len(theirs))):
        left = ours[i] if i < len(ours) else "(nothing)"
        right = theirs[i] if i < len(theirs) else "(nothing)"
        print(f"{'  ' if left == right else '! '}model: {left:<28} program: {right}")


def worker(arguments):
    path, seed, numbers = arguments
    return first_difference(program(path), seed, numbers)


def compare(path, seed, numbers, jobs, save):
    if jobs > 1:
        with multiprocessing.Pool(jobs) as pool:
            slices = [(path, seed, numbers[i::jobs]) for i in range(jobs)]
            found = [number for number in pool.map(worker, slices) if number is not None]
        failing = min(found) if found else None
    else:
        failing = worker((path, seed, numbers))
    if failing is None:
        print(f"{len(numbers)} captures of seed {seed}: every line as in model.py")
        return 0
    report(program(path), seed, failing, save)
    return 1


def main():
    parser = argparse.ArgumentParser(description="random captures for heard, compared with model.py")
    parser.add_argument("--heard", required=True, help="the program: it reads a capture and prints its lines")
    parser.add_argument("--count", type=int, default=10000)
    parser.add_argument("--seed", type=int, default=1)
    parser.add_argument("--only", type=int, help="the capture of this number only")
    parser.add_argument("--jobs", type=int, default=1)
    parser.add_argument("--save", default=".", help="where a failing capture goes")
    given = parser.parse_args()
    numbers = range(given.count) if given.only is None else [given.only]
    path = given.heard if os.path.dirname(given.heard) else os.path.join(".", given.heard)
    sys.exit(compare(path, given.seed, numbers, given.jobs, given.save))


if __name__ == "__main__":
    main()
