#!/usr/bin/env python3
"""Random runs of calls for a program over the slot table, each answer compared with model.py line by line.

    calls.py --table PATH [--counts] [--count 10000] [--seed 1] [--only N] [--jobs 1] [--save DIR]

The program reads the lines that README.md describes. Unlike a capture a run has contexts, extended addresses, short
rooms, frames over 127 bytes, times of 64 bits and lists of gateways good and bad, and its answers show the datagrams and
the open slots; with --counts, for a program over the C library (library.c), how many slots are free and how many each
gateway of the list holds, in place of the slots, and an Adler-32 of the lent memory. At the first difference the run is made as small as it can be and still differ, saved, both answers are
shown, and the status is 1.
"""

import argparse
import multiprocessing
import os
import random
import subprocess
import sys
import zlib

import frames as f
import model
import scenes

TOP = 2 ** 64 - 1


# ---------------------------------------------------------------------------------------------------------------- runs

def station_text(one):
    """`s0001@abcd`; without @ where it has no PAN."""
    text = {0: "a", 2: "s", 8: "e"}[len(one)] + one.hex()
    return text if one.pan is None else f"{text}@{one.pan:04x}"


def some_address(rng):
    """A station: mostly under PAN abcd; an extended one may have none."""
    address = rng.choice((f.short(rng.randrange(1, 5)), f.short(rng.randrange(0x10000)), f.extended(rng.randrange(1, 5)),
                       f.extended(0x0011223344556677), f.extended(0x020000fffe001234), rng.randbytes(8), f.BROADCAST))
    if len(address) == 8 and rng.random() < 0.2:
        return f.Station(address, None)
    return f.Station(address, rng.choice((f.PAN, f.PAN, f.PAN, 0xabce, 1, 0xffff, 0)))


def same_in(one, stations):
    return one.named() in [other.named() for other in stations]


def elsewhere(rng, one):
    """The same address in another PAN."""
    return f.Station(one, rng.choice([pan for pan in (f.PAN, 0xabce, 0xffff) if pan != one.pan]))


def gateway_list(rng):
    """Mostly a good list; else over four, two equal, or an absent address."""
    gateways = []
    while len(gateways) < rng.choice((0, 1, 2, 3, 4, 4, 4, 4)):
        one = elsewhere(rng, rng.choice(gateways)) if gateways and rng.random() < 0.3 else some_address(rng)
        if not same_in(one, gateways):
            gateways.append(one)
    kind = rng.randrange(100)
    if kind < 2:
        while len(gateways) < rng.choice((5, 5, 6, 9)):
            one = some_address(rng)
            if not same_in(one, gateways):
                gateways.append(one)
    elif kind < 4 and gateways:
        gateways.insert(rng.randrange(len(gateways) + 1), rng.choice(gateways))
    elif kind < 6:
        gateways.insert(rng.randrange(len(gateways) + 1), f.Station(b"", rng.choice((None, f.PAN))))
    return gateways


def prefix(rng):
    return rng.choice((f.ip("2001:db8::")[:8], f.ip("fd00:1:2:3::")[:8], f.ip("fe80::")[:8], bytes(8), rng.randbytes(8)))


def world_of(rng, gateways):
    known = gateways or [f.Station(f.short(9))]
    strangers = [one for one in (f.short(0x1234), f.extended(0x99), f.short(5), f.extended(1)) if one not in known]
    strangers += [one for one in [elsewhere(rng, known[0])] if not same_in(one, known)]
    destinations = [f.BROADCAST, f.short(0xabcd), f.extended(0x0011223344556677), known[0]]
    contexts = [prefix(rng) for _ in range(rng.choice((0, 0, 1, 1, 2, 3, 16, 17)))]
    return scenes.World(known, strangers, destinations, contexts, TOP)


def lent_contexts(rng, world):
    """The flat bytes of a call: mostly those the senders use."""
    flat = b"".join(world.contexts)
    kind = rng.randrange(24)
    if kind == 0:
        return b""
    if kind == 1:
        return flat[:8 * rng.randrange(len(world.contexts) + 1)]
    if kind == 2:
        return flat + rng.randbytes(rng.randrange(1, 8))
    if kind == 3 and flat:
        return flat[:rng.randrange(len(flat))]
    if kind == 4:
        return rng.randbytes(8 * rng.choice((1, 2, 16)))
    return flat


def hexed(data):
    return data.hex() or "-"


MALFORMED = ("nonsense", "call", "call x - - 16384 2047", "call 1 0 - 16384 2047", "call 1 0g - 16384 2047",
             "call 1 - - 16384", "call -1 - - 16384 2047", "call 18446744073709551616 - - 16384 2047",
             "call 1 - - - 2047", "call 1 - 123 16384 2047", "kall 1 - - 16384 2047")


def make(seed, number):
    """The lines of the run of this number."""
    rng = random.Random(f"calls {seed} {number}")
    gateways = gateway_list(rng)
    lines = [" ".join(["gateways"] + [station_text(one) for one in gateways])]
    if len(gateways) > 4 or len({one.named() for one in gateways}) < len(gateways) or b"" in gateways:
        return lines
    world = world_of(rng, gateways)
    for time, frame in scenes.run(rng, world, 60):
        mem, out = 16384, rng.choice((2047, 2048, 2050))
        kind = rng.randrange(100)
        if kind == 0:
            mem = rng.choice((0, 2048, 16383))
        elif kind == 1:
            out = rng.choice((0, 40, 2046))
        elif kind == 2:
            mem = rng.choice((16385, 16400))
        elif kind == 3:
            frame = frame + bytes(rng.choice((128 - len(frame), 129 - len(frame), 200)))
        elif kind == 4:
            frame = frame + bytes(127 - len(frame))
        elif kind == 5:
            lines.append(rng.choice(MALFORMED) if rng.random() < 0.5 else "# a remark")
        early = max(0, time - 1) if kind in (0, 1) and rng.random() < 0.3 else time
        if kind in (0, 1) and rng.random() < 0.3:
            early = min(TOP, time + rng.choice((1, 1000, 60000)))
        lines.append(f"call {early} {hexed(frame)} {hexed(lent_contexts(rng, world))} {mem} {out}")
        if kind in (0, 1) and rng.random() < 0.5:
            lines.append(f"call {time} {hexed(frame)} {hexed(b''.join(world.contexts))} 16384 2047")
    return lines


# ----------------------------------------------------------------------------------------------------------- comparing

def expected(lines, table=model):
    over = table.TableLines()
    return [over.answer(line).rstrip() for line in lines]


def watched(lines, table=model):
    """The answers, each with a check of the output and of the memory as the call left them."""
    over, answers = table.TableLines(), []
    for line in lines:
        answers.append((over.answer(line).rstrip(), zlib.adler32(over.out), zlib.adler32(over.mem[:model.LENT_BYTES])))
    return answers


def counted(lines):
    """model.py's answers to these lines with counts of slots in place of the open slots: the free ones, then each
    gateway's; and the check of the memory."""
    gateways, said = None, []
    for line, (answer, _, memory) in zip(lines, watched(lines)):
        if answer == "ok":
            gateways = line.split(" ")[1:]
        head, bar, slots = answer.partition(" |")
        if line.startswith("call ") and bar:
            owners = [slot.split(":", 1)[1].split(",")[0] for slot in slots.split()]
            answer = " ".join([head, "|", str(8 - len(owners))] + [str(owners.count(one)) for one in gateways])
            answer += f" {memory:08x}"
        said.append(answer)
    return said


def program(path):
    """Runs the program on some lines; anything odd in how it ends is part of the answer."""
    def answer(lines):
        try:
            done = subprocess.run([path], input="".join(line + "\n" for line in lines).encode(), stdout=subprocess.PIPE,
                                  stderr=subprocess.PIPE, timeout=20)
        except subprocess.TimeoutExpired:
            return ["it did not end within 20 seconds"]
        answers = [line.rstrip() for line in done.stdout.decode("latin-1").split("\n")]
        if answers[-1] == "":
            answers.pop()
        if done.returncode != 0:
            answers.append(f"status {done.returncode}: {done.stderr.decode('latin-1')[:300]}")
        return answers
    return answer


def by_model(counts):
    """What the lines are answered by model.py, in the form asked for."""
    return counted if counts else expected


def first_difference(answer, right, seed, numbers):
    for number in numbers:
        lines = make(seed, number)
        if answer(lines) != right(lines):
            return number
    return None


def shrink(lines, still, most=1500):
    """Lines left out, many at a time and then one by one, as long as the answers differ."""
    tries, size = 0, max(1, len(lines) // 2)
    while True:
        found = False
        for i in range(1, len(lines), size):
            candidate = lines[:i] + lines[i + size:]
            tries += 1
            if tries > most:
                return lines
            if len(candidate) < len(lines) and still(candidate):
                lines, found = candidate, True
                break
        if not found:
            if size == 1:
                return lines
            size //= 2


def report(answer, right, seed, number, save):
    lines = shrink(make(seed, number), lambda candidate: answer(candidate) != right(candidate))
    name = os.path.join(save, f"failing-calls-{seed}-{number}.txt")
    with open(name, "w") as file:
        file.write("".join(line + "\n" for line in lines))
    print(f"FAILED: run {number} of seed {seed} is answered otherwise than by model.py")
    print(f"made smaller: {len(lines)} lines, saved as {name}")
    ours, theirs = right(lines), answer(lines)
    for i in range(max(len(ours), len(theirs))):
        left = ours[i] if i < len(ours) else "(nothing)"
        right = theirs[i] if i < len(theirs) else "(nothing)"
        print(f"  {lines[i] if i < len(lines) else ''}")
        print(f"    model:   {left}" if left == right else f"  ! model:   {left}\n  ! program: {right}")


def worker(arguments):
    path, counts, seed, numbers = arguments
    return first_difference(program(path), by_model(counts), seed, numbers)


def compare(path, counts, seed, numbers, jobs, save):
    if jobs > 1:
        with multiprocessing.Pool(jobs) as pool:
            slices = [(path, counts, seed, numbers[i::jobs]) for i in range(jobs)]
            found = [number for number in pool.map(worker, slices) if number is not None]
        failing = min(found) if found else None
    else:
        failing = worker((path, counts, seed, numbers))
    if failing is None:
        print(f"{len(numbers)} runs of seed {seed}: every line as in model.py")
        return 0
    report(program(path), by_model(counts), seed, failing, save)
    return 1


def main():
    parser = argparse.ArgumentParser(description="random runs of calls for the slot table, compared with model.py")
    parser.add_argument("--table", required=True, help="the program: it reads lines and answers each with a line")
    parser.add_argument("--counts", action="store_true", help="the program says counts in place of the open slots")
    parser.add_argument("--count", type=int, default=10000)
    parser.add_argument("--seed", type=int, default=1)
    parser.add_argument("--only", type=int, help="the run of this number only")
    parser.add_argument("--jobs", type=int, default=1)
    parser.add_argument("--save", default=".", help="where a failing run goes")
    given = parser.parse_args()
    numbers = range(given.count) if given.only is None else [given.only]
    path = given.table if os.path.dirname(given.table) else os.path.join(".", given.table)
    sys.exit(compare(path, given.counts, given.seed, numbers, given.jobs, given.save))


if __name__ == "__main__":
    main()
