#!/usr/bin/env python3
"""Drawn runs of calls for the library for C, on machines in an emulator or on this one, each answer compared with model.py.

    drawn.py --count 300 --seed 1 --work target/cortex-m [--save DIR] -- COMMAND ..

The runs are those of calls.py. All of them go into one file of records, and drawn.c, linked with the library, makes the calls:

    g  N  N numbers of 8 bytes                          a table at its beginning, memory and output zero; lift_begin
    c  TIME (8)  lengths of frame, contexts, mem, out (2 each)  the frame's and the contexts' bytes; lift_receive

all numbers with their lowest byte first. It prints a line for each. A COMMAND is a shell command that runs the program, the file's name
put behind it; there may be several, and each is held to the same lines. At the first difference the run is made as small
as it can be and still differ, both answers are shown, and the status is 1.
"""

import argparse
import os
import shlex
import subprocess
import sys

import calls
import model

KINDS = {"a": 0, "s": 1, "e": 2}


def gateway_numbers(line):
    """Two numbers for each gateway of a line `gateways ..`: the kind of its address under one more than its PAN, and the
    address; an absent one is of kind 0."""
    out = []
    for word in line.split()[1:]:
        address, _, pan = word.partition("@")
        out += [KINDS[address[0]] | (int(pan, 16) + 1 if pan else 0) << 16, int(address[1:] or "0", 16)]
    return out


def data(word):
    return b"" if word == "-" else bytes.fromhex(word)


def records(lines, answers):
    """The records of a run, and the line that each must give; lines that are no call are left out."""
    out, wanted, addresses = [], [], []
    for line, answer in zip(lines, answers):
        words = line.split()
        if words[0] == "gateways" and answer != "bad":
            numbers = gateway_numbers(line)
            out.append(b"g" + bytes([len(numbers)]) + b"".join(n.to_bytes(8, "little") for n in numbers))
            addresses = words[1:]
            wanted.append("0" if answer == "ok" else answer.split()[1])
        elif words[0] == "call" and answer != "bad":
            time, frame, contexts, mem, room = int(words[1]), data(words[2]), data(words[3]), int(words[4]), int(words[5])
            lengths = b"".join(n.to_bytes(2, "little") for n in (len(frame), len(contexts), mem, room))
            out.append(b"c" + time.to_bytes(8, "little") + lengths + frame + contexts)
            wanted.append(reduced(answer, addresses))
    return b"".join(out), wanted


def reduced(answer, addresses):
    """A line of model.py as drawn.c's: the answer as a number, a datagram's bytes, free slots, those of each gateway."""
    what, slots = answer.split("|")
    owners = [slot.split(":", 1)[1].split(",")[0] for slot in slots.split()]
    words = what.split()
    number = {"kept": 0, "out": 65536, "no": 131072}[words[0]] + (int(words[1]) if len(words) > 1 else 0)
    return " ".join([str(number)] + words[2:] + [str(8 - len(owners))] + [str(owners.count(a)) for a in addresses])


def answers_of(command, content, work):
    name = os.path.join(work, "drawn.bin")
    with open(name, "wb") as file:
        file.write(content)
    done = subprocess.run(shlex.split(command) + [name], stdout=subprocess.PIPE, stderr=subprocess.PIPE, timeout=300)
    out = done.stdout.decode("latin-1").split("\n")
    if out[-1] == "":
        out.pop()
    if done.returncode != 0:
        out.append(f"status {done.returncode}: {done.stderr.decode('latin-1')[:300]}")
    stack = [line for line in out if line.startswith("stack ")]
    return [line for line in out if not line.startswith("stack ")], stack


def expected_of(lines):
    return records(lines, calls.expected(lines))


def differs(command, lines, work):
    content, wanted = expected_of(lines)
    return answers_of(command, content, work)[0] != wanted


def report(command, lines, work):
    lines = calls.shrink(lines, lambda some: differs(command, some, work), 200)
    content, wanted = expected_of(lines)
    got = answers_of(command, content, work)[0]
    print("".join(line + "\n" for line in lines), end="")
    for i in range(max(len(wanted), len(got))):
        left, right = (x[i] if i < len(x) else "(nothing)" for x in (wanted, got))
        print(f"    model:   {left}" if left == right else f"  ! model:   {left}\n  ! library: {right}")


def main():
    parser = argparse.ArgumentParser(description="drawn runs of calls for the library for C, compared with model.py")
    parser.add_argument("--count", type=int, default=300)
    parser.add_argument("--seed", type=int, default=1)
    parser.add_argument("--work", default=".", help="where the file of records goes")
    parser.add_argument("commands", nargs="+")
    given = parser.parse_args()
    runs = [calls.make(given.seed, number) for number in range(given.count)]
    made = [expected_of(lines) for lines in runs]
    content, wanted = b"".join(m[0] for m in made), [line for m in made for line in m[1]]
    kinds = sorted({int(line.split()[0]) >> 16 for line in wanted})
    if kinds != [0, 1, 2] and given.count >= 10:
        sys.exit(f"drawn.py: too few runs: answers of the kinds {kinds} alone")
    for command in given.commands:
        got, stack = answers_of(command, content, given.work)
        if got != wanted:
            for number, lines in enumerate(runs):
                if differs(command, lines, given.work):
                    print(f"FAILED: {command}: run {number} of seed {given.seed} is answered otherwise than by model.py")
                    report(command, lines, given.work)
                    sys.exit(1)
            sys.exit(f"FAILED: {command}: the runs together are answered otherwise than by model.py, none alone is")
        print(f"{command}: {len(runs)} runs of seed {given.seed}, {len(wanted)} calls: every answer as in model.py" + "".join(f"; {s}" for s in stack))


if __name__ == "__main__":
    main()
