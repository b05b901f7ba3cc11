#!/usr/bin/env python3
"""A capture over the service cable: document 02's item 8 read a second time, and the program `chunks` beside it.

    chunks.py write                                    the vectors: crates/chunks/stdin and crates/chunks/stdout
    chunks.py check                                    makes them anew, and has the second reading answer each line
    chunks.py --chunks PATH [--count 1000] [--seed 1]  the program beside the second reading
    chunks.py mutants [--count 1000] [--seed 1]        do the runs tell the second reading from wrong ones?

The lines: `chunk HEX` (`-` for no bytes) or `end`, answered `ok` with ` TIME:HEX` for each frame found, then ` bad B`
where block B is bad, or `no 4`, `no 15`; `new` begins again and is answered `ok`. A line that begins with `#` is
echoed, any other is answered `bad`.
"""

import argparse
import functools
import os
import random
import subprocess
import sys
import types

import calls
import captures
import model

BLOCK = 512
FOLDER = os.path.join(os.path.dirname(os.path.abspath(__file__)), "..", "crates", "chunks")


# -------------------------------------------------------------------------------------------------- the second reading

@functools.lru_cache(maxsize=4096)
def block_frames(block, number):
    """The frames of a block, or None where it is bad."""
    try:
        return model.read_block(block, number)
    except model.Refused:
        return None


class Cable:
    """Every byte that was taken is kept, and the file so far is read from its start at each call; what a call found is
    what the reading before it did not have. So a state is the bytes alone, and no block is ever held in pieces."""

    def __init__(self):
        self.file, self.known, self.open = b"", 0, True

    def read(self, end):
        """All frames, and the first bad block. "A partial block is 15 only when the end is declared." """
        frames = []
        whole = len(self.file) // BLOCK
        for number in range(whole + (1 if end and len(self.file) % BLOCK else 0)):
            found = block_frames(self.file[BLOCK * number:BLOCK * (number + 1)], number)
            if found is None:
                return frames, number
            frames.extend(found)
        return frames, None

    def take(self, chunk, end=False):
        """"Refusals: 4 for a chunk over 600, then 15 for a chunk or end after the end or a bad block; the state
        stays." """
        if len(chunk) > 600:
            raise model.Refused(4)
        if not self.open:
            raise model.Refused(15)
        self.file += chunk
        frames, bad = self.read(end)
        found, self.known = frames[self.known:], len(frames)
        self.open = bad is None and not end
        return found, bad


def bytes_of(text):
    """Pairs of lower-case hexadecimal digits, or `-` for no bytes."""
    data = b"" if text == "-" else bytes.fromhex(text)
    if (data.hex() or "-") != text:
        raise ValueError(text)
    return data


def found_text(frames, bad):
    text = "ok" + "".join(f" {time}:{frame.hex() or '-'}" for time, frame in frames)
    return text if bad is None else f"{text} bad {bad}"


class CableLines:
    def __init__(self):
        self.cable = Cable()

    def answer(self, line):
        if line.startswith("#"):
            return line
        name, *fields = line.split(" ")
        try:
            if name == "chunk" and len(fields) == 1:
                return found_text(*self.cable.take(bytes_of(fields[0])))
            if line == "end":
                return found_text(*self.cable.take(b"", end=True))
        except model.Refused as refused:
            return f"no {refused.number}"
        except ValueError:
            return "bad"
        if line == "new":
            self.cable = Cable()
            return "ok"
        return "bad"


def expected(lines, reading=None):
    over = (reading or sys.modules[__name__]).CableLines()
    return [over.answer(line) for line in lines]


# ---------------------------------------------------------------------------------------------------------------- runs

def chunk(data):
    return f"chunk {data.hex() or '-'}"


def cut(file, places):
    """The lines for a file that is cut at these places."""
    places = [0, *places, len(file)]
    return ["new"] + [chunk(file[a:b]) for a, b in zip(places, places[1:])] + ["end"]


SIZES = (0, 0, 1, 2, 255, 510, 511, 512, 513, 599, 600)
STRAYS = ("nonsense", "chunk", "chunk ", "chunk 0", "chunk 0g", "chunk AB", "chunk 00 00", "chunk  00", "chunk --",
          "end ", "ends", "end -", "new ", "news", "", " new", "Chunk -", "chunks -", "# a remark")


def make(seed, number):
    """The lines of the run of this number: a capture of captures.py, cut at random, with calls between that are
    refused, calls behind the end, lines that are no calls, and sometimes a beginning anew."""
    rng = random.Random(f"chunks {seed} {number}")
    file = captures.encode(captures.make(seed, number))
    lines, at = [], 0
    often = rng.choice((0, 0, 0.1, 0.3))
    small = rng.random() < 0.2
    while at < len(file):
        if rng.random() < often:
            lines.append(chunk(rng.randbytes(rng.choice((601, 602, 1024, 1112, 1113, 4000, 32000)))))
        if rng.random() < often / 4:
            lines.append(rng.choice(STRAYS))
        if rng.random() < often / 40:
            lines.append(rng.choice(("end", "new")))
        size = rng.randrange(40) if small else rng.choice((*SIZES, rng.randrange(601), rng.randrange(601)))
        lines.append(chunk(file[at:at + size]))
        at += size
    lines.append("end")
    for _ in range(rng.choice((0, 0, 1, 2))):
        lines.append(rng.choice(("end", "chunk -", chunk(bytes(600)), chunk(bytes(601)), chunk(file[:512]))))
    if rng.random() < 0.3:
        lines += ["new", chunk(file[:512]), "end"]
    return lines


def two_blocks(wrong=None):
    """A file of two blocks, three frames and two; the byte at the place `wrong` has a bit turned."""
    file = bytearray(captures.encode([captures.Block([(7, b"\xa1"), (4294967295, b""), (8, bytes(127))]),
                                      captures.Block([(0, b"\xb2\xb3"), (9, b"\xff" * 3)])]))
    if wrong is not None:
        file[wrong] ^= 1
    return bytes(file)


def every_cutting():
    """The file of two blocks cut at every two places where no chunk is over 600."""
    file = two_blocks()
    for a in range(601):
        for b in range(max(a, len(file) - 600), min(a + 600, len(file)) + 1):
            yield cut(file, (a, b))


def damaged_cuttings():
    """Files with a bad block and files that are cut short or have more, each cut at every two of the places that
    matter. Chunks of over 600 are among them."""
    good = two_blocks()
    places = (0, 1, 424, 425, 511, 512, 513, 599, 600, 601, 1023, 1024)
    for file in (two_blocks(3), two_blocks(511), two_blocks(515), two_blocks(1023), good[:1], good[:511], good[:513],
                 good[:1023], good + b"\0", good + bytes(511), good + bytes(512), good + good):
        for a in places:
            for b in places:
                if a <= b <= len(file):
                    yield cut(file, (a, b))


# ------------------------------------------------------------------------------------------------------------- vectors

def block(number, frames, after=()):
    return captures.Block(frames, number=number, after=after).encode(number)


def vectors():
    """Lines, each with its answer written by hand from document 02."""
    told = []

    def remark(text):
        told.append((f"# {text}", f"# {text}"))

    def new():
        told.append(("new", "ok"))

    def say(line, answer):
        told.append((line, answer))

    one, two, three = (1000, b"\x01\x02"), (1001, b""), (4294967295, b"\xfe" * 127)
    first, empty = block(0, [one, two, three]), block(1, [])
    second = block(1, [(5, b"\x0a"), (4, b"\x0b")])
    third = block(2, [(0, b"\x00")])
    shown = f" 1000:0102 1001:- 4294967295:{'fe' * 127}"
    remark("A capture in chunks, written by tests/chunks.py. The answers were written by hand from document 02, item 8.")
    remark("No bytes at all: the file is whole, and behind its end all is 15, but a chunk over 600 is 4 first")
    say("end", "ok")
    say("end", "no 15")
    say("chunk -", "no 15")
    say(chunk(bytes(600)), "no 15")
    say(chunk(bytes(601)), "no 4")
    remark("A block in one chunk; times in their order in the block, 32 bits; a frame of no bytes")
    new()
    say(chunk(first), "ok" + shown)
    say("end", "ok")
    remark("Empty chunks before, between and behind")
    new()
    for data, answer in ((b"", "ok"), (first[:1], "ok"), (b"", "ok"), (first[1:511], "ok"), (b"", "ok"),
                         (first[511:], "ok" + shown), (b"", "ok")):
        say(chunk(data), answer)
    say("end", "ok")
    remark("Two blocks in one chunk: 511 bytes are held, and 600 more come; 87 of the third are held then")
    new()
    three_blocks = first + second + third
    say(chunk(three_blocks[:511]), "ok")
    say(chunk(three_blocks[511:1111]), f"ok{shown} 5:0a 4:0b")
    say(chunk(three_blocks[1111:1535]), "ok")
    say(chunk(three_blocks[1535:]), "ok 0:00")
    say("end", "ok")
    remark("A block of no frames")
    new()
    say(chunk(first), "ok" + shown)
    say(chunk(empty), "ok")
    say("end", "ok")
    remark("A partial block is bad only when the end is declared, from its first byte to its last but one")
    for length, number in ((1, 0), (511, 0), (513, 1), (1023, 1)):
        new()
        file = first + second
        say(chunk(file[:min(length, 512)]), "ok" if length < 512 else "ok" + shown)
        if length > 512:
            say(chunk(file[512:length]), "ok")
        say("end", f"ok bad {number}")
        say("end", "no 15")
        say(chunk(file[length:length + 600]), "no 15")
    remark("A bad block is found with its number, behind the frames of a good one; its own frames are not handed on")
    turned = block(1, [(5, b"\x0a"), (4, b"\x0b")], after=[(511, second[511] ^ 128)])
    new()
    say(chunk((first + turned)[:500]), "ok")
    say(chunk((first + turned)[500:1000]), "ok" + shown)
    say(chunk((first + turned)[1000:]), "ok bad 1")
    say("end", "no 15")
    say("chunk -", "no 15")
    say(chunk(bytes(601)), "no 4")
    new()
    say(chunk((first + turned)[:424]), "ok")
    say(chunk((first + turned)[424:]), f"ok{shown} bad 1")
    say(chunk(third), "no 15")
    remark("The first block is bad, a good one behind it in the same chunk")
    new()
    say(chunk((third + first)[:500]), "ok")
    say(chunk((third + first)[500:]), "ok bad 0")
    remark("A chunk over 600 is 4 and changes nothing: what was held is held still")
    new()
    say(chunk(first[:300]), "ok")
    say(chunk(bytes(601)), "no 4")
    say(chunk(bytes(9000)), "no 4")
    say(chunk(first[300:] + second[:388]), "ok" + shown)
    say(chunk(second[388:]), "ok 5:0a 4:0b")
    say("end", "ok")
    remark("What is no line of these is answered bad, and changes nothing")
    new()
    say(chunk(first[:511]), "ok")
    for stray in ("chunk", "chunk ", "chunk 0", "chunk 0g", "chunk 0A", "chunk 00 00", "end ", "end 1", "new 0", "begin",
                  ""):
        say(stray, "bad")
    say(chunk(first[511:]), "ok" + shown)
    remark("new forgets what was held")
    say(chunk(second[:100]), "ok")
    new()
    say("end", "ok")
    return told


def files(told):
    return ["".join(line + "\n" for line in lines) for lines in zip(*told)]


def write():
    for name, text in zip(("stdin", "stdout"), files(vectors())):
        with open(os.path.join(FOLDER, name), "w") as file:
            file.write(text)
    return check()


def check():
    told = vectors()
    wrong = 0
    for (line, answer), given in zip(told, expected([line for line, _ in told])):
        if given != answer:
            wrong += 1
            print(f"{line}\n  written by hand     {answer}\n  the second reading  {given}")
    for name, text in zip(("stdin", "stdout"), files(told)):
        with open(os.path.join(FOLDER, name)) as file:
            if file.read() != text:
                wrong += 1
                print(f"crates/chunks/{name} is not what chunks.py writes")
    print(f"{len(told)} lines of chunks: {wrong} wrong")
    return 1 if wrong else 0


# ----------------------------------------------------------------------------------------------------------- comparing

def program(path):
    """Runs the program on some lines; anything odd in how it ends is part of the answer."""
    def answer(lines):
        try:
            done = subprocess.run([path], input="".join(line + "\n" for line in lines).encode(), stdout=subprocess.PIPE,
                                  stderr=subprocess.PIPE, timeout=120)
        except subprocess.TimeoutExpired:
            return ["it did not end within 120 seconds"]
        answers = done.stdout.decode("latin-1").split("\n")
        if answers[-1] == "":
            answers.pop()
        else:
            answers.append("the last line has no end")
        if done.returncode != 0:
            answers.append(f"status {done.returncode}: {done.stderr.decode('latin-1')[:300]}")
        return answers
    return answer


def report(name, lines, answer):
    lines = calls.shrink(lines, lambda some: answer(some) != expected(some))
    print(f"FAILED: {name} is answered otherwise than by the second reading; made smaller:")
    ours, theirs = expected(lines), answer(lines)
    for i in range(max(len(ours), len(theirs))):
        left = ours[i] if i < len(ours) else "(nothing)"
        right = theirs[i] if i < len(theirs) else "(nothing)"
        print(f"  {lines[i] if i < len(lines) else ''}")
        print(f"    reading: {left}" if left == right else f"  ! reading: {left}\n  ! program: {right}")
    return 1


def gathered(runs, most):
    """Runs one behind the other, so many in a start of the program."""
    some = []
    for run in runs:
        some.append(run)
        if len(some) == most:
            yield some
            some = []
    if some:
        yield some


def compare(answer, name, runs, most):
    """How many runs are answered as the second reading answers them; None at the first difference."""
    count = 0
    for some in gathered(runs, most):
        lines = [line for run in some for line in run]
        if answer(lines) != expected(lines):
            for place, run in enumerate(some):
                if answer(run) != expected(run):
                    report(f"{name} {count + place}", run, answer)
                    return None
            report(f"{name} {count} and those behind it", lines, answer)
            return None
        count += len(some)
    return count


def run_all(answer, seed, count):
    for name, runs, most in (("cutting", every_cutting(), 5000), ("damaged cutting", damaged_cuttings(), 200),
                             ("run", (["new"] + make(seed, n) for n in range(count)), 50)):
        done = compare(answer, name, runs, most)
        if done is None:
            return 1
        print(f"{done} {name}s: every line as in the second reading", flush=True)
    return 0


# ------------------------------------------------------------------------------------------------------------- mutants

# Name, then pieces of this file's text, each followed by what stands for it.
MUTANTS = [
    ("a chunk of 600 is too long", "if len(chunk) > 600:", "if len(chunk) >= 600:"),
    ("a chunk of 601 is taken", "if len(chunk) > 600:", "if len(chunk) > 601:"),
    ("15 before 4", "if len(chunk) > 600:", "if len(chunk) > 600 and self.open:"),
    ("a chunk over 600 closes", "            raise model.Refused(4)",
     "            self.open = False\n            raise model.Refused(4)"),
    ("a chunk over 600 is held", "            raise model.Refused(4)",
     "            self.file += chunk\n            raise model.Refused(4)"),
    ("an empty chunk behind the end is taken", "if not self.open:", "if not self.open and (chunk or end):"),
    ("a second end is taken", "if not self.open:", "if not self.open and not end:"),
    ("a bad block does not close", "self.open = bad is None and not end", "self.open = not end"),
    ("the end does not close", "self.open = bad is None and not end", "self.open = bad is None"),
    ("a partial block is bad before the end", "(1 if end and len", "(1 if len"),
    ("a partial block is good at the end", "(1 if end and len(self.file) % BLOCK else 0)", "0"),
    ("a partial block of one byte is good at the end", "(1 if end and len(self.file) % BLOCK else 0)",
     "(1 if end and len(self.file) % BLOCK > 1 else 0)"),
    ("the rest of a block is dropped between chunks", "self.file += chunk",
     "self.file = self.file[:len(self.file) // BLOCK * BLOCK] + chunk"),
    ("frames found twice", "found, self.known = frames[self.known:], len(frames)", "found = frames"),
    ("a bad block's frames handed on", "                return frames, number\n",
     "                return frames + [(0, b'')], number\n"),
    ("a good block before a bad one is not handed on", "                return frames, number\n",
     "                return frames[:self.known], number\n"),
    ("block numbers from 1", "BLOCK * (number + 1)], number)", "BLOCK * (number + 1)], number + 1)"),
    ("numbers are not judged", "BLOCK * (number + 1)], number)",
     "BLOCK * (number + 1)], int.from_bytes(self.file[BLOCK * number:][:4], 'little'))"),
    ("the bad block's number is the next one's", "f\"{text} bad {bad}\"", "f\"{text} bad {bad + 1}\""),
    ("new does not begin again", "            self.cable = Cable()\n            return \"ok\"",
     "            return \"ok\""),
]


def mutants(seed, count):
    here = os.path.abspath(__file__)
    with open(here) as file:
        text = file.read()
    end = text.index("# Name, then pieces of this file's text")
    runs = list(damaged_cuttings()) + [["new"] + make(seed, n) for n in range(count)]
    known = [expected(run) for run in runs]
    through = 0
    for name, *edits in MUTANTS:
        changed = text[:end]
        for old, instead in zip(edits[::2], edits[1::2]):
            assert changed.count(old) == 1, (name, old, changed.count(old))
            changed = changed.replace(old, instead)
        mutant = types.ModuleType("mutant")
        mutant.__dict__["__file__"] = here
        exec(compile(changed, name, "exec"), mutant.__dict__)
        seen = next((n for n, run in enumerate(runs) if expected(run, mutant) != known[n]), None)
        through += seen is None
        print(f"{name:<56} {'NOT NOTICED' if seen is None else 'run ' + str(seen)}", flush=True)
    print(f"{len(MUTANTS)} mutants, {through} get through")
    return 1 if through else 0


def main():
    parser = argparse.ArgumentParser(description="a capture in chunks: the second reading, vectors, the program beside it")
    parser.add_argument("what", nargs="?", choices=("write", "check", "mutants"))
    parser.add_argument("--chunks", help="the program: it reads lines and answers each with a line")
    parser.add_argument("--count", type=int, default=1000)
    parser.add_argument("--seed", type=int, default=1)
    given = parser.parse_args()
    if given.what == "write":
        return write()
    if given.what == "check":
        return check()
    if given.what == "mutants":
        return mutants(given.seed, given.count)
    if not given.chunks:
        parser.error("write, check, mutants, or --chunks PATH")
    path = given.chunks if os.path.dirname(given.chunks) else os.path.join(".", given.chunks)
    return run_all(program(path), given.seed, given.count)


if __name__ == "__main__":
    sys.exit(main())
