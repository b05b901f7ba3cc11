#!/usr/bin/env python3
"""pages.py: what people meet first is as it says it is.

The pictures are as drawn; the paths that the pages name are there; the numbers and names of refusals agree between
docs/REFUSALS.md, include/lift.h and the crate octets; the theorems of docs/PROMISES.md are there; the groups of docs/ARCHITECTURE.md are those of crates.txt; the
example programs say what is wrong with their input in one line; `summary` says what was worked out by hand; lift.h
refuses machines that would lay out a table in another way. What wants a compiler or `heard` is skipped where that is missing.
"""

import pathlib
import re
import shutil
import subprocess
import sys
import tempfile

TOP = pathlib.Path(__file__).resolve().parent.parent
HEARD = TOP / "target/run/heard"
failures = []


def expect(holds, what):
    if not holds:
        failures.append(what)
        print(f"pages: not so: {what}")


def run(command, **others):
    return subprocess.run([str(word) for word in command], cwd=TOP, capture_output=True, text=True, **others)


# ------------------------------------------------------------------------------------------------------------ the pages

def pictures():
    done = run([sys.executable, "docs/draw", "check"])
    expect(done.returncode == 0, (done.stdout + done.stderr).strip())


def paths():
    """A path that a page names is there, from the repository's root or from the page; `target/` and a crate's `out/` are built."""
    pages = [TOP / "README.md", *TOP.glob("docs/*.md"), *TOP.glob("*/README.md"), TOP / "bench/LOG.md"]
    roots = "bench|bindings|crates|docs|examples|include|oracle|tests"
    for page in pages:
        for path in re.findall(rf"(?<![\w/.])((?:{roots})/[\w./-]*[\w/])", page.read_text()):
            expect((TOP / path).exists() or (page.parent / path).exists() or "/X" in path or "/out/" in path, f"{page.relative_to(TOP)} names {path}")
        for path in re.findall(r"\]\((?!http)([^)#]+)", page.read_text()):
            expect((page.parent / path).exists(), f"{page.relative_to(TOP)} links {path}")


def refusals():
    """One number, one name: `Refusal::NotGateway` is LIFT_NOT_GATEWAY, in the header's enum and texts and on the page."""
    source = (TOP / "crates/octets/src/refusal.rt").read_text()
    header = (TOP / "include/lift.h").read_text()
    page = (TOP / "docs/REFUSALS.md").read_text()
    binding = (TOP / "bindings/rust/src/lib.rs").read_text()
    numbers = re.findall(r"Refusal::(\w+) => (\d+)", source)
    expect(len(numbers) >= 17, "the refusals of the crate octets are found")
    for name, number in numbers:
        shout = "LIFT" + re.sub("([A-Z])", r"_\1", name).upper()
        expect(re.search(rf"\b{shout} = {number}\b", header), f"lift.h: {shout} = {number}")
        expect(f"case {shout}: return" in header, f"lift_reason: {shout}")
        expect(f"| {number} | `{shout}` |" in page, f"REFUSALS.md: {number} is {shout}")
        words = re.search(rf'case {shout}: return ("[^"]*");', header)
        rust = re.search(rf"\(Refusal::{name}, {number}, (\"[^\"]*\")\)", binding)
        expect(int(number) in (15, 16, 18) or (rust and words and rust.group(1) == words.group(1)), f"bindings/rust has lift_reason's words for {name}")


def theorems():
    """A theorem that docs/PROMISES.md names (words joined by hyphens or underscores) stands in a proof or definition. So does any other
    such name, or in code, in lift.h or as that of a wrong program."""
    known = {file.stem for file in TOP.glob("crates/*/must-fail/*.edit")}
    for file in TOP.glob("crates/*/*/**/*.antt"):
        known.update(re.findall(r"[^\s(){},;:.«»]+", file.read_text()))
    for file in [*TOP.glob("crates/*/src/**/*.rt"), TOP / "include/lift.h", TOP / "tests/wrong-programs.txt"]:
        known.update(re.findall(r"\w+", file.read_text()))
    for name in re.findall(r"`([a-z0-9→]+(?:[-_][a-z0-9→]+)+)`", (TOP / "docs/PROMISES.md").read_text()):
        expect(name in known, f"PROMISES.md names the theorem {name}")


def groups():
    """The groups of docs/ARCHITECTURE.md are the comments of crates.txt, with the same crates."""
    listed, group = {}, None
    for line in (TOP / "crates.txt").read_text().splitlines():
        if line.startswith("# ") and ":" not in line:
            group = line[2:]
        elif not line.startswith("#") and line:
            listed[line.partition(":")[0].split()[0]] = group
    rows = re.findall(r"^\| (\w+) \| ((?:`\w+`(?:, )?)+) \|", (TOP / "docs/ARCHITECTURE.md").read_text(), re.M)
    told = {crate: name for name, crates in rows for crate in re.findall(r"\w+", crates)}
    for crate in sorted(set(told) | set(listed)):
        expect(told.get(crate) == listed.get(crate), f"{crate}: under {told.get(crate)} in ARCHITECTURE.md, {listed.get(crate)} in crates.txt")


# --------------------------------------------------------------------------------------------------------- the programs

SUMMARIES = {
    "two-gateways": """ frame  source                   bytes  tag       ms  frames it came from
    11  0001@abcd                  400  0007      60  1,3,5,7,9,11
    12  0002@abcd                  400  0007      60  2,4,6,8,10,12
2 datagrams out of 12 frames
""",
    "damaged": """ frame  source                   bytes  tag       ms  frames it came from
    12  0001@abcd                  136  0008      40  7,11-12
    13  0002@abcd                   60  -          0  13
2 datagrams out of 15 frames
refused  1       1 times: the bytes end before a needed field
refused  2       1 times: the leading bits are not this header's
refused  8       1 times: the time is earlier than the last one taken
refused  9       1 times: the source with its PAN is not a gateway of the table
refused 10       1 times: a part that no datagram can have
refused 11       1 times: the part clashes with bytes taken
refused 13       1 times: secured, not a Data frame, or a header that is not expanded
refused 17       1 times: the checksum that the datagram carries does not hold
block 5 is bad (15); what follows it was not read
""",
    "chain": """ frame  source                   bytes  tag       ms  frames it came from
     1  0001@abcd                   82  -          0  1
     7  0001@abcd                  104  -          0  7
    11  0001@abcd                  400  0011      60  2-4,10-11
3 datagrams out of 11 frames
refused  3       2 times: a reserved or unsupported mode or version
refused 13       2 times: secured, not a Data frame, or a header that is not expanded
""",
    "witness": """ frame  source                   bytes  tag       ms  frames it came from
     3  0001@abcd                   64  0007      12  1,3
     4  0002@abcd                   64  0007      12  2,4
     7  0001@abcd                   64  0007   59999  5-7
3 datagrams out of 7 frames
""",
}

LINES = {     # what is wrong with a line of frames, and what make-capture says of it
    "5x 00": "'5x' is no time in milliseconds, 0 to 4294967295",
    "4294967296 00": "'4294967296' is no time in milliseconds, 0 to 4294967295",
    "5": "a frame is wanted behind the time; `-` is one of no bytes",
    "5 0g": "'g' is no hexadecimal digit",
    "5 012": "3 hexadecimal digits are no whole number of bytes",
    "5 " + "00" * 128: "a frame has at most 127 bytes, and this one 128; is its frame check left on?",
}


def summaries():
    for name, expected in SUMMARIES.items():
        done = run(["examples/summary", f"examples/{name}.cap"])
        expect(done.returncode == 0 and done.stdout == expected, f"summary of {name}:\n{done.stdout}{done.stderr}")
    for program in ("summary", "picture"):
        said = run([f"examples/{program}"]).stderr
        expect(said.startswith(f"usage: {program} CAPTURE") and said.count("\n") == 1, f"{program} without a capture: {said!r}")
        said = run([f"examples/{program}", "no/such.cap"]).stderr
        expect(said == "no/such.cap: No such file or directory\n", f"{program} without a file: {said!r}")


def make_capture():
    for line, message in LINES.items():
        done = run(["examples/make-capture"], input=f"# a remark\n{line}\n")
        expect(done.returncode == 1 and done.stderr == f"make-capture: line 2: {message}\n", f"make-capture on {line[:20]!r}: {done.stderr!r}")
    done = run(["examples/make-capture", "no/such.txt"])
    expect(done.stderr == "make-capture: no/such.txt: No such file or directory\n", f"make-capture without a file: {done.stderr!r}")
    done = run(["examples/make-capture", "examples/patch.cap"])
    expect(done.stderr == "make-capture: examples/patch.cap: no text; is it a capture already?\n", f"make-capture on a capture: {done.stderr!r}")


def heard():
    """A file by its name, and one line on standard error for what cannot be read or written."""
    capture, expected = "examples/two-gateways.cap", (TOP / "examples/two-gateways.expected").read_text()
    done = run([HEARD, capture])
    expect((done.stdout, done.stderr) == (expected, ""), f"heard {capture}: {done.stdout}{done.stderr}")
    for arguments in (["--help"], ["-"], [""], [capture, capture], ["x" * 5000]):
        done = run([HEARD, *arguments])
        expect((done.stdout, done.stderr) == ("", "usage: heard [CAPTURE]\n"), f"heard {arguments}: {done.stdout}{done.stderr}")
    done = run([HEARD, "no/such.cap"])
    expect((done.stdout, done.stderr) == ("", "no/such.cap: No such file or directory\n"), f"heard no/such.cap: {done.stdout}{done.stderr}")
    done = run([HEARD, "examples"])
    expect((done.stdout, done.stderr) == ("", "heard: the capture cannot be read: Is a directory\n"), f"heard of a folder: {done.stdout}{done.stderr}")
    with open("/dev/full", "w") as full:
        done = subprocess.run([HEARD, TOP / capture], stdout=full, stderr=subprocess.PIPE, text=True)
    expect(done.stderr == "heard: the lines cannot be written: No space left on device\n", f"heard to a full device: {done.stderr}")


# ------------------------------------------------------------------------------------------------------------ the C face

def c_face(folder):
    program = folder / "tick"
    done = run(["cc", "-std=c99", "-Wall", "-Wextra", "-Wpedantic", "-Werror", "examples/c/tick.c", "-o", program])
    expect(done.returncode == 0 and run([program]).returncode == 0, f"examples/c/tick.c: {done.stderr}")
    use = folder / "use.c"
    use.write_text('#include "lift.h"\nint main(void) { return lift_reason(LIFT_CLASH)[0] != \'t\'; }\n')
    for language, standard in (("c", "c99"), ("c", "c11"), ("c++", "c++98"), ("c++", "c++17")):
        words = ["-x", language, f"-std={standard}", "-Wall", "-Wextra", "-Werror", "-Iinclude", "-fsyntax-only", use]
        done = run(["cc", *words])
        expect(done.returncode == 0 or "cc1plus" in done.stderr, f"lift.h as {standard}: {done.stderr}")
        if shutil.which("clang"):
            done = run(["clang", "--target=i386-linux", "-ffreestanding", *words])
            expect("lift_table_is_aligned_to_8" in done.stderr, f"lift.h as {standard} where numbers of 64 bits are aligned to 4: {done.stderr}")
            done = run(["clang", "--target=thumbv7m-none-eabi", "-ffreestanding", "-nostdinc", "-isystem", "examples/bare", *words])
            expect(done.returncode == 0, f"lift.h as {standard} on Cortex-M: {done.stderr}")


def main():
    for test in (pictures, paths, refusals, theorems, groups, summaries, make_capture):
        test()
    if HEARD.exists():
        heard()
    else:
        print("pages: heard: skipped: not built")
    if shutil.which("cc"):
        with tempfile.TemporaryDirectory() as folder:
            c_face(pathlib.Path(folder))
    else:
        print("pages: the C face: skipped: no cc")
    if failures:
        sys.exit(f"pages: {len(failures)} not so")
    print("pages: as they say")


if __name__ == "__main__":
    main()
