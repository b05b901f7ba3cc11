"""What became of each frame of a capture, for `picture` and `summary`.

The frames go to the program `calls` (built by tests/build, made runnable by tests/runnable), which says after each what
it answered and which slots are open. Where `calls` is not built, `tests/model.py table`, the second reading of the
requirements, answers the same lines. Source, tag and place of a frame are read by tests/model.py.
"""

import pathlib
import re
import subprocess
import sys
from collections import Counter
from dataclasses import dataclass, field

TOP = pathlib.Path(__file__).resolve().parent.parent
sys.dont_write_bytecode = True
sys.path.insert(0, str(TOP / "tests"))
import model  # noqa: E402

GATEWAYS = ["s0001@abcd", "s0002@abcd", "s0003@abcd", "s0004@abcd"]     # those of `heard`, as `calls` writes them
ROOMS = f"- {model.LENT_BYTES} {model.OUTPUT_BYTES}"


@dataclass
class Frame:
    number: int
    time: int
    source: str = "?"              # as `calls` writes an address: s and 4 digits, e and 16, a for absent; @ and the PAN
    destination: str = "?"
    size: int = 0                  # of its datagram; 0 where the frame is no part
    tag: int = 0
    begin: int = 0                 # the part's first byte and its length, as expanded
    length: int = 0
    answer: str = ""               # kept, out or no
    value: int = 0                 # the length of what came out, or the refusal
    slot: object = None            # the slot that it went to, if any
    opened: bool = False           # it opened that slot
    repeat: bool = False           # it was there already
    held: dict = field(default_factory=dict)      # slot -> words of its key, after the call


@dataclass
class Datagram:
    number: int
    source: str
    size: int
    tag: object                    # None where it came in one frame
    frames: list                   # the frames it came from, repeats among them
    since: int
    until: int


def name(address, with_pan=True):
    """An address for people: 0001@abcd, 00:11:22:33:44:55:66:77, `absent`, or `?` where the headers could not be read."""
    if address == "?":
        return address
    digits, at, pan = address[1:].partition("@")
    if len(digits) == 16:
        digits = ":".join(digits[i:i + 2] for i in range(0, 16, 2))
    return (digits or "absent") + (at + pan if with_pan else "")


def frames_of(data):
    """The frames of a capture as (time, bytes), and the number of the first bad block or None."""
    frames = []
    for number in range(-(-len(data) // model.BLOCK)):
        try:
            frames += model.read_block(data[number * model.BLOCK:][:model.BLOCK], number)
        except model.Refused:
            return frames, number
    return frames, None


def look(frame, data):
    """Fills in what the frame's headers say, as far as they can be read."""
    try:
        mac = model.through_relays(model.read_mac(data), data)
        if mac.src is None or mac.dst is None:
            return
        frame.source, frame.destination = model.sender_text(model.sender_of(mac)), model.address_text(mac.dst)
        payload = data[mac.length:]
        if model.dispatch(payload) != "fragment":
            return
        part = model.read_fragment(payload)
        rest = payload[part.length:]
        if part.first:
            rest = model.expand(rest, mac.src, mac.dst, [], part.size).data
        frame.size, frame.tag, frame.begin, frame.length = part.size, part.tag, part.begin, len(rest)
    except model.Refused:
        pass


def ask(lines, program):
    """The answers of `calls`, one for each line."""
    if program is None:
        built = TOP / "target/run/calls"
        program = [built] if built.exists() else [sys.executable, TOP / "tests/model.py", "table"]
    run = subprocess.run(program, input="\n".join(lines) + "\n", stdout=subprocess.PIPE, text=True)
    answers = run.stdout.splitlines()
    if answers and answers[0] in ("bad", "no 14"):
        sys.exit(f"{lines[0]}: at most four, s0001@abcd for a short address and its PAN, e and 16 digits for an extended one")
    if run.returncode != 0 or len(answers) != len(lines) or answers[0] != "ok":
        sys.exit(f"{program[0]}: it does not answer the lines of tests/README.md (status {run.returncode})")
    return answers[1:]


def slots_of(answer):
    """The open slots of an answer: slot -> the words of its key."""
    held = {}
    for word in answer.partition("|")[2].split():
        slot, _, key = word.partition(":")
        held[int(slot)] = key.split(",")
    return held


def belongs(frame, key):
    """The frame is a part under the key: source, destination, size and tag are among its words."""
    words = {frame.source, frame.destination, f"{frame.size:04x}", f"{frame.tag:04x}"}
    return frame.size > 0 and words <= set(key)


def tell(data, program=None, gateways=()):
    """The frames of a capture with what became of each, the datagrams that came out, and the first bad block or None. The
    gateways are those of `heard` where none are given."""
    heard, bad = frames_of(data)
    lines = [" ".join(["gateways", *(gateways or GATEWAYS)])] + [f"call {time} {frame.hex() or '-'} {ROOMS}" for time, frame in heard]
    frames, datagrams, held, parts = [], [], {}, {}
    for number, ((time, data), answer) in enumerate(zip(heard, ask(lines, program)), 1):
        frame = Frame(number, time)
        look(frame, data)
        words = answer.partition("|")[0].split()
        frame.answer, frame.value = words[0], int(words[1]) if len(words) > 1 else 0
        before, held = held, slots_of(answer)
        parts = {s: p for s, p in parts.items() if before.get(s) == held.get(s) or belongs(frame, before[s])}
        place(frame, before, held, parts)
        if frame.answer == "out":
            datagrams.append(come_out(frame, parts))
        frame.held = held
        frames.append(frame)
        parts = {s: p for s, p in parts.items() if s in held}
    return frames, datagrams, bad


def place(frame, before, held, parts):
    """Finds the frame's slot, and puts it to the parts of that slot."""
    if frame.answer == "no" and frame.value not in (11, 17):
        return
    for slot, key in {**before, **held}.items():
        if belongs(frame, key):
            frame.slot = slot
            frame.opened = before.get(slot) != held.get(slot) and slot in held
            if frame.opened:
                parts[slot] = []
            mine = parts.setdefault(slot, [])
            frame.repeat = frame.answer == "kept" and any(f.begin == frame.begin for f in mine)
            if frame.answer != "no":
                mine.append(frame)
            return


def come_out(frame, parts):
    whole = parts.get(frame.slot) or [frame]
    return Datagram(frame.number, frame.source, frame.value, frame.tag if frame.size else None,
                    [f.number for f in whole], whole[0].time, frame.time)


def refusals(frames):
    """How many frames were refused, by number."""
    return dict(sorted(Counter(f.value for f in frames if f.answer == "no").items()))


def reasons():
    """The words for each refusal: those of `lift_reason` in include/lift.h."""
    header = (TOP / "include/lift.h").read_text()
    words = dict(re.findall(r'case (LIFT_\w+): return "([^"]*)";', header))
    return {int(number): words.get(name, "?") for name, number in re.findall(r"\b(LIFT_\w+) = (\d+)", header)}


def read_capture(arguments, usage):
    """The bytes of the capture that the command line names, or one line that says what is wrong."""
    if len(arguments) != 1 or arguments[0].startswith("-"):
        sys.exit(usage)
    try:
        return pathlib.Path(arguments[0]).read_bytes()
    except OSError as error:
        sys.exit(f"{arguments[0]}: {error.strerror}")
