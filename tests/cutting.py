#!/usr/bin/env python3
"""The cutting of change request 2 (document 02) read a second time, and the program `cutter` held against it.

    cutting.py check                                           the vectors of `cutter`: their hand-made part made anew, all answered
    cutting.py write                                           writes them, and examples/answer.expected
    cutting.py run --cutter PATH [--count 4000] [--seed 1]     drawn lines, each answer compared
    cutting.py whole [--count 300] [--seed 1]                  what is cut here, in any order and repeated, comes back whole from model.py
    cutting.py answer < lines                                  the answers

`cut` below is written from 02's sentences, RFC 4944 5.3 and RFC 6282; headers are those of frames.py, which shares nothing with the
product. It walks from part to part, where the product computes frame k in place. No vector's answer comes from the product.
"""

import argparse
import os
import random
import subprocess
import sys

import frames as f
import model

FOLDER = os.path.join(os.path.dirname(os.path.abspath(__file__)), "..", "crates", "cutter")
MOST_ROOM = 16384


# ------------------------------------------------------------------------------------------------------- 02, item 2

class Refused(Exception):
    pass


def chosen(src, dst):
    """The form of an address that our header has: the shortest, but that 0000:00ff:fe00:XXXX is elided against a short address
    alone (02, item 10). frames.py asks for the source first, then for the destination."""
    sides = iter((src, dst))

    def choose(forms):
        side = next(sides)
        if len(side) == 8 and any(form[2] == 2 and len(form[3]) == 2 for form in forms):
            forms = [form for form in forms if form[3]]
        return f.shortest(forms)
    return choose


def cut(pan, src, dst, sequence, tag, limit, datagram):
    """Every frame of the cutting, in order."""
    size = len(datagram)
    if not (40 <= size <= 2047 and 80 <= limit <= 127):
        raise Refused(4)                                    # "4 for a datagram or frame limit outside 40..2,047 and 80..127"
    if not src or not dst:
        raise Refused(6)                                    # "then 6 for an absent address"
    if datagram[:4] != b"\x60\0\0\0" or int.from_bytes(datagram[4:6], "big") != size - 40:
        raise Refused(16)                                   # "a version other than 6, a payload length unlike the bytes present, or .."
    # "Frames are Data, version 0, PAN compressed, all bits not named here clear."
    head = f.mac(src, dst, sequence, pan)
    # "UDP is compressed with its checksum carried when next header is 17, the datagram has 48 bytes or more and its UDP length equals
    # the payload length; else next header travels inline." frames.py asks the same three things.
    compressed, covered = f.compress(datagram, src, dst, choose=chosen(src, dst))
    whole = head + compressed + datagram[covered:]
    if len(whole) <= limit:
        return [whole]                                      # "unfragmented where one suffices"
    # "Each part is as long as the limit and the units of 8 allow."
    room = limit - len(head) - 4 - len(compressed)
    end = covered + room - room % 8
    made = [head + f.frag1(size, tag) + compressed + datagram[covered:end]]
    while end < size:
        begin, room = end, limit - len(head) - 5
        end = size if size - begin <= room else begin + room - room % 8
        made.append(head + f.fragn(size, tag, begin // 8) + datagram[begin:end])
    return made


# ------------------------------------------------------------------------------------------------------------ lines

class Bad(Exception):
    pass


def digits(text, count, base=16):
    if len(text) != count or any(c not in "0123456789abcdef" for c in text):
        raise Bad
    return int(text, base)


def decimal(text):
    if not text or any(c not in "0123456789" for c in text) or int(text) >= 2 ** 64:
        raise Bad
    return int(text)


def address(text):
    if text == "a":
        return b""
    if text[:1] in ("s", "e"):
        count = {"s": 4, "e": 16}[text[0]]
        return digits(text[1:], count).to_bytes(count // 2, "big")
    raise Bad


def some_bytes(text):
    if text == "-":
        return b""
    if not text or len(text) % 2:
        raise Bad
    return digits(text, len(text)).to_bytes(len(text) // 2, "big")


def command(words):
    if words[0] == "cut" and len(words) == 10:
        k, room = decimal(words[7]), decimal(words[8])
        if room > MOST_ROOM:
            raise Bad
    elif not (words[0] == "frames" and len(words) == 8):
        raise Bad
    made = (digits(words[1], 4), address(words[2]), address(words[3]), digits(words[4], 2), digits(words[5], 4), decimal(words[6]),
            some_bytes(words[-1]))
    made = cut(*made)
    if words[0] == "frames":
        return f"ok {len(made)}"
    if k >= len(made):
        raise Refused(10)                                   # "then 10 for a frame number past the last"
    if room < len(made[k]):
        raise Refused(7)                                    # "then 7"
    return f"ok {len(made[k])} {(made[k] + bytes([0xa5]) * (room - len(made[k]))).hex()}"


def answer(line):
    if line.startswith("#"):
        return line
    try:
        return command(line.split(" "))
    except Refused as refused:
        return f"no {refused}"
    except Bad:
        return "bad"


# ------------------------------------------------------------------------------------------------------ drawn lines

def text_of(link):
    return {0: "a", 2: "s", 8: "e"}[len(link)] + link.hex()


LINKS = (f.short(0x0001), f.short(0xabcd), f.BROADCAST, f.extended(0x0011223344556677), f.extended(0x020000fffe001234), f.extended(2 ** 64 - 1))
GROUPS = [f.ip(text) for text in ("ff02::1", "ff02::ff", "ff02::100", "ff05::1", "ff05::ff:ffff", "ff05::100:0", "ff0e::ff:ffff:ffff",
                                  "ff0e::100:0:0", "ff02:1::1", "ff02::1:0:0:1")]
PLAIN = [f.ip(text) for text in ("::", "::1", "2001:db8::1", "fe80::", "fe80::1", "fe80::ff:fe00:1234", "fe80::ff:fe00:1", "fe80:0:0:1::1",
                                 "fe81::1", "fec0::1", "fe80::fffe:fe00:1234")]


def ip_of(rng, link, source):
    kind = rng.randrange(4)
    if kind == 0 and link:
        return f.link_local(link)
    if kind == 1 and not source:
        return rng.choice(GROUPS)
    return rng.choice(PLAIN) if kind < 3 else rng.randbytes(16)


def port(rng):
    return rng.choice((0xf0b0, 0xf0bf, 0xf0af, 0xf0c0, 0xf000, 0xf0ff, 0xefff, 0xf100, rng.randrange(65536)))


def drawn_datagram(rng, src, dst):
    size = rng.choice((40, 41, 47, 48, 49, 56, 120, 257, 258, 1280, 2046, 2047, rng.randrange(40, 140), rng.randrange(40, 2048)))
    hop = rng.choice((0, 1, 2, 63, 64, 65, 254, 255))
    body = rng.randbytes(size - 40)
    next_header = rng.choice((17, 17, 17, 58, 0, 16, 18, 255))
    if len(body) >= 8 and next_header == 17:
        length = rng.choice((len(body),) * 6 + (len(body) + 1, len(body) - 1, 0, len(body) ^ 0x100))
        body = port(rng).to_bytes(2, "big") + port(rng).to_bytes(2, "big") + length.to_bytes(2, "big") + body[6:]
    datagram = bytearray(f.datagram(ip_of(rng, src, True), ip_of(rng, dst, False), next_header, body, hop))
    kind = rng.randrange(24)
    if kind == 0:
        datagram[rng.randrange(6)] ^= 1 << rng.randrange(8)
    elif kind == 1:
        datagram += rng.randbytes(rng.choice((1, 8, 2048 - size)))
    elif kind == 2:
        del datagram[rng.choice((0, 39, 40, size - 1)):]
    return bytes(datagram)


def drawn_line(rng):
    src, dst = (rng.choice(LINKS) if rng.randrange(30) else b"" for _ in range(2))
    limit = rng.choice((80, 81, 100, 126, 127, rng.randrange(80, 128))) if rng.randrange(30) else rng.choice((0, 79, 128, 2 ** 16 + 80, 2 ** 64 - 1))
    words = (f"{rng.randrange(65536):04x}", text_of(src), text_of(dst), f"{rng.randrange(256):02x}", f"{rng.randrange(65536):04x}", limit)
    datagram = drawn_datagram(rng, src, dst)
    try:
        made = cut(int(words[0], 16), src, dst, int(words[3], 16), int(words[4], 16), limit, datagram)
    except Refused:
        made = [bytes(rng.randrange(90))]
    if rng.randrange(5) == 0:
        return " ".join(map(str, ("frames",) + words + (datagram.hex() or "-",)))
    last = len(made) - 1
    k = rng.choice((0, 0, 1, last, last, last + 1, rng.randrange(len(made)))) if rng.randrange(40) else rng.choice((255, 256, 65535, 65536, 2 ** 64 - 1))
    length = len(made[min(k, last)])
    room = rng.choice((length, length, length + 1, 127, 128, 512)) if rng.randrange(12) else rng.choice((0, max(length - 1, 0), 16384))
    return " ".join(map(str, ("cut",) + words + (k, room, datagram.hex() or "-")))


def run(program, count, seed):
    rng = random.Random(seed)
    lines = [drawn_line(rng) for _ in range(count)]
    done = subprocess.run([program], input="\n".join(lines).encode() + b"\n", stdout=subprocess.PIPE)
    answers = done.stdout.decode().split("\n")[:-1]
    if done.returncode != 0 or len(answers) != count:
        sys.exit(f"{program}: status {done.returncode}, {count} lines, {len(answers)} answers")
    kinds = {}
    for line, theirs in zip(lines, answers):
        ours = answer(line)
        if ours != theirs:
            sys.exit(f"{line}\n  second reading: {ours}\n  {program}: {theirs}")
        kind = ours if ours.startswith("no") else line.split(" ")[0]
        kinds[kind] = kinds.get(kind, 0) + 1
    missing = {"cut", "frames", "no 4", "no 6", "no 16", "no 10", "no 7"} - set(kinds)
    if missing and count >= 1000:
        sys.exit(f"no line was answered {missing}")
    print(f"cutting: {count} lines, no difference ({', '.join(f'{kinds[kind]} {kind}' for kind in sorted(kinds))})")


# ------------------------------------------------------------------------------- what is cut, through the other reading

def holds(datagram):
    """Whether the checksum is right that a UDP header would carry once it is compressed; so too where none is."""
    number, at, _ = f.headers_of(datagram, 0, True)[-1]
    udp = datagram[at:at + 6] + b"\0\0" + datagram[at + 8:]
    return number != f.UDP or f.udp_checksum(datagram[8:24], datagram[24:40], udp).to_bytes(2, "big") == datagram[at + 6:at + 8]


def whole(count, seed):
    """02: "these frames in any order, each at least once, fed as demand 3 asks to a table that lists the source (with PAN), hand out the
    same datagram", for both readings here; every frame at most the limit, none equal to another, each part as long as can be. Item 7:
    "the premise that a carried checksum so tested is right"; where it is not, 17."""
    rng, came, refused = random.Random(seed), 0, 0
    for number in range(count):
        src, dst = rng.choice(LINKS), rng.choice(LINKS)
        limit = rng.choice((80, 81, 100, 127, rng.randrange(80, 128)))
        try:
            datagram = drawn_datagram(rng, src, dst)
            made = cut(0xabcd, src, dst, 7, number, limit, datagram)
        except Refused:
            continue
        assert all(len(one) <= limit for one in made) and len(set(made)) == len(made)
        assert all(len(one) > limit - 8 for one in made[:-1])
        order = made + [rng.choice(made) for _ in range(rng.randrange(4))]
        rng.shuffle(order)
        table = model.Table([(src, 0xabcd)])
        left, mem, out = set(made), bytearray(16384), bytearray(2047)
        for time, one in enumerate(order):
            answered = table.call(time, one, b"", mem, out)
            left.discard(one)
            if not left:
                if holds(datagram):
                    assert answered == ("out", len(datagram)) and out[:len(datagram)] == datagram, (number, answered)
                    came += 1
                else:
                    assert answered == ("no", 17) and not any(out), (number, answered)
                    refused += 1
                break
            assert answered == ("kept",), (number, answered)
    print(f"cutting: {came} datagrams came back whole, and {refused} whose checksum is wrong got 17")


# ---------------------------------------------------------------------------------------------------------- vectors

HEAD = """\
# Vectors of the cutting, written by tests/cutting.py. First the rules of document 02, item 2, a remark before each: headers, places and
# refusals are written there by hand. Then drawn lines, answered by the second reading in that file.""".split("\n")
DRAWN, DRAWN_SEED = 60, 2


def filler(count):
    return bytes(i % 251 for i in range(count))


def made_by_hand():
    """Lines with their answers; what stands in hexadecimal was written by hand."""
    lines = []
    one, two, three = ("fe80000000000000000000fffe00000" + c for c in "123")
    mac9 = "418805cdab02000100"                             # Data, PAN compressed; short 0002 from short 0001 in abcd, number 05

    def add(line, answered):
        lines.append((line, f"no {answered}" if isinstance(answered, int) else answered))

    def remark(text):
        lines.append((f"# {text}", f"# {text}"))

    def both(link, datagram, refusal):
        add(f"cut {link} 0 127 {datagram}", refusal)
        add(f"frames {link} {datagram}", refusal)

    def cut_all(link, datagram, frames_made):
        for k, frame in enumerate(frames_made):
            n = len(frame) // 2
            add(f"cut {link} {k} {n} {datagram}", f"ok {n} {frame}")
            add(f"cut {link} {k} {n + 2} {datagram}", f"ok {n} {frame}a5a5")
            add(f"cut {link} {k} {n - 1} {datagram}", 7)
        for k in (len(frames_made), 255, 256, 65535, 65536, 18446744073709551615):
            add(f"cut {link} {k} 0 {datagram}", 10)
        add(f"frames {link} {datagram}", f"ok {len(frames_made)}")

    short = "abcd s0001 s0002 05 0007"
    bare = "6000000000003b40" + one + two
    remark("One frame, 40 bytes: nothing follows the header; the tag is not used; room past the frame stays")
    cut_all(f"{short} 127", bare, [mac9 + "7a333b"])
    cut_all(f"{short} 80", bare, [mac9 + "7a333b"])
    remark("K1's addresses, extended 0011223344556677 to short abcd")
    cut_all("abcd e0011223344556677 sabcd 05 ffff 127", "6000000000003a40fe800000000000000211223344556677fe80000000000000000000fffe00abcd",
            ["41c805cdabcdab77665544332211007a333a"])
    remark("fe80::ff:fe00:1234 from extended 020000fffe001234: 16 bits and not elided; both addresses extended")
    cut_all("0001 e020000fffe001234 e0011223344556677 ff 0000 127",
            "6000000000003aff" + "fe80000000000000000000fffe001234" + "fe800000000000000211223344556677", ["41ccff01007766554433221100341200feff000002" + "7b233a1234"])
    remark("UDP, 48 bytes: compressed with its checksum carried; a wrong one and 0 too")
    for checksum in ("1234", "0000", "ffff"):
        cut_all(f"{short} 127", "6000000000081140" + one + two + "f0b1f0b20008" + checksum, [mac9 + "7e33f312" + checksum])
    remark("UDP whose length is not the payload's, one more and one less; 47 bytes; next header 16: inline")
    for udp in ("f0b1f0b200091234", "f0b1f0b200071234"):
        cut_all(f"{short} 127", "6000000000081140" + one + two + udp, [mac9 + "7a3311" + udp])
    cut_all(f"{short} 127", "6000000000071140" + one + two + "f0b1f0b2000712", [mac9 + "7a3311f0b1f0b2000712"])
    cut_all(f"{short} 127", "6000000000081040" + one + two + "f0b1f0b200081234", [mac9 + "7a3310f0b1f0b200081234"])
    remark("257 bytes at 127, compressed headers of 11 bytes: the last part fills the room, 120 and 127 bytes; one byte more, three parts")
    for rest in (209, 210):
        payload = filler(rest)
        size = 48 + rest
        datagram = f"60000000{8 + rest:04x}1140" + one + three + f"00500051{8 + rest:04x}beef" + payload.hex()
        first = mac9 + f"c1{size - 256:02x}0007" + "7e320003f000500051beef" + payload[:96].hex()
        head = mac9 + f"e1{size - 256:02x}0007"
        if rest == 209:
            cut_all(f"{short} 127", datagram, [first, head + "12" + payload[96:209].hex()])
        else:
            cut_all(f"{short} 127", datagram, [first, head + "12" + payload[96:208].hex(), head + "20" + payload[208:210].hex()])
    remark("127 bytes in one frame, and one more in two: the first has 4 bytes more of header and whole units of 8")
    for rest in (115, 116):
        payload = filler(rest).hex()
        datagram = f"60000000{rest:04x}3b40" + one + two + payload
        if rest == 115:
            cut_all(f"{short} 127", datagram, [mac9 + "7a333b" + payload])
        else:
            cut_all(f"{short} 127", datagram, [mac9 + "c09c0007" + "7a333b" + payload[:208], mac9 + "e09c0007" + "12" + payload[208:]])
    remark("1,280 bytes at 80, extended addresses, both IPv6 addresses in full: 16 bytes, then 48, and 24 in the last of 27 frames")
    payload = filler(1240)
    wide = "20010db8000000000000000000000001" + "20010db8000000000000000000000002"
    link = "abcd e0011223344556677 e8877665544332211 00 a1b2 80"
    datagram = "6000000004d83a02" + wide + payload.hex()
    mac21 = "41cc00cdab11223344556677887766554433221100"
    add(f"frames {link} {datagram}", "ok 27")
    add(f"cut {link} 0 127 {datagram}", "ok 77 " + mac21 + "c500a1b2" + "78003a02" + wide + payload[:16].hex() + "a5" * 50)
    add(f"cut {link} 1 127 {datagram}", "ok 74 " + mac21 + "e500a1b207" + payload[16:64].hex() + "a5" * 53)
    add(f"cut {link} 25 127 {datagram}", "ok 74 " + mac21 + "e500a1b297" + payload[1168:1216].hex() + "a5" * 53)
    add(f"cut {link} 26 127 {datagram}", "ok 50 " + mac21 + "e500a1b29d" + payload[1216:].hex() + "a5" * 77)
    add(f"cut {link} 27 127 {datagram}", 10)
    remark("Refusals: 4")
    for size, limit in ((39, 127), (0, 127), (2048, 127), (40, 79), (40, 128), (40, 0), (40, 65616), (40, 18446744073709551615)):
        datagram = (bytes.fromhex(bare) + filler(2048))[:size].hex() or "-"
        both(f"{short} {limit}", datagram, 4)
        both(f"abcd a a 05 0007 {limit}", datagram, 4)
    remark("6, before 16, 10 and 7")
    for link in ("a s0002", "s0001 a", "a a"):
        both(f"abcd {link} 05 0007 127", bare, 6)
        both(f"abcd {link} 05 0007 127", "40" + bare[2:], 6)
        add(f"cut abcd {link} 05 0007 127 9 0 {bare}", 6)
    remark("16, before 10 and 7: each bit of version, traffic class and flow label; payload lengths of one more and one less")
    for bit in range(32):
        both(f"{short} 127", f"{0x60000000 ^ 1 << bit:08x}" + bare[8:], 16)
    both(f"{short} 127", "600000000001" + bare[12:], 16)
    both(f"{short} 127", bare + "00", 16)
    both(f"{short} 127", "60000000ffff" + bare[12:], 16)
    add(f"cut {short} 127 9 0 {'40' + bare[2:]}", 16)
    remark("Lines that are no command")
    for line in ("", "cut", "frames", f"cut {short} 127 0 12", f"frames {short} 127", f"frames {short} 127 {bare} ", f"frames  {short} 127 {bare}",
                 f"cuts {short} 127 0 12 {bare}", f"cut {short} 127 0 16385 {bare}", f"cut {short} 127 0 -1 {bare}", f"cut {short} 127 x 12 {bare}",
                 f"cut {short} 18446744073709551616 0 12 {bare}", f"frames {short} 127 {bare[1:]}", f"frames {short} 127 {bare[:-2]}FE",
                 f"frames abc s0001 s0002 05 0007 127 {bare}", f"frames abcd s001 s0002 05 0007 127 {bare}", f"frames abcd n s0002 05 0007 127 {bare}",
                 f"frames abcd s0001 e0002 05 0007 127 {bare}", f"frames abcd s0001 s0002 5 0007 127 {bare}", f"frames {short} 7f {bare}"):
        add(line, "bad")
    return lines


def vectors():
    rng = random.Random(DRAWN_SEED)
    lines = [(line, line) for line in HEAD] + made_by_hand()
    lines.append(("# ---- Drawn",) * 2)
    for _ in range(DRAWN):
        line = drawn_line(rng)
        lines.append((line, answer(line)))
    for line, answered in lines:
        if answer(line) != answered:
            sys.exit(f"{line}\n  by hand: {answered}\n  second reading: {answer(line)}")
    return ["\n".join(column) + "\n" for column in zip(*lines)]


def answer_lines():
    """What examples/c/answer.c and examples/rust/answer.rs print: the datagrams are built here anew."""
    short, ext, two = f.short(1), f.extended(0x0011223344556677), f.short(2)
    lines = []
    for tag, (size, src, limit) in enumerate(((60, short, 127), (257, short, 127), (1280, short, 127), (1280, ext, 80), (2047, ext, 81)), 1):
        data = bytes(7 * i % 256 for i in range(48, size))
        datagram = f.udp_datagram(f.ip("fe80::ff:fe00:1"), f.ip("fe80::ff:fe00:2"), 0xf0b1, 0xf0b2, data)
        made = [len(one) for one in cut(0xabcd, src, two, 5, tag, limit, datagram)]
        lines.append(f"{size} bytes, at most {limit}: {len(made)} frames {' '.join(map(str, made[::-1]))}; out {size}, the same bytes")
    return "\n".join(lines + ["from nobody: no 6", "IPv4: no 16"]) + "\n"


def main():
    parser = argparse.ArgumentParser(description=__doc__.split("\n")[0])
    parser.add_argument("command", choices=("check", "write", "run", "whole", "answer"))
    parser.add_argument("--cutter", default="target/run/cutter")
    parser.add_argument("--count", type=int)
    parser.add_argument("--seed", type=int, default=1)
    options = parser.parse_args()
    names = [os.path.join(FOLDER, name) for name in ("stdin", "stdout")] + [os.path.join(FOLDER, "..", "..", "examples", "answer.expected")]
    if options.command == "run":
        run(options.cutter, options.count or 4000, options.seed)
    elif options.command == "whole":
        whole(options.count or 300, options.seed)
    elif options.command == "answer":
        for line in sys.stdin:
            print(answer(line.rstrip("\n")))
    elif options.command == "write":
        for name, text in zip(names, vectors() + [answer_lines()]):
            with open(name, "w", encoding="ascii") as file:
                file.write(text)
    else:
        if [open(name, encoding="ascii").read() for name in names] != vectors() + [answer_lines()]:
            sys.exit("crates/cutter/stdin, stdout or examples/answer.expected is not as written by tests/cutting.py")
        print("cutting: the vectors, and what the examples print, are as written")


if __name__ == "__main__":
    main()
