#!/usr/bin/env python3
"""Writes the vectors of the program `calls`: crates/calls/stdin, and what must be answered, crates/calls/stdout.

    vectors.py write     writes both (wants tshark: Debian: apt-get install tshark)
    vectors.py check     makes the hand-made part anew, and has model.py answer every line; it needs no tshark

No answer comes from the program. In the hand-made part each line has its answer beside it here, written from document 01:
`kept`, a refusal's number, or the datagram that frames.py cut. The other part has whole datagrams and parts drawn from a
seed, and the bytes handed out are those that tshark shows. model.py answers every line of both too, and must agree; the
open keys behind ` |` are model.py's, and in the hand-made part the slots that are open stand here as well.
"""

import os
import random
import sys
import tempfile

import frames as f
import model
import peer

FOLDER = os.path.join(os.path.dirname(os.path.abspath(__file__)), "..", "crates", "calls")
SEED, COUNT = 7, 36

ONE, TWO, THREE, FOUR = peer.GATEWAYS          # short 0001, short 0203, extended 0011.., extended 0200..1234
STRANGER = f.short(0x1234)
CONTROLLER = f.short(0xabcd)
CONTEXTS = b"".join(peer.CONTEXTS)
TSHARK_PART = "# ---- Datagrams that tshark put together and decompressed"
HEAD = """\
# Vectors for the table over calls, written by tests/vectors.py, which says how. First the rules of documents 01 and 02, a remark
# before each: their answers were written by hand. Then datagrams and parts that tshark (4.0) put together and decompressed: its bytes
# are the answers. Left out of tshark's part: the two bytes of an elided checksum, where tshark writes ffff (those are the sender's,
# and tshark judged them right), refusals, clashes, ageing and slots.""".split("\n")


# ------------------------------------------------------------------------------------------------------------ hand-made

class Script:
    """Lines, and the beginning of each one's answer; for a call the numbers of the slots open after it."""

    def __init__(self):
        self.lines, self.time = [], 0

    def remark(self, text):
        """The next rule. The clock goes on, so that no slot of the last one is open any more."""
        self.time += 200000
        self.lines.append((f"# {text}", f"# {text}", None))

    def plain(self, line, answer):
        self.lines.append((line, answer, None))

    def call(self, after, frame, answer, slots, contexts=b"", mem=16384, out=2047):
        """A call `after` so many ms since the rule began."""
        line = f"call {self.time + after} {frame.hex() or '-'} {contexts.hex() or '-'} {mem} {out}"
        if isinstance(answer, int):
            answer = f"no {answer}"
        elif isinstance(answer, bytes):
            answer = f"out {len(answer)} {answer.hex()}"
        self.lines.append((line, answer, slots))


def hexed(text):
    return bytes.fromhex(text)


def from_to(source, destination, payload):
    """A frame with this payload behind the usual MAC header."""
    return f.mac(source, destination) + (hexed(payload) if isinstance(payload, str) else payload)


def udp(source, size, fill=0, destination=CONTROLLER, **others):
    """A datagram of `size` bytes from port f0b1 to port f0b2, its data counted up from `fill`."""
    data = bytes((fill + i) % 256 for i in range(size - 48))
    return f.udp_datagram(f.link_local(source), f.link_local(destination), 0xf0b1, 0xf0b2, data, **others)


def first(source, datagram, tag, end, destination=CONTROLLER, **knobs):
    return from_to(source, destination, f.first_part(datagram, tag, end, source, destination, **knobs).payload)


def later(source, datagram, tag, begin, end, destination=CONTROLLER, size=None):
    return from_to(source, destination, f.later_part(datagram, tag, begin, end, size).payload)


def turned(frame):
    """The same with another last byte."""
    return frame[:-1] + bytes([frame[-1] ^ 1])


def gateway_lists(s):
    s.plain("# A call before there is a table", "# A call before there is a table")
    s.plain("call 0 - - 16384 2047", "bad")
    s.remark("14: gateway list: over four, two equal, or an absent address")
    s.plain("gateways s0001 s0002 s0003 s0004 s0005", "no 14")
    s.plain("gateways s0001 e0000000000000001 s0001", "no 14")
    s.plain("gateways e0011223344556677 e0011223344556677", "no 14")
    s.plain("gateways a", "no 14")
    s.plain("gateways s0001 a s0002", "no 14")
    s.remark("Two gateways are equal only if address and PAN agree; an absent address is refused under a PAN too")
    s.plain("gateways s0001@abcd s0001@abcd", "no 14")
    s.plain("gateways s0001 s0001@abcd s0001", "no 14")
    s.plain("gateways s0001@abcd a@abcd", "no 14")
    s.remark("Lines that are no list of gateways, the list, and a second one")
    for line in ("gateways s0001@", "gateways s0001@abc", "gateways s0001@abcde", "gateways s0001@abcg", "gateways @abcd",
                 "gateways s0001@ABCD", "gateways s0001 @abcd", "gateways s0001@abcd@abcd", "gateways s0001@abcd "):
        s.plain(line, "bad")
    for line in ("gateways s001", "gateways s00011", "gateways e001122334455667", "gateways x0001", "gateways s0001 ",
                 "gateways  s0001", "gateways s000g", "gateways S0001", "gateways n", "gateway s0001", ""):
        s.plain(line, "bad")
    s.plain("gateways " + " ".join(model.sender_text((one, f.PAN)) for one in peer.GATEWAYS), "ok")
    s.plain("gateways s0001", "bad")
    s.remark("Lines that are no call")
    for line in ("call", "call 1 - - 16384", "call 1 - - 16384 2047 ", "call 1 - - 16384 2047 0", "call x - - 16384 2047",
                 "call -1 - - 16384 2047", "call  - - 16384 2047", "call 18446744073709551616 - - 16384 2047",
                 "call 1 0 - 16384 2047", "call 1 0g - 16384 2047", "call 1 0A - 16384 2047", "call 1 - 123 16384 2047",
                 "call 1 - - - 2047", "call 1 - - 65537 2047", "call 1 - - 16384 65537", "calls 1 - - 16384 2047", " "):
        s.plain(line, "bad")


def whole_frames(s):
    """The printed example and K1 to K5: a frame with a whole datagram."""
    printed = f.datagram(f.link_local(ONE), f.link_local(f.BROADCAST), 58, hexed("01020304"))
    s.remark("The printed example: 44 bytes, and 9 for the same from short 1234")
    s.call(0, hexed("418805cdabffff01007a333a01020304"), printed, "")
    s.call(0, hexed("418805cdabffff34127a333a01020304"), 9, "")
    s.remark("K1, K2: an IPHC frame is expanded and handed out")
    s.call(0, from_to(THREE, CONTROLLER, "7a333a"), f.datagram(f.link_local(THREE), f.link_local(CONTROLLER), 58, b""), "")
    s.call(0, from_to(THREE, CONTROLLER, "7b3b3a01"), f.datagram(f.link_local(THREE), f.ip("ff02::1"), 58, b"", hop=255), "")
    s.remark("K3: 1; K4: 3; K5: 5 without contexts, and handed out with one")
    s.call(0, from_to(THREE, CONTROLLER, "7b3b3a"), 1, "")
    s.call(0, from_to(THREE, CONTROLLER, "7b343a"), 3, "")
    s.call(0, from_to(THREE, CONTROLLER, "7b733a"), 5, "")
    s.call(0, from_to(THREE, CONTROLLER, "7b733a"), 5, "", contexts=CONTEXTS[:7])
    by_context = f.datagram(peer.CONTEXTS[0] + f.iid(THREE), f.link_local(CONTROLLER), 58, b"", hop=255)
    s.call(0, from_to(THREE, CONTROLLER, "7b733a"), by_context, "", contexts=CONTEXTS[:8])
    s.remark("Contexts, 8 bytes each, a shorter rest ignored: the CID byte says 1 for the source, 2 for the destination")
    both = f.datagram(peer.CONTEXTS[1] + f.iid(THREE), peer.CONTEXTS[2] + f.iid(FOUR), 59, hexed("aabb"))
    s.call(0, from_to(THREE, FOUR, "7af7123baabb"), both, "", contexts=CONTEXTS)
    s.call(0, from_to(THREE, FOUR, "7af7123baabb"), 5, "", contexts=CONTEXTS[:23])
    s.call(0, from_to(THREE, FOUR, "7af7123baabb"), 5, "", contexts=CONTEXTS[:8])
    s.call(0, from_to(THREE, FOUR, "7af7"), 1, "", contexts=CONTEXTS)
    s.remark("Traffic class dscp*4+ecn/64, a flow label, a hop limit in line, an address of all zeros")
    odd = f.datagram(bytes(16), f.ip("ff05::1:3"), 58, b"", hop=7, traffic_class=0xb9, flow=0x1234)
    s.call(0, from_to(ONE, f.BROADCAST, f.iphc(odd, ONE, f.BROADCAST)), odd, "")
    s.remark("02, item 1: all 20 bits of the flow label. TF=01, 4a bc de: ECN 1 and label abcde; the same with both bits of padding set;"
             " TF=00 with DSCP 46 and all four bits of padding set")
    one, labels = f.link_local(ONE), {"hop": 255, "flow": 0xabcde}
    marked = f.datagram(one, f.link_local(CONTROLLER), 58, hexed("aabb"), traffic_class=1, **labels)
    s.call(0, from_to(ONE, CONTROLLER, "6b334abcde3aaabb"), marked, "")
    s.call(0, from_to(ONE, CONTROLLER, "6b337abcde3aaabb"), marked, "")
    classed = f.datagram(one, f.link_local(CONTROLLER), 58, hexed("aabb"), traffic_class=46 << 2 | 1, **labels)
    s.call(0, from_to(ONE, CONTROLLER, "63336efabcde3aaabb"), classed, "")
    s.remark("020000fffe001234 and short 1234 give one interface identifier, and are two gateways' addresses")
    alike = f.datagram(f.ip("fe80::ff:fe00:1234"), f.link_local(CONTROLLER), 58, b"")
    s.call(0, from_to(FOUR, CONTROLLER, "7a333a"), alike, "")
    s.call(0, from_to(STRANGER, CONTROLLER, "7a333a"), 9, "")


def pans(s):
    """02: "the source PAN if the frame carries one, else the destination PAN, else "none""; the gateways are listed under
    PAN abcd."""
    iphc, eight = hexed("7a333a01020304"), f.extended(0x0011223344556677)
    shown = f.datagram(f.link_local(ONE), f.link_local(CONTROLLER), 58, hexed("01020304"))

    def heard(answer, source=ONE, destination=CONTROLLER, **header):
        s.call(0, f.mac(source, destination, **header) + iphc, answer, "")
    s.remark("The destination's PAN where the frame carries no other: abcd, then its neighbours, ffff and 0")
    heard(shown, pan=0xabcd)
    for pan in (0xabce, 0xabcc, 0xcdab, 0xffff, 0):
        heard(9, pan=pan)
    s.remark("The source's PAN where the frame carries one, whatever the destination's is")
    for version in (0, 1, 2):
        heard(shown, pan=0x1234, src_pan=0xabcd, compress=False, version=version)
        heard(shown, pan=0xffff, src_pan=0xabcd, compress=False, version=version)
        heard(9, pan=0xabcd, src_pan=0x1234, compress=False, version=version)
        heard(9, pan=0xabcd, src_pan=0xffff, compress=False, version=version)
    s.remark("None: version 2, both addresses extended, compressed. It is no gateway's PAN")
    heard(9, THREE, eight, version=2)
    heard(f.datagram(f.link_local(THREE), f.link_local(eight), 58, hexed("01020304")), THREE, eight, version=2, compress=False)


def mac_refusals(s):
    iphc = "7a333a"
    s.remark("MAC refusals: below 3 bytes 1, above 127 bytes 4")
    for frame in ("", "41", "4188"):
        s.call(0, hexed(frame), 1, "")
    s.call(0, from_to(ONE, CONTROLLER, iphc).ljust(128, b"\0"), 4, "")
    full = from_to(ONE, CONTROLLER, iphc).ljust(127, b"\0")
    s.call(0, full, f.datagram(f.link_local(ONE), f.link_local(CONTROLLER), 58, bytes(127 - 12)), "")
    s.remark("MAC refusals: version 3, a mode of 01, versions 0 and 1 with compression and no address: 3; cut short: 1")
    for frame in ("41b805cdabcdab0100", "418405cdabcdab0100", "414805cdabcdab0100", "410005", "411005"):
        s.call(0, hexed(frame + iphc), 3, "")
    for length in range(3, 9):
        s.call(0, from_to(ONE, CONTROLLER, iphc)[:length], 1, "")
    s.remark("13: secured, or not a Data frame; before 9")
    secured = f.mac(ONE, CONTROLLER, version=1, security=hexed("0d0100000001"))
    s.call(0, secured + hexed(iphc), 13, "")
    s.call(0, f.mac(STRANGER, CONTROLLER, version=1, security=hexed("0d0100000001")) + hexed(iphc), 13, "")
    s.call(0, secured[:-1], 1, "")
    for frame_type in (0, 2, 3, 4, 5, 6, 7):
        s.call(0, f.mac(ONE, CONTROLLER, frame_type=frame_type) + hexed(iphc), 13, "")
    s.remark("9: the source is no gateway, or absent; before 6: the destination is absent")
    s.call(0, from_to(f.extended(1), CONTROLLER, iphc), 9, "")
    s.call(0, from_to(b"", CONTROLLER, iphc), 9, "")
    s.call(0, f.mac(STRANGER, b"", compress=False) + hexed(iphc), 9, "")
    s.call(0, f.mac(ONE, b"", compress=False) + hexed(iphc), 6, "")
    s.remark("Dispatch: no byte 1, other leading bits 2; 6 comes before it")
    s.call(0, from_to(ONE, CONTROLLER, ""), 1, "")
    for dispatch in ("41", "00", "42", "5f", "80", "c8", "d0", "e8", "f0", "ff"):
        # 80 begins a mesh header, of 17 bytes
        s.call(0, from_to(ONE, CONTROLLER, dispatch + "00000000"), 1 if dispatch == "80" else 2, "")
    s.call(0, f.mac(ONE, b"", compress=False), 6, "")


def rooms_and_times(s):
    datagram = udp(ONE, 64)
    frame = f.whole(datagram, ONE, CONTROLLER)
    s.remark("7: 16,384 lent bytes or more and an output of 2,047 or more; before every other check")
    for mem, out in ((16383, 2047), (16384, 2046), (0, 2047), (16384, 0), (0, 0)):
        s.call(0, frame, 7, "", mem=mem, out=out)
    s.call(0, b"", 7, "", mem=16383)
    s.call(0, frame, datagram, "", mem=65536, out=65536)
    s.remark("8: earlier than the last time taken; an equal one is not. 7 and 8 take no time")
    s.call(10, frame, datagram, "")
    s.call(9, frame, 8, "")
    s.call(0, b"", 8, "")
    s.call(9, frame, 7, "", out=2046)
    s.call(1000, frame, 7, "", mem=16383)
    s.call(10, frame, datagram, "")
    s.call(20, b"", 1, "")
    s.call(19, frame, 8, "")
    s.call(20, frame, datagram, "")


def ageing(s):
    datagram = udp(ONE, 96)
    begin, end = first(ONE, datagram, 7, 56), later(ONE, datagram, 7, 56, 96)
    s.remark("K12: a slot opened at 0 is held at 59,999, gone at 60,000, also when a refusal follows")
    s.call(0, begin, "kept", "0")
    s.call(59999, b"", 1, "0")
    s.call(60000, b"", 1, "")
    s.remark("At 59,999 the rest still comes in time")
    s.call(0, begin, "kept", "0")
    s.call(59999, end, datagram, "")
    s.remark("At 60,000 it opens a slot of its own; a repeat does not make a slot younger")
    s.call(0, begin, "kept", "0")
    s.call(30000, begin, "kept", "0")
    s.call(60000, end, "kept", "0")
    s.call(60001, begin, datagram, "")
    s.remark("7 and 8 free no slot")
    s.call(0, begin, "kept", "0")
    s.call(90000, begin, 7, "0", mem=0)
    s.call(59999, end, datagram, "")
    s.remark("Each slot has its own age: the lower one goes, and is the lowest free one again")
    other = udp(TWO, 96)
    s.call(0, begin, "kept", "0")
    s.call(1, first(TWO, other, 7, 56), "kept", "01")
    s.call(60000, b"", 1, "1")
    s.call(60000, begin, "kept", "01")
    s.call(60001, b"", 1, "0")


def bad_parts(s):
    datagram = udp(ONE, 96)
    s.remark("A fragment: header (1)")
    for payload in ("c0", "c060", "c06000", "e0", "e06000", "e0600007"):
        s.call(0, from_to(ONE, CONTROLLER, payload), 1, "")
    s.remark("For a first part its expansion (1, 2, 3, 5, 13), before 10: these have size 39")
    for payload, answer in (("c0270007", 1), ("c02700077a", 1), ("c027000741aa", 2), ("c02700077b343a", 3),
                            ("c02700077b733a", 5), ("c02700077e33e4", 13), ("c02700077e33ed00", 13), ("c02700077e3380", 2)):
        s.call(0, from_to(ONE, CONTROLLER, payload), answer, "")
    s.remark("2: no compressed header that is known; 1: none at all")
    for payload, answer in (("7e33", 1), ("7e33d0", 2), ("7e33f8", 2)):
        s.call(0, from_to(ONE, CONTROLLER, payload), answer, "")
    s.remark("10: size below 40")
    s.call(0, from_to(ONE, CONTROLLER, "c02700077a333a"), 10, "")
    s.call(0, later(ONE, datagram, 7, 8, 16, size=39), 10, "")
    s.call(0, from_to(ONE, CONTROLLER, "c02800077a333a"), f.datagram(f.link_local(ONE), f.link_local(CONTROLLER), 58, b""), "")
    s.remark("10: no bytes; offset 0 in a later part; end beyond size, by a byte")
    s.call(0, later(ONE, datagram, 7, 8, 8), 10, "")
    s.call(0, later(ONE, datagram, 7, 0, 8), 10, "")
    s.call(0, later(ONE, datagram + b"\0", 7, 56, 97, size=96), 10, "")
    s.call(0, later(ONE, bytes(2048), 7, 2040, 2048, size=2047), 10, "")
    s.call(0, first(ONE, datagram, 7, 96, size=95), 10, "")
    s.remark("10: a length that is no multiple of 8 and does not end at size; taken where it does")
    s.call(0, later(ONE, datagram, 7, 56, 95), 10, "")
    s.call(0, first(ONE, datagram, 7, 55), 10, "")
    short = datagram[:93]
    s.call(0, later(ONE, short, 7, 88, 93), "kept", "0")
    s.call(0, later(ONE, short, 7, 88, 92), 10, "0")
    s.remark("The largest: the last unit of 2,047 bytes holds 7")
    s.call(0, later(ONE, bytes(2047), 7, 2040, 2047), "kept", "0")
    s.call(0, later(ONE, bytes(2047), 7, 2032, 2040), "kept", "0")


def clashes(s):
    datagram = udp(ONE, 200)
    begin, middle = first(ONE, datagram, 7, 64), later(ONE, datagram, 7, 96, 128)
    s.remark("With the key open, the same first byte, length and bytes as a part taken: kept")
    s.call(0, begin, "kept", "0")
    s.call(1, begin, "kept", "0")
    s.call(2, middle, "kept", "0")
    s.call(3, middle, "kept", "0")
    s.call(4, begin, "kept", "0")
    for why, part in (("other bytes at the same place", turned(middle)), ("the first part with other bytes", turned(begin)),
                      ("a part that begins there and is shorter", later(ONE, datagram, 7, 96, 120)),
                      ("a part that begins there and is longer", later(ONE, datagram, 7, 96, 136)),
                      ("a part that ends within", later(ONE, datagram, 7, 88, 104)),
                      ("a part that begins within", later(ONE, datagram, 7, 120, 144)),
                      ("a part within", later(ONE, datagram, 7, 104, 112)),
                      ("a part across it", later(ONE, datagram, 7, 88, 136))):
        s.remark(f"11, slot freed: {why}; beside it is no clash; then the key is opened anew")
        s.call(0, begin, "kept", "0")
        s.call(0, middle, "kept", "0")
        s.call(0, later(ONE, datagram, 7, 128, 136), "kept", "0")
        s.call(1, part, 11, "")
        s.call(2, part, "kept", "0")
    s.remark("A repeat after the cover is a part like any other")
    parts = [first(ONE, datagram, 7, 104), later(ONE, datagram, 7, 104, 176), later(ONE, datagram, 7, 176, 200)]
    s.call(0, parts[2], "kept", "0")
    s.call(0, parts[0], "kept", "0")
    s.call(0, parts[1], datagram, "")
    s.call(0, parts[1], "kept", "0")


def slots(s):
    def open_for(source, tag):
        return later(source, udp(ONE, 96), tag, 56, 96)
    s.remark("The lowest free slot if it holds none; else fewer than three, and free slots outnumber the others that hold none")
    s.call(0, open_for(ONE, 1), "kept", "0")
    s.call(0, open_for(ONE, 2), "kept", "01")
    s.call(0, open_for(ONE, 3), "kept", "012")
    s.call(0, open_for(ONE, 4), 12, "012")
    s.call(0, open_for(TWO, 1), "kept", "0123")
    s.call(0, open_for(TWO, 2), "kept", "01234")
    s.call(0, open_for(TWO, 3), "kept", "012345")
    s.call(0, open_for(TWO, 4), 12, "012345")
    s.call(0, open_for(THREE, 1), "kept", "0123456")
    s.call(0, open_for(THREE, 2), 12, "0123456")
    s.call(0, open_for(FOUR, 1), "kept", "01234567")
    s.call(0, open_for(FOUR, 2), 12, "01234567")
    s.call(1, open_for(ONE, 2), "kept", "01234567")
    s.call(1, turned(open_for(ONE, 2)), 11, "0234567")
    s.call(1, open_for(FOUR, 2), "kept", "01234567")
    s.call(1, open_for(THREE, 2), 12, "01234567")
    s.remark("The reserve: two slots are free, and two gateways hold none")
    for tag in (1, 2, 3):
        s.call(0, open_for(ONE, tag), "kept", "012"[:tag])
    for tag in (1, 2, 3):
        s.call(0, open_for(TWO, tag), "kept", "012345"[:3 + tag])
    s.call(0, open_for(THREE, 1), "kept", "0123456")
    s.call(1, turned(open_for(TWO, 2)), 11, "012356")
    s.call(1, turned(open_for(TWO, 3)), 11, "01236")
    s.call(2, open_for(TWO, 4), "kept", "012346")
    s.call(2, open_for(THREE, 2), "kept", "0123456")
    s.call(2, open_for(THREE, 3), 12, "0123456")
    s.call(2, open_for(TWO, 5), 12, "0123456")
    s.call(2, open_for(FOUR, 1), "kept", "01234567")
    s.remark("A slot freed by full cover can be opened again")
    whole = udp(ONE, 96)
    for tag in (1, 2, 3):
        s.call(0, later(ONE, whole, tag, 56, 96), "kept", "012"[:tag])
    s.call(0, first(ONE, whole, 2, 56), whole, "02")
    s.call(0, later(ONE, whole, 4, 56, 96), "kept", "012")


def keys(s):
    old, new = udp(ONE, 400, 1), udp(TWO, 400, 101)
    one, two = f.frames(old, 7, ONE, CONTROLLER, limit=100), f.frames(new, 7, TWO, CONTROLLER, limit=100)
    s.remark("The key is source, destination, size, tag: two gateways, one tag and size, woven together")
    for i in range(len(one) - 1):
        s.call(i, one[i], "kept", "0" if i == 0 else "01")
        s.call(i, two[i], "kept", "01")
    s.call(9, two[-1], new, "0")
    s.call(9, one[-1], old, "")
    s.remark("One gateway and tag, two destinations")
    here, there = udp(ONE, 96, 1), udp(ONE, 96, 51, destination=FOUR)
    s.call(0, first(ONE, here, 7, 56), "kept", "0")
    s.call(0, later(ONE, there, 7, 56, 96, destination=FOUR), "kept", "01")
    s.call(0, first(ONE, there, 7, 56, destination=FOUR), there, "0")
    s.call(0, later(ONE, here, 7, 56, 96), here, "")
    s.remark("One gateway and tag, two sizes; one size, two tags")
    longer = udp(ONE, 104, 91)
    s.call(0, first(ONE, here, 7, 56), "kept", "0")
    s.call(0, first(ONE, longer, 7, 56), "kept", "01")
    s.call(0, first(ONE, here, 8, 56), "kept", "012")
    s.call(0, later(ONE, longer, 7, 56, 104), longer, "02")
    s.call(0, later(ONE, here, 8, 56, 96), here, "0")
    s.call(0, later(ONE, here, 7, 56, 96), here, "")
    s.remark("An extended address and the short one with the same interface identifier are two sources; extended to extended")
    far = udp(FOUR, 96, 31, destination=THREE)
    s.call(0, first(FOUR, far, 7, 56, destination=THREE), "kept", "0")
    s.call(0, later(STRANGER, far, 7, 56, 96, destination=THREE), 9, "0")
    s.call(0, later(THREE, far, 7, 56, 96, destination=THREE), "kept", "01")
    s.call(0, later(FOUR, far, 7, 56, 96, destination=THREE), far, "1")


def checksums(s):
    s.remark("An elided checksum is computed over the whole datagram, in a whole frame and over parts in any order")
    small = f.udp_datagram(f.link_local(THREE), f.link_local(CONTROLLER), 0xf0b1, 0xf0b2, hexed("aabb"))
    s.call(0, from_to(THREE, CONTROLLER, "7e33f712aabb"), small[:46] + hexed("fcd9") + small[48:], "")
    for size, order in ((160, (0, 1, 2)), (160, (2, 1, 0)), (161, (1, 2, 0)), (173, (1, 0, 2))):
        datagram = udp(ONE, size, size)
        parts = f.frames(datagram, 7, ONE, CONTROLLER, first_end=64, step=64, elide=True)
        s.call(0, parts[order[0]], "kept", "0")
        s.call(0, parts[order[1]], "kept", "0")
        s.call(0, parts[order[2]], datagram, "")
    s.remark("0 becomes ffff: data is chosen so that the sum is ffff")
    zero = udp(ONE, 50)
    zero = udp_with(zero, int.from_bytes(zero[46:48], "big"))
    s.call(0, f.whole(zero, ONE, CONTROLLER, elide=True), zero, "")
    s.remark("17: a carried checksum that does not hold, once the datagram is whole: right, wrong, 0")
    for checksum in (None, 0x1234, 0):
        carried = udp(ONE, 96, checksum=checksum)
        s.call(0, first(ONE, carried, 7, 56), "kept", "0")
        s.call(0, later(ONE, carried, 7, 56, 96), carried if checksum is None else 17, "")
    s.remark("Whether it was elided is remembered when the part at byte 0 is taken: a carried 0 is then a repeat, and it stays elided")
    right, none = udp(ONE, 96), udp(ONE, 96, checksum=0)
    s.call(0, first(ONE, right, 7, 56, elide=True), "kept", "0")
    s.call(0, first(ONE, none, 7, 56), "kept", "0")
    s.call(0, later(ONE, right, 7, 56, 96), right, "")
    s.call(0, first(ONE, none, 7, 56), "kept", "0")
    s.call(0, first(ONE, right, 7, 56, elide=True), "kept", "0")
    s.call(0, later(ONE, right, 7, 56, 96), 17, "")
    s.remark("An elided one against a carried one: in a slot its place holds 0, so this is a clash")
    s.call(0, first(ONE, right, 7, 56, elide=True), "kept", "0")
    s.call(0, first(ONE, right, 7, 56), 11, "")


def udp_with(datagram, word):
    """The datagram with `word` for the first two bytes of its data, which were 0 and 1, and its checksum right again."""
    data = (word + 1).to_bytes(2, "big") + datagram[50:]
    made = f.udp_datagram(datagram[8:24], datagram[24:40], 0xf0b1, 0xf0b2, data)
    assert made[46:48] == b"\xff\xff", made[46:48].hex()
    return made


# ------------------------------------------------------------------------------------------------ 02, item 5: chains

# Short 0001 and short abcd. Words of the two add up to 1fd80 and 2a94c; UDP from port f0b1 to f0b2 brings its length twice,
# f0b1, f0b2 and 11: with no data 68850 in all, so 77a9; with aabb 7330f, so cce9.
S, D = "fe80000000000000000000fffe000001", "fe80000000000000000000fffe00abcd"


def written(s, payload, *rows, contexts=b"", source=ONE):
    """A whole frame, and the datagram that is handed out."""
    s.call(0, from_to(source, CONTROLLER, payload), hexed("".join(rows)), "", contexts=contexts)


def refusals(s, answer, *payloads, contexts=b""):
    for payload in payloads:
        s.call(0, from_to(ONE, CONTROLLER, payload), answer, "", contexts=contexts)


def chain_kinds(s):
    s.remark("02, item 5: hop-by-hop options of 0 to 8 octets, their next header 58 in line, padded to eight: Pad1 for one byte,"
             " PadN for more")
    for count, pad in enumerate(("010400000000", "0103000000", "01020000", "010100", "0100", "00", "", "01050000000000",
                                 "010400000000")):
        octets, units = "b1b2b3b4b5b6b7b8"[:2 * count], count // 7
        written(s, f"7e33e03a{count:02x}{octets}aabb", f"6000000000{10 + 8 * units:02x}0040", S, D, f"3a{units:02x}", octets,
                pad, "aabb")
    s.remark("Destination options (60); routing (43) and mobility (135) as they are; then 58 in line")
    written(s, "7e33e63a0301020399", "6000000000093c40", S, D, "3a00010203010100", "99")
    written(s, "7e33e23a0604000000000099", "6000000000092b40", S, D, "3a00040000000000", "99")
    written(s, "7e33e83a0e0102030405060708090a0b0c0d0e", "6000000000108740", S, D, "3a01", "0102030405060708090a0b0c0d0e")
    s.remark("One behind the other, and UDP: its length is that of the bytes from it to the end")
    written(s, "7e33" "e100" "e7020102" "e90600000000000a" "f712" "aabb", "6000000000220040", S, D, "3c00010400000000",
            "8700010201020000", "1100" "00000000000a", "f0b1f0b2000a", "cce9", "aabb")
    s.remark("The next header in line may be any: 17 with a plain UDP header, whose checksum is copied; 0; 41; 44")
    written(s, "7e33e01100" "f0b1f0b200081234", "6000000000100040", S, D, "1100010400000000", "f0b1f0b200081234")
    for number in ("00", "29", "2c"):
        written(s, f"7e33e0{number}00" "0102", "60000000000a0040", S, D, f"{number}00010400000000", "0102")


def chain_refusals(s):
    s.remark("13: fragment, EID 5 and 6, at their first byte")
    refusals(s, 13, *("7e33" + head for head in ("e4", "e5", "ea", "eb", "ec", "ed", "e43a00", "ec3a00")))
    s.remark("1: an extension header cut short, at each of its bytes")
    refusals(s, 1, "7e33", *("7e33e03a03010203"[:end] for end in range(6, 16, 2)),
             *("7e33e306010203040506"[:end] for end in range(6, 20, 2)), "7e33e3" "06010203040506", "7e33e9fe")
    s.remark("3: routing or mobility of a length that with its first two bytes is no multiple of eight, before its bytes")
    refusals(s, 3, "7e33e300", "7e33e305", "7e33e23a07", "7e33e30701020304050607", "7e33e908", "7e33e83aff", "7e33e9050102030405")
    s.remark("EID 7: 3 with NH set, before what follows; 1 and 2 where no IPHC header follows; its own refusals")
    refusals(s, 3, "7e33ef", "7e33ef41", "7e33ef7a333a", "7e33ee7b343a", "7e33ee7b3c3a01")
    refusals(s, 1, "7e33ee", "7e33ee7a", "7e33ee41", "7e33ee7a33", "7e33ee7e33", "7e33ee7a013a" + "00" * 15)
    refusals(s, 2, "7e33ee4133", "7e33ee7e33d0")
    refusals(s, 5, "7e33ee7a733a", "7e33ee7ab7013a")
    s.remark("Eight headers in all, the outer one counted, UDP not; the ninth is 3 before its EID is judged")
    hops = "e100" * 7
    written(s, "7e33" + "e100" * 6 + "e03a00", "6000000000380040", S, D, "0000010400000000" * 6, "3a00010400000000")
    written(s, "7e33" + hops + "f712", "6000000000400040", S, D, "0000010400000000" * 6, "1100010400000000", "f0b1f0b20008", "77a9")
    refusals(s, 3, *("7e33" + hops + more for more in ("e0", "e03a00", "e300", "e4", "ea", "ed", "ee", "ee7a333a", "ef")))
    refusals(s, 3, "7e33" + "ee7e33" * 7 + "ee7a333a", "7e33" + "e100ee7e33" * 3 + "e100e4")
    refusals(s, 1, "7e33" + hops, "7e33" + hops + "f7")
    refusals(s, 2, "7e33" + hops + "d0", "7e33" + hops + "7a33")
    s.remark("13: an elided checksum behind a routing header, once the UDP header is read (1 first); a carried one is copied")
    routed = "7e33e306000000000000"
    refusals(s, 13, routed + "f712", routed + "e100f712", routed + "f50001f2aabb")
    refusals(s, 1, routed + "f7", routed + "f4000100")
    written(s, routed + "f3121234aa", "6000000000112b40", S, D, "1100000000000000", "f0b1f0b200091234aa")
    s.remark("A mobility header is none; nor is a routing header outside an inner IPv6 header")
    written(s, "7e33e906000000000000f712aabb", "6000000000128740", S, D, "1100000000000000", "f0b1f0b2000acce9aabb")
    written(s, routed + "ee7e33f712aabb", "60000000003a2b40", S, D, "2900000000000000", "60000000000a1140", S, D,
            "f0b1f0b2000acce9aabb")


def tunnels(s):
    group = "ff020000000000000000000000000001"
    context = peer.CONTEXTS[1].hex()
    s.remark("EID 7: another IPHC header. Elided addresses have the last 64 bits of the enclosing IPv6 header's, a group's too")
    written(s, "7e33ee7a333a0102", "60000000002a2940", S, D, "6000000000023a40", S, D, "0102")
    written(s, "7e3b01ee7b333b", "6000000000282940", S, group, "6000000000003bff", S, "fe800000000000000000000000000001")
    written(s, "7e03" "20010db8000000001111222233334444" "ee7a333a", "6000000000282940", "20010db8000000001111222233334444", D,
            "6000000000003a40", "fe800000000000001111222233334444", D)
    s.remark("With a context, with 16, 64 and 128 bits in line, all zeros, and a group")
    written(s, "7e33ee7a73" "3a", "6000000000282940", S, D, "6000000000003a40", peer.CONTEXTS[0].hex(), S[16:], D, contexts=CONTEXTS)
    written(s, "7e33ee7af7" "12" "3a", "6000000000282940", S, D, "6000000000003a40", context, S[16:], peer.CONTEXTS[2].hex(), D[16:],
            contexts=CONTEXTS)
    written(s, "7e33ee7a213a" "7777" "0102030405060708", "6000000000282940", S, D, "6000000000003a40",
            "fe80000000000000000000fffe007777", "fe800000000000000102030405060708")
    written(s, "7e33ee7a403a" "20010db8000000000000000000000001", "6000000000282940", S, D, "6000000000003a40", "00" * 16,
            "20010db8000000000000000000000001")
    written(s, "7e33ee7a393a" "051234560002", "6000000000282940", S, D, "6000000000003a40", S, "ff050000000000000000001234560002")
    s.remark("The enclosing header is the one just outside: the second has 64 bits in line, the third none")
    inner = "fe80000000000000a1a2a3a4a5a6a7a8"
    written(s, "7e33" "ee7e13" "a1a2a3a4a5a6a7a8" "ee7a333a", "6000000000502940", S, D, "6000000000282940", inner, D, "6000000000003a40",
            inner, D)
    s.remark("A UDP checksum has the addresses of the IPv6 header just outside it")
    # 2001, db8 and 1 (or f001) with 2a94c, 8, 11, f0b1, f0b2 and 8: 4b88a, so 4771; 5a88a, so 5770.
    for source, checksum in (("20010db8000000000000000000000001", "4771"), ("20010db800000000000000000000f001", "5770")):
        written(s, f"7e33ee7e03{source}f712", "6000000000302940", S, D, "6000000000081140", source, D, "f0b1f0b20008", checksum)
    s.remark("Traffic class, flow label and hop limit of an inner header are its own")
    written(s, "7e33ee" "6033" "6e0abcde" "3a07", "6000000000282940", S, D, "6b9abcde00003a07", S, D)


def chains_in_parts(s):
    """Payload and UDP lengths are those of the whole datagram; a first part counts as expanded."""
    one, here = f.link_local(ONE), f.link_local(CONTROLLER)
    options, routing = ("ext", f.HOP_BY_HOP, hexed("0102")), ("ext", f.ROUTING, bytes(6))
    inner = ("ip", one, here, {"hop": 255})
    data = bytes(range(100))
    for name, layers, elide in (("hop-by-hop and UDP, the checksum carried", [options], False),
                                ("hop-by-hop and UDP, the checksum elided", [options], True),
                                ("routing, a tunnel, hop-by-hop and UDP, elided", [routing, inner, options], True),
                                ("seven tunnels and UDP, elided", [inner] * 7, True)):
        datagram = f.chained([("ip", one, here, {})] + layers + [("udp", 0xf0b1, 0xf0b2, None)], None, data)
        headers = len(datagram) - len(data)
        for order in ((0, 1, 2), (2, 0, 1), (1, 2, 0)):
            s.remark(f"In parts: {name}")
            parts = [first(ONE, datagram, 7, headers + 16, chain=7, elide=elide), later(ONE, datagram, 7, headers + 16, headers + 64),
                     later(ONE, datagram, 7, headers + 64, len(datagram))]
            s.call(0, parts[order[0]], "kept", "0")
            s.call(1, parts[order[1]], "kept", "0")
            s.call(1, parts[order[1]], "kept", "0")
            s.call(2, parts[order[2]], datagram, "")
    s.remark("10 for a first part counts the padding: 48 bytes of headers, and one of data that ends at size or beyond it")
    s.call(0, from_to(ONE, CONTROLLER, "c0310007" "7e33e03a00" "aa"), hexed("6000000000090040" + S + D + "3a00010400000000" "aa"), "")
    s.call(0, from_to(ONE, CONTROLLER, "c0300007" "7e33e03a00" "aa"), 10, "")
    s.call(0, from_to(ONE, CONTROLLER, "c0320007" "7e33e03a00" "aa"), 10, "")
    s.call(0, from_to(ONE, CONTROLLER, "c0320007" "7e33e03a00"), "kept", "0")
    s.remark("Its expansion's refusals come before 10: size 39")
    for payload, answer in (("7e33e0", 1), ("7e33e305", 3), ("7e33ef", 3), ("7e33ee41", 1), ("7e33ee4100", 2), ("7e33e4", 13),
                            ("7e33" + "e100" * 7 + "e4", 3), ("7e33e306000000000000f712", 13), ("7e33ee7a733a", 5)):
        s.call(0, from_to(ONE, CONTROLLER, "c0270007" + payload), answer, "")


# --------------------------------------------------------------------------------------- 02, item 7: carried checksums

def carried(s):
    s.remark("17: a carried checksum that does not hold, in a whole frame: right; wrong by a bit at every place; 0; ffff")
    right = hexed("60000000000a1140" + S + D + "f0b1f0b2000acce9aabb")
    s.call(0, from_to(ONE, CONTROLLER, "7e33f312cce9aabb"), right, "")
    for bit in range(16):
        s.call(0, from_to(ONE, CONTROLLER, f"7e33f312{0xcce9 ^ 1 << bit:04x}aabb"), 17, "")
    for payload in ("7e33f3120000aabb", "7e33f312ffffaabb", "7e33f312e9ccaabb", "7e33f312cce9aaba", "7e33f312cce92abb", "7e33f313cce9aabb",
                    "7e33f322cce9aabb", "7e33f312cce9aa", "7e33f312cce9aabb00bb", "7e32abcef312cce9aabb"):
        s.call(0, from_to(ONE, CONTROLLER, payload), 17, "")
    s.call(0, from_to(ONE, CONTROLLER, "7e32abcdf312cce9aabb"), right, "")
    s.call(0, from_to(TWO, CONTROLLER, "7e33f312cce9aabb"), 17, "")
    s.remark("A carried 0 never holds: data is chosen so that the sum is ffff, and ffff holds")
    zero = udp(ONE, 50)
    zero = udp_with(zero, int.from_bytes(zero[46:48], "big"))
    s.call(0, f.whole(zero, ONE, CONTROLLER), zero, "")
    s.call(0, f.whole(zero[:46] + b"\0\0" + zero[48:], ONE, CONTROLLER), 17, "")
    s.remark("Odd lengths; a byte of 0 at the end changes the length alone")
    for size in (48, 49, 51, 63, 80):
        datagram = udp(ONE, size, 7)
        s.call(0, f.whole(datagram, ONE, CONTROLLER), datagram, "")
        s.call(0, f.whole(datagram, ONE, CONTROLLER) + b"\0", 17, "")
    s.remark("A UDP header in line is not tested; nor is a carried checksum behind a routing header")
    s.call(0, from_to(ONE, CONTROLLER, "7a3311f0b1f0b2000a0000aabb"), right[:46] + bytes(2) + right[48:], "")
    written(s, "7e33e306000000000000f3120000aabb", "6000000000122b40", S, D, "1100000000000000", "f0b1f0b2000a0000aabb")
    s.remark("Behind other headers and in a tunnel it is; a routing header outside an inner IPv6 header does not count")
    written(s, "7e33e100f312cce9aabb", "6000000000120040", S, D, "1100010400000000", "f0b1f0b2000acce9aabb")
    written(s, "7e33ee7e33f312cce9aabb", "6000000000322940", S, D, "60000000000a1140", S, D, "f0b1f0b2000acce9aabb")
    written(s, "7e33e306000000000000ee7e33f312cce9aabb", "60000000003a2b40", S, D, "2900000000000000", "60000000000a1140", S, D,
            "f0b1f0b2000acce9aabb")
    refusals(s, 17, "7e33e100f312cce8aabb", "7e33ee7e33f312cce8aabb", "7e33e306000000000000ee7e33f312cce8aabb",
             "7e33e906000000000000f312cce8aabb")
    s.remark("17 after all refusals of expansion")
    refusals(s, 1, "7e33f312", "7e33f31200")
    refusals(s, 3, "7e33" + "e100" * 7 + "e0")
    s.remark("In parts: after full cover, and the slot is freed; the other slot stays. Then the datagram once more, right")
    wrong, whole = udp(ONE, 96, checksum=0x1234), udp(ONE, 96)
    other = udp(TWO, 96)
    s.call(0, first(TWO, other, 7, 56), "kept", "0")
    s.call(0, first(ONE, wrong, 7, 56), "kept", "01")
    s.call(1, first(ONE, wrong, 7, 56), "kept", "01")
    s.call(1, later(ONE, wrong, 7, 56, 96), 17, "0")
    s.call(2, later(ONE, wrong, 7, 56, 96), "kept", "01")
    s.call(3, first(ONE, whole, 7, 56), whole, "0")
    s.call(4, later(TWO, other, 7, 56, 96), other, "")
    s.remark("A bit turned in a later part, the last to come or not")
    bent = turned(later(ONE, whole, 7, 56, 96))
    s.call(0, first(ONE, whole, 7, 56), "kept", "0")
    s.call(0, bent, 17, "")
    s.call(0, bent, "kept", "0")
    s.call(0, first(ONE, whole, 7, 56), 17, "")
    s.remark("All of it in one first part: 17 and no slot; 11 comes before it, and 12")
    alone = first(ONE, udp(ONE, 64, checksum=1), 7, 64)
    s.call(0, alone, 17, "")
    s.call(0, later(ONE, udp(ONE, 64), 7, 56, 64), "kept", "0")
    s.call(0, alone, 11, "")
    for tag in (1, 2, 3):
        s.call(0, later(ONE, whole, tag, 56, 96), "kept", "012"[:tag])
    s.call(0, alone, 12, "012")
    s.remark("Whether it is carried is remembered when the part at byte 0 is taken: 0 carried, then elided, is a repeat, and is tested")
    s.call(0, first(ONE, udp(ONE, 96, checksum=0), 7, 56), "kept", "0")
    s.call(0, first(ONE, whole, 7, 56, elide=True), "kept", "0")
    s.call(0, later(ONE, whole, 7, 56, 96), 17, "")
    s.call(0, first(ONE, whole, 7, 56, elide=True), "kept", "0")
    s.call(0, first(ONE, udp(ONE, 96, checksum=0), 7, 56), "kept", "0")
    s.call(0, later(ONE, whole, 7, 56, 96), whole, "")


def hand_made():
    s = Script()
    for line in HEAD:
        s.plain(line, line)
    parts = [gateway_lists, whole_frames, pans, mac_refusals, rooms_and_times, ageing, bad_parts, clashes, slots, keys, checksums,
             chain_kinds, chain_refusals, tunnels, chains_in_parts, carried]
    for part in parts:
        part(s)
    return s


def judge(script, answers):
    """What model.py answered beside what is written here; the number of differences."""
    wrong = 0
    for (line, answer, slots_open), given in zip(script.lines, answers):
        said, _, keys_text = given.partition(" |")
        slots_given = None if slots_open is None else "".join(key.split(":")[0] for key in keys_text.split())
        if said != answer or slots_given != slots_open:
            wrong += 1
            print(f"{line}\n  written here {answer} | {slots_open}\n  model.py     {given}")
    return wrong


# --------------------------------------------------------------------------------------------------------- from tshark

def from_tshark(start):
    """Lines of frames drawn from the seed, the beginning of each one's answer, and how many checksums tshark found wrong."""
    sent, order = peer.send(random.Random(f"vectors {SEED}"), COUNT)
    with tempfile.TemporaryDirectory() as folder:
        path = os.path.join(folder, "frames.pcap")
        peer.pcap(path, peer.IEEE802154_NOFCS, [(i, frame) for i, (_, frame) in enumerate(order)])
        shown = peer.hex_dumps(peer.tshark(path, "-x"))
        elided, good, _ = peer.judge_checksums([(one, one.datagram) for one in sent], folder)
    if len(shown) != len(order):
        sys.exit(f"{len(order)} frames, tshark shows {len(shown)}")
    lines, answers = [TSHARK_PART], [TSHARK_PART]
    for i, (one, frame) in enumerate(order):
        lines.append(f"call {start + i} {frame.hex()} {CONTEXTS.hex()} 16384 2047")
        whole = peer.datagrams_shown(shown[i], one)
        if whole:
            data = one.apart_from_elided(whole[0], one.datagram)
            answers.append(f"out {len(data)} {data.hex()}")
        else:
            answers.append("kept")
    return lines, answers, elided - good


# --------------------------------------------------------------------------------------------------------------- files

def answered(lines):
    over = model.TableLines()
    return [over.answer(line) for line in lines]


def write():
    script = hand_made()
    lines = [line for line, _, _ in script.lines]
    more, expected, wrong = from_tshark(script.time + 200000)
    answers = answered(lines + more)
    wrong += judge(script, answers)
    for line, answer, given in zip(more, expected, answers[len(lines):]):
        if given.partition(" |")[0] != answer:
            wrong += 1
            print(f"{line}\n  tshark   {answer}\n  model.py {given}")
    if wrong:
        sys.exit(f"{wrong} differences; nothing is written")
    for name, text in (("stdin", lines + more), ("stdout", answers)):
        with open(os.path.join(FOLDER, name), "w") as file:
            file.write("\n".join(text) + "\n")
    handed = sum(answer.startswith("out") for answer in expected)
    print(f"{len(lines)} lines by hand, {len(more)} with {handed} datagrams from tshark")


def check():
    """Whether the files are what the sources say, as far as that shows without tshark."""
    script = hand_made()
    with open(os.path.join(FOLDER, "stdin")) as file:
        lines = file.read().split("\n")[:-1]
    with open(os.path.join(FOLDER, "stdout")) as file:
        answers = file.read().split("\n")[:-1]
    wrong = judge(script, answers)
    if lines[:len(script.lines)] != [line for line, _, _ in script.lines] or lines[len(script.lines)] != TSHARK_PART:
        wrong += 1
        print("crates/calls/stdin does not begin with the hand-made lines")
    if answered(lines) != answers:
        wrong += 1
        print("crates/calls/stdout is not what model.py answers")
    print("differs" if wrong else f"{len(lines)} lines of calls as written")
    sys.exit(1 if wrong else 0)


if __name__ == "__main__":
    if sys.argv[1:] not in (["write"], ["check"]):
        sys.exit(__doc__)
    {"write": write, "check": check}[sys.argv[1]]()
