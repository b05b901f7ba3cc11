#!/usr/bin/env python3
"""Writes the examples: for each a text of frames, the capture that make-capture makes of it, and the lines model.py says.

    examples.py write     writes them
    examples.py check     makes them anew and compares; where target/run/heard is built, has it read them too
"""

import os
import random
import subprocess
import sys

import frames as f
import model

TOP = os.path.join(os.path.dirname(os.path.abspath(__file__)), "..")
FOLDER = os.path.join(TOP, "examples")
HEARD = os.path.join(TOP, "target", "run", "heard")
CALLS = os.path.join(TOP, "target", "run", "calls")

CONTROLLER = f.short(0xabcd)
LAST_MONTH, THIS_MONTH, NEIGHBOUR = f.short(1), f.short(2), f.short(0x1234)


def patch_block(source, words, size, **others):
    """A block of a patch: a UDP datagram of `size` bytes from port f0b1 to port f0b2 between link-local addresses."""
    rng = random.Random(words)
    data = words.encode() + rng.randbytes(size - 48 - len(words))
    return f.udp_datagram(f.link_local(source), f.link_local(CONTROLLER), 0xf0b1, 0xf0b2, data, **others)


def line(time, frame, remark=""):
    return f"{time} {frame.hex()}" + (f"  # {remark}" if remark else "")


def patch():
    lines = ["# One gateway (short address 0001) sends a patch block, a datagram of 1,300 bytes in twenty frames.",
             "# The checksum is left out by the sender; the receiver computes it."]
    datagram = patch_block(LAST_MONTH, "PATCH 2026-10 block 3 of 40\n", 1300)
    for i, frame in enumerate(f.frames(datagram, 0x0007, LAST_MONTH, CONTROLLER, limit=80, elide=True)):
        lines.append(line(1000 + 12 * i, frame))
    return lines


def two_gateways():
    lines = ["# Two gateways in one shaft: 0001 still sends last month's block, 0002 sends this month's.",
             "# Both have 400 bytes, and both gateways chose the tag 0007."]
    old = patch_block(LAST_MONTH, "PATCH 2026-10 block 3 of 40\n", 400)
    new = patch_block(THIS_MONTH, "PATCH 2026-11 block 3 of 40\n", 400)
    old_frames = f.frames(old, 7, LAST_MONTH, CONTROLLER, limit=80)
    new_frames = f.frames(new, 7, THIS_MONTH, CONTROLLER, limit=80)
    time = 1000
    for i in range(len(old_frames)):
        # Not always in turn, and the third and fourth part of this month's block change places.
        j = {2: 3, 3: 2}.get(i, i)
        pair = [line(time, old_frames[i], "last month's"), line(time + 5, new_frames[j], "this month's")]
        lines += pair
        time += 12
    return lines


HERE, THERE = 0xabcd, 0x1234


def buildings():
    """The blocks of two gateways that have one short address in two PANs."""
    return {HERE: patch_block(LAST_MONTH, "PATCH 2026-10 block 3 of 40\n", 400),
            THERE: patch_block(LAST_MONTH, "PATCH 2026-11 block 3 of 40\n", 400)}


def two_buildings():
    lines = ["# Two buildings, one short address: 0001 in PAN abcd still sends last month's block, 0001 in PAN 1234",
             "# this month's.",
             "# Both have 400 bytes, and both gateways chose the tag 0007."]
    sent = {pan: f.frames(block, 7, LAST_MONTH, CONTROLLER, limit=80, pan=pan) for pan, block in buildings().items()}
    for i in range(len(sent[HERE])):
        # Not always in turn, and the third and fourth part of this month's block change places.
        j = {2: 3, 3: 2}.get(i, i)
        lines.append(line(1000 + 12 * i, sent[HERE][i], "last month's, in PAN abcd"))
        lines.append(line(1005 + 12 * i, sent[THERE][j], "this month's, in PAN 1234"))
    return lines


def damaged():
    lines = ["# What a receiver refuses, and a capture that is damaged at its end."]
    datagram = patch_block(LAST_MONTH, "PATCH 2026-10 block 4 of 40\n", 136)
    first, second, third = f.frames(datagram, 8, LAST_MONTH, CONTROLLER, first_end=56, step=40)
    mac = f.mac(LAST_MONTH, CONTROLLER)
    other = second[:-1] + bytes([second[-1] ^ 1])
    small = patch_block(THIS_MONTH, "hello", 60)
    bent = small[:50] + bytes([small[50] ^ 0x20]) + small[51:]
    secured = f.mac(THIS_MONTH, CONTROLLER, 9, version=1, security=bytes.fromhex("0d0100000001"))
    lines += [
        line(1000, first, "the first part: bytes 0 to 55"),
        line(1010, second, "the second: bytes 56 to 95"),
        line(1015, second, "the second again, the same: a repeat"),
        line(1020, f.whole(small, NEIGHBOUR, CONTROLLER), "from 1234, which is no gateway"),
        line(1025, secured + bytes(20), "a secured frame"),
        line(1030, other, "the second part with another last byte: a clash, and its slot is freed"),
        line(1040, third, "the third: bytes 96 to 135; it opens a slot anew"),
        line(1050, mac + f.fragn(136, 8, 7) + datagram[56:66], "ten bytes that do not end the datagram"),
        line(1060, first[:8], "a frame that was cut short"),
        line(1055, first, "a time before the last one"),
        line(1070, first, "the first part again"),
        line(1080, second, "the second part again: now the datagram is whole"),
        line(1090, f.whole(small, THIS_MONTH, CONTROLLER), "a datagram in one frame"),
        line(1095, f.whole(bent, THIS_MONTH, CONTROLLER), "the same with a bit of its data turned: its checksum does not hold"),
        line(1100, mac + b"\x41" + small, "IPv6 that is not compressed"),
        "block",
        line(1110, f.whole(small, THIS_MONTH, CONTROLLER), "a good frame, but the frame check of its block is wrong"),
        "spoil",
        "block",
        line(1120, f.whole(small, THIS_MONTH, CONTROLLER), "a good block that is no longer read"),
    ]
    return lines


def witness():
    """The two runs of crates/promises/proofs/Witness.antt, with the bytes that stand in proofs/Worked.antt there."""

    def frame(source, sequence, rest):
        return bytes.fromhex(f"4188{sequence:02x}cdabffff{source:02x}00" + rest)

    def first(source, checksum):
        return frame(source, 0, "c04000077e33f312" + checksum + b"PATCH 20".hex())

    def later(source, month):
        return frame(source, 1, "e040000707" + f"26-1{month} 03".encode().hex())

    elided = frame(1, 0, "c04000077e33f712" + b"PATCH 20".hex())
    return [
        "# The runs that show that the theorem demand-3 says something, as frames: the same tag and size, 64 bytes.",
        line(1000, later(1, 0), "last month's, from 0001: its second part comes first"),
        line(1005, first(2, "43c6"), "this month's, from 0002"),
        line(1012, first(1, "44c7"), "last month's"),
        line(1017, later(2, 1), "this month's"),
        line(100000, elided, "this month's from 0001, the checksum elided"),
        line(100010, elided, "the same part again"),
        line(159999, later(1, 1), "59,999 ms after the first"),
    ]


def relay():
    """A shaft of over forty floors: the relay 0077 hands on what the gateway 0001 sends, and the controller hears some parts from
    the gateway itself and some from the relay."""
    datagram = patch_block(LAST_MONTH, "PATCH 2026-10 block 5 of 40\n", 136)
    payloads = [part.payload for part in f.cut(datagram, 9, LAST_MONTH, CONTROLLER, 80, first_end=56, step=40)]
    bare = f.mac(LAST_MONTH, CONTROLLER)
    hop = f.mac(f.short(0x77), CONTROLLER)
    long_hop = f.mac(f.extended(0x0011223344556677), CONTROLLER, None, version=2)
    mesh = f.mesh(LAST_MONTH, CONTROLLER, 3)
    flooded = f.mesh(THIS_MONTH, f.BROADCAST, 20) + f.broadcast(0x2a)
    small = patch_block(THIS_MONTH, "hello", 60)
    return [
        "# A relay in a tall shaft: mesh and broadcast headers in front of ours.",
        line(1000, bare + payloads[0], "the first part, heard from the gateway 0001 itself"),
        line(1010, hop + mesh + payloads[1], "the second, from the relay 0077: the originator is 0001, three hops are left"),
        line(1015, bare + payloads[1], "the second again, from the gateway: the same part, a repeat"),
        line(1020, hop + payloads[2], "the third from the relay, but with no mesh header: 0077 is no gateway"),
        line(1025, hop + f.mesh(NEIGHBOUR, CONTROLLER, 3) + payloads[2], "from 1234 by the relay: 1234 is no gateway either"),
        line(1030, hop + mesh + mesh + payloads[2], "two mesh headers"),
        line(1035, hop + mesh[:3], "a mesh header that is cut"),
        line(1040, long_hop + mesh + payloads[2], "the third, by a relay with an extended address and no sequence number: whole"),
        line(1050, hop + flooded + f.compress(small, THIS_MONTH, f.BROADCAST)[0] + small[48:],
             "from 0002 to all, flooded: 20 hops left in a byte of their own, and a broadcast header"),
        line(1060, hop + flooded + f.broadcast(0x2a) + b"\x7a", "two broadcast headers"),
    ]


SERVER = f.ip("2001:db8::5e")
RPL = bytes.fromhex("6304001e0203")        # RFC 6553: the RPL option, instance 1e, rank 0203


def routed():
    """The datagrams of `chain`: one that a router has marked with a hop-by-hop option, and one that came from a server far
    away, in an IPv6 header from the gateway to the controller and with that option."""
    gateway, controller = f.link_local(LAST_MONTH), f.link_local(CONTROLLER)
    option = ("ext", f.HOP_BY_HOP, RPL)
    alert = bytes.fromhex("05020001")      # RFC 2711: the router alert option
    small = f.chained([("ip", gateway, controller, {}), ("ext", f.HOP_BY_HOP, alert),
                       ("udp", 0xf0b1, 0xf0b2, None)], None, b"doors of floor 12 are shut")
    words = "PATCH 2026-11 block 6 of 40\n"
    data = words.encode() + random.Random(words).randbytes(400 - 96 - len(words))
    block = f.chained([("ip", gateway, controller, {}), option, ("ip", SERVER, controller, {"hop": 61}),
                       ("udp", 0xf0b1, 0xf0b2, None)], None, data)
    return small, block


def chain():
    """A building whose routers mark datagrams with hop-by-hop options, and tunnel what comes from outside."""
    small, block = routed()
    mac = f.mac(LAST_MONTH, CONTROLLER)
    parts = f.frames(block, 0x0011, LAST_MONTH, CONTROLLER, limit=100, chain=7, elide=True)
    hops = f.extension_nhc(0, b"")
    outer = bytes.fromhex("7e33")
    return [
        "# Extension headers: a datagram with a hop-by-hop option in one frame, and one in a tunnel, in parts.",
        line(1000, f.whole(small, LAST_MONTH, CONTROLLER, chain=7), "a hop-by-hop option of four octets, then UDP"),
        line(1010, parts[0], "a tunnel: IPv6, hop-by-hop, IPv6 from 2001:db8::5e, UDP without its checksum; the first part"),
        line(1020, parts[2], "the third part"),
        line(1025, parts[1], "the second"),
        line(1030, mac + outer + f.extension_nhc(2, bytes(6)) + b"\xf7\x12", "a fragment header in a chain: not expanded"),
        line(1035, mac + outer + f.extension_nhc(1, bytes(6)) + b"\xf7\x12",
             "no checksum, and a routing header before it: the last destination is not known"),
        line(1040, mac + outer + 7 * hops + b"\xf7\x12", "eight headers and UDP"),
        line(1045, mac + outer + 8 * hops + b"\xf7\x12", "nine headers"),
        line(1050, mac + outer + f.extension_nhc(1, bytes(5)) + b"\xf7\x12", "a routing header of seven octets"),
    ] + [line(1060 + 10 * i, part, "the rest of the tunnelled block") for i, part in enumerate(parts[3:])]


EXAMPLES = {"patch": patch, "two-gateways": two_gateways, "two-buildings": two_buildings, "damaged": damaged, "witness": witness,
            "relay": relay, "chain": chain}


def printed(capture):
    """What the program prints of a capture; None where it is not built."""
    if not os.path.exists(HEARD):
        return None
    return subprocess.run([HEARD], input=capture, stdout=subprocess.PIPE, check=True).stdout


def both_come_out():
    """To a table of both gateways each building's block comes out, to the byte: the model's answers, and those of `calls`
    where it is built."""
    calls = [["call", *line.split()[:2], "-", "16384", "2047"] for line in two_buildings() if line[0] != "#"]
    text = "\n".join(["gateways s0001@abcd s0001@1234"] + [" ".join(call) for call in calls]) + "\n"
    wanted = [f"out {len(block)} {block.hex()}" for block in buildings().values()]
    for program in [[CALLS]] * os.path.exists(CALLS) + [[sys.executable, model.__file__, "table"]]:
        answers = subprocess.run(program, input=text, stdout=subprocess.PIPE, check=True, text=True).stdout.splitlines()
        told = [answer.partition(" |")[0] for answer in answers]
        if told != ["ok"] + ["kept"] * (len(calls) - 2) + wanted:
            print(f"{program[-1]}: the blocks of two-buildings do not come out as they were sent")
            return 1
    return 0


def tunnelled_comes_out():
    """What comes out of `chain` is what was sent, to the byte."""
    text = "\n".join(["gateways s0001@abcd"] + [f"call {' '.join(line.split()[:2])} - 16384 2047" for line in chain() if line[0] != "#"])
    for program in [[CALLS]] * os.path.exists(CALLS) + [[sys.executable, model.__file__, "table"]]:
        told = subprocess.run(program, input=text + "\n", stdout=subprocess.PIPE, check=True, text=True).stdout
        for datagram in routed():
            if f"\nout {len(datagram)} {datagram.hex()} |" not in told:
                print(f"{program[-1]}: a datagram of chain does not come out as it was sent")
                return 1
    return 0


def main(arguments):
    if arguments not in (["write"], ["check"]):
        sys.exit(__doc__)
    wrong = both_come_out() + tunnelled_comes_out()
    for name, make in EXAMPLES.items():
        text = "\n".join(make()) + "\n"
        capture = subprocess.run([os.path.join(FOLDER, "make-capture")], input=text.encode(), stdout=subprocess.PIPE,
                                 check=True).stdout
        expected = "\n".join(model.heard(capture)) + "\n"
        if printed(capture) not in (None, expected.encode()):
            print(f"heard prints other lines for {name}.cap than model.py")
            wrong = 1
        for ending, data in ((".txt", text.encode()), (".cap", capture), (".expected", expected.encode())):
            path = os.path.join(FOLDER, name + ending)
            if arguments == ["write"]:
                with open(path, "wb") as file:
                    file.write(data)
            else:
                with open(path, "rb") as file:
                    if file.read() != data:
                        print(f"{name}{ending} is not what examples.py writes")
                        wrong = 1
    if not wrong:
        read = ", and heard prints their lines" if os.path.exists(HEARD) else ""
        print("written" if arguments == ["write"] else f"{len(EXAMPLES)} examples as written{read}")
    sys.exit(1 if wrong else 0)


if __name__ == "__main__":
    main(sys.argv[1:])
