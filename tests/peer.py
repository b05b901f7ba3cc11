"""Compares the receiver with tshark. Started by `peer`, which README.md describes.

Frames of random datagrams are written as a pcap file of link type 230 (IEEE 802.15.4 without frame check). tshark
decompresses and puts together what it finds there; ours, the program `calls` or else model.py, takes the same frames. Each
datagram that ours hands out is compared byte by byte with the bytes that tshark shows for the same frame, and with the
datagram that was cut; half of them have chains of extension headers and headers within headers. Then all datagrams with
an elided checksum are written as a pcap file of plain IPv6, and tshark judges the checksums that ours computed; and it
judges carried ones, right and bent, where ours answers 17 or not.
"""

import argparse
import os
import random
import re
import struct
import subprocess
import sys
import tempfile

import frames as f
import model
import scenes

GATEWAYS = [f.short(1), f.short(0x0203), f.extended(0x0011223344556677), f.extended(0x020000fffe001234)]
DESTINATIONS = [f.BROADCAST, f.short(0xabcd), f.extended(0xa1a2a3a4a5a6a7a8)]
CONTEXTS = [f.ip("2001:db8:1:2::")[:8], f.ip("fd00:aaaa:bbbb:cccc::")[:8], f.ip("2001:db8:ffff:1::")[:8]]
WORLD = scenes.World(GATEWAYS, [f.short(9)], DESTINATIONS, CONTEXTS)
IEEE802154_NOFCS, IPV6 = 230, 229
CALLS = os.path.join(os.path.dirname(os.path.abspath(__file__)), "..", "target", "run", "calls")


def pcap(path, link_type, packets):
    with open(path, "wb") as file:
        file.write(struct.pack("<IHHiIII", 0xa1b2c3d4, 2, 4, 0, 0, 65535, link_type))
        for i, (time, data) in enumerate(packets):
            file.write(struct.pack("<IIII", time // 1000, time % 1000 * 1000, len(data), len(data)) + data)


def tshark(path, *arguments):
    command = ["tshark", "-n", "-r", path]
    for i, prefix in enumerate(CONTEXTS):
        text = ":".join(prefix[j:j + 2].hex() for j in range(0, 8, 2))
        command += ["-o", f"6lowpan.context{i}:{text}::/64"]
    done = subprocess.run(command + list(arguments), stdout=subprocess.PIPE, stderr=subprocess.PIPE)
    if done.returncode != 0:
        sys.exit("tshark: " + done.stderr.decode())
    return done.stdout.decode()


def hex_dumps(text):
    """For each packet of `tshark -x` its pieces: (name, bytes). A packet of one piece has no name."""
    packets, pieces, data = [], [], None
    for line in text.split("\n"):
        title = re.fullmatch(r"(.*) \((\d+) bytes\):", line)
        if title:
            data = bytearray()
            pieces.append((title.group(1), data))
        elif re.match(r"[0-9a-f]{4,}  ", line):
            if data is None:
                data = bytearray()
                pieces.append(("Frame", data))
            data += bytes.fromhex(line.split("  ")[1])
        elif line == "" and pieces:
            packets.append(pieces)
            pieces, data = [], None
    return packets


def left_out(packet, headers):
    """What tshark decompresses otherwise: an inner destination elided against a group's address, where it takes one from
    further outside; and bytes behind an extension header whose next header is 59 (none), which it drops."""
    tunnels = [at for number, at, _ in headers if number == f.TUNNELED]
    group = any(packet[a + 24] == 0xff and packet[a + 32:a + 40] == packet[b + 32:b + 40] and packet[b + 24] != 0xff
                for a, b in zip(tunnels, tunnels[1:]))
    number, at, end = headers[-1]
    return group or (number in f.EID and packet[at] == 59 and len(packet) > end)


def with_right_sum(packet, headers):
    """The datagram with the right checksum in the UDP header that is compressed."""
    number, at, _ = headers[-1]
    if number != f.UDP:
        return packet
    ip = [place for number, place, _ in headers if number == f.TUNNELED][-1]
    right = f.udp_checksum(packet[ip + 8:ip + 24], packet[ip + 24:ip + 40], packet[at:at + 6] + b"\0\0" + packet[at + 8:])
    return packet[:at + 6] + struct.pack(">H", right) + packet[at + 8:]


class Sent:
    """A datagram, the frames that carry it, and where in it an elided checksum stands (None where none is)."""

    def __init__(self, rng, tag, chains=0.5):
        src, dst = rng.choice(GATEWAYS), rng.choice(DESTINATIONS)
        chained = rng.random() < chains
        k = scenes.chain_knobs(rng, WORLD)
        if chained:
            k["careless"] = False
            most = rng.choice((20, 40, 400, 1500))
            size = 0
            while size == 0 or left_out(self.datagram, headers):
                self.datagram = scenes.chain_packet(rng, WORLD, src, dst, k, most, 80)
                size, headers = len(self.datagram), f.headers_of(self.datagram, k["chain"], k["nhc"])
        else:
            k["chain"] = 0
            size = rng.choice((40, 41, 48, 49, 2047, rng.randrange(40, 120), rng.randrange(120, 700), rng.randrange(40, 2048)))
            self.datagram = scenes.packet(rng, WORLD, src, dst, size)
            headers = f.headers_of(self.datagram, 0, k["nhc"])
        # The sender may elide only a right checksum, and a carried one that is wrong is refused.
        self.datagram = with_right_sum(self.datagram, headers)
        compressed, covered = f.compress(self.datagram, src, dst, **k)
        number, at, _ = headers[-1]
        numbers = [number for number, _, _ in headers]
        routed = f.ROUTING in numbers[len(numbers) - numbers[::-1].index(f.TUNNELED):]
        self.place = at + 6 if number == f.UDP and k["elide"] and not routed else None
        version, compress_pan = rng.choice((0, 1, 2)), rng.random() < 0.8
        if not any(f.pans_in(src, dst, version, compress_pan)):
            compress_pan = False                # the gateways are listed under a PAN

        def head(sequence):
            return f.mac(src, dst, sequence, version=version, compress=compress_pan)
        room = 125 - len(head(0))
        if len(compressed) + len(self.datagram) - covered <= room and rng.random() < 0.8:
            self.frames = [head(0) + compressed + self.datagram[covered:]]
            self.kind = "whole"
        else:
            parts = f.cut(self.datagram, tag, src, dst, room, step=rng.choice((None, None, 48, 64, 8 if size < 200 else 80)), **k)
            self.frames = [head(i) + part.payload for i, part in enumerate(parts)]
            self.kind = "plain parts"
            if number == f.UDP:
                self.kind = f"{'carried' if self.place is None else 'elided'} parts"
            if rng.random() < 0.5:
                rng.shuffle(self.frames)
        if len(headers) > 1 and numbers[1] != f.UDP:
            self.kind += " with a tunnel" if numbers.count(f.TUNNELED) > 1 else " with a chain"
        self.src = src

    def apart_from_elided(self, packet, other):
        """The packet with the bytes of an elided checksum from another one, or as they are."""
        return packet if self.place is None else packet[:self.place] + other[self.place:self.place + 2] + packet[self.place + 2:]


def send(rng, count):
    """Frames of `count` datagrams, each with its own tag, two gateways at a time woven together."""
    sent, order = [], []
    for i in range(0, count, 2):
        one, other = Sent(rng, i), Sent(rng, i + 1)
        while other.src == one.src:
            other = Sent(rng, i + 1)
        sent += [one, other]
        order += scenes.interleave(rng, [[(one, frame) for frame in one.frames], [(other, frame) for frame in other.frames]])
    return sent, order


def datagrams_shown(pieces, one):
    """The datagram that tshark shows for a frame, if the frame completes one."""
    whole = [bytes(data) for name, data in pieces if name.startswith("Reassembled")]
    if not whole and one.kind.startswith("whole"):
        # Headers within headers: the outermost comes last.
        whole = [bytes(data) for name, data in pieces if name.startswith("Decompressed")][-1:]
    return whole


def by_program(program, order):
    """What the program `calls` answers to each frame: the datagram that it hands out, or the words."""
    lines = ["gateways " + " ".join(model.sender_text((one, f.PAN)) for one in GATEWAYS)]
    lines += [f"call {i} {frame.hex()} {b''.join(CONTEXTS).hex()} 16384 2047" for i, (_, frame) in enumerate(order)]
    done = subprocess.run([program], input="\n".join(lines).encode() + b"\n", stdout=subprocess.PIPE, check=True)
    answers = [line.split(" |")[0] for line in done.stdout.decode().split("\n")[:-1]]
    if len(answers) != len(lines) or answers[0] != "ok":
        sys.exit(f"{program}: {len(lines)} lines, {len(answers)} answers")
    return [bytes.fromhex(text.split(" ")[2]) if text.startswith("out ") else text for text in answers[1:]]


def by_model(order):
    """The same of model.py."""
    table = model.Table([(one, f.PAN) for one in GATEWAYS])
    mem, out = bytearray(model.LENT_BYTES), bytearray(model.OUTPUT_BYTES)
    answers = []
    for i, (_, frame) in enumerate(order):
        answer = table.call(i, frame, b"".join(CONTEXTS), mem, out)
        answers.append(bytes(out[:answer[1]]) if answer[0] == "out" else " ".join(str(word) for word in answer))
    return answers


def compare(sent, order, shown, answers):
    """What ours hands out against tshark's bytes for the same frame, and against what was sent."""
    handed, wrong, tally = [], 0, {}
    for i, (one, frame) in enumerate(order):
        ours = answers[i]
        whole = datagrams_shown(shown[i], one)
        if isinstance(ours, str):
            if ours != "kept" or whole:
                wrong += 1
                print(f"frame {i} ({one.kind}): ours {ours}, tshark {len(whole)} datagrams; {frame.hex()}")
            continue
        handed.append((one, ours))
        tally[one.kind] = tally.get(one.kind, 0) + 1
        theirs = whole[0] if whole else b""
        # tshark writes ffff where the checksum is elided.
        if one.apart_from_elided(ours, b"\xff" * 2048) != theirs or ours != one.datagram:
            wrong += 1
            print(f"frame {i} ({one.kind}): {frame.hex()}\n  sent   {one.datagram.hex()}\n  ours   {ours.hex()}\n"
                  f"  tshark {theirs.hex()}")
    if len(handed) != len(sent):
        wrong += 1
        print(f"{len(sent)} datagrams sent, {len(handed)} handed out")
    return handed, wrong, tally


def judge_checksums(handed, folder):
    """tshark's own judgement of the checksums that ours computed, and of the same ones with a bit turned."""
    path = os.path.join(folder, "checksums.pcap")
    right = [(one.place, ours) for one, ours in handed if one.place is not None]
    turned = [ours[:place + 1] + bytes([ours[place + 1] ^ 1]) + ours[place + 2:] for place, ours in right]
    verdicts = judgements(path, [ours for _, ours in right] + turned)
    seen = [i for i in range(len(right)) if verdicts[i] and verdicts[len(right) + i]]
    return len(seen), sum(verdicts[i] == "right" for i in seen), sum(verdicts[len(right) + i] == "right" for i in seen)


def judgements(path, packets):
    """tshark's judgement of the checksum of each IPv6 datagram: "right", "wrong", or "" where it reads no UDP header."""
    pcap(path, IPV6, list(enumerate(packets)))
    lines = tshark(path, "-o", "udp.check_checksum:TRUE", "-T", "fields", "-e", "udp.checksum.status").split("\n")[:-1]
    words = {"": "", "1": "right", "Good": "right"}
    return [words.get(line.split(",")[0], "wrong") for line in lines]


def judge_carried(rng, program, count, folder):
    """Carried checksums, right and bent, in whole frames: whether ours answers 17 where tshark finds the checksum of the
    datagram wrong. Behind a routing header ours tests none, and tshark is not asked. How many tshark judged, how many of
    them it found wrong, and in how many ours differs."""
    order, packets = [], []
    while len(order) < count:
        src, dst = rng.choice(GATEWAYS), rng.choice(DESTINATIONS)
        k = scenes.chain_knobs(rng, WORLD)
        k.update(nhc=True, elide=False, chain=7)
        made = scenes.packet(rng, WORLD, src, dst, rng.randrange(48, 100), udp=True)
        if rng.random() < 0.5:
            made = scenes.chain_packet(rng, WORLD, src, dst, k, 40, 90, udp=True)
        headers = f.headers_of(made, 7, True)
        number, at, _ = headers[-1]
        numbers = [number for number, _, _ in headers]
        if number != f.UDP or f.ROUTING in numbers[len(numbers) - numbers[::-1].index(f.TUNNELED):]:
            continue
        if rng.random() < 0.3 and at == 40:
            made = scenes.edge_sum(rng, made, at)
        elif rng.random() < 0.5:
            made = scenes.bent(rng, made, at)
        frame = f.whole(made, src, dst, **k)
        if len(frame) <= 125 and f.headers_of(made, 7, True) == headers:
            order.append((None, frame))
            packets.append(made)
    verdicts = judgements(os.path.join(folder, "carried.pcap"), packets)
    answers = by_program(program, order) if program else by_model(order)
    differ = 0
    for verdict, made, answer in zip(verdicts, packets, answers):
        if verdict and answer != (made if verdict == "right" else "no 17"):
            differ += 1
            print(f"tshark finds the checksum {verdict}, ours {answer}: {made.hex()}")
    return len([v for v in verdicts if v]), verdicts.count("wrong"), differ


def main():
    parser = argparse.ArgumentParser(description="the receiver against tshark")
    parser.add_argument("--table", default=CALLS if os.path.exists(CALLS) else "", help="the program calls; '' for model.py")
    parser.add_argument("--count", type=int, default=400)
    parser.add_argument("--seed", type=int, default=1)
    parser.add_argument("--sums", type=int, default=3000, help="how many carried checksums, right and bent")
    given = parser.parse_args()
    rng = random.Random(f"peer {given.seed}")
    sent, order = send(rng, given.count)
    with tempfile.TemporaryDirectory() as folder:
        path = os.path.join(folder, "frames.pcap")
        pcap(path, IEEE802154_NOFCS, [(i, frame) for i, (_, frame) in enumerate(order)])
        shown = hex_dumps(tshark(path, "-x"))
        if len(shown) != len(order):
            sys.exit(f"{len(order)} frames, tshark shows {len(shown)}")
        answers = by_program(given.table, order) if given.table else by_model(order)
        handed, wrong, tally = compare(sent, order, shown, answers)
        elided, good, turned = judge_checksums(handed, folder)
        judged, bad, differ = judge_carried(rng, given.table, given.sums, folder)
    kinds = ", ".join(f"{count} {kind}" for kind, count in sorted(tally.items()))
    who = "the program calls" if given.table else "model.py"
    print(f"{who}: {len(order)} frames, {len(handed)} datagrams ({kinds}): {wrong} differ from tshark")
    print(f"{elided} computed checksums: tshark finds {good} right; with a bit turned it finds {turned} right")
    print(f"{judged} carried checksums: tshark finds {bad} wrong; ours differs in {differ}")
    sys.exit(1 if wrong or good != elided or turned or differ else 0)


if __name__ == "__main__":
    main()
