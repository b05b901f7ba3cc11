#!/usr/bin/env python3
"""tshark as a peer of the sender: it puts the frames of the program `cutter` together, and the bytes are compared.

    peer_cut.py [--cutter target/run/cutter] [--step 1] [--kinds 1] [--limits 80,81,100,127] [--sizes 40,2047]

Not part of the gate. It wants tshark (Debian: apt-get install tshark). For every size and limit a datagram is drawn, in one of four kinds in turn
(short or extended addresses, UDP that is compressed or not); with --kinds 4, in each. `cutter` writes its frames, each of which the second
reading (cutting.py) must have too; they go to a pcap file of link type 230, some datagrams' frames in another order, and of each the bytes
that tshark shows must be the datagram. Many datagrams go into one file.
"""

import argparse
import random
import subprocess
import sys
import tempfile

import cutting
import frames as f
import peer

SHORT, EXTENDED = (f.short(0x0001), f.short(0x0203)), (f.extended(0x0011223344556677), f.extended(0xa1a2a3a4a5a6a7a8))
BATCH = 400
# tshark guesses what a frame holds, and some fragments look like other protocols to it.
ALONE = [word for name in ("zbee_nwk", "zbee_nwk_gp", "lwm") for word in ("--disable-protocol", name)]


def datagram(rng, src, dst, size, udp):
    """IPv6 addresses elided, in part and in full; a group where it may be."""
    a = rng.choice((f.link_local(src), f.ip("fe80::ff:fe00:1234"), f.ip("fe80::1:2:3:4"), f.ip("2001:db8::1"), f.ip("::")))
    b = rng.choice((f.link_local(dst), f.ip("fe80::ff:fe00:1234"), f.ip("2001:db8::2"), f.ip("ff02::1"), f.ip("ff05::12:3456"), f.ip("ff0e::1:2:3")))
    hop = rng.choice((1, 2, 64, 255))
    if udp and size >= 48:
        ports = (rng.choice((0xf0b1, 0xf0c2, 0x1234)) for _ in range(2))
        return f.udp_datagram(a, b, *ports, rng.randbytes(size - 48), hop=hop)
    return f.datagram(a, b, 59, rng.randbytes(size - 40), hop)


def sent(program, jobs):
    """The frames that the program writes for each job, compared with the second reading."""
    lines, expected = [], []
    for pan, src, dst, sequence, tag, limit, packet in jobs:
        made = cutting.cut(pan, src, dst, sequence, tag, limit, packet)
        head = f"{pan:04x} {cutting.text_of(src)} {cutting.text_of(dst)} {sequence:02x} {tag:04x} {limit}"
        lines += [f"frames {head} {packet.hex()}"] + [f"cut {head} {k} 127 {packet.hex()}" for k in range(len(made) + 1)]
        expected.append(made)
    done = subprocess.run([program], input="\n".join(lines).encode() + b"\n", stdout=subprocess.PIPE, check=True)
    answers = iter(done.stdout.decode().split("\n"))
    for made in expected:
        if next(answers) != f"ok {len(made)}":
            sys.exit("another number of frames than in the second reading")
        for frame in made:
            word, length, room = next(answers).split(" ")
            if bytes.fromhex(room)[:int(length)] != frame:
                sys.exit(f"another frame than in the second reading: {room}")
        if next(answers) != "no 10":
            sys.exit("a frame past the last")
    return expected


def compare(rng, program, jobs):
    order = []
    for made in sent(program, jobs):
        made = made[::-1] if rng.random() < 0.25 else rng.sample(made, len(made)) if rng.random() < 0.25 else made
        order += made
    with tempfile.NamedTemporaryFile(suffix=".pcap") as file:
        peer.pcap(file.name, peer.IEEE802154_NOFCS, list(enumerate(order)))
        text = peer.tshark(file.name, "-Y", "6lowpan.reassembled.length or not 6lowpan.frag.tag", "-x", *ALONE)
    shown = peer.hex_dumps(text)
    if len(shown) != len(jobs):
        sys.exit(f"{len(jobs)} datagrams sent, {len(shown)} shown")
    for job, pieces in zip(jobs, shown):
        found = [bytes(data) for name, data in pieces if name.startswith("Reassembled")]
        found = found or [bytes(data) for name, data in pieces if name.startswith("Decompressed")][:1]
        if found != [job[-1]]:
            sys.exit(f"tshark shows another datagram:\n  sent {job[-1].hex()}\n  shown {[one.hex() for one in found]}")
    return len(order)


def main():
    parser = argparse.ArgumentParser(description=__doc__.split("\n")[0])
    parser.add_argument("--cutter", default="target/run/cutter")
    parser.add_argument("--step", type=int, default=1)
    parser.add_argument("--kinds", type=int, default=1)
    parser.add_argument("--limits", default="80,81,100,127")
    parser.add_argument("--sizes", default="40,2047")
    parser.add_argument("--seed", type=int, default=1)
    options = parser.parse_args()
    rng = random.Random(options.seed)
    low, high = map(int, options.sizes.split(","))
    jobs, count, frames, kinds = [], 0, 0, {}
    for number, limit in enumerate(map(int, options.limits.split(","))):
        for size in range(low, high + 1, options.step):
            for turn in range(options.kinds):
                kind = (size // options.step + number + turn) % 4
                src, dst = EXTENDED if kind % 2 else SHORT
                packet = datagram(rng, src, dst, size, kind >= 2)
                jobs.append((0xabcd, src, dst, rng.randrange(256), count % 65536, limit, packet))
                count += 1
                name = f"{'extended' if kind % 2 else 'short'} {'udp' if kind >= 2 else 'plain'}"
                kinds[name] = kinds.get(name, 0) + 1
    for begin in range(0, count, BATCH):
        frames += compare(rng, options.cutter, jobs[begin:begin + BATCH])
        print(f"{min(begin + BATCH, count)} of {count}", end="\r", file=sys.stderr)
    print(f"peer_cut: {count} datagrams in {frames} frames, all as sent ({', '.join(f'{n} {name}' for name, n in sorted(kinds.items()))})")


if __name__ == "__main__":
    main()
