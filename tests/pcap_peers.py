#!/usr/bin/env python3
"""Holds `to_pcap` and `from_pcap` against Wireshark's programs and Scapy. Wants tshark and python3-scapy (Debian's packages).

    pcap_peers.py --to PATH --from PATH [--count 1000] [--seed 1] [--batch 250]

There: `to_pcap` on the example captures and on drawn ones. Scapy reads each file, and so does mergecap, which puts a batch into one file
that tshark shows: every frame, its time and its two lengths must be those of the capture. Scapy writes the same frames as pcap: the
very bytes. Back: what editcap and tshark make of each batch's first files, and what Scapy writes, must come back as the blocks; and
what is not our pcap must be refused with its number. README.md says what must be set in the peers.
"""

import argparse
import os
import random
import re
import subprocess
import sys
import tempfile

from scapy.utils import PcapWriter, RawPcapReader

import captures
import model
import pcap

EXAMPLES = os.path.join(os.path.dirname(os.path.abspath(__file__)), "..", "examples")


def run(words, data=None):
    return subprocess.run(words, input=data, capture_output=True)


def frames_of(capture):
    return [frame for n in range(len(capture) // 512) for frame in model.read_block(capture[512 * n:512 * (n + 1)], n)]


def written(path, frames, linktype=230, snaplen=127, endianness="<", nano=False, more=0):
    """What Scapy writes."""
    writer = PcapWriter(path, linktype=linktype, endianness=endianness, nano=nano, snaplen=snaplen)
    writer.write_header(b"")
    for time, frame in frames:
        writer.write_packet(frame, sec=time // 1000, usec=time % 1000 * (1000000 if nano else 1000) + more, caplen=len(frame), wirelen=len(frame))
    writer.close()
    return open(path, "rb").read()


def scapy_reads(path):
    reader = RawPcapReader(path)
    assert reader.linktype == 230, reader.linktype
    return [(meta.sec * 1000000 + meta.usec, meta.caplen, meta.wirelen, data) for data, meta in reader]


def tshark_reads(path):
    lines = run(["tshark", "-r", path, "-T", "fields", "-e", "frame.time_epoch", "-e", "frame.cap_len", "-e", "frame.len"]).stdout.decode().split("\n")
    raw = re.findall(r'"frame_raw": \[\s*"([0-9a-f]*)"', run(["tshark", "-r", path, "-T", "jsonraw", "-j", "frame"]).stdout.decode())
    assert len(raw) == len(lines) - 1, (len(raw), len(lines))
    told = []
    for line, data in zip(lines, raw):
        time, kept, length = line.split("\t")
        seconds, fraction = time.split(".")
        told.append((int(seconds) * 1000000 + int((fraction + "000000000")[:9]) // 1000, int(kept), int(length), bytes.fromhex(data)))
    return told


def same(what, told, frames):
    wanted = [(time * 1000, len(frame), len(frame), bytes(frame)) for time, frame in frames]
    if told != wanted:
        first = next((i for i, (a, b) in enumerate(zip(told, wanted)) if a != b), min(len(told), len(wanted)))
        sys.exit(f"{what}: {len(told)} frames for {len(wanted)}, other from {first} on: {told[first:first + 1]} for {wanted[first:first + 1]}")


def drawn(rng):
    """A good capture of up to 60 frames, in blocks of any fill."""
    frames = [pcap.draw_frame(rng) for _ in range(rng.choice((0, 1, 2, 3, 4, 6, 7, rng.randrange(60))))]
    return captures.encode(captures.blocks_of(rng, frames))


def there(to, back, batch, folder):
    """A batch of captures; how many frames they hold."""
    paths, frames = [], []
    for i, capture in enumerate(batch):
        path, own = os.path.join(folder, f"{i}.pcap"), frames_of(capture)
        made = run([to], capture)
        assert not made.stderr, made.stderr
        open(path, "wb").write(made.stdout)
        same("Scapy", scapy_reads(path), own)
        assert written(os.path.join(folder, "scapy"), own) == made.stdout, "Scapy writes other bytes"
        came = run([back], made.stdout)
        assert not came.stderr and came.stdout == pcap.blocks(own), came.stderr
        if own:
            paths.append(path)
            frames += own
        for words in (["editcap", "-F", "pcap", path, path + ".e"], ["tshark", "-r", path, "-F", "pcap", "-w", path + ".e"])[:(i < 10) + (i < 3)]:
            run(words)
            came = run([back], open(path + ".e", "rb").read()) if own else None
            assert not own or not came.stderr and came.stdout == pcap.blocks(own), (words, came.stderr)
    merged = os.path.join(folder, "merged")
    run(["mergecap", "-a", "-F", "pcap", "-w", merged, *paths])
    same("tshark", tshark_reads(merged), frames)
    return len(frames)


def refused(back, data, number):
    came = run([back], data)
    if came.stdout or came.stderr.split(b" at ")[0].strip() != b"no %d" % number:
        sys.exit(f"{came.stderr!r} for no {number}")


def others(to, back, folder):
    """What the peers write that is not our pcap."""
    frames = [(5, b"\x41\x88\x05"), (1007, b"")]
    path, out = os.path.join(folder, "o"), os.path.join(folder, "p")
    ours = written(path, frames)
    assert run([back], ours).stdout == pcap.blocks(frames)
    refused(back, written(out, frames, nano=True), 2)
    refused(back, written(out, frames, endianness=">"), 2)
    for linktype in (195, 215, 1):
        refused(back, written(out, frames, linktype=linktype), 3)
    refused(back, written(out, frames, snaplen=65535), 3)
    refused(back, written(out, frames, more=1), 18)
    for words, number in ((["-F", "nsecpcap"], 2), (["-F", "pcapng"], 2), (["-F", "pcap", "-T", "wpan"], 3), (["-F", "pcap", "-T", "ether"], 3),
                          (["-F", "pcap", "-t", "0.0005"], 18), (["-F", "pcap", "-C", "1", "-L"], 0), (["-F", "pcap", "-C", "1"], 4)):
        run(["editcap", *words, path, out])
        data = open(out, "rb").read()
        if number:
            refused(back, data, number)
        else:
            assert not run([back], data).stderr


def main():
    parser = argparse.ArgumentParser(description=__doc__, formatter_class=argparse.RawDescriptionHelpFormatter)
    parser.add_argument("--to", required=True)
    parser.add_argument("--from", dest="back", required=True)
    parser.add_argument("--count", type=int, default=1000)
    parser.add_argument("--batch", type=int, default=250)
    parser.add_argument("--seed", default="1")
    given = parser.parse_args()
    with tempfile.TemporaryDirectory() as folder:
        others(given.to, given.back, folder)
        good = [open(os.path.join(EXAMPLES, f"{name}.cap"), "rb").read() for name in ("patch", "two-gateways", "witness")]
        frames = there(given.to, given.back, good, folder)
        print(f"pcap peers: what is not our pcap is refused; {len(good)} examples, {frames} frames", flush=True)
        frames = done = 0
        while done < given.count:
            many = min(given.batch, given.count - done)
            frames += there(given.to, given.back, [drawn(random.Random(f"peer {given.seed} {done + i}")) for i in range(many)], folder)
            done += many
            print(f"pcap peers: {done} drawn captures, {frames} frames, all alike", flush=True)


if __name__ == "__main__":
    main()
