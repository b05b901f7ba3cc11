#!/usr/bin/env python3
"""Looks for the shortest compressed header by trying all of them (02, item 10), through the program `replay`.

    shortest.py [--replay target/run/replay] [--count 3000] [--seed 1]

For each header (two IPv6 addresses, next header, hop limit, two link-layer addresses) every one of the 8,192 first words
of IPHC is tried, with the inline bytes that its fields force: those of the header's own addresses, next header and hop
limit, a zero where a context identifier, traffic class or flow label is asked for. `replay` reads each with no contexts.
Of those that it reads as the same addresses, next header and hop limit, the shortest must be as long as `least` says:
what `replay` writes for that header, less two for each side that is the exception of 02.

Headers are chosen at both sides of every boundary (`chosen_addresses`), and drawn, from a seed.
Then the wrong statements of WRONG are held against the same headers, and each must fail on one of them.
"""

import argparse
import itertools
import random
import subprocess
import sys
from collections import Counter, namedtuple

# Addresses are numbers of 128 bits, link-layer addresses the text that `replay` takes; next is None where it is compressed.
Header = namedtuple("Header", "src dst next hop link_src link_dst")

LINK_LOCAL = 0xfe80 << 112
SHORT_IID = 0x000000fffe000000
BATCH = 12                 # headers to a start of the program


def identifier(link):
    """RFC 6282 3.2.2: the identifier of an extended address, its universal/local bit turned; else None."""
    return int(link[1:], 16) ^ 1 << 57 if link[0] == "e" else None


def excepted(address, link):
    """02: "each address in fe80::/64 whose last eight bytes are 000000fffe00 and two more, and equal the identifier of
    that side's extended address"."""
    iid = address % 2 ** 64
    return address >> 64 == LINK_LOCAL >> 64 and iid >> 16 == 0x000000fffe00 and iid == identifier(link)


def exceptions(h):
    return excepted(h.src, h.link_src) + excepted(h.dst, h.link_dst)


# -------------------------------------------------------------------------------------------------- headers to try

LINKS = ["n", "a", "s0000", "s1234", "sabcd", "sffff", "e0011223344556677", "e020000fffe001234", "e020000fffe00ffff",
         "e020000fffe010000", "e020000fffdffffff", "e000000fffe001234", "e0000000000000000", "effffffffffffffff"]


def chosen_addresses(link):
    """Both sides of every boundary that an address mode has, against this link-layer address."""
    iids = [0, 1, SHORT_IID - 1, SHORT_IID, SHORT_IID + 0x1234, SHORT_IID + 0x1235, SHORT_IID + 0xffff, SHORT_IID + 0x10000,
            0x020000fffe001234, 0x0211223344556677]
    if link[0] == "s":
        iids += [SHORT_IID + int(link[1:], 16), (SHORT_IID + int(link[1:], 16)) ^ 1 << 40]
    if link[0] == "e":
        iids += [identifier(link), identifier(link) ^ 1, int(link[1:], 16)]
    found = [0, 1, 1 << 64]
    for prefix in (LINK_LOCAL, LINK_LOCAL + (1 << 64), 0xfe81 << 112, 0xfec0 << 112, 0x20010db8 << 96):
        found += [prefix + i for i in iids]
    for first in (0xff02, 0xff05, 0xff00, 0xffff, 0xfe02):
        for low in (0, 1, 0xff, 0x100, 0xffffff, 0x1000000, 0xffffffffff, 0x10000000000, 2 ** 64 - 1, 1 << 64, 1 << 111):
            found.append((first << 112) + low)
    return found


HOPS = [0, 1, 2, 63, 64, 65, 254, 255]
NEXTS = [None, 0, 17, 58, 255]

# the exception of each kind (01's trap), and what is nearly one
TRAP, TRAP_LINK = LINK_LOCAL + SHORT_IID + 0x1234, "e020000fffe001234"
FIRST = [Header(a, b, 58, 64, la, lb)
         for a, la in ((TRAP, TRAP_LINK), (TRAP, "s1234"), (TRAP + (1 << 64), TRAP_LINK), (TRAP + 1, TRAP_LINK), (0, TRAP_LINK))
         for b, lb in ((TRAP, TRAP_LINK), (TRAP, "s1234"), (TRAP, "e000000fffe001234"), ((0xff05 << 112) + 2 ** 24, "n"))]


def drawn(rng):
    link_src, link_dst = rng.choice(LINKS), rng.choice(LINKS)
    if rng.random() < 0.3:
        link_src = "e%016x" % rng.getrandbits(64)
    if rng.random() < 0.2:
        link_dst = "e020000fffe00%04x" % rng.getrandbits(16)
    if rng.random() < 0.2:
        link_src = "s%04x" % rng.getrandbits(16)

    def address(link):
        if rng.random() < 0.1:
            return rng.getrandbits(128)
        if rng.random() < 0.3 and link[0] == "e":
            return LINK_LOCAL + identifier(link)
        return rng.choice(chosen_addresses(link))

    return Header(address(link_src), address(link_dst), rng.choice(NEXTS), rng.choice(HOPS + [rng.randrange(256)]),
                  link_src, link_dst)


def headers(count, seed):
    """Those of FIRST, every chosen address on either side against its link-layer address, and drawn ones: as many as are
    asked for, in this order."""
    rng = random.Random(seed)
    hops, nexts = itertools.cycle(HOPS), itertools.cycle(NEXTS)
    each = []
    for link in LINKS:
        for a in chosen_addresses(link):
            each.append((a, link))
    other = each[:]
    rng.shuffle(other)
    chosen = [Header(a, b, next(nexts), next(hops), la, lb) for (a, la), (b, lb) in zip(each, other)]
    rng.shuffle(chosen)
    found = (FIRST + chosen)[:count]
    while len(found) < count:
        found.append(drawn(rng))
    return found


# ------------------------------------------------------------------------------------------------- all first words

def inline_source(a, sac, sam):
    return (f"{a:032x}" if sac == 0 else "", f"{a % 2 ** 64:016x}", f"{a % 2 ** 16:04x}", "")[sam]


def inline_destination(a, m, dam):
    scope = a >> 112 & 0xff
    if m:
        return (f"{a:032x}", f"{scope:02x}{a % 2 ** 40:010x}", f"{scope:02x}{a % 2 ** 24:06x}", f"{a % 2 ** 8:02x}")[dam]
    return (f"{a:032x}", f"{a % 2 ** 64:016x}", f"{a % 2 ** 16:04x}", "")[dam]


def lines(h):
    """What is written for the header, and then the 8,192 first words with what they force."""
    following = "c" if h.next is None else f"{h.next:02x}"
    yield (f"iphc.emit {h.src:032x} {h.dst:032x} {following} {h.hop:02x} - - - {h.link_src} {h.link_dst} =")
    tail = f" {h.link_src} {h.link_dst} -"
    seconds = []
    for b in range(256):
        cid, sac, sam, m, dam = b >> 7, b >> 6 & 1, b >> 4 & 3, b >> 3 & 1, b & 3
        seconds.append((f"{b:02x}" + "00" * cid, inline_source(h.src, sac, sam) + inline_destination(h.dst, m, dam) + tail))
    for b in range(0b01100000, 0b10000000):
        tf, nh, hlim = b >> 3 & 3, b >> 2 & 1, b & 3
        front = "00" * (4, 3, 1, 0)[tf] + ("" if nh else f"{h.next or 0:02x}") + (f"{h.hop:02x}" if hlim == 0 else "")
        first = f"iphc.parse {b:02x}"
        for second, behind in seconds:
            yield first + second + front + behind


def ask(program, batch):
    """For each header: the length that is written, and the least length that reads as the same, or None."""
    text = "\n".join(line for h in batch for line in lines(h)) + "\n"
    done = subprocess.run([program], input=text, capture_output=True, text=True)
    answers = done.stdout.split("\n")
    if done.returncode != 0 or len(answers) != 8193 * len(batch) + 1:
        sys.exit(f"{program}: status {done.returncode}, {len(answers) - 1} answers to {8193 * len(batch)} lines")
    for k, h in enumerate(batch):
        mine = answers[8193 * k:8193 * (k + 1)]
        same = f"{h.src:032x} {h.dst:032x} {'c' if h.next is None else '%02x' % h.next} {h.hop:02x} "
        written = mine[0].split()
        if written[0] != "ok":
            sys.exit(f"{program}: {mine[0]!r} to {next(lines(h))!r}")
        lengths = []
        for a in mine[1:]:
            if a.startswith("ok "):
                n, rest = a[3:].split(" ", 1)
                if rest.startswith(same):
                    lengths.append(int(n))
        yield int(written[1]), min(lengths, default=None), len(lengths)


# ----------------------------------------------------------------------------------------------------- statements

def least(h, ours):
    return ours - 2 * exceptions(h)


def in_48_bits(a):
    return a >> 120 == 0xff and a >> 64 & 2 ** 48 - 1 == 0 and 2 ** 24 <= a % 2 ** 64 < 2 ** 40


# what would be said of other emitters, or with other exceptions
WRONG = {
    "the exception left out": lambda h, ours: ours,
    "the exception on the source side alone": lambda h, ours: ours - 2 * excepted(h.src, h.link_src),
    "the exception on the destination side alone": lambda h, ours: ours - 2 * excepted(h.dst, h.link_dst),
    "both sides together cost two": lambda h, ours: ours - 2 * (exceptions(h) > 0),
    "an exception outside fe80::/64": lambda h, ours: ours - 2 * (excepted(LINK_LOCAL + h.src % 2 ** 64, h.link_src)
                                                                 + excepted(LINK_LOCAL + h.dst % 2 ** 64, h.link_dst)),
    "a hop limit of 64 carried inline": lambda h, ours: least(h, ours + (h.hop == 64)),
    "a hop limit of 1 carried inline": lambda h, ours: least(h, ours + (h.hop == 1)),
    "the 48-bit multicast form never used": lambda h, ours: least(h, ours + 10 * in_48_bits(h.dst)),
    "the unspecified source in full": lambda h, ours: least(h, ours + 16 * (h.src == 0)),
}


def main():
    parser = argparse.ArgumentParser(description=__doc__, formatter_class=argparse.RawDescriptionHelpFormatter)
    parser.add_argument("--replay", default="target/run/replay", metavar="PROGRAM")
    parser.add_argument("--count", type=int, default=3000, help="headers")
    parser.add_argument("--seed", type=int, default=1)
    args = parser.parse_args()
    tried = headers(args.count, args.seed)
    kinds, counted, noticed, bad = Counter(), 0, set(), 0
    for at in range(0, len(tried), BATCH):
        batch = tried[at:at + BATCH]
        for h, (ours, found, same) in zip(batch, ask(args.replay, batch)):
            kinds[excepted(h.src, h.link_src), excepted(h.dst, h.link_dst)] += 1
            counted += same
            if found != least(h, ours):
                bad += 1
                if bad <= 10:
                    print(f"least {least(h, ours)}, found {found}: {next(lines(h))}")
            noticed.update(name for name, said in WRONG.items() if said(h, ours) != found)
    unseen = [k for k in itertools.product((False, True), repeat=2) if not kinds[k]]
    missed = [name for name in WRONG if name not in noticed]
    for name in missed:
        print(f"not noticed: {name}")
    for k in unseen:
        print(f"no header with the exception at the source {k[0]} and at the destination {k[1]}")
    print(f"shortest: {len(tried)} headers, {8192 * len(tried)} byte strings, {counted} read as the same; the exception at "
          f"the source {kinds[True, False]}, the destination {kinds[False, True]}, both {kinds[True, True]}; "
          f"{bad} differ from the least; {len(noticed)} of {len(WRONG)} wrong statements noticed")
    return 1 if bad or missed or unseen else 0


if __name__ == "__main__":
    sys.exit(main())
