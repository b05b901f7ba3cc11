"""Builds IEEE 802.15.4 frames from IPv6 datagrams, from the standards: the MAC header of IEEE 802.15.4 (7.2), the
fragment headers of RFC 4944 5.3, IPHC, extension header NHC and UDP NHC of RFC 6282. It shares nothing with model.py, so
that a datagram that comes back whole says something about both.

A link-layer address is its bytes, most significant first: 2 for a short one, 8 for an extended one, none for absent.
An IPv6 address is its 16 bytes. Every knob has the value a usual sender would choose.

    frames.py check     the marked examples of document 01 that a sender can show
"""

import ipaddress
import struct
import sys

PAN = 0xabcd
BROADCAST = bytes.fromhex("ffff")
LIMIT = 125                # 127 less the frame check, which is stripped here


def short(number):
    return struct.pack(">H", number)


def extended(number):
    return struct.pack(">Q", number)


class Station(bytes):
    """An address under a PAN: a number, or None for a station whose frames carry none."""

    def __new__(cls, address, pan=PAN):
        station = super().__new__(cls, address)
        station.pan = pan
        return station

    def named(self):
        return bytes(self), self.pan


def ip(text):
    return ipaddress.IPv6Address(text).packed


# ---------------------------------------------------------------------------------------------------------- datagrams

def iid(link):
    """The interface identifier of a link-layer address (RFC 6282 3.2.2, RFC 4291 appendix A); of the IPv6 address of an
    enclosing header, its last 64 bits."""
    if len(link) == 16:
        return link[8:]
    if len(link) == 8:
        return bytes([link[0] ^ 0x02]) + link[1:]
    return bytes.fromhex("000000fffe00") + link


def link_local(link):
    return ip("fe80::")[:8] + iid(link)


def datagram(src, dst, next_header, payload, hop=64, traffic_class=0, flow=0):
    """RFC 8200 3."""
    head = struct.pack(">IHBB", 6 << 28 | traffic_class << 20 | flow, len(payload), next_header, hop)
    return head + src + dst + payload


def plain_sum(data):
    """The sum of 16-bit words, the last one filled up with a zero, carries and all."""
    return sum(int.from_bytes(data[i:i + 2].ljust(2, b"\0"), "big") for i in range(0, len(data), 2))


def udp_checksum(src, dst, udp):
    """RFC 768 and RFC 8200 8.1: a number is its own sum of digits modulo the base less one, so the one's complement
    sum of 16-bit words is the remainder by 65,535."""
    data = src + dst + struct.pack(">II", len(udp), 17) + udp
    if len(data) % 2:
        data += b"\0"
    return 0xffff - int.from_bytes(data, "big") % 0xffff or 0xffff


def udp_datagram(src, dst, src_port, dst_port, data, checksum=None, **others):
    """A datagram with a UDP header; its checksum is the right one unless another is given."""
    length = 8 + len(data)
    if checksum is None:
        checksum = udp_checksum(src, dst, struct.pack(">HHHH", src_port, dst_port, length, 0) + data)
    return datagram(src, dst, 17, struct.pack(">HHHH", src_port, dst_port, length, checksum) + data, **others)


# RFC 8200 4.1 and RFC 6275: numbers of next headers, and which of them are options headers.
HOP_BY_HOP, UDP, TUNNELED, ROUTING, DESTINATION, MOBILITY = 0, 17, 41, 43, 60, 135
OPTIONS = (HOP_BY_HOP, DESTINATION)
# RFC 8200 4.2: the one option that fills up 0 to 7 bytes.
PADS = [bytes.fromhex(text) for text in ("", "00", "0100", "010100", "01020000", "0103000000", "010400000000",
                                         "01050000000000")]


def extension(number, next_header, content):
    """An extension header in full; one of options is padded, another must come out at a multiple of eight octets."""
    if number in OPTIONS:
        content = content + PADS[-(2 + len(content)) % 8]
    units, rest = divmod(2 + len(content), 8)
    if rest or not units:
        raise ValueError("no multiple of eight octets")
    return bytes([next_header, units - 1]) + content


def chained(layers, next_header, payload):
    """A datagram from its layers, the outermost first, with a payload of this next header behind them. A layer is
    ("ip", src, dst, others), ("ext", number, content) or ("udp", src_port, dst_port, checksum), with None for the right
    checksum: that of the bytes from it to the end, with the addresses of the IPv6 header just outside."""
    for at in range(len(layers) - 1, -1, -1):
        kind, *fields = layers[at]
        if kind == "ip":
            src, dst, others = fields
            next_header, payload = TUNNELED, datagram(src, dst, next_header, payload, **others)
        elif kind == "ext":
            number, content = fields
            next_header, payload = number, extension(number, next_header, content) + payload
        else:
            src_port, dst_port, checksum = fields
            _, src, dst, _ = [layer for layer in layers[:at] if layer[0] == "ip"][-1]
            head = struct.pack(">HHH", src_port, dst_port, 8 + len(payload))
            if checksum is None:
                checksum = udp_checksum(src, dst, head + b"\0\0" + payload)
            next_header, payload = UDP, head + struct.pack(">H", checksum) + payload
    return payload


# --------------------------------------------------------------------------------------------------------- MAC header

def pans_in(src, dst, version, compress):
    """Whether a frame carries a destination's and a source's PAN. Table 7-2 of IEEE 802.15.4 says which go with version
    2; before it each address has its PAN, the source's left out by compression."""
    has_dst, has_src = len(dst) > 0, len(src) > 0
    if version < 2:
        return has_dst, has_src and not (has_dst and compress)
    row = (len(dst) // 4 + has_dst, len(src) // 4 + has_src)       # 0 absent, 1 short, 3 extended
    return {
        (0, 0): ((False, False), (True, False)),
        (1, 0): ((True, False), (False, False)), (3, 0): ((True, False), (False, False)),
        (0, 1): ((False, True), (False, False)), (0, 3): ((False, True), (False, False)),
        (3, 3): ((True, False), (False, False)),
        (1, 1): ((True, True), (True, False)),
        (1, 3): ((True, True), (True, False)),
        (3, 1): ((True, True), (True, False)),
    }[row][bool(compress)]


def mac(src, dst, sequence=0, pan=None, src_pan=None, version=0, compress=True, frame_type=1, security=None,
        pending=False, ack=False, elements=False):
    """A MAC header. `security` is an auxiliary security header (its bytes), or None. The PAN is the source's own where
    none is given. A sequence number of None is suppressed (7.2.2.7): bit 8, and no byte. `elements` sets bit 9
    (7.2.2.8)."""
    modes = {0: 0, 2: 2, 8: 3}
    if pan is None:
        pan = getattr(src, "pan", None)
    if pan is None:
        pan = PAN
    if src_pan is None:
        src_pan = pan
    dst_pan_in, src_pan_in = pans_in(src, dst, version, compress)
    control = frame_type | (security is not None) << 3 | pending << 4 | ack << 5 | bool(compress) << 6
    control |= modes[len(dst)] << 10 | version << 12 | modes[len(src)] << 14
    control |= (sequence is None) << 8 | bool(elements) << 9
    header = struct.pack("<H", control)
    if sequence is not None:
        header += bytes([sequence & 0xff])
    if dst_pan_in:
        header += struct.pack("<H", pan)
    header += dst[::-1]
    if src_pan_in:
        header += struct.pack("<H", src_pan)
    header += src[::-1]
    return header + (security or b"")


# ------------------------------------------------------------------------------------------------- relays' headers

def mesh(origin, final, hops, deep=None):
    """RFC 4944 5.2: 1 0, V, F, hops left; then originator and final address, V or F set for a short one. Hops left of 15
    or more stand in a byte of their own behind 1111 (`deep`: others too)."""
    deep = hops >= 15 if deep is None else deep
    first = 0x80 | (len(origin) == 2) << 5 | (len(final) == 2) << 4 | (15 if deep else hops)
    return bytes([first]) + (bytes([hops]) if deep else b"") + origin + final


def broadcast(number):
    """RFC 4944 11.1: LOWPAN_BC0, 01 010000, and a sequence number."""
    return bytes([0b01010000, number])


# --------------------------------------------------------------------------------------------------------------- IPHC

def unicast_forms(address, link, contexts, source):
    """All the ways RFC 6282 3.1.1 has to write a unicast address: (AC, context, AM, inline bytes), longest first."""
    forms = [(0, 0, 0, address)]
    if source and address == bytes(16):
        forms.append((1, 0, 0, b""))
    prefixes = [(0, 0, ip("fe80::")[:8])] + [(1, i, c) for i, c in enumerate(contexts[:16])]
    for ac, number, prefix in prefixes:
        if address[:8] != prefix:
            continue
        forms.append((ac, number, 1, address[8:]))
        if address[8:14] == bytes.fromhex("000000fffe00"):
            forms.append((ac, number, 2, address[14:]))
        if link and address[8:] == iid(link):
            forms.append((ac, number, 3, b""))
    return forms


def multicast_forms(address):
    forms = [(0, 0, 0, address)]
    if not any(address[2:11]):
        forms.append((0, 0, 1, address[1:2] + address[11:]))
    if not any(address[2:13]):
        forms.append((0, 0, 2, address[1:2] + address[13:]))
    if address[1] == 2 and not any(address[2:15]):
        forms.append((0, 0, 3, address[15:]))
    return forms


def shortest(forms):
    return min(forms, key=lambda form: (len(form[3]) + (form[1] > 0), form[0]))


def traffic_forms(traffic_class, flow, padding=0):
    """TF values that can carry this traffic class and flow label: (TF, inline bytes), longest first. In line ECN comes
    before DSCP (RFC 6282 3.2.1); of the bits of padding TF=00 has four and TF=01 the low two."""
    ecn, dscp = traffic_class & 3, traffic_class >> 2
    forms = [(0, struct.pack(">I", ecn << 30 | dscp << 24 | padding << 20 | flow))]
    if dscp == 0:
        forms.append((1, struct.pack(">I", ecn << 22 | (padding & 3) << 20 | flow)[1:]))
    if flow == 0:
        forms.append((2, bytes([ecn << 6 | dscp])))
    if traffic_class == 0 and flow == 0:
        forms.append((3, b""))
    return forms


def iphc(packet, link_src, link_dst, contexts=(), compressed_next=False, choose=shortest, inline_hop=False,
         inline_traffic=False, force_context_byte=False, padding=0):
    """The IPHC header of a datagram. `choose` picks among the forms of an address."""
    word, _, next_header, hop = struct.unpack(">IHBB", packet[:8])
    src, dst = packet[8:24], packet[24:40]
    forms = traffic_forms(word >> 20 & 0xff, word & 0xfffff, padding)
    tf, traffic = forms[0] if inline_traffic else forms[-1]
    hlim = 0 if inline_hop else {1: 1, 64: 2, 255: 3}.get(hop, 0)
    sac, src_context, sam, src_inline = choose(unicast_forms(src, link_src, contexts, True))
    multicast = dst[0] == 0xff
    if multicast:
        dac, dst_context, dam, dst_inline = choose(multicast_forms(dst))
    else:
        dac, dst_context, dam, dst_inline = choose(unicast_forms(dst, link_dst, contexts, False))
    cid = src_context > 0 or dst_context > 0 or force_context_byte
    base = 0b011 << 13 | tf << 11 | compressed_next << 10 | hlim << 8
    base |= cid << 7 | sac << 6 | sam << 4 | multicast << 3 | dac << 2 | dam
    header = struct.pack(">H", base)
    if cid:
        header += bytes([src_context << 4 | dst_context])
    header += traffic
    if not compressed_next:
        header += bytes([next_header])
    if hlim == 0:
        header += bytes([hop])
    return header + src_inline + dst_inline


def udp_nhc(src_port, dst_port, checksum, plain_ports=False):
    """RFC 6282 4.3; a checksum of None is elided."""
    c = 0 if checksum is not None else 4
    if plain_ports:
        nhc = struct.pack(">BHH", 0xf0 | c, src_port, dst_port)
    elif src_port >> 4 == 0xf0b and dst_port >> 4 == 0xf0b:
        nhc = bytes([0xf3 | c, (src_port & 15) << 4 | dst_port & 15])
    elif src_port >> 8 == 0xf0:
        nhc = struct.pack(">BBH", 0xf2 | c, src_port & 0xff, dst_port)
    elif dst_port >> 8 == 0xf0:
        nhc = struct.pack(">BHB", 0xf1 | c, src_port, dst_port & 0xff)
    else:
        nhc = struct.pack(">BHH", 0xf0 | c, src_port, dst_port)
    return nhc if checksum is None else nhc + struct.pack(">H", checksum)


EID = {HOP_BY_HOP: 0, ROUTING: 1, DESTINATION: 3, MOBILITY: 4}


def extension_nhc(eid, content, next_header=None, length=None):
    """RFC 6282 4.2: 1110, EID, NH; the next header unless it is compressed (None); how many octets follow; these."""
    head = bytes([0xe0 | eid << 1 | (next_header is None)])
    if next_header is not None:
        head += bytes([next_header])
    return head + bytes([len(content) if length is None else length]) + content


def last_pad(body):
    """The length of the last option, if these are options (RFC 8200 4.2) and the last one is a pad; else 0."""
    at = length = 0
    while at < len(body):
        length = 1 if body[at] == 0 else 2 + body[at + 1] if at + 1 < len(body) else len(body) + 1
        at += length
    return length if at == len(body) and length < 8 and body.endswith(PADS[length]) else 0


def options_forms(body):
    """What may stand for the options behind the first two bytes of a header: first without the pad at their end, as a
    sender would write it; then without any bytes at their end that come back by themselves; then all of them."""
    ends = ([last_pad(body)] if last_pad(body) else []) + [n for n in range(7, 0, -1) if body.endswith(PADS[n])]
    return [body[:len(body) - n] for n in ends] + [body]


def headers_of(packet, chain, nhc):
    """The headers of a datagram that can be compressed, as (number, place, end): at most `chain` behind the outer one,
    and a UDP header. Each must be whole, and an inner IPv6 or UDP header say the length that is there."""
    found, number, at = [(TUNNELED, 0, 40)], packet[6], 40
    while True:
        size, left = 0, len(packet) - at
        if number == UDP and nhc and left >= 8 and int.from_bytes(packet[at + 4:at + 6], "big") == left:
            return found + [(UDP, at, at + 8)]
        if len(found) > chain:
            return found
        if number == TUNNELED and left >= 40 and packet[at] >> 4 == 6 \
                and int.from_bytes(packet[at + 4:at + 6], "big") == left - 40:
            size, following = 40, packet[at + 6]
        elif number in EID and left >= 8:
            size, following = 8 * packet[at + 1] + 8, packet[at]
        if size == 0 or size > min(left, 256):
            return found
        found.append((number, at, at + size))
        number, at = following, at + size


def compress(packet, link_src, link_dst, nhc=True, elide=False, plain_ports=False, chain=0, pads=0, careless=False,
             **knobs):
    """The compressed headers of a datagram and how many of its bytes they stand for. A UDP header can be compressed only
    if its length is that of the payload (RFC 6282 4.3.1). At most `chain` headers between the outer one and it are
    compressed; `pads` picks among the forms of options, 0 the usual one. Behind a routing header no checksum is elided,
    unless the sender is `careless`."""
    plan = headers_of(packet, chain, nhc)
    around, written, routed = (link_src, link_dst), b"", False
    for i, (number, at, end) in enumerate(plan):
        compressed_next = i + 1 < len(plan)
        if number == TUNNELED:
            written += b"\xee" if i else b""
            written += iphc(packet[at:], *around, compressed_next=compressed_next, **knobs)
            around, routed = (packet[at + 8:at + 24], packet[at + 24:at + 40]), False
        elif number == UDP:
            src_port, dst_port, _, checksum = struct.unpack(">HHHH", packet[at:end])
            written += udp_nhc(src_port, dst_port, None if elide and (careless or not routed) else checksum, plain_ports)
        else:
            body = packet[at + 2:end]
            forms = options_forms(body) if number in OPTIONS else [body]
            written += extension_nhc(EID[number], forms[pads % len(forms)], None if compressed_next else packet[at])
            routed = routed or number == ROUTING
    return written, plan[-1][2]


# ------------------------------------------------------------------------------------------------------------- frames

def frag1(size, tag):
    """RFC 4944 5.3; the size is masked to its 11 bits."""
    return struct.pack(">HH", 0b11000 << 11 | size & 0x7ff, tag)


def fragn(size, tag, unit):
    return struct.pack(">HHB", 0b11100 << 11 | size & 0x7ff, tag, unit)


class Part:
    """A part of a datagram: where it begins and ends there, and what follows the MAC header."""

    def __init__(self, begin, end, payload):
        self.begin, self.end, self.payload = begin, end, payload

    def __repr__(self):
        return f"Part({self.begin}, {self.end}, {self.payload.hex()})"


def later_part(packet, tag, begin, end, size=None):
    size = len(packet) if size is None else size
    return Part(begin, end, fragn(size, tag, begin // 8) + packet[begin:end])


def first_part(packet, tag, end, link_src, link_dst, size=None, **knobs):
    header, covered = compress(packet, link_src, link_dst, **knobs)
    size = len(packet) if size is None else size
    return Part(0, max(end, covered), frag1(size, tag) + header + packet[covered:end])


def cut(packet, tag, link_src, link_dst, room, first_end=None, step=None, **knobs):
    """A cutting into parts whose payloads have at most `room` bytes: each as long as fits, or `step` bytes (a multiple
    of 8) after a first part that ends at `first_end`."""
    header, covered = compress(packet, link_src, link_dst, **knobs)
    size = len(packet)
    if first_end is None:
        first_end = covered + room - 4 - len(header)
    if first_end < size:
        first_end -= first_end % 8
    if first_end < min(covered, size):
        raise ValueError("the headers do not fit")
    first_end = min(first_end, size)
    parts = [first_part(packet, tag, first_end, link_src, link_dst, **knobs)]
    most = (room - 5) // 8 * 8
    step = most if step is None else min(step, most)
    begin = first_end
    while begin < size:
        end = min(begin + step, size)
        parts.append(later_part(packet, tag, begin, end))
        begin = end
    return parts


def whole(packet, src, dst, header=None, **knobs):
    """One frame with the whole datagram."""
    compressed, covered = compress(packet, src, dst, **knobs)
    return (mac(src, dst) if header is None else header) + compressed + packet[covered:]


def frames(packet, tag, src, dst, limit=LIMIT, sequence=0, pan=None, version=0, compress_pan=True, first_end=None,
           step=None, **knobs):
    """The frames of a datagram cut into parts."""
    length = len(mac(src, dst, sequence, pan, version=version, compress=compress_pan))
    parts = cut(packet, tag, src, dst, limit - length, first_end, step, **knobs)
    return [mac(src, dst, sequence + i, pan, version=version, compress=compress_pan) + part.payload
            for i, part in enumerate(parts)]


# ------------------------------------------------------------------------------------------------------ marked examples

def check():
    """K1, K2, K6 to K9 and K11 written, and the trap of the destination port."""
    ext, abcd = extended(0x0011223344556677), short(0xabcd)
    k1 = datagram(ip("fe80::211:2233:4455:6677"), ip("fe80::ff:fe00:abcd"), 58, b"")
    assert iphc(k1, ext, abcd).hex() == "7a333a"
    k2 = datagram(ip("fe80::211:2233:4455:6677"), ip("ff02::1"), 58, b"", hop=255)
    assert iphc(k2, ext, abcd).hex() == "7b3b3a01"
    assert udp_nhc(0xf0b1, 0xf0b2, 0x1234).hex() == "f3121234"
    assert udp_nhc(0xf0b1, 0xf0c0, 0x1234).hex() == "f2b1f0c01234"
    assert udp_nhc(0x0050, 0xf000, None).hex() == "f5005000"
    assert frag1(1280, 7).hex() == "c5000007" and fragn(1280, 7, 12).hex() == "e50000070c"
    assert mac(short(0x1234), BROADCAST, 5).hex() == "418805cdabffff3412"
    assert mac(short(0x1234), BROADCAST, None, version=2).hex() == "41a9cdabffff3412"
    assert mesh(short(1), short(0xabcd), 5).hex() == "b50001abcd"
    assert (mesh(extended(1), BROADCAST, 15) + broadcast(0x42)).hex() == "9f0f0000000000000001ffff5042"
    # Chains: hop-by-hop of no options, then UDP; a routing header, its next header inline; a tunnel.
    s, d = ip("fe80::211:2233:4455:6677"), ip("fe80::ff:fe00:abcd")
    hop = chained([("ip", s, d, {}), ("ext", HOP_BY_HOP, b""), ("udp", 0xf0b1, 0xf0b2, 0x1234)], None, b"\xaa")
    assert hop[40:].hex() == "1100010400000000" "f0b1f0b200091234aa" and hop[4:7].hex() == "001100"
    assert compress(hop, ext, abcd, chain=7)[0].hex() == "7e33" "e100" "f3121234"
    assert compress(hop, ext, abcd, chain=7, pads=3)[0].hex() == "7e33" "e106010400000000" "f3121234"
    assert compress(hop, ext, abcd)[0].hex() == "7a3300"
    alert = chained([("ip", s, d, {}), ("ext", HOP_BY_HOP, bytes.fromhex("05020001"))], 58, b"")
    assert alert[40:].hex() == "3a00050200010100" and compress(alert, ext, abcd, chain=7)[0].hex() == "7e33" "e03a0405020001"
    route = chained([("ip", s, d, {}), ("ext", ROUTING, bytes(6))], 58, b"")
    assert compress(route, ext, abcd, chain=7) == (bytes.fromhex("7e33" "e23a06000000000000"), 48)
    tunnel = chained([("ip", s, ip("ff02::1"), {}), ("ip", s, ip("fe80::1"), {"hop": 255})], 59, b"")
    assert compress(tunnel, ext, BROADCAST, chain=7) == (bytes.fromhex("7e3b01" "ee" "7b333b"), 80)
    # RFC 768's sum, worked by hand: ::1 to ::1, ports 1 and 2, no data: 1+1+8+17+1+2+8 = 38, so ffd9.
    assert udp_datagram(ip("::1"), ip("::1"), 1, 2, b"")[46:48].hex() == "ffd9"
    print("ok")


if __name__ == "__main__":
    if sys.argv[1:] != ["check"]:
        sys.exit("usage: frames.py check")
    check()
