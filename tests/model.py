#!/usr/bin/env python3
"""A second reading of documents 01 (what we will build and its rules) and 02 (change requests), in plain Python.

It was written from the documents alone, never from the product's text, so that a difference between the two says
something. Each function quotes the sentence that it renders. It is slow and simple on purpose: a slot keeps the list of
the parts it has taken, with their bytes, and no marks for units; an expansion first reads all compressed headers into a
list and then writes them.

    model.py heard < capture     the lines that `heard` prints for a capture
    model.py table < calls       the slot table, a call a line (README.md has the lines)
    model.py check               the marked examples of 01 that a receiver can show, and some of 02 worked by hand

A link-layer address is its bytes, most significant first: 2 for a short one, 8 for an extended one, none for an absent
one. `None` stands where the frame type has no addressing.
"""

import re
import sys
from dataclasses import dataclass, field, replace

ABSENT = b""

SLOTS = 8                  # "eight slots of 2,048"
SLOT_BYTES = 2048
LENT_BYTES = 16384         # "16,384 lent bytes or more"
OUTPUT_BYTES = 2047        # "an output of 2,047 or more"
LIFETIME = 60000           # "slots 60,000 or more past their opening are freed"
MOST_GATEWAYS = 4          # "gateway list: over four"
MOST_SLOTS_EACH = 3        # "if it holds fewer than three"
LONGEST_FRAME = 127        # "frame over 127"
IPV6_HEADER = 40
UDP_HEADER = 8
UDP = 17
IPV6 = 41                  # an IPv6 header as a next header
MOST_HEADERS = 8           # "At most eight headers in all, the outer IPv6 one counted, UDP not"


class Refused(Exception):
    """One of 01's refusal numbers."""

    def __init__(self, number):
        super().__init__(number)
        self.number = number


class Reader:
    """A reading place. "1: the bytes end before a needed field"."""

    def __init__(self, data, at=0):
        self.data = bytes(data)
        self.at = at

    def take(self, count):
        if self.at + count > len(self.data):
            raise Refused(1)
        taken = self.data[self.at:self.at + count]
        self.at += count
        return taken

    def byte(self):
        return self.take(1)[0]

    def rest(self):
        return self.data[self.at:]


# ---------------------------------------------------------------------------------------------------------- MAC header

@dataclass(frozen=True)
class Mac:
    frame_type: int
    secured: bool
    pending: bool
    ack_request: bool
    compressed: bool
    version: int
    sequence: object       # a number or None
    dst_pan: object        # a number or None
    dst: object            # an address or None
    src_pan: object
    src: object
    length: int            # where the payload begins
    elements: bool = False # information elements


def pans_carried(version, dst, src, compressed):
    """Which PANs a frame carries: (destination's, source's). `dst` and `src` are the addressing modes.

    "versions 0 and 1: a present address brings its PAN, except that the source PAN is left out when both addresses are
    present and compression is set. Version 2 (dst, src, compression: PANs carried): none,none,0: none; none,none,1:
    dst; dst only,0: dst; dst only,1: none; src only,0: src; src only,1: none; both extended,0: dst; both extended,1:
    none; any other pair,0: both; any other pair,1: dst."
    """
    if version < 2:
        return dst != 0, src != 0 and not (dst != 0 and compressed)
    if dst == 0 and src == 0:
        return compressed, False
    if src == 0:
        return not compressed, False
    if dst == 0:
        return False, not compressed
    if dst == 3 and src == 3:
        return not compressed, False
    return True, not compressed


def read_address(reader, mode):
    """An address stands least significant byte first (IEEE 802.15.4)."""
    size = {0: 0, 2: 2, 3: 8}[mode]
    return reader.take(size)[::-1]


def read_mac(frame):
    """"Below 3 bytes: 1. Above 127: 4. Then version 3, a mode of 01, or versions 0 and 1 with PAN compression and both
    addresses absent: 3." """
    if len(frame) < 3:
        raise Refused(1)
    if len(frame) > LONGEST_FRAME:
        raise Refused(4)
    control = frame[0] | frame[1] << 8
    frame_type = control & 7
    secured = bool(control & 0x0008)
    compressed = bool(control & 0x0040)
    dst_mode = control >> 10 & 3
    version = control >> 12 & 3
    src_mode = control >> 14 & 3
    if version == 3 or dst_mode == 1 or src_mode == 1:
        raise Refused(3)
    if version < 2 and compressed and dst_mode == 0 and src_mode == 0:
        raise Refused(3)

    # "None only where the frame type has no addressing": types 4, 6 and 7, and Acknowledgement below version 2.
    addressed = frame_type in (0, 1, 3, 5) or (frame_type == 2 and version == 2)
    # "version 2 frames with bit 8 set and no sequence byte [..] For such Beacon, Data, Acknowledgement and MacCommand
    # frames read none."
    suppressed = version == 2 and bool(control & 0x0100) and frame_type in (0, 1, 2, 3)
    reader = Reader(frame, 2)
    number = None if suppressed else reader.byte()
    dst_pan = dst = src_pan = src = None
    if addressed:
        with_dst_pan, with_src_pan = pans_carried(version, dst_mode, src_mode, compressed)
        if with_dst_pan:
            dst_pan = int.from_bytes(reader.take(2), "little")
        dst = read_address(reader, dst_mode)
        if with_src_pan:
            src_pan = int.from_bytes(reader.take(2), "little")
        src = read_address(reader, src_mode)
    if secured:
        # The auxiliary security header: a control byte, the counter unless it is suppressed, the key identifier.
        security = reader.byte()
        reader.take(0 if security & 0x20 else 4)
        reader.take((0, 1, 5, 9)[security >> 3 & 3])
    return Mac(frame_type, secured, bool(control & 0x0010), bool(control & 0x0020), compressed, version,
               number if frame_type in (0, 1, 2, 3, 5) else None, dst_pan, dst, src_pan, src, reader.at,
               version == 2 and bool(control & 0x0200))


# ------------------------------------------------------------------------------------- mesh and broadcast headers (02)

def through_relays(mac, frame):
    """"mesh 10 V F with four bits of hops left, the deep-hops byte when those are 1111, originator and final address of
    two or eight bytes, high byte first; then the broadcast dispatch 01010000 with its sequence number"; "1 where bytes
    end, 3 for a mesh or broadcast header after a broadcast one, or a second mesh header"."""
    reader, kinds = Reader(frame, mac.length), []
    while reader.rest():
        first = reader.rest()[0]
        if first >> 6 == 0b10:
            if kinds:
                raise Refused(3)
            kinds.append("mesh")
            reader.take(2 if first & 0b1111 == 0b1111 else 1)
            originator = reader.take(2 if first & 0b100000 else 8)
            mac = replace(mac, src=originator, dst=reader.take(2 if first & 0b10000 else 8))
        elif first == 0b01010000:
            if "broadcast" in kinds:
                raise Refused(3)
            kinds.append("broadcast")
            reader.take(2)
        else:
            break
    return replace(mac, length=reader.at)


# ------------------------------------------------------------------------------------------------- dispatch, fragments

def dispatch(payload):
    """"dispatch (1, 2)": 11000 or 11100 is a fragment, 011 an IPHC header."""
    if not payload:
        raise Refused(1)
    if payload[0] >> 3 in (0b11000, 0b11100):
        return "fragment"
    if payload[0] >> 5 == 0b011:
        return "iphc"
    raise Refused(2)


@dataclass(frozen=True)
class Fragment:
    first: bool
    size: int
    tag: int
    begin: int             # in bytes
    length: int            # of the header


def read_fragment(payload):
    """"11000 or 11100, 11 bits of size, 16 of tag, then an offset in units of 8 octets." """
    if len(payload) < 4:
        raise Refused(1)
    kind = payload[0] >> 3
    size = (payload[0] & 7) << 8 | payload[1]
    tag = payload[2] << 8 | payload[3]
    if kind == 0b11000:
        return Fragment(True, size, tag, 0, 4)
    if kind == 0b11100:
        if len(payload) < 5:
            raise Refused(1)
        return Fragment(False, size, tag, payload[4] * 8, 5)
    raise Refused(2)


# --------------------------------------------------------------------------------------------------------------- IPHC

def contexts_of(flat):
    """"as flat bytes, 8 each, a shorter rest ignored"."""
    return [bytes(flat[8 * i:8 * i + 8]) for i in range(len(flat) // 8)]


def context(contexts, number):
    """"5: the context isn't in the list"."""
    if number >= len(contexts):
        raise Refused(5)
    return contexts[number]


def interface_identifier(address):
    """RFC 6282 3.2.2: from the extended address with its universal/local bit turned, or 0000:00ff:fe00:XXXX from the
    short one. "6: a needed link-layer address is absent". "In an inner header elided addresses come from the enclosing
    IPv6 header": of 16 bytes it is the last 64 bits, whatever they are."""
    if not address:
        raise Refused(6)
    if len(address) == 16:
        return address[8:]
    if len(address) == 2:
        return bytes.fromhex("000000fffe00") + address
    return bytes([address[0] ^ 2]) + address[1:]


def read_unicast(reader, by_context, mode, number, contexts, around):
    """"an elided address with a context needs the link-layer address first (6), then the context (5); an inline one
    needs its bytes first (1), then 5." The caller has dealt with mode 00 where a context is used."""
    if mode == 0:
        return reader.take(16)
    if mode == 1:
        iid = reader.take(8)
    elif mode == 2:
        iid = bytes.fromhex("000000fffe00") + reader.take(2)
    else:
        iid = interface_identifier(around)
    prefix = context(contexts, number) if by_context else bytes.fromhex("fe80000000000000")
    return prefix + iid


def read_multicast(reader, mode):
    """RFC 6282 3.1.1, M=1 and DAC=0."""
    if mode == 0:
        return reader.take(16)
    if mode == 1:
        b = reader.take(6)
        return bytes([0xff, b[0]]) + bytes(9) + b[1:]
    if mode == 2:
        b = reader.take(4)
        return bytes([0xff, b[0]]) + bytes(11) + b[1:]
    return bytes([0xff, 0x02]) + bytes(13) + reader.take(1)


@dataclass(frozen=True)
class Iphc:
    src: bytes
    dst: bytes
    next_header: object    # a number, or None where it is compressed
    hop_limit: int
    ecn: int               # in the top two bits
    dscp: int
    flow: int
    length: int


def read_iphc(data, around_src, around_dst, contexts):
    """RFC 6282 3.1.1, in the order of its fields. The addresses around it are those of the link layer, or in an inner
    header those of the enclosing IPv6 header. "A read with TF=11 gives no ecn, dscp or flow label; ecn keeps its
    place in the top two bits." 02, item 1: "RFC 6282 gives 20 bits" of flow label, "padding bits stay ignored". "M=1
    with DAC=1 is refused (3)." "Absent fields are 0" once expanded, so they are 0 here."""
    if len(data) < 2:
        raise Refused(1)
    if data[0] >> 5 != 0b011:
        raise Refused(2)
    tf, nh, hlim = data[0] >> 3 & 3, data[0] >> 2 & 1, data[0] & 3
    cid, sac, sam = data[1] >> 7, data[1] >> 6 & 1, data[1] >> 4 & 3
    m, dac, dam = data[1] >> 3 & 1, data[1] >> 2 & 1, data[1] & 3
    reader = Reader(data, 2)

    src_context = dst_context = 0
    if cid:
        both = reader.byte()
        src_context, dst_context = both >> 4, both & 15

    ecn = dscp = flow = 0
    if tf == 0:
        b = reader.take(4)
        ecn, dscp, flow = b[0] & 0xc0, b[0] & 0x3f, (b[1] & 0x0f) << 16 | b[2] << 8 | b[3]
    elif tf == 1:
        b = reader.take(3)
        ecn, flow = b[0] & 0xc0, (b[0] & 0x0f) << 16 | b[1] << 8 | b[2]
    elif tf == 2:
        b = reader.take(1)
        ecn, dscp = b[0] & 0xc0, b[0] & 0x3f

    next_header = None if nh else reader.byte()
    hop_limit = reader.byte() if hlim == 0 else (1, 64, 255)[hlim - 1]

    if sac and sam == 0:
        src = bytes(16)
    else:
        src = read_unicast(reader, sac, sam, src_context, contexts, around_src)

    if dac and (m or dam == 0):
        raise Refused(3)
    if m:
        dst = read_multicast(reader, dam)
    else:
        dst = read_unicast(reader, dac, dam, dst_context, contexts, around_dst)
    return Iphc(src, dst, next_header, hop_limit, ecn, dscp, flow, reader.at)


# ---------------------------------------------------------------------------------------------------------------- NHC

@dataclass(frozen=True)
class UdpNhc:
    src_port: int
    dst_port: int
    checksum: object       # a number, or None where it is elided
    length: int
    judged: bool = True    # False behind a routing header, where no checksum is cared for


def read_udp_nhc(data):
    """"UDP 11110 C P" (RFC 6282 4.3)."""
    reader = Reader(data)
    head = reader.byte()
    if head >> 3 != 0b11110:
        raise Refused(2)
    ports = head & 3
    if ports == 0:
        src = int.from_bytes(reader.take(2), "big")
        dst = int.from_bytes(reader.take(2), "big")
    elif ports == 1:
        src = int.from_bytes(reader.take(2), "big")
        dst = 0xf000 + reader.byte()
    elif ports == 2:
        src = 0xf000 + reader.byte()
        dst = int.from_bytes(reader.take(2), "big")
    else:
        both = reader.byte()
        src, dst = 0xf0b0 + (both >> 4), 0xf0b0 + (both & 15)
    checksum = None if head & 4 else int.from_bytes(reader.take(2), "big")
    return UdpNhc(src, dst, checksum, reader.at)


# ---------------------------------------------------------------------------------------- extension headers (02, item 5)

# RFC 6282 4.2, EID: the header's number as a next header. "chains of hop-by-hop, routing, destination options and
# mobility (135)"; "13 remains for the fragment EID, EID 5 and 6".
HOP_BY_HOP, ROUTING, DESTINATION_OPTIONS, MOBILITY = 0, 43, 60, 135
EXTENSIONS = {0: HOP_BY_HOP, 1: ROUTING, 3: DESTINATION_OPTIONS, 4: MOBILITY}
ANOTHER_IPHC = 7
OPTIONS = (HOP_BY_HOP, DESTINATION_OPTIONS)


@dataclass(frozen=True)
class Extension:
    number: int            # its own, as a next header
    next_header: object    # a number, or None where it is compressed
    body: bytes            # what stands behind its first two bytes, padded


def padding(count):
    """"Options headers are padded to eight octets: Pad1 for one byte, PadN for more." RFC 8200 4.2: Pad1 is a byte of 0;
    PadN is 1, the number of bytes behind these two, and as many bytes of 0."""
    if count < 2:
        return bytes(count)
    return bytes([1, count - 2]) + bytes(count - 2)


def read_extension(reader, number, compressed):
    """RFC 6282 4.2 behind the first byte: the next header unless that is compressed; "the number of octets that pertain
    to the (compressed) extension header following the Length field"; these. "A routing or mobility header whose length
    isn't a multiple of eight with its first two bytes is refused": "3 [..] for a bad routing or mobility length before
    its bytes are taken"."""
    next_header = None if compressed else reader.byte()
    length = reader.byte()
    if number not in OPTIONS and (length + 2) % 8 != 0:
        raise Refused(3)
    body = reader.take(length)
    if number in OPTIONS:
        body += padding(-(length + 2) % 8)
    return Extension(number, next_header, body)


def read_headers(payload, link_src, link_dst, contexts):
    """The compressed headers of a datagram, the outermost first, and what follows them. "The byte of EID 7 is followed
    directly by another IPHC header (RFC 6282 4.2), which may again have a chain". An inline next header ends the chain.
    "Refusals: 3 for the ninth header before its EID is judged, for EID 7 with NH set, and for a bad routing or mobility
    length before its bytes are taken." "13 remains for the fragment EID, EID 5 and 6", at their first byte, "and an
    elided checksum with a routing header between it and that IPv6 header", once the UDP header has been read."""
    around = read_iphc(payload, link_src, link_dst, contexts)
    reader = Reader(payload, around.length)
    headers = [around]
    routed = False         # a routing header has come since the IPv6 header `around`
    while headers[-1].next_header is None:
        head = Reader(reader.rest()).byte()
        if head >> 4 != 0b1110:
            udp = read_udp_nhc(reader.rest())
            reader.take(udp.length)
            if udp.checksum is None and routed:
                raise Refused(13)
            headers.append(replace(udp, judged=not routed))
            break
        if len(headers) == MOST_HEADERS:
            raise Refused(3)
        reader.take(1)
        eid, compressed = head >> 1 & 7, head & 1
        if eid == ANOTHER_IPHC:
            if compressed:
                raise Refused(3)
            around = read_iphc(reader.rest(), around.src, around.dst, contexts)
            reader.take(around.length)
            headers.append(around)
            routed = False
        elif eid in EXTENSIONS:
            headers.append(read_extension(reader, EXTENSIONS[eid], compressed))
            routed = routed or EXTENSIONS[eid] == ROUTING
        else:
            raise Refused(13)
    return headers, reader.rest()


# ---------------------------------------------------------------------------------------------------------- expansion

def ones_sum(data):
    """RFC 768: 16-bit words added in one's complement, an odd last byte padded with a zero one."""
    if len(data) % 2:
        data = data + b"\0"
    total = 0
    for i in range(0, len(data), 2):
        total += data[i] << 8 | data[i + 1]
    while total >> 16:
        total = (total & 0xffff) + (total >> 16)
    return total


@dataclass(frozen=True)
class Sum:
    """A checksum to care for: whether it was elided, and where the IPv6 header just outside and the UDP header begin."""
    elided: bool
    ip: int
    udp: int


def udp_checksum(datagram, places):
    """"computed over the whole datagram (RFC 8200, RFC 768; 0 becomes ffff)": the addresses, the UDP length and next
    header 17, then the UDP header with 0 for its checksum and what follows. 02: "A UDP header's length and checksum are
    those of the bytes from it to the end, with the addresses of the IPv6 header just outside it." """
    addresses = datagram[places.ip + 8:places.ip + IPV6_HEADER]
    upper = datagram[places.udp:]
    pseudo = addresses + len(upper).to_bytes(4, "big") + bytes([0, 0, 0, UDP])
    checksum = 0xffff - ones_sum(pseudo + upper[:6] + b"\0\0" + upper[8:])
    return checksum or 0xffff


def with_checksum(datagram, places):
    """"An elided checksum is computed over the whole datagram." Its place is the last two bytes of the UDP header."""
    checksum = udp_checksum(datagram, places).to_bytes(2, "big")
    return datagram[:places.udp + 6] + checksum + datagram[places.udp + UDP_HEADER:]


def finished(datagram, places):
    """The datagram once it is whole. "When a compressed UDP header carries its checksum, the table tests it once the
    datagram is whole. A carried 0 never holds. Where an elided one would be 13, none is tested." A carried one holds if
    it is the one that would be computed, which is never 0."""
    if places is None:
        return datagram
    if places.elided:
        return with_checksum(datagram, places)
    carried = int.from_bytes(datagram[places.udp + 6:places.udp + UDP_HEADER], "big")
    if carried != udp_checksum(datagram, places):
        raise Refused(17)
    return datagram


@dataclass(frozen=True)
class Expanded:
    data: bytes            # an elided checksum is 0 in it
    sum: object            # a Sum, or None where no checksum is cared for


def number_as_next(header):
    """What the header before it says of a header."""
    if isinstance(header, Iphc):
        return IPV6
    return UDP if isinstance(header, UdpNhc) else header.number


def expanded_length(header):
    if isinstance(header, Iphc):
        return IPV6_HEADER
    return UDP_HEADER if isinstance(header, UdpNhc) else 2 + len(header.body)


def ipv6_header(iphc, next_header, payload_length):
    """"version 6, traffic class dscp*4+ecn/64, flow label, payload length [..], next header [..], hop limit and both
    addresses"."""
    word = 6 << 28 | (iphc.dscp * 4 + iphc.ecn // 64) << 20 | iphc.flow
    return (word.to_bytes(4, "big") + payload_length.to_bytes(2, "big") + bytes([next_header, iphc.hop_limit])
            + iphc.src + iphc.dst)


def extension_header(extension, next_header):
    """RFC 8200 4.3: the next header, the length in units of eight octets without the first of them, the rest."""
    return bytes([next_header, (2 + len(extension.body)) // 8 - 1]) + extension.body


def udp_header(udp, length):
    """"the compressed UDP header in full"; an elided checksum is 0 in it."""
    return b"".join(value.to_bytes(2, "big") for value in (udp.src_port, udp.dst_port, length, udp.checksum or 0))


def write_headers(headers, total):
    """The headers of a datagram of `total` bytes in full. "payload length (total less 40; in a first part the total is
    its size), next header (17 where UDP is compressed)"; so for an inner header, from its own place on. "The UDP length
    equals the payload length", or with headers between them is that of "the bytes from it to the end"."""
    data, places, ip = b"", None, 0
    for header, behind in zip(headers, headers[1:] + [None]):
        left = total - len(data)           # from this header to the end
        if isinstance(header, UdpNhc):
            if header.judged:
                places = Sum(header.checksum is None, ip, len(data))
            data += udp_header(header, left)
            continue
        next_header = header.next_header if behind is None else number_as_next(behind)
        if isinstance(header, Iphc):
            ip = len(data)
            data += ipv6_header(header, next_header, left - IPV6_HEADER)
        else:
            data += extension_header(header, next_header)
    return data, places


def expand(payload, link_src, link_dst, contexts, size=None):
    """"Expansion writes [the headers], then the rest." `size` is the size of a first part; without it the payload is a
    whole datagram. "10 next to last for a first part whose expanded bytes end beyond its size"."""
    headers, rest = read_headers(payload, link_src, link_dst, contexts)
    own = sum(expanded_length(header) for header in headers) + len(rest)
    total = own if size is None else size
    if own > total:
        raise Refused(10)
    data, places = write_headers(headers, total)
    return Expanded(data + rest, places)


def expand_alone(payload, link_src, link_dst, contexts, out, size=None):
    """Expansion called by itself: "refuses 4 first for over 127 bytes, 10 next to last .. and 7 last". In a first part
    an elided checksum stays 0. A carried one isn't tested here. The answer is the number of bytes written at the
    output's start."""
    if len(payload) > LONGEST_FRAME:
        raise Refused(4)
    expanded = expand(payload, link_src, link_dst, contexts, size)
    if len(out) < len(expanded.data):
        raise Refused(7)
    computed = expanded.sum is not None and expanded.sum.elided and size is None
    data = with_checksum(expanded.data, expanded.sum) if computed else expanded.data
    out[:len(data)] = data
    return len(data)


# --------------------------------------------------------------------------------------------------------- slot table

def sender_of(mac):
    """02: "the key gains it: the source PAN if the frame carries one, else the destination PAN, else "none"". """
    pan = mac.dst_pan if mac.src_pan is None else mac.src_pan
    return (mac.src, pan)


@dataclass
class Slot:
    key: tuple             # "The key is source, destination, size, tag", the source with its PAN (02)
    opened: int
    parts: list = field(default_factory=list)       # (first byte, length, bytes) of every part taken
    sum: object = None     # of the part at byte 0: its Sum, or None


class Table:
    """"The controller lends 16,384 bytes to put them together, eight slots of 2,048, for at most four gateways"."""

    def __init__(self, gateways):
        """"14: gateway list: over four, two equal, or an absent address"; 02: "Two gateways are equal in the sense of 14
        only if address and PAN agree". Each is an address and a PAN, or None for none."""
        addresses = [address for address, pan in gateways]
        if len(gateways) > MOST_GATEWAYS or len(set(gateways)) != len(gateways) or ABSENT in addresses:
            raise Refused(14)
        self.gateways = gateways
        self.last = 0                               # "A fresh table's last time is 0"
        self.slots = [None] * SLOTS

    def call(self, time, frame, contexts, mem, out):
        """One call: ("out", length), ("kept",) or ("no", number). `contexts` are flat bytes, `mem` and `out` what is
        lent for this call."""
        try:
            return self.take_frame(time, bytes(frame), contexts_of(contexts), mem, out)
        except Refused as refused:
            return ("no", refused.number)

    def take_frame(self, time, frame, contexts, mem, out):
        """"Checks: 7; 8; then the time is taken and slots 60,000 or more past their opening are freed, also when a
        refusal follows; MAC refusals; 13 (secured or not Data); 9; 6 (destination absent); dispatch (1, 2)." """
        if len(mem) < LENT_BYTES or len(out) < OUTPUT_BYTES:
            raise Refused(7)
        if time < self.last:
            raise Refused(8)
        self.last = time
        for s in range(SLOTS):
            if self.slots[s] and time - self.slots[s].opened >= LIFETIME:
                self.slots[s] = None
        mac = read_mac(frame)
        if mac.secured or mac.elements or mac.frame_type != 1:
            raise Refused(13)
        mac = through_relays(mac, frame)
        if sender_of(mac) not in self.gateways:
            raise Refused(9)
        if mac.dst == ABSENT:
            raise Refused(6)
        payload = frame[mac.length:]
        if dispatch(payload) == "iphc":
            return self.hand_out_whole(payload, mac, contexts, out)
        return self.take_part(payload, mac, contexts, time, mem, out)

    def hand_out_whole(self, payload, mac, contexts, out):
        """"An IPHC frame is expanded and handed out"; "an unfragmented frame writes only its datagram at the output's
        start". 17 "stands after all refusals of expansion"."""
        expanded = expand(payload, mac.src, mac.dst, contexts)
        data = finished(expanded.data, expanded.sum)
        out[:len(data)] = data
        return ("out", len(data))

    def take_part(self, payload, mac, contexts, time, mem, out):
        """"A fragment: header (1); for a first part its expansion (1, 2, 3, 5, 6, 13); then 10 (a first part counts as
        expanded, from byte 0): size below 40, no bytes, offset 0 in a later part, end beyond size, or a length not a
        multiple of 8 that doesn't end at size; then 11 or 12." """
        fragment = read_fragment(payload)
        data, places = payload[fragment.length:], None
        if fragment.first:
            expanded = expand(data, mac.src, mac.dst, contexts, fragment.size)
            data, places = expanded.data, expanded.sum
        begin, end = fragment.begin, fragment.begin + len(data)
        if fragment.size < 40 or len(data) == 0 or (begin == 0 and not fragment.first) or end > fragment.size:
            raise Refused(10)
        if len(data) % 8 != 0 and end != fragment.size:
            raise Refused(10)

        key = (sender_of(mac), mac.dst, fragment.size, fragment.tag)
        s = self.find(key)
        if s is None:
            s = self.open(key, time)
        elif self.judge_against_taken(s, begin, data):
            return ("kept",)
        return self.take(s, begin, data, places, mem, out)

    def find(self, key):
        """"The key is source, destination, size, tag." """
        for s in range(SLOTS):
            if self.slots[s] and self.slots[s].key == key:
                return s
        return None

    def judge_against_taken(self, s, begin, data):
        """"With the key open: same first byte, length and bytes as a part taken: kept, nothing written. Any other part
        that touches a taken byte: 11, slot freed." True for a repeat, False for a part that touches none."""
        for first, length, taken in self.slots[s].parts:
            if first == begin and length == len(data) and taken == data:
                return True
        for first, length, taken in self.slots[s].parts:
            if begin < first + length and first < begin + len(data):
                self.slots[s] = None
                raise Refused(11)
        return False

    def held(self, gateway):
        return sum(1 for slot in self.slots if slot and slot.key[0] == gateway)

    def open(self, key, time):
        """"With the key not open: the gateway opens the lowest free slot if it holds none; or if it holds fewer than
        three and the free slots outnumber the other gateways that hold none; else 12." """
        gateway = key[0]
        free = [s for s in range(SLOTS) if self.slots[s] is None]
        others = sum(1 for g in self.gateways if g != gateway and self.held(g) == 0)
        mine = self.held(gateway)
        if not (mine == 0 or (mine < MOST_SLOTS_EACH and len(free) > others)):
            raise Refused(12)
        s = free[0]
        self.slots[s] = Slot(key, time)
        return s

    def take(self, s, begin, data, places, mem, out):
        """"Slot s begins at byte 2,048*s, s from 0. The part's bytes are written at their place in that slot's 2,048
        bytes, nothing else in it." "Whether the checksum was elided is remembered when the part at byte 0 is taken.
        Full cover: output's start receives the datagram, the slot is freed, other output bytes stay." "17 (new), after
        full cover; the slot is freed, its memory keeps the part just written, the output is untouched." """
        slot = self.slots[s]
        place = SLOT_BYTES * s + begin
        mem[place:place + len(data)] = data
        slot.parts.append((begin, len(data), data))
        if begin == 0:
            slot.sum = places
        size = slot.key[2]
        if sum(length for _, length, _ in slot.parts) < size:
            return ("kept",)
        datagram = b"".join(taken for _, _, taken in sorted(slot.parts))
        self.slots[s] = None
        out[:size] = finished(datagram, slot.sum)
        return ("out", size)


# ----------------------------------------------------------------------------------------------------- capture blocks

BLOCK = 512
PLACES = 3
PLACE = 132


def fcs_table():
    table = []
    for byte in range(256):
        for _ in range(8):
            byte = byte >> 1 ^ (0x8408 if byte & 1 else 0)
        table.append(byte)
    return table


FCS_TABLE = fcs_table()


def fcs(data):
    """The IEEE 802.15.4 frame check: x^16 + x^12 + x^5 + 1 over the bits in the order of sending (the least significant
    of a byte first), from 0; as a number of 16 bits whose low byte is sent first."""
    value = 0
    for byte in data:
        value = value >> 8 ^ FCS_TABLE[(value ^ byte) & 0xff]
    return value


def read_block(block, number):
    """The frames of a block as (time, frame). "Blocks of 512 bytes, little-endian: 0..3 block number from 0; 4 count
    0..3; 5 zero; three places of 132 bytes (time u32, length 0..127, 127 frame bytes); zeros to 509; 510..511 the IEEE
    802.15.4 FCS over 0..509. Unused bytes are zero. Anything else is 15"."""
    if len(block) != BLOCK:
        raise Refused(15)
    if int.from_bytes(block[510:512], "little") != fcs(block[:510]):
        raise Refused(15)
    if int.from_bytes(block[0:4], "little") != number:
        raise Refused(15)
    count = block[4]
    if count > PLACES or block[5] != 0 or any(block[6 + PLACES * PLACE:510]):
        raise Refused(15)
    frames = []
    for i in range(PLACES):
        place = block[6 + i * PLACE:6 + (i + 1) * PLACE]
        if i >= count:
            if any(place):
                raise Refused(15)
            continue
        length = place[4]
        if length > LONGEST_FRAME or any(place[5 + length:]):
            raise Refused(15)
        frames.append((int.from_bytes(place[0:4], "little"), place[5:5 + length]))
    return frames


def answer_text(answer):
    """"`n out L`, `n kept` or `n no R`", without the n."""
    return " ".join(str(word) for word in answer)


def heard(capture):
    """The lines of `heard` (02: "`heard` lists its four under PAN abcd"): "gateways short 0001 to 0004, no contexts. One line per frame: `n out L`, `n kept` or
    `n no R`; a bad block b gives `block b no 15`; last `end` and the count of frame lines." "Anything else is 15, and
    reading stops"."""
    table = Table([(bytes([0, n]), 0xabcd) for n in (1, 2, 3, 4)])
    mem, out = bytearray(LENT_BYTES), bytearray(OUTPUT_BYTES)
    lines, count = [], 0
    for number in range((len(capture) + BLOCK - 1) // BLOCK):
        try:
            frames = read_block(capture[BLOCK * number:BLOCK * (number + 1)], number)
        except Refused as refused:
            lines.append(f"block {number} no {refused.number}")
            break
        for time, frame in frames:
            count += 1
            lines.append(f"{count} {answer_text(table.call(time, frame, b'', mem, out))}")
    lines.append(f"end {count}")
    return lines


# --------------------------------------------------------------------------------------------------- lines over a table

def parse_address(text):
    if re.fullmatch("s[0-9a-f]{4}|e[0-9a-f]{16}|a", text):
        return bytes.fromhex(text[1:])
    raise ValueError(text)


def parse_gateway(text):
    """An address, and behind an @ its PAN; none without."""
    address, at, pan = text.partition("@")
    if at and not re.fullmatch("[0-9a-f]{4}", pan):
        raise ValueError(text)
    return (parse_address(address), int(pan, 16) if at else None)


def address_text(address):
    return {0: "a", 2: "s", 8: "e"}[len(address)] + address.hex()


def sender_text(sender):
    address, pan = sender
    return address_text(address) if pan is None else f"{address_text(address)}@{pan:04x}"


def parse_bytes(text):
    if text == "-":
        return b""
    if re.fullmatch("([0-9a-f]{2})+", text):
        return bytes.fromhex(text)
    raise ValueError(text)


def parse_number(text, most):
    if re.fullmatch("[0-9]+", text) and int(text) <= most:
        return int(text)
    raise ValueError(text)


def slots_text(table):
    """The open keys in slot order: `s:SRC,DST,SIZE,TAG,OPENED`."""
    texts = []
    for s, slot in enumerate(table.slots):
        if slot:
            src, dst, size, tag = slot.key
            texts.append(f"{s}:{sender_text(src)},{address_text(dst)},{size:04x},{tag:04x},{slot.opened}")
    return " ".join(texts)


class TableLines:
    """The line protocol over one table (README.md)."""

    MOST_ROOM = 65536

    def __init__(self):
        self.table = None
        self.mem, self.out = bytearray(LENT_BYTES), b""     # what is lent; `out` as the last call left it

    def answer(self, line):
        if line.startswith("#"):
            return line
        try:
            words = line.split(" ")
            if words[0] == "gateways" and self.table is None:
                return self.gateways([parse_gateway(word) for word in words[1:]])
            if words[0] == "call" and len(words) == 6 and self.table is not None:
                return self.call(parse_number(words[1], 2 ** 64 - 1), parse_bytes(words[2]), parse_bytes(words[3]),
                                 parse_number(words[4], self.MOST_ROOM), parse_number(words[5], self.MOST_ROOM))
        except ValueError:
            pass
        return "bad"

    def gateways(self, gateways):
        try:
            self.table = Table(gateways)
        except Refused as refused:
            return f"no {refused.number}"
        return "ok"

    def call(self, time, frame, contexts, mem_length, out_length):
        if mem_length > len(self.mem):
            self.mem.extend(bytes(mem_length - len(self.mem)))
        out = self.out = bytearray(out_length)
        with memoryview(self.mem) as mem:
            with mem[:mem_length] as lent:
                answer = self.table.call(time, frame, contexts, lent, out)
        text = answer_text(answer)
        if answer[0] == "out":
            text += " " + out[:answer[1]].hex()
        return f"{text} | {slots_text(self.table)}".rstrip(" ")


# ------------------------------------------------------------------------------------------------------ marked examples

def number_of(function, *arguments):
    try:
        return function(*arguments)
    except Refused as refused:
        return refused.number


def check_chains(alone):
    """Item 5 of 02, worked by hand. The addresses are fe80::211:2233:4455:6677 and fe80::ff:fe00:abcd."""
    src, dst = "fe800000000000000211223344556677", "fe80000000000000000000fffe00abcd"

    def written(text, *rows, size=None):
        answer, out = alone(text, 430, size)
        assert out[:answer].hex() == "".join(rows), (text, answer, out[:answer].hex())

    def refused(number, *texts):
        for text in texts:
            assert alone(text, 430)[0] == number, (text, number, alone(text, 430))

    # Options of 0 to 7 octets, padded: Pad1 for one byte, PadN for more. Hop-by-hop, its next header 58 in line.
    for count, pad in enumerate(("010400000000", "0103000000", "01020000", "010100", "0100", "00", "", "01050000000000")):
        octets = "a1a2a3a4a5a6a7"[:2 * count]
        length = 10 if count < 7 else 18
        written(f"7e33e03a{count:02x}{octets}aabb", f"6000000000{length:02x}0040{src}{dst}",
                f"3a{0 if count < 7 else 1:02x}{octets}{pad}", "aabb")
    # Destination options (60), mobility (135) of 14 octets, routing (43) of 6, UDP with its checksum carried.
    written("7e33" "e7020102" "e90e" + "0e" * 14 + "e306060606060606" "f3121234aa",
            f"600000000029" "3c" f"40{src}{dst}", "87000102" "01020000", "2b01" + "0e" * 14, "1100060606060606",
            "f0b1f0b200091234aa")
    # In a first part of size 100 the lengths are those of the datagram; an elided checksum stays 0.
    written("7e33e100f712aabb", f"60000000003c0040{src}{dst}", "1100010400000000", "f0b1f0b200340000aabb", size=100)
    assert alone("7e33e100f712aabb", 430, 57)[0] == 10 and alone("7e33e100f712aabb", 430, 58)[0] == 58
    # A tunnel: the elided inner addresses have the last 64 bits of the enclosing ones, also of ff02::1. The checksum
    # is that of the addresses just outside, from the UDP header on: as for 7e33f712aabb, fcd9.
    written("7e33" "ee" "7e33f712aabb", f"6000000000322940{src}{dst}", f"60000000000a1140{src}{dst}", "f0b1f0b2000afcd9aabb")
    written("7e3b01" "ee" "7b333b", f"6000000000282940{src}ff020000000000000000000000000001",
            f"6000000000003bff{src}fe800000000000000000000000000001")
    # The enclosing header is the next one outside, and a routing header outside it does not count: fe80::1 to fe80::2,
    # ports 61617 and 61618, 10 bytes: fe80+1+fe80+2+a+11+f0b1+f0b2+a+aabb = 48946, 894a; so 76b5.
    written("7e33" "e306000000000000" "ee" "7e11" "0000000000000001" "0000000000000002" "ee" "7e33" "f712aabb",
            f"6000000000622b40{src}{dst}", "2900000000000000",
            "6000000000322940fe800000000000000000000000000001fe800000000000000000000000000002",
            "60000000000a1140fe800000000000000000000000000001fe800000000000000000000000000002", "f0b1f0b2000a76b5aabb")
    # Eight headers in all and UDP behind them; the ninth is 3 before its EID is judged, and before EID 7 with NH.
    assert alone("7e33" + "e100" * 7 + "f712", 430)[0] == 40 + 56 + 8
    refused(3, *("7e33" + "e100" * 7 + byte for byte in ("e0", "e4", "ea", "ed", "ee", "ef")))
    refused(3, "7e33" + "ee7e33" * 7 + "e4")
    refused(1, "7e33" + "e100" * 7)
    refused(2, "7e33" + "e100" * 7 + "d0")
    # Fragment, EID 5 and 6: 13 at the first byte. EID 7 with NH: 3; with nothing, a byte, or no IPHC behind it: 1, 2.
    refused(13, *("7e33" + byte for byte in ("e4", "e5", "ea", "eb", "ec", "ed")))
    refused(3, "7e33ef", "7e33ef7a333a")
    refused(1, "7e33ee", "7e33ee7a", "7e33ee7a33")
    refused(2, "7e33ee4133")
    refused(5, "7e33ee7a733a")
    # The bytes of an extension header: 1; a bad length of routing or mobility: 3, whether its bytes are there or not.
    refused(1, "7e33e0", "7e33e03a", "7e33e03a01", "7e33e1", "7e33e306", "7e33e3060000000000", "7e33e90e")
    refused(3, "7e33e300", "7e33e305", "7e33e30700000000000000", "7e33e93a", "7e33e83b07")
    # Behind a routing header an elided checksum is 13 once the UDP header has been read; a carried one is not tested.
    refused(13, "7e33e306000000000000f712", "7e33e306000000000000e100f712aabb")
    refused(1, "7e33e306000000000000f7", "7e33e306000000000000f4000000")


def check_carried():
    """Item 7 of 02, worked by hand: the checksum of f712aabb from 0011223344556677 to abcd is fcd9."""
    table = Table([(bytes.fromhex("0011223344556677"), 0xabcd)])

    def call(payload):
        frame = bytes.fromhex("41c805cdabcdab7766554433221100" + payload)
        mem, out = bytearray(b"\xa5" * LENT_BYTES), bytearray(OUTPUT_BYTES)
        answer = table.call(0, frame, b"", mem, out)
        assert answer[0] != "no" or not any(out)
        return answer + (mem[:50].count(0xa5),)

    assert call("7e33f312fcd9aabb") == ("out", 50, 50)
    for carried in ("fcd8", "0000", "ffff", "fdd9"):
        assert call(f"7e33f312{carried}aabb") == ("no", 17, 50)
    assert call("7e33ee7e33f312fcd9aabb") == ("out", 90, 50)
    assert call("7e33ee7e33f312fcd8aabb") == ("no", 17, 50)
    assert call("7e33e306000000000000f3120000aabb") == ("out", 58, 50)
    # A UDP header in line isn't tested.
    assert call("7a3311f0b1f0b2000a0000aabb") == ("out", 50, 50)
    # Over two parts: once the datagram is whole, the slot is freed and its memory keeps the part.
    assert call("c0320007" "7e33f312fcd8") == ("kept", 2)
    assert call("e032000706" "aabb") == ("no", 17, 48) and table.slots[0] is None
    assert call("e032000706" "aabb") == ("kept", 48)
    assert call("c0320007" "7e33f312fcd9") == ("out", 50, 2) and table.slots[0] is None


def check():
    """K1 to K5, K10 to K12 as far as a receiver shows them, items 5 and 7 of 02, the printed run of `heard`, and the
    frame check that IEEE 802.15.4 works out (the acknowledgement 02 00 6a has e4 79)."""
    ext, short = bytes.fromhex("0011223344556677"), bytes.fromhex("abcd")

    def iphc(text, src=ext, dst=short):
        return number_of(read_iphc, bytes.fromhex(text), src, dst, [])

    k1 = iphc("7a333a")
    assert (k1.src.hex(), k1.dst.hex()) == ("fe800000000000000211223344556677", "fe80000000000000000000fffe00abcd")
    assert (k1.next_header, k1.hop_limit, k1.length) == (58, 64, 3)
    k2 = iphc("7b3b3a01")
    assert (k2.dst.hex(), k2.hop_limit, k2.length) == ("ff020000000000000000000000000001", 255, 4)
    assert iphc("7b3b3a") == 1
    assert iphc("7b343a") == 3 and iphc("7b343a", ABSENT) == 6
    assert iphc("7b733a") == 5 and iphc("7b733a", ABSENT) == 6
    assert read_udp_nhc(bytes.fromhex("f3121234")) == UdpNhc(0xf0b1, 0xf0b2, 0x1234, 4)
    assert read_udp_nhc(bytes.fromhex("f2b1f0c01234")) == UdpNhc(0xf0b1, 0xf0c0, 0x1234, 6)
    assert read_udp_nhc(bytes.fromhex("f5005000")) == UdpNhc(0x50, 0xf000, None, 4)
    assert read_fragment(bytes.fromhex("c5000007")) == Fragment(True, 1280, 7, 0, 4)
    assert read_fragment(bytes.fromhex("e50000070c")) == Fragment(False, 1280, 7, 96, 5)
    k11 = read_mac(bytes.fromhex("418805cdabffff3412"))
    assert (k11.dst_pan, k11.dst.hex(), k11.src.hex(), k11.length) == (0xabcd, "ffff", "1234", 9)
    assert number_of(read_mac, bytes.fromhex("010005")).length == 3
    assert number_of(read_mac, bytes.fromhex("41a0053412")).src.hex() == "1234"
    # Change request 9: none is read in version 2 with bit 8, but in version 1, and for a Multipurpose frame; below 3
    # bytes stays 1.
    for text, number, length in ("41a9cdabffff3412", None, 8), ("419905cdabffff3412", 5, 9), ("45a905cdabffff3412", 5, 9):
        one = read_mac(bytes.fromhex(text))
        assert (one.sequence, one.length, one.src.hex()) == (number, length, "1234")
    assert number_of(read_mac, bytes.fromhex("0121")) == 1

    # Expansion by itself: 4 first, 10 next to last, 7 last; an elided checksum stays 0 in a first part.
    def alone(text, room, size=None):
        out = bytearray(room)
        return number_of(expand_alone, bytes.fromhex(text), ext, short, [], out, size), out
    assert alone("00" * 128, 0)[0] == 4
    assert alone("7a333a010203", 42, 42)[0] == 10 and alone("7a333a010203", 42)[0] == 7
    assert alone("7a333a010203", 43)[0] == 43
    assert alone("7e33f712aabb", 60)[1][46:50].hex() == "fcd9aabb"
    assert alone("7e33f712aabb", 60, 50)[1][46:50].hex() == "0000aabb"

    check_chains(alone)
    check_carried()

    lines = TableLines()
    assert lines.answer("gateways s0001@abcd") == "ok"
    part = "418805cdabffff0100e030000705" + "00" * 8
    assert lines.answer(f"call 0 {part} - 16384 2047") == "kept | 0:s0001@abcd,sffff,0030,0007,0"
    assert lines.answer("call 59999 - - 16384 2047") == "no 1 | 0:s0001@abcd,sffff,0030,0007,0"
    assert lines.answer("call 60000 - - 16384 2047") == "no 1 |"

    assert fcs(bytes.fromhex("02006a")).to_bytes(2, "little").hex() == "e479"
    frame = bytes.fromhex("418805cdabffff01007a333a01020304")
    block = bytes(4) + b"\2\0"
    for one in (frame, frame.replace(bytes.fromhex("0100"), bytes.fromhex("3412"))):
        block += bytes(4) + bytes([len(one)]) + one.ljust(127, b"\0")
    block = block.ljust(510, b"\0")
    block += fcs(block).to_bytes(2, "little")
    assert heard(block) == ["1 out 44", "2 no 9", "end 2"]
    assert heard(b"") == ["end 0"]
    print("ok")


def main(arguments):
    if arguments == ["heard"]:
        print("\n".join(heard(sys.stdin.buffer.read())))
    elif arguments == ["table"]:
        lines = TableLines()
        for line in sys.stdin:
            print(lines.answer(line.rstrip("\n")), flush=True)
    elif arguments == ["check"]:
        check()
    else:
        sys.exit("usage: model.py heard < capture | model.py table < calls | model.py check")


if __name__ == "__main__":
    main(sys.argv[1:])
