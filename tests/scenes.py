"""Random runs of frames for captures.py and calls.py: what honest gateways send, and what goes wrong around it.

A scene is a list of (time, frame). It is made from a `World` (who is there) and a random source, so that a seed gives
the same scene again. Frames are built by frames.py; nothing here knows what the right answer is.
"""

import frames as f

LIFETIME = 60000
EDGES = (LIFETIME - 1, LIFETIME, LIFETIME + 1)


class World:
    """Who is there: the gateways that the table knows, others it does not know, destinations, contexts."""

    def __init__(self, gateways, strangers, destinations, contexts=(), top=2 ** 32 - 1):
        self.gateways, self.strangers, self.destinations = gateways, strangers, destinations
        self.contexts, self.top = list(contexts), top


def heard_world():
    return World([f.Station(f.short(n)) for n in (1, 2, 3, 4)],
                 [f.short(0x1234), f.short(0x0005), f.short(0x0100), f.extended(1), f.extended(0x0011223344556677),
                  f.Station(f.short(1), 0xabce), f.Station(f.short(2), 0xffff)],
                 [f.BROADCAST, f.short(0xabcd), f.extended(0x0011223344556677), f.short(0x0001)])


def chance(rng, share):
    return rng.random() < share


# ---------------------------------------------------------------------------------------------------------- datagrams

def port(rng):
    return rng.choice((rng.randrange(0x10000), rng.randrange(0xf000, 0xf100), rng.randrange(0xf0b0, 0xf0c0), 61617))


def unicast(rng, world, link):
    kind = rng.randrange(8)
    if kind < 4 or not link:
        return f.link_local(link) if link else f.ip("fe80::1")
    if kind == 4 and world.contexts:
        return rng.choice(world.contexts) + rng.choice((f.iid(link), rng.randbytes(8), bytes.fromhex("000000fffe001234")))
    if kind == 5:
        return f.ip("fe80::ff:fe00:0")[:14] + rng.randbytes(2)
    if kind == 6:
        return f.ip("fe80::")[:8] + rng.randbytes(8)
    return f.ip("2001:db8::")[:8] + rng.randbytes(8)


def destination(rng, world, link):
    if link == f.BROADCAST and chance(rng, 0.6):
        return rng.choice((f.ip("ff02::1"), f.ip("ff02::1:2"), f.ip("ff05::1:3"), f.ip("ff3e::1:2:3"),
                           b"\xff" + rng.randbytes(15)))
    return unicast(rng, world, link)


def packet(rng, world, src, dst, size, udp=None):
    """A datagram of `size` bytes (40 or more), as if from `src` to `dst`."""
    if udp is None:
        udp = chance(rng, 0.8)
    from_, to = unicast(rng, world, src), destination(rng, world, dst)
    if chance(rng, 0.03):
        from_ = bytes(16)
    others = {"hop": rng.choice((1, 64, 255, 63, 0))}
    if chance(rng, 0.2):
        others["traffic_class"] = rng.randrange(256)
    if chance(rng, 0.2):
        others["flow"] = rng.choice((rng.randrange(0x10000), rng.randrange(0x100000)))
    if udp and size >= 48:
        data = rng.randbytes(size - 48) if chance(rng, 0.9) else bytes(size - 48)
        checksum = None
        if chance(rng, 0.05):
            checksum = rng.choice((0, 0xffff, rng.randrange(0x10000)))
        elif size >= 50 and chance(rng, 0.15):
            # Data that makes the sum come out 0, so that ffff must stand for it; or the plain sum end in ffff, so that its carry
            # carries once more.
            plain = f.udp_datagram(from_, to, 61616, 61617, b"\0\0" + data[2:], **others)
            word = int.from_bytes(plain[46:48], "big")
            if chance(rng, 0.4):
                word = (0xffff - f.plain_sum(plain[8:46] + plain[48:]) - (size - 40) - 17) % 0x10000
            return f.udp_datagram(from_, to, 61616, 61617, word.to_bytes(2, "big") + data[2:], **others)
        return f.udp_datagram(from_, to, port(rng), port(rng), data, checksum, **others)
    return f.datagram(from_, to, rng.choice((58, 17, 59, 6, 0, 43)), rng.randbytes(size - 40), **others)


# Which headers stand between the outer IPv6 header and what is carried: each kind as often, a tunnel more often.
KINDS = (f.HOP_BY_HOP, f.ROUTING, f.DESTINATION, f.MOBILITY, f.TUNNELED, f.TUNNELED)


def inner_end(rng, world, around, last):
    """An address of an inner IPv6 header: mostly one that is elided against the enclosing one, in all forms."""
    if last and chance(rng, 0.15):
        return rng.choice((f.ip("ff02::1"), f.ip("ff05::1:3"), f.ip("ff3e::1:2:3"), b"\xff" + rng.randbytes(15)))
    if not last and chance(rng, 0.05):
        return bytes(16)
    return unicast(rng, world, around)


def content(rng, number, most):
    """What stands behind the first two bytes of an extension header, without padding."""
    if number in f.OPTIONS:
        size = rng.choice((0, 1, 2, 3, 4, 5, 6, 7, 8, 13, 14, rng.randrange(max(1, most))))
        return rng.randbytes(min(size, most)) if chance(rng, 0.8) else bytes(min(size, most))
    return rng.randbytes(rng.choice([n for n in (6, 6, 6, 14, 22, 30) if n <= max(most, 6)]))


def layers_of(rng, world, src, dst, count, most, udp=None):
    """The layers of a datagram with `count` headers behind the outer one; `udp` behind them, or not."""
    ends = unicast(rng, world, src), destination(rng, world, dst)
    layers = [("ip", *ends, outer_fields(rng))]
    for _ in range(count):
        number = rng.choice(KINDS)
        if number == f.TUNNELED:
            ends = inner_end(rng, world, ends[0], False), inner_end(rng, world, ends[1], True)
            layers.append(("ip", *ends, outer_fields(rng)))
        else:
            layers.append(("ext", number, content(rng, number, most)))
    if chance(rng, 0.8) if udp is None else udp:
        checksum = None if chance(rng, 0.95) else rng.choice((0, 0xffff, rng.randrange(0x10000)))
        layers.append(("udp", port(rng), port(rng), checksum))
    return layers


def outer_fields(rng):
    others = {"hop": rng.choice((1, 64, 64, 255, 63, 0))}
    if chance(rng, 0.1):
        others["traffic_class"] = rng.randrange(256)
    if chance(rng, 0.1):
        others["flow"] = rng.randrange(0x100000)
    return others


def chain_knobs(rng, world):
    """How a sender writes a chain: mostly all of it compressed, each address in one way."""
    k = knobs(rng, world)
    k.update(chain=rng.choice((7, 7, 7, 7, 7, rng.randrange(8))), pads=rng.choice((0, 0, 0, 1, 2, rng.randrange(8))))
    k["nhc"] = chance(rng, 0.95)
    k["careless"] = chance(rng, 0.1)
    if "choose" in k:
        drawn = rng.randrange(1 << 30)
        k["choose"] = lambda forms: forms[drawn % len(forms)]
    return k


def chain_packet(rng, world, src, dst, k, most, room_, udp=None):
    """A datagram with a chain whose compressed headers fit into `room_` bytes; up to `most` bytes are carried."""
    count = rng.choice((1, 1, 2, 2, 3, 4, 5, 6, 7, 7))
    data = rng.randbytes(rng.choice((0, 1, 7, 8, 9, rng.randrange(most + 1), rng.randrange(most + 1))))
    for width in (30, 16, 10, 6, 3, 0, 0, 0, 0):
        layers = layers_of(rng, world, src, dst, count, width, udp)
        made = f.chained(layers, rng.choice((58, 59, 17, 6, 50)), data)
        if len(f.compress(made, src, dst, **k)[0]) <= room_:
            return made
        if width < 6:
            count = max(1, count - 2)
    return f.chained([layers[0], ("udp", 0xf0b1, 0xf0b2, None)], None, data)


def knobs(rng, world, used_contexts=True):
    """How a sender writes its headers."""
    k = {"nhc": chance(rng, 0.9), "elide": chance(rng, 0.45), "plain_ports": chance(rng, 0.1)}
    if world.contexts and used_contexts and chance(rng, 0.7):
        k["contexts"] = world.contexts
    if chance(rng, 0.25):
        k["choose"] = rng.choice
    if chance(rng, 0.1):
        k["inline_hop"] = True
    if chance(rng, 0.1):
        k["inline_traffic"] = True
    if chance(rng, 0.05):
        k["force_context_byte"] = True
    if chance(rng, 0.3):
        k["padding"] = rng.choice((1, 2, 3, 15, rng.randrange(16)))
    return k


def size_of(rng, most):
    small = [40, 41, 47, 48, 49, 55, 56, 57, 63, 64, 65, 72, 79, 80, 95, 96, 97, 104, 111, 112, 120, 127, 128, 129]
    if chance(rng, 0.5):
        return min(rng.choice(small), most)
    return rng.randrange(40, most + 1)


def header(rng, src, dst, sequence=None):
    """A MAC header of any allowed form with these two addresses."""
    wanted = getattr(src, "pan", f.PAN) if chance(rng, 0.97 if dst else 0.7) else rng.choice((f.PAN, 0xffff, 1, None))
    for _ in range(20):
        version = rng.choice((0, 0, 0, 1, 1, 2, 2))
        compress = chance(rng, 0.8) and not (version < 2 and not src and not dst)
        dst_in, src_in = f.pans_in(src, dst, version, compress)
        # the sender's PAN is the source's where the frame carries one, else the destination's, else none
        if (wanted is None) == (not dst_in and not src_in):
            break
    own = f.PAN if wanted is None else wanted
    other = rng.choice((own, 0xffff, 1, 0x1234)) if src_in else own
    number = rng.randrange(256) if sequence is None else sequence
    if version == 2 and chance(rng, 0.5):
        number = None                       # suppressed, in whole frames and parts alike
    return f.mac(src, dst, number, other, own, version, compress,
                 pending=chance(rng, 0.05), ack=chance(rng, 0.1))


def relayed(rng, src, dst):
    """The same two addresses in a mesh header, behind a MAC header whose addresses are those of a hop; or in the MAC
    header, with a broadcast header behind it."""
    number = f.broadcast(rng.randrange(256)) if chance(rng, 0.3) else b""
    if number and chance(rng, 0.3):
        return header(rng, src, dst) + number
    hops = rng.choice((0, 1, 5, 14, 15, 16, 255, rng.randrange(256)))
    ends = [rng.choice((f.short(1), f.short(0x77), f.short(0xffff), f.extended(0x77), b"")) for _ in range(2)]
    return header(rng, *ends) + f.mesh(src, dst, hops, hops >= 15 or chance(rng, 0.1)) + number


def front(rng, src, dst, payload):
    """What stands before a payload: mostly a bare MAC header."""
    if src and dst and chance(rng, 0.2):
        one = relayed(rng, src, dst)
        if len(one) + len(payload) <= 127:
            return one
    return header(rng, src, dst)


def room(src, dst):
    """Bytes behind the longest MAC header that `header` makes for these addresses."""
    return 127 - (7 + len(src) + len(dst))


class Stream:
    """A datagram on its way: its parts, in order, and how to make a frame of any part of it."""

    def __init__(self, rng, world, src=None, dst=None, size=None, tag=None, step=None, packet_=None, first_end=None,
                 most=400, knobs_=None, **more):
        self.rng = rng
        self.src = rng.choice(world.gateways) if src is None else src
        self.dst = rng.choice(world.destinations) if dst is None else dst
        self.tag = rng.choice((7, 7, 8, rng.randrange(0x10000))) if tag is None else tag
        self.knobs = knobs(rng, world) if knobs_ is None else knobs_
        self.knobs.update(more)
        if "choose" in self.knobs and knobs_ is None:
            # One sender writes an address in one way: the choice is drawn once.
            drawn = rng.randrange(1 << 30)
            self.knobs["choose"] = lambda forms: forms[drawn % len(forms)]
        if packet_ is None:
            packet_ = packet(rng, world, self.src, self.dst, size_of(rng, most) if size is None else size)
        self.packet = packet_
        self.room = room(self.src, self.dst)
        self.size = len(packet_)
        compressed, self.covered = f.compress(packet_, self.src, self.dst, **self.knobs)
        self.most_first = (self.covered + self.room - 4 - len(compressed)) // 8 * 8
        if first_end is None:
            first_end = rng.choice((self.covered, self.covered, self.covered + 8, self.most_first))
        if step is None:
            step = rng.choice((8, 16, 24, 48, 96)) if self.size < 300 else rng.choice((48, 80, 96))
        self.parts = f.cut(packet_, self.tag, self.src, self.dst, self.room, min(first_end, self.most_first), step,
                           **self.knobs)

    def frame(self, part):
        return front(self.rng, self.src, self.dst, part.payload) + part.payload

    def frames(self):
        return [self.frame(part) for part in self.parts]

    def part(self, begin, end):
        """Another part of the same datagram; from byte 0 it is a first part."""
        if begin == 0:
            return f.first_part(self.packet, self.tag, max(end, self.covered), self.src, self.dst, **self.knobs)
        return f.later_part(self.packet, self.tag, begin, end)

    def like(self, **changes):
        """The same parts of a datagram with other knobs, or under another key."""
        other = object.__new__(Stream)
        other.__dict__.update(self.__dict__)
        k = dict(self.knobs)
        for name in ("elide", "nhc", "plain_ports", "inline_hop", "inline_traffic"):
            if name in changes:
                k[name] = changes.pop(name)
        other.__dict__.update(changes)
        other.knobs = k
        other.parts = [other.part(part.begin, part.end) for part in self.parts]
        return other


# ------------------------------------------------------------------------------------------------------------- timing

def timed(rng, frames, start, most=40):
    """Frames with times that never go back, from `start`."""
    events, now = [], start
    for frame in frames:
        events.append((now, frame))
        now += rng.choice((0, 1, rng.randrange(most + 1)))
    return events


def interleave(rng, lists):
    """One order of several lists that keeps the order of each."""
    lists = [list(one) for one in lists if one]
    result = []
    while lists:
        one = rng.choice(lists)
        result.append(one.pop(0))
        if not one:
            lists.remove(one)
    return result


# ------------------------------------------------------------------------------------------------------------- scenes

def good(rng, world, start):
    """Several gateways, several datagrams, out of order, with repeats."""
    lists = []
    for _ in range(rng.choice((1, 2, 2, 3, 4))):
        frames = Stream(rng, world, most=rng.choice((100, 200, 500))).frames()
        if chance(rng, 0.5):
            rng.shuffle(frames)
        for _ in range(rng.choice((0, 0, 1, 2))):
            again = rng.randrange(len(frames))
            frames.insert(rng.randrange(again + 1, len(frames) + 1), frames[again])
        lists.append(frames)
    return timed(rng, interleave(rng, lists)[:40], start)


def long(rng, world, start):
    """One datagram of up to 2,047 bytes."""
    size = rng.choice((2047, 2046, 2040, 2041, 1280, rng.randrange(600, 2048)))
    frames = Stream(rng, world, dst=f.BROADCAST, size=size, step=112, first_end=999).frames()
    if chance(rng, 0.5):
        rng.shuffle(frames)
    if chance(rng, 0.3):
        frames.append(rng.choice(frames))
    return timed(rng, frames, start)


def same_tag(rng, world, start):
    """The customer's story: one tag and size, several gateways or destinations, interleaved."""
    size, tag = rng.choice((96, 104, 120, 161)), rng.randrange(0x10000)
    step, first_end = rng.choice((8, 16, 24)), rng.choice((48, 56))
    lists = []
    dst = rng.choice(world.destinations)
    for _ in range(rng.choice((2, 2, 3, 4))):
        src = rng.choice(world.gateways)
        if chance(rng, 0.3):
            dst = rng.choice(world.destinations)
        delta = rng.choice((0, 0, 0, 1, -8, 8))
        other_tag = tag if chance(rng, 0.75) else tag ^ rng.choice((1, 0x100, 0x8000))
        stream = Stream(rng, world, src, dst, size + delta, other_tag, step, first_end=first_end, choose=f.shortest)
        frames = stream.frames()
        if chance(rng, 0.3):
            rng.shuffle(frames)
        lists.append(frames)
    return timed(rng, interleave(rng, lists)[:36], start)


def flip(rng, frame, lowest):
    """One bit of a frame turned, at or behind `lowest`."""
    at = rng.choice((lowest, len(frame) - 1, rng.randrange(lowest, len(frame)))) if lowest < len(frame) else 0
    return frame[:at] + bytes([frame[at] ^ 1 << rng.randrange(8)]) + frame[at + 1:]


def variant(rng, stream, part):
    """A part that stands at, beside or across `part`."""
    begin, end, size = part.begin, part.end, stream.size
    most = 88
    kind = rng.randrange(12)
    unit_end = (end + 7) // 8 * 8
    if kind == 0:
        return f.Part(begin, end, flip(rng, part.payload, 5 if begin else len(part.payload) - max(1, end - 48)))
    if kind == 1 and end - begin > 8:
        return stream.part(begin, unit_end - 8)
    if kind == 2 and end < size:
        return stream.part(begin, min(unit_end + 8, size, begin + most) if begin else min(unit_end + 8, size))
    if kind == 3 and unit_end - begin > 8:
        return stream.part(begin + 8, end)
    if kind == 4 and begin > 8:
        return stream.part(begin - 8, min(end, begin - 8 + most))
    if kind == 5 and begin > 8 and end < size:
        return stream.part(begin - 8, min(unit_end + 8, size, begin - 8 + most))
    if kind == 6 and begin > 8:
        return stream.part(begin - 8, begin)
    if kind == 7 and end < size:
        return stream.part(unit_end, min(unit_end + 8, size))
    if kind == 8:
        first = rng.randrange(1, (size + 7) // 8)
        return stream.part(first * 8, min(first * 8 + 8 * rng.randrange(1, 5), size))
    if kind == 9 and begin > 8:
        return stream.part(begin - 8, min(begin + 8, size))
    if kind == 10 and begin:
        return f.Part(begin, end, part.payload[:-1] + bytes([part.payload[-1] ^ 0xff]))
    return part


def clash(rng, world, start):
    """Parts that clash with what was taken, at every boundary, and what comes after."""
    stream = Stream(rng, world, size=rng.choice((72, 88, 96, 101, 120, 128, 133)), step=rng.choice((8, 16, 24)))
    parts = list(stream.parts)
    if chance(rng, 0.5):
        rng.shuffle(parts)
    frames = [stream.frame(part) for part in parts]
    taken = rng.randrange(1, len(parts) + 1)
    order = frames[:taken]
    for _ in range(rng.choice((1, 1, 2, 3))):
        other = variant(rng, stream, rng.choice(parts[:taken]))
        if len(other.payload) > stream.room:
            continue
        order.append(stream.frame(other))
        if chance(rng, 0.3):
            order.append(rng.choice(order))
    order += frames[taken:]
    if chance(rng, 0.5):
        order += frames[:rng.randrange(len(frames) + 1)]
    return timed(rng, order[:30], start)


def sizes(rng, world, start):
    """Sizes at the edges: 39, 40, 41, 47, 48, 2047, and those that 11 bits cannot hold."""
    order = []
    src, dst = rng.choice(world.gateways), rng.choice(world.destinations)
    for _ in range(rng.randrange(2, 6)):
        size = rng.choice((0, 1, 39, 40, 41, 47, 48, 49, 2047, 2048, 2048 + 41, 2048 + 48))
        real = rng.choice((max(40, size & 0x7ff), 40, 41, 47, 48, 56))
        base = packet(rng, world, src, dst, min(real, 120))
        k = knobs(rng, world)
        k.pop("choose", None)
        tag = rng.choice((7, rng.randrange(0x10000)))
        head = f.first_part(base, tag, min(len(base), rng.choice((40, 48, 41, 47, 49, 56))), src, dst, size=size, **k)
        units = rng.choice((0, 4, 5, 6, 254, 255))
        tail = f.fragn(size, tag, units) + rng.randbytes(rng.choice((0, 1, 7, 8, 9, 16)))
        pair = [head.payload, tail]
        if size < 40:
            # A part that would be a good one if the size were.
            unit = rng.choice((1, 2, 3, 4))
            pair.append(f.fragn(size, tag, unit) + rng.randbytes(max(0, min(rng.choice((8, 39)), size - 8 * unit))))
        if size in (41, 49) or chance(rng, 0.3):
            at = 5 if size < 48 else 6
            pair.append(f.fragn(size, tag, at) + rng.randbytes(max(0, min(80, (size & 0x7ff) - 8 * at))))
        if chance(rng, 0.4):
            rng.shuffle(pair)
        order += [header(rng, src, dst) + payload for payload in pair]
    return timed(rng, [frame for frame in order if len(frame) <= 127], start)


def last_unit(rng, world, start):
    """Parts at and past the end: offsets at the last unit, lengths that are no multiple of 8, ends beyond the size."""
    size = rng.choice((2047, 2046, 2041, 2040, 2039, 100, 101, 103, 104, 105))
    stream = Stream(rng, world, dst=f.BROADCAST, size=size, step=rng.choice((48, 96, 112)), first_end=96)
    last = size // 8 if size % 8 else size // 8 - 1
    order = []
    for _ in range(rng.randrange(2, 7)):
        unit = rng.choice((last, last, last - 1, last + 1, 255, 254))
        length = rng.choice((size - 8 * unit if 0 < size - 8 * unit < 80 else 8, 1, 7, 8, 9, 15, 16, 0, size % 8, 12))
        unit = max(0, min(255, unit))
        data = (stream.packet[8 * unit:] + rng.randbytes(80))[:length]
        order.append(header(rng, stream.src, stream.dst) + f.fragn(size, stream.tag, unit) + data)
    whole = stream.frames() if size < 200 or chance(rng, 0.3) else stream.frames()[-3:]
    if chance(rng, 0.5):
        rng.shuffle(whole)
    at = rng.randrange(len(whole) + 1)
    return timed(rng, whole[:at] + order + whole[at:], start)


def ageing(rng, world, start):
    """Parts around 60 seconds after an opening."""
    lists = []
    for _ in range(rng.choice((1, 1, 2, 3))):
        stream = Stream(rng, world, size=rng.choice((56, 64, 72, 80)), step=rng.choice((8, 16)))
        frames = stream.frames()
        if chance(rng, 0.5):
            rng.shuffle(frames)
        begin = start + rng.choice((0, 0, 1, 2, rng.randrange(100)))
        split = rng.randrange(1, len(frames) + 1)
        between = chance(rng, 0.4)
        events = [(begin + (rng.randrange(LIFETIME) if between and i else 0), frame) for i, frame in enumerate(frames[:split])]
        late = begin + rng.choice(EDGES)
        if world.top > 2 ** 33 and chance(rng, 0.2):
            late = begin + 2 ** 32 * rng.choice((1, 2, 2 ** 16)) + rng.choice((0, 5, *EDGES))
        rest = frames[split:]
        if chance(rng, 0.4):
            rest = rest + frames[:split]
        if chance(rng, 0.3):
            rest = [frames[rng.randrange(split)]] + rest
        if chance(rng, 0.2):
            events.append((begin + rng.randrange(1, LIFETIME), frames[0]))
        events += [(late, frame) for frame in rest]
        if chance(rng, 0.3):
            events.append((begin + rng.choice(EDGES), noise_frame(rng, world)))
        lists.append(events)
    events = sorted((event for one in lists for event in one), key=lambda event: event[0])
    return events[:36]


def clock(rng, world, start):
    """A clock that goes back, for a while."""
    events = good(rng, world, start + rng.choice((0, 1, 1000, LIFETIME)))[:14]
    result = []
    for time, frame in events:
        if chance(rng, 0.25):
            result.append((max(0, time - rng.choice((1, 1, 2, 1000, LIFETIME))), frame))
        if chance(rng, 0.1):
            # A frame that is refused but takes the time, so that those behind it come too early.
            result.append((time + rng.choice((1, 10, 1000)), noise_frame(rng, world)))
        if chance(rng, 0.9):
            result.append((time, frame))
    return result


def slots(rng, world, start):
    """Many openings: the fourth slot of a gateway, the others' reserve, slots freed by cover, clash and age."""
    now, events, pending = start, [], []
    favourites = [rng.choice(world.gateways) for _ in range(rng.choice((1, 2, 3)))]
    dst = rng.choice(world.destinations)
    tag = rng.randrange(0x8000)
    for _ in range(rng.randrange(8, 31)):
        what = rng.randrange(20)
        if what < 11 or not pending:
            src = rng.choice(favourites) if chance(rng, 0.6) else rng.choice(world.gateways)
            tag += 1
            if chance(rng, 0.3):
                stream = Stream(rng, world, src, dst, rng.choice((56, 64)), tag, 8, first_end=48)
                parts = stream.parts
                if len(parts) > 1 and chance(rng, 0.5):
                    parts = parts[::-1]
                frames = [stream.frame(part) for part in parts]
            else:
                frames = [header(rng, src, dst) + f.fragn(48, tag, 5) + rng.randbytes(8)]
                frames.append(flip(rng, frames[0], len(frames[0]) - 8))
            events.append((now, frames[0]))
            pending.append(frames[1:] + [frames[0]])
        elif what < 16:
            frames = rng.choice(pending)
            events.append((now, frames.pop(0)))
            if not frames:
                pending.remove(frames)
        elif what < 18:
            now += rng.choice((0, 1, 20000, 30000, LIFETIME - 1, LIFETIME))
        elif what < 19:
            events.append((now, noise_frame(rng, world)))
        else:
            # A bad part of a key that is not open.
            src = rng.choice(favourites)
            events.append((now, header(rng, src, dst) + f.fragn(48, tag + 0x4000, 5) + rng.randbytes(rng.choice((0, 7, 9)))))
        now += rng.choice((0, 0, 1, 5))
    return events


def late(rng, world, start):
    """Repeats after the cover, which open a slot of their own; then the datagram once more."""
    stream = Stream(rng, world, size=rng.choice((48, 56, 64, 72, 90)), step=rng.choice((8, 16)))
    frames = stream.frames()
    order = list(frames)
    for _ in range(rng.choice((1, 2, 3))):
        order.append(rng.choice(frames))
    if chance(rng, 0.6):
        order += frames
    if chance(rng, 0.4):
        others = [Stream(rng, world, stream.src, stream.dst, 56, stream.tag + n & 0xffff) for n in (1, 2, 3, 4)]
        order += [other.frames()[-1] for other in others]
    return timed(rng, order, start)


def elided(rng, world, start):
    """First parts whose checksum is elided against the same ones with a carried checksum, 0 and others."""
    src, dst = rng.choice(world.gateways), rng.choice(world.destinations)
    size = rng.choice((48, 56, 57, 63, 64, 72, 81))
    zero = chance(rng, 0.6)
    base = packet(rng, world, src, dst, size, udp=True)
    if base[6] != 17 or len(base) < 48:
        return late(rng, world, start)
    if zero:
        base = base[:46] + b"\0\0" + base[48:]
    stream = Stream(rng, world, src, dst, packet_=base, nhc=True, first_end=48, step=rng.choice((8, 16)))
    twins = [stream.like(elide=True), stream.like(elide=False), stream.like(nhc=False)]
    order = []
    for part in range(len(stream.parts)):
        for _ in range(rng.choice((1, 2, 3) if part == 0 else (1, 1, 2))):
            twin = rng.choice(twins)
            if part < len(twin.parts):
                order.append(twin.frame(twin.parts[part]))
    if chance(rng, 0.5):
        rng.shuffle(order)
    if chance(rng, 0.5):
        order += rng.choice(twins).frames()
    return timed(rng, order, start)


def edge_sum(rng, packet_, at):
    """The same with a word of its data such that the sum comes out as 0, so that ffff must stand for it (or 0 does), or
    that the plain sum ends in ffff or a little below, so that a carry carries once more, or that the checksum is 1. Its
    UDP header stands at `at`; the IPv6 header just outside is the outer one."""
    if len(packet_) < at + 10:
        return packet_
    src, dst = packet_[8:24], packet_[24:40]
    udp = packet_[at:at + 6] + bytes(4) + packet_[at + 10:]
    word = f.udp_checksum(src, dst, udp)               # the sum comes out 0
    kind = rng.randrange(4)
    if kind == 1:
        word = (word - 1) % 0xffff                     # and 1
    elif kind > 1:
        plain = f.plain_sum(src + dst + len(udp).to_bytes(2, "big") + bytes([0, 17]) + udp)
        word = (0xffff - plain - rng.choice((0, 0, 1, 2, plain >> 16))) % 0x10000
    udp = udp[:8] + word.to_bytes(2, "big") + udp[10:]
    carried = 0 if kind == 0 and chance(rng, 0.4) else f.udp_checksum(src, dst, udp)
    return packet_[:at] + udp[:6] + carried.to_bytes(2, "big") + udp[8:]


def bent(rng, packet_, at):
    """The datagram with something wrong, or exchanged so that its sum stays the same; its UDP header stands at `at`."""
    kind = rng.randrange(10)
    place = rng.choice((at, at + 2, at + 6, at + 7, len(packet_) - 1, rng.randrange(at, len(packet_))))
    if kind == 0:
        return packet_[:at + 6] + rng.choice((b"\0\0", b"\0\0", b"\xff\xff", rng.randbytes(2))) + packet_[at + 8:]
    if kind == 1:
        place = rng.randrange(8, 40)                   # an address
    if kind == 2 and len(packet_) >= at + 12:
        # Two words of the data exchanged: the sum holds.
        return packet_[:at + 8] + packet_[at + 10:at + 12] + packet_[at + 8:at + 10] + packet_[at + 12:]
    if kind == 3 and len(packet_) >= at + 10:
        # Two bytes of a word exchanged.
        return packet_[:at + 8] + packet_[at + 8:at + 10][::-1] + packet_[at + 10:]
    if kind == 4:
        carried = int.from_bytes(packet_[at + 6:at + 8], "big")
        return packet_[:at + 6] + ((carried + rng.choice((1, -1, 0xff, 256))) % 0x10000).to_bytes(2, "big") + packet_[at + 8:]
    if place in (at + 4, at + 5):                      # the length is not carried
        place = at + 6
    return packet_[:place] + bytes([packet_[place] ^ 1 << rng.randrange(8)]) + packet_[place + 1:]


def sums(rng, world, start):
    """Carried checksums that are right, wrong by a bit at any place, 0, ffff and with every carry; behind chains, behind
    routing headers and in tunnels; in whole frames and in parts, sent again once they were refused."""
    order = []
    for _ in range(rng.choice((1, 2, 3, 4))):
        src, dst = rng.choice(world.gateways), rng.choice(world.destinations)
        k = chain_knobs(rng, world)
        k.update(elide=chance(rng, 0.1), nhc=chance(rng, 0.95), chain=7)
        if chance(rng, 0.5):
            size = rng.choice((48, 49, 50, 51, 56, 57, 63, 64, 65, 72, 80, 81))
            made = packet(rng, world, src, dst, size, udp=True)
        else:
            made = chain_packet(rng, world, src, dst, k, 40, 70, udp=True)
        at = f.headers_of(made, 7, True)[-1][1]
        if chance(rng, 0.3) and at == 40:
            made = edge_sum(rng, made, at)
        elif chance(rng, 0.6) and len(made) >= at + 8:
            made = bent(rng, made, at)
        compressed, covered = f.compress(made, src, dst, **k)
        if chance(rng, 0.5) and len(compressed) + len(made) - covered <= room(src, dst):
            order.append(header(rng, src, dst) + compressed + made[covered:])
            continue
        stream = Stream(rng, world, src, dst, packet_=made, knobs_=k, step=rng.choice((8, 16, 48)))
        frames = stream.frames()
        if chance(rng, 0.4):
            rng.shuffle(frames)
        if chance(rng, 0.3):
            frames += rng.choice((frames, [rng.choice(frames)], frames[-1:]))
        alone = stream.part(0, stream.size)
        if chance(rng, 0.3) and len(alone.payload) <= stream.room:
            # All of it in one first part, with the key open or not.
            frames.insert(rng.randrange(len(frames) + 1), stream.frame(alone))
        order += frames
    return timed(rng, order[:36], start)


def odd(rng, world, start):
    """Odd lengths: of datagrams, of parts, and later parts at byte 0."""
    stream = Stream(rng, world, size=rng.choice((49, 51, 53, 57, 61, 63, 65, 71, 73)), step=8, elide=chance(rng, 0.7))
    order = stream.frames()
    for _ in range(rng.choice((1, 2))):
        part = rng.choice(stream.parts)
        kind = rng.randrange(4)
        if kind == 0:
            payload = part.payload[:-rng.randrange(1, 4)]
        elif kind == 1:
            payload = part.payload + rng.randbytes(rng.randrange(1, 9))
        elif kind == 2:
            payload = f.fragn(stream.size, stream.tag, 0) + rng.randbytes(rng.choice((8, 16, 40)))
        else:
            payload = f.fragn(stream.size, stream.tag, part.begin // 8)
        order.insert(rng.randrange(len(order) + 1), header(rng, stream.src, stream.dst) + payload)
    return timed(rng, order, start)


def whole(rng, world, start):
    """Datagrams that fit one frame, or come as one first part."""
    order = []
    for _ in range(rng.randrange(1, 6)):
        src = rng.choice(world.gateways) if chance(rng, 0.9) else rng.choice(world.strangers)
        dst = rng.choice(world.destinations)
        base = packet(rng, world, src, dst, rng.choice((40, 41, 48, 49, 50, 55, 64, 70)))
        k = knobs(rng, world)
        k.pop("choose", None)
        compressed, covered = f.compress(base, src, dst, **k)
        payload = compressed + base[covered:]
        if chance(rng, 0.3):
            payload = f.frag1(len(base), rng.choice((7, rng.randrange(0x10000)))) + payload
        frame = front(rng, src, dst, payload) + payload
        if len(frame) <= 127:
            order.append(frame)
    return timed(rng, order, start)


def chain_stream(rng, world, most=None):
    """A datagram with a chain, cut into parts."""
    src, dst = rng.choice(world.gateways), rng.choice(world.destinations)
    k = chain_knobs(rng, world)
    made = chain_packet(rng, world, src, dst, k, rng.choice((60, 150, 400)) if most is None else most, room(src, dst) - 12)
    return Stream(rng, world, src, dst, packet_=made, knobs_=k)


def chain_frame(rng, world, src=None, **more):
    """One frame with a whole datagram that has a chain, or with its first part; and where its payload begins."""
    src, dst = rng.choice(world.gateways) if src is None else src, rng.choice(world.destinations)
    k = chain_knobs(rng, world)
    k.update(more)
    head = header(rng, src, dst)
    left = 127 - len(head)
    made = chain_packet(rng, world, src, dst, k, 40, left)
    compressed, covered = f.compress(made, src, dst, **k)
    payload = (compressed + made[covered:])[:left]
    if chance(rng, 0.25):
        # One first part: the whole, or what a longer datagram begins with.
        size = len(made) + rng.choice((0, 0, 0, 1, 7, 8, 9, -1, -2, -7, covered - len(made)))
        end = rng.choice((len(made), covered + (len(made) - covered) // 8 * 8, covered))
        payload = f.frag1(size, rng.choice((7, rng.randrange(0x10000)))) + compressed + made[covered:end]
    return (head + payload)[:127], len(head)


def chains(rng, world, start):
    """Chains of each kind and depth, in whole frames and cut into parts, out of order and with repeats, beside datagrams
    that have none."""
    lists = []
    for _ in range(rng.choice((1, 1, 2, 3))):
        if chance(rng, 0.4):
            lists.append([chain_frame(rng, world)[0] for _ in range(rng.choice((1, 2, 3, 5)))])
            continue
        stream = chain_stream(rng, world) if chance(rng, 0.85) else Stream(rng, world, most=200)
        frames = stream.frames()
        if chance(rng, 0.5):
            rng.shuffle(frames)
        for _ in range(rng.choice((0, 0, 1))):
            frames.insert(rng.randrange(len(frames) + 1), rng.choice(frames))
        if chance(rng, 0.2):
            part = variant(rng, stream, rng.choice(stream.parts))
            if len(part.payload) <= stream.room:
                frames.insert(rng.randrange(len(frames) + 1), stream.frame(part))
        lists.append(frames)
    return timed(rng, interleave(rng, lists)[:36], start)


def compressed_iphc(rng, world, elided=0.7):
    """An IPHC header with a compressed next header, mostly of two bytes; none of its addresses is in line as a whole."""
    first = 0x7c | rng.choice((1, 2, 3))
    if chance(rng, elided):
        return bytes([first, 0x33])
    if world.contexts and chance(rng, 0.5):
        number = rng.randrange(min(16, len(world.contexts)))
        return bytes([first, 0x80 | rng.choice((0x73, 0x37, 0x77)), number << 4 | number])
    sam, dam = rng.choice((1, 2, 3)), rng.choice((1, 2, 3))
    return bytes([first, sam << 4 | dam]) + rng.randbytes((0, 8, 2, 0)[sam] + (0, 8, 2, 0)[dam])


def short_links(rng, world, count):
    """`count` compressed headers of few bytes, each with a compressed next header, and their length in full."""
    links, full = b"", 0
    mostly = rng.choice((KINDS, (f.HOP_BY_HOP,), (f.TUNNELED,), (f.DESTINATION, f.TUNNELED), (f.ROUTING, f.HOP_BY_HOP)))
    for _ in range(count):
        number = rng.choice(mostly)
        if number == f.TUNNELED:
            links += b"\xee" + compressed_iphc(rng, world, 0.9)
            full += 40
        elif number in f.OPTIONS:
            size = rng.choice((0, 0, 0, 1, 5, 6, 7))
            links += f.extension_nhc(f.EID[number], rng.randbytes(size))
            full += (size + 9) // 8 * 8
        else:
            links += f.extension_nhc(f.EID[number], bytes(6))
            full += 8
    return links, full


def last_link(rng, world):
    """What may end a chain, mostly something that is refused; with its bytes, or some of them, behind it or not."""
    kind = rng.randrange(14)
    rest = rng.choice((b"", b"", bytes(1), bytes(8), rng.randbytes(rng.randrange(12)), bytes.fromhex("7a333a")))
    number = rng.choice((f.HOP_BY_HOP, f.ROUTING, f.DESTINATION, f.MOBILITY))
    if kind == 0:
        return bytes([rng.choice((0xe4, 0xe5, 0xea, 0xeb, 0xec, 0xed))]) + rest
    if kind == 1:
        return b"\xef" + rng.choice((b"", b"\x7a", bytes.fromhex("7a333a"), bytes.fromhex("7e33f712"), rest))
    if kind == 2:
        return b"\xee" + rng.choice((b"", b"\x7a", b"\x7a\x33", b"\x41", b"\x41\x33", bytes.fromhex("7b343a"), bytes.fromhex("7b3c3a"),
                                   bytes.fromhex("7b733a"), bytes.fromhex("7a373a"), bytes.fromhex("7e33"), bytes.fromhex("5a333a"),
                                   bytes.fromhex("7af7f03a"), bytes.fromhex("7b743a"), rest))
    if kind == 3:
        # A routing or mobility header of a bad length, its bytes there or not.
        eid, size = rng.choice((1, 4)), rng.choice((0, 1, 5, 7, 8, 13, 15, 255, rng.randrange(256)))
        have = rng.choice((0, size, max(0, size - 1)))
        return f.extension_nhc(eid, bytes(min(have, 30)), rng.choice((None, 58)), length=size) + rng.choice((b"", rest))
    if kind == 4:
        # A header cut short, at any of its bytes.
        size = rng.choice((6, 14))
        whole_ = f.extension_nhc(f.EID[number], rng.randbytes(size), rng.choice((None, 58)))
        return whole_[:rng.randrange(len(whole_) + 1)]
    if kind == 5:
        # Options longer than what is there; or all there, up to the end.
        have = rng.randrange(12)
        return f.extension_nhc(rng.choice((0, 3)), rng.randbytes(have), rng.choice((None, 58, 17)),
                               length=have + rng.choice((0, 0, 1, 100)))
    if kind == 6:
        return bytes([rng.choice((0xd0, 0xdf, 0xf8, 0xff, 0x00, 0x7a, 0x60, rng.randrange(256)))]) + rest
    if kind < 9:
        udp = f.udp_nhc(port(rng), port(rng), rng.choice((None, None, 0x1234)))
        return udp[:rng.randrange(len(udp) + 1)]
    if kind < 12:
        return f.udp_nhc(port(rng), port(rng), rng.choice((None, None, None, 0, 0x1234))) + rest
    return f.extension_nhc(f.EID[number], bytes(6), rng.choice((58, 17, 59, 0, 41))) + rest


def chain_ends(rng, world, start):
    """Chains of up to eight headers, mostly just as many or one less, with an end that may be refused: what counts as
    the ninth, and which of two faults is named."""
    order = []
    for _ in range(rng.randrange(3, 12)):
        src = rng.choice(world.gateways)
        head = header(rng, src, rng.choice(world.destinations))
        count = rng.choice((0, 1, 2, 3, 5, 6, 6, 7, 7, 7, 7, 8))
        links, full = short_links(rng, world, count)
        links = compressed_iphc(rng, world) + links + last_link(rng, world)
        if chance(rng, 0.3):
            size = rng.choice((39, 40, 40 + full, 48 + full, 56 + full, 48 + full + rng.randrange(1, 20), 2047))
            links = f.frag1(size, rng.choice((7, rng.randrange(0x10000)))) + links
        if len(head) + len(links) <= 127:
            order.append(head + links)
    return timed(rng, order, start)


def cut_chains(rng, world, start):
    """A frame with a chain cut short at one byte after the other, as far as its headers go."""
    frame, begin = chain_frame(rng, world)
    at = rng.randrange(begin, len(frame) + 1) if len(frame) - begin > 34 else begin
    return timed(rng, [frame[:end] for end in range(at, min(len(frame) + 1, at + 34))], start)


def bent_chains(rng, world, start):
    """A frame with a chain with one of its bits turned, at several places; and the frame itself."""
    frame, begin = chain_frame(rng, world)
    order = [frame]
    for _ in range(rng.randrange(4, 20)):
        at = rng.randrange(begin, min(len(frame), begin + rng.choice((8, 20, 127))))
        order.append(frame[:at] + bytes([frame[at] ^ 1 << rng.randrange(8)]) + frame[at + 1:])
    return timed(rng, order, start)


def iphc_noise(rng, world):
    """A payload that begins as IPHC does, with any modes, and often the bytes they need."""
    if chance(rng, 0.15):
        # Both addresses elided and a compressed next header, cut short or not.
        head = rng.choice((rng.randrange(0xe0, 0xf8), rng.randrange(256)))
        return bytes([0x7c | rng.randrange(1, 4), 0x33, head]) + rng.randbytes(rng.choice((0, 0, 1, 1, 2, 3, 4, 5, 6, 7)))
    base = 0x6000 | rng.randrange(0x2000)
    if chance(rng, 0.5):
        base |= 0x1800                              # no traffic class and flow label
    if chance(rng, 0.6) and not world.contexts:
        base &= ~0x0044
    payload = base.to_bytes(2, "big")
    if base & 0x80 and chance(rng, 0.7):
        payload += bytes([rng.choice((0x00, 0x01, 0x10, 0x11, 0x23, 0xf0, 0x0f))])
    payload += rng.randbytes(rng.choice((0, 1, 2, 3, 4, 8, 12, 20, 30, 40, 50)))
    if base & 0x0400 and chance(rng, 0.6):
        # A next header compressed too: put a UDP or extension header where it is most likely looked for.
        head = rng.choice((0xf0, 0xf1, 0xf2, 0xf3, 0xf4, 0xf5, 0xf6, 0xf7, 0xe0, 0xee, 0xf8, 0xd0))
        payload = payload[:2] + bytes([head]) * rng.randrange(1, 60)
    return payload


def mac_noise(rng, src, dst):
    """A MAC header that is out of the ordinary."""
    kind = rng.randrange(12)
    if kind == 0:
        return header(rng, src, b"")
    if kind == 1:
        return header(rng, b"", dst)
    if kind == 2:
        return header(rng, b"", b"")
    if kind == 3:
        control = rng.randrange(64)
        needed = 1 + (0 if control & 0x20 else 4) + (0, 1, 5, 9)[control >> 3 & 3]
        security = bytes([control]) + rng.randbytes(max(0, needed - 1 - rng.choice((0, 0, 0, 1))))
        return f.mac(src, dst, security=security, version=rng.choice((0, 1, 2)))
    if kind == 4:
        one = bytearray(f.mac(src, dst, frame_type=rng.choice((0, 2, 3, 4, 5, 6, 7)), version=rng.choice((0, 1, 2))))
        one[1] |= rng.choice((0, 0, 1, 2, 3))
        return bytes(one)
    if kind == 5:
        return f.mac(src, dst, rng.choice((0, None)), version=2, compress=chance(rng, 0.5), elements=chance(rng, 0.3))
    if kind == 6:
        one = bytearray(f.mac(src, dst))
        one[1] |= rng.choice((0x30, 0x10, 0x20))
        return bytes(one)
    if kind == 7:
        one = bytearray(f.mac(src, dst))
        one[1] = one[1] & 0x33 | rng.choice((0x04, 0x40, 0x44, 0x48, 0x84, 0x08, 0x80, 0x00, 0x0c, 0xc0, 0xcc))
        return bytes(one)
    if kind == 8:
        one = bytearray(f.mac(src, dst, version=rng.choice((0, 1))))
        one[1] |= rng.choice((0x01, 0x02, 0x03))   # suppression, information elements: nothing below version 2
        return bytes(one)
    if kind == 9:
        return header(rng, dst, src)
    return f.mac(src, dst, version=rng.choice((0, 1, 2)), compress=chance(rng, 0.5))


def header_alone(rng, src, dst):
    """A header of any type and version with nothing behind it, whole, a byte short or a byte more, or two bytes of it."""
    kind, version = rng.choice((0, 1, 1, 2, 3, 5, 5, 7)), rng.choice((0, 1, 2, 2, 2))
    src, dst = rng.choice(((src, dst), (src, dst), (b"", b""), (b"", b""), (b"", dst)))
    one = bytearray(f.mac(src, dst, version=version, frame_type=kind, compress=chance(rng, 0.5)) + b"\x7a")
    one[1] |= rng.choice((0, 1, 1, 1, 2, 3))
    return bytes(one[:rng.choice((2, len(one) - 3, len(one) - 2, len(one) - 2, len(one) - 1, len(one) - 1, len(one)))])


def relay_noise(rng, world, src, dst):
    """Headers of relays in any order and number, or cut."""
    origin = rng.choice((src, src, rng.choice(world.strangers))) or f.short(5)
    final = dst or f.short(6)
    pieces = [f.mesh(origin, final, rng.choice((0, 7, 14, 15, 200)), chance(rng, 0.2) or None) if chance(rng, 0.5)
              else f.broadcast(rng.randrange(256)) for _ in range(rng.choice((1, 1, 2, 2, 3)))]
    behind = rng.choice((b"", bytes.fromhex("7a333a01020304"), bytes.fromhex("e030000705aaaaaaaaaaaaaaaa"), b"\x50", b"\xb0",
                         b"\x51\x07", b"\x57"))
    headers = b"".join(pieces)
    if chance(rng, 0.3):
        headers, behind = headers[:rng.randrange(len(headers) + 1)], b""
    ends = rng.choice(((src, dst), (f.short(0x77), f.short(0x78)), (b"", dst), (src, b"")))
    return header(rng, *ends) + headers + behind


def noise_frame(rng, world):
    """A frame that is most likely refused somewhere."""
    src = rng.choice(world.gateways) if world.gateways and chance(rng, 0.85) else rng.choice(world.strangers)
    dst = rng.choice(world.destinations)
    kind = rng.randrange(14)
    if kind > 11:
        return header_alone(rng, src, dst)
    if kind > 9:
        return relay_noise(rng, world, src, dst)[:127]
    if kind == 0:
        return rng.randbytes(rng.choice((0, 1, 2, 3, 4, 9, 20, 127)))
    if kind < 4:
        frame = mac_noise(rng, src, dst) + rng.choice((iphc_noise(rng, world), bytes.fromhex("7a333a01020304"), b""))
    elif kind < 6:
        frame = header(rng, src, dst) + iphc_noise(rng, world)
    elif kind < 8:
        payload = iphc_noise(rng, world)
        frame = header(rng, src, dst) + f.frag1(rng.choice((40, 48, 56, 80, 96, 128, len(payload) + 40)), 7) + payload
    elif kind == 8:
        start = bytes([rng.choice((0x00, 0x41, 0x42, 0x50, 0x60, 0x7f, 0x80, 0xa0, 0xbf, 0xc0, 0xc7, 0xc8, 0xd0, 0xe0, 0xe7,
                                   0xe8, 0xf0, 0xff))])
        frame = header(rng, src, dst) + start + rng.randbytes(rng.choice((0, 1, 2, 3, 4, 5, 12)))
    else:
        stream = Stream(rng, world, src, dst, size=rng.choice((48, 56, 72))) if src else None
        frame = rng.choice(stream.frames())
        frame = frame[:rng.randrange(len(frame) + 1)] if chance(rng, 0.5) else flip(rng, frame, 0)
    return frame[:127]


def noise(rng, world, start):
    return timed(rng, [noise_frame(rng, world) for _ in range(rng.randrange(2, 15))], start)


SCENES = ((good, 5), (long, 1), (same_tag, 3), (clash, 5), (sizes, 2), (last_unit, 2), (ageing, 3), (clock, 2), (slots, 4),
          (late, 2), (elided, 3), (odd, 2), (whole, 2), (noise, 6), (chains, 5), (chain_ends, 4), (cut_chains, 1),
          (bent_chains, 1), (sums, 4))


def starting_time(rng, top):
    """Where the clock stands: mostly near 0, now and then near `top`, the largest time there is."""
    return rng.choice((0, 0, 0, rng.randrange(1000), rng.randrange(LIFETIME * 2), rng.randrange(top + 1),
                       max(0, top - rng.randrange(LIFETIME * 3))))


def run(rng, world, most):
    """Some scenes, one behind the other or woven together: at most `most` events."""
    top = world.top
    now, events = starting_time(rng, top), []
    kinds = [scene for scene, weight in SCENES for _ in range(weight)]
    for _ in range(rng.choice((1, 1, 1, 2, 2, 3))):
        scene = rng.choice(kinds)(rng, world, now)
        if events and chance(rng, 0.4) and scene:
            merged = interleave(rng, [events, scene])
            events = merged if chance(rng, 0.1) else sorted(merged, key=lambda event: event[0])
        else:
            events += scene
        if events:
            last = events[-1][0]
            now = rng.choice((last, last, last + rng.randrange(100), last + rng.choice(EDGES)))
    if chance(rng, 0.15) and events:
        at = rng.randrange(len(events) + 1)
        time = events[at - 1][0] if at else events[0][0]
        events.insert(at, (time, noise_frame(rng, world)))
    if chance(rng, 0.1) and events:
        at = rng.randrange(len(events))
        if events[at][1]:
            events[at] = (events[at][0], flip(rng, events[at][1], 0))
    return [(min(time, top), frame[:127]) for time, frame in events[:most]]
