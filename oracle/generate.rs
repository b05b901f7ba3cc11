//! Command lines made up for the comparison: `gen KIND SEED COUNT`.
//!
//! A kind is either a walk over all values of something, then SEED COUNT stand for "part SEED of COUNT parts", or drawn, then for COUNT
//! lines from that seed. README.md says what each kind holds.

use std::io::{self, BufWriter, Write};
use std::ops::Range;

use crate::oracle::rules::{self, Control};
use crate::oracle::sink::Sink;
use crate::oracle::values::{self, BYTES, EXT, HOPS, KINDS_OF_LINK, LINKS, PORTS, ROOMS, Rng, SHORT_1234, WORDS, from_link};
use crate::wire::ieee802154::{self, Address, FrameType, FrameVersion, Pan};
use crate::wire::ip::Protocol;
use crate::wire::ipv6;
use crate::wire::sixlowpan::nhc::{ExtHeaderId, ExtHeaderRepr, UdpNhcRepr};
use crate::wire::sixlowpan::{NextHeader, frag, iphc};

/// The two numbers behind a kind.
#[derive(Clone, Copy)]
pub struct Numbers {
    seed: usize,
    count: usize,
}

impl Numbers {
    /// This part of a walk over so many values.
    fn part(&self, values: usize) -> Range<usize> {
        values * self.seed / self.count..values * (self.seed + 1) / self.count
    }
}

type Kind = fn(&mut Sink, &mut Rng, Numbers);

const KINDS: [(&str, Kind); 22] = [
    ("first-bytes", first_bytes),
    ("long-inputs", long_inputs),
    ("addresses", addresses),
    ("mac-controls", mac_controls),
    ("mac-writes", mac_writes),
    ("mac-random", mac_random),
    ("frag-words", frag_words),
    ("frag-writes", frag_writes),
    ("frag-random", frag_random),
    ("nhc-bytes", nhc_bytes),
    ("nhc-writes", nhc_writes),
    ("udp-random", udp_random),
    ("ext-random", ext_random),
    ("iphc-words", iphc_words),
    ("iphc-cuts", iphc_cuts),
    ("iphc-all-cuts", iphc_all_cuts),
    ("iphc-contexts", iphc_contexts),
    ("iphc-writes", iphc_writes),
    ("iphc-random", iphc_random),
    ("dispatch-random", dispatch_random),
    ("writes-random", writes_random),
    ("damaged", damaged),
];

/// Writes the lines of a kind.
pub fn write(kind: &str, seed: usize, count: usize, out: &mut dyn Write) -> io::Result<()> {
    let known = KINDS.iter().find(|k| k.0 == kind);
    let make = known.ok_or_else(|| io::Error::other(format!("gen: no kind {kind}")))?.1;
    let name: u64 = kind.bytes().fold(0, |n, b| n.wrapping_mul(257).wrapping_add(b.into()));
    let mut rng = Rng(name ^ (seed as u64) << 32);
    make(&mut Sink::new(out), &mut rng, Numbers { seed, count });
    Ok(())
}

/// Writes the lines of a kind to standard output.
pub fn run(kind: &str, seed: &str, count: &str) -> io::Result<()> {
    let number = |text: &str| text.parse().map_err(|_| io::Error::other(format!("gen: {text} is no number")));
    let mut out = BufWriter::with_capacity(1 << 16, io::stdout().lock());
    write(kind, number(seed)?, number(count)?, &mut out)?;
    out.flush()
}

// ---- What several readers share

/// Every first byte of every reader at the lengths around its header, over drawn bytes, zeros and ones.
fn first_bytes(sink: &mut Sink, rng: &mut Rng, numbers: Numbers) {
    let readers = ["dispatch", "nhc.dispatch", "frag.parse", "ext.parse", "udp.parse", "mac.parse", "addr.from"];
    for first in numbers.part(256) {
        for len in 0..=12 {
            for fill in 0..6 {
                let mut bytes: [u8; 12] = rng.bytes();
                if fill < 2 {
                    bytes = [0xff * fill; 12];
                }
                bytes[0] = first as u8;
                for reader in readers {
                    sink.read(reader, &bytes[..len]);
                }
                sink.iphc_read(&bytes[..len], rng.link(), rng.link(), &[]);
            }
        }
    }
}

/// Every reader at every length up to 512, so that a length kept in a byte would show.
fn long_inputs(sink: &mut Sink, rng: &mut Rng, numbers: Numbers) {
    for len in numbers.part(513) {
        long_input(sink, rng, len);
    }
}

/// Inputs of this length that begin as good headers, and a list of contexts of this length.
pub fn long_input(sink: &mut Sink, rng: &mut Rng, len: usize) {
    let readers: [(&str, &[u8]); 8] = [
        ("mac.parse", &[0x41, 0x88]),
        ("addr.from", &[]),
        ("dispatch", &[0x7a]),
        ("frag.parse", &[0xc5]),
        ("frag.parse", &[0xe5]),
        ("nhc.dispatch", &[0xf3]),
        ("ext.parse", &[0xe0]),
        ("udp.parse", &[0xf0]),
    ];
    let mut bytes: [u8; 512] = rng.bytes();
    for (reader, first) in readers {
        bytes[..first.len()].copy_from_slice(first);
        sink.read(reader, &bytes[..len]);
    }
    bytes[..2].copy_from_slice(&[0x60, 0x00]);
    sink.iphc_read(&bytes[..len], Some(EXT), Some(SHORT_1234), &[]);
    // SAC=1 SAM=11, DAC=1 DAM=10, contexts 15 and 14.
    sink.iphc_read(&[0x7a, 0xf6, 0xfe, 0x3a, 0xab, 0xcd], Some(EXT), None, &bytes[..len]);
}

/// `addr.from` at every length, `addr.info` and `key` over chosen and drawn addresses.
fn addresses(sink: &mut Sink, rng: &mut Rng, numbers: Numbers) {
    for _ in numbers.part(200) {
        for len in 0..=32 {
            sink.read("addr.from", &rng.bytes::<32>()[..len]);
        }
    }
    for place in numbers.part(65536) {
        sink.addr_info(Address::Short((place as u16).to_be_bytes()));
        sink.addr_info(Address::Extended(rng.bytes()));
    }
    for addr in LINKS.iter().flatten() {
        sink.addr_info(*addr);
    }
    for place in numbers.part(WORDS.len() * WORDS.len()) {
        for src in LINKS {
            for dst in LINKS {
                let (size, tag) = (WORDS[place / WORDS.len()], WORDS[place % WORDS.len()]);
                sink.key(src, dst, &any_fragment(rng, size, tag));
            }
        }
    }
}

fn any_fragment(rng: &mut Rng, size: u16, tag: u16) -> frag::Repr {
    if rng.one_in(2) {
        return frag::Repr::FirstFragment { size, tag };
    }
    let offset = if rng.one_in(2) { rng.byte() } else { rng.pick(&BYTES) };
    frag::Repr::Fragment { size, tag, offset }
}

/// Drawn bytes for the readers that look at one byte or at a length.
fn dispatch_random(sink: &mut Sink, rng: &mut Rng, numbers: Numbers) {
    for place in 0..numbers.count {
        let reader = ["dispatch", "nhc.dispatch", "addr.from"][place % 3];
        sink.read(reader, &rng.bytes::<12>()[..rng.below(13)]);
    }
}

/// Drawn values for every writer and for `key`, at a drawn room.
fn writes_random(sink: &mut Sink, rng: &mut Rng, numbers: Numbers) {
    let chosen = values::addresses();
    for _ in 0..numbers.count {
        let room = rng.pick(&ROOMS);
        let (size, tag) = (rng.word(), rng.word());
        match rng.below(8) {
            0 | 1 => sink.mac_write(&any_mac(rng), room),
            2 => sink.frag_write(&any_fragment(rng, size, tag), room),
            3 => sink.key(rng.link(), rng.link(), &any_fragment(rng, size, tag)),
            4 => sink.ext_write(rng.pick(&[0, 1, 2, 3, 4, 5, 7]), any_next(rng), rng.byte(), room),
            5 => sink.udp_write(&any_udp(rng), room),
            _ => {
                let (ll_src, ll_dst) = (rng.link(), rng.link());
                let (src, dst) = (rng.ipv6(&chosen, ll_src), rng.ipv6(&chosen, ll_dst));
                sink.iphc_write(&iphc_between(rng, src, ll_src, dst, ll_dst), room);
            }
        }
    }
}

// ---- MAC

/// Where the fields of the header end that a frame control implies, with this security control byte.
pub fn mac_bounds(control: &Control, security: u8) -> Vec<usize> {
    let mut bounds = vec![control.fields_at()];
    let mut add = |n: usize| bounds.push(bounds.last().unwrap() + n);
    if control.has_addressing() {
        let (dst_pan, dst, src_pan, src) = control.layout();
        let address = |mode| [0, 0, 2, 8][mode as usize];
        for n in [2 * dst_pan as usize, address(dst), 2 * src_pan as usize, address(src)] {
            add(n);
        }
    }
    if control.security() {
        let len = rules::security_len(security);
        let counter = if security & 0x20 == 0 { 4 } else { 0 };
        for n in [1, counter, len - 1 - counter] {
            add(n);
        }
    }
    bounds
}

/// The lengths at which something may change: each end of a field, one short and one more of it. Where the Rust reads a PAN or a sequence
/// number that the documents do not, its ends lie 1 to 3 further.
pub fn mac_lengths(control: &Control, security: u8) -> Vec<usize> {
    let mut lengths = vec![0, 1, 2, 3, 127, 128];
    if control.supported().is_ok() {
        let further = if control.listed().is_some() { 2 } else { 0 };
        for end in mac_bounds(control, security) {
            lengths.extend([end - 1, end, end + 1, end + further, end + further + 1]);
        }
    }
    lengths.sort_unstable();
    lengths.dedup();
    lengths
}

/// A frame with this frame control whose security control byte stands where 01 has it.
pub fn mac_frame(rng: &mut Rng, control: &Control, security: u8) -> [u8; 128] {
    let mut frame: [u8; 128] = rng.bytes();
    frame[..2].copy_from_slice(&control.0.to_le_bytes());
    if control.security() && control.supported().is_ok() {
        let bounds = mac_bounds(control, security);
        frame[bounds[bounds.len() - 4]] = security;
    }
    frame
}

/// All frame controls; with security on, over every key mode with and without a frame counter.
fn mac_controls(sink: &mut Sink, rng: &mut Rng, numbers: Numbers) {
    for fc in numbers.part(65536) {
        let control = Control(fc as u16);
        let modes = if control.security() && control.supported().is_ok() { 8 } else { 1 };
        for mode in 0..modes {
            let security = mode << 3 | rng.byte() & 0b1100_0111;
            let frame = mac_frame(rng, &control, security);
            for len in mac_lengths(&control, security) {
                sink.read("mac.parse", &frame[..len]);
            }
        }
    }
}

fn any_pan(rng: &mut Rng) -> Option<Pan> {
    if rng.one_in(4) { None } else { Some(Pan(rng.word())) }
}

/// A drawn header; half of them are Data frames of a known version.
pub fn any_mac(rng: &mut Rng) -> ieee802154::Repr {
    let odd = rng.one_in(2);
    ieee802154::Repr {
        frame_type: FrameType(if odd { rng.byte() } else { 1 }),
        security_enabled: rng.one_in(2),
        frame_pending: rng.one_in(2),
        ack_request: rng.one_in(2),
        sequence_number: if rng.one_in(4) { None } else { Some(rng.byte()) },
        pan_id_compression: rng.one_in(2),
        frame_version: FrameVersion(if odd { rng.byte() } else { rng.below(3) as u8 }),
        dst_pan_id: any_pan(rng),
        dst_addr: rng.link(),
        src_pan_id: any_pan(rng),
        src_addr: rng.link(),
    }
}

/// Every pair of address kinds with and without compression at every room; every number of each other field.
fn mac_writes(sink: &mut Sink, rng: &mut Rng, numbers: Numbers) {
    for _ in numbers.part(40) {
        for dst_addr in KINDS_OF_LINK {
            for src_addr in KINDS_OF_LINK {
                for room in ROOMS {
                    for pan_id_compression in [false, true] {
                        sink.mac_write(&ieee802154::Repr { dst_addr, src_addr, pan_id_compression, ..any_mac(rng) }, room);
                    }
                }
            }
        }
    }
    for n in numbers.part(256) {
        let n = n as u8;
        sink.mac_write(&ieee802154::Repr { frame_type: FrameType(n), ..any_mac(rng) }, "=");
        sink.mac_write(&ieee802154::Repr { frame_version: FrameVersion(n), ..any_mac(rng) }, "=");
        sink.mac_write(&ieee802154::Repr { sequence_number: Some(n), ..any_mac(rng) }, "+1");
    }
    for n in numbers.part(65536) {
        let pan = Some(Pan(n as u16));
        sink.mac_write(&ieee802154::Repr { dst_pan_id: pan, ..any_mac(rng) }, "=");
        sink.mac_write(&ieee802154::Repr { src_pan_id: pan, pan_id_compression: false, ..any_mac(rng) }, "+7");
        sink.mac_write(&any_mac(rng), rng.pick(&ROOMS));
    }
}

/// Drawn frames; three of four have a frame control that is supported.
fn mac_random(sink: &mut Sink, rng: &mut Rng, numbers: Numbers) {
    for _ in 0..numbers.count {
        let mut fc = rng.next() as u16;
        if !rng.one_in(4) {
            while Control(fc).supported().is_err() {
                fc = rng.next() as u16;
            }
        }
        let security = rng.byte();
        let frame = mac_frame(rng, &Control(fc), security);
        let longest = rng.pick(&[8, 20, 40, 40, 129]);
        sink.read("mac.parse", &frame[..rng.below(longest)]);
    }
}

// ---- Fragments

/// All first words at the lengths around both headers.
fn frag_words(sink: &mut Sink, rng: &mut Rng, numbers: Numbers) {
    for word in numbers.part(65536) {
        let mut bytes: [u8; 8] = rng.bytes();
        bytes[..2].copy_from_slice(&(word as u16).to_be_bytes());
        for len in 2..=6 {
            sink.read("frag.parse", &bytes[..len]);
        }
        sink.read("dispatch", &bytes[..1 + rng.below(8)]);
    }
}

/// All sizes, and every pair of boundary numbers at every room.
fn frag_writes(sink: &mut Sink, rng: &mut Rng, numbers: Numbers) {
    for size in numbers.part(65536) {
        let (size, tag) = (size as u16, rng.word());
        sink.frag_write(&frag::Repr::FirstFragment { size, tag }, "=");
        sink.frag_write(&frag::Repr::Fragment { size, tag, offset: rng.byte() }, "=");
    }
    for tag in numbers.part(65536) {
        sink.frag_write(&any_fragment(rng, 1280, tag as u16), rng.pick(&["=", "-1", "+1"]));
    }
    for place in numbers.part(WORDS.len() * WORDS.len()) {
        let (size, tag) = (WORDS[place / WORDS.len()], WORDS[place % WORDS.len()]);
        for room in ROOMS {
            sink.frag_write(&frag::Repr::FirstFragment { size, tag }, room);
            sink.frag_write(&frag::Repr::Fragment { size, tag, offset: rng.pick(&BYTES) }, room);
        }
    }
}

/// Drawn bytes; three of four begin as one of the two headers.
fn frag_random(sink: &mut Sink, rng: &mut Rng, numbers: Numbers) {
    for _ in 0..numbers.count {
        let mut bytes: [u8; 12] = rng.bytes();
        match rng.below(8) {
            0..3 => bytes[0] = 0b11000 << 3 | bytes[0] & 7,
            3..6 => bytes[0] = 0b11100 << 3 | bytes[0] & 7,
            _ => {}
        }
        sink.read("frag.parse", &bytes[..rng.below(13)]);
    }
}

// ---- NHC

/// Every first byte with every second byte at every length around the header.
fn nhc_bytes(sink: &mut Sink, rng: &mut Rng, numbers: Numbers) {
    for pair in numbers.part(65536) {
        let mut bytes: [u8; 9] = rng.bytes();
        bytes[..2].copy_from_slice(&(pair as u16).to_be_bytes());
        // A byte that begins neither header is refused for what it is: one length does.
        if rules::nhc(&bytes).is_err() {
            sink.read("nhc.dispatch", &bytes[..2]);
            sink.read("ext.parse", &bytes);
            sink.read("udp.parse", &bytes);
            continue;
        }
        for len in 1..=9 {
            sink.read("ext.parse", &bytes[..len.min(5)]);
            sink.read("udp.parse", &bytes[..len]);
        }
        for third in BYTES {
            bytes[2] = third;
            sink.read("udp.parse", &bytes);
            sink.read("ext.parse", &bytes[..3]);
        }
    }
}

fn any_next(rng: &mut Rng) -> NextHeader {
    match rng.below(4) {
        0 => NextHeader::Compressed,
        1 => NextHeader::Uncompressed(Protocol(rng.pick(&[0, 6, 17, 43, 44, 58, 59, 60, 255]))),
        _ => NextHeader::Uncompressed(Protocol(rng.byte())),
    }
}

/// Every pair of port classes, checksum elided and carried, at every room; every port against drawn ones; every extension header.
fn nhc_writes(sink: &mut Sink, rng: &mut Rng, numbers: Numbers) {
    for place in numbers.part(PORTS.len() * PORTS.len()) {
        let (src_port, dst_port) = (PORTS[place / PORTS.len()], PORTS[place % PORTS.len()]);
        for checksum in [None, Some(0), Some(1), Some(0x1234), Some(0xffff)] {
            for room in ROOMS {
                sink.udp_write(&UdpNhcRepr { src_port, dst_port, checksum }, room);
            }
        }
    }
    for port in numbers.part(65536) {
        let port = port as u16;
        for other in [0x50, 0xf080, 0xf0b8] {
            let checksum = if rng.one_in(2) { None } else { Some(rng.word()) };
            sink.udp_write(&UdpNhcRepr { src_port: port, dst_port: other, checksum }, "=");
            sink.udp_write(&UdpNhcRepr { src_port: other, dst_port: port, checksum }, "+1");
        }
        let checksum = Some(port);
        sink.udp_write(&UdpNhcRepr { src_port: rng.port(), dst_port: rng.port(), checksum }, rng.pick(&ROOMS));
    }
    for number in numbers.part(256) {
        for id in [0, 1, 2, 3, 4, 5, 7] {
            let number = number as u8;
            sink.ext_write(id, NextHeader::Uncompressed(Protocol(number)), rng.byte(), "=");
            sink.ext_write(id, NextHeader::Compressed, number, "=");
            sink.ext_write(id, any_next(rng), number, "+7");
            for room in ROOMS {
                sink.ext_write(id, any_next(rng), rng.pick(&BYTES), room);
            }
        }
    }
}

fn udp_random(sink: &mut Sink, rng: &mut Rng, numbers: Numbers) {
    for _ in 0..numbers.count {
        let mut bytes: [u8; 12] = rng.bytes();
        if !rng.one_in(8) {
            bytes[0] = 0b11110 << 3 | bytes[0] & 7;
        }
        sink.read("udp.parse", &bytes[..rng.below(13)]);
    }
}

fn ext_random(sink: &mut Sink, rng: &mut Rng, numbers: Numbers) {
    for _ in 0..numbers.count {
        let mut bytes: [u8; 8] = rng.bytes();
        if !rng.one_in(8) {
            bytes[0] = 0b1110 << 4 | bytes[0] & 15;
        }
        sink.read("ext.parse", &bytes[..rng.below(7)]);
    }
}

// ---- IPHC

/// None, one, two, all 16 contexts, and 15 with a rest that is cut.
const CONTEXT_BYTES: [usize; 5] = [0, 8, 16, 128, 127];

/// The bytes of a header that starts with this word, and how many it has (41 where it is refused for what it is).
pub fn iphc_bytes(rng: &mut Rng, word: u16) -> ([u8; 60], usize) {
    let mut bytes: [u8; 60] = rng.bytes();
    bytes[..2].copy_from_slice(&word.to_be_bytes());
    let len = rules::iphc(&bytes, Some(EXT), Some(EXT), 16).unwrap_or(41);
    (bytes, len)
}

/// Every word, cut behind it and with enough bytes.
fn iphc_words(sink: &mut Sink, rng: &mut Rng, numbers: Numbers) {
    for word in numbers.part(65536) {
        let (bytes, _) = iphc_bytes(rng, word as u16);
        let contexts: [u8; 128] = rng.bytes();
        for len in [2, 60] {
            sink.iphc_read(&bytes[..len], rng.link(), rng.link(), &contexts[..rng.pick(&CONTEXT_BYTES)]);
        }
    }
}

/// The 8,192 words of IPHC at every length: every pair of link-layer kinds with every list of contexts around the full length, eight drawn
/// ones at the others.
fn iphc_cuts(sink: &mut Sink, rng: &mut Rng, numbers: Numbers) {
    iphc_cut(sink, rng, numbers, 8);
}

/// The same with all of them at every length.
fn iphc_all_cuts(sink: &mut Sink, rng: &mut Rng, numbers: Numbers) {
    iphc_cut(sink, rng, numbers, usize::MAX);
}

fn iphc_cut(sink: &mut Sink, rng: &mut Rng, numbers: Numbers, drawn: usize) {
    for word in numbers.part(8192) {
        let (mut bytes, full) = iphc_bytes(rng, 0b011 << 13 | word as u16);
        let contexts: [u8; 128] = rng.bytes();
        for len in 2..=full + 1 {
            // The context identifiers, where CID is set, half the time within two contexts.
            bytes[2] = if rng.one_in(2) { rng.byte() & 0x11 } else { rng.byte() };
            if drawn > 80 || len + 1 >= full {
                for place in 0..80 {
                    let (src, dst) = (KINDS_OF_LINK[place % 4], KINDS_OF_LINK[place / 4 % 4]);
                    sink.iphc_read(&bytes[..len], src, dst, &contexts[..CONTEXT_BYTES[place / 16]]);
                }
            } else {
                for _ in 0..drawn {
                    let count = rng.pick(&CONTEXT_BYTES);
                    sink.iphc_read(&bytes[..len], rng.pick(&KINDS_OF_LINK), rng.pick(&KINDS_OF_LINK), &contexts[..count]);
                }
            }
        }
    }
}

/// Every pair of context identifiers with every pair of address modes, over lists that hold both, one, or none.
fn iphc_contexts(sink: &mut Sink, rng: &mut Rng, numbers: Numbers) {
    for ids in numbers.part(256) {
        let (src_id, dst_id) = (ids >> 4, ids & 15);
        for modes in 0..128 {
            let (mut bytes, full) = iphc_bytes(rng, 0x7a80 | modes);
            bytes[2] = ids as u8;
            let contexts: [u8; 135] = rng.bytes();
            for count in [0, src_id, src_id + 1, dst_id, dst_id + 1, 16] {
                // Half the lists end in a rest that is cut.
                let flat = &contexts[..count * 8 + rng.pick(&[0, 0, 1, 7])];
                sink.iphc_read(&bytes[..full], rng.pick(&LINKS), rng.pick(&LINKS), flat);
            }
        }
    }
}

fn any_byte_or_none(rng: &mut Rng) -> Option<u8> {
    if rng.one_in(2) { None } else { Some(rng.byte()) }
}

/// A header between these addresses; the rest is drawn.
pub fn iphc_between(rng: &mut Rng, src: [u8; 16], ll_src: Option<Address>, dst: [u8; 16], ll_dst: Option<Address>) -> iphc::Repr {
    iphc::Repr {
        src_addr: ipv6::Address::from_octets(src),
        ll_src_addr: ll_src,
        dst_addr: ipv6::Address::from_octets(dst),
        ll_dst_addr: ll_dst,
        next_header: any_next(rng),
        hop_limit: if rng.one_in(3) { rng.byte() } else { rng.pick(&HOPS) },
        ecn: any_byte_or_none(rng),
        dscp: any_byte_or_none(rng),
        flow_label: if rng.one_in(2) { None } else { Some(rng.word()) },
    }
}

/// The bytes that the Rust writes for a header.
pub fn iphc_written(repr: &iphc::Repr) -> Vec<u8> {
    let mut bytes = vec![0; repr.buffer_len()];
    repr.emit(&mut bytes);
    bytes
}

/// A writer's line, and the reader's for what the Rust writes.
fn iphc_both(sink: &mut Sink, repr: &iphc::Repr, room: &str) {
    sink.iphc_write(repr, room);
    sink.iphc_read(&iphc_written(repr), repr.ll_src_addr, repr.ll_dst_addr, &[]);
}

/// Chosen addresses against chosen link-layer ones on both sides, all pairs of them, every bit of some flipped, every hop limit and next
/// header, every room.
fn iphc_writes(sink: &mut Sink, rng: &mut Rng, numbers: Numbers) {
    let chosen = values::addresses();
    for place in numbers.part(chosen.len() * chosen.len()) {
        let (a, b) = (chosen[place / chosen.len()], chosen[place % chosen.len()]);
        for _ in 0..6 {
            let (ll_a, ll_b) = (rng.pick(&LINKS), rng.pick(&LINKS));
            let repr = iphc_between(rng, a, ll_a, b, ll_b);
            iphc_both(sink, &repr, rng.pick(&ROOMS));
        }
    }
    for place in numbers.part(chosen.len() * LINKS.len()) {
        let (addr, link) = (chosen[place / LINKS.len()], LINKS[place % LINKS.len()]);
        for room in ROOMS {
            let (other, far) = (rng.pick(&chosen), rng.pick(&LINKS));
            iphc_both(sink, &iphc_between(rng, addr, link, other, far), room);
            iphc_both(sink, &iphc_between(rng, other, far, addr, link), room);
        }
    }
    for place in numbers.part(6 * 128) {
        let mut addr = values::all_bits_matter()[place / 128];
        addr[place / 8 % 16] ^= 1 << (place % 8);
        for link in LINKS {
            iphc_both(sink, &iphc_between(rng, addr, link, from_link(None), None), "=");
            iphc_both(sink, &iphc_between(rng, from_link(Some(SHORT_1234)), Some(SHORT_1234), addr, link), "=");
        }
    }
    for pair in numbers.part(65536) {
        let (src, dst) = (rng.link(), rng.link());
        let mut repr = iphc_between(rng, from_link(src), src, from_link(dst), dst);
        repr.hop_limit = pair as u8;
        repr.next_header = NextHeader::Uncompressed(Protocol((pair >> 8) as u8));
        iphc_both(sink, &repr, "=");
    }
}

/// Drawn bytes; seven of eight begin with 011.
fn iphc_random(sink: &mut Sink, rng: &mut Rng, numbers: Numbers) {
    for _ in 0..numbers.count {
        let mut bytes: [u8; 60] = rng.bytes();
        if !rng.one_in(8) {
            bytes[0] = 0b011 << 5 | bytes[0] & 31;
        }
        let contexts: [u8; 135] = rng.bytes();
        let longest = rng.pick(&[10, 25, 45, 61]);
        let count = if rng.one_in(2) { 0 } else { rng.below(136) };
        sink.iphc_read(&bytes[..rng.below(longest)], rng.link(), rng.link(), &contexts[..count]);
    }
}

// ---- Damaged copies of good headers

/// Bytes and what they become: unchanged, a byte changed, a bit flipped, cut, extended.
pub fn damage(rng: &mut Rng, bytes: &mut Vec<u8>) {
    match rng.below(6) {
        0 => {}
        1 if !bytes.is_empty() => {
            let place = rng.below(bytes.len());
            bytes[place] = rng.byte();
        }
        2 | 3 if !bytes.is_empty() => {
            let place = rng.below(bytes.len());
            bytes[place] ^= 1 << rng.below(8);
        }
        4 => bytes.truncate(rng.below(bytes.len() + 1)),
        _ => bytes.extend_from_slice(&rng.bytes::<8>()[..rng.below(9)]),
    }
}

/// A MAC header as the Rust writes it, with an auxiliary security header where it says so.
pub fn mac_written(rng: &mut Rng, repr: &ieee802154::Repr) -> Vec<u8> {
    let mut bytes = vec![0; repr.buffer_len()];
    repr.emit(&mut bytes);
    if repr.security_enabled {
        let security = rng.byte();
        bytes.push(security);
        bytes.extend_from_slice(&rng.bytes::<16>()[..rules::security_len(security) - 1]);
    }
    bytes
}

pub fn ext_written(rng: &mut Rng) -> Vec<u8> {
    use ExtHeaderId::*;
    let ids = [HopByHopHeader, RoutingHeader, FragmentHeader, DestinationOptionsHeader, MobilityHeader, Reserved, Header];
    let repr = ExtHeaderRepr { ext_header_id: rng.pick(&ids), next_header: any_next(rng), length: rng.byte() };
    let mut bytes = vec![0; repr.buffer_len()];
    repr.emit(&mut bytes);
    bytes
}

fn any_udp(rng: &mut Rng) -> UdpNhcRepr {
    let checksum = if rng.one_in(2) { None } else { Some(rng.word()) };
    UdpNhcRepr { src_port: rng.port(), dst_port: rng.port(), checksum }
}

pub fn udp_written(rng: &mut Rng) -> Vec<u8> {
    let repr = any_udp(rng);
    let mut bytes = vec![0; repr.buffer_len()];
    repr.emit(&mut bytes);
    bytes
}

pub fn frag_written(rng: &mut Rng) -> Vec<u8> {
    let (size, tag) = (rng.word(), rng.word());
    let repr = any_fragment(rng, size, tag);
    let mut bytes = vec![0; repr.buffer_len()];
    repr.emit(&mut bytes);
    bytes
}

/// A header as the Rust writes it, damaged or not, for its reader.
pub fn damaged_one(sink: &mut Sink, rng: &mut Rng, chosen: &[[u8; 16]]) {
    let (name, mut bytes) = match rng.below(8) {
        0..3 => {
            let mut repr = any_mac(rng);
            repr.security_enabled &= rng.one_in(2);
            ("mac.parse", mac_written(rng, &repr))
        }
        3 => ("frag.parse", frag_written(rng)),
        4 => ("ext.parse", ext_written(rng)),
        5 => ("udp.parse", udp_written(rng)),
        _ => {
            let (ll_src, ll_dst) = (rng.link(), rng.link());
            let (src, dst) = (rng.ipv6(chosen, ll_src), rng.ipv6(chosen, ll_dst));
            let mut bytes = iphc_written(&iphc_between(rng, src, ll_src, dst, ll_dst));
            damage(rng, &mut bytes);
            // Sometimes another link-layer address than the header was written against.
            let ll_src = if rng.one_in(8) { rng.link() } else { ll_src };
            let contexts: [u8; 16] = rng.bytes();
            let count = rng.pick(&[0, 8, 16]);
            sink.iphc_read(&bytes, ll_src, ll_dst, &contexts[..count]);
            return;
        }
    };
    damage(rng, &mut bytes);
    sink.read(name, &bytes);
}

fn damaged(sink: &mut Sink, rng: &mut Rng, numbers: Numbers) {
    let chosen = values::addresses();
    for _ in 0..numbers.count {
        damaged_one(sink, rng, &chosen);
    }
}
