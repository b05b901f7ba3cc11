//! The fixed list: `list` writes its sections to standard output, behind comment lines that say how they were made.
//!
//! The frames where document 01 decides against the Rust stand in the last section only.

use std::io::{self, Write};

use crate::oracle::answer::silence_panics;
use crate::oracle::compare::Judge;
use crate::oracle::generate::{self, any_mac, damaged_one, iphc_between, iphc_bytes, iphc_written, mac_frame, mac_lengths};
use crate::oracle::rules::{Control, Listed};
use crate::oracle::sink::Sink;
use crate::oracle::values::{
    self, BYTES, EXT, EXT_LIKE_SHORT, HOPS, KINDS_OF_LINK, LINKS, PORTS, ROOMS, Rng, SHORT_1234, WORDS, from_link,
};
use crate::wire::ieee802154::{self, Address, FrameType, FrameVersion, Pan};
use crate::wire::ip::Protocol;
use crate::wire::sixlowpan::nhc::UdpNhcRepr;
use crate::wire::sixlowpan::{NextHeader, frag};

type Section = fn(&mut Sink, &mut Rng);

const SECTIONS: [(&str, Section); 14] = [
    ("mac.parse: Data frames of every version, address mode and compression, cut at each end of a field and beside it", mac_layouts),
    ("mac.parse: every frame type and version; every security control; every flag", mac_types),
    ("mac.emit: every pair of address kinds; boundary numbers; rooms", mac_writes),
    ("addr.from, addr.info, key: lengths, kinds of addresses, boundary numbers", addresses),
    ("dispatch, nhc.dispatch: every first byte", dispatches),
    ("frag.parse, frag.emit: every first byte, cuts, boundary numbers, rooms", fragments),
    ("ext.parse, ext.emit: every EID, cuts, boundary numbers, rooms", extensions),
    ("udp.parse, udp.emit: every form, cuts, every pair of port classes, rooms", ports),
    ("iphc.parse: every pair of address modes, with and without contexts and link-layer addresses", iphc_modes),
    ("iphc.parse: every form of the other fields, every cut, every context identifier", iphc_fields),
    ("iphc.emit: addresses on both sides of every case, against link-layer addresses; hop limits; rooms", iphc_writes),
    ("headers that the Rust wrote: whole, a byte or bit changed, cut, extended (drawn)", damaged),
    ("long inputs to every reader, and long lists of contexts", long_inputs),
    ("lines that are no commands", no_commands),
];

/// The head of the last section. make-list looks for this line.
const LISTED: &str = "# Listed differences: here documents 01 and 02 decide against the Rust, and the answers are theirs";

/// The lines without those where a document decides against the Rust, and those of them that are of a label.
fn without_listed(lines: &[u8]) -> (Vec<u8>, Vec<u8>) {
    let mut judge = Judge::new();
    let (mut kept, mut labels) = (Vec::new(), Vec::new());
    for line in lines.split_inclusive(|b| *b == b'\n') {
        match judge.wanted(&line[..line.len() - 1]) {
            None => kept.extend_from_slice(line),
            Some((Listed::Label, _)) => labels.extend_from_slice(line),
            Some(_) => {}
        }
    }
    (kept, labels)
}

pub fn run() -> io::Result<()> {
    silence_panics();
    let mut out = io::stdout().lock();
    let mut labelled = Vec::new();
    for (place, (title, section)) in SECTIONS.iter().enumerate() {
        let mut lines = Vec::new();
        section(&mut Sink::new(&mut lines), &mut Rng(place as u64));
        writeln!(out, "# {title}")?;
        let (kept, labels) = without_listed(&lines);
        out.write_all(&kept)?;
        labelled.extend(labels);
    }
    writeln!(out, "{LISTED}")?;
    let mut lines = Vec::new();
    listed(&mut Sink::new(&mut lines), &mut Rng(99));
    out.write_all(&lines)?;
    out.write_all(&labelled)
}

// ---- MAC

/// A frame control: type, version, modes, compression.
fn control(frame_type: u16, version: u16, dst: u16, src: u16, compression: bool) -> Control {
    Control(frame_type | (compression as u16) << 6 | dst << 10 | version << 12 | src << 14)
}

fn mac_layouts(sink: &mut Sink, rng: &mut Rng) {
    for place in 0..128 {
        let (version, dst, src) = (place & 3, place >> 2 & 3, place >> 4 & 3);
        let control = control(1, version, dst, src, place >> 6 == 1);
        let frame = mac_frame(rng, &control, 0);
        for len in mac_lengths(&control, 0) {
            // The lengths that do not depend on the layout need not stand here for each.
            if (3..100).contains(&len) || place % 16 == 2 {
                sink.read("mac.parse", &frame[..len]);
            }
        }
    }
}

fn mac_types(sink: &mut Sink, rng: &mut Rng) {
    for frame_type in 0..8 {
        for version in 0..4 {
            for (dst, src, compression) in [(2, 2, true), (3, 2, false), (3, 3, true), (0, 3, false), (2, 0, true)] {
                sink.read("mac.parse", &mac_frame(rng, &control(frame_type, version, dst, src, compression), 0)[..26]);
            }
        }
    }
    for mode in 0..8 {
        for base in [control(1, 1, 2, 2, true), control(0, 2, 3, 3, true), control(4, 0, 0, 0, false)] {
            let (security, secured) = (mode << 3 | 5, Control(base.0 | 8));
            let frame = mac_frame(rng, &secured, security);
            let ends = generate::mac_bounds(&secured, security);
            let header = ends[ends.len() - 1];
            for len in [ends[ends.len() - 4], ends[ends.len() - 3], header - 1, header, header + 1] {
                sink.read("mac.parse", &frame[..len]);
            }
        }
    }
    for flags in 0..64 {
        // Security, pending and acknowledgement; then the reserved bit, sequence suppression (other types and versions) and the IE bit, which are ignored.
        let flags = (flags & 7) << 3 | (flags >> 3) << 7;
        let control = Control(control(1, 2, 2, 2, true).0 | flags);
        sink.read("mac.parse", &mac_frame(rng, &control, 0)[..20]);
    }
}

fn mac_writes(sink: &mut Sink, rng: &mut Rng) {
    for dst_addr in KINDS_OF_LINK {
        for src_addr in KINDS_OF_LINK {
            for pan_id_compression in [false, true] {
                for room in ["=", "-1", "+7"] {
                    sink.mac_write(&ieee802154::Repr { dst_addr, src_addr, pan_id_compression, ..any_mac(rng) }, room);
                }
            }
        }
    }
    for n in BYTES {
        sink.mac_write(&ieee802154::Repr { frame_type: FrameType(n), ..any_mac(rng) }, "=");
        sink.mac_write(&ieee802154::Repr { frame_version: FrameVersion(n), ..any_mac(rng) }, "=");
        sink.mac_write(&ieee802154::Repr { sequence_number: Some(n), ..any_mac(rng) }, "=");
    }
    for n in WORDS {
        let (dst_pan_id, src_pan_id) = (Some(Pan(n)), Some(Pan(!n)));
        sink.mac_write(&ieee802154::Repr { dst_pan_id, src_pan_id, pan_id_compression: false, ..any_mac(rng) }, "=");
    }
    for room in ROOMS {
        for _ in 0..3 {
            sink.mac_write(&any_mac(rng), room);
        }
    }
}

fn addresses(sink: &mut Sink, rng: &mut Rng) {
    for len in 0..=20 {
        sink.read("addr.from", &rng.bytes::<20>()[..len]);
    }
    for addr in LINKS.iter().flatten() {
        sink.addr_info(*addr);
        sink.read("addr.from", addr.as_bytes());
    }
    for addr in [[0xff, 0xfe], [0xfe, 0xff], [0x80, 0], [0, 0x80]] {
        sink.addr_info(Address::Short(addr));
    }
    for bit in 0..64 {
        sink.addr_info(Address::Extended((0xacde_4812_3456_789a_u64 ^ 1 << bit).to_be_bytes()));
    }
    for src in LINKS {
        for dst in LINKS {
            sink.key(src, dst, &frag::Repr::FirstFragment { size: rng.word(), tag: rng.word() });
        }
    }
    for n in WORDS {
        sink.key(Some(EXT), Some(SHORT_1234), &frag::Repr::Fragment { size: n, tag: !n, offset: rng.byte() });
    }
}

// ---- 6LoWPAN

fn dispatches(sink: &mut Sink, rng: &mut Rng) {
    for name in ["dispatch", "nhc.dispatch"] {
        sink.read(name, &[]);
        for first in 0..=255 {
            sink.read(name, &[first, rng.byte()][..1 + rng.below(2)]);
        }
    }
}

fn fragments(sink: &mut Sink, rng: &mut Rng) {
    for first in 0..=255 {
        sink.read("frag.parse", &[&[first][..], &rng.bytes::<4>()].concat());
    }
    for first in [0x00, 0x7f, 0xbf, 0xc0, 0xc7, 0xc8, 0xdf, 0xe0, 0xe7, 0xe8, 0xff] {
        for len in 0..=6 {
            sink.read("frag.parse", &[&[first][..], &rng.bytes::<5>()].concat()[..len]);
        }
    }
    for n in WORDS {
        let (first, next) = (
            frag::Repr::FirstFragment { size: n, tag: rng.pick(&WORDS) },
            frag::Repr::Fragment { size: rng.pick(&WORDS), tag: n, offset: rng.pick(&BYTES) },
        );
        sink.frag_write(&first, "=");
        sink.frag_write(&next, "=");
    }
    for offset in BYTES {
        sink.frag_write(&frag::Repr::Fragment { size: 1280, tag: 7, offset }, "=");
        sink.read("frag.parse", &[0xe5, 0, 0, 7, offset]);
    }
    for room in ROOMS {
        sink.frag_write(&frag::Repr::FirstFragment { size: 2047, tag: 0xabcd }, room);
        sink.frag_write(&frag::Repr::Fragment { size: 2048, tag: 0xabcd, offset: 255 }, room);
    }
}

fn extensions(sink: &mut Sink, rng: &mut Rng) {
    for first in 0xdf..=0xf0 {
        for len in 0..=4 {
            sink.read("ext.parse", &[&[first][..], &rng.bytes::<3>()].concat()[..len]);
        }
    }
    for n in BYTES {
        sink.read("ext.parse", &[0xe0, n, !n]);
        sink.read("ext.parse", &[0xef, n, !n]);
        sink.ext_write(4, NextHeader::Uncompressed(Protocol(n)), !n, "=");
    }
    for id in [0, 1, 2, 3, 4, 5, 7] {
        for next in [NextHeader::Compressed, NextHeader::Uncompressed(Protocol(58))] {
            for room in ["=", "-1", "-2", "+1", "+7", "0", "512"] {
                sink.ext_write(id, next, rng.byte(), room);
            }
        }
    }
}

fn ports(sink: &mut Sink, rng: &mut Rng) {
    for first in 0xef..=0xf8 {
        for len in 0..=8 {
            sink.read("udp.parse", &[&[first][..], &rng.bytes::<7>()].concat()[..len]);
        }
    }
    for n in BYTES {
        for first in [0xf1, 0xf2, 0xf3, 0xf7] {
            sink.read("udp.parse", &[first, n, !n, n, 0x12, 0x34]);
        }
    }
    for src_port in PORTS {
        for dst_port in PORTS {
            for checksum in [None, Some(rng.word())] {
                sink.udp_write(&UdpNhcRepr { src_port, dst_port, checksum }, "=");
            }
        }
    }
    for (src_port, dst_port) in [(0xf0b1, 0xf0b2), (0xf0b1, 0xf0c0), (0x50, 0xf000), (0x50, 0x51)] {
        for room in ROOMS {
            let checksum = if rng.one_in(2) { None } else { Some(0x1234) };
            sink.udp_write(&UdpNhcRepr { src_port, dst_port, checksum }, room);
        }
    }
}

// ---- IPHC

/// Every pair of address modes, TF=11, NH=0, HLIM=10.
fn iphc_modes(sink: &mut Sink, rng: &mut Rng) {
    for modes in 0..128 {
        let (bytes, full) = iphc_bytes(rng, 0x7a00 | modes);
        let context: [u8; 8] = rng.bytes();
        let (short, ext) = (Some(SHORT_1234), Some(EXT));
        sink.iphc_read(&bytes[..full], ext, short, &context);
        sink.iphc_read(&bytes[..full], short, ext, &[]);
        sink.iphc_read(&bytes[..full - 1], ext, short, &context);
        sink.iphc_read(&bytes[..full - 1], ext, short, &[]);
        sink.iphc_read(&bytes[..full + 1], None, ext, &context);
        sink.iphc_read(&bytes[..full], short, Some(Address::Absent), &context[..7]);
    }
}

fn iphc_fields(sink: &mut Sink, rng: &mut Rng) {
    let (short, ext) = (Some(SHORT_1234), Some(EXT));
    for fields in 0..64 {
        // TF, NH and HLIM in the first byte, CID in the second; both addresses elided.
        let word = 0x6000 | (fields & 31) << 8 | (fields >> 5) << 7 | 0x33;
        let (bytes, full) = iphc_bytes(rng, word);
        for len in [full - 1, full, full + 1] {
            sink.iphc_read(&bytes[..len], short, ext, &[]);
        }
    }
    for word in [0x6080, 0x60c0, 0x60d5, 0x6088, 0x608c, 0x6084] {
        let (mut bytes, full) = iphc_bytes(rng, word);
        bytes[2] = 0x10;
        let contexts: [u8; 16] = rng.bytes();
        for len in 0..=full + 1 {
            sink.iphc_read(&bytes[..len], ext, short, &contexts);
        }
    }
    for id in 0..16 {
        let contexts: [u8; 135] = rng.bytes();
        for (word, ids) in [(0x7af3, id << 4), (0x7ab7, id), (0x7af7, id << 4 | id)] {
            let (mut bytes, full) = iphc_bytes(rng, word);
            bytes[2] = ids as u8;
            for count in [8 * id, 8 * id + 7, 8 * id + 8] {
                sink.iphc_read(&bytes[..full], ext, short, &contexts[..count]);
            }
        }
    }
    for first in (0x00..=0xff).step_by(8) {
        sink.iphc_read(&[first, 0x33, 0x3a], ext, short, &[]);
    }
}

fn iphc_writes(sink: &mut Sink, rng: &mut Rng) {
    let (short, ext, like) = (Some(SHORT_1234), Some(EXT), Some(EXT_LIKE_SHORT));
    let chosen = values::addresses();
    for addr in &chosen {
        for link in [None, short, like] {
            sink.iphc_write(&iphc_between(rng, *addr, link, from_link(ext), ext), "=");
            sink.iphc_write(&iphc_between(rng, from_link(short), short, *addr, link), "=");
        }
    }
    for link in LINKS {
        for other in LINKS {
            sink.iphc_write(&iphc_between(rng, from_link(link), other, from_link(other), link), "=");
        }
    }
    // One bit off in each byte of an address that its link-layer address gives, and of multicast ones.
    for (base, link) in values::all_bits_matter().into_iter().zip([short, ext, None, None, None, None]) {
        for place in 0..16 {
            let mut addr = base;
            addr[place] ^= 1 << rng.below(8);
            sink.iphc_write(&iphc_between(rng, addr, link, addr, link), "=");
        }
    }
    for hop in HOPS {
        for next in [NextHeader::Compressed, NextHeader::Uncompressed(Protocol(58))] {
            let mut repr = iphc_between(rng, from_link(ext), ext, from_link(short), short);
            (repr.hop_limit, repr.next_header) = (hop, next);
            sink.iphc_write(&repr, "=");
            sink.iphc_read(&iphc_written(&repr), ext, short, &[]);
        }
    }
    for room in ROOMS {
        for _ in 0..3 {
            let (src, dst) = (rng.pick(&chosen), rng.pick(&chosen));
            sink.iphc_write(&iphc_between(rng, src, ext, dst, short), room);
        }
    }
}

fn damaged(sink: &mut Sink, rng: &mut Rng) {
    let chosen = values::addresses();
    for _ in 0..300 {
        damaged_one(sink, rng, &chosen);
    }
}

fn long_inputs(sink: &mut Sink, rng: &mut Rng) {
    for len in [111, 112, 119, 120, 126, 127, 128, 129, 255, 256, 258, 264, 384, 512] {
        generate::long_input(sink, rng, len);
    }
}

// ---- Lines that are no commands

fn no_commands(sink: &mut Sink, _: &mut Rng) {
    for line in [
        "mac",
        "mac.parse",
        "mac.parse ",
        "mac.parse 4",
        "mac.parse 418",
        "mac.parse 4G",
        "mac.parse FF",
        "mac.parse 418805 ",
        "mac.parse  418805",
        "mac.parse 418805 00",
        " mac.parse 418805",
        "MAC.PARSE 418805",
        "mac.emit 01 0 0 0 05 1 00 abcd sffff - s1234",
        "mac.emit 01 2 0 0 05 1 00 abcd sffff - s1234 =",
        "mac.emit 01 0 0 0 05 1 00 abc sffff - s1234 =",
        "mac.emit 01 0 0 0 05 1 00 abcd sfff - s1234 =",
        "mac.emit 01 0 0 0 05 1 00 abcd sffff - s1234 513",
        "mac.emit 01 0 0 0 05 1 00 abcd sffff - s1234 -10",
        "mac.emit 01 0 0 0 05 1 00 abcd sffff - s1234 +504",
        "mac.emit 01 0 0 0 05 1 00 abcd sffff - s1234 +",
        "mac.emit 01 0 0 0 05 1 00 abcd sffff - s1234 -",
        "addr.info n",
        "addr.info s12345",
        "addr.info e0011",
        "frag.emit last 0500 0007 00 =",
        "frag.emit next 0500 0007 =",
        "key n a first 0500 0007",
        "ext.emit 6 3a 04 =",
        "ext.emit 8 3a 04 =",
        "ext.emit 0 x 04 =",
        "udp.emit f0b1 f0b2 12 =",
        "iphc.parse 7a333a e0011223344556677 sabcd",
        "iphc.parse 7a333a e0011223344556677 sabcd 0",
        "iphc.emit fe80 fe80 3a 40 - - - n n =",
        "nothing 00",
    ] {
        sink.plain(line);
    }
}

// ---- Listed differences

fn listed(sink: &mut Sink, rng: &mut Rng) {
    sink.plain("# Versions 0 and 1, both addresses absent, no compression: the Rust reads a source PAN, 01 none");
    sink.plain("mac.parse 010005");
    for frame_type in [0, 1, 3, 5] {
        for version in [0, 1] {
            listed_frame(sink, rng, control(frame_type, version, 0, 0, false));
        }
    }
    sink.plain("# Version 2, source only, compressed: the Rust reads a source PAN, 01 none");
    sink.plain("mac.parse 41a0053412");
    for frame_type in [0, 1, 2, 3, 5] {
        for src in [2, 3] {
            listed_frame(sink, rng, control(frame_type, 2, 0, src, true));
        }
    }
    sink.plain("# TF 00 and 01: the Rust keeps the low 16 bits of the flow label, 02 (item 1) all 20; padding is ignored");
    for label in ["4abcde", "7abcde", "8affff", "c10000", "fF0000", "3fffff", "018000", "0f7fff"] {
        let label = label.to_lowercase();
        sink.plain(&format!("iphc.parse 6b33{label}3a e0011223344556677 sabcd -"));
        sink.plain(&format!("iphc.parse 633300{label}3a e0011223344556677 sabcd -"));
        sink.plain(&format!("iphc.parse 63b301ff{label}3a e0011223344556677 sabcd -"));
    }
    suppressed(sink, rng);
}

fn suppressed(sink: &mut Sink, rng: &mut Rng) {
    sink.plain("# Version 2, bit 8, types 0 to 3: no sequence number is read; the Rust reads one (change request 9)");
    sink.plain("mac.parse 012100");
    for frame_type in 0..4 {
        for (dst, src) in [(2, 2), (0, 3), (3, 3)] {
            let compression = rng.one_in(2);
            listed_frame(sink, rng, Control(control(frame_type, 2, dst, src, compression).0 | 1 << 8));
        }
    }
    sink.plain("# Version 2, types 0 to 3, a record without a sequence number: none is written, and bit 8 says so; the Rust writes 0");
    sink.plain("mac.emit 01 0 0 0 - 1 02 - a - a =");
    for n in 0..8u8 {
        let omitted = ieee802154::Repr {
            frame_type: FrameType(n % 4),
            frame_version: FrameVersion(2),
            sequence_number: None,
            ..any_mac(rng)
        };
        for room in ["=", "-1", "+3"] {
            sink.mac_write(&omitted, room);
        }
    }
}

/// Around the ends of both readings, without and with security.
fn listed_frame(sink: &mut Sink, rng: &mut Rng, control: Control) {
    for secured in [control.0, control.0 | 8] {
        let control = Control(secured);
        let frame = mac_frame(rng, &control, 0);
        let end = *generate::mac_bounds(&control, 0).last().unwrap();
        for len in [end, end + 1, end + 2, end + 3] {
            sink.read("mac.parse", &frame[..len]);
        }
    }
}
