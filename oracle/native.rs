//! The readers and writers of the header layer beside the Rust's, in one process, over the same numbers and bytes: `native TURNS`.
//!
//! bench/headers builds this with the loops of bench/headed.txt, which are the ones below over ours.

use std::hint::black_box;
use std::io;
use std::panic;
use std::time::Instant;

use crate::oracle::answer::{ext_number, listed, silence_panics};
use crate::oracle::compare::Judge;
use crate::oracle::generate;
use crate::oracle::rules;
use crate::oracle::text::Fields;
use crate::wire::ieee802154::{self, Address, Pan};
use crate::wire::ip::Protocol;
use crate::wire::ipv6;
use crate::wire::sixlowpan::nhc::{ExtHeaderId, ExtHeaderRepr, UdpNhcRepr};
use crate::wire::sixlowpan::{AddressContext, NextHeader, frag, iphc};

/// Calls in a list, how often a turn goes through it, and the room of each header that is written.
const CALLS: usize = 4096;
const LAPS: u64 = 5;
const ROOM: usize = 64;

/// What the loops in Rattle take for a slice: two arguments, which is how C passes this by value.
#[repr(C)]
#[derive(Clone, Copy)]
struct Lent {
    at: *const u8,
    len: usize,
}

fn lent<T>(slice: &[T]) -> Lent {
    Lent { at: slice.as_ptr().cast(), len: slice.len() }
}

type OurReader = unsafe extern "C" fn(Lent, Lent, u64) -> u64;
type Reader = fn(&[u64], &[u8], u64) -> u64;
type Writer = fn(&[u64], &mut [u8], u64) -> u64;

unsafe extern "C" {
    fn bench_readmac(list: Lent, bytes: Lent, laps: u64) -> u64;
    fn bench_readfrag(list: Lent, bytes: Lent, laps: u64) -> u64;
    fn bench_readudp(list: Lent, bytes: Lent, laps: u64) -> u64;
    fn bench_readext(list: Lent, bytes: Lent, laps: u64) -> u64;
    fn bench_readiphc(list: Lent, bytes: Lent, laps: u64) -> u64;
    fn bench_writemac(list: Lent, out: Lent, laps: u64) -> u64;
    fn bench_writefrag(list: Lent, out: Lent, laps: u64) -> u64;
    fn bench_writeudp(list: Lent, out: Lent, laps: u64) -> u64;
    fn bench_writeext(list: Lent, out: Lent, laps: u64) -> u64;
    fn bench_writeiphc(list: Lent, out: Lent, laps: u64) -> u64;
}

// ---- Answers as numbers, all of them together in one

const REFUSED: u64 = 1000;

fn joined(sum: u64, n: u64) -> u64 {
    sum.rotate_left(1) ^ n
}

fn of_address(addr: Option<Address>) -> u64 {
    match addr {
        None => 0x1_0000,
        Some(Address::Absent) => 0x2_0000,
        Some(Address::Short(b)) => u16::from_be_bytes(b).into(),
        Some(Address::Extended(b)) => u64::from_be_bytes(b),
    }
}

fn of_next(next: NextHeader) -> u64 {
    match next {
        NextHeader::Compressed => 256,
        NextHeader::Uncompressed(p) => p.0.into(),
    }
}

fn of_byte(n: Option<u8>) -> u64 {
    n.map_or(256, u64::from)
}

fn of_word(n: Option<u16>) -> u64 {
    n.map_or(65536, u64::from)
}

fn join_mac(sum: u64, r: ieee802154::Repr, n: usize) -> u64 {
    let flags = r.security_enabled as u64 + r.frame_pending as u64 * 2 + r.ack_request as u64 * 4 + r.pan_id_compression as u64 * 8;
    let numbers = r.frame_type.0 as u64 * 16 + r.frame_version.0 as u64 * 128 + of_byte(r.sequence_number) * 512;
    let pans = of_word(r.dst_pan_id.map(|p| p.0)) + of_word(r.src_pan_id.map(|p| p.0)) * 0x2_0000;
    let small = flags + numbers + n as u64 * 0x4_0000;
    joined(joined(joined(joined(sum, small), pans), of_address(r.dst_addr)), of_address(r.src_addr))
}

fn join_frag(sum: u64, r: frag::Repr, n: usize) -> u64 {
    let (size, tag, offset) = (r.size() as u64, r.tag() as u64, r.offset() as u64);
    joined(sum, size + tag * 0x1_0000 + offset * 0x1_0000_0000 + n as u64 * 0x100_0000_0000)
}

fn join_udp(sum: u64, r: UdpNhcRepr, n: usize) -> u64 {
    let ports = r.src_port as u64 + r.dst_port as u64 * 0x1_0000;
    joined(sum, ports + of_word(r.checksum) * 0x1_0000_0000 + n as u64 * 0x2_0000_0000_0000)
}

fn join_ext(sum: u64, r: ExtHeaderRepr, n: usize) -> u64 {
    joined(sum, ext_number(r.ext_header_id) as u64 + of_next(r.next_header) * 16 + r.length as u64 * 0x2000 + n as u64 * 0x20_0000)
}

fn join_iphc(sum: u64, r: iphc::Repr, n: usize) -> u64 {
    let traffic = of_byte(r.ecn) * 0x2_0000 + of_byte(r.dscp) * 0x400_0000 + of_word(r.flow_label) * 0x8_0000_0000;
    let small = of_next(r.next_header) + r.hop_limit as u64 * 512 + traffic + n as u64 * 0x10_0000_0000_0000;
    let halves = |a: ipv6::Address| (u128::from_be_bytes(a.octets()) >> 64) as u64;
    let iid = |a: ipv6::Address| u128::from_be_bytes(a.octets()) as u64;
    let sum = joined(joined(joined(sum, small), halves(r.src_addr)), iid(r.src_addr));
    joined(joined(sum, halves(r.dst_addr)), iid(r.dst_addr))
}

// ---- Numbers as values

fn byte_field(n: u64) -> Option<u8> {
    (n < 256).then_some(n as u8)
}

fn word_field(n: u64) -> Option<u16> {
    (n < 65536).then_some(n as u16)
}

fn address_field(kind: u64, n: u64) -> Option<Address> {
    match kind {
        0 => None,
        1 => Some(Address::Absent),
        2 => Some(Address::Short((n as u16).to_be_bytes())),
        _ => Some(Address::Extended(n.to_be_bytes())),
    }
}

fn next_header(n: u64) -> NextHeader {
    if n < 256 { NextHeader::Uncompressed(Protocol(n as u8)) } else { NextHeader::Compressed }
}

fn mac_at(l: &[u64]) -> ieee802154::Repr {
    ieee802154::Repr {
        frame_type: (l[0] as u8).into(),
        security_enabled: l[1] == 1,
        frame_pending: l[2] == 1,
        ack_request: l[3] == 1,
        sequence_number: byte_field(l[4]),
        pan_id_compression: l[5] == 1,
        frame_version: (l[6] as u8).into(),
        dst_pan_id: word_field(l[7]).map(Pan),
        dst_addr: address_field(l[8], l[9]),
        src_pan_id: word_field(l[10]).map(Pan),
        src_addr: address_field(l[11], l[12]),
    }
}

fn frag_at(l: &[u64]) -> frag::Repr {
    let (size, tag) = (l[1] as u16, l[2] as u16);
    if l[0] == 0 { frag::Repr::FirstFragment { size, tag } } else { frag::Repr::Fragment { size, tag, offset: l[3] as u8 } }
}

fn udp_at(l: &[u64]) -> UdpNhcRepr {
    UdpNhcRepr { src_port: l[0] as u16, dst_port: l[1] as u16, checksum: word_field(l[2]) }
}

fn ext_at(l: &[u64]) -> ExtHeaderRepr {
    let ids = [
        ExtHeaderId::HopByHopHeader,
        ExtHeaderId::RoutingHeader,
        ExtHeaderId::FragmentHeader,
        ExtHeaderId::DestinationOptionsHeader,
        ExtHeaderId::MobilityHeader,
        ExtHeaderId::Reserved,
        ExtHeaderId::Reserved,
        ExtHeaderId::Header,
    ];
    let ext_header_id = ids[l[0] as usize];
    ExtHeaderRepr { ext_header_id, next_header: next_header(l[1]), length: l[2] as u8 }
}

fn iphc_at(l: &[u64]) -> iphc::Repr {
    let address = |prefix: u64, iid: u64| ipv6::Address::from_octets(((prefix as u128) << 64 | iid as u128).to_be_bytes());
    iphc::Repr {
        src_addr: address(l[0], l[1]),
        dst_addr: address(l[2], l[3]),
        next_header: next_header(l[4]),
        hop_limit: l[5] as u8,
        ecn: byte_field(l[6]),
        dscp: byte_field(l[7]),
        flow_label: word_field(l[8]),
        ll_src_addr: address_field(l[9], l[10]),
        ll_dst_addr: address_field(l[11], l[12]),
    }
}

// ---- The Rust's loops

macro_rules! reader {
    ($name:ident, $parse:expr, $join:ident) => {
        #[inline(never)]
        fn $name(list: &[u64], bytes: &[u8], laps: u64) -> u64 {
            let mut sum = 0;
            for _ in 0..laps {
                for l in list.chunks_exact(2) {
                    sum = match $parse(&bytes[l[0] as usize..(l[0] + l[1]) as usize]) {
                        Ok((r, n)) => $join(sum, r, n),
                        Err(_) => joined(sum, REFUSED),
                    };
                }
            }
            sum
        }
    };
}

reader!(read_mac, ieee802154::Repr::parse, join_mac);
reader!(read_frag, |b: &[u8]| frag::Repr::parse(b).map(|r| (r, r.buffer_len())), join_frag);
reader!(read_udp, UdpNhcRepr::parse, join_udp);
reader!(read_ext, ExtHeaderRepr::parse, join_ext);

/// The contexts as the Rust has them, where they stand in the bytes: an `AddressContext` is eight bytes and nothing else.
fn contexts(bytes: &[u8]) -> &[AddressContext] {
    assert!(size_of::<AddressContext>() == 8 && align_of::<AddressContext>() == 1);
    unsafe { std::slice::from_raw_parts(bytes.as_ptr().cast(), bytes.len() / 8) }
}

#[inline(never)]
fn read_iphc(list: &[u64], bytes: &[u8], laps: u64) -> u64 {
    let mut sum = 0;
    for _ in 0..laps {
        for l in list.chunks_exact(8) {
            let (src, dst) = (address_field(l[2], l[3]), address_field(l[4], l[5]));
            let contexts = contexts(&bytes[l[6] as usize..(l[6] + l[7]) as usize]);
            sum = match iphc::Repr::parse(&bytes[l[0] as usize..(l[0] + l[1]) as usize], src, dst, contexts) {
                Ok((r, n)) => join_iphc(sum, r, n),
                Err(_) => joined(sum, REFUSED),
            };
        }
    }
    sum
}

macro_rules! writer {
    ($name:ident, $at:ident, $numbers:expr) => {
        #[inline(never)]
        fn $name(list: &[u64], out: &mut [u8], laps: u64) -> u64 {
            let mut sum = 0;
            for _ in 0..laps {
                for (l, room) in list.chunks_exact($numbers).zip(out.chunks_exact_mut(ROOM)) {
                    let r = $at(l);
                    r.emit(room);
                    sum = joined(sum, r.buffer_len() as u64);
                }
            }
            sum
        }
    };
}

writer!(write_mac, mac_at, 13);
writer!(write_frag, frag_at, 4);
writer!(write_udp, udp_at, 3);
writer!(write_ext, ext_at, 3);
writer!(write_iphc, iphc_at, 13);

// ---- The lists, from the command lines of generate.rs

fn lines(kind: &str, seed: usize, count: usize) -> io::Result<Vec<Vec<u8>>> {
    let mut all = Vec::new();
    generate::write(kind, seed, count, &mut all)?;
    Ok(all.split(|b| *b == b'\n').map(<[u8]>::to_vec).collect())
}

/// The numbers of a link-layer address.
fn link(addr: Option<Address>) -> [u64; 2] {
    match addr {
        None => [0, 0],
        Some(Address::Absent) => [1, 0],
        Some(Address::Short(b)) => [2, u16::from_be_bytes(b).into()],
        Some(Address::Extended(b)) => [3, u64::from_be_bytes(b)],
    }
}

/// What a reader's line reads: bytes, and for IPHC addresses and contexts.
fn read_numbers(line: &[u8], bytes: &mut Vec<u8>) -> Option<Vec<u64>> {
    let (mut f, mut field) = (Fields::of(line), Vec::new());
    let is_iphc = f.next()? == b"iphc.parse";
    f.bytes_into(&mut field)?;
    let mut numbers = vec![bytes.len() as u64, field.len() as u64];
    bytes.extend_from_slice(&field);
    if is_iphc {
        numbers.extend(link(f.link()?));
        numbers.extend(link(f.link()?));
        f.bytes_into(&mut field)?;
        numbers.extend([bytes.len() as u64, field.len() as u64]);
        bytes.extend_from_slice(&field);
    }
    f.end()?;
    Some(numbers)
}

/// What a writer's line writes; the room, which is the line's last field, is passed over.
fn write_numbers(line: &[u8]) -> Option<Vec<u64>> {
    let mut f = Fields::of(line);
    let mut l = Vec::new();
    match f.next()? {
        b"mac.emit" => {
            l.push(f.byte()?.into());
            l.extend([f.flag()? as u64, f.flag()? as u64, f.flag()? as u64]);
            l.push(of_byte(f.maybe_byte()?));
            l.push(f.flag()? as u64);
            l.push(f.byte()?.into());
            for _ in 0..2 {
                l.push(of_word(f.maybe_word()?));
                l.extend(link(f.link()?));
            }
        }
        b"frag.emit" => {
            l.push((f.next()? == b"next") as u64);
            l.extend([f.word()?.into(), f.word()?.into(), f.byte()? as u64]);
        }
        b"udp.emit" => l.extend([f.word()?.into(), f.word()?.into(), of_word(f.maybe_word()?)]),
        b"ext.emit" => {
            l.push(std::str::from_utf8(f.next()?).ok()?.parse().ok()?);
            l.extend([of_next(f.next_header()?), f.byte()?.into()]);
        }
        _ => {
            for _ in 0..2 {
                let a = u128::from_be_bytes(f.ipv6()?);
                l.extend([(a >> 64) as u64, a as u64]);
            }
            l.extend([of_next(f.next_header()?), f.byte()?.into()]);
            l.extend([of_byte(f.maybe_byte()?), of_byte(f.maybe_byte()?), of_word(f.maybe_label()?)]);
            for _ in 0..2 {
                l.extend(link(f.link()?));
            }
        }
    }
    Some(l)
}

/// The answer of one call of the Rust, `None` where it panics.
fn one(read: Reader, numbers: &[u64], bytes: &[u8]) -> Option<u64> {
    panic::catch_unwind(|| read(numbers, bytes, 1)).ok()
}

/// A reader's calls: drawn lines on which the Rust does not panic and 01 does not decide against it; `good` ones are read, not refused.
fn reads(kind: &str, read: Reader, good: bool) -> io::Result<(Vec<u64>, Vec<u8>)> {
    let (mut list, mut bytes, mut calls) = (Vec::new(), Vec::new(), 0);
    for line in lines(kind, 1, 40 * CALLS)? {
        let start = bytes.len();
        let Some(numbers) = read_numbers(&line, &mut bytes) else { continue };
        let is_listed = kind.starts_with("mac") && listed(&bytes[start..]).is_some()
            || kind.starts_with("iphc") && rules::label(&bytes[start..]).is_some_and(|l| l > 0xffff);
        let answer = one(read, &numbers, &bytes);
        if is_listed || answer.is_none() || good && answer == Some(joined(0, REFUSED)) {
            bytes.truncate(start);
            continue;
        }
        list.extend(numbers);
        calls += 1;
        if calls == CALLS {
            return Ok((list, bytes));
        }
    }
    Err(io::Error::other(format!("native: too few lines of {kind}")))
}

/// A writer's calls: as many of its lines, evenly chosen, without those that differ in their room alone and the listed ones.
fn writes(kind: &str, command: &str) -> io::Result<Vec<u64>> {
    let mut judge = Judge::new();
    let mut all: Vec<Vec<u64>> =
        lines(kind, 0, 1)?.iter().filter(|line| line.starts_with(command.as_bytes()) && judge.wanted(line).is_none())
            .filter_map(|line| write_numbers(line)).collect();
    all.dedup();
    if all.is_empty() {
        return Err(io::Error::other(format!("native: no {command} in {kind}")));
    }
    Ok((0..CALLS).flat_map(|i| all[(i * 7919) % all.len()].clone()).collect())
}

// ---- Comparing and timing

fn quartiles(mut all: Vec<f64>) -> [f64; 4] {
    all.sort_by(f64::total_cmp);
    [all[0], all[all.len() / 4], all[all.len() / 2], all[all.len() * 3 / 4]]
}

/// One row: nanoseconds a call, the two in turn, and their quotients turn by turn.
fn row(name: &str, turns: usize, mut ours: impl FnMut() -> u64, mut theirs: impl FnMut() -> u64) -> io::Result<()> {
    let (mut a, mut b, mut quotients) = (Vec::new(), Vec::new(), Vec::new());
    let timed = |run: &mut dyn FnMut() -> u64| {
        let start = Instant::now();
        let sum = black_box(run());
        (start.elapsed().as_secs_f64() * 1e9 / (LAPS as f64 * CALLS as f64), sum)
    };
    for _ in 0..turns {
        let (x, sum) = timed(&mut ours);
        let (y, other) = timed(&mut theirs);
        if sum != other {
            return Err(io::Error::other(format!("native: {name}: ours and the Rust differ")));
        }
        a.push(x);
        b.push(y);
        quotients.push(x / y);
    }
    let (a, b, q) = (quartiles(a), quartiles(b), quartiles(quotients));
    println!("| {name} | {:.1} ({:.1}) | {:.1} ({:.1}) | {:.2} ({:.2} to {:.2}) |", a[0], a[2], b[0], b[2], q[2], q[1], q[3]);
    Ok(())
}

fn read_row(name: &str, turns: usize, kind: &str, good: bool, ours: OurReader, theirs: Reader) -> io::Result<()> {
    let (list, bytes) = reads(kind, theirs, good)?;
    let (l, b) = (lent(&list), lent(&bytes));
    row(name, turns, || unsafe { ours(l, b, black_box(LAPS)) }, || theirs(&list, &bytes, black_box(LAPS)))
}

fn write_row(name: &str, turns: usize, kind: &str, command: &str, ours: OurReader, theirs: Writer) -> io::Result<()> {
    let list = writes(kind, command)?;
    let (mut out, mut other) = (vec![0xa5; ROOM * CALLS], vec![0xa5; ROOM * CALLS]);
    let (l, o) = (lent(&list), Lent { at: out.as_mut_ptr(), len: out.len() });
    let sums = (unsafe { ours(l, o, 1) }, theirs(&list, &mut other, 1));
    if sums.0 != sums.1 || out != other {
        return Err(io::Error::other(format!("native: {name}: ours and the Rust write other bytes")));
    }
    row(name, turns, || unsafe { ours(l, o, black_box(LAPS)) }, || theirs(&list, &mut other, black_box(LAPS)))
}

pub fn run(turns: &str) -> io::Result<()> {
    silence_panics();
    let turns = turns.parse().map_err(|_| io::Error::other("native: no number of turns"))?;
    println!("| headers | ours, ns | the Rust, ns | ours / the Rust |\n|---|---|---|---|");
    let readers: [(&str, &str, OurReader, Reader); 5] = [
        ("MAC", "mac-random", bench_readmac, read_mac),
        ("fragment", "frag-random", bench_readfrag, read_frag),
        ("UDP (NHC)", "udp-random", bench_readudp, read_udp),
        ("extension (NHC)", "ext-random", bench_readext, read_ext),
        ("IPHC", "iphc-random", bench_readiphc, read_iphc),
    ];
    for (name, kind, ours, theirs) in readers {
        read_row(&format!("{name}, read"), turns, kind, true, ours, theirs)?;
        read_row(&format!("{name}, read or refused"), turns, kind, false, ours, theirs)?;
    }
    write_row("MAC, written", turns, "mac-writes", "mac.emit", bench_writemac, write_mac)?;
    write_row("fragment, written", turns, "frag-writes", "frag.emit", bench_writefrag, write_frag)?;
    write_row("UDP (NHC), written", turns, "nhc-writes", "udp.emit", bench_writeudp, write_udp)?;
    write_row("extension (NHC), written", turns, "nhc-writes", "ext.emit", bench_writeext, write_ext)?;
    write_row("IPHC, written", turns, "iphc-writes", "iphc.emit", bench_writeiphc, write_iphc)
}
