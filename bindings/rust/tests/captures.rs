//! The example captures through the binding: the lines must be those of `heard`, to the byte.
use lift::{Gateway, OUT_BYTES, Outcome, Refusal, Table};
use std::{fs, path::Path};

fn example(name: &str) -> Vec<u8> {
    let path = Path::new(env!("CARGO_MANIFEST_DIR")).join("../../examples").join(name);
    fs::read(&path).unwrap_or_else(|e| panic!("{}: {e}", path.display()))
}

fn heards() -> Table {
    let mut table = Table::new();
    table.begin(&[1, 2, 3, 4].map(|n| Gateway::short(n).in_pan(0xabcd))).expect("four gateways");
    table
}

// The frame check of a capture's block (examples/README.md).
fn fcs(bytes: &[u8]) -> u16 {
    let turn = |v: u16, _| if v & 1 == 1 { v >> 1 ^ 0x8408 } else { v >> 1 };
    bytes.iter().fold(0, |v, &b| (0..8).fold(v ^ b as u16, turn))
}

fn lines(capture: &[u8]) -> String {
    let (mut table, mut out, mut n, mut text) = (heards(), [0; OUT_BYTES], 0, String::new());
    for (b, block) in capture.chunks(512).enumerate() {
        if block.len() < 512 || fcs(&block[..510]).to_le_bytes() != block[510..] {
            text += &format!("block {b} no 15\n");
            break;
        }
        for place in block[6..402].chunks_exact(132).take(block[4] as usize) {
            let time = u32::from_le_bytes(place[..4].try_into().unwrap()) as u64;
            n += 1;
            text += &match table.receive(time, &place[5..][..place[4] as usize], &[], &mut out) {
                Ok(Outcome::Kept) => format!("{n} kept\n"),
                Ok(Outcome::Out(datagram)) => format!("{n} out {}\n", datagram.len()),
                Err(refusal) => format!("{n} no {}\n", refusal.number()),
            };
        }
    }
    text + &format!("end {n}\n")
}

#[test]
fn captures_read_as_heard_reads_them() {
    for name in ["two-gateways", "two-buildings", "patch", "damaged", "witness", "relay", "chain"] {
        let expected = String::from_utf8(example(&format!("{name}.expected"))).unwrap();
        assert_eq!(lines(&example(&format!("{name}.cap"))), expected, "{name}");
    }
}

// One short address in two PANs, one tag and size: a table of both gateways hands out both blocks, neither mixed.
#[test]
fn two_buildings() {
    let (mut table, mut out, mut blocks) = (Table::new(), [0; OUT_BYTES], Vec::new());
    let both = [0xabcd, 0x1234].map(|pan| Gateway::short(1).in_pan(pan));
    table.begin(&both).expect("two gateways");
    for block in example("two-buildings.cap").chunks_exact(512) {
        for place in block[6..402].chunks_exact(132).take(block[4] as usize) {
            let time = u32::from_le_bytes(place[..4].try_into().unwrap()) as u64;
            match table.receive(time, &place[5..][..place[4] as usize], &[], &mut out) {
                Ok(Outcome::Kept) => assert_eq!(both.map(|g| table.held(g)), [1, (time > 1000) as usize]),
                Ok(Outcome::Out(datagram)) => blocks.push(String::from_utf8_lossy(&datagram[48..75]).into_owned()),
                Err(refusal) => panic!("{time}: no {}", refusal.number()),
            }
        }
    }
    assert_eq!(blocks, ["PATCH 2026-10 block 3 of 40", "PATCH 2026-11 block 3 of 40"]);
    assert_eq!(table.free(), 8);
}

// A first part of 56 bytes from gateway 0001, of a datagram of 136.
const PART: [u8; 27] = [
    0x41, 0x88, 0, 0xcd, 0xab, 0xcd, 0xab, 1, 0, 0xc0, 0x88, 0, 8, 0x7e, 0x33, 0xf3, 0x12, 0x38, 0x94, 0x50, 0x41, 0x54, 0x43, 0x48, 0x20, 0x32, 0x30,
];

#[test]
fn slots_and_times() {
    let (mut table, mut out) = (heards(), [0xa5; OUT_BYTES]);
    assert_eq!(table.receive(2000, &PART, &[], &mut out), Ok(Outcome::Kept));
    assert_eq!((table.free(), table.held(Gateway::short(1).in_pan(0xabcd)), table.held(Gateway::short(1))), (7, 1, 0));
    assert_eq!(table.receive(1999, &PART, &[], &mut out), Err(Refusal::EarlierTime));
    assert_eq!(table.receive(62_000, &PART[..8], &[], &mut out), Err(Refusal::Ended));
    assert_eq!((table.free(), out), (8, [0xa5; OUT_BYTES]), "a slot is gone after 60,000 ms, and nothing was written");
}

#[test]
fn refusals() {
    let mut table = Table::new();
    let mut out = [0; OUT_BYTES];
    assert_eq!(table.receive(0, &PART, &[], &mut out), Err(Refusal::NotGateway), "a table that has not begun");
    assert_eq!(table.begin(&[Gateway::short(1); 2]), Err(Refusal::BadGateways));
    assert_eq!(table.begin(&[Gateway::short(1), Gateway::short(1).in_pan(0xabcd)]), Ok(()));
    assert_eq!(table.begin(&[1, 2, 3, 4, 5].map(Gateway::short)), Err(Refusal::BadGateways));
    assert_eq!(table.begin(&[]), Ok(()));
    let mut table = heards();
    assert_eq!(table.receive(0, &PART, &[], &mut out[1..]), Err(Refusal::NoRoom));
    assert_eq!(table.receive(0, &[0; 128], &[], &mut out), Err(Refusal::BadLength));
    assert_eq!(table.receive(0, &[], &[], &mut []), Err(Refusal::NoRoom));
    assert_eq!(table.receive(0, &[], &[], &mut out), Err(Refusal::Ended));
}

#[test]
fn contexts() {
    // IPHC with both addresses by context 0 (SAC = DAC = 1, modes 11), next header 58.
    let frame = [0x41, 0x88, 5, 0xcd, 0xab, 0xff, 0xff, 1, 0, 0x7a, 0x77, 0x3a, 9];
    let (mut table, mut out) = (heards(), [0; OUT_BYTES]);
    assert_eq!(table.receive(0, &frame, &[], &mut out), Err(Refusal::NoContext));
    let prefix = [0x20, 1, 0xd, 0xb8, 0, 0, 0, 7];
    match table.receive(0, &frame, &[prefix], &mut out) {
        Ok(Outcome::Out(d)) => assert_eq!((d.len(), &d[8..16], &d[24..32]), (41, &prefix[..], &prefix[..])),
        other => panic!("{other:?}"),
    }
}

#[test]
fn names_and_words_are_those_of_the_header() {
    let path = Path::new(env!("CARGO_MANIFEST_DIR")).join("../../include/lift.h");
    let header = fs::read_to_string(path).expect("include/lift.h");
    for number in 1..=14 {
        let refusal = Refusal::from_number(number);
        assert_eq!(refusal.number(), number);
        let shout = format!("{refusal:?}").chars().fold(String::from("LIFT"), |s, c| if c.is_uppercase() { s + "_" + &c.to_string() } else { s + &c.to_uppercase().to_string() });
        assert!(header.contains(&format!("{shout} = {number},")), "{shout}");
        assert!(header.contains(&format!("case {shout}: return \"{refusal}\";")), "{shout}: {refusal}");
    }
    assert_eq!(Refusal::from_number(99), Refusal::Other(99));
}
