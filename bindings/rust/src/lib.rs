//! The receiver's side of 6LoWPAN, proved: IEEE 802.15.4 frames in, whole IPv6 datagrams out.
//!
//! A safe face, without `std` and without a heap, over the archive `liblift.a` (`include/lift.h` has the same calls for C).
//! The archive is proved: its answers, the table and every byte that it is lent are fixed on every input. It cannot check
//! the rules of its boundary; here the types keep them:
//!
//! | the rule of `lift.h` | kept by |
//! |---|---|
//! | a pointer stands before as many bytes as the length says | slices |
//! | what a call may write overlaps nothing else that it takes | `&mut` |
//! | a table is all zero before its first `lift_begin`, and only the calls write it | [`Table::new`], private fields |
//! | the memory for parts belongs to its table | it is a field of [`Table`] |
//! | no two calls use one table at the same time | `&mut self` |
//!
//! ```
//! use lift::{Gateway, OUT_BYTES, Outcome, Table};
//!
//! let mut table = Table::new(); // 17,576 bytes of zeros; as a `static` it is in .bss
//! let mut out = [0; OUT_BYTES];
//! table.begin(&[Gateway::short(1).in_pan(0xabcd), Gateway::extended(0x0011_2233_4455_6677)])?;
//! let frame = [0x41, 0x88, 5, 0xcd, 0xab, 0xff, 0xff, 1, 0, 0x7a, 0x33, 0x3a, 1, 2, 3, 4];
//! match table.receive(1_000, &frame, &[], &mut out)? {
//!     Outcome::Kept => unreachable!("it is whole"),
//!     Outcome::Out(datagram) => assert_eq!((datagram.len(), datagram[0]), (44, 0x60)),
//! }
//! # Ok::<(), lift::Refusal>(())
//! ```
//!
//! What is lent cannot overlap:
//!
//! ```compile_fail
//! # let mut table = lift::Table::new();
//! let mut bytes = [0; lift::OUT_BYTES];
//! table.receive(0, &bytes[..16], &[], &mut bytes).ok();
//! ```
#![no_std]
#![deny(missing_docs, unsafe_op_in_unsafe_fn)]

use core::{error, fmt};

/// The bytes that a table keeps for parts: eight slots of 2,048.
pub const MEM_BYTES: usize = 16_384;

/// The least bytes of an output.
pub const OUT_BYTES: usize = 2_047;

/// An address context of RFC 6282: a prefix of 64 bits. The list is by identifier, from 0 on.
pub type Context = [u8; 8];

// SAFETY: these are include/lift.h's declarations. The numbers, `&` and `&mut` are as the archive has them, and a pointer
// with a length beside it is a slice in two halves. Lengths cross as 64 bits on every machine. The two that take no pointer
// can be called with anything.
unsafe extern "C" {
    fn lift_begin_flat(t: &mut Raw, gateways: *const Gateway, numbers: u64) -> u32;
    #[rustfmt::skip]
    fn lift_receive(t: &mut Raw, time: u64, frame: *const u8, frame_len: u64, contexts: *const u8, contexts_len: u64,
        mem: *mut u8, mem_len: u64, out: *mut u8, out_len: u64) -> u32;
    safe fn lift_free(t: &Raw) -> u64;
    safe fn lift_held(t: &Raw, kind: u64, value: u64) -> u64;
}

/// `lift_table`.
#[repr(C)]
#[derive(Clone)]
struct Raw {
    words: [u64; 149],
}

// A target that would lay these out in another way than the archive does not compile.
const _: () = assert!(size_of::<Raw>() == 1192 && align_of::<Raw>() == 8 && size_of::<Gateway>() == 16);

/// A sender that a table takes frames from, by its link-layer address and its PAN. `short` and `extended` make one with no
/// PAN, which is a value of its own and stands for no other.
#[repr(C)]
#[derive(Clone, Copy, PartialEq, Eq, Debug)]
pub struct Gateway {
    kind: u64,
    value: u64,
}

impl Gateway {
    /// How many numbers stand for one in the list that `lift_begin` takes.
    const NUMBERS: usize = 2;

    /// The short address whose first written byte is the higher one: 0001 is `short(1)`.
    pub const fn short(address: u16) -> Gateway {
        Gateway { kind: 1, value: address as u64 }
    }

    /// The extended address 00:11:22:33:44:55:66:77 is `extended(0x0011_2233_4455_6677)`.
    pub const fn extended(address: u64) -> Gateway {
        Gateway { kind: 2, value: address }
    }

    /// The same address in a PAN.
    pub const fn in_pan(self, pan: u16) -> Gateway {
        Gateway { kind: self.kind & 0xffff | (pan as u64 + 1) << 16, value: self.value }
    }
}

/// What a frame came to.
#[derive(Clone, Copy, PartialEq, Eq, Debug)]
pub enum Outcome<'o> {
    /// A part of a datagram that is not whole yet, or the repeat of one. The output is as it was.
    Kept,
    /// A whole datagram, 40 to 2,047 bytes at the start of the output.
    Out(&'o [u8]),
}

/// Why a call was refused. Memory for parts and output are then as they were, but for [`Refusal::BadChecksum`], where the
/// memory keeps the part just written. `docs/REFUSALS.md` says more of each.
#[derive(Clone, Copy, PartialEq, Eq, Debug)]
#[non_exhaustive]
pub enum Refusal {
    /// 1: the bytes end before a needed field.
    Ended,
    /// 2: the leading bits are not this header's.
    NotThisHeader,
    /// 3: a reserved or unsupported mode or version.
    Unsupported,
    /// 4: a length that is not allowed: a frame of over 127 bytes.
    BadLength,
    /// 5: the address context is not in the list.
    NoContext,
    /// 6: a needed link-layer address is absent.
    NoAddress,
    /// 7: the output is too small.
    NoRoom,
    /// 8: the time is earlier than the last one taken.
    EarlierTime,
    /// 9: the source with its PAN is not a gateway of the table.
    NotGateway,
    /// 10: a part that no datagram can have.
    BadPart,
    /// 11: the part clashes with bytes taken; its slot is freed.
    Clash,
    /// 12: no slot may be opened for this gateway now.
    NoSlot,
    /// 13: secured, not a Data frame, or with a header that is not expanded.
    NotExpanded,
    /// 14: a list of gateways with over four, or two equal ones.
    BadGateways,
    /// 17: the datagram is whole, and the UDP checksum that it carries does not hold; its slot is freed.
    BadChecksum,
    /// A number that this version does not give.
    Other(u16),
}

impl Refusal {
    /// Each refusal, with its number and `lift_reason`'s words.
    const ALL: [(Refusal, u16, &'static str); 15] = [
        (Refusal::Ended, 1, "the bytes end before a needed field"),
        (Refusal::NotThisHeader, 2, "the leading bits are not this header's"),
        (Refusal::Unsupported, 3, "a reserved or unsupported mode or version"),
        (Refusal::BadLength, 4, "a length that is not allowed"),
        (Refusal::NoContext, 5, "the address context is not in the list"),
        (Refusal::NoAddress, 6, "a needed link-layer address is absent"),
        (Refusal::NoRoom, 7, "the lent room is too small"),
        (Refusal::EarlierTime, 8, "the time is earlier than the last one taken"),
        (Refusal::NotGateway, 9, "the source with its PAN is not a gateway of the table"),
        (Refusal::BadPart, 10, "a part that no datagram can have"),
        (Refusal::Clash, 11, "the part clashes with bytes taken"),
        (Refusal::NoSlot, 12, "no slot may be opened"),
        (Refusal::NotExpanded, 13, "secured, not a Data frame, or a header that is not expanded"),
        (Refusal::BadGateways, 14, "the list of gateways is bad"),
        (Refusal::BadChecksum, 17, "the checksum that the datagram carries does not hold"),
    ];

    /// The refusal of a number.
    pub fn from_number(number: u16) -> Refusal {
        Refusal::ALL.iter().find(|r| r.1 == number).map_or(Refusal::Other(number), |r| r.0)
    }

    /// Its number, as in `lift.h` and the lines of `heard`.
    pub fn number(self) -> u16 {
        match self {
            Refusal::Other(number) => number,
            known => Refusal::ALL.iter().find(|r| r.0 == known).map_or(0, |r| r.1),
        }
    }
}

impl fmt::Display for Refusal {
    fn fmt(&self, f: &mut fmt::Formatter<'_>) -> fmt::Result {
        f.write_str(Refusal::ALL.iter().find(|r| r.0 == *self).map_or("?", |r| r.2))
    }
}

impl error::Error for Refusal {}

/// A table of at most four gateways with eight slots, and the memory for the parts of up to eight datagrams.
///
/// Before [`begin`](Table::begin) it has no gateway, and refuses every frame.
#[derive(Clone)]
pub struct Table {
    raw: Raw,
    mem: [u8; MEM_BYTES],
}

impl Table {
    /// A table of no gateways, all zero.
    pub const fn new() -> Table {
        Table { raw: Raw { words: [0; 149] }, mem: [0; MEM_BYTES] }
    }

    /// Begins, or begins again, with these gateways: eight free slots, and the last time 0. Refused
    /// ([`Refusal::BadGateways`]), the table is as it was.
    pub fn begin(&mut self, gateways: &[Gateway]) -> Result<(), Refusal> {
        // SAFETY: a `Gateway` is its numbers one behind the other (`repr(C)`), so the slice is so many times as many
        // numbers. It is read while it is borrowed. `&mut` keeps the table, zero at first and private, apart from it.
        let answer = unsafe { lift_begin_flat(&mut self.raw, gateways.as_ptr(), (gateways.len() * Gateway::NUMBERS) as u64) };
        if answer == 0 { Ok(()) } else { Err(Refusal::from_number(answer as u16)) }
    }

    /// Hands the table a frame that was heard, without its frame check.
    ///
    /// `time` is in milliseconds and never falls; an earlier time than the last one taken is refused. `out` has
    /// [`OUT_BYTES`] bytes or more. A refusal takes the time too, but for [`Refusal::NoRoom`] and
    /// [`Refusal::EarlierTime`], and frees slots that are 60,000 ms old.
    pub fn receive<'o>(&mut self, time: u64, frame: &[u8], contexts: &[Context], out: &'o mut [u8]) -> Result<Outcome<'o>, Refusal> {
        let flat = contexts.as_flattened();
        let (mem, room) = (&mut self.mem, &mut *out);
        // SAFETY: each pointer comes from a borrow of the length beside it, never null and never over `isize::MAX` bytes.
        // What is written (table, memory, output) is borrowed with `&mut`, so that it overlaps nothing. The table was
        // zero before its first `lift_begin` and, like its memory, is private.
        let answer = unsafe { lift_receive(&mut self.raw, time, frame.as_ptr(), frame.len() as u64, flat.as_ptr(), flat.len() as u64, mem.as_mut_ptr(), mem.len() as u64, room.as_mut_ptr(), room.len() as u64) };
        let number = answer as u16;
        match answer >> 16 {
            0 => Ok(Outcome::Kept),
            1 => Ok(Outcome::Out(&out[..number as usize])),
            _ => Err(Refusal::from_number(number)),
        }
    }

    /// How many of the eight slots are free. Slots that have grown old count as held until the next frame.
    pub fn free(&self) -> usize {
        lift_free(&self.raw) as usize
    }

    /// How many slots a gateway holds, 0 to 3.
    pub fn held(&self, gateway: Gateway) -> usize {
        lift_held(&self.raw, gateway.kind, gateway.value) as usize
    }
}

impl Default for Table {
    fn default() -> Table {
        Table::new()
    }
}
