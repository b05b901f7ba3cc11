//! The fields of the line protocol (README.md), read and written.

use std::io::Write;

use crate::wire::ieee802154::Address;
use crate::wire::ip::Protocol;
use crate::wire::sixlowpan::NextHeader;

/// The fields of a line that are still to be read; `None` behind the last.
pub struct Fields<'a>(Option<&'a [u8]>);

impl<'a> Fields<'a> {
    pub fn of(line: &'a [u8]) -> Self {
        Fields(Some(line))
    }

    pub fn next(&mut self) -> Option<&'a [u8]> {
        let rest = self.0?;
        let Some(space) = rest.iter().position(|b| *b == b' ') else {
            return self.0.take();
        };
        self.0 = Some(&rest[space + 1..]);
        Some(&rest[..space])
    }

    /// The line ends here.
    pub fn end(&mut self) -> Option<()> {
        self.0.is_none().then_some(())
    }

    /// Bytes in hexadecimal, `-` for none, into `bytes`.
    pub fn bytes_into(&mut self, bytes: &mut Vec<u8>) -> Option<()> {
        bytes.clear();
        let text = self.next()?;
        if text == b"-" {
            return Some(());
        }
        if text.is_empty() || text.len() % 2 != 0 {
            return None;
        }
        for pair in text.chunks_exact(2) {
            bytes.push(digit(pair[0])? << 4 | digit(pair[1])?);
        }
        Some(())
    }

    pub fn flag(&mut self) -> Option<bool> {
        match self.next()? {
            b"0" => Some(false),
            b"1" => Some(true),
            _ => None,
        }
    }

    pub fn byte(&mut self) -> Option<u8> {
        number(self.next()?, 2).map(|n| n as u8)
    }

    pub fn word(&mut self) -> Option<u16> {
        number(self.next()?, 4).map(|n| n as u16)
    }

    /// A byte, or `-`.
    pub fn maybe_byte(&mut self) -> Option<Option<u8>> {
        let text = self.next()?;
        if text == b"-" { Some(None) } else { number(text, 2).map(|n| Some(n as u8)) }
    }

    /// A word, or `-`.
    pub fn maybe_word(&mut self) -> Option<Option<u16>> {
        let text = self.next()?;
        if text == b"-" { Some(None) } else { number(text, 4).map(|n| Some(n as u16)) }
    }

    /// A flow label of 20 bits, or `-`; the Rust's record has room for the low 16.
    pub fn maybe_label(&mut self) -> Option<Option<u16>> {
        let text = self.next()?;
        if text == b"-" { Some(None) } else { number(text, 5).map(|n| Some(n as u16)) }
    }

    /// A link-layer address: `n`, `a`, `s` and 4 digits, `e` and 16.
    pub fn link(&mut self) -> Option<Option<Address>> {
        match self.next()? {
            b"n" => Some(None),
            b"a" => Some(Some(Address::Absent)),
            [b's', rest @ ..] => number(rest, 4).map(|n| Some(Address::Short((n as u16).to_be_bytes()))),
            [b'e', rest @ ..] => number(rest, 16).map(|n| Some(Address::Extended(n.to_be_bytes()))),
            _ => None,
        }
    }

    /// An IPv6 address, 32 digits.
    pub fn ipv6(&mut self) -> Option<[u8; 16]> {
        let text = self.next()?;
        if text.len() != 32 {
            return None;
        }
        let n = (number(&text[..16], 16)? as u128) << 64 | number(&text[16..], 16)? as u128;
        Some(n.to_be_bytes())
    }

    /// `c`, or a protocol number.
    pub fn next_header(&mut self) -> Option<NextHeader> {
        match self.next()? {
            b"c" => Some(NextHeader::Compressed),
            text => number(text, 2).map(|n| NextHeader::Uncompressed(Protocol(n as u8))),
        }
    }

    /// `=` the length itself, `+K` K more, `-K` K less, or a decimal number; at most 512.
    pub fn room(&mut self, len: usize) -> Option<usize> {
        let room = match self.next()? {
            b"=" => len,
            [b'+', rest @ ..] => len + decimal(rest)?,
            [b'-', rest @ ..] => len.checked_sub(decimal(rest)?)?,
            rest => decimal(rest)?,
        };
        (room <= 512).then_some(room)
    }
}

/// The value of each hexadecimal digit, and NONE for every other byte.
const VALUES: [u8; 256] = {
    let mut values = [NONE; 256];
    let mut n = 0;
    while n < 16 {
        values[DIGITS[n] as usize] = n as u8;
        n += 1;
    }
    values
};

const NONE: u8 = 0xff;
const DIGITS: &[u8; 16] = b"0123456789abcdef";

fn digit(b: u8) -> Option<u8> {
    let value = VALUES[b as usize];
    (value != NONE).then_some(value)
}

/// A number of exactly so many hexadecimal digits.
fn number(text: &[u8], digits: usize) -> Option<u64> {
    if text.len() != digits {
        return None;
    }
    let mut n = 0;
    for &b in text {
        n = n << 4 | digit(b)? as u64;
    }
    Some(n)
}

/// A decimal number of one to three digits.
fn decimal(text: &[u8]) -> Option<usize> {
    if text.is_empty() || text.len() > 3 {
        return None;
    }
    let mut n = 0;
    for &b in text {
        n = n * 10 + (b as char).to_digit(10)? as usize;
    }
    Some(n)
}

/// A line being written. Every field but the first brings the space before it.
pub trait Line {
    fn word(&mut self, text: &str);
    fn hex(&mut self, bytes: &[u8]);
    fn decimal(&mut self, n: usize);

    fn bytes(&mut self, bytes: &[u8]) {
        if bytes.is_empty() {
            self.word("-");
        } else {
            self.word("");
            self.hex(bytes);
        }
    }

    fn flag(&mut self, flag: bool) {
        self.word(if flag { "1" } else { "0" });
    }

    fn maybe<const N: usize>(&mut self, bytes: Option<[u8; N]>) {
        self.bytes(bytes.as_ref().map_or(&[], |b| b.as_slice()));
    }

    /// 20 bits in 5 digits, or `-`.
    fn maybe_label(&mut self, label: Option<u32>) {
        match label {
            None => self.word("-"),
            Some(l) => self.word(&format!("{l:05x}")),
        }
    }

    fn link(&mut self, addr: Option<Address>) {
        match addr {
            None => self.word("n"),
            Some(Address::Absent) => self.word("a"),
            Some(Address::Short(b)) => {
                self.word("s");
                self.hex(&b);
            }
            Some(Address::Extended(b)) => {
                self.word("e");
                self.hex(&b);
            }
        }
    }

    fn next_header(&mut self, next: NextHeader) {
        match next {
            NextHeader::Compressed => self.word("c"),
            NextHeader::Uncompressed(protocol) => self.bytes(&[protocol.0]),
        }
    }
}

impl Line for Vec<u8> {
    fn word(&mut self, text: &str) {
        self.push(b' ');
        self.extend_from_slice(text.as_bytes());
    }

    fn hex(&mut self, bytes: &[u8]) {
        for b in bytes {
            self.extend_from_slice(&[DIGITS[(b >> 4) as usize], DIGITS[(b & 15) as usize]]);
        }
    }

    fn decimal(&mut self, n: usize) {
        self.word("");
        write!(self, "{n}").expect("a vector takes every write");
    }
}
