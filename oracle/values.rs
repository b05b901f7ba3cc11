//! Values chosen for the boundaries that random ones miss, and a source of random ones.

use crate::wire::ieee802154::Address;

/// Sebastiano Vigna's splitmix64: the same numbers for the same seed, everywhere.
pub struct Rng(pub u64);

impl Rng {
    pub fn next(&mut self) -> u64 {
        self.0 = self.0.wrapping_add(0x9e37_79b9_7f4a_7c15);
        let mut z = self.0;
        z = (z ^ z >> 30).wrapping_mul(0xbf58_476d_1ce4_e5b9);
        z = (z ^ z >> 27).wrapping_mul(0x94d0_49bb_1331_11eb);
        z ^ z >> 31
    }

    pub fn below(&mut self, n: usize) -> usize {
        (self.next() >> 11) as usize % n
    }

    pub fn one_in(&mut self, n: usize) -> bool {
        self.below(n) == 0
    }

    pub fn byte(&mut self) -> u8 {
        self.next() as u8
    }

    pub fn pick<T: Copy>(&mut self, from: &[T]) -> T {
        from[self.below(from.len())]
    }

    pub fn fill(&mut self, bytes: &mut [u8]) {
        for chunk in bytes.chunks_mut(8) {
            chunk.copy_from_slice(&self.next().to_le_bytes()[..chunk.len()]);
        }
    }

    pub fn bytes<const N: usize>(&mut self) -> [u8; N] {
        let mut bytes = [0; N];
        self.fill(&mut bytes);
        bytes
    }

    /// A number near a power of two half the time, any other half the time.
    pub fn word(&mut self) -> u16 {
        if self.one_in(2) { self.next() as u16 } else { self.pick(&WORDS) }
    }

    pub fn port(&mut self) -> u16 {
        if self.one_in(3) { self.next() as u16 } else { self.pick(&PORTS) }
    }

    pub fn link(&mut self) -> Option<Address> {
        match self.below(6) {
            0 => None,
            1 => Some(Address::Absent),
            2 => Some(Address::Short(self.bytes())),
            3 => Some(Address::Extended(self.bytes())),
            _ => self.pick(&LINKS),
        }
    }

    /// An IPv6 address: a chosen one, one made from the link-layer address, one bit off of it, or any.
    pub fn ipv6(&mut self, chosen: &[[u8; 16]], link: Option<Address>) -> [u8; 16] {
        let mut addr = match self.below(8) {
            0 => self.bytes(),
            1 => [&[0xfe, 0x80, 0, 0, 0, 0, 0, 0][..], &self.bytes::<8>()].concat().try_into().unwrap(),
            2..5 => from_link(link),
            _ => self.pick(chosen),
        };
        if self.one_in(6) {
            addr[self.below(16)] ^= 1 << self.below(8);
        }
        addr
    }
}

/// 2^k - 1 and 2^k for every width of a field.
pub const WORDS: [u16; 32] = [
    0, 1, 2, 3, 4, 7, 8, 15, 16, 31, 32, 63, 64, 127, 128, 255, 256, 511, 512, 1023, 1024, 2047, 2048, 4095, 4096, 8191, 8192, 16383,
    16384, 32767, 32768, 65535,
];

pub const BYTES: [u8; 16] = [0, 1, 2, 3, 4, 7, 8, 15, 16, 31, 32, 63, 64, 127, 128, 255];

/// Both sides of every port range of RFC 6282 4.3.1.
pub const PORTS: [u16; 13] = [0, 1, 0xefff, 0xf000, 0xf001, 0xf0af, 0xf0b0, 0xf0b1, 0xf0bf, 0xf0c0, 0xf0ff, 0xf100, 0xffff];

/// Around the hop limits that HLIM names.
pub const HOPS: [u8; 8] = [0, 1, 2, 63, 64, 65, 254, 255];

pub const SHORT_1234: Address = Address::Short([0x12, 0x34]);
/// Its modified EUI-64 is the interface identifier of short 1234.
pub const EXT_LIKE_SHORT: Address = Address::Extended([0x02, 0, 0, 0xff, 0xfe, 0, 0x12, 0x34]);
pub const EXT: Address = Address::Extended([0x00, 0x11, 0x22, 0x33, 0x44, 0x55, 0x66, 0x77]);

pub const LINKS: [Option<Address>; 12] = [
    None,
    Some(Address::Absent),
    Some(SHORT_1234),
    Some(Address::Short([0x12, 0x35])),
    Some(Address::Short([0, 0])),
    Some(Address::Short([0xff, 0xff])),
    Some(EXT_LIKE_SHORT),
    Some(Address::Extended([0, 0, 0, 0xff, 0xfe, 0, 0x12, 0x34])),
    Some(EXT),
    Some(Address::Extended([0xac, 0xde, 0x48, 0, 0, 0, 0, 1])),
    Some(Address::Extended([0; 8])),
    Some(Address::Extended([0xff; 8])),
];

/// One of each kind.
pub const KINDS_OF_LINK: [Option<Address>; 4] = [None, Some(Address::Absent), Some(SHORT_1234), Some(EXT)];

/// fe80:: with the interface identifier of RFC 6282 3.2.2, or of all zeros.
pub fn from_link(link: Option<Address>) -> [u8; 16] {
    let mut addr = [0; 16];
    addr[..2].copy_from_slice(&[0xfe, 0x80]);
    match link {
        Some(Address::Short(b)) => addr[8..].copy_from_slice(&[0, 0, 0, 0xff, 0xfe, 0, b[0], b[1]]),
        Some(Address::Extended(b)) => {
            addr[8..].copy_from_slice(&b);
            addr[8] ^= 2;
        }
        _ => {}
    }
    addr
}

fn of(groups: [u16; 8]) -> [u8; 16] {
    let mut addr = [0; 16];
    for (place, group) in addr.chunks_mut(2).zip(groups) {
        place.copy_from_slice(&group.to_be_bytes());
    }
    addr
}

/// Addresses on both sides of every case of the writer.
pub fn addresses() -> Vec<[u8; 16]> {
    let mut all: Vec<[u8; 16]> = LINKS.iter().map(|link| from_link(*link)).collect();
    all.extend(
        [
            [0, 0, 0, 0, 0, 0, 0, 0],
            [0, 0, 0, 0, 0, 0, 0, 1],
            [1, 0, 0, 0, 0, 0, 0, 0],
            [0xfe80, 0, 0, 0, 0, 0, 0, 1],
            [0xfe80, 0, 0, 0, 0, 0xff, 0xfe00, 0x1235],
            [0xfe80, 0, 0, 0, 0, 0xff, 0xfe01, 0x1234],
            [0xfe80, 0, 0, 0, 0, 0xff, 0xff00, 0x1234],
            [0xfe80, 0, 0, 0, 0x0200, 0xff, 0xfe00, 0x1234],
            // Inside fe80::/10, outside fe80::/64.
            [0xfe80, 0, 0, 1, 0, 0xff, 0xfe00, 0x1234],
            [0xfe80, 0x8000, 0, 0, 0, 0, 0, 1],
            [0xfe80, 1, 0, 0, 0, 0, 0, 0],
            [0xfe81, 0, 0, 0, 0, 0, 0, 1],
            [0xfebf, 0xffff, 0xffff, 0xffff, 0xffff, 0xffff, 0xffff, 0xffff],
            [0xfec0, 0, 0, 0, 0, 0, 0, 0],
            [0xfe7f, 0xffff, 0xffff, 0xffff, 0xffff, 0xffff, 0xffff, 0xffff],
            [0xfe00, 0, 0, 0, 0, 0, 0, 0],
            [0xfeff, 0xffff, 0xffff, 0xffff, 0xffff, 0xffff, 0xffff, 0xffff],
            // Multicast: ff02::XX, ffXX::XX:XXXX, ffXX::XX:XXXX:XXXX, and one past each.
            [0xff00, 0, 0, 0, 0, 0, 0, 0],
            [0xff01, 0, 0, 0, 0, 0, 0, 1],
            [0xff02, 0, 0, 0, 0, 0, 0, 0],
            [0xff02, 0, 0, 0, 0, 0, 0, 1],
            [0xff02, 0, 0, 0, 0, 0, 0, 0xff],
            [0xff02, 0, 0, 0, 0, 0, 0, 0x100],
            [0xff02, 0, 0, 0, 0, 0, 1, 0],
            [0xff02, 0, 0, 0, 0, 1, 0, 0],
            [0xff02, 0, 0, 0, 0, 1, 0xff00, 0x1234],
            [0xff02, 0, 0, 0, 1, 0, 0, 0],
            [0xff03, 0, 0, 0, 0, 0, 0, 0xfc],
            [0xff05, 0, 0, 0, 0, 0, 0, 2],
            [0xff05, 0, 0, 0, 0, 0, 0xff, 0xffff],
            [0xff05, 0, 0, 0, 0, 0, 0x100, 0],
            [0xff05, 0, 0, 0, 0, 0xff, 0xffff, 0xffff],
            [0xff05, 0, 0, 0, 0, 0x100, 0, 0],
            [0xff12, 0, 0, 0, 0, 0, 0, 1],
            [0xffff, 0, 0, 0, 0, 0, 0, 0xff],
            [0xffff, 0xffff, 0xffff, 0xffff, 0xffff, 0xffff, 0xffff, 0xffff],
            [0x2001, 0xdb8, 0, 0, 0, 0xff, 0xfe00, 0x1234],
            [0x2001, 0xdb8, 1, 2, 3, 4, 5, 6],
        ]
        .map(of),
    );
    all
}

/// Addresses whose every bit matters: each bit of them flipped is a case of its own.
pub fn all_bits_matter() -> [[u8; 16]; 6] {
    [
        from_link(Some(SHORT_1234)),
        from_link(Some(EXT)),
        of([0; 8]),
        of([0xff02, 0, 0, 0, 0, 0, 0, 1]),
        of([0xff05, 0, 0, 0, 0, 0, 0xff, 0xffff]),
        of([0xff05, 0, 0, 0, 0, 0xff, 0xffff, 0xffff]),
    ]
}

/// Rooms around the length, and fixed ones.
pub const ROOMS: [&str; 18] = ["=", "-1", "-2", "+1", "+7", "0", "1", "2", "3", "4", "5", "6", "7", "9", "20", "36", "128", "512"];
