// answer: as examples/c/answer.c, from Rust. It wants rustc alone:
//
//     rustc -O -L target/staticlib -l static=lift examples/rust/answer.rs

// include/lift.h has the rules of these calls. Lengths cross as 64 bits on every machine.
mod lift {
    pub const SHORT: u64 = 1;
    pub const EXTENDED: u64 = 2;
    pub const OUT_BYTES: usize = 2047;
    const MEM_BYTES: usize = 16384;

    #[repr(C)]
    struct Table {
        words: [u64; 149],
    }

    extern "C" {
        fn lift_begin_flat(t: *mut Table, gateways: *const u64, numbers: u64) -> u32;
        #[rustfmt::skip]
        fn lift_receive(t: *mut Table, time: u64, frame: *const u8, frame_len: u64, contexts: *const u8, contexts_len: u64, mem: *mut u8, mem_len: u64, out: *mut u8, out_len: u64) -> u32;
        fn lift_frames(datagram: *const u8, datagram_len: u64, link: *const u64, numbers: u64) -> u32;
        fn lift_cut(datagram: *const u8, datagram_len: u64, link: *const u64, numbers: u64, k: u16, out: *mut u8, out_len: u64) -> u32;
    }

    // What frames say beside the datagram, in the order of include/lift.h.
    pub struct Link(pub [u64; 8]);

    fn told(answer: u32) -> Result<usize, u32> {
        match answer >> 16 {
            1 => Ok((answer & 0xffff) as usize),
            _ => Err(answer & 0xffff),
        }
    }

    impl Link {
        // How many frames the datagram goes in.
        pub fn frames(&self, datagram: &[u8]) -> Result<usize, u32> {
            // SAFETY: each pointer comes from a borrow of the length beside it.
            told(unsafe { lift_frames(datagram.as_ptr(), datagram.len() as u64, self.0.as_ptr(), self.0.len() as u64) })
        }

        // Frame k, from 0.
        pub fn cut(&self, datagram: &[u8], k: u16) -> Result<Vec<u8>, u32> {
            let mut frame = vec![0; 127];
            // SAFETY: each pointer comes from a borrow of the length beside it, and what is written is nobody else's.
            let n = told(unsafe { lift_cut(datagram.as_ptr(), datagram.len() as u64, self.0.as_ptr(), self.0.len() as u64, k, frame.as_mut_ptr(), frame.len() as u64) })?;
            frame.truncate(n);
            Ok(frame)
        }
    }

    // A table of one gateway, with its memory.
    pub struct Receiver {
        table: Table,
        mem: Vec<u8>,
    }

    impl Receiver {
        pub fn new(pan: u16, kind: u64, value: u64) -> Result<Receiver, u32> {
            let mut r = Receiver { table: Table { words: [0; 149] }, mem: vec![0; MEM_BYTES] };
            let numbers = [kind | (u64::from(pan) + 1) << 16, value];
            // SAFETY: as above; the table's bytes are all zero.
            match unsafe { lift_begin_flat(&mut r.table, numbers.as_ptr(), numbers.len() as u64) } {
                0 => Ok(r),
                n => Err(n),
            }
        }

        // The datagram that the frame makes whole, if it does.
        pub fn receive(&mut self, frame: &[u8]) -> Result<Option<Vec<u8>>, u32> {
            let mut out = vec![0; OUT_BYTES];
            // SAFETY: as above; what is written is borrowed with `&mut`, and so apart from all else.
            let answer = unsafe {
                lift_receive(&mut self.table, 0, frame.as_ptr(), frame.len() as u64, [0].as_ptr(), 0, self.mem.as_mut_ptr(), self.mem.len() as u64, out.as_mut_ptr(), out.len() as u64)
            };
            match answer >> 16 {
                0 => Ok(None),
                _ => {
                    out.truncate(told(answer)?);
                    Ok(Some(out))
                }
            }
        }
    }
}

use lift::{Link, Receiver, EXTENDED, SHORT};

// UDP from fe80::ff:fe00:1 to fe80::ff:fe00:2, with its checksum (RFC 768, RFC 8200 8.1).
fn datagram(size: usize) -> Vec<u8> {
    let length = ((size - 40) as u16).to_be_bytes();
    let mut d = vec![0x60, 0, 0, 0, length[0], length[1], 17, 64];
    for last in [1, 2] {
        d.extend([0xfe, 0x80, 0, 0, 0, 0, 0, 0, 0, 0, 0, 0xff, 0xfe, 0, 0, last]);
    }
    d.extend([0xf0, 0xb1, 0xf0, 0xb2, length[0], length[1], 0, 0]);
    d.extend((48..size).map(|i| (7 * i) as u8));
    let words: u32 = d[8..].chunks(2).map(|c| u32::from(c[0]) << 8 | u32::from(*c.get(1).unwrap_or(&0))).sum();
    let mut sum = words + (size as u32 - 40) + 17;
    while sum >> 16 != 0 {
        sum = (sum & 0xffff) + (sum >> 16);
    }
    let sum = if sum == 0xffff { 0xffff } else { 0xffff - sum as u16 };
    d[46..48].copy_from_slice(&sum.to_be_bytes());
    d
}

// Sends a datagram in frames of at most `limit` bytes, the last one first, and says how it went.
fn answer(size: usize, from: (u64, u64), tag: u64, limit: u64) -> Result<(), u32> {
    let link = Link([0xabcd, from.0, from.1, SHORT, 0x0002, 5, tag, limit]);
    let sent = datagram(size);
    let mut other = Receiver::new(0xabcd, from.0, from.1)?;
    let count = link.frames(&sent)?;
    print!("{size} bytes, at most {limit}: {count} frames");
    let mut whole = None;
    for k in (0..count).rev() {
        let frame = link.cut(&sent, k as u16)?;
        print!(" {}", frame.len());
        assert!(whole.is_none(), "handed out before the last frame");
        whole = other.receive(&frame)?;
    }
    assert!(whole.as_deref() == Some(&sent[..]), "not the datagram that was sent");
    println!("; out {size}, the same bytes");
    Ok(())
}

fn main() -> Result<(), u32> {
    let (ours, ours_extended) = ((SHORT, 0x0001), (EXTENDED, 0x0011223344556677));
    answer(60, ours, 1, 127)?;
    answer(257, ours, 2, 127)?;
    answer(1280, ours, 3, 127)?;
    answer(1280, ours_extended, 4, 80)?;
    answer(2047, ours_extended, 5, 81)?;
    let mut other = datagram(2047);
    let nobody = Link([0xabcd, 0, 0, SHORT, 0x0002, 5, 1, 127]);
    println!("from nobody: no {}", nobody.frames(&other).err().unwrap_or(0));
    other[0] = 0x45;
    let link = Link([0xabcd, SHORT, 0x0001, SHORT, 0x0002, 5, 6, 127]);
    println!("IPv4: no {}", link.frames(&other).err().unwrap_or(0));
    Ok(())
}
