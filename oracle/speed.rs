//! Commands a second of the oracle and of another program over the same lines: `speed PROGRAM`.

use std::fs::{self, File};
use std::io;
use std::path::Path;
use std::process::{Command, Stdio};
use std::time::Instant;

use crate::oracle::answer::{Answerer, silence_panics};
use crate::oracle::generate;

/// What is timed: a kind of lines and its two numbers.
const TIMED: [(&str, usize, usize); 9] = [
    ("mac-random", 1, 500_000),
    ("mac-writes", 0, 1),
    ("frag-random", 1, 500_000),
    ("frag-writes", 0, 1),
    ("udp-random", 1, 500_000),
    ("ext-random", 1, 500_000),
    ("nhc-writes", 0, 1),
    ("iphc-random", 1, 500_000),
    ("iphc-writes", 0, 1),
];

/// Each program runs so many times in turn, and its best time counts.
const ROUNDS: usize = 5;

/// The lines of a kind on which the Rust does not panic, since catching a panic is no part of its speed.
fn lines(kind: &str, seed: usize, count: usize) -> io::Result<(Vec<u8>, usize)> {
    let (mut all, mut kept, mut n) = (Vec::new(), Vec::new(), 0);
    generate::write(kind, seed, count, &mut all)?;
    let (mut answerer, mut answer) = (Answerer::new(false), Vec::new());
    for line in all.split_inclusive(|b| *b == b'\n') {
        answer.clear();
        answerer.answer(&line[..line.len() - 1], &mut answer);
        if !matches!(&answer[..], b"no 4" | b"no 7") || line.starts_with(b"mac.parse") {
            kept.extend_from_slice(line);
            n += 1;
        }
    }
    Ok((kept, n))
}

fn seconds(program: &Path, args: &[&str], input: &str) -> io::Result<f64> {
    let start = Instant::now();
    let status = Command::new(program).args(args).stdin(File::open(input)?).stdout(Stdio::null()).status()?;
    if !status.success() {
        return Err(io::Error::other(format!("{} ended with {status}", program.display())));
    }
    Ok(start.elapsed().as_secs_f64())
}

pub fn run(program: &str) -> io::Result<()> {
    silence_panics();
    let (oracle, input) = (std::env::current_exe()?, "target/oracle/speed.lines");
    println!("{:<12} {:>8} {:>12} {:>12}", "lines of", "", "ours a s", "theirs a s");
    for (kind, seed, count) in TIMED {
        let (text, n) = lines(kind, seed, count)?;
        fs::write(input, text)?;
        let (mut ours, mut theirs) = (f64::MAX, f64::MAX);
        for _ in 0..ROUNDS {
            ours = ours.min(seconds(Path::new(program), &[], input)?);
            theirs = theirs.min(seconds(&oracle, &["answer"], input)?);
        }
        println!("{kind:<12} {n:>8} {:>12.0} {:>12.0}", n as f64 / ours, n as f64 / theirs);
    }
    fs::remove_file(input)
}
