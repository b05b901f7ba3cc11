//! The comparison of two programs' answers to the same lines: `compare LINES OURS THEIRS`.

use std::fs::File;
use std::io::{self, BufRead, BufReader};

use crate::oracle::answer::{Answerer, listed, mac_01, silence_panics};
use crate::oracle::rules::{self, Listed};
use crate::oracle::text::Fields;

/// How many differences are printed.
const SHOWN: usize = 10;

/// A file of lines.
struct Lines {
    name: String,
    file: BufReader<File>,
    line: Vec<u8>,
}

impl Lines {
    fn open(name: &str) -> io::Result<Self> {
        let file = File::open(name).map_err(|e| io::Error::other(format!("{name}: {e}")))?;
        if file.metadata()?.len() == 0 {
            return Err(io::Error::other(format!("{name} is empty")));
        }
        Ok(Lines { name: name.to_string(), file: BufReader::with_capacity(1 << 16, file), line: Vec::new() })
    }

    /// Goes on to the next line; false where there is none.
    fn next(&mut self) -> io::Result<bool> {
        self.line.clear();
        let read = self.file.read_until(b'\n', &mut self.line)?;
        if read > 0 && self.line.pop() != Some(b'\n') {
            return Err(io::Error::other(format!("{}: the last line is cut", self.name)));
        }
        Ok(read > 0)
    }

    fn text(&self) -> String {
        String::from_utf8_lossy(&self.line).into_owned()
    }
}

/// What was counted.
#[derive(Default)]
struct Counts {
    lines: usize,
    agreed: usize,
    both_absent: usize,
    source_only: usize,
    label: usize,
    suppressed: usize,
    omitted: usize,
    differences: usize,
}

/// Knows where 01 or 02 decides against the Rust.
pub struct Judge {
    bytes: Vec<u8>,
    as_01: Answerer,
}

impl Judge {
    pub fn new() -> Self {
        Judge { bytes: Vec::new(), as_01: Answerer::new(true) }
    }

    /// The answer that is wanted where it is not the Rust's.
    pub fn wanted(&mut self, line: &[u8]) -> Option<(Listed, Vec<u8>)> {
        let mut fields = Fields::of(line);
        let command = fields.next()?;
        let mut answer = Vec::new();
        if command == b"mac.parse" {
            fields.bytes_into(&mut self.bytes)?;
            fields.end()?;
            let case = listed(&self.bytes)?;
            mac_01(rules::mac(&self.bytes), &mut answer);
            return Some((case, answer));
        }
        if command == b"mac.emit" {
            return self.wanted_write(line);
        }
        if command != b"iphc.parse" {
            return None;
        }
        // By TF: a label whose top four bits are not 0.
        fields.bytes_into(&mut self.bytes)?;
        rules::label(&self.bytes).filter(|label| *label > 0xffff)?;
        self.as_01.answer(line, &mut answer);
        answer.starts_with(b"ok ").then_some((Listed::Label, answer))
    }
}

impl Judge {
    /// A record that leaves its sequence number out: TYPE below 4, SEQ none, VERSION 2.
    fn wanted_write(&mut self, line: &[u8]) -> Option<(Listed, Vec<u8>)> {
        let fields: Vec<&[u8]> = line.split(|b| *b == b' ').collect();
        if !matches!(fields.get(1)?, [b'0', b'0'..=b'3']) || *fields.get(5)? != b"-" || *fields.get(7)? != b"02" {
            return None;
        }
        let mut answer = Vec::new();
        self.as_01.answer(line, &mut answer);
        (answer != b"bad").then_some((Listed::Omitted, answer))
    }
}

/// The answer to `iphc.parse` with the low 16 bits of its label, the ninth field.
fn with_low_16(answer: &[u8]) -> Vec<u8> {
    let mut fields: Vec<Vec<u8>> = answer.split(|b| *b == b' ').map(<[u8]>::to_vec).collect();
    fields[8][0] = b'0';
    fields.join(&b' ')
}

/// An answer that says that the Rust and rules.rs disagree.
fn is_marked(answer: &[u8]) -> bool {
    answer == b"panic" || answer.ends_with(b"?")
}

fn compare_line(lines: &Lines, ours: &Lines, theirs: &Lines, judge: &mut Judge, counts: &mut Counts) {
    counts.lines += 1;
    let want = judge.wanted(&lines.line);
    let well = match &want {
        Some((Listed::Label, answer)) => ours.line == *answer && theirs.line == with_low_16(answer),
        Some((_, answer)) => ours.line == *answer,
        None => ours.line == theirs.line && (lines.line.starts_with(b"#") || !is_marked(&theirs.line)),
    };
    match want {
        _ if well && ours.line == theirs.line => counts.agreed += 1,
        Some((Listed::BothAbsent, _)) if well => counts.both_absent += 1,
        Some((Listed::SourceOnly, _)) if well => counts.source_only += 1,
        Some((Listed::Label, _)) if well => counts.label += 1,
        Some((Listed::Suppressed, _)) if well => counts.suppressed += 1,
        Some((Listed::Omitted, _)) if well => counts.omitted += 1,
        _ => {
            counts.differences += 1;
            if counts.differences <= SHOWN {
                eprintln!("{}\n  ours   {}\n  theirs {}", lines.text(), ours.text(), theirs.text());
                if let Some((_, answer)) = want {
                    eprintln!("  wanted {} (the documents decide here)", String::from_utf8_lossy(&answer));
                }
            }
        }
    }
}

/// Prints the number of lines, of equal answers and of each listed difference, or fails.
pub fn run(lines: &str, ours: &str, theirs: &str) -> io::Result<()> {
    let (mut lines, mut ours, mut theirs) = (Lines::open(lines)?, Lines::open(ours)?, Lines::open(theirs)?);
    let (mut counts, mut judge) = (Counts::default(), Judge::new());
    silence_panics();
    loop {
        let more = lines.next()?;
        for answers in [&mut ours, &mut theirs] {
            if answers.next()? != more {
                let what = if more { "missing" } else { "too many" };
                return Err(io::Error::other(format!("{}: answers {what} after line {}", answers.name, counts.lines)));
            }
        }
        if !more {
            break;
        }
        compare_line(&lines, &ours, &theirs, &mut judge, &mut counts);
    }
    if counts.differences > 0 {
        return Err(io::Error::other(format!("{} of {} answers differ", counts.differences, counts.lines)));
    }
    let listed = [counts.both_absent, counts.source_only, counts.label, counts.suppressed, counts.omitted];
    println!("{} {} {}", counts.lines, counts.agreed, listed.map(|n| n.to_string()).join(" "));
    Ok(())
}
