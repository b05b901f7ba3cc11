//! The oracle: the Rust's own answers to the commands of the line protocol, made-up commands, and the comparison (README.md).

use std::process::exit;

mod answer;
mod compare;
mod generate;
mod list;
#[cfg(native)]
mod native;
mod rules;
mod sink;
mod speed;
mod text;
mod values;

pub fn main() {
    let args: Vec<String> = std::env::args().skip(1).collect();
    let args: Vec<&str> = args.iter().map(String::as_str).collect();
    let done = match args[..] {
        ["answer"] => answer::run(false),
        ["answer01"] => answer::run(true),
        ["gen", kind, seed, count] => generate::run(kind, seed, count),
        ["speed", program] => speed::run(program),
        #[cfg(native)]
        ["native", turns] => native::run(turns),
        ["list"] => list::run(),
        ["compare", lines, ours, theirs] => compare::run(lines, ours, theirs),
        _ => {
            eprintln!("usage: oracle answer | answer01 | gen KIND SEED COUNT | compare LINES OURS THEIRS | list | speed PROGRAM");
            exit(2)
        }
    };
    if let Err(e) = done {
        eprintln!("oracle: {e}");
        exit(1)
    }
}
