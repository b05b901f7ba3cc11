//! hear CAPTURE: as examples/c/hear.c, from Rust, over the crate in bindings/rust. Nothing here allocates: the table, its
//! memory and the output are one static, as in firmware; `std` only reads the file and prints.
//!
//!     examples/archive && cargo run --offline --manifest-path examples/rust/Cargo.toml examples/patch.cap
use lift::{Gateway, OUT_BYTES, Outcome, Table};
use std::{env, fs::File, io::Read, process::ExitCode, sync::Mutex};

/// All that a receiver needs; zero at first, so that it takes no room in the image.
struct Radio {
    table: Table,
    out: [u8; OUT_BYTES],
}

static RADIO: Mutex<Radio> = Mutex::new(Radio { table: Table::new(), out: [0; OUT_BYTES] });

const fn listed(address: u16) -> Gateway {
    Gateway::short(address).in_pan(0xabcd)
}
const GATEWAYS: [Gateway; 4] = [listed(1), listed(2), listed(3), listed(4)];

fn hear(radio: &mut Radio, n: u32, time: u32, frame: &[u8]) {
    match radio.table.receive(time.into(), frame, &[], &mut radio.out) {
        Ok(Outcome::Kept) => println!("{n} kept"),
        Ok(Outcome::Out(datagram)) => println!("{n} out {}", datagram.len()),
        Err(refusal) => println!("{n} no {}", refusal.number()),
    }
}

fn main() -> ExitCode {
    let Some(mut file) = env::args_os().nth(1).and_then(|path| File::open(path).ok()) else {
        eprintln!("usage: hear CAPTURE");
        return ExitCode::from(2);
    };
    let mut radio = RADIO.lock().expect("nobody else has it");
    if let Err(refusal) = radio.table.begin(&GATEWAYS) {
        eprintln!("gateways: {refusal}");
        return ExitCode::FAILURE;
    }
    let (mut block, mut n) = ([0; 512], 0);
    while file.read_exact(&mut block).is_ok() {
        for place in block[6..402].chunks_exact(132).take(block[4].into()) {
            let Some(frame) = place[5..].get(..place[4].into()) else {
                eprintln!("hear: no capture: a frame of {} bytes", place[4]);
                return ExitCode::FAILURE;
            };
            n += 1;
            hear(&mut radio, n, u32::from_le_bytes([place[0], place[1], place[2], place[3]]), frame);
        }
    }
    println!("end {n}");
    ExitCode::SUCCESS
}
