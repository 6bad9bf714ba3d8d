//! Writes the texts that are read, and measures `serde_json` on them:
//!
//! ```text
//! peers text KIND BYTES      writes a text of that kind, of about so many bytes
//! peers rates ROUNDS         the best rates of reading, printing and letting go the text on standard input
//! peers whole                reads standard input whole and prints it, as a user's program would
//! ```

mod texts;

use serde_json::Value;
use std::error::Error;
use std::hint::black_box;
use std::io::{self, Read, Write};
use std::process::ExitCode;
use std::time::{Duration, Instant};
use texts::Kind;

fn input() -> io::Result<Vec<u8>> {
    let mut bytes = Vec::new();
    io::stdin().read_to_end(&mut bytes)?;
    Ok(bytes)
}

/// The least times of reading, printing and letting go.
fn best(bytes: &[u8], rounds: u32) -> Result<[Duration; 3], Box<dyn Error>> {
    let mut best = [Duration::MAX; 3];
    for _ in 0..rounds {
        let start = Instant::now();
        let value: Value = serde_json::from_slice(bytes)?;
        let read = Instant::now();
        drop(black_box(serde_json::to_string(&value)?));
        let printed = Instant::now();
        drop(value);
        let times = [read - start, printed - read, printed.elapsed()];
        for (least, time) in best.iter_mut().zip(times) {
            *least = time.min(*least);
        }
    }
    Ok(best)
}

fn run() -> Result<(), Box<dyn Error>> {
    let words: Vec<String> = std::env::args().skip(1).collect();
    let words: Vec<&str> = words.iter().map(String::as_str).collect();
    match words[..] {
        ["text", kind, bytes] => {
            let kind = Kind::named(kind).ok_or("no such kind")?;
            io::stdout().write_all(&texts::text_of(kind, bytes.parse()?))?;
        }
        ["rates", rounds] => {
            let bytes = input()?;
            let best = best(&bytes, rounds.parse()?)?;
            for (task, time) in ["read", "print", "let go"].iter().zip(best) {
                let rate = bytes.len() as f64 * 1000.0 / time.as_nanos() as f64;
                println!("serde_json {task}: {rate:.0} MB/s");
            }
        }
        ["whole"] => {
            let value: Value = serde_json::from_slice(&input()?)?;
            let mut out = io::stdout().lock();
            out.write_all(serde_json::to_string(&value)?.as_bytes())?;
            out.write_all(b"\n")?;
        }
        _ => return Err("usage: peers text KIND BYTES | rates ROUNDS | whole".into()),
    }
    Ok(())
}

fn main() -> ExitCode {
    match run() {
        Ok(()) => ExitCode::SUCCESS,
        Err(fault) => {
            eprintln!("{fault}");
            ExitCode::FAILURE
        }
    }
}
