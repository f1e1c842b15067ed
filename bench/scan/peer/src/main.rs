//! Reads the lines of standard input as JSON values that are thrown away, by serde_json, many times
//! over, and prints megabytes a second: with no copy of the line, and with one.
use serde::de::IgnoredAny;
use std::io::Read;
use std::time::Instant;

/// Whether the line is UTF-8 and JSON.
fn is_json(line: &[u8]) -> bool {
    match std::str::from_utf8(line) {
        Ok(text) => serde_json::from_str::<IgnoredAny>(text).is_ok(),
        Err(_) => false,
    }
}

fn report(name: &str, bytes: usize, rounds: u32, start: Instant, good: usize) {
    let seconds = start.elapsed().as_secs_f64();
    let megabytes = bytes as f64 * f64::from(rounds) / 1e6;
    println!("{name} {:.0} MB/s {good} lines", megabytes / seconds);
}

fn main() -> std::io::Result<()> {
    let rounds: u32 = std::env::args().nth(1).and_then(|word| word.parse().ok()).unwrap_or(1);
    let mut input = Vec::new();
    std::io::stdin().read_to_end(&mut input)?;
    let lines: Vec<&[u8]> = input.split(|byte| *byte == b'\n').filter(|line| !line.is_empty()).collect();

    let start = Instant::now();
    let mut good = 0;
    for _ in 0..rounds {
        good += lines.iter().filter(|line| is_json(line)).count();
    }
    report("serde_json", input.len(), rounds, start, good);

    let mut copy: Vec<u8> = Vec::with_capacity(input.len());
    let start = Instant::now();
    let mut good = 0;
    for _ in 0..rounds {
        copy.clear();
        for line in &lines {
            if is_json(line) {
                copy.extend_from_slice(line);
                copy.push(b'\n');
                good += 1;
            }
        }
    }
    report("serde_json-and-copy", std::hint::black_box(&copy).len(), rounds, start, good);
    Ok(())
}
