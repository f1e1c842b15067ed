//! The job of `cityseq filter` in plain Rust: lines by memchr, UTF-8 by simdutf8, JSON by serde_json
//! into a value that is thrown away, copied. With the argument `copy` no JSON is read.
use serde::de::IgnoredAny;
use std::io::{Read, Write};

const LINE_LIMIT: usize = 8_388_608;

fn is_blank(content: &[u8]) -> bool {
    content.iter().all(|b| matches!(b, b' ' | b'\t' | b'\r'))
}

fn deal(json: bool, number: u64, line: &[u8], lf: bool, out: &mut impl Write) -> std::io::Result<bool> {
    let text = match simdutf8::compat::from_utf8(line) {
        Ok(text) => text,
        Err(fault) => {
            eprintln!("line {number}, byte {}: 3 not UTF-8", fault.valid_up_to());
            return Ok(false);
        }
    };
    if number > 1 && is_blank(line) {
        return Ok(true);
    }
    if json {
        if let Err(fault) = serde_json::from_str::<IgnoredAny>(text) {
            eprintln!("line {number}: {fault}");
            return Ok(false);
        }
    }
    out.write_all(line)?;
    if lf {
        out.write_all(b"\n")?;
    }
    Ok(true)
}

fn main() -> std::io::Result<()> {
    let json = std::env::args().nth(1).as_deref() != Some("copy");
    let mut input = std::io::stdin().lock();
    let mut out = std::io::BufWriter::with_capacity(65_536, std::io::stdout().lock());
    let mut line: Vec<u8> = Vec::new();
    let mut number = 1;
    let mut piece = [0u8; 8_192];
    loop {
        let n = input.read(&mut piece)?;
        if n == 0 {
            break;
        }
        let mut rest = &piece[..n];
        while let Some(at) = memchr::memchr(b'\n', rest) {
            line.extend_from_slice(&rest[..at]);
            if line.len() > LINE_LIMIT || !deal(json, number, &line, true, &mut out)? {
                std::process::exit(1);
            }
            line.clear();
            number += 1;
            rest = &rest[at + 1..];
        }
        line.extend_from_slice(rest);
        if line.len() > LINE_LIMIT {
            std::process::exit(1);
        }
    }
    if !line.is_empty() && !deal(json, number, &line, false, &mut out)? {
        std::process::exit(1);
    }
    out.flush()
}
