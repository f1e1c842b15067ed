//! Rust's own parsing of the same lines: i64 and f64.
use std::io::BufRead;
use std::time::Instant;

const ROUNDS: u64 = 200;

fn report(name: &str, nanos: u128, lines: usize, sum: u64) {
    let tenths = nanos * 10 / (lines as u128 * ROUNDS as u128).max(1);
    println!("{name} {}.{} ns a number (sum {sum})", tenths / 10, tenths % 10);
}

#[inline(never)]
fn add_integers(lines: &[String]) -> i64 {
    let mut sum = 0i64;
    for line in lines {
        if let Ok(number) = line.parse::<i64>() {
            sum = sum.wrapping_add(number);
        }
    }
    sum
}

#[inline(never)]
fn add_floats(lines: &[String]) -> f64 {
    let mut sum = 0.0;
    for line in lines {
        if let Ok(number) = line.parse::<f64>() {
            sum += number;
        }
    }
    sum
}

fn main() {
    let lines: Vec<String> = std::io::stdin().lock().lines().map(|line| line.unwrap()).collect();

    let start = Instant::now();
    let mut sum = 0i64;
    for _ in 0..ROUNDS {
        sum = sum.wrapping_add(add_integers(std::hint::black_box(&lines)));
    }
    report("i64", start.elapsed().as_nanos(), lines.len(), sum.unsigned_abs());

    let start = Instant::now();
    let mut sum = 0.0;
    for _ in 0..ROUNDS {
        sum += add_floats(std::hint::black_box(&lines));
    }
    report("f64", start.elapsed().as_nanos(), lines.len(), sum.abs() as u64);
}
