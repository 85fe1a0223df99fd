//! `numbers PROOF` in plain Rust: reads the numbers of a text and adds them up, 64 KB at a time. Its status is 1, as that of a proof
//! that derives nothing. `hints.py` times it beside ours.

use std::env;
use std::fs::File;
use std::io::{BufRead, BufReader};

fn main() -> std::io::Result<()> {
    let path = env::args().nth(1).expect("a file");
    let mut source = BufReader::with_capacity(1 << 16, File::open(path)?);
    let (mut sum, mut number, mut is_negative) = (0i64, 0i64, false);
    loop {
        let piece = source.fill_buf()?;
        if piece.is_empty() {
            break;
        }
        for byte in piece {
            match byte {
                b'0'..=b'9' => number = number.wrapping_mul(10).wrapping_add(i64::from(byte - b'0')),
                b'-' => is_negative = true,
                _ => {
                    sum = sum.wrapping_add(if is_negative { -number } else { number });
                    (number, is_negative) = (0, false);
                }
            }
        }
        let count = piece.len();
        source.consume(count);
    }
    println!("{}", sum.wrapping_add(number));
    std::process::exit(1);
}
