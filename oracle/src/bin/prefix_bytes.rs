//! Prints what the Rust's `prefix_bytes` makes of the bytes on standard input.
use std::io::{self, Read};

fn main() {
    let mut bytes = Vec::new();
    io::stdin().read_to_end(&mut bytes).unwrap();
    println!("{}", oracle::prefix_bytes(&bytes, bytes.len()));
}
