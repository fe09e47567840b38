//! Answers requests with what the Rust makes of them.
//!
//! Standard input: frames (four bytes of length, then that many bytes) of call, start, record length and
//! count of list numbers in four bytes each, the record, and the list in four bytes a number.
//! Standard output, for each: a frame of present (0 where the Rust gives None), status, rounds and end in
//! four bytes each, and the bytes made. All numbers are little-endian. The record must be an accepted one.
//! Call 255 is simplification by the Rust as it stands, without the edges in its signature; call 254 the Rust's check of a
//! k-mer graph that is sound but for overlap and cycles, with 0, 7 or 15 in the place of the status.
use oracle::case::{read_frame, words};
use oracle::oracle::{run, Made};
use std::io::{self, BufReader, BufWriter, Write};

const WORDS: usize = 4;

fn answer(frame: &[u8]) -> Made {
    let head = words(&frame[..4 * WORDS]);
    let record_end = 4 * WORDS + head[2] as usize;
    let list = words(&frame[record_end..record_end + 4 * head[3] as usize]);
    run(head[0], &frame[4 * WORDS..record_end], head[1], &list)
}

fn write_answer(out: &mut impl Write, made: &Made) -> io::Result<()> {
    let bytes = made.bytes.as_deref().unwrap_or_default();
    let size = (4 * WORDS + bytes.len()) as u32;
    let present = made.bytes.is_some() as u32;
    for n in [size, present, made.status, made.rounds, made.end] {
        out.write_all(&n.to_le_bytes())?;
    }
    out.write_all(bytes)?;
    out.flush()
}

fn main() -> io::Result<()> {
    let mut input = BufReader::new(io::stdin().lock());
    let mut out = BufWriter::new(io::stdout().lock());
    while let Some(frame) = read_frame(&mut input)? {
        write_answer(&mut out, &answer(&frame))?;
    }
    Ok(())
}
