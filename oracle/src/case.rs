//! Length-prefixed frames and the cases in them; tools/make_vectors.py has the layout.
use crate::record::le32;
use std::io::{self, ErrorKind, Read};

/// The number of a frame that names the cases after it: behind it who judges them, then its text.
pub const LABEL: u32 = 7;
/// Who judges: the model and the Rust, or the model alone.
pub const MODEL_ALONE: u32 = 1;
const WORDS: usize = 18;

#[derive(Debug, Clone, Copy, Default, PartialEq, Eq)]
#[repr(C)]
pub struct Tally {
    pub answered: u32,
    pub refused: u32,
    pub rewrites: u32,
}

/// What a call answers: `fields` are the result fields behind the length, 0 where it has none. `tally` is the
/// caller's after the call, zeros where there is none.
#[derive(Debug, Clone, Default, PartialEq, Eq)]
pub struct Answer {
    pub number: u32,
    pub length: u32,
    pub fields: [u32; 3],
    pub tally: Tally,
    pub output: Vec<u8>,
}

#[derive(Clone)]
pub struct Case {
    pub call: u32,
    pub start: u32,
    pub room: usize,
    pub caller: u32,
    /// The caller's before the call.
    pub tally: Tally,
    pub record: Vec<u8>,
    pub list: Vec<u32>,
    pub expected: Answer,
}

/// A frame: four bytes of length and that many bytes. None at the end of the input.
pub fn read_frame(input: &mut impl Read) -> io::Result<Option<Vec<u8>>> {
    let mut size = [0u8; 4];
    match input.read_exact(&mut size) {
        Err(e) if e.kind() == ErrorKind::UnexpectedEof => return Ok(None),
        other => other?,
    }
    let mut frame = vec![0; u32::from_le_bytes(size) as usize];
    input.read_exact(&mut frame)?;
    Ok(Some(frame))
}

pub fn words(bytes: &[u8]) -> Vec<u32> {
    bytes.chunks(4).map(|c| le32(c, 0)).collect()
}

pub fn parse(frame: &[u8]) -> Case {
    let w = words(&frame[..4 * WORDS]);
    let tally = |at: usize| Tally { answered: w[at], refused: w[at + 1], rewrites: w[at + 2] };
    let record_end = 4 * WORDS + w[15] as usize;
    let list_end = record_end + 4 * w[16] as usize;
    assert!(frame.len() == list_end + w[17] as usize, "a case of another length than it states");
    Case {
        call: w[0],
        start: w[1],
        room: w[2] as usize,
        caller: w[3],
        tally: tally(4),
        record: frame[4 * WORDS..record_end].to_vec(),
        list: words(&frame[record_end..list_end]),
        expected: Answer {
            number: w[7],
            length: w[8],
            fields: [w[9], w[10], w[11]],
            tally: tally(12),
            output: frame[list_end..].to_vec(),
        },
    }
}
