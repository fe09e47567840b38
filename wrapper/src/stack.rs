//! Whether a call has stack enough where it is made. A call has its arrays on the stack, as long as the class of its
//! record needs (include/seq_graph.h). A thread of 2 MiB is taken to be there; a record of a class that takes more gets
//! a thread of its own.
use crate::{Form, Refusal};
use std::panic::resume_unwind;
use std::thread::{scope, Builder};

/// What a call does with its record's graph. Conversion counts as reading: its classes are the same.
pub enum Work {
    Read,
    Rewrite,
}

/// Enough for every record to be read or converted, and for every one of at most 65,536 bytes.
const EIGHT_MIB: usize = 8 << 20;
/// Enough for all.
const THIRTY_TWO_MIB: usize = 32 << 20;

/// The counts in the header of an SGR2 record of at least 20 bytes, in numbers whose sums do not wrap.
fn counts(record: &[u8]) -> [u64; 3] {
    [8, 12, 16].map(|at| u32::from_le_bytes([0, 1, 2, 3].map(|i| record[at + i])).into())
}

/// The size of the stack that a thread of its own must have for this record; none if one of 2 MiB is enough.
fn own_stack(work: Work, record: &[u8]) -> Option<usize> {
    if Form::of(record) == Form::Sgr1 || record.len() <= 1_024 {
        return None;
    }
    let [vertices, edges, bytes] = counts(record);
    let (weight, surplus) = (vertices + bytes, edges + bytes / 4);
    match work {
        Work::Read if vertices <= 2_048 && edges <= 4_096 => None,
        Work::Read => Some(EIGHT_MIB),
        Work::Rewrite if weight <= 10_240 && surplus <= 6_144 => None,
        Work::Rewrite if record.len() <= 65_536 => Some(EIGHT_MIB),
        Work::Rewrite if weight < 65_536 && surplus <= 16_384 => Some(EIGHT_MIB),
        Work::Rewrite => Some(THIRTY_TWO_MIB),
    }
}

/// Makes the call on a thread of this stack, which ends with it, or where it stands; what the call borrows is lent on.
/// If no thread can be had, the call is not made.
fn on_stack<T: Send>(size: Option<usize>, call: impl FnOnce() -> T + Send) -> Result<T, Refusal> {
    let Some(size) = size else {
        return Ok(call());
    };
    scope(|threads| {
        let begun = Builder::new().stack_size(size).spawn_scoped(threads, call);
        let thread = begun.map_err(|_| Refusal::NoThread)?;
        Ok(thread.join().unwrap_or_else(|panic| resume_unwind(panic)))
    })
}

/// Makes a call on this record where there is stack enough for it.
pub fn with_stack_for<T: Send>(
    record: &[u8],
    work: Work,
    call: impl FnOnce() -> T + Send,
) -> Result<T, Refusal> {
    on_stack(own_stack(work, record), call)
}

#[cfg(test)]
mod tests {
    use super::{on_stack, own_stack, Work, EIGHT_MIB, THIRTY_TWO_MIB};
    use crate::Refusal;
    use std::thread::current;

    /// The stack for a record of this mark, length and counts, to be read and to be rewritten.
    fn stacks(mark: &[u8; 4], length: usize, [v, e, b]: [u32; 3]) -> [Option<usize>; 2] {
        let mut record = mark.to_vec();
        record.resize(length, 0);
        for (at, count) in [(8, v), (12, e), (16, b)] {
            record[at..at + 4].copy_from_slice(&count.to_le_bytes());
        }
        [Work::Read, Work::Rewrite].map(|work| own_stack(work, &record))
    }

    fn of_sgr2(length: usize, counts: [u32; 3]) -> [Option<usize>; 2] {
        stacks(b"SGR2", length, counts)
    }

    const LONG: usize = 65_537;
    const MOST: [u32; 3] = [u32::MAX; 3];

    #[test]
    fn leaves_other_records_in_place() {
        for mark in [b"SGR1", b"SGR3", b"sgr2", b"none"] {
            assert_eq!(stacks(mark, LONG, MOST), [None, None]);
        }
        assert_eq!([&b""[..], b"SGR2", b"SGR2 is short"].map(|r| own_stack(Work::Rewrite, r)), [None; 3]);
    }

    /// A record of 1,024 bytes is small, whatever it says.
    #[test]
    fn goes_by_the_length() {
        assert_eq!(of_sgr2(1_024, MOST), [None, None]);
        assert_eq!(of_sgr2(1_025, MOST), [Some(EIGHT_MIB), Some(EIGHT_MIB)]);
        assert_eq!(of_sgr2(65_536, MOST), [Some(EIGHT_MIB), Some(EIGHT_MIB)]);
        assert_eq!(of_sgr2(65_537, MOST), [Some(EIGHT_MIB), Some(THIRTY_TWO_MIB)]);
    }

    #[test]
    fn goes_by_vertices_and_edges_to_read() {
        assert_eq!(of_sgr2(LONG, [2_048, 4_096, u32::MAX])[0], None);
        assert_eq!(of_sgr2(LONG, [2_049, 0, 0])[0], Some(EIGHT_MIB));
        assert_eq!(of_sgr2(LONG, [0, 4_097, 0])[0], Some(EIGHT_MIB));
        assert_eq!(of_sgr2(LONG, [32_768, 65_536, 4_194_304])[0], Some(EIGHT_MIB));
    }

    #[test]
    fn goes_by_two_sums_to_rewrite() {
        let stack = |counts| of_sgr2(LONG, counts)[1];
        assert_eq!(stack([2_048, 4_096, 8_192]), None);
        assert_eq!(stack([10_240, 6_144, 0]), None);
        assert_eq!(stack([10_241, 0, 0]), Some(EIGHT_MIB));
        assert_eq!(stack([2_049, 0, 8_192]), Some(EIGHT_MIB));
        assert_eq!(stack([0, 6_145, 0]), Some(EIGHT_MIB));
        // a quarter of the bytes is rounded down
        assert_eq!(stack([0, 4_097, 8_191]), None);
        assert_eq!(stack([0, 4_097, 8_192]), Some(EIGHT_MIB));
        assert_eq!(stack([255, 64, 65_280]), Some(EIGHT_MIB));
        assert_eq!(stack([256, 64, 65_280]), Some(THIRTY_TWO_MIB));
        assert_eq!(stack([255, 65, 65_280]), Some(THIRTY_TWO_MIB));
        assert_eq!(stack([65_535, 16_384, 0]), Some(EIGHT_MIB));
        assert_eq!(stack([65_536, 0, 0]), Some(THIRTY_TWO_MIB));
        assert_eq!(stack([0, 16_385, 0]), Some(THIRTY_TWO_MIB));
        assert_eq!(stack([32_768, 65_536, 131_072]), Some(THIRTY_TWO_MIB));
    }

    /// In 32 bits these sums would be 0.
    #[test]
    fn adds_without_wrapping() {
        assert_eq!(of_sgr2(LONG, [u32::MAX, 0, 1])[1], Some(THIRTY_TWO_MIB));
        assert_eq!(of_sgr2(LONG, [0, u32::MAX, 4])[1], Some(THIRTY_TWO_MIB));
    }

    #[test]
    fn makes_a_call_in_place_or_on_a_thread() {
        let (here, mut lent) = (current().id(), [0; 2]);
        assert_eq!(on_stack(None, || current().id()), Ok(here));
        assert_ne!(on_stack(Some(EIGHT_MIB), || current().id()), Ok(here));
        assert_eq!(on_stack(Some(THIRTY_TWO_MIB), || lent[1] = 7), Ok(()));
        assert_eq!(lent, [0, 7]);
    }

    /// More than there are addresses.
    #[test]
    fn makes_no_call_without_a_thread() {
        let mut made = false;
        assert_eq!(on_stack(Some(usize::MAX / 2), || made = true), Err(Refusal::NoThread));
        assert!(!made);
    }

    #[test]
    #[should_panic(expected = "from the call")]
    fn hands_on_a_panic() {
        let _ = on_stack(Some(EIGHT_MIB), || panic!("from the call"));
    }
}
