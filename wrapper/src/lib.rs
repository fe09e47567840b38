//! The sequence graph's calls from Rust, over libsg.a. Every function is safe and takes any bytes.
//!
//! A record has one of two forms, SGR1 or SGR2, which has wider fields and larger limits (docs/FORMAT.md). Every call
//! takes both, and writes the form that it was handed. `Form::of` tells a record's form, and a form the room that is
//! enough.
//!
//! A call that makes a record or a string writes it to the start of `out` and tells its length. A refused call
//! leaves `out` as it was. Every call but `vertex_sequence` has a caller, 0 to 15, and is counted in that caller's
//! tally in the table lent to it; the other fifteen tallies stay as they were.
//!
//! The library allocates nothing: a call has its arrays on the stack. A thread of `std::thread`, with its 2 MiB and the
//! guard page below, is enough for every SGR1 record, and for an SGR2 record within the limits of SGR1; 256 KiB are,
//! where every record is small. A larger SGR2 record, by its length and the counts in its header, can need up to
//! 32 MiB: the call is then made on a thread of its own, which ends with it. What the call borrows is lent on, and
//! nothing is copied. If the system gives no thread, the answer is `Refusal::NoThread`. include/seq_graph.h has the
//! sizes and the exact rule.
mod ffi;
mod form;
mod refusal;
mod stack;
mod tallies;

pub use form::Form;
pub use refusal::Refusal;
pub use tallies::{Caller, Tallies, Tally};

use stack::{with_stack_for, Work};

/// How a simplification came to its end.
#[derive(Debug, Clone, Copy, PartialEq, Eq)]
pub enum End {
    /// A round without work.
    Quiet,
    /// From the eighth round on, a round that gave the graph of the one before, edges too.
    Repeated,
    /// A hundred rounds.
    Full,
}

impl End {
    fn of(number: u32) -> Option<End> {
        match number {
            1 => Some(End::Quiet),
            2 => Some(End::Repeated),
            3 => Some(End::Full),
            _ => None,
        }
    }
}

#[derive(Debug, Clone, Copy, PartialEq, Eq)]
pub struct Simplified {
    pub length: usize,
    pub rewrites: u32,
    pub rounds: u32,
    pub end: End,
}

/// What cleanup found.
#[derive(Debug, Clone, Copy, PartialEq, Eq)]
pub enum Status {
    JustReference,
    SomeVariation,
}

impl Status {
    fn of(number: u32) -> Option<Status> {
        match number {
            1 => Some(Status::JustReference),
            2 => Some(Status::SomeVariation),
            _ => None,
        }
    }
}

#[derive(Debug, Clone, Copy, PartialEq, Eq)]
pub struct Cleaned {
    pub length: usize,
    pub status: Status,
}

/// A vertex's sequence in a record of either kind: the part of the record that holds it.
pub fn vertex_sequence(record: &[u8], vertex: u32) -> Result<&[u8], Refusal> {
    let mut number = 0;
    let place = with_stack_for(record, Work::Read, || {
        // The pointer and the length are those of a slice; the call asks nothing more.
        unsafe { ffi::sg_vertex_sequence(record.as_ptr(), record.len(), vertex, &mut number) }
    })?;
    let (at, length) = (place.offset as usize, place.length as usize);
    answered(number, &record[at..at + length])
}

/// A k-mer graph's record to the sequence graph's; the length written. Of each edge the last k - 1 bytes of from must
/// be the first k - 1 bytes of to.
pub fn from_assembly_graph(
    record: &[u8],
    out: &mut [u8],
    caller: Caller,
    table: &mut Tallies,
) -> Result<usize, Refusal> {
    let a = with_stack_for(record, Work::Read, || {
        let (r, o, room) = (record.as_ptr(), out.as_mut_ptr(), out.len());
        // The pointers and lengths are those of two slices and a table that do not overlap; the call asks nothing more.
        unsafe { ffi::sg_from_assembly_graph(r, record.len(), o, room, caller.number(), table) }
    })?;
    answered(a.number, a.length as usize)
}

/// A sequence graph's record to that of the simplified graph.
pub fn simplify_graph(
    record: &[u8],
    out: &mut [u8],
    caller: Caller,
    table: &mut Tallies,
) -> Result<Simplified, Refusal> {
    let a = with_stack_for(record, Work::Rewrite, || {
        let (r, o, room) = (record.as_ptr(), out.as_mut_ptr(), out.len());
        // As above.
        unsafe { ffi::sg_simplify_graph(r, record.len(), o, room, caller.number(), table) }
    })?;
    answered(a.number, ())?;
    let end = End::of(a.end).ok_or(Refusal::UnknownEnd(a.end))?;
    Ok(Simplified { length: a.length as usize, rewrites: a.rewrites, rounds: a.rounds, end })
}

/// A sequence graph's record to that of the cleaned graph.
pub fn cleanup_seq_graph(
    record: &[u8],
    out: &mut [u8],
    caller: Caller,
    table: &mut Tallies,
) -> Result<Cleaned, Refusal> {
    let a = with_stack_for(record, Work::Rewrite, || {
        let (r, o, room) = (record.as_ptr(), out.as_mut_ptr(), out.len());
        // As above.
        unsafe { ffi::sg_cleanup_seq_graph(r, record.len(), o, room, caller.number(), table) }
    })?;
    answered(a.number, ())?;
    let status = Status::of(a.status).ok_or(Refusal::UnknownStatus(a.status))?;
    Ok(Cleaned { length: a.length as usize, status })
}

/// A sequence graph's record to that of the graph without what leads to the reference source or from the reference
/// sink; the length written.
pub fn clean_non_ref_paths(
    record: &[u8],
    out: &mut [u8],
    caller: Caller,
    table: &mut Tallies,
) -> Result<usize, Refusal> {
    let a = with_stack_for(record, Work::Read, || {
        let (r, o, room) = (record.as_ptr(), out.as_mut_ptr(), out.len());
        // As above.
        unsafe { ffi::sg_clean_non_ref_paths(r, record.len(), o, room, caller.number(), table) }
    })?;
    answered(a.number, a.length as usize)
}

/// The bytes that the graph's reference path spells; the length written.
pub fn reference_path_bytes(
    record: &[u8],
    out: &mut [u8],
    caller: Caller,
    table: &mut Tallies,
) -> Result<usize, Refusal> {
    let a = with_stack_for(record, Work::Read, || {
        let (r, o, room) = (record.as_ptr(), out.as_mut_ptr(), out.len());
        // As above.
        unsafe { ffi::sg_reference_path_bytes(r, record.len(), o, room, caller.number(), table) }
    })?;
    answered(a.number, a.length as usize)
}

/// The bytes of the path from the vertex `start` along `edges`, from and to of each edge in turn; the length written.
pub fn path_bases_bytes(
    record: &[u8],
    start: u32,
    edges: &[u32],
    out: &mut [u8],
    caller: Caller,
    table: &mut Tallies,
) -> Result<usize, Refusal> {
    let a = with_stack_for(record, Work::Read, || {
        let (r, o, room) = (record.as_ptr(), out.as_mut_ptr(), out.len());
        let (e, count) = (edges.as_ptr(), edges.len());
        // As above, with a third slice.
        unsafe { ffi::sg_path_bases_bytes(r, record.len(), start, e, count, o, room, caller.number(), table) }
    })?;
    answered(a.number, a.length as usize)
}

fn answered<T>(number: u32, answer: T) -> Result<T, Refusal> {
    match Refusal::of(number) {
        None => Ok(answer),
        Some(refusal) => Err(refusal),
    }
}

#[cfg(test)]
mod tests {
    use super::{End, Status};

    #[test]
    fn only_known_ends_and_statuses() {
        assert_eq!([1, 2, 3].map(End::of), [Some(End::Quiet), Some(End::Repeated), Some(End::Full)]);
        assert_eq!([1, 2].map(Status::of), [Some(Status::JustReference), Some(Status::SomeVariation)]);
        assert_eq!([0, 4, u32::MAX].map(End::of), [None; 3]);
        assert_eq!([0, 3, u32::MAX].map(Status::of), [None; 3]);
    }
}
