//! Our own library's calls, those of them that calls.txt names.
// Which parts of this file are in use is that list's choice.
#![allow(dead_code)]
use crate::case::{Answer, Case, Tally};
use crate::oracle::{CLEANUP_SEQ_GRAPH, SIMPLIFY_GRAPH};
use crate::record::{counts, Form, SGR1};
use std::array::from_fn;
use std::thread;

/// What the lent output holds before a call, also behind its end, where nothing may be written.
pub const FILL: u8 = 0xA5;
const GUARD: usize = 64;

/// The stacks that the library must do with: for a record of SGR1's size, of at most `MIDDLE_LENGTH` bytes, for any.
pub const SMALL_STACK: usize = 2 << 20;
const MIDDLE_STACK: usize = 8 << 20;
const WHOLE_STACK: usize = 32 << 20;
const MIDDLE_LENGTH: usize = 65_536;
/// A record as short as this is of SGR1's size, whatever it says.
const SHORT: usize = 1024;

/// The stack that a call on this record must do with. Only a call that rewrites has room for all of the bytes.
pub fn stack_for(call: u32, record: &[u8]) -> usize {
    if Form::of(record) == SGR1 || record.len() <= SHORT {
        return SMALL_STACK;
    }
    let c = counts(record);
    let rewrites = call == SIMPLIFY_GRAPH || call == CLEANUP_SEQ_GRAPH;
    if c.vertices <= 2048 && c.edges <= 4096 && (c.bytes <= 8192 || !rewrites) {
        SMALL_STACK
    } else if record.len() <= MIDDLE_LENGTH {
        MIDDLE_STACK
    } else {
        WHOLE_STACK
    }
}

pub type Table = [Tally; 16];

/// The table that is lent, between two others that no call may write.
#[derive(Debug, PartialEq, Eq)]
pub struct Tables([Table; 3]);

impl Tables {
    /// The caller's tally is this one, the others are those of every stored case. A caller above 15 has none.
    pub fn new(caller: u32, tally: Tally) -> Tables {
        let others =
            from_fn(|i| 3 * i as u32).map(|n| Tally { answered: n + 1, refused: n + 2, rewrites: n + 3 });
        let mut tables = Tables([others; 3]);
        if let Some(own) = tables.0[1].get_mut(caller as usize) {
            *own = tally;
        }
        tables
    }

    /// The caller's tally; zeros for a caller above 15.
    fn tally_of(&self, caller: u32) -> Tally {
        self.0[1].get(caller as usize).copied().unwrap_or_default()
    }

    fn lent(&mut self) -> *mut Table {
        self.0.as_mut_ptr().wrapping_add(1)
    }
}

#[repr(C)]
pub struct Part {
    offset: u32,
    length: u32,
}

#[repr(C)]
pub struct Plain {
    number: u32,
    length: u32,
}

#[repr(C)]
pub struct Simplified {
    number: u32,
    length: u32,
    rewrites: u32,
    rounds: u32,
    end: u32,
}

#[repr(C)]
pub struct Cleaned {
    number: u32,
    length: u32,
    status: u32,
}

mod sg {
    use super::*;
    type Bytes = *const u8;
    type Out = *mut u8;
    extern "C" {
        pub fn sg_vertex_sequence(record: Bytes, length: usize, vertex: u32, number: *mut u32) -> Part;
        pub fn sg_from_assembly_graph(
            record: Bytes,
            length: usize,
            out: Out,
            room: usize,
            caller: u32,
            table: *mut Table,
        ) -> Plain;
        pub fn sg_simplify_graph(
            record: Bytes,
            length: usize,
            out: Out,
            room: usize,
            caller: u32,
            table: *mut Table,
        ) -> Simplified;
        pub fn sg_cleanup_seq_graph(
            record: Bytes,
            length: usize,
            out: Out,
            room: usize,
            caller: u32,
            table: *mut Table,
        ) -> Cleaned;
        pub fn sg_clean_non_ref_paths(
            record: Bytes,
            length: usize,
            out: Out,
            room: usize,
            caller: u32,
            table: *mut Table,
        ) -> Plain;
        pub fn sg_reference_path_bytes(
            record: Bytes,
            length: usize,
            out: Out,
            room: usize,
            caller: u32,
            table: *mut Table,
        ) -> Plain;
        pub fn sg_path_bases_bytes(
            record: Bytes,
            length: usize,
            start: u32,
            edges: *const u32,
            count: usize,
            out: Out,
            room: usize,
            caller: u32,
            table: *mut Table,
        ) -> Plain;
    }
}

impl Plain {
    fn answer(self) -> Answer {
        answer(self.number, self.length, [0; 3])
    }
}

impl Simplified {
    fn answer(self) -> Answer {
        answer(self.number, self.length, [self.rewrites, self.rounds, self.end])
    }
}

impl Cleaned {
    fn answer(self) -> Answer {
        answer(self.number, self.length, [self.status, 0, 0])
    }
}

fn answer(number: u32, length: u32, fields: [u32; 3]) -> Answer {
    Answer { number, length, fields, ..Answer::default() }
}

/// The library's answer, on no more stack than the record asks for. None: the call is not linked.
///
/// The thread that calls this has `SMALL_STACK`.
pub fn run_on_stack(case: &Case) -> Option<Result<Answer, String>> {
    let stack = stack_for(case.call, &case.record);
    if stack == SMALL_STACK {
        return run(case);
    }
    thread::scope(|scope| {
        let worker = thread::Builder::new().stack_size(stack).spawn_scoped(scope, || run(case));
        worker.expect("a thread").join().expect("a call that comes back")
    })
}

/// The library's answer, its output read from the lent bytes. None: the call is not linked.
fn run(case: &Case) -> Option<Result<Answer, String>> {
    let record = case.record.clone();
    let list = case.list.clone();
    let mut lent = vec![FILL; case.room + GUARD];
    let mut tables = Tables::new(case.caller, case.tally);
    let mut got = call(case, &record, &list, &mut lent, &mut tables)?;
    if record != case.record || list != case.list {
        return Some(Err("the call changed what it was lent to read".to_string()));
    }
    let written = if case.call == 0 { 0 } else { got.length as usize };
    if written > case.room || lent[written..].iter().any(|&b| b != FILL) {
        return Some(Err(format!("bytes behind the first {written} of the output were written")));
    }
    if tables != Tables::new(case.caller, got.tally) {
        return Some(Err(format!("more than the caller's tally was written: {tables:?}")));
    }
    if case.call != 0 {
        lent.truncate(written);
        got.output = lent;
    }
    Some(Ok(got))
}

/// The call itself; the answer's output stays in the lent bytes. None: the call is not linked.
pub fn call(
    case: &Case,
    record: &[u8],
    list: &[u32],
    lent: &mut [u8],
    tables: &mut Tables,
) -> Option<Answer> {
    let mut got = linked_call(case, record, list, lent, tables.lent())?;
    got.tally = tables.tally_of(case.caller);
    Some(got)
}

#[allow(unused_variables)]
fn linked_call(case: &Case, record: &[u8], list: &[u32], lent: &mut [u8], t: *mut Table) -> Option<Answer> {
    let (r, n, o, room, who) = (record.as_ptr(), record.len(), lent.as_mut_ptr(), case.room, case.caller);
    // The pointers and lengths are those of the slices above and of the table; the calls ask nothing more.
    match case.call {
        #[cfg(sg_vertex_sequence)]
        0 => Some(vertex_sequence(case, record)),
        #[cfg(sg_from_assembly_graph)]
        1 => Some(unsafe { sg::sg_from_assembly_graph(r, n, o, room, who, t) }.answer()),
        #[cfg(sg_simplify_graph)]
        2 => Some(unsafe { sg::sg_simplify_graph(r, n, o, room, who, t) }.answer()),
        #[cfg(sg_cleanup_seq_graph)]
        3 => Some(unsafe { sg::sg_cleanup_seq_graph(r, n, o, room, who, t) }.answer()),
        #[cfg(sg_clean_non_ref_paths)]
        4 => Some(unsafe { sg::sg_clean_non_ref_paths(r, n, o, room, who, t) }.answer()),
        #[cfg(sg_reference_path_bytes)]
        5 => Some(unsafe { sg::sg_reference_path_bytes(r, n, o, room, who, t) }.answer()),
        #[cfg(sg_path_bases_bytes)]
        6 => {
            let (e, m) = (list.as_ptr(), list.len());
            Some(unsafe { sg::sg_path_bases_bytes(r, n, case.start, e, m, o, room, who, t) }.answer())
        }
        _ => None,
    }
}

/// The call has no caller; the part that it names is read from the record.
#[cfg(sg_vertex_sequence)]
fn vertex_sequence(case: &Case, record: &[u8]) -> Answer {
    let mut number = u32::MAX;
    let part = unsafe { sg::sg_vertex_sequence(record.as_ptr(), record.len(), case.start, &mut number) };
    let (at, end) = (part.offset as usize, part.offset as usize + part.length as usize);
    let mut got = answer(number, part.length, [part.offset, 0, 0]);
    got.output = record.get(at..end).unwrap_or_default().to_vec();
    got
}
