//! The declarations of include/seq_graph.h, but for the tallies.
use crate::tallies::Tallies;

#[repr(C)]
pub struct Answer {
    pub number: u32,
    pub length: u32,
}

#[repr(C)]
pub struct SimplifyAnswer {
    pub number: u32,
    pub length: u32,
    pub rewrites: u32,
    pub rounds: u32,
    pub end: u32,
}

#[repr(C)]
pub struct CleanupAnswer {
    pub number: u32,
    pub length: u32,
    pub status: u32,
}

#[repr(C)]
pub struct SequencePlace {
    pub offset: u32,
    pub length: u32,
}

extern "C" {
    pub fn sg_vertex_sequence(
        record: *const u8,
        length: usize,
        vertex: u32,
        number: *mut u32,
    ) -> SequencePlace;
    pub fn sg_from_assembly_graph(
        record: *const u8,
        length: usize,
        out: *mut u8,
        room: usize,
        caller: u32,
        table: *mut Tallies,
    ) -> Answer;
    pub fn sg_simplify_graph(
        record: *const u8,
        length: usize,
        out: *mut u8,
        room: usize,
        caller: u32,
        table: *mut Tallies,
    ) -> SimplifyAnswer;
    pub fn sg_cleanup_seq_graph(
        record: *const u8,
        length: usize,
        out: *mut u8,
        room: usize,
        caller: u32,
        table: *mut Tallies,
    ) -> CleanupAnswer;
    pub fn sg_clean_non_ref_paths(
        record: *const u8,
        length: usize,
        out: *mut u8,
        room: usize,
        caller: u32,
        table: *mut Tallies,
    ) -> Answer;
    pub fn sg_reference_path_bytes(
        record: *const u8,
        length: usize,
        out: *mut u8,
        room: usize,
        caller: u32,
        table: *mut Tallies,
    ) -> Answer;
    pub fn sg_path_bases_bytes(
        record: *const u8,
        length: usize,
        start: u32,
        edges: *const u32,
        count: usize,
        out: *mut u8,
        room: usize,
        caller: u32,
        table: *mut Tallies,
    ) -> Answer;
}
