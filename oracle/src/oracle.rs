//! What the Rust makes of a record that the model accepts, for each call that has a counterpart.
use crate::record::{assembly_graph, seq_graph, supported_assembly_graph, write, Form};
use crate::seq_graph::{SeqEdge, SeqGraph, SeqGraphCleanupStatus};
use crate::seq_graph_simplify::{simplify_graph_full, traced_simplify_graph_full};
use crate::unchanged_seq_graph_simplify::traced_simplify_graph_full as unchanged_traced_simplify_graph_full;
use crate::GatkError;

pub const VERTEX_SEQUENCE: u32 = 0;
pub const FROM_ASSEMBLY_GRAPH: u32 = 1;
pub const SIMPLIFY_GRAPH: u32 = 2;
pub const CLEANUP_SEQ_GRAPH: u32 = 3;
pub const CLEAN_NON_REF_PATHS: u32 = 4;
pub const REFERENCE_PATH_BYTES: u32 = 5;
pub const PATH_BASES_BYTES: u32 = 6;
/// No call of the library: simplification by the Rust as it stands, without the edges in the signature.
pub const UNCHANGED_SIMPLIFY_GRAPH: u32 = 255;
/// No call of the library: the Rust's check of a k-mer graph, which its conversion does not make. The status is a number.
pub const CHECK_KMERS: u32 = 254;

pub const CYCLE: u32 = 7;
pub const NO_OVERLAP: u32 = 15;

pub const QUIET: u32 = 1;
pub const REPEATED: u32 = 2;
pub const FULL: u32 = 3;

/// `bytes` is none where the Rust gives None. Fields that a call does not have are 0.
#[derive(Default, Clone, PartialEq)]
pub struct Made {
    pub bytes: Option<Vec<u8>>,
    pub status: u32,
    pub rounds: u32,
    pub end: u32,
}

impl Made {
    fn of(bytes: Vec<u8>) -> Self {
        Made { bytes: Some(bytes), ..Made::default() }
    }
}

/// A call on a record of its kind.
pub fn run(call: u32, record: &[u8], start: u32, list: &[u32]) -> Made {
    match call {
        FROM_ASSEMBLY_GRAPH => converted(record),
        CHECK_KMERS => Made { status: checked(record), ..Made::of(vec![]) },
        _ => run_on(call, Form::of(record), &seq_graph(record), start, list),
    }
}

pub fn converted(kmer_record: &[u8]) -> Made {
    written(Form::of(kmer_record), &converted_graph(kmer_record))
}

pub fn converted_graph(kmer_record: &[u8]) -> SeqGraph {
    SeqGraph::from_assembly_graph(&assembly_graph(kmer_record))
}

/// The graph as a call's answer of this form.
pub fn written(form: Form, graph: &SeqGraph) -> Made {
    Made::of(write(form, graph, 0))
}

/// The number of what the Rust's `validate_basic_invariants` finds: it asks each edge for the overlap, then for a cycle.
pub fn checked(kmer_record: &[u8]) -> u32 {
    match supported_assembly_graph(kmer_record).validate_basic_invariants() {
        Ok(()) => 0,
        Err(GatkError(text)) if text.contains("k-1 overlap") => NO_OVERLAP,
        Err(GatkError(text)) if text.contains("contains a cycle") => CYCLE,
        Err(GatkError(text)) => panic!("the Rust's check of a k-mer graph: {text}"),
    }
}

/// The calls that take a sequence graph; the answer has this form.
pub fn run_on(call: u32, form: Form, graph: &SeqGraph, start: u32, list: &[u32]) -> Made {
    match call {
        SIMPLIFY_GRAPH => simplified(form, graph.clone()),
        UNCHANGED_SIMPLIFY_GRAPH => unchanged_simplified(form, graph.clone()),
        CLEANUP_SEQ_GRAPH => cleaned(form, graph.clone()),
        CLEAN_NON_REF_PATHS => {
            let mut graph = graph.clone();
            graph.clean_non_ref_paths();
            written(form, &graph)
        }
        REFERENCE_PATH_BYTES => Made { bytes: graph.reference_path_bytes(), ..Made::default() },
        PATH_BASES_BYTES => {
            let pairs: Vec<(usize, usize)> = list.chunks(2).map(|p| (p[0] as usize, p[1] as usize)).collect();
            Made::of(graph.path_bases_bytes(start as usize, &pairs))
        }
        _ => panic!("the Rust has no call {call}"),
    }
}

fn cleaned(form: Form, mut graph: SeqGraph) -> Made {
    let status = match graph.cleanup_seq_graph() {
        SeqGraphCleanupStatus::JustAssembledReference => 1,
        SeqGraphCleanupStatus::AssembledSomeVariation => 2,
    };
    Made { status, ..Made::of(write(form, &graph, status as u8)) }
}

/// Rounds and end come from the Rust's own snapshots of a second run on a copy. Where the Rust as it stands does not end
/// repeated, the edges in the signature must make no difference.
fn simplified(form: Form, mut graph: SeqGraph) -> Made {
    let (mut copy, unchanged) = (graph.clone(), graph.clone());
    simplify_graph_full(&mut graph);
    let mut watch = Watch { with_edges: true, ..Watch::default() };
    traced_simplify_graph_full(&mut copy, |stage, g| watch.see(stage, g));
    let made = Made { rounds: watch.rounds, end: watch.end(), ..written(form, &graph) };
    assert!(made.bytes == written(form, &copy).bytes, "the traced run made another graph");
    let before = unchanged_simplified(form, unchanged);
    assert!(before.end == REPEATED || before == made, "edges in the signature changed what did not repeat");
    made
}

fn unchanged_simplified(form: Form, mut graph: SeqGraph) -> Made {
    let mut watch = Watch::default();
    unchanged_traced_simplify_graph_full(&mut graph, |stage, g| watch.see(stage, g));
    Made { rounds: watch.rounds, end: watch.end(), ..written(form, &graph) }
}

#[derive(Default, PartialEq)]
struct Signature {
    sequences: Vec<Vec<u8>>,
    edge_count: usize,
    edges: Vec<SeqEdge>,
}

/// Follows the stages of the rounds. A stage that worked has changed the number of vertices or of
/// bytes: diamonds and tails take bytes away, splits add vertices, merges and zips take them away.
#[derive(Default)]
struct Watch {
    /// Whether a signature has the edges, or only their number.
    with_edges: bool,
    size: (usize, usize),
    working: bool,
    worked: bool,
    rounds: u32,
    signature: Signature,
    same: bool,
}

impl Watch {
    fn see(&mut self, stage: &str, graph: &SeqGraph) {
        let bytes = graph.vertices().iter().map(|v| v.sequence.len()).sum();
        let size = (graph.node_count(), bytes);
        if !stage.starts_with("simplify_") {
            self.working |= size != self.size;
        }
        self.size = size;
        if stage == "after_simplify_zip" {
            self.close_round(graph);
        }
    }

    fn close_round(&mut self, graph: &SeqGraph) {
        let sequences = graph.vertices().iter().map(|v| v.sequence.clone()).collect();
        let edges = if self.with_edges { graph.edges().to_vec() } else { vec![] };
        let signature = Signature { sequences, edge_count: graph.edge_count(), edges };
        self.same = signature == self.signature;
        self.signature = signature;
        self.worked = std::mem::take(&mut self.working);
        self.rounds += 1;
    }

    fn end(&self) -> u32 {
        match (self.worked, self.same) {
            (false, _) => QUIET,
            (true, true) => REPEATED,
            (true, false) => FULL,
        }
    }
}
