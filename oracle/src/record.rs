//! The records SGR1 and SGR2, read without checks (the model has accepted them) and written.
use crate::assembly::AssemblyGraph;
use crate::seq_graph::{SeqEdge, SeqGraph};

/// A form: its mark, and how many bytes a word has: a count of vertices or edges, a length, an end of an edge.
#[derive(Clone, Copy, PartialEq, Eq)]
pub struct Form {
    pub mark: [u8; 4],
    word: usize,
}

pub const SGR1: Form = Form { mark: *b"SGR1", word: 2 };
pub const SGR2: Form = Form { mark: *b"SGR2", word: 4 };

impl Form {
    /// A record that begins SGR2 is one, every other record is SGR1.
    pub fn of(record: &[u8]) -> Form {
        if record.starts_with(&SGR2.mark) {
            SGR2
        } else {
            SGR1
        }
    }

    fn read_word(self, b: &[u8], at: usize) -> usize {
        match self.word {
            2 => le16(b, at),
            _ => le32(b, at) as usize,
        }
    }

    fn put_word(self, out: &mut Vec<u8>, n: usize) {
        match self.word {
            2 => out.extend(u16::try_from(n).expect("two bytes").to_le_bytes()),
            _ => put_u32(out, n),
        }
    }

    /// Mark, kind, status and k; the counts of vertices and edges; five numbers of four bytes.
    pub fn header(self) -> usize {
        8 + 2 * self.word + 20
    }

    /// From and to, the support in four bytes, the flag in one.
    fn edge(self) -> usize {
        2 * self.word + 5
    }

    fn offsets(self, c: Counts) -> Offsets {
        let edges = self.header() + self.word * c.vertices;
        let bytes = edges + self.edge() * c.edges;
        Offsets { edges, bytes, whole: bytes + c.bytes }
    }
}

#[derive(Clone, Copy)]
pub struct Counts {
    pub vertices: usize,
    pub edges: usize,
    pub bytes: usize,
}

struct Offsets {
    edges: usize,
    bytes: usize,
    whole: usize,
}

fn le16(b: &[u8], at: usize) -> usize {
    u16::from_le_bytes([b[at], b[at + 1]]) as usize
}

pub fn le32(b: &[u8], at: usize) -> u32 {
    u32::from_le_bytes([b[at], b[at + 1], b[at + 2], b[at + 3]])
}

fn put_u32(out: &mut Vec<u8>, n: usize) {
    out.extend(u32::try_from(n).expect("four bytes").to_le_bytes());
}

/// What the header says.
pub fn counts(record: &[u8]) -> Counts {
    let form = Form::of(record);
    Counts {
        vertices: form.read_word(record, 8),
        edges: form.read_word(record, 8 + form.word),
        bytes: le32(record, 8 + 2 * form.word) as usize,
    }
}

struct Edge {
    from: usize,
    to: usize,
    support: u32,
    flag: u8,
}

fn sequences(record: &[u8]) -> Vec<&[u8]> {
    let (form, c) = (Form::of(record), counts(record));
    let mut at = form.offsets(c).bytes;
    let mut all = Vec::with_capacity(c.vertices);
    for i in 0..c.vertices {
        let length = form.read_word(record, form.header() + form.word * i);
        all.push(&record[at..at + length]);
        at += length;
    }
    all
}

fn edges(record: &[u8]) -> Vec<Edge> {
    let (form, c) = (Form::of(record), counts(record));
    let start = form.offsets(c).edges;
    let read = |i: usize| {
        let at = start + form.edge() * i;
        Edge {
            from: form.read_word(record, at),
            to: form.read_word(record, at + form.word),
            support: le32(record, at + 2 * form.word),
            flag: record[at + form.edge() - 1],
        }
    };
    (0..c.edges).map(read).collect()
}

/// The record with the lowest bit of each flag alone: the Rust does not know whether a support was capped.
pub fn without_marks(record: &[u8]) -> Vec<u8> {
    let (form, c) = (Form::of(record), counts(record));
    let mut out = record.to_vec();
    for i in 0..c.edges {
        out[form.offsets(c).edges + form.edge() * (i + 1) - 1] &= 1;
    }
    out
}

/// Whether mark, offsets, whole length and lengths of an SGR1 record agree with its counts.
fn is_laid_out(record: &[u8]) -> bool {
    if !record.starts_with(&SGR1.mark) || record.len() < SGR1.header() {
        return false;
    }
    let c = counts(record);
    let at = SGR1.offsets(c);
    let due = [SGR1.header(), at.edges, at.bytes, at.whole];
    let length = |i: usize| SGR1.read_word(record, SGR1.header() + SGR1.word * i);
    (0..4).all(|i| le32(record, 16 + 4 * i) as usize == due[i])
        && at.whole == record.len()
        && (0..c.vertices).map(length).sum::<usize>() == c.bytes
}

/// The graph of an SGR1 record as SGR2. None: it is not laid out as one.
pub fn as_sgr2(record: &[u8]) -> Option<Vec<u8>> {
    let kind_and_status = [*record.get(4)?, *record.get(5)?];
    is_laid_out(record)
        .then(|| put(SGR2, kind_and_status, le16(record, 6), &sequences(record), &edges(record)))
}

/// Where the sequence bytes of a record stand.
pub fn bytes_at(record: &[u8]) -> usize {
    Form::of(record).offsets(counts(record)).bytes
}

/// A sequence graph, built by the Rust's own functions from an empty one.
pub fn seq_graph(record: &[u8]) -> SeqGraph {
    let empty = AssemblyGraph::new(le16(record, 6)).expect("k of an accepted record");
    let mut graph = SeqGraph::from_assembly_graph(&empty);
    for sequence in sequences(record) {
        graph.add_seq_vertex(sequence.to_vec());
    }
    for e in edges(record) {
        graph.add_or_update_edge(e.from, e.to, e.support, e.flag & 1 == 1);
    }
    graph
}

pub fn assembly_graph(record: &[u8]) -> AssemblyGraph {
    let mut graph = AssemblyGraph::new(le16(record, 6)).expect("k of an accepted record");
    for kmer in sequences(record) {
        graph.ensure_node(kmer);
    }
    for e in edges(record) {
        graph.add_edge_support(e.from, e.to, e.support);
        if e.flag & 1 == 1 {
            graph.ref_edges.insert((e.from, e.to));
        }
    }
    graph
}

/// The same with one support more on each edge: the Rust's check of k-mer graphs refuses an edge of support 0.
pub fn supported_assembly_graph(record: &[u8]) -> AssemblyGraph {
    let mut graph = assembly_graph(record);
    for e in edges(record) {
        graph.add_edge_support(e.from, e.to, 1);
    }
    graph
}

/// The record of a sequence graph, in this form.
pub fn write(form: Form, graph: &SeqGraph, status: u8) -> Vec<u8> {
    let sequences: Vec<&[u8]> = graph.vertices().iter().map(|x| &x.sequence[..]).collect();
    let edge = |x: &SeqEdge| Edge { from: x.from, to: x.to, support: x.support, flag: x.is_ref as u8 };
    let edges: Vec<Edge> = graph.edges().iter().map(edge).collect();
    put(form, [1, status], graph.kmer_size, &sequences, &edges)
}

fn put(form: Form, kind_and_status: [u8; 2], k: usize, sequences: &[&[u8]], edges: &[Edge]) -> Vec<u8> {
    let bytes = sequences.iter().map(|s| s.len()).sum();
    let c = Counts { vertices: sequences.len(), edges: edges.len(), bytes };
    let at = form.offsets(c);
    let mut out = form.mark.to_vec();
    out.extend(kind_and_status);
    out.extend(u16::try_from(k).expect("two bytes").to_le_bytes());
    form.put_word(&mut out, c.vertices);
    form.put_word(&mut out, c.edges);
    for n in [c.bytes, form.header(), at.edges, at.bytes, at.whole] {
        put_u32(&mut out, n);
    }
    sequences.iter().for_each(|s| form.put_word(&mut out, s.len()));
    for e in edges {
        form.put_word(&mut out, e.from);
        form.put_word(&mut out, e.to);
        out.extend(e.support.to_le_bytes());
        out.push(e.flag);
    }
    sequences.iter().for_each(|s| out.extend(*s));
    out
}
