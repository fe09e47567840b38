//! A record taken apart into its fields, and put together from them. Nothing is judged here: a record with a cycle or
//! past a limit is followed too, as long as its fields say where its parts stand.
use seq_graph::Form;

pub const KMERS: u8 = 0;
pub const SEQUENCES: u8 = 1;
/// By the flag: 1 reference, 2 more capped.
const FLAGS: [&str; 4] = ["-", "r", "-c", "rc"];
/// As the header has them.
const OFFSETS: [&str; 4] = ["offset of lengths", "offset of edges", "offset of bytes", "whole length"];

#[derive(Debug, Clone, PartialEq, Eq)]
pub struct Edge {
    pub from: u32,
    pub to: u32,
    pub support: u32,
    pub flag: u8,
}

impl Edge {
    pub fn is_reference(&self) -> bool {
        self.flag & 1 != 0
    }

    pub fn is_capped(&self) -> bool {
        self.flag >= 2
    }
}

/// The flag as text; one that no sound record has is a number.
pub fn printed_flag(flag: u8) -> String {
    FLAGS.get(usize::from(flag)).map_or_else(|| flag.to_string(), |f| f.to_string())
}

/// The flag that this text stands for, if it is not a number.
pub fn flag_of(text: &[u8]) -> Option<u8> {
    FLAGS.iter().zip(0..).find(|(f, _)| f.as_bytes() == text).map(|(_, flag)| flag)
}

pub fn mark(form: Form) -> &'static str {
    match form {
        Form::Sgr1 => "SGR1",
        Form::Sgr2 => "SGR2",
    }
}

pub struct Graph {
    /// None where nothing says it.
    pub form: Option<Form>,
    pub kind: u8,
    pub status: u8,
    pub k: u16,
    pub sequences: Vec<Vec<u8>>,
    pub edges: Vec<Edge>,
}

impl Graph {
    pub fn bytes(&self) -> usize {
        self.sequences.iter().map(Vec::len).sum()
    }

    /// That every edge has its ends in the graph: a picture has no place for an edge to nowhere.
    pub fn with_ends(&self) -> Result<(), String> {
        let count = self.sequences.len();
        let astray = self.edges.iter().position(|e| e.from.max(e.to) as usize >= count);
        let Some(i) = astray else { return Ok(()) };
        let end = self.edges[i].from.max(self.edges[i].to);
        Err(format!("edge {i} has an end {end}, but there are {count} vertices"))
    }
}

/// How many bytes a word has: a count of vertices or edges, a length, an end of an edge.
fn word(form: Form) -> usize {
    match form {
        Form::Sgr1 => 2,
        Form::Sgr2 => 4,
    }
}

/// Mark, kind, status and k; the counts of vertices and edges; five numbers of four bytes.
fn header_size(form: Form) -> usize {
    8 + 2 * word(form) + 20
}

/// From and to, the support in four bytes, the flag in one.
fn edge_size(form: Form) -> usize {
    2 * word(form) + 5
}

/// The four offsets of the header, by the counts of vertices, edges and bytes. Each count has at most four bytes.
fn offsets(form: Form, [v, e, b]: [u64; 3]) -> [u64; 4] {
    let lengths = header_size(form) as u64;
    let edges = lengths + word(form) as u64 * v;
    let bytes = edges + edge_size(form) as u64 * e;
    [lengths, edges, bytes, bytes + b]
}

/// The number of this size at this place.
fn number(data: &[u8], at: usize, size: usize) -> u64 {
    data[at..at + size].iter().rev().fold(0, |n, b| n << 8 | u64::from(*b))
}

fn put(out: &mut Vec<u8>, size: usize, n: u64) {
    out.extend(&n.to_le_bytes()[..size]);
}

/// What the header says, of a record that has one.
pub struct Header {
    pub form: Form,
    pub kind: u8,
    pub status: u8,
    pub k: u16,
    /// Of vertices, edges and bytes.
    pub counts: [u64; 3],
}

/// Why the parts of a record cannot be told apart, and the number of the refusal that this is a reason for.
#[derive(Debug)]
pub struct Unfollowed {
    pub number: u32,
    pub why: String,
}

/// Of bytes that are long enough for a header and begin as one.
pub fn header_of(data: &[u8]) -> Option<Header> {
    let form = Form::of(data);
    if data.len() < header_size(form) || !data.starts_with(mark(form).as_bytes()) {
        return None;
    }
    let (w, k) = (word(form), number(data, 6, 2) as u16);
    let counts = [number(data, 8, w), number(data, 8 + w, w), number(data, 8 + 2 * w, 4)];
    Some(Header { form, kind: data[4], status: data[5], k, counts })
}

/// The header, if it says where the parts stand; asked in the order of the refusals.
fn followed_header(data: &[u8]) -> Result<Header, Unfollowed> {
    let form = Form::of(data);
    let (w, size) = (word(form), header_size(form));
    let fault = |number, why| Err(Unfollowed { number, why });
    if data.len() < size {
        return fault(
            1,
            format!("{} bytes are too few: a record begins with {size} bytes of header", data.len()),
        );
    }
    let found = [0, 1, 2, 3].map(|i| number(data, 12 + 2 * w + 4 * i, 4));
    if found[3] != data.len() as u64 {
        return fault(1, format!("it has {} bytes, but says {}", data.len(), found[3]));
    }
    let Some(header) = header_of(data) else {
        return fault(2, "it does not begin with the letters SGR1 or SGR2".into());
    };
    let due = offsets(form, header.counts);
    match (0..4).find(|&i| found[i] != due[i]) {
        Some(i) => fault(4, format!("the {} is {}, but {} by the counts", OFFSETS[i], found[i], due[i])),
        None => Ok(header),
    }
}

/// The record's parts, in their order.
pub fn follow(data: &[u8]) -> Result<Graph, Unfollowed> {
    let Header { form, kind, status, k, counts: [v, e, b] } = followed_header(data)?;
    let (lengths, rest) = data[header_size(form)..].split_at(word(form) * v as usize);
    let (edges, mut bytes) = rest.split_at(edge_size(form) * e as usize);
    let lengths: Vec<u64> = lengths.chunks(word(form)).map(|c| number(c, 0, c.len())).collect();
    let total: u64 = lengths.iter().sum();
    if total != b {
        let why = format!("the lengths sum to {total}, but the sequence bytes are {b}");
        return Err(Unfollowed { number: 4, why });
    }
    let mut sequences = Vec::with_capacity(lengths.len());
    for length in lengths {
        let (sequence, behind) = bytes.split_at(length as usize);
        sequences.push(sequence.to_vec());
        bytes = behind;
    }
    let edges = edges.chunks(edge_size(form)).map(|c| edge_in(form, c)).collect();
    Ok(Graph { form: Some(form), kind, status, k, sequences, edges })
}

fn edge_in(form: Form, c: &[u8]) -> Edge {
    let w = word(form);
    let (from, to) = (number(c, 0, w) as u32, number(c, w, w) as u32);
    Edge { from, to, support: number(c, 2 * w, 4) as u32, flag: c[2 * w + 4] }
}

/// Why the graph has no record of this form: a number that does not fit its field.
fn past_fields(form: Form, graph: &Graph) -> Option<String> {
    let most = (1u64 << (8 * word(form))) - 1;
    let counts = [graph.sequences.len() as u64, graph.edges.len() as u64, graph.bytes() as u64];
    let [v, e, _] = counts;
    let longest = graph.sequences.iter().map(|s| s.len() as u64).max().unwrap_or(0);
    let end = graph.edges.iter().map(|e| e.from.max(e.to).into()).max().unwrap_or(0);
    if v > most {
        Some(format!("{v} vertices are too many: their field ends at {most}"))
    } else if e > most {
        Some(format!("{e} edges are too many: their field ends at {most}"))
    } else if longest > most {
        Some(format!("a sequence of {longest} bytes is too long: its field ends at {most}"))
    } else if end > most {
        Some(format!("an edge has an end {end}: its field ends at {most}"))
    } else if offsets(form, counts)[3] > u32::MAX.into() {
        Some("it is too long for a record".into())
    } else {
        None
    }
}

/// The graph's record in this form, whatever the graph is; or a number of it that does not fit its field.
pub fn encode(form: Form, graph: &Graph) -> Result<Vec<u8>, String> {
    if let Some(why) = past_fields(form, graph) {
        return Err(why);
    }
    let w = word(form);
    let counts = [graph.sequences.len() as u64, graph.edges.len() as u64, graph.bytes() as u64];
    let mut out = Vec::with_capacity(offsets(form, counts)[3] as usize);
    out.extend(mark(form).as_bytes());
    out.extend([graph.kind, graph.status]);
    out.extend(graph.k.to_le_bytes());
    put(&mut out, w, counts[0]);
    put(&mut out, w, counts[1]);
    put(&mut out, 4, counts[2]);
    offsets(form, counts).into_iter().for_each(|n| put(&mut out, 4, n));
    graph.sequences.iter().for_each(|s| put(&mut out, w, s.len() as u64));
    graph.edges.iter().for_each(|e| put_edge(&mut out, w, e));
    graph.sequences.iter().for_each(|s| out.extend(s));
    Ok(out)
}

fn put_edge(out: &mut Vec<u8>, w: usize, edge: &Edge) {
    put(out, w, edge.from.into());
    put(out, w, edge.to.into());
    put(out, 4, edge.support.into());
    out.push(edge.flag);
}
