//! The text form of a record, and what is shown of a simplified one.
use crate::graph::{flag_of, mark, printed_flag, Edge, Graph, SEQUENCES};
use crate::words::{number_of, once, put_sequence, sequence_of, shown};
use seq_graph::{End, Form, Simplified};
use std::fmt::Write;

/// Writing to a string cannot fail.
macro_rules! line {
    ($out:expr, $($what:tt)*) => { let _ = writeln!($out, $($what)*); };
}
pub(crate) use line;

pub fn text_of(graph: &Graph) -> String {
    let mut out = String::new();
    if let Some(form) = graph.form {
        line!(out, "form {}", mark(form));
    }
    line!(out, "kind {}\nstatus {}\nk {}", graph.kind, graph.status, graph.k);
    for sequence in &graph.sequences {
        out.push_str("v ");
        put_sequence(&mut out, sequence);
        out.push('\n');
    }
    put_edges(&mut out, graph);
    out
}

fn put_edges(out: &mut String, graph: &Graph) {
    for e in &graph.edges {
        line!(out, "e {} {} {} {}", e.from, e.to, e.support, printed_flag(e.flag));
    }
}

pub fn end_word(end: End) -> &'static str {
    match end {
        End::Quiet => "quiet",
        End::Repeated => "repeated",
        End::Full => "full",
    }
}

/// What sgshow prints of a record that was simplified to this graph.
pub fn shown_graph(graph: &Graph, done: &Simplified) -> String {
    let (v, e, mut out) = (graph.sequences.len(), graph.edges.len(), String::new());
    let surplus = e as i64 - v as i64;
    line!(out, "k {} vertices {v} edges {e} bytes {} surplus {surplus}", graph.k, graph.bytes());
    line!(out, "rewrites {} rounds {} end {}", done.rewrites, done.rounds, end_word(done.end));
    for (i, sequence) in graph.sequences.iter().enumerate() {
        let _ = write!(out, "v {i} ");
        put_sequence(&mut out, sequence);
        out.push('\n');
    }
    put_edges(&mut out, graph);
    out
}

/// What the lines read so far have said.
#[derive(Default)]
struct Reader {
    form: Option<Form>,
    kind: Option<u32>,
    status: Option<u32>,
    k: Option<u32>,
    sequences: Vec<Vec<u8>>,
    edges: Vec<Edge>,
    /// Vertices, edges and bytes, as a line of sgshow has them.
    counts: Option<[u32; 3]>,
}

pub fn form_of(word: &[u8]) -> Result<Form, String> {
    match word {
        b"SGR1" => Ok(Form::Sgr1),
        b"SGR2" => Ok(Form::Sgr2),
        _ => Err(format!("{} is no form: SGR1 or SGR2", shown(word))),
    }
}

impl Reader {
    fn line(&mut self, words: &[&[u8]]) -> Result<(), String> {
        match words {
            [b"v", sequence] => self.sequences.push(sequence_of(sequence)?),
            [b"v", number, sequence] => self.numbered_vertex(number, sequence)?,
            [b"e", from, to, support, flag] => self.edges.push(edge_of([from, to, support, flag])?),
            [b"form", form] => once(&mut self.form, "form", form_of(form)?)?,
            [b"kind", n] => once(&mut self.kind, "kind", number_of(n, u8::MAX.into())?)?,
            [b"status", n] => once(&mut self.status, "status", number_of(n, u8::MAX.into())?)?,
            [b"k", n] => once(&mut self.k, "k", number_of(n, u16::MAX.into())?)?,
            [b"k", n, b"vertices", v, b"edges", e, b"bytes", b, b"surplus", _] => {
                once(&mut self.k, "k", number_of(n, u16::MAX.into())?)?;
                self.counts =
                    Some([number_of(v, u32::MAX)?, number_of(e, u32::MAX)?, number_of(b, u32::MAX)?]);
            }
            // of what sgshow prints, the line about the simplification says nothing of the graph
            [b"rewrites", _, b"rounds", _, b"end", _] => {}
            _ => return Err(format!("{} is no line of the text form", shown(&words.join(&b' ')))),
        }
        Ok(())
    }

    fn numbered_vertex(&mut self, number: &[u8], sequence: &[u8]) -> Result<(), String> {
        let (due, found) = (self.sequences.len(), number_of(number, u32::MAX)?);
        if found as usize != due {
            return Err(format!("vertex {due} has the number {found}"));
        }
        self.sequences.push(sequence_of(sequence)?);
        Ok(())
    }

    fn graph(self) -> Result<Graph, String> {
        let k = self.k.ok_or("no line says k")? as u16;
        let (kind, status) = (self.kind.unwrap_or(SEQUENCES.into()) as u8, self.status.unwrap_or(0) as u8);
        let graph = Graph { form: self.form, kind, status, k, sequences: self.sequences, edges: self.edges };
        let found = [graph.sequences.len(), graph.edges.len(), graph.bytes()];
        if self.counts.is_some_and(|said| said.map(|n| n as usize) != found) {
            return Err("the counts behind k are not those of the graph".into());
        }
        Ok(graph)
    }
}

fn edge_of([from, to, support, flag]: [&[u8]; 4]) -> Result<Edge, String> {
    let flag = match flag_of(flag) {
        Some(flag) => flag,
        None => number_of(flag, u8::MAX.into())? as u8,
    };
    let [from, to, support] =
        [number_of(from, u32::MAX)?, number_of(to, u32::MAX)?, number_of(support, u32::MAX)?];
    Ok(Edge { from, to, support, flag })
}

/// The graph that this text writes, also what sgshow prints; or the first line that is none of it.
pub fn graph_of_text(data: &[u8]) -> Result<Graph, String> {
    let mut reader = Reader::default();
    for (i, line) in data.split(|&b| b == b'\n').enumerate() {
        let words: Vec<&[u8]> = line.split(u8::is_ascii_whitespace).filter(|w| !w.is_empty()).collect();
        if words.first().is_some_and(|w| !w.starts_with(b"#")) {
            reader.line(&words).map_err(|why| format!("line {}: {why}", i + 1))?;
        }
    }
    reader.graph()
}
