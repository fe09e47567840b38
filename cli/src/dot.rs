//! The graph as Graphviz DOT.
use crate::graph::Graph;
use crate::text::line;
use crate::words::printed;
use std::fmt::Write;

/// A longer sequence is shown by so many bytes at its ends, and its length.
const LONGEST_LABEL: usize = 32;
const LABEL_END: usize = 12;

fn label(s: &[u8]) -> String {
    if s.len() <= LONGEST_LABEL {
        return printed(s);
    }
    let (start, end) = (&s[..LABEL_END], &s[s.len() - LABEL_END..]);
    format!("{}..{} ({})", printed(start), printed(end), s.len())
}

/// Reference edges are red and thick; a capped edge has a c behind its support.
pub fn dot_of(graph: &Graph) -> Result<String, String> {
    graph.with_ends()?;
    let mut out =
        String::from("digraph record {\n    rankdir=LR;\n    node [shape=box, fontname=\"monospace\"];\n");
    for (i, s) in graph.sequences.iter().enumerate() {
        // in a label a backslash stands for itself if it is doubled
        line!(out, "    {i} [label=\"{i} {}\"];", label(s).replace('\\', "\\\\"));
    }
    put_edges(&mut out, graph);
    out.push_str("}\n");
    Ok(out)
}

fn put_edges(out: &mut String, graph: &Graph) {
    for e in &graph.edges {
        let capped = if e.is_capped() { " c" } else { "" };
        let marked = if e.is_reference() { ", color=red, penwidth=2" } else { "" };
        line!(out, "    {} -> {} [label=\"{}{capped}\"{marked}];", e.from, e.to, e.support);
    }
}
