//! The graph as GFA 1, and from it: S and L lines, forward, without overlap.
//!
//! An edge is a link; its support is the tag RC, the tag rf is 1 for a reference edge, and the tag cp for a capped one.
//! Form, kind, status and k are the tags fm, kd, st and km of the header.
use crate::graph::{mark, Edge, Graph, KMERS, SEQUENCES};
use crate::text::{form_of, line};
use crate::words::{number_of, once, shown};
use seq_graph::Form;
use std::collections::HashMap;
use std::fmt::Write;

fn is_gfa_letter(b: u8) -> bool {
    b.is_ascii_alphabetic() || b == b'=' || b == b'.'
}

/// K-mers joined by an edge share k - 1 bytes, if they are those of a string; nothing asks that of a record.
fn overlap(graph: &Graph, e: &Edge) -> String {
    if graph.kind != KMERS {
        return "0M".into();
    }
    let n = usize::from(graph.k).wrapping_sub(1);
    let (from, to) = (&graph.sequences[e.from as usize], &graph.sequences[e.to as usize]);
    if 0 < n && n < from.len() && from[from.len() - n..] == to[..n.min(to.len())] {
        format!("{n}M")
    } else {
        "*".into()
    }
}

fn put_segment(out: &mut String, i: usize, sequence: &[u8]) -> Result<(), String> {
    if let Some(b) = sequence.iter().find(|b| !is_gfa_letter(**b)) {
        return Err(format!("vertex {i} holds the byte \\x{b:02x}, which GFA cannot show"));
    }
    let letters = String::from_utf8_lossy(sequence);
    line!(out, "S\t{i}\t{}", if sequence.is_empty() { "*\tLN:i:0" } else { &letters });
    Ok(())
}

/// The graph as GFA. A k-mer graph's links overlap, so that what is written of it does not come back by `graph_of_gfa`.
pub fn gfa_of(graph: &Graph) -> Result<String, String> {
    graph.with_ends()?;
    let mut out = String::from("H\tVN:Z:1.0");
    if let Some(form) = graph.form {
        let _ = write!(out, "\tfm:Z:{}", mark(form));
    }
    line!(out, "\tkd:i:{}\tst:i:{}\tkm:i:{}", graph.kind, graph.status, graph.k);
    for (i, sequence) in graph.sequences.iter().enumerate() {
        put_segment(&mut out, i, sequence)?;
    }
    put_links(&mut out, graph)?;
    Ok(out)
}

fn put_links(out: &mut String, graph: &Graph) -> Result<(), String> {
    for (i, e) in graph.edges.iter().enumerate() {
        if e.flag > 3 {
            return Err(format!("edge {i} has the flag {}, which GFA cannot show", e.flag));
        }
        let (reference, capped) = (e.is_reference() as u8, e.is_capped() as u8);
        let ends = format!("{}\t+\t{}\t+\t{}", e.from, e.to, overlap(graph, e));
        line!(out, "L\t{ends}\tRC:i:{}\trf:i:{reference}\tcp:i:{capped}", e.support);
    }
    Ok(())
}

/// The tags of a line: type and value by name.
struct Tags<'a>(HashMap<&'a [u8], (u8, &'a [u8])>);

impl<'a> Tags<'a> {
    /// Tags that nothing here asks for are left aside, as GFA has it.
    fn of(fields: &[&'a [u8]]) -> Result<Tags<'a>, String> {
        let mut tags = HashMap::with_capacity(fields.len());
        for field in fields {
            let (name, kind, value) = match *field {
                [a, b, b':', kind, b':', value @ ..]
                    if a.is_ascii_alphabetic() && b.is_ascii_alphanumeric() =>
                {
                    (&field[..2], *kind, value)
                }
                _ => return Err(format!("{} is no tag: two letters, a type and a value", shown(field))),
            };
            if tags.insert(name, (kind, value)).is_some() {
                return Err(format!("a second tag {}", shown(name)));
            }
        }
        Ok(Tags(tags))
    }

    fn value(&self, name: &str, kind: u8) -> Result<Option<&'a [u8]>, String> {
        match self.0.get(name.as_bytes()) {
            Some(tag) if tag.0 != kind => Err(format!("the tag {name} is not of type {}", char::from(kind))),
            tag => Ok(tag.map(|t| t.1)),
        }
    }

    fn number(&self, name: &str, most: u32) -> Result<Option<u32>, String> {
        let Some(value) = self.value(name, b'i')? else { return Ok(None) };
        number_of(value, most).map(Some).map_err(|why| format!("the tag {name}: {why}"))
    }
}

/// What is said beside the file.
pub struct Given {
    /// In place of what a header says.
    pub k: Option<u16>,
    /// Of links whose line has no tag for it.
    pub support: Option<u32>,
}

struct Link<'a> {
    line: usize,
    ends: [&'a [u8]; 2],
    support: u32,
    flag: u8,
}

struct Reader<'a> {
    given: &'a Given,
    has_lines: bool,
    form: Option<Form>,
    status: Option<u32>,
    k: Option<u32>,
    names: HashMap<&'a [u8], u32>,
    sequences: Vec<Vec<u8>>,
    links: Vec<Link<'a>>,
}

impl<'a> Reader<'a> {
    fn line(&mut self, number: usize, fields: &[&'a [u8]]) -> Result<(), String> {
        self.has_lines = true;
        match fields {
            [b"H", tags @ ..] => self.header(Tags::of(tags)?),
            [b"S", name, sequence, tags @ ..] => self.segment(name, sequence, Tags::of(tags)?),
            [b"L", from, a, to, b, overlap, tags @ ..] => {
                if let Some(sign) = [a, b].into_iter().find(|sign| **sign != b"+") {
                    return Err(format!("the orientation {}: a record's edges lead forward, +", shown(sign)));
                }
                if *overlap != b"0M" {
                    return Err(format!(
                        "the overlap {}: a record's sequences do not overlap, 0M",
                        shown(overlap)
                    ));
                }
                self.link(number, [from, to], Tags::of(tags)?)
            }
            [b"S" | b"L", ..] => Err("a field is missing".into()),
            _ => Err(format!("{} is no line that a record can keep: H, S or L", shown(fields[0]))),
        }
    }

    fn header(&mut self, tags: Tags) -> Result<(), String> {
        if let Some(version) = tags.value("VN", b'Z')? {
            if version != b"1" && !version.starts_with(b"1.") {
                return Err(format!("version {}: only GFA 1 is read", shown(version)));
            }
        }
        if tags.number("kd", u8::MAX.into())?.is_some_and(|kind| kind != SEQUENCES.into()) {
            return Err("the kind is not 1: k-mers overlap; their text form can be read".into());
        }
        // there may be several headers, but each tag in one of them
        if let Some(form) = tags.value("fm", b'Z')? {
            once(&mut self.form, "tag fm", form_of(form)?)?;
        }
        if let Some(status) = tags.number("st", u8::MAX.into())? {
            once(&mut self.status, "tag st", status)?;
        }
        if let Some(k) = tags.number("km", u16::MAX.into())? {
            once(&mut self.k, "tag km", k)?;
        }
        Ok(())
    }

    fn segment(&mut self, name: &'a [u8], sequence: &[u8], tags: Tags) -> Result<(), String> {
        let (number, said) = (self.sequences.len() as u32, tags.number("LN", u32::MAX)?);
        let sequence = match sequence {
            b"*" if said == Some(0) => b"",
            b"*" | b"" => {
                return Err("the sequence is not given; an empty one is * with the tag LN:i:0".into())
            }
            letters => letters,
        };
        if let Some(b) = sequence.iter().find(|b| !is_gfa_letter(**b)) {
            return Err(format!("the sequence holds the byte \\x{b:02x}, which GFA does not allow"));
        }
        if said.is_some_and(|n| n as usize != sequence.len()) {
            return Err(format!("the tag LN is not the length, {}", sequence.len()));
        }
        if name.is_empty() || self.names.insert(name, number).is_some() {
            return Err(format!("a second segment {}, or one without a name", shown(name)));
        }
        self.sequences.push(sequence.to_vec());
        Ok(())
    }

    fn link(&mut self, line: usize, ends: [&'a [u8]; 2], tags: Tags) -> Result<(), String> {
        let support = tags.number("RC", u32::MAX)?.or(self.given.support);
        let support = support.ok_or("no tag RC says the support; --support gives one to such links")?;
        let flag = tags.number("rf", 1)?.unwrap_or(0) + 2 * tags.number("cp", 1)?.unwrap_or(0);
        self.links.push(Link { line, ends, support, flag: flag as u8 });
        Ok(())
    }

    fn end(&self, link: &Link, i: usize) -> Result<u32, String> {
        let found = self.names.get(link.ends[i]).copied();
        found.ok_or_else(|| format!("line {}: there is no segment {}", link.line, shown(link.ends[i])))
    }

    fn graph(self) -> Result<Graph, String> {
        if !self.has_lines {
            return Err("there is no line of GFA in it".into());
        }
        let k = self.given.k.or(self.k.map(|k| k as u16));
        let k = k.ok_or("no tag km of a header says k; -k gives it")?;
        let edge = |link: &Link| -> Result<Edge, String> {
            let (from, to) = (self.end(link, 0)?, self.end(link, 1)?);
            Ok(Edge { from, to, support: link.support, flag: link.flag })
        };
        let edges = self.links.iter().map(edge).collect::<Result<_, _>>()?;
        let status = self.status.unwrap_or(0) as u8;
        Ok(Graph { form: self.form, kind: SEQUENCES, status, k, sequences: self.sequences, edges })
    }
}

/// The sequence graph that this GFA writes, its segments numbered in the order of their lines; or the first line that
/// a record has no place for.
pub fn graph_of_gfa(data: &[u8], given: &Given) -> Result<Graph, String> {
    let (form, status, k) = (None, None, None);
    let (names, sequences, links) = (HashMap::new(), Vec::new(), Vec::new());
    let mut reader = Reader { given, has_lines: false, form, status, k, names, sequences, links };
    for (i, line) in data.split(|&b| b == b'\n').enumerate() {
        let line = line.strip_suffix(b"\r").unwrap_or(line);
        if !line.is_empty() && !line.starts_with(b"#") {
            let fields: Vec<&[u8]> = line.split(|&b| b == b'\t').collect();
            reader.line(i + 1, &fields).map_err(|why| format!("line {}: {why}", i + 1))?;
        }
    }
    reader.graph()
}
