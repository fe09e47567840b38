//! What each command makes of the bytes of an input, by the calls of the library.
use crate::args::Asked;
use crate::command::Task;
use crate::dot::dot_of;
use crate::gfa::{gfa_of, graph_of_gfa, Given};
use crate::graph::{encode, follow, header_of, mark, Graph, Header, Unfollowed, KMERS, SEQUENCES};
use crate::outcome::{number, word, Fact, Made, Problem};
use crate::tallies::{shown_tallies, tallies_in};
use crate::text::{end_word, graph_of_text, shown_graph, text_of};
use seq_graph::{clean_non_ref_paths, cleanup_seq_graph, from_assembly_graph, path_bases_bytes};
use seq_graph::{reference_path_bytes, simplify_graph, vertex_sequence};
use seq_graph::{Caller, Form, Refusal, Simplified, Status, Tallies};
use std::ffi::OsStr;
use std::os::unix::ffi::OsStrExt;
use std::path::Path;

const FASTA_LINE: usize = 60;

/// What a thread lends to one call after another.
#[derive(Default)]
pub struct Desk {
    out: Vec<u8>,
    pub table: Tallies,
}

impl Desk {
    /// Room that is enough for every call on this record, and the table.
    fn lend(&mut self, record: &[u8]) -> (&mut [u8], &mut Tallies) {
        let room = Form::of(record).room();
        if self.out.len() < room {
            self.out.resize(room, 0);
        }
        (&mut self.out, &mut self.table)
    }
}

/// A call that tells no more than the length of what it wrote.
type Call<'a> = &'a dyn Fn(&[u8], &mut [u8], &mut Tallies) -> Result<usize, Refusal>;

fn made(desk: &mut Desk, record: &[u8], call: Call) -> Result<Made, Problem> {
    let (out, table) = desk.lend(record);
    let length = call(record, out, table)?;
    Ok(Made { bytes: out[..length].to_vec(), facts: vec![number("length", length)] })
}

/// Makes of an input what is asked for.
pub fn perform(asked: &Asked, name: &OsStr, data: &[u8], desk: &mut Desk) -> Result<Made, Problem> {
    let caller = Caller::raw(asked.caller);
    match asked.command.task {
        Task::Check => check(data, desk),
        Task::Convert => made(desk, data, &|r, o, t| from_assembly_graph(r, o, caller, t)),
        Task::Simplify => simplify(data, caller, desk).map(|(made, _)| made),
        Task::Cleanup => cleanup(data, caller, desk),
        Task::CleanNonRef => made(desk, data, &|r, o, t| clean_non_ref_paths(r, o, caller, t)),
        Task::Reference => {
            string(asked, name, made(desk, data, &|r, o, t| reference_path_bytes(r, o, caller, t))?)
        }
        Task::Path => string(asked, name, path(asked, data, desk)?),
        Task::Sequence => string(asked, name, sequence(asked, data)?),
        Task::Show => show(data, caller, desk),
        Task::Text => shown(data, desk, |graph| Ok(text_of(graph))),
        Task::Gfa => shown(data, desk, gfa_of),
        Task::Dot => shown(data, desk, dot_of),
        Task::Make => record_of(asked, graph_of_text(data), desk),
        Task::FromGfa => {
            let given = Given { k: asked.k, support: asked.support };
            record_of(asked, graph_of_gfa(data, &given), desk)
        }
        Task::Caller => {
            let table = tallies_in(data).map_err(Problem::Unfit)?;
            let (text, facts) = shown_tallies(&table);
            Ok(Made { bytes: text.into(), facts })
        }
    }
}

/// Whether the library takes the record: a k-mer graph's if it can be converted, every other if it can be read.
fn verdict(record: &[u8], desk: &mut Desk) -> Result<(), Refusal> {
    if record.get(4) == Some(&KMERS) {
        // a table of its own: to ask is not to make a call
        let (out, _) = desk.lend(record);
        return from_assembly_graph(record, out, Caller::raw(0), &mut Tallies::default()).map(|_| ());
    }
    match vertex_sequence(record, 0) {
        // asked last of all: the graph is sound and has no vertices
        Ok(_) | Err(Refusal::NotThere) => Ok(()),
        Err(refusal) => Err(refusal),
    }
}

fn facts_of(header: &Header) -> Vec<Fact> {
    let kind = match header.kind {
        KMERS => "k-mers",
        SEQUENCES => "sequences",
        _ => "unknown",
    };
    let status = ["not cleaned", "just reference", "some variation"].get(usize::from(header.status));
    let [vertices, edges, bytes] = header.counts.map(|n| n as usize);
    vec![
        word("form", mark(header.form)),
        word("kind", kind),
        word("status", status.unwrap_or(&"unknown")),
        number("k", header.k.into()),
        number("vertices", vertices),
        number("edges", edges),
        number("bytes", bytes),
    ]
}

/// The library's refusal of a record that cannot be followed, with what is wrong, where that is its cause.
fn refused(data: &[u8], unfollowed: Unfollowed, desk: &mut Desk) -> Problem {
    match verdict(data, desk).map_err(Problem::from) {
        Ok(()) => Problem::Unfit(unfollowed.why),
        Err(Problem::Refused { refusal, facts, .. }) if refusal.number() == unfollowed.number => {
            Problem::Refused { refusal, facts, detail: Some(unfollowed.why) }
        }
        Err(problem) => problem,
    }
}

/// What a file is, as far as it has a header, and the library's verdict.
fn check(data: &[u8], desk: &mut Desk) -> Result<Made, Problem> {
    let facts: Vec<Fact> = header_of(data).iter().flat_map(facts_of).collect();
    let judged = match follow(data) {
        Ok(_) => verdict(data, desk).map_err(Problem::from),
        Err(unfollowed) => Err(refused(data, unfollowed, desk)),
    };
    match judged {
        Ok(()) => Ok(Made { bytes: Vec::new(), facts }),
        Err(Problem::Refused { refusal, detail, .. }) => Err(Problem::Refused { refusal, facts, detail }),
        Err(problem) => Err(problem),
    }
}

fn simplify(data: &[u8], caller: Caller, desk: &mut Desk) -> Result<(Made, Simplified), Problem> {
    let (out, table) = desk.lend(data);
    let done = simplify_graph(data, out, caller, table)?;
    let (rewrites, rounds) =
        (number("rewrites", done.rewrites as usize), number("rounds", done.rounds as usize));
    let facts = vec![rewrites, rounds, word("end", end_word(done.end)), number("length", done.length)];
    Ok((Made { bytes: out[..done.length].to_vec(), facts }, done))
}

fn cleanup(data: &[u8], caller: Caller, desk: &mut Desk) -> Result<Made, Problem> {
    let (out, table) = desk.lend(data);
    let done = cleanup_seq_graph(data, out, caller, table)?;
    let status = match done.status {
        Status::JustReference => "just reference",
        Status::SomeVariation => "some variation",
    };
    let facts = vec![word("status", status), number("length", done.length)];
    Ok(Made { bytes: out[..done.length].to_vec(), facts })
}

/// From and to of each edge between the vertices, in turn.
fn path(asked: &Asked, data: &[u8], desk: &mut Desk) -> Result<Made, Problem> {
    let edges = asked.vertices.windows(2).flatten().copied().collect::<Vec<u32>>();
    let (start, caller) = (asked.vertices[0], Caller::raw(asked.caller));
    made(desk, data, &|r, o, t| path_bases_bytes(r, start, &edges, o, caller, t))
}

fn sequence(asked: &Asked, data: &[u8]) -> Result<Made, Problem> {
    let bytes = vertex_sequence(data, asked.vertex.unwrap_or(0))?.to_vec();
    let facts = vec![number("length", bytes.len())];
    Ok(Made { bytes, facts })
}

/// A string as it is, or as FASTA.
fn string(asked: &Asked, name: &OsStr, made: Made) -> Result<Made, Problem> {
    if !asked.fasta {
        return Ok(made);
    }
    if let Some(b) = made.bytes.iter().find(|b| !b.is_ascii_alphabetic()) {
        return Err(Problem::Unfit(format!("the string holds the byte \\x{b:02x}, which FASTA cannot show")));
    }
    let name = if name == "-" { OsStr::new("standard input") } else { name };
    let title = Path::new(name).file_stem().unwrap_or(name).as_bytes();
    let mut bytes = vec![b'>'];
    // a blank would end the name
    bytes.extend(title.iter().map(|b| if b.is_ascii_control() || *b == b' ' { b'_' } else { *b }));
    for line in made.bytes.chunks(FASTA_LINE) {
        bytes.push(b'\n');
        bytes.extend(line);
    }
    bytes.push(b'\n');
    Ok(Made { bytes, facts: made.facts })
}

fn show(data: &[u8], caller: Caller, desk: &mut Desk) -> Result<Made, Problem> {
    let (mut answer, done) = simplify(data, caller, desk)?;
    let graph = follow(&answer.bytes).map_err(|unfollowed| Problem::Unfit(unfollowed.why))?;
    answer.bytes = shown_graph(&graph, &done).into();
    // the length is that of the record, which is not what is written
    answer.facts.retain(|fact| fact.name != "length");
    Ok(answer)
}

/// A record in another form, whatever the library says of it, if its fields can be followed.
fn shown(data: &[u8], desk: &mut Desk, show: fn(&Graph) -> Result<String, String>) -> Result<Made, Problem> {
    let graph = follow(data).map_err(|unfollowed| refused(data, unfollowed, desk))?;
    let text = show(&graph).map_err(Problem::Unfit)?;
    Ok(Made { bytes: text.into(), facts: Vec::new() })
}

/// SGR1 where that holds the graph: where its fields do, and its limits, if those of SGR2 do.
fn chosen_form(graph: &Graph, desk: &mut Desk) -> Form {
    let mut is_past_limit = |form| match encode(form, graph) {
        Ok(record) => verdict(&record, desk) == Err(Refusal::Limit),
        Err(_) => true,
    };
    if is_past_limit(Form::Sgr1) && (encode(Form::Sgr1, graph).is_err() || !is_past_limit(Form::Sgr2)) {
        Form::Sgr2
    } else {
        Form::Sgr1
    }
}

/// The record of what was read, in the form that is asked for, else in the one that it says, else in the first that
/// holds it.
fn record_of(asked: &Asked, read: Result<Graph, String>, desk: &mut Desk) -> Result<Made, Problem> {
    let graph = read.map_err(Problem::Unfit)?;
    let form = asked.form.or(graph.form).unwrap_or_else(|| chosen_form(&graph, desk));
    let bytes = encode(form, &graph).map_err(Problem::Unfit)?;
    if !asked.unchecked {
        verdict(&bytes, desk)?;
    }
    let facts = vec![word("form", mark(form)), number("length", bytes.len())];
    Ok(Made { bytes, facts })
}
