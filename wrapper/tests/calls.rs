//! Each call, on records of both forms, once answered, once refused for want of room, once for another cause, and by
//! callers above 15; what becomes of the table of tallies; and records that need a thread of their own.
use seq_graph::{clean_non_ref_paths, cleanup_seq_graph, from_assembly_graph, path_bases_bytes};
use seq_graph::{reference_path_bytes, simplify_graph, vertex_sequence};
use seq_graph::{Caller, Cleaned, End, Form, Refusal, Simplified, Status, Tallies, Tally};
use std::array::from_fn;
use std::mem::{align_of, size_of};

const KMERS: u8 = 0;
const SEQUENCES: u8 = 1;
const FILL: u8 = 0xA5;

type Edge = (u32, u32, u32, u8);

/// The mark, the bytes of the header, of a word and of an edge. A word is a count of vertices or edges, a length or an
/// end of an edge.
fn layout(form: Form) -> (&'static [u8], usize, usize, usize) {
    match form {
        Form::Sgr1 => (b"SGR1", 32, 2, 9),
        Form::Sgr2 => (b"SGR2", 36, 4, 13),
    }
}

fn record(form: Form, kind: u8, k: u16, sequences: &[&[u8]], edges: &[Edge]) -> Vec<u8> {
    let ((mark, header, word, edge), bytes) = (layout(form), sequences.concat());
    let edges_at = header + word * sequences.len();
    let bytes_at = edges_at + edge * edges.len();
    let put = |out: &mut Vec<u8>, size: usize, n: usize| out.extend(&n.to_le_bytes()[..size]);
    let mut out = mark.to_vec();
    out.extend([kind, 0]);
    put(&mut out, 2, k.into());
    put(&mut out, word, sequences.len());
    put(&mut out, word, edges.len());
    for n in [bytes.len(), header, edges_at, bytes_at, bytes_at + bytes.len()] {
        put(&mut out, 4, n);
    }
    for s in sequences {
        put(&mut out, word, s.len());
    }
    for (from, to, support, flag) in edges {
        put(&mut out, word, *from as usize);
        put(&mut out, word, *to as usize);
        put(&mut out, 4, *support as usize);
        out.push(*flag);
    }
    [out, bytes].concat()
}

fn sequence_graph(form: Form, sequences: &[&[u8]], edges: &[Edge]) -> Vec<u8> {
    record(form, SEQUENCES, 10, sequences, edges)
}

/// Case 1 of docs/METHOD.md, section 10: a diamond.
fn diamond(form: Form) -> Vec<u8> {
    let edges = [(0, 1, 5, 1), (1, 3, 5, 1), (0, 2, 2, 0), (2, 3, 2, 0)];
    sequence_graph(form, &[b"AA", b"CTG", b"CAG", b"TT"], &edges)
}

fn kmers(form: Form) -> Vec<u8> {
    record(form, KMERS, 3, &[b"CGT", b"ACG", b"CGA"], &[(1, 0, 5, 1), (1, 2, 2, 0)])
}

/// These tests run on records of both forms.
macro_rules! in_both_forms {
    ($($name:ident)*) => {
        mod sgr1 {
            $(#[test] fn $name() { super::$name(super::Form::Sgr1) })*
        }
        mod sgr2 {
            $(#[test] fn $name() { super::$name(super::Form::Sgr2) })*
        }
    };
}

in_both_forms! {
    finds_a_sequence marks_a_capped_support simplifies refuses_to_simplify converts converts_only_what_overlaps cleans
    cleans_paths spells_the_reference spells_a_path refuses_callers_above_15 counts_for_its_caller_alone
    keeps_callers_apart
}

fn caller(number: u32) -> Caller {
    Caller::new(number).unwrap()
}

fn tally(answered: u32, refused: u32, rewrites: u32) -> Tally {
    Tally { answered, refused, rewrites }
}

/// A table of counts that all differ.
fn filled() -> Tallies {
    Tallies { callers: from_fn(|i| 3 * i as u32).map(|n| tally(n + 101, n + 102, n + 103)) }
}

/// The table with this tally for this caller.
fn with(mut table: Tallies, caller: u32, own: Tally) -> Tallies {
    table.callers[caller as usize] = own;
    table
}

fn finds_a_sequence(form: Form) {
    let record = diamond(form);
    assert_eq!(vertex_sequence(&record, 1), Ok(&b"CTG"[..]));
    assert_eq!(vertex_sequence(&record, 4), Err(Refusal::NotThere));
    assert_eq!(vertex_sequence(&record[1..], 0), Err(Refusal::Length));
}

/// A sum past 2^32 - 1 caps the joined edge; a flag above 3 is refused.
fn marks_a_capped_support(form: Form) {
    let of = |flag| {
        let edges = [(1, 2, 1, 0), (3, 0, 1, 0), (4, 0, 1, 0), (1, 3, u32::MAX, 0), (1, 4, 1, flag)];
        sequence_graph(form, &[b"G", b"T", b"C", b"A", b"A"], &edges)
    };
    let want = sequence_graph(form, &[b"T", b"C", b"AG"], &[(0, 1, 1, 0), (0, 2, u32::MAX, 3)]);
    let (mut out, mut table) = (vec![FILL; 200], Tallies::default());
    let made = simplify_graph(&of(1), &mut out, caller(0), &mut table).unwrap();
    assert_eq!(out[..made.length], want);
    assert_eq!(simplify_graph(&of(4), &mut out, caller(0), &mut table).unwrap_err(), Refusal::Edge);
}

fn simplifies(form: Form) {
    let want = sequence_graph(
        form,
        &[b"AAC", b"T", b"A", b"GTT"],
        &[(0, 1, 5, 1), (0, 2, 2, 0), (1, 3, 5, 1), (2, 3, 2, 0)],
    );
    let (mut out, mut table) = (vec![FILL; 200], Tallies::default());
    let made = simplify_graph(&diamond(form), &mut out, caller(15), &mut table).unwrap();
    assert_eq!(made, Simplified { length: want.len(), rewrites: 3, rounds: 2, end: End::Quiet });
    assert_eq!(out[..want.len()], want);
    assert!(out[want.len()..].iter().all(|&b| b == FILL));
    assert_eq!(table, with(Tallies::default(), 15, tally(1, 0, 3)));
}

fn refuses_to_simplify(form: Form) {
    let full = with(filled(), 7, tally(1, u32::MAX, 5));
    let (mut out, mut table) = (vec![FILL; 40], full.clone());
    assert_eq!(simplify_graph(&diamond(form), &mut out, caller(7), &mut table), Err(Refusal::Room));
    assert_eq!(simplify_graph(&[], &mut [], caller(7), &mut table), Err(Refusal::Length));
    assert_eq!(out, [FILL; 40]);
    assert_eq!(table, full);
}

fn converts(form: Form) {
    let want = record(form, SEQUENCES, 3, &[b"T", b"ACG", b"A"], &[(1, 2, 2, 0), (1, 0, 5, 1)]);
    let (mut out, mut table) = (vec![FILL; want.len()], Tallies::default());
    assert_eq!(from_assembly_graph(&kmers(form), &mut out, caller(0), &mut table), Ok(want.len()));
    assert_eq!(out, want);
    let short = &mut out[..want.len() - 1];
    assert_eq!(from_assembly_graph(&kmers(form), short, caller(0), &mut table), Err(Refusal::Room));
    assert_eq!(from_assembly_graph(&diamond(form), &mut out, caller(0), &mut table), Err(Refusal::Mark));
    assert_eq!(out, want);
    assert_eq!(table, with(Tallies::default(), 0, tally(1, 2, 0)));
}

/// Equal k-mers are asked for before the overlap, a cycle behind it; the sequence call does not ask for overlap.
fn converts_only_what_overlaps(form: Form) {
    let (mut out, mut table) = (vec![FILL; 80], with(filled(), 3, tally(3, 4, 5)));
    let mut convert = |kmers: &[&[u8]], edges: &[Edge]| {
        from_assembly_graph(&record(form, KMERS, 2, kmers, edges), &mut out, caller(3), &mut table)
    };
    assert_eq!(convert(&[b"AA", b"CC"], &[(0, 1, 1, 0)]), Err(Refusal::Overlap));
    assert_eq!(convert(&[b"AA", b"CC", b"CC"], &[(0, 1, 1, 0)]), Err(Refusal::Doubled));
    assert_eq!(convert(&[b"AC"], &[(0, 0, 1, 0)]), Err(Refusal::Overlap));
    assert_eq!(convert(&[b"AA"], &[(0, 0, 1, 0)]), Err(Refusal::Cycle));
    assert_eq!(out, [FILL; 80]);
    assert_eq!(table, with(filled(), 3, tally(3, 8, 5)));
    assert_eq!(vertex_sequence(&record(form, KMERS, 2, &[b"AA", b"CC"], &[(0, 1, 1, 0)]), 1), Ok(&b"CC"[..]));
    assert_eq!(vertex_sequence(&record(form, KMERS, 2, &[b"AC"], &[(0, 0, 1, 0)]), 0), Err(Refusal::Cycle));
}

/// Case 8 there, and case 7, a graph without vertices. The diamond's rewrites are counted, though not answered.
fn cleans(form: Form) {
    let mut want = sequence_graph(form, &[b"ACGT", b""], &[(0, 1, 0, 1)]);
    want[5] = 2;
    let (mut out, mut table) = (vec![FILL; want.len()], Tallies::default());
    let one = sequence_graph(form, &[b"ACGT"], &[]);
    let made = cleanup_seq_graph(&one, &mut out, caller(14), &mut table).unwrap();
    assert_eq!(made, Cleaned { length: want.len(), status: Status::SomeVariation });
    assert_eq!(out, want);
    assert_eq!(cleanup_seq_graph(&one, &mut out[1..], caller(14), &mut table), Err(Refusal::Room));
    let empty = sequence_graph(form, &[], &[]);
    let none = Cleaned { length: empty.len(), status: Status::JustReference };
    assert_eq!(cleanup_seq_graph(&empty, &mut out, caller(14), &mut table), Ok(none));
    assert_eq!(table, with(Tallies::default(), 14, tally(2, 1, 0)));
    cleanup_seq_graph(&diamond(form), &mut [FILL; 200], caller(14), &mut table).unwrap();
    assert_eq!(table, with(Tallies::default(), 14, tally(3, 1, 3)));
}

fn cleans_paths(form: Form) {
    let graph = sequence_graph(form, &[b"G", b"A", b"C", b"T"], &[(0, 1, 3, 0), (1, 2, 5, 1), (2, 3, 3, 0)]);
    let want = sequence_graph(form, &[b"A", b"C"], &[(0, 1, 5, 1)]);
    let (mut out, mut table) = (vec![FILL; want.len()], Tallies::default());
    assert_eq!(clean_non_ref_paths(&graph, &mut out, caller(8), &mut table), Ok(want.len()));
    assert_eq!(out, want);
    assert_eq!(clean_non_ref_paths(&graph, &mut out[1..], caller(8), &mut table), Err(Refusal::Room));
    assert_eq!(clean_non_ref_paths(&graph[..31], &mut out, caller(8), &mut table), Err(Refusal::Length));
    assert_eq!(table, with(Tallies::default(), 8, tally(1, 2, 0)));
}

fn spells_the_reference(form: Form) {
    let (mut out, mut table) = ([FILL; 8], Tallies::default());
    assert_eq!(reference_path_bytes(&diamond(form), &mut out, caller(2), &mut table), Ok(7));
    assert_eq!(&out, b"AACTGTT\xA5");
    assert_eq!(
        reference_path_bytes(&diamond(form), &mut out[..6], caller(2), &mut table),
        Err(Refusal::Room)
    );
    let none = sequence_graph(form, &[b"A", b"C"], &[(0, 1, 1, 0)]);
    assert_eq!(reference_path_bytes(&none, &mut out, caller(2), &mut table), Err(Refusal::NoReference));
    assert_eq!(table, with(Tallies::default(), 2, tally(1, 2, 0)));
}

fn spells_a_path(form: Form) {
    let (mut out, mut table) = ([FILL; 8], Tallies::default());
    let mut spell = |start, edges: &[u32], room: usize| {
        path_bases_bytes(&diamond(form), start, edges, &mut out[..room], caller(9), &mut table)
    };
    assert_eq!(spell(0, &[0, 2, 2, 3], 8), Ok(7));
    assert_eq!(spell(3, &[], 1), Err(Refusal::Room));
    for (start, edges) in [(0, vec![0, 3]), (1, vec![0, 1]), (0, vec![0, 1, 2, 3]), (4, vec![]), (0, vec![0])]
    {
        assert_eq!(spell(start, &edges, 8), Err(Refusal::NotThere));
    }
    assert_eq!(&out, b"AACAGTT\xA5");
    assert_eq!(table, with(Tallies::default(), 9, tally(1, 6, 0)));
}

/// Under 36 bytes a record that begins SGR2 is refused, whatever it says; with 32 it could state its length where SGR1
/// does.
#[test]
fn asks_sgr2_for_36_bytes() {
    let empty = sequence_graph(Form::Sgr2, &[], &[]);
    assert_eq!(vertex_sequence(&empty, 0), Err(Refusal::NotThere));
    for length in 32..36 {
        let mut short = empty[..length].to_vec();
        short[28] = length as u8;
        assert_eq!(vertex_sequence(&short, 0), Err(Refusal::Length));
    }
}

/// So many bytes of two-byte numbers that rise by one: no four in a row come twice.
fn rising_text(count: usize) -> Vec<u8> {
    (0..count).map(|i| if i % 2 == 1 { i / 2 } else { i / 512 } as u8).collect()
}

/// The edges of vertices in a row, all of them the reference.
fn row(vertices: usize) -> Vec<Edge> {
    (1..vertices as u32).map(|v| (v - 1, v, 1, 1)).collect()
}

/// A text in parts of four bytes, in a row. Each call on it needs a thread of its own: this one has 2 MiB of stack.
fn check_row(vertices: usize) {
    let (text, edges) = (rising_text(4 * vertices), row(vertices));
    let parts: Vec<&[u8]> = text.chunks(4).collect();
    let graph = sequence_graph(Form::Sgr2, &parts, &edges);
    let joined = sequence_graph(Form::Sgr2, &[&text], &[]);
    let mut cleaned = sequence_graph(Form::Sgr2, &[&text, b""], &[(0, 1, 0, 1)]);
    cleaned[5] = 2;
    let (mut out, mut table) = (vec![FILL; Form::of(&graph).room()], Tallies::default());
    let made = simplify_graph(&graph, &mut out, caller(1), &mut table);
    assert_eq!(made, Ok(Simplified { length: joined.len(), rewrites: 1, rounds: 1, end: End::Quiet }));
    assert_eq!(out[..joined.len()], joined);
    let made = cleanup_seq_graph(&graph, &mut out, caller(1), &mut table);
    assert_eq!(made, Ok(Cleaned { length: cleaned.len(), status: Status::SomeVariation }));
    assert_eq!(out[..cleaned.len()], cleaned);
    assert_eq!(clean_non_ref_paths(&graph, &mut out, caller(1), &mut table), Ok(graph.len()));
    assert_eq!(out[..graph.len()], graph);
    assert_eq!(reference_path_bytes(&graph, &mut out, caller(1), &mut table), Ok(text.len()));
    assert_eq!(out[..text.len()], text);
    out.fill(FILL);
    let path: Vec<u32> = edges.iter().flat_map(|e| [e.0, e.1]).collect();
    assert_eq!(path_bases_bytes(&graph, 0, &path, &mut out, caller(1), &mut table), Ok(text.len()));
    assert_eq!(out[..text.len()], text);
    assert_eq!(vertex_sequence(&graph, vertices as u32 - 1), Ok(&text[text.len() - 4..]));
    assert_eq!(vertex_sequence(&graph, vertices as u32), Err(Refusal::NotThere));
    assert_eq!(table, with(Tallies::default(), 1, tally(5, 0, 2)));
}

/// k-mers in a row: all but the first keep their last byte.
fn check_kmer_row(vertices: usize) {
    const K: usize = 8;
    let (text, edges) = (rising_text(vertices + K - 1), row(vertices));
    let kmers: Vec<&[u8]> = text.windows(K).collect();
    let parts: Vec<&[u8]> = [&text[..K]].into_iter().chain(text[K..].chunks(1)).collect();
    let graph = record(Form::Sgr2, KMERS, K as u16, &kmers, &edges);
    let (mut out, mut table) = (vec![FILL; Form::Sgr2.room_within_limits()], Tallies::default());
    let made = from_assembly_graph(&graph, &mut out, caller(1), &mut table).unwrap();
    // edges come in the order of their k-mers, so all but their order is compared
    let want = record(Form::Sgr2, SEQUENCES, K as u16, &parts, &edges);
    let edges_at = 36 + 4 * vertices;
    let bytes_at = edges_at + 13 * edges.len();
    let in_order = |record: &[u8]| {
        let mut found: Vec<Vec<u8>> = record[edges_at..bytes_at].chunks(13).map(<[u8]>::to_vec).collect();
        found.sort();
        found
    };
    assert_eq!(
        (made, &out[..edges_at], &out[bytes_at..made]),
        (want.len(), &want[..edges_at], &want[bytes_at..])
    );
    assert_eq!(in_order(&out), in_order(&want));
    assert_eq!(vertex_sequence(&graph, 1), Ok(kmers[1]));
}

/// Past the limits of SGR1, and at those of SGR2.
#[test]
fn takes_larger_records() {
    for vertices in [2_049, 32_768] {
        check_row(vertices);
        check_kmer_row(vertices);
    }
}

/// A limit is refused as ever, and so is too little room; nothing is written then.
#[test]
fn refuses_larger_records() {
    let graph = |form, vertices: usize| sequence_graph(form, &vec![&b"A"[..]; vertices], &row(vertices));
    let (mut out, mut table) = (vec![FILL; 1000], Tallies::default());
    let mut ask = |record: &[u8]| simplify_graph(record, &mut out, caller(2), &mut table);
    assert_eq!(ask(&graph(Form::Sgr1, 2_049)), Err(Refusal::Limit));
    assert_eq!(ask(&graph(Form::Sgr2, 32_769)), Err(Refusal::Limit));
    assert_eq!(ask(&graph(Form::Sgr2, 32_768)), Err(Refusal::Room));
    assert_eq!((out, table), (vec![FILL; 1000], with(Tallies::default(), 2, tally(0, 3, 0))));
}

/// As include/seq_graph.h has it, without a gap.
#[test]
fn has_tables_of_192_bytes() {
    assert_eq!((size_of::<Tally>(), size_of::<Tallies>(), align_of::<Tallies>()), (12, 192, 4));
    assert_eq!(Tallies::default().callers, [tally(0, 0, 0); 16]);
}

#[test]
fn checks_a_caller() {
    for number in 0..16 {
        assert_eq!(Caller::new(number), Some(Caller::raw(number)));
        assert_eq!(filled().of(caller(number)), Some(filled().callers[number as usize]));
    }
    for number in [16, 17, 256, 1 << 31, u32::MAX] {
        assert_eq!(Caller::new(number), None);
        assert_eq!(Caller::raw(number).number(), number);
        assert_eq!(filled().of(Caller::raw(number)), None);
    }
}

/// A tallied call: from a record to an output, and whether it was answered.
type Call = fn(&[u8], &mut [u8], Caller, &mut Tallies) -> Result<(), Refusal>;

/// Each tallied call with an input that it answers, and the rewrites that it makes of it.
fn tallied_calls(form: Form) -> [(Call, Vec<u8>, u32); 6] {
    [
        (|r, o, c, t| from_assembly_graph(r, o, c, t).map(|_| ()), kmers(form), 0),
        (|r, o, c, t| simplify_graph(r, o, c, t).map(|_| ()), diamond(form), 3),
        (|r, o, c, t| cleanup_seq_graph(r, o, c, t).map(|_| ()), diamond(form), 3),
        (|r, o, c, t| clean_non_ref_paths(r, o, c, t).map(|_| ()), diamond(form), 0),
        (|r, o, c, t| reference_path_bytes(r, o, c, t).map(|_| ()), diamond(form), 0),
        (|r, o, c, t| path_bases_bytes(r, 0, &[0, 1, 1, 3], o, c, t).map(|_| ()), diamond(form), 0),
    ]
}

/// 18 comes before all else, and leaves output and table as they were.
fn refuses_callers_above_15(form: Form) {
    for (call, input, _) in tallied_calls(form) {
        let (mut out, mut table) = ([FILL; 200], filled());
        for number in [16, 17, 256, 1 << 30, 1 << 31, u32::MAX] {
            let mut ask =
                |record: &[u8], room: usize| call(record, &mut out[..room], Caller::raw(number), &mut table);
            assert_eq!(ask(&input, 200), Err(Refusal::Caller));
            assert_eq!(ask(&input, 0), Err(Refusal::Caller));
            assert_eq!(ask(&input[1..], 200), Err(Refusal::Caller));
            assert_eq!(ask(&[], 0), Err(Refusal::Caller));
        }
        assert_eq!((out, table), ([FILL; 200], filled()));
    }
}

/// Every call by every caller: its own counts are raised, or stop, and the other fifteen tallies keep every field.
fn counts_for_its_caller_alone(form: Form) {
    for (call, input, rewrites) in tallied_calls(form) {
        let counts = [0, 5, u32::MAX - 3, u32::MAX - 1, u32::MAX];
        for (number, n) in (0..16).flat_map(|number| counts.map(|n| (number, n))) {
            let before = with(filled(), number, tally(n, n, n));
            let mut table = before.clone();
            assert_eq!(call(&input, &mut [FILL; 200], caller(number), &mut table), Ok(()));
            let own = tally(n.saturating_add(1), n, n.saturating_add(rewrites));
            assert_eq!(table, with(filled(), number, own));
            table = before;
            assert_eq!(call(&input, &mut [], caller(number), &mut table), Err(Refusal::Room));
            assert_eq!(table, with(filled(), number, tally(n, n.saturating_add(1), n)));
        }
    }
}

/// A row of calls of eight callers mixed, and of 16, which is none: on one table they make of each caller's tally what
/// its own calls alone make of it.
fn keeps_callers_apart(form: Form) {
    let calls = tallied_calls(form);
    let caller_of = |step: u32| Caller::raw(step * step % 17);
    let make = |step: u32, table: &mut Tallies| {
        let (call, input, _) = &calls[step as usize % 6];
        let record = if step % 5 == 0 { &input[1..] } else { &input[..] };
        let _ = call(record, &mut [FILL; 200], caller_of(step), table);
    };
    let start = with(filled(), 4, tally(u32::MAX - 9, u32::MAX - 9, u32::MAX - 9));
    let mut together = start.clone();
    (0..510).for_each(|step| make(step, &mut together));
    for number in 0..16 {
        let mut alone = start.clone();
        (0..510).filter(|&step| caller_of(step).number() == number).for_each(|step| make(step, &mut alone));
        let own = together.of(caller(number)).unwrap();
        assert_eq!(alone, with(start.clone(), number, own));
    }
    assert_ne!(together, start);
}

#[test]
fn tells_each_refusal() {
    assert_eq!(Refusal::of(0), None);
    for number in [12, 13, 14, 16, 17, 19, 1000, u32::MAX] {
        assert_eq!(Refusal::of(number), Some(Refusal::UnknownNumber(number)));
        assert_eq!(Refusal::UnknownNumber(number).number(), number);
    }
    assert_eq!([Refusal::UnknownEnd(4), Refusal::NoThread].map(Refusal::number), [0, 0]);
    assert!(Refusal::NoThread.to_string().starts_with("no thread"));
    assert_eq!(Refusal::UnknownStatus(3).to_string(), "the unknown status 3");
    for number in (1..=11).chain([15, 18]) {
        let refusal = Refusal::of(number).unwrap();
        assert_eq!(refusal.number(), number);
        assert!(!refusal.to_string().is_empty());
    }
    assert!(Refusal::all().map(Refusal::number).eq((1..=11).chain([15, 18])));
    assert_eq!(Refusal::Cycle.to_string(), "a cycle, a self edge included");
    assert_eq!(Refusal::of(15), Some(Refusal::Overlap));
    assert_eq!(Refusal::of(18), Some(Refusal::Caller));
}
