//! Compares three answers to each case of standard input: the model's, which stands in the case, the Rust's
//! and, for the calls linked, our library's. Our library also gets the graph of an SGR1 record as SGR2, and must
//! answer the same. Stops at the first difference.
use oracle::case::{parse, read_frame, words, Answer, Case, LABEL, MODEL_ALONE};
use oracle::oracle::{self as rust, Made};
use oracle::ours::{self, SMALL_STACK};
use oracle::record::{as_sgr2, bytes_at, seq_graph, without_marks, Form, SGR2};
use oracle::seq_graph::SeqGraph;
use std::collections::BTreeMap;
use std::env::var_os;
use std::io::{self, BufReader};
use std::panic::{catch_unwind, AssertUnwindSafe};
use std::process::exit;
use std::thread;

/// Set, each input is printed before our library gets it: the last one printed is one it did not return from.
const ECHO: &str = "COMPARE_ECHO";
/// The label behind the last case.
const END: &str = "end";
const REFUSED_LIMITS: u32 = 3;
const REFUSED_BYTES: u32 = 8;
const REFUSED_NO_PATH: u32 = 10;
const REFUSED_NO_ROOM: u32 = 11;

/// A graph of more edges is not built again from the record that conversion made of it.
const SLOW_TO_BUILD: usize = 4096;

/// The Rust's last answer and the graph that it was made from: cases of one record follow one another,
/// and the Rust takes long to build a large graph. What conversion made comes behind its cases.
#[derive(Default)]
struct Last {
    request: (u32, u32, Vec<u32>),
    record: Vec<u8>,
    graph: Option<SeqGraph>,
    made: Made,
    converted: Option<(Vec<u8>, SeqGraph)>,
}

impl Last {
    fn run(&mut self, case: &Case) -> &Made {
        let request = (case.call, case.start, case.list.clone());
        let same_record = case.record == self.record;
        if !same_record || request != self.request {
            if !same_record {
                self.graph = None;
                self.record = case.record.clone();
            }
            let run = AssertUnwindSafe(|| self.make(case));
            self.made = catch_unwind(run).unwrap_or_else(|_| differ(case, "the Rust", "it panicked"));
            self.request = request;
        }
        &self.made
    }

    fn make(&mut self, case: &Case) -> Made {
        let form = Form::of(&case.record);
        if case.call == rust::FROM_ASSEMBLY_GRAPH {
            let graph = rust::converted_graph(&case.record);
            let made = rust::written(form, &graph);
            self.converted = made.bytes.clone().map(|bytes| (bytes, graph));
            return made;
        }
        let converted = self.converted.take();
        let graph = self.graph.get_or_insert_with(|| build(&case.record, converted));
        rust::run_on(case.call, form, graph, case.start, &case.list)
    }
}

fn build(record: &[u8], converted: Option<(Vec<u8>, SeqGraph)>) -> SeqGraph {
    match converted {
        Some((bytes, graph)) if graph.edge_count() > SLOW_TO_BUILD && bytes == without_marks(record) => graph,
        _ => seq_graph(record),
    }
}

/// Whether the Rust has an answer: not to the call that was added, nor to what is refused before it runs.
fn rust_answers(case: &Case) -> bool {
    let number = case.expected.number;
    case.call != rust::VERTEX_SEQUENCE
        && (number == 0 || number == REFUSED_NO_PATH || number == REFUSED_NO_ROOM)
}

/// What the Rust's check of k-mer graphs must say of a record that conversion has taken past 6; none of any other case.
fn due_of_kmers(case: &Case) -> Option<u32> {
    if case.call != rust::FROM_ASSEMBLY_GRAPH {
        return None;
    }
    match case.expected.number {
        0 | REFUSED_BYTES | REFUSED_NO_ROOM => Some(0),
        number @ (rust::CYCLE | rust::NO_OVERLAP) => Some(number),
        _ => None,
    }
}

fn agrees(case: &Case, made: &Made) -> bool {
    let Some(bytes) = &made.bytes else {
        return case.expected.number == REFUSED_NO_PATH;
    };
    match case.expected.number {
        0 => {
            *bytes == known(case)
                && bytes.len() <= case.room
                && fields_agree(case.call, &case.expected, made)
        }
        number => number == REFUSED_NO_ROOM && bytes.len() > case.room,
    }
}

/// What the Rust can know of the expected output: of a record all but the marks of capped supports.
fn known(case: &Case) -> Vec<u8> {
    match case.call {
        rust::FROM_ASSEMBLY_GRAPH..=rust::CLEAN_NON_REF_PATHS => without_marks(&case.expected.output),
        _ => case.expected.output.clone(),
    }
}

fn fields_agree(call: u32, expected: &Answer, made: &Made) -> bool {
    match call {
        rust::SIMPLIFY_GRAPH => expected.fields[1..] == [made.rounds, made.end],
        rust::CLEANUP_SEQ_GRAPH => expected.fields[0] == made.status,
        _ => true,
    }
}

/// The case on the same graph as SGR2, with the answer that follows from the one to SGR1. None: the record is not
/// laid out as SGR1, or it is refused for a limit, of which SGR2 has others.
fn as_sgr2_case(case: &Case) -> Option<Case> {
    if [REFUSED_LIMITS, REFUSED_BYTES].contains(&case.expected.number) {
        return None;
    }
    let mut other = Case { record: as_sgr2(&case.record)?, ..case.clone() };
    let expected = &mut other.expected;
    match case.call {
        rust::VERTEX_SEQUENCE if expected.number == 0 => {
            expected.fields[0] += (bytes_at(&other.record) - bytes_at(&case.record)) as u32;
        }
        rust::FROM_ASSEMBLY_GRAPH..=rust::CLEAN_NON_REF_PATHS if expected.number == 0 => {
            expected.output = as_sgr2(&expected.output).expect("the record of an answer");
            other.room += expected.output.len() - expected.length as usize;
            expected.length = expected.output.len() as u32;
        }
        _ => {}
    }
    Some(other)
}

fn hex(bytes: &[u8]) -> String {
    bytes.iter().map(|b| format!("{b:02x}")).collect()
}

fn show_answer(a: &Answer) -> String {
    let (n, l, f, t) = (a.number, a.length, a.fields, a.tally);
    format!("number {n} length {l} fields {f:?} {t:?} output {}", hex(&a.output))
}

fn show_input(case: &Case) -> String {
    let (call, start, room, list) = (case.call, case.start, case.room, &case.list);
    let (caller, tally, record) = (case.caller, case.tally, hex(&case.record));
    format!("call {call} start {start} room {room} list {list:?} caller {caller} {tally:?} record {record}")
}

fn differ(case: &Case, who: &str, what: &str) -> ! {
    println!("DIFFERENCE between the model and {who}");
    println!("input: {}", show_input(case));
    println!("model: {}", show_answer(&case.expected));
    println!("{who}: {what}");
    exit(1)
}

/// Whether a case was answered by the Rust too, by our library, and by our library on the same graph as SGR2.
#[derive(Clone, Copy)]
struct Answered {
    rust: bool,
    ours: bool,
    as_sgr2: bool,
}

fn compare(case: &Case, judges: u32, last: &mut Last) -> Answered {
    let rust = judges != MODEL_ALONE && compare_rust(case, last);
    let ours = compare_ours(case, "our library");
    let other = as_sgr2_case(case).filter(|_| ours);
    let as_sgr2 = other.is_some_and(|other| compare_ours(&other, "our library, of the graph as SGR2,"));
    Answered { rust, ours, as_sgr2 }
}

/// True: the Rust has answered the case.
fn compare_rust(case: &Case, last: &mut Last) -> bool {
    let asked = rust_answers(case);
    if asked {
        let made = last.run(case);
        if !agrees(case, made) {
            let bytes = made.bytes.as_deref().map(hex);
            let numbers = [made.status, made.rounds, made.end];
            differ(case, "the Rust", &format!("status, rounds, end {numbers:?} bytes {bytes:?}"));
        }
    }
    let due = due_of_kmers(case);
    if let Some(number) = due {
        let found = rust::checked(&case.record);
        if found != number {
            differ(case, "the Rust", &format!("its check of the k-mers gives {found}"));
        }
    }
    asked || due.is_some()
}

/// True: our library has answered the case.
fn compare_ours(case: &Case, who: &str) -> bool {
    if var_os(ECHO).is_some() {
        eprintln!("{}", show_input(case));
    }
    match ours::run_on_stack(case) {
        None => false,
        Some(Err(what)) => differ(case, who, &what),
        Some(Ok(got)) if got != case.expected => differ(case, who, &show_answer(&got)),
        Some(Ok(_)) => true,
    }
}

/// Cases, those refused, those of SGR2, those that the Rust and that our library answered too, those that our library
/// also answered as SGR2.
type Counts = BTreeMap<String, [u64; COLUMNS.len()]>;
const COLUMNS: [&str; 6] = ["cases", "refused", "SGR2", "Rust", "ours", "as SGR2"];

fn count(counts: &mut Counts, case: &Case, label: &str, answered: Answered) {
    let number = case.expected.number;
    let is_sgr2 = Form::of(&case.record) == SGR2;
    let add = [true, number != 0, is_sgr2, answered.rust, answered.ours, answered.as_sgr2];
    let mut keys = vec![
        format!("kind: {label}"),
        format!("call {}", case.call),
        format!("number {number:2}"),
        "all".to_string(),
    ];
    if case.call == rust::SIMPLIFY_GRAPH && number == 0 {
        keys.push(format!("end {}", case.expected.fields[2]));
    }
    for key in keys {
        let row = counts.entry(key).or_default();
        row.iter_mut().zip(add).for_each(|(n, more)| *n += more as u64);
    }
}

fn run() -> io::Result<()> {
    let mut input = BufReader::with_capacity(1 << 20, io::stdin().lock());
    let (mut last, mut counts, mut label, mut judges) = (Last::default(), Counts::new(), String::new(), 0);
    while let Some(frame) = read_frame(&mut input)? {
        if words(&frame[..4]) == [LABEL] {
            judges = words(&frame[4..8])[0];
            label = String::from_utf8_lossy(&frame[8..]).into_owned();
            continue;
        }
        let case = parse(&frame);
        let answered = compare(&case, judges, &mut last);
        count(&mut counts, &case, &label, answered);
    }
    if label != END {
        return Err(io::Error::other("its maker stopped early"));
    }
    println!("{}", COLUMNS.map(|name| format!("{name:>9}")).join(" "));
    for (key, row) in &counts {
        println!("{}  {key}", row.map(|n| format!("{n:>9}")).join(" "));
    }
    Ok(())
}

fn main() {
    let worker = thread::Builder::new().stack_size(SMALL_STACK).spawn(run).expect("a thread");
    match worker.join() {
        Ok(Ok(())) => println!("no difference"),
        Ok(Err(e)) => {
            println!("the list of cases is not whole: {e}");
            exit(2)
        }
        Err(_) => exit(1),
    }
}
