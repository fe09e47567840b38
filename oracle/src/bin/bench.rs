//! Times our library and the Rust on the records of standard input (bench/records.py has the layout), in one process.
//!
//! Ours: the whole call, from record to record, with all checks; the call clears its own arrays, and that is in the
//! time. The output lent to it is not cleared between runs. The Rust: only its function, on a graph that it has in
//! memory; that the graph is built, copied for each run, and written afterwards is not in the time.
//! Their answers must be equal. A time is the median of several runs, their number behind it.
//!
//! The argument `quick` leaves the Rust out where it takes minutes. With `whole` the Rust's time is also from record
//! to record: its graph is built from the record, by its own functions, and written.
//!
//! Of the regions that grow, a second table has the time for each vertex.
//!
//! All of it runs on a thread whose stack is enough for our calls on every record.
use oracle::case::{read_frame, words, Answer, Case, Tally};
use oracle::oracle::{CLEANUP_SEQ_GRAPH, FROM_ASSEMBLY_GRAPH, SIMPLIFY_GRAPH};
use oracle::ours::{self, Tables};
use oracle::record::{assembly_graph, counts, seq_graph, write, Form};
use oracle::seq_graph::{SeqGraph, SeqGraphCleanupStatus};
use oracle::seq_graph_simplify::simplify_graph_full;
use std::env::args;
use std::io::{self, BufReader};
use std::thread;
use std::time::{Duration, Instant};

const WORDS: usize = 3;
/// The marks of a record; one that has both has their sum.
const SLOW: u32 = 1;
const GROWING: u32 = 2;
/// Enough for every answer.
const ROOM: usize = 4_194_340;
/// Our calls take up to 32 MiB; the rest is for what stands above them.
const STACK: usize = 40 << 20;
/// Runs go on until this time has passed, but for at least so many and at most so many; a long one is not repeated.
const ENOUGH: Duration = Duration::from_millis(1500);
const LEAST: usize = 5;
const MOST: usize = 101;
const LONG: Duration = Duration::from_secs(5);

struct Record {
    call: u32,
    mark: u32,
    name: String,
    bytes: Vec<u8>,
}

impl Record {
    fn has(&self, mark: u32) -> bool {
        self.mark & mark != 0
    }

    fn what(&self) -> &'static str {
        match self.call {
            FROM_ASSEMBLY_GRAPH => "convert ",
            CLEANUP_SEQ_GRAPH => "clean up",
            _ => "simplify",
        }
    }
}

fn parse(frame: &[u8]) -> Record {
    let head = words(&frame[..4 * WORDS]);
    let name_end = 4 * WORDS + head[2] as usize;
    Record {
        call: head[0],
        mark: head[1],
        name: String::from_utf8_lossy(&frame[4 * WORDS..name_end]).into_owned(),
        bytes: frame[name_end..].to_vec(),
    }
}

/// The median time of what `run` measures, and how many runs there were.
fn median(mut run: impl FnMut() -> Duration) -> (f64, usize) {
    let (begin, mut times) = (Instant::now(), vec![]);
    while times.len() < MOST && (times.len() < LEAST || begin.elapsed() < ENOUGH) {
        let time = run();
        times.push(time);
        if time > LONG {
            break;
        }
    }
    times.sort();
    (times[times.len() / 2].as_secs_f64(), times.len())
}

fn timed(work: impl FnOnce()) -> Duration {
    let begin = Instant::now();
    work();
    begin.elapsed()
}

/// Our call's time, its answer and what it wrote.
fn time_ours(record: &Record) -> ((f64, usize), Answer, Vec<u8>) {
    let case = Case {
        call: record.call,
        start: 0,
        room: ROOM,
        caller: 0,
        tally: Tally::default(),
        record: record.bytes.clone(),
        list: vec![],
        expected: Answer::default(),
    };
    let (mut out, mut answer) = (vec![0; ROOM], Answer::default());
    let time = median(|| {
        let mut tables = Tables::new(case.caller, case.tally);
        timed(|| {
            let got = ours::call(&case, &case.record, &[], &mut out, &mut tables);
            answer = got.expect("a call that calls.txt names")
        })
    });
    assert!(answer.number == 0, "{}: refused {}", record.name, answer.number);
    out.truncate(answer.length as usize);
    (time, answer, out)
}

/// Simplifies or cleans; the status of what is written then.
fn work(call: u32, graph: &mut SeqGraph) -> u8 {
    if call == SIMPLIFY_GRAPH {
        simplify_graph_full(graph);
        return 0;
    }
    match graph.cleanup_seq_graph() {
        SeqGraphCleanupStatus::JustAssembledReference => 1,
        SeqGraphCleanupStatus::AssembledSomeVariation => 2,
    }
}

/// The Rust from record to record, in the same form.
fn rust_record(record: &Record) -> Vec<u8> {
    let form = Form::of(&record.bytes);
    if record.call == FROM_ASSEMBLY_GRAPH {
        return write(form, &SeqGraph::from_assembly_graph(&assembly_graph(&record.bytes)), 0);
    }
    let mut graph = seq_graph(&record.bytes);
    let status = work(record.call, &mut graph);
    write(form, &graph, status)
}

/// The Rust's time and the record it makes. `whole`: its graph is built and written in the time.
fn time_rust(record: &Record, whole: bool) -> ((f64, usize), Vec<u8>) {
    let mut bytes = vec![];
    if whole {
        let time = median(|| timed(|| bytes = rust_record(record)));
        return (time, bytes);
    }
    let (mut last, mut status) = (None, 0);
    let time = if record.call == FROM_ASSEMBLY_GRAPH {
        let graph = assembly_graph(&record.bytes);
        median(|| timed(|| last = Some(SeqGraph::from_assembly_graph(&graph))))
    } else {
        let graph = seq_graph(&record.bytes);
        median(|| {
            let mut copy = graph.clone();
            let time = timed(|| status = work(record.call, &mut copy));
            last = Some(copy);
            time
        })
    };
    (time, write(Form::of(&record.bytes), &last.expect("a run"), status))
}

fn print_head(whole: bool) {
    println!("times in ms, with the number of runs that each is the median of; both built for release, one process");
    println!(
        "ours: record to record, checks and clearing its arrays included; the output lent is not cleared"
    );
    if whole {
        println!("Rust: record to record, without checks; -: left out, since it takes minutes\n");
    } else {
        println!("Rust: its function alone, on a graph in memory; -: left out, since it takes minutes\n");
    }
    let (ours, rust) = ("ours", "Rust");
    println!("{:<46} {ours:>9} runs {rust:>11} runs   ratio rewrites rounds", "record");
}

/// A region of the row that grows, with the seconds that both took, the Rust only if it was run.
struct Grown {
    record: Record,
    ours: f64,
    rust: Option<f64>,
}

impl Grown {
    /// A time for each vertex, in ns.
    fn per_vertex(&self, time: f64) -> f64 {
        1e9 * time / counts(&self.record.bytes).vertices as f64
    }
}

/// The number with so many places, or a dash.
fn or_dash(number: Option<f64>, places: usize) -> String {
    number.map_or("-".to_string(), |n| format!("{n:.places$}"))
}

/// The time for each vertex. `growth` is ours against that of the smallest region, in the same call: 1 if the time grows as
/// the vertices do, 2 from 500 to 1,000 and 60 to 30,000 if it grows as their square.
fn print_grown(rows: &[Grown]) {
    println!("\ntime for each vertex of a region that grows, in ns\n");
    println!("{:<46} {:>9} {:>11} {:>7} {:>7}", "record", "ours", "Rust", "ratio", "growth");
    for row in rows {
        let first = rows.iter().find(|r| r.record.call == row.record.call).expect("the row itself");
        let ours = row.per_vertex(row.ours);
        let rust = or_dash(row.rust.map(|time| row.per_vertex(time)), 1);
        let ratio = or_dash(row.rust.map(|time| time / row.ours), 1);
        let growth = ours / first.per_vertex(first.ours);
        let name = format!("{} {}", row.record.what(), row.record.name);
        println!("{name:<46} {ours:>9.1} {rust:>11} {ratio:>7} {growth:>7.2}");
    }
}

/// Times both on a record, and prints its line; the seconds of both, the Rust's only if it was run.
fn print_line(record: &Record, quick: bool, whole: bool) -> (f64, Option<f64>) {
    let (mine, answer, bytes) = time_ours(record);
    let theirs = (!quick || !record.has(SLOW)).then(|| {
        let (time, made) = time_rust(record, whole);
        assert!(made == bytes, "{}: the answers differ", record.name);
        time
    });
    let seconds = theirs.map(|t| t.0);
    let rust = or_dash(seconds.map(|time| 1000.0 * time), 3);
    let rust_runs = theirs.map_or("-".to_string(), |t| t.1.to_string());
    let ratio = or_dash(seconds.map(|time| time / mine.0), 1);
    let rounds = if record.call == SIMPLIFY_GRAPH { answer.fields[1].to_string() } else { "-".to_string() };
    let (what, ms, runs, rewrites) = (record.what(), 1000.0 * mine.0, mine.1, answer.tally.rewrites);
    println!(
        "{what} {:<37} {ms:>9.3} {runs:>4} {rust:>11} {rust_runs:>4} {ratio:>7} {rewrites:>8} {rounds:>6}",
        record.name
    );
    (mine.0, seconds)
}

fn print_tables() -> io::Result<()> {
    let option = |name: &str| args().any(|a| a == name);
    let (quick, whole) = (option("quick"), option("whole"));
    let (mut input, mut grown) = (BufReader::new(io::stdin().lock()), vec![]);
    print_head(whole);
    while let Some(frame) = read_frame(&mut input)? {
        let record = parse(&frame);
        let (ours, rust) = print_line(&record, quick, whole);
        if record.has(GROWING) {
            grown.push(Grown { record, ours, rust });
        }
    }
    print_grown(&grown);
    Ok(())
}

fn main() -> io::Result<()> {
    let printing = thread::Builder::new().stack_size(STACK).spawn(print_tables)?;
    printing.join().expect("the tables")
}
