//! The Rust on a folder of records, as the command `sg` works on one: tools/bench_sg.sh times both.
//!
//!     regions CALL IN OUT JOBS
//!
//! CALL is convert, simplify or cleanup. Each record in IN, which must be an accepted one, is read, the Rust's graph is
//! made of it, the Rust's function is called, and what it makes is written to OUT under the same name. JOBS threads take
//! the files in turn. Nothing is checked, and nothing is synced.
//! Prints how many regions there were, the seconds that all of it took, and the regions a second.
use oracle::oracle::converted_graph;
use oracle::record::{seq_graph, write, Form};
use oracle::seq_graph::SeqGraphCleanupStatus;
use oracle::seq_graph_simplify::simplify_graph_full;
use std::env::args;
use std::fs;
use std::io;
use std::path::{Path, PathBuf};
use std::process::exit;
use std::sync::atomic::{AtomicUsize, Ordering};
use std::thread::{scope, Builder};
use std::time::Instant;

/// As in bench.rs, so that both run on the same.
const STACK: usize = 40 << 20;

/// From record to record, in the same form.
type Call = fn(&[u8]) -> Vec<u8>;

fn convert(record: &[u8]) -> Vec<u8> {
    write(Form::of(record), &converted_graph(record), 0)
}

fn simplify(record: &[u8]) -> Vec<u8> {
    let mut graph = seq_graph(record);
    simplify_graph_full(&mut graph);
    write(Form::of(record), &graph, 0)
}

fn clean_up(record: &[u8]) -> Vec<u8> {
    let mut graph = seq_graph(record);
    let status = match graph.cleanup_seq_graph() {
        SeqGraphCleanupStatus::JustAssembledReference => 1,
        SeqGraphCleanupStatus::AssembledSomeVariation => 2,
    };
    write(Form::of(record), &graph, status)
}

fn named(call: &str) -> Option<Call> {
    match call {
        "convert" => Some(convert),
        "simplify" => Some(simplify),
        "cleanup" => Some(clean_up),
        _ => None,
    }
}

/// The files, from which each thread takes the next.
struct Queue<'a> {
    call: Call,
    inputs: Vec<PathBuf>,
    out: &'a Path,
    next: AtomicUsize,
}

impl Queue<'_> {
    fn work(&self) -> io::Result<()> {
        while let Some(input) = self.inputs.get(self.next.fetch_add(1, Ordering::Relaxed)) {
            let made = (self.call)(&fs::read(input)?);
            fs::write(self.out.join(input.file_name().expect("a file's name")), made)?;
        }
        Ok(())
    }
}

/// In the order of their names, as the command gets them.
fn files_in(folder: &Path) -> io::Result<Vec<PathBuf>> {
    let mut files = fs::read_dir(folder)?.map(|f| Ok(f?.path())).collect::<io::Result<Vec<PathBuf>>>()?;
    files.sort();
    Ok(files)
}

/// Works on all files with so many threads; an error is the first of theirs.
fn work_on_all(queue: &Queue, jobs: usize) -> io::Result<()> {
    scope(|threads| {
        let spawn = |_| Builder::new().stack_size(STACK).spawn_scoped(threads, || queue.work());
        let begun = (0..jobs).map(spawn).collect::<io::Result<Vec<_>>>()?;
        begun.into_iter().try_for_each(|thread| thread.join().expect("a thread that ends"))
    })
}

fn run(call: Call, folder: &Path, out: &Path, jobs: usize) -> io::Result<()> {
    let begin = Instant::now();
    fs::create_dir_all(out)?;
    let queue = Queue { call, inputs: files_in(folder)?, out, next: AtomicUsize::new(0) };
    work_on_all(&queue, jobs)?;
    let (count, seconds) = (queue.inputs.len(), begin.elapsed().as_secs_f64());
    println!("{count} regions, {seconds:.3} s, {:.1} regions a second", count as f64 / seconds);
    Ok(())
}

fn main() -> io::Result<()> {
    let words: Vec<String> = args().skip(1).collect();
    if let [call, folder, out, jobs] = &words[..] {
        if let (Some(call), Ok(jobs @ 1..)) = (named(call), jobs.parse()) {
            return run(call, folder.as_ref(), out.as_ref(), jobs);
        }
    }
    eprintln!("usage: regions convert|simplify|cleanup IN OUT JOBS");
    exit(2)
}
