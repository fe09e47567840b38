//! Files in, files out: each input is read, worked on and written by one of several threads, and told in the order of the
//! arguments.
use crate::args::{Asked, Output};
use crate::outcome::{reason, Made, Problem};
use crate::report::Report;
use crate::tallies::{add, add_to_file, require_table};
use crate::task::{perform, Desk};
use crate::whole::{folder_of, is_taken, sync_folder, write_whole};
use seq_graph::Tallies;
use std::collections::{BTreeMap, BTreeSet};
use std::ffi::OsStr;
use std::fs::{canonicalize, create_dir_all, File};
use std::io::{self, IsTerminal, Read, Write};
use std::path::{Path, PathBuf};
use std::sync::atomic::{AtomicUsize, Ordering};
use std::sync::mpsc::{channel, Receiver, RecvTimeoutError, Sender};
use std::thread::{scope, Builder};
use std::time::Duration;

/// The longest file that is read. The longest record has 5,177,380 bytes, and its text form a few times as many.
const LONGEST: u64 = 64 << 20;
/// Enough for every call that the wrapper does not put on a thread of its own.
const STACK: usize = 2 << 20;

/// All of a file of about this length.
fn read_all(file: impl Read, length: u64) -> io::Result<Vec<u8>> {
    let mut data = Vec::with_capacity(length.min(LONGEST) as usize + 1);
    file.take(LONGEST + 1).read_to_end(&mut data)?;
    if data.len() as u64 > LONGEST {
        return Err(io::Error::other("it has over 64 MiB, and is not read"));
    }
    Ok(data)
}

fn read_input(name: &OsStr) -> Result<Vec<u8>, Problem> {
    let read_file = |file: File| read_all(&file, file.metadata()?.len());
    let data =
        if name == "-" { read_all(io::stdin().lock(), 0) } else { File::open(name).and_then(read_file) };
    data.map_err(|why| Problem::Failed { name: None, why: reason(&why) })
}

/// A string gets a line's end on a terminal, so that what comes next begins a line.
fn write_stdout(bytes: &[u8]) -> io::Result<()> {
    let mut out = io::stdout().lock();
    out.write_all(bytes)?;
    if out.is_terminal() && bytes.last().is_some_and(|&b| b != b'\n') {
        out.write_all(b"\n")?;
    }
    out.flush()
}

/// Reads an input, works on it, and writes what was made. What is said of it comes back; what is written does not.
fn one(asked: &Asked, input: &OsStr, output: &Output, desk: &mut Desk) -> Result<Made, Problem> {
    if let Output::File(path) = output {
        // before the work: a call whose answer has no place is not made
        if is_taken(path) && !asked.force {
            return Err(Problem::taken(path.into()));
        }
    }
    let mut made = perform(asked, input, &read_input(input)?, desk)?;
    match output {
        Output::Report => return Ok(made),
        Output::Stdout => write_stdout(&made.bytes).map_err(|why| Problem::of_stdout(&why))?,
        Output::File(path) => {
            write_whole(path, &made.bytes, asked.force).map_err(|why| Problem::of_file(path.into(), &why))?
        }
    }
    made.bytes = Vec::new();
    Ok(made)
}

/// Inputs whose turn has come, one after another, and what became of each.
struct Queue<'a> {
    asked: &'a Asked,
    next: AtomicUsize,
}

type Told = (usize, Result<Made, Problem>);

impl Queue<'_> {
    fn stop(&self) {
        self.next.store(self.asked.inputs.len(), Ordering::Relaxed);
    }

    /// Takes inputs until none is left; what the thread's calls counted.
    fn work(&self, told: Sender<Told>) -> Tallies {
        let mut desk = Desk::default();
        loop {
            let i = self.next.fetch_add(1, Ordering::Relaxed);
            let Some(output) = self.asked.outputs.get(i) else { return desk.table };
            let outcome = one(self.asked, &self.asked.inputs[i], output, &mut desk);
            if told.send((i, outcome)).is_err() {
                return desk.table;
            }
        }
    }

    /// Tells what became of the inputs, in their order, as soon as all before are told. Stops where nobody reads on.
    fn tell(&self, told: Receiver<Told>, report: &mut Report) -> io::Result<()> {
        let (mut waiting, mut next) = (BTreeMap::new(), 0);
        loop {
            match told.recv_timeout(Duration::from_millis(200)) {
                Ok((i, outcome)) => drop(waiting.insert(i, outcome)),
                Err(RecvTimeoutError::Disconnected) => return Ok(()),
                Err(RecvTimeoutError::Timeout) => {}
            }
            self.tell_ready(&mut waiting, &mut next, report)?;
            report.progress(next + waiting.len());
        }
    }

    fn tell_ready(
        &self,
        waiting: &mut BTreeMap<usize, Result<Made, Problem>>,
        next: &mut usize,
        report: &mut Report,
    ) -> io::Result<()> {
        while let Some(outcome) = waiting.remove(next) {
            report.tell(&self.asked.inputs[*next], &self.asked.outputs[*next], &outcome)?;
            *next += 1;
        }
        Ok(())
    }
}

/// Works on all inputs. The sum of what was counted; an error if there is no thread to work on.
fn work_on_all(queue: &Queue, jobs: usize, report: &mut Report) -> io::Result<Tallies> {
    scope(|threads| {
        let (sender, receiver) = channel();
        let spawn = |_| {
            let told = sender.clone();
            Builder::new().stack_size(STACK).spawn_scoped(threads, move || queue.work(told))
        };
        let (begun, failed): (Vec<_>, Vec<_>) = (0..jobs).map(spawn).partition(Result::is_ok);
        drop(sender);
        // with fewer threads than wanted the work is done all the same
        if let (true, Some(Err(why))) = (begun.is_empty(), failed.into_iter().next()) {
            return Err(why);
        }
        if let Err(why) = queue.tell(receiver, report) {
            report.fail_to_say(&why);
            queue.stop();
        }
        let mut table = Tallies::default();
        for thread in begun.into_iter().flatten() {
            add(&mut table, &thread.join().unwrap_or_else(|panic| std::panic::resume_unwind(panic)));
        }
        Ok(table)
    })
}

/// A file or a folder, and what the system says of it.
type Fault<'a> = (&'a Path, io::Error);

/// What must be there before the first input is read.
fn prepare(asked: &Asked) -> Result<(), Fault<'_>> {
    if let Some(folder) = &asked.folder {
        if folder.is_file() {
            return Err((folder, io::Error::other("it is a file, and no folder")));
        }
        create_dir_all(folder).map_err(|why| (folder.as_path(), why))?;
    }
    if let Some(path) = &asked.tallies {
        require_table(path).map_err(|why| (path.as_path(), why))?;
    }
    Ok(())
}

/// The folders in which names were made: of the outputs, and above the one that may be new.
fn folders_of(asked: &Asked) -> BTreeSet<PathBuf> {
    let written = |output: &Output| match output {
        Output::File(path) if path.is_symlink() => canonicalize(path).ok(),
        Output::File(path) if path.is_file() => Some(path.clone()),
        _ => None,
    };
    let written = asked.outputs.iter().filter_map(written).map(|path| folder_of(&path).into());
    let above = asked.folder.iter().flat_map(|folder| folder.ancestors());
    written.chain(above.map(|folder| folder_of(folder).into())).collect()
}

/// Makes the names of the outputs last.
fn sync_folders(asked: &Asked, report: &mut Report) {
    for folder in folders_of(asked) {
        if let Err(why) = sync_folder(&folder) {
            report.fail(folder.as_os_str(), &reason(&why));
        }
    }
}

/// Says that nothing could be done: in a line, or of each input.
fn tell_unprepared(asked: &Asked, report: &mut Report, (path, why): Fault) {
    if !asked.json {
        return report.fail(path.as_os_str(), &reason(&why));
    }
    for (input, output) in asked.inputs.iter().zip(&asked.outputs) {
        let told = report.tell(input, output, &Err(Problem::of_file(path.into(), &why)));
        if let Err(why) = told {
            return report.fail_to_say(&why);
        }
    }
}

/// Runs the command; the exit status.
pub fn run(asked: &Asked) -> u8 {
    let mut report = Report::of(asked);
    if let Err(fault) = prepare(asked) {
        tell_unprepared(asked, &mut report, fault);
        return report.status;
    }
    let queue = Queue { asked, next: AtomicUsize::new(0) };
    let table = match work_on_all(&queue, asked.jobs.min(asked.inputs.len()), &mut report) {
        Ok(table) => table,
        Err(why) => {
            report.fail(OsStr::new("threads"), &reason(&why));
            return report.status;
        }
    };
    sync_folders(asked, &mut report);
    if let Some(path) = &asked.tallies {
        if let Err(why) = add_to_file(path, &table) {
            report.fail(path.as_os_str(), &reason(&why));
        }
    }
    report.summary();
    report.status
}
