//! What is said while files are worked on, and behind the last: a line for each refusal, progress, a summary, JSON.
use crate::args::{Asked, Output};
use crate::command::Task;
use crate::json::object;
use crate::outcome::{reason, Fact, Made, Problem, Value, CLOSED};
use crate::words::put_name;
use std::collections::BTreeMap;
use std::ffi::OsStr;
use std::io::{self, IsTerminal, Write};
use std::time::{Duration, Instant};

const BAR: usize = 30;
/// The bar is drawn anew so often.
const STEP: Duration = Duration::from_millis(100);

fn put_input(out: &mut Vec<u8>, name: &OsStr) {
    put_name(out, if name == "-" { OsStr::new("standard input") } else { name });
}

fn put_facts(out: &mut Vec<u8>, facts: &[Fact]) {
    for (i, fact) in facts.iter().enumerate() {
        let (comma, name) = (if i == 0 { "" } else { ", " }, fact.name);
        let text = match &fact.value {
            Value::Number(n) => format!("{comma}{name} {n}"),
            Value::Word(word) => format!("{comma}{name} {word}"),
            Value::Numbers(all) => format!("{comma}{name} {all:?}"),
        };
        out.extend(text.bytes());
    }
}

/// A line of what was accepted.
fn accepted_line(input: &OsStr, facts: &[Fact]) -> Vec<u8> {
    let mut line = Vec::new();
    put_input(&mut line, input);
    line.extend(b": ");
    put_facts(&mut line, facts);
    line.push(b'\n');
    line
}

/// A line of what was not.
fn problem_line(input: &OsStr, problem: &Problem) -> Vec<u8> {
    let mut line = Vec::new();
    let of = match problem {
        Problem::Failed { name: Some(name), .. } => name,
        _ => input,
    };
    put_input(&mut line, of);
    line.extend(b": ");
    match problem {
        Problem::Refused { refusal, facts, detail } => {
            put_facts(&mut line, facts);
            let comma = if facts.is_empty() { "" } else { ", " };
            let detail = detail.as_ref().map(|d| format!(" ({d})")).unwrap_or_default();
            line.extend(format!("{comma}refused {}: {refusal}{detail}", refusal.number()).bytes());
        }
        Problem::Unfit(why) | Problem::Failed { why, .. } => line.extend(why.bytes()),
        Problem::Closed => line.extend(CLOSED.bytes()),
    }
    line.push(b'\n');
    line
}

pub struct Report<'a> {
    asked: &'a Asked,
    began: Instant,
    has_bar: bool,
    is_drawn: bool,
    last_drawn: Option<Instant>,
    /// Standard output takes no more.
    is_closed: bool,
    accepted: usize,
    /// By number; 0 for what this program refused.
    refused: BTreeMap<u32, usize>,
    failed: usize,
    /// The exit status so far.
    pub status: u8,
}

impl Report<'_> {
    pub fn of(asked: &Asked) -> Report<'_> {
        let has_bar = asked.inputs.len() > 1 && !asked.quiet && io::stderr().is_terminal();
        Report {
            asked,
            began: Instant::now(),
            has_bar,
            is_drawn: false,
            last_drawn: None,
            is_closed: false,
            accepted: 0,
            refused: BTreeMap::new(),
            failed: 0,
            status: 0,
        }
    }

    /// Says what became of an input. An error if standard output takes no more.
    pub fn tell(
        &mut self,
        input: &OsStr,
        output: &Output,
        outcome: &Result<Made, Problem>,
    ) -> io::Result<()> {
        self.count(outcome);
        match outcome {
            Err(Problem::Closed) => Ok(()),
            _ if self.asked.json => {
                let facts = outcome.as_ref().map(|made| made.facts.as_slice());
                self.say(object(input, output, facts).as_bytes())
            }
            Err(problem) => self.tell_problem(input, problem),
            Ok(made) => self.tell_accepted(input, made),
        }
    }

    fn count(&mut self, outcome: &Result<Made, Problem>) {
        match outcome {
            Ok(_) => self.accepted += 1,
            Err(Problem::Refused { refusal, .. }) => *self.refused.entry(refusal.number()).or_default() += 1,
            Err(Problem::Unfit(_)) => *self.refused.entry(0).or_default() += 1,
            Err(_) => self.failed += 1,
        }
        self.status = self.status.max(outcome.as_ref().err().map_or(0, Problem::status));
    }

    /// What a report says is what was asked for. Of a record that was made a line is enough, and of many none; a text or
    /// a string speaks for itself.
    fn tell_accepted(&mut self, input: &OsStr, made: &Made) -> io::Result<()> {
        let task = self.asked.command.task;
        if task == Task::Check {
            return self.say(&accepted_line(input, &made.facts));
        }
        if task.is_report() {
            return self.say(&[self.title(input), made.bytes.clone()].concat());
        }
        if task.makes_record() && self.asked.inputs.len() == 1 && !self.asked.quiet {
            self.note(&accepted_line(input, &made.facts));
        }
        Ok(())
    }

    /// In front of what a report has in several lines, if there are several of them.
    fn title(&self, input: &OsStr) -> Vec<u8> {
        let mut line = Vec::new();
        if self.asked.inputs.len() > 1 {
            put_input(&mut line, input);
            line.extend(b":\n");
        }
        line
    }

    fn tell_problem(&mut self, input: &OsStr, problem: &Problem) -> io::Result<()> {
        let line = problem_line(input, problem);
        if self.asked.command.task.is_report() && matches!(problem, Problem::Refused { .. }) {
            return self.say(&line);
        }
        self.note(&[b"sg: ", line.as_slice()].concat());
        Ok(())
    }

    /// A problem that is none of an input.
    pub fn fail(&mut self, name: &OsStr, why: &str) {
        self.status = 3;
        let problem = Problem::Failed { name: None, why: why.into() };
        self.note(&[b"sg: ", problem_line(name, &problem).as_slice()].concat());
    }

    /// Standard output takes no more. That nobody reads on needs no word.
    pub fn fail_to_say(&mut self, why: &io::Error) {
        (self.status, self.is_closed) = (3, true);
        if why.kind() != io::ErrorKind::BrokenPipe {
            self.fail(OsStr::new("standard output"), &reason(why));
        }
    }

    /// To standard output.
    fn say(&mut self, line: &[u8]) -> io::Result<()> {
        self.clear_bar();
        let mut out = io::stdout().lock();
        out.write_all(line)?;
        out.flush()
    }

    /// To standard error; that it is closed is no reason to stop.
    fn note(&mut self, line: &[u8]) {
        self.clear_bar();
        let _ = io::stderr().write_all(line);
    }

    fn clear_bar(&mut self) {
        if std::mem::take(&mut self.is_drawn) {
            let _ = io::stderr().write_all(b"\r\x1b[K");
        }
    }

    /// Draws the bar, if there is a terminal and the last was drawn long enough ago.
    pub fn progress(&mut self, done: usize) {
        if !self.has_bar || self.last_drawn.is_some_and(|at| at.elapsed() < STEP) {
            return;
        }
        let all = self.asked.inputs.len();
        let (full, refused) = (BAR * done / all, self.refused.values().sum::<usize>());
        let bar = "#".repeat(full) + &".".repeat(BAR - full);
        let line = format!("\r\x1b[K[{bar}] {done}/{all}, {refused} refused, {}", self.rate(done));
        let _ = io::stderr().write_all(line.as_bytes());
        (self.is_drawn, self.last_drawn) = (true, Some(Instant::now()));
    }

    fn rate(&self, done: usize) -> String {
        format!("{:.0} regions a second", done as f64 / self.began.elapsed().as_secs_f64().max(1e-9))
    }

    /// Behind the last of many files.
    pub fn summary(&mut self) {
        let (accepted, failed, refused) = (self.accepted, self.failed, self.refused.values().sum::<usize>());
        let all = accepted + refused + failed;
        if all < 2 || self.asked.quiet || self.is_closed {
            return;
        }
        let named = |(number, count): (&u32, &usize)| match number {
            0 => format!("{count} unfit"),
            _ => format!("{count} with {number}"),
        };
        let by_number: Vec<String> = self.refused.iter().map(named).collect();
        let by_number = if refused == 0 { String::new() } else { format!(" ({})", by_number.join(", ")) };
        let counts = format!("{accepted} accepted, {refused} refused{by_number}, {failed} failed");
        let line = format!("{all} files: {counts}; {}\n", self.rate(all));
        self.note(line.as_bytes());
    }
}
