//! `sg`: the sequence graph's calls on files. It decides nothing that the library decides: it reads, calls, writes, and
//! says what happened.
mod args;
mod command;
mod dot;
mod gfa;
mod graph;
mod help;
mod json;
mod outcome;
mod report;
mod run;
mod tallies;
mod task;
mod text;
mod whole;
mod words;

use args::{Arguments, Asked, Misused, Output};
use std::ffi::OsString;
use std::io::{self, IsTerminal, Write};
use std::process::ExitCode;

const MISUSED: u8 = 2;

/// Prints a text that was asked for; 3 if it cannot be written.
fn print(text: &str) -> u8 {
    let mut out = io::stdout().lock();
    let Err(why) = out.write_all(text.as_bytes()).and_then(|_| out.flush()) else { return 0 };
    if why.kind() != io::ErrorKind::BrokenPipe {
        let _ = writeln!(io::stderr(), "sg: standard output: {}", outcome::reason(&why));
    }
    3
}

fn tell_misused(misused: &Misused) -> u8 {
    let name = misused.command.map_or(String::new(), |c| format!(" {}", c.name));
    let text = format!("sg: {}\n{}try: sg help{name}\n", misused.why, help::usage(misused.command));
    let _ = io::stderr().write_all(text.as_bytes());
    MISUSED
}

/// A record is bytes, which a terminal would take for commands.
fn is_record_for_terminal(asked: &Asked) -> bool {
    let to_stdout = asked.outputs.contains(&Output::Stdout);
    asked.command.task.makes_record() && asked.output.is_none() && to_stdout && io::stdout().is_terminal()
}

fn main() -> ExitCode {
    let words: Vec<OsString> = std::env::args_os().skip(1).collect();
    let status = match args::read(&words) {
        Err(misused) => tell_misused(&misused),
        Ok(Arguments::Version) => print(concat!("sg ", env!("CARGO_PKG_VERSION"), "\n")),
        Ok(Arguments::Help(None)) => print(&help::overview()),
        Ok(Arguments::Help(Some(command))) => print(&help::of_command(command)),
        Ok(Arguments::Man) => print(&help::manual()),
        Ok(Arguments::Run(asked)) if is_record_for_terminal(&asked) => {
            let why = "a record is not written to a terminal: use -o".into();
            tell_misused(&Misused { why, command: Some(asked.command) })
        }
        Ok(Arguments::Run(asked)) => run::run(&asked),
    };
    ExitCode::from(status)
}
