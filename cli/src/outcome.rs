//! What became of an input.
use seq_graph::Refusal;
use std::ffi::OsString;
use std::io;

/// Something that is said of an input or of what was made of it, by its name.
#[derive(Debug, Clone, PartialEq, Eq)]
pub struct Fact {
    pub name: &'static str,
    pub value: Value,
}

#[derive(Debug, Clone, PartialEq, Eq)]
pub enum Value {
    Number(u64),
    Word(&'static str),
    Numbers(Vec<u32>),
}

pub fn number(name: &'static str, n: usize) -> Fact {
    Fact { name, value: Value::Number(n as u64) }
}

pub fn word(name: &'static str, word: &'static str) -> Fact {
    Fact { name, value: Value::Word(word) }
}

pub struct Made {
    pub bytes: Vec<u8>,
    pub facts: Vec<Fact>,
}

#[derive(Debug, PartialEq, Eq)]
pub enum Problem {
    /// By the library, with what can be said of the file all the same, and what is wrong with it.
    Refused { refusal: Refusal, facts: Vec<Fact>, detail: Option<String> },
    /// By this program: a text that cannot be read, or a graph that cannot be shown.
    Unfit(String),
    /// Of this file, or else of the input, the system says this.
    Failed { name: Option<OsString>, why: String },
    /// Nobody reads standard output any more.
    Closed,
}

impl From<Refusal> for Problem {
    /// Without a number it is none of the record: the call was not made, or its answer is not known.
    fn from(refusal: Refusal) -> Problem {
        match refusal.number() {
            0 => Problem::Failed { name: None, why: refusal.to_string() },
            _ => Problem::Refused { refusal, facts: Vec::new(), detail: None },
        }
    }
}

/// What is wrong when nobody reads on.
pub const CLOSED: &str = "nobody reads standard output any more";

/// The system's words without its number.
pub fn reason(why: &io::Error) -> String {
    let text = why.to_string();
    match text.split_once(" (os error") {
        Some((words, _)) => words.into(),
        None => text,
    }
}

impl Problem {
    pub fn of_stdout(why: &io::Error) -> Problem {
        match why.kind() {
            io::ErrorKind::BrokenPipe => Problem::Closed,
            _ => Problem::Failed { name: Some("standard output".into()), why: reason(why) },
        }
    }

    pub fn of_file(name: OsString, why: &io::Error) -> Problem {
        Problem::Failed { name: Some(name), why: reason(why) }
    }

    pub fn taken(name: OsString) -> Problem {
        Problem::Failed { name: Some(name), why: "it is there already; --force overwrites it".into() }
    }

    /// The exit status that it asks for.
    pub fn status(&self) -> u8 {
        match self {
            Problem::Refused { .. } | Problem::Unfit(_) => 1,
            Problem::Failed { .. } | Problem::Closed => 3,
        }
    }
}
