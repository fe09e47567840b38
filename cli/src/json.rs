//! What became of an input, as a JSON object in one line.
use crate::args::Output;
use crate::outcome::{Fact, Problem, Value, CLOSED};
use std::ffi::OsStr;
use std::fmt::Write;
use std::os::unix::ffi::OsStrExt;

fn put_string(out: &mut String, text: &str) {
    out.push('"');
    for c in text.chars() {
        match c {
            '"' | '\\' => out.extend(['\\', c]),
            c if c < ' ' || c == '\u{7f}' => drop(write!(out, "\\u{:04x}", c as u32)),
            c => out.push(c),
        }
    }
    out.push('"');
}

/// An object that is being written.
struct Object(String);

impl Object {
    fn name(&mut self, name: &str) {
        self.0.push(if self.0.is_empty() { '{' } else { ',' });
        put_string(&mut self.0, name);
        self.0.push(':');
    }

    fn text(&mut self, name: &str, text: &str) {
        self.name(name);
        put_string(&mut self.0, text);
    }

    fn plain(&mut self, name: &str, value: impl std::fmt::Display) {
        self.name(name);
        let _ = write!(self.0, "{value}");
    }

    /// JSON has no way to write bytes that are no text: such a name has its bytes in hex beside it.
    fn file(&mut self, name: &str, file: &OsStr) {
        self.text(name, &file.to_string_lossy());
        if file.to_str().is_none() {
            let hex: String = file.as_bytes().iter().map(|b| format!("{b:02x}")).collect();
            self.text(&format!("{name}_hex"), &hex);
        }
    }

    fn facts(&mut self, facts: &[Fact]) {
        for fact in facts {
            match &fact.value {
                Value::Number(n) => self.plain(fact.name, n),
                Value::Word(word) => self.text(fact.name, word),
                Value::Numbers(all) => self.plain(fact.name, format_args!("{all:?}")),
            }
        }
    }
}

pub fn object(input: &OsStr, output: &Output, outcome: Result<&[Fact], &Problem>) -> String {
    let mut object = Object(String::new());
    object.file("file", input);
    match outcome {
        Ok(facts) => {
            object.text("result", "accepted");
            if let Output::File(path) = output {
                object.file("output", path.as_os_str());
            }
            object.facts(facts);
        }
        Err(Problem::Refused { refusal, facts, detail }) => {
            object.text("result", "refused");
            object.plain("number", refusal.number());
            object.text("cause", &refusal.to_string());
            if let Some(detail) = detail {
                object.text("detail", detail);
            }
            object.facts(facts);
        }
        Err(Problem::Unfit(why)) => {
            object.text("result", "refused");
            object.plain("number", "null");
            object.text("cause", why);
        }
        Err(Problem::Failed { name, why }) => {
            object.text("result", "failed");
            object.file("failed_file", name.as_deref().unwrap_or(input));
            object.text("cause", why);
        }
        Err(Problem::Closed) => {
            object.text("result", "failed");
            object.text("cause", CLOSED);
        }
    }
    object.0 + "}\n"
}

#[cfg(test)]
mod tests {
    use super::object;
    use crate::args::Output;
    use crate::outcome::{number, Fact, Problem, Value};
    use seq_graph::Refusal;
    use std::ffi::OsStr;
    use std::os::unix::ffi::OsStrExt;

    #[test]
    fn strings_are_escaped() {
        let facts = [number("n", 3), Fact { name: "all", value: Value::Numbers(vec![1, 2]) }];
        let line = object(OsStr::new("a \"b\"\\\n\u{e9}"), &Output::Report, Ok(&facts));
        let due =
            "{\"file\":\"a \\\"b\\\"\\\\\\u000a\u{e9}\",\"result\":\"accepted\",\"n\":3,\"all\":[1, 2]}\n";
        assert_eq!(line, due);
    }

    #[test]
    fn names_that_are_no_text() {
        let line = object(OsStr::from_bytes(b"\xff"), &Output::Report, Err(&Problem::from(Refusal::Cycle)));
        assert!(
            line.starts_with(
                "{\"file\":\"\u{fffd}\",\"file_hex\":\"ff\",\"result\":\"refused\",\"number\":7,"
            ),
            "{line}"
        );
    }
}
