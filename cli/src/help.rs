//! The help and the manual page, both made of the texts of `command`.
use crate::command::{shared_options, Command, OptionText, COMMANDS};
use crate::text::line;
use seq_graph::Refusal;
use std::fmt::Write;

const WIDTH: usize = 78;

const WHAT: &str = "Simplifies and cleans sequence graphs, in records of the forms SGR1 and SGR2, by a library that is proved: \
                    every record gets its right result, or one refusal number.";

/// What holds for all commands, under its headings.
const GENERAL: [(&str, &str); 4] = [
    (
        "Files",
        "A FILE named - is standard input. What is made of one FILE goes to standard output, or to the file that -o names; \
         what is made of many goes into the folder that -d names, which is made if it is not there, on all cores. There a \
         record keeps its name; what is made of another kind has .sgr, .txt, .gfa, .dot, .seq or .fa in place of .sgr, .txt, \
         .text or .gfa, and else behind its name. Behind -- all arguments are files.\n\n\
         An output appears whole or not at all: it is written without a name, synced, and then named. One that is there is \
         not overwritten without --force; a run that is killed while it overwrites may leave one whole file beside, .sg- and \
         numbers. A file that cannot be read or written is told with its name, and does not stop the others. A record is not \
         written to a terminal, unless -o - says so.",
    ),
    (
        "What is said",
        "A line on standard error for each FILE that was refused, with the number of the refusal and its cause (of `check`, \
         whose answer it is, on standard output); of many files also how far the work is, if standard error is a terminal, \
         and a summary. README.md says for each number what to do.\n\n\
         With --json there is an object for each FILE instead, in a line of standard output, in the order of the arguments. It \
         has file and result: accepted, refused or failed. If accepted, also output and what the command tells, by the same \
         names as in its lines. If refused, number (null where it is not the library that refuses) and cause, and detail, if \
         more is known. If failed, failed_file, which may be the output, and cause. A name that is not in UTF-8 has U+FFFD for \
         what is not, and stands beside in hex: file_hex, output_hex, failed_file_hex.",
    ),
    (
        "Tallies",
        "The library counts calls by their callers, 0 to 15. --caller says who calls, and --tallies where the counts are kept, \
         from run to run; `sg caller` shows them.",
    ),
    (
        "Exit status",
        "0 if all was accepted, 1 if something was refused, 2 if the arguments are wrong, 3 if a file could not be read or \
         written, whatever else was refused, or if nobody reads standard output any more.",
    ),
];

/// From a text to a cleaned graph, and a folder of them at once.
const EXAMPLES: [&str; 5] = [
    "sg make region.txt -o region.sgr",
    "sg simplify region.sgr -o simplified.sgr",
    "sg cleanup simplified.sgr -o cleaned.sgr",
    "sg show cleaned.sgr",
    "sg cleanup --json -d cleaned *.sgr >cleaned.jsonl",
];

/// The paragraph in lines of at most so many characters: the first behind `head`, the others behind `margin`, which is as
/// long.
fn put_filled_behind(out: &mut String, head: &str, margin: &str, text: &str) {
    let mut line = String::from(head);
    for word in text.split_whitespace() {
        if line.len() > margin.len() && line.len() + 1 + word.len() > WIDTH {
            line!(out, "{line}");
            line = String::from(margin);
        }
        if line.len() > margin.len() {
            line.push(' ');
        }
        line.push_str(word);
    }
    line!(out, "{line}");
}

fn put_filled(out: &mut String, margin: &str, text: &str) {
    put_filled_behind(out, margin, margin, text);
}

/// Paragraphs behind a margin. One that begins with blanks stays as it is.
fn put_paragraphs(out: &mut String, margin: &str, text: &str) {
    for (i, paragraph) in text.split("\n\n").enumerate() {
        if i > 0 {
            out.push('\n');
        }
        if paragraph.starts_with(' ') {
            line!(out, "{paragraph}");
        } else {
            put_filled(out, margin, paragraph);
        }
    }
}

fn option_head(option: &OptionText) -> String {
    let short = option.short.map_or("    ".into(), |c| format!("-{c}, "));
    format!("{short}--{}{}", option.long, option.value.map_or(String::new(), |v| format!(" {v}")))
}

pub fn usage(command: Option<&Command>) -> String {
    match command {
        Some(command) => format!("usage: sg {} [options] FILE..\n", command.name),
        None => "usage: sg COMMAND [options] FILE..\n".into(),
    }
}

/// Of all commands.
pub fn overview() -> String {
    let mut out = usage(None) + "       sg help COMMAND, sg help --man, sg --version\n\n";
    put_filled(&mut out, "", WHAT);
    out.push_str("\nCommands\n\n");
    for command in &COMMANDS {
        put_filled_behind(&mut out, &format!("  {:<16}", command.name), &" ".repeat(18), command.says);
    }
    for (heading, text) in GENERAL {
        line!(out, "\n{heading}\n");
        put_paragraphs(&mut out, "  ", text);
    }
    line!(out, "\nExamples\n\n  {}\n\nRefusals\n", EXAMPLES.join("\n  "));
    for refusal in Refusal::all() {
        put_filled_behind(&mut out, &format!("  {:>2}  ", refusal.number()), "      ", &refusal.to_string());
    }
    out
}

/// Of one.
pub fn of_command(command: &Command) -> String {
    let mut out = format!("sg {}: {}\n\n{}\n", command.name, command.says, usage(Some(command)));
    put_paragraphs(&mut out, "", command.text);
    out.push_str("\nOptions\n\n");
    for option in command.options() {
        put_filled_behind(&mut out, &format!("  {:<26}", option_head(option)), &" ".repeat(28), option.says);
    }
    line!(out, "\nExample\n\n  {}\n\n`sg help` says what holds for all commands.", command.example);
    out
}

/// Text of the manual page: what its language would take for its own is escaped.
fn roff(text: &str) -> String {
    let escaped = text.replace('\\', "\\e").replace('-', "\\-").replace('`', "");
    let guarded =
        escaped.split('\n').map(|l| if l.starts_with(['.', '\'']) { format!("\\&{l}") } else { l.into() });
    guarded.collect::<Vec<String>>().join("\n")
}

fn put_roff_paragraphs(out: &mut String, text: &str) {
    for (i, paragraph) in text.split("\n\n").enumerate() {
        if i > 0 {
            line!(out, ".PP");
        }
        if paragraph.starts_with(' ') {
            line!(out, ".nf\n{}\n.fi", roff(paragraph));
        } else {
            let mut lines = String::new();
            put_filled(&mut lines, "", paragraph);
            out.push_str(&roff(&lines));
        }
    }
}

fn put_roff_options(out: &mut String, options: impl Iterator<Item = &'static OptionText>) {
    for option in options {
        line!(out, ".TP\n.B {}\n{}", roff(option_head(option).trim_start()), roff(option.says));
    }
}

fn put_roff_command(out: &mut String, command: &Command) {
    line!(out, ".SS {}", roff(command.name));
    line!(out, ".B sg {}\n[options] FILE..\n.PP", roff(command.name));
    put_roff_paragraphs(out, command.text);
    put_roff_options(out, command.own_options());
    line!(out, ".PP\nExample:\n.PP\n.nf\n    {}\n.fi", roff(command.example));
}

/// The manual page sg(1).
pub fn manual() -> String {
    let mut out = String::from(".\\\" written by sg help --man\n");
    line!(out, ".TH SG 1 \"\" \"sg {}\"\n.SH NAME", env!("CARGO_PKG_VERSION"));
    line!(out, "sg \\- simplify, clean up and show sequence graphs\n.SH SYNOPSIS");
    line!(out, ".B sg\nCOMMAND [options] FILE..\n.br\n.B sg help\n[COMMAND]\n.SH DESCRIPTION");
    put_roff_paragraphs(&mut out, WHAT);
    line!(out, ".SH COMMANDS");
    for command in &COMMANDS {
        put_roff_command(&mut out, command);
    }
    line!(out, ".SH SHARED OPTIONS\n.B check\nand\n.B caller\nmake no file, and take only \\-j, \\-\\-json, \\-q and \\-h.");
    put_roff_options(&mut out, shared_options());
    for (heading, text) in GENERAL {
        line!(out, ".SH {}", heading.to_uppercase());
        put_roff_paragraphs(&mut out, text);
    }
    line!(out, ".SH EXAMPLES\n.nf\n    {}\n.fi\n.SH REFUSALS", roff(&EXAMPLES.join("\n    ")));
    for refusal in Refusal::all() {
        line!(out, ".TP\n.B {}\n{}", refusal.number(), roff(&refusal.to_string()));
    }
    out
}

#[cfg(test)]
mod tests {
    use super::{manual, of_command, overview};
    use crate::command::COMMANDS;

    #[test]
    fn lines_fit_a_terminal() {
        let mut texts: Vec<String> = COMMANDS.iter().map(of_command).collect();
        texts.push(overview());
        for line in texts.iter().flat_map(|t| t.lines()) {
            assert!(line.chars().count() <= 80, "{line}");
        }
    }

    #[test]
    fn every_command_is_in_both() {
        for command in &COMMANDS {
            assert!(overview().contains(&format!("  {} ", command.name)), "{}", command.name);
            assert!(
                manual().contains(&format!(".SS {}\n", command.name.replace('-', "\\-"))),
                "{}",
                command.name
            );
            assert!(of_command(command).contains(command.example));
        }
    }
}
