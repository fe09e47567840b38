//! The arguments read: a subcommand, its options, its files.
use crate::command::{Command, Opt, OptionText, Task};
use crate::whole::folder_of;
use crate::words::{number_of, shown_name};
use seq_graph::Form;
use std::collections::{HashSet, VecDeque};
use std::ffi::{OsStr, OsString};
use std::fs::canonicalize;
use std::num::NonZeroUsize;
use std::os::unix::ffi::{OsStrExt, OsStringExt};
use std::path::{Path, PathBuf};
use std::thread::available_parallelism;

const MOST_JOBS: u32 = 1024;
/// The suffixes of records, of their text forms, and of GFA.
const INPUT_SUFFIXES: [&str; 4] = ["sgr", "txt", "text", "gfa"];

pub struct Asked {
    pub command: &'static Command,
    pub inputs: Vec<OsString>,
    /// Where what is made of each input goes, in their order.
    pub outputs: Vec<Output>,
    pub output: Option<OsString>,
    pub folder: Option<PathBuf>,
    pub jobs: usize,
    pub force: bool,
    pub json: bool,
    pub quiet: bool,
    pub caller: u32,
    pub tallies: Option<PathBuf>,
    pub vertices: Vec<u32>,
    pub vertex: Option<u32>,
    pub fasta: bool,
    pub form: Option<Form>,
    pub unchecked: bool,
    pub k: Option<u16>,
    pub support: Option<u32>,
}

/// Where what is made of an input goes.
#[derive(Debug, Clone, PartialEq, Eq)]
pub enum Output {
    /// Nothing is made: what is to be said goes to standard output.
    Report,
    Stdout,
    File(PathBuf),
}

pub enum Arguments {
    Run(Box<Asked>),
    /// Of all commands, or of one.
    Help(Option<&'static Command>),
    Man,
    Version,
}

/// What is wrong with the arguments, and the command whose help says more.
pub struct Misused {
    pub why: String,
    pub command: Option<&'static Command>,
}

/// Several for each core: a file that waits for the disk to sync it leaves the core to others, and the disk syncs several
/// at once. Where there are many cores one for each is enough, and the stacks take less memory.
fn default_jobs() -> usize {
    let cores = available_parallelism().map_or(1, NonZeroUsize::get);
    (4 * cores).min(32).max(cores)
}

fn of_all(why: String) -> Misused {
    Misused { why, command: None }
}

/// Reads the arguments behind the program's name.
pub fn read(words: &[OsString]) -> Result<Arguments, Misused> {
    let Some((first, rest)) = words.split_first() else {
        return Err(of_all("no command".into()));
    };
    match (first.to_str(), rest) {
        (Some("help" | "-h" | "--help"), rest) => help(rest),
        (Some("-V" | "--version" | "version"), []) => Ok(Arguments::Version),
        (name, rest) => {
            let command = name.and_then(Command::named);
            let command = command.ok_or_else(|| of_all(format!("no command {}", shown_name(first))))?;
            Asked::read(command, rest).map_err(|why| Misused { why, command: Some(command) })
        }
    }
}

fn help(words: &[OsString]) -> Result<Arguments, Misused> {
    match words {
        [] => Ok(Arguments::Help(None)),
        [word] if word == "help" => Ok(Arguments::Help(None)),
        [word] if word == "--man" => Ok(Arguments::Man),
        [word] => {
            let command = word.to_str().and_then(Command::named);
            let command = command.ok_or_else(|| of_all(format!("no command {}", shown_name(word))))?;
            Ok(Arguments::Help(Some(command)))
        }
        _ => Err(of_all("help takes one command".into())),
    }
}

/// An option of the command, as it stands in an argument, and the value that stands there with it.
struct Found<'a> {
    option: &'static OptionText,
    value: Option<&'a [u8]>,
}

/// The first of several options in one argument, as in -qf, and an argument with the others. The first takes no value.
fn first_of_several(command: &Command, word: &OsStr) -> Option<[OsString; 2]> {
    let &[b'-', first, ref others @ ..] = word.as_bytes() else { return None };
    let is_flag = |text: &&OptionText| text.short == Some(first.into()) && text.value.is_none();
    if others.is_empty() || command.options().find(is_flag).is_none() {
        return None;
    }
    let argument = |letters: &[u8]| OsString::from_vec([b"-", letters].concat());
    Some([argument(&[first]), argument(others)])
}

/// The option that this argument is; none if it is a file.
fn option_in<'a>(command: &Command, word: &'a OsStr) -> Result<Option<Found<'a>>, String> {
    let bytes = word.as_bytes();
    let (name, value) = match bytes {
        [b'-', b'-', long @ ..] => match long.iter().position(|&b| b == b'=') {
            Some(at) => (&long[..at], Some(&long[at + 1..])),
            None => (long, None),
        },
        [b'-', short, value @ ..] => (std::slice::from_ref(short), Some(value).filter(|v| !v.is_empty())),
        _ => return Ok(None),
    };
    let is_long = bytes.starts_with(b"--");
    let is = |text: &OptionText| {
        let short = text.short.map(|c| c as u8);
        if is_long {
            text.long.as_bytes() == name
        } else {
            short == Some(name[0])
        }
    };
    let unknown = || format!("no option {} of {}", shown_name(word), command.name);
    let option = command.options().find(|text| is(text)).ok_or_else(unknown)?;
    if option.value.is_none() && value.is_some() {
        return Err(format!("--{} takes no value", option.long));
    }
    Ok(Some(Found { option, value }))
}

/// The option's value: what stands with it, or else the next argument; empty if it takes none.
fn value_of(found: &Found, words: &mut VecDeque<OsString>) -> Result<Vec<u8>, String> {
    match (found.option.value, found.value) {
        (Some(_), None) => {
            let next = words.pop_front().map(OsString::into_vec);
            next.ok_or_else(|| format!("--{} lacks its value", found.option.long))
        }
        (_, value) => Ok(value.unwrap_or(b"").to_vec()),
    }
}

fn number(option: &OptionText, value: &[u8], most: u32) -> Result<u32, String> {
    number_of(value, most).map_err(|why| format!("--{}: {why}", option.long))
}

fn form(value: &[u8]) -> Result<Form, String> {
    match value {
        b"sgr1" | b"SGR1" => Ok(Form::Sgr1),
        b"sgr2" | b"SGR2" => Ok(Form::Sgr2),
        _ => Err("--form is sgr1 or sgr2".into()),
    }
}

impl Asked {
    fn new(command: &'static Command) -> Asked {
        Asked {
            command,
            inputs: Vec::new(),
            outputs: Vec::new(),
            output: None,
            folder: None,
            jobs: default_jobs(),
            force: false,
            json: false,
            quiet: false,
            caller: 0,
            tallies: None,
            vertices: Vec::new(),
            vertex: None,
            fasta: false,
            form: None,
            unchecked: false,
            k: None,
            support: None,
        }
    }

    fn read(command: &'static Command, words: &[OsString]) -> Result<Arguments, String> {
        let (mut asked, mut words) = (Asked::new(command), VecDeque::from(words.to_vec()));
        while let Some(mut word) = words.pop_front() {
            if word == "--" {
                asked.inputs.extend(words);
                break;
            }
            if let Some([first, others]) = first_of_several(command, &word) {
                words.push_front(others);
                word = first;
            }
            match option_in(command, &word)? {
                None => asked.inputs.push(word),
                Some(found) if found.option.opt == Opt::Help => return Ok(Arguments::Help(Some(command))),
                Some(found) => asked.take(found.option, &value_of(&found, &mut words)?)?,
            }
        }
        asked.outputs = asked.inputs.iter().map(|i| asked.output_of(i)).collect();
        asked.complete()?;
        Ok(Arguments::Run(Box::new(asked)))
    }

    fn take(&mut self, option: &'static OptionText, value: &[u8]) -> Result<(), String> {
        let path = || OsString::from_vec(value.to_vec());
        if option.value.is_some() && value.is_empty() {
            return Err(format!("--{} lacks its value", option.long));
        }
        match option.opt {
            Opt::Output => self.output = Some(path()),
            Opt::Folder => self.folder = Some(path().into()),
            Opt::Jobs => self.jobs = number(option, value, MOST_JOBS)?.max(1) as usize,
            Opt::Force => self.force = true,
            Opt::Caller => self.caller = number(option, value, u32::MAX)?,
            Opt::Tallies => self.tallies = Some(path().into()),
            Opt::Vertices => {
                let numbers = value.split(|&b| b == b',').map(|v| number(option, v, u32::MAX));
                self.vertices = numbers.collect::<Result<_, _>>()?;
            }
            Opt::Vertex => self.vertex = Some(number(option, value, u32::MAX)?),
            Opt::Fasta => self.fasta = true,
            Opt::Form => self.form = Some(form(value)?),
            Opt::Unchecked => self.unchecked = true,
            Opt::K => self.k = Some(number(option, value, u16::MAX.into())? as u16),
            Opt::Support => self.support = Some(number(option, value, u32::MAX)?),
            Opt::Json => self.json = true,
            Opt::Quiet => self.quiet = true,
            Opt::Help => {}
        }
        Ok(())
    }

    /// That nothing is missing, and that no two of the arguments want different things.
    fn complete(&self) -> Result<(), String> {
        let (task, many) = (self.command.task, self.inputs.len() > 1);
        let to_stdout = self.folder.is_none() && self.output.as_deref().is_none_or(|o| o == "-");
        let wrong = [
            (self.inputs.is_empty(), "no file; - is standard input"),
            (self.inputs.iter().any(|i| i.is_empty()), "a file without a name"),
            (self.tallies.as_deref() == Some(Path::new("-")), "tallies are kept in a file"),
            (self.inputs.iter().filter(|i| *i == "-").count() > 1, "standard input can be read only once"),
            (self.output.is_some() && self.folder.is_some(), "either -o or -d"),
            (many && self.output.is_some(), "-o takes one file; -d takes many"),
            (
                many && self.folder.is_none() && !task.is_report(),
                "many files need -d, a folder for what is made",
            ),
            (
                self.folder.is_some() && self.inputs.iter().any(|i| i == "-"),
                "standard input has no name in a folder",
            ),
            (
                self.json && !task.is_report() && to_stdout,
                "--json needs -o or -d: it has standard output for itself",
            ),
            (task == Task::Path && self.vertices.is_empty(), "--vertices is missing"),
            (task == Task::Sequence && self.vertex.is_none(), "--vertex is missing"),
        ];
        match wrong.iter().find(|(is, _)| *is) {
            Some((_, why)) => Err(why.to_string()),
            None => self.require_places(),
        }
    }

    /// That no two outputs, and no output and the tallies, go to the same place.
    fn require_places(&self) -> Result<(), String> {
        let mut taken: HashSet<PathBuf> = self.tallies.iter().map(|path| place(path)).collect();
        for output in &self.outputs {
            if let Output::File(path) = output {
                if !taken.insert(place(path)) {
                    return Err(format!("two files would be written to {}", shown_name(path)));
                }
            }
        }
        Ok(())
    }

    fn output_of(&self, input: &OsStr) -> Output {
        if self.command.task.is_report() {
            return Output::Report;
        }
        match (&self.folder, self.output.as_deref()) {
            (Some(folder), _) => {
                // what has no name is no file, and is told when it is read
                let name = Path::new(input).file_name().unwrap_or(input);
                let suffix = self.command.task.suffix(self.fasta);
                Output::File(folder.join(suffix.map_or(name.into(), |suffix| with_suffix(name, suffix))))
            }
            (None, Some(file)) if file != "-" => Output::File(file.into()),
            _ => Output::Stdout,
        }
    }
}

/// The name with this suffix in place of one that inputs have, or else behind it.
fn with_suffix(name: &OsStr, suffix: &str) -> OsString {
    let mut path = PathBuf::from(name);
    if path.extension().is_some_and(|found| INPUT_SUFFIXES.iter().any(|known| found == *known)) {
        path.set_extension(suffix);
        return path.into();
    }
    [name, OsStr::new("."), OsStr::new(suffix)].into_iter().collect()
}

/// Where a file is written: what a link leads to, if it is one.
fn place(path: &Path) -> PathBuf {
    if path.is_symlink() {
        return canonicalize(path).unwrap_or_else(|_| path.into());
    }
    let folder = canonicalize(folder_of(path)).unwrap_or_else(|_| folder_of(path).into());
    folder.join(path.file_name().unwrap_or_default())
}

#[cfg(test)]
mod tests {
    use super::{read, Arguments, Asked, Output};
    use crate::command::COMMANDS;
    use std::ffi::OsString;
    use std::os::unix::ffi::OsStringExt;

    fn asked(line: &[&str]) -> Result<Box<Asked>, String> {
        let words: Vec<OsString> = line.iter().map(OsString::from).collect();
        match read(&words) {
            Ok(Arguments::Run(asked)) => Ok(asked),
            Ok(_) => Err("no run".into()),
            Err(misused) => Err(misused.why),
        }
    }

    fn outputs(line: &[&str]) -> Vec<Output> {
        asked(line).unwrap_or_else(|why| panic!("{why}")).outputs
    }

    /// The examples of the help are good arguments: up to a pipe or what the shell takes.
    #[test]
    fn every_example_is_understood() {
        for command in &COMMANDS {
            let line = command.example.split(['|', '>']).next().unwrap();
            let words: Vec<&str> = line.split_whitespace().skip(1).collect();
            assert!(asked(&words).is_ok(), "{}", command.example);
        }
    }

    #[test]
    fn options_in_every_way() {
        for line in [
            &["simplify", "a", "-j", "3", "-d", "out"][..],
            &["simplify", "-j3", "-dout", "a"],
            &["simplify", "--jobs=3", "--directory", "out", "--", "a"],
            &["simplify", "--jobs", "3", "a", "--directory=out"],
            &["simplify", "-qfj3", "a", "-fqd", "out"],
        ] {
            let asked = asked(line).unwrap_or_else(|why| panic!("{why}"));
            assert_eq!((asked.jobs, asked.inputs.len()), (3, 1), "{line:?}");
            assert_eq!(asked.outputs, [Output::File("out/a".into())]);
        }
        let flags = asked(&["simplify", "-fq", "a"]).unwrap_or_else(|why| panic!("{why}"));
        assert_eq!((flags.force, flags.quiet, flags.json), (true, true, false));
        assert_eq!(asked(&["text", "--", "-x"]).unwrap_or_else(|why| panic!("{why}")).inputs, ["-x"]);
        assert_eq!(
            asked(&["path", "-p", "0,1,3", "-"]).unwrap_or_else(|why| panic!("{why}")).vertices,
            [0, 1, 3]
        );
    }

    #[test]
    fn where_outputs_go() {
        assert_eq!(outputs(&["check", "a", "b"]), [Output::Report, Output::Report]);
        assert_eq!(outputs(&["text", "a"]), [Output::Stdout]);
        assert_eq!(outputs(&["text", "a", "-o", "-"]), [Output::Stdout]);
        assert_eq!(outputs(&["text", "a", "-o", "b"]), [Output::File("b".into())]);
        assert_eq!(outputs(&["gfa", "-d", "o", "x/a.b.sgr"]), [Output::File("o/a.b.gfa".into())]);
        let texts = outputs(&["text", "-d", "o", "a.1000", "a.2000", "b"]);
        assert_eq!(texts, ["o/a.1000.txt", "o/a.2000.txt", "o/b.txt"].map(|path| Output::File(path.into())));
        assert_eq!(outputs(&["make", "-d", "o", "a.text"]), [Output::File("o/a.sgr".into())]);
        assert_eq!(outputs(&["reference", "--fasta", "-d", "o", "a.sgr"]), [Output::File("o/a.fa".into())]);
        let name = OsString::from_vec(b"caf\xe9 1.sgr".to_vec());
        let words = [OsString::from("simplify"), "-d".into(), "o".into(), name.clone()];
        let Ok(Arguments::Run(asked)) = read(&words) else { panic!() };
        assert_eq!(asked.outputs, [Output::File(std::path::Path::new("o").join(name))]);
    }

    #[test]
    fn wrong_arguments() {
        for line in [
            &[][..],
            &["simplify"],
            &["simplified", "a"],
            &["simplify", "a", "b"],
            &["simplify", "a", "b", "-o", "c"],
            &["simplify", "a", "-o", "c", "-d", "d"],
            &["simplify", "-", "-", "-d", "d"],
            &["simplify", "-", "-d", "d"],
            &["simplify", "--json", "a"],
            &["simplify", "--json", "a", "-o", "-"],
            &["simplify", "x/a", "y/a", "-d", "d"],
            &["gfa", "a.sgr", "a.txt", "-d", "d"],
            &["simplify", "a", "-o", "t", "-t", "t"],
            &["simplify", "a", "-o", "t", "-t", "./t"],
            &["simplify", "a", "-t", "-"],
            &["simplify", "a", "-d", ""],
            &["simplify", "a", "-o", ""],
            &["simplify", "a", "--output="],
            &["simplify", ""],
            &["simplify", "a", "-j", "x"],
            &["simplify", "a", "-j"],
            &["simplify", "a", "-x"],
            &["simplify", "a", "-qx"],
            &["simplify", "a", "-q="],
            &["simplify", "a", "--force=1"],
            &["simplify", "a", "--form", "sgr1"],
            &["make", "a", "--form", "sgr3"],
            &["check", "a", "-o", "b"],
            &["path", "a"],
            &["path", "a", "--vertices", "0,,1"],
            &["sequence", "a"],
            &["sequence", "a", "--vertex", "-1"],
            &["help", "simplified"],
            &["help", "text", "gfa"],
        ] {
            assert!(asked(line).err().is_some_and(|why| why != "no run"), "{line:?}");
        }
    }
}
