//! The subcommands and their options: what the program reads its arguments by, and what its help and its manual page
//! are made of.

#[derive(Debug, Clone, Copy, PartialEq, Eq)]
pub enum Task {
    Check,
    Convert,
    Simplify,
    Cleanup,
    CleanNonRef,
    Reference,
    Path,
    Sequence,
    Show,
    Text,
    Make,
    Gfa,
    FromGfa,
    Dot,
    Caller,
}

impl Task {
    /// Whether it says something of each file on standard output, and makes no file.
    pub fn is_report(self) -> bool {
        matches!(self, Task::Check | Task::Caller)
    }

    /// Whether what it makes is a record: bytes that are not for a terminal.
    pub fn makes_record(self) -> bool {
        let of_record = matches!(self, Task::Convert | Task::Simplify | Task::Cleanup | Task::CleanNonRef);
        of_record || matches!(self, Task::Make | Task::FromGfa)
    }

    /// What is made of a file in a folder of outputs ends so; none if it keeps the name.
    pub fn suffix(self, fasta: bool) -> Option<&'static str> {
        match self {
            Task::Make | Task::FromGfa => Some("sgr"),
            Task::Reference | Task::Path | Task::Sequence => Some(if fasta { "fa" } else { "seq" }),
            Task::Show | Task::Text => Some("txt"),
            Task::Gfa => Some("gfa"),
            Task::Dot => Some("dot"),
            _ => None,
        }
    }
}

#[derive(Debug, Clone, Copy, PartialEq, Eq)]
pub enum Opt {
    Output,
    Folder,
    Jobs,
    Force,
    Caller,
    Tallies,
    Vertices,
    Vertex,
    Fasta,
    Form,
    Unchecked,
    K,
    Support,
    Json,
    Quiet,
    Help,
}

pub struct OptionText {
    pub opt: Opt,
    pub short: Option<char>,
    pub long: &'static str,
    /// What its value is; none if it takes none.
    pub value: Option<&'static str>,
    pub says: &'static str,
}

const fn option(
    opt: Opt,
    short: Option<char>,
    long: &'static str,
    value: Option<&'static str>,
    says: &'static str,
) -> OptionText {
    OptionText { opt, short, long, value, says }
}

pub const OPTIONS: [OptionText; 16] = [
    option(
        Opt::Output,
        Some('o'),
        "output",
        Some("FILE"),
        "write to FILE; - is standard output, as without -o",
    ),
    option(
        Opt::Folder,
        Some('d'),
        "directory",
        Some("DIR"),
        "write an output for each FILE into DIR, by its name",
    ),
    option(
        Opt::Jobs,
        Some('j'),
        "jobs",
        Some("N"),
        "work on N files at a time, at least 1; enough for all cores if left out",
    ),
    option(Opt::Force, Some('f'), "force", None, "overwrite outputs that are there"),
    option(Opt::Caller, Some('c'), "caller", Some("N"), "make the calls as caller N, 0 to 15; 0 if left out"),
    option(
        Opt::Tallies,
        Some('t'),
        "tallies",
        Some("FILE"),
        "add what was counted to the tallies in FILE, 192 bytes",
    ),
    option(
        Opt::Vertices,
        Some('p'),
        "vertices",
        Some("V,V,.."),
        "the path: its vertices in order, by their numbers",
    ),
    option(Opt::Vertex, Some('n'), "vertex", Some("V"), "the vertex, by its number"),
    option(Opt::Fasta, None, "fasta", None, "write FASTA, named like the file, in lines of 60"),
    option(Opt::Form, None, "form", Some("FORM"), "write sgr1 or sgr2, whatever the input says"),
    option(Opt::Unchecked, None, "unchecked", None, "write the record even if the library refuses it"),
    option(Opt::K, Some('k'), "kmer-size", Some("K"), "the k-mer size, whatever the input says"),
    option(Opt::Support, None, "support", Some("N"), "the support of links without a tag RC"),
    option(
        Opt::Json,
        None,
        "json",
        None,
        "say what became of each FILE as a JSON object, in a line of standard output",
    ),
    option(
        Opt::Quiet,
        Some('q'),
        "quiet",
        None,
        "no progress, no summary, and no line for a record that was made",
    ),
    option(Opt::Help, Some('h'), "help", None, "say how the command is used"),
];

pub struct Command {
    pub task: Task,
    pub name: &'static str,
    /// A line of `sg help`.
    pub says: &'static str,
    /// Paragraphs.
    pub text: &'static str,
    pub example: &'static str,
    /// Its own options, in front of those that all have.
    own: &'static [Opt],
}

static FILES: [Opt; 4] = [Opt::Output, Opt::Folder, Opt::Force, Opt::Jobs];
static ALL: [Opt; 3] = [Opt::Json, Opt::Quiet, Opt::Help];
const COUNTED: &[Opt] = &[Opt::Caller, Opt::Tallies];
const MAKING: &[Opt] = &[Opt::Form, Opt::Unchecked];

impl Command {
    pub fn named(name: &str) -> Option<&'static Command> {
        COMMANDS.iter().find(|c| c.name == name)
    }

    /// The options that it takes, in the order of its help.
    pub fn options(&self) -> impl Iterator<Item = &'static OptionText> {
        let files: &[Opt] = if self.task.is_report() { &[Opt::Jobs] } else { &FILES };
        self.own_options().chain(texts(files)).chain(texts(&ALL))
    }

    pub fn own_options(&self) -> impl Iterator<Item = &'static OptionText> {
        texts(self.own)
    }
}

/// The options of every command that makes a file.
pub fn shared_options() -> impl Iterator<Item = &'static OptionText> {
    texts(&FILES).chain(texts(&ALL))
}

fn texts(opts: &'static [Opt]) -> impl Iterator<Item = &'static OptionText> {
    opts.iter().filter_map(|opt| OPTIONS.iter().find(|text| text.opt == *opt))
}

pub const COMMANDS: [Command; 15] = [
    Command {
        task: Task::Check,
        name: "check",
        says: "say what each file is, and whether the library takes it",
        text: "A line for each file: form, kind, status, k and the counts of vertices, edges and sequence bytes, as its \
               header says them; and the refusal, with its number, its cause and what is wrong, if the library \
               refuses it.\n\n\
               A sequence graph is taken if none of 1 to 7 refuses it, a k-mer graph if it can be converted. What \
               simplification and cleanup wrote can be past the limits of input; then it is refused with 3.",
        example: "sg check *.sgr",
        own: &[],
    },
    Command {
        task: Task::Convert,
        name: "convert",
        says: "make sequence graphs of k-mer graphs",
        text: "Of each record of a k-mer graph the record of its sequence graph: no string is spelled that the k-mers do \
               not say.",
        example: "sg convert region.kmers.sgr -o region.sgr",
        own: COUNTED,
    },
    Command {
        task: Task::Simplify,
        name: "simplify",
        says: "simplify sequence graphs; no string is lost or added",
        text: "Of each record the record of the simplified graph, which spells from end to end just what the graph handed \
               in spells. It tells the rewrites made, the rounds, and how they ended: quiet (a round without work), \
               repeated (rounds that undo each other), or full (a hundred rounds).",
        example: "sg simplify -d simplified *.sgr",
        own: COUNTED,
    },
    Command {
        task: Task::Cleanup,
        name: "cleanup",
        says: "keep what lies between the ends of the reference",
        text: "Of each record the record of the cleaned graph. It keeps just the strings from the chosen reference source \
               to the chosen reference sink, and drops all else: docs/METHOD.md, sections 6 and 7. It tells the status: \
               just reference, or some variation.",
        example: "sg cleanup --json -d cleaned *.sgr >cleaned.jsonl",
        own: COUNTED,
    },
    Command {
        task: Task::CleanNonRef,
        name: "clean-non-ref",
        says: "drop what leads to the reference source or away from the sink",
        text: "Of each record the record of the graph without the paths that lead to the reference source or away from \
               the reference sink beside the reference.",
        example: "sg clean-non-ref region.sgr -o region.clean.sgr",
        own: COUNTED,
    },
    Command {
        task: Task::Reference,
        name: "reference",
        says: "write the bytes of the reference path",
        text: "The bytes that the graph's reference path spells, and nothing in front of them or behind them, but for a \
               line's end on a terminal. A graph without a reference path is refused with 10.",
        example: "sg reference --fasta region.sgr -o region.fa",
        own: &[Opt::Fasta, Opt::Caller, Opt::Tallies],
    },
    Command {
        task: Task::Path,
        name: "path",
        says: "write the bytes of a path",
        text: "The bytes that a path spells, and nothing in front of them or behind them, but for a line's end on a \
               terminal. The path is given by its vertices; between each two there must be an edge, else it is \
               refused with 9.",
        example: "sg path --vertices 0,1,3 region.sgr",
        own: &[Opt::Vertices, Opt::Fasta, Opt::Caller, Opt::Tallies],
    },
    Command {
        task: Task::Sequence,
        name: "sequence",
        says: "write the sequence of a vertex",
        text: "The bytes of a vertex's sequence, and nothing in front of them or behind them, but for a line's end on a \
               terminal; of a k-mer graph too. A vertex that is not there is refused with 9. This call has no caller \
               and is not counted.",
        example: "sg sequence --vertex 2 region.sgr",
        own: &[Opt::Vertex, Opt::Fasta],
    },
    Command {
        task: Task::Show,
        name: "show",
        says: "simplify a graph and print it",
        text: "What sgshow prints of a record: the simplified graph, line by line, with the rewrites made, the rounds and \
               their end. It takes records of every length; sgshow takes at most 65,536 bytes, and prints as many.",
        example: "sg show region.sgr",
        own: COUNTED,
    },
    Command {
        task: Task::Text,
        name: "text",
        says: "write a record's text form",
        text: "A line for each thing in the record, from which `sg make` makes the same bytes:\n\n\
               \x20   form SGR1\n    kind 1\n    status 0\n    k 10\n    v AA\n    v CTG\n    e 0 1 5 r\n\n\
               form is SGR1 or SGR2. kind is 0 for a k-mer graph, 1 for a sequence graph. status is 0 not cleaned, 1 \
               just reference, 2 some variation. v is a vertex with its sequence: letters as they are, any other byte \
               as \\xhh, an empty sequence as a dot; vertices are numbered from 0 in their order. e is an edge: from, \
               to, support, and r for a reference edge, else -; right behind it c, if the support was capped. A flag \
               that no sound record has is a number.\n\n\
               Every record is shown whose fields say where its parts stand, with a cycle or past a limit too: what \
               is wrong with it, `sg check` says.",
        example: "sg text region.sgr",
        own: &[],
    },
    Command {
        task: Task::Make,
        name: "make",
        says: "make a record of its text form",
        text: "The record of a text as `sg text` writes it (see there) or `sg show` prints it. form, kind and status may be \
               left out: kind is then 1, status 0, and the form SGR1 where that holds the graph, else SGR2. Lines that \
               are empty or begin with # are skipped.\n\n\
               A record that the library refuses is not written, unless --unchecked is given.",
        example: "sg make diamond.txt -o diamond.sgr",
        own: MAKING,
    },
    Command {
        task: Task::Gfa,
        name: "gfa",
        says: "write the graph as GFA 1",
        text: "A vertex is a segment, named by its number, and an edge a link. Its support is the tag RC; the tag rf is 1 \
               for a reference edge, and the tag cp for one whose support was capped. Form, kind, status and k are the \
               tags fm, kd, st and km of the header. The sequences of a sequence graph do not overlap; k-mers do by k - 1 \
               bytes, and where they do not the overlap is a star. An empty sequence is a star with the tag LN:i:0. GFA \
               cannot show bytes other than letters, = and ., an edge to a vertex that is not there, or a flag above 3; such a \
               graph is told and not written.",
        example: "sg gfa region.sgr -o region.gfa",
        own: &[],
    },
    Command {
        task: Task::FromGfa,
        name: "from-gfa",
        says: "make a record of GFA 1",
        text: "The record of a sequence graph in GFA 1, with the tags that `sg gfa` writes: S and L lines, links from + to + \
               with the overlap 0M. Segments may have any names and get numbers in the order of their lines. Another \
               kind of line, another orientation and any other overlap, also one that is not given, are told with their \
               line: a record has no place for them. Tags other than those of `sg gfa` are left aside. k must be said \
               by the header's tag km or by -k, and each support by a link's tag RC or by --support.\n\n\
               A record that the library refuses is not written, unless --unchecked is given.",
        example: "sg from-gfa -k 25 region.gfa -o region.sgr",
        own: &[Opt::K, Opt::Support, Opt::Form, Opt::Unchecked],
    },
    Command {
        task: Task::Dot,
        name: "dot",
        says: "write the graph for Graphviz",
        text: "Reference edges are red and thick, a capped edge has a c behind its support, and a sequence of over 32 bytes \
               is shown by its ends and its length. A graph with an edge to a vertex that is not there is told and not written.",
        example: "sg dot region.sgr | dot -Tsvg >region.svg",
        own: &[],
    },
    Command {
        task: Task::Caller,
        name: "caller",
        says: "show a file of tallies, caller by caller",
        text: "A file of tallies has 192 bytes: for each of the callers 0 to 15 the calls answered, the calls refused and \
               the rewrites made in the answered ones, as three numbers of four bytes, little-endian; each stops at \
               2^32 - 1. The commands that make calls add to it where --tallies names it, and make it where it is not \
               there.",
        example: "sg caller tallies.bin",
        own: &[],
    },
];
