use std::error::Error;
use std::fmt;

/// Why there is no answer: a refusal of docs/METHOD.md, section 9, a number that this crate does not know, or that
/// there is no thread.
#[derive(Debug, Clone, Copy, PartialEq, Eq)]
pub enum Refusal {
    Length,
    Mark,
    Limit,
    Layout,
    Edge,
    Doubled,
    Cycle,
    Bytes,
    NotThere,
    NoReference,
    Room,
    /// Of conversion alone; asked behind `Doubled` and before `Cycle`.
    Overlap,
    /// Asked before all else; the call is not counted. A `Caller` that `Caller::new` gave does not meet it.
    Caller,
    /// A refusal number that this crate does not know: the library is another one than it was written for.
    UnknownNumber(u32),
    /// Accepted, with an end of simplification that this crate does not know.
    UnknownEnd(u32),
    /// Accepted, with a status of cleanup that this crate does not know.
    UnknownStatus(u32),
    /// The call was not made: its record needs a thread with a larger stack, and the system gave none. Nothing was
    /// written and nothing counted; the same call may succeed later.
    NoThread,
}

/// Each refusal with its number and its cause. A call asks in the order 18, 1 to 6, 15, 7 to 11.
const KNOWN: [(Refusal, u32, &str); 13] = [
    (Refusal::Length, 1, "under 32 bytes, of SGR2 under 36, or not the length it states"),
    (Refusal::Mark, 2, "mark, kind for this call, or status"),
    (Refusal::Limit, 3, "a count or k past a limit of the record's form"),
    (Refusal::Layout, 4, "offsets, whole length, lengths or byte count disagree"),
    (Refusal::Edge, 5, "an edge end not below the count of vertices, or a flag above 3"),
    (Refusal::Doubled, 6, "two edges with the same ends, or in a k-mer graph two equal k-mers"),
    (Refusal::Cycle, 7, "a cycle, a self edge included"),
    (Refusal::Bytes, 8, "conversion would give over 8,192 bytes, of SGR2 over 131,072"),
    (Refusal::NotThere, 9, "the start or the vertex wanted is not there, or the list of edges is no path"),
    (Refusal::NoReference, 10, "there is no reference path"),
    (Refusal::Room, 11, "the output is shorter than the result"),
    (Refusal::Overlap, 15, "in conversion, an edge whose k-mers do not overlap by k - 1 bytes"),
    (Refusal::Caller, 18, "the caller's number is above 15"),
];

impl Refusal {
    /// Every refusal that has a number, by that number.
    pub fn all() -> impl Iterator<Item = Refusal> {
        KNOWN.iter().map(|k| k.0)
    }

    /// The refusal of this number; none of 0, which is an answer.
    pub fn of(number: u32) -> Option<Refusal> {
        if number == 0 {
            return None;
        }
        let known = KNOWN.iter().find(|k| k.1 == number).map(|k| k.0);
        Some(known.unwrap_or(Refusal::UnknownNumber(number)))
    }

    /// The number that the call told: 0 where it accepted, or was not made.
    pub fn number(self) -> u32 {
        match self {
            Refusal::UnknownNumber(number) => number,
            _ => KNOWN.iter().find(|k| k.0 == self).map_or(0, |k| k.1),
        }
    }
}

impl fmt::Display for Refusal {
    fn fmt(&self, f: &mut fmt::Formatter) -> fmt::Result {
        match self {
            Refusal::UnknownNumber(n) => write!(f, "the unknown refusal {n}"),
            Refusal::UnknownEnd(n) => write!(f, "the unknown end {n}"),
            Refusal::UnknownStatus(n) => write!(f, "the unknown status {n}"),
            Refusal::NoThread => f.write_str("no thread could be had with stack enough for this record"),
            known => f.write_str(KNOWN.iter().find(|k| k.0 == *known).map_or("", |k| k.2)),
        }
    }
}

impl Error for Refusal {}
