//! gatk-rs as the oracle: its own modules, compiled where they stand, and one with a change (build.rs), behind the calls of the library.

// The files of gatk-rs name these two crates; what they use of them is in `supplied`.
extern crate self as gatk_common;
extern crate self as gatk_core;

include!(concat!(env!("OUT_DIR"), "/gatk_rs.rs"));

mod supplied;
pub use supplied::*;

pub mod case;
pub mod oracle;
pub mod ours;
pub mod record;
