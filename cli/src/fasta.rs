//! Strings as FASTA, for programs that want a title above each.
use std::ffi::OsStr;
use std::os::unix::ffi::OsStrExt;
use std::path::Path;

const LINE: usize = 60;

/// The title of what is made of an input: its name, in which a blank would end it.
pub fn title_of(input: &OsStr) -> Vec<u8> {
    let name = if input == "-" { OsStr::new("standard input") } else { input };
    let stem = Path::new(name).file_stem().unwrap_or(name).as_bytes();
    stem.iter().map(|b| if b.is_ascii_control() || *b == b' ' { b'_' } else { *b }).collect()
}

/// Puts a string under its title; `what` it is says the message, where a byte of it is no letter.
pub fn put_fasta(out: &mut Vec<u8>, title: &[u8], what: &str, string: &[u8]) -> Result<(), String> {
    if let Some(b) = string.iter().find(|b| !b.is_ascii_alphabetic()) {
        return Err(format!("{what} holds the byte \\x{b:02x}, which FASTA cannot show"));
    }
    out.push(b'>');
    out.extend(title);
    out.push(b'\n');
    for line in string.chunks(LINE) {
        out.extend(line);
        out.push(b'\n');
    }
    Ok(())
}
