//! Numbers and sequences as words of a text, and words and names as part of a message.
use std::ffi::OsStr;
use std::os::unix::ffi::OsStrExt;

/// A message shows so many characters of a word.
const LONGEST_SHOWN: usize = 32;

/// The sequence as text: letters as they are, any other byte as \xhh, an empty one as a dot.
pub fn put_sequence(out: &mut String, sequence: &[u8]) {
    if sequence.is_empty() {
        out.push('.');
    }
    for &b in sequence {
        if b.is_ascii_alphabetic() {
            out.push(b.into());
        } else {
            out.push_str(&format!("\\x{b:02x}"));
        }
    }
}

pub fn printed(sequence: &[u8]) -> String {
    let mut out = String::new();
    put_sequence(&mut out, sequence);
    out
}

/// A name as it is, so that it can be taken from the line; what would break the line is escaped.
pub fn put_name(out: &mut Vec<u8>, name: &OsStr) {
    for &b in name.as_bytes() {
        if b.is_ascii_control() {
            out.extend(format!("\\x{b:02x}").bytes());
        } else {
            out.push(b);
        }
    }
}

/// The same as text, for a message: what is no text is replaced.
pub fn shown_name(name: impl AsRef<OsStr>) -> String {
    let mut out = Vec::new();
    put_name(&mut out, name.as_ref());
    String::from_utf8_lossy(&out).into()
}

/// A word of the input as part of a message: short, and printable.
pub fn shown(word: &[u8]) -> String {
    if word.is_empty() {
        return "nothing".into();
    }
    let printable = |b: u8| b == b' ' || b.is_ascii_graphic();
    let text: String = word
        .iter()
        .map(|&b| if printable(b) { char::from(b).into() } else { format!("\\x{b:02x}") })
        .collect();
    match text.get(..LONGEST_SHOWN) {
        Some(start) if start.len() < text.len() => format!("{start}.."),
        _ => text,
    }
}

/// Keeps what a text says of this; that it says so twice is an error.
pub fn once<T>(place: &mut Option<T>, name: &str, value: T) -> Result<(), String> {
    match place.replace(value) {
        None => Ok(()),
        Some(_) => Err(format!("a second {name}")),
    }
}

/// The number that these digits write, from 0 to `most`.
pub fn number_of(word: &[u8], most: u32) -> Result<u32, String> {
    let digits = word.iter().all(u8::is_ascii_digit).then(|| std::str::from_utf8(word).unwrap_or(""));
    match digits.and_then(|d| d.parse().ok()) {
        Some(n) if n <= most => Ok(n),
        _ => Err(format!("{} is no number from 0 to {most}", shown(word))),
    }
}

/// The byte that the two digits behind a \x write.
fn escaped_byte(word: &[u8]) -> Option<u8> {
    let digits = word.strip_prefix(b"\\x")?.get(..2)?;
    let value = |d: u8| char::from(d).to_digit(16);
    Some((value(digits[0])? * 16 + value(digits[1])?) as u8)
}

/// The sequence that `put_sequence` writes so.
pub fn sequence_of(word: &[u8]) -> Result<Vec<u8>, String> {
    if word == b"." {
        return Ok(Vec::new());
    }
    let (mut sequence, mut rest) = (Vec::with_capacity(word.len()), word);
    while let Some(&b) = rest.first() {
        let escaped = if b.is_ascii_alphabetic() { None } else { escaped_byte(rest) };
        if !b.is_ascii_alphabetic() && escaped.is_none() {
            return Err(format!(
                "{} is no sequence: letters, \\xhh for any other byte, or a dot",
                shown(word)
            ));
        }
        sequence.push(escaped.unwrap_or(b));
        rest = &rest[if escaped.is_some() { 4 } else { 1 }..];
    }
    Ok(sequence)
}

#[cfg(test)]
mod tests {
    use super::{number_of, printed, sequence_of, shown, shown_name};

    #[test]
    fn every_byte_comes_back() {
        let all: Vec<u8> = (0..=255).collect();
        assert_eq!(sequence_of(printed(&all).as_bytes()), Ok(all));
        assert_eq!(printed(b""), ".");
        assert_eq!(sequence_of(b"."), Ok(vec![]));
        assert_eq!(sequence_of(b"a\\x4Fz"), Ok(b"aOz".to_vec()));
    }

    #[test]
    fn no_sequence_of_other_words() {
        for word in [&b"A*"[..], b"..", b"A.", b"\\x4", b"\\x4g", b"\\4f", b"A\\", b"\xff", b"\\x+4"] {
            assert!(sequence_of(word).is_err(), "{}", shown(word));
        }
    }

    #[test]
    fn only_digits_are_numbers() {
        assert_eq!(number_of(b"0004294967295", u32::MAX), Ok(u32::MAX));
        for word in [&b""[..], b"4294967296", b"+1", b"-1", b"1 ", b"\xd9\xa1", b"99999999999999999999999"] {
            assert!(number_of(word, u32::MAX).is_err(), "{}", shown(word));
        }
        assert_eq!(number_of(b"256", 255), Err("256 is no number from 0 to 255".into()));
    }

    #[test]
    fn messages_are_short_and_printable() {
        assert_eq!(shown(b"\xd9\xa1"), "\\xd9\\xa1");
        assert_eq!(shown(&[b'9'; 5000]), format!("{}..", "9".repeat(32)));
        assert_eq!(shown(&[b'9'; 32]), "9".repeat(32));
        assert_eq!(shown(b""), "nothing");
        assert_eq!(shown_name("a\nb\u{e9}"), "a\\x0ab\u{e9}");
    }
}
