/// The two forms of a record. SGR2 has wider fields and larger limits. Every call takes both, and the record that it
/// writes has the form of the one handed in.
#[derive(Debug, Clone, Copy, PartialEq, Eq)]
pub enum Form {
    Sgr1,
    Sgr2,
}

impl Form {
    /// The form that a record is judged by: SGR2 if it begins so, and else SGR1, whatever it is.
    pub fn of(record: &[u8]) -> Form {
        if record.starts_with(b"SGR2") {
            Form::Sgr2
        } else {
            Form::Sgr1
        }
    }

    /// So many bytes of output are enough for every call on a record of this form.
    pub const fn room(self) -> usize {
        match self {
            Form::Sgr1 => 176_160,
            Form::Sgr2 => 4_194_340,
        }
    }

    /// So many are enough for `from_assembly_graph` and `clean_non_ref_paths`, whose answers keep the limits of input.
    pub const fn room_within_limits(self) -> usize {
        match self {
            Form::Sgr1 => 49_184,
            Form::Sgr2 => 1_114_148,
        }
    }

    /// So many are enough for a string.
    pub const fn room_of_string(self) -> usize {
        match self {
            Form::Sgr1 => 8_192,
            Form::Sgr2 => 131_072,
        }
    }
}

#[cfg(test)]
mod tests {
    use super::Form;

    #[test]
    fn goes_by_the_mark() {
        assert_eq!([&b"SGR2"[..], b"SGR2 and more"].map(Form::of), [Form::Sgr2; 2]);
        assert_eq!([&b"SGR1"[..], b"SGR", b"sgr2", b"SGR3", b" SGR2", b""].map(Form::of), [Form::Sgr1; 6]);
    }

    /// The header, the lengths, the edges and the bytes, at the most of each.
    #[test]
    fn has_room_for_the_limits() {
        let sgr1 = |v: usize, e: usize, b: usize| 32 + 2 * v + 9 * e + b;
        let sgr2 = |v: usize, e: usize, b: usize| 36 + 4 * v + 13 * e + b;
        assert_eq!(Form::Sgr1.room(), sgr1(10_240, 16_384, 8_192));
        assert_eq!(Form::Sgr2.room(), sgr2(163_840, 262_144, 131_072));
        assert_eq!(Form::Sgr1.room_within_limits(), sgr1(2_048, 4_096, 8_192));
        assert_eq!(Form::Sgr2.room_within_limits(), sgr2(32_768, 65_536, 131_072));
    }
}
