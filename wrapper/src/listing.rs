use crate::Form;

/// A graph with more end-to-end paths is not listed.
const MOST_STRINGS: usize = 1_024;
/// Of each string its offset and its length, four bytes each.
const PLACE: usize = 8;
/// The count, in front of the places.
const COUNT: usize = 4;

/// So many bytes are enough for the listing of this record's haplotypes: no string is as long as the record. Of a record
/// of at least `Form::room_of_string` bytes these are `Form::room_of_listing`, and of a shorter one fewer.
///
/// `vec![0; room_for_listing(record)]` takes memory only for what is then written to it, where the system gives pages of
/// zeros when they are touched.
pub fn room_for_listing(record: &[u8]) -> usize {
    let of_strings = MOST_STRINGS.saturating_mul(record.len());
    Form::of(record).room_of_listing().min(of_strings.saturating_add(COUNT + MOST_STRINGS * PLACE))
}

/// The haplotypes of a graph, as `list_haplotypes` writes them: how many; of each its offset from the listing's first byte,
/// and its length; the strings, one behind the other. Numbers have four bytes, little-endian.
#[derive(Debug, Clone, Copy, PartialEq, Eq)]
pub struct Listing<'a> {
    bytes: &'a [u8],
}

/// The number at this place, if there are four bytes.
fn number(bytes: &[u8], at: usize) -> Option<usize> {
    let four = bytes.get(at..)?.first_chunk()?;
    Some(u32::from_le_bytes(*four) as usize)
}

impl<'a> Listing<'a> {
    /// The listing that these bytes are; none if they are no listing, if one is missing, or one left over. That strings
    /// are in byte order, and each there once, is not asked.
    pub fn of(bytes: &'a [u8]) -> Option<Listing<'a>> {
        let count = number(bytes, 0)?;
        let places = bytes[COUNT..].chunks_exact(PLACE).take(count);
        if places.len() < count {
            return None;
        }
        let mut end = COUNT + PLACE * count;
        for place in places {
            if number(place, 0)? != end {
                return None;
            }
            end += number(place, 4)?;
        }
        (end == bytes.len()).then_some(Listing { bytes })
    }

    /// The bytes of the listing itself. Of two graphs that spell the same strings they are the same.
    pub fn bytes(self) -> &'a [u8] {
        self.bytes
    }

    /// How many strings there are; none of a graph without vertices.
    pub fn len(self) -> usize {
        number(self.bytes, 0).unwrap_or(0)
    }

    pub fn is_empty(self) -> bool {
        self.len() == 0
    }

    /// The string of this number, from 0 on, in byte order.
    pub fn get(self, i: usize) -> Option<&'a [u8]> {
        if i >= self.len() {
            return None;
        }
        let at = COUNT + PLACE * i;
        let (offset, length) = (number(self.bytes, at)?, number(self.bytes, at + 4)?);
        self.bytes.get(offset..offset + length)
    }

    /// The strings, in byte order.
    pub fn iter(self) -> impl Iterator<Item = &'a [u8]> {
        (0..self.len()).map_while(move |i| self.get(i))
    }
}

#[cfg(test)]
mod tests {
    use super::{room_for_listing, Listing};
    use crate::Form;

    fn listing(numbers: &[u32], strings: &[u8]) -> Vec<u8> {
        let numbers = numbers.iter().flat_map(|n| n.to_le_bytes());
        numbers.chain(strings.iter().copied()).collect()
    }

    #[test]
    fn finds_each_string() {
        let bytes = listing(&[3, 28, 0, 28, 2, 30, 3], b"ACACG");
        let found = Listing::of(&bytes).unwrap();
        assert_eq!((found.len(), found.is_empty(), found.bytes()), (3, false, &bytes[..]));
        assert!(found.iter().eq([&b""[..], b"AC", b"ACG"]));
        assert_eq!([2, 3, usize::MAX].map(|i| found.get(i)), [Some(&b"ACG"[..]), None, None]);
    }

    #[test]
    fn tells_none_from_an_empty_one() {
        let (none, empty) = (listing(&[0], b""), listing(&[1, 12, 0], b""));
        assert!(Listing::of(&none).unwrap().is_empty());
        assert!(Listing::of(&empty).unwrap().iter().eq([b""]));
    }

    #[test]
    fn is_not_made_of_other_bytes() {
        for (numbers, strings) in [
            (&[][..], &b""[..]),
            (&[], b"\0\0\0"),
            (&[0], b"A"),
            (&[1], b""),
            (&[1, 12], b""),
            (&[1, 12, 2], b"A"),
            (&[1, 12, 2], b"ACG"),
            (&[1, 13, 1], b"A"),
            (&[1, 11, 1], b"A"),
            (&[2, 20, 1, 22, 1], b"ACG"),
            (&[2, 21, 1, 20, 1], b"AC"),
            (&[2, 20, u32::MAX, 19, 1], b""),
            (&[u32::MAX, 12, 1], b"A"),
            (&[1 << 29, 4, 0], b""),
        ] {
            assert_eq!(Listing::of(&listing(numbers, strings)), None, "{numbers:?}");
        }
    }

    #[test]
    fn has_room_by_the_record() {
        assert_eq!(room_for_listing(b""), 8_196);
        assert_eq!(room_for_listing(b"SGR2"), 8_196 + 4 * 1_024);
        assert_eq!(room_for_listing(&[0; 8_191]), Form::Sgr1.room_of_listing() - 1_024);
        assert_eq!(room_for_listing(&[0; 8_192]), Form::Sgr1.room_of_listing());
        assert_eq!(room_for_listing(&[0; 49_184]), Form::Sgr1.room_of_listing());
        let longest = [&b"SGR2"[..], &[0; 1_114_144]].concat();
        assert_eq!(room_for_listing(&longest), Form::Sgr2.room_of_listing());
    }
}
