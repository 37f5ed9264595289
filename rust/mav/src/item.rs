//! The kinds of item in a request list: the documents' table, for whoever shows a list or counts its items.
//! The library has its own; nothing here is asked when a list is judged or written.

use crate::limits::RECORD_LENGTH;

/// A kind of item: its record's type, and which positions of the record its body has.
#[derive(Clone, Copy, Debug, Eq, PartialEq)]
pub struct ItemKind {
    /// The byte of kind, a capital letter.
    pub kind: u8,
    /// The type of its record, at positions 2-3.
    pub record_type: [u8; 2],
    /// The carried positions, first and last, in the order of the body.
    pub carried: &'static [(usize, usize)],
}

/// The carried positions of a header, of either kind of flow.
const HEADER: &[(usize, usize)] = &[(4, 45), (105, 111)];

/// The rows of the table (document 01, "Our request list"; document 02, E1 for Q, which opens a list of
/// recalls).
const KINDS: [ItemKind; 11] = [
    row(b'H', b"IM", HEADER),
    row(b'Q', b"IM", HEADER),
    row(b'D', b"14", &[(23, 28), (34, 46), (53, 69), (92, 113)]),
    row(b'S', b"16", &[(11, 37)]),
    row(b'C', b"20", &[(11, 106)]),
    row(b'B', b"30", &[(11, 86)]),
    row(b'A', b"40", &[(11, 120)]),
    row(b'R', b"50", &[(11, 120)]),
    row(b'X', b"59", &[(11, 120)]),
    row(b'K', b"51", &[(11, 120)]),
    row(b'Z', b"70", &[(94, 94), (96, 120)]),
];

const fn row(kind: u8, record_type: &[u8; 2], carried: &'static [(usize, usize)]) -> ItemKind {
    ItemKind {
        kind,
        record_type: *record_type,
        carried,
    }
}

impl ItemKind {
    /// The kind with this byte, or nothing where the table has no such kind.
    ///
    /// ```
    /// use mav::ItemKind;
    ///
    /// assert_eq!(ItemKind::of(b'D').map(|found| found.record_type), Some(*b"14"));
    /// assert_eq!(ItemKind::of(b'Q').map(|found| found.record_type), Some(*b"IM"));
    /// assert_eq!(ItemKind::of(b'd'), None);
    /// ```
    pub fn of(kind: u8) -> Option<&'static ItemKind> {
        KINDS.iter().find(|row| row.kind == kind)
    }

    /// How many bytes its body has.
    ///
    /// ```
    /// assert_eq!(mav::ItemKind::of(b'D').map(|found| found.body_length()), Some(58));
    /// ```
    pub fn body_length(&self) -> usize {
        self.carried
            .iter()
            .map(|(first, last)| last + 1 - first)
            .sum()
    }

    /// A record with its type and the bytes of a body at their positions, and blanks at all others. Of a
    /// body of the wrong length it takes what there is.
    ///
    /// ```
    /// let closing = mav::ItemKind::of(b'Z').unwrap();
    /// let record = closing.placed(b"PNOTTE");
    /// assert_eq!(&record[..4], b" 70 ");
    /// assert_eq!(&record[93..100], b"P NOTTE");
    /// ```
    pub fn placed(&self, body: &[u8]) -> [u8; RECORD_LENGTH] {
        let mut record = [b' '; RECORD_LENGTH];
        record[1..3].copy_from_slice(&self.record_type);
        let positions = self.carried.iter().flat_map(|&(first, last)| first..=last);
        for (position, byte) in positions.zip(body) {
            record[position - 1] = *byte;
        }
        record
    }
}

/// The whole items at the front of a list, each with its byte of kind. It ends before the first that is of
/// unknown kind or cut short.
///
/// ```
/// let list = include_bytes!(concat!(env!("CARGO_MANIFEST_DIR"), "/../../samples/two-rents.list"));
/// let kinds: Vec<u8> = mav::items(list).map(|item| item[0]).collect();
/// assert_eq!(kinds, b"HDCBARKZDCBARKZ");
/// ```
pub fn items(list: &[u8]) -> impl Iterator<Item = &[u8]> {
    let mut rest = list;
    std::iter::from_fn(move || {
        let kind = ItemKind::of(*rest.first()?)?;
        let (item, behind) = rest.split_at_checked(1 + kind.body_length())?;
        rest = behind;
        Some(item)
    })
}

#[cfg(test)]
mod tests {
    use super::*;
    use crate::limits::MAX_ITEM_LENGTH;

    #[test]
    fn bodies_have_the_lengths_of_the_table() {
        let lengths = KINDS.map(|kind| kind.body_length());
        assert_eq!(lengths, [49, 49, 58, 27, 96, 76, 110, 110, 110, 110, 26]);
        assert_eq!(lengths.iter().max(), Some(&(MAX_ITEM_LENGTH - 1)));
    }

    #[test]
    fn a_cut_or_unknown_item_is_not_counted() {
        assert_eq!(items(b"Z").count(), 0);
        assert_eq!(items(&[b'Z'; 26]).count(), 0);
        assert_eq!(items(&[b'Z'; 27]).count(), 1);
        assert_eq!(items(&[b'Z'; 28]).count(), 1);
        assert_eq!(items(&[b'h'; 50]).count(), 0);
    }

    #[test]
    fn a_body_stands_where_the_library_puts_it() {
        let list = include_bytes!("../../../samples/forty-rents.list");
        let (_, flow) = crate::write_to_vec(list).expect("a sample");
        let records = flow.chunks_exact(RECORD_LENGTH);
        assert_eq!(records.len(), items(list).count() + 1);
        for (item, record) in items(list).zip(records) {
            let kind = ItemKind::of(item[0]).expect("an item's kind");
            assert_eq!(kind.record_type, record[1..3]);
            let placed = kind.placed(&item[1..]);
            for position in kind.carried.iter().flat_map(|&(first, last)| first..=last) {
                assert_eq!(placed[position - 1], record[position - 1]);
            }
        }
    }
}
