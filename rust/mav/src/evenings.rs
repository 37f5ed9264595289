//! What differs between two evenings' flows (document 02, E7): the shortest account of it, and the record 14
//! of each of its lines.

use crate::answer::{ask_flow, foreign, length, Refusal};
use crate::flow::byte_range;
use crate::raw;

/// What a line of an account says of a disposition. In the account it is one byte.
///
/// ```
/// use mav::Letter;
///
/// let account = b"KKDKA";
/// let letters: Option<Vec<Letter>> = account.iter().map(|&byte| Letter::of(byte)).collect();
/// use Letter::{Added, Dropped, Kept};
/// assert_eq!(letters, Some(vec![Kept, Kept, Dropped, Kept, Added]));
/// ```
#[derive(Clone, Copy, Debug, Eq, Hash, PartialEq)]
pub enum Letter {
    /// K: it is in both flows.
    Kept,
    /// D: it is in the old flow and not in the new one.
    Dropped,
    /// A: it is in the new flow and not in the old one.
    Added,
}

impl Letter {
    /// The letter with this byte, or nothing where an account has no such byte.
    ///
    /// ```
    /// use mav::Letter;
    ///
    /// assert_eq!(Letter::of(b'D'), Some(Letter::Dropped));
    /// assert_eq!(Letter::of(b'd'), None);
    /// ```
    pub fn of(byte: u8) -> Option<Letter> {
        match byte {
            b'K' => Some(Letter::Kept),
            b'D' => Some(Letter::Dropped),
            b'A' => Some(Letter::Added),
            _ => None,
        }
    }

    /// Its byte in an account.
    ///
    /// ```
    /// assert_eq!(mav::Letter::Added.byte(), b'A');
    /// ```
    pub const fn byte(self) -> u8 {
        match self {
            Letter::Kept => b'K',
            Letter::Dropped => b'D',
            Letter::Added => b'A',
        }
    }

    /// The letter in an answer: by the contracts of the crate `capi` it is one of the three.
    fn from_entry(entry: u64) -> Letter {
        let letter = u8::try_from(entry).ok().and_then(Letter::of);
        letter.unwrap_or_else(|| foreign("letter", entry))
    }
}

/// What an account says, line by line added up.
#[derive(Clone, Copy, Debug, Eq, Hash, PartialEq)]
#[must_use = "only the first `length` bytes of the account were written"]
pub struct Compared {
    /// How many dispositions are in both flows.
    pub kept: u64,
    /// How many of the old flow are dropped.
    pub dropped: u64,
    /// How many of the new flow are added.
    pub added: u64,
    /// How many bytes were written, one for each line. The account beyond them is as it was.
    pub length: usize,
}

/// Writes the shortest account of what differs between two flows at the front of `account`: one byte a line,
/// as [`Letter`] has them.
///
/// Two dispositions are the same where their items in the flows' lists are the same bytes; their numbers do
/// not count, and headers are not compared. The shortest account has the fewest lines D and A together. Where
/// several are shortest, each line is K if the next two dispositions are the same, else D if a shortest
/// account still follows, else A.
///
/// `work` is memory to work in, of at least [`MIN_WORK`](crate::MIN_WORK) numbers. What it held does not
/// matter, and all of it is zero after an accepted call. A room of
/// [`MAX_ACCOUNT_LENGTH`](crate::MAX_ACCOUNT_LENGTH) is always enough for the account.
///
/// Refused as by [`read`](crate::read) for the old flow, then for the new one, then by
/// [`TooManyRequests`](crate::Reason::TooManyRequests) where one of them has more than
/// [`MAX_COMPARED`](crate::MAX_COMPARED) dispositions, then by [`KindsDiffer`](crate::Reason::KindsDiffer),
/// [`WorkingMemory`](crate::Reason::WorkingMemory) and [`Room`](crate::Reason::Room). A refused call leaves
/// every byte as it was, of the working memory too.
///
/// ```
/// use mav::{Compared, Reason};
///
/// let old = include_bytes!(concat!(env!("CARGO_MANIFEST_DIR"), "/../../samples/last-night.flow"));
/// let new = include_bytes!(concat!(env!("CARGO_MANIFEST_DIR"), "/../../samples/tonight.flow"));
/// let mut work = vec![0; mav::MIN_WORK];
/// let mut account = [b'#'; mav::MAX_ACCOUNT_LENGTH];
///
/// // The third of last night has left, the fourth of tonight is new, and the fifth has another amount.
/// let compared = mav::compare(old, new, &mut work, &mut account)?;
/// assert_eq!(compared, Compared { kept: 6, dropped: 2, added: 2, length: 10 });
/// assert_eq!(&account[..compared.length], b"KKDKDAAKKK");
/// assert_eq!(account[compared.length], b'#');
/// assert!(work.iter().all(|&number| number == 0));
///
/// // Nothing differs between a flow and itself.
/// let same = mav::compare(new, new, &mut work, &mut account)?;
/// assert_eq!((same.kept, same.dropped, same.added), (8, 0, 0));
///
/// let refusal = mav::compare(old, new, &mut work[1..], &mut account).unwrap_err();
/// assert_eq!(refusal.reason, Reason::WorkingMemory);
/// # Ok::<(), mav::Refusal>(())
/// ```
pub fn compare(
    old: &[u8],
    new: &[u8],
    work: &mut [u16],
    account: &mut [u8],
) -> Result<Compared, Refusal> {
    let entries = ask_flow(|answer| raw::compare(old, new, work, account, answer))?;
    let [kept, dropped, added, ..] = entries;
    Ok(Compared {
        kept,
        dropped,
        added,
        length: length(&entries),
    })
}

/// A line of an account, with the record 14 of its disposition.
///
/// It borrows both flows, so that it cannot be used after one of them has changed.
#[derive(Clone, Copy, Debug, Eq, Hash, PartialEq)]
#[must_use = "it only says what the line is"]
pub struct AccountLine<'a> {
    /// Kept, dropped or added.
    pub letter: Letter,
    /// Its record 14, counted from 1 with the header: in the old flow where it is dropped, in the new one
    /// where it is kept or added.
    pub record: u64,
    /// That record, as the caller's own bytes.
    pub part: &'a [u8],
}

/// Says what line `n` of the account of [`compare`] is, counted from 1, and gives its record 14.
///
/// Refused as by [`compare`], but never by [`Room`](crate::Reason::Room), then by
/// [`NoSuchDisposition`](crate::Reason::NoSuchDisposition) where `n` is 0 or above the number of lines. The
/// record is a part of the old flow or of the new one and never a copy. `work` is as for [`compare`], and is
/// all zero after an accepted call here too. Each call compares the flows anew; who wants all lines takes the
/// account, in which each K and D is the next [disposition](crate::dispositions) of the old flow and each K
/// and A the next of the new one.
///
/// ```
/// use mav::{Letter, Reason};
///
/// let old = include_bytes!(concat!(env!("CARGO_MANIFEST_DIR"), "/../../samples/last-night.flow"));
/// let new = include_bytes!(concat!(env!("CARGO_MANIFEST_DIR"), "/../../samples/tonight.flow"));
/// let mut work = vec![0; mav::MIN_WORK];
///
/// // Lines 5 and 7 of KKDKDAAKKK: the amount before and after.
/// let before = mav::compare_line(old, new, &mut work, 5)?;
/// let after = mav::compare_line(old, new, &mut work, 7)?;
/// assert_eq!((before.letter, before.record), (Letter::Dropped, 31));
/// assert_eq!((after.letter, after.record), (Letter::Added, 31));
/// assert_eq!(before.part, &old[30 * 120..31 * 120]);
/// assert_eq!(mav::amount(&before.part[33..46]), Ok(41_000));
/// assert_eq!(mav::amount(&after.part[33..46]), Ok(43_550));
///
/// let refusal = mav::compare_line(old, new, &mut work, 11).unwrap_err();
/// assert_eq!(refusal.reason, Reason::NoSuchDisposition);
/// # Ok::<(), mav::Refusal>(())
/// ```
pub fn compare_line<'a>(
    old: &'a [u8],
    new: &'a [u8],
    work: &mut [u16],
    n: u64,
) -> Result<AccountLine<'a>, Refusal> {
    let entries = ask_flow(|answer| raw::compare_line(old, new, work, n, answer))?;
    let [letter, record, ..] = entries;
    let letter = Letter::from_entry(letter);
    let flow = match letter {
        Letter::Dropped => old,
        Letter::Kept | Letter::Added => new,
    };
    let part = flow
        .get(byte_range(record, 1))
        .unwrap_or_else(|| foreign("record of a line", record));
    Ok(AccountLine {
        letter,
        record,
        part,
    })
}

#[cfg(test)]
mod tests {
    use super::*;

    #[test]
    fn the_letters_are_those_of_entry_0() {
        let letters = [75, 68, 65].map(Letter::from_entry);
        assert_eq!(letters, [Letter::Kept, Letter::Dropped, Letter::Added]);
        assert_eq!(letters.map(Letter::byte), *b"KDA");
        for byte in 0..=u8::MAX {
            let letter = Letter::of(byte);
            assert_eq!(letter.is_some(), b"KDA".contains(&byte));
            assert!(letter.is_none_or(|letter| letter.byte() == byte));
        }
    }

    #[test]
    #[should_panic(expected = "it gave the letter 0")]
    fn no_letter_is_never_shown_as_one() {
        let _ = Letter::from_entry(0);
    }

    /// One that a cast to eight bits would take for K.
    #[test]
    #[should_panic(expected = "it gave the letter 331")]
    fn a_letter_is_compared_whole() {
        let _ = Letter::from_entry(256 + 75);
    }
}
