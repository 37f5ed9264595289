//! The name and the date that a recall flow has for itself: as a clerk writes them, and as the header has
//! them. Only what keeps them from being put there is told here; the rest is for the library to judge.

use std::ffi::OsStr;

use crate::failure::{Failure, Outcome};
use crate::name::told;

/// A flow's name, at 20-39 of the header.
pub type Name = [u8; 20];
/// A flow's date, at 14-19 of the header.
pub type Date = [u8; 6];

/// A name of at most 20 characters, with blanks after it.
pub fn name(word: &OsStr) -> Outcome<Name> {
    let what = "the name of a flow, which has at most 20 plain letters, digits, signs or blanks";
    padded(word).ok_or_else(|| not(word, what))
}

/// A date of six characters.
pub fn date(word: &OsStr) -> Outcome<Date> {
    let what = "a date as GGMMAA, which is 150326 for the 15th of March 2026";
    let date = padded(word).filter(|_| word.len() == size_of::<Date>());
    date.ok_or_else(|| not(word, what))
}

/// A word of plain characters with blanks after it, if there is room for it.
fn padded<const LENGTH: usize>(word: &OsStr) -> Option<[u8; LENGTH]> {
    let bytes = word.as_encoded_bytes();
    let is_plain = bytes.iter().all(|byte| (b' '..=b'~').contains(byte));
    let mut field = [b' '; LENGTH];
    let front = field.get_mut(..bytes.len()).filter(|_| is_plain)?;
    front.copy_from_slice(bytes);
    Some(field)
}

fn not(word: &OsStr, what: &str) -> Failure {
    Failure::trouble(format!("{} is not {what}.", told(word)))
}

#[cfg(test)]
mod tests {
    use super::*;

    fn is_name(word: &str) -> bool {
        name(OsStr::new(word)).is_ok()
    }

    #[test]
    fn a_name_has_blanks_after_it() {
        let placed = |word| name(OsStr::new(word)).ok();
        assert_eq!(placed("RECALL"), Some(*b"RECALL              "));
        assert_eq!(
            placed("ABCDEFGHIJKLMNOPQRST"),
            Some(*b"ABCDEFGHIJKLMNOPQRST")
        );
        // Whether a name may be blank is for the library.
        assert_eq!(placed(""), Some([b' '; 20]));
        assert_eq!(placed(" ~"), Some(*b" ~                  "));
    }

    #[test]
    fn a_name_that_cannot_be_put_there_is_none() {
        for word in ["ABCDEFGHIJKLMNOPQRSTU", "A\tB", "CASA È", "A\u{7f}", "A\n"] {
            assert!(!is_name(word), "{word:?}");
        }
    }

    #[test]
    fn a_date_has_six_characters() {
        let placed = |word| date(OsStr::new(word)).ok();
        assert_eq!(placed("170326"), Some(*b"170326"));
        // What is no date of the calendar is for the library.
        assert_eq!(placed("310626"), Some(*b"310626"));
        assert_eq!(placed("MARCH!"), Some(*b"MARCH!"));
        for word in [
            "",
            "17032",
            "1703260",
            "17/03/26",
            "1703 2026",
            "17032\t",
            "1703è",
        ] {
            assert_eq!(placed(word), None, "{word:?}");
        }
    }
}
