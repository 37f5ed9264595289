//! The dispositions of a flow one after the other, in one pass.

use std::iter::FusedIterator;

use crate::answer::{foreign, Accepted, Refusal};
use crate::fields::amount;
use crate::flow::{read, Disposition};
use crate::limits::RECORD_LENGTH;

type Record = [u8; RECORD_LENGTH];

/// Judges a flow and gives its dispositions in order, each as [`find`](crate::find) gives it.
///
/// Refused as by [`read`]. The library judges the flow once, before the first disposition is given; then
/// its records are passed once and none is copied.
///
/// ```
/// let flow = include_bytes!(concat!(env!("CARGO_MANIFEST_DIR"), "/../../samples/two-rents.flow"));
///
/// let dispositions = mav::dispositions(flow)?;
/// assert_eq!(dispositions.len(), 2);
/// for disposition in dispositions {
///     assert_eq!(mav::find(flow, disposition.number), Ok(disposition));
/// }
///
/// // The requests above 400 euro.
/// let mut large = mav::dispositions(flow)?.filter(|disposition| disposition.cents > 40_000);
/// assert_eq!(large.next().map(|disposition| disposition.number), Some(1));
/// assert_eq!(large.next(), None);
/// # Ok::<(), mav::Refusal>(())
/// ```
pub fn dispositions(flow: &[u8]) -> Result<Dispositions<'_>, Refusal> {
    Ok(Dispositions {
        accepted: read(flow)?,
        given: 0,
        first_record: 2,
        rest: inner_records(flow),
    })
}

/// The dispositions of an accepted flow, in order: what [`dispositions`] gives.
///
/// It borrows the flow, so that nothing can be amended before the last disposition is done with.
#[derive(Clone, Debug)]
#[must_use = "it gives no disposition before it is asked; to judge a flow alone there is `read`"]
pub struct Dispositions<'a> {
    accepted: Accepted,
    /// How many were given.
    given: u64,
    /// The first record of the next one, counted from 1 with the header.
    first_record: u64,
    /// The records from there on, without the trailer.
    rest: &'a [Record],
}

impl Dispositions<'_> {
    /// The three numbers and the kind of the whole flow, as [`read`] gives them.
    ///
    /// ```
    /// let flow = include_bytes!(concat!(env!("CARGO_MANIFEST_DIR"), "/../../samples/two-rents.flow"));
    ///
    /// let dispositions = mav::dispositions(flow)?;
    /// assert_eq!(Ok(dispositions.accepted()), mav::read(flow));
    /// # Ok::<(), mav::Refusal>(())
    /// ```
    pub fn accepted(&self) -> Accepted {
        self.accepted
    }
}

// This rests on what an accepted flow is by crates/grammar/specs/Laws.antt: a header, as many dispositions as
// the answer says, and a trailer, and each disposition begins with its one record 14, which has the amount
// in digits at 34-46 (`GrammarExact`). So it goes up to the next record with 14 at 2-3, whatever the texts
// hold, or up to the trailer. `find` gives the same (`DispositionsExact`, `PlacesExact`, `OpeningExact`).
impl<'a> Iterator for Dispositions<'a> {
    type Item = Disposition<'a>;

    fn next(&mut self) -> Option<Disposition<'a>> {
        let (opening, others) = self.rest.split_first()?;
        let others = others.iter().take_while(|record| !is_opening(record));
        let (part, rest) = self.rest.split_at(1 + others.count());
        let disposition = Disposition {
            number: self.given + 1,
            first_record: self.first_record,
            records: part.len() as u64,
            cents: amount(&opening[33..46]).unwrap_or_else(|refusal| {
                foreign("refusal of an amount that was accepted,", refusal.number())
            }),
            part: part.as_flattened(),
        };
        self.given += 1;
        self.first_record += disposition.records;
        self.rest = rest;
        Some(disposition)
    }

    fn size_hint(&self) -> (usize, Option<usize>) {
        let left = self.accepted.dispositions.saturating_sub(self.given) as usize;
        (left, Some(left))
    }
}

impl ExactSizeIterator for Dispositions<'_> {}

impl FusedIterator for Dispositions<'_> {}

/// The records between header and trailer.
fn inner_records(flow: &[u8]) -> &[Record] {
    match flow.as_chunks().0 {
        [_, inner @ .., _] => inner,
        _ => &[],
    }
}

/// Whether a record opens a disposition: its type, at 2-3, is 14.
fn is_opening(record: &Record) -> bool {
    record[1..3] == *b"14"
}
