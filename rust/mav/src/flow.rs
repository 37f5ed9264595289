//! Reading a flow, and where a disposition stands in it.

use std::ops::Range;

use crate::answer::{accepted, ask_flow, foreign, Accepted, Refusal};
use crate::limits::RECORD_LENGTH;
use crate::raw;

/// Judges a flow and gives its three numbers and its kind.
///
/// Refused by its first fault, with the numbers 1 to 14, 22 and 25. The bytes are read in place and never copied.
///
/// ```
/// use mav::{Accepted, FlowKind, Reason, Refusal};
///
/// let flow = include_bytes!(concat!(env!("CARGO_MANIFEST_DIR"), "/../../samples/two-rents.flow"));
/// let kind = FlowKind::Requests;
/// assert_eq!(mav::read(flow), Ok(Accepted { dispositions: 2, cents: 83_050, records: 16, kind }));
///
/// // The same rents recalled.
/// let flow = include_bytes!(concat!(env!("CARGO_MANIFEST_DIR"), "/../../samples/two-rents-recall.flow"));
/// let kind = FlowKind::Recalls;
/// assert_eq!(mav::read(flow), Ok(Accepted { dispositions: 2, cents: 83_050, records: 16, kind }));
///
/// // An empty flow: example 4 of document 01.
/// assert_eq!(mav::read(&[]), Err(Refusal { reason: Reason::Length, record: 0, position: 0 }));
/// ```
pub fn read(flow: &[u8]) -> Result<Accepted, Refusal> {
    ask_flow(|answer| raw::read(flow, answer)).map(|entries| accepted(&entries))
}

/// Where a disposition stands in a flow.
///
/// It borrows the flow, so that it cannot be used after the flow has changed.
#[derive(Clone, Copy, Debug, Eq, Hash, PartialEq)]
#[must_use = "it only says where the disposition stands"]
pub struct Disposition<'a> {
    /// Its number, counted from 1.
    pub number: u64,
    /// Its first record, counted from 1 with the header.
    pub first_record: u64,
    /// How many records it has.
    pub records: u64,
    /// Its amount.
    pub cents: u64,
    /// Its part of the flow: its records, as the caller's own bytes.
    pub part: &'a [u8],
}

impl Disposition<'_> {
    /// The bytes of the flow at which the part lies, counted from 0.
    ///
    /// Of a value that no call gave, and whose range no flow has, the range stops at the largest `usize`.
    ///
    /// ```
    /// let flow = include_bytes!(concat!(env!("CARGO_MANIFEST_DIR"), "/../../samples/two-rents.flow"));
    ///
    /// let found = mav::find(flow, 2)?;
    /// assert_eq!(found.range(), 960..1_800);
    /// assert_eq!(&flow[found.range()], found.part);
    /// # Ok::<(), mav::Refusal>(())
    /// ```
    pub fn range(&self) -> Range<usize> {
        byte_range(self.first_record, self.records)
    }
}

/// Says where disposition `k` stands, counted from 1, and gives its part of the flow.
///
/// Refused as by [`read`], then by [`NoSuchDisposition`](crate::Reason::NoSuchDisposition) where `k` is 0
/// or above the count. The part is a slice of the flow and never a copy. Each call judges the whole flow;
/// [`dispositions`](crate::dispositions) gives all of them and judges it once.
///
/// ```
/// use mav::Reason;
///
/// let flow = include_bytes!(concat!(env!("CARGO_MANIFEST_DIR"), "/../../samples/two-rents.flow"));
///
/// // The header is record 1, and the first rent has records 2 to 8.
/// let found = mav::find(flow, 1)?;
/// assert_eq!((found.first_record, found.records, found.cents), (2, 7, 45_000));
/// assert_eq!(found.part, &flow[120..960]);
///
/// assert_eq!(mav::find(flow, 3).unwrap_err().reason, Reason::NoSuchDisposition);
/// # Ok::<(), mav::Refusal>(())
/// ```
pub fn find(flow: &[u8], k: u64) -> Result<Disposition<'_>, Refusal> {
    let [first_record, records, cents, ..] = ask_flow(|answer| raw::find(flow, k, answer))?;
    // `PlacesExact` in crates/grammar/specs/Laws.antt: the dispositions stand between header and trailer.
    let part = flow
        .get(byte_range(first_record, records))
        .unwrap_or_else(|| foreign("first record", first_record));
    Ok(Disposition {
        number: k,
        first_record,
        records,
        cents,
        part,
    })
}

/// The bytes of so many records from a record on, which is counted from 1.
pub(crate) fn byte_range(first_record: u64, records: u64) -> Range<usize> {
    let before = first_record.saturating_sub(1);
    offset(before)..offset(before.saturating_add(records))
}

/// The bytes of so many records.
fn offset(records: u64) -> usize {
    usize::try_from(records).map_or(usize::MAX, |count| count.saturating_mul(RECORD_LENGTH))
}

#[cfg(test)]
mod tests {
    use super::*;

    #[test]
    fn a_range_of_no_flow_stops() {
        assert_eq!(byte_range(0, 0), 0..0);
        assert_eq!(byte_range(1, 1), 0..120);
        assert_eq!(byte_range(u64::MAX, u64::MAX), usize::MAX..usize::MAX);
        assert_eq!(byte_range(1, u64::MAX), 0..usize::MAX);
    }
}
