//! Where disposition k is (document 01, "Questions and changes").

use std::ops::Range;

use crate::answer::{number, Accepted, Refusal};
use crate::fields::amount;
use crate::reader::judge;
use crate::record::{field, record_type, RECORD_LEN};

/// One disposition of an accepted flow.
#[derive(Clone, Debug, Eq, PartialEq)]
pub struct Disposition {
    /// Its first record, counted from 1.
    pub first: u64,
    /// The number of its records.
    pub records: u64,
    /// Its amount.
    pub cents: u64,
    /// Its bytes in the flow.
    pub bytes: Range<usize>,
}

/// Finds disposition `k`: the reader's refusals, then 15.
pub fn find(flow: &[u8], k: u64) -> Result<Disposition, Refusal> {
    locate(flow, k).map(|(_, disposition)| disposition)
}

/// Finds disposition `k`, with what the reader answers of the flow.
pub(crate) fn locate(flow: &[u8], k: u64) -> Result<(Accepted, Disposition), Refusal> {
    let accepted = judge(flow)?;
    let disposition = scan(flow, k).ok_or(Refusal::of_call(number::NO_SUCH_DISPOSITION))?;
    Ok((accepted, disposition))
}

/// The k-th disposition of an accepted flow: from its record 14 up to the
/// next 14 or EF.
fn scan(flow: &[u8], k: u64) -> Option<Disposition> {
    let (records, _) = flow.as_chunks::<RECORD_LEN>();
    let mut bounds = records
        .iter()
        .enumerate()
        .filter(|(_, record)| matches!(&record_type(record), b"14" | b"EF"));
    let place = usize::try_from(k.checked_sub(1)?).ok()?;
    let (first, opening) = bounds.nth(place)?;
    let (end, _) = bounds.next()?;
    Some(Disposition {
        first: first as u64 + 1,
        records: (end - first) as u64,
        cents: amount(field(opening, 34, 46)).ok()?,
        bytes: first * RECORD_LEN..end * RECORD_LEN,
    })
}
