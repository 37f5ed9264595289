//! Amount change and withdrawal, in place (document 01, "Questions and
//! changes").
//!
//! The trailer is brought up to date from the numbers of the flow as it was
//! read, never by summing the records that were moved.

use crate::answer::{number, Accepted, Answer, Refusal};
use crate::fields::{is_amount, write_digits, MAX_TOTAL};
use crate::find::locate;
use crate::record::{field_mut, record_type, Record, RECORD_LEN};

/// Changes the amount of disposition `k`: the reader's refusals, 15, 16, 17.
/// 16 is given for an amount of 0 too (document 02, E5).
///
/// Only 34-46 of its record 14 and the kind's total of EF may differ
/// afterwards: 53-67, of recalls 68-82 (document 02, E1).
pub fn change(flow: &mut [u8], k: u64, cents: u64) -> Answer {
    try_change(flow, k, cents).into()
}

/// Withdraws disposition `k`: the reader's refusals, 15, 18.
///
/// Later records move up and the freed bytes at the end become blanks. Also
/// gives the new length of the flow; after a refusal, the old one.
pub fn withdraw(flow: &mut [u8], k: u64) -> (Answer, usize) {
    match try_withdraw(flow, k) {
        Ok((accepted, len)) => (accepted.into(), len),
        Err(refusal) => (refusal.into(), flow.len()),
    }
}

fn try_change(flow: &mut [u8], k: u64, cents: u64) -> Result<Accepted, Refusal> {
    let (accepted, disposition) = locate(flow, k)?;
    if !is_amount(cents) {
        return Err(Refusal::of_call(number::NOT_AN_AMOUNT));
    }
    let total = accepted.cents - disposition.cents + cents;
    if total > MAX_TOTAL {
        return Err(Refusal::of_call(number::TOTAL_LIMIT));
    }
    let (records, _) = flow.as_chunks_mut::<RECORD_LEN>();
    if let Some(opening) = records.get_mut(disposition.first as usize - 1) {
        write_digits(field_mut(opening, 34, 46), cents);
    }
    if let Some(trailer) = records.last_mut() {
        write_digits(accepted.kind.total_mut(trailer), total);
    }
    Ok(Accepted {
        cents: total,
        ..accepted
    })
}

fn try_withdraw(flow: &mut [u8], k: u64) -> Result<(Accepted, usize), Refusal> {
    let (accepted, disposition) = locate(flow, k)?;
    if accepted.dispositions == 1 {
        return Err(Refusal::of_call(number::ONLY_DISPOSITION));
    }
    let left = Accepted {
        dispositions: accepted.dispositions - 1,
        cents: accepted.cents - disposition.cents,
        records: accepted.records - disposition.records,
        kind: accepted.kind,
    };
    let gone = disposition.bytes;
    let len = flow.len() - gone.len();
    flow.copy_within(gone.end.., gone.start);
    let (kept, freed) = flow.split_at_mut(len);
    freed.fill(b' ');
    let (moved, _) = kept[gone.start..].as_chunks_mut::<RECORD_LEN>();
    if let Some((trailer, later)) = moved.split_last_mut() {
        renumber(later, k);
        write_digits(field_mut(trailer, 46, 52), left.dispositions);
        write_digits(left.kind.total_mut(trailer), left.cents);
        write_digits(field_mut(trailer, 83, 89), left.records);
    }
    Ok((left, len))
}

/// Numbers whole dispositions from `first` on.
fn renumber(records: &mut [Record], first: u64) {
    let mut next = first;
    let mut digits = [b'0'; 7];
    for record in records {
        if record_type(record) == *b"14" {
            write_digits(&mut digits, next);
            next += 1;
        }
        field_mut(record, 4, 10).copy_from_slice(&digits);
    }
}
