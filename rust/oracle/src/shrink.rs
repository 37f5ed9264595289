//! Smaller flows for readable failing cases.

use crate::damage::add_to;
use crate::generate::{cents_of, kind_of};
use crate::kind::FlowKind;
use crate::record::{field_mut, record_type, Record, RECORD_LEN};

/// Drops dispositions while the predicate holds of what is left, and gives
/// the smallest flow reached. The predicate must hold of `flow` itself.
///
/// Later numbers and the trailer are lowered by what has gone, so that a flow
/// that was wrong stays wrong in the same way.
pub fn shrink(flow: &[u8], holds: impl Fn(&[u8]) -> bool) -> Vec<u8> {
    let mut smallest = flow.to_vec();
    let mut chunk = openings(&smallest).len();
    while chunk > 0 {
        let mut from = 0;
        while from < openings(&smallest).len() {
            let tried = without(&smallest, from, chunk);
            if tried.len() < smallest.len() && holds(&tried) {
                smallest = tried;
            } else {
                from += chunk;
            }
        }
        chunk /= 2;
    }
    smallest
}

/// The indexes of the records 14.
fn openings(flow: &[u8]) -> Vec<usize> {
    let (records, _) = flow.as_chunks::<RECORD_LEN>();
    (0..records.len())
        .filter(|&i| record_type(&records[i]) == *b"14")
        .collect()
}

/// The flow without `count` dispositions from the one with index `from` on.
fn without(flow: &[u8], from: usize, count: usize) -> Vec<u8> {
    let (records, rest) = flow.as_chunks::<RECORD_LEN>();
    let openings = openings(flow);
    let Some(&start) = openings.get(from) else {
        return flow.to_vec();
    };
    let end = match openings.get(from + count) {
        Some(&end) => end,
        None => trailer_of(records, start),
    };
    let gone = &records[start..end];
    let mut left = [&records[..start], &records[end..]].concat();
    lower(&mut left, start, gone, kind_of(records));
    [left.as_flattened(), rest].concat()
}

/// The index of the trailer after record `start`, or the end of the records.
fn trailer_of(records: &[Record], start: usize) -> usize {
    let is_trailer = |record: &Record| record_type(record) == *b"EF";
    let after = records[start..].iter().position(is_trailer);
    after.map_or(records.len(), |after| start + after)
}

/// Lowers the numbers from record `start` on, and the trailers, by the
/// records gone of a flow of this kind.
fn lower(records: &mut [Record], start: usize, gone: &[Record], kind: FlowKind) {
    let opening = |record: &&Record| record_type(record) == *b"14";
    let count = gone.iter().filter(opening).count() as i64;
    let cents: i64 = gone
        .iter()
        .filter(opening)
        .map(|record| cents_of(record) as i64)
        .sum();
    for record in &mut records[start..] {
        if record_type(record) == *b"EF" {
            add_to(field_mut(record, 46, 52), -count);
            add_to(kind.total_mut(record), -cents);
            add_to(field_mut(record, 83, 89), -(gone.len() as i64));
        } else {
            add_to(field_mut(record, 4, 10), -count);
        }
    }
}
