//! The samples, and answers written short.

#![allow(dead_code)]

use std::fs;
use std::path::PathBuf;

use mav::{Accepted, FlowKind, Reason, Refusal};

/// The repository's folder.
pub fn root() -> PathBuf {
    PathBuf::from(env!("CARGO_MANIFEST_DIR")).join("../..")
}

/// The bytes of a sample.
pub fn sample(file: &str) -> Vec<u8> {
    let path = root().join("samples").join(file);
    fs::read(&path).unwrap_or_else(|error| panic!("{}: {error}", path.display()))
}

/// The answer to a flow of requests.
pub fn accepted(dispositions: u64, cents: u64, records: u64) -> Accepted {
    Accepted {
        dispositions,
        cents,
        records,
        kind: FlowKind::Requests,
    }
}

/// The same of recalls.
pub fn recalled(dispositions: u64, cents: u64, records: u64) -> Accepted {
    Accepted {
        kind: FlowKind::Recalls,
        ..accepted(dispositions, cents, records)
    }
}

pub fn refused(reason: Reason, record: u64, position: u64) -> Refusal {
    Refusal {
        reason,
        record,
        position,
    }
}

/// A refusal at record 0, position 0.
pub fn of_call(reason: Reason) -> Refusal {
    refused(reason, 0, 0)
}

/// Puts bytes into a record of a flow, from a position on, both counted from 1.
pub fn put(flow: &mut [u8], record: usize, position: usize, bytes: &[u8]) {
    flow[positions(record, position, position + bytes.len() - 1)].copy_from_slice(bytes);
}

/// The positions of a record of a flow, both ends counted, as indexes from 0.
pub fn positions(record: usize, first: usize, last: usize) -> std::ops::Range<usize> {
    let before = 120 * (record - 1);
    before + first - 1..before + last
}

/// The indexes at which two slices of one length differ.
pub fn differences(left: &[u8], right: &[u8]) -> Vec<usize> {
    assert_eq!(left.len(), right.len());
    (0..left.len()).filter(|&i| left[i] != right[i]).collect()
}
