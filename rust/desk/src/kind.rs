//! What a flow holds, in the clerk's words: requests, or recalls of requests already sent.

use mav::{Accepted, FlowKind};

use crate::euro::{grouped, shown as euro};
use crate::output;

/// The word for one of what a flow of this kind holds. Of a kind that only a later library has it is the
/// standard's.
pub fn one(kind: FlowKind) -> &'static str {
    match kind {
        FlowKind::Requests => "request",
        FlowKind::Recalls => "recall",
        _ => "disposition",
    }
}

/// So many of them, as `2 requests`.
pub fn counted(number: u64, kind: FlowKind) -> String {
    output::counted(number, one(kind), &kind.to_string())
}

/// The numbers of a flow, as `2 requests, 830,50 euro, 16 records`.
pub fn summary(numbers: Accepted) -> String {
    format!(
        "{}, {} euro, {} records",
        counted(numbers.dispositions, numbers.kind),
        euro(numbers.cents),
        grouped(numbers.records),
    )
}
