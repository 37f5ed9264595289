//! The kinds of flow.

use std::fmt;

use crate::answer::foreign;

/// What a flow is for: new requests, or recalls of requests already sent. The two may not share a flow. Later
/// versions add kinds.
///
/// [`Display`](fmt::Display) gives the word of the small program.
///
/// ```
/// let flow = include_bytes!(concat!(env!("CARGO_MANIFEST_DIR"), "/../../samples/two-rents-recall.flow"));
///
/// let kind = mav::read(flow)?.kind;
/// assert_eq!(kind, mav::FlowKind::Recalls);
/// assert_eq!(kind.to_string(), "recalls");
/// # Ok::<(), mav::Refusal>(())
/// ```
#[derive(Clone, Copy, Debug, Eq, Hash, PartialEq)]
#[non_exhaustive]
pub enum FlowKind {
    /// New requests: causale 07000, sign -, the trailer's total at 53-67, a list that opens with H.
    Requests,
    /// Recalls of requests already sent: causale 07100, sign +, the total at 68-82, a list that opens with Q.
    Recalls,
}

impl FlowKind {
    /// The kind with a number that the library gave with an accepted flow: by the contracts of the crate `capi`
    /// it is one that `kind_entry` has, in crates/capi/specs/Returned.antt.
    pub(crate) fn from_entry(entry: u64) -> FlowKind {
        match entry {
            1 => FlowKind::Requests,
            2 => FlowKind::Recalls,
            other => foreign("kind of flow", other),
        }
    }
}

impl fmt::Display for FlowKind {
    fn fmt(&self, f: &mut fmt::Formatter<'_>) -> fmt::Result {
        f.pad(match self {
            FlowKind::Requests => "requests",
            FlowKind::Recalls => "recalls",
        })
    }
}

#[cfg(test)]
mod tests {
    use super::*;

    #[test]
    fn the_kinds_are_those_of_entry_4() {
        let kinds = [1, 2].map(FlowKind::from_entry);
        assert_eq!(kinds, [FlowKind::Requests, FlowKind::Recalls]);
        assert_eq!(
            format!("{:<9}|{:>9}", kinds[0], kinds[1]),
            "requests |  recalls"
        );
    }

    /// What a call without a kind, or a library from before the kinds, has there.
    #[test]
    #[should_panic(expected = "it gave the kind of flow 0")]
    fn no_kind_is_never_shown_as_one() {
        let _ = FlowKind::from_entry(0);
    }

    #[test]
    #[should_panic(expected = "it gave the kind of flow 3")]
    fn a_kind_of_later_is_never_shown_as_another() {
        let _ = FlowKind::from_entry(3);
    }

    /// One that a cast to 32 bits would take for 1.
    #[test]
    #[should_panic(expected = "it gave the kind of flow 4294967297")]
    fn a_kind_is_compared_whole() {
        let _ = FlowKind::from_entry((1 << 32) + 1);
    }
}
