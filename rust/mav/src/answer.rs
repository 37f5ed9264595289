//! What a call gives: the numbers and the kind of a flow, or a refusal; and how both are taken from the
//! eight entries of an answer.

use std::error::Error;
use std::fmt;

use crate::kind::FlowKind;
use crate::raw::Entries;
use crate::reason::Reason;

/// The three numbers of an accepted flow, and its kind.
///
/// [`Display`](fmt::Display) gives the line of the small program.
///
/// ```
/// let flow = include_bytes!(concat!(env!("CARGO_MANIFEST_DIR"), "/../../samples/two-rents.flow"));
///
/// let accepted = mav::read(flow)?;
/// assert_eq!(accepted, mav::Accepted {
///     dispositions: 2,
///     cents: 83_050,
///     records: 16,
///     kind: mav::FlowKind::Requests,
/// });
/// assert_eq!(accepted.to_string(), "accepted dispositions 2 cents 83050 records 16 kind requests");
/// # Ok::<(), mav::Refusal>(())
/// ```
#[derive(Clone, Copy, Debug, Eq, Hash, PartialEq)]
pub struct Accepted {
    /// How many dispositions the flow has.
    pub dispositions: u64,
    /// The sum of their amounts.
    pub cents: u64,
    /// How many records the flow has, header and trailer counted.
    pub records: u64,
    /// New requests or recalls.
    pub kind: FlowKind,
}

impl fmt::Display for Accepted {
    fn fmt(&self, f: &mut fmt::Formatter<'_>) -> fmt::Result {
        let Accepted {
            dispositions,
            cents,
            records,
            kind,
        } = self;
        write!(
            f,
            "accepted dispositions {dispositions} cents {cents} records {records} kind {kind}"
        )
    }
}

/// A refused call: its first fault in the documents' order. Nothing was changed.
///
/// [`Display`](fmt::Display) gives the line of the small program, a colon, and the reason's sentence.
///
/// ```
/// use mav::{Reason, Refusal};
///
/// // IM alone: example 5 of document 01.
/// let flow = include_bytes!(concat!(env!("CARGO_MANIFEST_DIR"), "/../../samples/two-rents.flow"));
/// let refusal = mav::read(&flow[..120]).unwrap_err();
/// assert_eq!(refusal, Refusal { reason: Reason::Ended, record: 2, position: 0 });
/// assert_eq!(
///     refusal.to_string(),
///     "refused 4 record 2 position 0: the flow ends where one more record is due",
/// );
/// ```
#[derive(Clone, Copy, Debug, Eq, Hash, PartialEq)]
pub struct Refusal {
    /// Why.
    pub reason: Reason,
    /// The record from 1, or the item of a list from 1; 0 where the refusal has no place.
    pub record: u64,
    /// The first position of the field, from 1 to 120; 0 where the refusal has none.
    pub position: u64,
}

impl fmt::Display for Refusal {
    fn fmt(&self, f: &mut fmt::Formatter<'_>) -> fmt::Result {
        let Refusal {
            reason,
            record,
            position,
        } = self;
        let number = reason.number();
        write!(
            f,
            "refused {number} record {record} position {position}: {reason}"
        )
    }
}

impl Error for Refusal {}

/// Makes a call with room for its answer, and gives the eight entries where it is accepted, else the
/// number, the record and the position of its refusal.
pub(crate) fn ask(call: impl FnOnce(&mut Entries) -> u8) -> Result<Entries, (Reason, u64, u64)> {
    let mut entries = [0; 8];
    match call(&mut entries) {
        1 => Ok(entries),
        0 => Err((reason(entries[0]), entries[1], entries[2])),
        status => foreign("status", status.into()),
    }
}

/// The same of a call whose refusal has a record and a position.
pub(crate) fn ask_flow(call: impl FnOnce(&mut Entries) -> u8) -> Result<Entries, Refusal> {
    ask(call).map_err(|(reason, record, position)| Refusal {
        reason,
        record,
        position,
    })
}

/// The three numbers of a flow and its kind, from an accepted answer.
pub(crate) fn accepted(entries: &Entries) -> Accepted {
    Accepted {
        dispositions: entries[0],
        cents: entries[1],
        records: entries[2],
        kind: FlowKind::from_entry(entries[4]),
    }
}

/// The length of an accepted answer. It is at most the length of a slice of the call.
pub(crate) fn length(entries: &Entries) -> usize {
    usize::try_from(entries[3]).unwrap_or_else(|_| foreign("length", entries[3]))
}

/// The reason with a number that the library gave.
///
/// Every number that a call can give is one of the table: the field `numbers` of `Demand1`, in
/// crates/claims/specs/Demand1.antt, lists them call by call and is proved, and by the contracts of the
/// crate `capi` it is that number which stands in the answer.
fn reason(number: u64) -> Reason {
    Reason::from_number(number).unwrap_or_else(|| foreign("refusal number", number))
}

/// Ends a call that was answered as the contracts rule out: the archive is not the one of these bindings.
#[cold]
pub(crate) fn foreign(what: &str, value: u64) -> ! {
    panic!(
        "the linked archive libcapi.a is not the one of these bindings: it gave the {what} {value}"
    )
}

#[cfg(test)]
mod tests {
    use super::*;

    #[test]
    #[should_panic(expected = "it gave the refusal number 19")]
    fn a_number_outside_the_table_is_never_shown_as_another() {
        let _ = ask(|entries| {
            entries[0] = 19;
            0
        });
    }

    #[test]
    fn the_kind_is_entry_4() {
        let told = accepted(&[2, 83_050, 16, 1_920, 2, 0, 0, 0]);
        assert_eq!(told.kind, FlowKind::Recalls);
        assert_eq!(
            (told.dispositions, told.cents, told.records),
            (2, 83_050, 16)
        );
    }

    #[test]
    #[should_panic(expected = "it gave the kind of flow 0")]
    fn an_accepted_flow_has_a_kind() {
        let _ = accepted(&[2, 83_050, 16, 0, 0, 0, 0, 0]);
    }

    #[test]
    #[should_panic(expected = "it gave the status 2")]
    fn a_status_is_one_or_zero() {
        let _ = ask(|_| 2);
    }
}
