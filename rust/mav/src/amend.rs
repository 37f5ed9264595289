//! Amount change and withdrawal, in the caller's memory.

use crate::answer::{accepted, ask_flow, length, Accepted, Refusal};
use crate::raw;

/// Gives disposition `k`, counted from 1, the amount `cents`, and gives the numbers and the kind of the flow
/// left.
///
/// Refused as by [`read`](crate::read), then by
/// [`NoSuchDisposition`](crate::Reason::NoSuchDisposition),
/// [`NotAnAmount`](crate::Reason::NotAnAmount) and [`TotalTooLarge`](crate::Reason::TotalTooLarge).
/// It writes positions 34-46 of that disposition's record 14 and the total of the trailer, at 53-67 of
/// requests and at 68-82 of recalls, and no other byte; a refused call leaves every byte as it was.
///
/// ```
/// use mav::Reason;
///
/// let sample = include_bytes!(concat!(env!("CARGO_MANIFEST_DIR"), "/../../samples/two-rents.flow"));
/// let mut flow = *sample;
///
/// // An amount of zero or of fourteen digits is refused, and the flow is as before.
/// for cents in [0, 10_000_000_000_000] {
///     let refusal = mav::change(&mut flow, 2, cents).unwrap_err();
///     assert_eq!(refusal.reason, Reason::NotAnAmount);
///     assert_eq!(&flow, sample);
/// }
///
/// // Example 2 of document 01: the total becomes 85000.
/// let accepted = mav::change(&mut flow, 2, 40_000)?;
/// assert_eq!(accepted.to_string(), "accepted dispositions 2 cents 85000 records 16 kind requests");
/// assert_eq!(mav::find(&flow, 2)?.cents, 40_000);
/// # Ok::<(), mav::Refusal>(())
/// ```
pub fn change(flow: &mut [u8], k: u64, cents: u64) -> Result<Accepted, Refusal> {
    ask_flow(|answer| raw::change(flow, k, cents, answer)).map(|entries| accepted(&entries))
}

/// Takes disposition `k`, counted from 1, out of a flow, shortens the vector to the flow left, and gives
/// its numbers and its kind.
///
/// Refused as by [`read`](crate::read), then by
/// [`NoSuchDisposition`](crate::Reason::NoSuchDisposition) and
/// [`OnlyDisposition`](crate::Reason::OnlyDisposition). Later dispositions move up and are numbered anew.
/// A refused call leaves every byte as it was, and the flow keeps its length.
///
/// ```
/// use mav::Reason;
///
/// let mut flow = include_bytes!(concat!(env!("CARGO_MANIFEST_DIR"), "/../../samples/two-rents.flow")).to_vec();
///
/// // Example 3 of document 01: 1,080 bytes are left.
/// let left = mav::withdraw(&mut flow, 1)?;
/// assert_eq!(left.to_string(), "accepted dispositions 1 cents 38050 records 9 kind requests");
/// assert_eq!(flow.len(), 1_080);
/// assert_eq!(mav::read(&flow), Ok(left));
///
/// // Example 10: the only one cannot go, and the flow is as before.
/// assert_eq!(mav::withdraw(&mut flow, 1).unwrap_err().reason, Reason::OnlyDisposition);
/// assert_eq!(mav::read(&flow), Ok(left));
/// # Ok::<(), mav::Refusal>(())
/// ```
pub fn withdraw(flow: &mut Vec<u8>, k: u64) -> Result<Accepted, Refusal> {
    let left = withdraw_in_place(flow, k)?;
    // The blanks after the flow left are no part of it, and must not go out with it.
    flow.truncate(left.length);
    Ok(left.accepted)
}

/// What a withdrawal in place leaves.
#[derive(Clone, Copy, Debug, Eq, Hash, PartialEq)]
#[must_use = "only the first `length` bytes are still a flow, and blanks stand after them"]
pub struct Withdrawn {
    /// The numbers and the kind of the flow left.
    pub accepted: Accepted,
    /// Its length in bytes. The next call takes the first so many bytes of the slice.
    pub length: usize,
}

/// The same in memory that cannot be shortened: takes disposition `k` out, and gives the numbers, the kind
/// and the length of the flow left.
///
/// Refused as [`withdraw`] is. The freed bytes at the end become blanks: after that the slice is longer
/// than its flow, and only its first [`length`](Withdrawn::length) bytes are a flow. A refused call leaves
/// every byte as it was, and the flow keeps its length.
///
/// ```
/// use mav::Reason;
///
/// let mut flow = *include_bytes!(concat!(env!("CARGO_MANIFEST_DIR"), "/../../samples/two-rents.flow"));
///
/// // Example 3 of document 01: 1,080 bytes are left, and 840 blanks.
/// let left = mav::withdraw_in_place(&mut flow, 1)?;
/// assert_eq!(left.length, 1_080);
/// assert_eq!(left.accepted.to_string(), "accepted dispositions 1 cents 38050 records 9 kind requests");
/// assert_eq!(flow[1_080..], [b' '; 840]);
///
/// // The shorter flow is read at its own length. At the old one it is refused.
/// assert_eq!(mav::read(&flow[..left.length]), Ok(left.accepted));
/// assert_eq!(mav::read(&flow).unwrap_err().reason, Reason::RecordType);
/// # Ok::<(), mav::Refusal>(())
/// ```
pub fn withdraw_in_place(flow: &mut [u8], k: u64) -> Result<Withdrawn, Refusal> {
    let entries = ask_flow(|answer| raw::withdraw(flow, k, answer))?;
    Ok(Withdrawn {
        accepted: accepted(&entries),
        length: length(&entries),
    })
}
