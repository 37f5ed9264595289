//! The request list: written to a flow, and a flow read back to its list; and the room that each needs.

use crate::answer::{accepted, ask_flow, length, Accepted, Refusal};
use crate::item::items;
use crate::limits::{MAX_FLOW_LENGTH, MAX_ITEM_LENGTH, RECORD_LENGTH};
use crate::raw;

/// What writing or reading back has put at the front of an output.
#[derive(Clone, Copy, Debug, Eq, Hash, PartialEq)]
#[must_use = "only the first `length` bytes of the output were written"]
pub struct Written {
    /// The numbers and the kind of the flow, written or read.
    pub accepted: Accepted,
    /// How many bytes were written. The output beyond them is as it was.
    pub length: usize,
}

impl Written {
    fn of(entries: &raw::Entries) -> Written {
        Written {
            accepted: accepted(entries),
            length: length(entries),
        }
    }
}

/// Writes the flow that a request list encodes at the front of `out`: of new requests where the list opens
/// with H, of recalls where it opens with Q.
///
/// Refused by [`Item`](crate::Reason::Item), then by [`Length`](crate::Reason::Length) where the flow
/// would have more than [`MAX_RECORDS`](crate::MAX_RECORDS) records, then by
/// [`Room`](crate::Reason::Room) where `out` is shorter than [`flow_room`], then as [`read`](crate::read)
/// refuses the records but the trailer, or by [`RecordType`](crate::Reason::RecordType) where the trailer
/// may not stand, then by [`TotalTooLarge`](crate::Reason::TotalTooLarge). The call itself numbers the
/// records, gives them the kind of their header and writes the trailer, so that the numbers 4, 9, 12 to 14
/// and 22 cannot come. The list is judged whole before a byte is written.
///
/// ```
/// use mav::Reason;
///
/// let list = include_bytes!(concat!(env!("CARGO_MANIFEST_DIR"), "/../../samples/two-rents.list"));
/// let flow = include_bytes!(concat!(env!("CARGO_MANIFEST_DIR"), "/../../samples/two-rents.flow"));
/// let mut out = [b'#'; 2_000];
///
/// // One byte too short: refused, and nothing is written.
/// assert_eq!(mav::write(list, &mut out[..1_919]).unwrap_err().reason, Reason::Room);
/// assert_eq!(out, [b'#'; 2_000]);
///
/// let written = mav::write(list, &mut out)?;
/// assert_eq!(written.length, 1_920);
/// assert_eq!(written.accepted.to_string(), "accepted dispositions 2 cents 83050 records 16 kind requests");
/// assert_eq!(&out[..1_920], flow);
/// assert_eq!(out[1_920..], [b'#'; 80]);
/// # Ok::<(), mav::Refusal>(())
/// ```
pub fn write(list: &[u8], out: &mut [u8]) -> Result<Written, Refusal> {
    ask_flow(|answer| raw::write(list, out, answer)).map(|entries| Written::of(&entries))
}

/// Writes the request list of a flow at the front of `out`. It opens with H, that of recalls with Q.
///
/// Refused as by [`read`](crate::read), then by [`Room`](crate::Reason::Room) where `out` is shorter than
/// the list. [`list_room`] is always enough.
///
/// ```
/// let flow = include_bytes!(concat!(env!("CARGO_MANIFEST_DIR"), "/../../samples/two-rents.flow"));
/// let list = include_bytes!(concat!(env!("CARGO_MANIFEST_DIR"), "/../../samples/two-rents.list"));
/// let mut out = vec![0; mav::list_room(flow.len())];
///
/// // An H of 50 bytes, then twice D, C, B, A, R, K and Z of 59 + 97 + 77 + 3 * 111 + 27 bytes.
/// let written = mav::read_back(flow, &mut out)?;
/// assert_eq!(written.length, 1_236);
/// assert_eq!(&out[..written.length], list);
///
/// let recall = include_bytes!(concat!(env!("CARGO_MANIFEST_DIR"), "/../../samples/two-rents-recall.flow"));
/// assert_eq!(mav::read_back(recall, &mut out)?.accepted.kind, mav::FlowKind::Recalls);
/// assert_eq!((out[0], &out[1..1_236]), (b'Q', &list[1..]));
/// # Ok::<(), mav::Refusal>(())
/// ```
pub fn read_back(flow: &[u8], out: &mut [u8]) -> Result<Written, Refusal> {
    ask_flow(|answer| raw::list(flow, out, answer)).map(|entries| Written::of(&entries))
}

/// The flow that a request list encodes, in memory of its own, with its numbers and its kind.
///
/// Refused as by [`write`](fn@write), but never by [`Room`](crate::Reason::Room): it makes the room of
/// [`flow_room`] first, also for a list that is then refused.
///
/// ```
/// use mav::Reason;
///
/// let list = include_bytes!(concat!(env!("CARGO_MANIFEST_DIR"), "/../../samples/two-rents.list"));
/// let (accepted, flow) = mav::write_to_vec(list)?;
/// assert_eq!(flow.len(), 1_920);
/// assert_eq!(mav::read(&flow), Ok(accepted));
///
/// // An empty list: the trailer may not stand alone.
/// let refusal = mav::write_to_vec(&[]).unwrap_err();
/// assert_eq!((refusal.reason, refusal.record, refusal.position), (Reason::RecordType, 1, 2));
/// # Ok::<(), mav::Refusal>(())
/// ```
pub fn write_to_vec(list: &[u8]) -> Result<(Accepted, Vec<u8>), Refusal> {
    let mut out = vec![0; flow_room(list)];
    let written = write(list, &mut out)?;
    out.truncate(written.length);
    Ok((written.accepted, out))
}

/// The request list of a flow, in memory of its own, with the flow's numbers and kind.
///
/// Refused as by [`read`](crate::read), and never by [`Room`](crate::Reason::Room): it makes the room of
/// [`list_room`] first, also for a flow that is then refused.
///
/// ```
/// let flow = include_bytes!(concat!(env!("CARGO_MANIFEST_DIR"), "/../../samples/two-rents.flow"));
/// let (accepted, list) = mav::read_back_to_vec(flow)?;
/// assert_eq!((accepted.dispositions, list.len()), (2, 1_236));
///
/// // A canonical flow comes again byte for byte.
/// let (_, again) = mav::write_to_vec(&list)?;
/// assert_eq!(again, flow);
/// # Ok::<(), mav::Refusal>(())
/// ```
pub fn read_back_to_vec(flow: &[u8]) -> Result<(Accepted, Vec<u8>), Refusal> {
    let mut out = vec![0; list_room(flow.len())];
    let written = read_back(flow, &mut out)?;
    out.truncate(written.length);
    Ok((written.accepted, out))
}

/// The room that writing a list needs: 120 bytes for each item and 120 for the trailer.
///
/// It counts the whole items at the front of the list, and is never more than
/// [`MAX_FLOW_LENGTH`]. So with this room [`write`](fn@write) is never refused by
/// [`Room`](crate::Reason::Room): a list with anything else after its items, or with too many of them, is
/// refused by a reason that comes first. The count is not part of the proved library. Were it wrong, a
/// call would be refused and write nothing.
///
/// ```
/// let list = include_bytes!(concat!(env!("CARGO_MANIFEST_DIR"), "/../../samples/two-rents.list"));
/// assert_eq!(mav::flow_room(list), 1_920);
///
/// // Example 9 of document 01: a list of one disposition has 643 bytes and encodes 1,080.
/// assert_eq!(mav::flow_room(&list[..643]), 1_080);
/// assert_eq!(mav::flow_room(&[]), 120);
/// ```
#[must_use = "it only counts: the caller makes the room"]
pub fn flow_room(list: &[u8]) -> usize {
    items(list)
        .count()
        .saturating_add(1)
        .saturating_mul(RECORD_LENGTH)
        .min(MAX_FLOW_LENGTH)
}

/// A room that is enough for the list of any accepted flow of this length.
///
/// Each record but the trailer has one item, of at most [`MAX_ITEM_LENGTH`] bytes. So a list is always
/// shorter than its flow, and an output as long as the flow is enough too.
///
/// ```
/// // Fifteen items.
/// assert_eq!(mav::list_room(1_920), 1_665);
/// assert_eq!(mav::list_room(0), 0);
/// ```
#[must_use = "it only counts: the caller makes the room"]
pub const fn list_room(flow_length: usize) -> usize {
    let longest = if flow_length < MAX_FLOW_LENGTH {
        flow_length
    } else {
        MAX_FLOW_LENGTH
    };
    (longest / RECORD_LENGTH).saturating_sub(1) * MAX_ITEM_LENGTH
}

#[cfg(test)]
mod tests {
    use super::*;

    #[test]
    fn room_stops_at_the_longest_flow() {
        assert_eq!(list_room(usize::MAX), list_room(MAX_FLOW_LENGTH));
        assert_eq!(list_room(119), 0);
        assert_eq!(list_room(239), 0);
        assert_eq!(list_room(240), 111);
    }
}
