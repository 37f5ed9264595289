//! The request list: its items, writing a list to a flow, reading a flow
//! back to its list (document 01, "Our request list"; document 02, E1).

use std::ops::Range;

use crate::answer::{number, Accepted, Answer, Refusal};
use crate::fields::{write_digits, MAX_TOTAL};
use crate::kind::FlowKind;
use crate::reader::{judge, Walk};
use crate::record::{
    field, field_mut, put, record_type, Record, BLANK_RECORD, MAX_RECORDS, RECORD_LEN,
};

/// One row of document 01's table of kinds.
#[derive(Debug, Eq, PartialEq)]
pub struct Layout {
    /// The kind byte of an item.
    pub kind: u8,
    /// The record type at 2-3.
    pub record: [u8; 2],
    /// The carried positions, in order, as first and last position.
    pub carried: &'static [(usize, usize)],
}

impl Layout {
    /// The length of an item's body.
    pub const fn body_len(&self) -> usize {
        let mut len = 0;
        let mut i = 0;
        while i < self.carried.len() {
            len += self.carried[i].1 + 1 - self.carried[i].0;
            i += 1;
        }
        len
    }
}

const fn layout(kind: u8, record: &[u8; 2], carried: &'static [(usize, usize)]) -> Layout {
    Layout {
        kind,
        record: *record,
        carried,
    }
}

/// The layout of the header's item in a flow of this kind: the kinds differ in
/// the kind byte alone.
const fn header_of(kind: FlowKind) -> Layout {
    layout(kind.row().letter, b"IM", &[(4, 45), (105, 111)])
}

static H: Layout = header_of(FlowKind::Requests);
static Q: Layout = header_of(FlowKind::Recalls);
static D: Layout = layout(b'D', b"14", &[(23, 28), (34, 46), (53, 69), (92, 113)]);
static S: Layout = layout(b'S', b"16", &[(11, 37)]);
static C: Layout = layout(b'C', b"20", &[(11, 106)]);
static B: Layout = layout(b'B', b"30", &[(11, 86)]);
static A: Layout = layout(b'A', b"40", &[(11, 120)]);
static R: Layout = layout(b'R', b"50", &[(11, 120)]);
static X: Layout = layout(b'X', b"59", &[(11, 120)]);
static K: Layout = layout(b'K', b"51", &[(11, 120)]);
static Z: Layout = layout(b'Z', b"70", &[(94, 94), (96, 120)]);

/// The layout of a kind of item, if there is such a kind.
pub fn layout_of_kind(kind: u8) -> Option<&'static Layout> {
    if let Some(kind) = FlowKind::of_letter(kind) {
        return Some(header_layout(kind));
    }
    Some(match kind {
        b'D' => &D,
        b'S' => &S,
        b'C' => &C,
        b'B' => &B,
        b'A' => &A,
        b'R' => &R,
        b'X' => &X,
        b'K' => &K,
        b'Z' => &Z,
        _ => return None,
    })
}

fn header_layout(kind: FlowKind) -> &'static Layout {
    match kind {
        FlowKind::Requests => &H,
        FlowKind::Recalls => &Q,
    }
}

/// The layout of a record's item in a flow of this kind; the trailer has none.
pub(crate) fn layout_in(kind: FlowKind, record: &Record) -> Option<&'static Layout> {
    Some(match &record_type(record) {
        b"IM" => header_layout(kind),
        b"14" => &D,
        b"16" => &S,
        b"20" => &C,
        b"30" => &B,
        b"40" => &A,
        b"50" => &R,
        b"59" => &X,
        b"51" => &K,
        b"70" => &Z,
        _ => return None,
    })
}

/// The layout of a record's item, of a header that of a request flow; the
/// trailer has none.
pub fn layout_of_record(record: &Record) -> Option<&'static Layout> {
    layout_in(FlowKind::Requests, record)
}

/// One item of a request list.
#[derive(Clone, Copy, Debug)]
pub struct Item<'a> {
    pub layout: &'static Layout,
    pub body: &'a [u8],
}

/// The items of a request list in order. An unknown kind or a body cut short
/// gives one `Err` with the item's number from 1, and ends the items.
pub struct Items<'a> {
    rest: &'a [u8],
    seen: u64,
}

/// The items of a request list.
pub fn items(list: &[u8]) -> Items<'_> {
    Items {
        rest: list,
        seen: 0,
    }
}

impl<'a> Iterator for Items<'a> {
    type Item = Result<Item<'a>, u64>;

    fn next(&mut self) -> Option<Self::Item> {
        let (&kind, rest) = self.rest.split_first()?;
        self.seen += 1;
        let item = layout_of_kind(kind).and_then(|layout| {
            let (body, rest) = rest.split_at_checked(layout.body_len())?;
            self.rest = rest;
            Some(Item { layout, body })
        });
        if item.is_none() {
            self.rest = &[];
        }
        Some(item.ok_or(self.seen))
    }
}

/// Writes the flow that a list encodes to the front of `out`, and gives the
/// length written: 20, 1, 21, the reader's refusals, 3 at the trailer's
/// place, 17. A refused call writes nothing and gives the length 0.
pub fn write_flow(list: &[u8], out: &mut [u8]) -> (Answer, usize) {
    match try_write_flow(list, out) {
        Ok((accepted, len)) => (accepted.into(), len),
        Err(refusal) => (refusal.into(), 0),
    }
}

fn try_write_flow(list: &[u8], out: &mut [u8]) -> Result<(Accepted, usize), Refusal> {
    let records = count_items(list)? + 1;
    if records > MAX_RECORDS {
        return Err(Refusal::of_call(number::LENGTH));
    }
    let len = records as usize * RECORD_LEN;
    let room = out.get_mut(..len).ok_or(Refusal::of_call(number::OUTPUT))?;
    let accepted = judge_items(list, records)?;
    encode(list, &accepted, room);
    Ok((accepted, len))
}

/// The number of items, or 20 at the first that is none.
fn count_items(list: &[u8]) -> Result<u64, Refusal> {
    let mut count = 0;
    for item in items(list) {
        item.map_err(|record| Refusal {
            number: number::ITEM,
            record,
            position: 0,
        })?;
        count += 1;
    }
    Ok(count)
}

/// What the reader answers of the flow that a list of whole items encodes; or
/// its refusal of the records, 3 at the trailer's place, or 17.
fn judge_items(list: &[u8], records: u64) -> Result<Accepted, Refusal> {
    let mut walk = Walk::new();
    let mut encoder = Encoder::default();
    let mut header = None;
    for item in items(list).flatten() {
        let record = encoder.record(&item);
        walk.step(header.get_or_insert(record), &record)?;
    }
    walk.may_end()?;
    let (dispositions, cents) = walk.totals();
    if cents > MAX_TOTAL {
        return Err(Refusal::of_call(number::TOTAL_LIMIT));
    }
    Ok(Accepted {
        dispositions,
        cents,
        records,
        kind: encoder.kind(),
    })
}

/// Fills `out` with the records of the items in order and the trailer with
/// these numbers after them, as far as there is room.
fn encode(list: &[u8], accepted: &Accepted, out: &mut [u8]) {
    let (records, _) = out.as_chunks_mut::<RECORD_LEN>();
    let mut encoder = Encoder::default();
    if let Some((trailer, records)) = records.split_last_mut() {
        for (record, item) in records.iter_mut().zip(items(list).flatten()) {
            *record = encoder.record(&item);
        }
        *trailer = encoder.trailer(accepted);
    }
}

/// What encoding carries from item to item.
#[derive(Default)]
struct Encoder<'a> {
    /// Kind and body of the latest header's item.
    header: Option<(FlowKind, &'a [u8])>,
    dispositions: u64,
}

impl<'a> Encoder<'a> {
    /// The kind that the latest H or Q gives.
    fn kind(&self) -> FlowKind {
        self.header.map(|(kind, _)| kind).unwrap_or_default()
    }

    /// Some of the carried bytes of the latest header's item.
    fn of_header(&self, bytes: Range<usize>) -> Option<&'a [u8]> {
        self.header.and_then(|(_, body)| body.get(bytes))
    }

    /// The record of the next item.
    fn record(&mut self, item: &Item<'a>) -> Record {
        let letter = item.layout.kind;
        if let Some(kind) = FlowKind::of_letter(letter) {
            self.header = Some((kind, item.body));
        }
        self.dispositions += u64::from(letter == D.kind);
        let mut record = self.fixed(item.layout);
        let mut rest = item.body;
        for &(first, last) in item.layout.carried {
            let place = field_mut(&mut record, first, last);
            if let Some((bytes, after)) = rest.split_at_checked(place.len()) {
                place.copy_from_slice(bytes);
                rest = after;
            }
        }
        record
    }

    /// A record of this layout before its carried bytes: blanks, type,
    /// number, fixed values and the ABI.
    fn fixed(&self, layout: &Layout) -> Record {
        let mut record = BLANK_RECORD;
        put(&mut record, 2, &layout.record);
        if layout.record == H.record {
            put(&mut record, 114, b"E");
            return record;
        }
        write_digits(field_mut(&mut record, 4, 10), self.dispositions);
        if layout.kind == D.kind {
            self.kind().put_in(&mut record);
            // The header's 9-13 are the sixth to tenth of its carried bytes.
            if let Some(abi) = self.of_header(5..10) {
                put(&mut record, 48, abi);
            }
            put(&mut record, 120, b"E");
        }
        record
    }

    /// The trailer after all items.
    fn trailer(&self, accepted: &Accepted) -> Record {
        let mut record = BLANK_RECORD;
        put(&mut record, 2, b"EF");
        // The header's 4-45 are the first of its carried bytes.
        if let Some(carried) = self.of_header(0..42) {
            put(&mut record, 4, carried);
        }
        write_digits(field_mut(&mut record, 46, 52), accepted.dispositions);
        for ((first, last), due) in accepted.kind.totals(accepted.cents) {
            write_digits(field_mut(&mut record, first, last), due);
        }
        write_digits(field_mut(&mut record, 83, 89), accepted.records);
        put(&mut record, 114, b"E");
        record
    }
}

/// Writes an accepted flow's own list to the front of `out`, and gives the
/// length written: the reader's refusals, then 21. A refused call writes
/// nothing and gives the length 0.
pub fn write_list(flow: &[u8], out: &mut [u8]) -> (Answer, usize) {
    match try_write_list(flow, out) {
        Ok((accepted, len)) => (accepted.into(), len),
        Err(refusal) => (refusal.into(), 0),
    }
}

fn try_write_list(flow: &[u8], out: &mut [u8]) -> Result<(Accepted, usize), Refusal> {
    let accepted = judge(flow)?;
    let (records, _) = flow.as_chunks::<RECORD_LEN>();
    let layouts = || {
        let layout = |record| layout_in(accepted.kind, record).map(|layout| (record, layout));
        records.iter().filter_map(layout)
    };
    let len = layouts().map(|(_, layout)| 1 + layout.body_len()).sum();
    let mut room = out.get_mut(..len).ok_or(Refusal::of_call(number::OUTPUT))?;
    for (record, layout) in layouts() {
        room = append(room, &[layout.kind]);
        for &(first, last) in layout.carried {
            room = append(room, field(record, first, last));
        }
    }
    Ok((accepted, len))
}

/// Copies `bytes` to the front of `room`, and gives the room after them.
fn append<'a>(room: &'a mut [u8], bytes: &[u8]) -> &'a mut [u8] {
    match room.split_at_mut_checked(bytes.len()) {
        Some((front, rest)) => {
            front.copy_from_slice(bytes);
            rest
        }
        None => &mut [],
    }
}

/// Whether a flow is accepted and equals what its own list encodes.
pub fn is_canonical(flow: &[u8]) -> bool {
    let mut list = vec![0; flow.len()];
    let Ok((accepted, len)) = try_write_list(flow, &mut list) else {
        return false;
    };
    list.truncate(len);
    let mut again = vec![0; flow.len()];
    encode(&list, &accepted, &mut again);
    again == flow
}
