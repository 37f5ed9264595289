//! Generated cases: right flows, request lists, lists of calls, of requests as
//! often as of recalls. The same seed gives the same cases.

use crate::damage::{damage_flow, damage_in_turn, damage_list};
use crate::fields::{amount, write_digits, MAX_AMOUNT, MAX_TOTAL, MIN_AMOUNT};
use crate::kind::FlowKind;
use crate::ledger::Call;
use crate::list::layout_in;
use crate::record::{field, field_mut, put, record_type, Record, BLANK_RECORD, RECORD_LEN};
use crate::rng::Rng;

/// A flow before its numbers and its trailer are filled in.
pub struct Draft {
    pub header: Record,
    pub dispositions: Vec<Vec<Record>>,
    /// The trailer's unchecked positions.
    pub trailer: Record,
}

impl Draft {
    /// The records in order, numbered, with a trailer that agrees. A total of
    /// more than 15 digits is given with its low ones.
    pub fn records(&self) -> Vec<Record> {
        let mut records = vec![self.header];
        for (index, disposition) in self.dispositions.iter().enumerate() {
            for record in disposition {
                let mut record = *record;
                write_digits(field_mut(&mut record, 4, 10), index as u64 + 1);
                records.push(record);
            }
        }
        let mut trailer = self.trailer;
        fill_trailer(&mut trailer, &records);
        records.push(trailer);
        records
    }

    /// The flow.
    pub fn flow(&self) -> Vec<u8> {
        self.records().concat()
    }

    /// The request list, from the records alone.
    pub fn list(&self) -> Vec<u8> {
        let records = self.records();
        let kind = kind_of(&records);
        let mut list = Vec::new();
        for record in &records {
            let Some(layout) = layout_in(kind, record) else {
                continue;
            };
            list.push(layout.kind);
            for &(first, last) in layout.carried {
                list.extend(field(record, first, last));
            }
        }
        list
    }

    fn set_cents(&mut self, index: usize, cents: u64) {
        if let Some(opening) = self.dispositions[index].first_mut() {
            write_digits(field_mut(opening, 34, 46), cents);
        }
    }
}

/// Makes a trailer agree with the records before it; its unchecked positions
/// stay. A total of more than 15 digits is given with its low ones.
pub(crate) fn fill_trailer(trailer: &mut Record, before: &[Record]) {
    put(trailer, 2, b"EF");
    if let Some(header) = before.first() {
        put(trailer, 4, field(header, 4, 39));
    }
    let openings = before.iter().filter(|r| record_type(r) == *b"14");
    let cents = openings.clone().map(cents_of).sum();
    write_digits(field_mut(trailer, 46, 52), openings.count() as u64);
    for ((first, last), due) in kind_of(before).totals(cents) {
        write_digits(field_mut(trailer, first, last), due);
    }
    write_digits(field_mut(trailer, 83, 89), before.len() as u64 + 1);
    put(trailer, 114, b"E");
}

/// The kind that the first record 14 tells; requests where it tells none.
pub(crate) fn kind_of(records: &[Record]) -> FlowKind {
    let opening = records.iter().find(|r| record_type(r) == *b"14");
    opening
        .and_then(|record| FlowKind::of_causale(field(record, 29, 33)))
        .unwrap_or_default()
}

/// The amount of a record 14; 0 if what stands there is none.
pub(crate) fn cents_of(record: &Record) -> u64 {
    amount(field(record, 34, 46)).unwrap_or(0)
}

/// A record of blanks with its type.
pub(crate) fn blank(kind: &[u8; 2]) -> Record {
    let mut record = BLANK_RECORD;
    put(&mut record, 2, kind);
    record
}

/// How a draft is to look.
#[derive(Clone, Copy)]
struct Style {
    kind: FlowKind,
    canonical: bool,
    /// The company code of every record 14, or blanks.
    company: [u8; 5],
}

/// How many dispositions a draft is to have.
#[derive(Clone, Copy, Debug, Eq, PartialEq)]
pub enum Size {
    /// Two, with every type of record.
    AllTypes,
    /// One to five.
    Small,
    /// Six to sixty.
    Medium,
    /// As many as make 546 records, the most that the small program holds.
    Program,
    /// 101 to 120 with a total at the limit of 15 digits, or a little below.
    Limit,
    /// 101 to 120 with a total above the limit: no right flow.
    AboveLimit,
}

impl Size {
    /// Mostly small; at the limit once in `limit` times.
    pub fn any(rng: &mut Rng, limit: u64) -> Size {
        if rng.one_in(limit) {
            return Size::Limit;
        }
        match rng.below(200) {
            0 => Size::Program,
            1..=9 => Size::Medium,
            _ => Size::Small,
        }
    }
}

/// A draft of this size.
pub fn draft(rng: &mut Rng, size: Size) -> Draft {
    let header = header(rng);
    let style = Style {
        kind: rng.pick(&FlowKind::ALL),
        canonical: rng.one_in(2),
        company: match rng.below(3) {
            0 => NO_CODE,
            _ => code(rng),
        },
    };
    let mut draft = Draft {
        header,
        dispositions: Vec::new(),
        trailer: BLANK_RECORD,
    };
    for records in sizes(rng, size) {
        let disposition = disposition(rng, &draft.header, style, records);
        draft.dispositions.push(disposition);
    }
    match size {
        // The second disposition has one record of detail, after four others.
        Size::AllTypes => put(&mut draft.dispositions[1][4], 2, b"50"),
        Size::Limit | Size::AboveLimit => fill_to_limit(rng, &mut draft, size),
        _ => {}
    }
    put(&mut draft.trailer, 40, field(&header, 40, 45));
    if !style.canonical {
        noise(rng, &mut draft.header, &UNUSED_IM);
        noise(rng, &mut draft.trailer, &UNUSED_EF);
    }
    draft
}

/// The record counts of the dispositions.
fn sizes(rng: &mut Rng, size: Size) -> Vec<usize> {
    let count = match size {
        Size::AllTypes => return vec![12, 7],
        Size::Small => rng.within(1, 5),
        Size::Medium => rng.within(6, 60),
        Size::Program => return sizes_of_544(rng),
        Size::Limit | Size::AboveLimit => rng.within(101, 120),
    };
    (0..count).map(|_| rng.within(7, 12) as usize).collect()
}

/// Record counts of 7 to 12 that make 544 in all.
fn sizes_of_544(rng: &mut Rng) -> Vec<usize> {
    let mut rest = 544;
    let mut sizes = Vec::new();
    while rest > 12 {
        let size = rng.within(7, 12) as usize;
        // What is left must be a sum of such counts again.
        if matches!(rest - size, 7..=12 | 14..) {
            sizes.push(size);
            rest -= size;
        }
    }
    sizes.push(rest);
    sizes
}

/// Amounts whose sum is at the limit, a little below, or above it: a hundred
/// of the largest, which make 99 less than the largest total, one that fills
/// up, and the least for all others.
fn fill_to_limit(rng: &mut Rng, draft: &mut Draft, size: Size) {
    let count = draft.dispositions.len();
    let others = (count as u64 - 101) * MIN_AMOUNT;
    let left = MAX_TOTAL - 100 * MAX_AMOUNT - others;
    let last = match size {
        Size::AboveLimit => rng.pick(&[left + 1, left + 2, MAX_AMOUNT]),
        _ => rng.pick(&[left, left, left - 1, MIN_AMOUNT]),
    };
    let start = rng.index(count);
    for step in 0..count {
        let cents = match step {
            0..100 => MAX_AMOUNT,
            100 => last,
            _ => MIN_AMOUNT,
        };
        draft.set_cents((start + step) % count, cents);
    }
}

fn header(rng: &mut Rng) -> Record {
    let mut record = blank(b"IM");
    put(&mut record, 4, &present(rng, 5));
    put(&mut record, 9, &digits(rng, 5));
    put(&mut record, 14, &date(rng));
    put(&mut record, 20, &present(rng, 20));
    put(&mut record, 40, &text(rng, 6));
    if rng.one_in(2) {
        put(&mut record, 105, b"1$");
        put(&mut record, 107, &digits(rng, 5));
    }
    put(&mut record, 114, b"E");
    record
}

/// A disposition of 7 to 12 records.
fn disposition(rng: &mut Rng, header: &Record, style: Style, records: usize) -> Vec<Record> {
    // Beside 16 and the one to five records of detail there are six.
    let with_16 = records == 12 || (records > 7 && rng.one_in(2));
    let details = records - 6 - usize::from(with_16);
    let mut block = vec![record_14(rng, header, style)];
    if with_16 {
        block.push(record_16(rng, header));
    }
    block.push(text_record(rng, b"20", 34, 106));
    block.push(text_record(rng, b"30", 40, 86));
    block.push(text_record(rng, b"40", 10, 120));
    if details == 1 && rng.one_in(2) {
        block.push(text_record(rng, b"50", 10, 120));
    } else {
        for _ in 0..details {
            block.push(text_record(rng, b"59", 65, 120));
        }
    }
    block.push(text_record(rng, b"51", 10, 120));
    block.push(record_70(rng));
    if !style.canonical {
        for record in &mut block {
            let unused = unused(record);
            noise(rng, record, unused);
        }
    }
    block
}

fn record_14(rng: &mut Rng, header: &Record, style: Style) -> Record {
    let mut record = blank(b"14");
    put(&mut record, 23, &date(rng));
    style.kind.put_in(&mut record);
    write_digits(field_mut(&mut record, 34, 46), cents(rng));
    put(&mut record, 48, field(header, 9, 13));
    if rng.one_in(2) {
        put(&mut record, 53, &digits(rng, 5));
    }
    put(&mut record, 58, &text(rng, 12));
    put(&mut record, 92, &style.company);
    put(&mut record, 97, &[rng.pick(b" 1234569")]);
    put(&mut record, 98, &text(rng, 16));
    put(&mut record, 120, b"E");
    record
}

fn record_16(rng: &mut Rng, header: &Record) -> Record {
    let mut record = blank(b"16");
    put(&mut record, 11, rng.pick(&[b"IT", b"SM"]));
    put(&mut record, 13, &digits(rng, 2));
    put(&mut record, 15, &present(rng, 1));
    put(&mut record, 16, field(header, 9, 13));
    let cab = rng.pick(&[1, 99_999, 3_200, 10_000]);
    write_digits(field_mut(&mut record, 21, 25), cab);
    put(&mut record, 26, &present(rng, 12));
    record
}

fn record_70(rng: &mut Rng) -> Record {
    let mut record = blank(b"70");
    put(&mut record, 94, &[rng.pick(b" PB")]);
    put(&mut record, 96, &text(rng, 25));
    record
}

/// A record whose text at 11 up to `obligatory` is present, and goes on up to
/// `last`.
fn text_record(rng: &mut Rng, kind: &[u8; 2], obligatory: usize, last: usize) -> Record {
    let mut record = blank(kind);
    put(&mut record, 11, &text(rng, last - 10));
    if obligatory > 10 {
        put(&mut record, 11, &present(rng, obligatory - 10));
    }
    record
}

/// The positions neither checked nor carried, which make a flow that is not
/// canonical (document 01, "Our request list").
const UNUSED_IM: [(usize, usize); 4] = [(1, 1), (46, 104), (112, 113), (115, 120)];
const UNUSED_EF: [(usize, usize); 4] = [(1, 1), (40, 45), (90, 113), (115, 120)];

pub(crate) fn unused(record: &Record) -> &'static [(usize, usize)] {
    match field(record, 2, 3) {
        b"IM" => &UNUSED_IM,
        b"EF" => &UNUSED_EF,
        b"14" => &[(1, 1), (11, 22), (70, 91), (114, 119)],
        b"16" => &[(1, 1), (38, 120)],
        b"20" => &[(1, 1), (107, 120)],
        b"30" => &[(1, 1), (87, 120)],
        b"70" => &[(1, 1), (11, 93), (95, 95)],
        _ => &[(1, 1)],
    }
}

/// Text at some of the unused positions.
fn noise(rng: &mut Rng, record: &mut Record, unused: &[(usize, usize)]) {
    for &(first, last) in unused {
        if rng.one_in(3) {
            put(record, first, &text(rng, last + 1 - first));
        }
    }
}

/// A right date, often at the end of a month.
fn date(rng: &mut Rng) -> Vec<u8> {
    const TELLING: [&[u8; 6]; 8] = [
        b"290200", b"290228", b"290296", b"280227", b"310126", b"300426", b"311299", b"010100",
    ];
    if rng.one_in(4) {
        return rng.pick(&TELLING).to_vec();
    }
    let (day, month, year) = (rng.within(1, 28), rng.within(1, 12), rng.below(100));
    format!("{day:02}{month:02}{year:02}").into_bytes()
}

/// A right amount, often at a limit.
fn cents(rng: &mut Rng) -> u64 {
    match rng.below(10) {
        0 | 1 => MIN_AMOUNT,
        2 => MAX_AMOUNT,
        3 => rng.within(MIN_AMOUNT, MAX_AMOUNT),
        4 => 10_u64.pow(rng.below(13) as u32),
        _ => rng.within(10_000, 120_000),
    }
}

fn digits(rng: &mut Rng, len: usize) -> Vec<u8> {
    match rng.below(10) {
        0 => vec![b'0'; len],
        1 => vec![b'9'; len],
        _ => (0..len).map(|_| b'0' + rng.below(10) as u8).collect(),
    }
}

/// No company code.
pub(crate) const NO_CODE: [u8; 5] = *b"     ";

/// A company code, with blanks inside or around it at times.
pub(crate) fn code(rng: &mut Rng) -> [u8; 5] {
    *rng.pick(&[
        b"AB123", b"AB123", b"Q7 XZ", b"A    ", b"    A", b"A   B", b"~    ", b"    1", b"00000",
        b"aBc d",
    ])
}

/// Any text, blank at times.
fn text(rng: &mut Rng, len: usize) -> Vec<u8> {
    if rng.one_in(3) {
        return vec![b' '; len];
    }
    present(rng, len)
}

/// Text that is not all blank, so of one byte at least.
fn present(rng: &mut Rng, len: usize) -> Vec<u8> {
    let mut bytes = vec![b' '; len];
    let (first, last) = match rng.below(4) {
        0 => (0, len),
        1 => (len - 1, len),
        _ => (0, 1 + rng.index(len)),
    };
    let any = rng.one_in(4);
    for byte in &mut bytes[first..last] {
        *byte = match any {
            true => rng.within(32, 126) as u8,
            false => rng.pick(b"ABCDEFGHILMNOPRSTUVZ0123456789 ./-"),
        };
    }
    let place = if first == 0 { rng.index(last) } else { first };
    bytes[place] = rng.within(33, 126) as u8;
    bytes
}

/// Flow `index` of a seed: every third has one field damaged in turn, the
/// others are right or damaged at random.
pub fn flow_case(seed: u64, index: u64) -> Vec<u8> {
    let mut rng = Rng::for_case(seed, index);
    if !index.is_multiple_of(3) {
        return flow(&mut rng);
    }
    let mut flow = draft(&mut rng, Size::AllTypes).flow();
    damage_in_turn(&mut rng, index / 3, &mut flow);
    flow
}

/// Flows at the edges of a record's length and of the small program's: 0, 1,
/// 119, 120 and 121 bytes of a right flow, the whole of it with the 65,520
/// bytes that the program holds, the same with the last digit of its trailer
/// wrong, with a line feed more, and with a record more.
pub fn edge_flows(seed: u64) -> Vec<Vec<u8>> {
    let right = draft(&mut Rng::for_case(seed, 0), Size::Program).flow();
    let mut flows: Vec<Vec<u8>> = [
        0,
        1,
        RECORD_LEN - 1,
        RECORD_LEN,
        RECORD_LEN + 1,
        right.len(),
    ]
    .map(|len| right[..len].to_vec())
    .into();
    let mut wrong = right.clone();
    let (records, _) = wrong.as_chunks_mut::<RECORD_LEN>();
    if let Some(trailer) = records.last_mut() {
        // The 546 of the record count becomes 547.
        put(trailer, 89, b"7");
    }
    flows.push(wrong);
    flows.push([&right[..], b"\n"].concat());
    flows.push([&right[..], &BLANK_RECORD].concat());
    flows
}

/// A flow, right or damaged.
pub fn flow(rng: &mut Rng) -> Vec<u8> {
    let size = match rng.below(300) {
        0 => Size::AboveLimit,
        _ => Size::any(rng, 300),
    };
    let mut flow = draft(rng, size).flow();
    for _ in 0..rng.pick(&[0, 0, 0, 1, 1, 1, 1, 1, 1, 2, 2, 2, 3]) {
        damage_flow(rng, &mut flow);
    }
    flow
}

/// A flow for the questions and changes: mostly right, more often at the
/// limit.
pub fn flow_to_amend(rng: &mut Rng) -> Vec<u8> {
    let size = Size::any(rng, 15);
    let mut flow = draft(rng, size).flow();
    if rng.one_in(4) {
        damage_flow(rng, &mut flow);
    }
    flow
}

/// A request list, right or damaged.
pub fn list(rng: &mut Rng) -> Vec<u8> {
    let size = match rng.below(30) {
        0 => Size::AboveLimit,
        _ => Size::any(rng, 100),
    };
    let mut list = draft(rng, size).list();
    for _ in 0..rng.pick(&[0, 0, 1, 1, 1, 2]) {
        damage_list(rng, &mut list);
    }
    list
}

/// The number of a disposition, for a flow of about `count`: also 0, above
/// the count, or as large as can be.
pub fn disposition_number(rng: &mut Rng, count: u64) -> u64 {
    match rng.below(16) {
        0 => 0,
        1 => count + 1,
        2 => u64::MAX,
        3 => rng.bits(),
        4 => count,
        5 => 1,
        _ => rng.within(1, count),
    }
}

/// A new amount: also 0 and the least, at the limit, above it, or as large as
/// can be.
pub fn new_amount(rng: &mut Rng) -> u64 {
    match rng.below(20) {
        0 => MAX_AMOUNT + 1,
        1 => u64::MAX,
        2 => rng.bits(),
        3 => MAX_TOTAL,
        4 | 5 => MAX_AMOUNT,
        6 => rng.below(200),
        7..=9 => 0,
        10 => MIN_AMOUNT,
        _ => cents(rng),
    }
}

/// A list of up to `most` calls on a flow of `count` dispositions.
pub fn calls(rng: &mut Rng, count: u64, most: u64) -> Vec<Call> {
    let calls = rng.within(0, most);
    (0..calls).map(|_| call(rng, count)).collect()
}

fn call(rng: &mut Rng, count: u64) -> Call {
    let k = disposition_number(rng, count);
    if rng.one_in(2) {
        Call::Withdraw { k }
    } else {
        let cents = new_amount(rng);
        Call::Change { k, cents }
    }
}
