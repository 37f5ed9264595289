//! Damage to flows and request lists, in every way a rule can be broken.

use std::ops::Range;

use crate::fields::{digits, write_digits};
use crate::generate::{cents_of, code, kind_of, unused, NO_CODE};
use crate::kind::FlowKind;
use crate::ledger::CENTS;
use crate::list::{items, Item};
use crate::record::{field, field_mut, put, record_type, Record, RECORD_LEN};
use crate::rng::Rng;

/// First and last position of a field.
type Field = (usize, usize);

/// The fields with a check (document 01, table of checks) and the record
/// type. The parts of the header's 105-111 stand alone as well.
#[rustfmt::skip]
const CHECKED: [([u8; 2], &[Field]); 11] = [
    (*b"IM", &[
        (2, 3), (4, 8), (9, 13), (14, 19), (20, 39), (105, 111), (105, 105), (106, 106),
        (107, 111), (114, 114),
    ]),
    (*b"14", &[
        (2, 3), (4, 10), (23, 28), (29, 33), (34, 46), (47, 47), (48, 52), (53, 57), (92, 96),
        (97, 97), (120, 120),
    ]),
    (*b"16", &[
        (2, 3), (4, 10), (11, 12), (13, 14), (15, 15), (16, 20), (21, 25), (26, 37),
    ]),
    (*b"20", &[(2, 3), (4, 10), (11, 34)]),
    (*b"30", &[(2, 3), (4, 10), (11, 40)]),
    (*b"40", &[(2, 3), (4, 10)]),
    (*b"50", &[(2, 3), (4, 10)]),
    (*b"59", &[(2, 3), (4, 10), (11, 65)]),
    (*b"51", &[(2, 3), (4, 10)]),
    (*b"70", &[(2, 3), (4, 10), (94, 94)]),
    (*b"EF", &[
        (2, 3), (4, 8), (9, 13), (14, 19), (20, 39), (46, 52), (53, 67), (68, 82), (83, 89),
        (114, 114),
    ]),
];

/// The checked fields of a record type; of an unknown one, the type itself.
pub(crate) fn checked(kind: [u8; 2]) -> &'static [Field] {
    let row = CHECKED.iter().find(|(of, _)| *of == kind);
    row.map_or(&[(2, 3)], |(_, fields)| fields)
}

/// The record types, and some that are none.
const TYPES: [&[u8; 2]; 16] = [
    b"IM", b"14", b"16", b"20", b"30", b"40", b"50", b"51", b"59", b"70", b"EF", b"10", b"17",
    b"im", b"  ", b"PC",
];

/// Bytes outside 32 to 126.
const OUTSIDE: [u8; 6] = [0, 31, 127, 128, 255, b'\n'];

/// Damages a flow once. At times nothing that is checked has changed.
pub fn damage_flow(rng: &mut Rng, flow: &mut Vec<u8>) {
    match rng.below(43) {
        0..=13 => damage_record(rng, flow, 1),
        14..=17 => damage_record(rng, flow, 2),
        18 => change_type(rng, flow),
        19 => drop_record(rng, flow),
        20 => double_record(rng, flow),
        21 => swap_records(rng, flow),
        22 => copy_block(rng, flow),
        23 => cut_records(rng, flow),
        24 => change_len(rng, flow),
        25 => put_outside(rng, flow),
        26 => append_record(rng, flow),
        27..=28 => shift_trailer(rng, flow),
        29 => crowd_details(rng, flow),
        30..=32 => damage_company(rng, flow),
        33..=35 => damage_kind(rng, flow),
        36 => turn_kind(rng, flow),
        37..=38 => damage_totals(rng, flow),
        39..=41 => zero_amount(rng, flow),
        _ => put_anywhere(rng, flow),
    }
}

/// Damages one field in one way. By rising `index` it is the turn of each
/// checked field of each record type, then of each way, then of first, middle
/// and last byte.
pub fn damage_in_turn(rng: &mut Rng, index: u64, flow: &mut [u8]) {
    let fields: Vec<([u8; 2], Field)> = CHECKED
        .iter()
        .flat_map(|&(kind, fields)| fields.iter().map(move |&field| (kind, field)))
        .collect();
    let turn = index as usize % fields.len();
    let rest = index / fields.len() as u64;
    let (kind, (first, last)) = fields[turn];
    let len = last + 1 - first;
    let place = [0, len / 2, len - 1][(rest / WAYS % 3) as usize];
    let of_kind = |record: &&mut Record| record_type(record) == kind;
    let mut records: Vec<&mut Record> = records_of(flow).iter_mut().filter(of_kind).collect();
    let chosen = rng.index(records.len());
    if let Some(record) = records.get_mut(chosen) {
        spoil(rng, rest % WAYS, field_mut(record, first, last), place);
    }
}

fn records_of(flow: &mut [u8]) -> &mut [Record] {
    flow.as_chunks_mut::<RECORD_LEN>().0
}

/// A record of the flow; header and trailer come more often than others.
fn any_record(rng: &mut Rng, flow: &[u8]) -> usize {
    let records = flow.len() / RECORD_LEN;
    match rng.below(6) {
        0 => 0,
        1 => records.saturating_sub(1),
        _ => rng.index(records),
    }
}

/// Damages some checked fields of one record.
fn damage_record(rng: &mut Rng, flow: &mut [u8], fields: usize) {
    let index = any_record(rng, flow);
    if let Some(record) = records_of(flow).get_mut(index) {
        let checked = checked(record_type(record));
        for _ in 0..fields {
            let (first, last) = rng.pick(checked);
            spoil_anyhow(rng, field_mut(record, first, last));
        }
    }
}

/// Spoils a field in any way at any place. The ends come more often.
fn spoil_anyhow(rng: &mut Rng, bytes: &mut [u8]) {
    let len = bytes.len();
    let inside = rng.index(len);
    let place = rng.pick(&[0, len.saturating_sub(1), inside]);
    let way = match rng.below(6) {
        0 | 1 if len == 6 => 15,
        1 => 6,
        _ => rng.below(WAYS),
    };
    spoil(rng, way, bytes, place);
}

/// The ways to spoil a field.
const WAYS: u64 = 16;

/// Spoils a field in one way, the byte at `place` or the whole of it.
fn spoil(rng: &mut Rng, way: u64, bytes: &mut [u8], place: usize) {
    let Some(&old) = bytes.get(place) else {
        return;
    };
    match way {
        0 => bytes[place] = b'/',
        1 => bytes[place] = b':',
        2 => bytes[place] = b' ',
        3 => bytes[place] = rng.pick(b"+-.AaIZ~!"),
        4 => bytes[place] = old.wrapping_add(1),
        5 => bytes[place] = old.wrapping_sub(1),
        6 => bytes.fill(b' '),
        7 => bytes.fill(b'0'),
        8 => bytes.fill(b'9'),
        9 => bytes[place] = 0,
        10 => bytes[place] = 31,
        11 => bytes[place] = 127,
        12 => bytes[place] = 255,
        13 => bytes
            .iter_mut()
            .for_each(|b| *b = b'0' + rng.below(10) as u8),
        14 if bytes.len() == 5 => bytes.copy_from_slice(rng.pick(&FlowKind::ALL).row().causale),
        14 if bytes.len() == 1 => bytes[0] = rng.pick(&FlowKind::ALL).row().sign,
        15 if bytes.len() == 6 => bytes.copy_from_slice(&rng.pick(&NO_DATES)[..]),
        _ => bytes[place] = rng.within(32, 126) as u8,
    }
}

/// Six bytes that are no date, or nearly.
const NO_DATES: [&[u8; 6]; 12] = [
    b"290227", b"290299", b"300228", b"310426", b"320126", b"000126", b"010026", b"011326",
    b"310626", b"999999", b"000000", b"2902 8",
];

fn change_type(rng: &mut Rng, flow: &mut [u8]) {
    let index = any_record(rng, flow);
    let kind = rng.pick(&TYPES);
    if let Some(record) = records_of(flow).get_mut(index) {
        field_mut(record, 2, 3).copy_from_slice(kind);
    }
}

fn drop_record(rng: &mut Rng, flow: &mut Vec<u8>) {
    let start = any_record(rng, flow) * RECORD_LEN;
    if flow.len() >= start + RECORD_LEN {
        flow.drain(start..start + RECORD_LEN);
    }
}

fn double_record(rng: &mut Rng, flow: &mut Vec<u8>) {
    let start = any_record(rng, flow) * RECORD_LEN;
    insert_copy(flow, start, start + RECORD_LEN, start);
}

/// Inserts a copy of the bytes from `start` to `end` at `place`.
fn insert_copy(flow: &mut Vec<u8>, start: usize, end: usize, place: usize) {
    if let Some(bytes) = flow.get(start..end).map(<[u8]>::to_vec) {
        flow.splice(place..place, bytes);
    }
}

fn swap_records(rng: &mut Rng, flow: &mut [u8]) {
    let (one, other) = (any_record(rng, flow), any_record(rng, flow));
    let records = records_of(flow);
    let other = if rng.one_in(2) { one + 1 } else { other };
    if one < records.len() && other < records.len() {
        records.swap(one, other);
    }
}

/// Copies a whole disposition twice, and adjusts the trailer to agree. The
/// copy stands right after the original or at the end, and at times has the
/// number due there, so that the flow is right again.
fn copy_block(rng: &mut Rng, flow: &mut Vec<u8>) {
    let kinds: Vec<[u8; 2]> = records_of(flow).iter().map(record_type).collect();
    let starts: Vec<usize> = (0..kinds.len()).filter(|&i| kinds[i] == *b"14").collect();
    if starts.is_empty() || kinds.last() != Some(b"EF") {
        return;
    }
    let chosen = rng.index(starts.len());
    let (start, end) = match starts.get(chosen + 1) {
        Some(&next) => (starts[chosen], next),
        None => (starts[chosen], kinds.len() - 1),
    };
    let place = rng.pick(&[end, kinds.len() - 1]);
    insert_copy(
        flow,
        start * RECORD_LEN,
        end * RECORD_LEN,
        place * RECORD_LEN,
    );
    let renumber = rng.one_in(4);
    let records = records_of(flow);
    let kind = kind_of(records);
    let cents = cents_of(&records[start]);
    if renumber && place == kinds.len() - 1 {
        for record in &mut records[place..place + end - start] {
            write_digits(field_mut(record, 4, 10), starts.len() as u64 + 1);
        }
    }
    if let Some(trailer) = records.last_mut() {
        add_to(field_mut(trailer, 46, 52), 1);
        add_to(kind.total_mut(trailer), cents as i64);
        add_to(field_mut(trailer, 83, 89), (end - start) as i64);
    }
}

/// Adds to a digit field, if it is one and the sum is not negative.
pub(crate) fn add_to(bytes: &mut [u8], by: i64) {
    let sum = digits(bytes)
        .ok()
        .and_then(|value| value.checked_add_signed(by));
    if let Some(sum) = sum {
        write_digits(bytes, sum);
    }
}

/// Cuts the flow after a whole record.
fn cut_records(rng: &mut Rng, flow: &mut Vec<u8>) {
    let records = rng.index(flow.len() / RECORD_LEN + 1);
    flow.truncate(records * RECORD_LEN);
}

/// Cuts bytes off, or adds some.
fn change_len(rng: &mut Rng, flow: &mut Vec<u8>) {
    match rng.below(4) {
        0 => flow.clear(),
        1 => flow.truncate(flow.len().saturating_sub(1)),
        2 => flow.push(rng.pick(b" \n\r\0E")),
        _ => flow.truncate(rng.index(flow.len() + 1)),
    }
}

/// Puts a byte outside 32 to 126 anywhere.
fn put_outside(rng: &mut Rng, flow: &mut [u8]) {
    let index = rng.index(flow.len());
    if let Some(byte) = flow.get_mut(index) {
        *byte = rng.pick(&OUTSIDE);
    }
}

/// Puts any byte anywhere.
fn put_anywhere(rng: &mut Rng, flow: &mut [u8]) {
    let index = rng.index(flow.len());
    if let Some(byte) = flow.get_mut(index) {
        *byte = rng.below(256) as u8;
    }
}

/// Adds a record after the trailer: one of the flow's own, or blanks.
fn append_record(rng: &mut Rng, flow: &mut Vec<u8>) {
    if rng.one_in(4) {
        flow.extend([b' '; RECORD_LEN]);
        return;
    }
    let start = any_record(rng, flow) * RECORD_LEN;
    insert_copy(flow, start, start + RECORD_LEN, flow.len());
}

/// Makes a count or a sum of the trailer a little wrong.
fn shift_trailer(rng: &mut Rng, flow: &mut [u8]) {
    let (first, last) = rng.pick(&[(46, 52), (53, 67), (68, 82), (83, 89)]);
    let by = rng.pick(&[-10, -1, 1, 10, 100]);
    if let Some(trailer) = records_of(flow).last_mut() {
        add_to(field_mut(trailer, first, last), by);
    }
}

/// The records 14 of the flow.
fn openings(flow: &mut [u8]) -> Vec<&mut Record> {
    let kind = |record: &&mut Record| record_type(record) == *b"14";
    records_of(flow).iter_mut().filter(kind).collect()
}

/// Makes the company codes of the records 14 differ, if there are several, but
/// for a draw that leaves them equal. Mostly nothing else is wrong; at times the first record that differs, or any
/// record, is spoiled besides.
pub(crate) fn damage_company(rng: &mut Rng, flow: &mut [u8]) {
    let mut openings = openings(flow);
    let code_of = |opening: &&mut Record| code_in(field(opening, 92, 96));
    let mut codes: Vec<[u8; 5]> = openings.iter().map(code_of).collect();
    mix_codes(rng, &mut codes);
    for (opening, code) in openings.iter_mut().zip(&codes) {
        put(opening, 92, code);
    }
    let differs = codes.iter().position(|code| *code != codes[0]);
    match rng.below(5) {
        0 => {
            if let Some(index) = differs {
                spoil_beside(rng, openings[index], (92, 96));
            }
        }
        1 => damage_record(rng, flow, 1),
        _ => {}
    }
}

/// Five bytes as a company code.
fn code_in(bytes: &[u8]) -> [u8; 5] {
    let mut code = NO_CODE;
    code.copy_from_slice(bytes);
    code
}

/// Makes company codes differ, if there are several: a code on some (by chance
/// on all or on none), on the first or the last alone, on all but the first, on all but one or on one
/// alone; or one that is changed in a byte, or moved by a place.
fn mix_codes(rng: &mut Rng, codes: &mut [[u8; 5]]) {
    let (Some(&first), Some(last)) = (codes.first(), codes.len().checked_sub(1)) else {
        return;
    };
    let code = if first == NO_CODE { code(rng) } else { first };
    let one = any_index(rng, codes.len());
    let (others, index, single) = match rng.below(10) {
        0 | 1 => {
            codes.iter_mut().for_each(|place| {
                *place = rng.pick(&[code, NO_CODE]);
            });
            return;
        }
        2 => (NO_CODE, 0, code),
        3 => (code, 0, NO_CODE),
        4 => (NO_CODE, last, code),
        5 => (code, one, NO_CODE),
        6 => (NO_CODE, one, code),
        7 | 8 => (code, one, with_other_byte(rng, code)),
        _ => (code, one, moved(rng, code)),
    };
    codes.fill(others);
    codes[index] = single;
}

/// A code with another byte at one place: a letter's other case, a blank, or
/// any.
fn with_other_byte(rng: &mut Rng, mut code: [u8; 5]) -> [u8; 5] {
    let byte = &mut code[rng.index(5)];
    let any = rng.within(33, 126) as u8;
    *byte = match rng.below(3) {
        0 if byte.is_ascii_alphabetic() => *byte ^ 32,
        1 if *byte != b' ' => b' ',
        _ if any == *byte => b' ',
        _ => any,
    };
    code
}

/// A code moved by one place, with a blank at its end or before it.
fn moved(rng: &mut Rng, [a, b, c, d, e]: [u8; 5]) -> [u8; 5] {
    match rng.one_in(2) {
        true => [b' ', a, b, c, d],
        false => [b, c, d, e, b' '],
    }
}

/// Five bytes that are the causale of no kind; some are those of return flows
/// (document 003, section 4.2).
const NO_CAUSALES: [&[u8; 5]; 12] = [
    b"07200", b"07001", b"07101", b"17000", b"17100", b"00000", b"07006", b"07008", b"07011",
    b"     ", b"0710O", b"7100 ",
];

/// A record 14 of the flow; the first and the last come more often than others.
fn any_opening<'a>(rng: &mut Rng, flow: &'a mut [u8]) -> Option<&'a mut Record> {
    let mut openings = openings(flow);
    let index = any_index(rng, openings.len());
    (index < openings.len()).then(|| openings.swap_remove(index))
}

/// An index of so many; the first and the last come more often than others.
fn any_index(rng: &mut Rng, len: usize) -> usize {
    let inside = rng.index(len);
    rng.pick(&[0, len.saturating_sub(1), inside, inside])
}

/// Makes the amount of a record 14 zero. Mostly the trailer's total agrees, and
/// mostly nothing else is wrong; at times the same record or any record is
/// spoiled besides.
pub(crate) fn zero_amount(rng: &mut Rng, flow: &mut [u8]) {
    let kind = kind_of(records_of(flow));
    let Some(opening) = any_opening(rng, flow) else {
        return;
    };
    let cents = cents_of(opening);
    field_mut(opening, 34, 46).fill(b'0');
    let besides = rng.below(5);
    if besides == 0 {
        spoil_beside(rng, opening, (34, 46));
    }
    if !rng.one_in(3) {
        if let Some(trailer) = records_of(flow).last_mut() {
            add_to(kind.total_mut(trailer), -(cents as i64));
        }
    }
    if besides == 1 {
        damage_record(rng, flow, 1);
    }
}

/// Spoils a record 14 once more: the field that is wrong already, another
/// checked one, or where nothing is checked.
fn spoil_beside(rng: &mut Rng, opening: &mut Record, wrong: Field) {
    let (first, last) = match rng.below(6) {
        0 => wrong,
        1 => rng.pick(unused(opening)),
        _ => rng.pick(checked(*b"14")),
    };
    spoil_anyhow(rng, field_mut(opening, first, last));
}

/// Gives a record 14 the causale or the sign of the other kind, both, or the
/// causale of no kind.
fn damage_kind(rng: &mut Rng, flow: &mut [u8]) {
    let other = kind_of(records_of(flow)).other();
    let Some(opening) = any_opening(rng, flow) else {
        return;
    };
    match rng.below(6) {
        0 | 1 => other.put_in(opening),
        2 => put(opening, 29, other.row().causale),
        3 => put(opening, 47, &[other.row().sign]),
        _ => put(opening, 29, &rng.pick(&NO_CAUSALES)[..]),
    }
}

/// Turns every record 14 to the other kind, and at times the trailer's totals
/// too, so that the flow is right again.
fn turn_kind(rng: &mut Rng, flow: &mut [u8]) {
    let kind = kind_of(records_of(flow));
    let whole = rng.one_in(2);
    for record in records_of(flow) {
        match &record_type(record) {
            b"14" => kind.other().put_in(record),
            b"EF" if whole => move_total(record, kind),
            _ => {}
        }
    }
}

/// Moves the trailer's sum to the other kind's place, and leaves zeros.
fn move_total(trailer: &mut Record, kind: FlowKind) {
    copy_total(trailer, kind);
    kind.total_mut(trailer).fill(b'0');
}

/// Copies the trailer's sum to the other kind's place.
fn copy_total(trailer: &mut Record, kind: FlowKind) {
    let sum = kind.total_mut(trailer).to_vec();
    kind.other().total_mut(trailer).copy_from_slice(&sum);
}

/// The sum at the other kind's place, at both or at none, or one of the two
/// totals spoiled.
fn damage_totals(rng: &mut Rng, flow: &mut [u8]) {
    let kind = kind_of(records_of(flow));
    let spoiled = rng.pick(&FlowKind::ALL);
    let Some(trailer) = records_of(flow).last_mut() else {
        return;
    };
    match rng.below(6) {
        0 => move_total(trailer, kind),
        1 => copy_total(trailer, kind),
        2 => kind.total_mut(trailer).fill(b'0'),
        _ => spoil_anyhow(rng, spoiled.total_mut(trailer)),
    }
}

/// Doubles a record 50 or 59 until there are too many, or sets the other kind
/// beside it; the trailer's count of records agrees.
fn crowd_details(rng: &mut Rng, flow: &mut Vec<u8>) {
    let kinds: Vec<[u8; 2]> = records_of(flow).iter().map(record_type).collect();
    let details = |i: &usize| matches!(&kinds[*i], b"50" | b"59");
    let places: Vec<usize> = (0..kinds.len()).filter(details).collect();
    if places.is_empty() {
        return;
    }
    let index = rng.pick(&places);
    let start = index * RECORD_LEN;
    let more = rng.within(1, 5);
    for _ in 0..more {
        insert_copy(flow, start, start + RECORD_LEN, start);
    }
    let kind = rng.pick(&[b"50", b"59"]);
    let records = records_of(flow);
    field_mut(&mut records[index + rng.index(2)], 2, 3).copy_from_slice(kind);
    if let Some(trailer) = records.last_mut() {
        add_to(field_mut(trailer, 83, 89), more as i64);
    }
}

/// Damages a request list once.
pub fn damage_list(rng: &mut Rng, list: &mut Vec<u8>) {
    let spans = item_spans(list);
    let item = rng.index(spans.len());
    let Range { start, end } = spans.get(item).cloned().unwrap_or(0..list.len());
    match rng.below(21) {
        0 => list.truncate(rng.index(list.len() + 1)),
        1 => list.truncate(start + 1),
        2 => list.clear(),
        3 => set(list, start, rng.pick(b"EMGhdq14 \0\xff")),
        4 => set(list, start, rng.pick(b"HQDSCBARXKZ")),
        5 => drop(list.drain(start..end)),
        6 => insert_copy(list, start, end, start),
        7 => insert_copy(list, start, end, list.len()),
        8 => list.push(rng.pick(b"HQDSCBARXKZ?")),
        9 => list.truncate(start),
        10 => swap_items(rng, list, item),
        11 => turn_header(list),
        12 => add_header(rng, list, start),
        13 => move_header(list, end),
        14..=15 => zero_item(rng, list),
        16..=17 => mix_items(rng, list),
        _ => spoil_body(rng, list, start + 1, end),
    }
}

/// Swaps an item with another one; what follows the whole items stays.
fn swap_items(rng: &mut Rng, list: &mut [u8], item: usize) {
    let mut rows: Vec<Vec<u8>> = items(list)
        .flatten()
        .map(|item| [&[item.layout.kind], item.body].concat())
        .collect();
    let other = rng.index(rows.len());
    if item < rows.len() {
        rows.swap(item, other);
    }
    let whole = rows.concat();
    list[..whole.len()].copy_from_slice(&whole);
}

/// Turns the kind of a list that opens with a header.
fn turn_header(list: &mut [u8]) {
    if let Some(letter) = list.first_mut() {
        if let Some(kind) = FlowKind::of_letter(*letter) {
            *letter = kind.other().row().letter;
        }
    }
}

/// Sets the first header a second time before an item or at the end, mostly
/// as one of the other kind.
fn add_header(rng: &mut Rng, list: &mut Vec<u8>, start: usize) {
    let Some(first) = items(list).flatten().next() else {
        return;
    };
    let Some(kind) = FlowKind::of_letter(first.layout.kind) else {
        return;
    };
    let kind = rng.pick(&[kind, kind.other(), kind.other()]);
    let header = [&[kind.row().letter], first.body].concat();
    let place = rng.pick(&[start, start, list.len()]);
    list.splice(place..place, header);
}

/// Moves the first item behind the item that ends here, so that a disposition
/// opens before any header.
fn move_header(list: &mut [u8], end: usize) {
    let first = items(list).flatten().next();
    let len = first.map_or(0, |first| 1 + first.body.len());
    if let Some(front) = list.get_mut(..end).filter(|front| front.len() > len) {
        front.rotate_left(len);
    }
}

/// Where the items D of a list stand.
fn opening_spans(list: &[u8]) -> Vec<Range<usize>> {
    let mut openings = item_spans(list);
    openings.retain(|span| list[span.start] == b'D');
    openings
}

/// Where 92-96 stand in an item D: after the kind and 36 carried bytes.
const CODE: Range<usize> = 37..42;

/// Makes the company codes of the items D differ, if there are several, but for
/// a draw that leaves them equal; at times the body of the first that differs is spoiled besides.
fn mix_items(rng: &mut Rng, list: &mut [u8]) {
    let openings = opening_spans(list);
    let code_of = |span: &Range<usize>| code_in(&list[span.clone()][CODE]);
    let mut codes: Vec<[u8; 5]> = openings.iter().map(code_of).collect();
    mix_codes(rng, &mut codes);
    for (span, code) in openings.iter().zip(&codes) {
        list[span.clone()][CODE].copy_from_slice(code);
    }
    let differs = codes.iter().position(|code| *code != codes[0]);
    if let Some(index) = differs.filter(|_| rng.one_in(3)) {
        let Range { start, end } = openings[index].clone();
        spoil_body(rng, list, start + 1, end);
    }
}

/// Makes the amount of an item D zero; at times its body is spoiled besides.
fn zero_item(rng: &mut Rng, list: &mut [u8]) {
    let openings = opening_spans(list);
    let index = any_index(rng, openings.len());
    if let Some(Range { start, end }) = openings.get(index).cloned() {
        list[start..end][CENTS].fill(b'0');
        if rng.one_in(3) {
            spoil_body(rng, list, start + 1, end);
        }
    }
}

/// Spoils some bytes of an item's body.
fn spoil_body(rng: &mut Rng, list: &mut [u8], start: usize, end: usize) {
    if let Some(body) = list.get_mut(start..end).filter(|body| !body.is_empty()) {
        let first = rng.index(body.len());
        let len = rng.within(1, 20).min((body.len() - first) as u64) as usize;
        spoil_anyhow(rng, &mut body[first..first + len]);
    }
}

/// Where the items of a list stand, as far as they are whole.
fn item_spans(list: &[u8]) -> Vec<Range<usize>> {
    let mut end = 0;
    let span = |item: Item| {
        let start = end;
        end += 1 + item.body.len();
        start..end
    };
    items(list).flatten().map(span).collect()
}

fn set(bytes: &mut [u8], index: usize, byte: u8) {
    if let Some(place) = bytes.get_mut(index) {
        *place = byte;
    }
}
