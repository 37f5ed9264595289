//! The flows that are measured. Everything in them follows from the number of
//! a disposition, so that every run measures the same bytes.

use oracle::fields::{amount, write_digits};
use oracle::reader_cases::recall;
use oracle::record::{field, field_mut, put, record_type, Record, BLANK_RECORD, RECORD_LEN};

/// The dispositions of the large flow.
pub const LARGE: u64 = 100_000;
/// The bytes of the large flow.
pub const LARGE_BYTES: usize = 84_000_240;
/// The records of a usual disposition: 14, 20, 30, 40, 50, 51, 70.
const USUAL_RECORDS: u64 = 7;
/// The records of a slow disposition: 16 and four more 59 beside those.
const SLOW_RECORDS: u64 = 12;

const NAMES: [&[u8]; 8] = [
    b"ROSSI GIULIA",
    b"BIANCHI MARCO",
    b"DE LUCA MARIA CATERINA",
    b"FO DARIO",
    b"CONDOMINIO VIA DEI COLLEGI 12",
    b"ESPOSITO GENNARO",
    b"D'ANGELO ANNA",
    b"FERRARI GIOVANNI BATTISTA",
];
const TOWNS: [&[u8]; 5] = [
    b"20100MILANO MI",
    b"27100PAVIA PV",
    b"00184ROMA RM",
    b"80121NAPOLI NA",
    b"10121TORINO TO",
];

/// The most dispositions of a flow that is compared with another.
const COMPARED: u64 = mav::MAX_COMPARED;

/// Where the text of the records 20, 30 and 59 of a slow flow begins.
#[derive(Clone, Copy, Debug, Eq, PartialEq)]
pub enum Indent {
    /// After one blank.
    One,
    /// At the last byte of the field that has to be present.
    Most,
}

/// A flow of so many dispositions without record 16, with one 50 each.
pub fn usual(dispositions: u64) -> Vec<u8> {
    flow(dispositions, USUAL_RECORDS, |k| {
        usual_records(k).into_iter()
    })
}

/// The records of a usual disposition.
fn usual_records(k: u64) -> [Record; 7] {
    let [a, b, c, d] = [opening(k), creditor(), debtor(k), address(k)];
    [a, b, c, d, detail(k), reference(k), closing(k)]
}

/// Two flows of 256 dispositions each (document 02, E7).
pub struct Evenings {
    pub name: &'static str,
    pub old: Vec<u8>,
    pub new: Vec<u8>,
    /// How many dispositions are kept.
    pub kept: u64,
}

/// The evenings that are measured.
pub fn evenings() -> [Evenings; 4] {
    [
        unlike_at_once(),
        unlike_at_the_end(),
        all_alike(),
        next_evening(),
    ]
}

/// All but the last disposition have another letter in their record 14.
fn unlike_at_once() -> Evenings {
    let relettered = |k| match k {
        COMPARED => usual_records(k),
        _ => {
            let mut records = usual_records(k);
            put(&mut records[0], 98, b"T");
            records
        }
    };
    Evenings {
        name: "255 differ in their 14",
        old: usual(COMPARED),
        new: flow(COMPARED, USUAL_RECORDS, |k| relettered(k).into_iter()),
        kept: 1,
    }
}

/// Every disposition has the same bytes up to the last two of its 70, which no
/// other has in either flow: the last one alone has too few values for that.
fn unlike_at_the_end() -> Evenings {
    let ending = |before: u64| {
        flow(COMPARED, USUAL_RECORDS, move |k| {
            let mut records = usual_records(1);
            let two = [(before + k) / 90, (before + k) % 90].map(|value| b'!' + value as u8);
            put(&mut records[6], 119, &two);
            records.into_iter()
        })
    };
    Evenings {
        name: "all differ in their last 2 bytes",
        old: ending(0),
        new: ending(COMPARED),
        kept: 0,
    }
}

/// All dispositions of both flows are the same.
fn all_alike() -> Evenings {
    let same = || flow(COMPARED, USUAL_RECORDS, |_| usual_records(1).into_iter());
    Evenings {
        name: "all the same",
        old: same(),
        new: same(),
        kept: COMPARED,
    }
}

/// Three dispositions have left, three are new, and three have another amount.
fn next_evening() -> Evenings {
    let mut left: Vec<u64> = (1..=COMPARED).collect();
    left.retain(|k| ![40, 130, 220].contains(k));
    for (at, k) in [(60, 1_001), (61, 1_002), (253, 1_003)] {
        left.insert(at, k);
    }
    let tonight = |n: u64| {
        let k = left[n as usize - 1];
        let mut records = usual_records(k);
        if [20, 100, 200].contains(&k) {
            write_digits(field_mut(&mut records[0], 34, 46), cents(k) + 2_500);
        }
        records.into_iter()
    };
    Evenings {
        name: "3 dropped, 3 added, 3 amounts",
        old: usual(COMPARED),
        new: flow(COMPARED, USUAL_RECORDS, tonight),
        kept: 250,
    }
}

/// A flow in which few records can be seen to be right by one byte: with
/// record 16, with five 59, each text after blanks, and P or B in every 70.
pub fn slow(dispositions: u64, indent: Indent) -> Vec<u8> {
    flow(dispositions, SLOW_RECORDS, |k| {
        let mut last = closing(k);
        put(&mut last, 94, &[b"PB"[place(mixed(k), 2)]]);
        [opening(k), account(), text(b"20", 34, indent)]
            .into_iter()
            .chain([text(b"30", 40, indent), address(k)])
            .chain([text(b"59", 65, indent); 5])
            .chain([reference(k), last])
    })
}

/// A flow of requests as one of recalls (document 02, E1).
pub fn recalled(mut flow: Vec<u8>) -> Vec<u8> {
    recall(flow.as_chunks_mut().0);
    flow
}

/// The amount of disposition k in cents.
fn cents(k: u64) -> u64 {
    10_000 + 137 * (k % 997)
}

/// The flow with these records in each disposition, numbered and counted.
fn flow<R: Iterator<Item = Record>>(
    dispositions: u64,
    each: u64,
    records_of: impl Fn(u64) -> R,
) -> Vec<u8> {
    let records = 2 + each * dispositions;
    let mut flow = Vec::with_capacity(records as usize * RECORD_LEN);
    flow.extend_from_slice(&header(b"IM"));
    let mut total = 0;
    for k in 1..=dispositions {
        for mut record in records_of(k) {
            write_digits(field_mut(&mut record, 4, 10), k);
            if record_type(&record) == *b"14" {
                total += amount(field(&record, 34, 46)).expect("an amount was written");
            }
            flow.extend_from_slice(&record);
        }
    }
    let mut trailer = header(b"EF");
    write_digits(field_mut(&mut trailer, 46, 52), dispositions);
    write_digits(field_mut(&mut trailer, 53, 67), total);
    write_digits(field_mut(&mut trailer, 68, 82), 0);
    write_digits(field_mut(&mut trailer, 83, 89), records);
    flow.extend_from_slice(&trailer);
    flow
}

fn blank(kind: &[u8; 2]) -> Record {
    let mut record = BLANK_RECORD;
    put(&mut record, 2, kind);
    record
}

/// What header and trailer have in common.
fn header(kind: &[u8; 2]) -> Record {
    let mut record = blank(kind);
    put(&mut record, 4, b"AB123");
    put(&mut record, 9, b"01234");
    put(&mut record, 14, b"150326");
    put(&mut record, 20, b"RETTE-MARZO-2026");
    put(&mut record, 114, b"E");
    record
}

/// Record 14: with a company code always, with 53-57 in three of four.
fn opening(k: u64) -> Record {
    let mut record = blank(b"14");
    write_digits(field_mut(&mut record, 23, 24), 1 + k % 28);
    write_digits(field_mut(&mut record, 25, 26), 1 + k % 12);
    put(&mut record, 27, b"26");
    put(&mut record, 29, b"07000");
    write_digits(field_mut(&mut record, 34, 46), cents(k));
    put(&mut record, 47, b"-");
    put(&mut record, 48, b"01234");
    if place(mixed(k) >> 8, 4) > 0 {
        put(&mut record, 53, b"02400");
        put(&mut record, 58, b"000000123456");
    }
    put(&mut record, 92, b"AB123");
    put(&mut record, 97, &[b" 1234569"[place(k, 8)]]);
    put(&mut record, 98, b"S");
    write_digits(field_mut(&mut record, 99, 106), k);
    put(&mut record, 120, b"E");
    record
}

/// Record 16.
fn account() -> Record {
    let mut record = blank(b"16");
    put(&mut record, 11, b"IT60X0123402400000000123456");
    record
}

/// Record 20.
fn creditor() -> Record {
    let mut record = blank(b"20");
    put(&mut record, 11, b"RESIDENZA SAN MARTINO");
    put(&mut record, 35, b"VIA DEI COLLEGI 12");
    put(&mut record, 59, b"20100 MILANO MI");
    record
}

/// Record 30.
fn debtor(k: u64) -> Record {
    let mut record = blank(b"30");
    put(&mut record, 11, NAMES[place(k, NAMES.len())]);
    put(&mut record, 71, b"RSSGLI05A41F205X");
    record
}

/// Record 40.
fn address(k: u64) -> Record {
    let mut record = blank(b"40");
    put(&mut record, 11, b"VIA GIUSEPPE GARIBALDI");
    write_digits(field_mut(&mut record, 36, 38), 1 + k % 300);
    put(&mut record, 41, TOWNS[place(k, TOWNS.len())]);
    record
}

/// Record 50.
fn detail(k: u64) -> Record {
    let mut record = blank(b"50");
    put(&mut record, 11, b"RETTA DEL MESE DI MARZO 2026, STANZA");
    write_digits(field_mut(&mut record, 48, 51), 1 + k % 2_000);
    if k.is_multiple_of(3) {
        put(&mut record, 53, b"CON RISCALDAMENTO E PULIZIE");
    }
    record
}

/// Record 51.
fn reference(k: u64) -> Record {
    let mut record = blank(b"51");
    write_digits(field_mut(&mut record, 11, 20), k);
    put(&mut record, 75, b"AUT. 123/2026");
    record
}

/// Record 70: position 94 is blank in half, P or B in the others.
fn closing(k: u64) -> Record {
    let mut record = blank(b"70");
    put(&mut record, 94, &[b"  PB"[place(mixed(k), 4)]]);
    put(&mut record, 101, b"CHIAVE");
    record
}

/// A record whose text from 11 to `last` has to be present and begins with
/// blanks.
fn text(kind: &[u8; 2], last: usize, indent: Indent) -> Record {
    let mut record = blank(kind);
    match indent {
        Indent::One => put(&mut record, 12, b"RETTA DI MARZO 2026"),
        Indent::Most => put(&mut record, last, b"X"),
    }
    record
}

/// A number that looks as if drawn at random and is always the same for k:
/// a short period would be learned by the processor, which guesses what
/// comes next. The steps are the last ones of the generator SplitMix64.
fn mixed(k: u64) -> u64 {
    let k = (k ^ (k >> 30)).wrapping_mul(0xbf58_476d_1ce4_e5b9);
    let k = (k ^ (k >> 27)).wrapping_mul(0x94d0_49bb_1331_11eb);
    k ^ (k >> 31)
}

/// One of so many places, by a number.
fn place(number: u64, places: usize) -> usize {
    (number % places as u64) as usize
}

#[cfg(test)]
mod tests {
    use super::*;
    use oracle::list::is_canonical;

    /// Both readers give these numbers of a flow of requests, and the same of
    /// it as one of recalls.
    fn accepted(flow: &[u8], dispositions: u64, cents: u64, records: u64) {
        let numbers =
            format!("accepted dispositions {dispositions} cents {cents} records {records}");
        read_as(flow, format!("{numbers} kind requests"));
        let flow = recalled(flow.to_vec());
        read_as(&flow, format!("{numbers} kind recalls"));
    }

    fn read_as(flow: &[u8], line: String) {
        assert_eq!(
            mav::read(flow).map(|found| found.to_string()),
            Ok(line.clone())
        );
        assert_eq!(oracle::reader::read(flow).to_string(), line);
    }

    #[test]
    fn the_large_flow_has_its_length() {
        let records = 2 + USUAL_RECORDS * LARGE;
        assert_eq!(records, 700_002);
        assert_eq!(records as usize * RECORD_LEN, LARGE_BYTES);
    }

    #[test]
    fn three_usual_dispositions() {
        let flow = usual(3);
        assert_eq!(flow.len(), 2_760);
        // 10,137 + 10,274 + 10,411 cents; 3 times 7 records, and 2.
        accepted(&flow, 3, 30_822, 23);
        assert!(is_canonical(&flow));
        assert!(is_canonical(&recalled(flow)));
    }

    #[test]
    fn a_recall_differs_where_its_kind_is() {
        let flow = usual(3);
        let recalled = recalled(flow.clone());
        let differs = |index: &usize| flow[*index] != recalled[*index];
        let places: Vec<_> = (0..flow.len())
            .filter(differs)
            .map(|index| (index / RECORD_LEN + 1, index % RECORD_LEN + 1))
            .collect();
        // The third digit of the causale and the sign of each record 14; the
        // five digits of 30,822 at the ends of both totals of the trailer, of
        // which the fourth from the end is a 0 in either case.
        let openings = [2, 9, 16].map(|record| [(record, 31), (record, 47)]);
        let totals = [63, 65, 66, 67, 78, 80, 81, 82].map(|position| (23, position));
        assert_eq!(places, [openings.as_flattened(), &totals].concat());
    }

    #[test]
    fn two_slow_dispositions() {
        for indent in [Indent::One, Indent::Most] {
            let flow = slow(2, indent);
            assert_eq!(flow.len(), 3_120);
            // 10,137 + 10,274 cents; 2 times 12 records, and 2.
            accepted(&flow, 2, 20_411, 26);
            let (records, _) = flow.as_chunks::<RECORD_LEN>();
            for record in records {
                match &record[1..3] {
                    b"20" | b"30" | b"59" => assert_eq!(record[10], b' '),
                    b"70" => assert_ne!(record[93], b' '),
                    _ => {}
                }
            }
        }
    }

    #[test]
    fn optional_bytes_are_blank_in_some_and_filled_in_others() {
        let flow = usual(1_000);
        accepted(&flow, 1_000, cents_of_a_thousand(), 7_002);
        let (records, _) = flow.as_chunks::<RECORD_LEN>();
        let count = |kind: &[u8; 2], index: usize, byte: u8| {
            let of_kind = records.iter().filter(|record| &record[1..3] == kind);
            of_kind.filter(|record| record[index] == byte).count()
        };
        assert!((450..550).contains(&count(b"70", 93, b' ')));
        assert!((200..300).contains(&count(b"70", 93, b'P')));
        assert!((200..300).contains(&count(b"70", 93, b'B')));
        assert!((200..300).contains(&count(b"14", 52, b' ')));
        assert_eq!(count(b"14", 91, b'A'), 1_000);
    }

    /// Each side of every pair is right, and their accounts are those meant.
    #[test]
    fn the_evenings_differ_as_they_are_to() {
        let accounts = evenings().map(|evenings| {
            for flow in [&evenings.old, &evenings.new] {
                assert_eq!(flow.len(), (2 + 7 * 256) * RECORD_LEN);
                assert_eq!(mav::read(flow).unwrap().dispositions, 256);
                assert!(is_canonical(flow));
            }
            let account = oracle::evenings::account(&evenings.old, &evenings.new).unwrap();
            let count = |letter| account.iter().filter(|&&line| line == letter).count();
            assert_eq!(count(b'K') as u64, evenings.kept);
            assert_eq!(
                (count(b'D'), count(b'A')),
                (256 - count(b'K'), 256 - count(b'K'))
            );
            String::from_utf8(account).unwrap()
        });
        let [at_once, at_the_end, alike, next] = accounts;
        assert_eq!(at_once, "D".repeat(255) + &"A".repeat(255) + "K");
        assert_eq!(at_the_end, "D".repeat(256) + &"A".repeat(256));
        assert_eq!(alike, "K".repeat(256));
        // The first that has another amount, and the first that has left.
        let start = format!(
            "{}DA{}D{}AAK",
            "K".repeat(19),
            "K".repeat(19),
            "K".repeat(21)
        );
        assert!(next.starts_with(&start), "{next}");
    }

    /// No two of the 512 dispositions of the second pair are the same, and all
    /// are the same but for the last two bytes.
    #[test]
    fn only_the_last_two_bytes_differ() {
        let [_, pair, ..] = evenings();
        let [old, new] = [&pair.old, &pair.new].map(|flow| flow.as_chunks::<RECORD_LEN>().0);
        let inner = [&old[1..], &new[1..]].map(|records| &records[..7 * 256]);
        let dispositions = inner.iter().flat_map(|records| records.chunks(7));
        let mut endings: Vec<[u8; 2]> = Vec::new();
        for disposition in dispositions {
            for (one, other) in disposition.iter().zip(&old[1..8]) {
                assert_eq!(one[10..118], other[10..118]);
            }
            let closing = &disposition[6];
            endings.push([closing[118], closing[119]]);
        }
        endings.sort();
        endings.dedup();
        assert_eq!(endings.len(), 512);
    }

    /// 1,000 times 10,000, and 137 times the sum of 1 to 996, then 0, 1, 2
    /// and 3 for the dispositions 997 to 1,000.
    fn cents_of_a_thousand() -> u64 {
        10_000_000 + 137 * (996 * 997 / 2 + 6)
    }
}
