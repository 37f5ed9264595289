//! The two-rent example of document 01 and its relatives, as requests and as
//! recalls, set down by hand position by position.

#![allow(dead_code)]

use oracle::answer::{Answer, Refusal};
use oracle::FlowKind;

/// The answer to a flow of requests.
pub fn accepted(dispositions: u64, cents: u64, records: u64) -> Answer {
    Answer::Accepted {
        dispositions,
        cents,
        records,
        kind: FlowKind::Requests,
    }
}

/// The answer to a flow of recalls.
pub fn recalled(dispositions: u64, cents: u64, records: u64) -> Answer {
    Answer::Accepted {
        dispositions,
        cents,
        records,
        kind: FlowKind::Recalls,
    }
}

pub fn refused(number: u8, record: u64, position: u8) -> Answer {
    Answer::Refused {
        number,
        record,
        position,
    }
}

pub fn refusal(number: u8, record: u64, position: u8) -> Refusal {
    Refusal {
        number,
        record,
        position,
    }
}

/// A record of blanks with texts at positions.
pub fn row(texts: &[(usize, &str)]) -> Vec<u8> {
    let mut record = vec![b' '; 120];
    for (position, text) in texts {
        record[position - 1..position - 1 + text.len()].copy_from_slice(text.as_bytes());
    }
    record
}

pub fn header() -> Vec<u8> {
    row(&[
        (2, "IM"),
        (4, "AB123"),
        (9, "01234"),
        (14, "150326"),
        (20, "RENT-MARCH"),
        (114, "E"),
    ])
}

pub fn opening(number: &str, cents: &str, customer: &str) -> Vec<u8> {
    row(&[
        (2, "14"),
        (4, number),
        (23, "310326"),
        (29, "07000"),
        (34, cents),
        (47, "-"),
        (48, "01234"),
        (53, "02400"),
        (58, "000000123456"),
        (92, "AB123"),
        (97, "2"),
        (98, customer),
        (120, "E"),
    ])
}

pub fn account(number: &str) -> Vec<u8> {
    row(&[(2, "16"), (4, number), (11, "IT60X0123402400000000123456")])
}

pub fn creditor(number: &str) -> Vec<u8> {
    row(&[
        (2, "20"),
        (4, number),
        (11, "RESIDENZA SAN MARTINO"),
        (35, "VIA DEI COLLEGI 12"),
        (59, "20100 MILANO MI"),
    ])
}

pub fn debtor(number: &str, name: &str, tax_code: &str) -> Vec<u8> {
    row(&[(2, "30"), (4, number), (11, name), (71, tax_code)])
}

pub fn address(number: &str, room: &str) -> Vec<u8> {
    row(&[
        (2, "40"),
        (4, number),
        (11, "VIA DEI COLLEGI 12"),
        (41, "20100"),
        (46, "MILANO MI"),
        (71, room),
    ])
}

pub fn detail(kind: &str, number: &str) -> Vec<u8> {
    row(&[(2, kind), (4, number), (11, "RETTA MARZO 2026")])
}

pub fn reference(number: &str, text: &str) -> Vec<u8> {
    row(&[(2, "51"), (4, number), (11, text)])
}

pub fn closing(number: &str) -> Vec<u8> {
    row(&[(2, "70"), (4, number)])
}

pub fn trailer(count: &str, total: &str, records: &str) -> Vec<u8> {
    trailer_with(count, total, "000000000000000", records)
}

/// The trailer of a flow of recalls.
pub fn recall_trailer(count: &str, total: &str, records: &str) -> Vec<u8> {
    trailer_with(count, "000000000000000", total, records)
}

fn trailer_with(count: &str, negative: &str, positive: &str, records: &str) -> Vec<u8> {
    row(&[
        (2, "EF"),
        (4, "AB123"),
        (9, "01234"),
        (14, "150326"),
        (20, "RENT-MARCH"),
        (46, count),
        (53, negative),
        (68, positive),
        (83, records),
        (114, "E"),
    ])
}

/// The seven records of the first rent.
pub fn first_rent(number: &str) -> Vec<Vec<u8>> {
    vec![
        opening(number, "0000000045000", "S0017"),
        creditor(number),
        debtor(number, "ROSSI GIULIA", "RSSGLI05A41F205X"),
        address(number, "STANZA 17"),
        detail("50", number),
        reference(number, "0000000017"),
        closing(number),
    ]
}

/// The seven records of the second rent.
pub fn second_rent(number: &str) -> Vec<Vec<u8>> {
    vec![
        opening(number, "0000000038050", "S0023"),
        creditor(number),
        debtor(number, "BIANCHI MARCO", "BNCMRC04P12F205Y"),
        address(number, "STANZA 23"),
        detail("50", number),
        reference(number, "0000000023"),
        closing(number),
    ]
}

/// The two-rent flow as 16 records.
pub fn two_rents() -> Flow {
    let mut records = vec![header()];
    records.extend(first_rent("0000001"));
    records.extend(second_rent("0000002"));
    records.push(trailer("0000002", "000000000083050", "0000016"));
    Flow(records)
}

/// A flow with a 16 and five 59 in its first disposition, so that every type
/// of record stands in it: IM, 14, 16, 20, 30, 40, 59 * 5, 51, 70, then the
/// seven of the second rent, EF. 21 records.
pub fn all_types() -> Flow {
    let mut first = first_rent("0000001");
    first.splice(4..5, vec![detail("59", "0000001"); 5]);
    first.insert(1, account("0000001"));
    let mut records = vec![header()];
    records.extend(first);
    records.extend(second_rent("0000002"));
    records.push(trailer("0000002", "000000000083050", "0000021"));
    Flow(records)
}

/// One rent alone.
pub fn one_rent() -> Flow {
    let mut records = vec![header()];
    records.extend(first_rent("0000001"));
    records.push(trailer("0000001", "000000000045000", "0000009"));
    Flow(records)
}

/// The records of a rent as those of a recall.
pub fn recall(mut rent: Vec<Vec<u8>>) -> Vec<Vec<u8>> {
    rent[0][28..33].copy_from_slice(b"07100");
    rent[0][46] = b'+';
    rent
}

/// The two-rent flow as one of recalls, 16 records.
pub fn two_recalls() -> Flow {
    let mut records = vec![header()];
    records.extend(recall(first_rent("0000001")));
    records.extend(recall(second_rent("0000002")));
    records.push(recall_trailer("0000002", "000000000083050", "0000016"));
    Flow(records)
}

/// Three rents of 45000, 38050 and 45000 cents, requests or recalls: 23 records.
pub fn three_rents(recalls: bool) -> Flow {
    let rents = [
        first_rent("0000001"),
        second_rent("0000002"),
        first_rent("0000003"),
    ];
    let mut records = vec![header()];
    for rent in rents {
        records.extend(if recalls { recall(rent) } else { rent });
    }
    let end = if recalls { recall_trailer } else { trailer };
    records.push(end("0000003", "000000000128050", "0000023"));
    Flow(records)
}

/// What the records 14 of a flow have at these positions.
pub fn in_openings(flow: &[u8], first: usize, last: usize) -> Vec<&[u8]> {
    let records = flow.chunks(120);
    let openings = records.filter(|record| record.len() == 120 && record[1..3] == *b"14");
    openings.map(|record| &record[first - 1..last]).collect()
}

/// Puts bytes into the D of a rent, by the position in the record. Each rent of
/// the list has 593 bytes.
pub fn put_item(list: &mut [u8], rent: usize, position: usize, bytes: &[u8]) {
    let offset = match position {
        23..=28 => position - 22,
        34..=46 => position - 27,
        53..=69 => position - 33,
        _ => position - 55,
    };
    let at = 50 + 593 * (rent - 1) + offset;
    list[at..at + bytes.len()].copy_from_slice(bytes);
}

/// One rent recalled.
pub fn one_recall() -> Flow {
    let mut records = vec![header()];
    records.extend(recall(first_rent("0000001")));
    records.push(recall_trailer("0000001", "000000000045000", "0000009"));
    Flow(records)
}

/// `all_types` as a flow of recalls, 21 records.
pub fn all_types_recalled() -> Flow {
    let mut records = all_types().0;
    for opening in [1, 13] {
        records[opening][28..33].copy_from_slice(b"07100");
        records[opening][46] = b'+';
    }
    records[20] = recall_trailer("0000002", "000000000083050", "0000021");
    Flow(records)
}

/// The request list of the two-rent flow as one of recalls: Q for H.
pub fn two_recalls_list() -> Vec<u8> {
    let mut list = two_rents_list();
    list[0] = b'Q';
    list
}

/// The request list of the two-rent flow.
pub fn two_rents_list() -> Vec<u8> {
    let mut list = header_item();
    list.extend(rent_items(
        "0000000045000",
        "S0017",
        "ROSSI GIULIA",
        "RSSGLI05A41F205X",
        "STANZA 17",
        "0000000017",
    ));
    list.extend(rent_items(
        "0000000038050",
        "S0023",
        "BIANCHI MARCO",
        "BNCMRC04P12F205Y",
        "STANZA 23",
        "0000000023",
    ));
    list
}

pub fn header_item() -> Vec<u8> {
    item(
        'H',
        &[
            ("AB123", 5),
            ("01234", 5),
            ("150326", 6),
            ("RENT-MARCH", 20),
            ("", 6),
            ("", 7),
        ],
    )
}

fn rent_items(
    cents: &str,
    customer: &str,
    name: &str,
    tax_code: &str,
    room: &str,
    reference: &str,
) -> Vec<u8> {
    [
        item(
            'D',
            &[
                ("310326", 6),
                (cents, 13),
                ("02400", 5),
                ("000000123456", 12),
                ("AB123", 5),
                ("2", 1),
                (customer, 16),
            ],
        ),
        item(
            'C',
            &[
                ("RESIDENZA SAN MARTINO", 24),
                ("VIA DEI COLLEGI 12", 24),
                ("20100 MILANO MI", 24),
                ("", 24),
            ],
        ),
        item('B', &[(name, 30), ("", 30), (tax_code, 16)]),
        item(
            'A',
            &[
                ("VIA DEI COLLEGI 12", 30),
                ("20100", 5),
                ("MILANO MI", 25),
                (room, 50),
            ],
        ),
        item('R', &[("RETTA MARZO 2026", 110)]),
        item('K', &[(reference, 110)]),
        item('Z', &[("", 26)]),
    ]
    .concat()
}

/// A kind byte and texts padded with blanks.
pub fn item(kind: char, texts: &[(&str, usize)]) -> Vec<u8> {
    let mut bytes = vec![kind as u8];
    for (text, len) in texts {
        bytes.extend(format!("{text:len$}").bytes());
    }
    bytes
}

/// The list of an accepted flow, read back with the reader's answer.
pub fn list_of(flow: &[u8]) -> Vec<u8> {
    let mut list = vec![0; flow.len()];
    let (answer, len) = oracle::list::write_list(flow, &mut list);
    assert_eq!(answer, oracle::reader::read(flow));
    list.truncate(len);
    list
}

/// Adler-32, by its definition over sums of the whole.
pub fn adler(bytes: &[u8]) -> u64 {
    let len = bytes.len() as u64;
    let low: u64 = bytes.iter().map(|&byte| u64::from(byte)).sum();
    let weighted = (0..len)
        .zip(bytes)
        .map(|(i, &byte)| (len - i) * u64::from(byte));
    let high: u64 = len + weighted.sum::<u64>();
    ((high % 65_521) << 16) | ((1 + low) % 65_521)
}

/// The bytes of a line of vectors.
pub fn unescaped(text: &str) -> Vec<u8> {
    let mut parts = text.split('\\');
    let mut bytes = parts.next().unwrap().as_bytes().to_vec();
    for part in parts {
        bytes.push(u8::from_str_radix(&part[..2], 16).unwrap());
        bytes.extend(part[2..].bytes());
    }
    bytes
}

/// A case as two files of vectors have it: its name, the line of its bytes and
/// what is told of them, and each line that asks with its answer.
pub struct Vector<'a> {
    pub name: &'a str,
    pub bytes: &'a str,
    pub told: &'a str,
    pub asked: Vec<(&'a str, &'a str)>,
}

/// The cases of two files, which have equally many lines. A line that asks
/// starts with one of the signs.
pub fn vectors<'a>(input: &'a str, output: &'a str, signs: &[char]) -> Vec<Vector<'a>> {
    assert!(input.ends_with('\n') && output.ends_with('\n'));
    assert_eq!(input.lines().count(), output.lines().count());
    let mut lines = input.lines().zip(output.lines()).peekable();
    let mut all = Vec::new();
    while let Some((name, same)) = lines.next() {
        assert_eq!(name, same);
        let (bytes, told) = lines.next().unwrap();
        let mut asked = Vec::new();
        while let Some(line) = lines.next_if(|(line, _)| line.starts_with(signs)) {
            asked.push(line);
        }
        all.push(Vector {
            name: name.strip_prefix("# ").unwrap(),
            bytes: bytes.strip_prefix('=').unwrap(),
            told,
            asked,
        });
    }
    all
}

/// Records that can be changed by record and position, both from 1.
#[derive(Clone)]
pub struct Flow(pub Vec<Vec<u8>>);

impl Flow {
    pub fn bytes(&self) -> Vec<u8> {
        self.0.concat()
    }

    /// The flow with bytes put into one record.
    pub fn with(mut self, record: usize, position: usize, bytes: &[u8]) -> Flow {
        self.0[record - 1][position - 1..position - 1 + bytes.len()].copy_from_slice(bytes);
        self
    }

    /// The flow with a record before this one.
    pub fn insert(mut self, record: usize, bytes: Vec<u8>) -> Flow {
        self.0.insert(record - 1, bytes);
        self
    }

    /// The flow without a record.
    pub fn without(mut self, record: usize) -> Flow {
        self.0.remove(record - 1);
        self
    }

    /// The reader's answer.
    pub fn read(&self) -> Answer {
        oracle::reader::read(&self.bytes())
    }
}
