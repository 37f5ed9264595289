//! The reader against a second statement of the same rules: all faults of a
//! record are gathered in no order at all, and the first is chosen by the
//! order of documents 01 and 02 (E1, E4, E5). Compared on every single byte put
//! anywhere, and on generated flows. The digit and date rules are those of
//! `fields`, which has tests of its own.

mod common;

use common::*;
use oracle::answer::Answer;
use oracle::fields::{date, digits};
use oracle::generate;
use oracle::reader::read;
use oracle::rng::Rng;

fn reference(flow: &[u8]) -> Answer {
    if flow.is_empty() || !flow.len().is_multiple_of(120) || flow.len() > 1_199_999_880 {
        return refused(1, 0, 0);
    }
    let records: Vec<&[u8]> = flow.chunks(120).collect();
    for index in 0..records.len() {
        let faults = faults(&records[..=index]);
        if let Some((_, number, position)) = faults.into_iter().min() {
            return refused(number, index as u64 + 1, position);
        }
    }
    if kind(records[records.len() - 1]) != b"EF" {
        return refused(4, records.len() as u64 + 1, 0);
    }
    let openings = openings(&records);
    let cents = sum(&openings) as u64;
    let answer = match openings[0][28..33] == *b"07100" {
        true => recalled,
        false => accepted,
    };
    answer(openings.len() as u64, cents, records.len() as u64)
}

/// Rank, number, position. Ranks: 2 before 3 before fields by position; for
/// one field 5 first, and 6 before 22. 25 never stands beside a 5.
type Fault = ((u8, u8, bool), u8, u8);

fn kind(record: &[u8]) -> &[u8] {
    &record[1..3]
}

fn openings<'a>(records: &[&'a [u8]]) -> Vec<&'a [u8]> {
    let is_opening = |record: &&&[u8]| kind(record) == b"14";
    records.iter().filter(is_opening).copied().collect()
}

fn sum(openings: &[&[u8]]) -> u128 {
    let cents = |record: &&[u8]| digits(&record[33..46]).map_or(0, u128::from);
    openings.iter().map(cents).sum()
}

/// All faults of the last of these records, those before it being right.
fn faults(records: &[&[u8]]) -> Vec<Fault> {
    let (record, before) = records.split_last().unwrap();
    let mut found = Found {
        record,
        faults: Vec::new(),
    };
    for (index, byte) in record.iter().enumerate() {
        if !(b' '..=b'~').contains(byte) {
            let position = index as u8 + 1;
            found.faults.push(((0, position, false), 2, position));
        }
    }
    if !permitted(before, kind(record)) {
        found.faults.push(((1, 0, false), 3, 2));
        return found.faults;
    }
    found.fields(records);
    found.faults
}

/// Whether a record of this type may come after these.
fn permitted(before: &[&[u8]], this: &[u8]) -> bool {
    let types: Vec<&[u8]> = before.iter().map(|record| kind(record)).collect();
    let Some(&last) = types.last() else {
        return this == b"IM";
    };
    let run = types.iter().rev().take_while(|&&t| t == b"59").count();
    match this {
        b"14" => last == b"IM" || last == b"70",
        b"16" => last == b"14",
        b"20" => last == b"14" || last == b"16",
        b"30" => last == b"20",
        b"40" => last == b"30",
        b"50" => last == b"40",
        b"59" => last == b"40" || (1..5).contains(&run),
        b"51" => last == b"50" || last == b"59",
        b"70" => last == b"51",
        b"EF" => last == b"70",
        _ => false,
    }
}

struct Found<'a> {
    record: &'a [u8],
    faults: Vec<Fault>,
}

impl<'a> Found<'a> {
    fn at(&self, first: usize, last: usize) -> &'a [u8] {
        &self.record[first - 1..last]
    }

    fn fault_if(&mut self, fault: bool, number: u8, position: usize) {
        if fault {
            let position = position as u8;
            let rank = (2, position, number != 5);
            self.faults.push((rank, number, position));
        }
    }

    fn present(&mut self, first: usize, last: usize) {
        let blank = self.at(first, last).iter().all(|&b| b == 32);
        self.fault_if(blank, 7, first);
    }

    fn digits(&mut self, first: usize, last: usize) {
        let wrong = !self.at(first, last).iter().all(u8::is_ascii_digit);
        self.fault_if(wrong, 5, first);
    }

    fn date(&mut self, first: usize) {
        self.digits(first, first + 5);
        self.fault_if(date(self.at(first, first + 5)) == Err(8), 8, first);
    }

    fn equal(&mut self, first: usize, last: usize, due: &[u8], number: u8) {
        self.fault_if(self.at(first, last) != due, number, first);
    }

    fn listed(&mut self, position: usize, listed: &str) {
        let byte = char::from(self.record[position - 1]);
        self.fault_if(!listed.contains(byte), 6, position);
    }

    /// The table of checks.
    fn fields(&mut self, records: &[&[u8]]) {
        let header = records[0];
        let openings = openings(records);
        if !matches!(kind(self.record), b"IM" | b"EF") {
            self.digits(4, 10);
            let due = format!("{:07}", openings.len());
            self.equal(4, 10, due.as_bytes(), 9);
        }
        match kind(self.record) {
            b"IM" => {
                self.listed(114, "E");
                self.present(20, 39);
                self.present(4, 8);
                self.digits(9, 13);
                self.date(14);
                if self.at(105, 111) != b"       " {
                    self.digits(107, 111);
                    self.listed(106, "$");
                    self.listed(105, "1");
                }
            }
            b"14" => {
                self.listed(120, "E");
                self.listed(97, " 1234569");
                let causale = self.at(29, 33);
                match causale {
                    b"07000" => self.listed(47, "-"),
                    b"07100" => self.listed(47, "+"),
                    _ => self.fault_if(true, 6, 29),
                }
                self.fault_if(causale != &openings[0][28..33], 22, 29);
                self.equal(92, 96, &openings[0][91..96], 11);
                if self.at(53, 57) != b"     " {
                    self.digits(53, 57);
                }
                self.digits(48, 52);
                self.equal(48, 52, &header[8..13], 10);
                self.digits(34, 46);
                self.fault_if(self.at(34, 46) == [b'0'; 13], 25, 34);
                self.date(23);
            }
            b"16" => {
                self.present(26, 37);
                self.digits(21, 25);
                self.fault_if(self.at(21, 25) == b"00000", 6, 21);
                self.digits(16, 20);
                self.equal(16, 20, &header[8..13], 10);
                self.present(15, 15);
                self.digits(13, 14);
                let country = self.at(11, 12);
                self.fault_if(country != b"IT" && country != b"SM", 6, 11);
            }
            b"20" => self.present(11, 34),
            b"30" => self.present(11, 40),
            b"59" => self.present(11, 65),
            b"70" => self.listed(94, " PB"),
            b"EF" => {
                for (first, last) in [(114, 114), (20, 39), (14, 19), (9, 13), (4, 8)] {
                    self.equal(first, last, &header[first - 1..last], 10);
                }
                let (negative, positive) = match &openings[0][28..33] {
                    b"07000" => (sum(&openings), 0),
                    _ => (0, sum(&openings)),
                };
                for (first, last, due, number) in [
                    (83, 89, records.len() as u128, 14),
                    (68, 82, positive, 13),
                    (53, 67, negative, 13),
                    (46, 52, openings.len() as u128, 12),
                ] {
                    self.digits(first, last);
                    let due = format!("{due:0width$}", width = last + 1 - first);
                    self.equal(first, last, due.as_bytes(), number);
                }
            }
            _ => {}
        }
    }
}

#[test]
fn every_byte_at_every_place() {
    // Every type of record: 59 in the first disposition, 50 in the second.
    for flow in [all_types(), all_types_recalled()] {
        let mut flow = flow.with(1, 105, b"1$05678").bytes();
        for index in 0..flow.len() {
            check_bytes_at(&mut flow, index);
        }
    }
}

fn check_bytes_at(flow: &mut [u8], index: usize) {
    let right = flow[index];
    for byte in 0..=255 {
        flow[index] = byte;
        let place = (index / 120 + 1, index % 120 + 1);
        assert_eq!(read(flow), reference(flow), "{place:?} {byte}");
    }
    flow[index] = right;
}

/// Two dispositions with causale and sign of every kind in each, under
/// trailers with the sum at either place, at both and at none.
#[test]
fn kinds_in_every_mixture() {
    let causales = [b"07000", b"07100", b"07200", b"0710O", b"     "];
    let pairs = || {
        causales
            .into_iter()
            .flat_map(|c| [(c, b"-"), (c, b"+"), (c, b" ")])
    };
    let sums = [b"000000000083050", b"000000000000000", b"00000000008305 "];
    for (one, other) in pairs().flat_map(|one| pairs().map(move |other| (one, other))) {
        for (negative, positive) in sums.into_iter().flat_map(|n| sums.map(|p| (n, p))) {
            let flow = two_rents()
                .with(2, 29, one.0)
                .with(2, 47, one.1)
                .with(9, 29, other.0)
                .with(9, 47, other.1)
                .with(16, 53, negative)
                .with(16, 68, positive);
            let due = reference(&flow.bytes());
            assert_eq!(
                flow.read(),
                due,
                "{one:?} {other:?} {negative:?} {positive:?}"
            );
        }
    }
}

/// Two dispositions with amounts of zero in each, a byte away from it, and no
/// digits, beside a wrong date, causale, sign or ABI of the second.
#[test]
fn zeros_in_every_mixture() {
    let amounts = [
        b"0000000000000",
        b"0000000000001",
        b"000000000000 ",
        b"0000000045000",
    ];
    let beside: [(usize, &[u8]); 6] = [
        (23, b"310326"),
        (23, b"290227"),
        (29, b"07200"),
        (47, b" "),
        (48, b"01235"),
        (120, b"\n"),
    ];
    for right in [two_rents(), two_recalls()] {
        for (one, other) in amounts.into_iter().flat_map(|o| amounts.map(|p| (o, p))) {
            for (position, bytes) in beside {
                let flow = right
                    .clone()
                    .with(2, 34, one)
                    .with(9, 34, other)
                    .with(9, position, bytes);
                let due = reference(&flow.bytes());
                assert_eq!(flow.read(), due, "{one:?} {other:?} {position}");
            }
        }
    }
}

/// Two dispositions with every mixture of codes, blanks among them, beside a
/// wrong causale, ABI or other field of the second.
#[test]
fn codes_in_every_mixture() {
    let codes = [
        b"AB123", b"ab123", b" AB12", b"AB12 ", b"     ", b"A    ", b"    A", b"  A  ", b"0    ",
    ];
    let beside: [(usize, &[u8]); 9] = [
        (1, b" "),
        (4, b"0000003"),
        (29, b"07200"),
        (34, b"0000000000000"),
        (48, b"01235"),
        (53, b"     "),
        (57, b" "),
        (97, b"0"),
        (120, b"\n"),
    ];
    for right in [two_rents(), two_recalls()] {
        for (one, other) in codes.into_iter().flat_map(|o| codes.map(|p| (o, p))) {
            for (position, bytes) in beside {
                let flow = right
                    .clone()
                    .with(2, 92, one)
                    .with(9, 92, other)
                    .with(9, position, bytes);
                let due = reference(&flow.bytes());
                assert_eq!(flow.read(), due, "{one:?} {other:?} {position}");
            }
        }
    }
}

#[test]
fn generated_flows() {
    for index in 0..20_000 {
        let flow = generate::flow_case(7, index);
        assert_eq!(read(&flow), reference(&flow), "case {index}");
    }
}

#[test]
fn bytes_of_any_kind() {
    let mut rng = Rng::new(3);
    for _ in 0..2_000 {
        let len = rng.index(500);
        let any: Vec<u8> = (0..len).map(|_| rng.bits() as u8).collect();
        assert_eq!(read(&any), reference(&any));
        let blanks = vec![b' '; len / 120 * 120];
        assert_eq!(read(&blanks), reference(&blanks));
    }
}
