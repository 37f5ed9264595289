//! Named cases for the reader: right flows, and flows that break the rules of
//! document 01, or of document 02, E1, E4 and E5, one at a time or two
//! together.
//!
//! A flow is set down by the types of its records, each of them right for its
//! place in a flow of requests (`Flow::of`) or of recalls (`Flow::recalled`),
//! and by the bytes then put into it. What comes after the first fault does
//! not change the answer, so that beside one whole flow for each check there
//! are many that end with the record at fault.

use crate::damage::checked;
use crate::generate::{blank, fill_trailer, NO_CODE};
use crate::record::{field, field_mut, put, record_type, Record, BLANK_RECORD, RECORD_LEN};
use crate::samples;

/// One flow and what it shows.
#[derive(Clone, Debug, Eq, PartialEq)]
pub struct Case {
    pub name: String,
    pub flow: Vec<u8>,
}

/// All cases.
pub fn cases() -> Vec<Case> {
    let mut cases = Cases(Vec::new());
    cases.lengths();
    cases.sequences();
    cases.misplaced();
    cases.bytes();
    cases.present();
    cases.values();
    cases.numbers();
    cases.changes();
    cases.neighbours();
    cases.second_numbers();
    cases.unchecked();
    cases.large_total();
    cases.recalls();
    cases.zeros();
    cases.codes();
    cases.0
}

/// One disposition of 45000 cents in 9 records.
pub(crate) const ONE: &str = "IM 14 20 30 40 50 51 70 EF";
/// One disposition of 45000 cents in 10 records, with 16 and 59.
const FULL: &str = "IM 14 16 20 30 40 59 51 70 EF";
/// Two dispositions of 45000 and 38050 cents in 16 records.
pub(crate) const TWO: &str = "IM 14 20 30 40 50 51 70 14 20 30 40 50 51 70 EF";
/// Three dispositions of 45000, 38050 and 45000 cents in 23 records.
pub(crate) const THREE: &str =
    "IM 14 20 30 40 50 51 70 14 20 30 40 50 51 70 14 20 30 40 50 51 70 EF";
/// Two dispositions in 17 records of every type.
pub(crate) const EVERY: &str = "IM 14 16 20 30 40 59 51 70 14 20 30 40 50 51 70 EF";
/// A flow that ends with the second 14, record 9.
const UP_TO_9: &str = "IM 14 20 30 40 50 51 70 14";
/// A flow that ends with the third 14, record 16.
const UP_TO_16: &str = "IM 14 20 30 40 50 51 70 14 20 30 40 50 51 70 14";
/// One disposition, and a further 14 after EF, record 10.
pub(crate) const AND_14: &str = "IM 14 20 30 40 50 51 70 EF 14";
/// One disposition, and a record of an unknown type after EF.
const AND_XX: &str = "IM 14 20 30 40 50 51 70 EF XX";

/// The records of a flow, to be changed by record and position from 1.
pub(crate) struct Flow(pub(crate) Vec<Record>);

/// Makes the records of a flow of requests those of recalls (document 003,
/// section 3): causale and sign of the records 14, and EF's sum at 68-82 with
/// zeros at 53-67.
pub fn recall(records: &mut [Record]) {
    for record in records {
        match &record_type(record) {
            b"14" => {
                put(record, 29, b"07100");
                put(record, 47, b"+");
            }
            // The two fields, of 15 bytes each, change places.
            b"EF" => field_mut(record, 53, 82).rotate_left(15),
            _ => {}
        }
    }
}

impl Flow {
    /// Records of these types. Each has the number due after the 14s so far,
    /// and EF agrees with the records before it.
    pub(crate) fn of(types: &str) -> Flow {
        let mut flow = Flow(Vec::new());
        for kind in types.split(' ') {
            let record = flow.next(kind);
            flow.0.push(record);
        }
        flow
    }

    /// The next record, of this type.
    pub(crate) fn next(&self, kind: &str) -> Record {
        let mut kind_bytes = [b' '; 2];
        kind_bytes.copy_from_slice(kind.as_bytes());
        let openings = self.0.iter().filter(|r| record_type(r) == *b"14").count();
        let number = openings + usize::from(kind == "14");
        let mut record = match kind {
            "IM" => return samples::two_rents().header,
            "EF" => {
                let mut trailer = BLANK_RECORD;
                fill_trailer(&mut trailer, &self.0);
                return trailer;
            }
            "16" => samples::account(),
            "59" => samples::detail_line(1),
            _ => of_rent(kind_bytes, number),
        };
        put(&mut record, 4, format!("{number:07}").as_bytes());
        record
    }

    /// The flow as one of recalls.
    pub(crate) fn recalled(mut self) -> Flow {
        recall(&mut self.0);
        self
    }

    /// The flow with bytes put into one record.
    fn with(mut self, record: usize, position: usize, bytes: &[u8]) -> Flow {
        put(&mut self.0[record - 1], position, bytes);
        self
    }

    /// The flow with all these bytes put into it.
    pub(crate) fn with_all(self, changes: &[Change]) -> Flow {
        changes
            .iter()
            .fold(self, |flow, &(record, position, bytes)| {
                flow.with(record, position, bytes)
            })
    }

    /// The flow with the header's fields copied to EF, if it ends with that.
    pub(crate) fn with_header_copied(mut self) -> Flow {
        let header = self.0[0];
        if let Some(trailer) = self.0.last_mut() {
            if record_type(trailer) == *b"EF" {
                put(trailer, 4, field(&header, 4, 39));
                put(trailer, 114, field(&header, 114, 114));
            }
        }
        self
    }

    /// The flow up to this record.
    fn up_to(mut self, record: usize) -> Flow {
        self.0.truncate(record);
        self
    }

    /// The flow as its bytes.
    pub(crate) fn bytes(&self) -> Vec<u8> {
        self.0.concat()
    }
}

/// A record of the sample's two rents, which come in turn by their number;
/// blank if no rent has this type.
fn of_rent(kind: [u8; 2], number: usize) -> Record {
    let rents = samples::two_rents().dispositions;
    let rent = &rents[(number + 1) % 2];
    let found = rent.iter().find(|record| record_type(record) == kind);
    found.copied().unwrap_or_else(|| blank(&kind))
}

/// Bytes put into a flow: record, position, bytes.
pub(crate) type Change = (usize, usize, &'static [u8]);

/// The cases so far.
struct Cases(Vec<Case>);

impl Cases {
    fn push(&mut self, name: impl Into<String>, flow: Vec<u8>) {
        let name = name.into();
        self.0.push(Case { name, flow });
    }

    /// Lengths that are no number of records, and the length before all else.
    fn lengths(&mut self) {
        let flow = Flow::of(ONE).bytes();
        for len in [0, 1, 119, 121, 239, 1079] {
            self.push(format!("length {len}"), flow[..len].to_vec());
        }
        self.push("length 1081", [&flow[..], b"\n"].concat());
        self.push("length 1 of a bad byte", vec![0]);
        self.push("length 121 and a bad first byte", {
            let mut flow = flow[..121].to_vec();
            flow[0] = 0;
            flow
        });
        let lines: Vec<Vec<u8>> = flow
            .chunks(RECORD_LEN)
            .map(|record| [record, b"\n"].concat())
            .collect();
        self.push("each record ended by a line feed", lines.concat());
    }

    /// Orders of records, right and wrong, and flows that end too early.
    fn sequences(&mut self) {
        for (name, types) in SEQUENCES {
            self.push(name, Flow::of(types).bytes());
        }
    }

    /// A record of a type that may not stand there, as the flow's last.
    fn misplaced(&mut self) {
        for (place, before, kinds) in MISPLACED {
            for kind in kinds.split(' ') {
                let types = format!("{before} {kind}");
                let flow = Flow::of(types.trim_start());
                self.push(format!("ends with {kind} {place}"), flow.bytes());
            }
        }
    }

    /// The bounds of a byte, where nothing else is checked.
    fn bytes(&mut self) {
        let name = |byte| format!("byte {byte} in 20 at 107");
        for byte in [92, 126] {
            self.push(name(byte), Flow::of(ONE).with(3, 107, &[byte]).bytes());
        }
        for byte in [0, 10, 31, 127, 128, 255] {
            let flow = Flow::of("IM 14 20").with(3, 107, &[byte]);
            self.push(name(byte), flow.bytes());
        }
    }

    /// Each obligatory field blank, with text right after it where that is
    /// not checked; all of them with one byte alone.
    fn present(&mut self) {
        let ends = ["first", "last"];
        let mut alone = ends.map(|_| Flow::of(FULL));
        for (name, record, first, last, behind) in PRESENT {
            let blanks = vec![b' '; last + 1 - first];
            let flow = Flow::of(FULL)
                .with(record, first, &blanks)
                .with(record, last + 1, behind)
                .with_header_copied();
            self.push(format!("{name} blank"), flow.bytes());
            for (flow, place) in alone.iter_mut().zip([first, last]) {
                put(&mut flow.0[record - 1], first, &blanks);
                put(&mut flow.0[record - 1], place, b"~");
            }
        }
        for (flow, end) in alone.into_iter().zip(ends) {
            let name = format!("obligatory {end} bytes alone");
            self.push(name, flow.with_header_copied().bytes());
        }
    }

    /// Right and wrong values of each field.
    fn values(&mut self) {
        for values in &VALUES {
            self.values_of(values);
        }
    }

    /// Each value of one field; the header's stands in EF too.
    fn values_of(&mut self, values: &Values) {
        let all = values.whole.iter().chain(values.cut);
        for (index, value) in all.enumerate() {
            let bytes = value.as_bytes();
            let mut flow = Flow::of(values.types).with(values.record, values.position, bytes);
            if values.record == 1 {
                flow = flow.with_header_copied();
            }
            if index >= values.whole.len() {
                flow = flow.up_to(values.record);
            }
            self.push(format!("{} is '{value}'", values.name), flow.bytes());
        }
    }

    /// The number at 4-10 in every type of record that has one.
    fn numbers(&mut self) {
        for (name, types, record) in NUMBERED {
            self.values_of(&Values {
                name,
                types,
                record,
                position: 4,
                whole: &["000000:", "0000000"],
                cut: if record == 2 {
                    &["0000002", "0000010"]
                } else {
                    &["0000002"]
                },
            });
        }
    }

    /// Flows with faults of more than one field or record, and others.
    fn changes(&mut self) {
        for (name, types, changes) in CHANGES {
            self.push(name, Flow::of(types).with_all(changes).bytes());
        }
    }

    /// Two faults of one record, in fields next to one another.
    fn neighbours(&mut self) {
        for (name, types, record, faults) in FAULTS {
            for pair in faults.windows(2) {
                let mut flow = Flow::of(types);
                for (position, bytes) in pair {
                    flow = flow.with(record, *position, bytes);
                }
                let (one, other) = (pair[0].0, pair[1].0);
                let name = format!("{name} wrong at {one} and {other}");
                self.push(name, flow.bytes());
            }
        }
    }

    /// The number 1 in the whole of a second disposition, under a right
    /// trailer.
    fn second_numbers(&mut self) {
        let restarted = (9..=15).fold(Flow::of(TWO), |flow, r| flow.with(r, 4, b"0000001"));
        self.push("the second disposition numbered 1", restarted.bytes());
        let mut twice = Flow::of(TWO).with(16, 53, b"000000000090000");
        twice.0.copy_within(1..8, 8);
        self.push("the first disposition twice", twice.bytes());
    }

    /// Every unchecked position filled, in records of every type.
    fn unchecked(&mut self) {
        let mut flow = Flow::of(EVERY);
        flow.0.iter_mut().for_each(|record| fill(record, b'~'));
        self.push("unchecked positions all ~", flow.bytes());
    }

    /// A total above 15 digits; one of 15 is among the cases of where a
    /// disposition is.
    fn large_total(&mut self) {
        let mut flow = Flow::of(&format!("IM{} EF", " 14 20 30 40 50 51 70".repeat(101)));
        for opening in (0..101).map(|index| 2 + 7 * index) {
            flow = flow.with(opening, 34, b"9999999999999");
        }
        let flow = flow.with(709, 53, b"999999999999999");
        self.push("101 largest amounts", flow.bytes());
    }

    /// Flows of recalls, right and with bytes put into them.
    fn recalls(&mut self) {
        for (name, types, changes) in RECALLS {
            let flow = Flow::of(types).recalled().with_all(changes);
            self.push(format!("recall: {name}"), flow.bytes());
        }
    }
}

/// Amounts of zero (document 02, E5).
impl Cases {
    /// A first 14 with an amount of zero, of a request and of a recall.
    fn zeros(&mut self) {
        for (name, types, changes) in ZEROS {
            let flow = Flow::of(types).with_all(changes);
            self.push(format!("zero: {name}"), flow.bytes());
            let flow = Flow::of(types).recalled().with_all(changes);
            self.push(format!("zero recall: {name}"), flow.bytes());
        }
    }
}

/// Company codes on all or on none (document 02, E4).
impl Cases {
    /// Codes that differ, alone and with other faults; and codes with blanks in
    /// them that are all equal.
    fn codes(&mut self) {
        for (name, types, changes) in CODES {
            let flow = Flow::of(types).with_all(changes);
            self.push(format!("code: {name}"), flow.bytes());
        }
        for (name, types, changes) in RECALL_CODES {
            let flow = Flow::of(types).recalled().with_all(changes);
            self.push(format!("code recall: {name}"), flow.bytes());
        }
    }
}

/// Fills the positions of a record that are not checked.
fn fill(record: &mut Record, byte: u8) {
    let mut filled = [byte; RECORD_LEN];
    for &(first, last) in checked(record_type(record)) {
        field_mut(&mut filled, first, last).copy_from_slice(field(record, first, last));
    }
    *record = filled;
}

/// Flows in which at most the order of the records is wrong.
#[rustfmt::skip]
const SEQUENCES: [(&str, &str); 32] = [
    ("one disposition", ONE),
    ("two dispositions", TWO),
    ("two 59s", "IM 14 20 30 40 59 59 51 70 EF"),
    ("five 59s", "IM 14 20 30 40 59 59 59 59 59 51 70 EF"),
    ("16 and five 59s", "IM 14 16 20 30 40 59 59 59 59 59 51 70 EF"),
    ("six 59s", "IM 14 20 30 40 59 59 59 59 59 59 51 70 EF"),
    ("59 after 50", "IM 14 20 30 40 50 59 51 70 EF"),
    ("50 after 59", "IM 14 20 30 40 59 50 51 70 EF"),
    ("50 twice", "IM 14 20 30 40 50 50 51 70 EF"),
    ("no 50 and no 59", "IM 14 20 30 40 51 70 EF"),
    ("59 before and after 51", "IM 14 20 30 40 59 51 59 70 EF"),
    ("no IM", "14 20 30 40 50 51 70 EF"),
    ("EF without a disposition", "IM EF"),
    ("EF alone", "EF"),
    ("EF twice", "IM 14 20 30 40 50 51 70 EF EF"),
    ("14 after EF", AND_14),
    ("an unknown type after EF", AND_XX),
    ("no EF", "IM 14 20 30 40 50 51 70"),
    ("IM alone", "IM"),
    ("ends after 14", "IM 14"),
    ("ends after 16", "IM 14 16"),
    ("ends after 20", "IM 14 20"),
    ("ends after 16 and 20", "IM 14 16 20"),
    ("ends after 30", "IM 14 20 30"),
    ("ends after 40", "IM 14 20 30 40"),
    ("ends after 50", "IM 14 20 30 40 50"),
    ("ends after one 59", "IM 14 20 30 40 59"),
    ("ends after four 59s", "IM 14 20 30 40 59 59 59 59"),
    ("ends after five 59s", "IM 14 20 30 40 59 59 59 59 59"),
    ("ends after 50 and 51", "IM 14 20 30 40 50 51"),
    ("ends after 59 and 51", "IM 14 20 30 40 59 51"),
    ("ends after the second 14", UP_TO_9),
];

/// Types that may not stand at a place: the place, the types before it, the
/// types put there as the flow's last record.
#[rustfmt::skip]
const MISPLACED: [(&str, &str, &str); 11] = [
    ("at the start", "", "14 16 20 30 40 50 59 51 70 XX"),
    ("after IM", "IM", "IM 16 20 30 40 50 59 51 70 XX"),
    ("after 14", "IM 14", "IM 14 30 40 50 59 51 70 EF XX"),
    ("after 16", "IM 14 16", "14 16 30 EF"),
    ("after 20", "IM 14 20", "14 16 20 40 EF"),
    ("after 30", "IM 14 20 30", "20 30 50 59 51"),
    ("after 40", "IM 14 20 30 40", "30 40 70"),
    ("after 50", "IM 14 20 30 40 50", "70 14"),
    ("after 59", "IM 14 20 30 40 59", "40 70"),
    ("after 51", "IM 14 20 30 40 50 51", "51 EF"),
    ("after 70", "IM 14 20 30 40 50 51 70", "IM 70 16 20"),
];

/// The obligatory fields: name, record of `FULL`, first and last position,
/// and what is put after the blank field.
const PRESENT: [(&str, usize, usize, usize, &[u8]); 7] = [
    ("IM 4-8", 1, 4, 8, b""),
    ("IM 20-39", 1, 20, 39, b"X"),
    ("16 at 15", 3, 15, 15, b""),
    ("16 26-37", 3, 26, 37, b"X"),
    ("20 11-34", 4, 11, 34, b"X"),
    ("30 11-40", 5, 11, 40, b"X"),
    ("59 11-65", 7, 11, 65, b"X"),
];

/// Values of one field, right and wrong, each in a flow of its own.
struct Values {
    name: &'static str,
    types: &'static str,
    record: usize,
    position: usize,
    /// Put into a whole flow.
    whole: &'static [&'static str],
    /// Put into a flow that ends with the record.
    cut: &'static [&'static str],
}

const fn values(
    name: &'static str,
    types: &'static str,
    record: usize,
    position: usize,
    whole: &'static [&'static str],
    cut: &'static [&'static str],
) -> Values {
    Values {
        name,
        types,
        record,
        position,
        whole,
        cut,
    }
}

/// The fields with digits, a date, a listed value or a value due, by the rows
/// of document 01's table of checks.
#[rustfmt::skip]
static VALUES: [Values; 30] = [
    values("IM 9-13", ONE, 1, 9, &["0123:"], &["/1234", "     ", "0123 ", " 1234"]),
    values("IM date", ONE, 1, 14, &["29022:", "290227"], &[
        "290228", "290200", "311299", "300228", "310426", "320126", "000126", "010026", "011326",
        "290299", "/90228", "      ", "2902 7",
    ]),
    values("IM 105-111", ONE, 1, 105, &["1$05678", "2$05678", "1E05678", "1$0567:"], &[
        "1$00000", "0$05678", " $05678", "1 05678", "1#05678", "1$/5678", "1$0567 ", "1$     ",
        "      1", "1      ", " $     ", "2E0567A", "1E0567A",
    ]),
    values("IM at 114", ONE, 1, 114, &["L"], &[" ", "e", "D", "F"]),
    values("14 number", ONE, 2, 4, &[], &["       ", "/000001", "000001 ", "9999999", "00000001"]),
    values("14 date", ONE, 2, 23, &["29022:", "290227"], &[
        "290228", "290200", "010100", "311299", "300426", "300228", "310426", "310626", "310926", "311126",
        "320126", "000126", "010026", "011326", "290299", "/90228", "      ", "2902 7",
    ]),
    values("14 29-33", ONE, 2, 29, &["07100", "07200"], &[
        "07001", "17000", "     ", "0700O", "7000 ", "07006", "07008", "07010", "07011", "00000",
    ]),
    values("14 amount", ONE, 2, 34, &["0000000450.00"], &[
        "000000004500:", "/000000045000", "             ", "        45000", "45000        ",
        "+000000045000", "0000000000001", "0000001000000", "1000000000000",
    ]),
    values("14 at 47", ONE, 2, 47, &["+"], &[" ", ",", ".", "0"]),
    values("14 48-52", ONE, 2, 48, &["0123:", "01235"], &[
        "/1234", "     ", "1234 ", "9999A", "11234", "00000",
    ]),
    values("14 53-57", ONE, 2, 53, &["     ", "024  "], &[
        "00000", "99999", "0240 ", " 2400", "    0", "0    ", "0240:", "/2400", "ABCDE",
    ]),
    values("14 at 97", ONE, 2, 97, &[" ", "9", "0"], &[
        "1", "2", "3", "4", "5", "6", "7", "8", "A", "/", ":", "!",
    ]),
    values("14 at 120", ONE, 2, 120, &["L"], &[" ", "e", "D", "F"]),
    values("16 11-12", FULL, 3, 11, &["SM", "DE"], &["IT", "IM", "ST", "it", "sm", "  ", "TI"]),
    values("16 13-14", FULL, 3, 13, &["6:"], &["00", "/0", "  ", " 0", "0 "]),
    values("16 at 15", FULL, 3, 15, &[], &["0", "~"]),
    values("16 16-20", FULL, 3, 16, &["0123:", "01235"], &[
        "/1234", "     ", "9999A", "11234", "00000",
    ]),
    values("16 21-25", FULL, 3, 21, &["0240:", "00000"], &[
        "00001", "99999", "10000", "/0000", "0000 ", "     ",
    ]),
    values("70 at 94", ONE, 8, 94, &["P", "A"], &["B", "!", "p"]),
    values("EF 4-8", ONE, 9, 4, &[], &["AB124"]),
    values("EF 9-13", ONE, 9, 9, &[], &["11234", "0123A"]),
    values("EF date", ONE, 9, 14, &[], &["150327", "290227"]),
    values("EF 20-39", ONE, 9, 20, &[], &["SENT-MARCH"]),
    values("EF at 39", ONE, 9, 39, &[], &["X"]),
    values("EF count", ONE, 9, 46, &[], &["0000000", "0000002", "000000:"]),
    values("EF total", ONE, 9, 53, &[], &[
        "000000000045001", "00000000004500:", "000000000000000",
    ]),
    values("EF zeros", ONE, 9, 68, &[], &[
        "000000000000001", "00000000000000:", "000000000045000",
    ]),
    values("EF records", ONE, 9, 83, &[], &["0000008", "0000010", "000000:"]),
    values("EF at 114", ONE, 9, 114, &[], &["L"]),
    values("EF 40-45", ONE, 9, 40, &[], &["OTHER "]),
];

/// The records with a number at 4-10: name, flow, record.
const NUMBERED: [(&str, &str, usize); 9] = [
    ("14 number", ONE, 2),
    ("16 number", FULL, 3),
    ("20 number", ONE, 3),
    ("30 number", ONE, 4),
    ("40 number", ONE, 5),
    ("50 number", ONE, 6),
    ("59 number", FULL, 7),
    ("51 number", ONE, 7),
    ("70 number", ONE, 8),
];

/// An amount of zero.
pub(crate) const ZERO: &[u8] = b"0000000000000";
/// No company code.
pub(crate) const ABSENT: &[u8] = &NO_CODE;
/// The fields of a 40, 50 or 51 blank.
const NO_TEXT: &[u8] = &[b' '; 110];

/// Flows with bytes put into them.
#[rustfmt::skip]
const CHANGES: [(&str, &str, &[Change]); 74] = [
    // Right flows.
    ("40 50 51 blank", ONE, &[(5, 11, NO_TEXT), (6, 11, NO_TEXT), (7, 11, NO_TEXT)]),
    ("amount 1", ONE, &[(2, 34, b"0000000000001"), (9, 53, b"000000000000001")]),
    ("amount 9999999999999", ONE, &[(2, 34, b"9999999999999"), (9, 53, b"009999999999999")]),
    // Amounts of zero, with the total that agrees and with another.
    ("amount 0", ONE, &[(2, 34, ZERO), (9, 53, b"000000000000000")]),
    ("amount 0 and the old total", ONE, &[(2, 34, ZERO)]),
    ("amount 0 in the second 14, wrong at 92", UP_TO_9, &[(9, 34, ZERO), (9, 92, ABSENT)]),
    // Types that are none.
    ("IM as im", "IM", &[(1, 2, b"im")]),
    ("IM as MI", "IM", &[(1, 2, b"MI")]),
    ("IM as PC", "IM", &[(1, 2, b"PC")]),
    ("IM one position early", "IM", &[(1, 1, b"IM ")]),
    ("only blanks", "IM", &[(1, 1, &BLANK_RECORD)]),
    ("14 as 41", "IM 14", &[(2, 2, b"41")]),
    ("14 as 15", "IM 14", &[(2, 2, b"15")]),
    ("14 as 24", "IM 14", &[(2, 2, b"24")]),
    ("14 as blanks", "IM 14", &[(2, 2, b"  ")]),
    ("EF as ef", ONE, &[(9, 2, b"ef")]),
    ("a wrong type and a wrong number", "IM 14 20", &[(3, 2, b"30"), (3, 4, b"0000000")]),
    ("a wrong type and wrong fields", "IM 14", &[(2, 2, b"15"), (2, 4, b"000000:"), (2, 97, b"0")]),
    // Bytes outside 32 to 126.
    ("byte 0 in IM at 1", "IM", &[(1, 1, b"\0")]),
    ("byte 128 in IM at 25", "IM", &[(1, 25, b"\x80")]),
    ("byte 255 in IM at 120", "IM", &[(1, 120, b"\xff")]),
    ("byte 0 in 14 at 2", "IM 14", &[(2, 2, b"\0")]),
    ("byte 127 in 14 at 3", "IM 14", &[(2, 3, b"\x7f")]),
    ("byte 127 in 14 at 3 and a wrong one at 2", "IM 14", &[(2, 2, b"9\x7f")]),
    ("byte 31 in 14 at 10", "IM 14", &[(2, 10, b"\x1f")]),
    ("byte 0 in 14 at 40", "IM 14", &[(2, 40, b"\0")]),
    ("byte 10 in 14 at 120", "IM 14", &[(2, 120, b"\n")]),
    ("byte 31 in EF at 67", ONE, &[(9, 67, b"\x1f")]),
    ("byte 127 in EF at 120", ONE, &[(9, 120, b"\x7f")]),
    ("byte 0 at 30 and 255 at 90 in 20", "IM 14 20", &[(3, 30, b"\0"), (3, 90, b"\xff")]),
    ("byte 255 at 30 and 0 at 90 in 20", "IM 14 20", &[(3, 30, b"\xff"), (3, 90, b"\0")]),
    ("byte 127 at 1 and 31 at 120 in 20", "IM 14 20", &[(3, 1, b"\x7f"), (3, 120, b"\x1f")]),
    ("bad bytes earlier in each later record", "IM 14 20", &[
        (1, 99, b"\0"), (2, 98, b"\0"), (3, 97, b"\0"),
    ]),
    ("a bad byte at 120 and a wrong type", "IM 14 20", &[(3, 120, b"\0"), (3, 2, b"30")]),
    ("a bad byte at 120 and a wrong number", "IM 14 20", &[(3, 120, b"\0"), (3, 4, b"0000000")]),
    ("a bad byte at 120 and IM 4-8 blank", "IM", &[(1, 120, b"\0"), (1, 4, b"     ")]),
    // Faults of two records.
    ("6 in IM then 2 in 14", "IM 14", &[(1, 114, b"L"), (2, 1, b"\0")]),
    ("7 in IM then 3 in 14", "IM 14", &[(1, 4, b"     "), (2, 2, b"15")]),
    ("2 in 14 then 3 in 20", "IM 14 20", &[(2, 60, b"\0"), (3, 2, b"30")]),
    ("3 in 14 then 2 in 20", "IM 14 20", &[(2, 2, b"20"), (3, 60, b"\0")]),
    ("6 in 14 then 2 in 20", "IM 14 20", &[(2, 120, b"L"), (3, 50, b"\0")]),
    ("8 in 14 then 3 in 20", "IM 14 20", &[(2, 23, b"290227"), (3, 2, b"30")]),
    ("10 in 14 then 3 in 20", "IM 14 20", &[(2, 48, b"01235"), (3, 2, b"30")]),
    ("10 in 14 then 9 in 20", "IM 14 20", &[(2, 48, b"01235"), (3, 4, b"0000002")]),
    ("9 in 14 then 5 in 20", "IM 14 20", &[(2, 4, b"0000002"), (3, 4, b"000000:")]),
    ("5 in 14 then 9 in 20", "IM 14 20", &[(2, 4, b"000000:"), (3, 4, b"0000002")]),
    ("9 in 20 then 5 in 30", "IM 14 20 30", &[(3, 4, b"0000000"), (4, 4, b"000000:")]),
    ("6 in 70 then 2 in EF", ONE, &[(8, 94, b"A"), (9, 60, b"\x7f")]),
    ("11 in the second 14 then 2 in 20", "IM 14 20 30 40 50 51 70 14 20", &[
        (9, 92, ABSENT), (10, 50, b"\0"),
    ]),
    ("2 in 70 then 11 in the second 14", UP_TO_9, &[(8, 50, b"\0"), (9, 92, ABSENT)]),
    // Records after EF.
    ("a bad byte in a 14 after EF", AND_14, &[(10, 50, b"\0")]),
    ("a bad byte in an unknown type after EF", AND_XX, &[(10, 120, b"\xff")]),
    ("EF counts the record after it", AND_14, &[(9, 83, b"0000010")]),
    ("12 in EF then 2 after it", AND_14, &[(9, 46, b"0000002"), (10, 7, b"\x7f")]),
    // The trailer.
    ("EF wrong in every field", ONE, &[
        (9, 4, b"BB12311234250326S"), (9, 46, b"0000002"), (9, 53, b"000000000045001"),
        (9, 68, b"000000000000001"), (9, 83, b"0000010"), (9, 114, b"L"),
    ]),
    ("EF total and zeros swapped", ONE, &[
        (9, 53, b"000000000000000"), (9, 68, b"000000000045000"),
    ]),
    ("EF count of the 59s", "IM 14 20 30 40 59 59 51 70 EF", &[(10, 46, b"0000002")]),
    ("EF total of the first disposition", TWO, &[(16, 53, b"000000000045000")]),
    // Numbers of the second disposition.
    ("second 14 has number 3", UP_TO_9, &[(9, 4, b"0000003")]),
    ("second 20 has number 1", "IM 14 20 30 40 50 51 70 14 20", &[(10, 4, b"0000001")]),
    // Causale and sign of the first 14.
    ("07200 and '+' in 14", "IM 14", &[(2, 29, b"07200"), (2, 47, b"+")]),
    ("07100, 5 at 34 and '-' in 14", "IM 14", &[(2, 29, b"07100"), (2, 34, b":")]),
    ("07100, 25 at 34 and '-' in 14", "IM 14", &[(2, 29, b"07100"), (2, 34, ZERO)]),
    // Causale and sign of a later 14, under a first one of a request.
    ("a recall second", UP_TO_9, &[(9, 29, b"07100"), (9, 47, b"+")]),
    ("a recall second, each with its total", TWO, &[
        (9, 29, b"07100"), (9, 47, b"+"), (16, 53, b"000000000045000"), (16, 68, b"000000000038050"),
    ]),
    ("a recall second, signed as a request", UP_TO_9, &[(9, 29, b"07100")]),
    ("a recall second, 5 at 34", UP_TO_9, &[(9, 29, b"07100"), (9, 34, b":"), (9, 47, b"+")]),
    ("a recall second, 25 at 34", UP_TO_9, &[(9, 29, b"07100"), (9, 34, ZERO), (9, 47, b"+")]),
    ("a recall second, no date", UP_TO_9, &[(9, 23, b"290227"), (9, 29, b"07100"), (9, 47, b"+")]),
    ("a recall second, a bad byte at 120", UP_TO_9, &[(9, 29, b"07100"), (9, 120, b"\x7f")]),
    ("a recall second, wrong at 48, 92 and 120", UP_TO_9, &[
        (9, 29, b"07100"), (9, 47, b"+"), (9, 48, b"01235"), (9, 92, ABSENT), (9, 120, b"L"),
    ]),
    ("a recall third", UP_TO_16, &[(16, 29, b"07100"), (16, 47, b"+")]),
    ("07200 in the second 14", UP_TO_9, &[(9, 29, b"07200")]),
    ("a recall's sign in the second 14", UP_TO_9, &[(9, 47, b"+")]),
];

/// Flows of recalls with bytes put into them.
#[rustfmt::skip]
const RECALLS: [(&str, &str, &[Change]); 33] = [
    // Right flows. The keys at 101-120 of 70 may be others than the request's.
    ("one disposition", ONE, &[(8, 101, b"KEYS OF THE RECALL")]),
    ("two dispositions", TWO, &[]),
    ("amount 1", ONE, &[(2, 34, b"0000000000001"), (9, 68, b"000000000000001")]),
    // Amounts of zero, with the total that agrees.
    ("amount 0", ONE, &[(2, 34, ZERO), (9, 68, b"000000000000000")]),
    ("amount 0 in the second 14", UP_TO_9, &[(9, 34, ZERO)]),
    // Causale and sign of the first 14.
    ("ends after 14", "IM 14", &[]),
    ("14 29-33 is '07000'", "IM 14", &[(2, 29, b"07000")]),
    ("14 29-33 is '07101'", "IM 14", &[(2, 29, b"07101")]),
    ("14 29-33 is '17100'", "IM 14", &[(2, 29, b"17100")]),
    ("14 29-33 is '0710O'", "IM 14", &[(2, 29, b"0710O")]),
    ("14 29-33 is '7100 '", "IM 14", &[(2, 29, b"7100 ")]),
    ("14 at 47 is '-'", "IM 14", &[(2, 47, b"-")]),
    ("14 at 47 is ' '", "IM 14", &[(2, 47, b" ")]),
    ("14 at 47 is ','", "IM 14", &[(2, 47, b",")]),
    ("14 at 47 is '*'", "IM 14", &[(2, 47, b"*")]),
    ("14 wrong at 23 and 29", "IM 14", &[(2, 23, b"290227"), (2, 29, b"07200")]),
    ("14 wrong at 29 and 34", "IM 14", &[(2, 29, b"07200"), (2, 34, b":")]),
    ("14 wrong at 29 and 47", "IM 14", &[(2, 29, b"07200"), (2, 47, b"-")]),
    ("14 wrong at 47 and 48", "IM 14", &[(2, 47, b"-"), (2, 48, b"01235")]),
    // Causale and sign of a later 14, under a first one of a recall.
    ("a request second", UP_TO_9, &[(9, 29, b"07000"), (9, 47, b"-")]),
    ("a request second, signed as a recall", UP_TO_9, &[(9, 29, b"07000")]),
    ("a request second, 25 at 34", UP_TO_9, &[(9, 29, b"07000"), (9, 34, ZERO), (9, 47, b"-")]),
    ("07200 in the second 14", UP_TO_9, &[(9, 29, b"07200")]),
    ("a request's sign in the second 14", UP_TO_9, &[(9, 47, b"-")]),
    // The trailer's totals.
    ("EF as of requests", ONE, &[(9, 53, b"000000000045000000000000000000")]),
    ("EF with the total at both", ONE, &[(9, 53, b"000000000045000")]),
    ("EF with zeros at both", ONE, &[(9, 68, b"000000000000000")]),
    ("EF 53-67 is '00000000000000:'", ONE, &[(9, 53, b"00000000000000:")]),
    ("EF 68-82 is '000000000044999'", ONE, &[(9, 68, b"000000000044999")]),
    ("EF 68-82 is '00000000004500:'", ONE, &[(9, 68, b"00000000004500:")]),
    ("EF 5 at 53, 13 at 68", ONE, &[(9, 53, b":"), (9, 68, b"000000000045001")]),
    ("EF 13 at 53, 5 at 68", ONE, &[(9, 53, b"000000000000001"), (9, 68, b":")]),
    ("EF 13 at 68, 14 at 83", ONE, &[(9, 68, b"000000000045001"), (9, 83, b"0000010")]),
];

/// A first 14 with an amount of zero and other faults, in flows that end with
/// it or with the record after it.
#[rustfmt::skip]
const ZEROS: [(&str, &str, &[Change]); 25] = [
    ("alone", "IM 14", &[(2, 34, ZERO)]),
    // What comes before it in order.
    ("2 at 1", "IM 14", &[(2, 34, ZERO), (2, 1, b"\0")]),
    ("2 in the amount", "IM 14", &[(2, 34, ZERO), (2, 46, b"\x1f")]),
    ("2 at 120", "IM 14", &[(2, 34, ZERO), (2, 120, b"\x7f")]),
    ("3 at 2", "IM 14", &[(2, 34, ZERO), (2, 2, b"15")]),
    ("5 at 4", "IM 14", &[(2, 34, ZERO), (2, 4, b"000000:")]),
    ("9 at 4", "IM 14", &[(2, 34, ZERO), (2, 4, b"0000000")]),
    ("5 at 23", "IM 14", &[(2, 34, ZERO), (2, 23, b"29022:")]),
    ("8 at 23", "IM 14", &[(2, 34, ZERO), (2, 23, b"290227")]),
    ("6 at 29", "IM 14", &[(2, 34, ZERO), (2, 29, b"07200")]),
    ("6 in IM", "IM 14", &[(1, 114, b"L"), (2, 34, ZERO)]),
    // No digits.
    ("a blank first", "IM 14", &[(2, 34, b" 000000000000")]),
    ("a blank last", "IM 14", &[(2, 34, b"000000000000 ")]),
    ("a letter inside", "IM 14", &[(2, 34, b"000000O000000")]),
    ("'-' first", "IM 14", &[(2, 34, b"-000000000000")]),
    // What comes after it in order.
    ("6 at 47", "IM 14", &[(2, 34, ZERO), (2, 47, b" ")]),
    ("5 at 48", "IM 14", &[(2, 34, ZERO), (2, 48, b"0123:")]),
    ("10 at 48", "IM 14", &[(2, 34, ZERO), (2, 48, b"01235")]),
    ("5 at 53", "IM 14", &[(2, 34, ZERO), (2, 53, b":")]),
    ("6 at 97", "IM 14", &[(2, 34, ZERO), (2, 97, b"0")]),
    ("6 at 120", "IM 14", &[(2, 34, ZERO), (2, 120, b"L")]),
    ("text beside it", "IM 14", &[(2, 11, b"TEXT"), (2, 34, ZERO), (2, 70, b"~"), (2, 119, b"~")]),
    ("2 in 20", "IM 14 20", &[(2, 34, ZERO), (3, 1, b"\0")]),
    ("3 in 20", "IM 14 20", &[(2, 34, ZERO), (3, 2, b"30")]),
    ("9 in 20", "IM 14 20", &[(2, 34, ZERO), (3, 4, b"0000000")]),
];

/// Flows with company codes put into them: the first 14 is record 2, the later
/// ones are 9 and 16, and the code that stands there is AB123.
#[rustfmt::skip]
const CODES: [(&str, &str, &[Change]); 28] = [
    // Right flows. The first 14 alone never differs.
    ("blanks in both", TWO, &[(2, 92, ABSENT), (9, 92, ABSENT)]),
    ("'    ~' in both", TWO, &[(2, 92, b"    ~"), (9, 92, b"    ~")]),
    ("unlike IM 4-8", "IM 14", &[(2, 92, b"~~~~~")]),
    ("blanks in the first 14", "IM 14", &[(2, 92, ABSENT)]),
    // A code and none.
    ("blanks, then a code", TWO, &[(2, 92, ABSENT)]),
    ("a code, then blanks", UP_TO_9, &[(9, 92, ABSENT)]),
    ("a code, blanks, the same code", UP_TO_16, &[(9, 92, ABSENT)]),
    ("twice a code, then blanks", UP_TO_16, &[(16, 92, ABSENT)]),
    ("twice blanks, then a code", UP_TO_16, &[(2, 92, ABSENT), (9, 92, ABSENT)]),
    // Codes that differ in one byte, in case, or by a place.
    ("other in byte 1", UP_TO_9, &[(9, 92, b"BB123")]),
    ("other in byte 2", UP_TO_9, &[(9, 92, b"AC123")]),
    ("other in byte 3", UP_TO_9, &[(9, 92, b"AB223")]),
    ("other in byte 4", UP_TO_9, &[(9, 92, b"AB133")]),
    ("other in byte 5", UP_TO_9, &[(9, 92, b"AB124")]),
    ("lower case in byte 2", UP_TO_9, &[(9, 92, b"Ab123")]),
    ("a blank for byte 5", UP_TO_9, &[(9, 92, b"AB12 ")]),
    ("moved by a place", UP_TO_9, &[(9, 92, b" AB12")]),
    ("one byte at another place", UP_TO_9, &[(2, 92, b"    X"), (9, 92, b"X    ")]),
    // One byte that is not blank, and blanks.
    ("blanks, then byte 1 alone", UP_TO_9, &[(2, 92, ABSENT), (9, 92, b"A    ")]),
    ("blanks, then byte 2 alone", UP_TO_9, &[(2, 92, ABSENT), (9, 92, b" A   ")]),
    ("blanks, then byte 3 alone", UP_TO_9, &[(2, 92, ABSENT), (9, 92, b"  A  ")]),
    ("blanks, then byte 4 alone", UP_TO_9, &[(2, 92, ABSENT), (9, 92, b"   A ")]),
    ("blanks, then byte 5 alone", UP_TO_9, &[(2, 92, ABSENT), (9, 92, b"    A")]),
    ("byte 5 alone, then blanks", UP_TO_9, &[(2, 92, b"    A"), (9, 92, ABSENT)]),
    // Other faults of the record that differs, and of others.
    ("2 in it", UP_TO_9, &[(9, 92, b"AB1\x7f3")]),
    ("5 at 53", UP_TO_9, &[(9, 53, b":"), (9, 92, ABSENT)]),
    ("6 at 120", UP_TO_9, &[(9, 92, ABSENT), (9, 120, b"L")]),
    ("3 in the next record", "IM 14 20 30 40 50 51 70 14 30", &[(9, 92, ABSENT)]),
];

/// The same of recalls.
#[rustfmt::skip]
const RECALL_CODES: [(&str, &str, &[Change]); 6] = [
    ("blanks, then a code", UP_TO_9, &[(2, 92, ABSENT)]),
    ("a code, then blanks", UP_TO_9, &[(9, 92, ABSENT)]),
    ("other in byte 3", UP_TO_9, &[(9, 92, b"AB-23")]),
    ("10 at 48", UP_TO_9, &[(9, 48, b"01235"), (9, 92, ABSENT)]),
    ("5 at 53", UP_TO_9, &[(9, 53, b":"), (9, 92, ABSENT)]),
    ("6 at 97", UP_TO_9, &[(9, 92, ABSENT), (9, 97, b"0")]),
];

/// Bytes put into a record: position, bytes.
type Fault = (usize, &'static [u8]);

/// Faults of one record by rising position: name, flow, record, faults.
#[rustfmt::skip]
const FAULTS: [(&str, &str, usize, &[Fault]); 11] = [
    ("IM", "IM", 1, &[
        (4, b"     "), (9, b"0123:"), (14, b"290227"), (20, b"          "), (105, b"2"),
        (114, b"L"),
    ]),
    ("14", "IM 14", 2, &[
        (4, b"0000000"), (23, b"290227"), (29, b"07200"), (34, b":"), (47, b"+"), (48, b"01235"),
        (53, b":"), (97, b"0"), (120, b"L"),
    ]),
    ("second 14", UP_TO_9, 9, &[(48, b"01235"), (92, ABSENT), (97, b"0")]),
    ("16", "IM 14 16", 3, &[
        (4, b"0000000"), (11, b"DE"), (13, b":"), (15, b" "), (16, b"01235"), (21, b"00000"),
        (26, b"            "),
    ]),
    ("20", "IM 14 20", 3, &[(4, b"0000000"), (11, &[b' '; 24])]),
    ("30", "IM 14 20 30", 4, &[(4, b"000000:"), (11, &[b' '; 30])]),
    ("59", "IM 14 20 30 40 59", 6, &[(4, b"0000002"), (11, &[b' '; 55])]),
    ("70", "IM 14 20 30 40 50 51 70", 8, &[(4, b"0000002"), (94, b"A")]),
    ("EF", ONE, 9, &[
        (4, b"BB123"), (9, b"11234"), (14, b"250326"), (20, b"S"), (46, b"0000002"),
        (53, b"000000000045001"), (68, b"000000000000001"),
    ]),
    ("EF digits first,", ONE, 9, &[
        (46, b"000000:"), (53, b"000000000045001"), (68, b":"), (83, b"0000010"),
    ]),
    ("EF digits last,", ONE, 9, &[
        (46, b"0000002"), (53, b":"), (68, b"000000000000001"), (83, b"000000:"), (114, b"L"),
    ]),
];
