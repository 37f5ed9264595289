//! Named cases for where disposition k is (document 01, "Questions and
//! changes"): a flow, and the numbers asked of it.
//!
//! Among the right flows are dispositions of every length and order, and text
//! that reads as a record 14 or EF where none is. Most of the refused flows
//! hold a whole disposition before their fault, so that an answer from a flow
//! that was not read to its end would be told.

use crate::fields::{write_digits, MAX_AMOUNT, MIN_AMOUNT};
use crate::reader_cases::{Change, Flow, ABSENT, AND_14, EVERY, ONE, TWO, ZERO};
use crate::record::{field_mut, record_type};

/// One flow and the numbers of the dispositions to be found in it.
#[derive(Clone, Debug, Eq, PartialEq)]
pub struct Case {
    pub name: String,
    pub flow: Vec<u8>,
    pub asked: Vec<u64>,
}

/// All cases.
pub fn cases() -> Vec<Case> {
    let mut cases = Cases(Vec::new());
    cases.numbers();
    cases.orders();
    cases.amounts();
    cases.look_alikes();
    cases.cut();
    cases.refused();
    cases.recalls();
    cases.0
}

/// Numbers that a shorter or signed integer, or a product with the length of
/// a disposition, would take for a small one.
pub(crate) const LARGE: [u64; 13] = [
    255,
    256,
    257,
    65_537,
    (1 << 32) - 1,
    1 << 32,
    (1 << 32) + 1,
    (1 << 32) + 2,
    (1 << 61) + 1,
    1 << 63,
    (1 << 63) + 1,
    u64::MAX - 1,
    u64::MAX,
];

/// What is asked of a refused flow of at most two dispositions.
const ASKED_OF_REFUSED: [u64; 5] = [0, 1, 2, 3, u64::MAX];

/// A disposition, by those of its records that differ from one to another.
pub(crate) type Variant = &'static str;

const TWO_59: Variant = "59 59";
const THREE_59: Variant = "59 59 59";
const FOUR_59: Variant = "59 59 59 59";
const FIVE_59: Variant = "59 59 59 59 59";
const AND_TWO_59: Variant = "16 59 59";
const AND_THREE_59: Variant = "16 59 59 59";
const AND_FOUR_59: Variant = "16 59 59 59 59";
const AND_FIVE_59: Variant = "16 59 59 59 59 59";

/// Every disposition that the rules allow, of 7 to 12 records.
pub(crate) const VARIANTS: [Variant; 12] = [
    "16 59",
    FIVE_59,
    "50",
    AND_FIVE_59,
    "59",
    AND_THREE_59,
    "16 50",
    THREE_59,
    AND_FOUR_59,
    TWO_59,
    AND_TWO_59,
    FOUR_59,
];

/// Dispositions of different lengths, one after the other.
#[rustfmt::skip]
pub(crate) const ORDERS: [(&str, &[Variant]); 4] = [
    ("7 to 12 records", &["50", TWO_59, THREE_59, FOUR_59, FIVE_59, AND_FIVE_59]),
    ("12 to 7 records", &[AND_FIVE_59, AND_FOUR_59, AND_THREE_59, AND_TWO_59, "16 50", "59"]),
    ("16 in every other", &["16 50", "50", "16 50", "50", "16 50"]),
    ("8 records each", &["16 50", "16 59", TWO_59]),
];

/// The types of a disposition's records.
fn types(variant: Variant) -> String {
    match variant.strip_prefix("16 ") {
        Some(details) => format!("14 16 20 30 40 {details} 51 70"),
        None => format!("14 20 30 40 {variant} 51 70"),
    }
}

/// A right flow of these dispositions and amounts.
pub(crate) fn flow_of(dispositions: &[(Variant, u64)]) -> Flow {
    let blocks: Vec<String> = dispositions.iter().map(|d| types(d.0)).collect();
    let mut flow = Flow::of(&format!("IM {}", blocks.join(" ")));
    let openings = flow.0.iter_mut().filter(|r| record_type(r) == *b"14");
    for (opening, (_, cents)) in openings.zip(dispositions) {
        write_digits(field_mut(opening, 34, 46), *cents);
    }
    flow.0.push(flow.next("EF"));
    flow
}

/// A right flow of these dispositions: the amounts are 1001, 2002 and on, so
/// that no two are equal.
pub(crate) fn flow_of_variants(variants: &[Variant]) -> Flow {
    let amounts = (1..).map(|k| 1_001 * k);
    let dispositions: Vec<(Variant, u64)> = variants.iter().copied().zip(amounts).collect();
    flow_of(&dispositions)
}

/// Every number from 0 to one above the count.
fn all_up_to(count: usize) -> Vec<u64> {
    (0..=count as u64 + 1).collect()
}

/// The cases so far.
struct Cases(Vec<Case>);

impl Cases {
    fn push(&mut self, name: &str, flow: Vec<u8>, asked: Vec<u64>) {
        let name = format!("find: {name}");
        self.0.push(Case { name, flow, asked });
    }

    /// Numbers from 0 to the largest, of one and of two dispositions.
    fn numbers(&mut self) {
        for (name, types, count) in [("one disposition", ONE, 1), ("two dispositions", TWO, 2)] {
            let asked = [&all_up_to(count)[..], &LARGE].concat();
            self.push(name, Flow::of(types).bytes(), asked);
        }
    }

    /// Each disposition of flows of several lengths, and of many: every variant
    /// twice and more, and records beyond the 255th.
    fn orders(&mut self) {
        for (name, variants) in ORDERS {
            let flow = flow_of_variants(variants);
            self.push(name, flow.bytes(), all_up_to(variants.len()));
        }
        let many: Vec<Variant> = VARIANTS.into_iter().cycle().take(30).collect();
        let flow = flow_of_variants(&many);
        self.push("30 dispositions", flow.bytes(), all_up_to(many.len()));
    }

    /// The least and the largest amount, and one of thirteen digits; their total
    /// has fifteen.
    fn amounts(&mut self) {
        let largest = [MAX_AMOUNT; 11];
        let amounts = [&[MIN_AMOUNT], &largest[..], &[10, 1_234_567_890_123]].concat();
        let dispositions: Vec<(Variant, u64)> = amounts.iter().map(|&c| ("50", c)).collect();
        let flow = flow_of(&dispositions);
        self.push("amounts", flow.bytes(), all_up_to(amounts.len()));
    }

    /// Text like a record 14 or EF where there is none, and a first byte that
    /// is not blank where there is one.
    fn look_alikes(&mut self) {
        for (name, changes) in LOOK_ALIKES {
            let flow = Flow::of(EVERY).with_all(changes).with_header_copied();
            self.push(name, flow.bytes(), all_up_to(2));
        }
    }

    /// Flows that end too early.
    fn cut(&mut self) {
        let asked = ASKED_OF_REFUSED.to_vec();
        self.push("no byte", Vec::new(), asked.clone());
        for (name, types) in CUT {
            self.push(name, Flow::of(types).bytes(), asked.clone());
        }
        let flow = Flow::of(TWO).bytes();
        for (name, len) in [
            ("cut inside a record", 1_100),
            ("cut before the last byte", 1_919),
        ] {
            self.push(name, flow[..len].to_vec(), asked.clone());
        }
        self.push("a line feed at the end", [&flow[..], b"\n"].concat(), asked);
    }

    /// Two dispositions, of which the first is right, and a later fault; and
    /// a fault of the header.
    fn refused(&mut self) {
        for (name, changes) in FAULTS {
            let flow = Flow::of(TWO).with_all(changes);
            self.push(name, flow.bytes(), ASKED_OF_REFUSED.to_vec());
        }
        let flow = Flow::of(AND_14);
        self.push("14 after EF", flow.bytes(), ASKED_OF_REFUSED.to_vec());
    }

    /// Flows of recalls: two dispositions without company codes, of which one
    /// has text like a record 14 of a request, and faults.
    fn recalls(&mut self) {
        let changes: [Change; 3] = [(4, 11, OPENING), (2, 92, ABSENT), (9, 92, ABSENT)];
        let flow = Flow::of(TWO).recalled().with_all(&changes);
        let asked = [0, 1, 2, 3, u64::MAX];
        self.push("recalls", flow.bytes(), asked.to_vec());
        for (name, changes) in RECALL_FAULTS {
            let flow = Flow::of(TWO).recalled().with_all(changes);
            self.push(name, flow.bytes(), ASKED_OF_REFUSED.to_vec());
        }
    }
}

/// Positions 1 to 52 of a record 14, to stand as text.
const OPENING: &[u8] = b" 140000002            310326070000000000077777-01234";

/// Bytes put into `EVERY`, whose second 14 is record 10 and whose EF is
/// record 17.
#[rustfmt::skip]
pub(crate) const LOOK_ALIKES: [(&str, &[Change]); 11] = [
    ("14 at 1-2", &[(6, 1, b"1"), (13, 1, b"1")]),
    ("14 at 10-11", &[
        (4, 11, b"4"), (5, 11, b"4"), (6, 11, b"4"), (7, 11, b"4"), (8, 11, b"4"), (9, 11, b"4"),
    ]),
    ("14 at 11-12", &[
        (4, 11, b"14"), (5, 11, b"14"), (6, 11, b"14"), (7, 11, b"14"), (8, 11, b"14"),
        (9, 11, b"14"), (11, 11, b"14"), (14, 11, b"14"), (16, 11, b"14"),
    ]),
    ("14 at 12-13", &[(4, 11, b" 14"), (6, 11, b" 14"), (9, 11, b" 14"), (13, 11, b" 14")]),
    ("14 across two records", &[
        (4, 119, b" 1"), (5, 1, b"4"), (9, 119, b" 1"), (10, 1, b"4"), (12, 118, b" 14"),
    ]),
    ("a record 14 as text", &[
        (6, 11, OPENING), (8, 11, OPENING), (9, 11, OPENING), (14, 11, OPENING), (15, 69, OPENING),
    ]),
    ("EF as text and across two records", &[
        (4, 11, b"EF"), (6, 11, b" EF"), (8, 119, b"EF"), (11, 120, b"E"), (12, 1, b"F"),
        (16, 11, b" EF"),
    ]),
    ("14 in IM and EF", &[
        (1, 4, b"14 14"), (1, 20, b" 14 140000002"), (1, 46, b"14"), (17, 1, b"1"), (17, 40, b"14"),
        (17, 90, b" 14"),
    ]),
    ("EF with an amount at 34-46", &[(1, 34, b"000000"), (17, 40, b"000000")]),
    ("14 in fields of 14", &[
        (2, 11, b"14EF"), (2, 23, b"140314"), (2, 34, b"0000000014014"), (2, 53, b"14141"),
        (10, 70, b" 14"), (17, 53, b"000000000052064"),
    ]),
    ("position 1 not blank", &[
        (1, 1, b"1"), (2, 1, b"1"), (9, 1, b"\\"), (10, 1, b"E"), (16, 1, b"\""), (17, 1, b"E"),
    ]),
];

/// Right records, of which none is EF.
#[rustfmt::skip]
pub(crate) const CUT: [(&str, &str); 4] = [
    ("the header alone", "IM"),
    ("cut inside the first disposition", "IM 14 20 30 40"),
    ("cut inside the second disposition", "IM 14 20 30 40 50 51 70 14 20 30"),
    ("no EF", "IM 14 20 30 40 50 51 70 14 20 30 40 50 51 70"),
];

/// Bytes put into `TWO`, whose second 14 is record 9 and whose EF is
/// record 16.
#[rustfmt::skip]
pub(crate) const FAULTS: [(&str, &[Change]); 18] = [
    ("6 in IM", &[(1, 114, b"L")]),
    ("2 in the last byte", &[(16, 120, b"\x7f")]),
    ("3 in the second 70", &[(15, 2, b"14")]),
    ("5 in the second 14", &[(9, 34, b"0000000380.50")]),
    ("6 in the second 70", &[(15, 94, b"A")]),
    ("7 in the second 30", &[(11, 11, &[b' '; 30])]),
    ("8 in the second 14", &[(9, 23, b"290227")]),
    ("9 in the second 14", &[(9, 4, b"0000003")]),
    ("10 in EF", &[(16, 114, b"L")]),
    ("11 in the second 14", &[(9, 92, ABSENT)]),
    ("11 in the second 14, blanks first", &[(2, 92, ABSENT)]),
    ("12 in EF", &[(16, 46, b"0000003")]),
    ("13 in EF", &[(16, 53, b"000000000083051")]),
    ("13 in EF at 68", &[(16, 68, b"000000000000001")]),
    ("14 in EF", &[(16, 83, b"0000023")]),
    ("22 in the second 14", &[(9, 29, b"07100"), (9, 47, b"+")]),
    ("25 in the first 14", &[(2, 34, ZERO), (16, 53, b"000000000038050")]),
    ("25 in the second 14", &[(9, 34, ZERO), (16, 53, b"000000000045000")]),
];

/// Bytes put into `TWO` of recalls.
#[rustfmt::skip]
pub(crate) const RECALL_FAULTS: [(&str, &[Change]); 4] = [
    ("recalls: 22 in the second 14", &[(9, 29, b"07000"), (9, 47, b"-")]),
    ("recalls: EF as of requests", &[(16, 53, b"000000000083050000000000000000")]),
    ("recalls: 11 in the second 14", &[(2, 92, ABSENT)]),
    ("recalls: 25 in the second 14", &[(9, 34, ZERO), (16, 68, b"000000000045000")]),
];
