//! Named cases for amount change and withdrawal (document 01, "Questions and
//! changes"; document 02, E1, E4 and E5): a flow, and the calls on it, each lent
//! what the one before left.
//!
//! Where records move, every record of a disposition is tagged
//! (`Flow::tagged`), so that one which is lost, comes twice or stands at
//! another place is told even where types, amounts and totals agree.

use crate::fields::{MAX_AMOUNT, MAX_TOTAL};
use crate::find_cases::{self, flow_of, flow_of_variants, Variant, LARGE, ORDERS, VARIANTS};
use crate::generate::{self, Size};
use crate::kind::FlowKind;
use crate::ledger::{Call, Ledger};
use crate::list::{is_canonical, write_list};
use crate::list_cases::fill;
use crate::reader_cases::{Change, Flow, ABSENT, AND_14, EVERY, ONE, THREE, TWO};
use crate::record::{put, record_type};
use crate::rng::Rng;

/// A flow, and what is asked of it in turn.
#[derive(Clone, Debug, Eq, PartialEq)]
pub struct Case {
    pub name: String,
    pub flow: Vec<u8>,
    pub asked: Vec<Asked>,
}

/// What is asked of the flow left so far.
#[derive(Clone, Copy, Debug, Eq, PartialEq)]
pub enum Asked {
    /// A call on it.
    Call(Call),
    /// A record of the first flow's memory in clear, counted from 1.
    Record(usize),
}

/// All cases.
pub fn cases() -> Vec<Case> {
    let mut cases = Cases(Vec::new());
    cases.two_rents();
    cases.numbers();
    cases.amounts();
    cases.precedence();
    cases.orders();
    cases.mixed();
    cases.equal_amounts();
    cases.company_codes();
    cases.not_canonical();
    cases.look_alikes();
    cases.refused();
    cases.limit();
    cases.generated();
    cases.recalls();
    cases.0
}

/// Changes the amount of `k`.
const fn change(k: u64, cents: u64) -> Asked {
    Asked::Call(Call::Change { k, cents })
}

/// Withdraws `k`.
const fn withdraw(k: u64) -> Asked {
    Asked::Call(Call::Withdraw { k })
}

/// Shows a record.
const fn show(record: usize) -> Asked {
    Asked::Record(record)
}

impl Flow {
    /// The flow with a tag of its own in each record of a disposition, at
    /// positions that a list carries.
    fn tagged(mut self) -> Flow {
        for (index, record) in self.0.iter_mut().enumerate() {
            let position = match &record_type(record) {
                b"IM" | b"EF" => continue,
                b"14" => 58,
                b"16" => 26,
                b"70" => 96,
                _ => 11,
            };
            put(record, position, format!("REC {:04}", index + 1).as_bytes());
        }
        self
    }
}

/// The cases so far.
struct Cases(Vec<Case>);

impl Cases {
    fn push(&mut self, name: impl Into<String>, flow: Vec<u8>, asked: &[Asked]) {
        self.0.push(Case {
            name: name.into(),
            flow,
            asked: asked.to_vec(),
        });
    }

    /// Document 01's example, with the whole memory in clear after one call.
    fn two_rents(&mut self) {
        let flow = Flow::of(TWO).bytes();
        for (name, call) in [
            ("two rents: 2 changed to 40000", change(2, 40_000)),
            ("two rents: 1 withdrawn", withdraw(1)),
        ] {
            let asked: Vec<Asked> = [call].into_iter().chain((1..=16).map(show)).collect();
            self.push(name, flow.clone(), &asked);
        }
        self.push("two rents: 2 withdrawn", flow.clone(), &LAST_OF_TWO);
        self.push("two rents: no call", flow, &[]);
        self.push("one rent", Flow::of(ONE).bytes(), &ONE_RENT);
    }

    /// Numbers that no disposition has, and then one that has.
    fn numbers(&mut self) {
        let flow = Flow::of(TWO).bytes();
        let wrong: Vec<u64> = [0, 3, 4].into_iter().chain(LARGE).collect();
        let changes = wrong.iter().map(|&k| change(k, 1));
        let asked: Vec<Asked> = changes.chain([change(2, 1)]).collect();
        self.push("numbers of a change", flow.clone(), &asked);
        let withdrawals = wrong.iter().map(|&k| withdraw(k));
        let asked: Vec<Asked> = withdrawals.chain([2, 2].map(withdraw)).collect();
        self.push("numbers of a withdrawal", flow, &asked);
    }

    /// Amounts about the limits, and numbers that a shorter integer, a cut to
    /// 13 digits or a sum that wraps would take for a right one.
    fn amounts(&mut self) {
        self.push("amounts", Flow::of(TWO).bytes(), &AMOUNTS);
    }

    /// Calls that more than one number fits.
    fn precedence(&mut self) {
        self.push("15 before 16 and 18", Flow::of(TWO).bytes(), &PRECEDENCE);
    }

    /// Withdrawals from either end and from the middle, of dispositions that
    /// grow or shrink from one to the next.
    fn orders(&mut self) {
        for (name, variants, withdrawn) in WITHDRAWN {
            let asked: Vec<Asked> = withdrawn.iter().map(|&k| withdraw(k)).collect();
            let flow = flow_of_variants(variants).tagged();
            self.push(name, flow.bytes(), &asked);
        }
    }

    /// Changes after withdrawals and the reverse, by the new numbers.
    fn mixed(&mut self) {
        let flow = flow_of_variants(&VARIANTS).tagged();
        self.push("every variant", flow.bytes(), &EVERY_VARIANT);
        let flow = flow_of_variants(&["50"; 10]).tagged();
        self.push("ten rents", flow.bytes(), &TEN_RENTS);
    }

    /// Dispositions that differ in their tags alone: with one copied twice the
    /// totals would agree.
    fn equal_amounts(&mut self) {
        let flow = flow_of(&[("50", 45_000); 4]).tagged();
        self.push("four rents of one amount", flow.bytes(), &FOUR_EQUAL);
        let flow = flow_of(&[("50", 45_000); 36]).tagged();
        self.push("36 rents of one amount", flow.bytes(), &MANY_EQUAL);
    }

    /// Company codes in all of three dispositions, in none, or in some. With
    /// codes in some the flow is refused, also by a call that would make them
    /// equal.
    fn company_codes(&mut self) {
        let without = |flow: Flow, absent: &[usize]| {
            let blank = |flow: Flow, &record| flow.with_all(&[(record, 92, ABSENT)]);
            absent.iter().fold(flow, blank)
        };
        for (name, absent, asked) in COMPANY_CODES {
            let flow = without(Flow::of(THREE), absent);
            self.push(name, flow.bytes(), asked);
        }
        for (name, absent, asked) in RECALL_CODES {
            let flow = without(Flow::of(THREE).recalled(), absent);
            self.push(name, flow.bytes(), asked);
        }
    }

    /// Bytes that are neither checked nor carried stay as they are.
    fn not_canonical(&mut self) {
        let mut flow = Flow::of(EVERY);
        for (index, record) in flow.0.iter_mut().enumerate() {
            fill(record, 13 * index);
        }
        let flow = flow.bytes();
        self.push("unchecked bytes: 1 withdrawn", flow.clone(), &FIRST_FILLED);
        self.push("unchecked bytes: 2 withdrawn", flow, &LAST_FILLED);
        for (name, changes, asked) in NOT_CANONICAL {
            let flow = Flow::of(TWO).with_all(changes);
            self.push(name, flow.bytes(), asked);
        }
    }

    /// Text like a record 14 or EF where there is none.
    fn look_alikes(&mut self) {
        let first = [change(2, 10), withdraw(1), change(1, 20), withdraw(1)];
        let last = [change(1, 10), withdraw(2), change(1, 30), withdraw(2)];
        for (name, changes) in find_cases::LOOK_ALIKES {
            let flow = Flow::of(EVERY).with_all(changes).with_header_copied();
            self.push(format!("{name}: 1 withdrawn"), flow.bytes(), &first);
            if !ONLY_FIRST.contains(&name) {
                self.push(format!("{name}: 2 withdrawn"), flow.bytes(), &last);
            }
        }
    }

    /// Flows that the reader refuses, whatever is asked of them.
    fn refused(&mut self) {
        let mut push = |name: &str, flow| self.push(format!("refused: {name}"), flow, &OF_REFUSED);
        push("no byte", Vec::new());
        let flow = Flow::of(TWO).bytes();
        push("a byte short", flow[..1_919].to_vec());
        push(
            "a record of blanks behind EF",
            [&flow[..], &[b' '; 120]].concat(),
        );
        push("a line feed at the end", [&flow[..], b"\n"].concat());
        push("14 after EF", Flow::of(AND_14).bytes());
        for (name, types) in find_cases::CUT {
            push(name, Flow::of(types).bytes());
        }
        for (name, changes) in find_cases::FAULTS {
            push(name, Flow::of(TWO).with_all(changes).bytes());
        }
        for (name, changes) in find_cases::RECALL_FAULTS {
            push(name, Flow::of(TWO).recalled().with_all(changes).bytes());
        }
        for (name, changes) in RECALL_TOTALS {
            push(name, Flow::of(TWO).recalled().with_all(changes).bytes());
        }
    }

    /// A total of 999,999,999,999,999, and calls about it; and recalls whose
    /// total comes near it.
    fn limit(&mut self) {
        let mut dispositions = [("50", MAX_AMOUNT); 101];
        dispositions[100].1 = 99;
        let flow = flow_of(&dispositions).tagged().bytes();
        self.push("a total of 999999999999999", flow.clone(), &LIMIT);
        let recalls = flow_of(&[("50", MAX_TOTAL / 104); 104]).recalled();
        let flow = recalls.tagged().bytes();
        let asked = calls(&mut Rng::new(778), &flow, 60, 20, 30);
        self.push("60 calls about the largest total", flow, &asked);
    }

    /// Flows of recalls: the example with the whole memory in clear after one
    /// call, and calls like those on requests.
    fn recalls(&mut self) {
        let flow = Flow::of(TWO).recalled().bytes();
        for (name, call) in [
            ("recalls: 2 changed to 40000", change(2, 40_000)),
            ("recalls: 1 withdrawn", withdraw(1)),
        ] {
            let asked: Vec<Asked> = [call].into_iter().chain((1..=16).map(show)).collect();
            self.push(name, flow.clone(), &asked);
        }
        self.push("recalls: 2 withdrawn", flow.clone(), &LAST_OF_TWO);
        self.push("recalls: amounts", flow.clone(), &AMOUNTS);
        self.push("recalls: 15 before 16 and 18", flow, &PRECEDENCE);
        let one = Flow::of(ONE).recalled();
        self.push("recalls: one rent", one.bytes(), &ONE_RENT);
        let mut filled = Flow::of(EVERY).recalled();
        for (index, record) in filled.0.iter_mut().enumerate() {
            fill(record, 13 * index);
        }
        let name = "recalls: unchecked bytes, 1 withdrawn";
        self.push(name, filled.bytes(), &FIRST_FILLED);
        let flow = flow_of_variants(FALLING).recalled().tagged();
        let name = "recalls: 12 to 7 records, from the middle";
        self.push(name, flow.bytes(), &FROM_THE_MIDDLE);
    }

    /// Long lists of calls on generated flows of 20 to 60 dispositions.
    fn generated(&mut self) {
        for (index, (least, most, count, withdrawn, kind)) in (1..).zip(GENERATED) {
            let (mut rng, flow) = generated_flow(index, least, most, kind);
            let asked = calls(&mut rng, &flow, count, withdrawn, 1);
            self.push(format!("generated: {count} calls, {index}"), flow, &asked);
        }
    }
}

#[rustfmt::skip]
const LAST_OF_TWO: [Asked; 5] = [
    withdraw(2), withdraw(2), withdraw(1), change(1, 83_050), change(2, 1),
];

#[rustfmt::skip]
const ONE_RENT: [Asked; 11] = [
    withdraw(1), withdraw(0), withdraw(2), withdraw(u64::MAX), change(1, 0), change(1, 1),
    withdraw(1), change(1, MAX_AMOUNT), change(0, 5), change(2, 5), withdraw(1),
];

#[rustfmt::skip]
const AMOUNTS: [Asked; 20] = [
    change(1, 45_000), change(1, 0), show(2), change(2, 1), change(2, 0), change(1, 1),
    change(1, 0), change(2, MAX_AMOUNT), change(1, MAX_AMOUNT), change(1, MAX_AMOUNT + 1),
    change(1, 10_000_000_045_000), change(2, 1 << 32), change(2, 1 << 44), change(2, 1 << 63),
    change(1, u64::MAX), change(1, u64::MAX - MAX_AMOUNT + 1), change(1, 1_234_567_890_123),
    show(2), show(9), show(16),
];

#[rustfmt::skip]
const PRECEDENCE: [Asked; 18] = [
    change(0, MAX_AMOUNT + 1), change(3, MAX_AMOUNT + 1), change(3, u64::MAX),
    change(2, MAX_AMOUNT + 1), change(0, 0), change(3, 0), change(u64::MAX, 0), change(2, 0),
    withdraw(0), withdraw(3), withdraw(1), withdraw(2), withdraw(0), withdraw(1),
    change(2, MAX_AMOUNT + 1), change(1, MAX_AMOUNT + 1), change(2, 0), change(1, 0),
];

const RISING: &[Variant] = ORDERS[0].1;
const FALLING: &[Variant] = ORDERS[1].1;

/// Dispositions, and the numbers withdrawn in turn.
#[rustfmt::skip]
const WITHDRAWN: [(&str, &[Variant], &[u64]); 8] = [
    ("7 to 12 records: from the front", RISING, &[1, 1, 1, 1, 1, 1]),
    ("7 to 12 records: from the end", RISING, &[6, 5, 4, 3, 2, 1]),
    ("12 to 7 records: from the front", FALLING, &[1, 1, 1, 1, 1, 2, 1]),
    ("12 to 7 records: from the middle", FALLING, &[3, 3, 3, 3, 3, 2, 2, 1]),
    ("12 then 7 records: 1 withdrawn", &["16 59 59 59 59 59", "50"], &[1]),
    ("12 then 7 records: 2 withdrawn", &["16 59 59 59 59 59", "50"], &[2]),
    ("7 then 12 records: 1 withdrawn", &["50", "16 59 59 59 59 59"], &[1]),
    ("8 then 7 records: 1 withdrawn", &["16 50", "59"], &[1]),
];

#[rustfmt::skip]
const EVERY_VARIANT: [Asked; 22] = [
    change(5, 1), withdraw(4), change(4, 5_005), withdraw(11), change(11, 1), withdraw(1),
    change(9, 1), withdraw(5), withdraw(5), change(5, MAX_AMOUNT), withdraw(8), withdraw(7),
    withdraw(1), withdraw(4), withdraw(2), withdraw(3), change(2, 9_009), withdraw(1), withdraw(1),
    change(1, MAX_AMOUNT + 1), change(1, 6_006), show(12),
];

const TEN_RENTS: [Asked; 4] = [
    withdraw(1),
    withdraw(9),
    change(8, 99_999),
    change(8, 100_000),
];

/// The records 30 are shown: 4, 11 and 18.
#[rustfmt::skip]
const FOUR_EQUAL: [Asked; 9] = [
    withdraw(1), show(4), show(11), show(18), withdraw(2), show(4), show(11), withdraw(2), show(4),
];

#[rustfmt::skip]
const MANY_EQUAL: [Asked; 7] = [
    withdraw(1), withdraw(35), withdraw(17), change(33, 45_001), change(1, 44_999), withdraw(33),
    withdraw(1),
];

/// The records 14 of `THREE` that have no company code, and what is asked.
#[rustfmt::skip]
const COMPANY_CODES: [(&str, &[usize], &[Asked]); 7] = [
    ("company code in 1 alone", &[9, 16], &[withdraw(1), change(1, 1), withdraw(0)]),
    ("company code in 2 alone", &[2, 16], &[withdraw(2), withdraw(1), change(2, 0)]),
    ("company code in 3 alone", &[2, 9], &[withdraw(3), change(1, 1), change(4, 1)]),
    ("company code in 1 and 3", &[9], &[withdraw(2), withdraw(1), withdraw(u64::MAX)]),
    ("company code in none", &[2, 9, 16],
        &[withdraw(1), show(2), show(9), change(2, 1), withdraw(2), show(2), withdraw(1)]),
    ("company code in all: 1 withdrawn", &[],
        &[withdraw(1), show(2), show(9), change(1, 5), withdraw(1), show(2), change(1, 7), withdraw(1)]),
    ("company code in all: 2 withdrawn", &[],
        &[change(2, 1), show(9), withdraw(2), show(9), withdraw(2), show(2), change(1, 0)]),
];

/// The same of recalls.
#[rustfmt::skip]
const RECALL_CODES: [(&str, &[usize], &[Asked]); 2] = [
    ("recalls: company code in all", &[],
        &[withdraw(1), show(2), change(2, 1), withdraw(2), show(2), withdraw(1)]),
    ("recalls: company code in none", &[2, 9, 16],
        &[withdraw(1), show(2), change(1, 3), withdraw(1), show(2), change(2, 3)]),
];

/// Those of `find_cases::LOOK_ALIKES` of which the first disposition alone is
/// withdrawn, to keep the input short.
const ONLY_FIRST: [&str; 3] = ["14 at 10-11", "14 at 11-12", "14 at 12-13"];

#[rustfmt::skip]
const FIRST_FILLED: [Asked; 13] = [
    change(1, 12_345), change(2, 5), withdraw(1), show(1), show(2), show(3), show(4), show(5),
    show(6), show(7), show(8), show(9), withdraw(1),
];

#[rustfmt::skip]
const LAST_FILLED: [Asked; 7] = [
    withdraw(2), change(1, 0), change(1, 1), show(1), show(2), show(3), show(10),
];

/// Bytes put into `TWO`, and what is asked.
#[rustfmt::skip]
const NOT_CANONICAL: [(&str, &[Change], &[Asked]); 3] = [
    ("40-45 in IM alone", &[(1, 40, b"CASE40")], &[change(1, 1), withdraw(1), show(9)]),
    ("40-45 unlike in EF", &[(1, 40, b"CASE40"), (16, 40, b"CASE41")],
        &[withdraw(2), change(1, 1), show(9)]),
    ("text in EF", &[(16, 1, b"~"), (16, 90, b"0000001 AND 0000002 TEXT"), (16, 115, b"NOTTE~")],
        &[change(2, 1), withdraw(1), show(9)]),
];

/// What is asked of a refused flow. The second change would set right a total
/// that is one cent too high; the first two and the withdrawals would take an
/// amount of zero away.
#[rustfmt::skip]
const OF_REFUSED: [Asked; 8] = [
    change(1, 45_000), change(2, 38_051), change(1, 0), change(0, u64::MAX), withdraw(1),
    withdraw(2), withdraw(0), withdraw(u64::MAX),
];

/// Bytes put into `TWO` of recalls: totals that a change of one kind's place
/// would set right.
#[rustfmt::skip]
const RECALL_TOTALS: [(&str, &[Change]); 3] = [
    ("recalls: the total at both", &[(16, 53, b"000000000083050")]),
    ("recalls: zeros at both", &[(16, 68, b"000000000000000")]),
    ("recalls: 13 in EF at 68", &[(16, 68, b"000000000083051")]),
];

/// Dispositions of 12 to 7 records.
#[rustfmt::skip]
const FROM_THE_MIDDLE: [Asked; 10] = [
    withdraw(3), change(3, 1), withdraw(3), withdraw(4), change(3, MAX_AMOUNT), withdraw(2),
    change(1, 7_007), withdraw(1), withdraw(1), show(9),
];

/// 101 dispositions of 7 records: a hundred of the largest amount and one of
/// 99 cents.
#[rustfmt::skip]
const LIMIT: [Asked; 23] = [
    change(101, 100), change(101, 99), change(1, MAX_AMOUNT), change(101, MAX_AMOUNT),
    change(101, MAX_AMOUNT + 1), change(101, u64::MAX), change(102, MAX_AMOUNT + 1),
    change(102, 100), change(0, 100), change(50, MAX_AMOUNT - 1), change(101, 101),
    change(101, 100), change(50, MAX_AMOUNT), change(50, MAX_AMOUNT - 1), change(101, 0),
    change(101, 1), change(50, MAX_AMOUNT), change(101, 99), withdraw(1), change(100, MAX_AMOUNT), withdraw(100),
    change(100, 1), withdraw(99),
];

/// The least and the most dispositions, the number of calls, of how many calls
/// one is a withdrawal, and the kind of flow.
const GENERATED: [(usize, usize, usize, u64, FlowKind); 4] = [
    (20, 24, 90, 2, FlowKind::Requests),
    (24, 32, 100, 2, FlowKind::Recalls),
    (30, 36, 70, 2, FlowKind::Recalls),
    (44, 60, 100, 3, FlowKind::Requests),
];

/// The first generated flow of this kind with such a number of dispositions,
/// and the generator after it; no byte if there is none in many. Every other
/// one is canonical.
fn generated_flow(index: u64, least: usize, most: usize, kind: FlowKind) -> (Rng, Vec<u8>) {
    let attempt = |attempt| {
        let mut rng = Rng::for_case(60 + index, attempt);
        let draft = generate::draft(&mut rng, Size::Medium);
        let flow = draft.flow();
        let wanted = (least..=most).contains(&draft.dispositions.len())
            && generate::kind_of(&draft.records()) == kind
            && is_canonical(&flow) == index.is_multiple_of(2);
        wanted.then_some((rng, flow))
    };
    let found = (0..2_000).find_map(attempt);
    found.unwrap_or_else(|| (Rng::new(index), Vec::new()))
}

/// Calls on a flow. One in `withdrawn` is a withdrawal, and one in `any` of the
/// amounts is any amount; the others fill the total up to its limit or exceed
/// it by a cent. What the ledger has then decides the numbers.
fn calls(rng: &mut Rng, flow: &[u8], count: usize, withdrawn: u64, any: u64) -> Vec<Asked> {
    let mut list = vec![0; flow.len()];
    let len = write_list(flow, &mut list).1;
    let mut asked = Vec::new();
    let Some(mut ledger) = Ledger::new(&list[..len]) else {
        return asked;
    };
    for _ in 0..count {
        let k = generate::disposition_number(rng, ledger.numbers().dispositions);
        let call = if rng.one_in(withdrawn) {
            Call::Withdraw { k }
        } else if rng.one_in(any) {
            let cents = generate::new_amount(rng);
            Call::Change { k, cents }
        } else {
            let most = ledger.amount(k).unwrap_or(0) + (MAX_TOTAL - ledger.numbers().cents);
            let cents = rng.pick(&[most, most + 1, most.min(MAX_AMOUNT), MAX_AMOUNT]);
            Call::Change { k, cents }
        };
        ledger.call(call);
        asked.push(Asked::Call(call));
    }
    asked
}
