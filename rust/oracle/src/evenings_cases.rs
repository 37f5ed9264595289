//! Cases for what differs between two evenings (document 02, E7; company codes
//! by E4, amounts of zero by E5): named ones, and generated pairs of flows.
//!
//! Most named flows are set down by letters, one for each request, the same
//! letter for the same request. The letters b and c have more records than the
//! others, so that the number of a record 14 tells which request it opens.
//! The others differ in a single byte, far from the record 14. A capital letter
//! is the same request without a company code.

use crate::damage::{damage_company, damage_flow, zero_amount};
use crate::evenings::{account, MIN_WORK};
use crate::fields::{write_digits, MIN_AMOUNT};
use crate::find_cases::{LARGE, LOOK_ALIKES};
use crate::generate::{self, cents_of, kind_of, unused, Draft, Size};
use crate::kind::FlowKind;
use crate::list::layout_of_record;
use crate::reader_cases::{Change, Flow, ABSENT, EVERY, ONE, ZERO};
use crate::record::{field_mut, put, record_type, Record, BLANK_RECORD, RECORD_LEN};
use crate::rng::Rng;
use crate::samples;

/// Two flows, and what is asked of them.
#[derive(Clone, Debug, Eq, PartialEq)]
pub struct Case {
    pub name: String,
    pub old: Vec<u8>,
    pub new: Vec<u8>,
    pub asked: Vec<Asked>,
}

/// What is asked of two flows.
#[derive(Clone, Copy, Debug, Eq, PartialEq)]
pub enum Asked {
    /// The account, with a working memory of so many numbers and so much room.
    Compare { work: usize, room: usize },
    /// A line of it, with a working memory of so many numbers.
    Line { work: usize, n: u64 },
}

/// All named cases.
pub fn cases() -> Vec<Case> {
    let mut cases = Cases(Vec::new());
    cases.two_rents();
    cases.accounts();
    cases.lent();
    cases.carried();
    cases.same();
    cases.look_alikes();
    cases.orders();
    cases.many();
    cases.0
}

/// The account in this room.
const fn compare(room: usize) -> Asked {
    let work = MIN_WORK;
    Asked::Compare { work, room }
}

/// A line of the account.
const fn line(n: u64) -> Asked {
    let work = MIN_WORK;
    Asked::Line { work, n }
}

/// A flow of requests by their letters.
pub fn flow_of_letters(letters: &str) -> Vec<u8> {
    let mut draft = samples::two_rents();
    draft.dispositions = letters.bytes().map(request).collect();
    draft.flow()
}

/// The request of a letter.
fn request(letter: u8) -> Vec<Record> {
    let mut block = samples::two_rents().dispositions.swap_remove(0);
    if letter.is_ascii_uppercase() {
        put(&mut block[0], 92, ABSENT);
    }
    let letter = letter.to_ascii_lowercase();
    put(&mut block[2], 40, &[letter]);
    match letter {
        b'b' => block.insert(1, samples::account()),
        b'c' => drop(block.splice(4..5, (1..=3).map(samples::detail_line))),
        _ => {}
    }
    block
}

/// A flow of recalls by their letters.
fn recalls_of_letters(letters: &str) -> Vec<u8> {
    turned(flow_of_letters(letters), FlowKind::Recalls)
}

/// A right flow as one of this kind.
fn turned(mut flow: Vec<u8>, kind: FlowKind) -> Vec<u8> {
    let (records, _) = flow.as_chunks_mut::<RECORD_LEN>();
    for record in records.iter_mut() {
        if record_type(record) == *b"14" {
            kind.put_in(record);
        }
    }
    if let Some((trailer, before)) = records.split_last_mut() {
        generate::fill_trailer(trailer, before);
    }
    flow
}

/// Records of these types with these bytes put in, and a trailer that agrees.
fn flow_with(types: &str, changes: &[Change]) -> Vec<u8> {
    let mut flow = Flow::of(types).with_all(changes);
    flow.0.pop();
    flow.0.push(flow.next("EF"));
    flow.bytes()
}

/// The cases so far.
struct Cases(Vec<Case>);

impl Cases {
    fn push(&mut self, name: impl Into<String>, old: &[u8], new: &[u8], asked: &[Asked]) {
        self.0.push(Case {
            name: name.into(),
            old: old.to_vec(),
            new: new.to_vec(),
            asked: asked.to_vec(),
        });
    }

    /// The account in just enough room, and each of its lines.
    fn whole(&mut self, name: &str, old: &[u8], new: &[u8]) {
        let len = account(old, new).map_or(0, |account| account.len());
        let lines = (1..=len as u64 + 1).map(line);
        let asked: Vec<Asked> = [compare(len)].into_iter().chain(lines).collect();
        self.push(name, old, new, &asked);
    }

    /// The same in both directions.
    fn both(&mut self, name: &str, one: &[u8], other: &[u8]) {
        self.whole(name, one, other);
        if one != other {
            self.whole(&format!("{name}, exchanged"), other, one);
        }
    }

    /// Document 01's two rents against the second of them.
    fn two_rents(&mut self) {
        let two = samples::two_rents().flow();
        let mut second = samples::two_rents();
        second.dispositions.remove(0);
        self.both("two rents and the second", &two, &second.flow());
    }

    /// Accounts of a few requests: ties in several shapes.
    fn accounts(&mut self) {
        let (one, other) = (recalls_of_letters("a"), recalls_of_letters("da"));
        self.both("recalls a and da", &one, &other);
        for (one, other) in LETTERS {
            let name = format!("{one} and {other}");
            let (one, other) = (flow_of_letters(one), flow_of_letters(other));
            self.both(&name, &one, &other);
        }
    }

    /// One byte of a request at each end of each carried span, and right
    /// outside of it.
    fn carried(&mut self) {
        for (types, changed) in [(FULL, &OF_FULL[..]), (ONE, &OF_ONE[..])] {
            let old = flow_with(types, &[]);
            for &(record, position, bytes) in changed {
                let new = flow_with(types, &[(record, position, bytes)]);
                let of_type = &types[3 * record - 3..3 * record - 1];
                let name = format!("{of_type} at {position}");
                self.push(name, &old, &new, &[compare(2)]);
            }
        }
    }

    /// Requests that are the same, or nearly.
    fn same(&mut self) {
        let ask = [compare(2), line(1), line(2)];
        for (name, (types, changes), other) in SAME {
            let new = flow_with(other.0, other.1);
            self.push(name, &flow_with(types, changes), &new, &ask);
        }
        let old = Flow::of(EVERY).bytes();
        let mut filled = Flow::of(EVERY);
        for record in &mut filled.0 {
            for &(first, last) in unused(record) {
                field_mut(record, first, last).fill(b'~');
            }
        }
        self.whole("~ where nothing is carried", &old, &filled.bytes());
    }

    /// Text like a record 14 where there is none.
    fn look_alikes(&mut self) {
        let old = Flow::of(EVERY).bytes();
        for (name, changes) in LOOK_ALIKES {
            if SHOWN_ALIKE.contains(&name) {
                let new = Flow::of(EVERY).with_all(changes).with_header_copied();
                self.whole(name, &old, &new.bytes());
            }
        }
    }

    /// Working memories, rooms and numbers of lines about their limits.
    fn lent(&mut self) {
        let (old, new) = (flow_of_letters("ada"), flow_of_letters("dad"));
        let asked: Vec<Asked> = [0, 1, 65_536, 66_048, 66_049, 66_050, 66_200]
            .into_iter()
            .flat_map(|work| {
                let n = 4;
                [Asked::Compare { work, room: 9 }, Asked::Line { work, n }]
            })
            .collect();
        self.push("working memories", &old, &new, &asked);
        let rooms = [0, 1, 3, 4, 5, 6, 512, 2_000].map(compare);
        self.push("rooms", &old, &new, &rooms);
        let numbers: Vec<Asked> = [0, 1, 2, 3, 4, 5, 6]
            .into_iter()
            .chain(LARGE)
            .map(line)
            .collect();
        self.push("numbers of lines", &old, &new, &numbers);
    }

    /// Two refusals that fit at once.
    fn orders(&mut self) {
        let right = flow_of_letters("a");
        let recalls = recalls_of_letters("a");
        let first = Flow::of(ONE).with_all(&[NINE]).bytes();
        let second = Flow::of(ONE).with_all(&[THIRTEEN]).bytes();
        let third = Flow::of(ONE).recalled().with_all(&[TEN]).bytes();
        let zero = flow_with(ONE, &[ZERO_CENTS]);
        let zero_recall = turned(zero.clone(), FlowKind::Recalls);
        let mixed = flow_of_letters("aD");
        let mixed_recalls = recalls_of_letters("Ad");
        for (name, old, new) in [
            ("both right", &right[..], &right[..]),
            ("a zero in old", &zero, &right),
            ("a zero in new", &right, &zero),
            ("old refused, a zero in new", &first, &zero),
            ("a zero in old, new refused", &zero, &first),
            ("codes that differ in old, new refused", &mixed, &first),
            ("old refused, codes that differ in new", &first, &mixed),
            ("codes that differ in new", &right, &mixed),
            ("codes that differ in old", &mixed, &right),
            ("old refused", &first, &right),
            ("new refused", &right, &first),
            ("both refused", &second, &first),
            ("both refused, exchanged", &first, &second),
            ("old refused, of recalls", &third, &right),
            ("new refused, of recalls", &right, &third),
            ("both of recalls", &recalls, &recalls),
            ("a zero in new, both of recalls", &recalls, &zero_recall),
            ("a zero in old, both of recalls", &zero_recall, &recalls),
            (
                "codes that differ in old, of recalls",
                &mixed_recalls,
                &recalls,
            ),
            (
                "codes that differ in new, of recalls",
                &recalls,
                &mixed_recalls,
            ),
            ("new of recalls", &right, &recalls),
            ("old of recalls", &recalls, &right),
            ("no byte and recalls", &[], &recalls),
            ("recalls and no byte", &recalls, &[]),
            ("no byte in either", &[], &[]),
            ("no byte and a byte short", &[], &right[..1_079]),
            ("a record short and no byte", &right[..960], &[]),
        ] {
            self.push(name, old, new, &ORDER);
        }
    }

    /// 257 requests and 256, on either side. The refused flow has an amount of
    /// zero.
    fn many(&mut self) {
        let right = flow_of_letters("a");
        let recalls = recalls_of_letters("a");
        let wrong = flow_with(ONE, &[ZERO_CENTS]);
        let most: String = "ade".chars().cycle().take(256).collect();
        let too_many = flow_of_letters(&format!("{most}d"));
        let most = flow_of_letters(&most);
        self.push("old of 257", &too_many, &right, &ORDER);
        self.push("old of 257, new of recalls", &too_many, &recalls, &ORDER);
        self.push("old of 257, new refused", &too_many, &wrong, &ORDER);
        self.push("old refused, new of 257", &wrong, &too_many, &ORDER);
        self.push("old of recalls, new of 257", &recalls, &too_many, &ORDER);
        self.push("new of 257", &right, &too_many, &ORDER);
        self.push("old of 256, new of 257", &most, &too_many, &ORDER);
        let none = flow_of_letters("z");
        let ask: Vec<Asked> = [256, 257]
            .map(compare)
            .into_iter()
            .chain(MANY_LINES)
            .collect();
        self.push("old of 256, none kept", &most, &none, &ask);
        self.push("new of 256, none kept", &none, &most, &ask);
        let some = flow_of_letters("eda");
        let ask: Vec<Asked> = [255, 256]
            .map(compare)
            .into_iter()
            .chain(MANY_LINES)
            .collect();
        self.push("new of 256, three kept", &some, &most, &ask);
        self.push("old of 256, three kept", &most, &some, &ask);
    }
}

/// Two evenings by letters, to be compared both ways.
const LETTERS: [(&str, &str); 13] = [
    ("a", "a"),
    ("a", "d"),
    ("a", "ad"),
    ("a", "da"),
    ("a", "bac"),
    ("aa", "a"),
    ("ab", "ba"),
    ("ab", "cb"),
    ("abc", "cab"),
    ("abc", "ABC"),
    ("aad", "ad"),
    ("adeadda", "edadae"),
    ("dad", "ada"),
];

/// One request of ten records, with 16 and 59.
const FULL: &str = "IM 14 16 20 30 40 59 51 70 EF";

/// Bytes put into `FULL`, at both ends of each carried span and right outside
/// of it. The country in 16 has two bytes. Right before most spans stands the
/// number, and between those of 14 causale, sign and ABI: in a right flow of
/// this kind and header they are what they are.
#[rustfmt::skip]
const OF_FULL: [Change; 32] = [
    (2, 1, b"X"), (2, 22, b"X"), (2, 23, b"1"), (2, 28, b"7"), (2, 34, b"9"),
    (2, 46, b"1"), (2, 53, b"1"), (2, 69, b"7"), (2, 70, b"X"), (2, 91, b"X"), (2, 92, b"B"),
    (2, 113, b"X"), (2, 114, b"X"),
    (3, 11, b"SM"), (3, 37, b"7"), (3, 38, b"X"),
    (4, 11, b"S"), (4, 106, b"X"), (4, 107, b"X"),
    (5, 11, b"S"), (5, 86, b"Y"), (5, 87, b"X"),
    (6, 11, b"W"), (6, 120, b"X"),
    (7, 11, b"S"), (7, 120, b"X"),
    (8, 11, b"1"), (8, 120, b"X"),
    (9, 93, b"X"), (9, 94, b"P"), (9, 95, b"X"), (9, 96, b"X"),
];

/// Bytes put into `ONE`.
#[rustfmt::skip]
const OF_ONE: [Change; 4] = [
    (6, 1, b"X"), (6, 11, b"S"), (6, 120, b"X"), (8, 120, b"X"),
];

/// Records of these types with these bytes put in.
type Of = (&'static str, &'static [Change]);

/// One request with a 59, and with more.
const WITH_59: &str = "IM 14 20 30 40 59 51 70 EF";
const TWO_59: &str = "IM 14 20 30 40 59 59 51 70 EF";
const FIVE_59: &str = "IM 14 20 30 40 59 59 59 59 59 51 70 EF";

/// Positions 11 to 120 of a 50 or a 59.
const DETAIL: &[u8] = b"RETTA MARZO 2026                                       \
    STANZA 17                                              ";

/// Pairs of one request each.
#[rustfmt::skip]
const SAME: [(&str, Of, Of); 13] = [
    ("company code and none", (ONE, &[]), (ONE, &[(2, 92, ABSENT)])),
    ("a byte up, a byte down", (ONE, &[]), (ONE, &[(4, 11, b"S"), (4, 15, b"H")])),
    ("upper and lower case", (ONE, &[]), (ONE, &[(4, 11, b"r")])),
    ("the header's fields", (ONE, &[]),
        (ONE, &[(1, 4, b"CD456"), (1, 14, b"160326"), (1, 20, b"ANOTHER NAME"), (1, 40, b"CASE41"),
            (1, 105, b"1$05678")])),
    ("another ABI", (ONE, &[]), (ONE, &[(1, 9, b"56789"), (2, 48, b"56789")])),
    ("another ABI, in 16 too", (FULL, &[]),
        (FULL, &[(1, 9, b"56789"), (2, 48, b"56789"), (3, 16, b"56789")])),
    ("16 and none", (FULL, &[]), (WITH_59, &[])),
    ("one 59 and two", (WITH_59, &[]), (TWO_59, &[])),
    ("50 and 59 of the same bytes", (ONE, &[(6, 11, DETAIL)]), (WITH_59, &[(6, 11, DETAIL)])),
    ("59 of the same bytes", (WITH_59, &[(6, 11, DETAIL)]), (WITH_59, &[(6, 11, DETAIL)])),
    ("two 59s exchanged", (TWO_59, &[(6, 11, b"ONE")]), (TWO_59, &[(7, 11, b"ONE")])),
    ("the fifth 59 differs", (FIVE_59, &[]), (FIVE_59, &[(10, 120, b"~")])),
    ("40 and 51 exchanged", (ONE, &[(5, 111, b"TEXT"), (7, 111, b"NOTE")]),
        (ONE, &[(5, 111, b"NOTE"), (7, 111, b"TEXT")])),
];

/// Those of `find_cases::LOOK_ALIKES` that are compared.
const SHOWN_ALIKE: [&str; 2] = ["14 across two records", "position 1 not blank"];

/// Faults of `ONE`, with 9, 10, 13 and 25.
const NINE: Change = (3, 4, b"0000002");
const TEN: Change = (9, 114, b"L");
const THIRTEEN: Change = (9, 53, b"000000000045001");
const ZERO_CENTS: Change = (2, 34, ZERO);

/// With too short a working memory and none of the rest, with enough of it,
/// and with enough of both.
const ORDER: [Asked; 6] = [
    Asked::Compare {
        work: MIN_WORK - 1,
        room: 0,
    },
    compare(0),
    compare(600),
    Asked::Line {
        work: MIN_WORK - 1,
        n: 0,
    },
    line(0),
    line(1),
];

/// Lines of long accounts.
const MANY_LINES: [Asked; 8] = [
    line(1),
    line(2),
    line(3),
    line(7),
    line(255),
    line(256),
    line(257),
    line(258),
];

/// Two generated flows, and what is asked of them.
#[derive(Clone, Debug, Eq, PartialEq)]
pub struct Pair {
    pub old: Vec<u8>,
    pub new: Vec<u8>,
    /// The length of the working memory.
    pub work: usize,
    /// The length of the account's room.
    pub room: usize,
    /// The numbers of the lines to be asked.
    pub lines: Vec<u64>,
}

/// Pair `index` of a seed, with at most `most` requests a side.
pub fn pair_case(seed: u64, index: u64, most: usize) -> Pair {
    pair(&mut Rng::for_case(seed, index), most)
}

/// A pair with at most `most` requests a side, mostly few; from 257 on all
/// sizes come.
pub fn pair(rng: &mut Rng, most: usize) -> Pair {
    let (old, new) = flows(rng, most.max(1));
    let len = account(&old, &new).map_or(0, |account| account.len());
    Pair {
        old,
        new,
        work: work(rng),
        room: room(rng, len),
        lines: lines(rng, len as u64),
    }
}

/// A working memory, mostly long enough.
fn work(rng: &mut Rng) -> usize {
    match rng.below(24) {
        0 => 0,
        1 => MIN_WORK - 1,
        2 => MIN_WORK + 1,
        3 => 70_000,
        _ => MIN_WORK,
    }
}

/// Room for an account of this length, mostly enough.
fn room(rng: &mut Rng, len: usize) -> usize {
    match rng.below(24) {
        0 => 0,
        1 | 2 => len.saturating_sub(1),
        3 => rng.index(len),
        4..=6 => len + 1,
        7 => 2_000,
        _ => len,
    }
}

/// Numbers of lines of an account of this length, and of none.
fn lines(rng: &mut Rng, len: u64) -> Vec<u64> {
    let any = rng.within(1, len.max(1));
    let inside = rng.pick(&[1, 2, len / 2 + 1, any, any, len]);
    let outside = rng.pick(&[0, len + 1, len + 1, len + 256, 1 << 32, u64::MAX]);
    let bits = rng.bits();
    // Cut to fewer bits, the first two of these are a line.
    let third = rng.pick(&[(1 << 16) + any, (1 << 32) + any, any, any, bits]);
    vec![inside, outside, third]
}

/// The flows of a pair.
fn flows(rng: &mut Rng, most: usize) -> (Vec<u8>, Vec<u8>) {
    let count = size(rng, most);
    let mut old = generate::draft(rng, Size::Small);
    if count > 60 {
        lower_amounts(&mut old.dispositions);
    }
    let stock = old.dispositions.clone();
    old.dispositions = requests_of(rng, &stock, count);
    let mut new = tonight(rng, &old, &stock, most);
    new.dispositions.truncate(most);
    for _ in 0..rng.pick(&[0, 0, 0, 1, 1, 2, 3]) {
        touch(rng, &mut new.dispositions);
    }
    if rng.one_in(12) {
        change_abi(rng, &mut new);
    }
    if rng.one_in(14) {
        turn(&mut new);
    }
    if rng.one_in(14) {
        change_code(rng, &mut new);
    }
    let (mut old, mut new) = (old.flow(), new.flow());
    damage(rng, &mut old, &mut new);
    (old, new)
}

/// Damages one of two flows or both at times: in any way, by an amount of zero
/// or by company codes that differ.
fn damage(rng: &mut Rng, old: &mut Vec<u8>, new: &mut Vec<u8>) {
    let ways: [fn(&mut Rng, &mut Vec<u8>); 4] = [
        damage_flow,
        damage_flow,
        |rng, flow| zero_amount(rng, flow),
        |rng, flow| damage_company(rng, flow),
    ];
    let (of_old, of_new) = match rng.below(16) {
        0 => (true, false),
        1 => (false, true),
        2 => (true, true),
        _ => return,
    };
    let way = rng.pick(&ways);
    for (flow, damaged) in [(old, of_old), (new, of_new)] {
        if damaged {
            way(rng, flow);
        }
    }
}

/// How many requests an evening has.
fn size(rng: &mut Rng, most: usize) -> usize {
    let size = match rng.below(800) {
        0 | 1 => 257,
        2 | 3 => 256,
        4 => 255,
        5..=9 => rng.within(61, 254),
        10..=60 => rng.within(7, 60),
        _ => rng.within(1, 6),
    };
    (size as usize).min(most)
}

/// Makes the sum of many amounts one of 15 digits.
fn lower_amounts(stock: &mut [Vec<Record>]) {
    for opening in stock.iter_mut().filter_map(|block| block.first_mut()) {
        let cents = cents_of(opening) % 1_000_000;
        write_digits(field_mut(opening, 34, 46), cents.max(MIN_AMOUNT));
    }
}

/// So many requests of a stock: each comes in turn, or often again.
fn requests_of(rng: &mut Rng, stock: &[Vec<Record>], count: usize) -> Vec<Vec<Record>> {
    if rng.one_in(3) {
        return stock.iter().cycle().take(count).cloned().collect();
    }
    let few = 1 + rng.index(stock.len());
    (0..count).map(|_| stock[rng.index(few)].clone()).collect()
}

/// Tonight's draft after last night's: the same, edited, of the same stock in
/// another order, or unrelated. The trailer's unchecked bytes stay blank.
fn tonight(rng: &mut Rng, old: &Draft, stock: &[Vec<Record>], most: usize) -> Draft {
    let mut requests = old.dispositions.clone();
    let count = requests.len();
    match rng.below(12) {
        0 => {}
        1 | 2 => {
            let count = if rng.one_in(2) {
                count
            } else {
                size(rng, most)
            };
            requests = requests_of(rng, stock, count);
        }
        3 => requests.reverse(),
        4 => requests.rotate_left(rng.index(count)),
        5 => return generate::draft(rng, Size::Small),
        _ => {
            let edits = rng.within(1, 1 + count.min(24) as u64);
            for _ in 0..edits {
                edit(rng, &mut requests, stock);
            }
        }
    }
    let mut header = old.header;
    if rng.one_in(2) {
        put(&mut header, 14, b"170326");
        put(&mut header, 20, b"THE NEXT EVENING");
        put(&mut header, 46, b"TEXT");
    }
    Draft {
        header,
        dispositions: requests,
        trailer: BLANK_RECORD,
    }
}

/// Drops, adds, exchanges, repeats or moves requests; one is always left.
fn edit(rng: &mut Rng, requests: &mut Vec<Vec<Record>>, stock: &[Vec<Record>]) {
    let (one, other) = (rng.index(requests.len()), rng.index(requests.len()));
    let (first, last) = (one.min(other), one.max(other));
    let fresh = stock[rng.index(stock.len())].clone();
    match rng.below(9) {
        0 | 1 if requests.len() > 1 => drop(requests.remove(one)),
        2 if last < requests.len() - 1 || first > 0 => drop(requests.drain(first..=last)),
        3 => requests.insert(one, fresh),
        4 => requests.push(fresh),
        5 => requests[one] = fresh,
        6 => requests.insert(one, requests[other].clone()),
        7 => {
            let moved = requests.remove(one);
            requests.insert(other, moved);
        }
        _ => requests.swap(one, other),
    }
}

/// Puts one byte anywhere, or at a carried or an unused position of a request.
fn touch(rng: &mut Rng, requests: &mut [Vec<Record>]) {
    let request = rng.index(requests.len());
    let Some(block) = requests.get_mut(request) else {
        return;
    };
    let index = rng.index(block.len());
    let record = &mut block[index];
    let carried = layout_of_record(record).map_or(&[][..], |layout| layout.carried);
    let spans = match rng.below(5) {
        0 => &[(1, RECORD_LEN)][..],
        1 => unused(record),
        _ => carried,
    };
    if spans.is_empty() {
        return;
    }
    let (first, last) = rng.pick(spans);
    let inside = rng.within(first as u64, last as u64) as usize;
    let place = rng.pick(&[first, last, inside]);
    if let Some(byte) = record.get_mut(place - 1) {
        *byte = another(rng, *byte);
    }
}

/// Another byte: a digit for a digit, mostly.
fn another(rng: &mut Rng, byte: u8) -> u8 {
    match byte {
        b'0'..=b'9' if !rng.one_in(8) => b'0' + rng.below(10) as u8,
        _ => rng.within(32, 126) as u8,
    }
}

/// Gives the header another ABI, with all its copies.
fn change_abi(rng: &mut Rng, draft: &mut Draft) {
    let abi = rng.pick(&[b"00000", b"01234", b"99999"]);
    put(&mut draft.header, 9, abi);
    for record in draft.dispositions.iter_mut().flatten() {
        match &record_type(record) {
            b"14" => put(record, 48, abi),
            b"16" => put(record, 16, abi),
            _ => {}
        }
    }
}

/// Gives every record 14 one company code, or none.
fn change_code(rng: &mut Rng, draft: &mut Draft) {
    let code = rng.pick(&[b"AB123", b"ab123", b"    A", b"     ", b"     "]);
    for opening in draft.dispositions.iter_mut().filter_map(|d| d.first_mut()) {
        put(opening, 92, code);
    }
}

/// Turns a draft to the other kind.
fn turn(draft: &mut Draft) {
    let kind = kind_of(&draft.dispositions.concat()).other();
    for record in draft.dispositions.iter_mut().flatten() {
        if record_type(record) == *b"14" {
            kind.put_in(record);
        }
    }
}
