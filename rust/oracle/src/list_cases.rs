//! Named cases for request lists (document 01, "Our request list"; document
//! 02, E1, E4 and E5): a list to be written or a flow to be read back, and the room
//! of each output.
//!
//! A list is set down by the kinds of its items, each of them right
//! (`List::of`), and by the bytes then put into their bodies, by the position
//! that they have in the record. The lengths of the bodies and the carried
//! positions are written here a second time, so that the cases stand beside
//! what writes and reads lists and do not follow it.

use crate::damage::checked;
use crate::fields::MAX_AMOUNT;
use crate::find_cases;
use crate::reader_cases::{Change, Flow, ABSENT, AND_14, EVERY, ONE, TWO, ZERO};
use crate::record::{field, field_mut, record_type, Record, BLANK_RECORD, RECORD_LEN};

/// A list or a flow, and what is asked of it.
#[derive(Clone, Debug, Eq, PartialEq)]
pub struct Case {
    pub name: String,
    pub bytes: Vec<u8>,
    pub asked: Vec<Asked>,
}

/// What is asked of the bytes of a case.
#[derive(Clone, Copy, Debug, Eq, PartialEq)]
pub enum Asked {
    /// The list written to an output of this room.
    Write(usize),
    /// The flow read back to an output of this room.
    ReadBack(usize),
    /// The list written, and the flow read back.
    WriteAndBack,
    /// The flow read back, and its list written.
    BackAndWrite,
}

use Asked::{BackAndWrite, ReadBack, Write, WriteAndBack};

/// All cases.
pub fn cases() -> Vec<Case> {
    let mut cases = Cases(Vec::new());
    cases.two_rents();
    cases.carried();
    cases.empty();
    cases.unknown_kinds();
    cases.cut();
    cases.items_first();
    cases.room_first();
    cases.orders();
    cases.misplaced();
    cases.values();
    cases.bytes_outside();
    cases.changes();
    cases.zeros();
    cases.codes();
    cases.many();
    cases.limit();
    cases.back();
    cases.back_refused();
    cases.back_carried();
    cases.not_canonical();
    cases.canonical();
    cases.recalls();
    cases.recalls_refused();
    cases.recalls_back();
    cases.0
}

/// The items of one disposition after H, in 7 and in 8 items.
const RENT: &str = "D C B A R K Z";
const RENT_X: &str = "D S C B A X K Z";
/// One disposition: 9 records.
const ONE_RENT: &str = "H D C B A R K Z";
/// One disposition with S and X: 10 records.
const FULL: &str = "H D S C B A X K Z";
/// Two dispositions: 16 records.
const TWO_RENTS: &str = "H D C B A R K Z D C B A R K Z";
/// The same of recalls.
const ONE_RECALL: &str = "Q D C B A R K Z";
const FULL_RECALL: &str = "Q D S C B A X K Z";
const TWO_RECALLS: &str = "Q D C B A R K Z D C B A R K Z";

/// The items of a list, each a kind byte and its body.
#[derive(Clone)]
struct List(Vec<Vec<u8>>);

impl List {
    /// Items of these kinds. The rents of document 01's example come in turn.
    fn of(kinds: &str) -> List {
        let mut list = List(Vec::new());
        let mut rents = 0;
        for kind in kinds.split_whitespace() {
            rents += usize::from(kind == "D");
            list.0.push(item(kind.as_bytes()[0], rents));
        }
        list
    }

    /// The list with bytes put into an item at a position of its record.
    fn with(mut self, item: usize, position: usize, bytes: &[u8]) -> List {
        let item = &mut self.0[item - 1];
        let at = 1 + offset(item[0], position);
        item[at..at + bytes.len()].copy_from_slice(bytes);
        self
    }

    fn with_all(self, changes: &[Change]) -> List {
        changes.iter().fold(self, |list, &(item, position, bytes)| {
            list.with(item, position, bytes)
        })
    }

    /// The list with other bodies for the items of one kind.
    fn with_bodies(mut self, kind: u8, mut body: impl FnMut(usize) -> Vec<u8>) -> List {
        for (index, item) in self.0.iter_mut().filter(|i| i[0] == kind).enumerate() {
            item.truncate(1);
            item.extend(body(index));
        }
        self
    }

    fn bytes(&self) -> Vec<u8> {
        self.0.concat()
    }

    /// The room that its flow needs.
    fn room(&self) -> usize {
        RECORD_LEN * (self.0.len() + 1)
    }
}

/// Where a carried position stands in the body of its item.
fn offset(kind: u8, position: usize) -> usize {
    match (kind, position) {
        (b'H' | b'Q', 4..=45) => position - 4,
        (b'H' | b'Q', 105..=111) => 42 + position - 105,
        (b'D', 23..=28) => position - 23,
        (b'D', 34..=46) => 6 + position - 34,
        (b'D', 53..=69) => 19 + position - 53,
        (b'D', 92..=113) => 36 + position - 92,
        (b'Z', 94) => 0,
        (b'Z', 96..=120) => 1 + position - 96,
        (b'S' | b'C' | b'B' | b'A' | b'R' | b'X' | b'K', 11..) => position - 11,
        _ => panic!("position {position} is not carried"),
    }
}

/// Tenants of document 01's example: amount, customer, name, tax code, room
/// and reference.
const TENANTS: [[&str; 6]; 2] = [
    [
        "0000000038050",
        "S0023",
        "BIANCHI MARCO",
        "BNCMRC04P12F205Y",
        "STANZA 23",
        "0000000023",
    ],
    [
        "0000000045000",
        "S0017",
        "ROSSI GIULIA",
        "RSSGLI05A41F205X",
        "STANZA 17",
        "0000000017",
    ],
];

/// A right item of this kind in the rent of this number.
fn item(kind: u8, rent: usize) -> Vec<u8> {
    let [cents, customer, name, tax_code, room, reference] = TENANTS[rent % 2];
    let body = match kind {
        b'H' | b'Q' => format!("AB12301234150326{:33}", "RENT-MARCH"),
        b'D' => format!("310326{cents}02400000000123456AB1232{customer:16}"),
        b'S' => String::from("IT60X0123402400000000123456"),
        b'C' => format!(
            "{:24}{:24}{:48}",
            "RESIDENZA SAN MARTINO", "VIA DEI COLLEGI 12", "20100 MILANO MI"
        ),
        b'B' => format!("{name:60}{tax_code}"),
        b'A' => format!(
            "{:30}20100{:25}{room:50}",
            "VIA DEI COLLEGI 12", "MILANO MI"
        ),
        b'R' | b'X' => format!("{:110}", "RETTA MARZO 2026"),
        b'K' => format!("{reference:110}"),
        _ => format!("{:26}", ""),
    };
    [&[kind][..], body.as_bytes()].concat()
}

/// Printable bytes other than the blank, from the `start`-th on: no two that
/// stand near one another are equal.
fn run(start: usize, len: usize) -> Vec<u8> {
    let byte = |i: usize| b'!' + ((start + i) % 94) as u8;
    (0..len).map(byte).collect()
}

/// The cases so far.
struct Cases(Vec<Case>);

impl Cases {
    fn push(&mut self, name: impl Into<String>, bytes: Vec<u8>, asked: &[Asked]) {
        self.0.push(Case {
            name: name.into(),
            bytes,
            asked: asked.to_vec(),
        });
    }

    /// A list that is written to as much room as its flow needs.
    fn list(&mut self, name: impl Into<String>, list: &List) {
        self.push(name, list.bytes(), &[Write(list.room())]);
    }

    /// The same, which is accepted, and back.
    fn right(&mut self, name: impl Into<String>, list: &List) {
        self.push(name, list.bytes(), &[Write(list.room()), WriteAndBack]);
    }

    /// Document 01's example, at every room about the 1,920 bytes needed.
    fn two_rents(&mut self) {
        let list = List::of(TWO_RENTS).bytes();
        let rooms = [
            0, 1, 119, 120, 1_800, 1_919, 1_920, 1_921, 2_039, 2_040, 3_000,
        ];
        let mut asked = rooms.map(Write).to_vec();
        asked.extend([WriteAndBack, Write(131_008)]);
        self.push("two rents", list, &asked);
        self.right("one rent", &List::of(ONE_RENT));
        self.right("one rent with S and X", &List::of(FULL));
    }

    /// Other bytes in every carried position of every kind.
    fn carried(&mut self) {
        let both = format!("H D S C B A X X K Z {RENT}");
        self.right("distinct bytes, S and X then R", &distinct(&both));
        let five = "H D C B A X X X X X K Z";
        self.right("distinct bytes, five X", &distinct(five));
        self.right("every byte from 32 to 126", &every_byte());
    }

    /// An empty list: 21 below the room of EF, then 3 at its place.
    fn empty(&mut self) {
        let rooms = [0, 1, 119, 120, 121, 240, 1_000];
        self.push("empty list", Vec::new(), &rooms.map(Write));
    }
}

/// A list of these kinds with other bytes in every carried position.
fn distinct(kinds: &str) -> List {
    let text = |start, len| String::from_utf8(run(start, len)).unwrap_or_default();
    let header = format!("{}56789290228{}1$34567", text(0, 5), text(5, 26));
    let account = format!("SM98{}5678913579{}", text(80, 1), text(11, 12));
    let opening = |i| {
        format!(
            "3112991234567890123456{i}8{}9{}",
            text(40, 17),
            text(57, 16)
        )
    };
    List::of(kinds)
        .with_bodies(b'H', |_| header.clone().into_bytes())
        .with_bodies(b'Q', |_| header.clone().into_bytes())
        .with_bodies(b'D', |i| opening(i).into_bytes())
        .with_bodies(b'S', |_| account.clone().into_bytes())
        .with_bodies(b'C', |_| run(3, 96))
        .with_bodies(b'B', |_| run(17, 76))
        .with_bodies(b'A', |_| run(31, 110))
        .with_bodies(b'R', |_| run(47, 110))
        .with_bodies(b'X', |i| run(59 + 7 * i, 110))
        .with_bodies(b'K', |_| run(71, 110))
        .with_bodies(b'Z', |i| [&b"PB"[i % 2..][..1], &run(23 + i, 25)].concat())
}

/// A list whose C, A and K hold every byte from 32 to 126, upwards and
/// downwards.
fn every_byte() -> List {
    let up: Vec<u8> = (32..=126).collect();
    let down: Vec<u8> = (32..=126).rev().collect();
    List::of(ONE_RENT)
        .with(3, 11, &up)
        .with(5, 11, &up)
        .with(7, 26, &down)
}

/// The eleven kinds.
const KINDS: &[u8; 11] = b"HQDSCBARXKZ";

/// 20: kinds that are none, and bodies cut short.
impl Cases {
    /// Bytes that are no kind: what stands after them would be the body of
    /// any kind, and then no item. Q is one (document 02, E1), so that the
    /// fault is what comes after its body, or that there is too little of it.
    fn unknown_kinds(&mut self) {
        let others = [0, 1, 9, 10, 13, 31, 32, 127, 128, 255];
        let printable = (33..=126).filter(|byte| !KINDS.contains(byte));
        let with_high_bit = KINDS.iter().map(|kind| kind | 128);
        let all = others.into_iter().chain(printable).chain(with_high_bit);
        for byte in all.chain([b'Q']) {
            let list = [&[byte][..], &[b'.'; 111]].concat();
            self.push(format!("kind {byte}"), list, &[Write(1_200)]);
        }
        let right = List::of(ONE_RENT);
        for byte in [b'E', b'h', b'Q', b' ', 0] {
            for (place, at) in [
                ("first", 0),
                ("second", 1),
                ("in the middle", 4),
                ("last", 8),
            ] {
                let mut list = right.clone();
                list.0.insert(at, vec![byte]);
                self.push(
                    format!("kind {byte} {place}"),
                    list.bytes(),
                    &[Write(1_200)],
                );
            }
        }
        let mut lines = right.clone();
        lines.0.iter_mut().for_each(|item| item.push(b'\n'));
        self.push(
            "a line feed behind each item",
            lines.bytes(),
            &[Write(4_000)],
        );
        let end = [&right.bytes()[..], b"\n"].concat();
        self.push("a line feed at the end", end, &[Write(1_080), Write(4_000)]);
    }

    /// The last item cut by a byte, by half and by its whole body.
    fn cut(&mut self) {
        for (kinds, kind) in [
            ("", "H"),
            ("", "Q"),
            ("H", "D"),
            ("H D", "S"),
            ("H D", "C"),
            ("H D C", "B"),
            ("H D C B", "A"),
            ("H D C B A", "R"),
            ("H D C B A", "X"),
            ("H D C B A R", "K"),
            ("H D C B A R K", "Z"),
        ] {
            let list = List::of(&format!("{kinds} {kind}"));
            let (bytes, whole) = (list.bytes(), list.0.last().map_or(0, Vec::len));
            for (cut, missing) in [
                ("one byte", 1),
                ("half of it", whole / 2),
                ("its body", whole - 1),
            ] {
                let name = format!("{kind} cut by {cut}");
                let left = bytes[..bytes.len() - missing].to_vec();
                self.push(name, left, &[Write(list.room())]);
            }
        }
        self.shifted();
    }

    /// A body with a byte too few or too many inside the list: what comes
    /// next is no kind. And items that end where a list may.
    fn shifted(&mut self) {
        for (kind, kinds, item) in [
            ("H", TWO_RENTS, 1),
            ("D", TWO_RENTS, 2),
            ("C", TWO_RENTS, 3),
            ("B", TWO_RENTS, 4),
            ("A", TWO_RENTS, 5),
            ("Z", TWO_RENTS, 8),
            ("Q", TWO_RECALLS, 1),
        ] {
            let mut list = List::of(kinds);
            list.0[item - 1].pop();
            self.push(
                format!("{kind} a byte short"),
                list.bytes(),
                &[Write(1_920)],
            );
            list.0[item - 1].extend(b"..");
            self.push(format!("{kind} a byte long"), list.bytes(), &[Write(1_920)]);
        }
    }

    /// 20 comes before any other refusal.
    fn items_first(&mut self) {
        let wrong = List::of(TWO_RENTS).with(1, 4, b"     ").bytes();
        let cut = wrong[..wrong.len() - 1].to_vec();
        let rooms = [0, 119, 1_800, 1_920, 3_000].map(Write);
        self.push("20 at the end, 7 in H", cut, &rooms);
        let unknown = [&wrong[..], b"Y"].concat();
        self.push("20 behind the end, 7 in H", unknown, &rooms);
        let bad = [&List::of("D H").with(1, 23, b"\0").bytes()[..], b"E"].concat();
        self.push("20 behind 2 and 3", bad, &[Write(0), Write(480)]);
        let two = [b"Y", &List::of("H").bytes()[..], b"Q"].concat();
        self.push("20 twice", two, &[Write(0), Write(480)]);
        let many = List::of(&format!("H {}", [RENT; 5].join(" ")));
        let behind = [&many.bytes()[..], b"W"].concat();
        self.push("20 behind 36 items", behind, &[Write(many.room())]);
        let zero = List::of(ONE_RENT).with(2, 34, ZERO).bytes();
        let cut = zero[..zero.len() - 1].to_vec();
        self.push("20 at the end, 25 in D", cut, &[Write(0), Write(1_080)]);
        let mixed = List::of(SECOND_D).with(9, 92, ABSENT).bytes();
        let cut = mixed[..mixed.len() - 1].to_vec();
        self.push("20 at the end, 11 in D", cut, &[Write(0), Write(1_200)]);
    }

    /// 21 comes before the reader's refusals and before 3.
    fn room_first(&mut self) {
        let wrong = List::of(ONE_RENT).with(1, 4, b"     ");
        let rooms = [0, 1_079, 1_080, 1_081].map(Write);
        self.push("7 in H, at several rooms", wrong.bytes(), &rooms);
        let byte = List::of(ONE_RENT).with(8, 120, b"\x7f");
        self.push("2 in Z, at several rooms", byte.bytes(), &rooms);
        let zero = List::of(ONE_RENT).with(2, 34, ZERO);
        self.push("25 in D, at several rooms", zero.bytes(), &rooms);
        let mixed = List::of(TWO_RENTS).with(2, 92, ABSENT);
        let of_two = [0, 1_919, 1_920, 1_921].map(Write);
        self.push("11 in D, at several rooms", mixed.bytes(), &of_two);
        let alone = List::of("H");
        let rooms = [0, 120, 239, 240, 241].map(Write);
        self.push("H alone, at several rooms", alone.bytes(), &rooms);
        let no_header = List::of("D");
        self.push("D alone, at several rooms", no_header.bytes(), &rooms);
    }
}

/// Lists in which only the order of the items is wrong, or that end too early;
/// and right ones.
#[rustfmt::skip]
const ORDERS: [(&str, &str); 36] = [
    ("two X", "H D C B A X X K Z"),
    ("three X", "H D C B A X X X K Z"),
    ("four X", "H D C B A X X X X K Z"),
    ("five X", "H D C B A X X X X X K Z"),
    ("S and five X", "H D S C B A X X X X X K Z"),
    ("S and R", "H D S C B A R K Z"),
    ("six X", "H D C B A X X X X X X K Z"),
    ("S and six X", "H D S C B A X X X X X X K Z"),
    ("R after X", "H D C B A X R K Z"),
    ("X after R", "H D C B A R X K Z"),
    ("R twice", "H D C B A R R K Z"),
    ("no R and no X", "H D C B A K Z"),
    ("K before R", "H D C B A K R Z"),
    ("X before and after K", "H D C B A X K X Z"),
    ("S twice", "H D S S C B A R K Z"),
    ("S after C", "H D C S B A R K Z"),
    ("S before D", "H S D C B A R K Z"),
    ("C and B swapped", "H D B C A R K Z"),
    ("B and A swapped", "H D C A B R K Z"),
    ("A and R swapped", "H D C B R A K Z"),
    ("K and Z swapped", "H D C B A R Z K"),
    ("H twice", "H H D C B A R K Z"),
    ("H inside a disposition", "H D C B H A R K Z"),
    ("H between dispositions", "H D C B A R K Z H D C B A R K Z"),
    ("two whole lists", "H D C B A R K Z D C B A R K Z H D C B A R K Z"),
    ("D before H", "D H C B A R K Z"),
    ("no H", "D C B A R K Z"),
    ("H and Z", "H Z"),
    ("D twice", "H D D C B A R K Z"),
    ("no Z", "H D C B A R K"),
    ("no K and no Z", "H D C B A R"),
    ("no Z in the first disposition", "H D C B A R K D C B A R K Z"),
    ("no Z in the second disposition", "H D C B A R K Z D C B A R K"),
    ("the second D alone", "H D C B A R K Z D"),
    ("S at the end", "H D S"),
    ("ends inside the third disposition", "H D C B A R K Z D C B A R K Z D C"),
];

/// Kinds that may not stand at a place: the place, the kinds before it, the
/// kinds put there as the list's last.
#[rustfmt::skip]
const MISPLACED: [(&str, &str, &str); 11] = [
    ("alone", "", "H D S C B A R X K Z Q"),
    ("after H", "H", "H S C B A R X K Z Q"),
    ("after Q", "Q", "H S C Z Q"),
    ("after D", "H D", "H D B A R X K Z Q"),
    ("after S", "H D S", "H D S B A R X K Z"),
    ("after C", "H D C", "D S C A R X K Z"),
    ("after B", "H D C B", "D S C B R X K Z"),
    ("after A", "H D C B A", "D S C B A K Z"),
    ("after R", "H D C B A R", "D A R X Z"),
    ("after K", "H D C B A R K", "D R X K"),
    ("after Z", "H D C B A R K Z", "H S C B A R X K Z Q"),
];

/// 3, and the reader's other refusals.
impl Cases {
    fn orders(&mut self) {
        for (name, kinds) in ORDERS {
            self.list(name, &List::of(kinds));
        }
        let other = List::of("H D C B A R K Z H D C").with(9, 9, b"56789");
        self.list("H with another ABI between dispositions", &other);
        let other = List::of("H H D C B A R K Z").with(2, 9, b"56789");
        self.list("H with another ABI behind the first", &other);
        let other = List::of("H D S C B A R K Z H").with(10, 40, b"SECOND");
        self.list("another H at the end", &other);
    }

    fn misplaced(&mut self) {
        for (place, before, kinds) in MISPLACED {
            for kind in kinds.split(' ') {
                let list = List::of(&format!("{before} {kind}"));
                self.list(format!("ends with {kind} {place}"), &list);
            }
        }
    }

    /// Right and wrong values of each checked field that is carried.
    fn values(&mut self) {
        for (name, kinds, item, position, values) in VALUES {
            for value in values {
                let list = List::of(kinds).with(item, position, value.as_bytes());
                self.list(format!("{name} is '{}'", value.trim_end()), &list);
            }
        }
    }

    /// A byte outside 32 to 126 at the first and the last position of each
    /// carried part: the refusal gives its own place.
    fn bytes_outside(&mut self) {
        for (kind, kinds, item, positions) in CARRIED_ENDS {
            for (index, &position) in positions.iter().enumerate() {
                let byte = [0, 31, 127, 128, 255, 10][index % 6];
                let list = List::of(kinds).with(item, position, &[byte]);
                self.list(format!("byte {byte} in {kind} at {position}"), &list);
            }
        }
    }

    /// Faults of more than one item or field, and right lists.
    fn changes(&mut self) {
        for (name, kinds, changes) in RIGHT {
            self.right(name, &List::of(kinds).with_all(changes));
        }
        for (name, kinds, changes) in FAULTS {
            self.list(name, &List::of(kinds).with_all(changes));
        }
    }
}

/// Amounts of zero (document 02, E5).
impl Cases {
    /// A D with an amount of zero, alone and with other faults.
    fn zeros(&mut self) {
        for (name, kinds, changes) in ZEROS {
            self.list(name, &List::of(kinds).with_all(changes));
        }
    }
}

/// Company codes on all or on none (document 02, E4).
impl Cases {
    /// Codes of D that differ, alone and with other faults; and codes with
    /// blanks in them that are all equal.
    fn codes(&mut self) {
        for (name, kinds, changes) in RIGHT_CODES {
            self.right(format!("code: {name}"), &List::of(kinds).with_all(changes));
        }
        for (name, kinds, changes) in CODES {
            self.list(format!("code: {name}"), &List::of(kinds).with_all(changes));
        }
    }
}

/// A list that ends with the second D.
const SECOND_D: &str = "H D C B A R K Z D";
const SECOND_D_OF_RECALLS: &str = "Q D C B A R K Z D";

/// Right lists with company codes put into them.
#[rustfmt::skip]
const RIGHT_CODES: [(&str, &str, &[Change]); 3] = [
    ("blanks in both", TWO_RENTS, &[(2, 92, ABSENT), (9, 92, ABSENT)]),
    ("'  A  ' in both", TWO_RENTS, &[(2, 92, b"  A  "), (9, 92, b"  A  ")]),
    ("blanks in both recalls", TWO_RECALLS, &[(2, 92, ABSENT), (9, 92, ABSENT)]),
];

/// Lists with a D whose company code differs from the first one's, AB123 where
/// nothing else is put.
#[rustfmt::skip]
const CODES: [(&str, &str, &[Change]); 26] = [
    ("blanks, then a code", TWO_RENTS, &[(2, 92, ABSENT)]),
    ("a code, then blanks", TWO_RENTS, &[(9, 92, ABSENT)]),
    ("a code, blanks, the same code", THREE_RENTS, &[(9, 92, ABSENT)]),
    ("twice a code, then blanks", THREE_RENTS, &[(16, 92, ABSENT)]),
    ("twice blanks, then a code", THREE_RENTS, &[(2, 92, ABSENT), (9, 92, ABSENT)]),
    ("other in byte 1", SECOND_D, &[(9, 92, b"BB123")]),
    ("other in byte 2", SECOND_D, &[(9, 92, b"AC123")]),
    ("other in byte 3", SECOND_D, &[(9, 92, b"AB223")]),
    ("other in byte 4", SECOND_D, &[(9, 92, b"AB133")]),
    ("other in byte 5", SECOND_D, &[(9, 92, b"AB124")]),
    ("lower case in byte 1", SECOND_D, &[(9, 92, b"aB123")]),
    ("a blank for byte 5", SECOND_D, &[(9, 92, b"AB12 ")]),
    ("moved by a place", SECOND_D, &[(9, 92, b" AB12")]),
    ("blanks, then byte 5 alone", SECOND_D, &[(2, 92, ABSENT), (9, 92, b"    A")]),
    ("byte 1 alone, then blanks", SECOND_D, &[(2, 92, b"A    "), (9, 92, ABSENT)]),
    // Other faults of the item that differs, and of others.
    ("2 in it", SECOND_D, &[(9, 92, b"AB1\x7f3")]),
    ("8 at 23", SECOND_D, &[(9, 23, b"290227"), (9, 92, ABSENT)]),
    ("5 at 53", SECOND_D, &[(9, 53, b":"), (9, 92, ABSENT)]),
    ("6 at 97", SECOND_D, &[(9, 92, ABSENT), (9, 97, b"0")]),
    ("6 at 97 of the first D", SECOND_D, &[(2, 97, b"0"), (9, 92, ABSENT)]),
    ("3 in the next item", "H D C B A R K Z D B", &[(9, 92, ABSENT)]),
    ("a D that may not stand there", "H D D", &[(3, 92, ABSENT)]),
    ("recalls: blanks, then a code", TWO_RECALLS, &[(2, 92, ABSENT)]),
    ("recalls: a code, then blanks", SECOND_D_OF_RECALLS, &[(9, 92, ABSENT)]),
    ("recalls: 5 at 53", SECOND_D_OF_RECALLS, &[(9, 53, b":"), (9, 92, ABSENT)]),
    ("recalls: 6 at 97", SECOND_D_OF_RECALLS, &[(9, 92, ABSENT), (9, 97, b"0")]),
];

/// Lists with a D whose amount is zero.
#[rustfmt::skip]
const ZEROS: [(&str, &str, &[Change]); 17] = [
    ("25 in the first D", TWO_RENTS, &[(2, 34, ZERO)]),
    ("25 in the last D", TWO_RENTS, &[(9, 34, ZERO)]),
    ("25 in the middle D", THREE_RENTS, &[(9, 34, ZERO)]),
    ("25 in both D", TWO_RENTS, &[(2, 34, ZERO), (9, 34, ZERO)]),
    ("8 and 25 in D", "H D", &[(2, 23, b"290227"), (2, 34, ZERO)]),
    ("25 and 5 in D", "H D", &[(2, 34, ZERO), (2, 53, b":")]),
    ("25 and 6 in D", "H D", &[(2, 34, ZERO), (2, 97, b"0")]),
    ("25 and 11 in the second D", SECOND_D, &[(9, 34, ZERO), (9, 92, ABSENT)]),
    ("25 and a byte outside in D", "H D", &[(2, 34, ZERO), (2, 113, b"\0")]),
    ("a byte outside in an amount of zero", "H D", &[(2, 34, ZERO), (2, 46, b"\x1f")]),
    ("7 in H then 25 in D", "H D", &[(1, 20, &[b' '; 20]), (2, 34, ZERO)]),
    ("25 in D then 2 in C", "H D C", &[(2, 34, ZERO), (3, 11, b"\0")]),
    ("25 in D then 3 in B", "H D B", &[(2, 34, ZERO)]),
    ("an amount of zero before H", "D H", &[(1, 34, ZERO)]),
    ("an amount of zero behind D", "H D D", &[(3, 34, ZERO)]),
    ("recalls: 25 in the last D", TWO_RECALLS, &[(9, 34, ZERO)]),
    ("recalls: 8 and 25 in D", "Q D", &[(2, 23, b"290227"), (2, 34, ZERO)]),
];

/// Values of one field: name, kinds, item, position, values.
type Values = (
    &'static str,
    &'static str,
    usize,
    usize,
    &'static [&'static str],
);

/// The checked fields that a list carries, by the rows of document 01's table
/// of checks.
#[rustfmt::skip]
const VALUES: [Values; 21] = [
    ("H 4-8", "H", 1, 4, &["     "]),
    ("H 9-13", "H", 1, 9, &["0123:", "/1234", "     "]),
    ("H date", "H", 1, 14, &["290227", "000126", "29022:", "      "]),
    ("H 20-39", "H", 1, 20, &["                    "]),
    ("H 105-111", "H", 1, 105, &["2$05678", "1E05678", "1$0567:", "      1"]),
    ("H 105-111 in a right list", ONE_RENT, 1, 105, &["1$05678"]),
    ("H date in a right list", ONE_RENT, 1, 14, &["290228"]),
    ("D date", "H D", 2, 23, &["290227", "310426", "29022:", "      "]),
    ("D date in a right list", ONE_RENT, 2, 23, &["290228"]),
    ("D amount", "H D", 2, 34, &[
        "0000000450.00", "/000000045000", "000000004500:", "             ", "0000000000000",
        " 000000000000", "000000000000:", "000000O000000",
    ]),
    ("D 53-57", "H D", 2, 53, &["024  ", "    0", "0240:"]),
    ("D 53-57 in a right list", ONE_RENT, 2, 53, &["     ", "99999"]),
    ("D at 97", "H D", 2, 97, &["0", "7", "A"]),
    ("D at 97 in a right list", ONE_RENT, 2, 97, &[" ", "9"]),
    ("S 11-12", FULL, 3, 11, &["DE", "  "]),
    ("S 13-14", FULL, 3, 13, &["6:", "  "]),
    ("S at 15", FULL, 3, 15, &[" "]),
    ("S 16-20", FULL, 3, 16, &["0123:", "01235", "00000"]),
    ("S 21-25", FULL, 3, 21, &["0240:", "00000", "00001"]),
    ("S 26-37", FULL, 3, 26, &["            "]),
    ("Z at 94", ONE_RENT, 8, 94, &["A", "p", "P", "B"]),
];

/// The ends of the carried parts: kind, kinds of the list, item, positions.
#[rustfmt::skip]
const CARRIED_ENDS: [(&str, &str, usize, &[usize]); 12] = [
    ("H", ONE_RENT, 1, &[4, 45, 105, 111]),
    ("Q", "Q", 1, &[4, 45, 105, 111]),
    ("D", "H D", 2, &[23, 28, 34, 46, 53, 69, 92, 113]),
    ("S", FULL, 3, &[11, 37]),
    ("C", ONE_RENT, 3, &[11, 106]),
    ("B", ONE_RENT, 4, &[11, 86]),
    ("A", ONE_RENT, 5, &[11, 120]),
    ("R", ONE_RENT, 6, &[11, 120]),
    ("X", FULL, 7, &[11, 120]),
    ("K", ONE_RENT, 7, &[11, 120]),
    ("Z", ONE_RENT, 8, &[94, 96, 120]),
    ("the second Z", TWO_RENTS, 15, &[120]),
];

const THREE_RENTS: &str = "H D C B A R K Z D C B A R K Z D C B A R K Z";

/// Right lists with bytes put into them.
#[rustfmt::skip]
const RIGHT: [(&str, &str, &[Change]); 9] = [
    ("amount 1", ONE_RENT, &[(2, 34, b"0000000000001")]),
    ("amount 9999999999999", ONE_RENT, &[(2, 34, b"9999999999999")]),
    ("amount 1234567890123", ONE_RENT, &[(2, 34, b"1234567890123")]),
    ("amounts that carry", TWO_RENTS, &[(2, 34, b"9999999999999"), (9, 34, b"0000000000001")]),
    ("H 40-45 used", ONE_RENT, &[(1, 40, b"CASE40")]),
    ("H at 45 used", ONE_RENT, &[(1, 45, b"~")]),
    ("H 105-111 used", ONE_RENT, &[(1, 105, b"1$05678"), (1, 20, b"                   ~")]),
    ("A R K blank", ONE_RENT, &[(5, 11, &[b' '; 110]), (6, 11, &[b' '; 110]), (7, 11, &[b' '; 110])]),
    ("another ABI in H and S", FULL, &[(1, 9, b"98765"), (3, 16, b"98765")]),
];

/// Lists with faults of more than one item or field, or of the second
/// disposition.
#[rustfmt::skip]
const FAULTS: [(&str, &str, &[Change]); 22] = [
    ("S with the ABI of another H", FULL, &[(1, 9, b"98765")]),
    ("C 11-34 blank", ONE_RENT, &[(3, 11, &[b' '; 24])]),
    ("B 11-40 blank and text behind", ONE_RENT, &[(4, 11, &[b' '; 30]), (4, 41, b"X")]),
    ("X 11-65 blank and text behind", FULL, &[(7, 11, &[b' '; 55]), (7, 66, b"X")]),
    ("5 in the second D", TWO_RENTS, &[(9, 34, b"0000000380.50")]),
    ("8 in the second D", TWO_RENTS, &[(9, 23, b"300226")]),
    ("7 in the second C", TWO_RENTS, &[(10, 11, &[b' '; 24])]),
    ("6 in the second Z", TWO_RENTS, &[(15, 94, b"A")]),
    ("two bytes outside, the higher first", ONE_RENT, &[(3, 30, b"\xff"), (3, 90, b"\0")]),
    ("two bytes outside, the lower first", ONE_RENT, &[(3, 30, b"\0"), (3, 90, b"\xff")]),
    ("bytes outside earlier in each later item", ONE_RENT, &[
        (1, 45, b"\0"), (2, 28, b"\0"), (3, 11, b"\0"),
    ]),
    ("a byte outside and a wrong kind", "H D B C A R K Z", &[(3, 86, b"\x1f")]),
    ("a byte outside and a wrong field", ONE_RENT, &[(2, 23, b"290227"), (2, 113, b"\0")]),
    ("a byte outside in D before H", "D H", &[(1, 113, b"\x80")]),
    ("a byte outside in the second H", "H H", &[(2, 4, b"\x80")]),
    ("a wrong kind and wrong fields", "H D D", &[(3, 23, b"290227"), (3, 97, b"0")]),
    ("7 in H then 2 in D", ONE_RENT, &[(1, 20, &[b' '; 20]), (2, 23, b"\0")]),
    ("6 in D then 3 in S", "H D C S", &[(2, 97, b"0")]),
    ("5 and 8 and 6 in D", ONE_RENT, &[(2, 23, b"290227"), (2, 34, b":"), (2, 97, b"0")]),
    ("8 in D then no Z", "H D C B A R K", &[(2, 23, b"290227")]),
    ("6 in the last Z", ONE_RENT, &[(8, 94, b"x")]),
    ("5 at both ends of H", ONE_RENT, &[(1, 9, b"0123 "), (1, 105, b"1$0567 ")]),
];

/// Many dispositions.
impl Cases {
    /// Numbers of two digits, amounts that differ, every kind.
    fn many(&mut self) {
        let kinds = format!("H {}", [RENT, RENT_X].repeat(6).join(" "));
        let list = List::of(&kinds).with_bodies(b'D', |i| opening(1_001 * (i as u64 + 1)));
        self.right("12 dispositions", &list);
    }

    /// A total of 999,999,999,999,999, and one cent more: 17, after 21 and
    /// after the reader's refusals.
    fn limit(&mut self) {
        let kinds = format!("H {}", [RENT; 101].join(" "));
        let amounts = |last| move |i| opening(if i < 100 { MAX_AMOUNT } else { last });
        let full = List::of(&kinds).with_bodies(b'D', amounts(99));
        let room = full.room();
        let asked = [Write(room - 1), Write(room), Write(room + 1), WriteAndBack];
        self.push("a total of 999999999999999", full.bytes(), &asked);
        let above = List::of(&kinds).with_bodies(b'D', amounts(100));
        self.push("a total of 1000000000000000", above.bytes(), &asked);
        let mut open = above.clone();
        open.0.pop();
        self.list("a total above the limit and no Z", &open);
    }
}

/// The body of a D of that amount.
fn opening(cents: u64) -> Vec<u8> {
    let text = format!("310326{cents:013}02400000000123456AB1232{:16}", cents % 97);
    text.into_bytes()
}

/// Reading back.
impl Cases {
    /// The two-rent flow, at every room about the 1,236 bytes needed.
    fn back(&mut self) {
        let rooms = [0, 1, 50, 1_235, 1_236, 1_237, 1_355, 1_356, 1_920, 3_000];
        let mut asked = rooms.map(ReadBack).to_vec();
        asked.extend([BackAndWrite, ReadBack(131_008)]);
        self.push("back: two rents", Flow::of(TWO).bytes(), &asked);
        for (name, types, len) in BACK {
            let asked = [len - 1, len, len + 1].map(ReadBack);
            let asked = [&asked[..], &[BackAndWrite]].concat();
            self.push(format!("back: {name}"), Flow::of(types).bytes(), &asked);
        }
    }

    /// The reader's refusals come before 21.
    fn back_refused(&mut self) {
        let asked = [ReadBack(0), ReadBack(1_235), ReadBack(2_000), BackAndWrite];
        self.push("back: no byte", Vec::new(), &asked);
        let flow = Flow::of(TWO).bytes();
        self.push("back: a byte short", flow[..1_919].to_vec(), &asked);
        let end = [&flow[..], b"\n"].concat();
        self.push("back: a line feed at the end", end, &asked);
        self.push("back: 14 after EF", Flow::of(AND_14).bytes(), &asked);
        for (name, types) in find_cases::CUT {
            self.push(format!("back: {name}"), Flow::of(types).bytes(), &asked);
        }
        for (name, changes) in find_cases::FAULTS {
            let flow = Flow::of(TWO).with_all(changes);
            self.push(format!("back: {name}"), flow.bytes(), &asked);
        }
        let list = List::of(TWO_RENTS).bytes();
        self.push("back: a list for a flow", list, &asked);
    }

    /// Other bytes in every position that is not checked, carried or not.
    fn back_carried(&mut self) {
        for (name, types, len) in [
            ("S and X then R", EVERY, 1_264),
            ("five X", "IM 14 20 30 40 59 59 59 59 59 51 70 EF", 1_087),
        ] {
            let mut flow = Flow::of(types);
            for (index, record) in flow.0.iter_mut().enumerate() {
                fill(record, 13 * index);
            }
            let asked = [ReadBack(len - 1), ReadBack(len), BackAndWrite];
            let name = format!("back: unchecked bytes distinct, {name}");
            self.push(name, flow.bytes(), &asked);
        }
    }

    /// One byte that the list does not carry, in each part of each record.
    fn not_canonical(&mut self) {
        for (name, types, record, positions) in NOT_CARRIED {
            let len = if types == ONE { 643 } else { 671 };
            for &position in positions {
                let mut flow = Flow::of(types);
                flow.0[record - 1][position - 1] = b'~';
                let name = format!("back: not canonical in {name} at {position}");
                self.push(name, flow.bytes(), &[ReadBack(len), BackAndWrite]);
            }
        }
        let asked = [ReadBack(643), BackAndWrite];
        let header = Flow::of(ONE).with_all(&[(1, 40, b"CASE40")]);
        self.push("back: 40-45 in IM alone", header.bytes(), &asked);
        let other = Flow::of(ONE).with_all(&[(1, 40, b"CASE40"), (9, 40, b"CASE41")]);
        self.push("back: 40-45 unlike in EF", other.bytes(), &asked);
    }

    /// One byte that is carried and not checked; a canonical flow comes again.
    fn canonical(&mut self) {
        for (name, types, record, positions) in CARRIED {
            for &position in positions {
                let mut flow = Flow::of(types);
                flow.0[record - 1][position - 1] = b'~';
                let name = format!("back: canonical, {name} at {position}");
                self.push(name, flow.bytes(), &[BackAndWrite]);
            }
        }
        let both = Flow::of(ONE).with_all(&[(1, 40, b"CASE40"), (9, 40, b"CASE40")]);
        self.push(
            "back: 40-45 alike in IM and EF",
            both.bytes(),
            &[BackAndWrite],
        );
    }
}

/// Right flows: name, types, length of the list.
#[rustfmt::skip]
const BACK: [(&str, &str, usize); 5] = [
    ("one rent", ONE, 643),
    ("16 and 50", "IM 14 16 20 30 40 50 51 70 EF", 671),
    ("16 and 59", "IM 14 16 20 30 40 59 51 70 EF", 671),
    ("five 59s", "IM 14 20 30 40 59 59 59 59 59 51 70 EF", 1_087),
    ("16 in the second", "IM 14 20 30 40 50 51 70 14 16 20 30 40 59 59 51 70 EF", 1_375),
];

const FULL_FLOW: &str = "IM 14 16 20 30 40 59 51 70 EF";

/// Ends of the parts that are neither checked nor carried: name, types of the
/// flow, record, positions.
#[rustfmt::skip]
const NOT_CARRIED: [(&str, &str, usize, &[usize]); 11] = [
    ("IM", ONE, 1, &[1, 46, 104, 112, 113, 115, 120]),
    ("14", ONE, 2, &[1, 11, 22, 70, 91, 114, 119]),
    ("16", FULL_FLOW, 3, &[1, 38, 120]),
    ("20", ONE, 3, &[1, 107, 120]),
    ("30", ONE, 4, &[1, 87, 120]),
    ("40", ONE, 5, &[1]),
    ("50", ONE, 6, &[1]),
    ("59", FULL_FLOW, 7, &[1]),
    ("51", ONE, 7, &[1]),
    ("70", ONE, 8, &[1, 11, 93, 95]),
    ("EF", ONE, 9, &[1, 40, 45, 90, 113, 115, 120]),
];

/// Ends of the parts that are carried and not checked.
#[rustfmt::skip]
const CARRIED: [(&str, &str, usize, &[usize]); 9] = [
    ("14", ONE, 2, &[58, 69, 98, 113]),
    ("16", FULL_FLOW, 3, &[15, 26, 37]),
    ("20", ONE, 3, &[35, 106]),
    ("30", ONE, 4, &[41, 86]),
    ("40", ONE, 5, &[11, 120]),
    ("50", ONE, 6, &[11, 120]),
    ("59", FULL_FLOW, 7, &[66, 120]),
    ("51", ONE, 7, &[11, 120]),
    ("70", ONE, 8, &[96, 120]),
];

/// Recalls (document 02, E1).
impl Cases {
    /// Lists that open with Q, written and read back.
    fn recalls(&mut self) {
        let rooms = [0, 120, 1_919, 1_920, 1_921, 3_000].map(Write);
        let asked = [&rooms[..], &[WriteAndBack]].concat();
        let two = List::of(TWO_RECALLS);
        self.push("recalls: two rents", two.bytes(), &asked);
        self.right("recalls: one rent", &List::of(ONE_RECALL));
        self.right("recalls: one rent with S and X", &List::of(FULL_RECALL));
        let both = format!("Q D S C B A X X K Z {RENT}");
        self.right("recalls: distinct bytes", &distinct(&both));
        for (name, kinds, changes) in RIGHT_RECALLS {
            self.right(
                format!("recalls: {name}"),
                &List::of(kinds).with_all(changes),
            );
        }
        let kinds = format!("Q {}", [RENT, RENT_X].repeat(2).join(" "));
        let list = List::of(&kinds).with_bodies(b'D', |i| opening(MAX_AMOUNT - i as u64));
        self.right("recalls: four near the largest amount", &list);
    }

    /// Lists with Q that are refused: at 20 and 21 first, for the order of the
    /// items, and for their values.
    fn recalls_refused(&mut self) {
        let wrong = List::of(ONE_RECALL).with(1, 4, b"     ");
        let rooms = [0, 1_079, 1_080, 1_081].map(Write);
        self.push("7 in Q, at several rooms", wrong.bytes(), &rooms);
        let cut = wrong.bytes()[..wrong.bytes().len() - 1].to_vec();
        self.push("20 at the end, 7 in Q", cut, &rooms);
        let unknown = [&List::of("H Q").bytes()[..], b"q"].concat();
        self.push("20 behind Q after H", unknown, &[Write(0), Write(480)]);
        let rooms = [0, 120, 239, 240, 241].map(Write);
        self.push("Q alone, at several rooms", List::of("Q").bytes(), &rooms);
        for (name, kinds) in ORDERS_WITH_Q {
            self.list(name, &List::of(kinds));
        }
        for (name, kinds, changes) in FAULTS_WITH_Q {
            self.list(name, &List::of(kinds).with_all(changes));
        }
    }

    /// Flows of recalls read back, at every room about what is needed, and
    /// refused ones; canonical ones and others.
    fn recalls_back(&mut self) {
        let rooms = [0, 50, 1_235, 1_236, 1_237, 3_000].map(ReadBack);
        let asked = [&rooms[..], &[BackAndWrite]].concat();
        let two = Flow::of(TWO).recalled();
        self.push("back: recalls: two rents", two.bytes(), &asked);
        let full = Flow::of(FULL_FLOW).recalled();
        let asked = [ReadBack(670), ReadBack(671), BackAndWrite];
        self.push("back: recalls: 16 and 59", full.bytes(), &asked);
        let mut filled = Flow::of(EVERY).recalled();
        for (index, record) in filled.0.iter_mut().enumerate() {
            fill(record, 13 * index);
        }
        let asked = [ReadBack(1_263), ReadBack(1_264), BackAndWrite];
        let name = "back: recalls: unchecked bytes distinct";
        self.push(name, filled.bytes(), &asked);
        for (name, changes) in RECALLS_BACK {
            let flow = Flow::of(ONE).recalled().with_all(changes);
            let name = format!("back: recalls: {name}");
            self.push(name, flow.bytes(), &[ReadBack(643), BackAndWrite]);
        }
        let asked = [ReadBack(0), ReadBack(2_000), BackAndWrite];
        for (name, changes) in find_cases::RECALL_FAULTS {
            let flow = Flow::of(TWO).recalled().with_all(changes);
            self.push(format!("back: {name}"), flow.bytes(), &asked);
        }
    }
}

/// Right lists of recalls with bytes put into them.
#[rustfmt::skip]
const RIGHT_RECALLS: [(&str, &str, &[Change]); 5] = [
    ("amount 1", ONE_RECALL, &[(2, 34, b"0000000000001")]),
    ("amounts that carry", TWO_RECALLS, &[(2, 34, b"9999999999999"), (9, 34, b"0000000000001")]),
    ("Q 40-45 and 105-111 used", ONE_RECALL, &[(1, 40, b"CASE40"), (1, 105, b"1$05678")]),
    ("another ABI in Q and S", FULL_RECALL, &[(1, 9, b"98765"), (3, 16, b"98765")]),
    ("keys in Z", ONE_RECALL, &[(8, 94, b"P"), (8, 96, b"NOTTEKEYS OF THE RECALL")]),
];

/// Lists with Q in which only the order of the items is wrong.
#[rustfmt::skip]
const ORDERS_WITH_Q: [(&str, &str); 16] = [
    ("Q twice", "Q Q D C B A R K Z"),
    ("Q after H", "H Q D C B A R K Z"),
    ("H after Q", "Q H D C B A R K Z"),
    ("Q inside a disposition", "H D C B Q A R K Z"),
    ("H inside a disposition of recalls", "Q D C B H A R K Z"),
    ("Q between dispositions", "H D C B A R K Z Q D C B A R K Z"),
    ("H between recalls", "Q D C B A R K Z H D C B A R K Z"),
    ("H at the end of recalls", "Q D C B A R K Z H"),
    ("D before Q", "D Q C B A R K Z"),
    ("D before Q and H", "D Q H D C B A R K Z"),
    ("a disposition before Q", "D C B A R K Z Q"),
    ("Q behind the first D", "H D Q D C B A R K Z"),
    ("Q and Z", "Q Z"),
    ("recalls: six X", "Q D C B A X X X X X X K Z"),
    ("recalls: no Z", "Q D C B A R K"),
    ("recalls: the second D alone", "Q D C B A R K Z D"),
];

/// Lists with Q and wrong values.
#[rustfmt::skip]
const FAULTS_WITH_Q: [(&str, &str, &[Change]); 18] = [
    ("Q 4-8 is ''", "Q", &[(1, 4, b"     ")]),
    ("Q 9-13 is '0123:'", "Q", &[(1, 9, b"0123:")]),
    ("Q date is '290227'", "Q", &[(1, 14, b"290227")]),
    ("Q date is '29022:'", "Q", &[(1, 14, b"29022:")]),
    ("Q 20-39 is ''", "Q", &[(1, 20, b"                    ")]),
    ("Q 105-111 is '2$05678'", "Q", &[(1, 105, b"2$05678")]),
    ("Q 105-111 is '1E05678'", "Q", &[(1, 105, b"1E05678")]),
    ("Q 105-111 is '1$0567:'", "Q", &[(1, 105, b"1$0567:")]),
    ("recalls: D date is '290227'", "Q D", &[(2, 23, b"290227")]),
    ("recalls: D amount is '0000000450.00'", "Q D", &[(2, 34, b"0000000450.00")]),
    ("recalls: D amount is '0000000000000'", "Q D", &[(2, 34, ZERO)]),
    ("recalls: D at 97 is '0'", "Q D", &[(2, 97, b"0")]),
    ("recalls: Z at 94 is 'A'", ONE_RECALL, &[(8, 94, b"A")]),
    ("recalls: S with the ABI of another Q", FULL_RECALL, &[(1, 9, b"98765")]),
    ("7 in Q then 2 in D", "Q D", &[(1, 20, &[b' '; 20]), (2, 23, b"\0")]),
    ("a byte outside in D before Q", "D Q", &[(1, 113, b"\x80")]),
    ("a byte outside in Q after H", "H Q", &[(2, 4, b"\x80")]),
    ("7 in H then Q", "H Q", &[(1, 4, b"     ")]),
];

/// Bytes put into `ONE` of recalls, to be read back: two that the list does
/// not carry, and carried ones.
#[rustfmt::skip]
const RECALLS_BACK: [(&str, &[Change]); 5] = [
    ("text in IM at 46", &[(1, 46, b"~")]),
    ("text in 14 at 11", &[(2, 11, b"~")]),
    ("text in EF at 90", &[(9, 90, b"~")]),
    ("40-45 in IM alone", &[(1, 40, b"CASE40")]),
    ("keys in 70", &[(8, 94, b"P"), (8, 96, b"NOTTEKEYS OF THE RECALL")]),
];

/// Fills the positions of a record that are not checked with a run of bytes.
pub(crate) fn fill(record: &mut Record, start: usize) {
    let mut filled = BLANK_RECORD;
    filled.copy_from_slice(&run(start, RECORD_LEN));
    for &(first, last) in checked(record_type(record)) {
        field_mut(&mut filled, first, last).copy_from_slice(field(record, first, last));
    }
    *record = filled;
}
