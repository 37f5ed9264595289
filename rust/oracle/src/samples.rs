//! The sample files: right flows and lists, for each refusal number of one flow
//! or list a file, with the call that gives it where reading alone does not,
//! and two evenings to be compared.

use std::fmt::Write;
use std::path::Path;
use std::{fs, io};

use crate::amend::{change, withdraw};
use crate::answer::Answer;
use crate::evenings::{compare, line, Side, MIN_WORK};
use crate::evenings_cases::Asked;
use crate::fields::{write_digits, MAX_AMOUNT};
use crate::generate::{blank, Draft};
use crate::kind::FlowKind;
use crate::ledger::Call;
use crate::list::write_flow;
use crate::reader::read;
use crate::record::{field_mut, put, Record, BLANK_RECORD, RECORD_LEN};

/// One row of the table of samples.
pub struct Sample {
    pub file: &'static str,
    pub bytes: Vec<u8>,
    pub use_as: UseAs,
    pub shows: &'static str,
    /// The line of the answer due, written by hand.
    pub due: &'static str,
}

/// What a sample is given to.
#[derive(Clone, Copy, Debug, Eq, PartialEq)]
pub enum UseAs {
    /// A flow to be read.
    Flow,
    /// A list to be written to an output of this length.
    List(usize),
    /// A flow to be amended by this call.
    Amended(Call),
}

impl Sample {
    /// The answer given.
    pub fn answer(&self) -> Answer {
        match self.use_as {
            UseAs::Flow => read(&self.bytes),
            UseAs::List(room) => write_flow(&self.bytes, &mut vec![0; room]).0,
            UseAs::Amended(Call::Change { k, cents }) => change(&mut self.bytes.clone(), k, cents),
            UseAs::Amended(Call::Withdraw { k }) => withdraw(&mut self.bytes.clone(), k).0,
        }
    }
}

/// A tenant with a rent due.
struct Tenant {
    name: &'static str,
    tax_code: &'static str,
    room: &'static str,
    customer: &'static str,
    number: u64,
    cents: u64,
}

/// The two tenants of document 01's example.
const TENANTS: [Tenant; 2] = [
    Tenant {
        name: "ROSSI GIULIA",
        tax_code: "RSSGLI05A41F205X",
        room: "STANZA 17",
        customer: "S0017",
        number: 17,
        cents: 45_000,
    },
    Tenant {
        name: "BIANCHI MARCO",
        tax_code: "BNCMRC04P12F205Y",
        room: "STANZA 23",
        customer: "S0023",
        number: 23,
        cents: 38_050,
    },
];

/// The tenants of a small residence last night.
#[rustfmt::skip]
const LAST_NIGHT: [Tenant; 8] = [
    Tenant { name: "COLOMBO SARA", tax_code: "CLMSRA05C52F205A", room: "STANZA 1",
        customer: "S0101", number: 101, cents: 41_000 },
    Tenant { name: "FERRARI LUCA", tax_code: "FRRLCU04H15F205B", room: "STANZA 2",
        customer: "S0102", number: 102, cents: 39_500 },
    Tenant { name: "GALLI ANNA", tax_code: "GLLNNA03T60F205C", room: "STANZA 3",
        customer: "S0103", number: 103, cents: 42_000 },
    Tenant { name: "MORETTI PAOLO", tax_code: "MRTPLA05E09F205D", room: "STANZA 4",
        customer: "S0104", number: 104, cents: 36_750 },
    Tenant { name: "RICCI ELENA", tax_code: "RCCLNE04B47F205E", room: "STANZA 5",
        customer: "S0105", number: 105, cents: 41_000 },
    Tenant { name: "CONTI DAVIDE", tax_code: "CNTDVD05S21F205F", room: "STANZA 6",
        customer: "S0106", number: 106, cents: 45_000 },
    Tenant { name: "MARINO CHIARA", tax_code: "MRNCHR06A48F205G", room: "STANZA 7",
        customer: "S0107", number: 107, cents: 38_050 },
    Tenant { name: "GRECO MATTEO", tax_code: "GRCMTT04R03F205H", room: "STANZA 8",
        customer: "S0108", number: 108, cents: 40_000 },
];

/// The tenant who is new tonight, in the room of the one who left.
#[rustfmt::skip]
const NEW_TENANT: Tenant = Tenant {
    name: "LOMBARDI IRENE", tax_code: "LMBRNI05L66F205I", room: "STANZA 3",
    customer: "S0109", number: 109, cents: 42_000,
};

fn header() -> Record {
    let mut record = blank(b"IM");
    put(&mut record, 4, b"AB123");
    put(&mut record, 9, b"01234");
    put(&mut record, 14, b"150326");
    put(&mut record, 20, b"RENT-MARCH");
    put(&mut record, 114, b"E");
    record
}

/// The seven records of a tenant's rent, in a flow of this kind.
fn rent(tenant: &Tenant, kind: FlowKind) -> Vec<Record> {
    let mut opening = blank(b"14");
    put(&mut opening, 23, b"310326");
    kind.put_in(&mut opening);
    write_digits(field_mut(&mut opening, 34, 46), tenant.cents);
    put(&mut opening, 48, b"01234");
    put(&mut opening, 53, b"02400");
    put(&mut opening, 58, b"000000123456");
    put(&mut opening, 92, b"AB123");
    put(&mut opening, 97, b"2");
    put(&mut opening, 98, tenant.customer.as_bytes());
    put(&mut opening, 120, b"E");
    let mut creditor = blank(b"20");
    put(&mut creditor, 11, b"RESIDENZA SAN MARTINO");
    put(&mut creditor, 35, b"VIA DEI COLLEGI 12");
    put(&mut creditor, 59, b"20100 MILANO MI");
    let mut debtor = blank(b"30");
    put(&mut debtor, 11, tenant.name.as_bytes());
    put(&mut debtor, 71, tenant.tax_code.as_bytes());
    let mut address = blank(b"40");
    put(&mut address, 11, b"VIA DEI COLLEGI 12");
    put(&mut address, 41, b"20100");
    put(&mut address, 46, b"MILANO MI");
    put(&mut address, 71, tenant.room.as_bytes());
    let mut detail = blank(b"50");
    put(&mut detail, 11, b"RETTA MARZO 2026");
    let mut reference = blank(b"51");
    write_digits(field_mut(&mut reference, 11, 20), tenant.number);
    vec![
        opening,
        creditor,
        debtor,
        address,
        detail,
        reference,
        blank(b"70"),
    ]
}

/// The two-rent example of document 01.
pub fn two_rents() -> Draft {
    rents(&TENANTS, FlowKind::Requests)
}

/// The same two rents recalled.
fn two_rents_recall() -> Draft {
    rents(&TENANTS, FlowKind::Recalls)
}

/// The first of the two rents alone.
fn one_rent() -> Draft {
    rents(&TENANTS[..1], FlowKind::Requests)
}

/// The rents of these tenants, in a flow of this kind.
fn rents(tenants: &[Tenant], kind: FlowKind) -> Draft {
    let rent = |tenant| rent(tenant, kind);
    Draft {
        header: header(),
        dispositions: tenants.iter().map(rent).collect(),
        trailer: BLANK_RECORD,
    }
}

/// Last night's rents of a small residence. The second has a record 16, the
/// sixth two records 59.
pub fn last_night() -> Draft {
    let mut draft = rents(&LAST_NIGHT, FlowKind::Requests);
    put(&mut draft.header, 14, b"160326");
    put(&mut draft.header, 20, b"RENT-MARCH-16");
    draft.dispositions[1].insert(1, account());
    draft.dispositions[5].splice(4..5, [1, 2].map(detail_line));
    draft
}

/// Tonight's: the third tenant has left, one is new, and the fifth has another
/// amount.
pub fn tonight() -> Draft {
    let mut draft = last_night();
    put(&mut draft.header, 14, b"170326");
    put(&mut draft.header, 20, b"RENT-MARCH-17");
    draft.dispositions.remove(2);
    write_digits(field_mut(&mut draft.dispositions[3][0], 34, 46), 43_550);
    let new = rent(&NEW_TENANT, FlowKind::Requests);
    draft.dispositions.insert(3, new);
    draft
}

/// Forty rents with every optional record and field.
pub fn forty_rents() -> Draft {
    let mut header = header();
    put(&mut header, 40, b"CASE40");
    put(&mut header, 105, b"1$05678");
    Draft {
        header,
        dispositions: (1..=40).map(full_rent).collect(),
        trailer: {
            let mut trailer = BLANK_RECORD;
            put(&mut trailer, 40, b"CASE40");
            trailer
        },
    }
}

/// Rent `index` of forty: 300.00 Euro and 12.50 more for each.
fn full_rent(index: u64) -> Vec<Record> {
    let place = index as usize;
    let customer = format!("S{index:04}");
    let name = format!("STUDENTE {index:02}");
    let mut block = rent(&TENANTS[place % 2], FlowKind::Requests);
    let opening = &mut block[0];
    write_digits(field_mut(opening, 34, 46), 30_000 + 1_250 * index);
    put(opening, 97, &[b" 1234569"[place % 8]]);
    put(opening, 98, customer.as_bytes());
    let debtor = field_mut(&mut block[2], 11, 86);
    debtor.fill(b' ');
    put(&mut block[2], 11, name.as_bytes());
    write_digits(field_mut(&mut block[5], 11, 20), index);
    put(&mut block[6], 94, &[b" PB"[place % 3]]);
    put(&mut block[6], 96, b"NOTTE");
    let details = place % 6;
    if details > 0 {
        block.splice(4..5, (1..=details).map(detail_line));
    }
    if index.is_multiple_of(2) {
        block.insert(1, account());
    }
    block
}

/// Line `index` of a longer description.
pub(crate) fn detail_line(index: usize) -> Record {
    let mut record = blank(b"59");
    let text = format!("RETTA MARZO 2026, VOCE {index}");
    put(&mut record, 11, text.as_bytes());
    put(&mut record, 66, b"AFFITTO, RISCALDAMENTO E PULIZIE");
    record
}

/// The creditor's account, record 16.
pub(crate) fn account() -> Record {
    let mut record = blank(b"16");
    put(&mut record, 11, b"IT60X0123402400000000123456");
    record
}

/// A flow of two rents with some bytes of one record replaced.
fn spoiled(record: usize, position: usize, bytes: &[u8]) -> Vec<u8> {
    let mut records = two_rents().records();
    put(&mut records[record - 1], position, bytes);
    records.concat()
}

/// The two rents, the second of zero cents, with a trailer that agrees.
fn rent_of_nothing() -> Vec<u8> {
    let mut records = two_rents().records();
    put(&mut records[8], 34, b"0000000000000");
    put(&mut records[15], 53, b"000000000045000");
    records.concat()
}

/// The first rent twice, with a trailer that agrees.
fn block_twice() -> Vec<u8> {
    let mut records = two_rents().records();
    let block = records[1..8].to_vec();
    records.splice(8..8, block);
    let trailer = &mut records[22];
    put(trailer, 46, b"0000003");
    put(trailer, 53, b"000000000128050");
    put(trailer, 83, b"0000023");
    records.concat()
}

/// A list of 101 rents of the largest amount.
fn total_above_limit() -> Vec<u8> {
    let mut draft = two_rents();
    let mut block = rent(&TENANTS[0], FlowKind::Requests);
    write_digits(field_mut(&mut block[0], 34, 46), MAX_AMOUNT);
    draft.dispositions = vec![block; 101];
    draft.list()
}

/// Two rents with text where nothing is checked.
fn filled() -> Vec<u8> {
    let mut records = two_rents().records();
    put(&mut records[0], 46, b"FEDERAZIONE DELLE RESIDENZE");
    put(&mut records[1], 70, b"NOTA");
    put(&mut records[15], 115, b"NOTTE");
    records.concat()
}

/// The flow of two rents without its last bytes.
fn cut(bytes: usize) -> Vec<u8> {
    let mut flow = two_rents().flow();
    flow.truncate(flow.len().saturating_sub(bytes));
    flow
}

/// The list of two rents without its last byte.
fn cut_list() -> Vec<u8> {
    let mut list = two_rents().list();
    list.pop();
    list
}

/// One row of the samples: file, use, the file's bytes, what they show, and the
/// answer due.
type Row = (
    &'static str,
    UseAs,
    fn() -> Vec<u8>,
    &'static str,
    &'static str,
);

/// All samples in the order of their table.
pub fn samples() -> Vec<Sample> {
    let rows = [&RIGHT[..], &REFUSED_FLOWS, &REFUSED_LISTS, &REFUSED_CALLS].concat();
    rows.into_iter()
        .map(|(file, use_as, bytes, shows, due)| Sample {
            file,
            bytes: bytes(),
            use_as,
            shows,
            due,
        })
        .collect()
}

use UseAs::{Amended, Flow, List};

#[rustfmt::skip]
const RIGHT: [Row; 10] = [
    ("two-rents.flow", Flow, || two_rents().flow(),
        "two rents, canonical, no record 16, one 50 each",
        "accepted dispositions 2 cents 83050 records 16 kind requests"),
    ("two-rents.list", List(1_920), || two_rents().list(),
        "the request list of two-rents.flow, which it encodes byte for byte",
        "accepted dispositions 2 cents 83050 records 16 kind requests"),
    ("two-rents-recall.flow", Flow, || two_rents_recall().flow(),
        "a recall of the two rents: causale 07100, sign +, the total at 68-82",
        "accepted dispositions 2 cents 83050 records 16 kind recalls"),
    ("two-rents-recall.list", List(1_920), || two_rents_recall().list(),
        "the request list of two-rents-recall.flow: that of two-rents.flow with Q for H",
        "accepted dispositions 2 cents 83050 records 16 kind recalls"),
    ("two-rents-filler.flow", Flow, filled,
        "the two rents with text at positions that are not checked and not carried: not canonical, the same list",
        "accepted dispositions 2 cents 83050 records 16 kind requests"),
    ("one-rent.flow", Flow, || one_rent().flow(),
        "the first of the two rents alone",
        "accepted dispositions 1 cents 45000 records 9 kind requests"),
    ("forty-rents.flow", Flow, || forty_rents().flow(),
        "forty rents, canonical, with 16, one 50 or one to five 59, the header's 105-111, and the company code on all",
        "accepted dispositions 40 cents 2225000 records 368 kind requests"),
    ("forty-rents.list", List(44_160), || forty_rents().list(),
        "the request list of forty-rents.flow",
        "accepted dispositions 40 cents 2225000 records 368 kind requests"),
    ("last-night.flow", Flow, || last_night().flow(),
        "eight rents of a small residence, the evening before tonight.flow",
        "accepted dispositions 8 cents 323300 records 60 kind requests"),
    ("tonight.flow", Flow, || tonight().flow(),
        "the next evening: GALLI ANNA, 3 last night, has left; LOMBARDI IRENE, 4, is new; the rent of RICCI ELENA, 5, is 435.50 and no longer 410.00; MORETTI PAOLO, unchanged, is 3 and no longer 4; the rest is as it was",
        "accepted dispositions 8 cents 325850 records 60 kind requests"),
];

#[rustfmt::skip]
const REFUSED_FLOWS: [Row; 16] = [
    ("refused-01-length.flow", Flow, || cut(1),
        "the last byte is missing", "refused 1 record 0 position 0"),
    ("refused-02-byte.flow", Flow, || spoiled(4, 16, b"\t"),
        "a tab in the debtor's name", "refused 2 record 4 position 16"),
    ("refused-03-type.flow", Flow, || spoiled(7, 2, b"59"),
        "a 59 after a 50", "refused 3 record 7 position 2"),
    ("refused-04-ended.flow", Flow, || cut(RECORD_LEN),
        "the trailer is missing", "refused 4 record 16 position 0"),
    ("refused-05-digits.flow", Flow, || spoiled(2, 34, b"0000000450.00"),
        "an amount with a decimal point", "refused 5 record 2 position 34"),
    ("refused-06-value.flow", Flow, || spoiled(9, 29, b"07008"),
        "the causale of a return flow, neither a request's nor a recall's",
        "refused 6 record 9 position 29"),
    ("refused-07-blank.flow", Flow, || spoiled(11, 11, &[b' '; 30]),
        "no name of the debtor", "refused 7 record 11 position 11"),
    ("refused-08-date.flow", Flow, || spoiled(2, 23, b"290227"),
        "29 February of a common year", "refused 8 record 2 position 23"),
    ("refused-09-block-twice.flow", Flow, block_twice,
        "the first rent stands twice, and the trailer agrees", "refused 9 record 9 position 4"),
    ("refused-10-header.flow", Flow, || spoiled(9, 48, b"01235"),
        "the ABI of a 14 is not the header's", "refused 10 record 9 position 48"),
    ("refused-11-company.flow", Flow, || spoiled(2, 92, b"     "),
        "blanks on the first request and the company code on the second",
        "refused 11 record 9 position 92"),
    ("refused-12-dispositions.flow", Flow, || spoiled(16, 46, b"0000003"),
        "the trailer counts three dispositions", "refused 12 record 16 position 46"),
    ("refused-13-total.flow", Flow, || spoiled(16, 53, b"000000000083051"),
        "the trailer's total is a cent too high", "refused 13 record 16 position 53"),
    ("refused-14-records.flow", Flow, || spoiled(16, 83, b"0000014"),
        "the trailer counts the records without header and trailer",
        "refused 14 record 16 position 83"),
    // 29-33, the amount as it was, and 47.
    ("refused-22-kind.flow", Flow, || spoiled(9, 29, b"071000000000038050+"),
        "a recall after a request", "refused 22 record 9 position 29"),
    ("refused-25-nothing.flow", Flow, rent_of_nothing,
        "the second rent is of zero cents, and the trailer agrees",
        "refused 25 record 9 position 34"),
];

#[rustfmt::skip]
const REFUSED_LISTS: [Row; 4] = [
    ("refused-03-empty.list", List(120), Vec::new,
        "an empty list", "refused 3 record 1 position 2"),
    ("refused-17-total.list", List(85_080), total_above_limit,
        "101 rents of 9,999,999,999,999 cents", "refused 17 record 0 position 0"),
    ("refused-20-item.list", List(1_920), cut_list,
        "the last item is cut short", "refused 20 record 15 position 0"),
    ("two-rents.list", List(1_919), || two_rents().list(),
        "an output one byte too short", "refused 21 record 0 position 0"),
];

#[rustfmt::skip]
const REFUSED_CALLS: [Row; 6] = [
    ("two-rents.flow", Amended(Call::Withdraw { k: 3 }), || two_rents().flow(),
        "there are two dispositions", "refused 15 record 0 position 0"),
    ("two-rents.flow", Amended(Call::Change { k: 1, cents: 10_000_000_000_000 }),
        || two_rents().flow(),
        "an amount of fourteen digits", "refused 16 record 0 position 0"),
    ("two-rents.flow", Amended(Call::Change { k: 2, cents: 0 }), || two_rents().flow(),
        "an amount of nothing", "refused 16 record 0 position 0"),
    ("refused-25-nothing.flow", Amended(Call::Change { k: 2, cents: 38_050 }), rent_of_nothing,
        "a flow with an amount of zero is not amended, not even that amount",
        "refused 25 record 9 position 34"),
    ("refused-25-nothing.flow", Amended(Call::Withdraw { k: 2 }), rent_of_nothing,
        "nor is the disposition with it withdrawn", "refused 25 record 9 position 34"),
    ("one-rent.flow", Amended(Call::Withdraw { k: 1 }), || one_rent().flow(),
        "the only disposition", "refused 18 record 0 position 0"),
];

/// Two samples to be compared, by their files: what is asked of them, what it
/// shows, and the answer due, written by hand.
pub struct Evenings {
    pub old: &'static str,
    pub new: &'static str,
    pub asked: Asked,
    pub shows: &'static str,
    pub due: &'static str,
}

const fn evenings(
    old: &'static str,
    new: &'static str,
    asked: Asked,
    shows: &'static str,
    due: &'static str,
) -> Evenings {
    Evenings {
        old,
        new,
        asked,
        shows,
        due,
    }
}

/// The account in this room.
const fn account_in(room: usize) -> Asked {
    let work = MIN_WORK;
    Asked::Compare { work, room }
}

/// A line of the account.
const fn line_of(n: u64) -> Asked {
    let work = MIN_WORK;
    Asked::Line { work, n }
}

/// The samples to be compared, in the order of their table.
#[rustfmt::skip]
pub const EVENINGS: [Evenings; 10] = [
    evenings("last-night.flow", "tonight.flow", account_in(10),
        "the account from last night to tonight",
        "accepted kept 6 dropped 2 added 2 account KKDKDAAKKK"),
    evenings("last-night.flow", "tonight.flow", line_of(3),
        "GALLI ANNA has left", "D record 17 of last-night.flow"),
    evenings("last-night.flow", "tonight.flow", line_of(4),
        "MORETTI PAOLO is kept", "K record 17 of tonight.flow"),
    evenings("last-night.flow", "tonight.flow", line_of(5),
        "RICCI ELENA with last night's amount", "D record 31 of last-night.flow"),
    evenings("last-night.flow", "tonight.flow", line_of(7),
        "RICCI ELENA with tonight's amount", "A record 31 of tonight.flow"),
    evenings("tonight.flow", "last-night.flow", account_in(10),
        "the way back", "accepted kept 6 dropped 2 added 2 account KKAKDDAKKK"),
    evenings("last-night.flow", "tonight.flow", line_of(11),
        "the account has ten lines", "refused 15 record 0 position 0"),
    evenings("last-night.flow", "tonight.flow", account_in(9),
        "room for nine lines", "refused 21 record 0 position 0"),
    evenings("two-rents.flow", "two-rents-recall.flow", account_in(4),
        "requests against recalls", "refused 28 record 0 position 0"),
    evenings("last-night.flow", "tonight.flow", Asked::Compare { work: MIN_WORK - 1, room: 10 },
        "a working memory one number too short", "refused 34 record 0 position 0"),
];

impl Evenings {
    /// The answer given.
    pub fn answer(&self) -> String {
        let (old, new) = (bytes_of(self.old), bytes_of(self.new));
        match self.asked {
            Asked::Compare { work, room } => {
                let mut account = vec![b'?'; room];
                match compare(&old, &new, &mut vec![0; work], &mut account) {
                    Ok(done) => format!(
                        "accepted kept {} dropped {} added {} account {}",
                        done.kept,
                        done.dropped,
                        done.added,
                        String::from_utf8_lossy(&account[..done.len])
                    ),
                    Err(refusal) => Answer::from(refusal).to_string(),
                }
            }
            Asked::Line { work, n } => match line(&old, &new, &mut vec![0; work], n) {
                Ok(found) => {
                    let file = match found.side {
                        Side::Old => self.old,
                        Side::New => self.new,
                    };
                    let letter = char::from(found.letter);
                    format!("{letter} record {} of {file}", found.record)
                }
                Err(refusal) => Answer::from(refusal).to_string(),
            },
        }
    }
}

/// The bytes of a sample; none if there is no such file.
fn bytes_of(file: &str) -> Vec<u8> {
    let sample = samples().into_iter().find(|sample| sample.file == file);
    sample.map(|sample| sample.bytes).unwrap_or_default()
}

/// The table of samples, as Markdown.
pub fn table(samples: &[Sample]) -> String {
    let mut text = String::from(
        "# Samples\n\n\
         Files ending in `.flow` are flows to be read, files ending in `.list` are request\n\
         lists to be written to an output of the length given. A row that names a call\n\
         is about that call on the flow. The rules are those of document 01 and of\n\
         requests E1, E4, E5 and E7 of document 02. The files are written by `oracle sample`.\n\n\
         | file | what it shows | answer due |\n|---|---|---|\n",
    );
    for sample in samples {
        let (file, shows, due) = (sample.file, sample.shows, sample.due);
        let used = match sample.use_as {
            UseAs::Flow => String::new(),
            UseAs::List(room) => format!(", room {room}"),
            UseAs::Amended(Call::Change { k, cents }) => {
                format!(", change of {k} to {cents} cents")
            }
            UseAs::Amended(Call::Withdraw { k }) => format!(", withdrawal of {k}"),
        };
        let _ = writeln!(text, "| `{file}`{used} | {shows} | `{due}` |");
    }
    text.push_str(
        "\n## Two evenings\n\n\
         Two flows are compared, the old one first. The working memory is of 66,049 numbers\n\
         where nothing else is said.\n\n\
         | files | asked | what it shows | answer due |\n|---|---|---|---|\n",
    );
    for evenings in &EVENINGS {
        let Evenings {
            old,
            new,
            asked,
            shows,
            due,
        } = evenings;
        let asked = match asked {
            Asked::Compare { work, room } if *work == MIN_WORK => format!("account, room {room}"),
            Asked::Compare { work, room } => {
                format!("account, room {room}, working memory {work}")
            }
            Asked::Line { n, .. } => format!("line {n}"),
        };
        let _ = writeln!(text, "| `{old}`, `{new}` | {asked} | {shows} | `{due}` |");
    }
    text
}

/// Writes all samples and their table to a directory.
pub fn write(dir: &Path) -> io::Result<()> {
    let samples = samples();
    fs::create_dir_all(dir)?;
    for sample in &samples {
        fs::write(dir.join(sample.file), &sample.bytes)?;
    }
    fs::write(dir.join("README.md"), table(&samples))
}
