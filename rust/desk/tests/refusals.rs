//! Every refusal number of documents 01 and 02 as a clerk sees it: its sentence, the record it speaks of, and the
//! mark under the position. The places are those of samples/README.md, and the records are drawn here from
//! the bytes of the samples. Whatever is refused leaves every file as it was.

mod common;

use std::fs;

use common::{
    amended, change, drawn, flow_of, left, record, sample, samples, Folder, DATE, NAME, RULER_1,
    RULER_2,
};
use oracle::answer::Answer;
use oracle::list::write_flow;
use oracle::FlowKind;

/// A sample that is a refused flow.
struct Refused {
    file: &'static str,
    number: u64,
    /// The record and the position, as the table of samples has them.
    at: (usize, usize),
    sentence: &'static str,
    /// What stands from the marked position on, as it is shown.
    field: &'static str,
}

const fn refused(
    file: &'static str,
    number: u64,
    at: (usize, usize),
    sentence: &'static str,
    field: &'static str,
) -> Refused {
    Refused {
        file,
        number,
        at,
        sentence,
        field,
    }
}

/// The samples whose refusal marks a position.
const MARKED: [Refused; 14] = [
    refused(
        "refused-02-byte.flow",
        2,
        (4, 16),
        "this character is not a plain letter, digit, sign or blank",
        "?GIULIA ",
    ),
    refused(
        "refused-03-type.flow",
        3,
        (7, 2),
        "a record of this type may not stand here",
        "590000001",
    ),
    refused(
        "refused-05-digits.flow",
        5,
        (2, 34),
        "this field holds something other than digits",
        "0000000450.00-",
    ),
    refused(
        "refused-06-value.flow",
        6,
        (9, 29),
        "the value of this field is not one of those permitted",
        "07008",
    ),
    refused(
        "refused-07-blank.flow",
        7,
        (11, 11),
        "this field must be filled in and is blank",
        "                              ",
    ),
    refused(
        "refused-08-date.flow",
        8,
        (2, 23),
        "the digits of this field are not a date of the calendar",
        "29022707000",
    ),
    refused(
        "refused-09-block-twice.flow",
        9,
        (9, 4),
        "the disposition number is not the one due here",
        "0000001 ",
    ),
    refused(
        "refused-10-header.flow",
        10,
        (9, 48),
        "this field differs from the header",
        "01235",
    ),
    refused(
        "refused-11-company.flow",
        11,
        (9, 92),
        "the company code differs from that of the first disposition",
        "AB123",
    ),
    refused(
        "refused-12-dispositions.flow",
        12,
        (16, 46),
        "the trailer's count of dispositions is wrong",
        "0000003",
    ),
    refused(
        "refused-13-total.flow",
        13,
        (16, 53),
        "this total of the trailer is wrong",
        "00000000",
    ),
    refused(
        "refused-14-records.flow",
        14,
        (16, 83),
        "the trailer's count of records is wrong",
        "0000014 ",
    ),
    refused(
        "refused-22-kind.flow",
        22,
        (9, 29),
        "a request and a recall may not share a flow, and the first one was of the other kind",
        "07100",
    ),
    refused(
        "refused-25-nothing.flow",
        25,
        (9, 34),
        "this amount is zero, and every amount must be above zero",
        "0000000000000-",
    ),
];

/// The refusal of the flow whose last byte is missing, after its name.
const LENGTH: &str = "\
refused 1: the flow is empty, is not whole records of 120 bytes, or is too long.
It has 1.919 bytes: 15 records, and 119 bytes more.
";

/// The refusal of the flow whose trailer is missing, after its name.
const ENDED: &str = "\
refused 4 at record 16: the flow ends where one more record is due.
Record 15, the last one:
   ----+----1----+----2----+----3----+----4----+----5----+----6
  | 700000002                                                  |
   ----+----7----+----8----+----9----+---10----+---11----+---12
  |                                                            |
";

impl Refused {
    /// The number and the place.
    fn place(&self) -> String {
        let (record, position) = self.at;
        let number = self.number;
        format!("refused {number} at record {record}, position {position}")
    }

    /// All that is told of it after the flow's name.
    fn told(&self) -> String {
        let flow = sample(self.file);
        let (number, position) = self.at;
        let note = match self.number {
            2 => "The byte at 16 is 9 (hexadecimal 09), shown as ?.\n",
            11 => "At 92-96 it has \"AB123\", and record 2, the first of its type, has blanks.\n",
            _ => "",
        };
        format!(
            "{}: {}.\nRecord {number} of {}:\n{}{note}",
            self.place(),
            self.sentence,
            flow.len() / 120,
            drawn(record(&flow, number), position),
        )
    }
}

/// Every sample that is a refused flow: its place, and all that is told of it after its name.
fn flows() -> Vec<(&'static str, String, String)> {
    let mut flows: Vec<_> = MARKED
        .iter()
        .map(|row| (row.file, row.place(), row.told()))
        .collect();
    let ended = "refused 4 at record 16".to_owned();
    flows.push((
        "refused-01-length.flow",
        "refused 1".to_owned(),
        LENGTH.to_owned(),
    ));
    flows.push(("refused-04-ended.flow", ended, ENDED.to_owned()));
    flows
}

/// The folder has this file of these bytes, and no other file.
#[track_caller]
fn untouched(folder: &Folder, name: &str, bytes: &[u8]) {
    left(folder, &[(name, bytes)]);
}

/// A folder with a file of these bytes.
fn folder_of(name: &str, bytes: &[u8]) -> Folder {
    let folder = Folder::new();
    fs::write(folder.path(name), bytes).unwrap();
    folder
}

/// The parts of two-rents.list: its item H, and the items of each rent.
fn rents() -> [Vec<u8>; 3] {
    let list = sample("two-rents.list");
    assert_eq!(list.len(), 50 + 2 * 593);
    [&list[..50], &list[50..643], &list[643..]].map(<[u8]>::to_vec)
}

/// A flow of 101 requests whose total is the largest that there is: a hundred times the largest amount, and
/// 99 cents.
fn full_flow() -> Vec<u8> {
    let mut list = sample("refused-17-total.list");
    // The last request's item D: its kind and its date stand before its amount.
    let amount = list.len() - 593 + 7;
    assert_eq!(&list[amount..amount + 13], b"9999999999999");
    list[amount..amount + 13].copy_from_slice(b"0000000000099");
    let mut flow = vec![0; 120 * (2 + 101 * 7)];
    let (answer, length) = write_flow(&list, &mut flow);
    assert_eq!(
        (answer, length),
        (
            Answer::Accepted {
                dispositions: 101,
                cents: 999_999_999_999_999,
                records: 709,
                kind: FlowKind::Requests,
            },
            flow.len()
        )
    );
    flow
}

#[test]
fn check_shows_every_refused_flow_with_its_record() {
    for (file, place, told) in flows() {
        let folder = Folder::with(&[file]);
        let ended = folder.run(&["check", file]);
        let width = file.len();
        let due = format!(
            "{:width$}   KIND         COUNT                 TOTAL    RECORDS\n\
             {file}   {place}\n\n\
             0 flows accepted: 0 requests, 0,00 euro. 1 refused.\n\n\
             {file}: {told}",
            "FLOW"
        );
        assert_eq!(ended.out, due);
        assert_eq!(ended.err, "");
        assert_eq!(ended.status, Some(1));
        untouched(&folder, file, &sample(file));
    }
}

/// The samples that are accepted flows, with the numbers of the table of samples.
const ACCEPTED: [(&str, &str); 5] = [
    (
        "two-rents.flow",
        "   requests         2                830,50         16",
    ),
    (
        "two-rents-recall.flow",
        "   recalls          2                830,50         16",
    ),
    (
        "two-rents-filler.flow",
        "   requests         2                830,50         16",
    ),
    (
        "one-rent.flow",
        "   requests         1                450,00          9",
    ),
    (
        "forty-rents.flow",
        "   requests        40             22.250,00        368",
    ),
];

#[test]
fn every_flow_of_a_folder_is_judged_once() {
    let folder = Folder::new();
    fs::create_dir(folder.path("night")).unwrap();
    let mut samples: Vec<(&str, String, String)> = Vec::new();
    samples.extend(ACCEPTED.map(|(file, numbers)| (file, numbers.to_owned(), String::new())));
    for (file, place, told) in flows() {
        samples.push((file, format!("   {place}"), told));
    }
    assert_eq!(samples.len(), 21);
    let flow = |index: usize| (format!("night/house-{index:02}.flow"), &samples[index % 21]);
    // The files are not made in the order of their names.
    for index in (0..42).map(|index| index * 5 % 42) {
        let (name, (from, ..)) = flow(index);
        fs::write(folder.path(&name), sample(from)).unwrap();
    }
    let mut rows = String::new();
    let mut pictures = String::new();
    for (name, (_, verdict, told)) in (0..42).map(flow) {
        rows += &format!("{name}{verdict}\n");
        if !told.is_empty() {
            pictures += &format!("\n{name}: {told}");
        }
    }
    // 42 flows are the 21 samples twice: twice 45 requests and 24.361,00 euro, and twice the two rents
    // recalled.
    let ended = folder.run(&["check", "night"]);
    assert_eq!(
        ended.out,
        format!(
            "FLOW                  KIND         COUNT                 TOTAL    RECORDS\n{rows}\n\
             10 flows accepted: 90 requests, 48.722,00 euro; 4 recalls, 1.661,00 euro. 32 refused.\n\
             {pictures}"
        )
    );
    assert_eq!(ended.err, "");
    assert_eq!(ended.status, Some(1));
}

#[test]
fn every_other_command_refuses_a_refused_flow_in_the_same_words_and_changes_nothing() {
    for (file, _, told) in flows() {
        let folder = Folder::with(&[file]);
        for words in [
            &["show", file][..],
            &["show", file, "--find", "rossi"],
            &["show", file, "1"],
            // What else is wrong with the words comes after the flow's own refusal.
            &["show", file, "99"],
            &["amount", "--yes", file, "1", "400"],
            &["amount", "--yes", file, "99", "100000000000,00"],
            &["withdraw", "--yes", file, "1"],
            &["withdraw", "--yes", file, "1", "2"],
            &["list", "--yes", file, "new.list"],
            &["recall", "--yes", NAME, DATE, file, "new.flow", "1"],
            &["recall", "--yes", NAME, DATE, file, "new.flow", "99"],
        ] {
            folder
                .run(words)
                .failed(1, &format!("mavdesk: {file}: {told}"));
            untouched(&folder, file, &sample(file));
        }
    }
}

#[test]
fn the_mark_stands_exactly_under_the_byte_at_the_position() {
    for row in &MARKED {
        let folder = Folder::with(&[row.file]);
        let told = folder.run(&["show", row.file]).err;
        let lines: Vec<&str> = told.lines().collect();
        let marked = lines.iter().position(|line| line.contains('^')).unwrap();
        let (number, position) = row.at;
        assert_eq!(lines[marked].trim(), format!("^ {position}"), "{told}");
        let column = lines[marked].find('^').unwrap();
        // Over the mark stands the field, and over that the ruler of its half of the record.
        assert!(lines[marked - 1][column..].starts_with(row.field), "{told}");
        let byte = record(&sample(row.file), number)[position - 1];
        assert!(byte == b'\t' || row.field.starts_with(char::from(byte)));
        let ruler = if position > 60 { RULER_2 } else { RULER_1 };
        assert_eq!(lines[marked - 2], ruler, "{told}");
        // After the three columns before each row, the column is the position within its half.
        assert_eq!(column, 3 + (position - 1) % 60, "{told}");
    }
}

#[test]
fn number_1_tells_the_length() {
    let flow = sample("two-rents.flow");
    for (length, told) in [
        (0, "It has 0 bytes: 0 records, and 0 bytes more.\n"),
        (1, "It has 1 byte: 0 records, and 1 byte more.\n"),
        (241, "It has 241 bytes: 2 records, and 1 byte more.\n"),
        (
            1_919,
            "It has 1.919 bytes: 15 records, and 119 bytes more.\n",
        ),
    ] {
        let folder = folder_of("cut.flow", &flow[..length]);
        folder.run(&["show", "cut.flow"]).failed(
            1,
            &format!(
                "mavdesk: cut.flow: refused 1: the flow is empty, is not whole records of 120 bytes, \
                 or is too long.\n{told}"
            ),
        );
        untouched(&folder, "cut.flow", &flow[..length]);
    }
}

#[test]
fn number_2_tells_the_byte_and_never_prints_it() {
    for (byte, told) in [
        (0, "0 (hexadecimal 00)"),
        (10, "10 (hexadecimal 0A)"),
        (27, "27 (hexadecimal 1B)"),
        (31, "31 (hexadecimal 1F)"),
        (127, "127 (hexadecimal 7F)"),
        (155, "155 (hexadecimal 9B)"),
        (224, "224 (hexadecimal E0)"),
        (255, "255 (hexadecimal FF)"),
    ] {
        let mut flow = sample("two-rents.flow");
        // The last byte of the flow.
        flow[1_919] = byte;
        let folder = folder_of("a.flow", &flow);
        folder.run(&["show", "a.flow"]).failed(
            1,
            &format!(
                "\
mavdesk: a.flow: refused 2 at record 16, position 120: this character is not a plain letter, digit, sign or blank.
Record 16 of 16:
   ----+----1----+----2----+----3----+----4----+----5----+----6
  | EFAB12301234150326RENT-MARCH                000000200000000|
   ----+----7----+----8----+----9----+---10----+---11----+---12
  |00830500000000000000000000016                        E     ?|
                                                              ^ 120
The byte at 120 is {told}, shown as ?.
"
            ),
        );
    }
}

#[test]
fn number_3_marks_the_trailer_of_a_flow_without_requests() {
    // Document 01, example 6: IM, then EF.
    let flow = sample("two-rents.flow");
    let folder = folder_of("a.flow", &[record(&flow, 1), record(&flow, 16)].concat());
    folder.run(&["show", "a.flow"]).failed(
        1,
        &format!(
            "mavdesk: a.flow: refused 3 at record 2, position 2: a record of this type may not stand here.\n\
             Record 2 of 2:\n{}",
            drawn(record(&flow, 16), 2)
        ),
    );
}

#[test]
fn number_3_marks_the_sixth_record_59() {
    // Document 01, example 8. Request 5 of forty-rents.flow has five records 59, the last of them record 46.
    let mut flow = sample("forty-rents.flow");
    let last = record(&flow, 46).to_vec();
    assert_eq!(&last[1..10], b"590000005");
    flow.splice(120 * 46..120 * 46, last.iter().copied());
    let folder = folder_of("a.flow", &flow);
    folder.run(&["show", "a.flow"]).failed(
        1,
        &format!(
            "mavdesk: a.flow: refused 3 at record 47, position 2: a record of this type may not stand here.\n\
             Record 47 of 369:\n{}",
            drawn(&last, 2)
        ),
    );
}

#[test]
fn number_4_shows_the_header_where_there_is_nothing_else() {
    // Document 01, example 5.
    let flow = sample("two-rents.flow");
    let folder = folder_of("a.flow", record(&flow, 1));
    folder.run(&["show", "a.flow"]).failed(
        1,
        &format!(
            "mavdesk: a.flow: refused 4 at record 2: the flow ends where one more record is due.\n\
             Record 1, the last one:\n{}",
            drawn(record(&flow, 1), 0)
        ),
    );
}

#[test]
fn a_leap_day_is_refused_by_8_in_a_common_year_only() {
    // Document 01, example 7: the date of the first request.
    let mut flow = sample("refused-08-date.flow");
    assert_eq!(&flow[142..148], b"290227");
    flow[147] = b'8';
    let folder = folder_of("a.flow", &flow);
    folder.run(&["show", "a.flow", "--find", "rossi"]).printed(
        "\
a.flow: requests of AB123, 15/03/2026, RENT-MARCH

 NUMBER  DUE                   AMOUNT  DEBTOR                         REFERENCE
      1  29/02/2028            450,00  ROSSI GIULIA                   0000000017

1 of 2 requests, 450,00 euro.
",
    );
}

#[test]
fn number_13_marks_the_second_total_too() {
    let mut flow = sample("two-rents.flow");
    flow[15 * 120 + 81] = b'1';
    let folder = folder_of("a.flow", &flow);
    folder.run(&["show", "a.flow"]).failed(
        1,
        &format!(
            "mavdesk: a.flow: refused 13 at record 16, position 68: this total of the trailer is wrong.\n\
             Record 16 of 16:\n{}",
            drawn(record(&flow, 16), 68)
        ),
    );
}

#[test]
fn number_15_tells_which_requests_there_are() {
    let folder = Folder::with(&["two-rents.flow"]);
    for (words, k) in [
        (&["withdraw", "two-rents.flow", "3"][..], 3),
        (&["withdraw", "two-rents.flow", "0"], 0),
        (&["withdraw", "--yes", "two-rents.flow", "1", "3"], 3),
        (&["withdraw", "--yes", "two-rents.flow", "0", "3"], 3),
        (&["withdraw", "--yes", "two-rents.flow", "0", "2"], 0),
        (&["amount", "two-rents.flow", "3", "400"], 3),
        (&["amount", "--yes", "two-rents.flow", "0", "400"], 0),
        // 15 comes before 16.
        (
            &["amount", "--yes", "two-rents.flow", "3", "100000000000"],
            3,
        ),
    ] {
        folder.answer(words, "y\n").failed(
            1,
            &format!(
                "mavdesk: request {k} of two-rents.flow: refused 15: the flow has no disposition of that \
                 number; it has the requests 1 to 2; nothing was changed.\n"
            ),
        );
        untouched(&folder, "two-rents.flow", &sample("two-rents.flow"));
    }
}

#[test]
fn number_15_is_given_where_a_request_is_to_be_shown() {
    let folder = Folder::with(&["two-rents.flow"]);
    for k in ["0", "3", "10000000", "18446744073709551615"] {
        folder.run(&["show", "two-rents.flow", k]).failed(
            1,
            &format!(
                "mavdesk: request {k} of two-rents.flow: refused 15: the flow has no disposition of that \
                 number; it has the requests 1 to 2.\n"
            ),
        );
    }
    let folder = Folder::with(&["one-rent.flow"]);
    folder.run(&["show", "one-rent.flow", "2"]).failed(
        1,
        "mavdesk: request 2 of one-rent.flow: refused 15: the flow has no disposition of that number; it \
         has request 1 alone.\n",
    );
}

#[test]
fn number_16_is_given_above_the_largest_amount() {
    let folder = Folder::with(&["two-rents.flow"]);
    for euros in [
        "100000000000",
        "100000000000,00",
        "184467440737095516.16",
        "999999999999999999999999999999",
    ] {
        folder.answer(&["amount", "two-rents.flow", "1", euros], "y\n").failed(
            1,
            "mavdesk: request 1 of two-rents.flow: refused 16: the new amount must be above zero and \
             have at most 13 digits in cents; nothing was changed.\n",
        );
        untouched(&folder, "two-rents.flow", &sample("two-rents.flow"));
    }
}

#[test]
fn number_16_is_given_for_an_amount_of_zero_and_15_before_it() {
    for (name, one) in [
        ("two-rents.flow", "request"),
        ("two-rents-recall.flow", "recall"),
    ] {
        let folder = Folder::with(&[name]);
        for (k, euros) in [("1", "0"), ("2", "0,00"), ("2", "0.00")] {
            for words in [&["amount"][..], &["amount", "--yes"]] {
                let words = [words, &[name, k, euros]].concat();
                folder.answer(&words, "y\n").failed(
                    1,
                    &format!(
                        "mavdesk: {one} {k} of {name}: refused 16: the new amount must be above zero and \
                         have at most 13 digits in cents; withdraw the {one} instead; nothing was \
                         changed.\n"
                    ),
                );
                untouched(&folder, name, &sample(name));
            }
        }
        folder.run(&["amount", "--yes", name, "3", "0"]).failed(
            1,
            &format!(
                "mavdesk: {one} 3 of {name}: refused 15: the flow has no disposition of that number; it \
                 has the {one}s 1 to 2; nothing was changed.\n"
            ),
        );
        untouched(&folder, name, &sample(name));
    }
}

#[test]
fn an_amount_of_zero_for_the_only_request_is_not_told_to_be_withdrawn() {
    let folder = Folder::with(&["one-rent.flow"]);
    folder.run(&["amount", "--yes", "one-rent.flow", "1", "0"]).failed(
        1,
        "mavdesk: request 1 of one-rent.flow: refused 16: the new amount must be above zero and have at \
         most 13 digits in cents; keep the flow back instead; nothing was changed.\n",
    );
    untouched(&folder, "one-rent.flow", &sample("one-rent.flow"));
}

#[test]
fn number_17_is_given_by_an_amount_one_cent_above_the_largest_total() {
    let flow = full_flow();
    let folder = folder_of("full.flow", &flow);
    for (k, euros) in [("101", "1,00"), ("101", "99999999999,99")] {
        folder.answer(&["amount", "full.flow", k, euros], "y\n").failed(
            1,
            "mavdesk: request 101 of full.flow: refused 17: the total would have more than 15 digits in \
             cents; nothing was changed.\n",
        );
        untouched(&folder, "full.flow", &flow);
    }
    // One cent less is saved.
    let less = amended(&flow, &[change(101, 98)]);
    folder
        .run(&["amount", "--yes", "full.flow", "101", "0,98"])
        .printed(
            "\
full.flow: Request 101, due 31/03/2026, ROSSI GIULIA, reference 0000000017

                                          BEFORE                   AFTER
request 101, amount                         0,99                    0,98
trailer, requests                            101                     101
trailer, total              9.999.999.999.999,99    9.999.999.999.999,98
trailer, records                             709                     709

Saved. The flow as it was is kept as full.flow.before.
",
        );
    assert_eq!(folder.names(), ["full.flow", "full.flow.before"]);
    assert!(folder.read("full.flow") == less);
    assert!(folder.read("full.flow.before") == flow);
}

#[test]
fn number_17_is_given_by_a_list() {
    let file = "refused-17-total.list";
    let folder = Folder::with(&[file]);
    folder.run(&["write", "--yes", file, "new.flow"]).failed(
        1,
        "mavdesk: refused-17-total.list: refused 17: the total would have more than 15 digits in cents.\n",
    );
    untouched(&folder, file, &sample(file));
}

#[test]
fn number_18_is_given_where_the_only_request_is_to_go() {
    let folder = Folder::with(&["one-rent.flow"]);
    folder.answer(&["withdraw", "one-rent.flow", "1"], "y\n").failed(
        1,
        "mavdesk: request 1 of one-rent.flow: refused 18: the only disposition of a flow cannot be \
         withdrawn; nothing was changed.\n",
    );
    untouched(&folder, "one-rent.flow", &sample("one-rent.flow"));
}

#[test]
fn number_18_is_given_where_all_requests_are_to_go() {
    let folder = Folder::with(&["two-rents.flow"]);
    for numbers in [["1", "2"], ["2", "1"]] {
        let words = [&["withdraw", "--yes", "two-rents.flow"], &numbers[..]].concat();
        folder.run(&words).failed(
            1,
            "mavdesk: request 1 of two-rents.flow: refused 18: the only disposition of a flow cannot be \
             withdrawn; all that it has are named; nothing was changed.\n",
        );
        untouched(&folder, "two-rents.flow", &sample("two-rents.flow"));
    }
}

/// Writes a list that is refused, to a new file and over one that is there, and compares what is told
/// after its name.
#[track_caller]
fn refused_list(list: &[u8], told: &str) {
    let folder = folder_of("a.list", list);
    let due = format!("mavdesk: a.list: {told}");
    folder.run(&["write", "a.list", "new.flow"]).failed(1, &due);
    untouched(&folder, "a.list", list);
    fs::write(folder.path("new.flow"), b"an older file").unwrap();
    folder
        .run(&["write", "--yes", "a.list", "new.flow"])
        .failed(1, &due);
    assert_eq!(folder.names(), ["a.list", "new.flow"]);
    assert!(folder.read("a.list") == list);
    assert_eq!(folder.read("new.flow"), b"an older file");
}

#[test]
fn number_3_is_given_by_a_list_that_ends_where_no_flow_may() {
    let [head, first, _] = rents();
    refused_list(
        &sample("refused-03-empty.list"),
        "refused 3 at record 1, position 2: a record of this type may not stand here.\n\
         The list has 0 items, and a flow may not end there.\n",
    );
    refused_list(
        &head,
        "refused 3 at record 2, position 2: a record of this type may not stand here.\n\
         The list has 1 item, and a flow may not end there.\n",
    );
    // A second H, which is shown with the type of its record at 2-3.
    refused_list(
        &[&head[..], &head].concat(),
        "\
refused 3 at record 2, position 2: a record of this type may not stand here.
Item 2, kind H, at the positions of its record IM:
   ----+----1----+----2----+----3----+----4----+----5----+----6
  | IMAB12301234150326RENT-MARCH                               |
    ^ 2
   ----+----7----+----8----+----9----+---10----+---11----+---12
  |                                                            |
",
    );
    // Without its last item Z, of 27 bytes.
    refused_list(
        &[&head, &first[..593 - 27]].concat(),
        "refused 3 at record 8, position 2: a record of this type may not stand here.\n\
         The list has 7 items, and a flow may not end there.\n",
    );
}

#[test]
fn number_8_is_shown_at_the_positions_of_the_record_of_an_item() {
    let [head, first, mut second] = rents();
    assert_eq!(&second[..7], b"D310326");
    second[1..7].copy_from_slice(b"290227");
    // Of record 14 the item has 23-28, 34-46, 53-69 and 92-113.
    refused_list(
        &[head, first, second].concat(),
        "\
refused 8 at record 9, position 23: the digits of this field are not a date of the calendar.
Item 9, kind D, at the positions of its record 14:
   ----+----1----+----2----+----3----+----4----+----5----+----6
  | 14                   290227     0000000038050      02400000|
                         ^ 23
   ----+----7----+----8----+----9----+---10----+---11----+---12
  |000123456                      AB1232S0023                  |
",
    );
}

/// Both codes are told as they stand, with their blanks, of requests and of recalls.
#[test]
fn number_11_tells_both_codes() {
    for (file, first, second, told) in [
        (
            "two-rents.flow",
            b"AB123",
            b"     ",
            ["\"AB123\"", "blanks"],
        ),
        (
            "two-rents-recall.flow",
            b" A 3 ",
            b"AB123",
            ["\" A 3 \"", "\"AB123\""],
        ),
        (
            "two-rents.flow",
            b"     ",
            b"    1",
            ["blanks", "\"    1\""],
        ),
    ] {
        let [first_told, second_told] = told;
        let mut flow = sample(file);
        flow[120 + 91..120 + 96].copy_from_slice(first);
        flow[8 * 120 + 91..8 * 120 + 96].copy_from_slice(second);
        let folder = folder_of("a.flow", &flow);
        folder.run(&["show", "a.flow"]).failed(
            1,
            &format!(
                "mavdesk: a.flow: refused 11 at record 9, position 92: \
                 the company code differs from that of the first disposition.\n\
                 Record 9 of 16:\n{}At 92-96 it has {second_told}, and record 2, the first of its type, \
                 has {first_told}.\n",
                drawn(record(&flow, 9), 92)
            ),
        );
        untouched(&folder, "a.flow", &flow);
    }
}

#[test]
fn number_11_is_marked_in_the_second_half_of_an_item() {
    // A list of requests, and one of recalls whose first code is blank.
    for (letter, code, told) in [(b'H', b"AB123", "\"AB123\""), (b'Q', b"     ", "blanks")] {
        let [mut head, mut first, mut second] = rents();
        head[0] = letter;
        // Before 92-96 stand the kind and 6, 13 and 17 bytes.
        assert_eq!(&second[37..42], b"AB123");
        first[37..42].copy_from_slice(code);
        second[41] = b'4';
        refused_list(
            &[head, first, second].concat(),
            &format!(
                "\
refused 11 at record 9, position 92: the company code differs from that of the first disposition.
Item 9, kind D, at the positions of its record 14:
   ----+----1----+----2----+----3----+----4----+----5----+----6
  | 14                   310326     0000000038050      02400000|
   ----+----7----+----8----+----9----+---10----+---11----+---12
  |000123456                      AB1242S0023                  |
                                  ^ 92
At 92-96 it has \"AB124\", and item 2, the first of its kind, has {told}.
"
            ),
        );
    }
}

#[test]
fn number_2_tells_the_byte_of_an_item() {
    let [head, mut first, second] = rents();
    // Item B, after the items D of 59 bytes and C of 97: the name begins after its kind.
    assert_eq!(&first[156..169], b"BROSSI GIULIA");
    first[161] = 0xE8;
    refused_list(
        &[head, first, second].concat(),
        "\
refused 2 at record 4, position 15: this character is not a plain letter, digit, sign or blank.
Item 4, kind B, at the positions of its record 30:
   ----+----1----+----2----+----3----+----4----+----5----+----6
  | 30       ROSS? GIULIA                                      |
                 ^ 15
   ----+----7----+----8----+----9----+---10----+---11----+---12
  |          RSSGLI05A41F205X                                  |
The byte at 15 is 232 (hexadecimal E8), shown as ?.
",
    );
}

#[test]
fn number_7_marks_the_head_of_a_list() {
    let [mut head, first, second] = rents();
    head[1..6].fill(b' ');
    refused_list(
        &[head, first, second].concat(),
        "\
refused 7 at record 1, position 4: this field must be filled in and is blank.
Item 1, kind H, at the positions of its record IM:
   ----+----1----+----2----+----3----+----4----+----5----+----6
  | IM     01234150326RENT-MARCH                               |
      ^ 4
   ----+----7----+----8----+----9----+---10----+---11----+---12
  |                                                            |
",
    );
}

#[test]
fn number_20_shows_what_is_left_of_a_list_that_is_cut_short() {
    // The 15 items have 1,236 bytes, and the last of them 27.
    refused_list(
        &sample("refused-20-item.list"),
        "\
refused 20 at item 15: the list's item of that number is of an unknown kind or is cut short.
Item 15 begins at byte 1.210 of the list, and from there it has 26 bytes:
  |Z                         |
",
    );
}

#[test]
fn number_20_shows_an_item_of_unknown_kind() {
    let list = sample("two-rents.list");
    refused_list(
        &[&list[..], b"\x1bq"].concat(),
        "\
refused 20 at item 16: the list's item of that number is of an unknown kind or is cut short.
Item 16 begins at byte 1.237 of the list, and from there it has 2 bytes:
  |?q|
",
    );
}

#[test]
fn a_flow_is_no_list_and_a_list_is_no_flow() {
    let flow = sample("two-rents.flow");
    let first = String::from_utf8(flow[..60].to_vec()).unwrap();
    refused_list(
        &flow,
        &format!(
            "refused 20 at item 1: the list's item of that number is of an unknown kind or is cut short.\n\
             Item 1 begins at byte 1 of the list, and from there it has 1.920 bytes:\n  |{first}|\n"
        ),
    );
    let folder = Folder::with(&["two-rents.list"]);
    folder.run(&["list", "two-rents.list", "new"]).failed(
        1,
        "mavdesk: two-rents.list: refused 1: the flow is empty, is not whole records of 120 bytes, or is too \
         long.\nIt has 1.236 bytes: 10 records, and 36 bytes more.\n",
    );
    untouched(&folder, "two-rents.list", &sample("two-rents.list"));
}

#[test]
fn number_21_is_only_explained() {
    let folder = Folder::with(&["two-rents.list"]);
    folder.run(&["explain", "21"]).printed(
        "21  there is not enough room for what is to be written\n\
         \x20   Place: none.\n\
         \x20   Programs that use the library see it. mavdesk makes the room.\n",
    );
    // An output of 1,919 bytes is refused by 21; the command makes 1,920.
    let ended = folder.run(&["write", "two-rents.list", "new.flow"]);
    ended.printed("new.flow: 2 requests, 830,50 euro\nSaved.\n");
    assert_eq!(folder.names(), ["new.flow", "two-rents.list"]);
    assert!(folder.read("new.flow") == sample("two-rents.flow"));
}

#[test]
fn every_number_but_21_and_34_is_reached_with_the_sentence_that_explains_it() {
    let full = full_flow();
    let [head, first, _] = rents();
    let many = flow_of(&[head, first.repeat(257)].concat());
    let mut cases: Vec<(u64, Vec<String>)> = MARKED
        .iter()
        .map(|row| (row.number, vec!["show".into(), row.file.into()]))
        .collect();
    for (number, words) in [
        (1, "show refused-01-length.flow"),
        (4, "show refused-04-ended.flow"),
        (15, "withdraw two-rents.flow 3"),
        (16, "amount two-rents.flow 1 100000000000"),
        (17, "amount full.flow 101 1"),
        (18, "withdraw one-rent.flow 1"),
        (20, "write refused-20-item.list new.flow"),
        (27, "diff two-rents.flow many.flow"),
        (28, "diff two-rents.flow two-rents-recall.flow"),
    ] {
        cases.push((number, words.split(' ').map(str::to_owned).collect()));
    }
    cases.sort();
    let numbers: Vec<u64> = cases.iter().map(|(number, _)| *number).collect();
    let due: Vec<u64> = (1..=18).chain([20, 22, 25, 27, 28]).collect();
    assert_eq!(numbers, due);
    for (number, words) in cases {
        let folder = folder_of("full.flow", &full);
        fs::write(folder.path("many.flow"), &many).unwrap();
        for name in words.iter().filter(|word| samples().join(word).is_file()) {
            fs::write(folder.path(name), sample(name)).unwrap();
        }
        let explained = folder.run(&["explain", &number.to_string()]).out;
        let sentence = explained.lines().next().unwrap()[4..].to_owned();
        let ended = folder.run(&words);
        let told = ended.err.lines().next().unwrap();
        let (_, behind) = told.split_once(&format!(": refused {number}")).unwrap();
        assert!(behind.contains(&format!(": {sentence}")), "{told}");
        assert_eq!(ended.out, "");
        // Of a comparison 1 says that the flows differ.
        let status = if words[0] == "diff" { 2 } else { 1 };
        assert_eq!(ended.status, Some(status));
    }
}
