//! The cases of `oracle vectors flow` for where a disposition is, against
//! literal answers from documents 01 and 02 (E1, E4, E5).
//!
//! What the lines below would catch:
//! - k counted from 0, k = 0 taken for 1, k cut to 8, 16 or 32 bits or taken as
//!   signed: "one disposition" and "two dispositions";
//! - dispositions taken to be of equal length, of 7 records, or of one 59 at
//!   most; a 16 taken for the first record: the orders of lengths;
//! - a part, a first record or a number of records that is a record early or
//!   late, or the next disposition's: every found line, where first record,
//!   length, type and number at both ends have to agree;
//! - the last disposition not found for want of a next 14, or EF counted into
//!   it or as one more: the count and the count + 1 of every right flow, and "EF
//!   with an amount at 34-46";
//! - an amount read from other positions, or another disposition's: the amounts
//!   differ, and "amounts" has the least, the largest and all digits, under a
//!   total of fifteen;
//! - an amount of zero found, or passed over on the way to another: the cases of
//!   25;
//! - a 14 or EF looked for at other positions than 2-3, or with a blank before
//!   it: the look-alikes;
//! - an answer before the flow is read to its end, or 15 before the reader's
//!   refusal: the flows cut or refused, of most of which the first disposition
//!   is whole;
//! - a recall not found, or taken for none: "recalls" and its faults;
//! - a refusal's part that is not empty: the 0 at the end of its line.

mod common;

use std::collections::HashSet;

use common::vectors;
use oracle::find_cases::cases;
use oracle::vectors::{find_files, flow_files, reader_files};

const NONE: &str = "refused 15 record 0 position 0 part 0";
const MAX: u64 = u64::MAX;

/// A case's name and the reader's line, then each number asked with the line
/// due.
type Due = (&'static str, &'static str, &'static [(u64, &'static str)]);

/// The right flows but the one of 30 dispositions, in the order of the file.
#[rustfmt::skip]
const FOUND: [Due; 18] = [
    ("one disposition", "accepted dispositions 1 cents 45000 records 9 kind requests", &[
        (0, NONE),
        (1, r#"found first 2 records 7 cents 45000 part 840 " 140000001" " 700000001""#),
        (2, NONE),
        (255, NONE), (256, NONE), (257, NONE), (65537, NONE),
        (4294967295, NONE), (4294967296, NONE), (4294967297, NONE), (4294967298, NONE),
        (2305843009213693953, NONE), (9223372036854775808, NONE), (9223372036854775809, NONE),
        (18446744073709551614, NONE), (18446744073709551615, NONE),
    ]),
    ("two dispositions", "accepted dispositions 2 cents 83050 records 16 kind requests", &[
        (0, NONE),
        (1, r#"found first 2 records 7 cents 45000 part 840 " 140000001" " 700000001""#),
        (2, r#"found first 9 records 7 cents 38050 part 840 " 140000002" " 700000002""#),
        (3, NONE),
        (255, NONE), (256, NONE), (257, NONE), (65537, NONE),
        (4294967295, NONE), (4294967296, NONE), (4294967297, NONE), (4294967298, NONE),
        (2305843009213693953, NONE), (9223372036854775808, NONE), (9223372036854775809, NONE),
        (18446744073709551614, NONE), (18446744073709551615, NONE),
    ]),
    ("7 to 12 records", "accepted dispositions 6 cents 21021 records 59 kind requests", &[
        (0, NONE),
        (1, r#"found first 2 records 7 cents 1001 part 840 " 140000001" " 700000001""#),
        (2, r#"found first 9 records 8 cents 2002 part 960 " 140000002" " 700000002""#),
        (3, r#"found first 17 records 9 cents 3003 part 1080 " 140000003" " 700000003""#),
        (4, r#"found first 26 records 10 cents 4004 part 1200 " 140000004" " 700000004""#),
        (5, r#"found first 36 records 11 cents 5005 part 1320 " 140000005" " 700000005""#),
        (6, r#"found first 47 records 12 cents 6006 part 1440 " 140000006" " 700000006""#),
        (7, NONE),
    ]),
    ("12 to 7 records", "accepted dispositions 6 cents 21021 records 59 kind requests", &[
        (0, NONE),
        (1, r#"found first 2 records 12 cents 1001 part 1440 " 140000001" " 700000001""#),
        (2, r#"found first 14 records 11 cents 2002 part 1320 " 140000002" " 700000002""#),
        (3, r#"found first 25 records 10 cents 3003 part 1200 " 140000003" " 700000003""#),
        (4, r#"found first 35 records 9 cents 4004 part 1080 " 140000004" " 700000004""#),
        (5, r#"found first 44 records 8 cents 5005 part 960 " 140000005" " 700000005""#),
        (6, r#"found first 52 records 7 cents 6006 part 840 " 140000006" " 700000006""#),
        (7, NONE),
    ]),
    ("16 in every other", "accepted dispositions 5 cents 15015 records 40 kind requests", &[
        (0, NONE),
        (1, r#"found first 2 records 8 cents 1001 part 960 " 140000001" " 700000001""#),
        (2, r#"found first 10 records 7 cents 2002 part 840 " 140000002" " 700000002""#),
        (3, r#"found first 17 records 8 cents 3003 part 960 " 140000003" " 700000003""#),
        (4, r#"found first 25 records 7 cents 4004 part 840 " 140000004" " 700000004""#),
        (5, r#"found first 32 records 8 cents 5005 part 960 " 140000005" " 700000005""#),
        (6, NONE),
    ]),
    ("8 records each", "accepted dispositions 3 cents 6006 records 26 kind requests", &[
        (0, NONE),
        (1, r#"found first 2 records 8 cents 1001 part 960 " 140000001" " 700000001""#),
        (2, r#"found first 10 records 8 cents 2002 part 960 " 140000002" " 700000002""#),
        (3, r#"found first 18 records 8 cents 3003 part 960 " 140000003" " 700000003""#),
        (4, NONE),
    ]),
    ("amounts", "accepted dispositions 14 cents 111234567890123 records 100 kind requests", &[
        (0, NONE),
        (1, r#"found first 2 records 7 cents 1 part 840 " 140000001" " 700000001""#),
        (2, r#"found first 9 records 7 cents 9999999999999 part 840 " 140000002" " 700000002""#),
        (3, r#"found first 16 records 7 cents 9999999999999 part 840 " 140000003" " 700000003""#),
        (4, r#"found first 23 records 7 cents 9999999999999 part 840 " 140000004" " 700000004""#),
        (5, r#"found first 30 records 7 cents 9999999999999 part 840 " 140000005" " 700000005""#),
        (6, r#"found first 37 records 7 cents 9999999999999 part 840 " 140000006" " 700000006""#),
        (7, r#"found first 44 records 7 cents 9999999999999 part 840 " 140000007" " 700000007""#),
        (8, r#"found first 51 records 7 cents 9999999999999 part 840 " 140000008" " 700000008""#),
        (9, r#"found first 58 records 7 cents 9999999999999 part 840 " 140000009" " 700000009""#),
        (10, r#"found first 65 records 7 cents 9999999999999 part 840 " 140000010" " 700000010""#),
        (11, r#"found first 72 records 7 cents 9999999999999 part 840 " 140000011" " 700000011""#),
        (12, r#"found first 79 records 7 cents 9999999999999 part 840 " 140000012" " 700000012""#),
        (13, r#"found first 86 records 7 cents 10 part 840 " 140000013" " 700000013""#),
        (14, r#"found first 93 records 7 cents 1234567890123 part 840 " 140000014" " 700000014""#),
        (15, NONE),
    ]),
    ("14 at 1-2", EVERY, IN_EVERY),
    ("14 at 10-11", EVERY, IN_EVERY),
    ("14 at 11-12", EVERY, IN_EVERY),
    ("14 at 12-13", EVERY, IN_EVERY),
    ("14 across two records", EVERY, &[
        (0, NONE),
        (1, r#"found first 2 records 8 cents 45000 part 960 " 140000001" " 700000001""#),
        (2, r#"found first 10 records 7 cents 38050 part 840 "4140000002" " 700000002""#),
        (3, NONE),
    ]),
    ("a record 14 as text", EVERY, IN_EVERY),
    ("EF as text and across two records", EVERY, IN_EVERY),
    ("14 in IM and EF", EVERY, IN_EVERY),
    ("EF with an amount at 34-46", EVERY, IN_EVERY),
    ("14 in fields of 14", "accepted dispositions 2 cents 52064 records 17 kind requests", &[
        (0, NONE),
        (1, r#"found first 2 records 8 cents 14014 part 960 " 140000001" " 700000001""#),
        (2, r#"found first 10 records 7 cents 38050 part 840 " 140000002" " 700000002""#),
        (3, NONE),
    ]),
    ("position 1 not blank", EVERY, &[
        (0, NONE),
        (1, r#"found first 2 records 8 cents 45000 part 960 "1140000001" "\700000001""#),
        (2, r#"found first 10 records 7 cents 38050 part 840 "E140000002" ""700000002""#),
        (3, NONE),
    ]),
];

/// The flow of recalls, with text like a record 14 in its first 30.
#[rustfmt::skip]
const RECALLS: Due = ("recalls", "accepted dispositions 2 cents 83050 records 16 kind recalls", &[
    (0, NONE),
    (1, r#"found first 2 records 7 cents 45000 part 840 " 140000001" " 700000001""#),
    (2, r#"found first 9 records 7 cents 38050 part 840 " 140000002" " 700000002""#),
    (3, NONE),
    (MAX, NONE),
]);

/// Two dispositions of 8 and 7 records.
const EVERY: &str = "accepted dispositions 2 cents 83050 records 17 kind requests";
#[rustfmt::skip]
const IN_EVERY: &[(u64, &str)] = &[
    (0, NONE),
    (1, r#"found first 2 records 8 cents 45000 part 960 " 140000001" " 700000001""#),
    (2, r#"found first 10 records 7 cents 38050 part 840 " 140000002" " 700000002""#),
    (3, NONE),
];

/// First record, number of records and amount of each of the 30 dispositions.
#[rustfmt::skip]
const OF_30: [(u64, u64, u64); 30] = [
    (2, 8, 1001), (10, 11, 2002), (21, 7, 3003), (28, 12, 4004), (40, 7, 5005), (47, 10, 6006),
    (57, 8, 7007), (65, 9, 8008), (74, 11, 9009), (85, 8, 10010), (93, 9, 11011), (102, 10, 12012),
    (112, 8, 13013), (120, 11, 14014), (131, 7, 15015), (138, 12, 16016), (150, 7, 17017),
    (157, 10, 18018), (167, 8, 19019), (175, 9, 20020), (184, 11, 21021), (195, 8, 22022),
    (203, 9, 23023), (212, 10, 24024),
    (222, 8, 25025), (230, 11, 26026), (241, 7, 27027), (248, 12, 28028), (260, 7, 29029),
    (267, 10, 30030),
];

/// The flows that the reader refuses, in the order of the file, and its line:
/// the answer to every number is that line and an empty part.
#[rustfmt::skip]
const REFUSED: [(&str, &str); 31] = [
    ("no byte", "refused 1 record 0 position 0"),
    ("the header alone", "refused 4 record 2 position 0"),
    ("cut inside the first disposition", "refused 4 record 6 position 0"),
    ("cut inside the second disposition", "refused 4 record 12 position 0"),
    ("no EF", "refused 4 record 16 position 0"),
    ("cut inside a record", "refused 1 record 0 position 0"),
    ("cut before the last byte", "refused 1 record 0 position 0"),
    ("a line feed at the end", "refused 1 record 0 position 0"),
    ("6 in IM", "refused 6 record 1 position 114"),
    ("2 in the last byte", "refused 2 record 16 position 120"),
    ("3 in the second 70", "refused 3 record 15 position 2"),
    ("5 in the second 14", "refused 5 record 9 position 34"),
    ("6 in the second 70", "refused 6 record 15 position 94"),
    ("7 in the second 30", "refused 7 record 11 position 11"),
    ("8 in the second 14", "refused 8 record 9 position 23"),
    ("9 in the second 14", "refused 9 record 9 position 4"),
    ("10 in EF", "refused 10 record 16 position 114"),
    ("11 in the second 14", "refused 11 record 9 position 92"),
    ("11 in the second 14, blanks first", "refused 11 record 9 position 92"),
    ("12 in EF", "refused 12 record 16 position 46"),
    ("13 in EF", "refused 13 record 16 position 53"),
    ("13 in EF at 68", "refused 13 record 16 position 68"),
    ("14 in EF", "refused 14 record 16 position 83"),
    ("22 in the second 14", "refused 22 record 9 position 29"),
    ("25 in the first 14", "refused 25 record 2 position 34"),
    ("25 in the second 14", "refused 25 record 9 position 34"),
    ("14 after EF", "refused 3 record 10 position 2"),
    ("recalls: 22 in the second 14", "refused 22 record 9 position 29"),
    ("recalls: EF as of requests", "refused 13 record 16 position 53"),
    ("recalls: 11 in the second 14", "refused 11 record 9 position 92"),
    ("recalls: 25 in the second 14", "refused 25 record 9 position 34"),
];

/// A case as the two files have it: name, line of the flow, the reader's line,
/// and each number asked with its line.
struct Given<'a> {
    name: &'a str,
    flow: &'a str,
    answer: &'a str,
    asked: Vec<(u64, &'a str)>,
}

/// The cases of the two files.
fn given<'a>(input: &'a str, output: &'a str) -> Vec<Given<'a>> {
    let number = |line: &str| line[1..].parse().unwrap();
    vectors(input, output, &['?'])
        .into_iter()
        .map(|case| Given {
            name: case.name.strip_prefix("find: ").unwrap(),
            flow: case.bytes,
            answer: case.told,
            asked: case
                .asked
                .iter()
                .map(|&(k, line)| (number(k), line))
                .collect(),
        })
        .collect()
}

/// The due lines of the flow of 30 dispositions.
fn due_of_30() -> Vec<(u64, String)> {
    let found = (1..)
        .zip(OF_30)
        .map(|(k, (first, records, cents)): (u64, _)| {
            let ends = format!(r#"" 14{k:07}" " 70{k:07}""#);
            let part = 120 * records;
            let line = format!("found first {first} records {records} cents {cents}");
            (k, format!("{line} part {part} {ends}"))
        });
    let mut due = vec![(0, String::from(NONE))];
    due.extend(found);
    due.push((31, String::from(NONE)));
    due
}

#[test]
fn every_answer_is_the_literal_one() {
    let (input, output) = find_files();
    let given = given(&input, &output);
    assert_eq!(given.len(), FOUND.len() + 2 + REFUSED.len());
    let (many, others): (Vec<_>, Vec<_>) = given
        .iter()
        .partition(|case| case.name == "30 dispositions");
    let (recalls, others): (Vec<_>, Vec<_>) =
        others.into_iter().partition(|case| case.name == RECALLS.0);
    let (found, refused) = others.split_at(FOUND.len());
    for case in recalls {
        assert_eq!((case.answer, &case.asked[..]), (RECALLS.1, RECALLS.2));
    }
    for (case, (name, answer, asked)) in found.iter().zip(FOUND) {
        assert_eq!((case.name, case.answer), (name, answer));
        assert_eq!(case.asked, asked, "{name}");
    }
    for case in many {
        assert_eq!(
            case.answer,
            "accepted dispositions 30 cents 465465 records 277 kind requests"
        );
        let asked: Vec<(u64, String)> = case
            .asked
            .iter()
            .map(|&(k, line)| (k, line.into()))
            .collect();
        assert_eq!(asked, due_of_30());
    }
    for (case, (name, answer)) in refused.iter().zip(REFUSED) {
        assert_eq!((case.name, case.answer), (name, answer));
        let line = format!("{answer} part 0");
        let due = [0, 1, 2, 3, MAX].map(|k| (k, line.as_str()));
        assert_eq!(case.asked, due, "{name}");
    }
}

/// What the cases are to show is in them: the lengths 7 to 12, 30 dispositions
/// of one flow, and each of the reader's numbers.
#[test]
fn lengths_and_numbers_are_all_there() {
    let (_, output) = find_files();
    for records in 7..=12 {
        let with_length = format!(" records {records} cents ");
        let found = output.lines().filter(|line| line.starts_with("found"));
        assert!(found.filter(|line| line.contains(&with_length)).count() >= 3);
    }
    for number in (1..=15).chain([22, 25]) {
        let start = format!("refused {number} ");
        let refused = output.lines().filter(|line| line.ends_with(" part 0"));
        assert!(refused.filter(|line| line.starts_with(&start)).count() >= 4);
    }
}

/// The file has the flows of the cases. No byte but the backslash and those
/// outside 32 to 126 has hex digits.
#[test]
fn the_input_gives_back_the_flows() {
    let (input, output) = find_files();
    let given = given(&input, &output);
    let cases = cases();
    assert_eq!(given.len(), cases.len());
    for (given, case) in given.iter().zip(&cases) {
        let asked: Vec<u64> = given.asked.iter().map(|asked| asked.0).collect();
        assert_eq!(asked, case.asked);
        let plain = given.flow.replace("\\7f", "\x7f").replace("\\0a", "\n");
        assert_eq!(
            plain.replace("\\5c", "\\").as_bytes(),
            case.flow,
            "{}",
            case.name
        );
    }
    assert!(input.contains("# find: no byte\n=\n?0\n?1\n?2\n?3\n?18446744073709551615\n"));
}

/// One file holds both kinds of cases, and fits the program that reads it.
#[test]
fn the_reader_comes_first() {
    let (reader, find, both) = (reader_files(), find_files(), flow_files());
    assert_eq!(both.0, reader.0 + &find.0);
    assert_eq!(both.1, reader.1 + &find.1);
    assert!(both.0.len() < 600_000);
    let names: Vec<&str> = both
        .0
        .lines()
        .filter(|line| line.starts_with('#'))
        .collect();
    let different: HashSet<&str> = names.iter().copied().collect();
    assert_eq!(different.len(), names.len());
    assert!(names.iter().all(|name| name.is_ascii() && name.len() < 52));
}
