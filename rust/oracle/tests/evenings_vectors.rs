//! The cases of `oracle vectors evenings`, against accounts and refusals from
//! document 02 (E7, E4, E5) by hand.
//!
//! What the lines would catch:
//! - an account that is not shortest, drops or adds from the wrong end, or adds
//!   before it drops: the letters, each pair both ways;
//! - a request kept with a later one of the same bytes, not with the next: "aa
//!   and a", "aad and ad";
//! - dropping first even where no shortest account follows: "abc and cab", "a and
//!   da";
//! - requests compared by their record 14, by a sum over their bytes, or whole
//!   with number and unused bytes: the carried positions and what follows them;
//! - 50 taken for 59, records that one of two has more left out: "50 and 59 of
//!   the same bytes", "one 59 and two", "16 and none";
//! - heads compared: "the header's fields", "another ABI";
//! - the record 14 of K taken from the old flow, that of D from the new one, or
//!   counted in records of another length: every line asked;
//! - a limit of 255 or 257 requests, of 66,048 numbers, of one line less or more:
//!   the cases of 256 and 257, "working memories", "rooms";
//! - line numbers from 0, or cut to fewer bits: "numbers of lines";
//! - refusals in another order, or an amount of zero or company codes that differ
//!   compared like any other: six questions of every two that fit at once;
//! - the company code left out of what is compared: "abc and ABC", where a capital
//!   letter is the same request without one;
//! - working memory not zero up to its end, touched by a refused call, or written
//!   behind its end, and the same of the account: the numbers behind each answer.

mod common;

use std::collections::{HashMap, HashSet};

use common::unescaped;
use oracle::evenings::{compare, line, Side};
use oracle::evenings_cases::cases;
use oracle::vectors::evenings_files;

/// The first two cases and two others, whole.
const WHOLE: [&str; 4] = [
    r#"# two rents and the second
old 1920
new 1080
accepted kept 1 dropped 1 added 0 length 2 kept 64 "DK" zero 66049 as before 64
line D record 2 part 120 " 140000001" at 120 of old zero 66049 as before 64
line K record 2 part 120 " 140000001" at 120 of new zero 66049 as before 64
refused 15 record 0 position 0 part 0 as before 66113
"#,
    r#"# two rents and the second, exchanged
old 1080 new 1920
accepted kept 1 dropped 0 added 1 length 2 kept 64 "AK" zero 66049 as before 64
line A record 2 part 120 " 140000001" at 120 of new zero 66049 as before 64
line K record 9 part 120 " 140000002" at 960 of new zero 66049 as before 64
refused 15 record 0 position 0 part 0 as before 66113
"#,
    // Of 7, 8 and 9 records; of 9, 7 and 8.
    r#"# abc and cab
old 3120
new 3120
accepted kept 2 dropped 1 added 1 length 4 kept 64 "AKKD" zero 66049 as before 64
line A record 2 part 120 " 140000001" at 120 of new zero 66049 as before 64
line K record 11 part 120 " 140000002" at 1200 of new zero 66049 as before 64
line K record 18 part 120 " 140000003" at 2040 of new zero 66049 as before 64
line D record 17 part 120 " 140000003" at 1920 of old zero 66049 as before 64
refused 15 record 0 position 0 part 0 as before 66113
"#,
    r#"# working memories
refused 34 record 0 position 0 length 0 kept 73 as before 64
refused 34 record 0 position 0 part 0 as before 64
refused 34 record 0 position 0 length 0 kept 73 as before 65
refused 34 record 0 position 0 part 0 as before 65
refused 34 record 0 position 0 length 0 kept 73 as before 65600
refused 34 record 0 position 0 part 0 as before 65600
refused 34 record 0 position 0 length 0 kept 73 as before 66112
refused 34 record 0 position 0 part 0 as before 66112
accepted kept 2 dropped 1 added 1 length 4 kept 69 "DKKA" zero 66049 as before 64
line A record 16 part 120 " 140000003" at 1800 of new zero 66049 as before 64
accepted kept 2 dropped 1 added 1 length 4 kept 69 "DKKA" zero 66050 as before 64
line A record 16 part 120 " 140000003" at 1800 of new zero 66050 as before 64
accepted kept 2 dropped 1 added 1 length 4 kept 69 "DKKA" zero 66200 as before 64
line A record 16 part 120 " 140000003" at 1800 of new zero 66200 as before 64
"#,
];

/// The account of each case in which one is due, in the order of the file.
#[rustfmt::skip]
const ACCOUNTS: [(&str, &str); 90] = [
    ("two rents and the second", "DK"), ("two rents and the second, exchanged", "AK"),
    ("recalls a and da", "AK"), ("recalls a and da, exchanged", "DK"),
    ("a and a", "K"),
    ("a and d", "DA"), ("a and d, exchanged", "DA"),
    ("a and ad", "KA"), ("a and ad, exchanged", "KD"),
    ("a and da", "AK"), ("a and da, exchanged", "DK"),
    ("a and bac", "AKA"), ("a and bac, exchanged", "DKD"),
    ("aa and a", "KD"), ("aa and a, exchanged", "KA"),
    ("ab and ba", "DKA"), ("ab and ba, exchanged", "DKA"),
    ("ab and cb", "DAK"), ("ab and cb, exchanged", "DAK"),
    ("abc and cab", "AKKD"), ("abc and cab, exchanged", "DKKA"),
    ("abc and ABC", "DDDAAA"), ("abc and ABC, exchanged", "DDDAAA"),
    ("aad and ad", "KDK"), ("aad and ad, exchanged", "KAK"),
    ("adeadda and edadae", "DDKDKAKKA"), ("adeadda and edadae, exchanged", "DAKAKKAKD"),
    ("dad and ada", "DKKA"), ("dad and ada, exchanged", "DKKA"),
    ("working memories", "DKKA"), ("rooms", "DKKA"), ("numbers of lines", "DKKA"),
    ("14 at 1", "K"), ("14 at 22", "K"), ("14 at 23", "DA"), ("14 at 28", "DA"),
    ("14 at 34", "DA"), ("14 at 46", "DA"), ("14 at 53", "DA"), ("14 at 69", "DA"),
    ("14 at 70", "K"), ("14 at 91", "K"), ("14 at 92", "DA"), ("14 at 113", "DA"),
    ("14 at 114", "K"),
    ("16 at 11", "DA"), ("16 at 37", "DA"), ("16 at 38", "K"),
    ("20 at 11", "DA"), ("20 at 106", "DA"), ("20 at 107", "K"),
    ("30 at 11", "DA"), ("30 at 86", "DA"), ("30 at 87", "K"),
    ("40 at 11", "DA"), ("40 at 120", "DA"),
    ("59 at 11", "DA"), ("59 at 120", "DA"),
    ("51 at 11", "DA"), ("51 at 120", "DA"),
    ("70 at 93", "K"), ("70 at 94", "DA"), ("70 at 95", "K"), ("70 at 96", "DA"),
    ("50 at 1", "K"), ("50 at 11", "DA"), ("50 at 120", "DA"), ("70 at 120", "DA"),
    ("company code and none", "DA"),
    ("a byte up, a byte down", "DA"),
    ("upper and lower case", "DA"),
    ("the header's fields", "K"),
    ("another ABI", "K"),
    ("another ABI, in 16 too", "DA"),
    ("16 and none", "DA"),
    ("one 59 and two", "DA"),
    ("50 and 59 of the same bytes", "DA"),
    ("59 of the same bytes", "K"),
    ("two 59s exchanged", "DA"),
    ("the fifth 59 differs", "DA"),
    ("40 and 51 exchanged", "DA"),
    ("~ where nothing is carried", "KK"),
    ("14 across two records", "DAK"),
    ("position 1 not blank", "KK"),
    ("both right", "K"),
    ("both of recalls", "K"),
    // Here a number says how often the letter before it stands.
    ("old of 256, none kept", "D256 A1"),
    ("new of 256, none kept", "D1 A256"),
    ("new of 256, three kept", "A2 K1 A1 K1 A1 K1 A249"),
    ("old of 256, three kept", "D2 K1 D1 K1 D1 K1 D249"),
];

/// The refusal of each case that has but one, whatever is asked.
#[rustfmt::skip]
const REFUSED: [(&str, &str); 32] = [
    ("a zero in old", "refused 25 record 2 position 34"),
    ("a zero in new", "refused 25 record 2 position 34"),
    ("old refused, a zero in new", "refused 9 record 3 position 4"),
    ("a zero in old, new refused", "refused 25 record 2 position 34"),
    ("a zero in new, both of recalls", "refused 25 record 2 position 34"),
    ("a zero in old, both of recalls", "refused 25 record 2 position 34"),
    ("codes that differ in old, new refused", "refused 11 record 9 position 92"),
    ("old refused, codes that differ in new", "refused 9 record 3 position 4"),
    ("codes that differ in new", "refused 11 record 9 position 92"),
    ("codes that differ in old", "refused 11 record 9 position 92"),
    ("codes that differ in old, of recalls", "refused 11 record 9 position 92"),
    ("codes that differ in new, of recalls", "refused 11 record 9 position 92"),
    ("old refused", "refused 9 record 3 position 4"),
    ("new refused", "refused 9 record 3 position 4"),
    ("both refused", "refused 13 record 9 position 53"),
    ("both refused, exchanged", "refused 9 record 3 position 4"),
    ("old refused, of recalls", "refused 10 record 9 position 114"),
    ("new refused, of recalls", "refused 10 record 9 position 114"),
    ("new of recalls", "refused 28 record 0 position 0"),
    ("old of recalls", "refused 28 record 0 position 0"),
    ("no byte and recalls", "refused 1 record 0 position 0"),
    ("recalls and no byte", "refused 1 record 0 position 0"),
    ("no byte in either", "refused 1 record 0 position 0"),
    ("no byte and a byte short", "refused 1 record 0 position 0"),
    ("a record short and no byte", "refused 4 record 9 position 0"),
    ("old of 257", "refused 27 record 0 position 0"),
    ("old of 257, new of recalls", "refused 27 record 0 position 0"),
    ("old of 257, new refused", "refused 25 record 2 position 34"),
    ("old refused, new of 257", "refused 25 record 2 position 34"),
    ("old of recalls, new of 257", "refused 27 record 0 position 0"),
    ("new of 257", "refused 27 record 0 position 0"),
    ("old of 256, new of 257", "refused 27 record 0 position 0"),
];

/// The account spelled out.
fn spelled(due: &str) -> String {
    if !due.contains(|c: char| c.is_ascii_digit()) {
        return String::from(due);
    }
    let run = |word: &str| word[..1].repeat(word[1..].parse().unwrap());
    due.split(' ').map(run).collect()
}

/// What is lent when a line asks.
#[derive(Clone, Default)]
struct State {
    name: String,
    old: Vec<u8>,
    new: Vec<u8>,
}

/// The lines that ask, with their answers and what is lent; the others are
/// checked.
fn asked<'a>(input: &'a str, output: &'a str) -> Vec<(State, &'a str, &'a str)> {
    assert!(input.ends_with('\n') && output.ends_with('\n'));
    assert_eq!(input.lines().count(), output.lines().count());
    let mut state = State::default();
    let mut all = Vec::new();
    for (question, answer) in input.lines().zip(output.lines()) {
        let (sign, rest) = question.split_at(1);
        match sign {
            "#" => {
                assert_eq!(question, answer);
                state.name = rest[1..].into();
            }
            "(" => {
                state.old = unescaped(rest);
                assert_eq!(answer, format!("old {}", state.old.len()));
            }
            ")" => {
                state.new = unescaped(rest);
                assert_eq!(answer, format!("new {}", state.new.len()));
            }
            "~" => {
                assert_eq!(rest, "");
                std::mem::swap(&mut state.old, &mut state.new);
                let due = format!("old {} new {}", state.old.len(), state.new.len());
                assert_eq!(answer, due);
            }
            "=" | "?" => all.push((state.clone(), question, answer)),
            _ => panic!("no such line: {question}"),
        }
    }
    all
}

/// The two numbers of a line that asks.
fn numbers(question: &str) -> (usize, u64) {
    let (work, other) = question[1..].split_once(' ').unwrap();
    (work.parse().unwrap(), other.parse().unwrap())
}

/// The records 14 of a flow, by their index.
fn openings(flow: &[u8]) -> Vec<usize> {
    let records = flow.chunks(120).enumerate();
    let opening = records.filter(|(_, record)| record[1..3] == *b"14");
    opening.map(|(index, _)| index).collect()
}

/// The answer due to a line that asks, where this account or refusal is.
fn due(state: &State, question: &str, account: Result<&str, &str>) -> String {
    let (work, other) = numbers(question);
    let is_compare = question.starts_with('=');
    let untouched = |refusal: &str| match is_compare {
        true => format!(
            "{refusal} length 0 kept {} as before {}",
            other + 64,
            work + 64
        ),
        false => format!("{refusal} part 0 as before {}", work + 64),
    };
    let account = match account {
        Ok(account) => account,
        Err(refusal) => return untouched(refusal),
    };
    if work < 66_049 {
        return untouched("refused 34 record 0 position 0");
    }
    let len = account.len() as u64;
    let count = |letter| account.matches(letter).count();
    if is_compare {
        if other < len {
            return untouched("refused 21 record 0 position 0");
        }
        return format!(
            "accepted kept {} dropped {} added {} length {len} kept {} \"{account}\" \
             zero {work} as before 64",
            count('K'),
            count('D'),
            count('A'),
            other - len + 64,
        );
    }
    if other == 0 || other > len {
        return untouched("refused 15 record 0 position 0");
    }
    let (before, letter) = account[..other as usize].split_at(other as usize - 1);
    let gone = |letter| before.matches(['K', letter]).count();
    let (side, flow, index) = match letter {
        "D" => ("old", &state.old, gone('D')),
        _ => ("new", &state.new, gone('A')),
    };
    let opening = openings(flow)[index];
    let start = char::from(flow[120 * opening]);
    format!(
        "line {letter} record {} part 120 \"{start}14{:07}\" at {} of {side} \
         zero {work} as before 64",
        opening + 1,
        index + 1,
        120 * opening,
    )
}

#[test]
fn cases_are_in_the_file_as_written_here() {
    let (_, output) = evenings_files();
    for whole in WHOLE {
        assert!(output.contains(whole), "{whole}");
    }
    assert!(output.starts_with(&(WHOLE[0].to_string() + WHOLE[1])));
    // 1 + 256 requests of 7 records: record 1,787 starts at 1,786 * 120.
    let last =
        r#"line D record 1787 part 120 " 140000256" at 214320 of old zero 66049 as before 64"#;
    assert!(output.lines().any(|line| line == last));
    let refused = "refused 27 record 0 position 0 length 0 kept 664 as before 66113";
    assert!(output.lines().any(|line| line == refused));
    let bytes = r#"line K record 10 part 120 "E140000002" at 1080 of new zero 66049 as before 64"#;
    assert!(output.lines().any(|line| line == bytes));
}

#[test]
fn every_answer_is_the_one_by_hand() {
    let (input, output) = evenings_files();
    let accounts: HashMap<&str, String> = ACCOUNTS
        .iter()
        .map(|&(name, account)| (name, spelled(account)))
        .collect();
    let refused: HashMap<&str, &str> = REFUSED.into_iter().collect();
    for (state, question, answer) in asked(&input, &output) {
        let name = &state.name[..];
        let by_hand = match (accounts.get(name), refused.get(name)) {
            (Some(account), None) => Ok(&account[..]),
            (None, Some(&refusal)) => Err(refusal),
            _ => panic!("{name}"),
        };
        assert_eq!(answer, due(&state, question, by_hand), "{name}: {question}");
    }
}

/// The lines follow from those of the input alone.
#[test]
fn the_input_gives_the_answers() {
    let (input, output) = evenings_files();
    for (state, question, answer) in asked(&input, &output) {
        let (work, other) = numbers(question);
        let mut memory = vec![1; work];
        let start = if question.starts_with('=') {
            let mut out = vec![0; other as usize];
            match compare(&state.old, &state.new, &mut memory, &mut out) {
                Ok(done) => format!(
                    "accepted kept {} dropped {} added {} length {} ",
                    done.kept, done.dropped, done.added, done.len
                ),
                Err(refusal) => format!("refused {} record {} ", refusal.number, refusal.record),
            }
        } else {
            match line(&state.old, &state.new, &mut memory, other) {
                Ok(found) => format!(
                    "line {} record {} part {} \"{}\" at {} of {} ",
                    char::from(found.letter),
                    found.record,
                    found.part.len(),
                    String::from_utf8_lossy(&found.part[..10]),
                    found.offset,
                    if found.side == Side::Old {
                        "old"
                    } else {
                        "new"
                    },
                ),
                Err(refusal) => format!("refused {} record {} ", refusal.number, refusal.record),
            }
        };
        assert!(answer.starts_with(&start), "{}: {question}", state.name);
    }
}

/// The input has the flows of the cases.
#[test]
fn the_input_gives_back_the_cases() {
    let (input, output) = evenings_files();
    let asked = asked(&input, &output);
    let mut rest = &asked[..];
    for case in cases() {
        let (of_case, others) = rest.split_at(case.asked.len());
        for (state, _, _) in of_case {
            assert_eq!(state.name, case.name);
            assert!(
                state.old == case.old && state.new == case.new,
                "{}",
                case.name
            );
        }
        rest = others;
    }
    assert!(rest.is_empty());
}

/// The file fits the program that reads it.
#[test]
fn the_input_keeps_its_limits() {
    let (input, output) = evenings_files();
    assert!(input.len() < 600_000);
    assert!(input.lines().all(|line| line.len() < 240_000));
    // One flow of 257 requests and one of 256.
    let long = input.lines().filter(|line| line.len() > 100_000);
    assert_eq!(long.map(str::len).collect::<Vec<_>>(), [216_121, 215_281]);
    for (_, question, _) in asked(&input, &output) {
        let (work, other) = numbers(question);
        assert!(work <= 66_200);
        assert!(question.starts_with('?') || other <= 2_000);
    }
    let names: Vec<&str> = input.lines().filter(|l| l.starts_with('#')).collect();
    let different: HashSet<&str> = names.iter().copied().collect();
    assert_eq!(different.len(), names.len());
    assert!(names.iter().all(|name| name.is_ascii() && name.len() < 52));
    assert_eq!(names.len(), ACCOUNTS.len() + REFUSED.len());
    for number in [1, 4, 9, 10, 11, 13, 15, 21, 25, 27, 28, 34] {
        let start = format!("refused {number} ");
        assert!(output.lines().filter(|l| l.starts_with(&start)).count() >= 6);
    }
}
