//! The comparison itself, on two flows (document 02, E7): a side that is wrong
//! in one way is found, and the case printed is small.

mod found;

use compare::lent::Memory;
use compare::sides::{second, Side};
use compare::{run_evenings, Entry, Sides};
use found::{check, found, found_in_both};
use oracle::evenings::{account, MIN_WORK};
use oracle::find::find;
use oracle::record::{record_type, RECORD_LEN};

/// The rows of two flows of one or two dispositions each.
const FEW: usize = 56;

/// A side that does this after each accepted comparison.
fn after_compare(wrong: impl Fn(&mut Memory)) -> impl Fn(Entry, &mut Memory) -> u8 {
    move |entry, memory| {
        let status = second(entry, memory);
        if (entry, status) == (Entry::Compare, 1) {
            wrong(memory);
        }
        status
    }
}

/// A side that does this after each line given.
fn after_line(wrong: impl Fn(u64, &mut Memory)) -> impl Fn(Entry, &mut Memory) -> u8 {
    move |entry, memory| {
        let status = second(entry, memory);
        if let (Entry::Line { n }, 1) = (entry, status) {
            wrong(n, memory);
        }
        status
    }
}

/// A side that does this after each refusal of a call on two flows by this
/// number.
fn after_refusal(number: u64, wrong: impl Fn(&mut Memory)) -> impl Fn(Entry, &mut Memory) -> u8 {
    move |entry, memory| {
        let status = second(entry, memory);
        if entry.of_two_flows() && (status, memory.answer[0]) == (0, number) {
            wrong(memory);
        }
        status
    }
}

/// Only one side is wrong.
fn differs_at(wrong: Side, most: usize, texts: &[&str]) {
    let report = found(wrong);
    check(&report, most, texts);
    for text in [
        "last night's flow of ",
        "tonight's flow of ",
        "second program: ",
    ] {
        assert!(report.contains(text), "{report}");
    }
}

/// Both sides are wrong alike, and have written what is to be kept.
fn kept_at(wrong: Side, texts: &[&str]) {
    let kept = ["memory as lent: to be kept"];
    check(&found_in_both(wrong), FEW, &[&kept, texts].concat());
}

/// The lines of the account told.
fn lines<'a>(memory: &'a mut Memory<'_>) -> &'a mut [u8] {
    &mut memory.output[..memory.answer[3] as usize]
}

#[test]
fn a_line_of_the_account_is_wrong() {
    let wrong = after_compare(|memory| lines(memory)[0] = b'k');
    let differs = [
        "differs at mav_compare(), ",
        "output afterwards, byte 0: proved library 0x4",
    ];
    differs_at(&wrong, FEW, &differs);
}

/// The second line in place of the first, as long and with the same counts.
#[test]
fn the_account_is_in_another_order() {
    let wrong = after_compare(|memory| lines(memory).reverse());
    differs_at(
        &wrong,
        FEW,
        &["differs at mav_compare(), ", "output afterwards, byte "],
    );
}

/// Adds before it drops: an account as short.
#[test]
fn a_tie_is_broken_the_other_way() {
    let wrong = after_compare(|memory| {
        let lines = lines(memory);
        if let Some(place) = lines.windows(2).position(|two| two == b"DA") {
            lines[place..place + 2].copy_from_slice(b"AD");
        }
    });
    let byte = "output afterwards, byte 0: proved library 0x44, second program 0x41";
    differs_at(
        &wrong,
        28,
        &["accepted kept 0 dropped 1 added 1 length 2, ", byte],
    );
}

#[test]
fn a_count_is_wrong() {
    for index in 0..3 {
        let wrong = after_compare(|memory| memory.answer[index] += 1);
        differs_at(
            &wrong,
            FEW,
            &[
                "differs at mav_compare(), ",
                "proved library: accepted kept ",
            ],
        );
    }
    let exchanged = after_compare(|memory| memory.answer.swap(1, 2));
    differs_at(&exchanged, FEW, &["differs at mav_compare(), "]);
}

/// The lengths that the two sides told.
fn lengths(report: &str) -> Vec<u64> {
    let told = report.split(" length ").skip(1);
    let digits = told.map(|text| text.split(',').next().unwrap_or(text));
    digits.map(|digits| digits.parse().unwrap()).collect()
}

#[test]
fn the_length_is_wrong() {
    let longer = after_compare(|memory| memory.answer[3] += 1);
    let report = found(&longer);
    check(&report, FEW, &["differs at mav_compare(), "]);
    assert!(
        matches!(lengths(&report)[..], [due, told] if told == due + 1),
        "{report}"
    );
    let shorter = after_compare(|memory| memory.answer[3] -= 1);
    let report = found(&shorter);
    check(&report, FEW, &["differs at mav_compare(), "]);
    assert!(
        matches!(lengths(&report)[..], [due, told] if told + 1 == due),
        "{report}"
    );
    // A refusal has none.
    let told = after_refusal(21, |memory| {
        memory.answer[3] = 1 + memory.output.len() as u64
    });
    differs_at(
        &told,
        FEW,
        &["proved library: refused 21 record 0 position 0, "],
    );
}

#[test]
fn the_account_is_written_beyond_its_length() {
    let wrong = after_compare(|memory| {
        let len = memory.answer[3] as usize;
        if let Some(byte) = memory.output.get_mut(len) {
            *byte = !*byte;
        }
    });
    differs_at(
        &wrong,
        FEW,
        &["differs at mav_compare(), ", "output afterwards, byte "],
    );
    kept_at(
        &wrong,
        &["differs at mav_compare(), ", "output afterwards, byte "],
    );
}

/// The number at this place of the working memory is left as one, if there is
/// such a place.
fn left_at(place: usize, memory: &mut Memory) {
    if let Some(number) = memory.work.get_mut(place) {
        *number = 1;
    }
}

#[test]
fn the_working_memory_is_not_zero() {
    for place in [0, 257, MIN_WORK - 1, MIN_WORK, 69_999] {
        let number = format!("working memory afterwards, number {place}: proved library 0x0");
        let one = format!("working memory afterwards, number {place}: proved library 0x01");
        let of_compare = after_compare(|memory| left_at(place, memory));
        differs_at(&of_compare, FEW, &["differs at mav_compare(), ", &number]);
        kept_at(&of_compare, &["differs at mav_compare(), ", &one]);
        let of_line = after_line(|_, memory| left_at(place, memory));
        differs_at(&of_line, FEW, &["differs at mav_compare_line(n ", &number]);
        kept_at(&of_line, &["differs at mav_compare_line(n ", &one]);
    }
}

/// Writes to the last number of the working memory.
fn to_work(memory: &mut Memory) {
    if let Some(number) = memory.work.last_mut() {
        *number = !*number;
    }
}

/// Writes to the first byte of the account.
fn to_account(memory: &mut Memory) {
    if let Some(byte) = memory.output.first_mut() {
        *byte = !*byte;
    }
}

#[test]
fn a_refused_call_writes() {
    for number in [9, 15, 21, 28, 34] {
        let refused = format!("proved library: refused {number} record ");
        let at = "working memory afterwards, number ";
        let works = after_refusal(number, to_work);
        differs_at(&works, FEW, &[&refused, at]);
        kept_at(&works, &[&refused, at]);
        let at = "output afterwards, byte 0: ";
        let writes = after_refusal(number, to_account);
        differs_at(&writes, FEW, &[&refused, at]);
        kept_at(&writes, &[&refused, at]);
    }
}

/// The other side is one disposition, and as few as 257 are on this one.
#[test]
fn a_call_refused_by_27_writes() {
    let wrong = after_refusal(27, |memory| {
        if !memory.output.is_empty() {
            to_work(memory);
            to_account(memory);
        }
    });
    let sides = Sides {
        proved: &second,
        second: &wrong,
    };
    let report = run_evenings(&sides, 1, 1_000, 257).expect_err("the fault is found");
    for text in [
        "\nproved library: refused 27 record 0 position 0, ",
        "\nworking memory afterwards, number ",
        "\noutput afterwards, byte 0: ",
    ] {
        assert!(report.contains(text), "{report}");
    }
    let openings = report.lines().filter(|line| line.get(7..9) == Some("14"));
    assert_eq!(openings.count(), 258, "{report}");
}

#[test]
fn a_flow_is_written() {
    let new = after_compare(|memory| memory.new[0] = !memory.new[0]);
    kept_at(
        &new,
        &["tonight's flow afterwards, byte 0 (record 1, position 1): "],
    );
    let old = after_line(|_, memory| memory.input[0] = !memory.input[0]);
    kept_at(
        &old,
        &["last night's flow afterwards, byte 0 (record 1, position 1): "],
    );
}

#[test]
fn the_letter_of_a_line_is_wrong() {
    for (letter, other) in [(b'K', b'A'), (b'D', b'A'), (b'A', b'D')] {
        let wrong = after_line(|_, memory| {
            if memory.answer[0] == letter.into() {
                memory.answer[0] = other.into();
            }
        });
        let told = [
            format!("proved library: accepted letter {letter} record 2, "),
            format!("second program: accepted letter {other} record 2, "),
        ];
        differs_at(&wrong, FEW, &told.each_ref().map(String::as_str));
    }
}

#[test]
fn the_record_of_a_line_is_wrong() {
    let wrong = after_line(|_, memory| memory.answer[1] += 1);
    let told = [
        "differs at mav_compare_line(n ",
        " record 2, ",
        " record 3, ",
    ];
    differs_at(&wrong, 28, &told);
}

/// The disposition of last night that line `n` keeps.
fn kept_of_old(n: u64, memory: &Memory) -> u64 {
    let lines = account(memory.input, memory.new).unwrap();
    let gone = lines[..n as usize].iter().filter(|&&line| line != b'A');
    find(memory.input, gone.count() as u64).unwrap().first
}

/// A kept line names the part of last night's flow.
#[test]
fn the_part_of_a_line_is_of_the_other_flow() {
    let wrong = after_line(|n, memory| {
        if memory.answer[0] == b'K'.into() {
            memory.answer[1] = kept_of_old(n, memory);
        }
    });
    let told = [
        "differs at mav_compare_line(n ",
        "proved library: accepted letter 75 record ",
    ];
    differs_at(&wrong, FEW, &told);
}

/// Line 0 is taken for line 1, and a number for its lower half.
#[test]
fn the_number_of_a_line_is_wrong() {
    let first: Side = &|entry, memory| match entry {
        Entry::Line { n } => second(Entry::Line { n: n.max(1) }, memory),
        _ => second(entry, memory),
    };
    differs_at(
        first,
        FEW,
        &["differs at mav_compare_line(n 0), ", "refused 15 "],
    );
    for bits in [16, 32] {
        let cut: Side = &|entry, memory| match entry {
            Entry::Line { n } => second(Entry::Line { n: n % (1 << bits) }, memory),
            _ => second(entry, memory),
        };
        differs_at(
            cut,
            FEW,
            &[
                "proved library: refused 15 ",
                "second program: accepted letter ",
            ],
        );
    }
}

/// The other flow is judged first.
#[test]
fn the_flows_are_judged_in_another_order() {
    let wrong: Side = &|entry, memory| {
        let Memory {
            input,
            new,
            work,
            output,
            answer,
        } = memory;
        let other = &mut Memory {
            input: new,
            new: input,
            work,
            output,
            answer,
        };
        match entry {
            Entry::Compare if second(Entry::Read, other) == 0 => 0,
            _ => second(entry, memory),
        }
    };
    let told = ["proved library: refused ", "second program: refused "];
    differs_at(wrong, FEW, &told);
}

/// The room is looked at before the working memory.
#[test]
fn number_21_comes_before_34() {
    let wrong = after_refusal(34, |memory| {
        if memory.output.is_empty() {
            memory.answer[0] = 21;
        }
    });
    let told = ["proved library: refused 34 ", "second program: refused 21 "];
    differs_at(&wrong, FEW, &told);
}

/// A byte of the last record of each request is left out of the comparison.
#[test]
fn a_carried_byte_is_not_compared() {
    let blanked = |flow: &[u8]| {
        let mut flow = flow.to_vec();
        for record in flow.as_chunks_mut::<RECORD_LEN>().0 {
            if record_type(record) == *b"70" {
                record[119] = b' ';
            }
        }
        flow
    };
    let wrong: Side = &|entry, memory| {
        let Memory {
            input,
            new,
            work,
            output,
            answer,
        } = memory;
        let (mut input, mut new) = (blanked(input), blanked(new));
        let (input, new) = (&mut input[..], &mut new[..]);
        match entry.of_two_flows() {
            true => second(
                entry,
                &mut Memory {
                    input,
                    new,
                    work,
                    output,
                    answer,
                },
            ),
            false => second(entry, memory),
        }
    };
    let told = [
        "proved library: accepted kept 0 ",
        "second program: accepted kept 1 ",
    ];
    differs_at(wrong, 28, &told);
}

/// A run of these calls alone finds the same, with any number of requests.
#[test]
fn a_run_of_pairs_finds_a_long_account() {
    let wrong = after_compare(|memory| memory.answer[1] += memory.answer[0] / 20);
    let sides = Sides {
        proved: &second,
        second: &wrong,
    };
    let report = run_evenings(&sides, 1, 1_000, 40).expect_err("the fault is found");
    assert!(
        report.contains("proved library: accepted kept 20 dropped 0 added 0 "),
        "{report}"
    );
    let (_, number) = report
        .trim_end()
        .rsplit_once("to repeat it: compare evenings 1 ")
        .unwrap();
    let (number, most) = number.split_once(' ').unwrap();
    assert_eq!(most, "40");
    let number: u64 = number.parse().unwrap();
    assert_eq!(run_evenings(&sides, 1, number, 40), Err(report));
    assert!(run_evenings(&sides, 1, number - 1, 40).is_ok());
}
