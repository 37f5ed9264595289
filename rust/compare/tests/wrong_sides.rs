//! The comparison itself: a side that is wrong in one way is found, and the
//! case printed is small.

mod found;

use compare::lent::Memory;
use compare::sides::{second, Side};
use compare::{run, Entry, Sides};
use found::{check, found, found_in_both};
use mav::raw::Entries;
use oracle::fields::{digits, write_digits};
use oracle::find::find;
use oracle::record::{field, field_mut, record_type, Record, RECORD_LEN};

/// Entry 4 of a call on a flow of requests.
const REQUESTS: u64 = 1;
/// The same of recalls.
const RECALLS: u64 = 2;

fn records(flow: &mut [u8]) -> &mut [Record] {
    flow.as_chunks_mut::<RECORD_LEN>().0
}

#[test]
fn right_sides_agree() {
    let tally = run(&Sides::REAL, 2, 20_000).expect("the two agree");
    assert!((20_000..20_020).contains(&tally.cases()));
    let one_side = Sides {
        proved: &second,
        second: &second,
    };
    assert_eq!(run(&one_side, 2, 20_000), Ok(tally));
}

/// Reads a flow as if its dispositions had the numbers due.
fn ignores_numbers(entry: Entry, memory: &mut Memory) -> u8 {
    if entry != Entry::Read {
        return second(entry, memory);
    }
    let mut flow = memory.input.to_vec();
    let mut count = 0;
    for record in records(&mut flow) {
        count += u64::from(record_type(record) == *b"14");
        let numbered = !matches!(&record_type(record), b"IM" | b"EF");
        if numbered && digits(field(record, 4, 10)).is_ok() {
            write_digits(field_mut(record, 4, 10), count);
        }
    }
    second(entry, &mut memory.with_input(&mut flow))
}

#[test]
fn number_9_is_ignored() {
    let report = found(&ignores_numbers);
    let differs = ["differs at mav_read()", "proved library: refused 9 record "];
    check(&report, 21, &differs);
    assert!(report.contains(" position 4, entries [9, "), "{report}");
    assert!(report.contains("second program: "), "{report}");
}

/// The case depends on the seed alone, not on how many are asked for.
#[test]
fn a_case_comes_again() {
    let sides = Sides {
        proved: &second,
        second: &ignores_numbers,
    };
    assert_eq!(run(&sides, 1, 50_000), Err(found(&ignores_numbers)));
    let report = found(&ignores_numbers);
    let number = report.trim_end().rsplit(' ').next().unwrap();
    let number: u64 = number.parse().unwrap();
    assert_eq!(run(&sides, 1, number), Err(report));
    assert!(run(&sides, 1, number - 1).is_ok());
}

/// Closes the gap with one block twice, and sums the trailer from what then
/// stands there, so that the flow left is accepted.
fn copies_twice(entry: Entry, memory: &mut Memory) -> u8 {
    let status = second(entry, memory);
    let (Entry::Withdraw { k }, 1) = (entry, status) else {
        return status;
    };
    let Memory { input, answer, .. } = memory;
    let flow = &mut input[..answer[3] as usize];
    let (Ok(block), Ok(next)) = (find(flow, k), find(flow, k + 1)) else {
        return status;
    };
    if block.records != next.records {
        return status;
    }
    flow.copy_within(block.bytes, next.bytes.start);
    for record in records(&mut flow[next.bytes]) {
        write_digits(field_mut(record, 4, 10), k + 1);
    }
    answer[1] = answer[1] - next.cents + block.cents;
    let (first, last) = total_of(answer);
    let trailer = records(flow).last_mut().unwrap();
    write_digits(field_mut(trailer, first, last), answer[1]);
    status
}

/// Where the trailer's total stands in a flow of the kind told.
fn total_of(answer: &Entries) -> (usize, usize) {
    match answer[4] {
        RECALLS => (68, 82),
        _ => (53, 67),
    }
}

#[test]
fn a_block_is_copied_twice() {
    let differs = ["differs at mav_withdraw(k ", "flow afterwards, byte "];
    check(&found(&copies_twice), 38, &differs);
}

/// Only the ledger tells: the trailer agrees with the block copied twice.
#[test]
fn a_block_is_copied_twice_by_both() {
    let report = found_in_both(&copies_twice);
    check(
        &report,
        76,
        &["first flow", "call 1 on it: mav_withdraw(k "],
    );
    assert!(report.contains("\nledger: "), "{report}");
    assert!(!report.contains("call 2"), "{report}");
}

/// Writes into the output before it refuses.
fn writes_early(entry: Entry, memory: &mut Memory) -> u8 {
    let status = second(entry, memory);
    if let (0, Some(byte)) = (status, memory.output.first_mut()) {
        *byte = !*byte;
    }
    status
}

#[test]
fn a_refused_call_writes() {
    let differs = ["proved library: refused", "output afterwards, byte 0"];
    check(&found(&writes_early), 21, &differs);
    let differs = ["memory as lent: to be kept", "output afterwards, byte 0"];
    check(&found_in_both(&writes_early), 21, &differs);
}

/// Leaves an entry of the answer as it was: one that is 0 for a field.
#[test]
fn a_zero_entry_is_forgotten() {
    let differs = [
        "field of 6 bytes",
        "differs at mav_digits(), field at offset ",
    ];
    for index in 1..8 {
        let forgets_a_zero: Side = &|entry, memory: &mut Memory| {
            let mark = memory.answer[index];
            let status = second(entry, memory);
            memory.answer[index] = mark;
            status
        };
        check(&found(forgets_a_zero), 1, &differs);
    }
}

/// Leaves the bytes after the flow as they were.
fn leaves_bytes(entry: Entry, memory: &mut Memory) -> u8 {
    let before = memory.input.to_vec();
    let status = second(entry, memory);
    if let Entry::Withdraw { .. } = entry {
        let len = memory.answer[3] as usize;
        memory.input[len..].copy_from_slice(&before[len..]);
    }
    status
}

#[test]
fn freed_bytes_are_no_blanks() {
    let differs = ["differs at mav_withdraw(k ", "second program: accepted"];
    check(&found(&leaves_bytes), 26, &differs);
    let differs = ["call 1 on it: mav_withdraw(k ", "ledger 0x20"];
    check(&found_in_both(&leaves_bytes), 26, &differs);
}

/// Answers a change as due, and makes none.
fn changes_nothing(entry: Entry, memory: &mut Memory) -> u8 {
    match entry {
        Entry::Change { .. } => {
            let mut copy = memory.input.to_vec();
            second(entry, &mut memory.with_input(&mut copy))
        }
        _ => second(entry, memory),
    }
}

#[test]
fn a_change_changes_nothing() {
    let report = found_in_both(&changes_nothing);
    check(&report, 14, &["call 1 on it: mav_change(k ", "\nledger: "]);
    assert!(!report.contains("call 2"), "{report}");
}

/// Writes to a flow that is lent to be read.
fn writes_to_input(entry: Entry, memory: &mut Memory) -> u8 {
    let status = second(entry, memory);
    if let (Entry::Find { .. }, Some(byte)) = (entry, memory.input.last_mut()) {
        *byte = !*byte;
    }
    status
}

#[test]
fn a_shared_input_is_written() {
    let differs = ["differs at mav_find(k ", "memory as lent: to be kept"];
    check(&found_in_both(&writes_to_input), 14, &differs);
}

/// Has a day 29 in every February.
fn always_leaps(entry: Entry, memory: &mut Memory) -> u8 {
    let status = second(entry, memory);
    let Memory { input, answer, .. } = memory;
    if entry == Entry::Date && input.starts_with(b"2902") && answer[0] == 8 {
        **answer = [0; 8];
        return 1;
    }
    status
}

#[test]
fn the_leap_years_are_wrong() {
    let differs = [
        "   1  323930323031\n      290201\n",
        "proved library: refused 8 record 0 position 0, entries [8, 0, 0, 0, 0, 0, 0, 0]\n",
        "second program: accepted, entries [0, 0, 0, 0, 0, 0, 0, 0]\n",
    ];
    check(&found(&always_leaps), 1, &differs);
}

/// Writes a byte of a record that no rule looks at.
fn writes_unclean(entry: Entry, memory: &mut Memory) -> u8 {
    let status = second(entry, memory);
    if (entry, status) == (Entry::Write, 1) {
        memory.output[0] = b'X';
    }
    status
}

/// Only the round trip of a canonical flow tells.
#[test]
fn a_canonical_flow_does_not_come_again() {
    let byte = "byte 0 (record 1, position 1): proved library 0x58, ledger 0x20";
    check(
        &found_in_both(&writes_unclean),
        28,
        &["differs at mav_write()", byte],
    );
}

/// Gives 6 for a blank field of a request list.
fn mistakes_blanks(entry: Entry, memory: &mut Memory) -> u8 {
    let status = second(entry, memory);
    if (entry, status, memory.answer[0]) == (Entry::Write, 0, 7) {
        memory.answer[0] = 6;
    }
    status
}

#[test]
fn a_request_list_is_printed_by_its_items() {
    let report = found(&mistakes_blanks);
    check(
        &report,
        12,
        &["list of ", "differs at mav_write()", "\n   2  44"],
    );
    assert!(
        report.contains("proved library: refused 7 record "),
        "{report}"
    );
}

/// Answers requests for a recall.
fn tells_requests(entry: Entry, memory: &mut Memory) -> u8 {
    let status = second(entry, memory);
    if memory.answer[4] == RECALLS {
        memory.answer[4] = REQUESTS;
    }
    status
}

#[test]
fn a_recall_is_told_as_requests() {
    let report = found(&tells_requests);
    check(
        &report,
        14,
        &["proved library: accepted", " kind recalls, "],
    );
    let second = report.lines().find(|line| line.starts_with("second "));
    assert!(second.unwrap().contains(" kind requests, "), "{report}");
}

/// Only the ledger tells: its list opens with Q.
#[test]
fn a_recall_is_told_as_requests_by_both() {
    let report = found_in_both(&tells_requests);
    check(&report, 14, &["first flow", "proved library: accepted"]);
    let ledger = report.lines().find(|line| line.starts_with("ledger: "));
    assert!(ledger.unwrap().contains(" kind recalls, "), "{report}");
}

/// Tells a kind where none is due: of a disposition found, and in a refusal.
#[test]
fn a_kind_is_told_where_none_is_due() {
    for (found_by, status, differs) in [
        (Entry::Find { k: 0 }, 1, "second program: accepted first "),
        (Entry::Read, 0, "second program: refused "),
    ] {
        let wrong: Side = &|entry, memory: &mut Memory| {
            let told = second(entry, memory);
            if (entry.index(), told) == (found_by.index(), status) {
                memory.answer[4] = REQUESTS;
            }
            told
        };
        check(&found(wrong), 14, &[differs, ", 0, 1, 0, 0, 0]\n"]);
    }
}

/// Writes the total of a change where requests have it.
fn changes_requests(entry: Entry, memory: &mut Memory) -> u8 {
    let before = memory.input.to_vec();
    let status = second(entry, memory);
    let Memory {
        input: flow,
        answer,
        ..
    } = memory;
    if let (Entry::Change { .. }, 1, RECALLS) = (entry, status, answer[4]) {
        let place = flow.len() - RECORD_LEN;
        flow[place..].copy_from_slice(&before[place..]);
        let trailer = records(flow).last_mut().unwrap();
        write_digits(field_mut(trailer, 53, 67), answer[1]);
    }
    status
}

#[test]
fn a_recall_is_changed_at_the_total_of_requests() {
    let differs = [
        "differs at mav_change(k ",
        "proved library: accepted",
        " kind recalls, ",
        "flow afterwards, byte ",
    ];
    check(&found(&changes_requests), 14, &differs);
}

/// Only what the flow left says of itself tells.
#[test]
fn a_recall_is_changed_at_the_total_of_requests_by_both() {
    let report = found_in_both(&changes_requests);
    let differs = [
        "call 1 on it: mav_change(k ",
        "proved library: refused 13 record ",
        " kind recalls, ",
    ];
    check(&report, 28, &differs);
    assert!(!report.contains("call 2"), "{report}");
}

/// Reads every disposition as one of the first one's kind, where that makes the flow right.
fn accepts_both(entry: Entry, memory: &mut Memory) -> u8 {
    let status = second(entry, memory);
    if (entry, status, memory.answer[0]) != (Entry::Read, 0, 22) {
        return status;
    }
    let mut flow = memory.input.to_vec();
    let openings = records(&mut flow).iter_mut();
    let mut openings = openings.filter(|record| record_type(record) == *b"14");
    let first = *openings.next().unwrap();
    for opening in openings {
        field_mut(opening, 29, 33).copy_from_slice(field(&first, 29, 33));
        field_mut(opening, 47, 47).copy_from_slice(field(&first, 47, 47));
    }
    match second(entry, &mut memory.with_input(&mut flow)) {
        0 => second(entry, memory),
        accepted => accepted,
    }
}

#[test]
fn a_mixed_flow_is_accepted() {
    let differs = [
        "differs at mav_read()",
        "proved library: refused 22 record ",
        "second program: accepted dispositions 2 ",
    ];
    check(&found(&accepts_both), 26, &differs);
}

/// Holds a causale against the flow's kind before it asks whether it is one.
fn gives_22_first(entry: Entry, memory: &mut Memory) -> u8 {
    let status = second(entry, memory);
    // The first record 14 is record 2.
    if let (Entry::Read, 0, [6, (3..), 29, ..]) = (entry, status, &*memory.answer) {
        memory.answer[0] = 22;
    }
    status
}

#[test]
fn number_22_comes_before_6() {
    let differs = [
        "proved library: refused 6 record ",
        " position 29, entries [6, ",
        "second program: refused 22 record ",
    ];
    check(&found(&gives_22_first), 26, &differs);
}
