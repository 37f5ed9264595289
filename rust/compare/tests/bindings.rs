//! What the safe bindings add to the calls compared, on generated flows.

use mav::{AccountLine, Compared, Letter};
use oracle::evenings::{self, Side};
use oracle::evenings_cases::{pair_case, Pair};
use oracle::find::find;
use oracle::generate::{disposition_number, draft, flow_to_amend, Draft, Size};
use oracle::reader::read;
use oracle::record::{field_mut, record_type, Record};
use oracle::rng::Rng;

const SEED: u64 = 1;

/// A right flow. Every second has texts that look like records.
fn right_flow(index: u64) -> Vec<u8> {
    let mut rng = Rng::for_case(SEED, index);
    let size = match index {
        0..20 => Size::Program,
        20..40 => Size::Limit,
        40..80 => Size::AllTypes,
        _ => Size::any(&mut rng, 1_000),
    };
    let mut draft = draft(&mut rng, size);
    if index.is_multiple_of(2) {
        disguise(&mut rng, &mut draft);
    }
    draft.flow()
}

/// Fills all that may hold any text with openings and trailers, which at these
/// places are none.
fn disguise(rng: &mut Rng, draft: &mut Draft) {
    let text = rng.pick(&[&b"14"[..], b" 14", b"EF", b" EF", b"140000001", b"1414EF"]);
    let mut letters = text.iter().cycle().skip(rng.index(text.len()));
    for record in draft.dispositions.iter_mut().flatten() {
        for &(first, last) in free(record) {
            for byte in field_mut(record, first, last) {
                *byte = *letters.next().expect("a cycle has no end");
            }
        }
    }
}

/// The positions of which document 01 asks no more than text.
fn free(record: &Record) -> &'static [(usize, usize)] {
    match &record_type(record) {
        b"14" => &[(1, 1), (11, 22), (58, 91), (98, 119)],
        b"16" => &[(1, 1), (26, 120)],
        b"70" => &[(1, 1), (11, 93), (95, 120)],
        _ => &[(1, 1), (11, 120)],
    }
}

/// Each disposition is the one that both sides find.
#[test]
fn the_dispositions_are_those_found() {
    let mut lengths = [0; 13];
    let mut recalls = 0;
    for index in 0..10_000 {
        let flow = right_flow(index);
        let given = mav::dispositions(&flow).expect("a right flow");
        assert_eq!(Ok(given.accepted()), mav::read(&flow));
        // Numbers and kind, by the line of the small program.
        assert_eq!(given.accepted().to_string(), read(&flow).to_string());
        recalls += u32::from(given.accepted().kind == mav::FlowKind::Recalls);
        let count = given.len() as u64;
        assert_eq!(count, given.accepted().dispositions);
        assert_eq!(given.clone().count() as u64, count);
        for (k, given) in (1..=count).zip(given) {
            assert_eq!(Ok(given), mav::find(&flow, k), "flow {index}");
            let second = find(&flow, k).expect("found by the library");
            assert_eq!(given.number, k);
            assert_eq!(
                (given.first_record, given.records, given.cents),
                (second.first, second.records, second.cents)
            );
            assert_eq!(given.part, &flow[second.bytes]);
            lengths[given.records as usize] += 1;
        }
    }
    // Every number of records that a disposition can have.
    assert!(lengths[7..].iter().all(|&count| count > 100), "{lengths:?}");
    assert!((4_000..6_000).contains(&recalls), "{recalls}");
}

/// A flow that is damaged is refused as by reading, and one that is not gives
/// all of its bytes but header and trailer.
#[test]
fn damaged_flows_give_their_refusal() {
    let (mut refused, mut mixed) = (0, 0);
    for index in 0..20_000 {
        let flow = flow_to_amend(&mut Rng::for_case(SEED, index));
        match mav::dispositions(&flow) {
            Err(refusal) => {
                assert_eq!(mav::read(&flow), Err(refusal));
                let line = format!("{}: {}", read(&flow), refusal.reason);
                assert_eq!(refusal.to_string(), line);
                refused += 1;
                mixed += u32::from(refusal.reason == mav::Reason::OtherKind);
            }
            Ok(given) => {
                assert_eq!(mav::read(&flow), Ok(given.accepted()));
                let parts: Vec<&[u8]> = given.map(|given| given.part).collect();
                assert_eq!(parts.concat(), flow[120..flow.len() - 120]);
            }
        }
    }
    assert!((2_000..8_000).contains(&refused), "{refused}");
    assert!(mixed > 20, "{mixed}");
}

/// A vector is left with what stands in a slice before the blanks.
#[test]
fn a_vector_is_shortened_to_the_flow_left() {
    // Of requests, of recalls.
    let mut withdrawn = [0; 2];
    for index in 0..20_000 {
        let mut rng = Rng::for_case(SEED, index);
        let before = flow_to_amend(&mut rng);
        let k = disposition_number(&mut rng, 3);
        let (mut flow, mut memory) = (before.clone(), before.clone());
        let told = mav::withdraw(&mut flow, k);
        match mav::withdraw_in_place(&mut memory, k) {
            Err(refusal) => {
                assert_eq!(told, Err(refusal));
                assert_eq!(flow, before);
            }
            Ok(left) => {
                assert_eq!(told, Ok(left.accepted));
                assert_eq!(mav::read(&flow), told);
                let (front, blanks) = memory.split_at(left.length);
                assert_eq!(flow, front);
                assert!(!blanks.is_empty() && blanks.iter().all(|&byte| byte == b' '));
                withdrawn[usize::from(left.accepted.kind == mav::FlowKind::Recalls)] += 1;
            }
        }
    }
    assert!(
        withdrawn.iter().all(|&count| count > 2_500),
        "{withdrawn:?}"
    );
}

/// The account and its counts are those of the second program, or the refusal
/// is.
#[test]
fn an_account_is_given_with_its_counts() {
    let (mut accepted, mut refused) = (0, 0);
    for index in 0..10_000 {
        let Pair {
            old,
            new,
            work,
            room,
            ..
        } = pair_case(SEED, index, 60);
        let (mut ours, mut theirs) = (vec![b'#'; room], vec![b'#'; room]);
        let given = mav::compare(&old, &new, &mut vec![7; work], &mut ours);
        let due = evenings::compare(&old, &new, &mut vec![7; work], &mut theirs);
        match (given, due) {
            (Ok(given), Ok(due)) => {
                let due = Compared {
                    kept: due.kept,
                    dropped: due.dropped,
                    added: due.added,
                    length: due.len,
                };
                assert_eq!(given, due, "pair {index}");
                accepted += 1;
            }
            (Err(given), Err(due)) => {
                let due = (u64::from(due.number), due.record, u64::from(due.position));
                assert_eq!(numbers(given), due, "pair {index}");
                refused += 1;
            }
            (given, due) => panic!("pair {index}: {given:?}, {due:?}"),
        }
        assert_eq!(ours, theirs, "pair {index}");
    }
    assert!(accepted > 5_000 && refused > 1_000, "{accepted} {refused}");
}

fn numbers(refusal: mav::Refusal) -> (u64, u64, u64) {
    (refusal.reason.number(), refusal.record, refusal.position)
}

/// The record 14 of each line stands in the caller's own flow, at the place
/// that the second program gives.
#[test]
fn the_part_of_a_line_is_in_the_flow_lent() {
    let mut work = vec![0; mav::MIN_WORK];
    // Kept, dropped, added.
    let mut lines = [0; 3];
    for index in 0..2_000 {
        let Pair { old, new, .. } = pair_case(SEED, index, 12);
        let Ok(account) = evenings::account(&old, &new) else {
            continue;
        };
        for (n, &letter) in (1..).zip(&account) {
            let given = mav::compare_line(&old, &new, &mut work, n).expect("a line");
            let due = evenings::line(&old, &new, &mut work, n).expect("a line");
            assert_eq!(given.letter.byte(), letter);
            assert_eq!(given.part, due.part);
            assert_eq!(place(&given, &old, &new), (due.side, due.offset));
            assert_eq!(given.record, due.record);
            lines[given.letter as usize] += 1;
        }
        let after = mav::compare_line(&old, &new, &mut work, account.len() as u64 + 1);
        let refusal = after.expect_err("no line");
        assert_eq!(refusal.reason, mav::Reason::NoSuchDisposition);
    }
    assert!(lines.iter().all(|&count| count > 1_000), "{lines:?}");
}

/// In which flow the part stands, and where, by its address.
fn place(line: &AccountLine, old: &[u8], new: &[u8]) -> (Side, usize) {
    let (side, flow) = match line.letter {
        Letter::Dropped => (Side::Old, old),
        Letter::Kept | Letter::Added => (Side::New, new),
    };
    assert!(flow.as_ptr_range().contains(&line.part.as_ptr()));
    (side, line.part.as_ptr().addr() - flow.as_ptr().addr())
}
