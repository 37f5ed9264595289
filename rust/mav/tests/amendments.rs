//! Document 01's worked examples, lists of calls on one memory, and the way from flow to list and back.

mod common;

use common::{accepted, of_call, refused, sample};
use mav::{Reason, MAX_TOTAL};

#[test]
fn where_the_two_rents_stand() {
    let flow = sample("two-rents.flow");
    let found = [1, 2].map(|k| mav::find(&flow, k).expect("two dispositions"));
    assert_eq!(found.map(|at| at.first_record), [2, 9]);
    assert_eq!(found.map(|at| at.records), [7, 7]);
    assert_eq!(found.map(|at| at.cents), [45_000, 38_050]);
    assert_eq!(found.map(|at| at.range()), [120..960, 960..1_800]);
    // The part is the caller's own memory.
    assert_eq!(found[1].part.as_ptr(), flow[960..].as_ptr());
    assert_eq!(found[1].part.len(), 840);
}

#[test]
fn the_parts_of_forty_rents_lie_between_header_and_trailer() {
    let flow = sample("forty-rents.flow");
    let found: Vec<_> = (1..=40)
        .map(|k| mav::find(&flow, k).expect("forty"))
        .collect();
    let parts: Vec<&[u8]> = found.iter().map(|at| at.part).collect();
    assert_eq!(parts.concat(), flow[120..44_160 - 120]);
    assert_eq!(found.iter().map(|at| at.cents).sum::<u64>(), 2_225_000);
    // Each has 30000 cents and 1250 more for its number.
    assert_eq!(found[6].cents, 38_750);
}

#[test]
fn header_alone_and_header_with_trailer() {
    let flow = sample("two-rents.flow");
    assert_eq!(mav::read(&flow[..120]), Err(refused(Reason::Ended, 2, 0)));
    let two = [&flow[..120], &flow[1_800..]].concat();
    assert_eq!(mav::read(&two), Err(refused(Reason::RecordType, 2, 2)));
}

#[test]
fn the_lengths_of_lists_and_flows() {
    let list = sample("two-rents.list");
    // Example 9: one disposition with R and no S has 643 bytes and encodes 1,080.
    let mut out = vec![0; 1_080];
    let written = mav::write(&list[..643], &mut out).expect("one rent");
    assert_eq!(
        (written.length, written.accepted),
        (1_080, accepted(1, 45_000, 9))
    );
    assert_eq!(out, sample("one-rent.flow"));
    let mut back = vec![0; 643];
    let written = mav::read_back(&out, &mut back).expect("room for the list");
    assert_eq!(
        (written.length, written.accepted),
        (643, accepted(1, 45_000, 9))
    );
    assert_eq!(back, list[..643]);
    // One byte less is too little for either.
    let refusal = of_call(Reason::Room);
    assert_eq!(mav::write(&list[..643], &mut [0; 1_079]), Err(refusal));
    assert_eq!(mav::read_back(&out, &mut [0; 642]), Err(refusal));
}

#[test]
fn a_flow_and_its_list_in_memory_of_their_own() {
    for name in ["two-rents", "two-rents-recall", "forty-rents"] {
        let flow = sample(&format!("{name}.flow"));
        let list = sample(&format!("{name}.list"));
        let told = mav::read(&flow).expect("right");
        assert_eq!(mav::read_back_to_vec(&flow), Ok((told, list.clone())));
        assert_eq!(mav::write_to_vec(&list), Ok((told, flow)));
    }
    // Not canonical: the same list, from which the canonical flow comes.
    let told = accepted(2, 83_050, 16);
    let (_, list) = mav::read_back_to_vec(&sample("two-rents-filler.flow")).expect("right");
    assert_eq!(
        mav::write_to_vec(&list),
        Ok((told, sample("two-rents.flow")))
    );
}

#[test]
fn room_is_made_for_every_list_and_flow() {
    let list = sample("two-rents.list");
    for length in 0..=list.len() {
        let told = mav::write_to_vec(&list[..length]).map_err(|refusal| refusal.reason);
        assert_ne!(told, Err(Reason::Room), "{length}");
    }
    let flow = sample("two-rents.flow");
    for length in 0..=flow.len() {
        let told = mav::read_back_to_vec(&flow[..length]).map_err(|refusal| refusal.reason);
        assert_ne!(told, Err(Reason::Room), "{length}");
    }
}

#[test]
fn calls_on_one_memory() {
    let mut memory = sample("two-rents.flow");
    assert_eq!(
        mav::change(&mut memory, 2, 40_000),
        Ok(accepted(2, 85_000, 16))
    );
    assert_eq!(
        mav::change(&mut memory, 3, 1),
        Err(of_call(Reason::NoSuchDisposition))
    );
    let left = mav::withdraw_in_place(&mut memory, 1).expect("two dispositions");
    assert_eq!(
        (left.length, left.accepted),
        (1_080, accepted(1, 40_000, 9))
    );
    let refusal = of_call(Reason::OnlyDisposition);
    let told = mav::withdraw_in_place(&mut memory[..left.length], 1);
    assert_eq!(told, Err(refusal));
    assert_eq!(mav::read(&memory[..left.length]), Ok(left.accepted));
    assert_eq!(memory[left.length..], [b' '; 840]);
    // At the old length the blanks are records after the trailer.
    assert_eq!(mav::read(&memory), Err(refused(Reason::RecordType, 10, 2)));
}

#[test]
fn forty_rents_withdrawn_one_after_another() {
    let mut flow = sample("forty-rents.flow");
    for count in (1..40).rev() {
        let gone = mav::find(&flow, 1).expect("some are left").part.len();
        let due = flow.len() - gone;
        let left = mav::withdraw(&mut flow, 1).expect("more than one");
        assert_eq!(left.dispositions, count);
        assert_eq!(flow.len(), due);
        assert_eq!(mav::read(&flow), Ok(left));
    }
    // The fortieth is left, of 30000 + 40 * 1250 cents.
    assert_eq!(mav::find(&flow, 1).expect("one").cents, 80_000);
}

#[test]
fn a_vector_is_left_with_the_flow_and_no_blanks() {
    for file in [
        "two-rents.flow",
        "two-rents-recall.flow",
        "two-rents-filler.flow",
        "forty-rents.flow",
    ] {
        let before = sample(file);
        let count = mav::read(&before).expect("right").dispositions;
        for k in 1..=count {
            let mut memory = before.clone();
            let left = mav::withdraw_in_place(&mut memory, k).expect("more than one");
            let mut flow = before.clone();
            assert_eq!(mav::withdraw(&mut flow, k), Ok(left.accepted));
            assert_eq!(flow, memory[..left.length], "{file} {k}");
        }
    }
}

/// The list of 101 rents of the largest amount, the last of them with another amount.
fn rich_list(last: &[u8; 13]) -> Vec<u8> {
    let mut list = sample("refused-17-total.list");
    // An H of 50 bytes and a hundred rents of 593; then D, six bytes of date, and the amount.
    let amount = 50 + 100 * 593 + 1 + 6;
    assert_eq!(&list[amount..amount + 13], b"9999999999999");
    list[amount..amount + 13].copy_from_slice(last);
    list
}

#[test]
fn a_total_at_the_limit() {
    // A hundred times 9999999999999 and 99 are 999999999999999.
    let (told, mut flow) = mav::write_to_vec(&rich_list(b"0000000000099")).expect("fifteen nines");
    assert_eq!(told, accepted(101, MAX_TOTAL, 709));
    let before = flow.clone();
    assert_eq!(
        mav::change(&mut flow, 101, 100),
        Err(of_call(Reason::TotalTooLarge))
    );
    assert_eq!(flow, before);
    assert_eq!(mav::change(&mut flow, 101, 99), Ok(told));
    assert_eq!(flow, before);
    let refusal = mav::write_to_vec(&rich_list(b"0000000000100")).unwrap_err();
    assert_eq!(refusal, of_call(Reason::TotalTooLarge));
}
