//! The calls that are measured, made on both sides.

use std::hint::black_box;

use mav::{Accepted, Compared, Refusal, Written, MAX_ACCOUNT_LENGTH, MIN_WORK};
use oracle::{amend, list, reader, Answer, FlowKind};

use crate::evenings::{self, Numbering};
use crate::flows::Evenings;
use crate::time::{side_by_side, Memory, Times};

/// The place of our times among those of both sides.
pub const OURS: usize = 0;
/// The place of the plain reader's times.
pub const PLAIN: usize = 1;

/// A call. Reading, reading back and writing take the input as it is; change
/// and withdrawal take a copy of it in the memory lent.
#[derive(Clone, Copy, Debug)]
pub enum Call {
    Read,
    Change { k: u64, cents: u64 },
    Withdraw { k: u64 },
    ReadBack,
    Write,
}

impl Call {
    /// The answer of the proved library, and the length that it gives; 0
    /// where the call gives none.
    pub fn ours(self, input: &[u8], memory: &mut [u8]) -> (Answer, usize) {
        let lent = memory.len();
        match self {
            Call::Read => (answered(mav::read(input)), 0),
            Call::Change { k, cents } => (answered(mav::change(memory, k, cents)), 0),
            Call::Withdraw { k } => {
                let left = mav::withdraw_in_place(memory, k);
                let length = left.map_or(lent, |left| left.length);
                (answered(left.map(|left| left.accepted)), length)
            }
            Call::ReadBack => written(mav::read_back(input, memory)),
            Call::Write => written(mav::write(input, memory)),
        }
    }

    /// The same of the second program.
    pub fn plain(self, input: &[u8], memory: &mut [u8]) -> (Answer, usize) {
        match self {
            Call::Read => (reader::read(input), 0),
            Call::Change { k, cents } => (amend::change(memory, k, cents), 0),
            Call::Withdraw { k } => amend::withdraw(memory, k),
            Call::ReadBack => list::write_list(input, memory),
            Call::Write => list::write_flow(input, memory),
        }
    }

    /// The memory that the call writes to.
    pub fn memory(self, input: &[u8]) -> Memory<'_> {
        match self {
            Call::Read => Memory::none(),
            Call::Change { .. } | Call::Withdraw { .. } => Memory::copy_of(input),
            Call::ReadBack => Memory::room(mav::list_room(input.len())),
            Call::Write => Memory::room(mav::flow_room(input)),
        }
    }
}

/// An answer of the proved library in the form of the second program.
fn answered(answer: Result<Accepted, Refusal>) -> Answer {
    match answer {
        Ok(accepted) => Answer::Accepted {
            dispositions: accepted.dispositions,
            cents: accepted.cents,
            records: accepted.records,
            kind: kind(accepted.kind),
        },
        Err(refusal) => Answer::Refused {
            number: refusal.reason.number() as u8,
            record: refusal.record,
            position: refusal.position as u8,
        },
    }
}

/// A kind of flow likewise.
fn kind(kind: mav::FlowKind) -> FlowKind {
    match kind {
        mav::FlowKind::Requests => FlowKind::Requests,
        mav::FlowKind::Recalls => FlowKind::Recalls,
        other => panic!("the second program has no kind {other}"),
    }
}

/// The same with the length written, 0 where the call is refused.
fn written(answer: Result<Written, Refusal>) -> (Answer, usize) {
    let length = answer.map_or(0, |written| written.length);
    (answered(answer.map(|written| written.accepted)), length)
}

/// Makes the call once on each side, and gives the number of records of the
/// answer and the bytes left. The call must be accepted, with the same answer
/// and the same bytes on both sides.
pub fn agreed(call: Call, input: &[u8]) -> (u64, Vec<u8>) {
    let (mut ours, mut plain) = (call.memory(input), call.memory(input));
    let (ours, plain) = (ours.renewed(), plain.renewed());
    let answer = call.ours(input, ours);
    assert_eq!(answer, call.plain(input, plain), "answers to {call:?}");
    assert!(ours == plain, "the bytes left by {call:?} differ");
    let (Answer::Accepted { records, .. }, length) = answer else {
        panic!("{call:?} is refused: {}", answer.0);
    };
    (records, ours[..length].to_vec())
}

/// The times of both sides, measured after both were seen to agree.
pub fn compared(call: Call, input: &[u8], rounds: usize) -> Times<2> {
    agreed(call, input);
    let ours = |memory: &mut [u8]| {
        black_box(call.ours(black_box(input), black_box(memory)));
    };
    let plain = |memory: &mut [u8]| {
        black_box(call.plain(black_box(input), black_box(memory)));
    };
    side_by_side(rounds, &mut call.memory(input), [&ours, &plain])
}

/// A comparison of two evenings: of two flows, in a working memory, with room
/// for the account.
pub type Comparer = fn(&[u8], &[u8], &mut [u16], &mut [u8]) -> Result<Compared, oracle::Refusal>;

/// Ours, the plain code that compares requests, and that which hashes them.
pub const COMPARERS: [Comparer; 3] = [
    |old, new, work, account| mav::compare(old, new, work, account).map_err(refused),
    |old, new, work, account| evenings::compare(Numbering::Compared, old, new, work, account),
    |old, new, work, account| evenings::compare(Numbering::Hashed, old, new, work, account),
];

/// A refusal of the proved library in the form of the second program.
fn refused(refusal: Refusal) -> oracle::Refusal {
    oracle::Refusal {
        number: refusal.reason.number() as u8,
        record: refusal.record,
        position: refusal.position as u8,
    }
}

/// Compares two evenings on every side. The account, its counts and the memory
/// afterwards must be the same, and as many kept as are meant to be.
pub fn account_agreed(
    Evenings {
        name,
        old,
        new,
        kept,
    }: &Evenings,
) {
    let [ours, plain, hashed] = COMPARERS.map(|compare| {
        let (mut work, mut account) = (vec![1; MIN_WORK], vec![b'#'; MAX_ACCOUNT_LENGTH]);
        let compared = compare(old, new, &mut work, &mut account);
        (compared, work, account)
    });
    assert!(
        ours.0.is_ok_and(|compared| compared.kept == *kept),
        "{name}: {:?}",
        ours.0
    );
    assert!(ours == plain, "{name}: {:?}, {:?}", ours.0, plain.0);
    assert!(ours == hashed, "{name}: {:?}, {:?}", ours.0, hashed.0);
}

#[cfg(test)]
mod tests {
    use super::*;
    use crate::flows::{evenings, recalled, usual};

    #[test]
    fn both_sides_agree_on_every_call() {
        for (flow, letter) in [(usual(3), b'H'), (recalled(usual(3)), b'Q')] {
            agree_on_every_call(&flow, letter);
        }
    }

    /// A usual flow of three dispositions, whose list opens with the letter.
    fn agree_on_every_call(flow: &[u8], letter: u8) {
        assert_eq!(agreed(Call::Read, flow), (23, vec![]));
        assert_eq!(agreed(Call::Change { k: 3, cents: 1 }, flow).0, 23);
        // One disposition less: 16 records of 120 bytes.
        let (records, left) = agreed(Call::Withdraw { k: 1 }, flow);
        assert_eq!((records, left.len()), (16, 1_920));
        // 50 bytes, and 3 times 593 (document 01, "Our request list").
        let (records, list) = agreed(Call::ReadBack, flow);
        assert_eq!((records, list.len(), list[0]), (23, 1_829, letter));
        assert_eq!(agreed(Call::Write, &list), (23, flow.to_vec()));
    }

    #[test]
    fn all_sides_agree_on_every_evening() {
        for pair in evenings() {
            account_agreed(&pair);
        }
    }

    /// Refusals too: each call is refused as on the other sides.
    #[test]
    fn all_sides_refuse_alike() {
        let [.., next] = evenings();
        let (old, new) = (&next.old[..], &next.new[..]);
        let (many, recalls) = (&usual(257)[..], &recalled(usual(3))[..]);
        for (old, new, work, room, number) in [
            (&old[1..], new, 0, 0, 1),
            (old, &new[..960], 0, 0, 4),
            (many, recalls, 0, 0, 27),
            (old, recalls, 0, 0, 28),
            (old, new, MIN_WORK - 1, 0, 34),
            (old, new, MIN_WORK, 261, 21),
        ] {
            for compare in COMPARERS {
                let refusal = compare(old, new, &mut vec![1; work], &mut vec![b'#'; room]);
                assert_eq!(refusal.unwrap_err().number, number);
            }
        }
    }

    #[test]
    #[should_panic(expected = "3 dropped, 3 added, 3 amounts")]
    fn another_number_of_kept_is_not_measured() {
        let [.., mut next] = evenings();
        next.kept += 1;
        account_agreed(&next);
    }

    #[test]
    #[should_panic(expected = "is refused: refused 15 record 0 position 0")]
    fn a_refused_call_is_not_measured() {
        agreed(Call::Withdraw { k: 4 }, &usual(3));
    }
}
