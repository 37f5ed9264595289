//! How often each refusal number comes in generated cases of the calls on one
//! flow or list.

use std::fmt;

use crate::amend::{change, withdraw};
use crate::answer::{Answer, Refusal};
use crate::find::find;
use crate::generate;
use crate::list::{items, write_flow, write_list};
use crate::reader::read;
use crate::record::{record_type, RECORD_LEN};
use crate::rng::Rng;

/// The numbers that can come of one flow or list.
pub const NUMBERS: [u8; 22] = [
    1, 2, 3, 4, 5, 6, 7, 8, 9, 10, 11, 12, 13, 14, 15, 16, 17, 18, 20, 21, 22, 25,
];

/// Counts of answers.
#[derive(Clone, Debug, Default, Eq, PartialEq)]
pub struct Tally {
    pub accepted: u64,
    counts: [u64; 32],
}

impl Tally {
    /// How often a number came.
    pub fn count(&self, number: u8) -> u64 {
        self.counts.get(usize::from(number)).copied().unwrap_or(0)
    }

    fn add(&mut self, number: Option<u8>) {
        match number {
            None => self.accepted += 1,
            Some(number) => {
                if let Some(count) = self.counts.get_mut(usize::from(number)) {
                    *count += 1;
                }
            }
        }
    }
}

impl fmt::Display for Tally {
    fn fmt(&self, f: &mut fmt::Formatter<'_>) -> fmt::Result {
        writeln!(f, "accepted {}", self.accepted)?;
        for number in NUMBERS {
            writeln!(f, "refused {number} {}", self.count(number))?;
        }
        Ok(())
    }
}

/// Runs `count` generated cases through the entry points in turn.
pub fn tally(seed: u64, count: u64) -> Tally {
    let mut tally = Tally::default();
    for index in 0..count {
        let mut rng = Rng::for_case(seed, index);
        tally.add(match index % 6 {
            0 => number_of(read(&generate::flow_case(seed, index / 6))),
            1 => write_flow_case(&mut rng),
            2 => write_list_case(&mut rng),
            3 => find_case(&mut rng),
            4 => change_case(&mut rng),
            _ => withdraw_case(&mut rng),
        });
    }
    tally
}

fn number_of(answer: Answer) -> Option<u8> {
    match answer {
        Answer::Accepted { .. } => None,
        Answer::Refused { number, .. } => Some(number),
    }
}

/// Room that is mostly enough, at times just or far too short.
fn room(rng: &mut Rng, needed: usize) -> Vec<u8> {
    let len = match rng.below(12) {
        0 => needed.saturating_sub(1),
        1 => rng.index(needed),
        2 => needed + 200,
        _ => needed,
    };
    vec![b'#'; len]
}

fn write_flow_case(rng: &mut Rng) -> Option<u8> {
    let list = generate::list(rng);
    let mut out = room(rng, (items(&list).count() + 1) * RECORD_LEN);
    number_of(write_flow(&list, &mut out).0)
}

fn write_list_case(rng: &mut Rng) -> Option<u8> {
    let flow = generate::flow_to_amend(rng);
    let mut whole = vec![b'#'; flow.len()];
    let (_, needed) = write_list(&flow, &mut whole);
    let mut out = room(rng, needed);
    number_of(write_list(&flow, &mut out).0)
}

fn count_of(flow: &[u8]) -> u64 {
    let (records, _) = flow.as_chunks::<RECORD_LEN>();
    let openings = records
        .iter()
        .filter(|record| record_type(record) == *b"14");
    openings.count() as u64
}

fn find_case(rng: &mut Rng) -> Option<u8> {
    let flow = generate::flow_to_amend(rng);
    let k = generate::disposition_number(rng, count_of(&flow));
    find(&flow, k).err().map(|Refusal { number, .. }| number)
}

fn change_case(rng: &mut Rng) -> Option<u8> {
    let mut flow = generate::flow_to_amend(rng);
    let k = generate::disposition_number(rng, count_of(&flow));
    let cents = generate::new_amount(rng);
    number_of(change(&mut flow, k, cents))
}

fn withdraw_case(rng: &mut Rng) -> Option<u8> {
    let mut flow = generate::flow_to_amend(rng);
    let k = generate::disposition_number(rng, count_of(&flow));
    number_of(withdraw(&mut flow, k).0)
}
