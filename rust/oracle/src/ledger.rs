//! The ledger: a request list kept from the calls alone (document 01,
//! "Questions and changes", from "The sheet of demand 3" on; its kind by
//! document 02, E1, and no amount of 0 by E5).
//!
//! It is defined on items and calls only. No flow is read or amended here,
//! so that it can be held against the amendments.

use crate::answer::{number, Accepted, Answer, Refusal};
use crate::fields::{amount, is_amount, write_digits, MAX_TOTAL};
use crate::kind::FlowKind;
use crate::list::items;
use crate::record::RECORD_LEN;

/// One call on a flow.
#[derive(Clone, Copy, Debug, Eq, PartialEq)]
pub enum Call {
    Change { k: u64, cents: u64 },
    Withdraw { k: u64 },
}

/// A request list as its items, each a kind byte and its body.
#[derive(Clone, Debug, Eq, PartialEq)]
pub struct Ledger {
    items: Vec<Vec<u8>>,
}

/// Where 34-46 stand in an item D: after the kind and the six bytes of 23-28.
pub(crate) const CENTS: std::ops::Range<usize> = 7..20;

impl Ledger {
    /// The ledger that starts as this list. There is none if an item is of
    /// unknown kind or cut short, or an amount is not digits or zero.
    pub fn new(list: &[u8]) -> Option<Ledger> {
        let mut rows = Vec::new();
        for item in items(list) {
            let item = item.ok()?;
            let row = [&[item.layout.kind], item.body].concat();
            if is_opening(&row) {
                cents_of(&row)?;
            }
            rows.push(row);
        }
        Some(Ledger { items: rows })
    }

    /// The list on the ledger.
    pub fn list(&self) -> Vec<u8> {
        self.items.concat()
    }

    /// Feeds one call. An accepted withdrawal also gives the new length of
    /// the flow.
    pub fn call(&mut self, call: Call) -> (Answer, Option<usize>) {
        match call {
            Call::Change { k, cents } => (self.change(k, cents).into(), None),
            Call::Withdraw { k } => {
                let answer = self.withdraw(k);
                let len = answer.map(|left| left.records as usize * RECORD_LEN);
                (answer.into(), len.ok())
            }
        }
    }

    /// Refused by 15, 16 (an amount of 0 too), 17; else the k-th D gets the new
    /// amount.
    fn change(&mut self, k: u64, cents: u64) -> Result<Accepted, Refusal> {
        let (start, _) = self.disposition(k)?;
        if !is_amount(cents) {
            return Err(Refusal::of_call(number::NOT_AN_AMOUNT));
        }
        let old = cents_of(&self.items[start]).unwrap_or(0);
        if self.total() - u128::from(old) + u128::from(cents) > u128::from(MAX_TOTAL) {
            return Err(Refusal::of_call(number::TOTAL_LIMIT));
        }
        write_digits(&mut self.items[start][CENTS], cents);
        Ok(self.numbers())
    }

    /// Refused by 15, 18; else the items of disposition k go.
    fn withdraw(&mut self, k: u64) -> Result<Accepted, Refusal> {
        let (start, end) = self.disposition(k)?;
        if self.count() == 1 {
            return Err(Refusal::of_call(number::ONLY_DISPOSITION));
        }
        self.items.drain(start..end);
        Ok(self.numbers())
    }

    /// The items of disposition k, from the k-th D up to the next D or the
    /// end; or 15.
    fn disposition(&self, k: u64) -> Result<(usize, usize), Refusal> {
        let openings = || (0..self.items.len()).filter(|&i| is_opening(&self.items[i]));
        let place = k
            .checked_sub(1)
            .and_then(|place| usize::try_from(place).ok());
        let start = place.and_then(|place| openings().nth(place));
        let start = start.ok_or(Refusal::of_call(number::NO_SUCH_DISPOSITION))?;
        let end = openings().find(|&i| i > start).unwrap_or(self.items.len());
        Ok((start, end))
    }

    /// The number of D items.
    fn count(&self) -> u64 {
        self.items.iter().filter(|item| is_opening(item)).count() as u64
    }

    /// The sum of the amounts of the D items.
    fn total(&self) -> u128 {
        let openings = self.items.iter().filter(|item| is_opening(item));
        openings
            .filter_map(|item| cents_of(item))
            .map(u128::from)
            .sum()
    }

    /// The amount of disposition k, if there is one.
    pub fn amount(&self, k: u64) -> Option<u64> {
        let (start, _) = self.disposition(k).ok()?;
        cents_of(&self.items[start])
    }

    /// The kind that the latest H or Q gives.
    fn kind(&self) -> FlowKind {
        let mut latest_first = self.items.iter().rev();
        latest_first
            .find_map(|item| FlowKind::of_letter(*item.first()?))
            .unwrap_or_default()
    }

    /// Count, total, items + 1 and the kind. The total of a list that no flow
    /// has may exceed 64 bits; it is given as the largest number then.
    pub fn numbers(&self) -> Accepted {
        Accepted {
            dispositions: self.count(),
            cents: u64::try_from(self.total()).unwrap_or(u64::MAX),
            records: self.items.len() as u64 + 1,
            kind: self.kind(),
        }
    }
}

/// Whether an item is a D, which opens a disposition.
fn is_opening(item: &[u8]) -> bool {
    item.first() == Some(&b'D')
}

/// The amount of an item D.
fn cents_of(item: &[u8]) -> Option<u64> {
    item.get(CENTS).and_then(|bytes| amount(bytes).ok())
}
