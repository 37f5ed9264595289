//! The requests of a flow as they are compared with those of another evening.

use std::path::Path;

use mav::{
    Accepted, Disposition, Dispositions, ItemKind, AMOUNT_LENGTH, DATE_LENGTH, RECORD_LENGTH,
};

use crate::failure::Outcome;
use crate::list;
use crate::record::text;
use crate::refusal;
use crate::request::{debtor, due};

/// A flow that is accepted.
pub struct Evening<'a> {
    pub named: &'a Path,
    pub flow: &'a [u8],
    dispositions: Dispositions<'a>,
}

impl<'a> Evening<'a> {
    /// A flow as it was read, which must be accepted.
    pub fn of(named: &'a Path, flow: &'a [u8]) -> Outcome<Evening<'a>> {
        Ok(Evening {
            named,
            flow,
            dispositions: refusal::accepted(named, flow)?,
        })
    }

    pub fn numbers(&self) -> Accepted {
        self.dispositions.accepted()
    }

    /// Its requests in order, each with its part of the flow's list.
    pub fn requests(&self) -> Outcome<Vec<EveningRequest<'a>>> {
        let (_, list) = list::of_flow(self.named, self.flow)?;
        // The list has an item for each record but the trailer, and the first is the header's.
        let mut items = mav::items(&list).skip(1).map(<[u8]>::to_vec);
        let with_items = |found: Disposition<'a>| EveningRequest {
            number: found.number,
            cents: found.cents,
            due: due(found.part),
            debtor: debtor(found.part),
            items: items
                .by_ref()
                .take(found.part.len() / RECORD_LENGTH)
                .collect(),
        };
        Ok(self.dispositions.clone().map(with_items).collect())
    }
}

/// The kinds of item that a request can have, in the order of their records (document 01, "Our request list").
const LETTERS: &[u8] = b"DSCBARXKZ";

/// A request of an evening.
pub struct EveningRequest<'a> {
    pub number: u64,
    pub cents: u64,
    pub due: &'a [u8],
    pub debtor: &'a [u8],
    /// Its items in the flow's list, which have all of it but the numbers.
    items: Vec<Vec<u8>>,
}

impl EveningRequest<'_> {
    /// Whether nothing but the numbers differs (document 02, E7).
    pub fn is_same(&self, other: &EveningRequest<'_>) -> bool {
        self.items == other.items
    }

    /// The types of the records that differ in something else than due date and amount, in the order in which
    /// they stand.
    pub fn other_records(&self, other: &EveningRequest<'_>) -> Vec<String> {
        let differs = |letter: &&u8| self.others(**letter).ne(other.others(**letter));
        let kinds = LETTERS.iter().filter(differs);
        let types = kinds.filter_map(|letter| ItemKind::of(*letter));
        types.map(|kind| text(&kind.record_type)).collect()
    }

    /// What its items of a kind have beside due date and amount, with which that of a record 14 begins.
    fn others(&self, letter: u8) -> impl Iterator<Item = &[u8]> {
        let items = self.items.iter().filter(move |item| item[0] == letter);
        items.map(move |item| match letter {
            b'D' => &item[1 + DATE_LENGTH + AMOUNT_LENGTH..],
            _ => &item[1..],
        })
    }
}
