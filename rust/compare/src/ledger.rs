//! A list of calls on one flow, held against the ledger as well (document 01,
//! "Questions and changes", from "The sheet of demand 3" on; document 02, E1).

use oracle::ledger::{Call, Ledger};
use oracle::list::{is_canonical, write_list};
use oracle::rng::Rng;

use crate::calls::{agree, same, Against, Agreed, Outcome};
use crate::entry::Entry;
use crate::lent::{Buffer, Lent};
use crate::sides::{of_answer, Sides};
use crate::tally::Tally;

/// Compares the calls one after the other, each lent the flow that the one
/// before it left, then what the flow left says of itself. Nothing is
/// compared where the first flow is not accepted: such a flow has no ledger.
pub fn check(
    sides: &Sides,
    tally: &mut Tally,
    first: &[u8],
    calls: &[Call],
    mut rng: Rng,
) -> Agreed<()> {
    let Some(ledger) = ledger_of(first) else {
        return Ok(());
    };
    let mut memory = Buffer::new(first, &mut rng);
    let mut session = Session {
        sides,
        tally,
        ledger,
        rng,
    };
    for &call in calls {
        memory = session.amend(call, memory, first.len())?;
    }
    session.end(&memory, is_canonical(first))
}

/// The ledger that starts as the flow's own list.
fn ledger_of(flow: &[u8]) -> Option<Ledger> {
    let mut list = vec![0; flow.len()];
    match write_list(flow, &mut list) {
        (_, 0) => None,
        (_, len) => Ledger::new(&list[..len]),
    }
}

/// The ledger beside the two sides.
struct Session<'a> {
    sides: &'a Sides<'a>,
    tally: &'a mut Tally,
    ledger: Ledger,
    rng: Rng,
}

impl Session<'_> {
    /// A call on both sides. `due` makes of the outcome they share what the
    /// ledger says; the two must be the same.
    fn call(
        &mut self,
        entry: Entry,
        input: &Buffer,
        room: usize,
        due: impl FnOnce(&mut Outcome),
    ) -> Agreed<Outcome> {
        let lent = Lent::new(input.clone(), room, &mut self.rng);
        let outcome = agree(self.sides, self.tally, entry, &lent)?;
        let mut held = outcome.clone();
        due(&mut held);
        same(entry, &lent, &outcome, Against::Ledger, held)?;
        Ok(outcome)
    }

    /// An amendment: its answer is the ledger's, and the bytes after the flow
    /// left, up to the length of the first flow, are blanks. Gives the memory
    /// with the flow left lent.
    fn amend(&mut self, call: Call, memory: Buffer, whole: usize) -> Agreed<Buffer> {
        let (answer, shorter) = self.ledger.call(call);
        let left = shorter.unwrap_or(memory.lent().len());
        let length = match call {
            Call::Change { .. } => 0,
            Call::Withdraw { .. } => left,
        };
        let outcome = self.call(call.into(), &memory, 0, |due| {
            due.answer(of_answer(answer), length);
            due.after.input.blank(left, whole);
        })?;
        let mut memory = outcome.after.input;
        memory.shorten(left);
        Ok(memory)
    }

    /// The flow left is accepted with the ledger's numbers and kind, its list
    /// is the ledger's, and that list written is a flow with the same list:
    /// the flow left itself where the first one was canonical.
    fn end(&mut self, memory: &Buffer, canonical: bool) -> Agreed<()> {
        let told = of_answer(self.ledger.numbers().into());
        let list = self.ledger.list();
        let whole = memory.lent();
        let listed = |due: &mut Outcome| {
            due.answer(told, list.len());
            due.after.output.put(&list);
        };
        self.call(Entry::Read, memory, 0, |due| due.answer(told, 0))?;
        self.call(Entry::List, memory, list.len(), listed)?;
        let input = Buffer::new(&list, &mut self.rng);
        let written = self.call(Entry::Write, &input, whole.len(), |due| {
            due.answer(told, whole.len());
            if canonical {
                due.after.output.put(whole);
            }
        })?;
        let again = written.after.output;
        self.call(Entry::List, &again, list.len(), listed)?;
        Ok(())
    }
}
