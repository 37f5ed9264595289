//! The two sides: the proved library and the second program, called alike.

use mav::raw::{self, Entries};
use oracle::amend::{change, withdraw};
use oracle::evenings;
use oracle::fields::{amount, date, digits};
use oracle::find::find;
use oracle::list::{write_flow, write_list};
use oracle::reader::read;
use oracle::{Answer, FlowKind, Refusal};

use crate::entry::Entry;
use crate::lent::Memory;

/// A side: runs a call on the memory lent to it, and gives what the call
/// returns.
pub type Side<'a> = &'a dyn Fn(Entry, &mut Memory) -> u8;

/// What is compared.
#[derive(Clone, Copy)]
pub struct Sides<'a> {
    pub proved: Side<'a>,
    pub second: Side<'a>,
}

impl Sides<'_> {
    /// The proved library and the second program themselves.
    pub const REAL: Sides<'static> = Sides {
        proved: &proved,
        second: &second,
    };
}

/// The proved library.
pub fn proved(entry: Entry, memory: &mut Memory) -> u8 {
    let Memory {
        input,
        new,
        work,
        output,
        answer,
    } = memory;
    match entry {
        Entry::Digits => raw::digits(input, answer),
        Entry::Amount => raw::amount(input, answer),
        Entry::Date => raw::date(input, answer),
        Entry::Read => raw::read(input, answer),
        Entry::Find { k } => raw::find(input, k, answer),
        Entry::Write => raw::write(input, output, answer),
        Entry::List => raw::list(input, output, answer),
        Entry::Change { k, cents } => raw::change(input, k, cents, answer),
        Entry::Withdraw { k } => raw::withdraw(input, k, answer),
        Entry::Compare => raw::compare(input, new, work, output, answer),
        Entry::Line { n } => raw::compare_line(input, new, work, n, answer),
    }
}

/// The second program.
pub fn second(entry: Entry, memory: &mut Memory) -> u8 {
    let Memory {
        input,
        new,
        work,
        output,
        answer,
    } = memory;
    let (told, length) = match entry {
        Entry::Digits => (of_field(digits(input)), 0),
        Entry::Amount => (of_field(amount(input)), 0),
        Entry::Date => (of_field(date(input).map(|_| 0)), 0),
        Entry::Read => (of_answer(read(input)), 0),
        Entry::Find { k } => {
            let numbers = find(input, k).map(|found| [found.first, found.records, found.cents]);
            (of_numbers(numbers), 0)
        }
        Entry::Write => with_length(write_flow(input, output)),
        Entry::List => with_length(write_list(input, output)),
        Entry::Change { k, cents } => (of_answer(change(input, k, cents)), 0),
        Entry::Withdraw { k } => with_length(withdraw(input, k)),
        Entry::Compare => {
            let compared = evenings::compare(input, new, work, output);
            let numbers = compared.map(|found| [found.kept, found.dropped, found.added]);
            (of_numbers(numbers), compared.map_or(0, |found| found.len))
        }
        Entry::Line { n } => {
            let line = evenings::line(input, new, work, n);
            let numbers = line.map(|line| [line.letter.into(), line.record, 0]);
            (of_numbers(numbers), 0)
        }
    };
    let (status, entries) = reply(told, length);
    **answer = entries;
    status
}

/// The three numbers of an accepted call and the kind of flow, if it tells
/// one; or the three numbers of a refused call.
pub type Told = Result<([u64; 3], Option<FlowKind>), [u64; 3]>;

/// What a call of the C interface returns and the eight entries that it
/// writes, as the description of that interface has them.
pub fn reply(told: Told, length: usize) -> (u8, Entries) {
    let (status, [first, second, third], kind) = match told {
        Ok((numbers, kind)) => (1, numbers, kind.map_or(0, kind_entry)),
        Err(numbers) => (0, numbers, 0),
    };
    (status, [first, second, third, length as u64, kind, 0, 0, 0])
}

/// The kinds of flow.
pub const KINDS: [FlowKind; 2] = [FlowKind::Requests, FlowKind::Recalls];

/// Entry 4 of a call that tells this kind.
pub fn kind_entry(kind: FlowKind) -> u64 {
    match kind {
        FlowKind::Requests => 1,
        FlowKind::Recalls => 2,
    }
}

/// What an answer tells.
pub fn of_answer(answer: Answer) -> Told {
    match answer {
        Answer::Accepted {
            dispositions,
            cents,
            records,
            kind,
        } => Ok(([dispositions, cents, records], Some(kind))),
        Answer::Refused {
            number,
            record,
            position,
        } => Err([number.into(), record, position.into()]),
    }
}

/// The numbers of a call that tells no kind, or its refusal.
fn of_numbers(numbers: Result<[u64; 3], Refusal>) -> Told {
    match numbers {
        Ok(numbers) => Ok((numbers, None)),
        Err(refusal) => of_answer(refusal.into()),
    }
}

/// The value of a field, or a refusal that is its number alone.
fn of_field(value: Result<u64, u8>) -> Told {
    match value {
        Ok(value) => Ok(([value, 0, 0], None)),
        Err(number) => Err([number.into(), 0, 0]),
    }
}

fn with_length((answer, length): (Answer, usize)) -> (Told, usize) {
    (of_answer(answer), length)
}
