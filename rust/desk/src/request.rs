//! What is shown of a request, which in a recall flow is a recall. All of it is read from a flow that the
//! library has accepted: its records stand in the order of document 01 and its fields keep the table of
//! checks (`GrammarExact`).

use mav::{Disposition, FlowKind, RECORD_LENGTH};

use crate::euro;
use crate::kind::one;
use crate::record::{characters, field, record_type, text};

/// A request as a row of the table.
pub struct Request {
    pub number: u64,
    pub cents: u64,
    /// Number, due date, amount, debtor, the creditor's number: the cells of its row.
    cells: [String; 5],
}

/// The titles over the cells.
const TITLES: [&str; 5] = ["NUMBER", "DUE", "AMOUNT", "DEBTOR", "REFERENCE"];

impl Request {
    /// The request that the library calls this disposition.
    pub fn of(found: Disposition<'_>) -> Request {
        let Disposition {
            number,
            cents,
            part,
            ..
        } = found;
        let cells = [
            number.to_string(),
            date(due(part)),
            euro::shown(cents),
            text(field(of_type(part, b"30"), 11, 40)),
            text(field(of_type(part, b"51"), 11, 20)),
        ];
        Request {
            number,
            cents,
            cells,
        }
    }

    /// Whether one of the cells has the text, in capital or small letters. An amount has it with the points
    /// between thousands and without them.
    pub fn has(&self, wanted: &str) -> bool {
        let wanted = wanted.to_ascii_uppercase();
        let amount = self.cells[2].replace('.', "");
        let mut cells = self.cells.iter().chain([&amount]);
        cells.any(|cell| cell.to_ascii_uppercase().contains(&wanted))
    }

    /// Its row of the table.
    pub fn row(&self) -> String {
        line(&self.cells.each_ref().map(String::as_str))
    }

    /// The request in words, by the kind of its flow.
    pub fn named(&self, kind: FlowKind) -> String {
        let [number, due, _, debtor, reference] = &self.cells;
        let reference = match reference.as_str() {
            "" => String::new(),
            text => format!(", reference {text}"),
        };
        let mut one = one(kind).to_owned();
        one[..1].make_ascii_uppercase();
        format!("{one} {number}, due {due}, {debtor}{reference}")
    }
}

/// The date at which a request is due, as the flow has it: 23-28 of its record 14.
pub fn due(part: &[u8]) -> &[u8] {
    field(part, 23, 28)
}

/// The debtor of a request, as the flow has it: 11-70 of its record 30.
pub fn debtor(part: &[u8]) -> &[u8] {
    field(of_type(part, b"30"), 11, 70)
}

/// A debtor as text. It has two halves of thirty positions, each with its own blanks behind it.
pub fn debtor_text(debtor: &[u8]) -> String {
    let halves = debtor.chunks(30).map(text);
    let filled: Vec<String> = halves.filter(|half| !half.is_empty()).collect();
    filled.join(" ")
}

/// The first record of a type that every request has.
fn of_type<'a>(part: &'a [u8], wanted: &[u8]) -> &'a [u8] {
    let mut records = part.chunks_exact(RECORD_LENGTH);
    let found = records.find(|record| record_type(record) == wanted);
    found.expect("every request of an accepted flow has records 30 and 51")
}

/// The line over the rows.
pub fn titles() -> String {
    line(&TITLES)
}

fn line([number, due, amount, debtor, reference]: &[&str; 5]) -> String {
    format!("{number:>7}  {due:<10} {amount:>17}  {debtor:<30} {reference}")
        .trim_end()
        .to_owned()
}

/// A date GGMMAA as day, month and year, of the years 2000 to 2099.
pub fn date(digits: &[u8]) -> String {
    let [day, month, year] = [0..2, 2..4, 4..6].map(|range| characters(&digits[range]));
    format!("{day}/{month}/20{year}")
}

#[cfg(test)]
mod tests {
    use super::*;

    #[test]
    fn the_halves_of_a_debtor_are_one_text() {
        let shown =
            |first: &str, second: &str| debtor_text(format!("{first:<30}{second:<30}").as_bytes());
        assert_eq!(shown("ROSSI GIULIA", ""), "ROSSI GIULIA");
        assert_eq!(shown("ROSSI", "GIULIA"), "ROSSI GIULIA");
        assert_eq!(shown(" ROSSI", "  GIULIA"), "ROSSI GIULIA");
        assert_eq!(shown("", "GIULIA"), "GIULIA");
        let (full, also) = ("A".repeat(30), "B".repeat(30));
        assert_eq!(shown(&full, &also), format!("{full} {also}"));
    }
}
