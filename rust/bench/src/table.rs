//! Printing: tables in the form of Markdown, with columns of one width, and
//! numbers.

use std::fmt;
use std::io::{self, Write};

/// Prints a text and a line end. Where nobody reads it there is nothing to do.
pub fn say(text: &str) {
    let _ = writeln!(io::stdout(), "{text}");
}

/// A table. The first column stands to the left, the others to the right.
pub struct Table(Vec<Vec<String>>);

impl Table {
    pub fn new(titles: &[&str]) -> Table {
        Table(vec![titles.iter().map(|title| title.to_string()).collect()])
    }

    /// Adds a row with a cell for each title.
    pub fn row<const N: usize>(&mut self, cells: [String; N]) {
        self.0.push(cells.into());
    }

    /// The width of each column.
    fn widths(&self) -> Vec<usize> {
        let columns = 0..self.0[0].len();
        columns
            .map(|column| self.0.iter().map(|row| row[column].len()).max())
            .map(Option::unwrap_or_default)
            .collect()
    }
}

impl fmt::Display for Table {
    fn fmt(&self, f: &mut fmt::Formatter<'_>) -> fmt::Result {
        let widths = self.widths();
        for (index, row) in self.0.iter().enumerate() {
            for (column, (cell, &width)) in row.iter().zip(&widths).enumerate() {
                match column {
                    0 => write!(f, "| {cell:<width$} |")?,
                    _ => write!(f, " {cell:>width$} |")?,
                }
            }
            writeln!(f)?;
            if index == 0 {
                write!(f, "|{}|", "-".repeat(widths[0] + 2))?;
                for width in &widths[1..] {
                    write!(f, "{}:|", "-".repeat(width + 1))?;
                }
                writeln!(f)?;
            }
        }
        Ok(())
    }
}

/// A whole number with a comma between groups of three digits.
pub fn grouped(number: u64) -> String {
    let digits = number.to_string();
    let mut text = String::new();
    for (index, digit) in digits.chars().enumerate() {
        if index > 0 && (digits.len() - index).is_multiple_of(3) {
            text.push(',');
        }
        text.push(digit);
    }
    text
}

/// Seconds in whole microseconds.
pub fn micros(seconds: f64) -> String {
    grouped((seconds * 1e6).round() as u64)
}

/// Seconds by records, in nanoseconds.
pub fn nanos_each(seconds: f64, records: u64) -> String {
    format!("{:.1}", seconds * 1e9 / records as f64)
}

/// A ratio.
pub fn ratio(ratio: f64) -> String {
    format!("{ratio:.2}")
}

#[cfg(test)]
mod tests {
    use super::*;

    #[test]
    fn digits_are_grouped_by_three() {
        let texts = [0, 999, 1_000, 84_000_240].map(grouped);
        assert_eq!(texts, ["0", "999", "1,000", "84,000,240"]);
        assert_eq!(micros(0.001_234_6), "1,235");
        assert_eq!(nanos_each(0.000_7, 7_000), "100.0");
    }

    #[test]
    fn columns_have_one_width() {
        let mut table = Table::new(&["call", "us"]);
        table.row(["read".into(), "1,000".into()]);
        let due = "| call |    us |\n|------|------:|\n| read | 1,000 |\n";
        assert_eq!(table.to_string(), due);
    }
}
