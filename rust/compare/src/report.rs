//! The printed form of a case that differs.

use std::fmt::Write;

use oracle::list::items;
use oracle::record::RECORD_LEN;

use crate::calls::{Against, Difference, Outcome};
use crate::cases::Case;
use crate::entry::{Entry, Form};
use crate::lent::{Buffer, Lent};
use crate::sides::{kind_entry, KINDS};

/// The case, the call of it that differs, and both outcomes.
pub fn report(case: &Case, difference: &Difference) -> String {
    let mut text = String::new();
    let input = difference.lent.input.lent();
    if let Case::Calls { flow, calls, .. } = case {
        text += &contents("first flow", Form::Flow, flow);
        for (index, &call) in calls.iter().enumerate() {
            let _ = writeln!(text, "call {} on it: {}", index + 1, spoken(call.into()));
        }
    }
    if let Some(tonight) = &difference.lent.tonight {
        text += &contents("last night's flow", Form::Flow, input);
        text += &contents("tonight's flow", Form::Flow, tonight.flow.lent());
    } else if !matches!(case, Case::Calls { flow, .. } if flow == input) {
        let form = difference.entry.input();
        text += &contents(name(form), form, input);
    }
    text + &outcomes(difference)
}

/// The call that differs and its two outcomes.
fn outcomes(difference: &Difference) -> String {
    let Difference {
        entry,
        lent,
        proved,
        against,
        due,
    } = difference;
    let other = match against {
        Against::Second => "second program",
        Against::Lent => "memory as lent",
        Against::Ledger => "ledger",
    };
    let told = match against {
        Against::Lent => String::from("to be kept where the call may not write"),
        _ => answer(*entry, due),
    };
    let mut text = format!("differs at {}{}\n", spoken(*entry), placed(*entry, lent));
    let _ = writeln!(text, "proved library: {}", answer(*entry, proved));
    let _ = writeln!(text, "{other}: {told}");
    for (title, (place, found, wanted)) in differences(*entry, &proved.after, &due.after) {
        let _ = writeln!(
            text,
            "{title} afterwards, {place}: proved library {found:#04x}, {other} {wanted:#04x}"
        );
    }
    text
}

/// Where two units differ, and both values.
type Unlike = (String, u16, u16);

/// The first difference of each buffer, under the buffer's name.
fn differences(entry: Entry, found: &Lent, wanted: &Lent) -> Vec<(&'static str, Unlike)> {
    let output = entry.output().unwrap_or(Form::Field);
    let mut all = vec![
        (
            first_name(entry),
            first_byte(entry.input(), &found.input, &wanted.input),
        ),
        ("output", first_byte(output, &found.output, &wanted.output)),
    ];
    if let (Some(found), Some(wanted)) = (&found.tonight, &wanted.tonight) {
        let flow = first_byte(Form::Flow, &found.flow, &wanted.flow);
        all.push(("tonight's flow", flow));
        all.push(("working memory", first_number(&found.work, &wanted.work)));
    }
    let differing = all.into_iter();
    differing
        .filter_map(|(title, unlike)| Some((title, unlike?)))
        .collect()
}

/// The name of the input.
fn first_name(entry: Entry) -> &'static str {
    match entry.of_two_flows() {
        true => "last night's flow",
        false => name(entry.input()),
    }
}

/// A call by its name in C, with its numbers.
fn spoken(entry: Entry) -> String {
    let numbers = match entry {
        Entry::Find { k } | Entry::Withdraw { k } => format!("k {k}"),
        Entry::Change { k, cents } => format!("k {k}, cents {cents}"),
        Entry::Line { n } => format!("n {n}"),
        _ => String::new(),
    };
    format!("{}({numbers})", entry.name())
}

/// Where the buffers of a call start, and the room of its output.
fn placed(entry: Entry, lent: &Lent) -> String {
    let mut text = format!(", {} at offset {}", first_name(entry), lent.input.offset());
    if let Some(tonight) = &lent.tonight {
        let (flow, work) = (&tonight.flow, &tonight.work);
        let _ = write!(
            text,
            ", tonight's at offset {}, working memory of {} numbers at offset {}",
            flow.offset(),
            work.lent().len(),
            work.offset()
        );
    }
    if entry.output().is_some() {
        let (room, offset) = (lent.output.lent().len(), lent.output.offset());
        let _ = write!(text, ", output of room {room} at offset {offset}");
    }
    text
}

fn name(form: Form) -> &'static str {
    match form {
        Form::Field => "field",
        Form::Flow => "flow",
        Form::List => "list",
        Form::Account => "account",
    }
}

/// An answer in words, then its eight entries.
fn answer(entry: Entry, outcome: &Outcome) -> String {
    let entries = outcome.after.entries;
    let [number, record, position, ..] = entries;
    let words = match outcome.status {
        0 => format!("refused {number} record {record} position {position}"),
        1 => {
            let numbers = entry.accepted().iter().zip(entries);
            let numbers = numbers.map(|(name, number)| format!(" {name} {number}"));
            let numbers: String = numbers.collect();
            format!("accepted{numbers}{}", kind_told(entry, entries[4]))
        }
        other => format!("returned {other}"),
    };
    format!("{words}, entries {entries:?}")
}

/// The kind of flow that an accepted call tells, by its word if it has one.
fn kind_told(entry: Entry, number: u64) -> String {
    if !entry.tells_kind() {
        return String::new();
    }
    match KINDS.iter().find(|kind| kind_entry(**kind) == number) {
        Some(kind) => format!(" kind {kind}"),
        None => format!(" kind {number}"),
    }
}

/// The first byte in which two buffers differ.
fn first_byte(form: Form, found: &Buffer, wanted: &Buffer) -> Option<Unlike> {
    let (index, found_byte, wanted_byte) = found.first_difference(wanted)?;
    let place = match usize::try_from(index) {
        Ok(index) if index < found.lent().len() && form == Form::Flow => {
            let (record, position) = (index / RECORD_LEN + 1, index % RECORD_LEN + 1);
            format!(" (record {record}, position {position})")
        }
        _ => beside(index, found.lent().len()).to_string(),
    };
    let place = format!("byte {index}{place}");
    Some((place, found_byte.into(), wanted_byte.into()))
}

/// The first number in which two working memories differ.
fn first_number(found: &Buffer<u16>, wanted: &Buffer<u16>) -> Option<Unlike> {
    let (index, found_number, wanted_number) = found.first_difference(wanted)?;
    let place = beside(index, found.lent().len());
    Some((
        format!("number {index}{place}"),
        found_number,
        wanted_number,
    ))
}

/// Whether a place is beside a buffer of this length.
fn beside(index: isize, len: usize) -> &'static str {
    match usize::try_from(index) {
        Err(_) => " (in front of it)",
        Ok(index) if index >= len => " (after it)",
        Ok(_) => "",
    }
}

/// Bytes row by row, in hex and below it as text.
fn contents(title: &str, form: Form, bytes: &[u8]) -> String {
    let mut text = format!("{title} of {} bytes\n", bytes.len());
    for (index, row) in rows(form, bytes).into_iter().enumerate() {
        let hex: String = row.iter().map(|byte| format!("{byte:02x}")).collect();
        let shown: String = row.iter().copied().map(printable).collect();
        let _ = writeln!(text, "{:>4}  {hex}\n      {shown}", index + 1);
    }
    text
}

fn printable(byte: u8) -> char {
    match byte {
        32..=126 => char::from(byte),
        _ => '.',
    }
}

/// The records of a flow, the items of a list, or the whole of a field. What
/// is left after whole ones is the last row.
pub fn rows(form: Form, bytes: &[u8]) -> Vec<&[u8]> {
    if form != Form::List {
        return bytes.chunks(RECORD_LEN).collect();
    }
    let mut rest = bytes;
    let mut rows = Vec::new();
    for item in items(bytes).flatten() {
        let (row, after) = rest.split_at(1 + item.body.len());
        rows.push(row);
        rest = after;
    }
    if !rest.is_empty() {
        rows.push(rest);
    }
    rows
}
