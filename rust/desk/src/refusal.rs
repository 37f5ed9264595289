//! A refusal as a clerk needs it: what its number means, and the record with the position marked.

use std::path::Path;

use mav::{Accepted, Dispositions, ItemKind, Reason, Refusal, RECORD_LENGTH};

use crate::euro::grouped;
use crate::failure::{Failure, Outcome};
use crate::kind::one;
use crate::name::shown;
use crate::output::counted;
use crate::record::{characters, drawn, field, text, ROW};

/// The refusal's number and place, as `refused 9 at record 10, position 4`.
pub fn place(refusal: &Refusal) -> String {
    let Refusal {
        reason,
        record,
        position,
    } = refusal;
    let number = reason.number();
    match (record, position) {
        (0, _) => format!("refused {number}"),
        (item, _) if *reason == Reason::Item => format!("refused {number} at item {item}"),
        (_, 0) => format!("refused {number} at record {record}"),
        _ => format!("refused {number} at record {record}, position {position}"),
    }
}

/// The same with what the number means. It begins in small letters and has no period.
pub fn line(refusal: &Refusal) -> String {
    format!("{}: {}", place(refusal), refusal.reason)
}

/// The requests of a flow; or the end of a command, where it is refused.
pub fn accepted<'a>(named: &Path, flow: &'a [u8]) -> Outcome<Dispositions<'a>> {
    mav::dispositions(flow).map_err(|refusal| of_flow(&refusal, named, flow))
}

/// The end of a command whose flow is refused.
pub fn of_flow(refusal: &Refusal, named: &Path, flow: &[u8]) -> Failure {
    told(refusal, named, &in_flow(refusal, flow))
}

/// The end of a command that is refused request or recall `k` of an accepted flow with these numbers, and
/// what else to say.
pub fn of_request(
    refusal: &Refusal,
    named: &Path,
    k: u64,
    numbers: Accepted,
    also: &str,
) -> Failure {
    let (count, kind) = (numbers.dispositions, numbers.kind);
    let one = one(kind);
    let why = match (refusal.reason, count) {
        (Reason::NoSuchDisposition, 1) => format!("; it has {one} 1 alone"),
        (Reason::NoSuchDisposition, _) => format!("; it has the {kind} 1 to {count}"),
        (Reason::OnlyDisposition, 2..) => "; all that it has are named".to_owned(),
        _ => String::new(),
    };
    let (named, line) = (shown(named), line(refusal));
    Failure::refused(format!("{one} {k} of {named}: {line}{why}{also}."))
}

/// The end of a command whose request list is refused.
pub fn of_list(refusal: &Refusal, named: &Path, list: &[u8]) -> Failure {
    told(refusal, named, &in_list(refusal, list))
}

/// The end of a command whose own list is refused, of which the clerk knows the flow alone, and what to do.
pub fn of_new_flow(refusal: &Refusal, named: &Path, list: &[u8], advice: &str) -> Failure {
    let title = |kind: &ItemKind| {
        let record_type = text(&kind.record_type);
        format!("Record {}, type {record_type}:", refusal.record)
    };
    let picture = item(refusal, list, title).unwrap_or_default();
    told(refusal, named, &format!("{picture}{advice}\n"))
}

fn told(refusal: &Refusal, named: &Path, picture: &str) -> Failure {
    Failure::refused(format!("{}: {}.\n{picture}", shown(named), line(refusal)))
}

/// What belongs under the line for a flow: the record refused, with the position marked. Where the flow
/// ended too early it is the last one that there is; where the length is wrong it is the length.
pub fn in_flow(refusal: &Refusal, flow: &[u8]) -> String {
    if refusal.reason == Reason::Length {
        return length(flow.len() as u64);
    }
    let records = flow.chunks_exact(RECORD_LENGTH);
    let count = records.len() as u64;
    let (number, title) = match refusal.reason {
        Reason::Ended => (count, format!("Record {count}, the last one:")),
        _ => (
            refusal.record,
            format!("Record {} of {count}:", refusal.record),
        ),
    };
    let opening = nth(records.clone(), OPENING);
    match nth(records, number) {
        Some(record) => {
            let named = format!("record {OPENING}, the first of its type,");
            let note = note(refusal, record, opening, &named);
            picture(&title, record, refusal.position, &note)
        }
        None => String::new(),
    }
}

/// The length of a flow that is refused for it.
pub fn length(bytes: u64) -> String {
    let record = RECORD_LENGTH as u64;
    format!(
        "It has {}: {}, and {} more.\n",
        counted(bytes, "byte", "bytes"),
        counted(bytes / record, "record", "records"),
        counted(bytes % record, "byte", "bytes"),
    )
}

/// What belongs under the line for a request list: what the item gives to the record refused, at the
/// positions of the record.
pub fn in_list(refusal: &Refusal, list: &[u8]) -> String {
    let number = refusal.record;
    if number == 0 {
        return String::new();
    }
    if refusal.reason == Reason::Item {
        return cut_item(number, list);
    }
    let title = |kind: &ItemKind| {
        format!(
            "Item {number}, kind {}, at the positions of its record {}:",
            char::from(kind.kind),
            text(&kind.record_type),
        )
    };
    item(refusal, list, title).unwrap_or_else(|| {
        let items = counted(number - 1, "item", "items");
        format!("The list has {items}, and a flow may not end there.\n")
    })
}

/// What an item gives to the record refused, under a title; nothing where the list has no such item.
fn item(refusal: &Refusal, list: &[u8], title: impl Fn(&ItemKind) -> String) -> Option<String> {
    let (kind, record) = placed(list, refusal.record)?;
    let opening = placed(list, OPENING).map(|(_, record)| record);
    let opening = opening.as_ref().map(|record| &record[..]);
    let named = format!("item {OPENING}, the first of its kind,");
    let note = note(refusal, &record, opening, &named);
    Some(picture(&title(kind), &record, refusal.position, &note))
}

/// An item's kind, and its bytes at the positions of its record.
fn placed(list: &[u8], number: u64) -> Option<(&'static ItemKind, [u8; RECORD_LENGTH])> {
    let (letter, body) = nth(mav::items(list), number)?.split_first()?;
    let kind = ItemKind::of(*letter)?;
    Some((kind, kind.placed(body)))
}

/// The item that is of unknown kind or cut short: what is left of the list, as much as a row holds.
fn cut_item(number: u64, list: &[u8]) -> String {
    let whole: usize = mav::items(list).map(<[u8]>::len).sum();
    let rest = &list[whole..];
    format!(
        "Item {number} begins at byte {} of the list, and from there it has {}:\n  |{}|\n",
        grouped(whole as u64 + 1),
        counted(rest.len() as u64, "byte", "bytes"),
        characters(&rest[..rest.len().min(ROW)]),
    )
}

/// The record that opens the first disposition, where it and the header are right; and its item in a list.
const OPENING: u64 = 2;

fn picture(title: &str, record: &[u8], position: u64, note: &str) -> String {
    format!("{title}\n{}{note}", drawn(record, position))
}

/// A line for what the picture cannot show: the byte that is no plain character, in numbers; or both of the
/// company codes that differ, the other being that of the record `named`.
fn note(refusal: &Refusal, record: &[u8], opening: Option<&[u8]>, named: &str) -> String {
    let position = refusal.position;
    match (refusal.reason, opening) {
        (Reason::Byte, _) => match nth(record.iter(), position) {
            Some(byte) => {
                format!("The byte at {position} is {byte} (hexadecimal {byte:02X}), shown as ?.\n")
            }
            None => String::new(),
        },
        (Reason::CompanyCode, Some(opening)) => {
            let (own, first) = (code(record), code(opening));
            format!("At 92-96 it has {own}, and {named} has {first}.\n")
        }
        _ => String::new(),
    }
}

/// The company code of a record 14, as it stands.
fn code(record: &[u8]) -> String {
    let code = characters(field(record, 92, 96));
    match code.trim() {
        "" => "blanks".to_owned(),
        _ => format!("\"{code}\""),
    }
}

/// The element with this number, counted from 1.
fn nth<T>(mut elements: impl Iterator<Item = T>, number: u64) -> Option<T> {
    elements.nth(usize::try_from(number.checked_sub(1)?).ok()?)
}
