//! The table of numbers that a clerk may see, with what to do about each.

use std::io::Write;

use mav::Reason;

use crate::failure::{Failure, Outcome};
use crate::output::listed;

/// Explains one number.
pub fn number(number: u64, out: &mut impl Write) -> Outcome {
    match Reason::from_number(number) {
        Some(reason) => row(reason, out),
        None if number == 19 => Err(Failure::trouble("number 19 is not used.")),
        None => Err(Failure::trouble(format!(
            "there is no number {number}; the numbers are {}.",
            all_numbers()
        ))),
    }
}

/// The numbers that there are, in runs, as `1 to 18, 20 to 22, 25, 27, 28 and 34`.
fn all_numbers() -> String {
    let numbers: Vec<u64> = Reason::ALL.iter().map(|reason| reason.number()).collect();
    let runs = numbers.chunk_by(|a, b| a + 1 == *b);
    let runs: Vec<String> = runs
        .flat_map(|run| match run {
            [first, _, .., last] => vec![format!("{first} to {last}")],
            _ => run.iter().map(u64::to_string).collect(),
        })
        .collect();
    listed(&runs)
}

/// Explains all of them.
pub fn table(out: &mut impl Write) -> Outcome {
    for (index, reason) in Reason::ALL.iter().enumerate() {
        if index > 0 {
            writeln!(out)?;
        }
        row(*reason, out)?;
    }
    Ok(())
}

/// The number, what it means, and what is known of it here. Of a number that only a later library has, that
/// is nothing.
fn row(reason: Reason, out: &mut impl Write) -> Outcome {
    writeln!(out, "{:>2}  {reason}", reason.number())?;
    if let Some(place) = place(reason) {
        writeln!(out, "    Place: {place}.")?;
    }
    if let Some(remedy) = remedy(reason) {
        writeln!(out, "    {remedy}")?;
    }
    Ok(())
}

/// The place that a refusal by the number gives (document 01, "Numbers a clerk may see"; document 02 from 22
/// on).
fn place(reason: Reason) -> Option<&'static str> {
    Some(match reason {
        Reason::Byte => "the record, and the position of the byte",
        Reason::RecordType => "the record, position 2",
        Reason::Ended => "the record that is missing",
        Reason::NotDigits
        | Reason::NotPermitted
        | Reason::Blank
        | Reason::NotADate
        | Reason::DiffersFromHeader => "the record, and the field's first position",
        Reason::DispositionNumber => "the record, position 4",
        Reason::CompanyCode => "the record, position 92",
        Reason::DispositionCount => "the trailer, position 46",
        Reason::Total => "the trailer, position 53 or 68",
        Reason::RecordCount => "the trailer, position 83",
        Reason::Item => "the item of the list, counted from 1",
        Reason::OtherKind => "the record, position 29",
        Reason::ZeroAmount => "the record, position 34",
        Reason::Length
        | Reason::NoSuchDisposition
        | Reason::NotAnAmount
        | Reason::TotalTooLarge
        | Reason::OnlyDisposition
        | Reason::Room
        | Reason::TooManyRequests
        | Reason::KindsDiffer
        | Reason::WorkingMemory => "none",
        _ => return None,
    })
}

/// What a clerk can do.
fn remedy(reason: Reason) -> Option<&'static str> {
    Some(match reason {
        Reason::Length => "It was cut short or is no flow. The longest has 9.999.999 records.",
        Reason::Byte => "Often an accent, a tab or a line end. Have it sent in plain characters.",
        Reason::RecordType => "A record is missing before it, or it stands there by mistake.",
        Reason::Ended => "The end of the flow is lost. Have it sent again.",
        Reason::NotDigits | Reason::NotPermitted | Reason::Blank | Reason::NotADate => {
            "Have the house correct it and send the flow again."
        }
        Reason::DispositionNumber => "A request is missing, stands twice or is out of order.",
        Reason::DiffersFromHeader => "Records of two flows may be mixed.",
        Reason::CompanyCode => {
            "Have it sent again with its code on every request, or on none. Two companies need two flows."
        }
        Reason::DispositionCount => "Requests are missing, or there are too many.",
        Reason::Total => "The amounts do not add up to the total.",
        Reason::RecordCount => "Records are missing, or there are too many.",
        Reason::NoSuchDisposition => "mavdesk show FILE has the numbers that there are.",
        Reason::NotAnAmount => {
            "An amount is 0,01 to 99.999.999.999,99 euro. For nothing at all, withdraw the request."
        }
        Reason::TotalTooLarge => "The largest total is 9.999.999.999.999,99 euro.",
        Reason::OnlyDisposition => "A flow has at least one request. Keep the flow back instead.",
        Reason::Item => "The list was cut short or is no list. Make it again from its flow.",
        Reason::Room => "Programs that use the library see it. mavdesk makes the room.",
        Reason::OtherKind => "The flow has new requests and recalls. Have it sent as two.",
        Reason::ZeroAmount => {
            "Have the house correct it or leave the request out, and send the flow again."
        }
        Reason::TooManyRequests => "Compare smaller flows, such as those of single houses.",
        Reason::KindsDiffer => "Compare requests with requests, and recalls with recalls.",
        Reason::WorkingMemory => "Programs that use the library see it. mavdesk has enough of it.",
        _ => return None,
    })
}

#[cfg(test)]
mod tests {
    use super::*;

    /// The compiler does not say it: an enum that may grow is matched with an arm for all others.
    #[test]
    fn every_number_of_today_has_a_place_and_a_remedy() {
        for &reason in Reason::ALL {
            assert!(
                place(reason).is_some() && remedy(reason).is_some(),
                "{reason:?}"
            );
        }
    }
}
