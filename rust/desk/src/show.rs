//! The requests of a flow as a table, and one request in full.

use std::io::Write;
use std::path::Path;

use mav::{FlowKind, RECORD_LENGTH};

use crate::euro::{grouped, shown as euro};
use crate::failure::{Failure, Outcome};
use crate::input::read;
use crate::kind::{counted, one, summary};
use crate::name::{plain, shown};
use crate::record::{drawn, field, record_type, text};
use crate::refusal;
use crate::request::{date, titles, Request};

/// Shows the requests of a flow, or those that have a text in their row.
pub fn table(named: &Path, wanted: Option<&str>, out: &mut impl Write) -> Outcome {
    let flow = read(named)?;
    let requests = refusal::accepted(named, &flow)?;
    let numbers = requests.accepted();
    let (mut found, mut cents) = (0_u64, 0_u64);
    for request in requests.map(Request::of) {
        if wanted.is_none_or(|wanted| request.has(wanted)) {
            if found == 0 {
                let heading = heading(named, &flow, numbers.kind);
                writeln!(out, "{heading}\n\n{}", titles())?;
            }
            found += 1;
            cents += request.cents;
            writeln!(out, "{}", request.row())?;
        }
    }
    match wanted {
        None => writeln!(out, "\n{}.", summary(numbers))?,
        Some(_) if found > 0 => {
            let all = counted(numbers.dispositions, numbers.kind);
            writeln!(out, "\n{} of {all}, {} euro.", grouped(found), euro(cents))?;
        }
        Some(wanted) => {
            let (one, named, wanted) = (one(numbers.kind), shown(named), plain(wanted));
            return Err(Failure::refused(format!(
                "no {one} of {named} has \"{wanted}\" in its row."
            )));
        }
    }
    Ok(())
}

/// Shows one request with all its records.
pub fn request(named: &Path, k: u64, out: &mut impl Write) -> Outcome {
    let flow = read(named)?;
    let numbers = refusal::accepted(named, &flow)?.accepted();
    let found = mav::find(&flow, k)
        .map_err(|refusal| refusal::of_request(&refusal, named, k, numbers, ""))?;
    let heading = heading(named, &flow, numbers.kind);
    let row = Request::of(found).row();
    writeln!(out, "{heading}\n\n{}\n{row}", titles())?;
    for (record, number) in found
        .part
        .chunks_exact(RECORD_LENGTH)
        .zip(found.first_record..)
    {
        let record_type = text(record_type(record));
        write!(
            out,
            "\nRecord {number}, type {record_type}:\n{}",
            drawn(record, 0)
        )?;
    }
    Ok(())
}

/// What a flow is, and what its header says: who sends, when, under what name.
pub fn heading(named: &Path, flow: &[u8], kind: FlowKind) -> String {
    let sender = text(field(flow, 4, 8));
    let day = date(field(flow, 14, 19));
    let name = text(field(flow, 20, 39));
    format!("{}: {kind} of {sender}, {day}, {name}", shown(named))
}
