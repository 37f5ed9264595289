//! A flow read back to its request list, and a list written to its flow, as files.

use std::fs;
use std::io::Write;
use std::path::Path;

use mav::{Accepted, Refusal};

use crate::euro::shown as euro;
use crate::failure::{Failure, Outcome};
use crate::input::{read, zeros};
use crate::kind::counted;
use crate::name::shown;
use crate::output::{confirm, saved};
use crate::refusal;
use crate::save::Target;

/// Writes the request list of a flow to a file.
pub fn list(flow_named: &Path, list_named: &Path, yes: bool, out: &mut impl Write) -> Outcome {
    differ(flow_named, list_named)?;
    let flow = read(flow_named)?;
    let (numbers, list) = of_flow(flow_named, &flow)?;
    save(list_named, numbers, &list, yes, out)
}

/// Writes the flow of a request list to a file.
pub fn write(list_named: &Path, flow_named: &Path, yes: bool, out: &mut impl Write) -> Outcome {
    differ(list_named, flow_named)?;
    let list = read(list_named)?;
    let refused = |refusal: &Refusal| refusal::of_list(refusal, list_named, &list);
    let (numbers, flow) = to_flow(&list, refused)?;
    save(flow_named, numbers, &flow, yes, out)
}

/// The request list of a flow, with the flow's numbers.
pub fn of_flow(named: &Path, flow: &[u8]) -> Outcome<(Accepted, Vec<u8>)> {
    let mut list = zeros(mav::list_room(flow.len()))?;
    let written = mav::read_back(flow, &mut list)
        .map_err(|refusal| refusal::of_flow(&refusal, named, flow))?;
    list.truncate(written.length);
    Ok((written.accepted, list))
}

/// The flow of a request list, with its numbers; or what a refusal is told as.
pub fn to_flow(list: &[u8], refused: impl Fn(&Refusal) -> Failure) -> Outcome<(Accepted, Vec<u8>)> {
    let mut flow = zeros(mav::flow_room(list))?;
    let written = mav::write(list, &mut flow).map_err(|refusal| refused(&refusal))?;
    flow.truncate(written.length);
    Ok((written.accepted, flow))
}

/// A file cannot become its own list.
fn differ(from: &Path, to: &Path) -> Outcome {
    match (fs::canonicalize(from), fs::canonicalize(to)) {
        (Ok(a), Ok(b)) if a == b => Err(Failure::trouble(format!(
            "{} and {} are the same file.",
            shown(from),
            shown(to)
        ))),
        _ => Ok(()),
    }
}

/// Saves what was written. A file that stands there already is replaced only where the clerk agrees.
fn save(named: &Path, numbers: Accepted, bytes: &[u8], yes: bool, out: &mut impl Write) -> Outcome {
    let target = Target::lock(named)?;
    let old = target.read()?;
    let requests = counted(numbers.dispositions, numbers.kind);
    let (shown_as, total) = (shown(named), euro(numbers.cents));
    writeln!(out, "{shown_as}: {requests}, {total} euro")?;
    if old.is_some() && !yes {
        let question = format!("{shown_as} is there already. Replace it?");
        confirm(out, &question, "not saved: the file is as it was.")?;
    }
    out.flush()?;
    target.save(old.as_deref(), bytes)?;
    saved(out, "file", old.map(|_| target.kept_as()).as_deref())
}
