//! Requests of a flow already sent, recalled by a flow of their own: they are shown, the clerk is asked, and
//! the recall flow is saved as a new file. The flow sent is only read.

use std::ffi::OsString;
use std::io::{self, IsTerminal, Write};
use std::ops::Range;
use std::path::PathBuf;

use mav::{Accepted, Dispositions, FlowKind, Refusal};

use crate::euro::{grouped, shown as euro};
use crate::failure::{Failure, Outcome};
use crate::header::{self, Date, Name};
use crate::input::{read, with_room};
use crate::kind::{counted, summary};
use crate::list;
use crate::name::shown;
use crate::output::{ask, confirm, saved};
use crate::record::{field, text};
use crate::refusal;
use crate::request::{date, titles, Request};
use crate::save::Target;
use crate::show::heading;

/// A recall as it is asked for.
pub struct Recall {
    /// The flow sent, and the file that is to be the recall flow.
    pub sent: PathBuf,
    pub new: PathBuf,
    /// The requests to be recalled, by rising number.
    pub numbers: Vec<u64>,
    /// What the recall flow has for itself, as far as the command line gives it.
    pub name: Option<Name>,
    pub date: Option<Date>,
}

/// Makes the recall flow and saves it.
pub fn recall(asked: &Recall, yes: bool, out: &mut impl Write) -> Outcome {
    asked.can_ask()?;
    let sent = read(&asked.sent)?;
    let requests = asked.requests(&sent)?;
    let target = Target::lock_new(&asked.new)?;
    let (name, date) = asked.header(out)?;
    asked.differs(&sent, &name, &date)?;
    let (numbers, flow) = asked.flow(&sent, &name, &date)?;
    let cents = asked.show_requests(&sent, requests, out)?;
    let recalled = (numbers.dispositions, numbers.cents);
    let shown = (asked.numbers.len() as u64, cents);
    assert_eq!(recalled, shown, "what is recalled is what is shown");
    asked.show_flow(numbers, &flow, out)?;
    if !yes {
        confirm(out, "Save it?", "not saved: nothing was written.")?;
    }
    out.flush()?;
    target.save(None, &flow)?;
    saved(out, "flow", None)
}

impl Recall {
    /// What the command line does not give is asked for, which needs a terminal.
    fn can_ask(&self) -> Outcome {
        let missing = match (&self.name, &self.date) {
            (Some(_), Some(_)) => return Ok(()),
            _ if io::stdin().is_terminal() && io::stdout().is_terminal() => return Ok(()),
            (None, Some(_)) => "--name NAME",
            (Some(_), None) => "--date GGMMAA",
            (None, None) => "--name NAME and --date GGMMAA",
        };
        Err(Failure::trouble(format!(
            "a recall flow has a name and a date of its own; give {missing}."
        )))
    }

    /// The requests of the flow sent, which must be accepted and have those that are named.
    fn requests<'a>(&self, sent: &'a [u8]) -> Outcome<Dispositions<'a>> {
        let requests = refusal::accepted(&self.sent, sent)?;
        let numbers = requests.accepted();
        if numbers.kind != FlowKind::Requests {
            let (named, kind) = (shown(&self.sent), numbers.kind);
            return Err(Failure::refused(format!(
                "{named} is a flow of {kind}, and only requests can be recalled."
            )));
        }
        // A flow that has the highest and the lowest has all between them.
        let ends = [self.numbers.last(), self.numbers.first()];
        for &k in ends.into_iter().flatten() {
            if let Err(refusal) = mav::find(sent, k) {
                let also = "; nothing was saved";
                return Err(refusal::of_request(&refusal, &self.sent, k, numbers, also));
            }
        }
        Ok(requests)
    }

    /// The name and the date of the recall flow.
    fn header(&self, out: &mut impl Write) -> Outcome<(Name, Date)> {
        if let (Some(name), Some(date)) = (self.name, self.date) {
            return Ok((name, date));
        }
        let name = match self.name {
            Some(name) => name,
            None => header::name(&answer(out, "name", "at most 20 characters")?)?,
        };
        let date = match self.date {
            Some(date) => date,
            None => header::date(&answer(out, "date", "as GGMMAA")?)?,
        };
        writeln!(out)?;
        Ok((name, date))
    }

    /// The standard wants date and name unique together, for one sender and one bank (document 003, 2.2).
    fn differs(&self, sent: &[u8], name: &Name, own_date: &Date) -> Outcome {
        if field(sent, 14, 19) != own_date || field(sent, 20, 39) != name {
            return Ok(());
        }
        let (sent, day, name) = (shown(&self.sent), date(own_date), text(name));
        Err(Failure::refused(format!(
            "the recall flow would have the date and the name of {sent}, {day} and {name}, and the bank \
             could not tell them apart; give another --name or --date."
        )))
    }

    /// The recall flow as the library writes it, with its numbers.
    fn flow(&self, sent: &[u8], name: &Name, date: &Date) -> Outcome<(Accepted, Vec<u8>)> {
        let (_, list) = list::of_flow(&self.sent, sent)?;
        let list = self.list(&list, name, date)?;
        list::to_flow(&list, |refusal| self.refused(refusal, &list))
    }

    /// The list of the recall flow: that of the flow sent with Q for H, a name and a date of its own, and of
    /// all items after the header's those of the requests named.
    fn list(&self, sent: &[u8], name: &Name, date: &Date) -> Outcome<Vec<u8>> {
        let mut list = with_room(sent.len())?;
        let mut number = 0;
        for item in mav::items(sent) {
            number += u64::from(item.starts_with(b"D"));
            if number == 0 || self.numbers.binary_search(&number).is_ok() {
                list.extend_from_slice(item);
            }
        }
        list[0] = b'Q';
        list[in_header_item(14, 19)].copy_from_slice(date);
        list[in_header_item(20, 39)].copy_from_slice(name);
        Ok(list)
    }

    /// What the clerk is told where the library refuses the recall flow: of requests that were accepted it
    /// can only be for the name or the date.
    fn refused(&self, refusal: &Refusal, list: &[u8]) -> Failure {
        let advice = match (refusal.record, refusal.position) {
            (1, 14) => "Nothing was saved; give another --date.",
            (1, 20) => "Nothing was saved; give another --name.",
            _ => "Nothing was saved.",
        };
        refusal::of_new_flow(refusal, &self.new, list, advice)
    }

    /// Shows the requests to be recalled, and adds up their amounts.
    fn show_requests(
        &self,
        sent: &[u8],
        requests: Dispositions<'_>,
        out: &mut impl Write,
    ) -> Outcome<u64> {
        let Accepted {
            dispositions, kind, ..
        } = requests.accepted();
        let heading = heading(&self.sent, sent, kind);
        writeln!(out, "{heading}\n\n{}", titles())?;
        let mut cents = 0;
        for request in requests.map(Request::of) {
            if self.numbers.binary_search(&request.number).is_ok() {
                cents += request.cents;
                writeln!(out, "{}", request.row())?;
            }
        }
        let count = grouped(self.numbers.len() as u64);
        let (all, total) = (counted(dispositions, kind), euro(cents));
        writeln!(out, "\n{count} of {all} to be recalled, {total} euro.\n")?;
        Ok(cents)
    }

    /// Shows what the recall flow is.
    fn show_flow(&self, numbers: Accepted, flow: &[u8], out: &mut impl Write) -> Outcome {
        let heading = heading(&self.new, flow, numbers.kind);
        let anew = match self.numbers.last() {
            Some(&last) if last == numbers.dispositions => "",
            _ => ", numbered anew from 1 on",
        };
        writeln!(out, "{heading}\n{}{anew}.\n", summary(numbers))?;
        Ok(())
    }
}

/// What the clerk gives the recall flow for itself.
fn answer(out: &mut impl Write, what: &str, how: &str) -> Outcome<OsString> {
    let answer = ask(out, &format!("The {what} of the recall flow, {how}:"))?;
    match answer.is_empty() {
        true => Err(Failure::refused(format!("not saved: no {what} was given."))),
        false => Ok(answer.into()),
    }
}

/// Where the positions `first` to `last` of the header stand in its item, which has a byte of kind and then
/// 4-45.
fn in_header_item(first: usize, last: usize) -> Range<usize> {
    first - 3..last - 2
}
