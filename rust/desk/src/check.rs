//! Many flows judged at once: a line for each, then every refusal with its record.

use std::collections::HashSet;
use std::ffi::OsString;
use std::fmt;
use std::fs;
use std::io::Write;
use std::path::{Path, PathBuf};
use std::sync::atomic::{AtomicUsize, Ordering};
use std::sync::mpsc::{self, RecvTimeoutError, Sender};
use std::thread;

use mav::{Accepted, FlowKind, Reason, Refusal};

use crate::euro::{grouped, shown as euro};
use crate::failure::{Failure, Outcome};
use crate::input::{read_into, Unread};
use crate::kind;
use crate::name::{is_no_flow, shown};
use crate::output::counted;
use crate::progress::Progress;
use crate::refusal;

/// What became of a flow.
enum Verdict {
    Accepted(Accepted),
    /// With the picture of its record.
    Refused(Refusal, String),
    Unread(Failure),
}

/// Judges the flows, and those in the folders, and succeeds only where all are accepted.
pub fn check(named: &[PathBuf], out: &mut impl Write) -> Outcome {
    let flows = gathered(named);
    let verdicts = judged(&flows);
    let rows = || flows.iter().zip(&verdicts);
    table(rows(), out)?;
    for (path, verdict) in rows() {
        if let Verdict::Refused(refusal, picture) = verdict {
            let line = refusal::line(refusal);
            write!(out, "\n{}: {line}.\n{picture}", shown(path))?;
        }
    }
    out.flush()?;
    let mut status = 0;
    for verdict in verdicts {
        match verdict {
            Verdict::Accepted(_) => {}
            Verdict::Refused(..) => status = status.max(1),
            Verdict::Unread(failure) => {
                failure.tell();
                status = 2;
            }
        }
    }
    match status {
        0 => Ok(()),
        status => Err(Failure::silent(status)),
    }
}

/// A line for each flow, and one for all.
fn table<'a>(
    rows: impl Iterator<Item = (&'a PathBuf, &'a Verdict)> + Clone,
    out: &mut impl Write,
) -> Outcome {
    let names = rows.clone().map(|(path, _)| shown(path).chars().count());
    let width = names.max().unwrap_or(0).max("FLOW".len());
    let titles = cells("KIND", "COUNT", "TOTAL", "RECORDS");
    writeln!(out, "{:<width$}{titles}", "FLOW")?;
    let mut sum = Sum::new();
    for (path, verdict) in rows {
        sum.add(verdict);
        writeln!(out, "{:<width$}{}", shown(path), row(verdict))?;
    }
    writeln!(out, "\n{sum}")?;
    Ok(())
}

/// What stands after a flow's name.
fn row(verdict: &Verdict) -> String {
    match verdict {
        Verdict::Accepted(numbers) => cells(
            &numbers.kind.to_string(),
            &grouped(numbers.dispositions),
            &euro(numbers.cents),
            &grouped(numbers.records),
        ),
        Verdict::Refused(refusal, _) => format!("   {}", refusal::place(refusal)),
        Verdict::Unread(_) => "   not read".to_owned(),
    }
}

fn cells(kind: &str, count: &str, total: &str, records: &str) -> String {
    format!("   {kind:<8}{count:>10}{total:>22}{records:>11}")
}

/// All flows together. What is asked of tenants and what is recalled are never added up to one sum.
struct Sum {
    accepted: u64,
    kinds: Vec<OfKind>,
    refused: u64,
    unread: u64,
}

/// The accepted flows of a kind.
struct OfKind {
    kind: FlowKind,
    count: u64,
    cents: u128,
}

impl OfKind {
    fn none(kind: FlowKind) -> OfKind {
        OfKind {
            kind,
            count: 0,
            cents: 0,
        }
    }
}

impl Sum {
    /// No flow yet. Requests come first, whatever is met first.
    fn new() -> Sum {
        Sum {
            accepted: 0,
            kinds: vec![OfKind::none(FlowKind::Requests)],
            refused: 0,
            unread: 0,
        }
    }

    fn add(&mut self, verdict: &Verdict) {
        match verdict {
            Verdict::Accepted(numbers) => {
                self.accepted += 1;
                let sum = self.of_kind(numbers.kind);
                sum.count += numbers.dispositions;
                sum.cents += u128::from(numbers.cents);
            }
            Verdict::Refused(..) => self.refused += 1,
            Verdict::Unread(_) => self.unread += 1,
        }
    }

    fn of_kind(&mut self, kind: FlowKind) -> &mut OfKind {
        let met = self.kinds.iter().position(|sum| sum.kind == kind);
        let index = met.unwrap_or_else(|| {
            self.kinds.push(OfKind::none(kind));
            self.kinds.len() - 1
        });
        &mut self.kinds[index]
    }

    /// The kinds that there are, each as `2 requests, 830,50 euro`.
    fn told(&self) -> String {
        let met = |sum: &&OfKind| sum.count > 0 || self.accepted == 0;
        let told = |sum: &OfKind| {
            let counted = kind::counted(sum.count, sum.kind);
            format!("{counted}, {} euro", euro(sum.cents))
        };
        let kinds: Vec<String> = self.kinds.iter().filter(met).map(told).collect();
        kinds.join("; ")
    }
}

impl fmt::Display for Sum {
    fn fmt(&self, f: &mut fmt::Formatter<'_>) -> fmt::Result {
        let flows = counted(self.accepted, "flow", "flows");
        write!(f, "{flows} accepted: {}.", self.told())?;
        if self.refused > 0 {
            write!(f, " {} refused.", grouped(self.refused))?;
        }
        if self.unread > 0 {
            write!(f, " {} not read.", grouped(self.unread))?;
        }
        Ok(())
    }
}

/// The flows named, and of each folder named its files by name, each flow once. A folder in a folder is not
/// looked into. A folder without a flow stands for itself, so that it is told.
fn gathered(named: &[PathBuf]) -> Vec<PathBuf> {
    let mut flows = Vec::new();
    for path in named {
        let found = if path.is_dir() {
            files_of(path)
        } else {
            Ok(Vec::new())
        };
        match found.unwrap_or_default() {
            names if names.is_empty() => flows.push(path.clone()),
            names => flows.extend(names.iter().map(|name| path.join(name))),
        }
    }
    let mut seen = HashSet::new();
    flows.retain(|path| fs::canonicalize(path).map_or(true, |file| seen.insert(file)));
    flows
}

/// The files of a folder that may be flows, by name.
fn files_of(folder: &Path) -> std::io::Result<Vec<OsString>> {
    let mut names = Vec::new();
    for entry in fs::read_dir(folder)? {
        let name = entry?.file_name();
        // What cannot be looked at is judged too, so that it is told.
        let is_file = fs::metadata(folder.join(&name)).map_or(true, |found| found.is_file());
        if is_file && !is_no_flow(&name) {
            names.push(name);
        }
    }
    names.sort();
    Ok(names)
}

/// Judges the flows on as many threads as there are cores. Each takes the next flow that nobody has taken,
/// and they share nothing else.
fn judged(flows: &[PathBuf]) -> Vec<Verdict> {
    let next = AtomicUsize::new(0);
    let cores = thread::available_parallelism().map_or(1, usize::from);
    let (done, verdicts) = mpsc::channel();
    thread::scope(|scope| {
        let worker = || {
            let (next, done) = (&next, done.clone());
            move || take_turns(flows, next, &done)
        };
        let spawn = |_: &usize| thread::Builder::new().spawn_scoped(scope, worker()).is_ok();
        // A system that gives fewer threads, or none, only makes it slower.
        if (0..cores.min(flows.len())).filter(spawn).count() == 0 {
            worker()();
        }
        drop(done);
        in_order(flows.len(), &verdicts)
    })
}

/// Judges one flow after the other, as long as there are any that nobody has taken.
fn take_turns(flows: &[PathBuf], next: &AtomicUsize, done: &Sender<(usize, Verdict)>) {
    let mut buffer = Vec::new();
    loop {
        let index = next.fetch_add(1, Ordering::Relaxed);
        let Some(path) = flows.get(index) else { break };
        // The other end stands until all threads have ended.
        let _ = done.send((index, judge(path, &mut buffer)));
    }
}

/// The verdicts in the order of the flows, and meanwhile a line that tells how far it is.
fn in_order(count: usize, verdicts: &mpsc::Receiver<(usize, Verdict)>) -> Vec<Verdict> {
    let mut progress = Progress::new(count);
    let mut found = Vec::with_capacity(count);
    loop {
        match verdicts.recv_timeout(progress.pause()) {
            Ok(verdict) => found.push(verdict),
            Err(RecvTimeoutError::Timeout) => progress.show(found.len()),
            Err(RecvTimeoutError::Disconnected) => break,
        }
    }
    found.sort_unstable_by_key(|(index, _)| *index);
    let indices = found.iter().map(|(index, _)| *index);
    assert!(indices.eq(0..count), "every flow is judged once");
    found.into_iter().map(|(_, verdict)| verdict).collect()
}

fn judge(path: &Path, buffer: &mut Vec<u8>) -> Verdict {
    if path.is_dir() {
        return Verdict::Unread(no_flow(path));
    }
    match read_into(path, buffer) {
        Ok(()) => match mav::read(buffer) {
            Ok(numbers) => Verdict::Accepted(numbers),
            Err(refusal) => Verdict::Refused(refusal, refusal::in_flow(&refusal, buffer)),
        },
        Err(Unread::TooLong(length)) => {
            let refusal = Refusal {
                reason: Reason::Length,
                record: 0,
                position: 0,
            };
            Verdict::Refused(refusal, refusal::length(length))
        }
        Err(unread) => Verdict::Unread(unread.failure(path)),
    }
}

/// Why nothing of a folder is judged.
fn no_flow(folder: &Path) -> Failure {
    match files_of(folder) {
        Err(error) => Failure::of_file(folder, "cannot be looked into", &error),
        Ok(_) => Failure::trouble(format!("{} has no flow in it.", shown(folder))),
    }
}
