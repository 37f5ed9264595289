//! A save that is interrupted leaves the old version or the new one under the file's name, whole.
//!
//! Most tests go through `interrupt.c`, a library that stands between the command and the system's calls. It
//! kills the process before a chosen call, or makes that call fail. Each call of a save is chosen in turn,
//! so that no moment is left out and nothing depends on the speed of the machine. What the file must hold is
//! taken from the second program.

mod common;

use std::fmt::Debug;
use std::fs::{self, Permissions};
use std::os::unix::fs::PermissionsExt;
use std::path::Path;
use std::process::{Command, Stdio};
use std::thread;
use std::time::{Duration, Instant};

use common::{
    amended, change, flow_of, interrupt_library, list_of, recalled, run_limited, sample, withdraw,
    Ended, Folder,
};
use oracle::{reader, samples, Answer};

/// More calls than any save makes.
const MOST_CALLS: usize = 500;

/// The file of a folder to which the calls are written.
const LOG: &str = "calls";

/// A save that is to be interrupted.
struct Save {
    words: &'static [&'static str],
    /// The file that is only read, where there is one.
    source: Option<(&'static str, Vec<u8>)>,
    /// The file that is saved.
    target: &'static str,
    /// What stands as NAME.before from an earlier save.
    older: Option<Vec<u8>>,
    /// What stands under the name, and what is to stand there.
    old: Option<Vec<u8>>,
    new: Vec<u8>,
    /// Whether the disk has hard links.
    links: bool,
}

impl Save {
    fn amount() -> Save {
        let old = sample("forty-rents.flow");
        Save {
            words: &["amount", "--yes", "house.flow", "3", "123,45"],
            source: None,
            target: "house.flow",
            older: Some(sample("one-rent.flow")),
            new: amended(&old, &[change(3, 12_345)]),
            old: Some(old),
            links: true,
        }
    }

    fn amount_without_hard_links() -> Save {
        Save {
            links: false,
            ..Save::amount()
        }
    }

    /// The numbers are those of the flow as it is; the ledger is told of the last one first.
    fn withdrawal() -> Save {
        let old = sample("forty-rents.flow");
        Save {
            words: &["withdraw", "--yes", "house.flow", "2", "17", "40"],
            new: amended(&old, &[withdraw(40), withdraw(17), withdraw(2)]),
            ..Save::amount()
        }
    }

    fn list_onto_a_list() -> Save {
        let flow = sample("forty-rents.flow");
        Save {
            words: &["list", "--yes", "house.flow", "house.list"],
            target: "house.list",
            older: Some(list_of(&sample("one-rent.flow"))),
            old: Some(list_of(&sample("two-rents.flow"))),
            new: list_of(&flow),
            source: Some(("house.flow", flow)),
            links: true,
        }
    }

    fn list_onto_nothing() -> Save {
        Save {
            older: None,
            old: None,
            ..Save::list_onto_a_list()
        }
    }

    fn flow_onto_a_flow() -> Save {
        let list = sample("two-rents.list");
        Save {
            words: &["write", "--yes", "house.list", "house.flow"],
            new: flow_of(&list),
            source: Some(("house.list", list)),
            ..Save::amount()
        }
    }

    fn flow_onto_nothing() -> Save {
        Save {
            older: None,
            old: None,
            ..Save::flow_onto_a_flow()
        }
    }

    fn recall() -> Save {
        let sent = sample("forty-rents.flow");
        Save {
            words: &[
                "recall",
                "--yes",
                "--name=RECALL-MARCH",
                "--date=170326",
                "house.flow",
                "recall.flow",
                "17",
                "2",
            ],
            target: "recall.flow",
            older: None,
            old: None,
            new: recalled(&sent, &[2, 17], "170326", "RECALL-MARCH"),
            source: Some(("house.flow", sent)),
            links: true,
        }
    }

    fn recall_without_hard_links() -> Save {
        Save {
            links: false,
            ..Save::recall()
        }
    }

    /// A folder with the files as they are before the save.
    fn folder(&self) -> Folder {
        let folder = Folder::new();
        let write = |name: &str, bytes: &[u8]| fs::write(folder.path(name), bytes).unwrap();
        if let Some((name, bytes)) = &self.source {
            write(name, bytes);
        }
        if let Some(old) = &self.old {
            write(self.target, old);
        }
        if let Some(older) = &self.older {
            write(&self.before(), older);
        }
        folder
    }

    fn before(&self) -> String {
        format!("{}.before", self.target)
    }

    fn is_of_flow(&self) -> bool {
        self.target.ends_with(".flow")
    }

    /// Runs the save with the library, which is told what to do.
    fn run(&self, folder: &Folder, told: &[(&str, &str)]) -> Ended {
        let mut command = folder.command(self.words);
        if !self.links {
            command.env("INTERRUPT_LINKS", "no");
        }
        let command = command
            .env("LD_PRELOAD", interrupt_library())
            .env("INTERRUPT_LOG", folder.path(LOG))
            .envs(told.iter().copied())
            .stdin(Stdio::null());
        Ended::of(command.output().unwrap())
    }

    /// What stands under the name.
    fn there(&self, folder: &Folder) -> Option<Vec<u8>> {
        bytes_of(&folder.path(self.target))
    }

    /// Whether the new version stands under the name; if not, the old one must.
    fn is_saved(&self, folder: &Folder) -> Result<bool, String> {
        match self.there(folder) {
            Some(bytes) if bytes == self.new => Ok(true),
            bytes if bytes == self.old => Ok(false),
            bytes => Err(format!(
                "neither version stands under the name, but {:?} bytes",
                bytes.map(|bytes| bytes.len())
            )),
        }
    }

    /// What is only read is as it was, and NAME.before is a whole version: the old one where the new one is
    /// saved, else that or the older one.
    fn check_others(&self, folder: &Folder, saved: bool) -> Result<(), String> {
        if let Some((name, bytes)) = &self.source {
            let right = folder.read(name) == *bytes;
            ensure(right, "what is only read was written to")?;
        }
        let before = bytes_of(&folder.path(&self.before()));
        let right = before == self.old || (before == self.older && !saved);
        ensure(right, "NAME.before is no version that is due")
    }

    /// Both readers accept what stands under the name of a flow.
    fn check_read(&self, folder: &Folder) -> Result<(), String> {
        let Some(flow) = self.there(folder).filter(|_| self.is_of_flow()) else {
            return Ok(());
        };
        let answer = reader::read(&flow);
        ensure(matches!(answer, Answer::Accepted { .. }), answer)?;
        let ended = folder.run(&["check", self.target]);
        ensure(ended.status == Some(0), &ended)
    }

    /// The next save succeeds at once, keeps what stood there, and clears away what is left over.
    fn check_next(&self, folder: &Folder) -> Result<(), String> {
        let there = self.there(folder);
        let (ended, due) = match &there {
            Some(flow) if self.is_of_flow() => (
                folder.run(&["amount", "--yes", self.target, "1", "77,77"]),
                amended(flow, &[change(1, 7_777)]),
            ),
            _ => (folder.run(self.words), self.new.clone()),
        };
        ensure(ended.status == Some(0) && ended.err.is_empty(), &ended)?;
        ensure(
            self.there(folder) == Some(due),
            "the next save is not right",
        )?;
        let before = bytes_of(&folder.path(&self.before()));
        ensure(before == there, "the next save keeps something else")?;
        ensure(hidden(folder).is_empty(), hidden(folder))
    }
}

/// An error that shows what is wrong, unless it is right.
fn ensure(right: bool, wrong: impl Debug) -> Result<(), String> {
    if right {
        Ok(())
    } else {
        Err(format!("{wrong:?}"))
    }
}

/// The bytes of a file, if there is one.
fn bytes_of(path: &Path) -> Option<Vec<u8>> {
    path.exists().then(|| fs::read(path).unwrap())
}

/// The hidden files of a folder.
fn hidden(folder: &Folder) -> Vec<String> {
    let mut names = folder.names();
    names.retain(|name| name.starts_with('.'));
    names
}

/// A call that the command has made, or that was kept from it.
#[derive(Clone, Debug)]
struct Line {
    call: String,
    path: String,
    /// The new path of a link or a renaming; of an open, how.
    third: String,
}

/// The calls of a run, in order.
fn calls(folder: &Folder) -> Vec<Line> {
    let log = String::from_utf8(folder.read(LOG)).unwrap();
    log.lines()
        .map(|line| match line.split('\t').collect::<Vec<_>>()[..] {
            [call, path, third] => Line {
                call: call.to_owned(),
                path: path.to_owned(),
                third: third.to_owned(),
            },
            _ => panic!("{line}"),
        })
        .collect()
}

/// Kills the save before each of its calls in turn, or before each of one name, until one runs unhurt.
fn kill_at_every_call(save: &Save, told: &[(&str, &str)]) {
    let (mut old, mut new) = (0, 0);
    for at in 1..=MOST_CALLS {
        let folder = save.folder();
        let at = at.to_string();
        let ended = save.run(&folder, &[told, &[("INTERRUPT_AT", &at)]].concat());
        let context = || format!("{:?}, killed at call {at}: {ended:?}", save.words);
        let saved = save.is_saved(&folder);
        let saved = saved.unwrap_or_else(|wrong| panic!("{}: {wrong}", context()));
        save.check_others(&folder, saved)
            .and_then(|()| save.check_read(&folder))
            .unwrap_or_else(|wrong| panic!("{}: {wrong}", context()));
        // A process that is killed has no status.
        if ended.status.is_some() {
            assert_eq!((ended.status, &ended.err[..]), (Some(0), ""));
            assert!(saved && hidden(&folder).is_empty(), "{}", context());
            assert!(old > 0 && new > 0, "{old} times the old, {new} the new");
            return;
        }
        *(if saved { &mut new } else { &mut old }) += 1;
        save.check_next(&folder)
            .unwrap_or_else(|wrong| panic!("{}: {wrong}", context()));
    }
    panic!("more than {MOST_CALLS} calls");
}

const KILL: [(&str, &str); 1] = [("INTERRUPT_HOW", "kill")];

#[test]
fn an_amount_change_killed_before_any_call() {
    kill_at_every_call(&Save::amount(), &KILL);
}

#[test]
fn an_amount_change_on_a_disk_without_hard_links_killed_before_any_call() {
    kill_at_every_call(&Save::amount_without_hard_links(), &KILL);
}

#[test]
fn a_withdrawal_killed_before_any_call() {
    kill_at_every_call(&Save::withdrawal(), &KILL);
}

#[test]
fn a_list_that_replaces_a_list_killed_before_any_call() {
    kill_at_every_call(&Save::list_onto_a_list(), &KILL);
}

#[test]
fn a_new_list_killed_before_any_call() {
    kill_at_every_call(&Save::list_onto_nothing(), &KILL);
}

#[test]
fn a_flow_that_replaces_a_flow_killed_before_any_call() {
    kill_at_every_call(&Save::flow_onto_a_flow(), &KILL);
}

#[test]
fn a_new_flow_killed_before_any_call() {
    kill_at_every_call(&Save::flow_onto_nothing(), &KILL);
}

#[test]
fn a_recall_killed_before_any_call() {
    kill_at_every_call(&Save::recall(), &KILL);
    kill_at_every_call(&Save::recall_without_hard_links(), &KILL);
}

#[test]
fn a_save_killed_when_half_of_a_write_is_done() {
    let told = [("INTERRUPT_HOW", "half"), ("INTERRUPT_ONLY", "write")];
    for save in [
        Save::recall(),
        Save::amount(),
        Save::amount_without_hard_links(),
        Save::withdrawal(),
        Save::list_onto_a_list(),
        Save::flow_onto_nothing(),
    ] {
        kill_at_every_call(&save, &told);
    }
}

/// One plain sentence on standard error, with the cause.
fn check_sentence(ended: &Ended, cause: &str) -> Result<(), String> {
    let sentence = ended.err.strip_prefix("mavdesk: ");
    let sentence = sentence.and_then(|text| text.strip_suffix(".\n"));
    let sentence = sentence.ok_or("standard error is no sentence")?;
    ensure(!sentence.contains('\n'), "there is more than one line")?;
    ensure(!sentence.contains(". "), "there is more than one sentence")?;
    ensure(!sentence.contains("os error"), "it has the system's number")?;
    ensure(sentence.contains(cause), "it does not tell the cause")
}

/// Whether a save is still right where this call fails: what it would have done is not needed.
fn may_fail(call: &Line) -> bool {
    match &call.call[..] {
        // The group and a copy's hard link are given where the system allows it; the others tell nothing
        // that a save relies on, or close a file that is on the disk already.
        "fchown" | "link" | "close" | "statx" | "realpath" => true,
        "fchmod" => call.path.ends_with("-lock"),
        "unlink" => call.path.ends_with("-lock") || call.path.ends_with("-new"),
        _ => false,
    }
}

/// What a failed call keeps from being cleared away: what it should have removed, or a lock file of which
/// the process cannot say that it holds it.
fn may_be_left(name: &str, failed: &Line) -> bool {
    matches!(&failed.call[..], "unlink" | "flock" | "statx")
        && failed.path.ends_with(&format!("/{name}"))
}

impl Save {
    /// After a call that has failed: saved whole where the call does not matter, else one plain sentence
    /// and the old version, or the new one where the sentence says so.
    fn check_failed(
        &self,
        folder: &Folder,
        ended: &Ended,
        failed: &Line,
        cause: &str,
    ) -> Vec<String> {
        let mut wrong = Vec::new();
        let mut note = |checked: Result<(), String>| wrong.extend(checked.err());
        let saved = self.is_saved(folder);
        match ended.status {
            Some(0) => {
                note(ensure(may_fail(failed), "the failure is not told"));
                note(ensure(saved == Ok(true), "status 0, but not saved"));
                note(ensure(
                    ended.err.is_empty(),
                    "status 0, but an error is told",
                ));
            }
            Some(2) => {
                note(check_sentence(ended, cause));
                let said = ended.err.contains(" is saved");
                note(saved.clone().and_then(|saved| {
                    ensure(
                        saved == said,
                        format!("saved: {saved}, but the sentence says {said}"),
                    )
                }));
            }
            _ => note(Err("the status is neither 0 nor 2".to_owned())),
        }
        note(self.check_others(folder, saved == Ok(true)));
        let mut left = hidden(folder);
        left.retain(|name| !may_be_left(name, failed));
        note(ensure(left.is_empty(), format!("left over: {left:?}")));
        note(self.check_read(folder));
        note(self.check_next(folder));
        wrong
    }
}

/// Makes each call of the save fail in turn, or each of one name, until one runs unhurt.
fn fail_at_every_call(save: &Save, error: &str, told: &[(&str, &str)]) {
    let cause = match error {
        "ENOSPC" => "the disk is full",
        "EDQUOT" => "the disk space allowed to this user is used up",
        "EACCES" => "there is no permission",
        "EIO" => "input/output error",
        _ => panic!("{error}"),
    };
    let only = told.iter().find(|(name, _)| *name == "INTERRUPT_ONLY");
    let mut all_wrong = Vec::new();
    for at in 1..=MOST_CALLS {
        let folder = save.folder();
        let number = at.to_string();
        let here = [("INTERRUPT_ERROR", error), ("INTERRUPT_AT", &number)];
        let ended = save.run(&folder, &[told, &here].concat());
        let mut counted = calls(&folder);
        counted.retain(|line| only.is_none_or(|(_, call)| line.call == *call));
        let Some(failed) = counted.get(at - 1) else {
            assert_eq!((ended.status, &ended.err[..]), (Some(0), ""));
            assert_eq!(save.is_saved(&folder), Ok(true));
            assert!(at > 1, "no call has failed");
            assert!(all_wrong.is_empty(), "\n{}", all_wrong.join("\n"));
            return;
        };
        for wrong in save.check_failed(&folder, &ended, failed, cause) {
            let words = save.words.join(" ");
            let err = &ended.err;
            all_wrong.push(format!(
                "{words}: {error} at call {at}, {failed:?}: {wrong}\n    {err}"
            ));
        }
    }
    panic!("more than {MOST_CALLS} calls");
}

const FAIL: [(&str, &str); 1] = [("INTERRUPT_HOW", "fail")];

#[test]
fn any_call_of_an_amount_change_failing() {
    for error in ["ENOSPC", "EIO", "EDQUOT", "EACCES"] {
        fail_at_every_call(&Save::amount(), error, &FAIL);
    }
}

#[test]
fn any_call_of_an_amount_change_on_a_disk_without_hard_links_failing() {
    fail_at_every_call(&Save::amount_without_hard_links(), "ENOSPC", &FAIL);
    fail_at_every_call(&Save::amount_without_hard_links(), "EIO", &FAIL);
}

#[test]
fn any_call_of_a_withdrawal_failing() {
    fail_at_every_call(&Save::withdrawal(), "ENOSPC", &FAIL);
    fail_at_every_call(&Save::withdrawal(), "EIO", &FAIL);
}

#[test]
fn any_call_of_a_list_that_replaces_a_list_failing() {
    fail_at_every_call(&Save::list_onto_a_list(), "ENOSPC", &FAIL);
    fail_at_every_call(&Save::list_onto_a_list(), "EIO", &FAIL);
}

#[test]
fn any_call_of_a_new_list_failing() {
    fail_at_every_call(&Save::list_onto_nothing(), "ENOSPC", &FAIL);
    fail_at_every_call(&Save::list_onto_nothing(), "EIO", &FAIL);
}

#[test]
fn any_call_of_a_flow_that_replaces_a_flow_failing() {
    fail_at_every_call(&Save::flow_onto_a_flow(), "ENOSPC", &FAIL);
    fail_at_every_call(&Save::flow_onto_a_flow(), "EIO", &FAIL);
}

#[test]
fn any_call_of_a_new_flow_failing() {
    fail_at_every_call(&Save::flow_onto_nothing(), "ENOSPC", &FAIL);
    fail_at_every_call(&Save::flow_onto_nothing(), "EIO", &FAIL);
}

#[test]
fn any_call_of_a_recall_failing() {
    for error in ["ENOSPC", "EIO", "EDQUOT", "EACCES"] {
        fail_at_every_call(&Save::recall(), error, &FAIL);
    }
    fail_at_every_call(&Save::recall_without_hard_links(), "ENOSPC", &FAIL);
}

#[test]
fn any_write_failing_after_half_of_its_bytes() {
    let told = [("INTERRUPT_HOW", "short"), ("INTERRUPT_ONLY", "write")];
    for save in [
        Save::recall(),
        Save::amount(),
        Save::amount_without_hard_links(),
        Save::withdrawal(),
        Save::list_onto_a_list(),
        Save::flow_onto_nothing(),
    ] {
        fail_at_every_call(&save, "ENOSPC", &told);
    }
}

/// The path of a file as the command names it to the system.
fn real(folder: &Folder, name: &str) -> String {
    let folder = fs::canonicalize(folder.path("")).unwrap();
    folder.join(name).into_os_string().into_string().unwrap()
}

/// Where the first call of this name with this path and third word stands in the log.
fn place(calls: &[Line], call: &str, path: &str, third: &str) -> usize {
    let found = calls
        .iter()
        .position(|line| (&line.call[..], &line.path[..], &line.third[..]) == (call, path, third));
    found.unwrap_or_else(|| panic!("no {call} of {path} {third} in {calls:#?}"))
}

/// Where all calls of this name with this path stand in the log.
fn places(calls: &[Line], call: &str, path: &str) -> Vec<usize> {
    let is_it = |line: &Line| line.call == call && line.path == path;
    (0..calls.len()).filter(|&i| is_it(&calls[i])).collect()
}

/// The renaming by which a file gets a name, or the link by which a new one does: where it stands in the
/// log, and the file's name before.
fn renaming_to(calls: &[Line], path: &str) -> (usize, String) {
    let names = ["rename", "link"];
    let mut found =
        (0..calls.len()).filter(|&i| names.contains(&&calls[i].call[..]) && calls[i].third == path);
    let place = found
        .next()
        .unwrap_or_else(|| panic!("nothing is renamed to {path}"));
    assert_eq!(found.next(), None, "{path} gets its name twice");
    (place, calls[place].path.clone())
}

/// What is written to a file is flushed before the file gets its name, and read back before that too.
fn check_flushed(calls: &[Line], path: &str) -> usize {
    let (named, made_as) = renaming_to(calls, path);
    let writes = places(calls, "write", &made_as);
    let flushes = places(calls, "fsync", &made_as);
    let reads = places(calls, "read", &made_as);
    let last_write = *writes.last().expect("nothing is written");
    let flush = *flushes.last().expect("nothing is flushed");
    assert!(last_write < flush && flush < named, "{calls:#?}");
    assert!(
        reads.iter().any(|&read| flush < read && read < named),
        "{calls:#?}"
    );
    named
}

/// Checks the order of the calls of a save that nothing interrupts.
fn check_order(save: &Save) {
    let folder = save.folder();
    let ended = save.run(&folder, &[]);
    assert_eq!((ended.status, &ended.err[..]), (Some(0), ""));
    let calls = calls(&folder);
    let target = real(&folder, save.target);
    let named = check_flushed(&calls, &target);
    if save.old.is_some() {
        let before = real(&folder, &save.before());
        let kept = if save.links {
            let (kept, made_as) = renaming_to(&calls, &before);
            assert!(
                place(&calls, "link", &target, &made_as) < kept,
                "{calls:#?}"
            );
            kept
        } else {
            check_flushed(&calls, &before)
        };
        assert!(kept < named, "{calls:#?}");
    }
    let flushed = places(&calls, "fsync", real(&folder, "").trim_end_matches('/'));
    assert!(flushed.iter().any(|&flush| named < flush), "{calls:#?}");
    // What stands under the name is never written to, nor is it emptied or taken away.
    for call in ["write", "truncate", "unlink", "rename"] {
        assert_eq!(places(&calls, call, &target), [], "{call}: {calls:#?}");
    }
    let opened = places(&calls, "open", &target);
    assert!(
        opened.iter().all(|&open| calls[open].third != "truncate"),
        "{calls:#?}"
    );
    assert_eq!(save.is_saved(&folder), Ok(true));
}

#[test]
fn the_new_version_is_on_the_disk_and_the_old_one_kept_before_the_name_is_given() {
    check_order(&Save::amount());
    check_order(&Save::withdrawal());
    check_order(&Save::list_onto_a_list());
    check_order(&Save::list_onto_nothing());
    check_order(&Save::flow_onto_a_flow());
    check_order(&Save::flow_onto_nothing());
    check_order(&Save::recall());
}

#[test]
fn without_hard_links_the_copy_is_on_the_disk_before_it_gets_its_name() {
    check_order(&Save::amount_without_hard_links());
}

#[test]
fn a_disk_without_hard_links_keeps_a_copy() {
    let save = Save::amount_without_hard_links();
    let folder = save.folder();
    let ended = save.run(&folder, &[]);
    assert_eq!((ended.status, &ended.err[..]), (Some(0), ""));
    // The link was tried, and it failed.
    let links = calls(&folder)
        .iter()
        .filter(|line| line.call == "link")
        .count();
    assert_eq!(links, 1);
    assert_eq!(Some(folder.read("house.flow.before")), save.old);
    assert_eq!(folder.read("house.flow"), save.new);
    assert_eq!(folder.names(), [LOG, "house.flow", "house.flow.before"]);
}

#[test]
fn a_folder_that_cannot_be_flushed_is_no_obstacle_and_a_file_is() {
    let save = Save::amount();
    let told = [
        ("INTERRUPT_HOW", "fail"),
        ("INTERRUPT_ONLY", "fsync"),
        ("INTERRUPT_ERROR", "EINVAL"),
    ];
    let mut saved = Vec::new();
    for at in ["1", "2", "3"] {
        let folder = save.folder();
        let ended = save.run(&folder, &[&told[..], &[("INTERRUPT_AT", at)]].concat());
        saved.push((ended.status, save.is_saved(&folder).unwrap()));
        let mut flushed = calls(&folder);
        flushed.retain(|line| line.call == "fsync");
        let failed = &flushed[saved.len() - 1];
        let is_folder = Path::new(&failed.path).is_dir();
        assert_eq!(is_folder, at != "1");
    }
    assert_eq!(saved, [(Some(2), false), (Some(0), true), (Some(0), true)]);
}

#[test]
fn a_disk_that_gives_back_other_bytes_is_found_out() {
    let save = Save::amount();
    let told = [("INTERRUPT_HOW", "spoil"), ("INTERRUPT_ONLY", "read")];
    let mut said = Vec::new();
    for at in 1..=MOST_CALLS {
        let folder = save.folder();
        let ended = save.run(
            &folder,
            &[&told[..], &[("INTERRUPT_AT", &at.to_string())]].concat(),
        );
        let saved = save.is_saved(&folder).unwrap();
        // A read at the end of a file gives no byte that could be spoiled.
        assert_eq!(ended.status == Some(0), saved, "{ended:?}");
        assert_eq!(hidden(&folder), [""; 0], "{ended:?}");
        let reads = calls(&folder)
            .iter()
            .filter(|line| line.call == "read")
            .count();
        if reads < at {
            assert!(saved);
            break;
        }
        if !saved {
            said.push(ended.err);
        }
    }
    // The flow as it is read first, the new version, and the flow as it is compared.
    let changed = "mavdesk: house.flow is not saved: \
                   another program has changed it since it was read.\n";
    let spoiled = "mavdesk: house.flow cannot be saved and is as it was: \
                   the disk gives back other bytes than were written.\n";
    assert_eq!(said, [changed, spoiled, changed]);
}

#[test]
fn the_new_version_and_a_copy_of_the_old_have_the_permissions_of_the_old() {
    for mode in [0o600, 0o640, 0o664, 0o666] {
        for save in [Save::amount(), Save::amount_without_hard_links()] {
            let folder = save.folder();
            let old = folder.path("house.flow");
            fs::set_permissions(old, Permissions::from_mode(mode)).unwrap();
            assert_eq!(save.run(&folder, &[]).status, Some(0));
            for name in ["house.flow", "house.flow.before"] {
                let permissions = fs::metadata(folder.path(name)).unwrap().permissions();
                assert_eq!(permissions.mode() & 0o7777, mode, "{name}");
            }
        }
    }
}

/// A flow of 5,000 requests.
fn large_flow() -> Vec<u8> {
    let mut draft = samples::forty_rents();
    let forty = draft.dispositions.iter().cycle();
    draft.dispositions = forty.take(5_000).cloned().collect();
    draft.flow()
}

#[test]
fn a_large_save_killed_at_moments_spread_over_its_time() {
    const MOMENTS: u32 = 150;
    let flow = large_flow();
    let amounts = ["1111,11", "2222,22"];
    let versions = [111_111, 222_222].map(|cents| amended(&flow, &[change(4_321, cents)]));
    let folder = Folder::new();
    fs::write(folder.path("house.flow"), &versions[0]).unwrap();
    // Each save sets the amount that the flow does not have.
    let mut standing = 0;
    let words = |standing: usize| {
        [
            "amount",
            "--yes",
            "house.flow",
            "4321",
            amounts[1 - standing],
        ]
    };
    let mut longest = Duration::ZERO;
    for _ in 0..3 {
        let started = Instant::now();
        assert_eq!(folder.run(&words(standing)).status, Some(0));
        longest = longest.max(started.elapsed());
        standing = 1 - standing;
        assert!(folder.read("house.flow") == versions[standing]);
    }
    for moment in 0..MOMENTS {
        let mut command = folder.command(&words(standing));
        let quiet = command.stdin(Stdio::null()).stdout(Stdio::null());
        let mut child = quiet.stderr(Stdio::null()).spawn().unwrap();
        // Up to a fifth more than the whole save.
        thread::sleep(longest * moment * 6 / (5 * MOMENTS));
        child.kill().unwrap();
        child.wait().unwrap();
        let there = folder.read("house.flow");
        let found = versions.iter().position(|version| *version == there);
        standing = found.unwrap_or_else(|| panic!("{} bytes at moment {moment}", there.len()));
        assert!(versions.contains(&folder.read("house.flow.before")));
    }
    // Both versions are accepted, and the next save clears away what is left.
    for _ in 0..2 {
        assert_eq!(folder.run(&words(standing)).status, Some(0));
        assert_eq!(folder.run(&["check", "house.flow"]).status, Some(0));
        let answer = reader::read(&folder.read("house.flow"));
        assert!(matches!(answer, Answer::Accepted { .. }), "{answer}");
        standing = 1 - standing;
        assert!(folder.read("house.flow") == versions[standing]);
    }
    assert_eq!(folder.names(), ["house.flow", "house.flow.before"]);
}

#[test]
fn a_flow_that_is_larger_than_the_system_allows_stays_as_it_was() {
    let folder = Folder::new();
    let old = sample("forty-rents.flow");
    fs::write(folder.path("house.flow"), &old).unwrap();
    let ended = run_limited(&folder, "trap '' XFSZ; ulimit -f 1", Save::amount().words);
    let sentence = "mavdesk: house.flow cannot be saved and is as it was: \
                    the file would be larger than the system allows.\n";
    assert_eq!((ended.status, &ended.err[..]), (Some(2), sentence));
    assert!(!ended.out.contains("Saved"));
    assert_eq!(folder.names(), ["house.flow"]);
    assert!(folder.read("house.flow") == old);
}

#[test]
fn a_process_ended_for_a_file_too_large_leaves_the_old_flow() {
    let save = Save::amount();
    let folder = save.folder();
    let ended = run_limited(&folder, "ulimit -f 1", save.words);
    assert_eq!((ended.status, &ended.err[..]), (None, ""));
    assert_eq!(save.is_saved(&folder), Ok(false));
    // It was ended while it wrote the new version.
    assert!(hidden(&folder).contains(&".house.flow.mavdesk-new".to_owned()));
    assert_eq!(save.check_next(&folder), Ok(()));
}

/// What a full disk does, in a folder where `house.flow` stands. $1 is the room left in bytes, $2 the file
/// that is saved, and the rest is the command. A disk of 256 KB is filled up, the command is run, room is
/// made, and it is run again.
const FULL_DISK: &str = r#"
    room=$1; target=$2; shift 2
    mkdir disk && mount -t tmpfs -o size=256k none disk || exit
    cp house.flow disk/ && cd disk || exit
    head -c "$room" /dev/zero >room && cat /dev/zero >filler 2>/dev/null
    rm room
    : >../mounted
    "$@" >../out 2>../err; echo $? >../status
    ls -A >../names
    cp "$target" ../full
    rm filler
    "$@" >../next-out 2>../next-err; echo $? >../next-status
    ls -A >../next-names
    cp "$target" ../next
    cp "$target.before" ../next.before
"#;

/// Runs a save of or from the forty rents on a full disk with so much room left, where this machine lets one
/// mount a disk.
fn on_a_full_disk(save: &Save, room: &str, sentence: &str) {
    let folder = Folder::new();
    fs::write(folder.path("house.flow"), sample("forty-rents.flow")).unwrap();
    let ended = Command::new("unshare")
        .args(["--user", "--map-root-user", "--mount"])
        .args(["sh", "-c", FULL_DISK, "sh", room, save.target])
        .arg(env!("CARGO_BIN_EXE_mavdesk"))
        .args(save.words)
        .current_dir(folder.path(""))
        .output();
    if !folder.path("mounted").exists() {
        println!("no disk can be mounted here, so that none is full: {ended:?}");
        return;
    }
    let text = |name: &str| String::from_utf8(folder.read(name)).unwrap();
    assert_eq!((&text("err")[..], &text("status")[..]), (sentence, "2\n"));
    assert!(!text("out").contains("Saved"));
    assert!(bytes_of(&folder.path("full")) == save.old);
    // With room the same is saved.
    assert_eq!(
        (&text("next-err")[..], &text("next-status")[..]),
        ("", "0\n")
    );
    assert!(text("next-out").contains("Saved."));
    assert!(folder.read("next") == save.new);
    assert!(bytes_of(&folder.path("next.before")) == save.old);
    let beside = save
        .old
        .as_ref()
        .map_or(save.target.to_owned(), |_| save.before());
    assert_eq!(text("next-names"), format!("house.flow\n{beside}\n"));
    // Nothing was left over on the full disk.
    assert_eq!(text("names"), "filler\nhouse.flow\n");
}

#[test]
fn a_disk_without_room_for_the_new_flow() {
    on_a_full_disk(
        &Save::amount(),
        "16384",
        "mavdesk: house.flow cannot be saved and is as it was: the disk is full.\n",
    );
}

#[test]
fn a_disk_without_room_for_a_recall_flow() {
    // Room for the lock, and not for the 20 records.
    on_a_full_disk(
        &Save::recall(),
        "4096",
        "mavdesk: recall.flow cannot be saved: the disk is full.\n",
    );
}

#[test]
fn a_disk_without_any_room() {
    on_a_full_disk(
        &Save::amount(),
        "0",
        "mavdesk: house.flow cannot be locked: the disk is full.\n",
    );
    on_a_full_disk(
        &Save::recall(),
        "0",
        "mavdesk: recall.flow cannot be locked: the disk is full.\n",
    );
}
