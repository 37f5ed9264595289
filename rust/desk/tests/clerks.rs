//! Several clerks at once: no amendment is lost or made twice, no reader meets half a flow, and who finds a
//! flow locked is told by whom.
//!
//! Some tests start many processes and let them meet as they may. Others bring two or three processes
//! together at every moment there is: by `interrupt.c`, a library that stands between the command and the
//! system's calls, one of them waits before a chosen call while the others go on. What a flow must hold is
//! taken from the second program.

mod common;

use std::collections::BTreeSet;
use std::fs::{self, File, Permissions};
use std::io::{BufRead, BufReader, Read, Write};
use std::os::unix::fs::{chown, symlink, PermissionsExt};
use std::path::Path;
use std::process::{Child, ChildStderr, ChildStdout, Command, Stdio};
use std::sync::atomic::{AtomicBool, Ordering};
use std::thread;
use std::time::{Duration, SystemTime};

use common::{amended, are_root, interrupt_library, recalled, run_as_clerk, sample, Ended, Folder};
use oracle::ledger::Call;
use oracle::record::put;
use oracle::{reader, samples, Answer};

const LOCK: &str = ".house.flow.mavdesk-lock";

/// More calls than any amendment makes.
const MOST_CALLS: usize = 500;

/// An amendment of house.flow.
#[derive(Clone, Copy, Debug)]
struct Amendment(Call);

fn amount(k: u64, cents: u64) -> Amendment {
    Amendment(Call::Change { k, cents })
}

fn withdrawal(k: u64) -> Amendment {
    Amendment(Call::Withdraw { k })
}

impl Amendment {
    /// The words of the command, of which the file's name is the second.
    fn words(self) -> Vec<String> {
        let words = match self.0 {
            Call::Change { k, cents } => {
                let euros = format!("{},{:02}", cents / 100, cents % 100);
                ["amount".to_owned(), k.to_string(), euros].to_vec()
            }
            Call::Withdraw { k } => ["withdraw".to_owned(), k.to_string()].to_vec(),
        };
        [&words[..1], &["house.flow".to_owned()], &words[1..]].concat()
    }

    /// The same, to be saved without a question.
    fn words_with_yes(self) -> Vec<String> {
        [self.words(), vec!["--yes".to_owned()]].concat()
    }

    /// Tries it once, without a question.
    fn try_by(self, folder: &Folder, clerk: &str) -> Ended {
        let mut command = folder.command(&self.words_with_yes());
        let command = command.env("LOGNAME", clerk).stdin(Stdio::null());
        Ended::of(command.output().unwrap())
    }
}

/// Saved, and nothing else said.
fn is_saved(ended: &Ended) -> bool {
    ended.status == Some(0) && ended.err.is_empty() && ended.out.contains("\nSaved. ")
}

#[track_caller]
fn assert_saved(ended: &Ended) {
    assert!(is_saved(ended), "{ended:?}");
}

/// Who holds a lock, as the message says.
#[derive(Clone, Debug, Eq, PartialEq)]
struct Holder {
    /// The clerk and the number of the process; none of one that has not signed yet.
    process: Option<(String, u32)>,
    /// The hour and minute, and how long ago that was.
    since: String,
    ago: String,
}

/// Reads the message of a command that has found the file locked and has done nothing; there is none where
/// it has said anything else.
fn holder(ended: &Ended, file: &str) -> Option<Holder> {
    if ended.status != Some(2) || !ended.out.is_empty() {
        return None;
    }
    let rest = ended.err.strip_prefix("mavdesk: ")?.strip_prefix(file)?;
    let rest = rest.strip_prefix(" is locked by ")?;
    let end = "; nothing was changed, so try again when they are done.\n";
    let (who, when) = rest.strip_suffix(end)?.split_once(" since ")?;
    let process = if who == "another process" {
        None
    } else {
        let (clerk, number) = who.strip_suffix(')')?.split_once(" (process ")?;
        Some((clerk.to_owned(), number.parse().ok()?))
    };
    let (since, ago) = when.strip_suffix(" ago)")?.split_once(" UTC (")?;
    let (hour, minute) = since.split_once(':')?;
    let is_two_digits = |text: &str| text.len() == 2 && text.bytes().all(|b| b.is_ascii_digit());
    let is_time = is_two_digits(hour) && hour < "24" && is_two_digits(minute) && minute < "60";
    let (number, unit) = ago.split_once(' ')?;
    let is_span = number.parse::<u64>().is_ok()
        && ["second", "minute", "hour", "day"].contains(&unit.trim_end_matches('s'));
    (is_time && is_span).then(|| Holder {
        process,
        since: since.to_owned(),
        ago: ago.to_owned(),
    })
}

/// The clerk that a message names; it must be the lock's message.
#[track_caller]
fn holder_of(ended: &Ended) -> Option<(String, u32)> {
    let holder = holder(ended, "house.flow").unwrap_or_else(|| panic!("{ended:?}"));
    holder.process
}

/// A folder with a flow of forty requests.
fn forty() -> (Folder, Vec<u8>) {
    let folder = Folder::new();
    let flow = sample("forty-rents.flow");
    fs::write(folder.path("house.flow"), &flow).unwrap();
    (folder, flow)
}

#[track_caller]
fn assert_flow(folder: &Folder, due: &[u8]) {
    assert!(folder.read("house.flow") == due, "another flow is due");
}

/// Nothing stands in the folder but the flow and its earlier version.
#[track_caller]
fn assert_cleared(folder: &Folder) {
    assert_eq!(folder.names(), ["house.flow", "house.flow.before"]);
}

/// A command that waits at its question.
struct Asked {
    child: Child,
    out: ChildStdout,
    said: String,
}

impl Asked {
    /// Starts an amendment and waits for its question; where it ends before, it gives that.
    fn try_new(folder: &Folder, clerk: &str, words: &[String]) -> Result<Asked, Ended> {
        let mut command = folder.command(words);
        let command = command.env("LOGNAME", clerk).stdin(Stdio::piped());
        let command = command.stdout(Stdio::piped()).stderr(Stdio::piped());
        let mut child = command.spawn().unwrap();
        let mut out = child.stdout.take().unwrap();
        let mut said = Vec::new();
        while !said.ends_with(b" [y/N] ") {
            let mut byte = [0];
            if out.read(&mut byte).unwrap() == 0 {
                let mut ended = Ended::of(child.wait_with_output().unwrap());
                ended.out = String::from_utf8(said).unwrap();
                return Err(ended);
            }
            said.extend(byte);
        }
        let said = String::from_utf8(said).unwrap();
        Ok(Asked { child, out, said })
    }

    #[track_caller]
    fn new(folder: &Folder, clerk: &str, amendment: Amendment) -> Asked {
        let asked = Asked::try_new(folder, clerk, &amendment.words());
        asked.unwrap_or_else(|ended| panic!("{ended:?}"))
    }

    fn process(&self) -> u32 {
        self.child.id()
    }

    /// Answers, and waits for the end.
    fn answer(mut self, text: &str) -> Ended {
        let mut stdin = self.child.stdin.take().unwrap();
        stdin.write_all(text.as_bytes()).unwrap();
        drop(stdin);
        self.out.read_to_string(&mut self.said).unwrap();
        let mut ended = Ended::of(self.child.wait_with_output().unwrap());
        ended.out = self.said;
        ended
    }

    /// Kills it, so that it can clear away nothing.
    fn kill(mut self) {
        self.child.kill().unwrap();
        self.child.wait().unwrap();
    }
}

/// A flow of so many requests, each with a debtor and an amount that no other has.
fn flow_with(requests: usize) -> Vec<u8> {
    let mut draft = samples::forty_rents();
    let forty = draft.dispositions.iter().cycle();
    draft.dispositions = forty.take(requests).cloned().collect();
    for (index, records) in draft.dispositions.iter_mut().enumerate() {
        let opening = &mut records[0];
        put(opening, 34, format!("{:013}", 50_000 + index).as_bytes());
        let debtor = records.iter_mut().find(|record| &record[1..3] == b"30");
        put(debtor.unwrap(), 11, debtor_of(index + 1).as_bytes());
    }
    draft.flow()
}

/// The debtor of request `k` of such a flow as it was made.
fn debtor_of(k: usize) -> String {
    format!("STUDENTE {k:04}")
}

/// The debtors that a text names, in order.
fn debtors_in(text: &str) -> Vec<String> {
    let found = text.match_indices("STUDENTE ");
    found
        .map(|(place, _)| text[place..place + 13].to_owned())
        .collect()
}

/// How many requests of a flow have another amount than they were made with, and how many are gone.
fn amendments_in(flow: &[u8], made: usize) -> usize {
    let (records, _) = flow.as_chunks::<120>();
    let openings = records.iter().filter(|record| &record[1..3] == b"14");
    let amounts: Vec<&[u8]> = openings.map(|record| &record[33..46]).collect();
    let changed = amounts.iter().filter(|amount| amount[0] != b'0').count();
    changed + made - amounts.len()
}

/// One clerk's way through all that is to be done: whatever is refused because of the lock is tried again.
/// Gives what was printed for each amendment, and how often the lock was in the way.
fn work(folder: &Folder, clerk: &str, amendments: &[Amendment]) -> (Vec<String>, usize) {
    let mut printed = Vec::new();
    let mut refused = 0;
    for amendment in amendments {
        loop {
            let ended = amendment.try_by(folder, clerk);
            if is_saved(&ended) {
                printed.push(ended.out);
                break;
            }
            let holder = holder_of(&ended);
            let others = |(name, _): &(String, u32)| name.starts_with("clerk") && name != clerk;
            assert!(holder.is_none_or(|holder| others(&holder)), "{ended:?}");
            refused += 1;
        }
    }
    (printed, refused)
}

/// Reads the flow until all is done: it is a whole accepted flow each time, and never an earlier version
/// than the time before.
fn read_all_the_time(folder: &Folder, made: usize, done: &AtomicBool) -> usize {
    let mut readings = 0;
    let mut seen = 0;
    loop {
        // Once more after the last amendment.
        let last = done.load(Ordering::Acquire);
        let flow = folder.read("house.flow");
        let answer = reader::read(&flow);
        assert!(matches!(answer, Answer::Accepted { .. }), "{answer}");
        let amendments = amendments_in(&flow, made);
        assert!(
            seen <= amendments,
            "{seen} amendments, and then {amendments}"
        );
        seen = amendments;
        readings += 1;
        if last {
            return readings;
        }
    }
}

/// So many clerks amend one flow at once. Each changes the amounts of its own requests, each to one that no
/// other request gets, and all withdraw the request after these, so many times.
fn many_clerks(clerks: usize, amounts: usize, withdrawals: usize) {
    let own = clerks * amounts;
    let gone = clerks * withdrawals;
    let made = own + gone + 10;
    let flow = flow_with(made);
    let folder = Folder::new();
    fs::write(folder.path("house.flow"), &flow).unwrap();
    let plans: Vec<Vec<Amendment>> = (0..clerks)
        .map(|clerk| {
            // The first digit tells an amount that was changed from all that were not.
            let cents = |k: usize| 1_000_000_000_000 + 1_000 * k as u64 + clerk as u64;
            let mine = clerk * amounts + 1..=(clerk + 1) * amounts;
            let changes = mine.map(|k| amount(k as u64, cents(k)));
            let mut plan: Vec<Amendment> = changes.collect();
            // The withdrawals stand between the changes, evenly.
            for i in (0..withdrawals).rev() {
                plan.insert(i * amounts / withdrawals, withdrawal(own as u64 + 1));
            }
            plan
        })
        .collect();
    let done = AtomicBool::new(false);
    let printed = thread::scope(|scope| {
        let (folder, done) = (&folder, &done);
        let reading = scope.spawn(move || read_all_the_time(folder, made, done));
        let working: Vec<_> = plans
            .iter()
            .enumerate()
            .map(|(i, plan)| scope.spawn(move || work(folder, &format!("clerk{i}"), plan)))
            .collect();
        let ended: Vec<_> = working.into_iter().map(|clerk| clerk.join()).collect();
        done.store(true, Ordering::Release);
        let readings = reading.join().unwrap();
        let ended: Vec<_> = ended.into_iter().map(|clerk| clerk.unwrap()).collect();
        let refused: usize = ended.iter().map(|(_, refused)| refused).sum();
        println!("{readings} readings; the lock was in the way {refused} times");
        ended
            .into_iter()
            .flat_map(|(printed, _)| printed)
            .collect::<Vec<_>>()
    });
    // The changes are of requests before all that are withdrawn, so that the order does not matter.
    let calls: Vec<Call> = plans
        .iter()
        .flatten()
        .map(|&Amendment(call)| call)
        .collect();
    assert_flow(&folder, &amended(&flow, &calls));
    assert_eq!(amendments_in(&folder.read("house.flow"), made), own + gone);
    // Each clerk was told of another request withdrawn.
    let withdrawn = printed.iter().filter(|out| out.contains("to be withdrawn"));
    let told: Vec<String> = withdrawn.flat_map(|out| debtors_in(out)).collect();
    let due: BTreeSet<String> = (own + 1..=own + gone).map(debtor_of).collect();
    assert_eq!(told.len(), gone);
    assert_eq!(told.into_iter().collect::<BTreeSet<_>>(), due);
    assert_eq!(printed.len(), own + gone);
    assert_cleared(&folder);
}

#[test]
fn two_clerks_at_once_lose_no_amendment() {
    many_clerks(2, 90, 60);
}

#[test]
fn four_clerks_at_once_lose_no_amendment() {
    many_clerks(4, 50, 35);
}

#[test]
fn four_clerks_who_mostly_withdraw_lose_nothing() {
    many_clerks(4, 1, 50);
}

/// The hour and minute of a time.
fn time_of_day(time: SystemTime) -> String {
    let minutes = time
        .duration_since(SystemTime::UNIX_EPOCH)
        .unwrap()
        .as_secs()
        / 60;
    format!("{:02}:{:02}", minutes / 60 % 24, minutes % 60)
}

#[test]
fn a_clerk_is_told_who_holds_the_lock_and_since_when() {
    let (folder, flow) = forty();
    // The system may note an earlier time for a file than its clock shows, by some thousandths of a second.
    let earliest = SystemTime::now() - Duration::from_secs(1);
    let anna = Asked::new(&folder, "anna", amount(1, 111));
    let latest = SystemTime::now();
    let refused = amount(2, 222).try_by(&folder, "bruno");
    let holder = holder(&refused, "house.flow").unwrap_or_else(|| panic!("{refused:?}"));
    assert_eq!(holder.process, Some(("anna".to_owned(), anna.process())));
    let possible = [earliest, latest].map(time_of_day);
    assert!(possible.contains(&holder.since), "{possible:?}: {holder:?}");
    assert!(holder.ago.contains("second"), "{holder:?}");
    // Whoever may write in the folder may take it over, if Anna's process dies.
    let lock = fs::metadata(folder.path(LOCK)).unwrap();
    assert_eq!(lock.permissions().mode() & 0o777, 0o666);
    assert_flow(&folder, &flow);
    assert_eq!(folder.names(), [LOCK, "house.flow"]);
    anna.answer("n\n");
}

#[test]
fn how_long_ago_is_told_from_the_lock() {
    let (folder, _) = forty();
    let anna = Asked::new(&folder, "anna", amount(1, 111));
    let since = SystemTime::now() - Duration::from_secs(3 * 3_600 + 1_800);
    let lock = File::options().write(true).open(folder.path(LOCK)).unwrap();
    lock.set_modified(since).unwrap();
    let refused = amount(2, 222).try_by(&folder, "bruno");
    let holder = holder(&refused, "house.flow").unwrap_or_else(|| panic!("{refused:?}"));
    assert_eq!(holder.since, time_of_day(since));
    assert_eq!(holder.ago, "3 hours");
    anna.answer("n\n");
}

#[test]
fn who_found_the_flow_locked_succeeds_after_the_first_has_saved() {
    let (folder, flow) = forty();
    let anna = Asked::new(&folder, "anna", withdrawal(7));
    holder_of(&amount(39, 222).try_by(&folder, "bruno"));
    assert_saved(&anna.answer("y\n"));
    let between = amended(&flow, &[Call::Withdraw { k: 7 }]);
    assert_flow(&folder, &between);
    assert_saved(&amount(39, 222).try_by(&folder, "bruno"));
    assert_flow(&folder, &amended(&between, &[amount(39, 222).0]));
    assert!(folder.read("house.flow.before") == between);
    assert_cleared(&folder);
}

#[test]
fn who_found_the_flow_locked_succeeds_after_the_first_has_said_no() {
    let (folder, flow) = forty();
    let anna = Asked::new(&folder, "anna", withdrawal(7));
    holder_of(&amount(39, 222).try_by(&folder, "bruno"));
    let said_no = anna.answer("n\n");
    assert_eq!(said_no.status, Some(1));
    assert_eq!(said_no.err, "mavdesk: not saved: the flow is as it was.\n");
    assert_eq!(folder.names(), ["house.flow"]);
    assert_flow(&folder, &flow);
    assert_saved(&amount(39, 222).try_by(&folder, "bruno"));
    assert_flow(&folder, &amended(&flow, &[amount(39, 222).0]));
    assert_cleared(&folder);
}

#[test]
fn every_command_that_saves_needs_the_lock() {
    let (folder, flow) = forty();
    fs::write(folder.path("two.list"), sample("two-rents.list")).unwrap();
    fs::write(folder.path("two.flow"), sample("two-rents.flow")).unwrap();
    let anna = Asked::new(&folder, "anna", amount(1, 111));
    let named = Some(("anna".to_owned(), anna.process()));
    for words in [
        &["amount", "--yes", "house.flow", "1", "2,22"][..],
        &["withdraw", "--yes", "house.flow", "1"],
        &["write", "--yes", "two.list", "house.flow"],
        &["list", "--yes", "two.flow", "house.flow"],
    ] {
        let refused = folder.run(words);
        assert_eq!(holder_of(&refused), named, "{words:?}");
        assert_flow(&folder, &flow);
    }
    assert_saved(&anna.answer("y\n"));
}

#[test]
fn a_lock_file_of_a_killed_process_blocks_nobody() {
    let (folder, flow) = forty();
    Asked::new(&folder, "anna", amount(1, 111)).kill();
    assert_eq!(folder.names(), [LOCK, "house.flow"]);
    assert_saved(&amount(2, 222).try_by(&folder, "bruno"));
    assert_flow(&folder, &amended(&flow, &[amount(2, 222).0]));
    assert_cleared(&folder);
}

#[test]
fn a_lock_file_made_by_hand_blocks_nobody() {
    let (folder, flow) = forty();
    let long = "anna (process 1) ".repeat(100_000);
    let contents: [&[u8]; 5] = [
        b"",
        b"anna (process 1)",
        b"\n",
        &[0xFF; 99],
        long.as_bytes(),
    ];
    for (cents, content) in (1..).zip(contents) {
        fs::write(folder.path(LOCK), content).unwrap();
        assert_saved(&amount(2, cents).try_by(&folder, "bruno"));
        assert_flow(&folder, &amended(&flow, &[amount(2, cents).0]));
        assert_cleared(&folder);
    }
}

#[test]
fn a_link_or_a_pipe_in_the_place_of_the_lock_is_told_and_left() {
    let (folder, flow) = forty();
    fs::write(folder.path("private"), "a text of its own").unwrap();
    let pipe = |path: &Path| {
        let made = Command::new("mkfifo").arg(path).status();
        assert!(made.unwrap().success());
    };
    let links = ["private", "nowhere"].map(|to| move |path: &Path| symlink(to, path).unwrap());
    let [link, dangling] = links;
    for make in [&pipe as &dyn Fn(&Path), &link, &dangling] {
        make(&folder.path(LOCK));
        amount(2, 222).try_by(&folder, "bruno").failed(
            2,
            "mavdesk: house.flow cannot be locked: something else stands in the place of its lock.\n",
        );
        assert_eq!(folder.names(), [LOCK, "house.flow", "private"]);
        fs::remove_file(folder.path(LOCK)).unwrap();
    }
    assert_flow(&folder, &flow);
}

#[test]
fn a_holder_without_a_name_or_with_a_long_one_is_told_with_its_process() {
    let (folder, _) = forty();
    let long = "è".repeat(100);
    for (clerk, told) in [("", ""), (&long[..], &long[..60])] {
        let holder = Asked::new(&folder, clerk, amount(1, 111));
        let (name, process) = holder_of(&amount(2, 222).try_by(&folder, "bruno")).unwrap();
        assert_eq!(process, holder.process());
        match told {
            // The number of the user, which the system knows.
            "" => assert!(name.starts_with("user ") && name.len() > 5, "{name}"),
            told => assert_eq!(name, told),
        }
        holder.answer("n\n");
    }
}

#[test]
fn a_lock_file_removed_by_hand_is_not_made_up_for_by_removing_another() {
    let (folder, flow) = forty();
    let anna = Asked::new(&folder, "anna", amount(1, 111));
    fs::remove_file(folder.path(LOCK)).unwrap();
    let bruno = Asked::new(&folder, "bruno", amount(2, 222));
    assert_eq!(anna.answer("n\n").status, Some(1));
    // Bruno's lock stands.
    let named = Some(("bruno".to_owned(), bruno.process()));
    assert_eq!(holder_of(&amount(3, 333).try_by(&folder, "carla")), named);
    assert_saved(&bruno.answer("y\n"));
    assert_flow(&folder, &amended(&flow, &[amount(2, 222).0]));
    assert_cleared(&folder);
}

#[test]
fn a_lock_file_of_another_user_that_cannot_be_removed_is_taken_over() {
    let (folder, flow) = forty();
    // Only root can act as two others.
    if !are_root() {
        return;
    }
    // In such a folder only the owner of a file removes it.
    fs::set_permissions(folder.path(""), Permissions::from_mode(0o1777)).unwrap();
    let lock = folder.path(LOCK);
    fs::write(&lock, "carla (process 1)").unwrap();
    fs::set_permissions(&lock, Permissions::from_mode(0o666)).unwrap();
    chown(&lock, Some(1_234), Some(1_234)).unwrap();
    for name in ["", "house.flow"] {
        let owner = if name.is_empty() { 4_321 } else { 65_534 };
        chown(folder.path(name), Some(owner), Some(owner)).unwrap();
    }
    let words = ["amount", "--yes", "house.flow", "2", "2,22"];
    assert_saved(&run_as_clerk(&folder, ":", &words));
    assert_flow(&folder, &amended(&flow, &[amount(2, 222).0]));
    assert_eq!(folder.names(), [LOCK, "house.flow", "house.flow.before"]);
}

#[test]
fn a_lock_file_left_behind_is_taken_over_before_the_question() {
    let (folder, _) = forty();
    // Longer than what Anna writes over it.
    fs::write(
        folder.path(LOCK),
        "carla (process 1), and more words behind",
    )
    .unwrap();
    let anna = Asked::new(&folder, "anna", amount(1, 111));
    let named = Some(("anna".to_owned(), anna.process()));
    assert_eq!(holder_of(&amount(2, 222).try_by(&folder, "bruno")), named);
    anna.answer("n\n");
    assert_eq!(folder.names(), ["house.flow"]);
}

#[test]
fn two_names_of_a_file_share_a_lock() {
    let (folder, flow) = forty();
    fs::create_dir(folder.path("desk")).unwrap();
    symlink("house.flow", folder.path("link.flow")).unwrap();
    symlink("../link.flow", folder.path("desk/far.flow")).unwrap();
    let whole = fs::canonicalize(folder.path("house.flow")).unwrap();
    let whole = whole.to_str().unwrap();
    let names = [
        "house.flow",
        "link.flow",
        "desk/far.flow",
        "./desk/../house.flow",
        whole,
    ];
    let words = |name: &str| ["amount", name, "1", "1,11"].map(str::to_owned);
    for first in names {
        let anna = Asked::try_new(&folder, "anna", &words(first));
        let anna = anna.unwrap_or_else(|ended| panic!("{ended:?}"));
        let named = Some(("anna".to_owned(), anna.process()));
        for second in names {
            let refused = folder.run(&[&words(second)[..], &["--yes".to_owned()]].concat());
            let holder = holder(&refused, second);
            assert_eq!(
                holder.and_then(|holder| holder.process),
                named,
                "{first}, {second}"
            );
        }
        anna.answer("n\n");
    }
    // A save through a link leaves the link as it is.
    let saved = folder.run(&["amount", "--yes", "desk/far.flow", "1", "1,11"]);
    assert_saved(&saved);
    assert_flow(&folder, &amended(&flow, &[amount(1, 111).0]));
    assert!(folder.path("link.flow").is_symlink() && folder.path("desk/far.flow").is_symlink());
    assert!(folder.read("house.flow.before") == flow);
    let left = ["desk", "house.flow", "house.flow.before", "link.flow"];
    assert_eq!(folder.names(), left);
    assert_eq!(fs::read_dir(folder.path("desk")).unwrap().count(), 1);
}

#[test]
fn locks_of_different_files_do_not_meet() {
    let (folder, flow) = forty();
    fs::write(folder.path("other.flow"), &flow).unwrap();
    fs::create_dir(folder.path("desk")).unwrap();
    fs::write(folder.path("desk/house.flow"), &flow).unwrap();
    let anna = Asked::new(&folder, "anna", amount(1, 111));
    for other in ["other.flow", "desk/house.flow"] {
        assert_saved(&folder.run(&["amount", "--yes", other, "2", "2,22"]));
        assert!(folder.read(other) == amended(&flow, &[amount(2, 222).0]));
    }
    assert_flow(&folder, &flow);
    assert_saved(&anna.answer("y\n"));
    assert_flow(&folder, &amended(&flow, &[amount(1, 111).0]));
}

#[test]
fn who_only_reads_needs_no_lock() {
    let (folder, _) = forty();
    let reading = [
        &["check", "house.flow"][..],
        &["check", "."],
        &["show", "house.flow"],
        &["show", "house.flow", "7"],
        &["show", "house.flow", "--find", "studente 07"],
    ];
    let free = reading.map(|words| folder.run(words));
    let anna = Asked::new(&folder, "anna", amount(7, 111));
    let locked = reading.map(|words| folder.run(words));
    assert_eq!(locked, free);
    assert!(free.iter().all(|ended| ended.status == Some(0)), "{free:?}");
    // The list of a locked flow can be written too, since the lock of the list is another.
    let list = folder.run(&["list", "house.flow", "house.list"]);
    assert_eq!((list.status, &list.err[..]), (Some(0), ""));
    assert!(folder.read("house.list") == sample("forty-rents.list"));
    // And its requests can be recalled.
    let recall = recall_of(7).try_by(&folder, "bruno");
    assert_eq!((recall.status, &recall.err[..]), (Some(0), ""));
    assert!(folder.read(NEW) == recall_of(7).due());
    assert_saved(&anna.answer("y\n"));
}

/// The file that is to be a recall flow.
const NEW: &str = "new.flow";
const NEW_THERE: &str = "mavdesk: new.flow is there already; name a new file.\n";
const NEW_CHANGED: &str = "mavdesk: new.flow is not saved: \
                           another program has changed it since it was read.\n";

/// The recall of a request of house.flow, the forty rents.
#[derive(Clone, Copy)]
struct RecallOf(u64);

fn recall_of(k: u64) -> RecallOf {
    RecallOf(k)
}

impl RecallOf {
    fn words(self) -> Vec<String> {
        let words = format!("recall house.flow {NEW} {} --name=R --date=170326", self.0);
        words.split(' ').map(str::to_owned).collect()
    }

    /// The same, to be saved without a question, by a clerk.
    fn command(self, folder: &Folder, clerk: &str) -> Command {
        let mut command = folder.command(&[self.words(), vec!["--yes".to_owned()]].concat());
        command.env("LOGNAME", clerk);
        command
    }

    fn try_by(self, folder: &Folder, clerk: &str) -> Ended {
        let mut command = self.command(folder, clerk);
        Ended::of(command.stdin(Stdio::null()).output().unwrap())
    }

    /// The recall flow due.
    fn due(self) -> Vec<u8> {
        recalled(&sample("forty-rents.flow"), &[self.0], "170326", "R")
    }
}

#[test]
fn who_recalls_to_a_name_that_another_clerk_is_about_to_save_is_told() {
    for (answer, there) in [("y\n", true), ("n\n", false)] {
        let (folder, flow) = forty();
        let anna = Asked::try_new(&folder, "anna", &recall_of(1).words());
        let anna = anna.unwrap_or_else(|ended| panic!("{ended:?}"));
        let refused = recall_of(2).try_by(&folder, "bruno");
        let holder = holder(&refused, NEW).unwrap_or_else(|| panic!("{refused:?}"));
        assert_eq!(holder.process, Some(("anna".to_owned(), anna.process())));
        // The flow sent is not locked: it can be amended meanwhile.
        assert_saved(&amount(3, 333).try_by(&folder, "carla"));
        assert_eq!(anna.answer(answer).status, Some(i32::from(!there)));
        let bruno = recall_of(2).try_by(&folder, "bruno");
        if there {
            assert_eq!((bruno.status, &bruno.err[..]), (Some(2), NEW_THERE));
            assert!(folder.read(NEW) == recall_of(1).due());
        } else {
            assert_eq!((bruno.status, &bruno.err[..]), (Some(0), ""));
            assert!(folder.read(NEW) == recall_of(2).due());
        }
        assert_flow(&folder, &amended(&flow, &[amount(3, 333).0]));
        let left = ["house.flow", "house.flow.before", NEW];
        assert_eq!(folder.names(), left);
    }
}

/// What a clerk is told who comes too late to save a new file: by the lock, the file, or its name at the
/// last moment.
fn is_too_late(ended: &Ended) -> bool {
    let is_told = [NEW_THERE, NEW_CHANGED].contains(&&ended.err[..]);
    ended.status == Some(2) && (is_told || holder(ended, NEW).is_some())
}

/// Anna waits before each of her calls in turn, and meanwhile Bruno recalls another request to the same
/// name. One of them saves, whole, and the other is told.
#[test]
fn of_two_recalls_to_one_name_one_is_saved_at_every_moment() {
    let mut met = BTreeSet::new();
    for at in 1..=MOST_CALLS {
        let (folder, flow) = forty();
        let mut command = recall_of(1).command(&folder, "anna");
        command.env("INTERRUPT_AT", at.to_string());
        let anna = match Waiting::of(command) {
            Ok(anna) => anna,
            Err(ended) => {
                assert_eq!((ended.status, &ended.err[..]), (Some(0), ""));
                assert_eq!(met, BTreeSet::from([false, true]));
                return;
            }
        };
        let bruno = recall_of(2).try_by(&folder, "bruno");
        let anna = anna.go_on();
        let is_annas = anna.status == Some(0);
        met.insert(is_annas);
        let (saved, late, due) = match is_annas {
            true => (anna, bruno, recall_of(1).due()),
            false => (bruno, anna, recall_of(2).due()),
        };
        assert_eq!((saved.status, &saved.err[..]), (Some(0), ""), "call {at}");
        assert!(is_too_late(&late), "Anna before call {at}: {late:?}");
        assert!(folder.read(NEW) == due, "Anna before call {at}");
        assert_flow(&folder, &flow);
        assert_eq!(folder.names(), ["house.flow", NEW], "call {at}");
    }
    panic!("more than {MOST_CALLS} calls");
}

#[test]
fn a_recall_flow_whose_name_is_taken_at_the_last_moment_is_not_saved() {
    // Also on a disk without hard links, where the file gets its name by a renaming.
    for links in ["yes", "no"] {
        let (folder, flow) = forty();
        let mut command = recall_of(1).command(&folder, "anna");
        command
            .env("INTERRUPT_LINKS", links)
            .env("INTERRUPT_ONLY", "link")
            .env("INTERRUPT_AT", "1");
        let anna = Waiting::of(command).unwrap_or_else(|ended| panic!("{ended:?}"));
        fs::write(folder.path(NEW), "of another program").unwrap();
        let ended = anna.go_on();
        assert_eq!((ended.status, &ended.err[..]), (Some(2), NEW_CHANGED));
        assert_eq!(folder.read(NEW), b"of another program");
        assert_flow(&folder, &flow);
        assert_eq!(folder.names(), ["house.flow", NEW]);
    }
}

const CHANGED: &str = "mavdesk: house.flow is not saved: \
                       another program has changed it since it was read.\n";

/// While a clerk is asked, another program does something to the file. The clerk's yes is refused, and what
/// the other program has left is untouched.
fn changed_while_asked(change: impl Fn(&Path)) {
    for amendment in [amount(1, 111), withdrawal(7)] {
        let (folder, _) = forty();
        let anna = Asked::new(&folder, "anna", amendment);
        change(&folder.path("house.flow"));
        let left = fs::read(folder.path("house.flow")).ok();
        let names = folder.names();
        let refused = anna.answer("y\n");
        assert_eq!((refused.status, &refused.err[..]), (Some(2), CHANGED));
        assert!(!refused.out.contains("Saved"), "{refused:?}");
        assert!(fs::read(folder.path("house.flow")).ok() == left);
        let names_without_lock: Vec<_> = names.into_iter().filter(|name| name != LOCK).collect();
        assert_eq!(folder.names(), names_without_lock);
    }
}

#[test]
fn a_flow_that_another_program_has_replaced_is_left_alone() {
    let replace = |path: &Path| {
        let new = path.with_file_name("new.flow");
        fs::write(&new, sample("two-rents.flow")).unwrap();
        fs::rename(new, path).unwrap();
    };
    changed_while_asked(replace);
}

#[test]
fn a_flow_that_another_program_has_written_to_is_left_alone() {
    let flow = sample("forty-rents.flow");
    let versions = [
        amended(&flow, &[amount(40, 1).0]),
        amended(&flow, &[withdrawal(40).0]),
        [&flow[..], b" "].concat(),
        flow[..flow.len() - 1].to_vec(),
        Vec::new(),
    ];
    for version in versions {
        changed_while_asked(|path| fs::write(path, &version).unwrap());
    }
}

#[test]
fn a_flow_that_another_program_has_removed_is_not_brought_back() {
    changed_while_asked(|path| fs::remove_file(path).unwrap());
}

#[test]
fn a_file_changed_while_its_replacement_is_asked_about_is_left_alone() {
    let (folder, _) = forty();
    fs::write(folder.path("two.list"), sample("two-rents.list")).unwrap();
    let words = ["write", "two.list", "house.flow"].map(str::to_owned);
    let anna = Asked::try_new(&folder, "anna", &words);
    let anna = anna.unwrap_or_else(|ended| panic!("{ended:?}"));
    fs::write(folder.path("house.flow"), sample("one-rent.flow")).unwrap();
    let refused = anna.answer("y\n");
    assert_eq!((refused.status, &refused.err[..]), (Some(2), CHANGED));
    assert_flow(&folder, &sample("one-rent.flow"));
    assert_eq!(folder.names(), ["house.flow", "two.list"]);
}

/// A process that waits before one of its calls.
struct Waiting {
    child: Child,
    err: BufReader<ChildStderr>,
}

impl Waiting {
    /// Starts an amendment that waits before a call; where it ends with fewer calls, it gives that.
    fn before(
        folder: &Folder,
        clerk: &str,
        amendment: Amendment,
        at: usize,
    ) -> Result<Waiting, Ended> {
        let mut command = folder.command(&amendment.words_with_yes());
        command
            .env("LOGNAME", clerk)
            .env("INTERRUPT_AT", at.to_string());
        Waiting::of(command)
    }

    /// The same of a command that is told where to wait.
    fn of(mut command: Command) -> Result<Waiting, Ended> {
        let mut child = command
            .env("LD_PRELOAD", interrupt_library())
            .env("INTERRUPT_HOW", "wait")
            .stdin(Stdio::piped())
            .stdout(Stdio::piped())
            .stderr(Stdio::piped())
            .spawn()
            .unwrap();
        let mut err = BufReader::new(child.stderr.take().unwrap());
        let mut line = String::new();
        err.read_line(&mut line).unwrap();
        let waiting = Waiting { child, err };
        if line == "waiting\n" {
            return Ok(waiting);
        }
        let mut ended = waiting.go_on();
        ended.err.insert_str(0, &line);
        Err(ended)
    }

    /// Lets it go on, and waits for its end.
    fn go_on(mut self) -> Ended {
        drop(self.child.stdin.take());
        let mut err = String::new();
        self.err.read_to_string(&mut err).unwrap();
        let mut ended = Ended::of(self.child.wait_with_output().unwrap());
        ended.err = err;
        ended
    }
}

#[test]
fn a_file_made_by_another_program_at_the_last_moment_is_not_replaced() {
    let (folder, flow) = forty();
    let mut command = folder.command(&["list", "house.flow", "new.list"]);
    // The link is what gives a new file its name.
    command
        .env("INTERRUPT_ONLY", "link")
        .env("INTERRUPT_AT", "1");
    let anna = Waiting::of(command).unwrap_or_else(|ended| panic!("{ended:?}"));
    fs::write(folder.path("new.list"), "of another program").unwrap();
    let ended = anna.go_on();
    let sentence = "mavdesk: new.list is not saved: \
                    another program has changed it since it was read.\n";
    assert_eq!((ended.status, &ended.err[..]), (Some(2), sentence));
    assert_eq!(folder.read("new.list"), b"of another program");
    assert_flow(&folder, &flow);
    assert_eq!(folder.names(), ["house.flow", "new.list"]);
}

/// What they amend. The order in which they do does not matter.
const ANNAS: Amendment = Amendment(Call::Change { k: 1, cents: 111 });
const BRUNOS: Amendment = Amendment(Call::Change { k: 2, cents: 222 });
const CARLAS: Amendment = Amendment(Call::Withdraw { k: 3 });

/// Anna waits before each of her calls in turn, and meanwhile Carla saves or is refused. Then Anna saves,
/// whatever Carla has done, and nothing of it is lost.
#[test]
fn a_save_at_every_moment_of_another_is_not_lost() {
    let mut met = BTreeSet::new();
    for at in 1..=MOST_CALLS {
        let (folder, flow) = forty();
        let anna = match Waiting::before(&folder, "anna", ANNAS, at) {
            Ok(anna) => anna,
            Err(ended) => {
                assert_saved(&ended);
                assert_eq!(met, BTreeSet::from([false, true]));
                return;
            }
        };
        let carla = CARLAS.try_by(&folder, "carla");
        let anna = anna.go_on();
        assert!(is_saved(&anna), "Anna before call {at}: {anna:?}");
        let mut saved = vec![ANNAS.0];
        if is_saved(&carla) {
            saved.push(CARLAS.0);
        } else {
            let holder = holder(&carla, "house.flow");
            assert!(holder.is_some(), "Anna before call {at}: {carla:?}");
        }
        met.insert(is_saved(&carla));
        assert_flow(&folder, &amended(&flow, &saved));
        assert_cleared(&folder);
    }
    panic!("more than {MOST_CALLS} calls");
}

/// Anna waits before each of her calls in turn. Bruno comes as far as his question or is refused; then Anna
/// goes on to her end. Where Bruno is at his question, Carla is refused and told of him, before he saves.
/// At the end Carla saves, and exactly what was said to be saved is in the flow.
fn three_at_every_moment(left_behind: Option<&str>) {
    let mut met = BTreeSet::new();
    for at in 1..=MOST_CALLS {
        let (folder, flow) = forty();
        if let Some(text) = left_behind {
            fs::write(folder.path(LOCK), text).unwrap();
        }
        let anna = match Waiting::before(&folder, "anna", ANNAS, at) {
            Ok(anna) => anna,
            Err(ended) => {
                assert_saved(&ended);
                // Anna was met before she had the lock, while she held it, and after.
                let all = [(false, true), (true, false), (true, true)];
                assert_eq!(met, BTreeSet::from(all));
                return;
            }
        };
        let mut saved = Vec::new();
        let bruno = Asked::try_new(&folder, "bruno", &BRUNOS.words());
        let anna = anna.go_on();
        if is_saved(&anna) {
            saved.push(ANNAS.0);
        }
        met.insert((is_saved(&anna), bruno.is_ok()));
        match bruno {
            Ok(bruno) => {
                let named = Some(("bruno".to_owned(), bruno.process()));
                if !is_saved(&anna) {
                    assert_eq!(holder_of(&anna), named, "Anna before call {at}");
                }
                let carla = CARLAS.try_by(&folder, "carla");
                assert_eq!(holder_of(&carla), named, "Anna before call {at}");
                assert_flow(&folder, &amended(&flow, &saved));
                assert_saved(&bruno.answer("y\n"));
                saved.push(BRUNOS.0);
            }
            Err(refused) => {
                let holder = holder(&refused, "house.flow");
                let holder = holder.unwrap_or_else(|| panic!("Anna before call {at}: {refused:?}"));
                let names = ["anna".to_owned(), "daria".to_owned()];
                assert!(holder.process.is_none_or(|(name, _)| names.contains(&name)));
                assert_saved(&anna);
            }
        }
        assert_flow(&folder, &amended(&flow, &saved));
        assert_saved(&CARLAS.try_by(&folder, "carla"));
        saved.push(CARLAS.0);
        assert_flow(&folder, &amended(&flow, &saved));
        assert_cleared(&folder);
    }
    panic!("more than {MOST_CALLS} calls");
}

#[test]
fn a_second_process_at_every_moment_of_a_save() {
    three_at_every_moment(None);
}

#[test]
fn a_second_process_at_every_moment_where_a_lock_file_was_left_behind() {
    three_at_every_moment(Some("daria (process 1)"));
}

/// Anna is at her question. Bruno comes, finds her lock file and waits before one of his calls; meanwhile
/// Anna ends and Carla comes to her question. Whatever Bruno had open of Anna's lock file is no lock: he is
/// refused, and Carla's lock stands.
#[test]
fn a_lock_file_that_is_gone_is_not_taken_for_the_one_that_stands_there() {
    // Bruno tries many times, each time with the same calls; these are the first two times and more.
    const CALLS: usize = 20;
    for at in 1..=CALLS {
        let (folder, flow) = forty();
        let anna = Asked::new(&folder, "anna", ANNAS);
        let bruno = Waiting::before(&folder, "bruno", BRUNOS, at);
        let bruno = bruno.unwrap_or_else(|ended| panic!("before call {at}: {ended:?}"));
        assert_eq!(anna.answer("n\n").status, Some(1));
        let carla = Asked::new(&folder, "carla", CARLAS);
        let holder = holder_of(&bruno.go_on());
        let named = Some(("carla".to_owned(), carla.process()));
        assert_eq!(holder, named, "Bruno before call {at}");
        let daria = amount(4, 444).try_by(&folder, "daria");
        assert_eq!(holder_of(&daria), named, "Bruno before call {at}");
        assert_flow(&folder, &flow);
        assert_saved(&carla.answer("y\n"));
        assert_flow(&folder, &amended(&flow, &[CARLAS.0]));
        assert_cleared(&folder);
    }
}
