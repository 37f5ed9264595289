//! What the tests of the command share: a folder of their own, the command run in it, and what the second
//! program makes of a flow.

// Each file of tests is a program of its own and uses some of this.
#![allow(dead_code)]

use std::ffi::OsStr;
use std::fs::{self, Permissions};
use std::io::Write;
use std::os::unix::fs::{MetadataExt, PermissionsExt};
use std::os::unix::process::CommandExt;
use std::path::{Path, PathBuf};
use std::process::{Command, Output, Stdio};
use std::sync::atomic::{AtomicU32, Ordering};
use std::sync::OnceLock;

use oracle::amend;
use oracle::ledger::{Call, Ledger};
use oracle::list::{items, write_flow, write_list};
use oracle::Answer;

/// A new folder, which is removed with all in it when this is dropped.
pub struct Folder(PathBuf);

impl Folder {
    pub fn new() -> Folder {
        static NEXT: AtomicU32 = AtomicU32::new(0);
        let number = NEXT.fetch_add(1, Ordering::Relaxed);
        let name = format!("mavdesk-test-{}-{number}", std::process::id());
        let path = std::env::temp_dir().join(name);
        fs::create_dir(&path).unwrap();
        Folder(path)
    }

    /// A folder with copies of these samples.
    pub fn with(samples: &[&str]) -> Folder {
        let folder = Folder::new();
        for name in samples {
            fs::write(folder.path(name), sample(name)).unwrap();
        }
        folder
    }

    /// The path of a file in it.
    pub fn path(&self, name: &str) -> PathBuf {
        self.0.join(name)
    }

    /// The bytes of a file in it.
    pub fn read(&self, name: &str) -> Vec<u8> {
        fs::read(self.path(name)).unwrap()
    }

    /// The names of all files in it, in order.
    pub fn names(&self) -> Vec<String> {
        let entries = fs::read_dir(&self.0).unwrap();
        let mut names: Vec<String> = entries
            .map(|entry| entry.unwrap().file_name().into_string().unwrap())
            .collect();
        names.sort();
        names
    }

    /// The command, to be run in the folder with these words.
    pub fn command<S: AsRef<OsStr>>(&self, words: &[S]) -> Command {
        let mut command = Command::new(env!("CARGO_BIN_EXE_mavdesk"));
        command
            .args(words)
            .current_dir(&self.0)
            .env("LOGNAME", "anna");
        command
    }

    /// Runs the command with nothing to read.
    pub fn run<S: AsRef<OsStr>>(&self, words: &[S]) -> Ended {
        self.answer(words, "")
    }

    /// Runs the command and gives it a text to read.
    pub fn answer<S: AsRef<OsStr>>(&self, words: &[S], text: &str) -> Ended {
        let mut child = self
            .command(words)
            .stdin(Stdio::piped())
            .stdout(Stdio::piped())
            .stderr(Stdio::piped())
            .spawn()
            .unwrap();
        // A command that does not ask ends without reading.
        let _ = child.stdin.take().unwrap().write_all(text.as_bytes());
        Ended::of(child.wait_with_output().unwrap())
    }
}

impl Drop for Folder {
    fn drop(&mut self) {
        let _ = fs::remove_dir_all(&self.0);
    }
}

/// A command that has ended: its exit status, none where a signal ended it, and what it has written.
#[derive(Debug, Eq, PartialEq)]
pub struct Ended {
    pub status: Option<i32>,
    pub out: String,
    pub err: String,
}

impl Ended {
    pub fn of(output: Output) -> Ended {
        Ended {
            status: output.status.code(),
            out: String::from_utf8(output.stdout).unwrap(),
            err: String::from_utf8(output.stderr).unwrap(),
        }
    }

    /// All was done, and this is all that was printed.
    #[track_caller]
    pub fn printed(&self, out: &str) {
        assert_eq!(self.err, "");
        assert_eq!(self.out, out);
        assert_eq!(self.status, Some(0));
    }

    /// It ended with this status and this on standard error, and printed nothing else.
    #[track_caller]
    pub fn failed(&self, status: i32, err: &str) {
        assert_eq!(self.err, err);
        assert_eq!(self.out, "");
        assert_eq!(self.status, Some(status));
    }
}

/// The bytes of a sample.
pub fn sample(name: &str) -> Vec<u8> {
    fs::read(samples().join(name)).unwrap()
}

/// The folder of the samples.
pub fn samples() -> PathBuf {
    Path::new(env!("CARGO_MANIFEST_DIR")).join("../../samples")
}

/// The folder has these files with these bytes, and no other file.
#[track_caller]
pub fn left(folder: &Folder, files: &[(&str, &[u8])]) {
    let mut names: Vec<&str> = files.iter().map(|(name, _)| *name).collect();
    names.sort_unstable();
    assert_eq!(folder.names(), names);
    for (name, bytes) in files {
        assert!(folder.read(name) == *bytes, "{name} has other bytes");
    }
}

/// The folder has a file with these bytes, what it was before as its earlier version, and no other file.
#[track_caller]
pub fn replaced(folder: &Folder, name: &str, before: &[u8], now: &[u8]) {
    left(folder, &[(name, now), (&format!("{name}.before"), before)]);
}

/// The call that gives request `k` another amount.
pub fn change(k: u64, cents: u64) -> Call {
    Call::Change { k, cents }
}

/// The call that takes request `k` out.
pub fn withdraw(k: u64) -> Call {
    Call::Withdraw { k }
}

/// The flow that the second program leaves after these calls, which it accepts: by its amendments, and by
/// its ledger where the flow is what its own list encodes.
#[track_caller]
pub fn amended(flow: &[u8], calls: &[Call]) -> Vec<u8> {
    let mut amended = flow.to_vec();
    for call in calls {
        let answer = match *call {
            Call::Change { k, cents } => amend::change(&mut amended, k, cents),
            Call::Withdraw { k } => {
                let (answer, length) = amend::withdraw(&mut amended, k);
                amended.truncate(length);
                answer
            }
        };
        assert!(matches!(answer, Answer::Accepted { .. }), "{answer}");
    }
    let mut ledger = Ledger::new(&list_of(flow)).unwrap();
    for call in calls {
        ledger.call(*call);
    }
    assert!(ledger.list() == list_of(&amended));
    if flow_of(&list_of(flow)) == flow {
        assert!(flow_of(&ledger.list()) == amended);
    }
    amended
}

/// The list of a flow, by the second program, which accepts it.
#[track_caller]
pub fn list_of(flow: &[u8]) -> Vec<u8> {
    let mut list = vec![0; flow.len()];
    let (answer, length) = write_list(flow, &mut list);
    assert!(matches!(answer, Answer::Accepted { .. }), "{answer}");
    list.truncate(length);
    list
}

/// The flow of a list, by the second program, which accepts it.
#[track_caller]
pub fn flow_of(list: &[u8]) -> Vec<u8> {
    let mut flow = vec![0; 120 * (items(list).count() + 1)];
    let (answer, length) = write_flow(list, &mut flow);
    assert!(matches!(answer, Answer::Accepted { .. }), "{answer}");
    assert_eq!(length, flow.len());
    flow
}

/// The recall flow of these requests, rising, of a canonical flow of requests. It is put together from the
/// flow's own records: a name and a date of its own, numbers from 1, causale 07100 and sign + in each record
/// 14, and in the trailer zeros at 53-67 and the sum at 68-82 (document 003, section 3).
pub fn recalled(flow: &[u8], numbers: &[u64], date: &str, name: &str) -> Vec<u8> {
    let (records, _) = flow.as_chunks::<120>();
    let [header, inner @ .., trailer] = records else {
        panic!("no flow");
    };
    let own = format!("{date}{name:<20}");
    let mut recall = vec![*header];
    let mut cents: u64 = 0;
    for (place, k) in (1..).zip(numbers) {
        let number = format!("{k:07}");
        for record in inner
            .iter()
            .filter(|record| &record[3..10] == number.as_bytes())
        {
            let mut record = *record;
            record[3..10].copy_from_slice(format!("{place:07}").as_bytes());
            if &record[1..3] == b"14" {
                record[28..33].copy_from_slice(b"07100");
                record[46] = b'+';
                let amount = str::from_utf8(&record[33..46]).unwrap();
                cents += amount.parse::<u64>().unwrap();
            }
            recall.push(record);
        }
    }
    recall.push(*trailer);
    let (count, records) = (numbers.len(), recall.len());
    let totals = format!("{count:07}{:015}{cents:015}{records:07}", 0);
    recall[records - 1][45..89].copy_from_slice(totals.as_bytes());
    for end in [0, records - 1] {
        recall[end][13..39].copy_from_slice(own.as_bytes());
    }
    recall.concat()
}

/// The line over the requests.
pub const TITLES: &str =
    " NUMBER  DUE                   AMOUNT  DEBTOR                         REFERENCE\n";

/// The two requests of two-rents.flow, as their rows; of two-rents-recall.flow the two recalls.
pub const ROSSI: &str =
    "      1  31/03/2026            450,00  ROSSI GIULIA                   0000000017\n";
pub const BIANCHI: &str =
    "      2  31/03/2026            380,50  BIANCHI MARCO                  0000000023\n";

/// The row of request `number` of forty-rents.flow: 300,00 euro and 12,50 more for each.
pub fn student(number: u64) -> String {
    let cents = 30_000 + 1_250 * number;
    let amount = format!("{},{:02}", cents / 100, cents % 100);
    format!(
        "{number:7}  31/03/2026 {amount:>17}  STUDENTE {number:02}                    {number:010}\n"
    )
}

/// The name and the date that recall flows have here, where nothing else is said.
pub const NAME: &str = "--name=RECALL-MARCH";
pub const DATE: &str = "--date=170326";

/// The rulers over the two halves of a record.
pub const RULER_1: &str = "   ----+----1----+----2----+----3----+----4----+----5----+----6";
pub const RULER_2: &str = "   ----+----7----+----8----+----9----+---10----+---11----+---12";

/// A record in two rows under their rulers. A position other than 0 is marked.
pub fn drawn(record: &[u8], position: usize) -> String {
    let shown = |byte: &u8| match byte {
        b' '..=b'~' => char::from(*byte),
        _ => '?',
    };
    let record: String = record.iter().map(shown).collect();
    let mark = |column: usize| format!("{}^ {position}\n", " ".repeat(column));
    let mut drawn = format!("{RULER_1}\n  |{}|\n", &record[..60]);
    if (1..=60).contains(&position) {
        drawn += &mark(position + 2);
    }
    drawn += &format!("{RULER_2}\n  |{}|\n", &record[60..]);
    if (61..=120).contains(&position) {
        drawn += &mark(position - 58);
    }
    drawn
}

/// Record `number` of a flow, from 1.
pub fn record(flow: &[u8], number: usize) -> &[u8] {
    &flow[120 * (number - 1)..120 * number]
}

/// The library that `interrupt.c` is, compiled once.
pub fn interrupt_library() -> &'static Path {
    static LIBRARY: OnceLock<PathBuf> = OnceLock::new();
    LIBRARY.get_or_init(|| {
        let folder = Path::new(env!("CARGO_TARGET_TMPDIR"));
        let made = folder.join(format!("interrupt-{}.so", std::process::id()));
        let status = Command::new("cc")
            .args(["-Wall", "-Wextra", "-Werror", "-shared", "-fPIC", "-o"])
            .arg(&made)
            .arg(Path::new(env!("CARGO_MANIFEST_DIR")).join("tests/interrupt.c"))
            .arg("-ldl")
            .status()
            .unwrap();
        assert!(status.success(), "interrupt.c cannot be compiled");
        // Renamed, so that another run of these tests never loads half a library.
        let library = folder.join("interrupt.so");
        fs::rename(made, &library).unwrap();
        library
    })
}

/// Whether the tests run as root, whom no permission stops.
pub fn are_root() -> bool {
    fs::metadata(Folder::new().path(".")).unwrap().uid() == 0
}

/// Runs the command after these words of the shell, which may limit it.
pub fn run_limited(folder: &Folder, limits: &str, words: &[&str]) -> Ended {
    let command = limited(Path::new(env!("CARGO_BIN_EXE_mavdesk")), limits, words);
    ended(command, folder)
}

/// The same as a user whom permissions can stop. Root runs a copy of the command as another user, since that
/// one may not be allowed to come near the command itself.
pub fn run_as_clerk(folder: &Folder, limits: &str, words: &[&str]) -> Ended {
    if !are_root() {
        return run_limited(folder, limits, words);
    }
    let home = Folder::new();
    let copy = home.path("mavdesk");
    // No process of ours has the copy open for writing when it is run.
    let copied = Command::new("cp")
        .arg(env!("CARGO_BIN_EXE_mavdesk"))
        .arg(&copy)
        .status();
    assert!(copied.unwrap().success());
    for path in [&copy, &home.path(".")] {
        fs::set_permissions(path, Permissions::from_mode(0o755)).unwrap();
    }
    let mut command = limited(&copy, limits, words);
    command.uid(65_534).gid(65_534);
    ended(command, folder)
}

fn limited(program: &Path, limits: &str, words: &[&str]) -> Command {
    let mut shell = Command::new("bash");
    shell
        .args(["-c", &format!("ulimit -c 0; {limits}; exec \"$0\" \"$@\"")])
        .arg(program)
        .args(words);
    shell
}

fn ended(mut command: Command, folder: &Folder) -> Ended {
    let command = command.current_dir(folder.path(".")).stdin(Stdio::null());
    Ended::of(command.output().unwrap())
}
