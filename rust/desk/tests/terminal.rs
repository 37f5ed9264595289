//! The command at a terminal: the line that tells how far a check is, the question before a save, and those
//! for the name and the date of a recall flow. The terminal is made by `script`, which every Linux has.

mod common;

use std::fs::File;
use std::io::{Read, Write};
use std::process::{Child, ChildStdin, ChildStdout, Command, Stdio};
use std::thread;
use std::time::{Duration, Instant};

use common::{recalled, sample, Ended, Folder};

/// A folder with a pipe in the place of a flow: a check of it lasts until something is written to it.
fn with_pipe() -> Folder {
    let folder = Folder::new();
    let made = Command::new("mkfifo")
        .arg(folder.path("slow.flow"))
        .status();
    assert!(made.unwrap().success());
    folder
}

/// The command at a terminal of its own.
fn at_terminal(folder: &Folder, words: &str) -> Command {
    let mut command = Command::new("script");
    let line = format!("'{}' {words}", env!("CARGO_BIN_EXE_mavdesk"));
    command
        .args(["--quiet", "--return", "--command", &line, "/dev/null"])
        .current_dir(folder.path(""))
        .stdin(Stdio::piped())
        .stdout(Stdio::piped());
    command
}

/// Reads from a running command until its output ends with the text.
fn until(out: &mut impl Read, text: &str) -> String {
    let mut seen = Vec::new();
    while !seen.ends_with(text.as_bytes()) {
        let mut byte = [0];
        assert_eq!(out.read(&mut byte).unwrap(), 1, "ended before {text:?}");
        seen.push(byte[0]);
    }
    String::from_utf8(seen).unwrap()
}

#[test]
fn a_long_check_tells_how_far_it_is_and_clears_the_line() {
    let folder = with_pipe();
    let mut child = at_terminal(&folder, "check slow.flow").spawn().unwrap();
    let mut out = child.stdout.take().unwrap();
    assert_eq!(until(&mut out, "checked"), "\r0 of 1 flows checked");
    let mut pipe = File::options()
        .write(true)
        .open(folder.path("slow.flow"))
        .unwrap();
    pipe.write_all(&sample("two-rents.flow")).unwrap();
    drop(pipe);
    let mut rest = String::new();
    out.read_to_string(&mut rest).unwrap();
    assert!(child.wait().unwrap().success());
    // The line may have been renewed before it was cleared.
    let (_, table) = rest.split_once("\r\u{1b}[K").unwrap();
    assert_eq!(
        table,
        "FLOW        KIND         COUNT                 TOTAL    RECORDS\r\n\
         slow.flow   requests         2                830,50         16\r\n\
         \r\n\
         1 flow accepted: 2 requests, 830,50 euro.\r\n"
    );
}

#[test]
fn a_long_check_whose_output_goes_to_a_file_has_no_such_line() {
    let folder = with_pipe();
    let child = folder
        .command(&["check", "slow.flow"])
        .stdout(Stdio::piped())
        .stderr(Stdio::piped())
        .spawn()
        .unwrap();
    let mut pipe = File::options()
        .write(true)
        .open(folder.path("slow.flow"))
        .unwrap();
    // Longer than the moment after which a terminal has the line.
    thread::sleep(Duration::from_millis(600));
    pipe.write_all(&sample("two-rents.flow")).unwrap();
    drop(pipe);
    Ended::of(child.wait_with_output().unwrap()).printed(
        "FLOW        KIND         COUNT                 TOTAL    RECORDS\n\
         slow.flow   requests         2                830,50         16\n\
         \n\
         1 flow accepted: 2 requests, 830,50 euro.\n",
    );
}

#[test]
fn a_clerk_is_asked_and_the_answer_is_taken() {
    for (answer, saved) in [("y\n", true), ("n\n", false)] {
        let folder = Folder::with(&["two-rents.flow"]);
        let mut child = at_terminal(&folder, "amount two-rents.flow 2 400")
            .spawn()
            .unwrap();
        let mut out = child.stdout.take().unwrap();
        until(&mut out, "Save it? [y/N] ");
        assert_eq!(folder.read("two-rents.flow"), sample("two-rents.flow"));
        child
            .stdin
            .take()
            .unwrap()
            .write_all(answer.as_bytes())
            .unwrap();
        let mut rest = String::new();
        out.read_to_string(&mut rest).unwrap();
        assert_eq!(child.wait().unwrap().success(), saved);
        assert_eq!(
            folder.read("two-rents.flow") != sample("two-rents.flow"),
            saved
        );
        let told = match saved {
            true => "Saved. The flow as it was is kept as two-rents.flow.before.\r\n",
            false => "mavdesk: not saved: the flow is as it was.\r\n",
        };
        assert!(rest.ends_with(&format!("\r\n{told}")), "{rest:?}");
    }
}

/// The questions for what a recall flow has for itself, and the one before it is saved.
const NAME: &str = "The name of the recall flow, at most 20 characters: ";
const DATE: &str = "The date of the recall flow, as GGMMAA: ";
const SAVE: &str = "Save it? [y/N] ";

/// What is shown of the recall of request 2 of two-rents.flow, between the questions.
const SHOWN: &str = "\
two-rents.flow: requests of AB123, 15/03/2026, RENT-MARCH\r
\r
 NUMBER  DUE                   AMOUNT  DEBTOR                         REFERENCE\r
      2  31/03/2026            380,50  BIANCHI MARCO                  0000000023\r
\r
1 of 2 requests to be recalled, 380,50 euro.\r
\r
new: recalls of AB123, 17/03/2026, RECALL 2\r
1 recall, 380,50 euro, 9 records, numbered anew from 1 on.\r
\r
";

/// A clerk at a terminal, who types when a question has come.
struct Clerk {
    terminal: Child,
    keys: ChildStdin,
    out: ChildStdout,
    seen: String,
}

impl Clerk {
    fn at(folder: &Folder, words: &str) -> Clerk {
        let mut terminal = at_terminal(folder, words).spawn().unwrap();
        Clerk {
            keys: terminal.stdin.take().unwrap(),
            out: terminal.stdout.take().unwrap(),
            terminal,
            seen: String::new(),
        }
    }

    /// Waits for a question and types. What is typed is seen too, as a terminal shows it.
    fn answers(mut self, question: &str, text: &str) -> Clerk {
        self.seen += &until(&mut self.out, question);
        self.keys.write_all(text.as_bytes()).unwrap();
        self
    }

    /// Types no more and waits for the end: the exit status, and all that was seen.
    fn ends(mut self) -> (Option<i32>, String) {
        drop(self.keys);
        self.out.read_to_string(&mut self.seen).unwrap();
        (self.terminal.wait().unwrap().code(), self.seen)
    }

    /// Waits for a question and closes the terminal, with the command still in it.
    fn leaves_at(mut self, question: &str) {
        until(&mut self.out, question);
        self.terminal.kill().unwrap();
        self.terminal.wait().unwrap();
    }
}

/// The recall flow due.
fn recall_2() -> Vec<u8> {
    recalled(&sample("two-rents.flow"), &[2], "170326", "RECALL 2")
}

/// The folder has the flow sent as it was, and no other file.
#[track_caller]
fn nothing_made(folder: &Folder) {
    assert_eq!(folder.names(), ["two-rents.flow"]);
    assert!(folder.read("two-rents.flow") == sample("two-rents.flow"));
}

#[test]
fn the_name_and_the_date_of_a_recall_flow_are_asked_for() {
    let folder = Folder::with(&["two-rents.flow"]);
    let (status, seen) = Clerk::at(&folder, "recall two-rents.flow new 2")
        .answers(NAME, "RECALL 2\n")
        .answers(DATE, "170326\n")
        .answers(SAVE, "y\n")
        .ends();
    assert_eq!(
        seen,
        format!("{NAME}RECALL 2\r\n{DATE}170326\r\n\r\n{SHOWN}{SAVE}y\r\nSaved.\r\n")
    );
    assert_eq!(status, Some(0));
    assert_eq!(folder.names(), ["new", "two-rents.flow"]);
    assert!(folder.read("new") == recall_2());
    assert!(folder.read("two-rents.flow") == sample("two-rents.flow"));
}

#[test]
fn only_what_is_not_given_is_asked_for() {
    for (given, question, text) in [
        ("--name 'RECALL 2'", DATE, "170326\n"),
        ("--date 170326", NAME, " RECALL 2 \n"),
    ] {
        let folder = Folder::with(&["two-rents.flow"]);
        let words = format!("recall --yes {given} two-rents.flow new 2");
        let (status, seen) = Clerk::at(&folder, &words).answers(question, text).ends();
        let typed = text.trim_end_matches('\n');
        let due = format!("{question}{typed}\r\n\r\n{SHOWN}Saved.\r\n");
        assert_eq!((status, seen), (Some(0), due));
        assert!(folder.read("new") == recall_2());
    }
    let folder = Folder::with(&["two-rents.flow"]);
    let words = "recall --name 'RECALL 2' --date 170326 two-rents.flow new 2";
    let (status, seen) = Clerk::at(&folder, words).answers(SAVE, "n\n").ends();
    let due = format!("{SHOWN}{SAVE}n\r\nmavdesk: not saved: nothing was written.\r\n");
    assert_eq!((status, seen), (Some(1), due));
    nothing_made(&folder);
}

#[test]
fn what_is_wrong_before_is_told_without_a_question() {
    for (words, told, status) in [
        (
            "recall two-rents.flow two-rents.flow 2",
            "two-rents.flow is there already; name a new file.",
            2,
        ),
        (
            "recall two-rents.flow new 3",
            "request 3 of two-rents.flow: refused 15: the flow has no disposition of that number; it has \
             the requests 1 to 2; nothing was saved.",
            1,
        ),
        (
            "recall nowhere.flow new 2",
            "nowhere.flow cannot be read: there is no such file.",
            2,
        ),
    ] {
        let folder = Folder::with(&["two-rents.flow"]);
        let ended = Clerk::at(&folder, words).ends();
        assert_eq!(ended, (Some(status), format!("mavdesk: {told}\r\n")));
        nothing_made(&folder);
    }
}

#[test]
fn an_answer_that_is_none_is_told_and_nothing_is_saved() {
    // Nothing typed, and the end of the input, which is Ctrl-D.
    let no_name = "not saved: no name was given.";
    let no_date = "not saved: no date was given.";
    let long = "ABCDEFGHIJKLMNOPQRSTU";
    let too_long = format!(
        "{long} is not the name of a flow, which has at most 20 plain letters, digits, signs or blanks."
    );
    let accent = too_long.replacen(long, "CITTÀ", 1);
    let slashes = "17/03/26 is not a date as GGMMAA, which is 150326 for the 15th of March 2026.";
    for (name, date, told, status) in [
        ("\n", None, no_name, 1),
        ("  \n", None, no_name, 1),
        ("\u{4}", None, no_name, 1),
        ("RECALL 2\n", Some("\n"), no_date, 1),
        ("RECALL 2\n", Some("\u{4}"), no_date, 1),
        ("ABCDEFGHIJKLMNOPQRSTU\n", None, &too_long, 2),
        ("CITTÀ\n", None, &accent, 2),
        ("RECALL 2\n", Some("17/03/26\n"), slashes, 2),
    ] {
        let folder = Folder::with(&["two-rents.flow"]);
        let clerk = Clerk::at(&folder, "recall --yes two-rents.flow new 2").answers(NAME, name);
        let clerk = match date {
            Some(date) => clerk.answers(DATE, date),
            None => clerk,
        };
        let (ended, seen) = clerk.ends();
        assert!(
            seen.ends_with(&format!("\r\nmavdesk: {told}\r\n")),
            "{seen:?}"
        );
        assert_eq!(ended, Some(status), "{seen:?}");
        nothing_made(&folder);
    }
}

#[test]
fn a_date_of_no_calendar_is_told_where_it_was_asked_for() {
    let folder = Folder::with(&["two-rents.flow"]);
    let (status, seen) = Clerk::at(&folder, "recall two-rents.flow new 2")
        .answers(NAME, "RECALL 2\n")
        .answers(DATE, "310626\n")
        .ends();
    let told = "mavdesk: new: refused 8 at record 1, position 14: \
                the digits of this field are not a date of the calendar.\r\n";
    assert!(seen.contains(told), "{seen:?}");
    let advice = "\r\nNothing was saved; give another --date.\r\n";
    assert!(seen.ends_with(advice), "{seen:?}");
    assert_eq!(status, Some(1));
    nothing_made(&folder);
}

#[test]
fn where_the_questions_could_not_be_seen_they_are_not_put() {
    let folder = Folder::with(&["two-rents.flow"]);
    let (status, seen) = Clerk::at(&folder, "recall two-rents.flow new 2 >/dev/null").ends();
    let due = "mavdesk: a recall flow has a name and a date of its own; \
               give --name NAME and --date GGMMAA.\r\n";
    assert_eq!((status, &seen[..]), (Some(2), due));
    nothing_made(&folder);
}

#[test]
fn a_terminal_that_is_closed_at_a_question_leaves_no_recall_flow() {
    for question in [NAME, DATE, SAVE] {
        let folder = Folder::with(&["two-rents.flow"]);
        let clerk = Clerk::at(&folder, "recall two-rents.flow new 2");
        match question {
            NAME => clerk.leaves_at(NAME),
            DATE => clerk.answers(NAME, "RECALL 2\n").leaves_at(DATE),
            _ => clerk
                .answers(NAME, "RECALL 2\n")
                .answers(DATE, "170326\n")
                .leaves_at(SAVE),
        }
        assert!(!folder.path("new").exists());
        assert!(folder.read("two-rents.flow") == sample("two-rents.flow"));
        // The command ends with its terminal, and what it leaves behind blocks nobody.
        let began = Instant::now();
        let words = ["recall", "two-rents.flow", "new", "2", "--yes"];
        let words = [&words[..], &["--name=RECALL 2", "--date=170326"]].concat();
        while folder.run(&words).status != Some(0) {
            assert!(began.elapsed() < Duration::from_secs(10), "{question}");
        }
        assert_eq!(folder.names(), ["new", "two-rents.flow"]);
        assert!(folder.read("new") == recall_2());
    }
}
