//! What is in the way of a command is told in one plain sentence on standard error, with a status other than
//! 0, and nothing is done: the files, the command line, permissions, and an output that cannot be written.
//! Links and permissions of what is saved are here too.

mod common;

use std::ffi::{OsStr, OsString};
use std::fs::{self, File, OpenOptions, Permissions};
use std::io::{Read, Write};
use std::os::unix::ffi::OsStrExt;
use std::os::unix::fs::{chown, symlink, MetadataExt, PermissionsExt};
use std::path::{Path, PathBuf};
use std::process::{Command, Stdio};

use common::{
    amended, are_root, change, flow_of, left, replaced, run_as_clerk, run_limited, sample,
    withdraw, Ended, Folder, DATE, NAME,
};

/// What `amount FILE 2 400` shows of two-rents.flow after the file's name.
const TO_400: &str = ": Request 2, due 31/03/2026, BIANCHI MARCO, reference 0000000023

                                          BEFORE                   AFTER
request 2, amount                         380,50                  400,00
trailer, requests                              2                       2
trailer, total                            830,50                  850,00
trailer, records                              16                      16

";

/// One sentence, with this status and nothing else.
#[track_caller]
fn told(ended: &Ended, status: i32, sentence: &str) {
    assert!(sentence.ends_with('.') && !sentence.contains('\n'));
    ended.failed(status, &format!("mavdesk: {sentence}\n"));
}

/// The folder has copies of these samples as they are, and no other file.
#[track_caller]
fn untouched(folder: &Folder, samples: &[&str]) {
    let bytes: Vec<Vec<u8>> = samples.iter().map(|name| sample(name)).collect();
    let files: Vec<(&str, &[u8])> = samples
        .iter()
        .zip(&bytes)
        .map(|(name, bytes)| (*name, &bytes[..]))
        .collect();
    left(folder, &files);
}

/// The two rents with the second one at 400 euro, by the second program.
fn at_400() -> Vec<u8> {
    amended(&sample("two-rents.flow"), &[change(2, 40_000)])
}

fn set_mode(path: &Path, mode: u32) {
    fs::set_permissions(path, Permissions::from_mode(mode)).unwrap();
}

fn mode(path: &Path) -> u32 {
    fs::metadata(path).unwrap().mode() & 0o7777
}

#[test]
fn a_missing_file_is_told_by_every_command_that_reads_one() {
    let folder = Folder::new();
    for words in [
        &["show", "house.flow"][..],
        &["show", "house.flow", "1"],
        &["show", "house.flow", "--find", "rossi"],
        &["diff", "house.flow", "other.flow"],
        &["amount", "house.flow", "1", "450"],
        &["amount", "--yes", "house.flow", "1", "450"],
        &["withdraw", "--yes", "house.flow", "1"],
        &["list", "house.flow", "house.list"],
        &["write", "house.flow", "other.flow"],
        &["recall", NAME, DATE, "house.flow", "other.flow", "1"],
    ] {
        told(
            &folder.run(words),
            2,
            "house.flow cannot be read: there is no such file.",
        );
        left(&folder, &[]);
    }
}

#[test]
fn check_judges_the_other_flows_where_files_are_missing() {
    let folder = Folder::with(&["two-rents.flow"]);
    let ended = folder.run(&["check", "b.flow", "two-rents.flow", "a.flow"]);
    assert_eq!(
        ended.out,
        "\
FLOW             KIND         COUNT                 TOTAL    RECORDS
b.flow           not read
two-rents.flow   requests         2                830,50         16
a.flow           not read

1 flow accepted: 2 requests, 830,50 euro. 2 not read.
"
    );
    assert_eq!(
        ended.err,
        "mavdesk: b.flow cannot be read: there is no such file.\n\
         mavdesk: a.flow cannot be read: there is no such file.\n"
    );
    assert_eq!(ended.status, Some(2));
}

#[test]
fn the_status_is_2_where_one_flow_is_refused_and_another_is_not_read() {
    let folder = Folder::with(&["refused-01-length.flow"]);
    let title = "FLOW                     KIND         COUNT                 TOTAL    RECORDS\n";
    let refused = "refused-01-length.flow   refused 1\n";
    let unread = "a.flow                   not read\n";
    for (words, rows) in [
        (
            ["check", "refused-01-length.flow", "a.flow"],
            [refused, unread],
        ),
        (
            ["check", "a.flow", "refused-01-length.flow"],
            [unread, refused],
        ),
    ] {
        let ended = folder.run(&words);
        assert_eq!(
            ended.out,
            format!(
                "{title}{}\n0 flows accepted: 0 requests, 0,00 euro. 1 refused. 1 not read.\n\n\
                 refused-01-length.flow: refused 1: the flow is empty, is not whole records of 120 bytes, or \
                 is too long.\nIt has 1.919 bytes: 15 records, and 119 bytes more.\n",
                rows.concat()
            )
        );
        assert_eq!(
            ended.err,
            "mavdesk: a.flow cannot be read: there is no such file.\n"
        );
        assert_eq!(ended.status, Some(2));
    }
}

#[test]
fn a_missing_folder_is_told() {
    let folder = Folder::with(&["two-rents.flow", "two-rents.list"]);
    for words in [
        &["list", "two-rents.flow", "night/house"][..],
        &["write", "two-rents.list", "night/house"],
        &["recall", NAME, DATE, "two-rents.flow", "night/house", "1"],
    ] {
        told(
            &folder.run(words),
            2,
            "night/house cannot be changed: there is no such folder.",
        );
    }
    for words in [
        &["amount", "night/house", "1", "450"][..],
        &["withdraw", "night/house", "1"],
    ] {
        told(
            &folder.run(words),
            2,
            "night/house cannot be read: there is no such file.",
        );
    }
    untouched(&folder, &["two-rents.flow", "two-rents.list"]);
}

#[test]
fn a_name_that_asks_for_a_folder_is_no_file() {
    let folder = Folder::with(&["two-rents.flow"]);
    for name in ["new/", "new/."] {
        told(
            &folder.run(&["list", "two-rents.flow", name]),
            2,
            &format!("{name} cannot be changed: there is no such folder."),
        );
    }
    untouched(&folder, &["two-rents.flow"]);
}

#[test]
fn an_empty_name_is_told() {
    let folder = Folder::with(&["two-rents.flow"]);
    told(
        &folder.run(&["show", ""]),
        2,
        "\"\" cannot be read: there is no such file.",
    );
    told(
        &folder.run(&["list", "two-rents.flow", ""]),
        2,
        "\"\" cannot be changed: there is no such file.",
    );
    untouched(&folder, &["two-rents.flow"]);
}

#[test]
fn a_file_in_the_path_is_no_folder() {
    let folder = Folder::with(&["two-rents.flow", "two-rents.list"]);
    for words in [
        &["list", "two-rents.flow", "two-rents.list/house"][..],
        &["write", "two-rents.list", "two-rents.list/house"],
    ] {
        told(
            &folder.run(words),
            2,
            "two-rents.list/house cannot be changed: a part of its path is not a folder.",
        );
    }
    for words in [
        &["show", "two-rents.list/house"][..],
        &["amount", "two-rents.list/house", "1", "450"],
    ] {
        told(
            &folder.run(words),
            2,
            "two-rents.list/house cannot be read: a part of its path is not a folder.",
        );
    }
    untouched(&folder, &["two-rents.flow", "two-rents.list"]);
}

#[test]
fn a_folder_where_a_file_is_due_is_told() {
    let folder = Folder::with(&["two-rents.flow", "two-rents.list"]);
    fs::create_dir(folder.path("night")).unwrap();
    for (words, doing) in [
        (&["show", "night"][..], "read"),
        (&["show", "night", "1"], "read"),
        (&["diff", "night", "two-rents.flow"], "read"),
        (&["diff", "two-rents.flow", "night"], "read"),
        (&["amount", "--yes", "night", "1", "450"], "changed"),
        (&["withdraw", "--yes", "night", "1"], "changed"),
        (&["list", "night", "new.list"], "read"),
        (&["list", "--yes", "two-rents.flow", "night"], "changed"),
        (&["write", "night", "new.flow"], "read"),
        (&["write", "--yes", "two-rents.list", "night"], "changed"),
        (&["recall", NAME, DATE, "night", "new.flow", "1"], "read"),
    ] {
        told(
            &folder.run(words),
            2,
            &format!("night cannot be {doing}: it is a folder, and a file is due."),
        );
        assert_eq!(
            folder.names(),
            ["night", "two-rents.flow", "two-rents.list"]
        );
    }
    for name in [".", "..", "night/.."] {
        told(
            &folder.run(&["list", "--yes", "two-rents.flow", name]),
            2,
            &format!("{name} cannot be changed: it is a folder, and a file is due."),
        );
    }
    assert_eq!(fs::read_dir(folder.path("night")).unwrap().count(), 0);
    fs::remove_dir(folder.path("night")).unwrap();
    untouched(&folder, &["two-rents.flow", "two-rents.list"]);
}

#[test]
fn what_is_no_plain_file_cannot_be_amended() {
    let folder = Folder::new();
    let made = Command::new("mkfifo").arg(folder.path("pipe")).status();
    assert!(made.unwrap().success());
    // Whoever opens it need not wait for its other end.
    let _both_ends = OpenOptions::new()
        .read(true)
        .write(true)
        .open(folder.path("pipe"))
        .unwrap();
    for words in [
        &["amount", "--yes", "pipe", "1", "450"][..],
        &["withdraw", "--yes", "pipe", "1"],
    ] {
        told(
            &folder.run(words),
            2,
            "pipe cannot be changed: it is not a plain file.",
        );
        assert_eq!(folder.names(), ["pipe"]);
    }
}

#[test]
fn a_name_that_is_too_long_is_told() {
    let folder = Folder::new();
    let name = "a".repeat(256);
    for words in [&["show", &name][..], &["list", &name, "new.list"]] {
        told(
            &folder.run(words),
            2,
            &format!("{name} cannot be read: the name is too long."),
        );
    }
    // The name of the lock beside a file is longer than the file's own.
    let name = "a".repeat(250);
    fs::write(folder.path(&name), sample("two-rents.flow")).unwrap();
    told(
        &folder.run(&["amount", "--yes", &name, "2", "400"]),
        2,
        &format!("{name} cannot be locked: the name is too long."),
    );
    left(&folder, &[(&name, &sample("two-rents.flow"))]);
}

#[test]
fn a_file_that_may_not_be_read_is_told() {
    let folder = Folder::with(&["two-rents.flow"]);
    set_mode(&folder.path("."), 0o777);
    set_mode(&folder.path("two-rents.flow"), 0);
    for (words, doing) in [
        (&["show", "two-rents.flow"][..], "read"),
        (&["diff", "two-rents.flow", "two-rents.flow"], "read"),
        (&["list", "two-rents.flow", "new.list"], "read"),
        (&["write", "two-rents.flow", "new.flow"], "read"),
        (
            &["recall", NAME, DATE, "two-rents.flow", "new.flow", "2"],
            "read",
        ),
        (
            &["amount", "--yes", "two-rents.flow", "2", "400"],
            "changed",
        ),
        (&["withdraw", "--yes", "two-rents.flow", "2"], "changed"),
    ] {
        let ended = run_as_clerk(&folder, ":", words);
        assert_eq!(folder.names(), ["two-rents.flow"]);
        told(
            &ended,
            2,
            &format!("two-rents.flow cannot be {doing}: there is no permission."),
        );
    }
    let ended = run_as_clerk(&folder, ":", &["check", "."]);
    assert_eq!(
        ended.out,
        "\
FLOW               KIND         COUNT                 TOTAL    RECORDS
./two-rents.flow   not read

0 flows accepted: 0 requests, 0,00 euro. 1 not read.
"
    );
    assert_eq!(
        ended.err,
        "mavdesk: ./two-rents.flow cannot be read: there is no permission.\n"
    );
    assert_eq!(ended.status, Some(2));
    set_mode(&folder.path("two-rents.flow"), 0o644);
    untouched(&folder, &["two-rents.flow"]);
}

#[test]
fn a_file_that_may_only_be_read_is_shown_and_not_changed() {
    let folder = Folder::with(&["one-rent.flow", "two-rents.flow"]);
    set_mode(&folder.path("."), 0o777);
    set_mode(&folder.path("two-rents.flow"), 0o444);
    for words in [
        &["amount", "--yes", "two-rents.flow", "2", "400"][..],
        &["withdraw", "--yes", "two-rents.flow", "2"],
        &["list", "--yes", "one-rent.flow", "two-rents.flow"],
    ] {
        let ended = run_as_clerk(&folder, ":", words);
        told(
            &ended,
            2,
            "two-rents.flow cannot be changed: there is no permission.",
        );
        untouched(&folder, &["one-rent.flow", "two-rents.flow"]);
        assert_eq!(mode(&folder.path("two-rents.flow")), 0o444);
    }
    run_as_clerk(
        &folder,
        ":",
        &["show", "two-rents.flow", "--find", "bianchi"],
    )
    .printed(
        "\
two-rents.flow: requests of AB123, 15/03/2026, RENT-MARCH

 NUMBER  DUE                   AMOUNT  DEBTOR                         REFERENCE
      2  31/03/2026            380,50  BIANCHI MARCO                  0000000023

1 of 2 requests, 380,50 euro.
",
    );
}

#[test]
fn in_a_folder_that_may_only_be_read_nothing_is_changed() {
    let folder = Folder::with(&["two-rents.flow", "two-rents.list"]);
    set_mode(&folder.path("two-rents.flow"), 0o666);
    for (words, name) in [
        (
            &["amount", "--yes", "two-rents.flow", "2", "400"][..],
            "two-rents.flow",
        ),
        (
            &["withdraw", "--yes", "two-rents.flow", "2"],
            "two-rents.flow",
        ),
        (&["list", "two-rents.flow", "new.list"], "new.list"),
        (&["write", "two-rents.list", "new.flow"], "new.flow"),
        (
            &["recall", NAME, DATE, "two-rents.flow", "new.flow", "2"],
            "new.flow",
        ),
    ] {
        set_mode(&folder.path("."), 0o555);
        let ended = run_as_clerk(&folder, ":", words);
        set_mode(&folder.path("."), 0o755);
        told(
            &ended,
            2,
            &format!("{name} cannot be locked: there is no permission to write in its folder."),
        );
        untouched(&folder, &["two-rents.flow", "two-rents.list"]);
    }
}

#[test]
fn a_folder_that_may_not_be_looked_into_is_told() {
    let folder = Folder::new();
    let night = folder.path("night");
    fs::create_dir(&night).unwrap();
    fs::write(night.join("house.flow"), sample("one-rent.flow")).unwrap();
    set_mode(&night, 0o311);
    let ended = run_as_clerk(&folder, ":", &["check", "night"]);
    set_mode(&night, 0o755);
    assert_eq!(
        ended.err,
        "mavdesk: night cannot be looked into: there is no permission.\n"
    );
    assert!(ended.out.contains("\nnight   not read\n"));
    assert_eq!(ended.status, Some(2));
}

/// A flow one record longer than the longest. It has no bytes on the disk.
fn too_long(folder: &Folder) {
    let file = File::create(folder.path("long.flow")).unwrap();
    file.set_len(1_199_999_880 + 120).unwrap();
}

/// Runs the command with less memory than the file has bytes.
fn run_in_little_memory(folder: &Folder, words: &[&str]) -> Ended {
    run_limited(folder, "ulimit -v 500000", words)
}

#[test]
fn a_flow_above_the_ceiling_is_refused_without_being_read() {
    let folder = Folder::new();
    too_long(&folder);
    for words in [
        &["show", "long.flow"][..],
        &["show", "long.flow", "1"],
        &["amount", "--yes", "long.flow", "1", "450"],
        &["withdraw", "--yes", "long.flow", "1"],
        &["list", "long.flow", "new.list"],
        &["write", "long.flow", "new.flow"],
        &["recall", NAME, DATE, "long.flow", "new.flow", "1"],
    ] {
        told(
            &run_in_little_memory(&folder, words),
            1,
            "long.flow is not read: it has 1.200.000.000 bytes, and the longest flow has 1.199.999.880.",
        );
        assert_eq!(folder.names(), ["long.flow"]);
    }
    let length = fs::metadata(folder.path("long.flow")).unwrap().len();
    assert_eq!(length, 1_200_000_000);
}

#[test]
fn a_flow_above_the_ceiling_is_refused_by_1_among_others() {
    let folder = Folder::with(&["one-rent.flow"]);
    too_long(&folder);
    let ended = run_in_little_memory(&folder, &["check", "."]);
    assert_eq!(
        ended.out,
        "\
FLOW              KIND         COUNT                 TOTAL    RECORDS
./long.flow       refused 1
./one-rent.flow   requests         1                450,00          9

1 flow accepted: 1 request, 450,00 euro. 1 refused.

./long.flow: refused 1: the flow is empty, is not whole records of 120 bytes, or is too long.
It has 1.200.000.000 bytes: 10.000.000 records, and 0 bytes more.
"
    );
    assert_eq!(ended.err, "");
    assert_eq!(ended.status, Some(1));
}

#[test]
fn an_empty_file_is_refused_by_1() {
    let folder = Folder::new();
    fs::write(folder.path("empty.flow"), b"").unwrap();
    let refusal = "\
empty.flow: refused 1: the flow is empty, is not whole records of 120 bytes, or is too long.
It has 0 bytes: 0 records, and 0 bytes more.
";
    for words in [
        &["show", "empty.flow"][..],
        &["amount", "--yes", "empty.flow", "1", "450"],
        &["withdraw", "--yes", "empty.flow", "1"],
        &["list", "--yes", "empty.flow", "new.list"],
        &["recall", NAME, DATE, "empty.flow", "new.flow", "1"],
    ] {
        folder.run(words).failed(1, &format!("mavdesk: {refusal}"));
        left(&folder, &[("empty.flow", b"")]);
    }
    let ended = folder.run(&["check", "empty.flow"]);
    assert_eq!(
        ended.out,
        format!(
            "{}\n\n0 flows accepted: 0 requests, 0,00 euro. 1 refused.\n\n{refusal}",
            "FLOW         KIND         COUNT                 TOTAL    RECORDS\nempty.flow   refused 1",
        )
    );
    assert_eq!(ended.status, Some(1));
}

/// Runs the command with a standard output that takes nothing.
fn run_on_a_full_disk(folder: &Folder, words: &[&str], answer: &str) -> Ended {
    let full = OpenOptions::new().write(true).open("/dev/full").unwrap();
    let mut child = folder
        .command(words)
        .stdin(Stdio::piped())
        .stdout(full)
        .stderr(Stdio::piped())
        .spawn()
        .unwrap();
    let _ = child.stdin.take().unwrap().write_all(answer.as_bytes());
    Ended::of(child.wait_with_output().unwrap())
}

#[test]
fn an_output_that_cannot_be_written_is_told_and_nothing_is_saved() {
    let folder = Folder::with(&["forty-rents.flow", "two-rents.flow"]);
    for words in [
        &["--help"][..],
        &["--version"],
        &["explain"],
        &["explain", "9"],
        &["help", "show"],
        &["check", "two-rents.flow"],
        &["show", "two-rents.flow"],
        &["show", "forty-rents.flow"],
        &["show", "forty-rents.flow", "4"],
        &["diff", "two-rents.flow", "two-rents.flow"],
        &["diff", "two-rents.flow", "forty-rents.flow"],
        &["amount", "two-rents.flow", "2", "400"],
        &["amount", "--yes", "two-rents.flow", "2", "400"],
        &["amount", "--yes", "two-rents.flow", "2", "380,50"],
        &["withdraw", "two-rents.flow", "2"],
        &["withdraw", "--yes", "two-rents.flow", "2"],
        &["list", "two-rents.flow", "forty-rents.flow"],
        &["list", "two-rents.flow", "new.list"],
        &["recall", NAME, DATE, "two-rents.flow", "new.flow", "2"],
        &[
            "recall",
            "--yes",
            NAME,
            DATE,
            "two-rents.flow",
            "new.flow",
            "2",
        ],
    ] {
        told(
            &run_on_a_full_disk(&folder, words, "y\n"),
            2,
            "standard output cannot be written: the disk is full.",
        );
        untouched(&folder, &["forty-rents.flow", "two-rents.flow"]);
    }
}

#[test]
fn one_file_cannot_be_both_operands() {
    let folder = Folder::with(&["two-rents.flow", "two-rents.list"]);
    symlink("two-rents.flow", folder.path("flow-link")).unwrap();
    symlink("two-rents.list", folder.path("list-link")).unwrap();
    for (command, from, to) in [
        ("list", "two-rents.flow", "two-rents.flow"),
        ("list", "two-rents.flow", "./two-rents.flow"),
        ("list", "two-rents.flow", "flow-link"),
        ("list", "flow-link", "two-rents.flow"),
        ("list", "flow-link", "flow-link"),
        ("write", "two-rents.list", "two-rents.list"),
        ("write", "./two-rents.list", "two-rents.list"),
        ("write", "two-rents.list", "list-link"),
        ("write", "list-link", "two-rents.list"),
        // Nothing is judged before.
        ("write", "two-rents.flow", "two-rents.flow"),
    ] {
        told(
            &folder.run(&[command, "--yes", from, to]),
            2,
            &format!("{from} and {to} are the same file."),
        );
    }
    for (link, file) in [
        ("flow-link", "two-rents.flow"),
        ("list-link", "two-rents.list"),
    ] {
        assert_eq!(fs::read_link(folder.path(link)).unwrap(), Path::new(file));
        fs::remove_file(folder.path(link)).unwrap();
    }
    untouched(&folder, &["two-rents.flow", "two-rents.list"]);
}

#[test]
fn a_wrong_amount_is_told() {
    let folder = Folder::with(&["two-rents.flow"]);
    for (euros, shown) in [
        ("", "\"\""),
        (",", ","),
        ("450,", "450,"),
        ("450.", "450."),
        (",50", ",50"),
        (".50", ".50"),
        ("450,5", "450,5"),
        ("450,500", "450,500"),
        ("450.500", "450.500"),
        ("1.450,00", "1.450,00"),
        ("1,450.00", "1,450.00"),
        ("1.450", "1.450"),
        ("1'450", "1'450"),
        ("+450", "+450"),
        ("-450", "-450"),
        ("-0", "-0"),
        (" 450", "\" 450\""),
        ("450 ", "\"450 \""),
        ("450 00", "450 00"),
        ("450 EUR", "450 EUR"),
        ("450€", "450€"),
        ("4e2", "4e2"),
        ("0450", "0450"),
        ("00", "00"),
        ("00,50", "00,50"),
        ("450,-1", "450,-1"),
        ("450,+1", "450,+1"),
        ("450,0x", "450,0x"),
        ("450,,0", "450,,0"),
        ("450,00,", "450,00,"),
        ("450.00.00", "450.00.00"),
        ("0x10", "0x10"),
        ("four", "four"),
        ("NaN", "NaN"),
        ("inf", "inf"),
        ("٤٥٠", "٤٥٠"),
        ("450,٠٠", "450,٠٠"),
        ("450\n", "450\\n"),
        ("4\t50", "4\\t50"),
        ("4\u{1b}[2J50", "4\\u{1b}[2J50"),
    ] {
        told(
            &folder.run(&["amount", "--yes", "two-rents.flow", "2", euros]),
            2,
            &format!("{shown} is not an amount, which is written as 450 or 450,00 or 450.00, and 1450 without a point."),
        );
        untouched(&folder, &["two-rents.flow"]);
    }
}

#[test]
fn a_wrong_number_of_a_request_is_told() {
    let folder = Folder::with(&["two-rents.flow"]);
    for (k, shown) in [
        ("", "\"\""),
        ("one", "one"),
        ("-1", "-1"),
        ("+1", "+1"),
        (" 1", "\" 1\""),
        ("1 ", "\"1 \""),
        ("1.", "1."),
        ("1,0", "1,0"),
        ("1-2", "1-2"),
        ("0x1", "0x1"),
        ("1e0", "1e0"),
        ("١", "١"),
        ("1\n", "1\\n"),
        ("#1", "#1"),
        // One more than 64 bits hold.
        ("18446744073709551616", "18446744073709551616"),
    ] {
        for words in [
            &["show", "two-rents.flow", k][..],
            &["amount", "--yes", "two-rents.flow", k, "450"],
            &["withdraw", "--yes", "two-rents.flow", k],
            &["withdraw", "--yes", "two-rents.flow", "2", k],
            &["recall", NAME, DATE, "two-rents.flow", "new.flow", k],
        ] {
            told(
                &folder.run(words),
                2,
                &format!("{shown} is not the number of a request."),
            );
            untouched(&folder, &["two-rents.flow"]);
        }
    }
}

#[test]
fn a_wrong_number_of_a_refusal_is_told() {
    let folder = Folder::new();
    for word in [
        "nine",
        "-1",
        "+9",
        "9.",
        "9,0",
        "0x9",
        "99999999999999999999",
    ] {
        told(
            &folder.run(&["explain", word]),
            2,
            &format!("{word} is not a number."),
        );
    }
}

#[test]
fn a_word_that_is_no_text_is_told() {
    let folder = Folder::with(&["two-rents.flow"]);
    let word = |bytes: &'static [u8]| OsStr::from_bytes(bytes);
    told(
        &folder.run(&[
            word(b"amount"),
            word(b"two-rents.flow"),
            word(b"2"),
            word(b"4\xFF0"),
        ]),
        2,
        "4\u{FFFD}0 is not an amount, which is written as 450 or 450,00 or 450.00, and 1450 without a point.",
    );
    told(
        &folder.run(&[word(b"show"), word(b"two-rents.flow"), word(b"\xFF")]),
        2,
        "\u{FFFD} is not the number of a request.",
    );
    told(
        &folder.run(&[
            word(b"show"),
            word(b"two-rents.flow"),
            word(b"--find"),
            word(b"\xFF"),
        ]),
        2,
        "--find needs a text.",
    );
    told(
        &folder.run(&[word(b"\xFF")]),
        2,
        "there is no command \u{FFFD}; mavdesk --help has them.",
    );
    untouched(&folder, &["two-rents.flow"]);
}

#[test]
fn a_request_named_twice_is_told() {
    let folder = Folder::with(&["forty-rents.flow"]);
    for (numbers, twice) in [
        (&["2", "2"][..], 2),
        (&["2", "0002"], 2),
        (&["0002", "2"], 2),
        (&["1", "17", "3", "1"], 1),
        (&["1", "17", "3", "017"], 17),
        (&["0", "00"], 0),
        (&["99", "99"], 99),
    ] {
        let words = [&["withdraw", "--yes", "forty-rents.flow"], numbers].concat();
        told(
            &folder.run(&words),
            2,
            &format!("number {twice} is named twice."),
        );
        untouched(&folder, &["forty-rents.flow"]);
    }
}

#[test]
fn an_unknown_command_is_told() {
    let folder = Folder::new();
    told(
        &folder.run::<&str>(&[]),
        2,
        "a command is missing; mavdesk --help has them.",
    );
    for (word, shown) in [
        ("", "\"\""),
        ("cheque", "cheque"),
        ("Show", "Show"),
        ("chec", "chec"),
        ("checks", "checks"),
        ("--yes", "--yes"),
        ("--", "--"),
        ("-v", "-v"),
        ("9", "9"),
        ("two-rents.flow", "two-rents.flow"),
        ("\u{1b}[31mshow", "\\u{1b}[31mshow"),
    ] {
        let sentence = format!("there is no command {shown}; mavdesk --help has them.");
        told(&folder.run(&[word]), 2, &sentence);
        told(&folder.run(&[word, "two-rents.flow"]), 2, &sentence);
        told(&folder.run(&["help", word]), 2, &sentence);
    }
}

#[test]
fn an_option_that_a_command_does_not_have_is_told() {
    let folder = Folder::with(&["two-rents.flow"]);
    for (words, command, option) in [
        (&["check", "--yes", "two-rents.flow"][..], "check", "--yes"),
        (
            &["check", "two-rents.flow", "--find", "rossi"],
            "check",
            "--find",
        ),
        (&["show", "two-rents.flow", "--yes"], "show", "--yes"),
        (
            &["show", "two-rents.flow", "--finder=rossi"],
            "show",
            "--finder=rossi",
        ),
        (
            &["show", "--Find", "rossi", "two-rents.flow"],
            "show",
            "--Find",
        ),
        (
            &["amount", "--find", "two-rents.flow", "2", "400"],
            "amount",
            "--find",
        ),
        (
            &["amount", "--y", "two-rents.flow", "2", "400"],
            "amount",
            "--y",
        ),
        (
            &["amount", "two-rents.flow", "2", "400", "--yes="],
            "amount",
            "--yes=",
        ),
        (
            &["withdraw", "--force", "two-rents.flow", "2"],
            "withdraw",
            "--force",
        ),
        (
            &["list", "--no", "two-rents.flow", "new.list"],
            "list",
            "--no",
        ),
        (
            &["write", "two-rents.list", "new.flow", "---"],
            "write",
            "---",
        ),
        (
            &["recall", "two-rents.flow", "new.flow", "2", "--names=A"],
            "recall",
            "--names=A",
        ),
        (
            &["recall", "--find", "rossi", "two-rents.flow", "new.flow"],
            "recall",
            "--find",
        ),
        (
            &["write", "--name", "A", "two-rents.list", "new.flow"],
            "write",
            "--name",
        ),
        (
            &["withdraw", "two-rents.flow", "2", "--date=170326"],
            "withdraw",
            "--date=170326",
        ),
        (&["explain", "--all"], "explain", "--all"),
        (&["explain", "--\u{7}"], "explain", "--\\u{7}"),
    ] {
        told(
            &folder.run(words),
            2,
            &format!("{command} has no option {option}."),
        );
        untouched(&folder, &["two-rents.flow"]);
    }
}

#[test]
fn a_find_without_a_text_is_told() {
    let folder = Folder::with(&["two-rents.flow"]);
    for words in [
        &["show", "two-rents.flow", "--find"][..],
        &["show", "--find"],
        &["show", "two-rents.flow", "--find", ""],
        &["show", "--find", "", "two-rents.flow"],
    ] {
        told(&folder.run(words), 2, "--find needs a text.");
    }
}

#[test]
fn too_few_and_too_many_words_are_told() {
    const SHOW: &str = "mavdesk show FILE [--find TEXT], or mavdesk show FILE K";
    const AMOUNT: &str = "mavdesk amount [--yes] FILE K EUROS";
    const WITHDRAW: &str = "mavdesk withdraw [--yes] FILE K..";
    const LIST: &str = "mavdesk list [--yes] FLOW LIST";
    const WRITE: &str = "mavdesk write [--yes] LIST FLOW";
    const RECALL: &str = "mavdesk recall [--yes] [--name NAME] [--date GGMMAA] SENT OUT K..";
    let folder = Folder::with(&["two-rents.flow"]);
    for (words, form) in [
        ("check", "mavdesk check FILE.."),
        ("check --", "mavdesk check FILE.."),
        ("show", SHOW),
        ("show two-rents.flow 1 2", SHOW),
        ("show two-rents.flow 1 --find rossi", SHOW),
        ("show --find rossi", SHOW),
        ("amount", AMOUNT),
        ("amount --yes", AMOUNT),
        ("amount two-rents.flow", AMOUNT),
        ("amount two-rents.flow 2", AMOUNT),
        ("amount --yes two-rents.flow 2", AMOUNT),
        ("amount --yes two-rents.flow 2 400 euro", AMOUNT),
        ("amount -y two-rents.flow 2 400", AMOUNT),
        ("amount -- --yes two-rents.flow 2 400", AMOUNT),
        ("withdraw", WITHDRAW),
        ("withdraw two-rents.flow", WITHDRAW),
        ("withdraw --yes two-rents.flow", WITHDRAW),
        ("list", LIST),
        ("list two-rents.flow", LIST),
        ("list --yes two-rents.flow", LIST),
        ("list two-rents.flow new.list other.list", LIST),
        ("write", WRITE),
        ("write two-rents.list", WRITE),
        ("write two-rents.list new.flow other.flow", WRITE),
        ("recall", RECALL),
        ("recall two-rents.flow", RECALL),
        ("recall two-rents.flow new.flow", RECALL),
        (
            "recall --yes --name A --date 170326 two-rents.flow 2",
            RECALL,
        ),
        ("explain 1 2", "mavdesk explain [N]"),
    ] {
        let words: Vec<&str> = words.split(' ').collect();
        told(
            &folder.run(&words),
            2,
            &format!("the words do not fit {form} as it is used."),
        );
        untouched(&folder, &["two-rents.flow"]);
    }
}

#[test]
fn control_characters_of_a_name_are_spelled_out() {
    let name = "a\u{1b}[2J\n\u{7}b\u{9b}\u{202e}.flow";
    let shown = "a\\u{1b}[2J\\n\\u{7}b\\u{9b}\\u{202e}.flow";
    let folder = Folder::new();
    told(
        &folder.run(&["show", name]),
        2,
        &format!("{shown} cannot be read: there is no such file."),
    );
    fs::write(folder.path(name), sample("two-rents.flow")).unwrap();
    folder.run(&["check", "."]).printed(&format!(
        "FLOW{}   KIND         COUNT                 TOTAL    RECORDS\n\
         ./{shown}   requests         2                830,50         16\n\n\
         1 flow accepted: 2 requests, 830,50 euro.\n",
        " ".repeat(shown.len() - 2),
    ));
    told(
        &folder.run(&["show", name, "--find", "\u{1b}[0m"]),
        1,
        &format!("no request of {shown} has \"\\u{{1b}}[0m\" in its row."),
    );
    let ended = folder.run(&["amount", "--yes", name, "2", "400"]);
    ended.printed(&format!(
        "{shown}{TO_400}Saved. The flow as it was is kept as {shown}.before.\n"
    ));
    let before = format!("{name}.before");
    left(
        &folder,
        &[(name, &at_400()), (&before, &sample("two-rents.flow"))],
    );
}

#[test]
fn a_name_that_is_no_text_is_no_hindrance() {
    let folder = Folder::new();
    let name = OsStr::from_bytes(b"casa-\xE8.flow");
    let path = folder.path(".").join(name);
    fs::write(&path, sample("two-rents.flow")).unwrap();
    let words = ["amount", "--yes"].map(OsStr::new);
    let words = [&words[..], &[name], &["2", "400"].map(OsStr::new)].concat();
    folder.run(&words).printed(&format!(
        "casa-\u{FFFD}.flow{TO_400}Saved. The flow as it was is kept as casa-\u{FFFD}.flow.before.\n"
    ));
    let mut before = OsString::from(&path);
    before.push(".before");
    assert!(fs::read(&path).unwrap() == at_400());
    assert!(fs::read(&before).unwrap() == sample("two-rents.flow"));
    assert_eq!(fs::read_dir(folder.path(".")).unwrap().count(), 2);
}

#[test]
fn an_amendment_through_a_link_changes_the_file_and_leaves_the_link() {
    let folder = Folder::with(&["two-rents.flow"]);
    symlink("two-rents.flow", folder.path("link")).unwrap();
    let real = fs::canonicalize(folder.path(".")).unwrap();
    let before = real.join("two-rents.flow.before");
    let ended = folder.run(&["amount", "--yes", "link", "2", "400"]);
    ended.printed(&format!(
        "link{TO_400}Saved. The flow as it was is kept as {}.\n",
        before.display()
    ));
    let link = fs::read_link(folder.path("link")).unwrap();
    assert_eq!(link, Path::new("two-rents.flow"));
    left(
        &folder,
        &[
            ("link", &at_400()),
            ("two-rents.flow", &at_400()),
            ("two-rents.flow.before", &sample("two-rents.flow")),
        ],
    );
    assert!(!folder.path("two-rents.flow").is_symlink());
}

#[test]
fn a_withdrawal_through_a_link_to_another_folder_leaves_nothing_beside_the_link() {
    let folder = Folder::new();
    let home = Folder::with(&["two-rents.flow"]);
    let file = fs::canonicalize(home.path("two-rents.flow")).unwrap();
    symlink(&file, folder.path("first")).unwrap();
    symlink("first", folder.path("second")).unwrap();
    let left_over = amended(&sample("two-rents.flow"), &[withdraw(1)]);
    folder
        .run(&["withdraw", "--yes", "second", "1"])
        .printed(&format!(
            "\
second: 1 request to be withdrawn

 NUMBER  DUE                   AMOUNT  DEBTOR                         REFERENCE
      1  31/03/2026            450,00  ROSSI GIULIA                   0000000017

The requests left are numbered anew from 1 on.

                                          BEFORE                   AFTER
trailer, requests                              2                       1
trailer, total                            830,50                  380,50
trailer, records                              16                       9

Saved. The flow as it was is kept as {}.before.
",
            file.display()
        ));
    assert_eq!(fs::read_link(folder.path("first")).unwrap(), file);
    assert_eq!(
        fs::read_link(folder.path("second")).unwrap(),
        PathBuf::from("first")
    );
    assert_eq!(folder.names(), ["first", "second"]);
    left(
        &home,
        &[
            ("two-rents.flow", &left_over),
            ("two-rents.flow.before", &sample("two-rents.flow")),
        ],
    );
}

#[test]
fn a_list_replaces_the_file_behind_a_link() {
    let folder = Folder::with(&["two-rents.flow"]);
    fs::write(folder.path("old.list"), b"an older file").unwrap();
    symlink("old.list", folder.path("link")).unwrap();
    let real = fs::canonicalize(folder.path(".")).unwrap();
    let ended = folder.answer(&["list", "two-rents.flow", "link"], "y\n");
    ended.printed(&format!(
        "link: 2 requests, 830,50 euro\n\
         link is there already. Replace it? [y/N] \n\
         Saved. The file as it was is kept as {}.\n",
        real.join("old.list.before").display()
    ));
    assert_eq!(
        fs::read_link(folder.path("link")).unwrap(),
        Path::new("old.list")
    );
    let list = sample("two-rents.list");
    let files: [(&str, &[u8]); 4] = [
        ("link", &list),
        ("old.list", &list),
        ("old.list.before", b"an older file"),
        ("two-rents.flow", &sample("two-rents.flow")),
    ];
    left(&folder, &files);
}

#[test]
fn a_link_to_nothing_and_a_link_to_itself_are_told() {
    let folder = Folder::new();
    symlink("nowhere", folder.path("link")).unwrap();
    symlink("circle", folder.path("circle")).unwrap();
    for words in [
        &["show", "link"][..],
        &["list", "link", "new.list"],
        &["amount", "--yes", "link", "1", "450"],
        &["withdraw", "--yes", "link", "1"],
    ] {
        told(
            &folder.run(words),
            2,
            "link cannot be read: there is no such file.",
        );
        assert_eq!(folder.names(), ["circle", "link"]);
    }
    let flow = Folder::with(&["two-rents.flow"]);
    let flow = flow.path("two-rents.flow").into_os_string().into_string();
    told(
        &folder.run(&["list", &flow.unwrap(), "link"]),
        2,
        "link cannot be changed: it is a link to a file that is not there.",
    );
    assert_eq!(folder.names(), ["circle", "link"]);
    for words in [
        &["show", "circle"][..],
        &["amount", "--yes", "circle", "1", "450"],
        &["list", "circle", "new.list"],
    ] {
        told(
            &folder.run(words),
            2,
            "circle cannot be read: too many levels of symbolic links.",
        );
        assert_eq!(folder.names(), ["circle", "link"]);
    }
}

#[test]
fn the_file_saved_has_the_permissions_of_the_old_one() {
    for permissions in [0o640, 0o600, 0o664, 0o666, 0o755] {
        let folder = Folder::with(&["two-rents.flow"]);
        set_mode(&folder.path("two-rents.flow"), permissions);
        let ended = folder.run(&["amount", "--yes", "two-rents.flow", "2", "400"]);
        ended.printed(&format!(
            "two-rents.flow{TO_400}Saved. The flow as it was is kept as two-rents.flow.before.\n"
        ));
        replaced(
            &folder,
            "two-rents.flow",
            &sample("two-rents.flow"),
            &at_400(),
        );
        for name in ["two-rents.flow", "two-rents.flow.before"] {
            assert_eq!(mode(&folder.path(name)), permissions, "{name}");
        }
        // A file replaced by another one keeps its permissions too.
        fs::write(folder.path("new.list"), b"an older file").unwrap();
        set_mode(&folder.path("new.list"), permissions);
        let ended = folder.run(&["list", "--yes", "two-rents.flow", "new.list"]);
        ended.printed(
            "new.list: 2 requests, 850,00 euro\n\
             Saved. The file as it was is kept as new.list.before.\n",
        );
        assert_eq!(mode(&folder.path("new.list")), permissions);
    }
}

#[test]
fn the_file_saved_has_the_group_of_the_old_one() {
    // Only root can give a file to a group that it is not in.
    if !are_root() {
        return;
    }
    let folder = Folder::with(&["two-rents.flow"]);
    chown(folder.path("two-rents.flow"), None, Some(65_534)).unwrap();
    set_mode(&folder.path("two-rents.flow"), 0o640);
    folder
        .run(&["amount", "--yes", "two-rents.flow", "2", "400"])
        .printed(&format!(
            "two-rents.flow{TO_400}Saved. The flow as it was is kept as two-rents.flow.before.\n"
        ));
    assert!(folder.read("two-rents.flow") == at_400());
    for name in ["two-rents.flow", "two-rents.flow.before"] {
        let saved = fs::metadata(folder.path(name)).unwrap();
        assert_eq!(
            (saved.gid(), mode(&folder.path(name))),
            (65_534, 0o640),
            "{name}"
        );
    }
}

#[test]
fn a_group_that_cannot_be_kept_is_told_where_it_matters() {
    // Only root can make a file of a group that the clerk is not in.
    if !are_root() {
        return;
    }
    for (permissions, kept) in [(0o660, false), (0o640, false), (0o666, true), (0o600, true)] {
        let folder = Folder::with(&["two-rents.flow"]);
        let flow = folder.path("two-rents.flow");
        chown(folder.path("."), Some(65_534), None).unwrap();
        chown(&flow, Some(65_534), Some(5_000)).unwrap();
        set_mode(&flow, permissions);
        let ended = run_as_clerk(
            &folder,
            ":",
            &["amount", "--yes", "two-rents.flow", "2", "400"],
        );
        if kept {
            assert_eq!((ended.status, &ended.err[..]), (Some(0), ""));
            let before = sample("two-rents.flow");
            replaced(&folder, "two-rents.flow", &before, &at_400());
        } else {
            assert_eq!(
                ended.err,
                "mavdesk: two-rents.flow cannot be saved and is as it was: its group cannot be kept.\n"
            );
            assert_eq!(ended.status, Some(2));
            untouched(&folder, &["two-rents.flow"]);
        }
        assert_eq!(mode(&flow), permissions);
    }
}

#[test]
fn root_leaves_a_flow_to_its_owner() {
    if !are_root() {
        return;
    }
    let folder = Folder::with(&["two-rents.flow"]);
    let flow = folder.path("two-rents.flow");
    chown(&flow, Some(1_234), Some(5_678)).unwrap();
    set_mode(&flow, 0o600);
    let ended = folder.run(&["amount", "--yes", "two-rents.flow", "2", "400"]);
    assert_eq!(ended.status, Some(0));
    let saved = fs::metadata(&flow).unwrap();
    assert_eq!(
        (saved.uid(), saved.gid(), mode(&flow)),
        (1_234, 5_678, 0o600)
    );
}

#[test]
fn too_little_memory_is_told_and_nothing_is_saved() {
    // Two rents 50,000 times: a flow of 84 MB, for which there is room once and not twice.
    let folder = Folder::new();
    let list = sample("two-rents.list");
    let rents = list[50..].repeat(50_000);
    fs::write(
        folder.path("large.flow"),
        flow_of(&[&list[..50], &rents].concat()),
    )
    .unwrap();
    let length = fs::metadata(folder.path("large.flow")).unwrap().len();
    assert_eq!(length, 120 * (2 + 14 * 50_000));
    for words in [
        &["amount", "--yes", "large.flow", "1", "1"][..],
        &["withdraw", "--yes", "large.flow", "1"],
        &["list", "large.flow", "new.list"],
        &["recall", "--yes", NAME, DATE, "large.flow", "new.flow", "1"],
    ] {
        told(
            &run_limited(&folder, "ulimit -v 150000", words),
            2,
            "there is not enough memory; nothing was saved.",
        );
        assert_eq!(folder.names(), ["large.flow"]);
    }
}

#[test]
fn a_system_that_gives_no_threads_only_makes_a_check_slower() {
    let folder = Folder::with(&["one-rent.flow", "two-rents.flow"]);
    let limits = "ulimit -u 1";
    run_as_clerk(
        &folder,
        limits,
        &["check", "one-rent.flow", "two-rents.flow"],
    )
    .printed(
        "\
FLOW             KIND         COUNT                 TOTAL    RECORDS
one-rent.flow    requests         1                450,00          9
two-rents.flow   requests         2                830,50         16

2 flows accepted: 3 requests, 1.280,50 euro.
",
    );
}

#[test]
fn an_answer_without_an_end_is_no_yes() {
    let folder = Folder::with(&["two-rents.flow"]);
    let mut command = folder.command(&["amount", "two-rents.flow", "2", "400"]);
    let endless = File::open("/dev/zero").unwrap();
    let ended = Ended::of(command.stdin(endless).output().unwrap());
    assert_eq!(ended.status, Some(1));
    assert_eq!(ended.err, "mavdesk: not saved: the flow is as it was.\n");
    untouched(&folder, &["two-rents.flow"]);
}

#[test]
fn where_the_old_version_cannot_be_kept_nothing_is_changed_and_nothing_left_behind() {
    let folder = Folder::with(&["two-rents.flow"]);
    fs::create_dir(folder.path("two-rents.flow.before")).unwrap();
    let ended = folder.run(&["amount", "--yes", "two-rents.flow", "2", "400"]);
    assert_eq!(ended.out, format!("two-rents.flow{TO_400}"));
    assert_eq!(
        ended.err,
        "mavdesk: two-rents.flow cannot be saved and is as it was: two-rents.flow.before cannot be \
         written: it is a folder, and a file is due.\n"
    );
    assert_eq!(ended.status, Some(2));
    assert_eq!(folder.names(), ["two-rents.flow", "two-rents.flow.before"]);
    assert!(folder.read("two-rents.flow") == sample("two-rents.flow"));
}

#[test]
fn a_file_that_another_program_changes_meanwhile_is_not_replaced() {
    let folder = Folder::with(&["two-rents.flow"]);
    let mut child = folder
        .command(&["amount", "two-rents.flow", "2", "400"])
        .stdin(Stdio::piped())
        .stdout(Stdio::piped())
        .stderr(Stdio::piped())
        .spawn()
        .unwrap();
    // All that is shown before the answer.
    let due = format!("two-rents.flow{TO_400}Save it? [y/N] ");
    let mut shown = vec![0; due.len()];
    child
        .stdout
        .as_mut()
        .unwrap()
        .read_exact(&mut shown)
        .unwrap();
    assert_eq!(String::from_utf8(shown).unwrap(), due);
    fs::write(folder.path("two-rents.flow"), sample("one-rent.flow")).unwrap();
    child.stdin.take().unwrap().write_all(b"y\n").unwrap();
    let ended = Ended::of(child.wait_with_output().unwrap());
    assert_eq!(
        ended.err,
        "mavdesk: two-rents.flow is not saved: another program has changed it since it was read.\n"
    );
    assert_eq!((ended.status, &ended.out[..]), (Some(2), "\n"));
    left(&folder, &[("two-rents.flow", &sample("one-rent.flow"))]);
}
