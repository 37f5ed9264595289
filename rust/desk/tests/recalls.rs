//! Recalls: what every command says of a recall flow, and `mavdesk recall`, which makes one. The flow that it
//! saves is held, byte for byte, against records that stand here or are put together from the sample's own.

mod common;

use std::ffi::{OsStr, OsString};
use std::fs::{self, Permissions};
use std::os::unix::ffi::OsStrExt;
use std::os::unix::fs::{symlink, MetadataExt, PermissionsExt};
use std::path::Path;
use std::process::Command;
use std::time::{Duration, SystemTime};

use common::{
    amended, change, drawn, flow_of, left, list_of, recalled, record, replaced, run_as_clerk,
    sample, student, withdraw, Ended, Folder, BIANCHI, DATE, NAME, ROSSI, TITLES,
};
use oracle::reader;

/// The recall of request 2 of two-rents.flow: 38050 cents, 9 records.
const RECALL_OF_2: [&str; 9] = [
    " IMAB12301234170326RECALL-MARCH                                                                                  E      ",
    " 140000001            310326071000000000038050+0123402400000000123456                      AB1232S0023                 E",
    " 200000001RESIDENZA SAN MARTINO   VIA DEI COLLEGI 12      20100 MILANO MI                                               ",
    " 300000001BIANCHI MARCO                                               BNCMRC04P12F205Y                                  ",
    " 400000001VIA DEI COLLEGI 12            20100MILANO MI                STANZA 23                                         ",
    " 500000001RETTA MARZO 2026                                                                                              ",
    " 5100000010000000023                                                                                                    ",
    " 700000001                                                                                                              ",
    " EFAB12301234170326RECALL-MARCH              00000010000000000000000000000000380500000009                        E      ",
];

/// What is shown before it is saved.
const SHOWN_OF_2: &str = "\
two-rents.flow: requests of AB123, 15/03/2026, RENT-MARCH

 NUMBER  DUE                   AMOUNT  DEBTOR                         REFERENCE
      2  31/03/2026            380,50  BIANCHI MARCO                  0000000023

1 of 2 requests to be recalled, 380,50 euro.

recall.flow: recalls of AB123, 17/03/2026, RECALL-MARCH
1 recall, 380,50 euro, 9 records, numbered anew from 1 on.

";

fn recall_of_2() -> Vec<u8> {
    RECALL_OF_2.concat().into_bytes()
}

/// The words of a recall of two-rents.flow to recall.flow.
fn of_two_rents<'a>(others: &[&'a str]) -> Vec<&'a str> {
    [&["recall", "two-rents.flow", "recall.flow"], others].concat()
}

/// The second program's line on a flow.
fn judged(flow: &[u8]) -> String {
    reader::read(flow).to_string()
}

/// One sentence with this status, and the folder has two-rents.flow as it was and nothing else.
#[track_caller]
fn told(folder: &Folder, ended: &Ended, status: i32, sentence: &str) {
    ended.failed(status, &format!("mavdesk: {sentence}\n"));
    left(folder, &[("two-rents.flow", &sample("two-rents.flow"))]);
}

#[test]
fn one_request_is_recalled() {
    let folder = Folder::with(&["two-rents.flow"]);
    let ended = folder.run(&of_two_rents(&["2", NAME, DATE, "--yes"]));
    ended.printed(&format!("{SHOWN_OF_2}Saved.\n"));
    left(
        &folder,
        &[
            ("recall.flow", &recall_of_2()),
            ("two-rents.flow", &sample("two-rents.flow")),
        ],
    );
    // Both ways of putting a recall flow together here agree, and the second program accepts it.
    let made = recalled(&sample("two-rents.flow"), &[2], "170326", "RECALL-MARCH");
    assert!(made == recall_of_2());
    assert_eq!(
        judged(&made),
        "accepted dispositions 1 cents 38050 records 9 kind recalls"
    );
}

#[test]
fn the_recall_flow_is_judged_and_shown_as_one() {
    let folder = Folder::with(&["two-rents.flow"]);
    folder.run(&of_two_rents(&["2", NAME, DATE, "--yes"]));
    folder.run(&["check", "."]).printed(
        "\
FLOW               KIND         COUNT                 TOTAL    RECORDS
./recall.flow      recalls          1                380,50          9
./two-rents.flow   requests         2                830,50         16

2 flows accepted: 2 requests, 830,50 euro; 1 recall, 380,50 euro.
",
    );
    folder.run(&["show", "recall.flow"]).printed(
        "\
recall.flow: recalls of AB123, 17/03/2026, RECALL-MARCH

 NUMBER  DUE                   AMOUNT  DEBTOR                         REFERENCE
      1  31/03/2026            380,50  BIANCHI MARCO                  0000000023

1 recall, 380,50 euro, 9 records.
",
    );
}

#[test]
fn several_requests_are_recalled_in_the_order_of_the_flow() {
    let flow = sample("forty-rents.flow");
    let new = recalled(&flow, &[1, 3, 6, 40], "010426", "RECALL 4");
    assert_eq!(
        judged(&new),
        "accepted dispositions 4 cents 182500 records 37 kind recalls"
    );
    let rows = [1, 3, 6, 40].map(student).concat();
    // 312,50 and 337,50 and 375,00 and 800,00 euro; 7, 9, 8 and 11 records, header and trailer.
    let due = format!(
        "forty-rents.flow: requests of AB123, 15/03/2026, RENT-MARCH\n\n{TITLES}{rows}{}",
        "
4 of 40 requests to be recalled, 1.825,00 euro.

new: recalls of AB123, 01/04/2026, RECALL 4
4 recalls, 1.825,00 euro, 37 records, numbered anew from 1 on.

Saved.
"
    );
    for numbers in [
        ["1", "3", "6", "40"],
        ["40", "6", "3", "1"],
        ["3", "40", "0001", "6"],
    ] {
        let folder = Folder::with(&["forty-rents.flow"]);
        let options = ["--yes", "--name", "RECALL 4", "--date", "010426"];
        let words = [
            &["recall", "forty-rents.flow", "new"],
            &numbers[..],
            &options,
        ]
        .concat();
        folder.run(&words).printed(&due);
        left(&folder, &[("forty-rents.flow", &flow), ("new", &new)]);
    }
}

#[test]
fn every_single_request_of_forty_is_recalled_with_its_own_records() {
    let flow = sample("forty-rents.flow");
    let folder = Folder::with(&["forty-rents.flow"]);
    for k in 1..=40 {
        let new = recalled(&flow, &[k], "170326", "RECALL-MARCH");
        let number = k.to_string();
        let words = [
            "recall",
            "forty-rents.flow",
            "new",
            &number,
            NAME,
            DATE,
            "--yes",
        ];
        let ended = folder.run(&words);
        assert_eq!((ended.status, &ended.err[..]), (Some(0), ""), "{k}");
        assert!(ended.out.contains(&student(k)), "{k}: {}", ended.out);
        left(&folder, &[("forty-rents.flow", &flow), ("new", &new)]);
        fs::remove_file(folder.path("new")).unwrap();
    }
}

#[test]
fn all_requests_are_recalled_and_keep_their_numbers() {
    // The sample is the recall of both under the same name and date; here it has another date.
    let mut new = sample("two-rents-recall.flow");
    for date in [13, 15 * 120 + 13] {
        assert_eq!(&new[date..date + 6], b"150326");
        new[date..date + 6].copy_from_slice(b"170326");
    }
    for numbers in [["1", "2"], ["2", "1"]] {
        let folder = Folder::with(&["two-rents.flow"]);
        let words = of_two_rents(&["--name=RENT-MARCH", DATE, "--yes", numbers[0], numbers[1]]);
        folder.run(&words).printed(&format!(
            "two-rents.flow: requests of AB123, 15/03/2026, RENT-MARCH\n\n{TITLES}{ROSSI}{BIANCHI}{}",
            "
2 of 2 requests to be recalled, 830,50 euro.

recall.flow: recalls of AB123, 17/03/2026, RENT-MARCH
2 recalls, 830,50 euro, 16 records.

Saved.
"
        ));
        left(
            &folder,
            &[
                ("recall.flow", &new),
                ("two-rents.flow", &sample("two-rents.flow")),
            ],
        );
    }
}

#[test]
fn all_of_forty_requests_are_recalled() {
    let flow = sample("forty-rents.flow");
    let all: Vec<u64> = (1..=40).collect();
    let new = recalled(&flow, &all, "170326", "RECALL-MARCH");
    let numbers: Vec<String> = all.iter().map(u64::to_string).collect();
    let mut words = vec!["recall", NAME, DATE, "--yes", "forty-rents.flow", "new"];
    words.extend(numbers.iter().map(String::as_str));
    let folder = Folder::with(&["forty-rents.flow"]);
    let ended = folder.run(&words);
    assert!(
        ended.out.ends_with(
            "
40 of 40 requests to be recalled, 22.250,00 euro.

new: recalls of AB123, 17/03/2026, RECALL-MARCH
40 recalls, 22.250,00 euro, 368 records.

Saved.
"
        ),
        "{}",
        ended.out
    );
    left(&folder, &[("forty-rents.flow", &flow), ("new", &new)]);
}

#[test]
fn the_first_requests_keep_their_numbers() {
    let folder = Folder::with(&["two-rents.flow"]);
    let ended = folder.run(&of_two_rents(&["1", NAME, DATE, "--yes"]));
    assert!(
        ended.out.ends_with(
            "
1 of 2 requests to be recalled, 450,00 euro.

recall.flow: recalls of AB123, 17/03/2026, RECALL-MARCH
1 recall, 450,00 euro, 9 records.

Saved.
"
        ),
        "{}",
        ended.out
    );
    let new = recalled(&sample("two-rents.flow"), &[1], "170326", "RECALL-MARCH");
    assert!(folder.read("recall.flow") == new);
}

#[test]
fn text_that_is_not_carried_is_not_in_the_recall() {
    let folder = Folder::with(&["two-rents-filler.flow"]);
    let words = [
        "recall",
        "--yes",
        NAME,
        DATE,
        "two-rents-filler.flow",
        "new",
        "2",
    ];
    assert_eq!(folder.run(&words).status, Some(0));
    assert!(folder.read("new") == recall_of_2());
}

#[test]
fn a_recall_is_saved_after_a_yes_alone() {
    let words = of_two_rents(&["2", NAME, DATE]);
    for answer in ["y\n", "yes\n", "Y\n", " y \n", "y"] {
        let folder = Folder::with(&["two-rents.flow"]);
        let ended = folder.answer(&words, answer);
        ended.printed(&format!("{SHOWN_OF_2}Save it? [y/N] \nSaved.\n"));
        assert!(folder.read("recall.flow") == recall_of_2());
    }
    for answer in ["n\n", "\n", "", "maybe\n", "n\ny\n"] {
        let folder = Folder::with(&["two-rents.flow"]);
        let ended = folder.answer(&words, answer);
        assert_eq!(ended.out, format!("{SHOWN_OF_2}Save it? [y/N] \n"));
        assert_eq!(ended.err, "mavdesk: not saved: nothing was written.\n");
        assert_eq!(ended.status, Some(1));
        left(&folder, &[("two-rents.flow", &sample("two-rents.flow"))]);
    }
}

#[test]
fn the_options_of_a_recall_may_stand_anywhere() {
    for words in [
        "recall --yes --name RECALL-MARCH --date 170326 two-rents.flow recall.flow 2",
        "recall two-rents.flow --name RECALL-MARCH recall.flow --date=170326 2 --yes",
        "recall two-rents.flow recall.flow 2 --date 170326 --yes --name=RECALL-MARCH",
        // Of an option that is there twice, the last one is taken.
        "recall --name A --date 1 two-rents.flow recall.flow 2 --date 170326 --name RECALL-MARCH --yes",
        "recall --yes --name RECALL-MARCH --date 170326 -- two-rents.flow recall.flow 2",
    ] {
        let folder = Folder::with(&["two-rents.flow"]);
        let words: Vec<&str> = words.split(' ').collect();
        let ended = folder.run(&words);
        // A date that is given twice is looked at once, in its last form.
        ended.printed(&format!("{SHOWN_OF_2}Saved.\n"));
        assert!(folder.read("recall.flow") == recall_of_2());
    }
}

#[test]
fn a_name_is_placed_as_it_is_given() {
    let flow = sample("two-rents.flow");
    for (name, shown) in [
        ("R", "R"),
        ("ABCDEFGHIJKLMNOPQRST", "ABCDEFGHIJKLMNOPQRST"),
        ("RICHIAMO 7/3 (2)", "RICHIAMO 7/3 (2)"),
        (" R", "R"),
        ("--yes", "--yes"),
        ("a=b", "a=b"),
    ] {
        let folder = Folder::with(&["two-rents.flow"]);
        let ended = folder.run(&of_two_rents(&["--name", name, DATE, "2", "--yes"]));
        assert_eq!((ended.status, &ended.err[..]), (Some(0), ""));
        let heading = format!("\nrecall.flow: recalls of AB123, 17/03/2026, {shown}\n");
        assert!(ended.out.contains(&heading), "{}", ended.out);
        assert!(folder.read("recall.flow") == recalled(&flow, &[2], "170326", name));
    }
}

/// What cannot change unseen where a file is written to, replaced or made anew.
fn stamp(path: &Path) -> (u64, SystemTime, i64, i64, u32, Vec<u8>) {
    let found = fs::metadata(path).unwrap();
    let modified = found.modified().unwrap();
    let (changed, part) = (found.ctime(), found.ctime_nsec());
    let bytes = fs::read(path).unwrap();
    (found.ino(), modified, changed, part, found.mode(), bytes)
}

#[test]
fn the_flow_sent_is_not_touched() {
    let folder = Folder::with(&["two-rents.flow"]);
    let sent = folder.path("two-rents.flow");
    let file = fs::File::options().write(true).open(&sent).unwrap();
    let night = SystemTime::now() - Duration::from_secs(2 * 86_400);
    file.set_modified(night).unwrap();
    drop(file);
    let before = stamp(&sent);
    for words in [
        of_two_rents(&["2", NAME, DATE, "--yes"]),
        // There already; not wanted; refused by 15, by 8 and for its name.
        of_two_rents(&["2", NAME, DATE, "--yes"]),
        ["recall", "two-rents.flow", "other", "1", NAME, DATE].to_vec(),
        ["recall", "two-rents.flow", "other", "3", NAME, DATE].to_vec(),
        [
            "recall",
            "two-rents.flow",
            "other",
            "1",
            NAME,
            "--date=310626",
        ]
        .to_vec(),
        [
            "recall",
            "two-rents.flow",
            "other",
            "1",
            "--name=A\tB",
            DATE,
        ]
        .to_vec(),
    ] {
        folder.run(&words);
        assert!(stamp(&sent) == before, "{words:?}");
    }
    assert_eq!(folder.names(), ["recall.flow", "two-rents.flow"]);
}

#[test]
fn a_flow_that_may_only_be_read_can_be_recalled() {
    let folder = Folder::new();
    let archive = folder.path("archive");
    fs::create_dir(&archive).unwrap();
    fs::write(archive.join("two-rents.flow"), sample("two-rents.flow")).unwrap();
    let mode = |path: &Path, mode| fs::set_permissions(path, Permissions::from_mode(mode)).unwrap();
    mode(&archive.join("two-rents.flow"), 0o444);
    mode(&archive, 0o555);
    mode(&folder.path("."), 0o777);
    let sent = "archive/two-rents.flow";
    let words = ["recall", "--yes", NAME, DATE, sent, "recall.flow", "2"];
    let ended = run_as_clerk(&folder, ":", &words);
    mode(&archive, 0o755);
    ended.printed(&format!(
        "{}Saved.\n",
        SHOWN_OF_2.replacen("two-rents.flow", sent, 1)
    ));
    assert!(folder.read("recall.flow") == recall_of_2());
    assert_eq!(fs::read_dir(&archive).unwrap().count(), 1);
}

#[test]
fn a_flow_sent_is_read_from_a_pipe_too() {
    let folder = Folder::new();
    let flow = String::from_utf8(sample("two-rents.flow")).unwrap();
    let words = [
        "recall",
        "--yes",
        NAME,
        DATE,
        "/dev/stdin",
        "recall.flow",
        "2",
    ];
    folder.answer(&words, &flow).printed(&format!(
        "{}Saved.\n",
        SHOWN_OF_2.replacen("two-rents.flow", "/dev/stdin", 1)
    ));
    left(&folder, &[("recall.flow", &recall_of_2())]);
}

#[test]
fn a_file_that_is_there_already_is_left_alone() {
    for answer in ["", "y\n"] {
        for options in [&[NAME, DATE][..], &[NAME, DATE, "--yes"]] {
            let folder = Folder::with(&["two-rents.flow"]);
            for (name, mode) in [("old.flow", 0o644), ("fixed.flow", 0o444)] {
                fs::write(folder.path(name), b"an older file").unwrap();
                let permissions = Permissions::from_mode(mode);
                fs::set_permissions(folder.path(name), permissions).unwrap();
            }
            symlink("old.flow", folder.path("link")).unwrap();
            let files = ["old.flow", "fixed.flow", "two-rents.flow"];
            let before = files.map(|name| stamp(&folder.path(name)));
            let whole = folder.path("old.flow").into_os_string();
            let whole = whole.into_string().unwrap();
            let taken = [&files[..], &["link", "./old.flow", &whole, "/dev/null"]].concat();
            for name in taken {
                let words = [&["recall", "two-rents.flow", name, "2"], options].concat();
                folder.answer(&words, answer).failed(
                    2,
                    &format!("mavdesk: {name} is there already; name a new file.\n"),
                );
            }
            assert!(files.map(|name| stamp(&folder.path(name))) == before);
            let names = ["fixed.flow", "link", "old.flow", "two-rents.flow"];
            assert_eq!(folder.names(), names);
        }
    }
}

#[test]
fn a_name_that_can_be_no_new_file_is_told() {
    let folder = Folder::with(&["two-rents.flow"]);
    fs::create_dir(folder.path("night")).unwrap();
    symlink("nowhere", folder.path("link")).unwrap();
    for (name, cause) in [
        ("night", "it is a folder, and a file is due"),
        (".", "it is a folder, and a file is due"),
        ("nowhere/new", "there is no such folder"),
        ("new/", "there is no such folder"),
        ("two-rents.flow/new", "a part of its path is not a folder"),
        ("link", "it is a link to a file that is not there"),
        ("", "there is no such file"),
    ] {
        let words = ["recall", "two-rents.flow", name, "2", NAME, DATE, "--yes"];
        let shown = if name.is_empty() { "\"\"" } else { name };
        folder.run(&words).failed(
            2,
            &format!("mavdesk: {shown} cannot be changed: {cause}.\n"),
        );
        assert_eq!(folder.names(), ["link", "night", "two-rents.flow"]);
    }
    assert_eq!(fs::read_dir(folder.path("night")).unwrap().count(), 0);
}

#[test]
fn a_recall_cannot_be_recalled() {
    let folder = Folder::with(&["two-rents-recall.flow"]);
    // Whatever else is wrong.
    for others in [&["1"][..], &["9"], &["1", "--yes"]] {
        let words = [
            &["recall", "two-rents-recall.flow", "new", NAME, DATE],
            others,
        ]
        .concat();
        folder.run(&words).failed(
            1,
            "mavdesk: two-rents-recall.flow is a flow of recalls, and only requests can be recalled.\n",
        );
    }
    let flow = sample("two-rents-recall.flow");
    left(&folder, &[("two-rents-recall.flow", &flow)]);
}

#[test]
fn a_request_that_there_is_not_is_refused_by_15() {
    let folder = Folder::with(&["two-rents.flow"]);
    for (numbers, k) in [
        (&["3"][..], 3),
        (&["0"], 0),
        (&["1", "2", "3"], 3),
        (&["3", "1"], 3),
        (&["0", "2"], 0),
        (&["18446744073709551615", "0"], u64::MAX),
    ] {
        let words = of_two_rents(&[&[NAME, DATE, "--yes"], numbers].concat());
        told(
            &folder,
            &folder.run(&words),
            1,
            &format!(
                "request {k} of two-rents.flow: refused 15: the flow has no disposition of that number; it \
                 has the requests 1 to 2; nothing was saved."
            ),
        );
    }
}

#[test]
fn numbers_that_are_none_or_come_twice_are_told() {
    let folder = Folder::with(&["two-rents.flow"]);
    // Ranges are not taken, as by the other commands.
    for k in ["1-2", "1..2", "1,2", "all", "-1", ""] {
        let shown = if k.is_empty() { "\"\"" } else { k };
        let ended = folder.run(&of_two_rents(&[NAME, DATE, "--yes", "1", k]));
        let sentence = format!("{shown} is not the number of a request.");
        told(&folder, &ended, 2, &sentence);
    }
    for (numbers, twice) in [(["2", "2"], 2), (["1", "001"], 1), (["9", "9"], 9)] {
        let ended = folder.run(&of_two_rents(&[
            NAME, DATE, "--yes", numbers[0], numbers[1],
        ]));
        let sentence = format!("number {twice} is named twice.");
        told(&folder, &ended, 2, &sentence);
    }
}

#[test]
fn a_name_that_cannot_be_placed_is_told() {
    let folder = Folder::with(&["two-rents.flow"]);
    let words = of_two_rents(&["2", DATE, "--yes", "--name"]).into_iter();
    let words: Vec<OsString> = words.map(OsString::from).collect();
    for (name, shown) in [
        (&b"ABCDEFGHIJKLMNOPQRSTU"[..], "ABCDEFGHIJKLMNOPQRSTU"),
        (b"RENT\tMARCH", "RENT\\tMARCH"),
        (b"RENT\n", "RENT\\n"),
        (b"\x1b[2J", "\\u{1b}[2J"),
        ("CITTÀ".as_bytes(), "CITTÀ"),
        (b"CITT\xC0", "CITT\u{FFFD}"),
        (b"                     ", "\"                     \""),
    ] {
        let name = OsStr::from_bytes(name).to_owned();
        let ended = folder.run(&[&words[..], &[name]].concat());
        let sentence = format!(
            "{shown} is not the name of a flow, which has at most 20 plain letters, digits, signs or blanks."
        );
        told(&folder, &ended, 2, &sentence);
    }
}

#[test]
fn a_date_that_cannot_be_placed_is_told() {
    let folder = Folder::with(&["two-rents.flow"]);
    for (date, shown) in [
        ("", "\"\""),
        ("17032", "17032"),
        ("1703260", "1703260"),
        ("17/03/26", "17/03/26"),
        ("17032026", "17032026"),
        ("17032\t", "17032\\t"),
        ("1703à", "1703à"),
    ] {
        let ended = folder.run(&of_two_rents(&["2", NAME, "--yes", "--date", date]));
        let sentence =
            format!("{shown} is not a date as GGMMAA, which is 150326 for the 15th of March 2026.");
        told(&folder, &ended, 2, &sentence);
    }
}

#[test]
fn a_name_or_a_date_that_is_missing_is_told_with_its_option() {
    let folder = Folder::with(&["two-rents.flow"]);
    for (given, missing) in [
        (&[NAME][..], "--date GGMMAA"),
        (&[DATE], "--name NAME"),
        (&[], "--name NAME and --date GGMMAA"),
    ] {
        // Nothing is read before, and an answer that nobody was asked for is not taken.
        for sent in ["two-rents.flow", "nowhere.flow"] {
            let words = [&["recall", sent, "recall.flow", "2", "--yes"], given].concat();
            let ended = folder.answer(&words, "RECALL-MARCH\n170326\ny\n");
            let sentence =
                format!("a recall flow has a name and a date of its own; give {missing}.");
            told(&folder, &ended, 2, &sentence);
        }
    }
    for (option, what) in [("--name", "a name"), ("--date", "a date")] {
        let ended = folder.run(&of_two_rents(&["2", option]));
        told(&folder, &ended, 2, &format!("{option} needs {what}."));
    }
}

/// The refusal of the header of a recall flow that would have this at 14-39.
fn refused_header(refusal: &str, own: &str, position: usize, option: &str) -> String {
    let mut header = [b' '; 120];
    header[1..13].copy_from_slice(b"IMAB12301234");
    header[13..13 + own.len()].copy_from_slice(own.as_bytes());
    format!(
        "recall.flow: {refusal}.\nRecord 1, type IM:\n{}Nothing was saved; give another {option}.",
        drawn(&header, position)
    )
}

#[test]
fn a_name_or_a_date_that_the_rules_refuse_is_shown_in_the_header() {
    let folder = Folder::with(&["two-rents.flow"]);
    let not_digits =
        "refused 5 at record 1, position 14: this field holds something other than digits";
    let no_date = "refused 8 at record 1, position 14: \
                   the digits of this field are not a date of the calendar";
    let blank = "refused 7 at record 1, position 20: this field must be filled in and is blank";
    for (date, refusal) in [
        ("310626", no_date),
        ("290227", no_date),
        ("000326", no_date),
        ("MARCH!", not_digits),
        ("      ", not_digits),
        ("17 326", not_digits),
    ] {
        let ended = folder.run(&of_two_rents(&["2", NAME, "--yes", "--date", date]));
        let own = format!("{date}RECALL-MARCH");
        let due = refused_header(refusal, &own, 14, "--date");
        told(&folder, &ended, 1, &due);
    }
    for name in ["", " ", "                    "] {
        let ended = folder.run(&of_two_rents(&["2", "--name", name, DATE, "--yes"]));
        let due = refused_header(blank, "170326", 20, "--name");
        told(&folder, &ended, 1, &due);
    }
}

#[test]
fn a_leap_day_is_a_date_of_a_recall_flow() {
    let folder = Folder::with(&["two-rents.flow"]);
    let ended = folder.run(&of_two_rents(&["2", NAME, "--date=290228", "--yes"]));
    assert_eq!((ended.status, &ended.err[..]), (Some(0), ""));
    let new = recalled(&sample("two-rents.flow"), &[2], "290228", "RECALL-MARCH");
    assert!(folder.read("recall.flow") == new);
}

#[test]
fn a_recall_flow_needs_another_date_or_another_name_than_the_flow_sent() {
    let folder = Folder::with(&["two-rents.flow"]);
    for name in ["RENT-MARCH", "RENT-MARCH ", "RENT-MARCH          "] {
        let words = of_two_rents(&["2", "--name", name, "--date=150326", "--yes"]);
        told(
            &folder,
            &folder.run(&words),
            1,
            "the recall flow would have the date and the name of two-rents.flow, 15/03/2026 and RENT-MARCH, \
             and the bank could not tell them apart; give another --name or --date.",
        );
    }
    let flow = sample("two-rents.flow");
    for (name, date) in [
        ("RENT-MARCH", "160326"),
        ("RENT-MARCH", "150327"),
        ("RENT-MARCH.", "150326"),
        (" RENT-MARCH", "150326"),
        ("rent-march", "150326"),
    ] {
        let ended = folder.run(&of_two_rents(&[
            "2", "--name", name, "--date", date, "--yes",
        ]));
        assert_eq!((ended.status, &ended.err[..]), (Some(0), ""));
        assert!(folder.read("recall.flow") == recalled(&flow, &[2], date, name));
        fs::remove_file(folder.path("recall.flow")).unwrap();
    }
}

#[test]
fn a_flow_in_lines_is_refused_as_by_the_other_commands() {
    let flow = sample("two-rents.flow");
    let (records, _) = flow.as_chunks::<120>();
    for end in [&b"\r\n"[..], b"\n"] {
        let lines: Vec<u8> = records
            .iter()
            .flat_map(|record| [record, end].concat())
            .collect();
        let folder = Folder::new();
        fs::write(folder.path("a.flow"), &lines).unwrap();
        let shown = folder.run(&["show", "a.flow"]);
        assert_eq!(shown.status, Some(1));
        assert!(shown.err.starts_with("mavdesk: a.flow: refused "));
        let ended = folder.run(&["recall", "a.flow", "new", "1", NAME, DATE, "--yes"]);
        assert_eq!(ended, shown);
        left(&folder, &[("a.flow", &lines)]);
    }
}

#[test]
fn a_recall_flow_is_judged_as_recalls_and_added_up_apart() {
    let folder = Folder::with(&["two-rents-recall.flow", "one-rent.flow"]);
    folder.run(&["check", "two-rents-recall.flow"]).printed(
        "\
FLOW                    KIND         COUNT                 TOTAL    RECORDS
two-rents-recall.flow   recalls          2                830,50         16

1 flow accepted: 2 recalls, 830,50 euro.
",
    );
    // Requests are told first, whatever is named first.
    let words = ["check", "two-rents-recall.flow", "one-rent.flow"];
    folder.run(&words).printed(
        "\
FLOW                    KIND         COUNT                 TOTAL    RECORDS
two-rents-recall.flow   recalls          2                830,50         16
one-rent.flow           requests         1                450,00          9

2 flows accepted: 1 request, 450,00 euro; 2 recalls, 830,50 euro.
",
    );
}

#[test]
fn the_recalls_of_a_flow_are_shown_and_found_as_recalls() {
    let folder = Folder::with(&["two-rents-recall.flow"]);
    let heading = "two-rents-recall.flow: recalls of AB123, 15/03/2026, RENT-MARCH\n\n";
    folder
        .run(&["show", "two-rents-recall.flow"])
        .printed(&format!(
            "{heading}{TITLES}{ROSSI}{BIANCHI}\n2 recalls, 830,50 euro, 16 records.\n"
        ));
    let find = |text| folder.run(&["show", "two-rents-recall.flow", "--find", text]);
    find("rossi").printed(&format!(
        "{heading}{TITLES}{ROSSI}\n1 of 2 recalls, 450,00 euro.\n"
    ));
    find("verdi").failed(
        1,
        "mavdesk: no recall of two-rents-recall.flow has \"verdi\" in its row.\n",
    );
    let flow = sample("two-rents-recall.flow");
    let mut due = format!("{heading}{TITLES}{BIANCHI}");
    for (number, kind) in (9..).zip(["14", "20", "30", "40", "50", "51", "70"]) {
        let drawn = drawn(record(&flow, number), 0);
        due += &format!("\nRecord {number}, type {kind}:\n{drawn}");
    }
    folder
        .run(&["show", "two-rents-recall.flow", "2"])
        .printed(&due);
}

#[test]
fn the_amount_of_a_recall_is_changed_and_the_flow_stays_one_of_recalls() {
    let folder = Folder::with(&["two-rents-recall.flow"]);
    let old = sample("two-rents-recall.flow");
    let new = amended(&old, &[change(2, 40_000)]);
    let words = ["amount", "--yes", "two-rents-recall.flow", "2", "400"];
    folder.run(&words).printed(
        "\
two-rents-recall.flow: Recall 2, due 31/03/2026, BIANCHI MARCO, reference 0000000023

                                          BEFORE                   AFTER
recall 2, amount                          380,50                  400,00
trailer, recalls                               2                       2
trailer, total                            830,50                  850,00
trailer, records                              16                      16

Saved. The flow as it was is kept as two-rents-recall.flow.before.
",
    );
    replaced(&folder, "two-rents-recall.flow", &old, &new);
    // Only 34-46 of record 9 and 68-82 of record 16 may differ: 38050 to 40000, and 83050 to 85000.
    let differ: Vec<usize> = (0..1_920).filter(|&i| old[i] != new[i]).collect();
    let amount = 8 * 120 + 41..=8 * 120 + 44;
    let total = 15 * 120 + 78..=15 * 120 + 80;
    assert!(
        differ
            .iter()
            .all(|i| amount.contains(i) || total.contains(i)),
        "{differ:?}"
    );
    assert_eq!(
        judged(&new),
        "accepted dispositions 2 cents 85000 records 16 kind recalls"
    );
}

#[test]
fn a_recall_is_withdrawn_and_the_flow_stays_one_of_recalls() {
    let folder = Folder::with(&["two-rents-recall.flow"]);
    let old = sample("two-rents-recall.flow");
    let new = amended(&old, &[withdraw(1)]);
    let words = ["withdraw", "--yes", "two-rents-recall.flow", "1"];
    folder.run(&words).printed(&format!(
        "two-rents-recall.flow: 1 recall to be withdrawn\n\n{TITLES}{ROSSI}{}",
        "
The recalls left are numbered anew from 1 on.

                                          BEFORE                   AFTER
trailer, recalls                               2                       1
trailer, total                            830,50                  380,50
trailer, records                              16                       9

Saved. The flow as it was is kept as two-rents-recall.flow.before.
"
    ));
    replaced(&folder, "two-rents-recall.flow", &old, &new);
    assert_eq!(
        judged(&new),
        "accepted dispositions 1 cents 38050 records 9 kind recalls"
    );
}

#[test]
fn what_is_refused_of_a_recall_is_told_of_a_recall() {
    let folder = Folder::with(&["two-rents-recall.flow"]);
    let flow = "two-rents-recall.flow";
    let none = "refused 15: the flow has no disposition of that number; it has the recalls 1 to 2";
    for (words, told) in [
        (&["show", flow, "3"][..], format!("recall 3 of {flow}: {none}")),
        (
            &["withdraw", flow, "3"],
            format!("recall 3 of {flow}: {none}; nothing was changed"),
        ),
        (
            &["amount", flow, "0", "1"],
            format!("recall 0 of {flow}: {none}; nothing was changed"),
        ),
        (
            &["withdraw", flow, "1", "2"],
            format!(
                "recall 1 of {flow}: refused 18: the only disposition of a flow cannot be withdrawn; all \
                 that it has are named; nothing was changed"
            ),
        ),
    ] {
        folder.run(words).failed(1, &format!("mavdesk: {told}.\n"));
    }
    fs::write(folder.path("one.flow"), recall_of_2()).unwrap();
    folder.run(&["show", "one.flow", "2"]).failed(
        1,
        "mavdesk: recall 2 of one.flow: refused 15: the flow has no disposition of that number; it has \
         recall 1 alone.\n",
    );
}

#[test]
fn a_recall_flow_goes_to_its_list_and_back_byte_for_byte() {
    let flow = sample("two-rents-recall.flow");
    let list = sample("two-rents-recall.list");
    assert!(list_of(&flow) == list && flow_of(&list) == flow);
    assert!(list[0] == b'Q' && list[1..] == sample("two-rents.list")[1..]);
    let folder = Folder::with(&["two-rents-recall.flow"]);
    let ended = folder.run(&["list", "two-rents-recall.flow", "new.list"]);
    ended.printed("new.list: 2 recalls, 830,50 euro\nSaved.\n");
    assert!(folder.read("new.list") == list);
    let ended = folder.run(&["write", "new.list", "new.flow"]);
    ended.printed("new.flow: 2 recalls, 830,50 euro\nSaved.\n");
    assert!(folder.read("new.flow") == flow);
}

#[test]
fn a_recall_flow_that_was_made_is_amended_like_any_other() {
    let flow = sample("forty-rents.flow");
    let folder = Folder::with(&["forty-rents.flow"]);
    let words = [
        "recall",
        "--yes",
        NAME,
        DATE,
        "forty-rents.flow",
        "new",
        "4",
        "17",
        "33",
    ];
    assert_eq!(folder.run(&words).status, Some(0));
    assert_eq!(
        folder.run(&["withdraw", "--yes", "new", "2"]).status,
        Some(0)
    );
    // Without request 17 it is the recall of the other two.
    let left_over = recalled(&flow, &[4, 33], "170326", "RECALL-MARCH");
    assert!(folder.read("new") == left_over);
}

#[test]
fn number_22_is_explained() {
    Folder::new().run(&["explain", "22"]).printed(
        "22  a request and a recall may not share a flow, and the first one was of the other kind\n\
         \x20   Place: the record, position 29.\n\
         \x20   The flow has new requests and recalls. Have it sent as two.\n",
    );
}

#[test]
fn number_22_is_told_of_a_request_among_recalls_too() {
    // The first record 14 of the sample is the recall, and the second one the request.
    let mut flow = sample("two-rents-recall.flow");
    let second = 8 * 120;
    flow[second + 28..second + 33].copy_from_slice(b"07000");
    flow[second + 46] = b'-';
    let folder = Folder::new();
    fs::write(folder.path("a.flow"), &flow).unwrap();
    folder.run(&["show", "a.flow"]).failed(
        1,
        &format!(
            "mavdesk: a.flow: refused 22 at record 9, position 29: a request and a recall may not share a \
             flow, and the first one was of the other kind.\nRecord 9 of 16:\n{}",
            drawn(record(&flow, 9), 29)
        ),
    );
}

#[test]
fn a_total_of_recalls_in_the_place_of_requests_is_marked() {
    // Zeros at 68-82 and the sum at 53-67, as requests have them.
    let mut flow = sample("two-rents-recall.flow");
    let trailer = 15 * 120;
    flow[trailer + 52..trailer + 82].copy_from_slice(b"000000000083050000000000000000");
    let folder = Folder::new();
    fs::write(folder.path("a.flow"), &flow).unwrap();
    folder.run(&["show", "a.flow"]).failed(
        1,
        &format!(
            "mavdesk: a.flow: refused 13 at record 16, position 53: this total of the trailer is wrong.\n\
             Record 16 of 16:\n{}",
            drawn(record(&flow, 16), 53)
        ),
    );
}

#[test]
fn a_pipe_in_the_place_of_a_new_file_is_left_alone() {
    let folder = Folder::with(&["two-rents.flow"]);
    let made = Command::new("mkfifo").arg(folder.path("pipe")).status();
    assert!(made.unwrap().success());
    let words = ["recall", "two-rents.flow", "pipe", "2", NAME, DATE, "--yes"];
    let ended = folder.run(&words);
    ended.failed(2, "mavdesk: pipe is there already; name a new file.\n");
    assert_eq!(folder.names(), ["pipe", "two-rents.flow"]);
}
