//! Every command on the samples: what it prints, in full, its exit status, and every byte of the files that
//! it leaves. The numbers are those of samples/README.md; an amended flow is the one that the second program
//! gives.

mod common;

use std::fs;
use std::io::pipe;
use std::os::unix::fs::symlink;
use std::process::{Command, Stdio};

use common::{
    amended, change, drawn, flow_of, left, list_of, record, replaced, sample, student, withdraw,
    Ended, Folder, BIANCHI, DATE, NAME, ROSSI, TITLES,
};

/// What `amount two-rents.flow 2 400` shows before it asks. The total is that of document 01's example 2.
const TO_400: &str = "\
two-rents.flow: Request 2, due 31/03/2026, BIANCHI MARCO, reference 0000000023

                                          BEFORE                   AFTER
request 2, amount                         380,50                  400,00
trailer, requests                              2                       2
trailer, total                            830,50                  850,00
trailer, records                              16                      16

";

/// What `withdraw two-rents.flow 1` shows before it asks. The numbers are those of document 01's example 3:
/// 1,080 bytes are 9 records.
const WITHOUT_1: &str = "\
two-rents.flow: 1 request to be withdrawn

 NUMBER  DUE                   AMOUNT  DEBTOR                         REFERENCE
      1  31/03/2026            450,00  ROSSI GIULIA                   0000000017

The requests left are numbered anew from 1 on.

                                          BEFORE                   AFTER
trailer, requests                              2                       1
trailer, total                            830,50                  380,50
trailer, records                              16                       9

";

const SAVED: &str = "Saved. The flow as it was is kept as two-rents.flow.before.\n";

/// The commands, each with what its page says that it does, and its forms.
const PAGES: [(&str, &str, &[&str]); 9] = [
    ("check", "judge flows", &["mavdesk check FILE.."]),
    (
        "show",
        "show the requests of a flow",
        &["mavdesk show FILE [--find TEXT]", "mavdesk show FILE K"],
    ),
    (
        "diff",
        "say what differs between two flows",
        &["mavdesk diff [--all] OLD NEW"],
    ),
    (
        "amount",
        "give a request another amount",
        &["mavdesk amount [--yes] FILE K EUROS"],
    ),
    (
        "withdraw",
        "take requests out of a flow",
        &["mavdesk withdraw [--yes] FILE K.."],
    ),
    (
        "list",
        "write the request list of a flow",
        &["mavdesk list [--yes] FLOW LIST"],
    ),
    (
        "write",
        "write the flow of a request list",
        &["mavdesk write [--yes] LIST FLOW"],
    ),
    (
        "recall",
        "recall requests of a flow already sent",
        &["mavdesk recall [--yes] [--name NAME] [--date GGMMAA] SENT OUT K.."],
    ),
    (
        "explain",
        "say what a refusal's number means",
        &["mavdesk explain [N]"],
    ),
];

/// It ended as one that the clerk did not want: the question was put, and the answer was no.
#[track_caller]
fn unwanted(ended: &Ended, out: &str, err: &str) {
    assert_eq!(ended.out, out);
    assert_eq!(ended.err, err);
    assert_eq!(ended.status, Some(1));
}

#[test]
fn accepted_flows_are_judged_in_the_order_named_and_added_up() {
    let folder = Folder::with(&["two-rents.flow", "one-rent.flow", "forty-rents.flow"]);
    let words = [
        "check",
        "two-rents.flow",
        "one-rent.flow",
        "forty-rents.flow",
    ];
    folder.run(&words).printed(
        "\
FLOW               KIND         COUNT                 TOTAL    RECORDS
two-rents.flow     requests         2                830,50         16
one-rent.flow      requests         1                450,00          9
forty-rents.flow   requests        40             22.250,00        368

3 flows accepted: 43 requests, 23.530,50 euro.
",
    );
}

#[test]
fn one_flow_and_one_request_are_told_in_the_singular() {
    let folder = Folder::with(&["one-rent.flow"]);
    folder.run(&["check", "one-rent.flow"]).printed(
        "\
FLOW            KIND         COUNT                 TOTAL    RECORDS
one-rent.flow   requests         1                450,00          9

1 flow accepted: 1 request, 450,00 euro.
",
    );
}

#[test]
fn one_refused_flow_among_accepted_ones_gives_status_1() {
    let folder = Folder::with(&["two-rents.flow", "refused-14-records.flow"]);
    let ended = folder.run(&["check", "refused-14-records.flow", "two-rents.flow"]);
    assert_eq!(
        ended.out,
        "\
FLOW                      KIND         COUNT                 TOTAL    RECORDS
refused-14-records.flow   refused 14 at record 16, position 83
two-rents.flow            requests         2                830,50         16

1 flow accepted: 2 requests, 830,50 euro. 1 refused.

refused-14-records.flow: refused 14 at record 16, position 83: the trailer's count of records is wrong.
Record 16 of 16:
   ----+----1----+----2----+----3----+----4----+----5----+----6
  | EFAB12301234150326RENT-MARCH                000000200000000|
   ----+----7----+----8----+----9----+---10----+---11----+---12
  |00830500000000000000000000014                        E      |
                         ^ 83
"
    );
    assert_eq!(ended.err, "");
    assert_eq!(ended.status, Some(1));
}

#[test]
fn where_all_are_refused_none_is_accepted() {
    let folder = Folder::with(&["refused-01-length.flow"]);
    let ended = folder.run(&["check", "refused-01-length.flow"]);
    assert_eq!(
        ended.out,
        "\
FLOW                     KIND         COUNT                 TOTAL    RECORDS
refused-01-length.flow   refused 1

0 flows accepted: 0 requests, 0,00 euro. 1 refused.

refused-01-length.flow: refused 1: the flow is empty, is not whole records of 120 bytes, or is too long.
It has 1.919 bytes: 15 records, and 119 bytes more.
"
    );
    assert_eq!(ended.err, "");
    assert_eq!(ended.status, Some(1));
}

#[test]
fn of_a_folder_the_flows_are_judged_by_name_and_the_other_files_passed_over() {
    let folder = Folder::new();
    fs::create_dir(folder.path("night")).unwrap();
    for (name, from) in [
        ("night/b", "one-rent.flow"),
        ("night/a.flow", "two-rents.flow"),
        ("night/C.txt", "forty-rents.flow"),
        ("night/a.flow.before", "refused-02-byte.flow"),
        ("night/a.list", "two-rents.list"),
        ("night/.hidden.flow", "one-rent.flow"),
        ("night/.a.flow.mavdesk-lock", "refused-03-empty.list"),
    ] {
        fs::write(folder.path(name), sample(from)).unwrap();
    }
    // A pipe would be waited for as long as nobody writes to it.
    let pipe = Command::new("mkfifo")
        .arg(folder.path("night/pipe"))
        .status();
    assert!(pipe.unwrap().success());
    fs::create_dir(folder.path("night/aa.flow")).unwrap();
    fs::write(folder.path("night/aa.flow/x.flow"), sample("one-rent.flow")).unwrap();
    folder.run(&["check", "night"]).printed(
        "\
FLOW           KIND         COUNT                 TOTAL    RECORDS
night/C.txt    requests        40             22.250,00        368
night/a.flow   requests         2                830,50         16
night/b        requests         1                450,00          9

3 flows accepted: 43 requests, 23.530,50 euro.
",
    );
}

#[test]
fn what_a_folder_passes_over_is_judged_where_it_is_named() {
    let folder = Folder::new();
    for name in ["a.flow.before", ".hidden", "b.list"] {
        fs::write(folder.path(name), sample("one-rent.flow")).unwrap();
    }
    folder
        .run(&["check", "b.list", ".hidden", "a.flow.before"])
        .printed(
            "\
FLOW            KIND         COUNT                 TOTAL    RECORDS
b.list          requests         1                450,00          9
.hidden         requests         1                450,00          9
a.flow.before   requests         1                450,00          9

3 flows accepted: 3 requests, 1.350,00 euro.
",
        );
}

#[test]
fn folders_and_flows_can_be_named_together() {
    let folder = Folder::with(&["two-rents.flow"]);
    for name in ["north", "south"] {
        fs::create_dir(folder.path(name)).unwrap();
        let flow = folder.path(name).join("house.flow");
        fs::write(flow, sample("one-rent.flow")).unwrap();
    }
    folder
        .run(&["check", "south/", "two-rents.flow", "north"])
        .printed(
            "\
FLOW               KIND         COUNT                 TOTAL    RECORDS
south/house.flow   requests         1                450,00          9
two-rents.flow     requests         2                830,50         16
north/house.flow   requests         1                450,00          9

3 flows accepted: 4 requests, 1.730,50 euro.
",
        );
}

#[test]
fn every_one_of_two_thousand_flows_is_judged_once() {
    let folder = Folder::new();
    // Two flows by turns, so that one judged twice or left out would stand beside the wrong name.
    let mut rows = String::new();
    for number in 1..=1_000 {
        let (one, two) = (format!("{number:04}-a"), format!("{number:04}-b"));
        fs::write(folder.path(&one), sample("one-rent.flow")).unwrap();
        fs::write(folder.path(&two), sample("two-rents.flow")).unwrap();
        rows += &format!(
            "./{one}   requests         1                450,00          9
./{two}   requests         2                830,50         16
"
        );
    }
    folder.run(&["check", "."]).printed(&format!(
        "FLOW       KIND         COUNT                 TOTAL    RECORDS\n{rows}\n\
         2.000 flows accepted: 3.000 requests, 1.280.500,00 euro.\n",
    ));
}

#[test]
fn a_flow_that_is_named_twice_is_counted_once() {
    let folder = Folder::with(&["two-rents.flow", "one-rent.flow"]);
    symlink("two-rents.flow", folder.path("link.flow")).unwrap();
    let words = ["check", "two-rents.flow", ".", "./two-rents.flow"];
    folder.run(&words).printed(
        "\
FLOW              KIND         COUNT                 TOTAL    RECORDS
two-rents.flow    requests         2                830,50         16
./one-rent.flow   requests         1                450,00          9

2 flows accepted: 3 requests, 1.280,50 euro.
",
    );
}

#[test]
fn a_folder_without_a_flow_is_an_error_and_the_others_are_judged() {
    let folder = Folder::with(&["two-rents.flow"]);
    fs::create_dir(folder.path("night")).unwrap();
    let titles = "KIND         COUNT                 TOTAL    RECORDS";
    let none = "mavdesk: night has no flow in it.\n";
    let ended = folder.run(&["check", "night"]);
    assert_eq!(
        ended.out,
        format!("FLOW    {titles}\nnight   not read\n\n0 flows accepted: 0 requests, 0,00 euro. 1 not read.\n")
    );
    assert_eq!((ended.status, &ended.err[..]), (Some(2), none));
    for name in ["night/a.list", "night/a.before", "night/.a"] {
        fs::write(folder.path(name), sample("one-rent.flow")).unwrap();
    }
    fs::create_dir(folder.path("night/a.flow")).unwrap();
    let ended = folder.run(&["check", "night", "two-rents.flow"]);
    assert_eq!(
        ended.out,
        format!(
            "FLOW             {titles}
night            not read
two-rents.flow   requests         2                830,50         16

1 flow accepted: 2 requests, 830,50 euro. 1 not read.
"
        )
    );
    assert_eq!((ended.status, &ended.err[..]), (Some(2), none));
}

#[test]
fn the_requests_of_a_flow_are_shown_with_its_header_and_its_numbers() {
    let folder = Folder::with(&["two-rents.flow", "one-rent.flow"]);
    folder.run(&["show", "two-rents.flow"]).printed(
        "\
two-rents.flow: requests of AB123, 15/03/2026, RENT-MARCH

 NUMBER  DUE                   AMOUNT  DEBTOR                         REFERENCE
      1  31/03/2026            450,00  ROSSI GIULIA                   0000000017
      2  31/03/2026            380,50  BIANCHI MARCO                  0000000023

2 requests, 830,50 euro, 16 records.
",
    );
    folder.run(&["show", "one-rent.flow"]).printed(&format!(
        "one-rent.flow: requests of AB123, 15/03/2026, RENT-MARCH\n\n{TITLES}{ROSSI}\n1 request, 450,00 euro, 9 records.\n"
    ));
}

#[test]
fn text_at_positions_that_are_not_checked_is_not_shown() {
    let folder = Folder::with(&["two-rents-filler.flow"]);
    folder
        .run(&["show", "two-rents-filler.flow"])
        .printed(&format!(
            "two-rents-filler.flow: requests of AB123, 15/03/2026, RENT-MARCH\n\n\
         {TITLES}{ROSSI}{BIANCHI}\n2 requests, 830,50 euro, 16 records.\n"
        ));
}

#[test]
fn all_of_forty_requests_are_shown() {
    let folder = Folder::with(&["forty-rents.flow"]);
    let rows: String = (1..=40).map(student).collect();
    folder.run(&["show", "forty-rents.flow"]).printed(&format!(
        "forty-rents.flow: requests of AB123, 15/03/2026, RENT-MARCH\n\n\
         {TITLES}{rows}\n40 requests, 22.250,00 euro, 368 records.\n"
    ));
}

#[test]
fn a_request_is_found_by_what_its_row_has() {
    let folder = Folder::with(&["two-rents.flow"]);
    let heading = "two-rents.flow: requests of AB123, 15/03/2026, RENT-MARCH\n\n";
    for (text, rows, summary) in [
        ("rossi", ROSSI.to_owned(), "1 of 2 requests, 450,00 euro.\n"),
        (
            "Giulia",
            ROSSI.to_owned(),
            "1 of 2 requests, 450,00 euro.\n",
        ),
        (
            "CHI MAR",
            BIANCHI.to_owned(),
            "1 of 2 requests, 380,50 euro.\n",
        ),
        (
            "380,50",
            BIANCHI.to_owned(),
            "1 of 2 requests, 380,50 euro.\n",
        ),
        (
            "0000000023",
            BIANCHI.to_owned(),
            "1 of 2 requests, 380,50 euro.\n",
        ),
        ("17", ROSSI.to_owned(), "1 of 2 requests, 450,00 euro.\n"),
        (
            "31/03/2026",
            [ROSSI, BIANCHI].concat(),
            "2 of 2 requests, 830,50 euro.\n",
        ),
        (
            " ",
            [ROSSI, BIANCHI].concat(),
            "2 of 2 requests, 830,50 euro.\n",
        ),
    ] {
        let due = format!("{heading}{TITLES}{rows}\n{summary}");
        folder
            .run(&["show", "two-rents.flow", "--find", text])
            .printed(&due);
        folder
            .run(&["show", "--find", text, "two-rents.flow"])
            .printed(&due);
    }
}

#[test]
fn the_amounts_of_the_requests_found_are_added_up() {
    let folder = Folder::with(&["forty-rents.flow"]);
    let rows: String = (10..=19).map(student).collect();
    // 10 times 300,00 euro and 145 times 12,50.
    let words = ["show", "forty-rents.flow", "--find", "studente 1"];
    folder.run(&words).printed(&format!(
        "forty-rents.flow: requests of AB123, 15/03/2026, RENT-MARCH\n\n\
         {TITLES}{rows}\n10 of 40 requests, 4.812,50 euro.\n"
    ));
}

#[test]
fn nothing_found_is_said_and_gives_status_1() {
    let folder = Folder::with(&["two-rents.flow"]);
    // Text of the flow that is in no cell of a row: a room, a type of record, and two cells in one.
    for text in ["verdi", "STANZA", "51000", "450,00  ROSSI", "GIULIA 0"] {
        folder
            .run(&["show", "two-rents.flow", "--find", text])
            .failed(
                1,
                &format!("mavdesk: no request of two-rents.flow has \"{text}\" in its row.\n"),
            );
    }
}

#[test]
fn a_request_is_shown_with_all_its_records() {
    let folder = Folder::with(&["two-rents.flow"]);
    let flow = sample("two-rents.flow");
    for (k, row, first) in [("1", ROSSI, 2), ("2", BIANCHI, 9), ("0000002", BIANCHI, 9)] {
        let mut due =
            format!("two-rents.flow: requests of AB123, 15/03/2026, RENT-MARCH\n\n{TITLES}{row}");
        for (number, kind) in (first..).zip(["14", "20", "30", "40", "50", "51", "70"]) {
            due += &format!(
                "\nRecord {number}, type {kind}:\n{}",
                drawn(record(&flow, number), 0)
            );
        }
        folder.run(&["show", "two-rents.flow", k]).printed(&due);
    }
}

#[test]
fn a_request_with_every_kind_of_record_is_shown_with_all_of_them() {
    let folder = Folder::with(&["forty-rents.flow"]);
    let flow = sample("forty-rents.flow");
    // Requests 1 to 5 have 7, 9, 9, 11 and 11 records.
    for (k, first, kinds) in [
        (4, 27, "14 16 20 30 40 59 59 59 59 51 70"),
        (5, 38, "14 20 30 40 59 59 59 59 59 51 70"),
        (6, 49, "14 16 20 30 40 50 51 70"),
    ] {
        let row = student(k);
        let mut due =
            format!("forty-rents.flow: requests of AB123, 15/03/2026, RENT-MARCH\n\n{TITLES}{row}");
        for (number, kind) in (first..).zip(kinds.split(' ')) {
            due += &format!(
                "\nRecord {number}, type {kind}:\n{}",
                drawn(record(&flow, number), 0)
            );
        }
        folder
            .run(&["show", "forty-rents.flow", &k.to_string()])
            .printed(&due);
    }
}

#[test]
fn a_long_name_and_a_blank_reference_are_shown() {
    let folder = Folder::new();
    let mut flow = sample("two-rents.flow");
    // The debtor at 11-40 of record 4, and the reference at 11-20 of record 7.
    flow[3 * 120 + 10..3 * 120 + 40].copy_from_slice(b"DELLA ROVERE MARIA ANTONIETTA!");
    flow[6 * 120 + 10..6 * 120 + 20].fill(b' ');
    fs::write(folder.path("a.flow"), &flow).unwrap();
    folder.run(&["show", "a.flow"]).printed(
        "\
a.flow: requests of AB123, 15/03/2026, RENT-MARCH

 NUMBER  DUE                   AMOUNT  DEBTOR                         REFERENCE
      1  31/03/2026            450,00  DELLA ROVERE MARIA ANTONIETTA!
      2  31/03/2026            380,50  BIANCHI MARCO                  0000000023

2 requests, 830,50 euro, 16 records.
",
    );
    folder.run(&["amount", "a.flow", "1", "450"]).printed(
        "a.flow: Request 1, due 31/03/2026, DELLA ROVERE MARIA ANTONIETTA!\n\n\
         Its amount is 450,00 already; there is nothing to save.\n",
    );
    left(&folder, &[("a.flow", &flow)]);
}

#[test]
fn a_flow_is_read_from_a_pipe_too() {
    let folder = Folder::new();
    let flow = String::from_utf8(sample("two-rents.flow")).unwrap();
    let ended = folder.answer(&["show", "/dev/stdin"], &flow);
    ended.printed(&format!(
        "/dev/stdin: requests of AB123, 15/03/2026, RENT-MARCH\n\n\
         {TITLES}{ROSSI}{BIANCHI}\n2 requests, 830,50 euro, 16 records.\n"
    ));
}

#[test]
fn what_only_reads_leaves_every_file_as_it_was() {
    let folder = Folder::with(&["two-rents.flow", "refused-13-total.flow"]);
    folder.run(&["check", "."]);
    folder.run(&["show", "two-rents.flow"]);
    folder.run(&["show", "refused-13-total.flow"]);
    folder.run(&["show", "two-rents.flow", "2"]);
    folder.run(&["show", "two-rents.flow", "--find", "rossi"]);
    folder.run(&["diff", "two-rents.flow", "two-rents.flow"]);
    folder.run(&["diff", "two-rents.flow", "refused-13-total.flow"]);
    left(
        &folder,
        &[
            ("two-rents.flow", &sample("two-rents.flow")),
            ("refused-13-total.flow", &sample("refused-13-total.flow")),
        ],
    );
}

#[test]
fn an_amount_is_changed_after_a_yes() {
    let old = sample("two-rents.flow");
    let new = amended(&old, &[change(2, 40_000)]);
    for answer in [
        "y\n", "yes\n", "Y\n", "Yes\n", "YES\n", " y \n", "y", "y\nn\n",
    ] {
        let folder = Folder::with(&["two-rents.flow"]);
        let ended = folder.answer(&["amount", "two-rents.flow", "2", "400"], answer);
        ended.printed(&format!("{TO_400}Save it? [y/N] \n{SAVED}"));
        replaced(&folder, "two-rents.flow", &old, &new);
    }
}

#[test]
fn an_amount_is_not_changed_without_a_yes() {
    let old = sample("two-rents.flow");
    for answer in [
        "n\n", "no\n", "\n", "", "\ny\n", "n\ny\n", "yess\n", "ye\n", "1\n", "s\n",
    ] {
        let folder = Folder::with(&["two-rents.flow"]);
        let ended = folder.answer(&["amount", "two-rents.flow", "2", "400"], answer);
        unwanted(
            &ended,
            &format!("{TO_400}Save it? [y/N] \n"),
            "mavdesk: not saved: the flow is as it was.\n",
        );
        left(&folder, &[("two-rents.flow", &old)]);
    }
}

#[test]
fn with_yes_among_the_words_nothing_is_asked() {
    let old = sample("two-rents.flow");
    let new = amended(&old, &[change(2, 40_000)]);
    for words in [
        ["amount", "--yes", "two-rents.flow", "2", "400"],
        ["amount", "two-rents.flow", "--yes", "2", "400"],
        ["amount", "two-rents.flow", "2", "--yes", "400"],
        ["amount", "two-rents.flow", "2", "400", "--yes"],
    ] {
        let folder = Folder::with(&["two-rents.flow"]);
        let ended = folder.answer(&words, "n\n");
        ended.printed(&format!("{TO_400}{SAVED}"));
        replaced(&folder, "two-rents.flow", &old, &new);
    }
}

#[test]
fn an_amount_is_written_in_three_ways() {
    let old = sample("two-rents.flow");
    let new = amended(&old, &[change(2, 40_000)]);
    for euros in ["400", "400,00", "400.00"] {
        let folder = Folder::with(&["two-rents.flow"]);
        let ended = folder.run(&["amount", "--yes", "two-rents.flow", "2", euros]);
        ended.printed(&format!("{TO_400}{SAVED}"));
        replaced(&folder, "two-rents.flow", &old, &new);
    }
}

#[test]
fn the_smallest_and_the_largest_amount_are_saved() {
    let folder = Folder::with(&["two-rents.flow"]);
    let old = sample("two-rents.flow");
    let cents = 9_999_999_999_999;
    let new = amended(&old, &[change(1, cents)]);
    // 9.999.999.999.999 and 38.050 cents.
    let ended = folder.run(&["amount", "--yes", "two-rents.flow", "1", "99999999999,99"]);
    ended.printed(
        "\
two-rents.flow: Request 1, due 31/03/2026, ROSSI GIULIA, reference 0000000017

                                          BEFORE                   AFTER
request 1, amount                         450,00       99.999.999.999,99
trailer, requests                              2                       2
trailer, total                            830,50      100.000.000.380,49
trailer, records                              16                      16

Saved. The flow as it was is kept as two-rents.flow.before.
",
    );
    replaced(&folder, "two-rents.flow", &old, &new);
    folder.run(&["show", "two-rents.flow"]).printed(
        "\
two-rents.flow: requests of AB123, 15/03/2026, RENT-MARCH

 NUMBER  DUE                   AMOUNT  DEBTOR                         REFERENCE
      1  31/03/2026 99.999.999.999,99  ROSSI GIULIA                   0000000017
      2  31/03/2026            380,50  BIANCHI MARCO                  0000000023

2 requests, 100.000.000.380,49 euro, 16 records.
",
    );
    // An amount is found as it is shown and as it is written.
    for text in ["99.999.999.999,99", "99999999999,99", "--find=99999"] {
        let option = if text.starts_with("--") {
            &[text][..]
        } else {
            &["--find", text]
        };
        let words = [&["show", "two-rents.flow"], option].concat();
        let found = folder.run(&words).out;
        assert!(
            found.ends_with("\n1 of 2 requests, 99.999.999.999,99 euro.\n"),
            "{found}"
        );
    }
    let cent = amended(&new, &[change(1, 1)]);
    let ended = folder.run(&["amount", "--yes", "two-rents.flow", "001", "0,01"]);
    ended.printed(
        "\
two-rents.flow: Request 1, due 31/03/2026, ROSSI GIULIA, reference 0000000017

                                          BEFORE                   AFTER
request 1, amount              99.999.999.999,99                    0,01
trailer, requests                              2                       2
trailer, total                100.000.000.380,49                  380,51
trailer, records                              16                      16

Saved. The flow as it was is kept as two-rents.flow.before.
",
    );
    // The version before the last amendment is kept, and no older one.
    replaced(&folder, "two-rents.flow", &new, &cent);
}

#[test]
fn the_same_amount_again_is_nothing_to_save() {
    for words in [
        &["amount", "two-rents.flow", "2", "380,50"][..],
        &["amount", "two-rents.flow", "2", "380.50", "--yes"][..],
    ] {
        let folder = Folder::with(&["two-rents.flow"]);
        folder.answer(words, "y\n").printed(
            "\
two-rents.flow: Request 2, due 31/03/2026, BIANCHI MARCO, reference 0000000023

Its amount is 380,50 already; there is nothing to save.
",
        );
        left(&folder, &[("two-rents.flow", &sample("two-rents.flow"))]);
    }
}

#[test]
fn text_at_positions_that_are_not_checked_stays_when_an_amount_is_changed() {
    let folder = Folder::with(&["two-rents-filler.flow"]);
    let old = sample("two-rents-filler.flow");
    let new = amended(&old, &[change(1, 45_001)]);
    let ended = folder.run(&["amount", "--yes", "two-rents-filler.flow", "1", "450,01"]);
    ended.printed(
        "\
two-rents-filler.flow: Request 1, due 31/03/2026, ROSSI GIULIA, reference 0000000017

                                          BEFORE                   AFTER
request 1, amount                         450,00                  450,01
trailer, requests                              2                       2
trailer, total                            830,50                  830,51
trailer, records                              16                      16

Saved. The flow as it was is kept as two-rents-filler.flow.before.
",
    );
    replaced(&folder, "two-rents-filler.flow", &old, &new);
    // Only 34-46 of record 2 and 53-67 of record 16 may differ.
    let differ: Vec<usize> = (0..1_920).filter(|&i| old[i] != new[i]).collect();
    assert_eq!(differ, [120 + 45, 15 * 120 + 66]);
}

#[test]
fn a_request_is_withdrawn_after_a_yes() {
    let old = sample("two-rents.flow");
    let new = amended(&old, &[withdraw(1)]);
    assert_eq!(new.len(), 1_080);
    for answer in ["y\n", "yes\n"] {
        let folder = Folder::with(&["two-rents.flow"]);
        let ended = folder.answer(&["withdraw", "two-rents.flow", "1"], answer);
        ended.printed(&format!("{WITHOUT_1}Save it? [y/N] \n{SAVED}"));
        replaced(&folder, "two-rents.flow", &old, &new);
    }
}

#[test]
fn a_request_is_not_withdrawn_without_a_yes() {
    for answer in ["n\n", "\n", ""] {
        let folder = Folder::with(&["two-rents.flow"]);
        let ended = folder.answer(&["withdraw", "two-rents.flow", "1"], answer);
        unwanted(
            &ended,
            &format!("{WITHOUT_1}Save it? [y/N] \n"),
            "mavdesk: not saved: the flow is as it was.\n",
        );
        left(&folder, &[("two-rents.flow", &sample("two-rents.flow"))]);
    }
}

#[test]
fn with_yes_among_the_words_requests_are_withdrawn_without_asking() {
    let old = sample("two-rents.flow");
    let new = amended(&old, &[withdraw(1)]);
    for words in [
        ["withdraw", "--yes", "two-rents.flow", "1"],
        ["withdraw", "two-rents.flow", "--yes", "1"],
        ["withdraw", "two-rents.flow", "1", "--yes"],
    ] {
        let folder = Folder::with(&["two-rents.flow"]);
        folder.run(&words).printed(&format!("{WITHOUT_1}{SAVED}"));
        replaced(&folder, "two-rents.flow", &old, &new);
    }
}

#[test]
fn the_last_request_goes_and_no_number_changes() {
    let folder = Folder::with(&["two-rents.flow"]);
    let old = sample("two-rents.flow");
    let new = amended(&old, &[withdraw(2)]);
    // What is left is the sample with the first of the two rents alone.
    assert!(new == sample("one-rent.flow"));
    folder
        .run(&["withdraw", "--yes", "two-rents.flow", "2"])
        .printed(
            "\
two-rents.flow: 1 request to be withdrawn

 NUMBER  DUE                   AMOUNT  DEBTOR                         REFERENCE
      2  31/03/2026            380,50  BIANCHI MARCO                  0000000023

                                          BEFORE                   AFTER
trailer, requests                              2                       1
trailer, total                            830,50                  450,00
trailer, records                              16                       9

Saved. The flow as it was is kept as two-rents.flow.before.
",
        );
    replaced(&folder, "two-rents.flow", &old, &new);
}

#[test]
fn several_requests_are_withdrawn_by_the_numbers_shown_in_any_order() {
    let old = sample("forty-rents.flow");
    // One after the other from the front, each has moved up by those withdrawn before it.
    let calls = [1, 2, 4, 37].map(withdraw);
    let new = amended(&old, &calls);
    // Requests 1, 3, 6 and 40 have 312,50 and 337,50 and 375,00 and 800,00 euro, and 7, 9, 8 and 11 records.
    let rows: String = [1, 3, 6, 40].map(student).concat();
    let due = format!(
        "forty-rents.flow: 4 requests to be withdrawn\n\n{TITLES}{rows}{}",
        "
The requests left are numbered anew from 1 on.

                                          BEFORE                   AFTER
trailer, requests                             40                      36
trailer, total                         22.250,00               20.425,00
trailer, records                             368                     333

Saved. The flow as it was is kept as forty-rents.flow.before.
"
    );
    for numbers in [
        ["1", "3", "6", "40"],
        ["40", "6", "3", "1"],
        ["3", "40", "0001", "6"],
    ] {
        let folder = Folder::with(&["forty-rents.flow"]);
        let words = [&["withdraw", "forty-rents.flow"], &numbers[..], &["--yes"]].concat();
        folder.run(&words).printed(&due);
        replaced(&folder, "forty-rents.flow", &old, &new);
    }
}

#[test]
fn the_last_two_of_forty_go_and_no_number_changes() {
    let folder = Folder::with(&["forty-rents.flow"]);
    let old = sample("forty-rents.flow");
    let new = amended(&old, &[withdraw(40), withdraw(39)]);
    let rows: String = [39, 40].map(student).concat();
    // 787,50 and 800,00 euro, 9 and 11 records.
    let ended = folder.run(&["withdraw", "--yes", "forty-rents.flow", "39", "40"]);
    ended.printed(&format!(
        "forty-rents.flow: 2 requests to be withdrawn\n\n{TITLES}{rows}{}",
        "
                                          BEFORE                   AFTER
trailer, requests                             40                      38
trailer, total                         22.250,00               20.662,50
trailer, records                             368                     348

Saved. The flow as it was is kept as forty-rents.flow.before.
"
    ));
    replaced(&folder, "forty-rents.flow", &old, &new);
}

#[test]
fn all_requests_but_one_are_withdrawn_at_once() {
    let folder = Folder::with(&["forty-rents.flow"]);
    let old = sample("forty-rents.flow");
    let others = || (1..=40).filter(|&k| k != 17);
    let calls: Vec<_> = others().rev().map(withdraw).collect();
    let new = amended(&old, &calls);
    let rows: String = others().map(student).collect();
    let numbers: Vec<String> = others().map(|k| k.to_string()).collect();
    let mut words = vec!["withdraw", "--yes", "forty-rents.flow"];
    words.extend(numbers.iter().map(String::as_str));
    // Request 17 has 512,50 euro and, with five records 59, 11 records.
    folder.run(&words).printed(&format!(
        "forty-rents.flow: 39 requests to be withdrawn\n\n{TITLES}{rows}{}",
        "
The requests left are numbered anew from 1 on.

                                          BEFORE                   AFTER
trailer, requests                             40                       1
trailer, total                         22.250,00                  512,50
trailer, records                             368                      13

Saved. The flow as it was is kept as forty-rents.flow.before.
"
    ));
    replaced(&folder, "forty-rents.flow", &old, &new);
}

#[test]
fn words_behind_two_dashes_are_no_options() {
    let folder = Folder::new();
    let old = sample("two-rents.flow");
    fs::write(folder.path("--yes"), &old).unwrap();
    let new = amended(&old, &[change(2, 40_000)]);
    let due = TO_400.replacen("two-rents.flow", "--yes", 1);
    let ended = folder.run(&["amount", "--", "--yes", "2", "400"]);
    unwanted(
        &ended,
        &format!("{due}Save it? [y/N] \n"),
        "mavdesk: not saved: the flow is as it was.\n",
    );
    left(&folder, &[("--yes", &old)]);
    let ended = folder.run(&["amount", "--yes", "--", "--yes", "2", "400"]);
    ended.printed(&format!(
        "{due}Saved. The flow as it was is kept as --yes.before.\n"
    ));
    replaced(&folder, "--yes", &old, &new);
    let ended = folder.run(&["show", "--find", "rossi", "--", "--yes"]);
    ended.printed(&format!(
        "--yes: requests of AB123, 15/03/2026, RENT-MARCH\n\n{TITLES}{ROSSI}\n1 of 2 requests, 450,00 euro.\n"
    ));
}

#[test]
fn a_flow_goes_to_its_list_and_back_byte_for_byte() {
    let flow = sample("forty-rents.flow");
    let list = sample("forty-rents.list");
    assert!(list_of(&flow) == list && flow_of(&list) == flow);
    let folder = Folder::with(&["forty-rents.flow"]);
    let ended = folder.run(&["list", "forty-rents.flow", "new.list"]);
    ended.printed("new.list: 40 requests, 22.250,00 euro\nSaved.\n");
    left(&folder, &[("forty-rents.flow", &flow), ("new.list", &list)]);
    let ended = folder.run(&["write", "new.list", "new.flow"]);
    ended.printed("new.flow: 40 requests, 22.250,00 euro\nSaved.\n");
    left(
        &folder,
        &[
            ("forty-rents.flow", &flow),
            ("new.flow", &flow),
            ("new.list", &list),
        ],
    );
}

#[test]
fn text_that_is_not_carried_is_not_in_the_list() {
    let flow = sample("two-rents-filler.flow");
    let list = sample("two-rents.list");
    assert!(list_of(&flow) == list);
    let folder = Folder::with(&["two-rents-filler.flow"]);
    let ended = folder.run(&["list", "two-rents-filler.flow", "x"]);
    ended.printed("x: 2 requests, 830,50 euro\nSaved.\n");
    left(&folder, &[("two-rents-filler.flow", &flow), ("x", &list)]);
    let ended = folder.run(&["write", "x", "y"]);
    ended.printed("y: 2 requests, 830,50 euro\nSaved.\n");
    let files: [(&str, &[u8]); 3] = [
        ("two-rents-filler.flow", &flow),
        ("x", &list),
        ("y", &sample("two-rents.flow")),
    ];
    left(&folder, &files);
}

#[test]
fn a_list_of_one_request_is_told_in_the_singular() {
    let flow = sample("one-rent.flow");
    let folder = Folder::with(&["one-rent.flow"]);
    let ended = folder.run(&["list", "one-rent.flow", "x"]);
    ended.printed("x: 1 request, 450,00 euro\nSaved.\n");
    // Document 01, example 9: 643 bytes, for 1,080 of the flow.
    assert_eq!((folder.read("x").len(), flow.len()), (643, 1_080));
    left(&folder, &[("one-rent.flow", &flow), ("x", &list_of(&flow))]);
}

#[test]
fn a_file_is_replaced_after_a_yes_and_kept() {
    let (flow, list) = (sample("two-rents.flow"), sample("two-rents.list"));
    let told = "out: 2 requests, 830,50 euro\n";
    let saved = "Saved. The file as it was is kept as out.before.\n";
    for (words, old, new) in [
        (["list", "two-rents.flow", "out"], &flow, &list),
        (["write", "two-rents.list", "out"], &list, &flow),
    ] {
        let from = words[1];
        for answer in ["y\n", "yes\n"] {
            let folder = Folder::with(&[from]);
            fs::write(folder.path("out"), b"an older file").unwrap();
            folder.answer(&words, answer).printed(&format!(
                "{told}out is there already. Replace it? [y/N] \n{saved}"
            ));
            let kept: &[u8] = b"an older file";
            left(&folder, &[(from, old), ("out", new), ("out.before", kept)]);
        }
        let folder = Folder::with(&[from]);
        fs::write(folder.path("out"), b"").unwrap();
        let [command, from, out] = words;
        let ended = folder.run(&[command, from, "--yes", out]);
        ended.printed(&format!("{told}{saved}"));
        left(&folder, &[(from, old), ("out", new), ("out.before", b"")]);
    }
}

#[test]
fn a_file_is_not_replaced_without_a_yes() {
    for words in [
        ["list", "two-rents.flow", "out"],
        ["write", "two-rents.list", "out"],
    ] {
        let from = words[1];
        for answer in ["n\n", "\n", "", "maybe\n"] {
            let folder = Folder::with(&[from]);
            fs::write(folder.path("out"), b"an older file").unwrap();
            unwanted(
                &folder.answer(&words, answer),
                "out: 2 requests, 830,50 euro\nout is there already. Replace it? [y/N] \n",
                "mavdesk: not saved: the file is as it was.\n",
            );
            left(&folder, &[(from, &sample(from)), ("out", b"an older file")]);
        }
    }
}

#[test]
fn a_number_is_explained_in_full() {
    let folder = Folder::new();
    let due = " 9  the disposition number is not the one due here
    Place: the record, position 4.
    A request is missing, stands twice or is out of order.
";
    folder.run(&["explain", "9"]).printed(due);
    folder.run(&["explain", "009"]).printed(due);
}

#[test]
fn company_codes_that_differ_are_explained() {
    Folder::new().run(&["explain", "11"]).printed(
        "\
11  the company code differs from that of the first disposition
    Place: the record, position 92.
    Have it sent again with its code on every request, or on none. Two companies need two flows.
",
    );
}

#[test]
fn amounts_of_zero_are_explained() {
    let folder = Folder::new();
    folder.run(&["explain", "16"]).printed(
        "\
16  the new amount must be above zero and have at most 13 digits in cents
    Place: none.
    An amount is 0,01 to 99.999.999.999,99 euro. For nothing at all, withdraw the request.
",
    );
    folder.run(&["explain", "25"]).printed(
        "\
25  this amount is zero, and every amount must be above zero
    Place: the record, position 34.
    Have the house correct it or leave the request out, and send the flow again.
",
    );
}

#[test]
fn all_numbers_are_explained_once_with_the_place_that_documents_01_and_02_give() {
    const FIELD: &str = "the record, and the field's first position";
    let places = [
        (1, "none"),
        (2, "the record, and the position of the byte"),
        (3, "the record, position 2"),
        (4, "the record that is missing"),
        (5, FIELD),
        (6, FIELD),
        (7, FIELD),
        (8, FIELD),
        (9, "the record, position 4"),
        (10, FIELD),
        (11, "the record, position 92"),
        (12, "the trailer, position 46"),
        (13, "the trailer, position 53 or 68"),
        (14, "the trailer, position 83"),
        (15, "none"),
        (16, "none"),
        (17, "none"),
        (18, "none"),
        (20, "the item of the list, counted from 1"),
        (21, "none"),
        (22, "the record, position 29"),
        (25, "the record, position 34"),
        (27, "none"),
        (28, "none"),
        (34, "none"),
    ];
    let folder = Folder::new();
    let mut due = Vec::new();
    for (number, place) in places {
        let alone = folder.run(&["explain", &number.to_string()]);
        let lines: Vec<&str> = alone.out.lines().collect();
        let [meaning, place_line, remedy] = lines[..] else {
            panic!("{number} is not explained in three lines: {alone:?}");
        };
        let sentence = meaning.strip_prefix(&format!("{number:2}  "));
        assert!(sentence.is_some_and(|text| text.len() > 20), "{meaning}");
        assert_eq!(place_line, format!("    Place: {place}."));
        assert!(
            remedy.starts_with("    ") && remedy.ends_with('.'),
            "{remedy}"
        );
        assert!(remedy.len() > 30, "{remedy}");
        alone.printed(&format!("{meaning}\n{place_line}\n{remedy}\n"));
        due.push(alone.out);
    }
    folder.run(&["explain"]).printed(&due.join("\n"));
}

#[test]
fn a_number_outside_the_table_is_not_explained() {
    let folder = Folder::new();
    folder
        .run(&["explain", "19"])
        .failed(2, "mavdesk: number 19 is not used.\n");
    for number in ["0", "23", "29", "257"] {
        folder.run(&["explain", number]).failed(
            2,
            &format!(
                "mavdesk: there is no number {number}; the numbers are 1 to 18, 20 to 22, 25, 27, 28 and 34.\n"
            ),
        );
    }
}

/// The titles of a page: the lines that are not indented.
fn sections(page: &str) -> Vec<&str> {
    let titles = page.lines().filter(|line| !line.is_empty());
    titles.filter(|line| !line.starts_with(' ')).collect()
}

#[test]
fn every_command_has_a_page() {
    let folder = Folder::new();
    for (command, meaning, forms) in PAGES {
        let ended = folder.run(&[command, "--help"]);
        let page = &ended.out;
        let front = format!(
            "NAME\n    mavdesk {command} - {meaning}\n\nSYNOPSIS\n    {}\n\nDESCRIPTION\n    ",
            forms.join("\n    ")
        );
        assert!(page.starts_with(&front), "{page}");
        assert!(page.ends_with('\n') && !page.ends_with("\n\n"), "{page}");
        let has_options = !["check", "explain"].contains(&command);
        let examples = sections(page).pop().unwrap();
        assert!(["EXAMPLE", "EXAMPLES"].contains(&examples), "{page}");
        let due = match has_options {
            true => vec![
                "NAME",
                "SYNOPSIS",
                "DESCRIPTION",
                "OPTIONS",
                "EXIT STATUS",
                examples,
            ],
            false => vec!["NAME", "SYNOPSIS", "DESCRIPTION", "EXIT STATUS", examples],
        };
        assert_eq!(sections(page), due);
        assert!(page.lines().all(|line| line.len() <= 80), "{page}");
        for words in [
            &["help", command][..],
            &["--help", command],
            &[command, "-h"],
            &[command, "two-rents.flow", "1", "--help", "450"],
        ] {
            folder.run(words).printed(page);
        }
    }
}

#[test]
fn the_options_of_a_command_are_on_its_page() {
    let folder = Folder::new();
    for (command, option) in [
        ("show", "--find TEXT"),
        ("diff", "--all"),
        ("amount", "--yes"),
        ("withdraw", "--yes"),
        ("list", "--yes"),
        ("write", "--yes"),
        ("recall", "--name NAME"),
    ] {
        let page = folder.run(&["help", command]).out;
        let due = format!("\n\nOPTIONS\n    {option}\n        ");
        assert!(page.contains(&due), "{page}");
    }
}

#[test]
fn the_page_of_all_commands_has_every_command() {
    let folder = Folder::new();
    let ended = folder.run(&["--help"]);
    let page = &ended.out;
    assert!(page.starts_with(
        "NAME\n    mavdesk - check, show and amend flows of payment requests (CBI M.Av.)\n\nSYNOPSIS\n"
    ));
    assert_eq!(
        sections(page),
        ["NAME", "SYNOPSIS", "DESCRIPTION", "EXIT STATUS"]
    );
    assert!(page.lines().all(|line| line.len() <= 80), "{page}");
    let synopsis = page.lines().skip(4).take_while(|line| !line.is_empty());
    let commands: Vec<&str> = synopsis.filter_map(|line| line.split(' ').nth(5)).collect();
    assert_eq!(commands, PAGES.map(|(command, ..)| command));
    folder.run(&["help"]).printed(page);
    folder.run(&["help", "help"]).printed(page);
    folder.run(&["-h"]).printed(page);
}

#[test]
fn the_version_is_that_of_the_package() {
    let due = concat!("mavdesk ", env!("CARGO_PKG_VERSION"), "\n");
    Folder::new().run(&["--version"]).printed(due);
}

/// A list of two thousand rents: the items of the first rent of two-rents.list again and again.
fn two_thousand() -> Vec<u8> {
    let list = sample("two-rents.list");
    let rent = (list.len() - 50) / 2;
    [&list[..50], &list[50..50 + rent].repeat(2_000)].concat()
}

#[test]
fn a_reader_that_has_gone_ends_what_only_shows_in_silence_and_a_save_with_a_word() {
    let folder = Folder::with(&["two-rents.flow", "refused-09-block-twice.flow"]);
    let flow = flow_of(&two_thousand());
    assert_eq!(flow.len(), 120 * 14_002);
    fs::write(folder.path("large.flow"), &flow).unwrap();
    let unsaved = "mavdesk: nothing was saved, since who was to read standard output has gone.\n";
    for (words, told) in [
        (&["show", "large.flow"][..], ""),
        (&["show", "large.flow", "--find", "rossi"], ""),
        (&["show", "two-rents.flow", "1"], ""),
        (&["check", "large.flow", "refused-09-block-twice.flow"], ""),
        (&["explain"], ""),
        (&["--help"], ""),
        (&["amount", "two-rents.flow", "2", "400"], unsaved),
        (&["amount", "--yes", "two-rents.flow", "2", "400"], unsaved),
        (&["withdraw", "--yes", "two-rents.flow", "2"], unsaved),
        (&["list", "two-rents.flow", "new.list"], unsaved),
        (
            &["recall", NAME, DATE, "two-rents.flow", "new.flow", "2"],
            unsaved,
        ),
    ] {
        let (reader, writer) = pipe().unwrap();
        drop(reader);
        let mut command = folder.command(words);
        command.stdin(Stdio::null()).stdout(writer);
        let ended = Ended::of(command.output().unwrap());
        ended.failed(2, told);
    }
    // What could not be shown was not saved either.
    left(
        &folder,
        &[
            ("large.flow", &flow),
            (
                "refused-09-block-twice.flow",
                &sample("refused-09-block-twice.flow"),
            ),
            ("two-rents.flow", &sample("two-rents.flow")),
        ],
    );
}

#[test]
fn a_reader_that_goes_after_some_lines_ends_the_command_in_silence() {
    let folder = Folder::new();
    fs::write(folder.path("large.flow"), flow_of(&two_thousand())).unwrap();
    let mut child = folder
        .command(&["show", "large.flow"])
        .stdin(Stdio::null())
        .stdout(Stdio::piped())
        .stderr(Stdio::piped())
        .spawn()
        .unwrap();
    // The rows are more than a pipe holds, so that the command is still at them.
    let mut line = [0; 58];
    std::io::Read::read_exact(child.stdout.as_mut().unwrap(), &mut line).unwrap();
    assert_eq!(
        &line,
        b"large.flow: requests of AB123, 15/03/2026, RENT-MARCH\n\n NU"
    );
    drop(child.stdout.take());
    let ended = Ended::of(child.wait_with_output().unwrap());
    ended.failed(2, "");
}
