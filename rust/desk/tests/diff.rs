//! `mavdesk diff`, on real files: every kind of row, the totals, the exit status, and what is told where two
//! flows cannot be compared. The texts due are reckoned from what the flows hold; the flows are samples, or
//! are written by the second program from lists that are put together here.

mod common;

use std::fs::{self, Permissions};
use std::io::pipe;
use std::os::unix::fs::{symlink, PermissionsExt};
use std::path::Path;
use std::process::Stdio;
use std::time::{Duration, Instant};

use common::{
    amended, change, drawn, flow_of, left, recalled, record, run_as_clerk, run_limited, sample,
    student, withdraw, Ended, Folder,
};

/// The titles over the rows.
const TITLES: &str = "         BEFORE  AFTER  DUE                   AMOUNT  DEBTOR\n";
/// The titles over the totals.
const TOTALS: &str =
    "                            BEFORE                 AFTER            DIFFERENCE\n";

/// What is shown of the two evenings of the samples, but for the requests that are kept.
const LAST_NIGHT: &str = "\
BEFORE  last-night.flow: requests of AB123, 16/03/2026, RENT-MARCH-16
AFTER   tonight.flow: requests of AB123, 17/03/2026, RENT-MARCH-17

         BEFORE  AFTER  DUE                   AMOUNT  DEBTOR
dropped       3         31/03/2026            420,00  GALLI ANNA
added                4  31/03/2026            420,00  LOMBARDI IRENE
changed       5         31/03/2026            410,00  RICCI ELENA
    now              5                        435,50
";
const TONIGHT: &str = "
1 request dropped, 1 added, 1 changed, 6 kept.

                            BEFORE                 AFTER            DIFFERENCE
requests                         8                     8                     0
total                     3.233,00              3.258,50                +25,50
";

/// The requests differ, and this is all that was printed.
#[track_caller]
fn differs(ended: &Ended, out: &str) {
    assert_eq!(ended.out, out);
    assert_eq!(ended.err, "");
    assert_eq!(ended.status, Some(1));
}

/// A request of a list: the items of the first rent of two-rents.list with other contents.
#[derive(Clone)]
struct Rent(Vec<u8>);

/// Where in a rent its items begin: D, C, B, A, R, K, Z of 59, 97, 77, three times 111 and 27 bytes.
const B: usize = 59 + 97;
const A: usize = B + 77;
const R: usize = A + 111;
const K: usize = R + 111;
const Z: usize = K + 111;

impl Rent {
    /// A rent of this debtor, due on 31/03/2026.
    fn of(debtor: &str, cents: u64) -> Rent {
        let list = sample("two-rents.list");
        let rent = Rent(list[50..643].to_vec());
        rent.put(B + 1, &format!("{debtor:<60}")).cents(cents)
    }

    fn cents(self, cents: u64) -> Rent {
        self.put(7, &format!("{cents:013}"))
    }

    fn due(self, date: &str) -> Rent {
        self.put(1, date)
    }

    /// A text at this place.
    fn put(mut self, place: usize, text: &str) -> Rent {
        self.0[place..place + text.len()].copy_from_slice(text.as_bytes());
        self
    }

    /// With these items instead of those from `first` on up to `last`.
    fn instead(mut self, first: usize, last: usize, items: &[u8]) -> Rent {
        self.0.splice(first..last, items.iter().copied());
        self
    }
}

/// The flow of these rents, under the name and the date of two-rents.flow.
fn flow(rents: &[Rent]) -> Vec<u8> {
    let rents: Vec<u8> = rents.iter().flat_map(|rent| rent.0.clone()).collect();
    flow_of(&[&sample("two-rents.list")[..50], &rents].concat())
}

/// A folder with these flows as a.flow and b.flow.
fn evenings(old: &[u8], new: &[u8]) -> Folder {
    let folder = Folder::new();
    fs::write(folder.path("a.flow"), old).unwrap();
    fs::write(folder.path("b.flow"), new).unwrap();
    folder
}

/// Runs `mavdesk diff a.flow b.flow` on two lists of rents.
fn compared(old: &[Rent], new: &[Rent]) -> Ended {
    evenings(&flow(old), &flow(new)).run(&["diff", "a.flow", "b.flow"])
}

/// What is due of a.flow and b.flow: the rows, the counts, and the totals.
fn due(rows: &str, counts: &str, totals: &str) -> String {
    format!(
        "BEFORE  a.flow: requests of AB123, 15/03/2026, RENT-MARCH\n\
         AFTER   b.flow: requests of AB123, 15/03/2026, RENT-MARCH\n\n\
         {TITLES}{rows}\n{counts}.\n\n{TOTALS}{totals}"
    )
}

fn rossi() -> Rent {
    Rent::of("ROSSI GIULIA", 45_000)
}

fn bianchi() -> Rent {
    Rent::of("BIANCHI MARCO", 38_050)
}

fn verdi() -> Rent {
    Rent::of("VERDI ANNA", 100_000)
}

#[test]
fn the_two_evenings_of_the_samples() {
    let folder = Folder::with(&["last-night.flow", "tonight.flow"]);
    let ended = folder.run(&["diff", "last-night.flow", "tonight.flow"]);
    differs(&ended, &format!("{LAST_NIGHT}{TONIGHT}"));
    left(
        &folder,
        &[
            ("last-night.flow", &sample("last-night.flow")),
            ("tonight.flow", &sample("tonight.flow")),
        ],
    );
}

#[test]
fn the_way_back() {
    let folder = Folder::with(&["last-night.flow", "tonight.flow"]);
    differs(
        &folder.run(&["diff", "tonight.flow", "last-night.flow"]),
        "\
BEFORE  tonight.flow: requests of AB123, 17/03/2026, RENT-MARCH-17
AFTER   last-night.flow: requests of AB123, 16/03/2026, RENT-MARCH-16

         BEFORE  AFTER  DUE                   AMOUNT  DEBTOR
dropped       4         31/03/2026            420,00  LOMBARDI IRENE
added                3  31/03/2026            420,00  GALLI ANNA
changed       5         31/03/2026            435,50  RICCI ELENA
    now              5                        410,00

1 request dropped, 1 added, 1 changed, 6 kept.

                            BEFORE                 AFTER            DIFFERENCE
requests                         8                     8                     0
total                     3.258,50              3.233,00                -25,50
",
    );
}

#[test]
fn all_shows_the_kept_ones_with_both_numbers() {
    let folder = Folder::with(&["last-night.flow", "tonight.flow"]);
    let kept = "\
kept          1      1  31/03/2026            410,00  COLOMBO SARA
kept          2      2  31/03/2026            395,00  FERRARI LUCA
kept          4      3  31/03/2026            367,50  MORETTI PAOLO
kept          6      6  31/03/2026            450,00  CONTI DAVIDE
kept          7      7  31/03/2026            380,50  MARINO CHIARA
kept          8      8  31/03/2026            400,00  GRECO MATTEO
";
    for words in [
        ["diff", "--all", "last-night.flow", "tonight.flow"],
        ["diff", "last-night.flow", "--all", "tonight.flow"],
        ["diff", "last-night.flow", "tonight.flow", "--all"],
    ] {
        let ended = folder.run(&words);
        differs(&ended, &format!("{LAST_NIGHT}{kept}{TONIGHT}"));
    }
}

#[test]
fn where_nothing_differs_one_sentence_says_so() {
    let folder = Folder::with(&[
        "last-night.flow",
        "two-rents.flow",
        "two-rents-filler.flow",
        "two-rents-recall.flow",
        "one-rent.flow",
    ]);
    for (old, new, sentence) in [
        (
            "last-night.flow",
            "last-night.flow",
            "No request differs: last-night.flow and last-night.flow both have 8 requests, 3.233,00 euro.\n",
        ),
        // Text at positions that no list carries does not count.
        (
            "two-rents.flow",
            "two-rents-filler.flow",
            "No request differs: two-rents.flow and two-rents-filler.flow both have 2 requests, 830,50 euro.\n",
        ),
        (
            "one-rent.flow",
            "./one-rent.flow",
            "No request differs: one-rent.flow and ./one-rent.flow both have 1 request, 450,00 euro.\n",
        ),
        (
            "two-rents-recall.flow",
            "two-rents-recall.flow",
            "No recall differs: two-rents-recall.flow and two-rents-recall.flow both have 2 recalls, 830,50 euro.\n",
        ),
    ] {
        folder.run(&["diff", old, new]).printed(sentence);
    }
}

#[test]
fn headers_are_shown_and_not_compared() {
    let old = sample("two-rents.flow");
    let mut new = old.clone();
    // Sender, bank, date and name, in the header and the trailer, and the bank in each record 14.
    for end in [0, 15 * 120] {
        new[end + 3..end + 39].copy_from_slice(b"ZZ99909999010426RENT-APRIL          ");
    }
    for opening in [120, 8 * 120] {
        new[opening + 47..opening + 52].copy_from_slice(b"09999");
    }
    let folder = evenings(&old, &new);
    folder
        .run(&["diff", "a.flow", "b.flow"])
        .printed("No request differs: a.flow and b.flow both have 2 requests, 830,50 euro.\n");
    folder.run(&["diff", "--all", "a.flow", "b.flow"]).printed(
        "\
BEFORE  a.flow: requests of AB123, 15/03/2026, RENT-MARCH
AFTER   b.flow: requests of ZZ999, 01/04/2026, RENT-APRIL

         BEFORE  AFTER  DUE                   AMOUNT  DEBTOR
kept          1      1  31/03/2026            450,00  ROSSI GIULIA
kept          2      2  31/03/2026            380,50  BIANCHI MARCO

No request differs: a.flow and b.flow both have 2 requests, 830,50 euro.
",
    );
}

#[test]
fn a_dropped_request_alone() {
    let ended = compared(&[rossi(), bianchi()], &[bianchi()]);
    let row = "dropped       1         31/03/2026            450,00  ROSSI GIULIA\n";
    let totals = "\
requests                         2                     1                    -1
total                       830,50                380,50               -450,00
";
    differs(&ended, &due(row, "1 request dropped, 1 kept", totals));
}

#[test]
fn an_added_request_alone() {
    let ended = compared(&[rossi(), bianchi()], &[rossi(), verdi(), bianchi()]);
    let row = "added                2  31/03/2026          1.000,00  VERDI ANNA\n";
    let totals = "\
requests                         2                     3                    +1
total                       830,50              1.830,50             +1.000,00
";
    differs(&ended, &due(row, "1 request added, 2 kept", totals));
}

#[test]
fn requests_of_other_debtors_are_dropped_and_added() {
    let ended = compared(&[rossi(), bianchi()], &[verdi()]);
    let rows = "\
dropped       1         31/03/2026            450,00  ROSSI GIULIA
dropped       2         31/03/2026            380,50  BIANCHI MARCO
added                1  31/03/2026          1.000,00  VERDI ANNA
";
    let totals = "\
requests                         2                     1                    -1
total                       830,50              1.000,00               +169,50
";
    let counts = "2 requests dropped, 1 added, 0 kept";
    differs(&ended, &due(rows, counts, totals));
}

/// One request of ROSSI GIULIA before BIANCHI MARCO is changed in this way, and this is told under its row.
#[track_caller]
fn changed(new: Rent, now: &str, total: &str) {
    let ended = compared(&[rossi(), bianchi()], &[new, bianchi()]);
    let rows = format!(
        "changed       1         31/03/2026            450,00  ROSSI GIULIA\n    now              1{now}\n"
    );
    let totals = format!(
        "requests                         2                     2                     0\n\
         total                       830,50{total}\n"
    );
    differs(&ended, &due(&rows, "1 request changed, 1 kept", &totals));
}

/// The total where the amount is as it was.
const AS_BEFORE: &str = "                830,50                  0,00";

#[test]
fn a_changed_amount_is_told_before_and_after() {
    changed(
        rossi().cents(44_999),
        "                        449,99",
        "                830,49                 -0,01",
    );
    changed(
        rossi().cents(1),
        "                          0,01",
        "                380,51               -449,99",
    );
    changed(
        rossi().cents(9_999_999_999_999),
        "             99.999.999.999,99",
        "    100.000.000.380,49    +99.999.999.549,99",
    );
}

#[test]
fn a_changed_due_date_is_told_before_and_after() {
    changed(rossi().due("150426"), "  15/04/2026", AS_BEFORE);
}

#[test]
fn a_changed_amount_and_due_date_are_told_together() {
    changed(
        rossi().cents(46_000).due("010426"),
        "  01/04/2026            460,00",
        "                840,50                +10,00",
    );
}

#[test]
fn where_amount_and_due_date_are_the_same_the_records_that_differ_are_told() {
    for (new, told) in [
        (rossi().put(A + 1, "VIA ROMA 1 "), "record 40 differs"),
        (rossi().put(R + 1, "RETTA APRILE"), "record 50 differs"),
        (rossi().put(K + 1, "0000000099"), "record 51 differs"),
        // The tax code, which is in record 30 and no part of the debtor's 60 positions.
        (rossi().put(B + 61, "RSSGLI05A41F205Z"), "record 30 differs"),
        // The debtor's code, at 98-113 of record 14.
        (rossi().put(43, "S0099"), "record 14 differs"),
        (rossi().put(60, "CASA"), "record 20 differs"),
        (rossi().put(Z + 2, "CASA 12"), "record 70 differs"),
        (
            rossi().put(A + 1, "VIA ROMA 1 ").put(K + 1, "0000000099"),
            "records 40 and 51 differ",
        ),
        (
            rossi().put(60, "CASA").put(A + 1, "CORSO").put(R + 1, "X"),
            "records 20, 40 and 50 differ",
        ),
        // A record 59 where a 50 was.
        (rossi().put(R, "X"), "records 50 and 59 differ"),
        // One record more: a 16 after the 14, which has 59 bytes in the list.
        (
            rossi().instead(59, 59, b"SIT60X0123402400000000123456"),
            "record 16 differs",
        ),
    ] {
        let now = format!("  same amount and due date; {told}");
        changed(new, &now, AS_BEFORE);
    }
}

#[test]
fn records_that_differ_too_are_told_beside_the_amount() {
    changed(
        rossi().cents(46_000).put(A + 1, "VIA ROMA 1 "),
        "                        460,00  record 40 differs too",
        "                840,50                +10,00",
    );
    changed(
        rossi()
            .due("010426")
            .put(A + 1, "CORSO")
            .put(K + 1, "0000000099"),
        "  01/04/2026                    records 40 and 51 differ too",
        AS_BEFORE,
    );
    // Of record 14 itself something beside date and amount.
    changed(
        rossi().cents(46_000).due("010426").put(43, "S0099"),
        "  01/04/2026            460,00  record 14 differs too",
        "                840,50                +10,00",
    );
}

#[test]
fn several_requests_of_one_debtor_are_paired_in_order() {
    let old = [
        rossi(),
        rossi().cents(10_000),
        bianchi(),
        rossi().cents(20_000),
    ];
    let new = [rossi().cents(45_100), bianchi(), rossi().cents(10_200)];
    let rows = "\
dropped       4         31/03/2026            200,00  ROSSI GIULIA
changed       1         31/03/2026            450,00  ROSSI GIULIA
    now              1                        451,00
changed       2         31/03/2026            100,00  ROSSI GIULIA
    now              3                        102,00
";
    let totals = "\
requests                         4                     3                    -1
total                     1.130,50                933,50               -197,00
";
    let counts = "1 request dropped, 2 changed, 1 kept";
    differs(&compared(&old, &new), &due(rows, counts, totals));
    // The other way there is one more than before.
    let rows = "\
added                4  31/03/2026            200,00  ROSSI GIULIA
changed       1         31/03/2026            451,00  ROSSI GIULIA
    now              1                        450,00
changed       3         31/03/2026            102,00  ROSSI GIULIA
    now              2                        100,00
";
    let totals = "\
requests                         3                     4                    +1
total                       933,50              1.130,50               +197,00
";
    let counts = "1 request added, 2 changed, 1 kept";
    differs(&compared(&new, &old), &due(rows, counts, totals));
}

#[test]
fn a_debtor_has_two_halves_and_both_count() {
    let of = |first: &str, second: &str, cents| Rent::of(&format!("{first:<30}{second}"), cents);
    let long = "RESIDENZA UNIVERSITARIA MARTINO";
    let old = [
        of("ROSSI", "GIULIA", 45_000),
        of(&long[..30], "CAMERA 7", 100),
    ];
    let new = [
        of("ROSSI", "GIULIANA", 45_000),
        of(&long[..30], "CAMERA 7", 200),
    ];
    let rows = "\
dropped       1         31/03/2026            450,00  ROSSI GIULIA
added                1  31/03/2026            450,00  ROSSI GIULIANA
changed       2         31/03/2026              1,00  RESIDENZA UNIVERSITARIA MARTIN CAMERA 7
    now              2                          2,00
";
    let totals = "\
requests                         2                     2                     0
total                       451,00                452,00                 +1,00
";
    let counts = "1 request dropped, 1 added, 1 changed, 0 kept";
    differs(&compared(&old, &new), &due(rows, counts, totals));
    // A debtor with a blank more in front is another one, byte for byte.
    let rows = "\
dropped       1         31/03/2026            450,00  ROSSI GIULIA
added                1  31/03/2026            450,00  ROSSI GIULIA
";
    let totals = "\
requests                         1                     1                     0
total                       450,00                450,00                  0,00
";
    let ended = compared(&[rossi()], &[Rent::of(" ROSSI GIULIA", 45_000)]);
    let counts = "1 request dropped, 1 added, 0 kept";
    differs(&ended, &due(rows, counts, totals));
}

#[test]
fn a_request_that_only_stands_elsewhere_is_moved() {
    let rents = [rossi(), bianchi(), verdi()];
    let [first, second, third] = rents.clone();
    let totals = "\
requests                         3                     3                     0
total                     1.830,50              1.830,50                  0,00
";
    let ended = compared(&rents, &[second.clone(), third.clone(), first.clone()]);
    let row = "moved         1      3  31/03/2026            450,00  ROSSI GIULIA\n";
    differs(&ended, &due(row, "1 request moved, 2 kept", totals));
    let ended = compared(&rents, &[third, first, second]);
    let row = "moved         3      1  31/03/2026          1.000,00  VERDI ANNA\n";
    differs(&ended, &due(row, "1 request moved, 2 kept", totals));
}

#[test]
fn two_of_one_debtor_that_change_places_have_not_changed() {
    let (rent, deposit) = (rossi(), rossi().cents(10_000));
    let others = [bianchi(), verdi(), Rent::of("NERI UGO", 100)];
    let old = [&[rent.clone(), deposit.clone()], &others[..]].concat();
    let new = [&others[..], &[deposit, rent]].concat();
    // Three are kept, and neither of the two has another amount.
    let rows = "\
moved         1      5  31/03/2026            450,00  ROSSI GIULIA
moved         2      4  31/03/2026            100,00  ROSSI GIULIA
";
    let totals = "\
requests                         5                     5                     0
total                     1.931,50              1.931,50                  0,00
";
    differs(
        &compared(&old, &new),
        &due(rows, "2 requests moved, 3 kept", totals),
    );
}

#[test]
fn every_kind_of_row_stands_in_its_place() {
    let neri = Rent::of("NERI UGO", 100);
    let gallo = Rent::of("GALLO IDA", 200);
    let old = [rossi(), bianchi(), verdi(), neri.clone()];
    let new = [
        neri.clone().cents(150),
        bianchi(),
        verdi(),
        rossi(),
        gallo.clone(),
    ];
    // BIANCHI and VERDI are kept.
    let rows = "\
added                5  31/03/2026              2,00  GALLO IDA
changed       4         31/03/2026              1,00  NERI UGO
    now              1                          1,50
moved         1      4  31/03/2026            450,00  ROSSI GIULIA
";
    let totals = "\
requests                         4                     5                    +1
total                     1.831,50              1.834,00                 +2,50
";
    let counts = "1 request added, 1 changed, 1 moved, 2 kept";
    differs(&compared(&old, &new), &due(rows, counts, totals));
    // With all of them, and the way back.
    let folder = evenings(&flow(&new), &flow(&old));
    let rows = "\
dropped       5         31/03/2026              2,00  GALLO IDA
changed       1         31/03/2026              1,50  NERI UGO
    now              4                          1,00
moved         4      1  31/03/2026            450,00  ROSSI GIULIA
kept          2      2  31/03/2026            380,50  BIANCHI MARCO
kept          3      3  31/03/2026          1.000,00  VERDI ANNA
";
    let totals = "\
requests                         5                     4                    -1
total                     1.834,00              1.831,50                 -2,50
";
    let counts = "1 request dropped, 1 changed, 1 moved, 2 kept";
    let ended = folder.run(&["diff", "--all", "a.flow", "b.flow"]);
    differs(&ended, &due(rows, counts, totals));
}

#[test]
fn each_of_forty_withdrawn_is_the_one_that_is_dropped() {
    let flow = sample("forty-rents.flow");
    for k in 1..=40 {
        let folder = evenings(&flow, &amended(&flow, &[withdraw(k)]));
        let ended = folder.run(&["diff", "a.flow", "b.flow"]);
        let cents = 30_000 + 1_250 * k;
        let amount = format!("{},{:02}", cents / 100, cents % 100);
        // The row of `show` without its reference, and with the word in front.
        let shown = student(k);
        let row = format!(
            "dropped {:>7}         {}\n",
            k,
            shown[9..].rsplit_once("  ").unwrap().0.trim_end()
        );
        let left = 2_225_000 - cents;
        let total = format!(
            "{}.{:03},{:02}",
            left / 100_000,
            left / 100 % 1_000,
            left % 100
        );
        let totals = format!(
            "requests                        40                    39                    -1\n\
             total                    22.250,00{total:>22}{:>22}\n",
            format!("-{amount}")
        );
        differs(&ended, &due(&row, "1 request dropped, 39 kept", &totals));
    }
}

#[test]
fn an_amendment_of_forty_is_the_one_that_is_shown() {
    let flow = sample("forty-rents.flow");
    let new = amended(&flow, &[change(17, 60_000), withdraw(3), withdraw(39)]);
    // 17 has 512,50 euro, 3 has 337,50, and 39 was 40 before 3 went, with 800,00.
    let rows = "\
dropped       3         31/03/2026            337,50  STUDENTE 03
dropped      40         31/03/2026            800,00  STUDENTE 40
changed      17         31/03/2026            512,50  STUDENTE 17
    now             16                        600,00
";
    let totals = "\
requests                        40                    38                    -2
total                    22.250,00             21.200,00             -1.050,00
";
    let ended = evenings(&flow, &new).run(&["diff", "a.flow", "b.flow"]);
    let counts = "2 requests dropped, 1 changed, 37 kept";
    differs(&ended, &due(rows, counts, totals));
}

#[test]
fn recalls_are_compared_with_recalls() {
    let sent = sample("two-rents.flow");
    let folder = Folder::with(&["two-rents-recall.flow"]);
    let one = recalled(&sent, &[2], "170326", "RECALL-MARCH");
    fs::write(folder.path("one.flow"), &one).unwrap();
    differs(
        &folder.run(&["diff", "two-rents-recall.flow", "one.flow"]),
        "\
BEFORE  two-rents-recall.flow: recalls of AB123, 15/03/2026, RENT-MARCH
AFTER   one.flow: recalls of AB123, 17/03/2026, RECALL-MARCH

         BEFORE  AFTER  DUE                   AMOUNT  DEBTOR
dropped       1         31/03/2026            450,00  ROSSI GIULIA

1 recall dropped, 1 kept.

                            BEFORE                 AFTER            DIFFERENCE
recalls                          2                     1                    -1
total                       830,50                380,50               -450,00
",
    );
}

/// The two could not be compared: this is told, with status 2, and both files are as they were.
#[track_caller]
fn not_compared(folder: &Folder, old: &str, new: &str, told: &str) {
    let before: Vec<(String, Vec<u8>)> = folder
        .names()
        .into_iter()
        .map(|name| (name.clone(), folder.read(&name)))
        .collect();
    let ended = folder.run(&["diff", old, new]);
    ended.failed(2, &format!("mavdesk: {told}\n"));
    let before: Vec<(&str, &[u8])> = before
        .iter()
        .map(|(name, bytes)| (&name[..], &bytes[..]))
        .collect();
    left(folder, &before);
}

#[test]
fn requests_and_recalls_are_not_compared() {
    let folder = Folder::with(&["two-rents.flow", "two-rents-recall.flow"]);
    let refusal = "refused 28: a flow of requests and one of recalls cannot be compared";
    not_compared(
        &folder,
        "two-rents.flow",
        "two-rents-recall.flow",
        &format!(
            "two-rents.flow and two-rents-recall.flow: {refusal}; two-rents.flow has requests, and \
             two-rents-recall.flow has recalls."
        ),
    );
    not_compared(
        &folder,
        "two-rents-recall.flow",
        "two-rents.flow",
        &format!(
            "two-rents-recall.flow and two-rents.flow: {refusal}; two-rents-recall.flow has recalls, and \
             two-rents.flow has requests."
        ),
    );
}

/// What every command tells of these two refused samples.
fn block_twice() -> String {
    let flow = sample("refused-09-block-twice.flow");
    let drawn = drawn(record(&flow, 9), 4);
    format!(
        "refused-09-block-twice.flow: refused 9 at record 9, position 4: the disposition number is not the \
         one due here.\nRecord 9 of 23:\n{}",
        drawn.trim_end()
    )
}

const CUT: &str =
    "refused-01-length.flow: refused 1: the flow is empty, is not whole records of 120 bytes, \
                   or is too long.\nIt has 1.919 bytes: 15 records, and 119 bytes more.";

#[test]
fn a_refused_flow_is_told_as_by_the_other_commands_and_the_old_one_first() {
    let twice = "refused-09-block-twice.flow";
    let cut = "refused-01-length.flow";
    let folder = Folder::with(&["two-rents.flow", "two-rents-recall.flow", twice, cut]);
    not_compared(&folder, twice, "two-rents.flow", &block_twice());
    not_compared(&folder, "two-rents.flow", twice, &block_twice());
    not_compared(&folder, cut, "two-rents.flow", CUT);
    not_compared(&folder, "two-rents.flow", cut, CUT);
    // Of two refused ones the old one is told, and a refused one before what the two are.
    not_compared(&folder, twice, cut, &block_twice());
    not_compared(&folder, cut, twice, CUT);
    not_compared(&folder, twice, twice, &block_twice());
    not_compared(&folder, "two-rents-recall.flow", twice, &block_twice());
    // The same words, but for the status, as `show` has.
    let shown = folder.run(&["show", twice]);
    assert_eq!(shown.err, format!("mavdesk: {}\n", block_twice()));
    assert_eq!(shown.status, Some(1));
}

#[test]
fn a_file_that_cannot_be_read_is_told() {
    let folder = Folder::with(&["two-rents.flow"]);
    fs::write(folder.path("empty.flow"), b"").unwrap();
    let missing = |name: &str| format!("{name} cannot be read: there is no such file.");
    not_compared(&folder, "a.flow", "two-rents.flow", &missing("a.flow"));
    not_compared(&folder, "two-rents.flow", "b.flow", &missing("b.flow"));
    not_compared(&folder, "a.flow", "b.flow", &missing("a.flow"));
    not_compared(
        &folder,
        "two-rents.flow",
        ".",
        ". cannot be read: it is a folder, and a file is due.",
    );
    not_compared(
        &folder,
        "empty.flow",
        "two-rents.flow",
        "empty.flow: refused 1: the flow is empty, is not whole records of 120 bytes, or is too long.\n\
         It has 0 bytes: 0 records, and 0 bytes more.",
    );
    // A hyphen is a file's name here, as for the other commands.
    not_compared(&folder, "-", "two-rents.flow", &missing("-"));
}

#[test]
fn a_flow_above_the_ceiling_is_told_without_being_read() {
    let folder = Folder::with(&["two-rents.flow"]);
    let long = fs::File::create(folder.path("long.flow")).unwrap();
    long.set_len(1_200_000_000).unwrap();
    for words in [
        ["diff", "long.flow", "two-rents.flow"],
        ["diff", "two-rents.flow", "long.flow"],
    ] {
        run_limited(&folder, "ulimit -v 500000", &words).failed(
            2,
            "mavdesk: long.flow is not read: it has 1.200.000.000 bytes, and the longest flow has \
             1.199.999.880.\n",
        );
    }
}

#[test]
fn a_file_that_may_not_be_read_is_told_and_one_that_may_only_be_read_is_compared() {
    let folder = Folder::with(&["last-night.flow", "tonight.flow"]);
    let mode = |name: &str, mode| {
        fs::set_permissions(folder.path(name), Permissions::from_mode(mode)).unwrap();
    };
    mode("last-night.flow", 0o444);
    mode("tonight.flow", 0o444);
    mode(".", 0o555);
    let words = ["diff", "last-night.flow", "tonight.flow"];
    let ended = run_as_clerk(&folder, ":", &words);
    mode("tonight.flow", 0);
    let unread = run_as_clerk(&folder, ":", &words);
    mode(".", 0o755);
    differs(&ended, &format!("{LAST_NIGHT}{TONIGHT}"));
    unread.failed(
        2,
        "mavdesk: tonight.flow cannot be read: there is no permission.\n",
    );
    assert_eq!(folder.names(), ["last-night.flow", "tonight.flow"]);
}

/// So many rents of different debtors, the first with this number.
fn tenants(first: usize, count: usize) -> Vec<Rent> {
    let tenant = |number: usize| Rent::of(&format!("TENANT {number:04}"), number as u64);
    (first..first + count).map(tenant).collect()
}

#[test]
fn two_hundred_and_fifty_six_are_compared_with_as_many() {
    let (old, new) = (tenants(1, 256), tenants(257, 256));
    let folder = evenings(&flow(&old), &flow(&new));
    let mut rows = String::new();
    for number in 1..=256 {
        let amount = format!("{},{:02}", number / 100, number % 100);
        rows +=
            &format!("dropped {number:>7}         31/03/2026 {amount:>17}  TENANT {number:04}\n");
    }
    for number in 1..=256 {
        let tenant = 256 + number;
        let amount = format!("{},{:02}", tenant / 100, tenant % 100);
        rows +=
            &format!("added          {number:>7}  31/03/2026 {amount:>17}  TENANT {tenant:04}\n");
    }
    // The numbers from 1 to 256 are 32.896 cents, and 256 times 256 more are 65.536 more.
    let totals = "\
requests                       256                   256                     0
total                       328,96                984,32               +655,36
";
    let began = Instant::now();
    let ended = folder.run(&["diff", "a.flow", "b.flow"]);
    assert!(began.elapsed() < Duration::from_secs(5));
    let counts = "256 requests dropped, 256 added, 0 kept";
    differs(&ended, &due(&rows, counts, totals));
}

#[test]
fn two_hundred_and_fifty_six_that_all_stand_the_other_way_round_are_moved() {
    let old = tenants(1, 256);
    let mut new = old.clone();
    new.reverse();
    let folder = evenings(&flow(&old), &flow(&new));
    let ended = folder.run(&["diff", "a.flow", "b.flow"]);
    // Any one of them can be kept; the rule drops as long as it can, and keeps the last.
    let mut rows = String::new();
    for number in 1..256 {
        let amount = format!("{},{:02}", number / 100, number % 100);
        let after = 257 - number;
        rows += &format!(
            "moved   {number:>7}{after:>7}  31/03/2026 {amount:>17}  TENANT {number:04}\n"
        );
    }
    let totals = "\
requests                       256                   256                     0
total                       328,96                328,96                  0,00
";
    differs(&ended, &due(&rows, "255 requests moved, 1 kept", totals));
}

#[test]
fn more_than_256_are_not_compared_and_it_is_told_what_can_be_done() {
    let (one, many) = (flow(&tenants(1, 1)), flow(&tenants(1, 257)));
    let refusal = "refused 27: flows of more than 256 dispositions cannot be compared";
    let advice =
        "Compare the flows house by house, or look for single requests with mavdesk show FILE \
                  --find TEXT.";
    let told = |old: &str, new: &str| {
        format!("a.flow and b.flow: {refusal}; a.flow has {old}, and b.flow has {new}.\n{advice}")
    };
    for (old, new, due) in [
        (&many, &one, told("257 requests", "1 request")),
        (&one, &many, told("1 request", "257 requests")),
        (&many, &many, told("257 requests", "257 requests")),
        (
            &flow(&tenants(1, 1_200)),
            &sample("two-rents-recall.flow"),
            told("1.200 requests", "2 recalls"),
        ),
    ] {
        not_compared(&evenings(old, new), "a.flow", "b.flow", &due);
    }
}

#[test]
fn the_largest_totals_fit_their_columns() {
    // A hundred times 99.999.999.999,99 euro and 99 cents are 9.999.999.999.999,99.
    let mut old = vec![rossi().cents(9_999_999_999_999); 100];
    old.push(rossi().cents(99));
    let ended = compared(&old, &[rossi().cents(99)]);
    assert_eq!(ended.status, Some(1));
    let totals = "\
100 requests dropped, 1 kept.

                            BEFORE                 AFTER            DIFFERENCE
requests                       101                     1                  -100
total         9.999.999.999.999,99                  0,99 -9.999.999.999.999,00
";
    assert!(ended.out.ends_with(totals), "{}", ended.out);
    assert!(ended.out.lines().all(|line| line.len() <= 80));
}

#[test]
fn a_flow_is_read_from_a_pipe_too() {
    let folder = Folder::with(&["last-night.flow", "tonight.flow"]);
    let text = |name| String::from_utf8(sample(name)).unwrap();
    let words = ["diff", "/dev/stdin", "tonight.flow"];
    let due = format!("{LAST_NIGHT}{TONIGHT}");
    differs(
        &folder.answer(&words, &text("last-night.flow")),
        &due.replacen("last-night.flow", "/dev/stdin", 1),
    );
    let words = ["diff", "last-night.flow", "/dev/stdin"];
    differs(
        &folder.answer(&words, &text("tonight.flow")),
        &due.replacen("tonight.flow", "/dev/stdin", 1),
    );
}

#[test]
fn links_and_names_that_move_the_cursor_are_no_hindrance() {
    let folder = Folder::with(&["two-rents.flow"]);
    symlink("two-rents.flow", folder.path("a\u{1b}[2J\n")).unwrap();
    folder.run(&["diff", "a\u{1b}[2J\n", "two-rents.flow"]).printed(
        "No request differs: a\\u{1b}[2J\\n and two-rents.flow both have 2 requests, 830,50 euro.\n",
    );
    folder.run(&["diff", "two-rents.flow", "b\u{7}"]).failed(
        2,
        "mavdesk: b\\u{7} cannot be read: there is no such file.\n",
    );
    assert!(Path::new(&folder.path("two-rents.flow")).is_file());
}

#[test]
fn words_that_do_not_fit_have_status_2() {
    let folder = Folder::with(&["two-rents.flow"]);
    let form = "mavdesk: the words do not fit mavdesk diff [--all] OLD NEW as it is used.\n";
    for words in [
        &["diff"][..],
        &["diff", "--all"],
        &["diff", "two-rents.flow"],
        &["diff", "--all", "two-rents.flow"],
        &["diff", "two-rents.flow", "two-rents.flow", "two-rents.flow"],
        &["diff", "--", "--all", "two-rents.flow", "two-rents.flow"],
    ] {
        folder.run(words).failed(2, form);
    }
    for (option, told) in [
        ("--yes", "--yes"),
        ("--find", "--find"),
        ("--all=1", "--all=1"),
    ] {
        folder
            .run(&["diff", "two-rents.flow", "two-rents.flow", option])
            .failed(2, &format!("mavdesk: diff has no option {told}.\n"));
    }
}

#[test]
fn a_reader_that_has_gone_ends_it_in_silence_and_not_as_one_that_differs() {
    let folder = Folder::with(&["last-night.flow", "tonight.flow"]);
    for words in [
        &["diff", "last-night.flow", "tonight.flow"][..],
        &["diff", "tonight.flow", "tonight.flow"],
    ] {
        let (reader, writer) = pipe().unwrap();
        drop(reader);
        let mut command = folder.command(words);
        command.stdin(Stdio::null()).stdout(writer);
        Ended::of(command.output().unwrap()).failed(2, "");
    }
}

#[test]
fn numbers_27_28_and_34_are_explained() {
    let folder = Folder::new();
    for (number, due) in [
        (
            "27",
            "27  flows of more than 256 dispositions cannot be compared
    Place: none.
    Compare smaller flows, such as those of single houses.
",
        ),
        (
            "28",
            "28  a flow of requests and one of recalls cannot be compared
    Place: none.
    Compare requests with requests, and recalls with recalls.
",
        ),
        (
            "34",
            "34  there is not enough working memory for a comparison
    Place: none.
    Programs that use the library see it. mavdesk has enough of it.
",
        ),
    ] {
        folder.run(&["explain", number]).printed(due);
    }
}
