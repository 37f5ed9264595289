//! The cases of `oracle vectors list`, against literal answers from documents 01
//! and 02 (E1, E4, E5), and against a second statement of what a list encodes and a flow
//! carries.
//!
//! What the lines would catch:
//! - a carried part that begins or ends at another position, a body of another
//!   length, parts in another order: "distinct bytes", "byte .. in .. at ..",
//!   "unchecked bytes distinct" and the cut bodies;
//! - a number that counts items or starts at 0, an ABI from elsewhere, a fixed
//!   value at another place, a trailer that is short of a field: every written flow;
//! - 20 looked for on the way instead of first, an item's number from 0, 21 after
//!   the reader's refusals, 17 before them: the cases at several rooms and
//!   those with two faults;
//! - a room taken a byte too long or too short, bytes written after the length,
//!   output written before the refusal: the number of bytes kept;
//! - a refusal of the list's place instead of the record's: the refused values;
//! - an amount of zero written, or its refusal out of its place: the cases of 25;
//! - company codes on some D written, or the refusal at another D than the first
//!   that differs: the codes;
//! - a flow called canonical that is not, or the reverse: the round trips;
//! - a Q taken for an H or for no kind, a recall with causale, sign or total of
//!   a request, a list read back from recalls that opens with H: the recalls.

mod common;

use std::collections::HashSet;

use common::*;
use oracle::list_cases::{cases, Asked};
use oracle::vectors::list_files;

/// A case's name, then each line that asks with the line due: of a refused call
/// the answer, of an accepted one the answer and the length, of a round trip all.
type Due = (&'static str, &'static [(&'static str, &'static str)]);

/// The cases in the order of the file, but those of one byte that is no kind.
#[rustfmt::skip]
static DUE: [Due; 540] = [
    ("two rents", &[
        (">0", "refused 21 record 0 position 0"),
        (">1", "refused 21 record 0 position 0"),
        (">119", "refused 21 record 0 position 0"),
        (">120", "refused 21 record 0 position 0"),
        (">1800", "refused 21 record 0 position 0"),
        (">1919", "refused 21 record 0 position 0"),
        (">1920", "accepted dispositions 2 cents 83050 records 16 kind requests length 1920"),
        (">1921", "accepted dispositions 2 cents 83050 records 16 kind requests length 1920"),
        (">2039", "accepted dispositions 2 cents 83050 records 16 kind requests length 1920"),
        (">2040", "accepted dispositions 2 cents 83050 records 16 kind requests length 1920"),
        (">3000", "accepted dispositions 2 cents 83050 records 16 kind requests length 1920"),
        ("><", "there 1920 back 1236 same"),
        (">131008", "accepted dispositions 2 cents 83050 records 16 kind requests length 1920"),
    ]),
    ("one rent", &[
        (">1080", "accepted dispositions 1 cents 45000 records 9 kind requests length 1080"),
        ("><", "there 1080 back 643 same"),
    ]),
    ("one rent with S and X", &[
        (">1200", "accepted dispositions 1 cents 45000 records 10 kind requests length 1200"),
        ("><", "there 1200 back 671 same"),
    ]),
    ("distinct bytes, S and X then R", &[
        (">2160", "accepted dispositions 2 cents 2469135780246 records 18 kind requests length 2160"),
        ("><", "there 2160 back 1375 same"),
    ]),
    ("distinct bytes, five X", &[
        (">1560", "accepted dispositions 1 cents 1234567890123 records 13 kind requests length 1560"),
        ("><", "there 1560 back 1087 same"),
    ]),
    ("every byte from 32 to 126", &[
        (">1080", "accepted dispositions 1 cents 45000 records 9 kind requests length 1080"),
        ("><", "there 1080 back 643 same"),
    ]),
    ("empty list", &[
        (">0", "refused 21 record 0 position 0"),
        (">1", "refused 21 record 0 position 0"),
        (">119", "refused 21 record 0 position 0"),
        (">120", "refused 3 record 1 position 2"),
        (">121", "refused 3 record 1 position 2"),
        (">240", "refused 3 record 1 position 2"),
        (">1000", "refused 3 record 1 position 2"),
    ]),
    ("kind 69 first", &[(">1200", "refused 20 record 1 position 0")]),
    ("kind 69 second", &[(">1200", "refused 20 record 2 position 0")]),
    ("kind 69 in the middle", &[(">1200", "refused 20 record 5 position 0")]),
    ("kind 69 last", &[(">1200", "refused 20 record 9 position 0")]),
    ("kind 104 first", &[(">1200", "refused 20 record 1 position 0")]),
    ("kind 104 second", &[(">1200", "refused 20 record 2 position 0")]),
    ("kind 104 in the middle", &[(">1200", "refused 20 record 5 position 0")]),
    ("kind 104 last", &[(">1200", "refused 20 record 9 position 0")]),
    // Q takes the next 49 bytes for its body, and a blank for the next kind.
    ("kind 81 first", &[(">1200", "refused 20 record 2 position 0")]),
    ("kind 81 second", &[(">1200", "refused 20 record 3 position 0")]),
    ("kind 81 in the middle", &[(">1200", "refused 20 record 6 position 0")]),
    ("kind 81 last", &[(">1200", "refused 20 record 9 position 0")]),
    ("kind 32 first", &[(">1200", "refused 20 record 1 position 0")]),
    ("kind 32 second", &[(">1200", "refused 20 record 2 position 0")]),
    ("kind 32 in the middle", &[(">1200", "refused 20 record 5 position 0")]),
    ("kind 32 last", &[(">1200", "refused 20 record 9 position 0")]),
    ("kind 0 first", &[(">1200", "refused 20 record 1 position 0")]),
    ("kind 0 second", &[(">1200", "refused 20 record 2 position 0")]),
    ("kind 0 in the middle", &[(">1200", "refused 20 record 5 position 0")]),
    ("kind 0 last", &[(">1200", "refused 20 record 9 position 0")]),
    ("a line feed behind each item", &[(">4000", "refused 20 record 2 position 0")]),
    ("a line feed at the end", &[
        (">1080", "refused 20 record 9 position 0"),
        (">4000", "refused 20 record 9 position 0"),
    ]),
    ("H cut by one byte", &[(">240", "refused 20 record 1 position 0")]),
    ("H cut by half of it", &[(">240", "refused 20 record 1 position 0")]),
    ("H cut by its body", &[(">240", "refused 20 record 1 position 0")]),
    ("Q cut by one byte", &[(">240", "refused 20 record 1 position 0")]),
    ("Q cut by half of it", &[(">240", "refused 20 record 1 position 0")]),
    ("Q cut by its body", &[(">240", "refused 20 record 1 position 0")]),
    ("D cut by one byte", &[(">360", "refused 20 record 2 position 0")]),
    ("D cut by half of it", &[(">360", "refused 20 record 2 position 0")]),
    ("D cut by its body", &[(">360", "refused 20 record 2 position 0")]),
    ("S cut by one byte", &[(">480", "refused 20 record 3 position 0")]),
    ("S cut by half of it", &[(">480", "refused 20 record 3 position 0")]),
    ("S cut by its body", &[(">480", "refused 20 record 3 position 0")]),
    ("C cut by one byte", &[(">480", "refused 20 record 3 position 0")]),
    ("C cut by half of it", &[(">480", "refused 20 record 3 position 0")]),
    ("C cut by its body", &[(">480", "refused 20 record 3 position 0")]),
    ("B cut by one byte", &[(">600", "refused 20 record 4 position 0")]),
    ("B cut by half of it", &[(">600", "refused 20 record 4 position 0")]),
    ("B cut by its body", &[(">600", "refused 20 record 4 position 0")]),
    ("A cut by one byte", &[(">720", "refused 20 record 5 position 0")]),
    ("A cut by half of it", &[(">720", "refused 20 record 5 position 0")]),
    ("A cut by its body", &[(">720", "refused 20 record 5 position 0")]),
    ("R cut by one byte", &[(">840", "refused 20 record 6 position 0")]),
    ("R cut by half of it", &[(">840", "refused 20 record 6 position 0")]),
    ("R cut by its body", &[(">840", "refused 20 record 6 position 0")]),
    ("X cut by one byte", &[(">840", "refused 20 record 6 position 0")]),
    ("X cut by half of it", &[(">840", "refused 20 record 6 position 0")]),
    ("X cut by its body", &[(">840", "refused 20 record 6 position 0")]),
    ("K cut by one byte", &[(">960", "refused 20 record 7 position 0")]),
    ("K cut by half of it", &[(">960", "refused 20 record 7 position 0")]),
    ("K cut by its body", &[(">960", "refused 20 record 7 position 0")]),
    ("Z cut by one byte", &[(">1080", "refused 20 record 8 position 0")]),
    ("Z cut by half of it", &[(">1080", "refused 20 record 8 position 0")]),
    ("Z cut by its body", &[(">1080", "refused 20 record 8 position 0")]),
    ("H a byte short", &[(">1920", "refused 20 record 2 position 0")]),
    ("H a byte long", &[(">1920", "refused 20 record 2 position 0")]),
    ("D a byte short", &[(">1920", "refused 20 record 4 position 0")]),
    ("D a byte long", &[(">1920", "refused 20 record 3 position 0")]),
    ("C a byte short", &[(">1920", "refused 20 record 5 position 0")]),
    ("C a byte long", &[(">1920", "refused 20 record 4 position 0")]),
    ("B a byte short", &[(">1920", "refused 20 record 5 position 0")]),
    ("B a byte long", &[(">1920", "refused 20 record 5 position 0")]),
    ("A a byte short", &[(">1920", "refused 20 record 7 position 0")]),
    ("A a byte long", &[(">1920", "refused 20 record 6 position 0")]),
    ("Z a byte short", &[(">1920", "refused 20 record 9 position 0")]),
    ("Z a byte long", &[(">1920", "refused 20 record 9 position 0")]),
    ("Q a byte short", &[(">1920", "refused 20 record 2 position 0")]),
    ("Q a byte long", &[(">1920", "refused 20 record 2 position 0")]),
    ("20 at the end, 7 in H", &[
        (">0", "refused 20 record 15 position 0"),
        (">119", "refused 20 record 15 position 0"),
        (">1800", "refused 20 record 15 position 0"),
        (">1920", "refused 20 record 15 position 0"),
        (">3000", "refused 20 record 15 position 0"),
    ]),
    ("20 behind the end, 7 in H", &[
        (">0", "refused 20 record 16 position 0"),
        (">119", "refused 20 record 16 position 0"),
        (">1800", "refused 20 record 16 position 0"),
        (">1920", "refused 20 record 16 position 0"),
        (">3000", "refused 20 record 16 position 0"),
    ]),
    ("20 behind 2 and 3", &[
        (">0", "refused 20 record 3 position 0"),
        (">480", "refused 20 record 3 position 0"),
    ]),
    ("20 twice", &[
        (">0", "refused 20 record 1 position 0"),
        (">480", "refused 20 record 1 position 0"),
    ]),
    ("20 behind 36 items", &[(">4440", "refused 20 record 37 position 0")]),
    ("20 at the end, 25 in D", &[
        (">0", "refused 20 record 8 position 0"),
        (">1080", "refused 20 record 8 position 0"),
    ]),
    ("20 at the end, 11 in D", &[
        (">0", "refused 20 record 9 position 0"),
        (">1200", "refused 20 record 9 position 0"),
    ]),
    ("7 in H, at several rooms", &[
        (">0", "refused 21 record 0 position 0"),
        (">1079", "refused 21 record 0 position 0"),
        (">1080", "refused 7 record 1 position 4"),
        (">1081", "refused 7 record 1 position 4"),
    ]),
    ("2 in Z, at several rooms", &[
        (">0", "refused 21 record 0 position 0"),
        (">1079", "refused 21 record 0 position 0"),
        (">1080", "refused 2 record 8 position 120"),
        (">1081", "refused 2 record 8 position 120"),
    ]),
    ("25 in D, at several rooms", &[
        (">0", "refused 21 record 0 position 0"),
        (">1079", "refused 21 record 0 position 0"),
        (">1080", "refused 25 record 2 position 34"),
        (">1081", "refused 25 record 2 position 34"),
    ]),
    ("11 in D, at several rooms", &[
        (">0", "refused 21 record 0 position 0"),
        (">1919", "refused 21 record 0 position 0"),
        (">1920", "refused 11 record 9 position 92"),
        (">1921", "refused 11 record 9 position 92"),
    ]),
    ("H alone, at several rooms", &[
        (">0", "refused 21 record 0 position 0"),
        (">120", "refused 21 record 0 position 0"),
        (">239", "refused 21 record 0 position 0"),
        (">240", "refused 3 record 2 position 2"),
        (">241", "refused 3 record 2 position 2"),
    ]),
    ("D alone, at several rooms", &[
        (">0", "refused 21 record 0 position 0"),
        (">120", "refused 21 record 0 position 0"),
        (">239", "refused 21 record 0 position 0"),
        (">240", "refused 3 record 1 position 2"),
        (">241", "refused 3 record 1 position 2"),
    ]),
    ("two X", &[(">1200", "accepted dispositions 1 cents 45000 records 10 kind requests length 1200")]),
    ("three X", &[(">1320", "accepted dispositions 1 cents 45000 records 11 kind requests length 1320")]),
    ("four X", &[(">1440", "accepted dispositions 1 cents 45000 records 12 kind requests length 1440")]),
    ("five X", &[(">1560", "accepted dispositions 1 cents 45000 records 13 kind requests length 1560")]),
    ("S and five X", &[(">1680", "accepted dispositions 1 cents 45000 records 14 kind requests length 1680")]),
    ("S and R", &[(">1200", "accepted dispositions 1 cents 45000 records 10 kind requests length 1200")]),
    ("six X", &[(">1680", "refused 3 record 11 position 2")]),
    ("S and six X", &[(">1800", "refused 3 record 12 position 2")]),
    ("R after X", &[(">1200", "refused 3 record 7 position 2")]),
    ("X after R", &[(">1200", "refused 3 record 7 position 2")]),
    ("R twice", &[(">1200", "refused 3 record 7 position 2")]),
    ("no R and no X", &[(">960", "refused 3 record 6 position 2")]),
    ("K before R", &[(">1080", "refused 3 record 6 position 2")]),
    ("X before and after K", &[(">1200", "refused 3 record 8 position 2")]),
    ("S twice", &[(">1320", "refused 3 record 4 position 2")]),
    ("S after C", &[(">1200", "refused 3 record 4 position 2")]),
    ("S before D", &[(">1200", "refused 3 record 2 position 2")]),
    ("C and B swapped", &[(">1080", "refused 3 record 3 position 2")]),
    ("B and A swapped", &[(">1080", "refused 3 record 4 position 2")]),
    ("A and R swapped", &[(">1080", "refused 3 record 5 position 2")]),
    ("K and Z swapped", &[(">1080", "refused 3 record 7 position 2")]),
    ("H twice", &[(">1200", "refused 3 record 2 position 2")]),
    ("H inside a disposition", &[(">1200", "refused 3 record 5 position 2")]),
    ("H between dispositions", &[(">2040", "refused 3 record 9 position 2")]),
    ("two whole lists", &[(">2880", "refused 3 record 16 position 2")]),
    ("D before H", &[(">1080", "refused 3 record 1 position 2")]),
    ("no H", &[(">960", "refused 3 record 1 position 2")]),
    ("H and Z", &[(">360", "refused 3 record 2 position 2")]),
    ("D twice", &[(">1200", "refused 3 record 3 position 2")]),
    ("no Z", &[(">960", "refused 3 record 8 position 2")]),
    ("no K and no Z", &[(">840", "refused 3 record 7 position 2")]),
    ("no Z in the first disposition", &[(">1800", "refused 3 record 8 position 2")]),
    ("no Z in the second disposition", &[(">1800", "refused 3 record 15 position 2")]),
    ("the second D alone", &[(">1200", "refused 3 record 10 position 2")]),
    ("S at the end", &[(">480", "refused 3 record 4 position 2")]),
    ("ends inside the third disposition", &[(">2160", "refused 3 record 18 position 2")]),
    ("H with another ABI between dispositions", &[(">1440", "refused 3 record 9 position 2")]),
    ("H with another ABI behind the first", &[(">1200", "refused 3 record 2 position 2")]),
    ("another H at the end", &[(">1320", "refused 3 record 10 position 2")]),
    ("ends with H alone", &[(">240", "refused 3 record 2 position 2")]),
    ("ends with D alone", &[(">240", "refused 3 record 1 position 2")]),
    ("ends with S alone", &[(">240", "refused 3 record 1 position 2")]),
    ("ends with C alone", &[(">240", "refused 3 record 1 position 2")]),
    ("ends with B alone", &[(">240", "refused 3 record 1 position 2")]),
    ("ends with A alone", &[(">240", "refused 3 record 1 position 2")]),
    ("ends with R alone", &[(">240", "refused 3 record 1 position 2")]),
    ("ends with X alone", &[(">240", "refused 3 record 1 position 2")]),
    ("ends with K alone", &[(">240", "refused 3 record 1 position 2")]),
    ("ends with Z alone", &[(">240", "refused 3 record 1 position 2")]),
    ("ends with Q alone", &[(">240", "refused 3 record 2 position 2")]),
    ("ends with H after H", &[(">360", "refused 3 record 2 position 2")]),
    ("ends with S after H", &[(">360", "refused 3 record 2 position 2")]),
    ("ends with C after H", &[(">360", "refused 3 record 2 position 2")]),
    ("ends with B after H", &[(">360", "refused 3 record 2 position 2")]),
    ("ends with A after H", &[(">360", "refused 3 record 2 position 2")]),
    ("ends with R after H", &[(">360", "refused 3 record 2 position 2")]),
    ("ends with X after H", &[(">360", "refused 3 record 2 position 2")]),
    ("ends with K after H", &[(">360", "refused 3 record 2 position 2")]),
    ("ends with Z after H", &[(">360", "refused 3 record 2 position 2")]),
    ("ends with Q after H", &[(">360", "refused 3 record 2 position 2")]),
    ("ends with H after Q", &[(">360", "refused 3 record 2 position 2")]),
    ("ends with S after Q", &[(">360", "refused 3 record 2 position 2")]),
    ("ends with C after Q", &[(">360", "refused 3 record 2 position 2")]),
    ("ends with Z after Q", &[(">360", "refused 3 record 2 position 2")]),
    ("ends with Q after Q", &[(">360", "refused 3 record 2 position 2")]),
    ("ends with H after D", &[(">480", "refused 3 record 3 position 2")]),
    ("ends with D after D", &[(">480", "refused 3 record 3 position 2")]),
    ("ends with B after D", &[(">480", "refused 3 record 3 position 2")]),
    ("ends with A after D", &[(">480", "refused 3 record 3 position 2")]),
    ("ends with R after D", &[(">480", "refused 3 record 3 position 2")]),
    ("ends with X after D", &[(">480", "refused 3 record 3 position 2")]),
    ("ends with K after D", &[(">480", "refused 3 record 3 position 2")]),
    ("ends with Z after D", &[(">480", "refused 3 record 3 position 2")]),
    ("ends with Q after D", &[(">480", "refused 3 record 3 position 2")]),
    ("ends with H after S", &[(">600", "refused 3 record 4 position 2")]),
    ("ends with D after S", &[(">600", "refused 3 record 4 position 2")]),
    ("ends with S after S", &[(">600", "refused 3 record 4 position 2")]),
    ("ends with B after S", &[(">600", "refused 3 record 4 position 2")]),
    ("ends with A after S", &[(">600", "refused 3 record 4 position 2")]),
    ("ends with R after S", &[(">600", "refused 3 record 4 position 2")]),
    ("ends with X after S", &[(">600", "refused 3 record 4 position 2")]),
    ("ends with K after S", &[(">600", "refused 3 record 4 position 2")]),
    ("ends with Z after S", &[(">600", "refused 3 record 4 position 2")]),
    ("ends with D after C", &[(">600", "refused 3 record 4 position 2")]),
    ("ends with S after C", &[(">600", "refused 3 record 4 position 2")]),
    ("ends with C after C", &[(">600", "refused 3 record 4 position 2")]),
    ("ends with A after C", &[(">600", "refused 3 record 4 position 2")]),
    ("ends with R after C", &[(">600", "refused 3 record 4 position 2")]),
    ("ends with X after C", &[(">600", "refused 3 record 4 position 2")]),
    ("ends with K after C", &[(">600", "refused 3 record 4 position 2")]),
    ("ends with Z after C", &[(">600", "refused 3 record 4 position 2")]),
    ("ends with D after B", &[(">720", "refused 3 record 5 position 2")]),
    ("ends with S after B", &[(">720", "refused 3 record 5 position 2")]),
    ("ends with C after B", &[(">720", "refused 3 record 5 position 2")]),
    ("ends with B after B", &[(">720", "refused 3 record 5 position 2")]),
    ("ends with R after B", &[(">720", "refused 3 record 5 position 2")]),
    ("ends with X after B", &[(">720", "refused 3 record 5 position 2")]),
    ("ends with K after B", &[(">720", "refused 3 record 5 position 2")]),
    ("ends with Z after B", &[(">720", "refused 3 record 5 position 2")]),
    ("ends with D after A", &[(">840", "refused 3 record 6 position 2")]),
    ("ends with S after A", &[(">840", "refused 3 record 6 position 2")]),
    ("ends with C after A", &[(">840", "refused 3 record 6 position 2")]),
    ("ends with B after A", &[(">840", "refused 3 record 6 position 2")]),
    ("ends with A after A", &[(">840", "refused 3 record 6 position 2")]),
    ("ends with K after A", &[(">840", "refused 3 record 6 position 2")]),
    ("ends with Z after A", &[(">840", "refused 3 record 6 position 2")]),
    ("ends with D after R", &[(">960", "refused 3 record 7 position 2")]),
    ("ends with A after R", &[(">960", "refused 3 record 7 position 2")]),
    ("ends with R after R", &[(">960", "refused 3 record 7 position 2")]),
    ("ends with X after R", &[(">960", "refused 3 record 7 position 2")]),
    ("ends with Z after R", &[(">960", "refused 3 record 7 position 2")]),
    ("ends with D after K", &[(">1080", "refused 3 record 8 position 2")]),
    ("ends with R after K", &[(">1080", "refused 3 record 8 position 2")]),
    ("ends with X after K", &[(">1080", "refused 3 record 8 position 2")]),
    ("ends with K after K", &[(">1080", "refused 3 record 8 position 2")]),
    ("ends with H after Z", &[(">1200", "refused 3 record 9 position 2")]),
    ("ends with S after Z", &[(">1200", "refused 3 record 9 position 2")]),
    ("ends with C after Z", &[(">1200", "refused 3 record 9 position 2")]),
    ("ends with B after Z", &[(">1200", "refused 3 record 9 position 2")]),
    ("ends with A after Z", &[(">1200", "refused 3 record 9 position 2")]),
    ("ends with R after Z", &[(">1200", "refused 3 record 9 position 2")]),
    ("ends with X after Z", &[(">1200", "refused 3 record 9 position 2")]),
    ("ends with K after Z", &[(">1200", "refused 3 record 9 position 2")]),
    ("ends with Z after Z", &[(">1200", "refused 3 record 9 position 2")]),
    ("ends with Q after Z", &[(">1200", "refused 3 record 9 position 2")]),
    ("H 4-8 is ''", &[(">240", "refused 7 record 1 position 4")]),
    ("H 9-13 is '0123:'", &[(">240", "refused 5 record 1 position 9")]),
    ("H 9-13 is '/1234'", &[(">240", "refused 5 record 1 position 9")]),
    ("H 9-13 is ''", &[(">240", "refused 5 record 1 position 9")]),
    ("H date is '290227'", &[(">240", "refused 8 record 1 position 14")]),
    ("H date is '000126'", &[(">240", "refused 8 record 1 position 14")]),
    ("H date is '29022:'", &[(">240", "refused 5 record 1 position 14")]),
    ("H date is ''", &[(">240", "refused 5 record 1 position 14")]),
    ("H 20-39 is ''", &[(">240", "refused 7 record 1 position 20")]),
    ("H 105-111 is '2$05678'", &[(">240", "refused 6 record 1 position 105")]),
    ("H 105-111 is '1E05678'", &[(">240", "refused 6 record 1 position 106")]),
    ("H 105-111 is '1$0567:'", &[(">240", "refused 5 record 1 position 107")]),
    ("H 105-111 is '      1'", &[(">240", "refused 6 record 1 position 105")]),
    ("H 105-111 in a right list is '1$05678'", &[(">1080", "accepted dispositions 1 cents 45000 records 9 kind requests length 1080")]),
    ("H date in a right list is '290228'", &[(">1080", "accepted dispositions 1 cents 45000 records 9 kind requests length 1080")]),
    ("D date is '290227'", &[(">360", "refused 8 record 2 position 23")]),
    ("D date is '310426'", &[(">360", "refused 8 record 2 position 23")]),
    ("D date is '29022:'", &[(">360", "refused 5 record 2 position 23")]),
    ("D date is ''", &[(">360", "refused 5 record 2 position 23")]),
    ("D date in a right list is '290228'", &[(">1080", "accepted dispositions 1 cents 45000 records 9 kind requests length 1080")]),
    ("D amount is '0000000450.00'", &[(">360", "refused 5 record 2 position 34")]),
    ("D amount is '/000000045000'", &[(">360", "refused 5 record 2 position 34")]),
    ("D amount is '000000004500:'", &[(">360", "refused 5 record 2 position 34")]),
    ("D amount is ''", &[(">360", "refused 5 record 2 position 34")]),
    ("D amount is '0000000000000'", &[(">360", "refused 25 record 2 position 34")]),
    ("D amount is ' 000000000000'", &[(">360", "refused 5 record 2 position 34")]),
    ("D amount is '000000000000:'", &[(">360", "refused 5 record 2 position 34")]),
    ("D amount is '000000O000000'", &[(">360", "refused 5 record 2 position 34")]),
    ("D 53-57 is '024'", &[(">360", "refused 5 record 2 position 53")]),
    ("D 53-57 is '    0'", &[(">360", "refused 5 record 2 position 53")]),
    ("D 53-57 is '0240:'", &[(">360", "refused 5 record 2 position 53")]),
    ("D 53-57 in a right list is ''", &[(">1080", "accepted dispositions 1 cents 45000 records 9 kind requests length 1080")]),
    ("D 53-57 in a right list is '99999'", &[(">1080", "accepted dispositions 1 cents 45000 records 9 kind requests length 1080")]),
    ("D at 97 is '0'", &[(">360", "refused 6 record 2 position 97")]),
    ("D at 97 is '7'", &[(">360", "refused 6 record 2 position 97")]),
    ("D at 97 is 'A'", &[(">360", "refused 6 record 2 position 97")]),
    ("D at 97 in a right list is ''", &[(">1080", "accepted dispositions 1 cents 45000 records 9 kind requests length 1080")]),
    ("D at 97 in a right list is '9'", &[(">1080", "accepted dispositions 1 cents 45000 records 9 kind requests length 1080")]),
    ("S 11-12 is 'DE'", &[(">1200", "refused 6 record 3 position 11")]),
    ("S 11-12 is ''", &[(">1200", "refused 6 record 3 position 11")]),
    ("S 13-14 is '6:'", &[(">1200", "refused 5 record 3 position 13")]),
    ("S 13-14 is ''", &[(">1200", "refused 5 record 3 position 13")]),
    ("S at 15 is ''", &[(">1200", "refused 7 record 3 position 15")]),
    ("S 16-20 is '0123:'", &[(">1200", "refused 5 record 3 position 16")]),
    ("S 16-20 is '01235'", &[(">1200", "refused 10 record 3 position 16")]),
    ("S 16-20 is '00000'", &[(">1200", "refused 10 record 3 position 16")]),
    ("S 21-25 is '0240:'", &[(">1200", "refused 5 record 3 position 21")]),
    ("S 21-25 is '00000'", &[(">1200", "refused 6 record 3 position 21")]),
    ("S 21-25 is '00001'", &[(">1200", "accepted dispositions 1 cents 45000 records 10 kind requests length 1200")]),
    ("S 26-37 is ''", &[(">1200", "refused 7 record 3 position 26")]),
    ("Z at 94 is 'A'", &[(">1080", "refused 6 record 8 position 94")]),
    ("Z at 94 is 'p'", &[(">1080", "refused 6 record 8 position 94")]),
    ("Z at 94 is 'P'", &[(">1080", "accepted dispositions 1 cents 45000 records 9 kind requests length 1080")]),
    ("Z at 94 is 'B'", &[(">1080", "accepted dispositions 1 cents 45000 records 9 kind requests length 1080")]),
    ("byte 0 in H at 4", &[(">1080", "refused 2 record 1 position 4")]),
    ("byte 31 in H at 45", &[(">1080", "refused 2 record 1 position 45")]),
    ("byte 127 in H at 105", &[(">1080", "refused 2 record 1 position 105")]),
    ("byte 128 in H at 111", &[(">1080", "refused 2 record 1 position 111")]),
    ("byte 0 in Q at 4", &[(">240", "refused 2 record 1 position 4")]),
    ("byte 31 in Q at 45", &[(">240", "refused 2 record 1 position 45")]),
    ("byte 127 in Q at 105", &[(">240", "refused 2 record 1 position 105")]),
    ("byte 128 in Q at 111", &[(">240", "refused 2 record 1 position 111")]),
    ("byte 0 in D at 23", &[(">360", "refused 2 record 2 position 23")]),
    ("byte 31 in D at 28", &[(">360", "refused 2 record 2 position 28")]),
    ("byte 127 in D at 34", &[(">360", "refused 2 record 2 position 34")]),
    ("byte 128 in D at 46", &[(">360", "refused 2 record 2 position 46")]),
    ("byte 255 in D at 53", &[(">360", "refused 2 record 2 position 53")]),
    ("byte 10 in D at 69", &[(">360", "refused 2 record 2 position 69")]),
    ("byte 0 in D at 92", &[(">360", "refused 2 record 2 position 92")]),
    ("byte 31 in D at 113", &[(">360", "refused 2 record 2 position 113")]),
    ("byte 0 in S at 11", &[(">1200", "refused 2 record 3 position 11")]),
    ("byte 31 in S at 37", &[(">1200", "refused 2 record 3 position 37")]),
    ("byte 0 in C at 11", &[(">1080", "refused 2 record 3 position 11")]),
    ("byte 31 in C at 106", &[(">1080", "refused 2 record 3 position 106")]),
    ("byte 0 in B at 11", &[(">1080", "refused 2 record 4 position 11")]),
    ("byte 31 in B at 86", &[(">1080", "refused 2 record 4 position 86")]),
    ("byte 0 in A at 11", &[(">1080", "refused 2 record 5 position 11")]),
    ("byte 31 in A at 120", &[(">1080", "refused 2 record 5 position 120")]),
    ("byte 0 in R at 11", &[(">1080", "refused 2 record 6 position 11")]),
    ("byte 31 in R at 120", &[(">1080", "refused 2 record 6 position 120")]),
    ("byte 0 in X at 11", &[(">1200", "refused 2 record 7 position 11")]),
    ("byte 31 in X at 120", &[(">1200", "refused 2 record 7 position 120")]),
    ("byte 0 in K at 11", &[(">1080", "refused 2 record 7 position 11")]),
    ("byte 31 in K at 120", &[(">1080", "refused 2 record 7 position 120")]),
    ("byte 0 in Z at 94", &[(">1080", "refused 2 record 8 position 94")]),
    ("byte 31 in Z at 96", &[(">1080", "refused 2 record 8 position 96")]),
    ("byte 127 in Z at 120", &[(">1080", "refused 2 record 8 position 120")]),
    ("byte 0 in the second Z at 120", &[(">1920", "refused 2 record 15 position 120")]),
    ("amount 1", &[
        (">1080", "accepted dispositions 1 cents 1 records 9 kind requests length 1080"),
        ("><", "there 1080 back 643 same"),
    ]),
    ("amount 9999999999999", &[
        (">1080", "accepted dispositions 1 cents 9999999999999 records 9 kind requests length 1080"),
        ("><", "there 1080 back 643 same"),
    ]),
    ("amount 1234567890123", &[
        (">1080", "accepted dispositions 1 cents 1234567890123 records 9 kind requests length 1080"),
        ("><", "there 1080 back 643 same"),
    ]),
    ("amounts that carry", &[
        (">1920", "accepted dispositions 2 cents 10000000000000 records 16 kind requests length 1920"),
        ("><", "there 1920 back 1236 same"),
    ]),
    ("H 40-45 used", &[
        (">1080", "accepted dispositions 1 cents 45000 records 9 kind requests length 1080"),
        ("><", "there 1080 back 643 same"),
    ]),
    ("H at 45 used", &[
        (">1080", "accepted dispositions 1 cents 45000 records 9 kind requests length 1080"),
        ("><", "there 1080 back 643 same"),
    ]),
    ("H 105-111 used", &[
        (">1080", "accepted dispositions 1 cents 45000 records 9 kind requests length 1080"),
        ("><", "there 1080 back 643 same"),
    ]),
    ("A R K blank", &[
        (">1080", "accepted dispositions 1 cents 45000 records 9 kind requests length 1080"),
        ("><", "there 1080 back 643 same"),
    ]),
    ("another ABI in H and S", &[
        (">1200", "accepted dispositions 1 cents 45000 records 10 kind requests length 1200"),
        ("><", "there 1200 back 671 same"),
    ]),
    ("S with the ABI of another H", &[(">1200", "refused 10 record 3 position 16")]),
    ("C 11-34 blank", &[(">1080", "refused 7 record 3 position 11")]),
    ("B 11-40 blank and text behind", &[(">1080", "refused 7 record 4 position 11")]),
    ("X 11-65 blank and text behind", &[(">1200", "refused 7 record 7 position 11")]),
    ("5 in the second D", &[(">1920", "refused 5 record 9 position 34")]),
    ("8 in the second D", &[(">1920", "refused 8 record 9 position 23")]),
    ("7 in the second C", &[(">1920", "refused 7 record 10 position 11")]),
    ("6 in the second Z", &[(">1920", "refused 6 record 15 position 94")]),
    ("two bytes outside, the higher first", &[(">1080", "refused 2 record 3 position 30")]),
    ("two bytes outside, the lower first", &[(">1080", "refused 2 record 3 position 30")]),
    ("bytes outside earlier in each later item", &[(">1080", "refused 2 record 1 position 45")]),
    ("a byte outside and a wrong kind", &[(">1080", "refused 2 record 3 position 86")]),
    ("a byte outside and a wrong field", &[(">1080", "refused 2 record 2 position 113")]),
    ("a byte outside in D before H", &[(">360", "refused 2 record 1 position 113")]),
    ("a byte outside in the second H", &[(">360", "refused 2 record 2 position 4")]),
    ("a wrong kind and wrong fields", &[(">480", "refused 3 record 3 position 2")]),
    ("7 in H then 2 in D", &[(">1080", "refused 7 record 1 position 20")]),
    ("6 in D then 3 in S", &[(">600", "refused 6 record 2 position 97")]),
    ("5 and 8 and 6 in D", &[(">1080", "refused 8 record 2 position 23")]),
    ("8 in D then no Z", &[(">960", "refused 8 record 2 position 23")]),
    ("6 in the last Z", &[(">1080", "refused 6 record 8 position 94")]),
    ("5 at both ends of H", &[(">1080", "refused 5 record 1 position 9")]),
    ("25 in the first D", &[(">1920", "refused 25 record 2 position 34")]),
    ("25 in the last D", &[(">1920", "refused 25 record 9 position 34")]),
    ("25 in the middle D", &[(">2760", "refused 25 record 9 position 34")]),
    ("25 in both D", &[(">1920", "refused 25 record 2 position 34")]),
    ("8 and 25 in D", &[(">360", "refused 8 record 2 position 23")]),
    ("25 and 5 in D", &[(">360", "refused 25 record 2 position 34")]),
    ("25 and 6 in D", &[(">360", "refused 25 record 2 position 34")]),
    ("25 and 11 in the second D", &[(">1200", "refused 25 record 9 position 34")]),
    ("25 and a byte outside in D", &[(">360", "refused 2 record 2 position 113")]),
    ("a byte outside in an amount of zero", &[(">360", "refused 2 record 2 position 46")]),
    ("7 in H then 25 in D", &[(">360", "refused 7 record 1 position 20")]),
    ("25 in D then 2 in C", &[(">480", "refused 25 record 2 position 34")]),
    ("25 in D then 3 in B", &[(">480", "refused 25 record 2 position 34")]),
    ("an amount of zero before H", &[(">360", "refused 3 record 1 position 2")]),
    ("an amount of zero behind D", &[(">480", "refused 3 record 3 position 2")]),
    ("recalls: 25 in the last D", &[(">1920", "refused 25 record 9 position 34")]),
    ("recalls: 8 and 25 in D", &[(">360", "refused 8 record 2 position 23")]),
    // Company codes on all or on none.
    ("code: blanks in both", &[
        (">1920", "accepted dispositions 2 cents 83050 records 16 kind requests length 1920"),
        ("><", "there 1920 back 1236 same"),
    ]),
    ("code: '  A  ' in both", &[
        (">1920", "accepted dispositions 2 cents 83050 records 16 kind requests length 1920"),
        ("><", "there 1920 back 1236 same"),
    ]),
    ("code: blanks in both recalls", &[
        (">1920", "accepted dispositions 2 cents 83050 records 16 kind recalls length 1920"),
        ("><", "there 1920 back 1236 same"),
    ]),
    ("code: blanks, then a code", &[(">1920", "refused 11 record 9 position 92")]),
    ("code: a code, then blanks", &[(">1920", "refused 11 record 9 position 92")]),
    ("code: a code, blanks, the same code", &[(">2760", "refused 11 record 9 position 92")]),
    ("code: twice a code, then blanks", &[(">2760", "refused 11 record 16 position 92")]),
    ("code: twice blanks, then a code", &[(">2760", "refused 11 record 16 position 92")]),
    ("code: other in byte 1", &[(">1200", "refused 11 record 9 position 92")]),
    ("code: other in byte 2", &[(">1200", "refused 11 record 9 position 92")]),
    ("code: other in byte 3", &[(">1200", "refused 11 record 9 position 92")]),
    ("code: other in byte 4", &[(">1200", "refused 11 record 9 position 92")]),
    ("code: other in byte 5", &[(">1200", "refused 11 record 9 position 92")]),
    ("code: lower case in byte 1", &[(">1200", "refused 11 record 9 position 92")]),
    ("code: a blank for byte 5", &[(">1200", "refused 11 record 9 position 92")]),
    ("code: moved by a place", &[(">1200", "refused 11 record 9 position 92")]),
    ("code: blanks, then byte 5 alone", &[(">1200", "refused 11 record 9 position 92")]),
    ("code: byte 1 alone, then blanks", &[(">1200", "refused 11 record 9 position 92")]),
    ("code: 2 in it", &[(">1200", "refused 2 record 9 position 95")]),
    ("code: 8 at 23", &[(">1200", "refused 8 record 9 position 23")]),
    ("code: 5 at 53", &[(">1200", "refused 5 record 9 position 53")]),
    ("code: 6 at 97", &[(">1200", "refused 11 record 9 position 92")]),
    ("code: 6 at 97 of the first D", &[(">1200", "refused 6 record 2 position 97")]),
    ("code: 3 in the next item", &[(">1320", "refused 11 record 9 position 92")]),
    ("code: a D that may not stand there", &[(">480", "refused 3 record 3 position 2")]),
    ("code: recalls: blanks, then a code", &[(">1920", "refused 11 record 9 position 92")]),
    ("code: recalls: a code, then blanks", &[(">1200", "refused 11 record 9 position 92")]),
    ("code: recalls: 5 at 53", &[(">1200", "refused 5 record 9 position 53")]),
    ("code: recalls: 6 at 97", &[(">1200", "refused 11 record 9 position 92")]),
    ("12 dispositions", &[
        (">11040", "accepted dispositions 12 cents 78078 records 92 kind requests length 11040"),
        ("><", "there 11040 back 7334 same"),
    ]),
    ("a total of 999999999999999", &[
        (">85079", "refused 21 record 0 position 0"),
        (">85080", "accepted dispositions 101 cents 999999999999999 records 709 kind requests length 85080"),
        (">85081", "accepted dispositions 101 cents 999999999999999 records 709 kind requests length 85080"),
        ("><", "there 85080 back 59943 same"),
    ]),
    ("a total of 1000000000000000", &[
        (">85079", "refused 21 record 0 position 0"),
        (">85080", "refused 17 record 0 position 0"),
        (">85081", "refused 17 record 0 position 0"),
        ("><", "refused 17 record 0 position 0"),
    ]),
    ("a total above the limit and no Z", &[(">84960", "refused 3 record 708 position 2")]),
    ("back: two rents", &[
        ("<0", "refused 21 record 0 position 0"),
        ("<1", "refused 21 record 0 position 0"),
        ("<50", "refused 21 record 0 position 0"),
        ("<1235", "refused 21 record 0 position 0"),
        ("<1236", "accepted dispositions 2 cents 83050 records 16 kind requests length 1236"),
        ("<1237", "accepted dispositions 2 cents 83050 records 16 kind requests length 1236"),
        ("<1355", "accepted dispositions 2 cents 83050 records 16 kind requests length 1236"),
        ("<1356", "accepted dispositions 2 cents 83050 records 16 kind requests length 1236"),
        ("<1920", "accepted dispositions 2 cents 83050 records 16 kind requests length 1236"),
        ("<3000", "accepted dispositions 2 cents 83050 records 16 kind requests length 1236"),
        ("<>", "there 1236 back 1920 same"),
        ("<131008", "accepted dispositions 2 cents 83050 records 16 kind requests length 1236"),
    ]),
    ("back: one rent", &[
        ("<642", "refused 21 record 0 position 0"),
        ("<643", "accepted dispositions 1 cents 45000 records 9 kind requests length 643"),
        ("<644", "accepted dispositions 1 cents 45000 records 9 kind requests length 643"),
        ("<>", "there 643 back 1080 same"),
    ]),
    ("back: 16 and 50", &[
        ("<670", "refused 21 record 0 position 0"),
        ("<671", "accepted dispositions 1 cents 45000 records 10 kind requests length 671"),
        ("<672", "accepted dispositions 1 cents 45000 records 10 kind requests length 671"),
        ("<>", "there 671 back 1200 same"),
    ]),
    ("back: 16 and 59", &[
        ("<670", "refused 21 record 0 position 0"),
        ("<671", "accepted dispositions 1 cents 45000 records 10 kind requests length 671"),
        ("<672", "accepted dispositions 1 cents 45000 records 10 kind requests length 671"),
        ("<>", "there 671 back 1200 same"),
    ]),
    ("back: five 59s", &[
        ("<1086", "refused 21 record 0 position 0"),
        ("<1087", "accepted dispositions 1 cents 45000 records 13 kind requests length 1087"),
        ("<1088", "accepted dispositions 1 cents 45000 records 13 kind requests length 1087"),
        ("<>", "there 1087 back 1560 same"),
    ]),
    ("back: 16 in the second", &[
        ("<1374", "refused 21 record 0 position 0"),
        ("<1375", "accepted dispositions 2 cents 83050 records 18 kind requests length 1375"),
        ("<1376", "accepted dispositions 2 cents 83050 records 18 kind requests length 1375"),
        ("<>", "there 1375 back 2160 same"),
    ]),
    ("back: no byte", &[
        ("<0", "refused 1 record 0 position 0"),
        ("<1235", "refused 1 record 0 position 0"),
        ("<2000", "refused 1 record 0 position 0"),
        ("<>", "refused 1 record 0 position 0"),
    ]),
    ("back: a byte short", &[
        ("<0", "refused 1 record 0 position 0"),
        ("<1235", "refused 1 record 0 position 0"),
        ("<2000", "refused 1 record 0 position 0"),
        ("<>", "refused 1 record 0 position 0"),
    ]),
    ("back: a line feed at the end", &[
        ("<0", "refused 1 record 0 position 0"),
        ("<1235", "refused 1 record 0 position 0"),
        ("<2000", "refused 1 record 0 position 0"),
        ("<>", "refused 1 record 0 position 0"),
    ]),
    ("back: 14 after EF", &[
        ("<0", "refused 3 record 10 position 2"),
        ("<1235", "refused 3 record 10 position 2"),
        ("<2000", "refused 3 record 10 position 2"),
        ("<>", "refused 3 record 10 position 2"),
    ]),
    ("back: the header alone", &[
        ("<0", "refused 4 record 2 position 0"),
        ("<1235", "refused 4 record 2 position 0"),
        ("<2000", "refused 4 record 2 position 0"),
        ("<>", "refused 4 record 2 position 0"),
    ]),
    ("back: cut inside the first disposition", &[
        ("<0", "refused 4 record 6 position 0"),
        ("<1235", "refused 4 record 6 position 0"),
        ("<2000", "refused 4 record 6 position 0"),
        ("<>", "refused 4 record 6 position 0"),
    ]),
    ("back: cut inside the second disposition", &[
        ("<0", "refused 4 record 12 position 0"),
        ("<1235", "refused 4 record 12 position 0"),
        ("<2000", "refused 4 record 12 position 0"),
        ("<>", "refused 4 record 12 position 0"),
    ]),
    ("back: no EF", &[
        ("<0", "refused 4 record 16 position 0"),
        ("<1235", "refused 4 record 16 position 0"),
        ("<2000", "refused 4 record 16 position 0"),
        ("<>", "refused 4 record 16 position 0"),
    ]),
    ("back: 6 in IM", &[
        ("<0", "refused 6 record 1 position 114"),
        ("<1235", "refused 6 record 1 position 114"),
        ("<2000", "refused 6 record 1 position 114"),
        ("<>", "refused 6 record 1 position 114"),
    ]),
    ("back: 2 in the last byte", &[
        ("<0", "refused 2 record 16 position 120"),
        ("<1235", "refused 2 record 16 position 120"),
        ("<2000", "refused 2 record 16 position 120"),
        ("<>", "refused 2 record 16 position 120"),
    ]),
    ("back: 3 in the second 70", &[
        ("<0", "refused 3 record 15 position 2"),
        ("<1235", "refused 3 record 15 position 2"),
        ("<2000", "refused 3 record 15 position 2"),
        ("<>", "refused 3 record 15 position 2"),
    ]),
    ("back: 5 in the second 14", &[
        ("<0", "refused 5 record 9 position 34"),
        ("<1235", "refused 5 record 9 position 34"),
        ("<2000", "refused 5 record 9 position 34"),
        ("<>", "refused 5 record 9 position 34"),
    ]),
    ("back: 6 in the second 70", &[
        ("<0", "refused 6 record 15 position 94"),
        ("<1235", "refused 6 record 15 position 94"),
        ("<2000", "refused 6 record 15 position 94"),
        ("<>", "refused 6 record 15 position 94"),
    ]),
    ("back: 7 in the second 30", &[
        ("<0", "refused 7 record 11 position 11"),
        ("<1235", "refused 7 record 11 position 11"),
        ("<2000", "refused 7 record 11 position 11"),
        ("<>", "refused 7 record 11 position 11"),
    ]),
    ("back: 8 in the second 14", &[
        ("<0", "refused 8 record 9 position 23"),
        ("<1235", "refused 8 record 9 position 23"),
        ("<2000", "refused 8 record 9 position 23"),
        ("<>", "refused 8 record 9 position 23"),
    ]),
    ("back: 9 in the second 14", &[
        ("<0", "refused 9 record 9 position 4"),
        ("<1235", "refused 9 record 9 position 4"),
        ("<2000", "refused 9 record 9 position 4"),
        ("<>", "refused 9 record 9 position 4"),
    ]),
    ("back: 10 in EF", &[
        ("<0", "refused 10 record 16 position 114"),
        ("<1235", "refused 10 record 16 position 114"),
        ("<2000", "refused 10 record 16 position 114"),
        ("<>", "refused 10 record 16 position 114"),
    ]),
    ("back: 11 in the second 14", &[
        ("<0", "refused 11 record 9 position 92"),
        ("<1235", "refused 11 record 9 position 92"),
        ("<2000", "refused 11 record 9 position 92"),
        ("<>", "refused 11 record 9 position 92"),
    ]),
    ("back: 11 in the second 14, blanks first", &[
        ("<0", "refused 11 record 9 position 92"),
        ("<1235", "refused 11 record 9 position 92"),
        ("<2000", "refused 11 record 9 position 92"),
        ("<>", "refused 11 record 9 position 92"),
    ]),
    ("back: 12 in EF", &[
        ("<0", "refused 12 record 16 position 46"),
        ("<1235", "refused 12 record 16 position 46"),
        ("<2000", "refused 12 record 16 position 46"),
        ("<>", "refused 12 record 16 position 46"),
    ]),
    ("back: 13 in EF", &[
        ("<0", "refused 13 record 16 position 53"),
        ("<1235", "refused 13 record 16 position 53"),
        ("<2000", "refused 13 record 16 position 53"),
        ("<>", "refused 13 record 16 position 53"),
    ]),
    ("back: 13 in EF at 68", &[
        ("<0", "refused 13 record 16 position 68"),
        ("<1235", "refused 13 record 16 position 68"),
        ("<2000", "refused 13 record 16 position 68"),
        ("<>", "refused 13 record 16 position 68"),
    ]),
    ("back: 14 in EF", &[
        ("<0", "refused 14 record 16 position 83"),
        ("<1235", "refused 14 record 16 position 83"),
        ("<2000", "refused 14 record 16 position 83"),
        ("<>", "refused 14 record 16 position 83"),
    ]),
    ("back: 22 in the second 14", &[
        ("<0", "refused 22 record 9 position 29"),
        ("<1235", "refused 22 record 9 position 29"),
        ("<2000", "refused 22 record 9 position 29"),
        ("<>", "refused 22 record 9 position 29"),
    ]),
    ("back: 25 in the first 14", &[
        ("<0", "refused 25 record 2 position 34"),
        ("<1235", "refused 25 record 2 position 34"),
        ("<2000", "refused 25 record 2 position 34"),
        ("<>", "refused 25 record 2 position 34"),
    ]),
    ("back: 25 in the second 14", &[
        ("<0", "refused 25 record 9 position 34"),
        ("<1235", "refused 25 record 9 position 34"),
        ("<2000", "refused 25 record 9 position 34"),
        ("<>", "refused 25 record 9 position 34"),
    ]),
    ("back: a list for a flow", &[
        ("<0", "refused 1 record 0 position 0"),
        ("<1235", "refused 1 record 0 position 0"),
        ("<2000", "refused 1 record 0 position 0"),
        ("<>", "refused 1 record 0 position 0"),
    ]),
    ("back: unchecked bytes distinct, S and X then R", &[
        ("<1263", "refused 21 record 0 position 0"),
        ("<1264", "accepted dispositions 2 cents 83050 records 17 kind requests length 1264"),
        ("<>", "there 1264 back 2040 differs at 0"),
    ]),
    ("back: unchecked bytes distinct, five X", &[
        ("<1086", "refused 21 record 0 position 0"),
        ("<1087", "accepted dispositions 1 cents 45000 records 13 kind requests length 1087"),
        ("<>", "there 1087 back 1560 differs at 0"),
    ]),
    ("back: not canonical in IM at 1", &[
        ("<643", "accepted dispositions 1 cents 45000 records 9 kind requests length 643"),
        ("<>", "there 643 back 1080 differs at 0"),
    ]),
    ("back: not canonical in IM at 46", &[
        ("<643", "accepted dispositions 1 cents 45000 records 9 kind requests length 643"),
        ("<>", "there 643 back 1080 differs at 45"),
    ]),
    ("back: not canonical in IM at 104", &[
        ("<643", "accepted dispositions 1 cents 45000 records 9 kind requests length 643"),
        ("<>", "there 643 back 1080 differs at 103"),
    ]),
    ("back: not canonical in IM at 112", &[
        ("<643", "accepted dispositions 1 cents 45000 records 9 kind requests length 643"),
        ("<>", "there 643 back 1080 differs at 111"),
    ]),
    ("back: not canonical in IM at 113", &[
        ("<643", "accepted dispositions 1 cents 45000 records 9 kind requests length 643"),
        ("<>", "there 643 back 1080 differs at 112"),
    ]),
    ("back: not canonical in IM at 115", &[
        ("<643", "accepted dispositions 1 cents 45000 records 9 kind requests length 643"),
        ("<>", "there 643 back 1080 differs at 114"),
    ]),
    ("back: not canonical in IM at 120", &[
        ("<643", "accepted dispositions 1 cents 45000 records 9 kind requests length 643"),
        ("<>", "there 643 back 1080 differs at 119"),
    ]),
    ("back: not canonical in 14 at 1", &[
        ("<643", "accepted dispositions 1 cents 45000 records 9 kind requests length 643"),
        ("<>", "there 643 back 1080 differs at 120"),
    ]),
    ("back: not canonical in 14 at 11", &[
        ("<643", "accepted dispositions 1 cents 45000 records 9 kind requests length 643"),
        ("<>", "there 643 back 1080 differs at 130"),
    ]),
    ("back: not canonical in 14 at 22", &[
        ("<643", "accepted dispositions 1 cents 45000 records 9 kind requests length 643"),
        ("<>", "there 643 back 1080 differs at 141"),
    ]),
    ("back: not canonical in 14 at 70", &[
        ("<643", "accepted dispositions 1 cents 45000 records 9 kind requests length 643"),
        ("<>", "there 643 back 1080 differs at 189"),
    ]),
    ("back: not canonical in 14 at 91", &[
        ("<643", "accepted dispositions 1 cents 45000 records 9 kind requests length 643"),
        ("<>", "there 643 back 1080 differs at 210"),
    ]),
    ("back: not canonical in 14 at 114", &[
        ("<643", "accepted dispositions 1 cents 45000 records 9 kind requests length 643"),
        ("<>", "there 643 back 1080 differs at 233"),
    ]),
    ("back: not canonical in 14 at 119", &[
        ("<643", "accepted dispositions 1 cents 45000 records 9 kind requests length 643"),
        ("<>", "there 643 back 1080 differs at 238"),
    ]),
    ("back: not canonical in 16 at 1", &[
        ("<671", "accepted dispositions 1 cents 45000 records 10 kind requests length 671"),
        ("<>", "there 671 back 1200 differs at 240"),
    ]),
    ("back: not canonical in 16 at 38", &[
        ("<671", "accepted dispositions 1 cents 45000 records 10 kind requests length 671"),
        ("<>", "there 671 back 1200 differs at 277"),
    ]),
    ("back: not canonical in 16 at 120", &[
        ("<671", "accepted dispositions 1 cents 45000 records 10 kind requests length 671"),
        ("<>", "there 671 back 1200 differs at 359"),
    ]),
    ("back: not canonical in 20 at 1", &[
        ("<643", "accepted dispositions 1 cents 45000 records 9 kind requests length 643"),
        ("<>", "there 643 back 1080 differs at 240"),
    ]),
    ("back: not canonical in 20 at 107", &[
        ("<643", "accepted dispositions 1 cents 45000 records 9 kind requests length 643"),
        ("<>", "there 643 back 1080 differs at 346"),
    ]),
    ("back: not canonical in 20 at 120", &[
        ("<643", "accepted dispositions 1 cents 45000 records 9 kind requests length 643"),
        ("<>", "there 643 back 1080 differs at 359"),
    ]),
    ("back: not canonical in 30 at 1", &[
        ("<643", "accepted dispositions 1 cents 45000 records 9 kind requests length 643"),
        ("<>", "there 643 back 1080 differs at 360"),
    ]),
    ("back: not canonical in 30 at 87", &[
        ("<643", "accepted dispositions 1 cents 45000 records 9 kind requests length 643"),
        ("<>", "there 643 back 1080 differs at 446"),
    ]),
    ("back: not canonical in 30 at 120", &[
        ("<643", "accepted dispositions 1 cents 45000 records 9 kind requests length 643"),
        ("<>", "there 643 back 1080 differs at 479"),
    ]),
    ("back: not canonical in 40 at 1", &[
        ("<643", "accepted dispositions 1 cents 45000 records 9 kind requests length 643"),
        ("<>", "there 643 back 1080 differs at 480"),
    ]),
    ("back: not canonical in 50 at 1", &[
        ("<643", "accepted dispositions 1 cents 45000 records 9 kind requests length 643"),
        ("<>", "there 643 back 1080 differs at 600"),
    ]),
    ("back: not canonical in 59 at 1", &[
        ("<671", "accepted dispositions 1 cents 45000 records 10 kind requests length 671"),
        ("<>", "there 671 back 1200 differs at 720"),
    ]),
    ("back: not canonical in 51 at 1", &[
        ("<643", "accepted dispositions 1 cents 45000 records 9 kind requests length 643"),
        ("<>", "there 643 back 1080 differs at 720"),
    ]),
    ("back: not canonical in 70 at 1", &[
        ("<643", "accepted dispositions 1 cents 45000 records 9 kind requests length 643"),
        ("<>", "there 643 back 1080 differs at 840"),
    ]),
    ("back: not canonical in 70 at 11", &[
        ("<643", "accepted dispositions 1 cents 45000 records 9 kind requests length 643"),
        ("<>", "there 643 back 1080 differs at 850"),
    ]),
    ("back: not canonical in 70 at 93", &[
        ("<643", "accepted dispositions 1 cents 45000 records 9 kind requests length 643"),
        ("<>", "there 643 back 1080 differs at 932"),
    ]),
    ("back: not canonical in 70 at 95", &[
        ("<643", "accepted dispositions 1 cents 45000 records 9 kind requests length 643"),
        ("<>", "there 643 back 1080 differs at 934"),
    ]),
    ("back: not canonical in EF at 1", &[
        ("<643", "accepted dispositions 1 cents 45000 records 9 kind requests length 643"),
        ("<>", "there 643 back 1080 differs at 960"),
    ]),
    ("back: not canonical in EF at 40", &[
        ("<643", "accepted dispositions 1 cents 45000 records 9 kind requests length 643"),
        ("<>", "there 643 back 1080 differs at 999"),
    ]),
    ("back: not canonical in EF at 45", &[
        ("<643", "accepted dispositions 1 cents 45000 records 9 kind requests length 643"),
        ("<>", "there 643 back 1080 differs at 1004"),
    ]),
    ("back: not canonical in EF at 90", &[
        ("<643", "accepted dispositions 1 cents 45000 records 9 kind requests length 643"),
        ("<>", "there 643 back 1080 differs at 1049"),
    ]),
    ("back: not canonical in EF at 113", &[
        ("<643", "accepted dispositions 1 cents 45000 records 9 kind requests length 643"),
        ("<>", "there 643 back 1080 differs at 1072"),
    ]),
    ("back: not canonical in EF at 115", &[
        ("<643", "accepted dispositions 1 cents 45000 records 9 kind requests length 643"),
        ("<>", "there 643 back 1080 differs at 1074"),
    ]),
    ("back: not canonical in EF at 120", &[
        ("<643", "accepted dispositions 1 cents 45000 records 9 kind requests length 643"),
        ("<>", "there 643 back 1080 differs at 1079"),
    ]),
    ("back: 40-45 in IM alone", &[
        ("<643", "accepted dispositions 1 cents 45000 records 9 kind requests length 643"),
        ("<>", "there 643 back 1080 differs at 999"),
    ]),
    ("back: 40-45 unlike in EF", &[
        ("<643", "accepted dispositions 1 cents 45000 records 9 kind requests length 643"),
        ("<>", "there 643 back 1080 differs at 1004"),
    ]),
    ("back: canonical, 14 at 58", &[("<>", "there 643 back 1080 same")]),
    ("back: canonical, 14 at 69", &[("<>", "there 643 back 1080 same")]),
    ("back: canonical, 14 at 98", &[("<>", "there 643 back 1080 same")]),
    ("back: canonical, 14 at 113", &[("<>", "there 643 back 1080 same")]),
    ("back: canonical, 16 at 15", &[("<>", "there 671 back 1200 same")]),
    ("back: canonical, 16 at 26", &[("<>", "there 671 back 1200 same")]),
    ("back: canonical, 16 at 37", &[("<>", "there 671 back 1200 same")]),
    ("back: canonical, 20 at 35", &[("<>", "there 643 back 1080 same")]),
    ("back: canonical, 20 at 106", &[("<>", "there 643 back 1080 same")]),
    ("back: canonical, 30 at 41", &[("<>", "there 643 back 1080 same")]),
    ("back: canonical, 30 at 86", &[("<>", "there 643 back 1080 same")]),
    ("back: canonical, 40 at 11", &[("<>", "there 643 back 1080 same")]),
    ("back: canonical, 40 at 120", &[("<>", "there 643 back 1080 same")]),
    ("back: canonical, 50 at 11", &[("<>", "there 643 back 1080 same")]),
    ("back: canonical, 50 at 120", &[("<>", "there 643 back 1080 same")]),
    ("back: canonical, 59 at 66", &[("<>", "there 671 back 1200 same")]),
    ("back: canonical, 59 at 120", &[("<>", "there 671 back 1200 same")]),
    ("back: canonical, 51 at 11", &[("<>", "there 643 back 1080 same")]),
    ("back: canonical, 51 at 120", &[("<>", "there 643 back 1080 same")]),
    ("back: canonical, 70 at 96", &[("<>", "there 643 back 1080 same")]),
    ("back: canonical, 70 at 120", &[("<>", "there 643 back 1080 same")]),
    ("back: 40-45 alike in IM and EF", &[("<>", "there 643 back 1080 same")]),
    // Lists of recalls.
    ("recalls: two rents", &[
        (">0", "refused 21 record 0 position 0"),
        (">120", "refused 21 record 0 position 0"),
        (">1919", "refused 21 record 0 position 0"),
        (">1920", "accepted dispositions 2 cents 83050 records 16 kind recalls length 1920"),
        (">1921", "accepted dispositions 2 cents 83050 records 16 kind recalls length 1920"),
        (">3000", "accepted dispositions 2 cents 83050 records 16 kind recalls length 1920"),
        ("><", "there 1920 back 1236 same"),
    ]),
    ("recalls: one rent", &[
        (">1080", "accepted dispositions 1 cents 45000 records 9 kind recalls length 1080"),
        ("><", "there 1080 back 643 same"),
    ]),
    ("recalls: one rent with S and X", &[
        (">1200", "accepted dispositions 1 cents 45000 records 10 kind recalls length 1200"),
        ("><", "there 1200 back 671 same"),
    ]),
    ("recalls: distinct bytes", &[
        (">2160", "accepted dispositions 2 cents 2469135780246 records 18 kind recalls length 2160"),
        ("><", "there 2160 back 1375 same"),
    ]),
    ("recalls: amount 1", &[
        (">1080", "accepted dispositions 1 cents 1 records 9 kind recalls length 1080"),
        ("><", "there 1080 back 643 same"),
    ]),
    ("recalls: amounts that carry", &[
        (">1920", "accepted dispositions 2 cents 10000000000000 records 16 kind recalls length 1920"),
        ("><", "there 1920 back 1236 same"),
    ]),
    ("recalls: Q 40-45 and 105-111 used", &[
        (">1080", "accepted dispositions 1 cents 45000 records 9 kind recalls length 1080"),
        ("><", "there 1080 back 643 same"),
    ]),
    ("recalls: another ABI in Q and S", &[
        (">1200", "accepted dispositions 1 cents 45000 records 10 kind recalls length 1200"),
        ("><", "there 1200 back 671 same"),
    ]),
    ("recalls: keys in Z", &[
        (">1080", "accepted dispositions 1 cents 45000 records 9 kind recalls length 1080"),
        ("><", "there 1080 back 643 same"),
    ]),
    // 4 * 9999999999999 less 0 to 3 cents; 50 + 2 * 593 + 2 * 621 bytes.
    ("recalls: four near the largest amount", &[
        (">3840", "accepted dispositions 4 cents 39999999999990 records 32 kind recalls length 3840"),
        ("><", "there 3840 back 2478 same"),
    ]),
    ("7 in Q, at several rooms", &[
        (">0", "refused 21 record 0 position 0"),
        (">1079", "refused 21 record 0 position 0"),
        (">1080", "refused 7 record 1 position 4"),
        (">1081", "refused 7 record 1 position 4"),
    ]),
    ("20 at the end, 7 in Q", &[
        (">0", "refused 20 record 8 position 0"),
        (">1079", "refused 20 record 8 position 0"),
        (">1080", "refused 20 record 8 position 0"),
        (">1081", "refused 20 record 8 position 0"),
    ]),
    ("20 behind Q after H", &[
        (">0", "refused 20 record 3 position 0"),
        (">480", "refused 20 record 3 position 0"),
    ]),
    ("Q alone, at several rooms", &[
        (">0", "refused 21 record 0 position 0"),
        (">120", "refused 21 record 0 position 0"),
        (">239", "refused 21 record 0 position 0"),
        (">240", "refused 3 record 2 position 2"),
        (">241", "refused 3 record 2 position 2"),
    ]),
    ("Q twice", &[(">1200", "refused 3 record 2 position 2")]),
    ("Q after H", &[(">1200", "refused 3 record 2 position 2")]),
    ("H after Q", &[(">1200", "refused 3 record 2 position 2")]),
    ("Q inside a disposition", &[(">1200", "refused 3 record 5 position 2")]),
    ("H inside a disposition of recalls", &[(">1200", "refused 3 record 5 position 2")]),
    ("Q between dispositions", &[(">2040", "refused 3 record 9 position 2")]),
    ("H between recalls", &[(">2040", "refused 3 record 9 position 2")]),
    ("H at the end of recalls", &[(">1200", "refused 3 record 9 position 2")]),
    ("D before Q", &[(">1080", "refused 3 record 1 position 2")]),
    ("D before Q and H", &[(">1320", "refused 3 record 1 position 2")]),
    ("a disposition before Q", &[(">1080", "refused 3 record 1 position 2")]),
    ("Q behind the first D", &[(">1320", "refused 3 record 3 position 2")]),
    ("Q and Z", &[(">360", "refused 3 record 2 position 2")]),
    ("recalls: six X", &[(">1680", "refused 3 record 11 position 2")]),
    ("recalls: no Z", &[(">960", "refused 3 record 8 position 2")]),
    ("recalls: the second D alone", &[(">1200", "refused 3 record 10 position 2")]),
    ("Q 4-8 is ''", &[(">240", "refused 7 record 1 position 4")]),
    ("Q 9-13 is '0123:'", &[(">240", "refused 5 record 1 position 9")]),
    ("Q date is '290227'", &[(">240", "refused 8 record 1 position 14")]),
    ("Q date is '29022:'", &[(">240", "refused 5 record 1 position 14")]),
    ("Q 20-39 is ''", &[(">240", "refused 7 record 1 position 20")]),
    ("Q 105-111 is '2$05678'", &[(">240", "refused 6 record 1 position 105")]),
    ("Q 105-111 is '1E05678'", &[(">240", "refused 6 record 1 position 106")]),
    ("Q 105-111 is '1$0567:'", &[(">240", "refused 5 record 1 position 107")]),
    ("recalls: D date is '290227'", &[(">360", "refused 8 record 2 position 23")]),
    ("recalls: D amount is '0000000450.00'", &[(">360", "refused 5 record 2 position 34")]),
    ("recalls: D amount is '0000000000000'", &[(">360", "refused 25 record 2 position 34")]),
    ("recalls: D at 97 is '0'", &[(">360", "refused 6 record 2 position 97")]),
    ("recalls: Z at 94 is 'A'", &[(">1080", "refused 6 record 8 position 94")]),
    ("recalls: S with the ABI of another Q", &[(">1200", "refused 10 record 3 position 16")]),
    ("7 in Q then 2 in D", &[(">360", "refused 7 record 1 position 20")]),
    ("a byte outside in D before Q", &[(">360", "refused 2 record 1 position 113")]),
    ("a byte outside in Q after H", &[(">360", "refused 2 record 2 position 4")]),
    ("7 in H then Q", &[(">360", "refused 7 record 1 position 4")]),
    // Flows of recalls read back.
    ("back: recalls: two rents", &[
        ("<0", "refused 21 record 0 position 0"),
        ("<50", "refused 21 record 0 position 0"),
        ("<1235", "refused 21 record 0 position 0"),
        ("<1236", "accepted dispositions 2 cents 83050 records 16 kind recalls length 1236"),
        ("<1237", "accepted dispositions 2 cents 83050 records 16 kind recalls length 1236"),
        ("<3000", "accepted dispositions 2 cents 83050 records 16 kind recalls length 1236"),
        ("<>", "there 1236 back 1920 same"),
    ]),
    ("back: recalls: 16 and 59", &[
        ("<670", "refused 21 record 0 position 0"),
        ("<671", "accepted dispositions 1 cents 45000 records 10 kind recalls length 671"),
        ("<>", "there 671 back 1200 same"),
    ]),
    ("back: recalls: unchecked bytes distinct", &[
        ("<1263", "refused 21 record 0 position 0"),
        ("<1264", "accepted dispositions 2 cents 83050 records 17 kind recalls length 1264"),
        ("<>", "there 1264 back 2040 differs at 0"),
    ]),
    ("back: recalls: text in IM at 46", &[
        ("<643", "accepted dispositions 1 cents 45000 records 9 kind recalls length 643"),
        ("<>", "there 643 back 1080 differs at 45"),
    ]),
    ("back: recalls: text in 14 at 11", &[
        ("<643", "accepted dispositions 1 cents 45000 records 9 kind recalls length 643"),
        ("<>", "there 643 back 1080 differs at 130"),
    ]),
    ("back: recalls: text in EF at 90", &[
        ("<643", "accepted dispositions 1 cents 45000 records 9 kind recalls length 643"),
        ("<>", "there 643 back 1080 differs at 1049"),
    ]),
    ("back: recalls: 40-45 in IM alone", &[
        ("<643", "accepted dispositions 1 cents 45000 records 9 kind recalls length 643"),
        ("<>", "there 643 back 1080 differs at 999"),
    ]),
    ("back: recalls: keys in 70", &[
        ("<643", "accepted dispositions 1 cents 45000 records 9 kind recalls length 643"),
        ("<>", "there 643 back 1080 same"),
    ]),
    ("back: recalls: 22 in the second 14", &[
        ("<0", "refused 22 record 9 position 29"),
        ("<2000", "refused 22 record 9 position 29"),
        ("<>", "refused 22 record 9 position 29"),
    ]),
    ("back: recalls: EF as of requests", &[
        ("<0", "refused 13 record 16 position 53"),
        ("<2000", "refused 13 record 16 position 53"),
        ("<>", "refused 13 record 16 position 53"),
    ]),
    ("back: recalls: 11 in the second 14", &[
        ("<0", "refused 11 record 9 position 92"),
        ("<2000", "refused 11 record 9 position 92"),
        ("<>", "refused 11 record 9 position 92"),
    ]),
    ("back: recalls: 25 in the second 14", &[
        ("<0", "refused 25 record 9 position 34"),
        ("<2000", "refused 25 record 9 position 34"),
        ("<>", "refused 25 record 9 position 34"),
    ]),
];

/// A line of the input that asks, and its line of the output.
type Line<'a> = (&'a str, &'a str);

/// A case as the two files have it.
struct Given<'a> {
    name: &'a str,
    bytes: Vec<u8>,
    asked: Vec<Line<'a>>,
}

/// The cases of the two files.
fn given<'a>(input: &'a str, output: &'a str) -> Vec<Given<'a>> {
    let from = |case: Vector<'a>| {
        let bytes = unescaped(case.bytes);
        assert_eq!(case.told, format!("bytes {}", bytes.len()));
        Given {
            name: case.name,
            bytes,
            asked: case.asked,
        }
    };
    let cases = vectors(input, output, &['<', '>']);
    cases.into_iter().map(from).collect()
}

/// The bytes in quotes at the end of a line; none where there are no quotes.
fn quoted(line: &str) -> Option<Vec<u8>> {
    let (_, text) = line.split_once(" \"")?;
    Some(unescaped(text.strip_suffix('"').unwrap()))
}

fn is_one_byte(name: &str) -> bool {
    let byte = name.strip_prefix("kind ");
    byte.is_some_and(|byte| byte.parse::<u8>().is_ok())
}

#[test]
fn every_answer_is_the_literal_one() {
    let (input, output) = list_files();
    let given = given(&input, &output);
    let (one_byte, others): (Vec<_>, Vec<_>) =
        given.iter().partition(|case| is_one_byte(case.name));
    assert_eq!(one_byte.len(), 105);
    for case in one_byte {
        // Q has 49 bytes of the 111 for its body; the next is no kind.
        let line = match case.name {
            "kind 81" => "refused 20 record 2 position 0 length 0 kept 1264",
            _ => "refused 20 record 1 position 0 length 0 kept 1264",
        };
        assert_eq!(case.asked, [(">1200", line)], "{}", case.name);
    }
    assert_eq!(others.len(), DUE.len());
    for (case, (name, asked)) in others.iter().zip(&DUE) {
        assert_eq!(case.name, *name);
        assert_eq!(case.asked.len(), asked.len(), "{name}");
        for ((question, line), (question_due, due)) in case.asked.iter().zip(*asked) {
            assert_eq!(question, question_due, "{name}");
            assert!(is_line(question, line, due), "{name} {question}: {line}");
        }
    }
}

/// Whether a line is the due one, with the number of bytes kept: all those of
/// the room and of the 64 after it that the length leaves.
fn is_line(question: &str, line: &str, due: &str) -> bool {
    let Ok(room) = question[1..].parse::<usize>() else {
        return line == due;
    };
    let (due, len) = match due.split_once(" length ") {
        Some((_, len)) => (String::from(due), len.parse().unwrap()),
        None => (format!("{due} length 0"), 0),
    };
    let whole = format!("{due} kept {}", room + 64 - len);
    match line.split_once(" \"") {
        Some((start, _)) => start == whole || start.starts_with(&format!("{whole} adler ")),
        None => line == whole && len == 0,
    }
}

/// The carried positions of a kind, and the type of its record.
fn table(kind: u8) -> (&'static str, Vec<usize>) {
    let (record, first, others): (_, _, &[(usize, usize)]) = match kind {
        b'H' | b'Q' => ("IM", (4, 45), &[(105, 111)]),
        b'D' => ("14", (23, 28), &[(34, 46), (53, 69), (92, 113)]),
        b'S' => ("16", (11, 37), &[]),
        b'C' => ("20", (11, 106), &[]),
        b'B' => ("30", (11, 86), &[]),
        b'A' => ("40", (11, 120), &[]),
        b'R' => ("50", (11, 120), &[]),
        b'X' => ("59", (11, 120), &[]),
        b'K' => ("51", (11, 120), &[]),
        b'Z' => ("70", (94, 94), &[(96, 120)]),
        _ => panic!("no kind"),
    };
    let mut positions: Vec<usize> = (first.0..=first.1).collect();
    for &(first, last) in others {
        positions.extend(first..=last);
    }
    (record, positions)
}

/// What a list of whole items under one H or Q encodes.
fn encoded(mut list: &[u8]) -> Vec<u8> {
    let (recalls, header) = (list[0] == b'Q', list[1..50].to_vec());
    let (mut flow, mut count, mut cents) = (Vec::new(), 0, 0);
    while let Some((&kind, rest)) = list.split_first() {
        let (record_type, positions) = table(kind);
        let mut record = row(&[(2, record_type)]);
        if record_type == "IM" {
            record[113] = b'E';
        } else {
            count += u32::from(kind == b'D');
            record[3..10].copy_from_slice(format!("{count:07}").as_bytes());
        }
        if kind == b'D' {
            record[28..33].copy_from_slice(if recalls { b"07100" } else { b"07000" });
            record[46] = if recalls { b'+' } else { b'-' };
            record[47..52].copy_from_slice(&header[5..10]);
            record[119] = b'E';
            let amount = std::str::from_utf8(&rest[6..19]).unwrap();
            cents += amount.parse::<u64>().unwrap();
        }
        for (&position, &byte) in positions.iter().zip(rest) {
            record[position - 1] = byte;
        }
        flow.extend(record);
        list = &rest[positions.len()..];
    }
    let records = flow.len() / 120 + 1;
    let (negative, positive) = if recalls { (0, cents) } else { (cents, 0) };
    let counts = format!("{count:07}{negative:015}{positive:015}{records:07}");
    let mut trailer = row(&[(2, "EF"), (46, &counts), (114, "E")]);
    trailer[3..45].copy_from_slice(&header[..42]);
    flow.extend(trailer);
    flow
}

/// The list that a flow carries.
fn carried(flow: &[u8]) -> Vec<u8> {
    let mut list = Vec::new();
    let header = match &flow[148..153] {
        b"07100" => b'Q',
        _ => b'H',
    };
    for record in flow.chunks(120) {
        for kind in &[header, b'D', b'S', b'C', b'B', b'A', b'R', b'X', b'K', b'Z'] {
            let (record_type, positions) = table(*kind);
            if record[1..3] == *record_type.as_bytes() {
                list.push(*kind);
                list.extend(positions.iter().map(|position| record[position - 1]));
            }
        }
    }
    list
}

#[test]
fn every_output_is_what_is_encoded_or_carried() {
    let (input, output) = list_files();
    let (mut flows, mut lists) = (0, 0);
    for case in given(&input, &output) {
        for (question, line) in case.asked {
            let Some(written) = quoted(line) else {
                continue;
            };
            let due = if question.starts_with('>') {
                flows += 1;
                encoded(&case.bytes)
            } else {
                lists += 1;
                carried(&case.bytes)
            };
            assert!(
                line.contains(&format!(" length {} ", due.len())),
                "{}",
                case.name
            );
            if due.len() > 16_384 {
                assert!(line.contains(&format!(" adler {} ", adler(&due))));
                assert_eq!(written, due[due.len() - 120..]);
            } else {
                assert_eq!(written, due, "{}", case.name);
            }
        }
    }
    assert!(flows >= 40 && lists >= 50);
}

/// A flow comes again exactly where it is what its list encodes, and else differs
/// first where it is not; a list that is written always comes again.
#[test]
fn round_trips() {
    let (input, output) = list_files();
    let (mut canonical, mut others) = (0, 0);
    for case in given(&input, &output) {
        for (question, line) in case.asked {
            if !matches!(question, "<>" | "><") || line.starts_with("refused") {
                continue;
            }
            if question == "><" {
                let flow = encoded(&case.bytes);
                let due = format!("there {} back {} same", flow.len(), case.bytes.len());
                assert_eq!(line, due, "{}", case.name);
                continue;
            }
            let list = carried(&case.bytes);
            let again = encoded(&list);
            let lengths = format!("there {} back {} ", list.len(), again.len());
            let unlike = (0..again.len()).find(|&i| again[i] != case.bytes[i]);
            match unlike {
                None => canonical += 1,
                Some(_) => others += 1,
            }
            let end = unlike.map_or(String::from("same"), |i| format!("differs at {i}"));
            assert_eq!(line, lengths + &end, "{}", case.name);
        }
    }
    assert!(canonical >= 20 && others >= 40);
}

/// Each number that writing and reading back can give, but 1 of writing, which
/// needs ten million items.
#[test]
fn every_number_comes() {
    let (input, output) = list_files();
    let lines: Vec<Line> = input.lines().zip(output.lines()).collect();
    for (sign, numbers) in [
        ('>', &[2, 3, 5, 6, 7, 8, 10, 11, 17, 20, 21, 25][..]),
        (
            '<',
            &[1, 2, 3, 4, 5, 6, 7, 8, 9, 10, 11, 12, 13, 14, 21, 22, 25],
        ),
    ] {
        for number in numbers {
            let start = format!("refused {number} ");
            let given = |line: &&Line| line.0.starts_with(sign) && line.1.starts_with(&start);
            assert!(lines.iter().filter(given).count() >= 2, "{sign} {number}");
        }
    }
}

/// The codes of the D items of a list of whole items.
fn codes(mut list: &[u8]) -> Vec<String> {
    let mut codes = Vec::new();
    while let Some((&kind, rest)) = list.split_first() {
        if kind == b'D' {
            codes.push(String::from_utf8_lossy(&rest[36..41]).into_owned());
        }
        list = &rest[table(kind).1.len()..];
    }
    codes
}

/// Document 02, E4, in writing: a code and none in either order, under H and
/// under Q; each byte, and the second and the last of three, under H.
#[test]
fn company_codes_differ_in_every_way() {
    let (input, output) = list_files();
    let given = given(&input, &output);
    let shown = |letter: u8, codes_due: &[&str], due: &str| {
        let named = |case: &&Given| case.name.starts_with("code: ");
        let mut named = given.iter().filter(named);
        named.any(|case| {
            let line = case.asked[0].1;
            case.bytes[0] == letter && codes(&case.bytes) == codes_due && line.starts_with(due)
        })
    };
    let (code, none) = ("AB123", "     ");
    let at_9 = "refused 11 record 9 position 92 ";
    for letter in *b"HQ" {
        assert!(shown(letter, &[none, none], "accepted "));
        assert!(shown(letter, &[none, code], at_9));
        assert!(shown(letter, &[code, none], at_9));
        assert!(shown(
            letter,
            &[code, none],
            "refused 5 record 9 position 53 "
        ));
    }
    for other in [
        "BB123", "AC123", "AB223", "AB133", "AB124", "aB123", "AB12 ", " AB12",
    ] {
        assert!(shown(b'H', &[code, other], at_9), "{other}");
    }
    assert!(shown(b'H', &[code, none, code], at_9));
    for codes in [[code, code, none], [none, none, code]] {
        assert!(shown(b'H', &codes, "refused 11 record 16 position 92 "));
    }
}

/// Writing never gives 22: an H or Q tells the kind of every D behind it, and
/// another one is refused by 3 before.
#[test]
fn writing_never_gives_22() {
    let (input, output) = list_files();
    let written = input.lines().zip(output.lines());
    let mut written = written.filter(|(question, _)| question.starts_with('>'));
    assert!(written.all(|(_, line)| !line.starts_with("refused 22 ")));
}

/// The file has the bytes of the cases, and fits the program that reads it.
#[test]
fn the_input_gives_back_the_cases() {
    let (input, output) = list_files();
    let given = given(&input, &output);
    let cases = cases();
    assert_eq!(given.len(), cases.len());
    for (given, case) in given.iter().zip(&cases) {
        assert_eq!(
            (given.name, &given.bytes),
            (case.name.as_str(), &case.bytes)
        );
        assert!(case.bytes.len() <= 131_072);
        assert!(case.name.is_ascii() && case.name.len() < 52);
        let asked = case.asked.iter().map(|asked| match asked {
            Asked::Write(room) => format!(">{room}"),
            Asked::ReadBack(room) => format!("<{room}"),
            Asked::WriteAndBack => String::from("><"),
            Asked::BackAndWrite => String::from("<>"),
        });
        assert!(asked.eq(given.asked.iter().map(|asked| asked.0)));
        let fits = |asked: &Asked| match asked {
            Asked::Write(room) | Asked::ReadBack(room) => room + 64 <= 131_072,
            _ => true,
        };
        assert!(case.asked.iter().all(fits));
    }
    let names: HashSet<&str> = given.iter().map(|case| case.name).collect();
    assert_eq!(names.len(), given.len());
    assert!(input.len() < 600_000);
    assert!(input.contains("# empty list\n=\n>0\n"));
}

/// The example of document 01 is the one of the samples.
#[test]
fn the_two_rents_are_the_example() {
    let cases = cases();
    let bytes_of = |name: &str| &cases.iter().find(|case| case.name == name).unwrap().bytes;
    assert_eq!(bytes_of("two rents"), &two_rents_list());
    assert_eq!(bytes_of("back: two rents"), &two_rents().bytes());
    assert_eq!(bytes_of("recalls: two rents"), &two_recalls_list());
    assert_eq!(bytes_of("back: recalls: two rents"), &two_recalls().bytes());
}
