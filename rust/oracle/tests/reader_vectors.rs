//! The reader's cases of `oracle vectors flow`, against answers written by hand
//! from documents 01 and 02 (E1, E4, E5), and the flows of edge sizes of `oracle
//! vectors flows`.

mod common;

use std::collections::HashSet;

use common::*;
use oracle::reader_cases::cases;
use oracle::vectors::reader_files;
use oracle::{generate, program, Answer};

/// Every case's name and the answer due, in the order of the file.
#[rustfmt::skip]
static DUE: [(&str, &str); 568] = [
    // Lengths.
    ("length 0", "refused 1 record 0 position 0"),
    ("length 1", "refused 1 record 0 position 0"),
    ("length 119", "refused 1 record 0 position 0"),
    ("length 121", "refused 1 record 0 position 0"),
    ("length 239", "refused 1 record 0 position 0"),
    ("length 1079", "refused 1 record 0 position 0"),
    ("length 1081", "refused 1 record 0 position 0"),
    ("length 1 of a bad byte", "refused 1 record 0 position 0"),
    ("length 121 and a bad first byte", "refused 1 record 0 position 0"),
    ("each record ended by a line feed", "refused 1 record 0 position 0"),
    // The order of records in whole flows.
    ("one disposition", "accepted dispositions 1 cents 45000 records 9 kind requests"),
    ("two dispositions", "accepted dispositions 2 cents 83050 records 16 kind requests"),
    ("two 59s", "accepted dispositions 1 cents 45000 records 10 kind requests"),
    ("five 59s", "accepted dispositions 1 cents 45000 records 13 kind requests"),
    ("16 and five 59s", "accepted dispositions 1 cents 45000 records 14 kind requests"),
    ("six 59s", "refused 3 record 11 position 2"),
    ("59 after 50", "refused 3 record 7 position 2"),
    ("50 after 59", "refused 3 record 7 position 2"),
    ("50 twice", "refused 3 record 7 position 2"),
    ("no 50 and no 59", "refused 3 record 6 position 2"),
    ("59 before and after 51", "refused 3 record 8 position 2"),
    ("no IM", "refused 3 record 1 position 2"),
    ("EF without a disposition", "refused 3 record 2 position 2"),
    ("EF alone", "refused 3 record 1 position 2"),
    ("EF twice", "refused 3 record 10 position 2"),
    ("14 after EF", "refused 3 record 10 position 2"),
    ("an unknown type after EF", "refused 3 record 10 position 2"),
    // Flows that end too early.
    ("no EF", "refused 4 record 9 position 0"),
    ("IM alone", "refused 4 record 2 position 0"),
    ("ends after 14", "refused 4 record 3 position 0"),
    ("ends after 16", "refused 4 record 4 position 0"),
    ("ends after 20", "refused 4 record 4 position 0"),
    ("ends after 16 and 20", "refused 4 record 5 position 0"),
    ("ends after 30", "refused 4 record 5 position 0"),
    ("ends after 40", "refused 4 record 6 position 0"),
    ("ends after 50", "refused 4 record 7 position 0"),
    ("ends after one 59", "refused 4 record 7 position 0"),
    ("ends after four 59s", "refused 4 record 10 position 0"),
    ("ends after five 59s", "refused 4 record 11 position 0"),
    ("ends after 50 and 51", "refused 4 record 8 position 0"),
    ("ends after 59 and 51", "refused 4 record 8 position 0"),
    ("ends after the second 14", "refused 4 record 10 position 0"),
    // Types at every place.
    ("ends with 14 at the start", "refused 3 record 1 position 2"),
    ("ends with 16 at the start", "refused 3 record 1 position 2"),
    ("ends with 20 at the start", "refused 3 record 1 position 2"),
    ("ends with 30 at the start", "refused 3 record 1 position 2"),
    ("ends with 40 at the start", "refused 3 record 1 position 2"),
    ("ends with 50 at the start", "refused 3 record 1 position 2"),
    ("ends with 59 at the start", "refused 3 record 1 position 2"),
    ("ends with 51 at the start", "refused 3 record 1 position 2"),
    ("ends with 70 at the start", "refused 3 record 1 position 2"),
    ("ends with XX at the start", "refused 3 record 1 position 2"),
    ("ends with IM after IM", "refused 3 record 2 position 2"),
    ("ends with 16 after IM", "refused 3 record 2 position 2"),
    ("ends with 20 after IM", "refused 3 record 2 position 2"),
    ("ends with 30 after IM", "refused 3 record 2 position 2"),
    ("ends with 40 after IM", "refused 3 record 2 position 2"),
    ("ends with 50 after IM", "refused 3 record 2 position 2"),
    ("ends with 59 after IM", "refused 3 record 2 position 2"),
    ("ends with 51 after IM", "refused 3 record 2 position 2"),
    ("ends with 70 after IM", "refused 3 record 2 position 2"),
    ("ends with XX after IM", "refused 3 record 2 position 2"),
    ("ends with IM after 14", "refused 3 record 3 position 2"),
    ("ends with 14 after 14", "refused 3 record 3 position 2"),
    ("ends with 30 after 14", "refused 3 record 3 position 2"),
    ("ends with 40 after 14", "refused 3 record 3 position 2"),
    ("ends with 50 after 14", "refused 3 record 3 position 2"),
    ("ends with 59 after 14", "refused 3 record 3 position 2"),
    ("ends with 51 after 14", "refused 3 record 3 position 2"),
    ("ends with 70 after 14", "refused 3 record 3 position 2"),
    ("ends with EF after 14", "refused 3 record 3 position 2"),
    ("ends with XX after 14", "refused 3 record 3 position 2"),
    ("ends with 14 after 16", "refused 3 record 4 position 2"),
    ("ends with 16 after 16", "refused 3 record 4 position 2"),
    ("ends with 30 after 16", "refused 3 record 4 position 2"),
    ("ends with EF after 16", "refused 3 record 4 position 2"),
    ("ends with 14 after 20", "refused 3 record 4 position 2"),
    ("ends with 16 after 20", "refused 3 record 4 position 2"),
    ("ends with 20 after 20", "refused 3 record 4 position 2"),
    ("ends with 40 after 20", "refused 3 record 4 position 2"),
    ("ends with EF after 20", "refused 3 record 4 position 2"),
    ("ends with 20 after 30", "refused 3 record 5 position 2"),
    ("ends with 30 after 30", "refused 3 record 5 position 2"),
    ("ends with 50 after 30", "refused 3 record 5 position 2"),
    ("ends with 59 after 30", "refused 3 record 5 position 2"),
    ("ends with 51 after 30", "refused 3 record 5 position 2"),
    ("ends with 30 after 40", "refused 3 record 6 position 2"),
    ("ends with 40 after 40", "refused 3 record 6 position 2"),
    ("ends with 70 after 40", "refused 3 record 6 position 2"),
    ("ends with 70 after 50", "refused 3 record 7 position 2"),
    ("ends with 14 after 50", "refused 3 record 7 position 2"),
    ("ends with 40 after 59", "refused 3 record 7 position 2"),
    ("ends with 70 after 59", "refused 3 record 7 position 2"),
    ("ends with 51 after 51", "refused 3 record 8 position 2"),
    ("ends with EF after 51", "refused 3 record 8 position 2"),
    ("ends with IM after 70", "refused 3 record 9 position 2"),
    ("ends with 70 after 70", "refused 3 record 9 position 2"),
    ("ends with 16 after 70", "refused 3 record 9 position 2"),
    ("ends with 20 after 70", "refused 3 record 9 position 2"),
    // The bounds of a byte.
    ("byte 92 in 20 at 107", "accepted dispositions 1 cents 45000 records 9 kind requests"),
    ("byte 126 in 20 at 107", "accepted dispositions 1 cents 45000 records 9 kind requests"),
    ("byte 0 in 20 at 107", "refused 2 record 3 position 107"),
    ("byte 10 in 20 at 107", "refused 2 record 3 position 107"),
    ("byte 31 in 20 at 107", "refused 2 record 3 position 107"),
    ("byte 127 in 20 at 107", "refused 2 record 3 position 107"),
    ("byte 128 in 20 at 107", "refused 2 record 3 position 107"),
    ("byte 255 in 20 at 107", "refused 2 record 3 position 107"),
    // Obligatory fields.
    ("IM 4-8 blank", "refused 7 record 1 position 4"),
    ("IM 20-39 blank", "refused 7 record 1 position 20"),
    ("16 at 15 blank", "refused 7 record 3 position 15"),
    ("16 26-37 blank", "refused 7 record 3 position 26"),
    ("20 11-34 blank", "refused 7 record 4 position 11"),
    ("30 11-40 blank", "refused 7 record 5 position 11"),
    ("59 11-65 blank", "refused 7 record 7 position 11"),
    ("obligatory first bytes alone", "accepted dispositions 1 cents 45000 records 10 kind requests"),
    ("obligatory last bytes alone", "accepted dispositions 1 cents 45000 records 10 kind requests"),
    // IM.
    ("IM 9-13 is '0123:'", "refused 5 record 1 position 9"),
    ("IM 9-13 is '/1234'", "refused 5 record 1 position 9"),
    ("IM 9-13 is '     '", "refused 5 record 1 position 9"),
    ("IM 9-13 is '0123 '", "refused 5 record 1 position 9"),
    ("IM 9-13 is ' 1234'", "refused 5 record 1 position 9"),
    ("IM date is '29022:'", "refused 5 record 1 position 14"),
    ("IM date is '290227'", "refused 8 record 1 position 14"),
    ("IM date is '290228'", "refused 4 record 2 position 0"),
    ("IM date is '290200'", "refused 4 record 2 position 0"),
    ("IM date is '311299'", "refused 4 record 2 position 0"),
    ("IM date is '300228'", "refused 8 record 1 position 14"),
    ("IM date is '310426'", "refused 8 record 1 position 14"),
    ("IM date is '320126'", "refused 8 record 1 position 14"),
    ("IM date is '000126'", "refused 8 record 1 position 14"),
    ("IM date is '010026'", "refused 8 record 1 position 14"),
    ("IM date is '011326'", "refused 8 record 1 position 14"),
    ("IM date is '290299'", "refused 8 record 1 position 14"),
    ("IM date is '/90228'", "refused 5 record 1 position 14"),
    ("IM date is '      '", "refused 5 record 1 position 14"),
    ("IM date is '2902 7'", "refused 5 record 1 position 14"),
    ("IM 105-111 is '1$05678'", "accepted dispositions 1 cents 45000 records 9 kind requests"),
    ("IM 105-111 is '2$05678'", "refused 6 record 1 position 105"),
    ("IM 105-111 is '1E05678'", "refused 6 record 1 position 106"),
    ("IM 105-111 is '1$0567:'", "refused 5 record 1 position 107"),
    ("IM 105-111 is '1$00000'", "refused 4 record 2 position 0"),
    ("IM 105-111 is '0$05678'", "refused 6 record 1 position 105"),
    ("IM 105-111 is ' $05678'", "refused 6 record 1 position 105"),
    ("IM 105-111 is '1 05678'", "refused 6 record 1 position 106"),
    ("IM 105-111 is '1#05678'", "refused 6 record 1 position 106"),
    ("IM 105-111 is '1$/5678'", "refused 5 record 1 position 107"),
    ("IM 105-111 is '1$0567 '", "refused 5 record 1 position 107"),
    ("IM 105-111 is '1$     '", "refused 5 record 1 position 107"),
    ("IM 105-111 is '      1'", "refused 6 record 1 position 105"),
    ("IM 105-111 is '1      '", "refused 6 record 1 position 106"),
    ("IM 105-111 is ' $     '", "refused 6 record 1 position 105"),
    ("IM 105-111 is '2E0567A'", "refused 6 record 1 position 105"),
    ("IM 105-111 is '1E0567A'", "refused 6 record 1 position 106"),
    ("IM at 114 is 'L'", "refused 6 record 1 position 114"),
    ("IM at 114 is ' '", "refused 6 record 1 position 114"),
    ("IM at 114 is 'e'", "refused 6 record 1 position 114"),
    ("IM at 114 is 'D'", "refused 6 record 1 position 114"),
    ("IM at 114 is 'F'", "refused 6 record 1 position 114"),
    // 14.
    ("14 number is '       '", "refused 5 record 2 position 4"),
    ("14 number is '/000001'", "refused 5 record 2 position 4"),
    ("14 number is '000001 '", "refused 5 record 2 position 4"),
    ("14 number is '9999999'", "refused 9 record 2 position 4"),
    ("14 number is '00000001'", "refused 9 record 2 position 4"),
    ("14 date is '29022:'", "refused 5 record 2 position 23"),
    ("14 date is '290227'", "refused 8 record 2 position 23"),
    ("14 date is '290228'", "refused 4 record 3 position 0"),
    ("14 date is '290200'", "refused 4 record 3 position 0"),
    ("14 date is '010100'", "refused 4 record 3 position 0"),
    ("14 date is '311299'", "refused 4 record 3 position 0"),
    ("14 date is '300426'", "refused 4 record 3 position 0"),
    ("14 date is '300228'", "refused 8 record 2 position 23"),
    ("14 date is '310426'", "refused 8 record 2 position 23"),
    ("14 date is '310626'", "refused 8 record 2 position 23"),
    ("14 date is '310926'", "refused 8 record 2 position 23"),
    ("14 date is '311126'", "refused 8 record 2 position 23"),
    ("14 date is '320126'", "refused 8 record 2 position 23"),
    ("14 date is '000126'", "refused 8 record 2 position 23"),
    ("14 date is '010026'", "refused 8 record 2 position 23"),
    ("14 date is '011326'", "refused 8 record 2 position 23"),
    ("14 date is '290299'", "refused 8 record 2 position 23"),
    ("14 date is '/90228'", "refused 5 record 2 position 23"),
    ("14 date is '      '", "refused 5 record 2 position 23"),
    ("14 date is '2902 7'", "refused 5 record 2 position 23"),
    ("14 29-33 is '07100'", "refused 6 record 2 position 47"),
    ("14 29-33 is '07200'", "refused 6 record 2 position 29"),
    ("14 29-33 is '07001'", "refused 6 record 2 position 29"),
    ("14 29-33 is '17000'", "refused 6 record 2 position 29"),
    ("14 29-33 is '     '", "refused 6 record 2 position 29"),
    ("14 29-33 is '0700O'", "refused 6 record 2 position 29"),
    ("14 29-33 is '7000 '", "refused 6 record 2 position 29"),
    ("14 29-33 is '07006'", "refused 6 record 2 position 29"),
    ("14 29-33 is '07008'", "refused 6 record 2 position 29"),
    ("14 29-33 is '07010'", "refused 6 record 2 position 29"),
    ("14 29-33 is '07011'", "refused 6 record 2 position 29"),
    ("14 29-33 is '00000'", "refused 6 record 2 position 29"),
    ("14 amount is '0000000450.00'", "refused 5 record 2 position 34"),
    ("14 amount is '000000004500:'", "refused 5 record 2 position 34"),
    ("14 amount is '/000000045000'", "refused 5 record 2 position 34"),
    ("14 amount is '             '", "refused 5 record 2 position 34"),
    ("14 amount is '        45000'", "refused 5 record 2 position 34"),
    ("14 amount is '45000        '", "refused 5 record 2 position 34"),
    ("14 amount is '+000000045000'", "refused 5 record 2 position 34"),
    ("14 amount is '0000000000001'", "refused 4 record 3 position 0"),
    ("14 amount is '0000001000000'", "refused 4 record 3 position 0"),
    ("14 amount is '1000000000000'", "refused 4 record 3 position 0"),
    ("14 at 47 is '+'", "refused 6 record 2 position 47"),
    ("14 at 47 is ' '", "refused 6 record 2 position 47"),
    ("14 at 47 is ','", "refused 6 record 2 position 47"),
    ("14 at 47 is '.'", "refused 6 record 2 position 47"),
    ("14 at 47 is '0'", "refused 6 record 2 position 47"),
    ("14 48-52 is '0123:'", "refused 5 record 2 position 48"),
    ("14 48-52 is '01235'", "refused 10 record 2 position 48"),
    ("14 48-52 is '/1234'", "refused 5 record 2 position 48"),
    ("14 48-52 is '     '", "refused 5 record 2 position 48"),
    ("14 48-52 is '1234 '", "refused 5 record 2 position 48"),
    ("14 48-52 is '9999A'", "refused 5 record 2 position 48"),
    ("14 48-52 is '11234'", "refused 10 record 2 position 48"),
    ("14 48-52 is '00000'", "refused 10 record 2 position 48"),
    ("14 53-57 is '     '", "accepted dispositions 1 cents 45000 records 9 kind requests"),
    ("14 53-57 is '024  '", "refused 5 record 2 position 53"),
    ("14 53-57 is '00000'", "refused 4 record 3 position 0"),
    ("14 53-57 is '99999'", "refused 4 record 3 position 0"),
    ("14 53-57 is '0240 '", "refused 5 record 2 position 53"),
    ("14 53-57 is ' 2400'", "refused 5 record 2 position 53"),
    ("14 53-57 is '    0'", "refused 5 record 2 position 53"),
    ("14 53-57 is '0    '", "refused 5 record 2 position 53"),
    ("14 53-57 is '0240:'", "refused 5 record 2 position 53"),
    ("14 53-57 is '/2400'", "refused 5 record 2 position 53"),
    ("14 53-57 is 'ABCDE'", "refused 5 record 2 position 53"),
    ("14 at 97 is ' '", "accepted dispositions 1 cents 45000 records 9 kind requests"),
    ("14 at 97 is '9'", "accepted dispositions 1 cents 45000 records 9 kind requests"),
    ("14 at 97 is '0'", "refused 6 record 2 position 97"),
    ("14 at 97 is '1'", "refused 4 record 3 position 0"),
    ("14 at 97 is '2'", "refused 4 record 3 position 0"),
    ("14 at 97 is '3'", "refused 4 record 3 position 0"),
    ("14 at 97 is '4'", "refused 4 record 3 position 0"),
    ("14 at 97 is '5'", "refused 4 record 3 position 0"),
    ("14 at 97 is '6'", "refused 4 record 3 position 0"),
    ("14 at 97 is '7'", "refused 6 record 2 position 97"),
    ("14 at 97 is '8'", "refused 6 record 2 position 97"),
    ("14 at 97 is 'A'", "refused 6 record 2 position 97"),
    ("14 at 97 is '/'", "refused 6 record 2 position 97"),
    ("14 at 97 is ':'", "refused 6 record 2 position 97"),
    ("14 at 97 is '!'", "refused 6 record 2 position 97"),
    ("14 at 120 is 'L'", "refused 6 record 2 position 120"),
    ("14 at 120 is ' '", "refused 6 record 2 position 120"),
    ("14 at 120 is 'e'", "refused 6 record 2 position 120"),
    ("14 at 120 is 'D'", "refused 6 record 2 position 120"),
    ("14 at 120 is 'F'", "refused 6 record 2 position 120"),
    // 16.
    ("16 11-12 is 'SM'", "accepted dispositions 1 cents 45000 records 10 kind requests"),
    ("16 11-12 is 'DE'", "refused 6 record 3 position 11"),
    ("16 11-12 is 'IT'", "refused 4 record 4 position 0"),
    ("16 11-12 is 'IM'", "refused 6 record 3 position 11"),
    ("16 11-12 is 'ST'", "refused 6 record 3 position 11"),
    ("16 11-12 is 'it'", "refused 6 record 3 position 11"),
    ("16 11-12 is 'sm'", "refused 6 record 3 position 11"),
    ("16 11-12 is '  '", "refused 6 record 3 position 11"),
    ("16 11-12 is 'TI'", "refused 6 record 3 position 11"),
    ("16 13-14 is '6:'", "refused 5 record 3 position 13"),
    ("16 13-14 is '00'", "refused 4 record 4 position 0"),
    ("16 13-14 is '/0'", "refused 5 record 3 position 13"),
    ("16 13-14 is '  '", "refused 5 record 3 position 13"),
    ("16 13-14 is ' 0'", "refused 5 record 3 position 13"),
    ("16 13-14 is '0 '", "refused 5 record 3 position 13"),
    ("16 at 15 is '0'", "refused 4 record 4 position 0"),
    ("16 at 15 is '~'", "refused 4 record 4 position 0"),
    ("16 16-20 is '0123:'", "refused 5 record 3 position 16"),
    ("16 16-20 is '01235'", "refused 10 record 3 position 16"),
    ("16 16-20 is '/1234'", "refused 5 record 3 position 16"),
    ("16 16-20 is '     '", "refused 5 record 3 position 16"),
    ("16 16-20 is '9999A'", "refused 5 record 3 position 16"),
    ("16 16-20 is '11234'", "refused 10 record 3 position 16"),
    ("16 16-20 is '00000'", "refused 10 record 3 position 16"),
    ("16 21-25 is '0240:'", "refused 5 record 3 position 21"),
    ("16 21-25 is '00000'", "refused 6 record 3 position 21"),
    ("16 21-25 is '00001'", "refused 4 record 4 position 0"),
    ("16 21-25 is '99999'", "refused 4 record 4 position 0"),
    ("16 21-25 is '10000'", "refused 4 record 4 position 0"),
    ("16 21-25 is '/0000'", "refused 5 record 3 position 21"),
    ("16 21-25 is '0000 '", "refused 5 record 3 position 21"),
    ("16 21-25 is '     '", "refused 5 record 3 position 21"),
    // 70.
    ("70 at 94 is 'P'", "accepted dispositions 1 cents 45000 records 9 kind requests"),
    ("70 at 94 is 'A'", "refused 6 record 8 position 94"),
    ("70 at 94 is 'B'", "refused 4 record 9 position 0"),
    ("70 at 94 is '!'", "refused 6 record 8 position 94"),
    ("70 at 94 is 'p'", "refused 6 record 8 position 94"),
    // EF.
    ("EF 4-8 is 'AB124'", "refused 10 record 9 position 4"),
    ("EF 9-13 is '11234'", "refused 10 record 9 position 9"),
    ("EF 9-13 is '0123A'", "refused 10 record 9 position 9"),
    ("EF date is '150327'", "refused 10 record 9 position 14"),
    ("EF date is '290227'", "refused 10 record 9 position 14"),
    ("EF 20-39 is 'SENT-MARCH'", "refused 10 record 9 position 20"),
    ("EF at 39 is 'X'", "refused 10 record 9 position 20"),
    ("EF count is '0000000'", "refused 12 record 9 position 46"),
    ("EF count is '0000002'", "refused 12 record 9 position 46"),
    ("EF count is '000000:'", "refused 5 record 9 position 46"),
    ("EF total is '000000000045001'", "refused 13 record 9 position 53"),
    ("EF total is '00000000004500:'", "refused 5 record 9 position 53"),
    ("EF total is '000000000000000'", "refused 13 record 9 position 53"),
    ("EF zeros is '000000000000001'", "refused 13 record 9 position 68"),
    ("EF zeros is '00000000000000:'", "refused 5 record 9 position 68"),
    ("EF zeros is '000000000045000'", "refused 13 record 9 position 68"),
    ("EF records is '0000008'", "refused 14 record 9 position 83"),
    ("EF records is '0000010'", "refused 14 record 9 position 83"),
    ("EF records is '000000:'", "refused 5 record 9 position 83"),
    ("EF at 114 is 'L'", "refused 10 record 9 position 114"),
    ("EF 40-45 is 'OTHER '", "accepted dispositions 1 cents 45000 records 9 kind requests"),
    // The number at 4-10.
    ("14 number is '000000:'", "refused 5 record 2 position 4"),
    ("14 number is '0000000'", "refused 9 record 2 position 4"),
    ("14 number is '0000002'", "refused 9 record 2 position 4"),
    ("14 number is '0000010'", "refused 9 record 2 position 4"),
    ("16 number is '000000:'", "refused 5 record 3 position 4"),
    ("16 number is '0000000'", "refused 9 record 3 position 4"),
    ("16 number is '0000002'", "refused 9 record 3 position 4"),
    ("20 number is '000000:'", "refused 5 record 3 position 4"),
    ("20 number is '0000000'", "refused 9 record 3 position 4"),
    ("20 number is '0000002'", "refused 9 record 3 position 4"),
    ("30 number is '000000:'", "refused 5 record 4 position 4"),
    ("30 number is '0000000'", "refused 9 record 4 position 4"),
    ("30 number is '0000002'", "refused 9 record 4 position 4"),
    ("40 number is '000000:'", "refused 5 record 5 position 4"),
    ("40 number is '0000000'", "refused 9 record 5 position 4"),
    ("40 number is '0000002'", "refused 9 record 5 position 4"),
    ("50 number is '000000:'", "refused 5 record 6 position 4"),
    ("50 number is '0000000'", "refused 9 record 6 position 4"),
    ("50 number is '0000002'", "refused 9 record 6 position 4"),
    ("59 number is '000000:'", "refused 5 record 7 position 4"),
    ("59 number is '0000000'", "refused 9 record 7 position 4"),
    ("59 number is '0000002'", "refused 9 record 7 position 4"),
    ("51 number is '000000:'", "refused 5 record 7 position 4"),
    ("51 number is '0000000'", "refused 9 record 7 position 4"),
    ("51 number is '0000002'", "refused 9 record 7 position 4"),
    ("70 number is '000000:'", "refused 5 record 8 position 4"),
    ("70 number is '0000000'", "refused 9 record 8 position 4"),
    ("70 number is '0000002'", "refused 9 record 8 position 4"),
    // Texts and amounts.
    ("40 50 51 blank", "accepted dispositions 1 cents 45000 records 9 kind requests"),
    ("amount 1", "accepted dispositions 1 cents 1 records 9 kind requests"),
    ("amount 9999999999999", "accepted dispositions 1 cents 9999999999999 records 9 kind requests"),
    ("amount 0", "refused 25 record 2 position 34"),
    ("amount 0 and the old total", "refused 25 record 2 position 34"),
    ("amount 0 in the second 14, wrong at 92", "refused 25 record 9 position 34"),
    // Types that are none.
    ("IM as im", "refused 3 record 1 position 2"),
    ("IM as MI", "refused 3 record 1 position 2"),
    ("IM as PC", "refused 3 record 1 position 2"),
    ("IM one position early", "refused 3 record 1 position 2"),
    ("only blanks", "refused 3 record 1 position 2"),
    ("14 as 41", "refused 3 record 2 position 2"),
    ("14 as 15", "refused 3 record 2 position 2"),
    ("14 as 24", "refused 3 record 2 position 2"),
    ("14 as blanks", "refused 3 record 2 position 2"),
    ("EF as ef", "refused 3 record 9 position 2"),
    ("a wrong type and a wrong number", "refused 3 record 3 position 2"),
    ("a wrong type and wrong fields", "refused 3 record 2 position 2"),
    // Bytes outside 32 to 126.
    ("byte 0 in IM at 1", "refused 2 record 1 position 1"),
    ("byte 128 in IM at 25", "refused 2 record 1 position 25"),
    ("byte 255 in IM at 120", "refused 2 record 1 position 120"),
    ("byte 0 in 14 at 2", "refused 2 record 2 position 2"),
    ("byte 127 in 14 at 3", "refused 2 record 2 position 3"),
    ("byte 127 in 14 at 3 and a wrong one at 2", "refused 2 record 2 position 3"),
    ("byte 31 in 14 at 10", "refused 2 record 2 position 10"),
    ("byte 0 in 14 at 40", "refused 2 record 2 position 40"),
    ("byte 10 in 14 at 120", "refused 2 record 2 position 120"),
    ("byte 31 in EF at 67", "refused 2 record 9 position 67"),
    ("byte 127 in EF at 120", "refused 2 record 9 position 120"),
    ("byte 0 at 30 and 255 at 90 in 20", "refused 2 record 3 position 30"),
    ("byte 255 at 30 and 0 at 90 in 20", "refused 2 record 3 position 30"),
    ("byte 127 at 1 and 31 at 120 in 20", "refused 2 record 3 position 1"),
    ("bad bytes earlier in each later record", "refused 2 record 1 position 99"),
    ("a bad byte at 120 and a wrong type", "refused 2 record 3 position 120"),
    ("a bad byte at 120 and a wrong number", "refused 2 record 3 position 120"),
    ("a bad byte at 120 and IM 4-8 blank", "refused 2 record 1 position 120"),
    // Faults of two records.
    ("6 in IM then 2 in 14", "refused 6 record 1 position 114"),
    ("7 in IM then 3 in 14", "refused 7 record 1 position 4"),
    ("2 in 14 then 3 in 20", "refused 2 record 2 position 60"),
    ("3 in 14 then 2 in 20", "refused 3 record 2 position 2"),
    ("6 in 14 then 2 in 20", "refused 6 record 2 position 120"),
    ("8 in 14 then 3 in 20", "refused 8 record 2 position 23"),
    ("10 in 14 then 3 in 20", "refused 10 record 2 position 48"),
    ("10 in 14 then 9 in 20", "refused 10 record 2 position 48"),
    ("9 in 14 then 5 in 20", "refused 9 record 2 position 4"),
    ("5 in 14 then 9 in 20", "refused 5 record 2 position 4"),
    ("9 in 20 then 5 in 30", "refused 9 record 3 position 4"),
    ("6 in 70 then 2 in EF", "refused 6 record 8 position 94"),
    ("11 in the second 14 then 2 in 20", "refused 11 record 9 position 92"),
    ("2 in 70 then 11 in the second 14", "refused 2 record 8 position 50"),
    // Records after EF.
    ("a bad byte in a 14 after EF", "refused 2 record 10 position 50"),
    ("a bad byte in an unknown type after EF", "refused 2 record 10 position 120"),
    ("EF counts the record after it", "refused 14 record 9 position 83"),
    ("12 in EF then 2 after it", "refused 12 record 9 position 46"),
    // The trailer's counts and sums.
    ("EF wrong in every field", "refused 10 record 9 position 4"),
    ("EF total and zeros swapped", "refused 13 record 9 position 53"),
    ("EF count of the 59s", "refused 12 record 10 position 46"),
    ("EF total of the first disposition", "refused 13 record 16 position 53"),
    // Numbers of the second disposition.
    ("second 14 has number 3", "refused 9 record 9 position 4"),
    ("second 20 has number 1", "refused 9 record 10 position 4"),
    // Causale and sign of the first 14 and of later ones.
    ("07200 and '+' in 14", "refused 6 record 2 position 29"),
    ("07100, 5 at 34 and '-' in 14", "refused 5 record 2 position 34"),
    ("07100, 25 at 34 and '-' in 14", "refused 25 record 2 position 34"),
    ("a recall second", "refused 22 record 9 position 29"),
    ("a recall second, each with its total", "refused 22 record 9 position 29"),
    ("a recall second, signed as a request", "refused 22 record 9 position 29"),
    ("a recall second, 5 at 34", "refused 22 record 9 position 29"),
    ("a recall second, 25 at 34", "refused 22 record 9 position 29"),
    ("a recall second, no date", "refused 8 record 9 position 23"),
    ("a recall second, a bad byte at 120", "refused 2 record 9 position 120"),
    ("a recall second, wrong at 48, 92 and 120", "refused 22 record 9 position 29"),
    ("a recall third", "refused 22 record 16 position 29"),
    ("07200 in the second 14", "refused 6 record 9 position 29"),
    ("a recall's sign in the second 14", "refused 6 record 9 position 47"),
    // Two faults of one record.
    ("IM wrong at 4 and 9", "refused 7 record 1 position 4"),
    ("IM wrong at 9 and 14", "refused 5 record 1 position 9"),
    ("IM wrong at 14 and 20", "refused 8 record 1 position 14"),
    ("IM wrong at 20 and 105", "refused 7 record 1 position 20"),
    ("IM wrong at 105 and 114", "refused 6 record 1 position 105"),
    ("14 wrong at 4 and 23", "refused 9 record 2 position 4"),
    ("14 wrong at 23 and 29", "refused 8 record 2 position 23"),
    ("14 wrong at 29 and 34", "refused 6 record 2 position 29"),
    ("14 wrong at 34 and 47", "refused 5 record 2 position 34"),
    ("14 wrong at 47 and 48", "refused 6 record 2 position 47"),
    ("14 wrong at 48 and 53", "refused 10 record 2 position 48"),
    ("14 wrong at 53 and 97", "refused 5 record 2 position 53"),
    ("14 wrong at 97 and 120", "refused 6 record 2 position 97"),
    ("second 14 wrong at 48 and 92", "refused 10 record 9 position 48"),
    ("second 14 wrong at 92 and 97", "refused 11 record 9 position 92"),
    ("16 wrong at 4 and 11", "refused 9 record 3 position 4"),
    ("16 wrong at 11 and 13", "refused 6 record 3 position 11"),
    ("16 wrong at 13 and 15", "refused 5 record 3 position 13"),
    ("16 wrong at 15 and 16", "refused 7 record 3 position 15"),
    ("16 wrong at 16 and 21", "refused 10 record 3 position 16"),
    ("16 wrong at 21 and 26", "refused 6 record 3 position 21"),
    ("20 wrong at 4 and 11", "refused 9 record 3 position 4"),
    ("30 wrong at 4 and 11", "refused 5 record 4 position 4"),
    ("59 wrong at 4 and 11", "refused 9 record 6 position 4"),
    ("70 wrong at 4 and 94", "refused 9 record 8 position 4"),
    ("EF wrong at 4 and 9", "refused 10 record 9 position 4"),
    ("EF wrong at 9 and 14", "refused 10 record 9 position 9"),
    ("EF wrong at 14 and 20", "refused 10 record 9 position 14"),
    ("EF wrong at 20 and 46", "refused 10 record 9 position 20"),
    ("EF wrong at 46 and 53", "refused 12 record 9 position 46"),
    ("EF wrong at 53 and 68", "refused 13 record 9 position 53"),
    ("EF digits first, wrong at 46 and 53", "refused 5 record 9 position 46"),
    ("EF digits first, wrong at 53 and 68", "refused 13 record 9 position 53"),
    ("EF digits first, wrong at 68 and 83", "refused 5 record 9 position 68"),
    ("EF digits last, wrong at 46 and 53", "refused 12 record 9 position 46"),
    ("EF digits last, wrong at 53 and 68", "refused 5 record 9 position 53"),
    ("EF digits last, wrong at 68 and 83", "refused 13 record 9 position 68"),
    ("EF digits last, wrong at 83 and 114", "refused 5 record 9 position 83"),
    // Whole dispositions, unchecked positions, a large total.
    ("the second disposition numbered 1", "refused 9 record 9 position 4"),
    ("the first disposition twice", "refused 9 record 9 position 4"),
    ("unchecked positions all ~", "accepted dispositions 2 cents 83050 records 17 kind requests"),
    ("101 largest amounts", "refused 13 record 709 position 53"),
    // Recalls.
    ("recall: one disposition", "accepted dispositions 1 cents 45000 records 9 kind recalls"),
    ("recall: two dispositions", "accepted dispositions 2 cents 83050 records 16 kind recalls"),
    ("recall: amount 1", "accepted dispositions 1 cents 1 records 9 kind recalls"),
    ("recall: amount 0", "refused 25 record 2 position 34"),
    ("recall: amount 0 in the second 14", "refused 25 record 9 position 34"),
    ("recall: ends after 14", "refused 4 record 3 position 0"),
    ("recall: 14 29-33 is '07000'", "refused 6 record 2 position 47"),
    ("recall: 14 29-33 is '07101'", "refused 6 record 2 position 29"),
    ("recall: 14 29-33 is '17100'", "refused 6 record 2 position 29"),
    ("recall: 14 29-33 is '0710O'", "refused 6 record 2 position 29"),
    ("recall: 14 29-33 is '7100 '", "refused 6 record 2 position 29"),
    ("recall: 14 at 47 is '-'", "refused 6 record 2 position 47"),
    ("recall: 14 at 47 is ' '", "refused 6 record 2 position 47"),
    ("recall: 14 at 47 is ','", "refused 6 record 2 position 47"),
    ("recall: 14 at 47 is '*'", "refused 6 record 2 position 47"),
    ("recall: 14 wrong at 23 and 29", "refused 8 record 2 position 23"),
    ("recall: 14 wrong at 29 and 34", "refused 6 record 2 position 29"),
    ("recall: 14 wrong at 29 and 47", "refused 6 record 2 position 29"),
    ("recall: 14 wrong at 47 and 48", "refused 6 record 2 position 47"),
    ("recall: a request second", "refused 22 record 9 position 29"),
    ("recall: a request second, signed as a recall", "refused 22 record 9 position 29"),
    ("recall: a request second, 25 at 34", "refused 22 record 9 position 29"),
    ("recall: 07200 in the second 14", "refused 6 record 9 position 29"),
    ("recall: a request's sign in the second 14", "refused 6 record 9 position 47"),
    ("recall: EF as of requests", "refused 13 record 9 position 53"),
    ("recall: EF with the total at both", "refused 13 record 9 position 53"),
    ("recall: EF with zeros at both", "refused 13 record 9 position 68"),
    ("recall: EF 53-67 is '00000000000000:'", "refused 5 record 9 position 53"),
    ("recall: EF 68-82 is '000000000044999'", "refused 13 record 9 position 68"),
    ("recall: EF 68-82 is '00000000004500:'", "refused 5 record 9 position 68"),
    ("recall: EF 5 at 53, 13 at 68", "refused 5 record 9 position 53"),
    ("recall: EF 13 at 53, 5 at 68", "refused 13 record 9 position 53"),
    ("recall: EF 13 at 68, 14 at 83", "refused 13 record 9 position 68"),
    // Amounts of zero with other faults, of requests and of recalls.
    ("zero: alone", "refused 25 record 2 position 34"),
    ("zero recall: alone", "refused 25 record 2 position 34"),
    ("zero: 2 at 1", "refused 2 record 2 position 1"),
    ("zero recall: 2 at 1", "refused 2 record 2 position 1"),
    ("zero: 2 in the amount", "refused 2 record 2 position 46"),
    ("zero recall: 2 in the amount", "refused 2 record 2 position 46"),
    ("zero: 2 at 120", "refused 2 record 2 position 120"),
    ("zero recall: 2 at 120", "refused 2 record 2 position 120"),
    ("zero: 3 at 2", "refused 3 record 2 position 2"),
    ("zero recall: 3 at 2", "refused 3 record 2 position 2"),
    ("zero: 5 at 4", "refused 5 record 2 position 4"),
    ("zero recall: 5 at 4", "refused 5 record 2 position 4"),
    ("zero: 9 at 4", "refused 9 record 2 position 4"),
    ("zero recall: 9 at 4", "refused 9 record 2 position 4"),
    ("zero: 5 at 23", "refused 5 record 2 position 23"),
    ("zero recall: 5 at 23", "refused 5 record 2 position 23"),
    ("zero: 8 at 23", "refused 8 record 2 position 23"),
    ("zero recall: 8 at 23", "refused 8 record 2 position 23"),
    ("zero: 6 at 29", "refused 6 record 2 position 29"),
    ("zero recall: 6 at 29", "refused 6 record 2 position 29"),
    ("zero: 6 in IM", "refused 6 record 1 position 114"),
    ("zero recall: 6 in IM", "refused 6 record 1 position 114"),
    ("zero: a blank first", "refused 5 record 2 position 34"),
    ("zero recall: a blank first", "refused 5 record 2 position 34"),
    ("zero: a blank last", "refused 5 record 2 position 34"),
    ("zero recall: a blank last", "refused 5 record 2 position 34"),
    ("zero: a letter inside", "refused 5 record 2 position 34"),
    ("zero recall: a letter inside", "refused 5 record 2 position 34"),
    ("zero: '-' first", "refused 5 record 2 position 34"),
    ("zero recall: '-' first", "refused 5 record 2 position 34"),
    ("zero: 6 at 47", "refused 25 record 2 position 34"),
    ("zero recall: 6 at 47", "refused 25 record 2 position 34"),
    ("zero: 5 at 48", "refused 25 record 2 position 34"),
    ("zero recall: 5 at 48", "refused 25 record 2 position 34"),
    ("zero: 10 at 48", "refused 25 record 2 position 34"),
    ("zero recall: 10 at 48", "refused 25 record 2 position 34"),
    ("zero: 5 at 53", "refused 25 record 2 position 34"),
    ("zero recall: 5 at 53", "refused 25 record 2 position 34"),
    ("zero: 6 at 97", "refused 25 record 2 position 34"),
    ("zero recall: 6 at 97", "refused 25 record 2 position 34"),
    ("zero: 6 at 120", "refused 25 record 2 position 34"),
    ("zero recall: 6 at 120", "refused 25 record 2 position 34"),
    ("zero: text beside it", "refused 25 record 2 position 34"),
    ("zero recall: text beside it", "refused 25 record 2 position 34"),
    ("zero: 2 in 20", "refused 25 record 2 position 34"),
    ("zero recall: 2 in 20", "refused 25 record 2 position 34"),
    ("zero: 3 in 20", "refused 25 record 2 position 34"),
    ("zero recall: 3 in 20", "refused 25 record 2 position 34"),
    ("zero: 9 in 20", "refused 25 record 2 position 34"),
    ("zero recall: 9 in 20", "refused 25 record 2 position 34"),
    // Company codes on all or on none.
    ("code: blanks in both", "accepted dispositions 2 cents 83050 records 16 kind requests"),
    ("code: '    ~' in both", "accepted dispositions 2 cents 83050 records 16 kind requests"),
    ("code: unlike IM 4-8", "refused 4 record 3 position 0"),
    ("code: blanks in the first 14", "refused 4 record 3 position 0"),
    ("code: blanks, then a code", "refused 11 record 9 position 92"),
    ("code: a code, then blanks", "refused 11 record 9 position 92"),
    ("code: a code, blanks, the same code", "refused 11 record 9 position 92"),
    ("code: twice a code, then blanks", "refused 11 record 16 position 92"),
    ("code: twice blanks, then a code", "refused 11 record 16 position 92"),
    ("code: other in byte 1", "refused 11 record 9 position 92"),
    ("code: other in byte 2", "refused 11 record 9 position 92"),
    ("code: other in byte 3", "refused 11 record 9 position 92"),
    ("code: other in byte 4", "refused 11 record 9 position 92"),
    ("code: other in byte 5", "refused 11 record 9 position 92"),
    ("code: lower case in byte 2", "refused 11 record 9 position 92"),
    ("code: a blank for byte 5", "refused 11 record 9 position 92"),
    ("code: moved by a place", "refused 11 record 9 position 92"),
    ("code: one byte at another place", "refused 11 record 9 position 92"),
    ("code: blanks, then byte 1 alone", "refused 11 record 9 position 92"),
    ("code: blanks, then byte 2 alone", "refused 11 record 9 position 92"),
    ("code: blanks, then byte 3 alone", "refused 11 record 9 position 92"),
    ("code: blanks, then byte 4 alone", "refused 11 record 9 position 92"),
    ("code: blanks, then byte 5 alone", "refused 11 record 9 position 92"),
    ("code: byte 5 alone, then blanks", "refused 11 record 9 position 92"),
    ("code: 2 in it", "refused 2 record 9 position 95"),
    ("code: 5 at 53", "refused 5 record 9 position 53"),
    ("code: 6 at 120", "refused 11 record 9 position 92"),
    ("code: 3 in the next record", "refused 11 record 9 position 92"),
    ("code recall: blanks, then a code", "refused 11 record 9 position 92"),
    ("code recall: a code, then blanks", "refused 11 record 9 position 92"),
    ("code recall: other in byte 3", "refused 11 record 9 position 92"),
    ("code recall: 10 at 48", "refused 10 record 9 position 48"),
    ("code recall: 5 at 53", "refused 5 record 9 position 53"),
    ("code recall: 6 at 97", "refused 11 record 9 position 92"),
];

/// The cases of a file: the name, and the line after it.
fn pairs(file: &str) -> Vec<(&str, &str)> {
    let lines: Vec<&str> = file.strip_suffix('\n').unwrap().split('\n').collect();
    assert!(lines.len().is_multiple_of(2));
    lines
        .chunks(2)
        .map(|pair| (pair[0].strip_prefix("# ").unwrap(), pair[1]))
        .collect()
}

/// The flow that a line of the input file holds. A byte that needs no hex
/// digits must have none.
fn decoded(line: &str) -> Vec<u8> {
    let mut bytes = line.strip_prefix('=').unwrap().bytes();
    let mut flow = Vec::new();
    while let Some(byte) = bytes.next() {
        assert!((32..=126).contains(&byte));
        if byte != b'\\' {
            flow.push(byte);
            continue;
        }
        let digit = |byte| b"0123456789abcdef".iter().position(|&b| b == byte);
        let mut next = || digit(bytes.next().unwrap()).unwrap() as u8;
        let byte = 16 * next() + next();
        assert!(byte == b'\\' || !(32..=126).contains(&byte));
        flow.push(byte);
    }
    flow
}

#[test]
fn every_answer_is_the_one_written_by_hand() {
    let (_, output) = reader_files();
    let given = pairs(&output);
    for (given, due) in given.iter().zip(&DUE) {
        assert_eq!(given, due);
    }
    assert_eq!(given.len(), DUE.len());
}

#[test]
fn the_input_gives_back_the_flows() {
    let (input, output) = reader_files();
    let (flows, answers) = (pairs(&input), pairs(&output));
    let cases = cases();
    assert_eq!(flows.len(), cases.len());
    assert_eq!(answers.len(), cases.len());
    for ((flow, answer), case) in flows.iter().zip(&answers).zip(&cases) {
        assert_eq!(flow.0, case.name);
        assert_eq!(answer.0, case.name);
        assert_eq!(decoded(flow.1), case.flow, "{}", case.name);
    }
    // The format's own edges: no byte at all, and bytes with hex digits.
    assert!(input.starts_with("# length 0\n=\n# length 1\n= \n"));
    assert!(input.contains("\n=\\00\n"));
    for escaped in ["\\0a", "\\1f", "\\5c", "\\7f", "\\80", "\\ff"] {
        assert!(input.contains(escaped));
    }
}

#[test]
fn names_are_unique_and_the_input_is_short() {
    let (input, output) = reader_files();
    let names: HashSet<&str> = pairs(&output).into_iter().map(|pair| pair.0).collect();
    assert_eq!(names.len(), DUE.len());
    assert!(names.iter().all(|name| name.is_ascii() && name.len() < 50));
    assert!(input.len() < 450_000);
}

#[test]
fn every_number_comes_three_times() {
    let (_, output) = reader_files();
    let given = pairs(&output);
    for number in (1..=14).chain([22, 25]) {
        let start = format!("refused {number} ");
        let with_number = given.iter().filter(|(_, line)| line.starts_with(&start));
        assert!(with_number.count() >= 3, "number {number}");
    }
}

/// Every check of document 01's table: the record, and number and position of
/// each refusal it can give.
#[rustfmt::skip]
const CHECKS: [(&str, &[(u8, u8)]); 11] = [
    ("IM", &[
        (7, 4), (5, 9), (5, 14), (8, 14), (7, 20), (6, 105), (6, 106), (5, 107), (6, 114),
    ]),
    ("14", &[
        (5, 4), (9, 4), (5, 23), (8, 23), (6, 29), (22, 29), (5, 34), (25, 34), (6, 47), (5, 48),
        (10, 48), (5, 53), (11, 92), (6, 97), (6, 120),
    ]),
    ("16", &[
        (5, 4), (9, 4), (6, 11), (5, 13), (7, 15), (5, 16), (10, 16), (5, 21), (6, 21), (7, 26),
    ]),
    ("20", &[(5, 4), (9, 4), (7, 11)]),
    ("30", &[(5, 4), (9, 4), (7, 11)]),
    ("40", &[(5, 4), (9, 4)]),
    ("50", &[(5, 4), (9, 4)]),
    ("59", &[(5, 4), (9, 4), (7, 11)]),
    ("51", &[(5, 4), (9, 4)]),
    ("70", &[(5, 4), (9, 4), (6, 94)]),
    ("EF", &[
        (10, 4), (10, 9), (10, 14), (10, 20), (5, 46), (12, 46), (5, 53), (13, 53), (5, 68),
        (13, 68), (5, 83), (14, 83), (10, 114),
    ]),
];

/// A whole flow here is one that ends with EF, so that the refusal is not
/// given for want of one.
#[test]
fn every_check_is_broken_in_a_whole_flow() {
    let cases = cases();
    for (kind, refusals) in CHECKS {
        for &(number, position) in refusals {
            let shown = cases.iter().zip(&DUE).any(|(case, (_, due))| {
                let records: Vec<&[u8]> = case.flow.chunks(120).collect();
                let whole = case.flow.len().is_multiple_of(120)
                    && records.last().is_some_and(|last| last[1..3] == *b"EF");
                let of_kind = |r: &usize| records[*r - 1][1..3] == *kind.as_bytes();
                let due_at = |r| refused(number, r as u64, position).to_string() == *due;
                whole && (1..=records.len()).filter(|r| of_kind(r)).any(due_at)
            });
            assert!(shown, "{kind}: {number} at {position}");
        }
    }
}

/// What the kind decides is broken in flows of either kind (document 02, E1):
/// causale and sign of the first 14 and of a later one, and both totals; and so
/// are the amount above zero (E5) and the company code (E4).
#[test]
fn every_check_of_the_kind_is_broken_in_both_kinds() {
    let cases = cases();
    for causale in [b"07000", b"07100"] {
        for (number, record, position) in [
            (6, 2, 47),
            (6, 9, 29),
            (22, 9, 29),
            (6, 9, 47),
            (25, 2, 34),
            (25, 9, 34),
            (11, 9, 92),
            (5, 9, 53),
            (13, 9, 53),
            (5, 9, 68),
            (13, 9, 68),
        ] {
            let due = refused(number, record, position).to_string();
            let shown = cases.iter().zip(&DUE).any(|(case, (_, line))| {
                let told = case.flow.get(148..153) == Some(&causale[..]);
                told && *line == due
            });
            assert!(shown, "{causale:?}: {due}");
        }
    }
}

/// The codes of the records 14 of a flow.
fn codes(flow: &[u8]) -> Vec<String> {
    let codes = in_openings(flow, 92, 96).into_iter();
    codes
        .map(|code| String::from_utf8_lossy(code).into_owned())
        .collect()
}

/// Document 02, E4: a code and none in either order, a code that differs in each
/// of its bytes, one of three, and other faults of the same record before it and
/// after it, each with the answer due.
#[test]
fn company_codes_differ_in_every_way() {
    let cases = cases();
    let shown = |codes_due: &[&str], due: Answer| {
        let due = due.to_string();
        cases
            .iter()
            .zip(&DUE)
            .any(|(case, (_, line))| codes(&case.flow) == codes_due && *line == due)
    };
    let (code, none) = ("AB123", "     ");
    assert!(shown(&[code, code], accepted(2, 83_050, 16)));
    assert!(shown(&[none, none], accepted(2, 83_050, 16)));
    assert!(shown(&[none], refused(4, 3, 0)));
    for other in [
        none, "BB123", "AC123", "AB223", "AB133", "AB124", "Ab123", "AB12 ", " AB12",
    ] {
        assert!(shown(&[code, other], refused(11, 9, 92)), "{other}");
    }
    for other in [code, "A    ", " A   ", "  A  ", "   A ", "    A"] {
        assert!(shown(&[none, other], refused(11, 9, 92)), "{other}");
    }
    assert!(shown(&[code, none, code], refused(11, 9, 92)));
    assert!(shown(&[code, code, none], refused(11, 16, 92)));
    assert!(shown(&[none, none, code], refused(11, 16, 92)));
    for (number, position) in [(10, 48), (5, 53), (25, 34), (22, 29)] {
        let due = refused(number, 9, position);
        assert!(shown(&[code, none], due), "{due}");
    }
    // 6 at 97 and at 120 come after 11.
    for (position, byte) in [(97, b'0'), (120, b'L')] {
        let both = cases.iter().zip(&DUE).any(|(case, (_, line))| {
            let record = case.flow.chunks(120).nth(8);
            let wrong = record.is_some_and(|r| r.get(position - 1) == Some(&byte));
            wrong && codes(&case.flow) == [code, none] && line.starts_with("refused 11 record 9 ")
        });
        assert!(both, "{position}");
    }
}

/// Length and line of each flow of an edge size; the answer to the right one
/// is counted from its records 14.
#[test]
fn edge_sizes() {
    const DUE: [(usize, &str); 9] = [
        (0, "refused 1 record 0 position 0"),
        (1, "refused 1 record 0 position 0"),
        (119, "refused 1 record 0 position 0"),
        (120, "refused 4 record 2 position 0"),
        (121, "refused 1 record 0 position 0"),
        (65_520, "accepted"),
        (65_520, "refused 14 record 546 position 83"),
        (65_521, "too long for this program"),
        (65_640, "too long for this program"),
    ];
    for seed in 1..=20 {
        let flows = generate::edge_flows(seed);
        assert_eq!(flows.len(), DUE.len());
        for (flow, (len, due)) in flows.iter().zip(DUE) {
            let due = match due {
                "accepted" => counted(flow),
                _ => String::from(due),
            };
            assert_eq!((flow.len(), program::line(flow)), (len, due));
        }
    }
}

/// The line of a right flow, from the amounts of its records 14.
fn counted(flow: &[u8]) -> String {
    let amounts: Vec<u64> = flow
        .chunks(120)
        .filter(|record| record[1..3] == *b"14")
        .map(|record| std::str::from_utf8(&record[33..46]).unwrap())
        .map(|digits| digits.parse().unwrap())
        .collect();
    let (count, cents) = (amounts.len(), amounts.iter().sum::<u64>());
    let kind = match &flow[148..153] {
        b"07000" => "requests",
        _ => "recalls",
    };
    format!("accepted dispositions {count} cents {cents} records 546 kind {kind}")
}
