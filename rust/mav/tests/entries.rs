//! The C interface itself: what each call returns, and that it writes all eight entries.

mod common;

use common::sample;
use mav::raw;

/// What a call returns, and the entries after it.
type Reply = (u8, raw::Entries);

/// Makes a call with an answer that holds no zero.
fn reply(call: impl FnOnce(&mut raw::Entries) -> u8) -> Reply {
    let mut answer = [u64::MAX; 8];
    let status = call(&mut answer);
    (status, answer)
}

/// The reply of a call without a kind, accepted or refused: four entries and four zeros.
fn due(status: u8, [a, b, c, length]: [u64; 4]) -> Reply {
    (status, [a, b, c, length, 0, 0, 0, 0])
}

/// The reply of an accepted call that tells the kind of flow: five entries and three zeros.
fn due_of(kind: u64, [a, b, c, length]: [u64; 4]) -> Reply {
    (1, [a, b, c, length, kind, 0, 0, 0])
}

/// The two rents as requests and as recalls, and the number of the kind.
const BOTH: [(&str, u64); 2] = [("two-rents", 1), ("two-rents-recall", 2)];

/// The flow and the list of a name.
fn flow_and_list(name: &str) -> (Vec<u8>, Vec<u8>) {
    let [flow, list] = ["flow", "list"].map(|end| sample(&format!("{name}.{end}")));
    (flow, list)
}

#[test]
fn fields() {
    let told = reply(|answer| raw::digits(b"0000016", answer));
    assert_eq!(told, due(1, [16, 0, 0, 0]));
    let told = reply(|answer| raw::digits(b"", answer));
    assert_eq!(told, due(0, [5, 0, 0, 0]));
    let told = reply(|answer| raw::amount(b"0000000045000", answer));
    assert_eq!(told, due(1, [45_000, 0, 0, 0]));
    let told = reply(|answer| raw::amount(b"45000", answer));
    assert_eq!(told, due(0, [5, 0, 0, 0]));
    let told = reply(|answer| raw::date(b"290228", answer));
    assert_eq!(told, due(1, [0, 0, 0, 0]));
    let told = reply(|answer| raw::date(b"290227", answer));
    assert_eq!(told, due(0, [8, 0, 0, 0]));
}

#[test]
fn reading_and_finding() {
    for (name, kind) in BOTH {
        let (flow, _) = flow_and_list(name);
        let told = reply(|answer| raw::read(&flow, answer));
        assert_eq!(told, due_of(kind, [2, 83_050, 16, 0]));
        let told = reply(|answer| raw::read(&flow[..1_800], answer));
        assert_eq!(told, due(0, [4, 16, 0, 0]));
        // Where a disposition stands, whatever the kind.
        let told = reply(|answer| raw::find(&flow, 2, answer));
        assert_eq!(told, due(1, [9, 7, 38_050, 0]));
        let told = reply(|answer| raw::find(&flow, 3, answer));
        assert_eq!(told, due(0, [15, 0, 0, 0]));
    }
}

#[test]
fn lists_tell_the_length_written() {
    for (name, kind) in BOTH {
        let (flow, list) = flow_and_list(name);
        let mut out = [0; 2_000];
        let told = reply(|answer| raw::write(&list, &mut out, answer));
        assert_eq!(told, due_of(kind, [2, 83_050, 16, 1_920]));
        let told = reply(|answer| raw::write(&list, &mut out[..1_919], answer));
        assert_eq!(told, due(0, [21, 0, 0, 0]));
        let told = reply(|answer| raw::list(&flow, &mut out, answer));
        assert_eq!(told, due_of(kind, [2, 83_050, 16, 1_236]));
        let told = reply(|answer| raw::list(&flow, &mut out[..1_235], answer));
        assert_eq!(told, due(0, [21, 0, 0, 0]));
    }
}

#[test]
fn a_change_tells_no_length() {
    for (name, kind) in BOTH {
        let (mut flow, _) = flow_and_list(name);
        let told = reply(|answer| raw::change(&mut flow, 2, 40_000, answer));
        assert_eq!(told, due_of(kind, [2, 85_000, 16, 0]));
        let told = reply(|answer| raw::change(&mut flow, 0, 40_000, answer));
        assert_eq!(told, due(0, [15, 0, 0, 0]));
    }
}

#[test]
fn a_withdrawal_tells_the_length_left() {
    for (name, kind) in BOTH {
        let (mut flow, _) = flow_and_list(name);
        let told = reply(|answer| raw::withdraw(&mut flow, 3, answer));
        assert_eq!(told, due(0, [15, 0, 0, 1_920]));
        let told = reply(|answer| raw::withdraw(&mut flow, 1, answer));
        assert_eq!(told, due_of(kind, [1, 38_050, 9, 1_080]));
        let told = reply(|answer| raw::withdraw(&mut flow[..1_080], 1, answer));
        assert_eq!(told, due(0, [18, 0, 0, 1_080]));
        let told = reply(|answer| raw::withdraw(&mut flow[..7], 1, answer));
        assert_eq!(told, due(0, [1, 0, 0, 7]));
    }
}

#[test]
fn every_call_on_a_refused_flow_tells_its_fault() {
    for (file, number, position) in [
        ("refused-22-kind.flow", 22, 29),
        ("refused-25-nothing.flow", 25, 34),
    ] {
        let mut flow = sample(file);
        let mut out = [0; 2_000];
        let refused = due(0, [number, 9, position, 0]);
        assert_eq!(reply(|answer| raw::read(&flow, answer)), refused);
        assert_eq!(reply(|answer| raw::find(&flow, 2, answer)), refused);
        assert_eq!(reply(|answer| raw::list(&flow, &mut out, answer)), refused);
        // Also before 16, and where the new amount would mend it.
        for cents in [0, 38_050] {
            let told = reply(|answer| raw::change(&mut flow, 2, cents, answer));
            assert_eq!(told, refused);
        }
        // Beside it stands the length of what was lent.
        let told = reply(|answer| raw::withdraw(&mut flow, 2, answer));
        assert_eq!(told, due(0, [number, 9, position, 1_920]));
    }
}
