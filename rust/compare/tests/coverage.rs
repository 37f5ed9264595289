//! The run without arguments meets every kind and number that a call can give.

use compare::entry::Answered;
use compare::evenings::usual;
use compare::tally::Tally;
use compare::{run, Entry, Sides};
use oracle::rng::Rng;
use oracle::FlowKind;

/// A part of that run is enough for the calls on one flow, field or list.
#[test]
fn every_kind_and_number_comes() {
    let tally = run(&Sides::REAL, 1, 250_000).expect("the two agree");
    let mut missed = tally.missed();
    missed.retain(|(entry, _)| !entry.of_two_flows());
    assert_eq!(missed, []);
}

/// As many pairs of flows as a part of that run are enough for the calls on
/// them: each number of reading for either flow, 27, 28, 34, and 21 or 15.
#[test]
fn every_kind_and_number_comes_of_two_flows() {
    let mut tally = Tally::default();
    for index in 0..8_000 {
        let pair = usual(&mut Rng::for_case(1, index), 257);
        pair.check(&Sides::REAL, &mut tally).expect("the two agree");
    }
    let mut missed = tally.missed();
    missed.retain(|(entry, _)| entry.of_two_flows());
    assert_eq!(missed, []);
}

/// A run that is too short is told from it.
#[test]
fn a_number_missed_is_named() {
    let missed = Tally::default().missed();
    let refused = |(_, answered): &&(_, Answered)| matches!(answered, Answered::Refused(_));
    assert_eq!(
        missed.iter().filter(refused).count(),
        1 + 2 + 2 + 16 + 17 + 12 + 17 + 19 + 18 + 20 + 20
    );
    let of_new = |(_, answered): &&(_, Answered)| matches!(answered, Answered::RefusedNew(_));
    assert_eq!(missed.iter().filter(of_new).count(), 16 + 16);
    let tally = run(&Sides::REAL, 1, 200).expect("the two agree");
    let change = Entry::Change { k: 0, cents: 0 };
    assert!(tally.missed().contains(&(change, Answered::Refused(17))));
}

/// The calls on two flows and the numbers that only they give.
#[test]
fn the_numbers_of_two_flows() {
    let line = Entry::Line { n: 0 };
    for entry in Entry::ALL {
        for number in [27, 28, 34] {
            assert_eq!(entry.gives(Answered::Refused(number)), entry.of_two_flows());
            assert!(!entry.gives(Answered::RefusedNew(number)));
        }
    }
    assert!(Entry::Compare.gives(Answered::Refused(21)) && !line.gives(Answered::Refused(21)));
    assert!(line.gives(Answered::Refused(15)) && !Entry::Compare.gives(Answered::Refused(15)));
}

/// Reading, writing, reading back, change and withdrawal tell two kinds; two
/// flows to be compared are of either.
#[test]
fn a_kind_missed_is_named() {
    let missed = Tally::default().missed();
    let kinds = |entry: Entry| {
        let of_entry = missed.iter().filter(|(of, _)| *of == entry);
        let accepted = of_entry.filter_map(|(_, answered)| match answered {
            Answered::Accepted(kind) => Some(*kind),
            Answered::Refused(_) | Answered::RefusedNew(_) => None,
        });
        accepted.collect::<Vec<_>>()
    };
    let both = vec![FlowKind::Requests, FlowKind::Recalls];
    let none = vec![];
    let due = [
        &none, &none, &none, &both, &none, &both, &both, &both, &both, &both, &both,
    ];
    assert_eq!(Entry::ALL.map(kinds).each_ref(), due);
}

/// Writing gives every record the kind of its header.
#[test]
fn writing_never_gives_22() {
    assert!(!Entry::Write.gives(Answered::Refused(22)));
    let tally = run(&Sides::REAL, 1, 100_000)
        .expect("the two agree")
        .to_string();
    let row = tally.lines().find(|row| row.starts_with("refused 22 "));
    let cells: Vec<&str> = row.unwrap().split_whitespace().skip(2).collect();
    assert_eq!(cells.len(), Entry::ALL.len());
    assert_eq!(cells[Entry::Write.index()], "-");
}

/// The columns of the table are those of the entry points.
#[test]
fn each_entry_point_has_its_place() {
    for (index, entry) in Entry::ALL.into_iter().enumerate() {
        assert_eq!(entry.index(), index);
    }
}
