//! Request lists: writing, reading back, round trips.

mod common;

use common::*;
use oracle::generate::{self, Size};
use oracle::list::{is_canonical, items, layout_of_kind, write_flow, write_list};
use oracle::reader::read;
use oracle::rng::Rng;
use oracle::Answer;

fn flow_of(list: &[u8]) -> Vec<u8> {
    let mut flow = vec![0; 120 * (items(list).count() + 1)];
    let (answer, len) = write_flow(list, &mut flow);
    assert_eq!(len, flow.len());
    assert_eq!(answer, read(&flow));
    flow
}

#[test]
fn bodies_have_the_lengths_of_the_table() {
    for (kind, record, len) in [
        (b'H', b"IM", 49),
        (b'Q', b"IM", 49),
        (b'D', b"14", 58),
        (b'S', b"16", 27),
        (b'C', b"20", 96),
        (b'B', b"30", 76),
        (b'A', b"40", 110),
        (b'R', b"50", 110),
        (b'X', b"59", 110),
        (b'K', b"51", 110),
        (b'Z', b"70", 26),
    ] {
        let layout = layout_of_kind(kind).unwrap();
        assert_eq!((&layout.record, layout.body_len()), (record, len));
    }
    let kinds = (0..=255).filter(|&kind| layout_of_kind(kind).is_some());
    assert_eq!(kinds.count(), 11);
}

#[test]
fn the_two_rent_list_both_ways() {
    assert_eq!(two_rents_list().len(), 50 + 2 * 593);
    assert_eq!(list_of(&two_rents().bytes()), two_rents_list());
    assert_eq!(flow_of(&two_rents_list()), two_rents().bytes());
    assert_eq!(list_of(&two_recalls().bytes()), two_recalls_list());
    assert_eq!(flow_of(&two_recalls_list()), two_recalls().bytes());
}

/// Every position carried comes back; every other is blank or fixed again.
#[test]
fn exactly_the_carried_positions_come_back() {
    let carried = |kind: &[u8], position: usize| match kind {
        b"IM" => matches!(position, 4..=45 | 105..=111),
        b"14" => matches!(position, 23..=28 | 34..=46 | 53..=69 | 92..=113),
        b"16" => matches!(position, 11..=37),
        b"20" => matches!(position, 11..=106),
        b"30" => matches!(position, 11..=86),
        b"70" => matches!(position, 94 | 96..=120),
        b"EF" => false,
        _ => position > 10,
    };
    let flows = [all_types().bytes(), all_types_recalled().bytes()];
    for (right, index) in flows.iter().flat_map(|f| (0..f.len()).map(move |i| (f, i))) {
        assert_eq!(flow_of(&list_of(right)), *right);
        let mut flow = right.clone();
        flow[index] = if flow[index] == b'~' { b'!' } else { b'~' };
        if let Answer::Refused { .. } = read(&flow) {
            continue;
        }
        let start = index / 120 * 120;
        let kind = &right[start + 1..start + 3];
        let comes_back = carried(kind, index - start + 1);
        // The trailer takes 40-45 from the header's list.
        let trailer_differs = (39..45).contains(&index);
        assert_eq!(is_canonical(&flow), comes_back && !trailer_differs);
        let mut due = if comes_back {
            flow.clone()
        } else {
            right.clone()
        };
        if trailer_differs {
            due[20 * 120 + index] = flow[index];
        }
        assert_eq!(flow_of(&list_of(&flow)), due, "index {index}");
    }
}

#[test]
fn the_output_beyond_the_length_is_unchanged() {
    let mut out = vec![b'#'; 2_500];
    let flow = two_rents().bytes();
    let (answer, len) = write_list(&flow, &mut out);
    assert_eq!((answer, len), (accepted(2, 83_050, 16), 1_236));
    assert_eq!(&out[..len], two_rents_list());
    assert!(out[len..].iter().all(|&byte| byte == b'#'));
    let mut exact = vec![b'#'; 1_236];
    assert_eq!(write_list(&flow, &mut exact), (answer, 1_236));
}

#[test]
fn a_refused_flow_has_no_list() {
    let mut out = vec![b'#'; 3_000];
    let flow = two_rents().with(11, 4, b"0000003").bytes();
    assert_eq!(write_list(&flow, &mut out), (refused(9, 11, 4), 0));
    assert_eq!(write_list(&flow[..1_919], &mut out), (refused(1, 0, 0), 0));
    assert_eq!(write_list(&[], &mut out), (refused(1, 0, 0), 0));
    assert!(out.iter().all(|&byte| byte == b'#'));
}

#[test]
fn an_empty_list() {
    let mut out = vec![b'#'; 120];
    assert_eq!(write_flow(&[], &mut out), (refused(3, 1, 2), 0));
    assert_eq!(write_flow(&[], &mut out[..119]), (refused(21, 0, 0), 0));
    assert_eq!(out, [b'#'; 120]);
}

#[test]
fn the_trailer_may_not_stand_inside_a_disposition() {
    let list = two_rents_list();
    let mut out = vec![b'#'; 1_920];
    // After H alone, and after each item of a disposition but the last.
    let mut start = 50;
    assert_eq!(write_flow(&list[..start], &mut out), (refused(3, 2, 2), 0));
    for (index, len) in [59, 97, 77, 111, 111, 111].into_iter().enumerate() {
        start += len;
        let due = refused(3, index as u64 + 3, 2);
        assert_eq!(write_flow(&list[..start], &mut out), (due, 0));
    }
    start += 27;
    let (answer, len) = write_flow(&list[..start], &mut out);
    assert_eq!((answer, len), (accepted(1, 45_000, 9), 1_080));
    assert_eq!(&out[..1_080], one_rent().bytes());
}

#[test]
fn the_readers_refusals_of_a_list() {
    let mut out = vec![b'#'; 3_000];
    let list = two_rents_list();
    let refusal_with = |at: usize, bytes: &[u8], out: &mut [u8]| {
        let mut list = list.clone();
        list[at..at + bytes.len()].copy_from_slice(bytes);
        let (answer, len) = write_flow(&list, out);
        assert_eq!(len, 0);
        answer
    };
    // H: 4-8, 9-13, 14-19; the ABI is copied, so that no 10 can come.
    assert_eq!(refusal_with(1, b"     ", &mut out), refused(7, 1, 4));
    assert_eq!(refusal_with(6, b"0123A", &mut out), refused(5, 1, 9));
    assert_eq!(refusal_with(11, b"290227", &mut out), refused(8, 1, 14));
    assert_eq!(refusal_with(43, b"3", &mut out), refused(6, 1, 105));
    assert_eq!(refusal_with(43, b"\xe8", &mut out), refused(2, 1, 105));
    // D of the first rent: 23-28, 34-46, 53-57, 97.
    assert_eq!(refusal_with(51, b"320326", &mut out), refused(8, 2, 23));
    assert_eq!(refusal_with(57, b"+", &mut out), refused(5, 2, 34));
    assert_eq!(refusal_with(70, b" ", &mut out), refused(5, 2, 53));
    assert_eq!(refusal_with(92, b"0", &mut out), refused(6, 2, 97));
    // D of the second rent: its company code.
    let second = 50 + 593;
    assert_eq!(
        refusal_with(second + 37, b"AB124", &mut out),
        refused(11, 9, 92)
    );
    // An item of another kind with as long a body.
    assert_eq!(&list[50 + 59 + 97 + 77..][..1], b"A");
    let at = 50 + 59 + 97 + 77;
    assert_eq!(refusal_with(at, b"R", &mut out), refused(3, 5, 2));
    assert!(out.iter().all(|&byte| byte == b'#'));
}

#[test]
fn items_without_a_header_or_with_two() {
    let list = two_rents_list();
    let mut out = vec![b'#'; 3_000];
    assert_eq!(write_flow(&list[50..], &mut out), (refused(3, 1, 2), 0));
    let twice = [&list[..50], &list[..]].concat();
    assert_eq!(write_flow(&twice, &mut out), (refused(3, 2, 2), 0));
    // A byte outside comes before the type.
    let mut wrong = list[50..].to_vec();
    wrong[1] = 0;
    assert_eq!(write_flow(&wrong, &mut out), (refused(2, 1, 23), 0));
}

#[test]
fn write_then_read_back() {
    for index in 0..4_000 {
        let mut rng = Rng::for_case(11, index);
        let list = generate::list(&mut rng);
        let room = 120 * (items(&list).count() + 1);
        let mut out = vec![b'#'; room + 7];
        let (answer, len) = write_flow(&list, &mut out);
        if let Answer::Refused { .. } = answer {
            assert_eq!(len, 0);
            assert!(out.iter().all(|&byte| byte == b'#'));
            continue;
        }
        assert_eq!(&out[room..], b"#######");
        assert_eq!(read(&out[..len]), answer);
        assert_eq!(list_of(&out[..len]), list);
        assert!(is_canonical(&out[..len]));
    }
}

#[test]
fn read_back_then_write() {
    let (mut canonical, mut others) = (0, 0);
    for index in 0..4_000 {
        let mut rng = Rng::for_case(12, index);
        let size = Size::any(&mut rng, 200);
        let draft = generate::draft(&mut rng, size);
        let flow = draft.flow();
        let list = list_of(&flow);
        assert_eq!(list, draft.list());
        let again = flow_of(&list);
        assert_eq!(list_of(&again), list);
        assert_eq!(read(&again), read(&flow));
        assert_eq!(again == flow, is_canonical(&flow));
        if again == flow {
            canonical += 1;
        } else {
            others += 1;
        }
    }
    assert!(canonical > 1_000 && others > 1_000);
}
