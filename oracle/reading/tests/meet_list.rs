//! Document 02, Slip 1: the merge of a whole list.

mod common;

use common::List;
use reading::{answer, Call, Reply};

#[test]
fn an_empty_list_gives_top() {
    let mut list = List::fresh(94);
    assert_eq!(list.handle(&Call::MeetList(&[])), 6);
    assert_eq!(answer(&mut [0; 94], &Call::MeetList(&[]), &mut []), Reply::Refused(1));
}

#[test]
fn one_handle_gives_itself() {
    let mut list = List::fresh(200);
    let (range, name) = (list.int(3, 9), list.name(b"s"));
    let fref = list.handle(&Call::MakeStructFref(name));
    for t in [5, 6, 7, 8, 22, 49, 64, 76, 82, range, fref] {
        let used = list.used();
        assert_eq!(list.handle(&Call::MeetList(&[t])), t);
        assert_eq!(list.used(), used);
    }
}

/// A copy of Top is no other than Top to the first meet, which gives the first of the two; a copy of anything else stays.
#[test]
fn one_copy_gives_itself_but_of_top() {
    let mut list = List::fresh(200);
    let (top, bot, zero) = (list.append(&[258]), list.append(&[257]), list.copy(9, 3));
    assert_eq!(list.handle(&Call::MeetList(&[top])), 6);
    assert_eq!(list.handle(&Call::MeetList(&[bot])), bot);
    assert_eq!(list.handle(&Call::MeetList(&[5, bot])), 5);
    assert_eq!(list.handle(&Call::MeetList(&[zero])), zero);
    // an Int that is made again is found at its lowest handle
    assert_eq!(list.handle(&Call::MeetList(&[zero, 9])), 9);
}

/// What is made on the way stays behind, so that another order leaves other words and the same handle.
#[test]
fn what_is_made_on_the_way_is_appended() {
    let mut list = List::fresh(200);
    assert_eq!(list.handle(&Call::MeetList(&[9, 12, 28])), 94);
    assert_eq!(list.words[94..98], [261, 0, 2, 0]);
    assert_eq!(list.handle(&Call::MeetList(&[28, 12, 9])), 94);
    assert_eq!(list.words[94..101], [261, 0, 2, 261, 1, 2, 0]);
}

#[test]
fn thirteen_after_1_and_before_2() {
    let mut list = List::fresh(94);
    assert_eq!(list.handle(&Call::MeetList(&[9; 4096])), 9);
    for t in [9, 1, 2] {
        assert_eq!(list.refused(&Call::MeetList(&[t; 4097])), 13);
    }
    assert_eq!(answer(&mut [0; 93], &Call::MeetList(&[9; 4097]), &mut []), Reply::Refused(1));
}

#[test]
fn handles_are_tested_on_the_store_as_it_comes() {
    let mut list = List::fresh(200);
    assert_eq!(list.refused(&Call::MeetList(&[9, 1, 2])), 2);
    assert_eq!(list.refused(&Call::MeetList(&[9, 1])), 3);
    // 0..2 would be at 94
    assert_eq!(list.refused(&Call::MeetList(&[9, 28, 94])), 2);
    assert_eq!(list.handle(&Call::MeetList(&[9, 28])), 94);
    assert_eq!(list.handle(&Call::MeetList(&[9, 28, 94])), 94);
}

/// Room for the entry on the way, none for the answer: 12, though the same handles in another order fit.
#[test]
fn twelve_counts_what_is_made_on_the_way() {
    let mut list = List::fresh(97);
    assert_eq!(list.refused(&Call::MeetList(&[28, 12, 9])), 12);
    assert_eq!(list.handle(&Call::MeetList(&[9, 12, 28])), 94);
    assert_eq!(List::fresh(99).refused(&Call::MeetList(&[28, 12, 9])), 12);
    assert_eq!(List::fresh(100).handle(&Call::MeetList(&[28, 12, 9])), 97);
}

/// "a memory type" breaks the law: (1, Top) and (2, Top) meet at 76, which yields to (1, Top).
#[test]
fn memory_types_depend_on_the_order() {
    let mut list = List::fresh(200);
    let (one, two) = (list.handle(&Call::GetMem(1, 6)), list.handle(&Call::GetMem(2, 6)));
    assert_eq!(list.handle(&Call::MeetList(&[one, one, two])), 76);
    assert_eq!(list.handle(&Call::MeetList(&[one, two, one])), one);
}

/// All orders of six types that meet into their parts, each order with one of them twice: one handle.
#[test]
fn all_orders_give_one_handle() {
    let mut list = List::fresh(60_000);
    let name = list.name(b"s");
    let fields = [(9, 55, 1), (28, 58, 0), (40, 49, 1), (31, 52, 0)];
    let structs = fields.map(|(int, float, last)| list.handle(&Call::GetStruct(name, &[1, int, 1, 0, 3, float, 2, last])));
    let mut pointers: Vec<u64> = structs.iter().zip([0, 1, 0, 0]).map(|(&s, nil)| list.handle(&Call::GetMemPtr(s, nil))).collect();
    pointers.extend([85, 88]);
    let merged = list.handle(&Call::MeetList(&pointers));
    for order in orders(&pointers) {
        let twice: Vec<u64> = order.iter().copied().chain([order[0]]).collect();
        assert_eq!(answer(&mut list.words, &Call::MeetList(&order), &mut []), Reply::Handle(merged));
        assert_eq!(answer(&mut list.words, &Call::MeetList(&twice), &mut []), Reply::Handle(merged));
    }
}

fn orders(types: &[u64]) -> Vec<Vec<u64>> {
    if types.is_empty() {
        return vec![vec![]];
    }
    let with_first = |i: usize| {
        let mut rest = types.to_vec();
        let first = rest.remove(i);
        orders(&rest).into_iter().map(move |order| [vec![first], order].concat())
    };
    (0..types.len()).flat_map(with_first).collect()
}
