//! The refusals that the documentation gives for each call, in src/table.rs and in include/ferigulan.h, are those that the call can give:
//! random calls come to all of them and to no others.
use std::collections::{BTreeMap, BTreeSet};

use ferigulan::{calls, Refusal};

mod common;
use common::play::Play;

type Refusals = BTreeMap<String, BTreeSet<Refusal>>;

/// A refusal by the name of its case.
fn named(name: &str) -> Refusal {
    let all = (1..=15).filter_map(Refusal::from_number);
    all.into_iter().find(|refusal| format!("{refusal:?}") == name).unwrap_or_else(|| panic!("{name} is no refusal"))
}

/// Of the lines `= ferigulan_X, ferigulan_opened_X refuses [A B] {`.
fn in_the_table() -> Refusals {
    let table = include_str!("../src/table.rs");
    let entries = table.split("= ferigulan_").skip(1).map(|entry| {
        let (name, rest) = entry.split_once(',').expect("two functions");
        let (_, rows) = rest.split_once("refuses [").expect("refusals");
        let (rows, _) = rows.split_once(']').expect("refusals end");
        (name.to_string(), rows.split_whitespace().map(named).collect())
    });
    entries.collect()
}

/// Of the comments that have "Refused: 2, 3." before a function, but for those that are no calls of the table.
fn in_the_header() -> Refusals {
    let header = include_str!("../../include/ferigulan.h");
    let comments = header.split("/*").filter_map(|part| part.split_once("*/"));
    let calls = comments.filter_map(|(comment, code)| {
        let (_, rows) = comment.split_once("Refused: ")?;
        let (_, function) = code.split_once("uint32_t ferigulan_")?;
        let (name, _) = function.split_once('(')?;
        let (rows, _) = rows.split_once('.').expect("a sentence ends");
        let rows = rows.split(',').map_while(|row| row.trim().parse().ok()).filter_map(Refusal::from_number);
        Some((name.to_string(), rows.collect()))
    });
    calls.filter(|(name, _)| !["fresh", "open", "find_entry", "save", "load"].contains(&name.as_str())).collect()
}

fn that_are_given() -> Refusals {
    let mut given = Refusals::new();
    for seed in 0..200 {
        let mut words = vec![0; [94, 200, 1_200, 3_000][seed as usize % 4]];
        calls::fresh(&mut words).expect("a length that is allowed");
        let mut play = Play::new(seed);
        for _ in 0..1_000 {
            let call = play.call();
            let told = call.on_words(&mut words, &mut call.output());
            given.entry(call.name().to_string()).or_default().extend(told.err());
            play.learn(&call, told);
        }
    }
    given
}

fn compare(documented: &Refusals, given: &Refusals) {
    assert_eq!(documented.len(), 47);
    for (name, refusals) in documented {
        assert_eq!(Some(refusals), given.get(name), "{name}");
    }
}

#[test]
fn the_table_names_those_that_are_given() {
    compare(&in_the_table(), &that_are_given());
}

#[test]
fn the_header_names_those_of_the_table() {
    compare(&in_the_header(), &in_the_table());
}
