//! The header's constants are the crate's: refusals, kinds and fresh handles, by name and number. (tests/values.rs compares the crate's
//! with what the archive makes.) And the most handles of a list, which the crate has no constant for, and the longest label are what the
//! archive takes.
use std::collections::BTreeMap;

use ferigulan::{fresh, Kind, Refusal, Store, LONGEST_LABEL};

type Constants = BTreeMap<String, u64>;

/// Names are compared without `_`: MEM_PTR is MemPtr.
fn name(text: &str) -> String {
    text.replace('_', "").to_uppercase()
}

/// The constants of one enum of the header, without what all their names begin with.
fn in_the_header(tag: &str, prefix: &str) -> Constants {
    let header = include_str!("../../include/ferigulan.h");
    let (_, behind) = header.split_once(&format!("enum {tag} {{")).expect("the enum");
    let (body, _) = behind.split_once("};").expect("its end");
    let constants = body.split(prefix).skip(1).map(|constant| {
        let (text, number) = constant.split_once(" = ").expect("a number");
        let digits: String = number.chars().take_while(char::is_ascii_digit).collect();
        (name(text), digits.parse().expect("digits"))
    });
    constants.collect()
}

#[test]
fn refusals() {
    let accepted = std::iter::once(("ACCEPTED".to_string(), 0));
    let cases = (1..=15).filter_map(Refusal::from_number).map(|refusal| (name(&format!("{refusal:?}")), refusal.number().into()));
    assert_eq!(in_the_header("ferigulan_refusals", "FERIGULAN_"), accepted.chain(cases).collect());
}

/// A number that the header defines.
fn defined(name: &str) -> usize {
    let header = include_str!("../../include/ferigulan.h");
    let (_, behind) = header.split_once(&format!("#define FERIGULAN_{name} ")).expect("the constant");
    behind.lines().next().and_then(|number| number.parse().ok()).expect("a number")
}

/// The number that the header defines is the last that the archive takes.
#[test]
fn most_handles() {
    let most = defined("MOST_HANDLES");
    let mut words = [0; 94];
    let mut store = Store::fresh(&mut words).expect("94 words are enough");
    assert_eq!(store.meet_list(&vec![fresh::INT_ONE; most]), Ok(fresh::INT_ONE));
    assert_eq!(store.meet_list(&vec![fresh::INT_ONE; most + 1]), Err(Refusal::ListTooLong));
}

#[test]
fn longest_label() {
    let most = defined("LONGEST_LABEL");
    assert_eq!(most, LONGEST_LABEL);
    let (mut words, mut file) = ([0; 94], [0; 300]);
    let store = Store::fresh(&mut words).expect("94 words are enough");
    assert_eq!(store.save_into(&vec![0; most], &mut file), Ok(most + 16));
    assert_eq!(store.save_into(&vec![0; most + 1], &mut file), Err(Refusal::TooMany));
}

#[test]
fn kinds() {
    let cases = (0..12).filter_map(Kind::from_number).map(|kind| (name(&format!("{kind:?}")), kind.number()));
    assert_eq!(in_the_header("ferigulan_kinds", "FERIGULAN_KIND_"), cases.collect());
}

#[test]
fn fresh_handles() {
    let lines = include_str!("../src/fresh.rs").lines().filter_map(|line| line.trim().strip_suffix(';')?.split_once(" = "));
    let handles = lines.filter_map(|(text, number)| Some((name(text), number.parse().ok()?)));
    let handles: Constants = handles.collect();
    assert_eq!(handles.len(), 35);
    assert_eq!(in_the_header("ferigulan_fresh_handles", "FERIGULAN_"), handles);
}
