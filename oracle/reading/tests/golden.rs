//! The golden catalogue of the repository's folder `tests`: the script makes just these bytes, and they load again.

mod common;
mod compared;
mod script;

use common::List;
use reading::Reply;
use script::Script;
use std::collections::BTreeSet;
use std::path::PathBuf;

fn path(name: &str) -> PathBuf {
    PathBuf::from(env!("CARGO_MANIFEST_DIR")).join("../../tests").join(name)
}

fn golden() -> Vec<u8> {
    std::fs::read(path("golden.catalogue")).expect("tests/golden.catalogue")
}

fn text(name: &str) -> String {
    std::fs::read_to_string(path(name)).unwrap_or_else(|why| panic!("tests/{name}: {why}"))
}

#[test]
fn the_script_makes_these_bytes() {
    let mut script = Script::default();
    let (answers, wrong) = compared::compare(&mut script, &text("golden.txt"));
    assert!(answers > 50 && wrong.is_empty(), "{answers} answers\n{}", wrong.join("\n"));
    assert!(script.file == golden());
}

#[test]
fn the_text_is_of_these_bytes() {
    let line = |bytes: &[u8]| bytes.iter().map(|byte| format!("{byte:02x}")).collect::<String>() + "\n";
    assert_eq!(text("golden.hex"), golden().chunks(32).map(line).collect::<String>());
}

#[test]
fn it_loads_and_is_written_again() {
    let mut list = List { words: vec![7; 500] };
    assert_eq!(list.load(&golden()), Reply::Number(6));
    assert_eq!(list.file(b"golden"), golden());
}

/// "every kind of entry that a file can hold": kinds 1 to 4 have one entry each, which the fresh store has.
#[test]
fn it_holds_every_kind() {
    let mut list = List { words: vec![7; 500] };
    list.load(&golden());
    let mut heads = BTreeSet::new();
    let mut at = 94;
    while at < list.used() as usize {
        let (kind, depth, n) = (list.words[at] % 256, list.words[at] / 256 % 256, (list.words[at] / 65_536) as usize);
        heads.insert((kind, depth, n));
        at += [1 + n.div_ceil(8), 1, 1, 1, 1, 3, 3, 1 + n, 2 + 3 * n, 2, 3, 3][kind as usize];
    }
    assert_eq!(heads.iter().map(|head| head.0).collect::<BTreeSet<_>>(), BTreeSet::from([0, 5, 6, 7, 8, 9, 10, 11]));
    let has = |kind: u64, n: usize| heads.iter().any(|head| (head.0, head.2) == (kind, n));
    assert!([0, 1, 7, 8, 9, 255].into_iter().all(|n| has(0, n)));
    assert!([0, 1, 3].into_iter().all(|n| has(7, n)) && [0, 1, 2, 5].into_iter().all(|n| has(8, n)));
    // a tuple, a pointer and memory as deep as types may be
    assert!([(7, 32, 2), (10, 32, 0), (11, 32, 0)].iter().all(|head| heads.contains(head)));
}
