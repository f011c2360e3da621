// An old library beside the new one: the same calls on the same words, whose answers are there already.
use crate::calls::{Call, Library, NEW, REFUSED};
use crate::clock::time_both;
use crate::functions::of;
use crate::stores::{flat, operations, widest, Types};
use std::hint::black_box;

const NAMES: [&str; 19] = [
    "kind",
    "get_bool",
    "make_int",
    "make_float",
    "get_tuple",
    "get_str",
    "get_struct",
    "make_struct_fref",
    "get_mem_ptr",
    "get_mem",
    "make_ary",
    "meet",
    "isa",
    "join",
    "dual",
    "glb",
    "lub",
    "is_final",
    "make_ro",
];

// The calls of one name, at most 32 of them, spread over the store.
fn named(calls: &[Call], name: &str) -> Vec<Call> {
    let all: Vec<&Call> = calls.iter().filter(|c| c.name() == name).collect();
    let n = all.len().min(32);
    (0..n).map(|i| all[i * all.len() / n].clone()).collect()
}

// What is asked: the makers again, kind, get_bool, and the operations, as far as their answers fit. Those are made here.
fn asked(t: &mut Types) -> Vec<Call> {
    let mut calls = t.store.calls.clone();
    calls.extend(t.couples.iter().map(|c| Call::new(&of::kind, &[c.0])));
    calls.extend([0, 1].map(|value| Call::new(&of::get_bool, &[value])));
    calls.extend(operations(&t.couples).into_iter().filter(|c| c.run(NEW, &mut t.store.words) < REFUSED));
    calls
}

// Nanoseconds a call, old and new.
fn measure(old: Library, words: &mut Vec<u64>, calls: &[Call]) -> (f64, f64) {
    let used = words[0];
    for c in calls {
        assert_eq!(c.run(old, words), c.run(NEW, words), "the libraries differ: {}", c.line());
    }
    assert_eq!(words[0], used, "an answer was not there");
    let each = |l: Library, w: &mut Vec<u64>| calls.iter().for_each(|c| assert!(black_box(c.run(l, w)) < REFUSED));
    let (x, y) = time_both(words, |w| each(old, w), |w| each(NEW, w));
    (x / calls.len() as f64, y / calls.len() as f64)
}

pub fn table(old: Library) {
    println!("\nOld beside new, nanoseconds a call; the ratio is new to old, and the sets are flat and deeper types");
    let mut most = (0.0, String::new());
    for len in [110usize, 256, 1_000, 2_048, 4_096, 4_200, 8_192, 16_384, 65_536] {
        eprintln!("old beside new: {len} words ..");
        let mut sets = [("flat", Some(flat(len))), ("deep", widest(len))];
        let calls: Vec<Vec<Call>> = sets.iter_mut().map(|(_, t)| t.as_mut().map_or(Vec::new(), asked)).collect();
        println!(
            "{:>9} {:>16} {:>10} {:>10} {:>6} {:>14} {:>10} {:>6}",
            "words", "call", "flat: old", "new", "ratio", "deep: old", "new", "ratio"
        );
        for name in NAMES {
            let mut line = format!("{len:>9} {name:>16}");
            for (i, (set, t)) in sets.iter_mut().enumerate() {
                let (some, wide) = (named(&calls[i], name), if i == 0 { 10 } else { 14 });
                let Some(t) = t.as_mut().filter(|_| !some.is_empty()) else {
                    line += &format!(" {:>wide$} {:>10} {:>6}", "-", "-", "-");
                    continue;
                };
                let (x, y) = measure(old, &mut t.store.words, &some);
                line += &format!(" {x:>wide$.0} {y:>10.0} {:>6.2}", y / x);
                if most.0 < y / x {
                    most = (y / x, format!("{name}, {len} words, {set}: {x:.0} ns and {y:.0} ns"));
                }
            }
            println!("{line}");
        }
    }
    println!("the largest ratio is {:.2} ({})", most.0, most.1);
}
