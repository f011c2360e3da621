//! What a call may cost: types that share parts, and long lists.

mod common;

use std::time::{Duration, Instant};

use common::List;
use reading::{answer, Call, Held, Reply};

fn within(limit: Duration, what: &str, work: impl FnOnce()) {
    let start = Instant::now();
    work();
    let taken = start.elapsed();
    assert!(taken < limit, "{what} took {taken:?}");
}

const SECOND: Duration = Duration::from_secs(1);

/// So many levels of types, each around the one before it, which `around` makes. The last one.
fn tower(list: &mut List, mut last: u64, levels: usize, around: impl Fn(&mut List, u64) -> u64) -> u64 {
    for _ in 0..levels {
        last = around(list, last);
    }
    last
}

fn pair(list: &mut List, t: u64) -> u64 {
    list.handle(&Call::GetTuple(&[t, t]))
}

#[test]
fn towers_of_tuples() {
    let mut list = List::fresh(5000);
    let (zeros, ones) = (tower(&mut list, 9, 31, pair), tower(&mut list, 12, 31, pair));
    within(SECOND, "operations on towers of tuples", || {
        let meet = list.handle(&Call::Meet(zeros, ones));
        assert_eq!(list.call(&Call::Isa(zeros, meet)), Reply::Yes);
        assert_eq!(list.call(&Call::Isa(meet, zeros)), Reply::No);
        assert_eq!(list.handle(&Call::Dual(zeros)), zeros);
        let dual = list.handle(&Call::Dual(meet));
        assert_ne!(dual, meet);
        assert_eq!(list.handle(&Call::Join(zeros, ones)), dual);
        let glb = list.handle(&Call::Glb(meet));
        assert_eq!(list.handle(&Call::NonZero(meet)), glb);
        assert_eq!(list.handle(&Call::Lub(meet)), 6);
        assert_eq!(list.call(&Call::IsFinal(meet)), Reply::Yes);
    });
}

#[test]
fn towers_of_structs() {
    let mut list = List::fresh(20_000);
    let with = |final_field| move |list: &mut List, t| list.handle(&Call::GetStruct(1, &[1, t, 0, final_field, 3, t, 1, final_field]));
    let (open, closed, other) = (tower(&mut list, 9, 31, with(0)), tower(&mut list, 9, 31, with(1)), tower(&mut list, 12, 31, with(0)));
    within(SECOND, "operations on towers of structs", || {
        assert_eq!(list.call(&Call::IsFinal(closed)), Reply::Yes);
        assert_eq!(list.call(&Call::IsFinal(open)), Reply::No);
        assert_eq!(list.handle(&Call::MakeRo(open)), closed);
        assert_eq!(list.handle(&Call::Meet(open, closed)), closed);
        list.handle(&Call::Meet(open, other));
        list.handle(&Call::Join(open, other));
        let glb = list.handle(&Call::Glb(open));
        let lub = list.handle(&Call::Lub(open));
        assert_eq!(list.call(&Call::Isa(lub, glb)), Reply::Yes);
    });
}

/// Two pointers to one struct, with and without nil: the struct is walked once, not once for each.
#[test]
fn towers_of_structs_behind_pointers() {
    let mut list = List::fresh(20_000);
    let around = |list: &mut List, s| {
        let (p, q) = (list.handle(&Call::GetMemPtr(s, 0)), list.handle(&Call::GetMemPtr(s, 1)));
        list.handle(&Call::GetStruct(3, &[1, p, 0, 0, 1, q, 1, 0, 3, p, 2, 0]))
    };
    let (s, t) = (list.handle(&Call::GetStruct(1, &[1, 9, 0, 0])), list.handle(&Call::GetStruct(1, &[1, 12, 0, 0])));
    let (s, t) = (tower(&mut list, s, 15, around), tower(&mut list, t, 15, around));
    within(SECOND, "operations on structs behind pointers", || {
        for call in [Call::Meet(s, t), Call::Join(s, t), Call::Dual(s), Call::Glb(s), Call::Lub(t), Call::MakeRo(s)] {
            list.handle(&call);
        }
        assert_eq!(list.call(&Call::Isa(s, t)), Reply::No);
    });
}

/// A store of 1,048,576 words, full of Ints but for a few words.
fn long_words() -> Vec<u64> {
    let mut words = vec![0; 1_048_576];
    assert_eq!(answer(&mut words, &Call::Fresh, &mut []), Reply::Done);
    let mut used = 94;
    while used + 3 <= 1_048_000 {
        words[used..used + 3].copy_from_slice(&[261, used as u64, used as u64 + 1_000_000]);
        used += 3;
    }
    words[0] = used as u64;
    words
}

#[test]
fn held_calls_on_a_long_list() {
    let mut held = Held::new(long_words()).expect("well formed");
    let used = held.words()[0];
    within(5 * SECOND, "150,000 held calls", || {
        for i in 0..50_000 {
            let a = 94 + 3 * (i % 300_000);
            assert_eq!(held.answer(&Call::IntMin(a), &mut []), Reply::Signed(a as i64));
            assert_eq!(held.answer(&Call::MakeInt(a, a + 1_000_000), &mut []), Reply::Handle(a));
            assert_eq!(held.answer(&Call::GetTuple(&[a; 256]), &mut []), Reply::Refused(5));
        }
    });
    assert_eq!(held.words()[0], used);
    assert_eq!(held.answer(&Call::GetInt(5), &mut []), Reply::Handle(used));
}

/// 255 Ints that are not there, dualled in one call: each is sought among 350,000 entries.
#[test]
fn one_call_with_many_entries_on_a_long_list() {
    let mut words = long_words();
    let types: Vec<u64> = (0..255).map(|i| 94 + 3 * i).collect();
    let Reply::Handle(tuple) = answer(&mut words, &Call::GetTuple(&types), &mut []) else { panic!("there is room") };
    let before = words.clone();
    within(5 * SECOND, "a dual with 255 elements, plain", || {
        // 255 duals of three words do not fit into the 320 words that are left
        assert_eq!(answer(&mut words, &Call::Dual(tuple), &mut []), Reply::Refused(12));
    });
    assert!(words == before);
}

/// A store of tuples around tuples, two levels of many: each has its own meet with each.
#[test]
fn wide_types() {
    let mut held = Held::new(List::fresh(1_048_576).words).expect("well formed");
    let mut make = |call: &Call| match held.answer(call, &mut []) {
        Reply::Handle(handle) => handle,
        other => panic!("{call:?} answers {other:?}"),
    };
    let mut level: Vec<u64> = (0..255).map(|i| make(&Call::GetInt(1000 + i))).collect();
    for _ in 0..4 {
        level = (0..255).map(|i| make(&Call::GetTuple(&[&level[i..], &level[..i]].concat()))).collect();
    }
    within(5 * SECOND, "operations on wide types", || {
        let glb = held.answer(&Call::Glb(level[0]), &mut []);
        assert!(matches!(glb, Reply::Handle(_)));
        let Reply::Handle(meet) = held.answer(&Call::Meet(level[0], level[1]), &mut []) else { panic!("there is room") };
        assert_eq!(held.answer(&Call::Isa(level[1], meet), &mut []), Reply::Yes);
    });
}
