//! A held store: what it keeps besides the words follows them.

use reading::{answer, Call, Held, Reply};

fn held(length: usize) -> Held {
    let mut words = vec![0; length];
    assert_eq!(answer(&mut words, &Call::Fresh, &mut []), Reply::Done);
    Held::new(words).unwrap_or_else(|_| panic!("a fresh store is well formed"))
}

#[test]
fn words_that_are_not_well_formed_come_back() {
    assert!(Held::new(vec![5; 94]).is_err_and(|words| words == [5; 94]));
    assert!(Held::new(Vec::new()).is_err());
}

/// The names "[x]" and "#" fit, "[]" does not: all is taken back, and nothing is remembered of it.
#[test]
fn a_refused_call_leaves_nothing() {
    let mut held = held(99);
    let before = held.words().to_vec();
    assert_eq!(held.answer(&Call::MakeAry(9, 0, 9, 0, b"x"), &mut []), Reply::Refused(12));
    assert!(held.words() == before);
    for handle in 94..99 {
        assert_eq!(held.answer(&Call::MakeStructFref(handle), &mut []), Reply::Refused(2));
    }
    assert_eq!(held.answer(&Call::GetStr(b"#"), &mut []), Reply::Handle(94));
    assert_eq!(held.answer(&Call::GetStr(b"[x]"), &mut []), Reply::Handle(96));
    assert_eq!(held.words()[94..], [65_536, 35, 196_608, 0x5d785b, 0]);
    assert_eq!(held.words()[0], 98);
}

#[test]
fn a_fresh_store_starts_anew() {
    let mut held = held(200);
    assert_eq!(held.answer(&Call::MakeInt(3, 4), &mut []), Reply::Handle(94));
    assert_eq!(held.answer(&Call::MakeInt(5, 6), &mut []), Reply::Handle(97));
    assert_eq!(held.answer(&Call::Fresh, &mut []), Reply::Done);
    assert_eq!(held.words()[0], 94);
    assert!(held.words()[94..].iter().all(|&word| word == 0));
    assert_eq!(held.answer(&Call::Kind(94), &mut []), Reply::Refused(2));
    assert_eq!(held.answer(&Call::MakeInt(5, 6), &mut []), Reply::Handle(94));
}

/// Of equal entries the lowest is found.
#[test]
fn copies() {
    let mut words = held(200).words().to_vec();
    words[94..100].copy_from_slice(&[261, 7, 7, 261, 7, 7]);
    words[0] = 100;
    let mut held = Held::new(words).unwrap_or_else(|_| panic!("copies are well formed"));
    assert_eq!(held.answer(&Call::GetInt(7), &mut []), Reply::Handle(94));
    assert_eq!(held.answer(&Call::Dual(97), &mut []), Reply::Handle(94));
    assert_eq!(held.answer(&Call::Isa(94, 97), &mut []), Reply::No);
}
