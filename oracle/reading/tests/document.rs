//! Document 01's twelve cases, what it says is also run, its traps and the examples of its table of refusals.

mod common;

use common::List;
use reading::{answer, Call, Reply};

#[test]
fn masks() {
    let mut list = List::fresh(2000);
    for ((min, max), mask) in [((16, 18), 19), ((5, 3), 0), ((-1, 0), -1)] {
        let a = list.int(min, max);
        assert_eq!(list.call(&Call::IntMask(a)), Reply::Signed(mask));
    }
}

#[test]
fn meets_joins_and_non_zero_of_ints() {
    let mut list = List::fresh(2000);
    let (low, eight, high) = (list.int(0, 7), list.int(8, 8), list.int(4, 9));
    let meet = list.handle(&Call::Meet(low, eight));
    assert_eq!(list.ends(meet), (0, 8));
    let join = list.handle(&Call::Join(low, high));
    assert_eq!(list.ends(join), (4, 7));
    let (first, second) = (list.int(0, 3), list.int(8, 9));
    let join = list.handle(&Call::Join(first, second));
    assert_eq!(list.ends(join), (8, 3));
    let a = list.int(-4, 0);
    let non_zero = list.handle(&Call::NonZero(a));
    assert_eq!(list.ends(non_zero), (-4, -1));
}

#[test]
fn meets_of_constants() {
    let mut list = List::fresh(2000);
    let (half, quarter, tenth) = (list.float(0.5), list.float(0.25), list.float(0.1));
    assert_eq!(list.handle(&Call::Meet(half, quarter)), 58);
    assert_eq!(list.handle(&Call::Meet(half, tenth)), 61);
}

#[test]
fn dual_of_null_is_void() {
    assert_eq!(List::fresh(94).handle(&Call::Dual(88)), 91);
}

#[test]
fn offsets_by_size() {
    let mut list = List::fresh(2000);
    let fields: Vec<u64> = [40, 25, 43, 88].iter().flat_map(|&t| [1, t, 0, 0]).collect();
    let s = list.handle(&Call::GetStruct(1, &fields));
    let mut output = [7777; 6];
    assert_eq!(list.call_with(&Call::Offsets(s), &mut output), Reply::Filled(5));
    assert_eq!(output, [14, 0, 12, 8, 16, 7777]);
    for (i, &offset) in output[..5].iter().enumerate() {
        assert_eq!(list.call(&Call::Offset(s, i as u64)), Reply::Number(offset));
    }
}

#[test]
fn memories_of_two_aliases_meet_at_76_and_break_associativity() {
    let mut list = List::fresh(2000);
    let (two, one) = (list.handle(&Call::GetMem(2, 6)), list.handle(&Call::GetMem(1, 6)));
    assert_eq!(list.handle(&Call::Meet(two, one)), 76);
    assert_eq!(list.handle(&Call::Meet(76, one)), one);
    assert_eq!(list.handle(&Call::Meet(one, one)), one);
    assert_eq!(list.call(&Call::Isa(two, 76)), Reply::No);
}

#[test]
fn also_run() {
    let mut list = List::fresh(5000);
    let (single, not_single) = (list.float(2f64.powi(-149)), list.float(2f64.powi(-150)));
    assert_eq!(list.call(&Call::FloatIsF32(single)), Reply::Yes);
    assert_eq!(list.call(&Call::FloatIsF32(not_single)), Reply::No);
    let mut deepest = 5;
    for _ in 2..=32 {
        deepest = list.handle(&Call::GetTuple(&[deepest]));
    }
    assert_eq!(list.refused(&Call::GetTuple(&[deepest])), 6);
    list.name(&[97; 255]);
    assert_eq!(list.refused(&Call::GetStr(&[97; 256])), 5);
    list.handle(&Call::GetTuple(&[5; 255]));
    assert_eq!(list.refused(&Call::GetTuple(&[5; 256])), 5);
    let field = [1, 5, 0, 0];
    list.handle(&Call::GetStruct(1, &field.repeat(255)));
    assert_eq!(list.refused(&Call::GetStruct(1, &field.repeat(256))), 5);
    let mut output = [7];
    assert_eq!(list.call_with(&Call::Offsets(18), &mut output), Reply::Filled(1));
    assert_eq!(output, [0]);
}

#[test]
fn traps() {
    let mut list = List::fresh(2000);
    // reading -0.0 as 0.0
    let minus_zero = list.float(-0.0);
    assert_ne!(minus_zero, 55);
    assert_eq!(list.call(&Call::FloatReading(minus_zero)), Reply::Constant(1 << 63));
    assert_eq!(list.handle(&Call::Meet(minus_zero, 55)), 58);
    // sizing the constant 300 at two bytes
    let constant = list.int(300, 300);
    assert_eq!(list.call(&Call::LogSize(constant)), Reply::Number(0));
    // meeting a name's forward reference to $BOT
    let name = list.name(b"s");
    let (fref, s) = (list.handle(&Call::MakeStructFref(name)), list.handle(&Call::GetStruct(name, &[1, 9, 0, 0])));
    assert_eq!(list.handle(&Call::Meet(fref, s)), s);
    assert_eq!(list.handle(&Call::Meet(s, fref)), s);
    assert_eq!(list.call(&Call::Isa(fref, s)), Reply::Yes);
    assert_eq!(list.call(&Call::Isa(s, fref)), Reply::No);
}

#[test]
fn an_example_of_each_row() {
    let mut short = vec![0; 93];
    assert_eq!(answer(&mut short, &Call::Fresh, &mut []), Reply::Refused(1));
    assert_eq!(answer(&mut short, &Call::GetBool(0), &mut []), Reply::Refused(1));
    let mut list = List::fresh(400);
    assert_eq!(list.refused(&Call::IntMask(2)), 2);
    assert_eq!(list.refused(&Call::IntMask(5)), 3);
    assert_eq!(list.refused(&Call::MakeFloat(16, 0)), 4);
    assert_eq!(list.refused(&Call::GetStr(&[0; 256])), 5);
    let fref = list.handle(&Call::MakeStructFref(1));
    assert_eq!(list.refused(&Call::Offsets(fref)), 7);
    assert_eq!(list.refused(&Call::Offset(18, 1)), 8);
    let range = list.int(0, 7);
    assert_eq!(list.refused(&Call::LogSize(range)), 9);
    assert_eq!(list.refused(&Call::MakeAry(9, 0, 91, 0, b"x")), 10);
    assert_eq!(list.refused(&Call::Offsets(18)), 11);
    assert_eq!(List::fresh(94).refused(&Call::MakeInt(3, 4)), 12);
}

/// "Only then": a new Int needs three words, and where they are left it is made.
#[test]
fn twelve_only_where_the_entries_do_not_fit() {
    assert_eq!(List::fresh(96).refused(&Call::GetInt(3)), 12);
    assert_eq!(List::fresh(97).handle(&Call::GetInt(3)), 94);
    // the name alone would fit, the struct behind it does not
    for length in 94..108 {
        assert_eq!(List::fresh(length).refused(&Call::MakeAry(40, 1, 9, 2, b"x")), 12);
    }
    assert_eq!(List::fresh(108).handle(&Call::MakeAry(40, 1, 9, 2, b"x")), 100);
    // join of 0..0 and 2..2: 0..2 and its dual are made, in this order
    assert_eq!(List::fresh(99).refused(&Call::Join(9, 28)), 12);
    assert_eq!(List::fresh(100).handle(&Call::Join(9, 28)), 97);
}

/// "Parts are made first, left to right."
#[test]
fn the_order_of_the_entries_that_are_made() {
    let mut list = List::fresh(200);
    let a = list.handle(&Call::GetTuple(&[9, 12]));
    let b = list.handle(&Call::GetTuple(&[28, 40]));
    let from = list.used() as usize;
    assert_eq!(list.handle(&Call::Meet(a, b)), from as u64 + 3);
    // 0..2 and the tuple; 1..1 with 0..255 is u8
    assert_eq!(list.words[from..from + 7], [261, 0, 2, 7 + 512 + 2 * 65_536, from as u64, 40, 0]);
    let from = list.used() as usize;
    list.handle(&Call::Dual(b));
    assert_eq!(list.words[from..from + 6], [261, 255, 0, 7 + 512 + 2 * 65_536, 28, from as u64]);
    let from = list.used() as usize;
    list.handle(&Call::MakeAry(9, 3, 12, 4, b"1"));
    let [name, len, body] = [from as u64, from as u64 + 2, from as u64 + 4];
    assert_eq!(list.words[from..from + 6], [3 * 65_536, 0x5d315b, 65_536, 0x23, 2 * 65_536, 0x5d5b]);
    assert_eq!(list.words[from + 6..from + 14], [8 + 512 + 2 * 65_536, name, len, 9, 7, body, 12, 8]);
}
