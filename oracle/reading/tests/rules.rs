//! The rules of the document's modules, one by one, on types of a whole store; the expected answers are worked out from its sentences.

mod common;

use common::List;
use reading::{Call, Reply};

/// A struct with one field.
fn one_field(list: &mut List, name: u64, [fname, ty, alias, final_field]: [u64; 4]) -> u64 {
    list.handle(&Call::GetStruct(name, &[fname, ty, alias, final_field]))
}

fn both_ways(list: &mut List, a: u64, b: u64, meet: u64) {
    assert_eq!(list.handle(&Call::Meet(a, b)), meet, "{a} meet {b}");
    assert_eq!(list.handle(&Call::Meet(b, a)), meet, "{b} meet {a}");
}

#[test]
fn meets_of_fresh_types() {
    let mut list = List::fresh(300);
    let all = [5, 6, 7, 8, 9, 22, 25, 49, 55, 61, 64, 18, 20, 82, 88, 76, 79];
    for a in all {
        both_ways(&mut list, a, a, a);
        both_ways(&mut list, a, 5, 5);
        both_ways(&mut list, a, 6, a);
    }
    // other kinds meet at Bot, Ctrl and XCtrl at Ctrl
    both_ways(&mut list, 7, 8, 7);
    let of_each_kind = [7, 9, 55, 64, 18, 82, 79];
    for a in of_each_kind {
        for b in of_each_kind.into_iter().filter(|&b| b != a) {
            both_ways(&mut list, a, b, 5);
        }
    }
    // Ints
    for (a, b, meet) in [(22, 31, 31), (25, 31, 25), (9, 12, 15), (31, 34, 34), (40, 43, 43), (40, 15, 40), (46, 9, 46)] {
        both_ways(&mut list, a, b, meet);
    }
    // tuples: by element, and $TOP yields while $BOT wins behind pointers
    for (a, b, meet) in [(64, 67, 64), (70, 73, 64), (70, 67, 70), (82, 85, 82), (85, 88, 88), (85, 91, 91), (88, 91, 82), (76, 79, 79)] {
        both_ways(&mut list, a, b, meet);
    }
    let (empty, single) = (list.handle(&Call::GetTuple(&[])), list.handle(&Call::GetTuple(&[7])));
    both_ways(&mut list, empty, single, 5);
    both_ways(&mut list, single, 64, 5);
}

#[test]
fn meets_of_floats() {
    let mut list = List::fresh(300);
    let [half, tenth] = [list.float(0.5), list.float(0.1)];
    let rules = [
        (61, 58, 61),
        (61, 55, 61),
        (61, 52, 61),
        (61, 49, 61),
        (61, tenth, 61),
        (49, 52, 52),
        (49, 55, 55),
        (49, 58, 58),
        (49, tenth, tenth),
        (58, tenth, 61),
        (58, half, 58),
        (58, 55, 58),
        (58, 52, 58),
        (52, half, half),
        (52, 55, 55),
        (52, tenth, 61),
        (half, 55, 58),
        (half, tenth, 61),
        (tenth, 55, 61),
    ];
    for (a, b, meet) in rules {
        both_ways(&mut list, a, b, meet);
    }
    let third = list.float(1.0 / 3.0);
    both_ways(&mut list, tenth, third, 61);
}

#[test]
fn meets_of_structs() {
    let mut list = List::fresh(600);
    let (s, t, f, g) = (list.name(b"S"), list.name(b"T"), list.name(b"f"), list.name(b"g"));
    let zero = one_field(&mut list, s, [f, 9, 1, 0]);
    let one = one_field(&mut list, s, [f, 12, 1, 1]);
    let met = one_field(&mut list, s, [f, 15, 1, 1]);
    both_ways(&mut list, zero, one, met);
    both_ways(&mut list, zero, 20, 20);
    both_ways(&mut list, zero, 18, zero);
    let other_name = one_field(&mut list, t, [f, 9, 1, 0]);
    let other_field = one_field(&mut list, s, [g, 9, 1, 0]);
    let other_alias = one_field(&mut list, s, [f, 9, 2, 0]);
    let no_field = list.handle(&Call::GetStruct(s, &[]));
    let fref_of_t = list.handle(&Call::MakeStructFref(t));
    for other in [other_name, other_field, other_alias, no_field, fref_of_t] {
        both_ways(&mut list, zero, other, 20);
    }
    let fref = list.handle(&Call::MakeStructFref(s));
    both_ways(&mut list, zero, fref, zero);
    both_ways(&mut list, no_field, fref, no_field);
    both_ways(&mut list, fref, fref_of_t, 20);
    let (to_zero, to_other) = (list.handle(&Call::GetMemPtr(zero, 0)), list.handle(&Call::GetMemPtr(other_name, 0)));
    both_ways(&mut list, to_zero, to_other, 91);
    let with_nil = list.handle(&Call::GetMemPtr(zero, 1));
    both_ways(&mut list, to_zero, 88, with_nil);
}

/// Names and aliases are tested before any field is met: nothing is made where the last alias differs.
#[test]
fn a_mismatch_makes_nothing() {
    let mut list = List::fresh(300);
    let a = list.handle(&Call::GetStruct(1, &[1, 9, 1, 0, 1, 9, 2, 0]));
    let b = list.handle(&Call::GetStruct(1, &[1, 28, 1, 0, 1, 9, 3, 0]));
    let used = list.used();
    both_ways(&mut list, a, b, 20);
    assert_eq!(list.used(), used);
}

#[test]
fn meets_of_memories() {
    let mut list = List::fresh(300);
    let (one, two, int) = (list.handle(&Call::GetMem(1, 9)), list.handle(&Call::GetMem(2, 9)), list.handle(&Call::GetMem(1, 12)));
    let shared = list.handle(&Call::GetMem(1, 15));
    both_ways(&mut list, one, int, shared);
    let apart = list.handle(&Call::GetMem(4_294_967_295, 9));
    both_ways(&mut list, one, two, apart);
    both_ways(&mut list, one, 79, 79);
    both_ways(&mut list, one, 76, one);
    // 79 wins also over a memory of another Bot, where types would meet at the first
    let bot = list.append(&[257]);
    let memory = list.handle(&Call::GetMem(4_294_967_295, bot));
    both_ways(&mut list, memory, 79, 79);
}

/// Duals, glbs and lubs of the fresh types.
#[test]
fn duals_and_bounds_of_fresh_types() {
    let mut list = List::fresh(300);
    let duals =
        [(5, 6), (7, 8), (18, 20), (22, 25), (9, 9), (49, 61), (52, 58), (55, 55), (64, 67), (70, 73), (76, 79), (82, 85), (88, 91)];
    for (a, b) in duals {
        assert_eq!(list.handle(&Call::Dual(a)), b);
        assert_eq!(list.handle(&Call::Dual(b)), a);
    }
    let i8_dual = list.handle(&Call::Dual(31));
    assert_eq!(list.ends(i8_dual), (127, -128));
    let glbs = [(5, 5), (6, 5), (7, 7), (8, 5), (9, 25), (22, 25), (55, 61), (49, 61), (64, 64), (18, 18), (20, 20), (76, 79), (79, 79)];
    let lubs = [(5, 6), (6, 6), (7, 8), (8, 6), (9, 22), (25, 22), (55, 49), (61, 49), (64, 6), (18, 18), (20, 20), (76, 76), (79, 76)];
    for ((a, glb), (b, lub)) in glbs.into_iter().zip(lubs) {
        assert_eq!(list.handle(&Call::Glb(a)), glb, "glb of {a}");
        assert_eq!(list.handle(&Call::Lub(b)), lub, "lub of {b}");
    }
    for (a, glb, lub) in [(82, 82, 91), (91, 82, 91), (85, 88, 85), (88, 88, 85)] {
        assert_eq!(list.handle(&Call::Glb(a)), glb, "glb of {a}");
        assert_eq!(list.handle(&Call::Lub(a)), lub, "lub of {a}");
    }
}

#[test]
fn duals_and_bounds_by_parts() {
    let mut list = List::fresh(600);
    let s = list.handle(&Call::GetStruct(1, &[1, 9, 3, 0, 3, 64, 4, 1, 3, 7, 5, 0]));
    let mut output = [0; 12];
    let mut fields = |list: &mut List, a| {
        assert_eq!(list.call_with(&Call::StructFields(a), &mut output), Reply::Filled(12));
        output
    };
    let (dual, glb, lub) = (list.handle(&Call::Dual(s)), list.handle(&Call::Glb(s)), list.handle(&Call::Lub(s)));
    assert_eq!(fields(&mut list, dual), [1, 9, 3, 1, 3, 67, 4, 0, 3, 8, 5, 1]);
    assert_eq!(fields(&mut list, glb), [1, 25, 3, 0, 3, 64, 4, 1, 3, 7, 5, 0]);
    assert_eq!(fields(&mut list, lub), [1, 22, 3, 0, 3, 6, 4, 1, 3, 8, 5, 0]);
    let fref = list.handle(&Call::MakeStructFref(1));
    let (mem, pointer) = (list.handle(&Call::GetMem(7, s)), list.handle(&Call::GetMemPtr(fref, 0)));
    for (call, part) in [(Call::Dual as fn(u64) -> Call<'static>, dual), (Call::Glb, glb), (Call::Lub, lub)] {
        let expected = list.handle(&Call::GetMem(7, part));
        assert_eq!(list.handle(&call(mem)), expected);
        assert_eq!(list.handle(&call(fref)), fref);
    }
    let with_nil = list.handle(&Call::GetMemPtr(fref, 1));
    assert_eq!(list.handle(&Call::Dual(pointer)), with_nil);
    assert_eq!(list.handle(&Call::Glb(pointer)), with_nil);
    assert_eq!(list.handle(&Call::Lub(with_nil)), pointer);
}

/// is_high, is_constant; is_high_or_constant is either.
#[test]
fn sides_of_the_lattice() {
    let mut list = List::fresh(200);
    let high = [6, 8, 22, 49, 52, 85];
    let constant = [9, 12, 28, 55, 88];
    let neither = [5, 7, 15, 25, 31, 58, 61, 64, 67, 18, 20, 76, 79, 82, 91];
    for a in high.into_iter().chain(constant).chain(neither) {
        let yes = |is: bool| if is { Reply::Yes } else { Reply::No };
        assert_eq!(list.call(&Call::IsHigh(a)), yes(high.contains(&a)), "is_high of {a}");
        assert_eq!(list.call(&Call::IsConstant(a)), yes(constant.contains(&a)), "is_constant of {a}");
        assert_eq!(list.call(&Call::IsHighOrConstant(a)), yes(!neither.contains(&a)), "is_high_or_constant of {a}");
        assert_eq!(list.call(&Call::IsFref(a)), Reply::No);
    }
    let fref = list.handle(&Call::MakeStructFref(1));
    let pointer = list.handle(&Call::GetMemPtr(fref, 0));
    let tuple = list.handle(&Call::GetTuple(&[fref]));
    for (a, is) in [(fref, Reply::Yes), (pointer, Reply::Yes), (tuple, Reply::No)] {
        assert_eq!(list.call(&Call::IsFref(a)), is);
    }
}

#[test]
fn without_zero() {
    let mut list = List::fresh(400);
    for ((min, max), expected) in [
        ((0, 0), (1, 1)),
        ((0, 1), (1, 1)),
        ((0, 7), (1, 7)),
        ((-4, 0), (-4, -1)),
        ((-1, 1), (-1, 1)),
        ((3, 4), (3, 4)),
        ((0, -5), (0, -5)),
        ((5, 0), (5, 0)),
        ((0, i64::MAX), (1, i64::MAX)),
        ((i64::MIN, 0), (i64::MIN, -1)),
    ] {
        let a = list.int(min, max);
        let non_zero = list.handle(&Call::NonZero(a));
        assert_eq!(list.ends(non_zero), expected, "non_zero of {min}..{max}");
    }
    for (a, non_zero) in [(82, 91), (85, 91), (6, 5), (8, 5), (7, 7), (55, 61), (64, 64), (76, 79), (18, 18)] {
        assert_eq!(list.handle(&Call::NonZero(a)), non_zero, "non_zero of {a}");
    }
}

#[test]
fn log_sizes() {
    let mut list = List::fresh(200);
    let sizes = [
        (31, 0),
        (40, 0),
        (15, 0),
        (9, 0),
        (22, 0),
        (34, 1),
        (43, 1),
        (37, 2),
        (46, 2),
        (25, 3),
        (52, 2),
        (58, 2),
        (55, 2),
        (49, 3),
        (61, 3),
        (82, 2),
        (85, 2),
    ];
    for (a, log) in sizes {
        assert_eq!(list.call(&Call::LogSize(a)), Reply::Number(log), "log_size of {a}");
    }
    for a in [5, 6, 7, 8, 64, 18, 20, 76, 79] {
        assert_eq!(list.refused(&Call::LogSize(a)), 9);
    }
    let high = list.int(7, 0);
    assert_eq!(list.call(&Call::LogSize(high)), Reply::Number(0));
}

#[test]
fn arrays_have_two_fields() {
    let mut list = List::fresh(300);
    let (body, other) = (list.name(b"[]"), list.name(b"[] "));
    let field = |name| [name, 9, 0, 0];
    for (names, is) in [
        (&[1, body][..], Reply::Yes),
        (&[body, body], Reply::Yes),
        (&[body, 1], Reply::No),
        (&[body], Reply::No),
        (&[1, body, 1], Reply::No),
        (&[1, other], Reply::No),
        (&[], Reply::No),
    ] {
        let fields: Vec<u64> = names.iter().flat_map(|&name| field(name)).collect();
        let s = list.handle(&Call::GetStruct(1, &fields));
        assert_eq!(list.call(&Call::IsAry(s)), is, "{names:?}");
    }
}

/// Each maker refuses depth 33 and makes depth 32.
#[test]
fn depth_32_and_33() {
    let mut list = List::fresh(2000);
    let mut at = vec![0, 5];
    while at.len() <= 32 {
        at.push(list.handle(&Call::GetTuple(&[at[at.len() - 1]])));
    }
    let (below, top) = (at[31], at[32]);
    let structs = [at[30], below].map(|t| one_field(&mut list, 1, [1, t, 0, 0]));
    list.handle(&Call::GetMem(1, below));
    assert_eq!(list.refused(&Call::GetMem(1, top)), 6);
    list.handle(&Call::GetMemPtr(structs[0], 0));
    assert_eq!(list.refused(&Call::GetMemPtr(structs[1], 0)), 6);
    assert_eq!(list.refused(&Call::GetStruct(1, &[1, top, 0, 0])), 6);
    assert_eq!(list.refused(&Call::GetStruct(1, &[1, top, 0, 0, 1, 9, 0, 0])), 6);
    list.handle(&Call::MakeAry(9, 0, below, 0, b""));
    assert_eq!(list.refused(&Call::MakeAry(9, 0, top, 0, b"")), 6);
    assert_eq!(list.refused(&Call::GetTuple(&[9, top, 9])), 6);
}
