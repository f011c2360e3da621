//! The readings of the document's open points, by their numbers.

mod common;

use common::List;
use reading::{well_formed, Call, Reply};

const ALIAS: u64 = 4_294_967_295;

/// Tuples around Bot up to depth 32. The deepest.
fn deepest(list: &mut List) -> u64 {
    (2..=32).fold(5, |below, _| list.handle(&Call::GetTuple(&[below])))
}

#[test]
fn r01_the_lowest_number_over_all_arguments() {
    let mut list = List::fresh(200);
    assert_eq!(list.refused(&Call::Meet(1, 2)), 2);
    assert_eq!(list.refused(&Call::Meet(2, 1)), 2);
    assert_eq!(list.refused(&Call::Isa(1, 5)), 3);
    assert_eq!(list.refused(&Call::Join(5, 1)), 3);
    assert_eq!(list.refused(&Call::GetTuple(&[1, 5, 2])), 2);
    assert_eq!(list.refused(&Call::MakeAry(5, 0, 0, 0, b"")), 2);
}

#[test]
fn r02_an_unfinished_field_is_not_read() {
    let mut list = List::fresh(200);
    assert_eq!(list.refused(&Call::GetStruct(1, &[2, 2, u64::MAX])), 4);
    assert_eq!(list.refused(&Call::GetStruct(1, &[1, 2, 0, 0, 1, 9])), 2);
    assert_eq!(list.refused(&Call::GetStruct(1, &[9, 9, 0, 0, 1, 9])), 3);
    assert_eq!(list.refused(&Call::GetStruct(2, &[1, 9, 0])), 2);
    let mut fields = [1, 9, 0, 0].repeat(256);
    fields.push(7);
    assert_eq!(list.refused(&Call::GetStruct(1, &fields)), 4);
}

#[test]
fn r03_what_stands_past_the_255th_is_read() {
    let mut list = List::fresh(2000);
    let with = |last| [vec![5; 255], vec![last]].concat();
    assert_eq!(list.refused(&Call::GetTuple(&with(2))), 2);
    assert_eq!(list.refused(&Call::GetTuple(&with(1))), 3);
    assert_eq!(list.refused(&Call::GetTuple(&with(5))), 5);
    let fields = |last: [u64; 4]| [[1, 5, 0, 0].repeat(255), last.to_vec()].concat();
    assert_eq!(list.refused(&Call::GetStruct(1, &fields([1, 2, 0, 0]))), 2);
    assert_eq!(list.refused(&Call::GetStruct(1, &fields([5, 5, 0, 0]))), 3);
    assert_eq!(list.refused(&Call::GetStruct(1, &fields([1, 5, 0, 2]))), 4);
    assert_eq!(list.refused(&Call::GetStruct(1, &fields([1, 5, ALIAS + 1, 0]))), 4);
    assert_eq!(list.refused(&Call::GetStruct(1, &fields([1, 5, ALIAS, 1]))), 5);
}

#[test]
fn r04_numbers_decide_between_4_5_6_and_10() {
    let mut list = List::fresh(2000);
    let mut below = 5;
    for _ in 2..=30 {
        below = list.handle(&Call::GetTuple(&[below]));
    }
    let s = list.handle(&Call::GetStruct(1, &[1, below, 0, 0]));
    let pointer = list.handle(&Call::GetMemPtr(s, 0));
    assert_eq!(list.refused(&Call::MakeAry(9, 0, pointer, 0, b"")), 6);
    assert_eq!(list.refused(&Call::MakeAry(9, ALIAS + 1, pointer, 0, b"")), 4);
    assert_eq!(list.refused(&Call::MakeAry(9, 0, pointer, 0, &[0; 254])), 5);
    let around = list.handle(&Call::GetTuple(&[below]));
    let s = list.handle(&Call::GetStruct(1, &[1, around, 0, 0]));
    assert_eq!(list.refused(&Call::GetMemPtr(s, 2)), 4);
    assert_eq!(list.refused(&Call::GetMemPtr(s, 1)), 6);
    let deepest = deepest(&mut list);
    assert_eq!(list.refused(&Call::GetTuple(&[deepest; 256])), 5);
}

#[test]
fn r05_find_takes_two_handles() {
    let mut list = List::fresh(200);
    let fref = list.handle(&Call::MakeStructFref(1));
    assert_eq!(list.refused(&Call::Find(2, 1)), 2);
    assert_eq!(list.refused(&Call::Find(fref, 2)), 2);
    assert_eq!(list.refused(&Call::Find(5, 1)), 3);
    assert_eq!(list.refused(&Call::Find(fref, 5)), 3);
    assert_eq!(list.refused(&Call::Find(fref, 1)), 7);
    assert_eq!(list.refused(&Call::FindAlias(fref, ALIAS + 1)), 4);
    assert_eq!(list.refused(&Call::FindAlias(fref, ALIAS)), 7);
    let s = list.handle(&Call::GetStruct(1, &[1, 9, 4, 0, 3, 9, 5, 0, 3, 9, 5, 0]));
    assert_eq!(list.call(&Call::Find(s, 3)), Reply::Number(1));
    assert_eq!(list.call(&Call::FindAlias(s, 5)), Reply::Number(1));
    assert_eq!(list.call(&Call::FindAlias(s, 6)), Reply::Absent);
}

#[test]
fn r06_offsets_give_7_then_8_then_9_then_11() {
    let mut list = List::fresh(200);
    let fref = list.handle(&Call::MakeStructFref(1));
    assert_eq!(list.refused(&Call::Offset(fref, u64::MAX)), 7);
    let s = list.handle(&Call::GetStruct(1, &[1, 9, 0, 0, 1, 5, 0, 0]));
    assert_eq!(list.refused(&Call::Offset(s, 3)), 8);
    for index in 0..=2 {
        assert_eq!(list.refused(&Call::Offset(s, index)), 9);
    }
    assert_eq!(list.refused(&Call::Offsets(s)), 9);
    let s = list.handle(&Call::GetStruct(1, &[1, 25, 0, 0, 1, 9, 0, 0]));
    assert_eq!(list.call(&Call::Offset(s, 2)), Reply::Number(16));
    assert_eq!(list.call_with(&Call::Offsets(s), &mut [0; 2]), Reply::Refused(11));
    assert_eq!(list.call_with(&Call::Offsets(s), &mut [0; 3]), Reply::Filled(3));
    assert_eq!(list.call_with(&Call::StructFields(s), &mut [0; 7]), Reply::Refused(11));
    let mut output = [9; 9];
    assert_eq!(list.call_with(&Call::StructFields(s), &mut output), Reply::Filled(8));
    assert_eq!(output, [1, 25, 0, 0, 1, 9, 0, 0, 9]);
    assert_eq!(list.call(&Call::StructFields(18)), Reply::Filled(0));
}

#[test]
fn r07_array_calls_take_arrays() {
    let mut list = List::fresh(300);
    let fref = list.handle(&Call::MakeStructFref(1));
    let range = list.int(0, 7);
    let (odd_length, odd_body) = (list.handle(&Call::MakeAry(range, 0, 25, 0, b"")), list.handle(&Call::MakeAry(25, 0, range, 0, b"")));
    for other in [1, 5, 18, 88, fref] {
        assert_eq!(list.refused(&Call::AryBase(other)), 3);
        assert_eq!(list.refused(&Call::AryScale(other)), 3);
    }
    assert_eq!(list.refused(&Call::AryBase(2)), 2);
    assert_eq!(list.refused(&Call::AryBase(odd_length)), 9);
    assert_eq!(list.call(&Call::AryScale(odd_length)), Reply::Number(3));
    assert_eq!(list.refused(&Call::AryBase(odd_body)), 9);
    assert_eq!(list.refused(&Call::AryScale(odd_body)), 9);
    let array = list.handle(&Call::MakeAry(46, 0, 43, 0, b"u16"));
    assert_eq!(list.call(&Call::AryBase(array)), Reply::Number(4));
    assert_eq!(list.call(&Call::AryScale(array)), Reply::Number(1));
}

#[test]
fn r08_make_ary() {
    let mut list = List::fresh(400);
    assert_eq!(list.refused(&Call::MakeAry(9, 0, 9, 0, &[65; 254])), 5);
    list.handle(&Call::MakeAry(9, 0, 9, 0, &[65; 253]));
    assert_eq!(list.refused(&Call::MakeAry(58, 0, 9, 0, b"")), 3);
    assert_eq!(list.refused(&Call::MakeAry(9, 0, 1, 0, b"")), 3);
    for (pointer, row) in [(85, Some(10)), (91, Some(10)), (82, None), (88, None)] {
        let reply = list.call(&Call::MakeAry(9, 0, pointer, 0, b""));
        assert_eq!(row.map(Reply::Refused).unwrap_or(reply), reply, "body {pointer}");
        assert_eq!(matches!(reply, Reply::Handle(_)), row.is_none());
    }
    let mut list = List::fresh(400);
    assert_eq!(list.handle(&Call::MakeAry(25, 1, 40, 2, b"")), 98);
    let mut output = [0; 8];
    list.call_with(&Call::StructFields(98), &mut output);
    assert_eq!(output, [96, 25, 1, 1, 94, 40, 2, 0]);
    assert_eq!(list.call(&Call::StructName(98)), Reply::Handle(94));
    assert_eq!(list.call(&Call::IsAry(98)), Reply::Yes);
}

#[test]
fn r09_make_zero_and_make_init() {
    let mut list = List::fresh(200);
    let fref = list.handle(&Call::MakeStructFref(1));
    for other in [5, 6, 7, 8, 18, 64, 76, fref] {
        assert_eq!(list.refused(&Call::MakeZero(other)), 3);
        assert_eq!(list.call(&Call::MakeInit(other)), Reply::Handle(other));
    }
    for (a, zero, init) in [(22, 9, 9), (58, 55, 55), (91, 88, 6), (85, 88, 6), (82, 88, 88), (88, 88, 88)] {
        assert_eq!(list.call(&Call::MakeZero(a)), Reply::Handle(zero));
        assert_eq!(list.call(&Call::MakeInit(a)), Reply::Handle(init));
    }
}

#[test]
fn r10_get_bool_and_kinds_of_the_readers() {
    let mut list = List::fresh(94);
    assert_eq!(list.call(&Call::GetBool(0)), Reply::Handle(9));
    assert_eq!(list.call(&Call::GetBool(1)), Reply::Handle(12));
    assert_eq!(list.refused(&Call::GetBool(2)), 4);
    for a in [1, 5, 18, 55, 64, 76, 82] {
        for call in [Call::IntMin(a), Call::IntMax(a), Call::IntValue(a), Call::IntMask(a)] {
            assert_eq!(list.refused(&call), 3);
        }
    }
    for a in [1, 5, 9, 18, 64, 76, 82] {
        for call in [Call::FloatSz(a), Call::FloatIsF32(a), Call::FloatValue(a), Call::FloatReading(a)] {
            assert_eq!(list.refused(&call), 3);
        }
    }
    for a in [1, 5, 9, 55, 64, 76, 82] {
        assert_eq!(list.refused(&Call::StructName(a)), 3);
    }
    assert_eq!(list.refused(&Call::Kind(1)), 3);
    assert_eq!(list.call(&Call::Kind(82)), Reply::Number(10));
    let mut list = List::fresh(96);
    let fref = list.handle(&Call::MakeStructFref(3));
    assert_eq!(list.call(&Call::StructName(fref)), Reply::Handle(3));
    assert_eq!(list.call(&Call::Kind(fref)), Reply::Number(9));
}

#[test]
fn r11_a_size_has_no_bits() {
    let mut list = List::fresh(200);
    for (sz, handle) in [(-64i64, 49), (-32, 52), (32, 58), (64, 61)] {
        assert_eq!(list.refused(&Call::MakeFloat(sz as u64, 1 << 63)), 4);
        assert_eq!(list.call(&Call::MakeFloat(sz as u64, 0)), Reply::Handle(handle));
    }
    assert_eq!(list.call(&Call::MakeFloat(0, 0)), Reply::Handle(55));
    assert_eq!(list.handle(&Call::MakeFloat(0, 1 << 63)), 94);
    for sz in [1, 16, 63, 128, 0xc0, u64::MAX] {
        assert_eq!(list.refused(&Call::MakeFloat(sz, 0)), 4);
    }
}

#[test]
fn r12_handles_that_start_no_entry() {
    let mut list = List::fresh(200);
    for a in [0, 2, 10, 11, 92, 93, 94, 199, 200, 1 << 32, u64::MAX] {
        assert_eq!(list.refused(&Call::Kind(a)), 2);
        assert_eq!(list.refused(&Call::Dual(a)), 2);
    }
}

#[test]
fn r13_isa_needs_no_room() {
    let mut list = List::fresh(94);
    assert_eq!(list.call(&Call::Isa(9, 28)), Reply::No);
    assert_eq!(list.refused(&Call::Meet(9, 28)), 12);
    assert_eq!(list.call(&Call::Isa(9, 15)), Reply::Yes);
    let mut list = List::fresh(5000);
    assert_eq!(list.call(&Call::Isa(9, 28)), Reply::No);
    assert_eq!(list.used(), 94);
    let deepest = deepest(&mut list);
    for call in [Call::Dual(deepest), Call::Glb(deepest), Call::Lub(deepest), Call::MakeRo(deepest), Call::NonZero(deepest)] {
        list.handle(&call);
    }
    list.handle(&Call::Meet(deepest, 64));
    list.handle(&Call::Join(deepest, 64));
}

#[test]
fn r14_a_zero_word_is_the_empty_name() {
    let mut list = List::fresh(200);
    list.words[0] += 3;
    assert!(well_formed(&list.words));
    assert_eq!(list.handle(&Call::GetStr(b"")), 94);
    assert_eq!(list.handle(&Call::MakeStructFref(96)), 97);
    assert_eq!(list.refused(&Call::Kind(95)), 3);
    let mut list = List::fresh(95);
    assert_eq!(list.handle(&Call::GetStr(b"")), 94);
    assert_eq!(list.used(), 95);
}

#[test]
fn r15_structs_with_copied_names_are_different_entries() {
    let mut list = List::fresh(300);
    let name = list.name(b"S");
    let copy = list.copy(name, 2);
    let (s, t) = (list.handle(&Call::GetStruct(name, &[name, 9, 0, 0])), list.handle(&Call::GetStruct(copy, &[copy, 12, 0, 1])));
    assert_ne!(s, t);
    assert_eq!(list.call(&Call::StructName(t)), Reply::Handle(copy));
    assert_eq!(list.call(&Call::Find(t, name)), Reply::Number(0));
    assert_eq!(list.call(&Call::Find(s, copy)), Reply::Number(0));
    // a met struct keeps the first operand's name handles
    let mut output = [0; 4];
    for (a, b, kept) in [(s, t, name), (t, s, copy)] {
        let meet = list.handle(&Call::Meet(a, b));
        assert_eq!(list.call(&Call::StructName(meet)), Reply::Handle(kept));
        assert_eq!(list.call_with(&Call::StructFields(meet), &mut output), Reply::Filled(4));
        assert_eq!(output, [kept, 15, 0, 1]);
    }
    let brackets = list.name(b"[]");
    let copy = list.copy(brackets, 2);
    let array = list.handle(&Call::GetStruct(1, &[1, 9, 0, 0, copy, 91, 0, 0]));
    assert_eq!(list.call(&Call::IsAry(array)), Reply::Yes);
}

#[test]
fn r16_what_row_1_does_not_forbid() {
    let mut list = List::fresh(300);
    list.append(&[257]);
    list.append(&[261, 0, 0]);
    list.append(&[2 * 65_536, 0xfeff]);
    let brackets = list.name(b"[]");
    let array = list.handle(&Call::GetStruct(1, &[1, 9, 0, 0, brackets, 91, 0, 0]));
    assert_eq!(list.call(&Call::AryBase(array)), Reply::Number(0));
    assert_eq!(list.call(&Call::AryScale(array)), Reply::Number(2));
}

#[test]
fn r17_heads_and_fill_bytes() {
    for entry in [&[257 + (1 << 24)][..], &[65_536, 0x100]] {
        let mut list = List::fresh(200);
        list.words[94..94 + entry.len()].copy_from_slice(entry);
        list.words[0] += entry.len() as u64;
        assert!(!well_formed(&list.words));
    }
}

#[test]
fn r18_join_makes_duals_meet_and_dual() {
    let mut list = List::fresh(300);
    let (a, b) = (list.int(0, 7), list.int(4, 9));
    // the answer is there before
    let answer = list.int(4, 7);
    let from = list.used() as usize;
    assert_eq!(list.handle(&Call::Join(a, b)), answer);
    assert_eq!(list.words[from..from + 10], [261, 7, 0, 261, 9, 4, 261, 7, 4, 0]);
    assert_eq!(list.used() as usize, from + 9);
    // itself for one handle, with nothing made
    assert_eq!(list.handle(&Call::Join(40, 40)), 40);
    assert_eq!(list.used() as usize, from + 9);
}

#[test]
fn r19_the_same_struct_behind_pointers_is_itself() {
    let mut list = List::fresh(300);
    let s = list.handle(&Call::GetStruct(1, &[1, 9, 0, 0]));
    let copy = list.copy(s, 5);
    let (p, q) = (list.handle(&Call::GetMemPtr(copy, 0)), list.handle(&Call::GetMemPtr(copy, 1)));
    assert_eq!(list.handle(&Call::Meet(p, q)), q);
    assert_eq!(list.call(&Call::Isa(p, q)), Reply::Yes);
    // two copies make the struct again, and it is found at the lowest handle
    assert_eq!(list.handle(&Call::Meet(copy, s)), s);
    assert_eq!(list.handle(&Call::Meet(s, copy)), s);
}

#[test]
fn r20_copies_of_ctrl() {
    let mut list = List::fresh(200);
    let (ctrl, xctrl) = (list.append(&[259]), list.append(&[260]));
    assert_eq!(list.handle(&Call::Meet(ctrl, 8)), ctrl);
    assert_eq!(list.handle(&Call::Meet(8, ctrl)), ctrl);
    assert_eq!(list.handle(&Call::Meet(xctrl, 7)), 7);
    assert_eq!(list.handle(&Call::Meet(ctrl, 7)), 5);
    assert_eq!(list.handle(&Call::Meet(7, ctrl)), 5);
    assert_eq!(list.handle(&Call::Meet(xctrl, 8)), 5);
    assert_eq!(list.handle(&Call::Glb(ctrl)), 7);
    assert_eq!(list.handle(&Call::Lub(ctrl)), 8);
    assert_eq!(list.handle(&Call::Glb(xctrl)), 5);
}

#[test]
fn r21_copies_of_floats() {
    let mut list = List::fresh(200);
    let [top, t32, zero, b32, bot] = [0, 32, 64, 96, 128].map(|sz| list.append(&[262, sz, 0]));
    assert_eq!(list.handle(&Call::Meet(top, b32)), b32);
    assert_eq!(list.handle(&Call::Meet(zero, 49)), zero);
    assert_eq!(list.handle(&Call::Meet(b32, 52)), 58);
    assert_eq!(list.handle(&Call::Meet(t32, b32)), 58);
    assert_eq!(list.handle(&Call::Meet(bot, 49)), 61);
    assert_eq!(list.handle(&Call::Meet(zero, bot)), 61);
    assert_eq!(list.handle(&Call::Meet(bot, 61)), 61);
    assert_eq!(list.handle(&Call::Meet(b32, 58)), 58);
    assert_eq!(list.handle(&Call::Meet(zero, t32)), zero);
    assert_eq!(list.handle(&Call::Meet(52, zero)), zero);
    assert_eq!(list.handle(&Call::Meet(zero, 55)), 58);
    // of one negative size the first
    assert_eq!(list.handle(&Call::Meet(top, 49)), top);
    assert_eq!(list.handle(&Call::Meet(49, top)), 49);
    assert_eq!(list.handle(&Call::Meet(t32, 52)), t32);
    assert_eq!(list.handle(&Call::Meet(52, t32)), 52);
}

#[test]
fn r21_two_bots_tops_and_forward_references() {
    let mut list = List::fresh(200);
    let (bot, top) = (list.append(&[257]), list.append(&[258]));
    let (fref, copy) = (list.append(&[265, 1]), list.append(&[265, 1]));
    assert_eq!(list.handle(&Call::Meet(bot, 5)), bot);
    assert_eq!(list.handle(&Call::Meet(5, bot)), 5);
    assert_eq!(list.handle(&Call::Meet(top, 6)), top);
    assert_eq!(list.handle(&Call::Meet(6, top)), 6);
    assert_eq!(list.handle(&Call::Meet(top, bot)), bot);
    assert_eq!(list.handle(&Call::Meet(bot, top)), bot);
    assert_eq!(list.handle(&Call::Meet(fref, copy)), copy);
    assert_eq!(list.handle(&Call::Meet(copy, fref)), fref);
    // the forward reference of the name "$TOP" is no $TOP, which yields to it
    assert_eq!(list.handle(&Call::Meet(18, fref)), fref);
    assert_eq!(list.handle(&Call::Meet(fref, 18)), fref);
    assert_eq!(list.handle(&Call::Meet(fref, 20)), 20);
}

#[test]
fn r22_sizes_and_sides_are_of_handles() {
    let mut list = List::fresh(300);
    for handle in [15, 31, 34, 37, 40, 43, 46, 25] {
        let copy = list.copy(handle, 3);
        assert_eq!(list.refused(&Call::LogSize(copy)), 9);
    }
    for handle in [9, 22] {
        let copy = list.copy(handle, 3);
        assert_eq!(list.call(&Call::LogSize(copy)), Reply::Number(0));
        assert_eq!(list.call(&Call::IsHighOrConstant(copy)), Reply::Yes);
    }
    let (high, null) = (list.copy(85, 3), list.copy(88, 3));
    assert_eq!(list.call(&Call::IsHigh(85)), Reply::Yes);
    assert_eq!(list.call(&Call::IsHigh(high)), Reply::No);
    assert_eq!(list.call(&Call::IsConstant(88)), Reply::Yes);
    assert_eq!(list.call(&Call::IsConstant(null)), Reply::No);
    assert_eq!(list.call(&Call::IsHighOrConstant(null)), Reply::No);
    assert_eq!(list.call(&Call::LogSize(high)), Reply::Number(2));
}

#[test]
fn r23_isa_and_copies() {
    let mut list = List::fresh(300);
    let copy = list.copy(15, 3);
    // the meet is made: 0..1 at handle 15
    assert_eq!(list.call(&Call::Isa(9, 15)), Reply::Yes);
    assert_eq!(list.call(&Call::Isa(9, copy)), Reply::No);
    assert_eq!(list.call(&Call::Isa(copy, 15)), Reply::Yes);
    assert_eq!(list.call(&Call::Isa(copy, copy)), Reply::Yes);
    let (name, name_copy) = (list.append(&[65_536, 83]), list.append(&[65_536, 83]));
    let (s, t) = (list.handle(&Call::GetStruct(name, &[1, 9, 0, 0])), list.handle(&Call::GetStruct(name_copy, &[1, 15, 0, 0])));
    // the meet would have the first operand's name
    assert_eq!(list.call(&Call::Isa(s, t)), Reply::No);
}

#[test]
fn r24_copies_are_made_again_and_constants_are_not() {
    let mut list = List::fresh(400);
    for handle in [15, 64, 76, 82] {
        let copy = list.copy(handle, 3);
        for call in [Call::Dual, Call::Glb, Call::Lub] {
            assert_eq!(list.handle(&call(copy)), list.handle(&call(handle)));
        }
    }
    let constant = list.append(&[262, 64, 0]);
    assert_eq!(list.handle(&Call::Dual(constant)), constant);
    let copy_of_top = list.append(&[264, 1]);
    // a copy of $TOP is another type: its dual has no fields to dual, and is $TOP itself
    assert_eq!(list.handle(&Call::Dual(copy_of_top)), 18);
    assert_eq!(list.handle(&Call::Meet(copy_of_top, 20)), 20);
    assert_eq!(list.handle(&Call::Meet(copy_of_top, 18)), copy_of_top);
}

#[test]
fn r25_readings_of_floats() {
    let mut list = List::fresh(200);
    for (a, sz) in [(49, -64), (52, -32), (58, 32), (61, 64)] {
        assert_eq!(list.call(&Call::FloatIsF32(a)), Reply::Yes);
        assert_eq!(list.call(&Call::FloatValue(a)), Reply::Absent);
        assert_eq!(list.call(&Call::FloatReading(a)), Reply::Size(sz));
        assert_eq!(list.call(&Call::FloatSz(a)), Reply::Signed(sz));
    }
    let tenth = list.float(0.1);
    assert_eq!(list.call(&Call::FloatValue(tenth)), Reply::Constant(0.1f64.to_bits()));
    assert_eq!(list.call(&Call::FloatReading(55)), Reply::Constant(0));
    for (a, log) in [(49, 3), (52, 2), (55, 2), (58, 2), (61, 3), (tenth, 3)] {
        assert_eq!(list.call(&Call::LogSize(a)), Reply::Number(log));
    }
}

#[test]
fn r26_is_final_and_make_ro() {
    let mut list = List::fresh(400);
    let open = list.handle(&Call::GetStruct(1, &[1, 9, 0, 0]));
    let (tuple, mem) = (list.handle(&Call::GetTuple(&[open])), list.handle(&Call::GetMem(1, open)));
    let fref = list.handle(&Call::MakeStructFref(1));
    let pointer = list.handle(&Call::GetMemPtr(fref, 0));
    for a in [tuple, mem, fref, pointer, 18, 91] {
        assert_eq!(list.call(&Call::IsFinal(a)), Reply::Yes);
        assert_eq!(list.handle(&Call::MakeRo(a)), a);
    }
    assert_eq!(list.call(&Call::IsFinal(open)), Reply::No);
    let closed = list.handle(&Call::GetStruct(1, &[1, 9, 0, 1]));
    assert_eq!(list.handle(&Call::MakeRo(open)), closed);
    let to_open = list.handle(&Call::GetMemPtr(open, 1));
    let to_closed = list.handle(&Call::MakeRo(to_open));
    assert_eq!(list.handle(&Call::GetMemPtr(closed, 1)), to_closed);
    // a final field around a non-final struct stays
    let around = list.handle(&Call::GetStruct(3, &[1, to_open, 0, 1, 1, open, 0, 0]));
    let mut output = [0; 8];
    let ro = list.handle(&Call::MakeRo(around));
    list.call_with(&Call::StructFields(ro), &mut output);
    assert_eq!(output, [1, to_open, 0, 1, 1, closed, 0, 1]);
    assert_eq!(list.call(&Call::IsFinal(ro)), Reply::No);
    assert_eq!(list.handle(&Call::MakeRo(ro)), ro);
    // a copy of such a struct is made again, and a pointer to it goes to the lowest
    let copy = list.copy(ro, 8);
    let pointer = list.handle(&Call::GetMemPtr(copy, 0));
    assert_eq!(list.handle(&Call::MakeRo(copy)), ro);
    let to_ro = list.handle(&Call::MakeRo(pointer));
    assert_eq!(list.handle(&Call::GetMemPtr(ro, 0)), to_ro);
    // a copy of what is final is itself
    let copy = list.copy(closed, 5);
    let pointer = list.copy(to_closed, 3);
    assert_eq!(list.handle(&Call::MakeRo(copy)), copy);
    assert_eq!(list.handle(&Call::MakeRo(pointer)), pointer);
}

#[test]
fn r27_nans_differ_by_their_bits() {
    let mut list = List::fresh(200);
    let (nan, other) = (list.handle(&Call::GetFloat(0x7ff8 << 48)), list.handle(&Call::GetFloat(0x7ff8 << 48 | 1)));
    assert_ne!(nan, other);
    assert_eq!(list.handle(&Call::GetFloat(0x7ff8 << 48)), nan);
    assert_eq!(list.call(&Call::FloatIsF32(nan)), Reply::No);
    assert_eq!(list.handle(&Call::Meet(nan, other)), 61);
    assert_eq!(list.handle(&Call::Meet(nan, nan)), nan);
    assert_eq!(list.handle(&Call::Meet(nan, 52)), 61);
    assert_eq!(list.handle(&Call::Meet(nan, 58)), 61);
}

#[test]
fn r28_fresh_has_nothing_to_tell() {
    let mut list = List::fresh(300);
    list.int(3, 4);
    assert_eq!(list.call(&Call::Fresh), Reply::Done);
    assert_eq!(list.used(), 94);
    assert_eq!(list.int(3, 5), 94);
}

#[test]
fn r29_a_forward_reference_isa_two_structs_and_not_their_join() {
    let mut list = List::fresh(300);
    let name = list.name(b"X");
    let fref = list.handle(&Call::MakeStructFref(name));
    let (empty, full) = (list.handle(&Call::GetStruct(name, &[])), list.handle(&Call::GetStruct(name, &[name, 9, 0, 0])));
    assert_eq!(list.handle(&Call::Join(empty, full)), 18);
    assert_eq!(list.call(&Call::Isa(fref, empty)), Reply::Yes);
    assert_eq!(list.call(&Call::Isa(fref, full)), Reply::Yes);
    assert_eq!(list.call(&Call::Isa(fref, 18)), Reply::No);
}
