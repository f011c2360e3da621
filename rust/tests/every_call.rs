//! Every call with a known answer, and each of the thirteen refusals, as a function over words, on a store and on an opened store.
use std::collections::BTreeSet;

use ferigulan::{calls, fresh, index_len, memory_len, Handle, Refusal, Store};

mod common;
use common::call::{Call, Told, BEFORE};

/// A call, its answer, and what its output holds afterwards.
type Known = (Call, Told, Vec<u64>);

fn h(word: u64) -> Handle {
    Handle::new(word)
}

fn told(call: Call, word: u64) -> Known {
    let output = call.output();
    (call, Ok([1, word]), output)
}

fn signed(call: Call, number: i64) -> Known {
    told(call, number as u64)
}

fn absent(call: Call) -> Known {
    (call, Ok([0, 0]), vec![])
}

fn filled(call: Call, words: &[u64]) -> Known {
    let mut output = call.output();
    output[..words.len()].copy_from_slice(words);
    (call, Ok([1, words.len() as u64]), output)
}

fn refused(call: Call, refusal: Refusal) -> Known {
    let output = call.output();
    (call, Err(refusal), output)
}

const HALF: u64 = 0x3fe0_0000_0000_0000;
const QUARTER: u64 = 0x3fd0_0000_0000_0000;

/// From a fresh store on: the handles are where the entries have been appended.
fn makers() -> Vec<Known> {
    vec![
        told(Call::GetStr(b"S".to_vec()), 94),
        told(Call::GetStr(b"f".to_vec()), 96),
        told(Call::GetStr(b"g".to_vec()), 98),
        told(Call::GetStr(b"f".to_vec()), 96),
        told(Call::MakeInt(0, 7), 100),
        told(Call::GetInt(8), 103),
        told(Call::GetFloat(HALF), 106),
        told(Call::MakeFloat(0, QUARTER), 109),
        told(Call::MakeFloat(-32, 0), 52),
        told(Call::GetTuple(vec![h(100), fresh::CTRL]), 112),
        told(Call::GetStruct(h(94), vec![96, 40, 1, 0, 98, 25, 2, 1]), 115),
        told(Call::MakeAry(fresh::INT_U32, 1, fresh::INT_U16, 2, b"u16".to_vec()), 129),
        told(Call::MakeStructFref(h(94)), 137),
        told(Call::GetMemPtr(h(115), 1), 139),
        told(Call::GetMem(5, h(100)), 142),
        told(Call::GetBool(1), 12),
        told(Call::GetBool(0), 9),
        told(Call::Kind(h(112)), 7),
        told(Call::Kind(h(142)), 11),
    ]
}

/// Behind the makers, up to word 145.
fn lattice() -> Vec<Known> {
    vec![
        told(Call::Meet(h(100), h(103)), 145),
        told(Call::Meet(h(103), h(100)), 145),
        told(Call::Meet(h(106), h(109)), 58),
        told(Call::MeetList(vec![h(103), h(100), fresh::INT_TWO]), 145),
        told(Call::Isa(h(100), h(145)), 1),
        told(Call::Isa(h(145), h(100)), 0),
        told(Call::Dual(h(100)), 148),
        told(Call::Dual(fresh::PTR_NULL), 91),
        told(Call::Join(h(100), h(103)), 154),
        told(Call::Glb(h(100)), 25),
        told(Call::Lub(h(112)), 6),
        told(Call::IsFinal(h(115)), 0),
        told(Call::IsFinal(h(100)), 1),
        told(Call::MakeRo(h(115)), 157),
        told(Call::IsFinal(h(157)), 1),
        told(Call::NonZero(h(100)), 165),
        signed(Call::IntMin(h(165)), 1),
        signed(Call::IntMin(h(154)), 8),
        signed(Call::IntMax(h(154)), 7),
    ]
}

fn told_of_types() -> Vec<Known> {
    vec![
        told(Call::MakeInit(h(139)), 88),
        told(Call::MakeZero(h(106)), 55),
        told(Call::IsHigh(h(154)), 1),
        told(Call::IsHighOrConstant(h(103)), 1),
        told(Call::IsConstant(h(100)), 0),
        told(Call::IsFref(h(137)), 1),
        told(Call::LogSize(fresh::INT_U16), 1),
        signed(Call::IntMin(fresh::INT_BOT), i64::MIN),
        signed(Call::IntMax(h(100)), 7),
        signed(Call::IntValue(h(103)), 8),
        absent(Call::IntValue(h(100))),
        signed(Call::IntMask(fresh::INT_I8), -1),
        signed(Call::IntMask(h(100)), 7),
        signed(Call::FloatSz(fresh::FLOAT_TOP), -64),
        told(Call::FloatIsF32(h(106)), 1),
        told(Call::FloatValue(h(106)), HALF),
        absent(Call::FloatValue(fresh::FLOAT_B32)),
        told(Call::FloatReading(h(109)), QUARTER),
        (Call::FloatReading(fresh::FLOAT_T32), Ok([0, -32_i64 as u64]), vec![]),
    ]
}

fn told_of_structs() -> Vec<Known> {
    vec![
        told(Call::StructName(h(137)), 94),
        filled(Call::StructFields(h(115), 9), &[96, 40, 1, 0, 98, 25, 2, 1]),
        told(Call::Find(h(115), h(98)), 1),
        absent(Call::Find(h(115), h(94))),
        told(Call::FindAlias(h(115), 1), 0),
        absent(Call::FindAlias(h(115), 3)),
        told(Call::IsAry(h(129)), 1),
        told(Call::IsAry(h(115)), 0),
        told(Call::Offset(h(115), 0), 8),
        told(Call::Offset(h(115), 2), 16),
        filled(Call::Offsets(h(115), 5), &[8, 0, 16]),
        told(Call::AryBase(h(129)), 4),
        told(Call::AryScale(h(129)), 1),
    ]
}

/// Rows 2 to 11 but for 6, most with document 01's own example; 1, 6, 12 and 13 are below.
fn refusals() -> Vec<Known> {
    vec![
        refused(Call::Kind(h(2)), Refusal::NoEntry),
        refused(Call::IntMask(fresh::BOT), Refusal::WrongKind),
        refused(Call::MakeFloat(16, 0), Refusal::BadValue),
        refused(Call::GetMem(1 << 32, fresh::BOT), Refusal::BadValue),
        refused(Call::GetStr(vec![b'x'; 256]), Refusal::TooMany),
        refused(Call::Offsets(h(137), 9), Refusal::ForwardReference),
        refused(Call::Offset(fresh::STRUCT_TOP, 1), Refusal::IndexTooLarge),
        refused(Call::LogSize(h(100)), Refusal::NoLogSize),
        refused(Call::MakeAry(fresh::INT_BOT, 1, fresh::PTR_VOID, 2, b"x".to_vec()), Refusal::BodyWithoutNil),
        refused(Call::Offsets(fresh::STRUCT_TOP, 0), Refusal::OutputTooShort),
        refused(Call::StructFields(h(115), 7), Refusal::OutputTooShort),
    ]
}

/// Row 6: tuples of one element from word 168 on, each around the last, up to depth 32; one more is refused.
fn too_deep() -> Vec<Known> {
    let mut all: Vec<Known> = vec![told(Call::GetTuple(vec![fresh::BOT]), 168)];
    all.extend((0..30).map(|level| told(Call::GetTuple(vec![h(168 + 2 * level)]), 170 + 2 * level)));
    all.push(refused(Call::GetTuple(vec![h(228)]), Refusal::TooDeep));
    all
}

fn all_known() -> Vec<Known> {
    [makers(), lattice(), told_of_types(), told_of_structs(), refusals(), too_deep()].concat()
}

/// Makes the calls with `make`, which is handed each call and an output for it and tells its answer.
fn compare(form: &str, known: &[Known], mut make: impl FnMut(&Call, &mut [u64]) -> Told) {
    for (call, expected, output_after) in known {
        let mut output = call.output();
        assert_eq!(make(call, &mut output), *expected, "{form}: {call:?}");
        assert_eq!(output, *output_after, "{form}: the output of {call:?}");
    }
}

/// The words that the calls leave, which are the same in all three forms.
fn in_three_forms(length: usize, known: &[Known]) -> Vec<u64> {
    let mut words = vec![BEFORE; length];
    calls::fresh(&mut words).expect("a length that is allowed");
    compare("a function", known, |call, output| call.on_words(&mut words, output));

    let mut others = vec![BEFORE; length];
    let mut store = Store::fresh(&mut others).expect("a length that is allowed");
    compare("a store", known, |call, output| call.on_store(&mut store, output));
    assert_eq!(store.words(), words, "a store's words");
    assert_eq!(store.used(), words[0] as usize);

    let (mut index, mut memory) = (vec![BEFORE; index_len(length)], vec![BEFORE; memory_len(length)]);
    let mut store = Store::fresh(&mut others).expect("a length that is allowed");
    let mut opened = store.open(&mut index, &mut memory).expect("an index that is long enough");
    compare("an opened store", known, |call, output| call.on_opened(&mut opened, output));
    assert_eq!(opened.words(), words, "an opened store's words");
    assert_eq!(opened.used(), words[0] as usize);
    words
}

#[test]
fn known_answers() {
    let words = in_three_forms(512, &all_known());
    assert!(calls::well_formed(&words));
    assert_eq!(words[0], 230);
}

#[test]
fn every_call_is_known() {
    let declared: BTreeSet<&str> = include_str!("../src/sys.rs")
        .split("fn ferigulan_opened_")
        .skip(1)
        .filter_map(|rest| rest.split_once('('))
        .map(|(name, _)| name)
        .collect();
    let answered: BTreeSet<&str> = all_known().iter().filter(|(_, told, _)| told.is_ok()).map(|(call, ..)| call.name()).collect();
    assert_eq!(answered, declared);
}

#[test]
fn no_room() {
    let known = [told(Call::GetInt(2), 28), refused(Call::GetInt(3), Refusal::NoRoom), told(Call::Isa(fresh::BOT, fresh::BOT), 1)];
    let words = in_three_forms(94, &known);
    assert_eq!(words[0], 94);
}

/// What is made on the way is appended too: 0..2 at 94, and 1..2 at 97 where the list begins at the other end.
#[test]
fn lists_are_merged_from_left_to_right() {
    let known = [
        told(Call::MeetList(vec![]), 6),
        told(Call::MeetList(vec![fresh::INT_TWO]), 28),
        told(Call::MeetList(vec![fresh::TOP, fresh::INT_TWO, fresh::TOP, fresh::INT_TWO]), 28),
        told(Call::MeetList(vec![fresh::INT_ZERO, fresh::INT_ONE, fresh::INT_TWO]), 94),
        told(Call::MeetList(vec![fresh::INT_TWO, fresh::INT_ONE, fresh::INT_ZERO, fresh::INT_ONE]), 94),
        told(Call::MeetList(vec![fresh::INT_ZERO; 4_096]), 9),
    ];
    let words = in_three_forms(200, &known);
    assert_eq!(words[94..101], [261, 0, 2, 261, 1, 2, 0]);
    assert_eq!(words[0], 100);
}

/// Row 13 comes before row 2, and after row 1 (`not_well_formed` below). Handles are tested on the store as it comes: 94 is one only once 0..2
/// is there.
#[test]
fn lists_that_are_refused() {
    let known = [
        refused(Call::MeetList(vec![h(2); 4_097]), Refusal::ListTooLong),
        refused(Call::MeetList(vec![fresh::INT_ZERO; 4_097]), Refusal::ListTooLong),
        refused(Call::MeetList(vec![h(2); 4_096]), Refusal::NoEntry),
        refused(Call::MeetList(vec![fresh::NAME_TOP, fresh::INT_ZERO, h(2)]), Refusal::NoEntry),
        refused(Call::MeetList(vec![fresh::INT_ZERO, fresh::NAME_TOP]), Refusal::WrongKind),
        refused(Call::MeetList(vec![fresh::INT_ZERO, fresh::INT_TWO, h(94)]), Refusal::NoEntry),
        refused(Call::MeetList(vec![fresh::INT_TWO, fresh::INT_ONE, fresh::INT_ZERO]), Refusal::NoRoom),
    ];
    let words = in_three_forms(97, &known);
    assert_eq!((words[0], &words[94..]), (94, &[0; 3][..]));
    let fits = [told(Call::MeetList(vec![fresh::INT_ZERO, fresh::INT_ONE, fresh::INT_TWO]), 94)];
    assert_eq!(in_three_forms(97, &[&known[..], &fits].concat())[0], 97);
}

#[test]
fn not_well_formed() {
    let mut words = vec![0; 200];
    assert!(!calls::well_formed(&words));
    assert_eq!(calls::fresh(&mut words[..93]), Err(Refusal::NotWellFormed));
    assert_eq!(Store::fresh(&mut words[..93]).unwrap_err(), Refusal::NotWellFormed);
    assert_eq!(Store::from_words(&mut words).unwrap_err(), Refusal::NotWellFormed);
    assert_eq!(words, [0; 200]);
    let too_long = refused(Call::MeetList(vec![fresh::INT_ZERO; 4_097]), Refusal::ListTooLong);
    for (call, ..) in all_known().into_iter().chain([too_long]) {
        let mut output = call.output();
        assert_eq!(call.on_words(&mut words, &mut output), Err(Refusal::NotWellFormed), "{call:?}");
        assert_eq!(output, call.output(), "{call:?}");
        assert_eq!(words, [0; 200], "{call:?}");
    }
}

#[test]
fn too_long() {
    let mut words = vec![0; 1_048_577];
    assert_eq!(calls::fresh(&mut words), Err(Refusal::NotWellFormed));
    assert_eq!(calls::fresh(&mut words[1..]), Ok(()));
}

#[test]
fn an_index_that_is_too_short() {
    let (mut words, mut index) = (vec![0; 640], vec![BEFORE; index_len(640) - 1]);
    let mut store = Store::fresh(&mut words).expect("a length that is allowed");
    assert_eq!(store.open(&mut index, &mut []).unwrap_err(), Refusal::OutputTooShort);
    assert_eq!(index, vec![BEFORE; index.len()]);
    index.push(BEFORE);
    assert!(store.open(&mut index, &mut []).is_ok());
}

#[test]
fn a_store_hands_its_words_on() {
    let mut words = [0; 200];
    let mut store = Store::fresh(&mut words).expect("a length that is allowed");
    let counter = store.make_int(0, 7).expect("there is room");
    let words = store.into_words();
    let store = Store::from_words(words).expect("what a store leaves is a store");
    assert_eq!(store.int_max(counter), Ok(7));
}
