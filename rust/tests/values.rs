//! The types that are the crate's own: handles, kinds, refusals and fields.
use std::error::Error;

use ferigulan::{file_length, fresh, index_len, memory_len, Field, Handle, Kind, Refusal, Store, LONGEST_FILE};

#[test]
fn handles_are_words() {
    assert_eq!(Handle::new(7).word(), 7);
    assert_eq!(u64::from(Handle::new(7)), 7);
    assert_eq!(format!("{:>4}", fresh::INT_TOP), "  22");
    assert!(fresh::BOT < fresh::TOP);
}

/// A type that is made, and the constant that it should be.
type Made = (Result<Handle, Refusal>, Handle);

fn ints(store: &mut Store<'_>) -> Vec<Made> {
    vec![
        (store.get_int(0), fresh::INT_ZERO),
        (store.get_int(1), fresh::INT_ONE),
        (store.get_int(2), fresh::INT_TWO),
        (store.make_int(0, 1), fresh::INT_BOOL),
        (store.make_int(i64::MAX, i64::MIN), fresh::INT_TOP),
        (store.make_int(i64::MIN, i64::MAX), fresh::INT_BOT),
        (store.make_int(i8::MIN.into(), i8::MAX.into()), fresh::INT_I8),
        (store.make_int(i16::MIN.into(), i16::MAX.into()), fresh::INT_I16),
        (store.make_int(i32::MIN.into(), i32::MAX.into()), fresh::INT_I32),
        (store.make_int(0, u8::MAX.into()), fresh::INT_U8),
        (store.make_int(0, u16::MAX.into()), fresh::INT_U16),
        (store.make_int(0, u32::MAX.into()), fresh::INT_U32),
    ]
}

fn floats_and_tuples(store: &mut Store<'_>) -> Vec<Made> {
    vec![
        (store.make_float(-64, 0.0), fresh::FLOAT_TOP),
        (store.make_float(-32, 0.0), fresh::FLOAT_T32),
        (store.get_float(0.0), fresh::FLOAT_ZERO),
        (store.make_float(32, 0.0), fresh::FLOAT_B32),
        (store.make_float(64, 0.0), fresh::FLOAT_BOT),
        (store.get_tuple(&[fresh::CTRL, fresh::CTRL]), fresh::IF_BOTH),
        (store.get_tuple(&[fresh::XCTRL, fresh::XCTRL]), fresh::IF_NEITHER),
        (store.get_tuple(&[fresh::CTRL, fresh::XCTRL]), fresh::IF_TRUE),
        (store.get_tuple(&[fresh::XCTRL, fresh::CTRL]), fresh::IF_FALSE),
    ]
}

fn structs_and_memory(store: &mut Store<'_>) -> Vec<Made> {
    vec![
        (store.get_str(b"$TOP"), fresh::NAME_TOP),
        (store.get_str(b"$BOT"), fresh::NAME_BOT),
        (store.get_struct(fresh::NAME_TOP, &[]), fresh::STRUCT_TOP),
        (store.get_struct(fresh::NAME_BOT, &[]), fresh::STRUCT_BOT),
        (store.get_mem(u32::MAX, fresh::TOP), fresh::MEM_TOP),
        (store.get_mem(u32::MAX, fresh::BOT), fresh::MEM_BOT),
        (store.get_mem_ptr(fresh::STRUCT_BOT, true), fresh::PTR_BOT),
        (store.get_mem_ptr(fresh::STRUCT_TOP, false), fresh::PTR_TOP),
        (store.get_mem_ptr(fresh::STRUCT_TOP, true), fresh::PTR_NULL),
        (store.get_mem_ptr(fresh::STRUCT_BOT, false), fresh::PTR_VOID),
    ]
}

#[test]
fn the_fresh_types_are_where_they_are_said_to_be() {
    let mut words = [0; 94];
    let mut store = Store::fresh(&mut words).expect("94 words are enough");
    for (answer, handle) in [ints(&mut store), floats_and_tuples(&mut store), structs_and_memory(&mut store)].concat() {
        assert_eq!(answer, Ok(handle));
    }
    let plain = [(fresh::BOT, Kind::Bot), (fresh::TOP, Kind::Top), (fresh::CTRL, Kind::Ctrl), (fresh::XCTRL, Kind::XCtrl)];
    assert!(plain.into_iter().all(|(handle, kind)| store.kind(handle) == Ok(kind)));
}

#[test]
fn kinds_have_numbers() {
    for number in 0..12 {
        assert_eq!(Kind::from_number(number).map(Kind::number), Some(number));
    }
    assert_eq!(Kind::from_number(12), None);
    assert_eq!(Kind::from_number(1 << 32), None);
}

#[test]
fn refusals_have_numbers_and_words() {
    for number in 1..=15 {
        let refusal = Refusal::from_number(number).expect("there are fifteen");
        assert_eq!(u32::from(refusal.number()), number);
        assert!(!refusal.to_string().is_empty());
    }
    assert_eq!(Refusal::from_number(0), None);
    assert_eq!(Refusal::from_number(16), None);
    let error: Box<dyn Error> = Refusal::NoRoom.into();
    assert_eq!(format!("{error:>33}"), " the entries to append do not fit");
}

#[test]
fn fields_are_four_words() {
    let fields = [Field::new(fresh::NAME_TOP, fresh::INT_U8, 9_u32, true), Field::new(fresh::NAME_BOT, fresh::BOT, u64::MAX, false)];
    let words = [1, 40, 9, 1, 3, 5, u64::MAX, 0];
    assert_eq!(Field::words(&fields), words);
    assert_eq!(Field::from_words(&words), fields);
    assert_eq!(Field::from_words(&words[..7]), &fields[..1]);
    assert_eq!(Field::from_words(&words[..3]), []);
    assert!(Field::words(&[]).is_empty());
}

#[test]
fn lengths_of_the_lists() {
    assert_eq!(index_len(94), 190);
    assert_eq!(index_len(1_048_576), 2 * 1_048_576 + 16_384 + 1);
    assert_eq!(memory_len(1_000), 6_000);
    assert_eq!((file_length(0, 94), file_length(255, 97)), (16, 255 + 24 + 16));
    assert_eq!(LONGEST_FILE, 255 + 8 * (1_048_576 - 94) + 16);
}

#[test]
fn stores_say_their_size() {
    let (mut words, mut index) = ([0; 100], [0; index_len(100)]);
    let mut store = Store::fresh(&mut words).expect("100 words are enough");
    assert_eq!(format!("{store:?}"), "Store { words: 100, used: 94 }");
    assert_eq!(format!("{:?}", store.open(&mut index, &mut [])), "Ok(OpenedStore { words: 100, used: 94 })");
}
