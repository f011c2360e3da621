//! A counter that is 0..7 on one way through a program and 8 on the other is 0..8 where the ways meet, in whatever order they are merged;
//! where six ways meet, one call merges them all. Then calls that are refused, each for another reason, and the store is unharmed.
use ferigulan::{fresh, Handle, Refusal, Store};

/// An Int in a readable form.
fn range(store: &Store<'_>, int: Handle) -> Result<String, Refusal> {
    Ok(format!("{}..{}", store.int_min(int)?, store.int_max(int)?))
}

fn merge(store: &mut Store<'_>) -> Result<(), Refusal> {
    let counter = store.make_int(0, 7)?;
    let eight = store.get_int(8)?;
    for (a, b) in [(counter, eight), (eight, counter)] {
        let merged = store.meet(a, b)?;
        println!("{} meet {} = {}, handle {merged}", range(store, a)?, range(store, b)?, range(store, merged)?);
    }
    Ok(())
}

/// A block that is entered from six places: the counter at each of them, merged by one call. The other way round more is made on the way,
/// and the answer is the same.
fn merge_all(store: &mut Store<'_>) -> Result<(), Refusal> {
    let mut places = [store.make_int(0, 7)?, store.get_int(8)?, fresh::INT_BOOL, fresh::INT_TWO, fresh::INT_ONE, fresh::INT_ZERO];
    for order in ["six places", "the same from the last to the first"] {
        let merged = store.meet_list(&places)?;
        println!("{order}: {}, handle {merged}, {} words are used", range(store, merged)?, store.used());
        places.reverse();
    }
    Ok(())
}

/// Tuples, each around the last, as deep as types may be.
fn tower(store: &mut Store<'_>) -> Result<Handle, Refusal> {
    let mut top = store.get_tuple(&[fresh::BOT])?;
    for _ in 3..=32 {
        top = store.get_tuple(&[top])?;
    }
    Ok(top)
}

/// A file without a label: two words that are 0, which start at byte 0, and their number.
const EMPTY_NAMES: [u8; 32] = {
    let mut file = [0; 32];
    file[24] = 2;
    file
};

/// Says what a call was refused with.
fn told<T: std::fmt::Debug>(call: &str, answer: Result<T, Refusal>) {
    match answer {
        Ok(answer) => println!("{call}: {answer:?}"),
        Err(refusal) => println!("{call}: refused with {}, {refusal}", refusal.number()),
    }
}

fn refused(store: &mut Store<'_>, counter: Handle, forward: Handle, deepest: Handle) {
    told("a fresh store of 93 words", Store::fresh(&mut [0; 93]));
    told("the kind of handle 2", store.kind(Handle::new(2)));
    told("the mask of Bot", store.int_mask(fresh::BOT));
    told("a Float of size 16", store.make_float(16, 0.0));
    told("a name of 256 bytes", store.get_str(&[b'x'; 256]));
    told("a tuple around depth 32", store.get_tuple(&[deepest]));
    told("the offsets of a forward reference", store.offsets(forward, &mut [0; 8]));
    told("where field 1 of $TOP begins", store.offset(fresh::STRUCT_TOP, 1));
    told("the log size of 0..7", store.log_size(counter));
    told("an array of pointers without nil", store.make_ary(fresh::INT_U32, 1_u32, fresh::PTR_VOID, 2_u32, b"*void"));
    told("0 words for the offsets of $TOP", store.offsets(fresh::STRUCT_TOP, &mut []));
    told("one more Int", store.get_int(9));
    told("4,097 places", store.meet_list(&[counter; 4_097]));
    told("a file of 15 bytes", Store::load_from(&mut [0; 94], &[0; 15]));
    told("a file with the empty name twice", Store::load_from(&mut [0; 96], &EMPTY_NAMES));
}

fn main() -> Result<(), Refusal> {
    // just as many words as the types below need
    let mut words = [0; 170];
    let mut store = Store::fresh(&mut words)?;
    merge(&mut store)?;
    merge_all(&mut store)?;

    let counter = store.make_int(0, 7)?;
    let forward = store.make_struct_fref(fresh::NAME_TOP)?;
    let deepest = tower(&mut store)?;
    println!("{} of {} words are used", store.used(), store.words().len());

    let before = store.words().to_vec();
    refused(&mut store, counter, forward, deepest);
    let changed = before.iter().zip(store.words()).filter(|(before, after)| before != after).count();
    println!("{changed} of {} words have changed", before.len());
    Ok(())
}
