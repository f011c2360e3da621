//! On an opened store every call answers, and leaves in the words and in an output, just what the plain call does: over thousands of random
//! calls, with lists and memories of several lengths.
use std::collections::BTreeSet;

use ferigulan::{calls, fresh, index_len, memory_len, Refusal, Store};

mod common;
use common::call::{Call, Told};
use common::play::Play;

const CALLS_A_ROUND: usize = 1_000;
const LENGTHS: [usize; 6] = [94, 150, 512, 1_500, 4_096, 5_000];

/// None, too few to be of use, a few, and as many as are best.
fn memory_lengths(length: usize) -> [usize; 4] {
    [0, 5, 600, memory_len(length)]
}

/// Which calls have been answered, and which refusals given: a run that comes to few of them would show little.
#[derive(Default)]
struct Seen {
    answered: BTreeSet<&'static str>,
    refused: BTreeSet<Refusal>,
}

impl Seen {
    fn note(&mut self, call: &Call, told: Told) {
        match told {
            Ok(_) => self.answered.insert(call.name()),
            Err(refusal) => self.refused.insert(refusal),
        };
    }
}

fn round(seed: u64, length: usize, memory: usize, seen: &mut Seen) {
    let (mut words, mut others) = (vec![0; length], vec![0; length]);
    let (mut index, mut memory) = (vec![seed; index_len(length)], vec![seed; memory]);
    calls::fresh(&mut words).expect("a length that is allowed");
    let mut store = Store::fresh(&mut others).expect("a length that is allowed");
    let mut opened = store.open(&mut index, &mut memory).expect("an index that is long enough");
    let mut play = Play::new(seed);
    for number in 0..CALLS_A_ROUND {
        let call = play.call();
        let (mut plain_output, mut opened_output) = (call.output(), call.output());
        let told = call.on_words(&mut words, &mut plain_output);
        let again = call.on_opened(&mut opened, &mut opened_output);
        let place = format!("seed {seed}, {length} words, call {number}: {call:?}");
        assert_eq!(again, told, "{place}");
        assert_eq!(opened_output, plain_output, "the output, {place}");
        assert!(opened.words() == words, "the words, {place}");
        play.learn(&call, told);
        seen.note(&call, told);
    }
}

#[test]
fn opened_calls_answer_as_plain_ones() {
    let mut seen = Seen::default();
    let mut seed = 1;
    for length in LENGTHS {
        for memory in memory_lengths(length) {
            round(seed, length, memory, &mut seen);
            seed += 1;
        }
    }
    assert_eq!(seen.answered.len(), 47, "{:?}", seen.answered);
    assert_eq!(seen.refused.len(), 12, "{:?}", seen.refused);
}

/// There is room for 1..2, which is made on the way, and none for 0..2: what was made is taken back, out of the index and the memory too.
#[test]
fn a_list_without_room_leaves_the_store_open() {
    for memory in memory_lengths(97) {
        let (mut words, mut index, mut memory) = ([0; 97], [0; index_len(97)], vec![0; memory]);
        let mut store = Store::fresh(&mut words).expect("a length that is allowed");
        let before = store.words().to_vec();
        let mut opened = store.open(&mut index, &mut memory).expect("an index that is long enough");
        for _ in 0..2 {
            assert_eq!(opened.meet_list(&[fresh::INT_TWO, fresh::INT_ONE, fresh::INT_ZERO]), Err(Refusal::NoRoom));
            assert_eq!(opened.words(), before);
        }
        // what stands at 94 now is not what stood there on the way
        assert_eq!(opened.meet_list(&[fresh::INT_ZERO, fresh::INT_ONE, fresh::INT_TWO]).map(|merged| merged.word()), Ok(94));
        assert_eq!(opened.meet(fresh::INT_TWO, fresh::INT_ONE), Err(Refusal::NoRoom));
        assert_eq!(opened.meet(fresh::INT_TWO, fresh::INT_ZERO).map(|merged| merged.word()), Ok(94));
    }
}
