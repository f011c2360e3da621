//! Many calls as one step, `fill SEED WORDS`: makers by chance until so many words are used, so that long lists have late handles. Only
//! the linked comparison has such a step; the script language does not know it, and where it is printed its calls are.

use crate::random::Random;
use crate::script::Call;
use crate::store::Store;
use crate::values;

/// What the next call is chosen from: the entries so far, in the order of their handles.
pub trait Shelf {
    fn used(&self) -> usize;
    fn count(&self) -> usize;
    /// Handle, kind and depth.
    fn entry(&self, place: usize) -> (u64, u8, u64);
}

impl Shelf for Store<'_, '_> {
    fn used(&self) -> usize {
        self.words.len()
    }

    fn count(&self) -> usize {
        self.entries.len()
    }

    fn entry(&self, place: usize) -> (u64, u8, u64) {
        let entry = &self.entries[place];
        (entry.handle, entry.kind, entry.depth)
    }
}

pub struct Filler {
    random: Random,
    until: usize,
    /// Long entries fill a list with few calls, short ones with many.
    is_bulky: bool,
    calls: usize,
}

/// A maker may find what it makes, and then no word is filled.
const MOST_CALLS: usize = 400_000;

/// Parts are no deeper than this, so that few of the types take a walk too many visits.
const DEEPEST_PART: u64 = 3;

const INTS: &[u8] = &[5];
const STRUCTS: &[u8] = &[8, 9];
const TYPES: &[u8] = &[1, 2, 3, 4, 5, 6, 7, 8, 9, 10, 11];

impl Filler {
    /// The filler of a step, if it is one.
    pub fn of(call: &Call) -> Option<Filler> {
        let is_bulky = |seed: u64| seed % 3 != 0;
        match (call.name, &call.numbers[..]) {
            ("fill", [seed, until]) => {
                Some(Filler { random: Random::new(*seed), until: *until as usize, is_bulky: is_bulky(*seed), calls: 0 })
            }
            _ => None,
        }
    }

    /// The next call, unless enough words are used.
    pub fn next_call(&mut self, shelf: &impl Shelf) -> Option<Call> {
        self.calls += 1;
        if shelf.used() >= self.until || self.calls > MOST_CALLS {
            return None;
        }
        let (numbers, text): (Vec<u64>, Vec<u8>) = (vec![], vec![]);
        let kind =
            self.random.weighted(&[(3, "str"), (4, "int"), (3, "float"), (3, "tuple"), (5, "struct"), (2, "ptr"), (2, "mem"), (1, "ary")]);
        let call = match kind {
            "str" => Call { name: "str", numbers, text: self.text() },
            "int" => Call { name: "int", numbers: values::range(&mut self.random).to_vec(), text },
            "float" => Call { name: "float", numbers: vec![values::float(&mut self.random)], text },
            "tuple" => Call { name: "tuple", numbers: self.parts(shelf), text },
            "struct" => Call { name: "struct", numbers: self.fields(shelf), text },
            "ptr" => Call { name: "ptr", numbers: vec![self.one(shelf, STRUCTS, 18), self.random.below(2) as u64], text },
            "mem" => Call { name: "mem", numbers: vec![values::alias(&mut self.random), self.one(shelf, TYPES, 25)], text },
            _ => {
                let aliases = [(); 2].map(|()| values::alias(&mut self.random));
                let body = self.one(shelf, INTS, 25);
                Call { name: "ary", numbers: vec![self.one(shelf, INTS, 9), aliases[0], body, aliases[1]], text: self.text() }
            }
        };
        Some(call)
    }

    fn text(&mut self) -> Vec<u8> {
        (0..self.random.below(20)).map(|_| b'a' + self.random.below(26) as u8).collect()
    }

    fn parts(&mut self, shelf: &impl Shelf) -> Vec<u64> {
        let most = if self.is_bulky { 255 } else { 4 };
        (0..self.random.between(0, most)).map(|_| self.one(shelf, TYPES, 25)).collect()
    }

    fn fields(&mut self, shelf: &impl Shelf) -> Vec<u64> {
        let most = if self.is_bulky { 100 } else { 4 };
        let mut numbers = vec![self.one(shelf, &[0], 1)];
        for _ in 0..self.random.between(0, most) {
            let (alias, is_final) = (values::alias(&mut self.random), self.random.below(2) as u64);
            numbers.extend([self.one(shelf, &[0], 1), self.one(shelf, TYPES, 25), alias, is_final]);
        }
        numbers
    }

    /// The handle of an entry of one of these kinds, if some tries find one.
    fn one(&mut self, shelf: &impl Shelf, kinds: &[u8], otherwise: u64) -> u64 {
        for _ in 0..8 {
            let (handle, kind, depth) = shelf.entry(self.random.below(shelf.count()));
            if kinds.contains(&kind) && depth <= DEEPEST_PART {
                return handle;
            }
        }
        otherwise
    }
}
