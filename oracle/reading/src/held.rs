//! Words that are known to be well formed, for many calls on a long list: row 1 is tested once, and equal entries are found by an index.

use crate::call::{Call, Reply};
use crate::store::{Marks, Store};
use crate::{fresh, row_one};

pub struct Held {
    words: Vec<u64>,
    marks: Marks,
}

impl Held {
    /// The words back where they are not well formed.
    pub fn new(words: Vec<u64>) -> Result<Held, Vec<u64>> {
        match row_one::kinds_at(&words) {
            Some(kinds) => Ok(Held { marks: Marks::with_index(&words, kinds), words }),
            None => Err(words),
        }
    }

    /// What `answer` answers on the same words, and leaves in words and output.
    pub fn answer(&mut self, call: &Call, output: &mut [u64]) -> Reply {
        if let Call::Fresh = call {
            return self.write_fresh();
        }
        Store::new(&mut self.words, &mut self.marks).answer(call, output)
    }

    fn write_fresh(&mut self) -> Reply {
        // The length is right: the words were well formed.
        fresh::write(&mut self.words);
        let kinds = row_one::kinds_at(&self.words).expect("a fresh store is well formed");
        self.marks = Marks::with_index(&self.words, kinds);
        Reply::Done
    }

    pub fn words(&self) -> &[u64] {
        &self.words
    }
}
