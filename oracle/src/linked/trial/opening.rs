//! The openings of a list: accepted ones with the calls behind them, and refused ones.

use super::{By, Trial};
use crate::linked::by_c::{self, ByC};
use crate::linked::door::{are_kept, Guarded, Lists};
use crate::linked::verdict::{answers, Difference};
use crate::script::Call;
use crate::session::Answer;
use ferigulan::{index_len, memory_len, Store};

impl Trial<'_, '_, '_> {
    /// Opens the store with a memory of so many words, and an index with so many more than it needs (or fewer), and runs the calls up to
    /// the next line that closes it.
    pub(super) fn opened(&mut self, call: &Call, lent: &mut Guarded) -> Result<Option<Call>, Difference> {
        let n = lent.words().len();
        let (memory, more) = match call.numbers[..] {
            [memory, more] => (memory as usize, more as i64),
            _ => (memory_len(n), 0),
        };
        let index_length = (index_len(n) as i64 + more).max(0) as usize;
        let wanted = match (self.model.is_well_formed(), more < 0) {
            (false, _) => Answer::Refused(1),
            (true, true) => Answer::Refused(11),
            (true, false) => Answer::Accepted,
        };
        self.write_down(call, wanted.clone());
        self.tally.opens += 1;
        // what an earlier opening has left in the two lists may stand there still
        if self.memory.words().len() != memory {
            self.last_lengths = [0; 2];
        }
        let mut index = std::mem::replace(&mut self.index, Guarded::filled(0, 0)).with_length(index_length);
        let mut memory = std::mem::replace(&mut self.memory, Guarded::filled(0, 0)).with_length(memory);
        let next = match wanted {
            Answer::Accepted => self.open(lent, &mut index, &mut memory),
            _ => self.refused_open(wanted, lent, &mut index, &mut memory),
        };
        (self.index, self.memory) = (index, memory);
        next
    }

    /// The opening of a store that is to be accepted, and the calls behind it.
    fn open(&mut self, lent: &mut Guarded, index: &mut Guarded, memory: &mut Guarded) -> Result<Option<Call>, Difference> {
        let ((words, a), (index, b), (memory, c)) = (lent.split(), index.split(), memory.split());
        let guards = [a[0], a[1], b[0], b[1], c[0], c[1]];
        match self.way.by {
            By::Crate => {
                let mut store = Store::from_words(words).map_err(|refusal| self.not_opened(refusal.number()))?;
                let mut opened = store.open(index, memory).map_err(|refusal| self.not_opened(refusal.number()))?;
                self.stretch(None, &mut opened, &guards, true)
            }
            By::C => {
                let mut lists = Lists { words, index, memory };
                let old = self.old_memory(&lists);
                let row = by_c::open(&mut lists);
                if let Some(old) = old {
                    lists.memory.copy_from_slice(&old);
                }
                match row {
                    0 => self.stretch(None, &mut ByC::Opened(lists), &guards, true),
                    row => Err(self.not_opened(row)),
                }
            }
        }
    }

    /// The memory that a planted mistake keeps, where the last opening was of lists of these lengths.
    fn old_memory(&mut self, lists: &Lists) -> Option<Vec<u64>> {
        let lengths = [lists.words.len(), lists.memory.len()];
        let was_same = std::mem::replace(&mut self.last_lengths, lengths) == lengths;
        let keeps_memory = self.way.plant.is_some_and(|plant| plant.keeps_memory);
        (was_same && keeps_memory).then(|| lists.memory.to_vec())
    }

    fn not_opened(&self, row: u8) -> Difference {
        Difference::new(answers(None, &self.last, &Answer::Refused(row)))
    }

    /// The opening of a list that is to be refused: no word of the three lists may change.
    fn refused_open(
        &mut self,
        wanted: Answer,
        lent: &mut Guarded,
        index: &mut Guarded,
        memory: &mut Guarded,
    ) -> Result<Option<Call>, Difference> {
        let before = [index.words().to_vec(), memory.words().to_vec()];
        let ((words, a), (index, b), (memory, c)) = (lent.split(), index.split(), memory.split());
        let row = match self.way.by {
            By::Crate => match Store::from_words(words) {
                Ok(mut store) => store.open(index, memory).map_or_else(|refusal| refusal.number(), |_| 0),
                Err(refusal) => refusal.number(),
            },
            By::C => by_c::open(&mut Lists { words, index, memory }),
        };
        let got = if row == 0 { Answer::Accepted } else { Answer::Refused(row) };
        if got != wanted {
            return Err(Difference::new(answers(None, &wanted, &got)));
        }
        if [&*index, &*memory] != before || *words != *self.model.words() || ![a, b, c].iter().all(|guards| are_kept(guards)) {
            return Err(Difference::new("; it was refused, and a word of the three lists, or beside them, has changed".to_string()));
        }
        Ok(self.next_call(false))
    }
}
