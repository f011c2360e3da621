//! The saved catalogue (document 02, Slip 3): files that are written and loaded, on the library and on the reading. What is loaded the original
//! makes anew, so that it goes on answering.

use super::Trial;
use crate::linked::bytes::GuardedBytes;
use crate::linked::door::{are_kept, Door};
use crate::linked::law::Law;
use crate::linked::typed::{loaded, saved};
use crate::linked::verdict::{answers, word, Difference};
use crate::script::Call;
use crate::session::{Answer, KEPT_BYTE};

impl Trial<'_, '_, '_> {
    /// Writes a file on both sides: replies, all bytes of the output and what stands around it are compared, and the words, which keep.
    pub(super) fn save(&mut self, call: &Call, door: &mut dyn Door, guards: &[&[u64]], is_open: bool) -> Result<(), Difference> {
        self.calls += 1;
        let reading = self.model.run(call);
        self.tally.add(call, &reading, &self.circumstances(is_open));
        self.write_down(call, reading);
        let length = call.numbers[0] as usize;
        let mut output = GuardedBytes::new(std::iter::repeat_n(KEPT_BYTE, length), self.calls as usize);
        let label = GuardedBytes::new(call.text.iter().copied(), length);
        let reply = match &self.way.plant {
            Some(plant) => plant.save(door, label.bytes(), output.bytes_mut()),
            None => door.save(label.bytes(), output.bytes_mut()),
        };
        let reply = reply.map_err(|what| Difference::new(format!("; {what}")))?;
        self.compare_answers(&saved(reply, output.bytes()))?;
        self.compare_lent(guards, &[&output, &label])?;
        let (ours, theirs) = (output.bytes(), &self.model.bytes);
        if let Some(at) = (0..length).find(|at| ours[*at] != theirs[*at]) {
            return Err(Difference::new(word("byte of the output", at, None, theirs[at].into(), ours[at].into())));
        }
        self.compare_kept("label", label.bytes(), &call.text)?;
        self.compare_words(door.words(), &[])
    }

    /// Loads a file on both sides: replies, all words and what stands around them are compared, and the file, which keeps.
    pub(super) fn load(&mut self, call: &Call, door: &mut dyn Door, guards: &[&[u64]]) -> Result<(), Difference> {
        self.calls += 1;
        let told = self.circumstances(false);
        let reading = self.model.run(call);
        self.tally.add(call, &reading, &told);
        self.write_down(call, reading);
        let file = if call.name == "load" { call.text.clone() } else { self.model.file.clone() };
        let lent = GuardedBytes::new(file.iter().copied(), self.calls as usize);
        let reply = match &self.way.plant {
            Some(plant) => plant.load(door, lent.bytes()),
            None => door.load(lent.bytes()),
        };
        let reply = reply.map_err(|what| Difference::new(format!("; {what}")))?;
        self.compare_answers(&loaded(reply))?;
        self.compare_lent(guards, &[&lent])?;
        self.compare_kept("file", lent.bytes(), &file)?;
        if let Answer::Number(_) = self.last {
            self.law = Law::default();
            let made = self.original.load(self.model.words());
            made.map_err(|at| Difference::new(format!("; the Rust makes no such entry as that at {at}, or made it before")))?;
        }
        self.compare_words(door.words(), &[])
    }

    fn compare_answers(&self, library: &Answer) -> Result<(), Difference> {
        match *library == self.last {
            true => Ok(()),
            false => Err(Difference::new(answers(None, &self.last, library))),
        }
    }

    /// The guard words and bytes around what was lent.
    fn compare_lent(&self, guards: &[&[u64]], bytes: &[&GuardedBytes]) -> Result<(), Difference> {
        match are_kept(guards) && bytes.iter().all(|bytes| bytes.are_guards_kept()) {
            true => Ok(()),
            false => Err(Difference::new("; a word or byte beside what was lent was written".to_string())),
        }
    }

    /// Bytes that were lent to be read.
    fn compare_kept(&self, what: &str, now: &[u8], before: &[u8]) -> Result<(), Difference> {
        match std::hint::black_box(now) == before {
            true => Ok(()),
            false => Err(Difference::new(format!("; a byte of the {what} was written"))),
        }
    }
}
