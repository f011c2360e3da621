//! Copies: entries equal to one that is there, which the makers never make, and calls on them.

use super::Damaging;
use crate::linked::entries::Entry;
use crate::steps::Arg;

/// How many entries the fresh store has.
const FRESH_ENTRIES: usize = 35;

impl Damaging {
    /// A copy of any entry: often of one of the fresh store, which rules name by its handle.
    pub(super) fn copy(&mut self) {
        let entry = match self.random.percent(40) {
            true => self.model.entries.list[self.random.below(FRESH_ENTRIES)],
            false => self.any_entry(),
        };
        let words = self.entry_words(entry);
        let id = self.run("put", self.as_args(&words), vec![]);
        let copy = Arg::Appended(id, 0);
        let earlier = self.copies.insert(entry.handle, copy);
        let of = earlier.filter(|_| self.random.percent(50)).unwrap_or(self.origin(entry.handle));
        for _ in 0..self.random.below(5) {
            match entry.kind {
                0 => self.ask_about_name(entry, copy),
                _ => self.ask_about_copy(of, copy),
            }
        }
    }

    /// A call on an entry and a copy of it, or on a copy and another one.
    fn ask_about_copy(&mut self, of: Arg, copy: Arg) {
        let other = self.two()[0];
        let of_two = ["meet", "meet", "isa", "isa", "join", "meet_list"];
        let of_one = ["dual", "glb", "lub", "make_ro", "is_final", "log_size", "is_high", "is_constant", "make_init", "meet_list"];
        let (name, args) = match self.random.percent(50) {
            true => (self.random.of(&of_two), self.random.of(&[[of, copy], [copy, of], [copy, other], [other, copy]]).to_vec()),
            false => (self.random.of(&of_one), vec![copy]),
        };
        self.run(name, args, vec![]);
    }

    /// Calls about a struct that has a name, with the name's copy: find, and a struct like it that has the copy in all places.
    fn ask_about_name(&mut self, name: Entry, copy: Arg) {
        let has_name = |entry: &&Entry| entry.kind == 8 && self.entry_words(**entry)[1..].contains(&name.handle);
        let structs: Vec<Entry> = self.model.entries.list.iter().filter(has_name).copied().collect();
        if structs.is_empty() {
            return;
        }
        let like = self.random.of(&structs);
        let s = self.origin(like.handle);
        if self.random.percent(40) {
            self.run("find", vec![s, copy], vec![]);
            return;
        }
        let words = self.entry_words(like);
        let named = |damaging: &Damaging, handle: u64| if handle == name.handle { copy } else { damaging.origin(handle) };
        let mut args = vec![named(self, words[1])];
        for field in words[2..].chunks(3) {
            args.extend([named(self, field[0]), self.origin(field[1]), Arg::Number(field[2] / 2), Arg::Number(field[2] % 2)]);
        }
        let other = Arg::Answer(self.run("struct", args, vec![]));
        let of_two = self.random.of(&["meet", "isa", "join"]);
        let pair = self.random.of(&[[s, other], [other, s]]).to_vec();
        self.run(of_two, pair, vec![]);
        let of_one = self.random.of(&["is_ary", "dual", "glb", "make_ro", "ary_scale"]);
        self.run(of_one, vec![other], vec![]);
    }
}
