//! The same calls before and after a poke: what an opened store has remembered of the time before is not to be told any more.

use super::Damaging;
use crate::linked::entries::Entry;
use crate::steps::Arg;

impl Damaging {
    /// Asks about an entry and what it is part of, pokes it and asks again.
    pub(super) fn ask_poke_ask(&mut self) {
        let Some(entry) = self.own_entry() else { return };
        let around: Vec<u64> =
            self.model.entries.list.iter().filter(|other| self.has_part(other, entry.handle)).map(|e| e.handle).collect();
        let mut types = vec![entry.handle];
        types.extend(around.iter().rev().take(3));
        let types: Vec<Arg> = types.into_iter().map(|handle| self.origin(handle)).collect();
        let asks: Vec<(&'static str, Vec<Arg>)> = (0..self.random.between(2, 6)).map(|_| self.ask_about_one(&types)).collect();
        self.ask_all(&asks);
        let args = self.other_word(entry);
        self.step("poke", args, vec![]);
        if self.opens {
            self.open_again();
        }
        self.ask_all(&asks);
    }

    fn ask_all(&mut self, asks: &[(&'static str, Vec<Arg>)]) {
        for (name, args) in asks {
            self.run(name, args.clone(), vec![]);
        }
    }

    fn ask_about_one(&mut self, types: &[Arg]) -> (&'static str, Vec<Arg>) {
        let of_types = ["meet", "meet", "meet_list", "isa", "isa", "join", "dual", "glb", "lub", "is_final", "make_ro", "non_zero"];
        let name = self.random.of(&of_types);
        let a = self.random.of(types);
        let args = match name {
            "meet_list" => {
                let mut list = self.two();
                list.extend((0..self.random.below(6)).map(|_| self.random.of(types)));
                list
            }
            "meet" | "isa" | "join" => {
                let b = self.two()[1];
                self.random.of(&[[a, b], [b, a], [a, self.last_type()]]).to_vec()
            }
            _ => vec![a],
        };
        (name, args)
    }

    /// The last type that is there.
    fn last_type(&self) -> Arg {
        let last = self.model.entries.list.iter().rev().find(|entry| entry.kind > 0);
        last.map_or(Arg::Number(5), |entry| self.origin(entry.handle))
    }

    fn has_part(&self, entry: &Entry, handle: u64) -> bool {
        let start = entry.handle as usize;
        entry.kind >= 7 && entry.handle > handle && self.model.words()[start + 1..start + entry.size].contains(&handle)
    }
}
