//! Merges of whole lists by chance: of a few types; of the types of an earlier list in another order; of memory types, whose order matters; of as
//! many handles as are allowed, and of one more.

use super::{Generator, MOST_VISITS};
use crate::rows::LONGEST_LIST;
use crate::session::Answer;
use crate::steps::Arg;
use crate::store::Entry;
use crate::values;

/// A long list is of types of so few visits that all its merges come to their end soon.
const FEW_VISITS: u64 = 20;

impl<'t> Generator<'_, 't, '_> {
    pub(super) fn merge_list(&mut self, name: &'static str) {
        let chance = self.random.below(100);
        let args = match name {
            "meet_rep" => self.one_type_often(),
            _ if chance == 0 => self.many_handles(),
            _ if chance <= 3 => self.memory_types(),
            _ if self.random.percent(self.menu.lists.merged_again) => self.another_order(),
            _ => {
                let count = self.random.of(&[0, 1, 2, 2, 3, 3, 3, 4, 4, 5, 6, 7, 8]);
                self.some_types(count, MOST_VISITS)
            }
        };
        self.call(name, args);
    }

    /// Types that are mostly alike, since others meet at Bot, and now and then one of them twice. Mostly they reach no memory type and no
    /// forward reference, so that their order does not matter.
    fn some_types(&mut self, count: usize, most_visits: u64) -> Vec<Arg> {
        let any = self.random.percent(25);
        let wanted = move |entry: &Entry<'t>| entry.kind > 0 && entry.visits <= most_visits && (any || !entry.reaches_mem_or_fref);
        let first = self.one(wanted);
        let mut types = vec![self.origins[first]; count.min(1)];
        while types.len() < count {
            let alike = if self.random.percent(85) { self.alike_among(first, wanted) } else { None };
            let other = alike.unwrap_or_else(|| self.one(wanted));
            let again = self.random.of(&types);
            types.push(if self.random.percent(10) { again } else { self.origins[other] });
        }
        types
    }

    /// Memory types of Top, with few aliases: what they give depends on their order.
    fn memory_types(&mut self) -> Vec<Arg> {
        let top = Arg::Number(6);
        let made = |generator: &mut Self| {
            let alias = values::alias(&mut generator.random);
            generator.made("mem", vec![Arg::Number(alias), top], "").unwrap_or(top)
        };
        let types = [made(self), made(self), made(self)];
        (0..self.random.between(2, 5)).map(|_| self.random.of(&types)).collect()
    }

    /// The types of an earlier list that was merged, often the last one's, some of them twice.
    fn another_order(&mut self) -> Vec<Arg> {
        let merged = |i: &usize| self.list.steps[*i].name == "meet_list" && matches!(self.list.asked[*i].answer, Answer::Number(_));
        let lists: Vec<usize> = (0..self.list.steps.len()).filter(merged).collect();
        let Some(last) = lists.last() else {
            return self.some_types(3, MOST_VISITS);
        };
        let chosen = if self.random.percent(50) { *last } else { self.random.of(&lists) };
        let mut types = without_repeats(&self.list.steps[chosen].args);
        let more = if types.is_empty() { 0 } else { self.random.of(&[0, 0, 1, 1, 2, 5]) };
        for _ in 0..more {
            types.push(self.random.of(&types));
        }
        self.random.shuffle(&mut types);
        types
    }

    /// A few types, each very often.
    fn many_handles(&mut self) -> Vec<Arg> {
        let few = self.random.between(1, 12);
        let types = self.some_types(few, FEW_VISITS);
        let any = self.random.between(9, LONGEST_LIST);
        let count = self.random.of(&[any, any, LONGEST_LIST - 1, LONGEST_LIST, LONGEST_LIST, LONGEST_LIST + 1]);
        (0..count).map(|_| self.random.of(&types)).collect()
    }

    /// How often one type stands in a list, and the type.
    fn one_type_often(&mut self) -> Vec<Arg> {
        let count = self.random.of(&[0, 1, 2, 3, LONGEST_LIST - 1, LONGEST_LIST, LONGEST_LIST, LONGEST_LIST + 1, LONGEST_LIST + 1]);
        let place = self.one(|entry| entry.kind > 0 && entry.visits <= FEW_VISITS);
        vec![Arg::Number(count as u64), self.origins[place]]
    }
}

fn without_repeats(args: &[Arg]) -> Vec<Arg> {
    let mut all = vec![];
    for arg in args {
        if !all.contains(arg) {
            all.push(*arg);
        }
    }
    all
}
