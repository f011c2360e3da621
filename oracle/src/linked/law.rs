//! Document 02, Slip 1: "Accepted list calls on one set of types that reach no memory type and no forward reference, made one after another in
//! one store grown by calls from a fresh one, then give one handle in any order of the list." Here the calls of a run are held against it.

use super::entries::Entries;
use super::grouped::grouped;
use std::collections::HashMap;

/// What lists in one store have given, by the sets of their types. Calls alone have made the store, so that a type has one handle.
#[derive(Default)]
pub struct Law {
    given: HashMap<Vec<u64>, Given>,
}

struct Given {
    handle: u64,
    /// Whether there was another one too.
    has_others: bool,
}

impl Law {
    /// Takes note of a list that was merged. Where the law says which handle it should have given, and it gave another: that one.
    pub fn note(&mut self, types: &[u64], handle: u64, entries: &Entries, merges: &mut Merges) -> Option<u64> {
        let set = set_of(types);
        let is_order_free = set.iter().all(|t| entries.at(*t).is_some_and(|entry| !entry.reaches_mem_or_fref));
        let figures = if is_order_free { &mut merges.order_free } else { &mut merges.others };
        figures.calls += 1;
        let Some(given) = self.given.get_mut(&set) else {
            figures.sets += 1;
            self.given.insert(set, Given { handle, has_others: false });
            return None;
        };
        figures.again += 1;
        if given.handle == handle {
            return None;
        }
        figures.with_others += u64::from(!given.has_others);
        given.has_others = true;
        Some(given.handle).filter(|_| is_order_free)
    }
}

fn set_of(types: &[u64]) -> Vec<u64> {
    let mut set = types.to_vec();
    set.sort_unstable();
    set.dedup();
    set
}

/// How many lists were merged, accepted ones in stores that calls alone have made.
#[derive(Default)]
pub struct Merges {
    /// On types that the law is about, and on others.
    order_free: Figures,
    others: Figures,
    pub opened: u64,
}

#[derive(Default)]
struct Figures {
    calls: u64,
    sets: u64,
    /// Calls on a set that was merged before.
    again: u64,
    /// Sets that gave more than one handle.
    with_others: u64,
}

impl Figures {
    fn print(&self, types: &str) {
        let [calls, sets, again, with_others] = [self.calls, self.sets, self.again, self.with_others].map(grouped);
        let repeated = format!("{again} of them on a set that was merged before");
        println!("  of types that reach {types}: {calls} on {sets} sets, {repeated}; {with_others} sets gave more than one handle");
    }
}

impl Merges {
    pub fn calls(&self) -> u64 {
        self.order_free.calls + self.others.calls
    }

    pub fn print(&self) {
        let [calls, opened] = [self.calls(), self.opened].map(grouped);
        println!("merges of lists, accepted, in stores that calls alone have made: {calls}, {opened} of them on opened stores");
        self.order_free.print("no memory type and no forward reference");
        self.others.print("one");
    }
}
