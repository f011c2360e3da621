//! What calls take: entries that are there, by chance.

use super::{Generator, MOST_VISITS};
use crate::steps::Arg;
use crate::store::{Entry, Store, SHORTEST};
use original::sea_of_nodes::types::{Field, Ty, Type};

/// A store that was not filled has fewer entries. Where there are more, so many are looked at.
const MANY_ENTRIES: usize = 10_000;
const SOME_ENTRIES: usize = 200;
const FRESH_ENTRIES: usize = 35;

impl<'a, 't> Generator<'a, 't, '_> {
    pub(super) fn store(&self) -> &Store<'a, 't> {
        self.runner.session.store().expect("a list's calls are made in a store")
    }

    /// An entry that is wanted, if there is one: often a late one.
    pub(super) fn find(&mut self, wanted: impl Fn(&Entry<'t>) -> bool) -> Option<usize> {
        let places = self.places();
        let entries = &self.store().entries;
        let places: Vec<usize> = places.into_iter().filter(|place| wanted(&entries[*place])).collect();
        if places.is_empty() {
            return None;
        }
        let late = places.len().saturating_sub(12);
        let from = if self.random.percent(40) { late } else { 0 };
        Some(self.random.of(&places[from..]))
    }

    /// Where entries are looked for: all places, or in a filled store the first ones, the last ones and some by chance.
    fn places(&mut self) -> Vec<usize> {
        let count = self.store().entries.len();
        if count <= MANY_ENTRIES {
            return (0..count).collect();
        }
        let mut places: Vec<usize> = (0..SOME_ENTRIES).map(|_| self.random.below(count)).collect();
        places.extend((0..FRESH_ENTRIES).chain(count - SOME_ENTRIES..count));
        places.sort_unstable();
        places
    }

    /// The same, where the fresh store has one.
    pub(super) fn one(&mut self, wanted: impl Fn(&Entry<'t>) -> bool) -> usize {
        self.find(wanted).expect("the fresh store has one")
    }

    pub(super) fn name(&mut self) -> Arg {
        let place = self.one(|entry| entry.kind == 0);
        self.origins[place]
    }

    /// A type of one of these kinds, now and then one of the fresh store's, some of which have answers of their own.
    pub(super) fn of_kind(&mut self, kinds: &[u8]) -> Arg {
        let from_fresh = self.random.percent(15);
        let place = self.one(|entry| kinds.contains(&entry.kind) && (entry.handle < SHORTEST as u64 || !from_fresh));
        self.origins[place]
    }

    pub(super) fn a_type(&mut self) -> usize {
        self.one(|entry| entry.kind > 0)
    }

    /// A type that a walk may be asked about.
    pub(super) fn walked(&mut self) -> usize {
        self.one(|entry| entry.kind > 0 && entry.visits <= MOST_VISITS)
    }

    /// Another type that a meet with this one would go into, if there is one; else one of the same sort; else any.
    pub(super) fn alike(&mut self, place: usize) -> usize {
        self.alike_among(place, |_| true).unwrap_or_else(|| self.walked())
    }

    /// The same among those that are wanted, if there is one of the same sort.
    pub(super) fn alike_among(&mut self, place: usize, wanted: impl Fn(&Entry<'t>) -> bool) -> Option<usize> {
        let this = self.store().entries[place].ty()?;
        let other = |entry: &Entry<'t>| entry.ty().filter(|ty| *ty != this && entry.visits <= MOST_VISITS && wanted(entry));
        let mut found = None;
        if self.random.percent(85) {
            found = self.find(|entry| other(entry).is_some_and(|ty| have_one_shape(this, ty)));
        }
        if found.is_none() {
            found = self.find(|entry| other(entry).is_some_and(|ty| are_one_sort(this, ty)));
        }
        found
    }

    /// The type of a handle, or one that is alike.
    pub(super) fn same_or_alike(&mut self, handle: u64) -> Arg {
        let place = self.store().place_of(handle).expect("a part has a handle");
        let chosen = if self.random.percent(35) { self.alike(place) } else { place };
        self.origins[chosen]
    }

    pub(super) fn origin_of(&self, handle: u64) -> Arg {
        self.origins[self.store().place_of(handle).expect("a part has a handle")]
    }

    pub(super) fn flag(&mut self) -> Arg {
        Arg::Number(self.random.below(2) as u64)
    }
}

/// Whether a meet of the two stays in their kind, or at least asks for more than their kinds.
fn are_one_sort(a: Ty, b: Ty) -> bool {
    match (a.data(), b.data()) {
        (Type::Struct(a), Type::Struct(b)) => a.name == b.name,
        (Type::MemPtr(a), Type::MemPtr(b)) => a.to.name() == b.to.name(),
        (Type::Bot | Type::Top | Type::Ctrl | Type::XCtrl, Type::Bot | Type::Top | Type::Ctrl | Type::XCtrl) => true,
        _ => std::mem::discriminant(a.data()) == std::mem::discriminant(b.data()),
    }
}

/// Whether a meet of the two goes on into their parts, if they have any.
fn have_one_shape(a: Ty, b: Ty) -> bool {
    match (a.data(), b.data()) {
        (Type::Tuple(a), Type::Tuple(b)) => a.len() == b.len(),
        (Type::Struct(a), Type::Struct(b)) => {
            let labels = |fields: &[Field]| fields.iter().map(|field| (field.fname.to_string(), field.alias)).collect::<Vec<_>>();
            let both = a.fields.zip(b.fields);
            a.name == b.name && both.is_none_or(|(a, b)| !a.is_empty() && labels(a) == labels(b))
        }
        (Type::MemPtr(a), Type::MemPtr(b)) => have_one_shape(*a.to, *b.to),
        _ => are_one_sort(a, b),
    }
}
