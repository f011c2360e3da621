//! A walk over the entries of a store, on any words whatever: each entry that can be read, with what is wrong with it.
use crate::entries::{kind_name, Entry, Head, MOST};
use crate::wrong::{in_values, used, wrong, Wrong};
use ferigulan::Kind;

const DEEPEST: u64 = 32;

/// An entry, or the place where the next one cannot be read.
pub struct Step<'a> {
    pub entry: Option<Entry<'a>>,
    pub wrong: Option<Wrong>,
    /// Whether nothing is wrong with it, nor with any of its parts.
    pub is_sound: bool,
}

/// The entries of the used words, one after the other, up to the first that cannot be read.
pub struct Walk<'a> {
    words: &'a [u64],
    at: usize,
    /// For each word, whether an earlier entry starts there, and then whether it is sound.
    starts: Vec<Option<bool>>,
}

pub fn walk(words: &[u64]) -> Walk<'_> {
    let words = &words[..used(words)];
    Walk { words, at: 1, starts: vec![None; words.len()] }
}

impl<'a> Iterator for Walk<'a> {
    type Item = Step<'a>;

    fn next(&mut self) -> Option<Step<'a>> {
        if self.at >= self.words.len() {
            return None;
        }
        let Some(entry) = Entry::at(self.words, self.at as u64) else {
            let wrong = self.unreadable();
            self.at = self.words.len();
            return Some(Step { entry: None, wrong, is_sound: false });
        };
        let wrong = self.in_entry(&entry);
        let is_sound = wrong.is_none() && entry.parts().iter().all(|i| self.start(entry.words[*i]) == Some(true));
        self.starts[self.at] = Some(is_sound);
        self.at += 1 + entry.words.len();
        Some(Step { entry: Some(entry), wrong, is_sound })
    }
}

impl Walk<'_> {
    /// Why the entry where the walk is cannot be read.
    fn unreadable(&self) -> Option<Wrong> {
        let head = Head::of(self.words[self.at]);
        let what = match Kind::from_number(head.kind) {
            None => format!("kind {} is none", head.kind),
            Some(_) if head.n > MOST => format!("n is {}, over {MOST}", head.n),
            Some(kind) => format!("entries do not fill the used words: {} goes past the last, {}", kind_name(kind), self.words.len() - 1),
        };
        wrong(self.at, what)
    }

    fn in_entry(&self, entry: &Entry) -> Option<Wrong> {
        self.in_handles(entry).or_else(|| self.in_depth(entry)).or_else(|| in_values(entry))
    }

    /// "each handle starts an earlier entry of the right kind"
    fn in_handles(&self, entry: &Entry) -> Option<Wrong> {
        let to_struct = |kind| matches!(kind, Kind::Struct | Kind::Fref);
        let of_type = |i| match entry.kind {
            Kind::MemPtr => self.in_handle(entry, i, "a struct or forward reference", to_struct),
            _ => self.in_handle(entry, i, "a type", |kind| kind != Kind::Name),
        };
        let in_names = entry.names().into_iter().find_map(|i| self.in_handle(entry, i, "a name", |kind| kind == Kind::Name));
        in_names.or_else(|| entry.types().into_iter().find_map(of_type))
    }

    fn in_handle(&self, entry: &Entry, i: usize, wanted: &str, takes: impl Fn(Kind) -> bool) -> Option<Wrong> {
        let handle = entry.words[i];
        let what = match self.part(handle) {
            None => format!("handle {handle} starts no earlier entry"),
            Some(part) if !takes(part.kind) => {
                format!("handle {handle} starts an entry of kind {} ({}), not {wanted}", part.kind.number(), kind_name(part.kind))
            }
            Some(_) => return None,
        };
        wrong(entry.handle as usize + 1 + i, what)
    }

    /// "depth is right and at most 32"
    fn in_depth(&self, entry: &Entry) -> Option<Wrong> {
        let deepest = entry.types().into_iter().filter_map(|i| self.part(entry.words[i])).map(|part| part.depth).max();
        let right = if entry.kind == Kind::Name { 0 } else { 1 + deepest.unwrap_or(0) };
        let what = match entry.depth {
            depth if depth != right => format!("depth {depth} where {right} is right"),
            depth if depth > DEEPEST => format!("depth {depth} is over {DEEPEST}"),
            _ => return None,
        };
        wrong(entry.handle as usize, what)
    }

    /// Whether an earlier entry starts at a handle, and then whether it is sound.
    fn start(&self, handle: u64) -> Option<bool> {
        *self.starts.get(usize::try_from(handle).ok()?)?
    }

    /// The earlier entry that a handle starts.
    fn part(&self, handle: u64) -> Option<Entry<'_>> {
        self.start(handle).and_then(|_| Entry::at(self.words, handle))
    }
}
