//! Searches for entries by chance. A step `search H` looks for the entry of a handle as it stands there when the step is run, so that it keeps its
//! sense when a list is made short; `search H N` for its first N words, and `search H K WORD` for all of them with another word in place K: where it
//! has no such place, for as many words more.

use super::model::Model;
use crate::generate::{LATTICE, LISTS, MAKERS};
use crate::random::Random;
use crate::script::Call;
use crate::steps::{Arg, Step};
use crate::values;

/// Both kinds of steps, and how often each is made: the search for what is there, and for words by chance.
const SEARCHES: &[(usize, &str)] = &[(14, "search"), (2, "find_entry")];

/// How many steps in a hundred have a search behind them.
const OFTEN: usize = 4;

/// The largest entry has fewer words: no more are made of one that is made longer.
const MOST_WORDS: u64 = 800;

/// Heads of entries, of which the fresh store has some and others are easily made.
const HEADS: &[u64] =
    &[0, 65_536, 262_144, 257, 258, 259, 260, 261, 262, 263, 264, 265, 522, 523, 65_799, 131_335, 131_591, 65_800, 66_056];

/// The call that such a step is.
pub fn search(numbers: &[u64], model: &Model) -> Call {
    let handle = numbers.first().copied().unwrap_or(0);
    let entry = model.entries.at(handle).and_then(|entry| model.words().get(handle as usize..handle as usize + entry.size));
    // where there is no entry, any word will do
    let mut words = entry.map_or(vec![handle], <[u64]>::to_vec);
    match numbers.get(1..).unwrap_or(&[]) {
        &[length] => words.truncate(length as usize),
        &[place, word, ..] => {
            let place = place.min(MOST_WORDS) as usize;
            words.resize(words.len().max(place + 1), word);
            words[place] = word;
        }
        [] => {}
    }
    Call { name: "find_entry", numbers: words, text: vec![] }
}

/// The arguments of a search for something that was made: mostly as it stands there, else with another word in one place, or shorter, or longer.
fn for_entry(random: &mut Random, made: &[Arg]) -> Vec<Arg> {
    let (entry, word) = (some_entry(random, made), some_entry(random, made));
    let place = random.of(&[1, 1, 1, 2, 2, 3, 4, 5]);
    let (int, head) = (Arg::Number(values::int(random)), Arg::Number(random.of(HEADS)));
    match random.below(20) {
        0..=9 => vec![entry],
        10..=14 => vec![entry, Arg::Number(place), random.of(&[word, word, int])],
        15 | 16 => vec![entry, Arg::Number(0), head],
        17 | 18 => vec![entry, Arg::Number(random.of(&[0, 1, 1, 2, 2, 3, 4]))],
        _ => vec![entry, Arg::Number(random.of(&[1, 2, 3, 3, 6, 20, MOST_WORDS])), Arg::Number(0)],
    }
}

/// Words by chance, mostly behind a head that entries have.
fn for_words(random: &mut Random) -> Vec<Arg> {
    let head = if random.percent(80) { random.of(HEADS) } else { random.word() >> random.below(64) };
    let others = (0..random.of(&[0, 1, 1, 2, 2, 2, 3, 5, 300])).map(|_| values::int(random)).collect::<Vec<_>>();
    [head].into_iter().chain(others).map(Arg::Number).collect()
}

/// The steps with searches among them, for what earlier ones have made and for the fresh types.
pub fn with_searches(steps: Vec<Step>, random: &mut Random) -> Vec<Step> {
    let mut next_id = steps.len();
    let mut made = vec![];
    let mut all = Vec::with_capacity(steps.len() + steps.len() / 10);
    for step in steps {
        match step.name {
            "list" | "fresh" => made.clear(),
            "put" => made.push(Arg::Appended(step.id, 0)),
            name if makes(name) => made.push(Arg::Answer(step.id)),
            _ => {}
        }
        all.push(step);
        if random.percent(OFTEN) {
            let name = random.weighted(SEARCHES);
            let args = match name {
                "search" => for_entry(random, &made),
                _ => for_words(random),
            };
            all.push(Step { id: next_id, name, args, text: vec![] });
            next_id += 1;
        }
    }
    all
}

/// Whether a step answers the handle of an entry.
fn makes(name: &str) -> bool {
    MAKERS.iter().chain(LATTICE).chain(LISTS).any(|call| call.1 == name) && !["kind", "isa", "is_final"].contains(&name)
}

/// What a step has made, often a late one, or an entry of the fresh store.
fn some_entry(random: &mut Random, made: &[Arg]) -> Arg {
    const FRESH: &[u64] = &[1, 3, 5, 6, 7, 8, 9, 12, 15, 18, 20, 22, 28, 46, 49, 55, 61, 64, 73, 76, 79, 82, 88, 91];
    if made.is_empty() || random.percent(25) {
        return Arg::Number(random.of(FRESH));
    }
    let from = if random.percent(40) { made.len().saturating_sub(15) } else { 0 };
    random.of(&made[from..])
}
