// Lists: the merge of a whole list beside its meets one by one, plain, opened, and in the original Rust, which has no lists. The first time, when each meet makes its answer, and once the
// answers are there; and a list that does not fit, after which the index is made anew.
use crate::calls::{make, Call, Lent, NEW, REFUSED};
use crate::clock::{human, rounds, time_one};
use crate::functions::of;
use crate::open_store::Open;
use crate::script::Script;
use crate::stores::{filled, Store};
use std::cell::RefCell;

const WORDS: usize = 1_048_576;
// how many words of the list are in use before the types that are merged
const BEFORE: usize = 262_144;
const TOP: u64 = 6;
// plain meets one by one that would take longer than some seconds are left out
const MOST_PLAIN: usize = 64;

// Types that meet in a new one, each with the merge of those before it.
struct Kind {
    name: &'static str,
    make: fn(&mut Store, u64) -> u64,
    sizes: &'static [usize],
}

const KINDS: [Kind; 2] = [
    Kind { name: "Ints", make: |s, i| s.make(make::int(7 * i, 7 * i + 3)), sizes: &[6, 64, 4_096] },
    Kind { name: "structs of 100 Ints", make: structure, sizes: &[6, 64, 512] },
];

fn structure(s: &mut Store, i: u64) -> u64 {
    let name = s.make(make::name(b"S"));
    let fields = (0..100).flat_map(|j| [name, s.make(make::int(i + 10_000 * j, i + 10_000 * j)), j, 0]).collect::<Vec<u64>>();
    s.make(make::structure(name, &fields))
}

// A list with its meets one by one, on a store, and the store once they are made.
struct Merge {
    words: Vec<u64>,
    made: Vec<(Call, u64)>,
    list: Call,
    meets: Vec<Call>,
    answers: Vec<u64>,
}

impl Merge {
    fn new(mut store: Store, kind: &Kind, size: usize) -> Merge {
        let before = store.used();
        let types = (0..size as u64).map(|i| (kind.make)(&mut store, i)).collect::<Vec<u64>>();
        let words = store.words.clone();
        // the makers once more, for their handles: the original is given the same calls
        store.back(before);
        let made = store.calls.iter().map(|call| (call.clone(), call.run(NEW, &mut store.words))).collect();
        let (mut t, mut meets, mut answers) = (TOP, Vec::new(), Vec::new());
        let mut open = Open::new(store.words, 0);
        let mut lent = Lent::new();
        for h in &types {
            meets.push(Call::new(&of::meet, &[t, *h]));
            assert_eq!(meets[meets.len() - 1].opened(&mut open, &mut lent), 0, "the list is too short");
            t = lent.answer;
            answers.push(t);
        }
        Merge { words, made, list: Call::with_list(&of::meet_list, &[], &types), meets, answers }
    }

    fn opened(&self, open: &mut Open, calls: &[Call]) {
        let mut lent = Lent::new();
        calls.iter().for_each(|call| assert_eq!(call.opened(open, &mut lent), 0));
        assert_eq!(Some(&lent.answer), self.answers.last(), "another answer");
    }

    fn plain(&self, words: &mut [u64], calls: &[Call]) {
        let answer = calls.iter().fold(0, |_, call| call.run(NEW, words));
        assert_eq!(Some(&answer), self.answers.last(), "another answer");
    }

    // Opened: the first time, and again.
    fn time_opened(&self, calls: &[Call]) -> [f64; 2] {
        let open = RefCell::new(Open::new(self.words.clone(), 6 * 65_536));
        let first = time_one(5, || open.borrow_mut().start(&self.words), |_| self.opened(&mut open.borrow_mut(), calls));
        [first, rounds(5, || self.opened(&mut open.borrow_mut(), calls))]
    }

    // Plain, the first time.
    fn time_plain(&self, calls: &[Call]) -> f64 {
        time_one(2, || self.words.clone(), |words| self.plain(words, calls))
    }

    // A list that lacks one word, on an opened store.
    fn time_refused(&self) -> f64 {
        let mut grown = self.words.clone();
        self.plain(&mut grown, std::slice::from_ref(&self.list));
        let mut open = Open::new(self.words[..grown[0] as usize - 1].to_vec(), 6 * 65_536);
        let mut lent = Lent::new();
        time_one(3, || (), |_| assert_eq!(self.list.opened(&mut open, &mut lent), 12))
    }

    // The original's meets: the first time, and again.
    fn time_original(&self, oracle: Option<&str>) -> Option<[f64; 2]> {
        let mut script = Script::fresh(self.words.len(), &self.made);
        let told = self.answers.iter().map(u64::to_string).collect::<Vec<String>>();
        script.block("meets", &self.meets, &told);
        let times = script.times(oracle, 5)?;
        let [first, _, again] = times[0].1;
        Some([first, again].map(|ns| ns * self.meets.len() as f64))
    }
}

// A store of which a quarter is in use: Ints, pairs, names, structs and pointers.
fn used() -> Store {
    let mut words = filled(BEFORE);
    words.resize(WORDS, 0);
    Store { words, calls: Vec::new() }
}

fn ratio(ns: f64, other: f64) -> String {
    format!("{} ({:.2})", human(ns), ns / other)
}

fn line(kind: &Kind, size: usize, oracle: Option<&str>) {
    eprintln!("lists: {size} {} ..", kind.name);
    let on = Merge::new(used(), kind, size);
    let list = std::slice::from_ref(&on.list);
    let (opened, single) = (on.time_opened(list), on.time_opened(&on.meets));
    let plain = on.time_plain(list);
    let plain_single = if size <= MOST_PLAIN { ratio(plain, on.time_plain(&on.meets)) } else { human(plain) };
    let original = Merge::new(Store::fresh(WORDS), kind, size).time_original(oracle);
    let beside = |ns: f64, i: usize| original.map_or(String::new(), |rust| format!("{} ({:.2})", human(rust[i]), ns / rust[i]));
    let refused = human(on.time_refused());
    let name = format!("{size} {}", kind.name);
    let [new, again] = [0, 1].map(|i| format!("{:>18} {:>18}", ratio(opened[i], single[i]), beside(opened[i], i)));
    println!("{name:>24} {new} {again} {plain_single:>20} {refused:>10}");
}

pub fn table(oracle: Option<&str>) {
    println!("\nLists on a store of {WORDS} words, {BEFORE} in use: one call. In brackets its ratio to its meets one by one, and to the original's meets");
    println!("{:>24} {:>18} {:>18} {:>18} {:>18} {:>20} {:>10}", "", "opened, new", "original, new", "opened, again", "original, again", "plain, new", "12, opened");
    for kind in &KINDS {
        kind.sizes.iter().for_each(|size| line(kind, *size, oracle));
    }
}

// A refusal is never taken for an answer.
const _: () = assert!(REFUSED > WORDS as u64);
