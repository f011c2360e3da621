// Towers: types whose parts are shared, so that there are far more ways through them than types in them. The new library is measured at
// the full height, and each call makes its answer; an old one as high as it gets in a moment, to show how its time grows.
use crate::calls::{make, Call, Library, NEW, OLD, REFUSED};
use crate::clock::{human, time_one};
use crate::functions::{of, Function, OPERATIONS};
use crate::stores::Store;
use std::cell::RefCell;

struct Tower {
    name: &'static str,
    store: Store,
    // of each level, two types that differ in the Ints at the bottom alone
    levels: Vec<(u64, u64)>,
}

fn int(s: &mut Store, k: u64) -> u64 {
    s.make(make::int(k, k + 7))
}

// A tower in which each level has the one below twice.
fn tower(name: &'static str, len: usize, height: usize, level: impl Fn(&mut Store, u64) -> u64) -> Tower {
    let mut store = Store::fresh(len);
    let (mut a, mut b) = (int(&mut store, 100), int(&mut store, 200));
    let mut levels = Vec::new();
    for _ in 0..height {
        (a, b) = (level(&mut store, a), level(&mut store, b));
        levels.push((a, b));
    }
    Tower { name, store, levels }
}

fn two_fields(s: &mut Store, x: u64, last: u64) -> u64 {
    let name = s.make(make::name(b"S"));
    s.make(make::structure(name, &[name, x, 1, last, name, x, 2, last]))
}

// Rows of pairs of neighbours over a row of 32 Ints. A level is the first type of its row.
fn pascal() -> Tower {
    let mut store = Store::fresh(16_384);
    let mut rows = [100, 10_000].map(|k| (0..32).map(|i| int(&mut store, k + 9 * i)).collect::<Vec<u64>>());
    let mut levels = Vec::new();
    for _ in 0..31 {
        rows = rows.map(|row| row.windows(2).map(|x| store.make(make::tuple(x))).collect());
        levels.push((rows[0][0], rows[1][0]));
    }
    Tower { name: "Pascal's triangle of pairs", store, levels }
}

// The two types x and y of a level are the pairs (x, y) and (y, x) of the level below, 8,192 words apart: a memory that finds its lines
// by handles modulo a power of two has one line for both. Between them are empty names: a word of 0 among the used words is one.
fn apart() -> Tower {
    let mut store = Store::fresh(1_048_576);
    let mut tops = [100, 200].map(|k| {
        let (mut x, mut y) = (int(&mut store, k), int(&mut store, k + 9));
        let mut tops = Vec::new();
        for _ in 0..31 {
            let pair = store.make(make::tuple(&[x, y]));
            store.words[0] = pair + 8_192;
            (x, y) = (pair, store.make(make::tuple(&[y, x])));
            assert_eq!(y, x + 8_192);
            tops.push(x);
        }
        tops
    });
    let second = std::mem::take(&mut tops[1]);
    Tower { name: "two a level, 8,192 words apart", store, levels: tops[0].iter().copied().zip(second).collect() }
}

fn all() -> Vec<Tower> {
    vec![
        tower("pairs", 1_024, 31, |s, x| s.make(make::tuple(&[x, x]))),
        tower("tuples of 255", 65_536, 31, |s, x| s.make(make::tuple(&[x; 255]))),
        tower("structs, not final", 2_048, 31, |s, x| two_fields(s, x, 0)),
        tower("structs, final", 2_048, 31, |s, x| two_fields(s, x, 1)),
        tower("pointers to structs", 2_048, 15, |s, x| {
            let st = two_fields(s, x, 0);
            s.make(make::pointer(st, 0))
        }),
        pascal(),
        apart(),
    ]
}

impl Tower {
    // Nanoseconds of an operation on a level, and its answer. What it makes is taken back. isa is asked about the meet, which is made
    // before: of two types of which neither is above the other it would know at the first part that is not there.
    fn time(&mut self, l: Library, operation: &'static Function, level: usize, rounds: usize) -> (f64, u64) {
        let (a, mut b) = self.levels[level - 1];
        let before = self.store.used();
        if operation.name == "isa" {
            b = self.store.make(Call::new(&of::meet, &[a, b]));
        }
        let used = self.store.used();
        let (call, mut answer) = (Call::new(operation, &[a, b]), 0);
        let store = RefCell::new(&mut self.store);
        let ns = time_one(rounds, || store.borrow_mut().back(used), |_| answer = call.run(l, &mut store.borrow_mut().words));
        self.store.back(before);
        assert!(answer < REFUSED, "{}: {} was refused", self.name, operation.name);
        (ns, answer)
    }

    // Up the tower as long as the next step is not likely to take longer than the limit: the level that was reached, the time there,
    // and how many times longer a level took than the one below.
    fn climb(&mut self, l: Library, operation: &'static Function, limit: f64) -> (usize, f64, f64) {
        let height = self.levels.len();
        let (mut at, mut growth) = (1, 1.0f64);
        let mut ns = self.time(l, operation, at, 3).0;
        while at < height {
            // one level at a time at first, then up to five
            let most = if at < 6 { 1 } else { 5.min(height - at) };
            let Some(steps) = (1..=most).rev().find(|s| ns * growth.max(1.0).powi(*s as i32) < limit) else {
                break;
            };
            let next = at + steps;
            let more = self.time(l, operation, next, 1).0;
            growth = (more / ns).powf(1.0 / steps as f64);
            (at, ns) = (next, more);
        }
        let rounds = if ns < 1e8 { 5 } else { 1 };
        (at, ns.min(self.time(l, operation, at, rounds).0), growth)
    }

    // What the old library is like, and whether it answers the same: on the highest level that both reached, since above it one of them
    // may take for ever.
    fn beside(&mut self, old: Library, operation: &'static Function, reached: usize) -> String {
        let (at, ns, growth) = self.climb(old, operation, 5e7);
        let both = at.min(reached);
        let (x, y) = (self.time(old, operation, both, 1).1, self.time(NEW, operation, both, 1).1);
        assert_eq!(x, y, "the libraries differ: {} on {}, level {both}", operation.name, self.name);
        if at == self.levels.len() {
            return human(ns);
        }
        format!("{} at {at} levels, {growth:.1}x a level", human(ns))
    }
}

pub fn table() {
    println!("\nTowers: each call makes its answer");
    println!("{:>32} {:>6} {:>10} {:>12}  {}", "tower", "levels", "call", "new", if OLD.is_some() { "old" } else { "" });
    let (mut sum, mut stopped) = (0.0, 0);
    for mut t in all() {
        for operation in OPERATIONS {
            eprintln!("towers: {}, {} ..", t.name, operation.name);
            let height = t.levels.len();
            let (at, ns, growth) = t.climb(NEW, operation, 1e9);
            sum += ns;
            stopped += usize::from(at < height);
            let note = if at < height { format!(" at {at} levels, {growth:.1}x a level") } else { String::new() };
            let old = OLD.map_or(String::new(), |old| t.beside(old, operation, at));
            println!("{:>32} {height:>6} {:>10} {:>12}  {old}", t.name, operation.name, human(ns) + &note);
        }
    }
    println!("the sum of the new library's times is {}", human(sum));
    if stopped > 0 {
        println!("{stopped} of them stopped below the top, where the next step would have taken more than a second");
    }
}
