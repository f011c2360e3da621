// The search before an entry was passed over by its head, and after: the same searches of the same stores, in turns.
use crate::built::{head, heads, name_entry, Built, INT};
use crate::clock::{human, scan, time_both};
use crate::kinds;
use crate::program::Program;
use crate::search::open;
use std::hint::black_box;
use std::rc::Rc;

extern "C" {
    fn bench_find_before(words: *const u64, n: usize, used: usize, entry: *const u64, m: usize) -> u64;
    fn bench_find_name_before(words: *const u64, n: usize, used: usize, name: *const u8, m: usize) -> u64;
    fn bench_search(words: *const u64, n: usize, used: usize, entry: *const u64, m: usize, count: *mut u64) -> u64;
    fn bench_search_name(words: *const u64, n: usize, used: usize, name: *const u8, m: usize, count: *mut u64) -> u64;
}

// What is looked for: an entry; a name by its bytes.
struct Sought {
    what: &'static str,
    entry: Vec<u64>,
    name: Option<Vec<u8>>,
}

// These take words that row 1 accepts.
impl Sought {
    fn before(&self, w: &[u64]) -> u64 {
        let used = w[0] as usize;
        match &self.name {
            Some(name) => unsafe { bench_find_name_before(w.as_ptr(), w.len(), used, name.as_ptr(), name.len()) },
            None => unsafe { bench_find_before(w.as_ptr(), w.len(), used, self.entry.as_ptr(), self.entry.len()) },
        }
    }

    // The handle, and how many entries were not passed over.
    fn after(&self, w: &[u64]) -> (u64, u64) {
        let (used, mut count) = (w[0] as usize, 0);
        let handle = match &self.name {
            Some(name) => unsafe { bench_search_name(w.as_ptr(), w.len(), used, name.as_ptr(), name.len(), &mut count) },
            None => unsafe { bench_search(w.as_ptr(), w.len(), used, self.entry.as_ptr(), self.entry.len(), &mut count) },
        };
        (handle, count)
    }

    // The same by hand.
    fn told(&self, w: &[u64]) -> (u64, u64) {
        let equal = || heads(w, 1, w[0] as usize).filter(|(_, head)| *head == self.entry[0]).map(|(at, _)| at);
        let found = equal().find(|at| w[*at..].starts_with(&self.entry));
        let count = equal().filter(|at| found.map_or(true, |h| *at <= h)).count();
        (found.unwrap_or(0) as u64, count as u64)
    }
}

// The Int that stands last in each store.
const LAST: (u64, u64) = (1, 99);

fn entry(what: &'static str, entry: &[u64]) -> Sought {
    Sought { what, entry: entry.to_vec(), name: None }
}

fn last_int() -> Sought {
    entry("Int, the last", &[head(5, 1, 0), LAST.0, LAST.1])
}

fn new_int() -> Sought {
    entry("Int, not there", &[head(5, 1, 0), 2, 99])
}

// Of two fields.
fn new_struct() -> Sought {
    entry("struct, not there", &[head(8, 2, 2), 1, 1, INT, 0, 1, INT, 1])
}

// To a struct that is not there.
fn new_pointer() -> Sought {
    entry("pointer, not there", &[head(10, 3, 0), u64::MAX, 1])
}

fn new_name(bytes: usize) -> Sought {
    let name = vec![b'y'; bytes];
    Sought { what: "name, not there", entry: name_entry(&name), name: Some(name) }
}

fn program(len: usize) -> Built {
    Program::new(len, Program::families(len, 3, 1)).built
}

type Kind = (&'static str, fn(usize) -> Built, Vec<Sought>);

fn all_kinds() -> [Kind; 6] {
    [
        ("Ints", kinds::ints, vec![new_int(), new_struct()]),
        ("structs of 0 to 19 fields", kinds::structs, vec![last_int(), new_struct()]),
        ("names of 16 to 120 bytes", kinds::long_names, vec![new_name(60)]),
        ("names of 20 bytes", kinds::equal_names, vec![new_name(20)]),
        ("as a compiler fills it", program, vec![new_int(), new_struct(), new_name(8)]),
        ("a random mixture", kinds::mixture, vec![new_int(), new_pointer()]),
    ]
}

// What is looked for in a store, and the times of each pass, before and after.
struct Line {
    store: &'static str,
    words: Rc<Vec<u64>>,
    scan: f64,
    sought: Sought,
    count: u64,
    passes: Vec<(f64, f64)>,
}

impl Line {
    // Before anything is timed, both have to find what is found by hand.
    fn new(store: &'static str, words: Rc<Vec<u64>>, scan: f64, sought: Sought) -> Line {
        let (handle, count) = sought.told(&words);
        assert_eq!((sought.before(&words), sought.after(&words)), (handle, (handle, count)), "{store}: {}", sought.what);
        Line { store, words, scan, sought, count, passes: Vec::new() }
    }

    fn pass(&mut self) {
        let look_before = |sought: &mut &Sought| _ = black_box(sought.before(&self.words));
        let look_after = |sought: &mut &Sought| _ = black_box(sought.after(&self.words));
        self.passes.push(time_both(&mut &self.sought, look_before, look_after));
    }

    fn print(&self) {
        let least = |of: fn(&(f64, f64)) -> f64| self.passes.iter().map(of).fold(f64::MAX, f64::min);
        let (before, after, lowest) = (least(|p| p.0), least(|p| p.1), least(|p| p.0 / p.1));
        let (len, entries) = (self.words.len(), heads(&self.words, 1, self.words[0] as usize).count());
        print!("{len:>9} {:>26} {:>19} {entries:>8} {:>8}", self.store, self.sought.what, self.count);
        println!(" {:>9} {:>9} {:>6.2} {lowest:>6.2} {:>6.1}", human(before), human(after), before / after, after / self.scan);
    }
}

fn lines((store, make, all_sought): Kind, len: usize) -> Vec<Line> {
    let mut built = make(len);
    built.int(LAST.0, LAST.1);
    let words = Rc::new(built.words);
    open(&words, &mut []);
    let plain = scan(&words[..words[0] as usize]);
    all_sought.into_iter().map(|sought| Line::new(store, words.clone(), plain, sought)).collect()
}

// The best of so many passes over all lines. Where others use the machine's cores, a search that waits for nothing may take twice as long for a while, and one that waits for each head
// as long as ever: the lowest ratio of a pass shows how little is gained then.
const PASSES: usize = 5;

pub fn table() {
    println!("\nThe search before an entry was passed over by its head, and after: before to after, the lowest of a pass, and after to a plain scan");
    print!("{:>9} {:>26} {:>19} {:>8} {:>8}", "words", "store", "looked for", "entries", "not over");
    println!(" {:>9} {:>9} {:>6} {:>6} {:>6}", "before", "after", "ratio", "lowest", "scan");
    for len in [8_192usize, 65_536, 1_048_576] {
        eprintln!("the search before and after: {len} words ..");
        let mut all: Vec<Line> = all_kinds().into_iter().flat_map(|kind| lines(kind, len)).collect();
        (0..PASSES).for_each(|_| all.iter_mut().for_each(Line::pass));
        all.iter().for_each(Line::print);
    }
}
