// The search for an equal entry, with an index and without: the functions under the calls, which test no row.
use crate::clock::{beside, scan, time, time_both, time_one};
use crate::stores::{filled, name_number};
use std::cell::RefCell;
use std::hint::black_box;

extern "C" {
    fn bench_open(words: *const u64, n: usize, index: *mut u64, k: usize) -> bool;
    fn bench_extend(words: *const u64, n: usize, used: usize, index: *mut u64, k: usize);
    fn bench_find(words: *const u64, n: usize, used: usize, entry: *const u64, m: usize, index: *const u64, k: usize) -> u64;
    fn bench_intern(words: *mut u64, n: usize, used: usize, entry: *const u64, m: usize, index: *const u64, k: usize) -> u64;
    fn bench_intern_name(words: *mut u64, n: usize, used: usize, name: *const u8, m: usize, index: *const u64, k: usize) -> u64;
}

// These take words that row 1 accepts, and an index that was opened on them or has no word.
fn find(w: &[u64], used: usize, entry: &[u64], index: &[u64]) -> u64 {
    unsafe { bench_find(w.as_ptr(), w.len(), used, entry.as_ptr(), entry.len(), index.as_ptr(), index.len()) }
}

fn intern(w: &mut [u64], used: usize, entry: &[u64], index: &[u64]) -> u64 {
    unsafe { bench_intern(w.as_mut_ptr(), w.len(), used, entry.as_ptr(), entry.len(), index.as_ptr(), index.len()) }
}

fn intern_name(w: &mut [u64], used: usize, name: &[u8], index: &[u64]) -> u64 {
    unsafe { bench_intern_name(w.as_mut_ptr(), w.len(), used, name.as_ptr(), name.len(), index.as_ptr(), index.len()) }
}

// Row 1, and then the index of all used words.
pub fn open(w: &[u64], index: &mut [u64]) {
    assert!(unsafe { bench_open(w.as_ptr(), w.len(), index.as_mut_ptr(), index.len()) });
}

fn extend(w: &[u64], used: usize, index: &mut [u64]) {
    unsafe { bench_extend(w.as_ptr(), w.len(), used, index.as_mut_ptr(), index.len()) }
}

const NEW: usize = 255;

// So many new Ints in a row behind the used words; the used words then.
fn new_ints(w: &mut [u64], used: usize, index: &[u64]) -> usize {
    let mut u = used;
    for i in 0..NEW as u64 {
        assert_eq!(intern(w, u, &[261, 1, 1_000_000 + i], index), u as u64);
        u += 3;
    }
    u
}

fn line(len: usize, what: &str, plain: f64, without: f64, with: f64) {
    println!("{len:>9} {what:>24} {:>24} {:>22} {:>9.1}", beside(without, plain), beside(with, plain), without / with);
}

fn one(len: usize) {
    // a filled store whose last entry is an Int, and behind it room for the new ones, as far as a list may be longer
    let most = len.min(1_048_576 - 3 * NEW);
    let mut w = filled(most);
    let at = w[0] as usize;
    w[at..at + 3].copy_from_slice(&[261, 1, 99]);
    let used = at + 3;
    w[0] = used as u64;
    let plain = scan(&w[..used]);
    w.resize(most + 3 * NEW, 0);
    let groups = (used as u64 - 94) / 19;
    let last = name_number(99 + groups).to_le_bytes();
    let name_at = at as u64 - 13;
    let none: [u64; 0] = [];
    let mut index = vec![0u64; 2 * w.len()];

    let (row1, opened) = time_both(&mut index, |_| open(black_box(&w), &mut []), |index| open(black_box(&w), index));
    println!("{len:>9} {:>24} {:>24} {:>22}", "scan, open less row 1", format!("{plain:.0} ns"), beside(opened - row1, plain));

    let found = |index: &[u64]| time(|| assert_eq!(find(&w, used, black_box(&[261, 1, 99]), index), at as u64));
    line(len, "Int found last", plain, found(&none), found(&index));
    // many Ints from all over the store, so that not every word that is read was read just before
    let ints: Vec<[u64; 3]> = (0..256).map(|i| 100 + i * (groups - 1) / 255).map(|k| [261, k, k + 7]).collect();
    let all = |index: &[u64]| time(|| ints.iter().for_each(|e| assert_ne!(find(&w, used, black_box(e), index), 0))) / ints.len() as f64;
    line(len, "256 Ints found, each", plain, all(&none), all(&index));
    let cell = RefCell::new(&mut w);
    let new = |index: &[u64]| time(|| assert_eq!(intern(*cell.borrow_mut(), used, black_box(&[261, 2, 99]), index), used as u64));
    line(len, "new Int", plain, new(&none), new(&index));
    let name = |index: &[u64]| time(|| assert_eq!(intern_name(*cell.borrow_mut(), used, black_box(&last), index), name_at));
    line(len, "name found", plain, name(&none), name(&index));

    let row = |index: &[u64]| time_one(5, || (), |_| assert_eq!(new_ints(*cell.borrow_mut(), used, index), used + 3 * NEW)) / NEW as f64;
    line(len, "255 new Ints, each", plain, row(&none), row(&index));
    let longer = used + 3 * NEW;
    let extended = time_one(5, || index.clone(), |i| extend(&w, longer, i)) / NEW as f64;
    println!("{len:>9} {:>24} {:>24} {:>22}", "extend by them, each", "", beside(extended, plain));
}

pub fn table() {
    println!(
        "\nThe search: nanoseconds and, in brackets, to a plain scan of the used words; the last column is without an index to with one"
    );
    println!("{:>9} {:>24} {:>24} {:>22} {:>9}", "words", "", "without an index", "with one", "ratio");
    for len in [1_000usize, 8_192, 65_536, 1_048_576] {
        eprintln!("the search: {len} words ..");
        one(len);
    }
}
