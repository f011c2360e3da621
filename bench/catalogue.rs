// Saving and loading, beside row 1 of the same words and a plain copy of the file's bytes, in turns; and, where an old library is linked, row 1 there and here.
use crate::built::{heads, Built};
use crate::calls::well_formed;
#[cfg(old)]
use crate::clock::time_both;
use crate::clock::{human, rounds, time_one};
use crate::kinds;
use crate::measure::lengths;
use crate::program::Program;
use std::hint::black_box;

extern "C" {
    fn ferigulan_save(words: *const u64, n: usize, label: *const u8, k: usize, file: *mut u8, m: usize, answer: *mut u64) -> u32;
    fn ferigulan_load(words: *mut u64, n: usize, file: *const u8, m: usize, answer: *mut u64) -> u32;
}

// Of five bytes, so that no word of the file is where a word of a list would be.
const LABEL: &[u8] = b"bench";

fn save(words: &[u64], file: &mut [u8]) -> u64 {
    let mut answer = 0;
    let refused =
        unsafe { ferigulan_save(words.as_ptr(), words.len(), LABEL.as_ptr(), LABEL.len(), file.as_mut_ptr(), file.len(), &mut answer) };
    assert_eq!(refused, 0);
    answer
}

fn load(words: &mut [u64], file: &[u8]) -> u64 {
    let mut answer = 0;
    assert_eq!(unsafe { ferigulan_load(words.as_mut_ptr(), words.len(), file.as_ptr(), file.len(), &mut answer) }, 0);
    answer
}

fn program(len: usize) -> Built {
    Program::new(len, Program::families(len, 3, 1)).built
}

type Kind = (&'static str, fn(usize) -> Built);

const KINDS: [Kind; 6] = [
    ("as a compiler fills it", program),
    ("Ints", kinds::ints),
    ("names of 8 bytes", kinds::short_names),
    ("names of 16 to 120 bytes", kinds::long_names),
    ("structs of 0 to 19 fields", kinds::structs),
    ("a random mixture", kinds::mixture),
];

// A store with its file, a list to load it into and bytes to write to; the best times of each.
struct Line {
    store: &'static str,
    words: Vec<u64>,
    file: Vec<u8>,
    list: Vec<u64>,
    bytes: Vec<u8>,
    row1: f64,
    save: f64,
    load: f64,
    copy: f64,
}

impl Line {
    // Before anything is timed, what is loaded has to be what was saved, whatever stood in the list.
    fn new((store, make): Kind, len: usize) -> Line {
        let words = make(len).words;
        let mut file = vec![0x77; LABEL.len() + 8 * len];
        let length = save(&words, &mut file) as usize;
        file.truncate(length);
        let mut list = vec![7; len];
        assert_eq!(load(&mut list, &file), LABEL.len() as u64);
        assert!(list == words, "{store}: another store was loaded");
        let bytes = vec![0; length];
        Line { store, words, file, list, bytes, row1: f64::MAX, save: f64::MAX, load: f64::MAX, copy: f64::MAX }
    }

    fn pass(&mut self) {
        let Line { words, file, list, bytes, .. } = self;
        let row1 = rounds(5, || assert!(well_formed(black_box(words))));
        let saved = rounds(5, || _ = black_box(save(black_box(words), bytes)));
        let loaded = rounds(5, || _ = black_box(load(list, black_box(file))));
        let copied = rounds(5, || black_box(&mut *bytes).copy_from_slice(black_box(file)));
        for (best, ns) in [(&mut self.row1, row1), (&mut self.save, saved), (&mut self.load, loaded), (&mut self.copy, copied)] {
            *best = best.min(ns);
        }
    }

    fn print(&self) {
        let (len, entries) = (self.words.len(), heads(&self.words, 1, self.words[0] as usize).count());
        print!("{len:>9} {:>26} {entries:>8} {:>9} {:>9} {:>9}", self.store, human(self.row1), human(self.save), human(self.load));
        println!(" {:>6.2} {:>6.2} {:>9} {:>7.0}", self.save / self.row1, self.load / self.row1, human(self.copy), self.load / self.copy);
    }
}

const LENGTHS: [usize; 5] = [1_000, 8_192, 65_536, 262_144, 1_048_576];
const PASSES: usize = 5;

pub fn table() {
    println!("\nSaving and loading a full list: beside row 1 of the same words, and a plain copy of the file's bytes");
    print!("{:>9} {:>26} {:>8} {:>9} {:>9} {:>9}", "words", "store", "entries", "row 1", "save", "load");
    println!(" {:>6} {:>6} {:>9} {:>7}", "s/row1", "l/row1", "copy", "l/copy");
    for len in lengths(&LENGTHS) {
        eprintln!("saving and loading: {len} words ..");
        let mut all: Vec<Line> = KINDS.into_iter().map(|kind| Line::new(kind, len)).collect();
        (0..PASSES).for_each(|_| all.iter_mut().for_each(Line::pass));
        all.iter().for_each(Line::print);
    }
    made_against();
    #[cfg(old)]
    old::table();
    #[cfg(not(old))]
    eprintln!("row 1, old and new: left out, no old library was linked");
}

// A file that is made against the loader's hash, so that it gives up its passes for the exact way: one load.
fn made_against() {
    println!("\nLoading Ints that all have one hash");
    println!("{:>9} {:>8} {:>9} {:>9} {:>8}", "words", "entries", "row 1", "load", "l/row1");
    for len in lengths(&LENGTHS) {
        eprintln!("Ints of one hash: {len} words ..");
        let mut line = Line::new(("Ints of one hash", kinds::ints_of_one_hash), len);
        let row1 = rounds(5, || assert!(well_formed(black_box(&line.words))));
        let loaded = time_one(2, || (), |_| _ = black_box(load(&mut line.list, black_box(&line.file))));
        let entries = heads(&line.words, 1, line.words[0] as usize).count();
        println!("{len:>9} {entries:>8} {:>9} {:>9} {:>8.0}", human(row1), human(loaded), loaded / row1);
    }
}

// Row 1 as an old library has it and as the new one has it, on the same words.
#[cfg(old)]
mod old {
    use super::*;

    extern "C" {
        fn old_ferigulan_well_formed(words: *const u64, n: usize) -> bool;
    }

    // The best of each, and the median of the passes' ratios, new to old.
    fn line((store, make): Kind, len: usize) -> f64 {
        let mut words = make(len).words;
        let old = |w: &mut Vec<u64>| assert!(unsafe { old_ferigulan_well_formed(black_box(w.as_ptr()), w.len()) });
        let new = |w: &mut Vec<u64>| assert!(well_formed(black_box(w)));
        let passes: Vec<(f64, f64)> = (0..PASSES).map(|_| time_both(&mut words, old, new)).collect();
        let least = |of: fn(&(f64, f64)) -> f64| passes.iter().map(of).fold(f64::MAX, f64::min);
        let mut ratios: Vec<f64> = passes.iter().map(|p| p.1 / p.0).collect();
        ratios.sort_by(f64::total_cmp);
        let (x, y) = (least(|p| p.0), least(|p| p.1));
        println!("{len:>9} {store:>26} {:>9} {:>9} {:>6.3} {:>6.3}", human(x), human(y), y / x, ratios[PASSES / 2]);
        y / x
    }

    pub fn table() {
        println!("\nRow 1, old and new: the ratio is new to old, of the best times, and the median of {PASSES} passes");
        println!("{:>9} {:>26} {:>9} {:>9} {:>6} {:>6}", "words", "store", "old", "new", "ratio", "median");
        let mut most: f64 = 0.0;
        for len in lengths(&LENGTHS) {
            eprintln!("row 1, old and new: {len} words ..");
            KINDS.into_iter().for_each(|kind| most = most.max(line(kind, len)));
        }
        println!("the largest ratio is {most:.3}");
    }
}
