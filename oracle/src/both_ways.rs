//! Plain and opened, where the Rust cannot be asked: lists whose words are poked by chance run once as they are, and once with `open` behind
//! each line that changes the list by other means than a call. All other lines have to answer the same.

mod damage;

use crate::compare::Program;
use crate::generate::Menu;
use crate::random::Random;
use damage::poked;
use std::collections::BTreeMap;
use std::fs;
use std::io;
use std::time::{Duration, Instant};

/// What both ways answered to a line.
struct Pair<'l> {
    line: &'l str,
    plain: Option<String>,
    opened: Option<String>,
}

impl Pair<'_> {
    fn is_equal(&self) -> bool {
        match (self.plain.as_deref(), self.opened.as_deref()) {
            // where one way opens the other asks whether the words are well formed
            (Some(plain), Some(opened)) if self.line == OPEN => matches!((plain, opened), ("1", "ok") | ("0", "-1")),
            (plain, opened) => plain.is_some() && plain == opened,
        }
    }
}

const OPEN: &str = "open";

/// A list's lines, with `open` behind each that changes words by other means than a call.
fn with_opens(lines: &[String]) -> Vec<&str> {
    let changes = |line: &str| ["fresh", "list", "poke"].contains(&line.split(' ').next().unwrap_or(""));
    lines.iter().flat_map(|line| std::iter::once(line.as_str()).chain(changes(line).then_some(OPEN))).collect()
}

/// Runs lines both ways: plain, with `check` in the place of each `open`, and opened.
fn both<'l>(plain: &Program, opened: &Program, lines: &'l [String]) -> io::Result<Vec<Pair<'l>>> {
    let lines = with_opens(lines);
    let script =
        |open: &str| lines.iter().map(|line| if *line == OPEN { format!("{open}\n") } else { format!("{line}\n") }).collect::<String>();
    let (one, two) = (plain.run(&script("check"))?, opened.run(&script(OPEN))?);
    let (mut one, mut two) = (one.into_iter(), two.into_iter());
    Ok(lines.into_iter().map(|line| Pair { line, plain: one.next(), opened: two.next() }).collect())
}

/// How many lines of a name there were, by what both ways answered: 0 for accepted ones, else the refusal.
#[derive(Default)]
struct Tally {
    counts: BTreeMap<String, BTreeMap<u8, u64>>,
    lines: u64,
}

impl Tally {
    fn add(&mut self, pairs: &[Pair]) {
        for pair in pairs {
            let answer = pair.opened.as_deref().unwrap_or("");
            let row = answer.strip_prefix('-').and_then(|row| row.parse().ok()).unwrap_or(0);
            let name = pair.line.split(' ').next().unwrap_or("").to_string();
            *self.counts.entry(name).or_default().entry(row).or_default() += 1;
            self.lines += 1;
        }
    }

    fn print(&self) {
        println!("{:<20} {:>10} {:>10}  refused", "line", "lines", "accepted");
        for (name, rows) in &self.counts {
            let all: u64 = rows.values().sum();
            let refused: Vec<String> = rows.iter().filter(|(row, _)| **row > 0).map(|(row, n)| format!("{row}: {n}")).collect();
            println!("{name:<20} {all:>10} {:>10}  {}", rows.get(&0).unwrap_or(&0), refused.join("  "));
        }
    }
}

/// The programs are started once for so many lists.
const LISTS_AT_ONCE: u64 = 60;

/// `oracle both-ways`: n lists. Says whether all answers agree; else the shortest script found is printed.
pub fn compare(plain: &Program, opened: &Program, n: u64, seed: u64, menu: &Menu) -> io::Result<bool> {
    fs::create_dir_all(&plain.folder)?;
    let mut seeds = Random::new(seed);
    let mut tally = Tally::default();
    let (start, mut told, mut done) = (Instant::now(), Instant::now(), 0);
    while done < n {
        let some = LISTS_AT_ONCE.min(n - done);
        let lists: Vec<Vec<String>> = (0..some).map(|_| poked(seeds.word(), menu)).collect();
        let lines: Vec<String> = lists.concat();
        let pairs = both(plain, opened, &lines)?;
        if let Some(at) = pairs.iter().position(|pair| !pair.is_equal()) {
            println!("a difference, at the line '{}' (seed {seed}, after {done} lists without)", pairs[at].line);
            eprintln!("looking for a short script that shows it ..");
            // each list begins with a new one, so the list that differs does so alone
            for list in &lists {
                if both(plain, opened, list)?.iter().any(|pair| !pair.is_equal()) {
                    report(plain, opened, list.clone())?;
                    return Ok(false);
                }
            }
            println!("it does not show when its list is run alone");
            return Ok(false);
        }
        tally.add(&pairs);
        done += some;
        if told.elapsed() > Duration::from_secs(3) {
            eprintln!("{done} lists of {n} compared, no difference");
            told = Instant::now();
        }
    }
    tally.print();
    println!("{} lines in {n} lists, {:.0} seconds, seed {seed}: 0 differences", tally.lines, start.elapsed().as_secs_f64());
    Ok(true)
}

/// The programs are started at most this often to make a script short.
const MOST_TRIES: usize = 2000;

/// Leaves out many lines at once, then fewer, then single ones, as long as a difference stays, and prints what is left.
fn report(plain: &Program, opened: &Program, mut lines: Vec<String>) -> io::Result<()> {
    let mut tries = 0;
    let mut many = lines.len();
    while many > 0 && tries < MOST_TRIES {
        let before = lines.len();
        let mut end = lines.len();
        while end > 0 && tries < MOST_TRIES {
            let start = end.saturating_sub(many);
            let mut fewer = lines.clone();
            fewer.drain(start..end);
            tries += 1;
            if both(plain, opened, &fewer)?.iter().any(|pair| !pair.is_equal()) {
                lines = fewer;
            }
            end = start;
        }
        if many > 1 || lines.len() == before {
            many /= 2;
        }
    }
    for pair in both(plain, opened, &lines)? {
        let (one, two) = (pair.plain.as_deref().unwrap_or("nothing"), pair.opened.as_deref().unwrap_or("nothing"));
        match pair.is_equal() {
            true => println!("{} ; => {two}", pair.line),
            false if pair.line == OPEN => println!("{} ; {two}, and the words' test answers {one}", pair.line),
            false => println!("{} ; => {one} plain, {two} opened", pair.line),
        }
        if two.starts_with('?') && pair.line == OPEN {
            println!("the program does not know 'open'");
        }
        if !pair.is_equal() {
            break;
        }
    }
    Ok(())
}
