//! The comparison: lists of calls by chance, run on the Rust and on the program, answer by answer; and the same lists as a script that
//! carries the Rust's answers.

use crate::generate::{list, List, Menu};
use crate::random::Random;
use crate::session::{Answer, Session};
use crate::shrink::{shrink, Shown, Sides};
use crate::steps::{Asked, Runner, Step};
use original::datastructures::arena::DroplessArena;
use original::sea_of_nodes::types::Types;
use std::collections::BTreeMap;
use std::fs::{self, File};
use std::io;
use std::path::PathBuf;
use std::process::{Command, Stdio};
use std::time::{Duration, Instant};

/// The program that is compared with the Rust, and where its scripts and answers are put.
pub struct Program {
    pub path: PathBuf,
    pub folder: PathBuf,
}

impl Program {
    /// Runs a script of these calls. A program that breaks off has answered fewer lines than there are calls.
    pub fn answers(&self, asked: &[Asked]) -> io::Result<Vec<String>> {
        self.run(&asked.iter().map(|asked| format!("{}\n", asked.call)).collect::<String>())
    }

    /// The lines that a script answers.
    pub fn run(&self, lines: &str) -> io::Result<Vec<String>> {
        let (script, answers) = (self.folder.join("script.txt"), self.folder.join("answers.txt"));
        fs::write(&script, lines)?;
        let stdin = Stdio::from(File::open(&script)?);
        let stdout = Stdio::from(File::create(&answers)?);
        Command::new(&self.path).stdin(stdin).stdout(stdout).status()?;
        Ok(fs::read_to_string(&answers)?.lines().map(str::to_string).collect())
    }
}

/// The first call whose answers differ.
fn first_difference(asked: &[Asked], answers: &[String]) -> Option<usize> {
    let differs = |i: &usize| answers.get(*i) != Some(&asked[*i].line());
    (0..asked.len()).find(differs)
}

/// The Rust and a program.
struct BesideTheRust<'p>(&'p Program);

impl Sides for BesideTheRust<'_> {
    fn difference(&mut self, steps: &[Step]) -> io::Result<Option<Shown>> {
        let mut asked = ask_all(steps);
        let answers = self.0.answers(&asked)?;
        let Some(at) = first_difference(&asked, &answers) else {
            return Ok(None);
        };
        asked.truncate(at + 1);
        let mut lines: Vec<String> = asked.iter().map(|asked| format!("{} ; => {}", asked.call, asked.line())).collect();
        let answer = answers.get(at).map_or("nothing", String::as_str);
        lines[at].push_str(&format!(" (the Rust); the program answers {answer}"));
        if asked[at].answer != Answer::Malformed && answer.starts_with('?') {
            lines.push("; the program does not know the call; --calls names those that are to be made".to_string());
        }
        let numbers = asked.iter().map(|asked| asked.call.numbers.clone()).collect();
        Ok(Some(Shown { at, numbers, asked, first_of_last: at, lines }))
    }
}

fn ask_all(steps: &[Step]) -> Vec<Asked> {
    let arena = DroplessArena::new();
    let types = Types::new(&arena);
    let mut runner = Runner::new(Session::new(&types));
    steps.iter().map(|step| runner.run(step)).collect()
}

/// How many calls of a name there were, by what the Rust answered: 0 for accepted ones, else the refusal.
#[derive(Default)]
struct Tally {
    counts: BTreeMap<&'static str, BTreeMap<u8, u64>>,
    calls: u64,
    lists: u64,
}

impl Tally {
    fn add(&mut self, list: &List) {
        self.lists += 1;
        for asked in &list.asked {
            let row = match asked.answer {
                // a line that is no call is compared, and not counted
                Answer::Malformed => continue,
                Answer::Refused(row) => row,
                _ => 0,
            };
            *self.counts.entry(asked.call.name).or_default().entry(row).or_default() += 1;
            self.calls += 1;
        }
    }

    fn print(&self) {
        println!("{:<20} {:>10} {:>10}  refused", "call", "calls", "accepted");
        for (name, rows) in &self.counts {
            let all: u64 = rows.values().sum();
            let accepted = rows.get(&0).unwrap_or(&0);
            let refused: Vec<String> = rows.iter().filter(|(row, _)| **row > 0).map(|(row, n)| format!("{row}: {n}")).collect();
            println!("{name:<20} {all:>10} {accepted:>10}  {}", refused.join("  "));
        }
    }
}

/// The program is started once for about this many calls.
const CALLS_AT_ONCE: u64 = 20_000;

/// `oracle compare`: at least n calls. Says whether all answers agree; the first that does not is printed with the shortest script found.
pub fn compare(program: &Program, n: u64, seed: u64, menu: &Menu) -> io::Result<bool> {
    fs::create_dir_all(&program.folder)?;
    let mut seeds = Random::new(seed);
    let mut tally = Tally::default();
    let mut told = Instant::now();
    let start = Instant::now();
    while tally.calls < n {
        let lists = lists_of(CALLS_AT_ONCE.min(n - tally.calls), &mut seeds, menu);
        if let Some(list) = list_that_differs(program, &lists)? {
            println!("a difference, in a list of {} calls (seed {seed}, after {} calls without)", list.steps.len(), tally.calls);
            shortest(&mut BesideTheRust(program), &list.steps)?.iter().for_each(|line| println!("{line}"));
            return Ok(false);
        }
        lists.iter().for_each(|list| tally.add(list));
        if told.elapsed() > Duration::from_secs(3) {
            eprintln!("{} calls of {n} compared, no difference", tally.calls);
            told = Instant::now();
        }
    }
    tally.print();
    let seconds = start.elapsed().as_secs_f64();
    println!("{} calls in {} lists, {seconds:.0} seconds, seed {seed}: 0 differences", tally.calls, tally.lists);
    Ok(true)
}

/// Lists of at least this many calls together.
fn lists_of(calls: u64, seeds: &mut Random, menu: &Menu) -> Vec<List> {
    let mut lists: Vec<List> = vec![];
    let mut count = 0;
    while count < calls {
        let list = list(seeds.word(), menu);
        count += list.asked.len() as u64;
        lists.push(list);
    }
    lists
}

/// Runs the program on all lists as one script, and finds the first list with a difference.
fn list_that_differs<'l>(program: &Program, lists: &'l [List]) -> io::Result<Option<&'l List>> {
    let asked: Vec<Asked> = lists.iter().flat_map(|list| list.asked.clone()).collect();
    let answers = program.answers(&asked)?;
    let Some(mut at) = first_difference(&asked, &answers) else {
        return Ok(None);
    };
    let found = lists.iter().find(|list| {
        let here = at < list.asked.len();
        at = at.saturating_sub(list.asked.len());
        here
    });
    Ok(found)
}

/// The shortest script found that shows a difference.
pub fn shortest(sides: &mut impl Sides, steps: &[Step]) -> io::Result<Vec<String>> {
    eprintln!("looking for a short script that shows it ..");
    Ok(match shrink(sides, steps)? {
        Some(shown) => shown.lines,
        None => vec!["; it does not show when the list is run alone".to_string()],
    })
}

/// `oracle sample`: lists of at least n calls as a script, each line with the Rust's answer.
pub fn sample(n: u64, seed: u64, menu: &Menu) {
    let mut seeds = Random::new(seed);
    for list in lists_of(n, &mut seeds, menu) {
        for asked in list.asked {
            println!("{} ; => {}", asked.call, asked.line());
        }
    }
}
