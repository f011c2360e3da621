//! Side by side at scale: random lists of calls on the linked library, on the reading of document 01 (the package `reading`) and, as far as it
//! can hold the types, on the original, all in memory; every word compared after every call.

mod by_c;
mod by_crate;
mod bytes;
mod catalogues;
mod cell;
mod damage;
mod damaged_files;
mod door;
mod entries;
mod filled;
mod grouped;
mod law;
mod lists;
mod model;
mod planted;
mod searches;
mod tally;
mod trial;
mod typed;
mod unfolded;
mod verdict;

use crate::compare::shortest;
use crate::random::Random;
use crate::session::Session;
use crate::shrink::{shrink, Shown, Sides};
use crate::steps::Step;
use grouped::grouped;
use lists::Menus;
use original::datastructures::arena::DroplessArena;
use original::sea_of_nodes::types::Types;
use planted::{Plant, PLANTS};
use std::io;
use std::time::{Duration, Instant};
use tally::Tally;
use trial::{Trial, Way};
use unfolded::ROOM;

/// Runs steps on all sides. Says what is shown where they differ; its lines only where they are wanted.
fn difference(way: Way, steps: &[Step], tally: &mut Tally, keeps_lines: bool) -> Option<Shown> {
    let arena = DroplessArena::new();
    let types = Types::new(&arena);
    let mut trial = Trial::new(way, steps, Session::with_room(&types, ROOM), tally, keeps_lines);
    let difference = trial.run().err()?;
    let (at, lines) = (trial.at(), verdict::script(&trial.asked, &difference));
    Some(Shown { at, numbers: trial.numbers, asked: trial.asked, first_of_last: trial.first_of_last, lines })
}

/// All sides, for a list that is made short.
struct AllSides(Way);

impl Sides for AllSides {
    fn difference(&mut self, steps: &[Step]) -> io::Result<Option<Shown>> {
        Ok(difference(self.0, steps, &mut Tally::default(), true))
    }

    fn others(&self, steps: &[Step], shown: &Shown) -> Vec<Vec<Step>> {
        filled::others(steps, shown)
    }
}

/// A list that shows a difference, and how it was run.
struct Found {
    steps: Vec<Step>,
    way: Way,
}

/// How far a run goes.
#[derive(Clone, Copy)]
struct Goal {
    n: u64,
    /// The calls that are counted, and their name.
    counted: fn(&Tally) -> u64,
    name: &'static str,
}

impl Goal {
    fn calls(n: u64) -> Goal {
        Goal { n, counted: |tally| tally.calls, name: "calls" }
    }

    fn merges(n: u64) -> Goal {
        Goal { n, counted: |tally| tally.merges.calls(), name: "merges of lists" }
    }

    fn tell(&self, tally: &Tally, start: Instant) {
        let done = (self.counted)(tally);
        let rate = done as f64 / start.elapsed().as_secs_f64();
        let (share, done, n) = (tally.share(tally.damaged), grouped(done), grouped(self.n));
        eprintln!("{done} {} of {n} compared, {rate:.0} a second, {share:.1} % of all calls on damaged words: no difference", self.name);
    }
}

/// Runs lists up to the goal, or to one that shows a difference.
fn search(goal: Goal, seed: u64, menus: &mut Menus, plant: Option<Plant>, tally: &mut Tally, progress: bool) -> Option<Found> {
    let mut seeds = Random::new(seed);
    let (start, mut told) = (Instant::now(), Instant::now());
    while (goal.counted)(tally) < goal.n {
        let made = menus.made(seeds.word(), plant);
        tally.lists += 1;
        if difference(made.way, &made.steps, tally, false).is_some() {
            return Some(Found { steps: made.steps, way: made.way });
        }
        if progress && told.elapsed() > Duration::from_secs(3) {
            goal.tell(tally, start);
            told = Instant::now();
        }
    }
    None
}

/// What a run has besides its calls.
pub struct Settings<'o> {
    pub seed: u64,
    /// A mistake to be found, by its name.
    pub plant: Option<&'o str>,
    /// Where the script of a difference is put.
    pub folder: Option<&'o str>,
    /// The golden file of a catalogue.
    pub golden: Option<&'o str>,
}

/// `oracle linked`: at least n calls. Says whether all sides agree; the first difference is printed with the shortest script found.
pub fn compare(n: u64, calls: &str, settings: &Settings) -> io::Result<bool> {
    run(Goal::calls(n), Menus::read(calls).map_err(io::Error::other)?, settings)
}

/// `oracle lists`: at least n merges of lists, and the same types again in other orders: likewise.
pub fn merge(n: u64, settings: &Settings) -> io::Result<bool> {
    run(Goal::merges(n), Menus::of_merges().map_err(io::Error::other)?, settings)
}

/// `oracle damage`: good files of catalogues with each byte changed, cut at each length, and files by chance. Says whether both sides agree; the
/// first difference is printed.
pub fn damage(settings: &Settings) -> io::Result<bool> {
    let golden = settings.golden.ok_or_else(|| io::Error::other("--golden names no file"))?;
    let golden = std::fs::read(golden).map_err(|why| io::Error::other(format!("{golden}: {why}")))?;
    let plant = settings.plant.map(named).transpose()?;
    let difference = damaged_files::run(&damaged_files::Settings { seed: settings.seed, golden: &golden, plant })?;
    match difference {
        Some(script) => {
            println!("a difference");
            print_script(&script, settings.folder)?;
            Ok(false)
        }
        None => {
            println!("0 differences");
            Ok(true)
        }
    }
}

fn run(goal: Goal, mut menus: Menus, settings: &Settings) -> io::Result<bool> {
    let (seed, plant) = (settings.seed, settings.plant.map(named).transpose()?);
    let mut tally = Tally::default();
    let start = Instant::now();
    if let Some(found) = search(goal, seed, &mut menus, plant, &mut tally, true) {
        println!("a difference, in list {} (seed {seed}, after {} calls without)", tally.lists, grouped(tally.calls));
        print_script(&shortest(&mut AllSides(found.way), &found.steps)?, settings.folder)?;
        return Ok(false);
    }
    tally.print();
    let (done, seconds) = (grouped((goal.counted)(&tally)), start.elapsed().as_secs_f64());
    println!("{done} {}, {seconds:.0} seconds, seed {seed}: 0 differences", goal.name);
    Ok(true)
}

/// As many lines of a script are printed.
const MOST_PRINTED: usize = 60;

/// Prints a script, and puts it into the folder, if there is one, whatever its length.
fn print_script(script: &[String], folder: Option<&str>) -> io::Result<()> {
    let first = script.len().saturating_sub(MOST_PRINTED);
    if first > 0 {
        println!("; {} lines more before these", grouped(first as u64));
    }
    script[first..].iter().for_each(|line| println!("{line}"));
    if let Some(folder) = folder {
        let file = std::path::Path::new(folder).join("difference.txt");
        std::fs::write(&file, script.join("\n") + "\n")?;
        println!("; the script is in {}", file.display());
    }
    Ok(())
}

fn named(name: &str) -> io::Result<Plant> {
    let names = || PLANTS.iter().map(|plant| plant.name).collect::<Vec<_>>().join(", ");
    Plant::named(name).ok_or_else(|| io::Error::other(format!("{name}: no planted mistake; there are {}", names())))
}

/// A planted mistake is to be found within so many calls, and shown by so few lines.
const MOST_CALLS: u64 = 1_000_000;
const MOST_LINES: usize = 12;

/// `oracle planted`: each planted mistake is to be found and shown. Says whether all are.
pub fn planted(seed: u64, calls: &str) -> io::Result<bool> {
    let mut menus = Menus::read(calls).map_err(io::Error::other)?;
    let mut missed = 0;
    for plant in PLANTS {
        println!("; {}: {}", plant.name, plant.what);
        let mut tally = Tally::default();
        let found = search(Goal::calls(MOST_CALLS), seed, &mut menus, Some(*plant), &mut tally, false);
        let shown = match &found {
            Some(found) => shrink(&mut AllSides(found.way), &found.steps)?,
            None => None,
        };
        let Some(shown) = shown else {
            println!("NOT FOUND in {} calls\n", grouped(tally.calls));
            missed += 1;
            continue;
        };
        shown.lines.iter().for_each(|line| println!("{line}"));
        let is_short = shown.lines.len() <= MOST_LINES;
        missed += usize::from(!is_short);
        let too_long = if is_short { "" } else { ": TOO LONG" };
        println!("; found after {} calls, shown by {} lines{too_long}\n", grouped(tally.calls), shown.lines.len());
    }
    println!("{} planted mistakes, seed {seed}: {} found and shown by at most {MOST_LINES} lines", PLANTS.len(), PLANTS.len() - missed);
    Ok(missed == 0)
}
