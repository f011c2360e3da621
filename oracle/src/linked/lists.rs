//! Which lists are made, and how they are run: all by the seed of the list.

use super::catalogues::with_catalogues;
use super::damage::{damaged, opening};
use super::planted::Plant;
use super::searches::with_searches;
use super::trial::{By, Way};
use super::unfolded::ROOM;
use crate::generate::{list, Lists, Menu, SHORT};
use crate::random::Random;
use crate::steps::{Arg, Step};
use crate::store::LONGEST;
use crate::values;

/// What lists are made of.
pub struct Menus {
    short: Menu,
    long: Menu,
    /// How many lists in a hundred are damaged.
    damaged: usize,
    /// Whether entries are looked for among the calls.
    searches: bool,
    /// Whether files are written and loaded among them.
    catalogues: bool,
}

/// A list to be run.
pub struct Made {
    pub steps: Vec<Step>,
    pub way: Way,
}

impl Menus {
    pub fn read(names: &str) -> Result<Menus, String> {
        let menu = |lists: Lists| -> Result<Menu, String> {
            let mut menu = Menu::read(names)?;
            // every word is compared after each call
            menu.dump = false;
            menu.lists = lists;
            Ok(menu)
        };
        let short = Lists { room: ROOM, length: short_length, ..SHORT };
        let long = Lists { length: long_length, are_filled: true, most_calls: 1500, ..short };
        let has = |words: &[&str]| names.split(',').any(|name| words.contains(&name));
        let (searches, catalogues) = (has(&["all", "find_entry"]), has(&["all", "save", "load"]));
        Ok(Menus { short: menu(short)?, long: menu(long)?, damaged: 35, searches, catalogues })
    }

    /// Lists of calls most of which merge the same types again and again, in stores that calls alone have made.
    pub fn of_merges() -> Result<Menus, String> {
        let mut menus = Menus::read("all")?;
        menus.damaged = 0;
        menus.searches = false;
        menus.catalogues = false;
        for menu in [&mut menus.short, &mut menus.long] {
            menu.weigh("meet_list", 400);
            menu.lists.merged_again = 75;
        }
        Ok(menus)
    }

    /// The list of this seed.
    pub fn made(&mut self, seed: u64, plant: Option<Plant>) -> Made {
        let mut random = Random::new(seed ^ 0x6c69_6e6b_6564);
        let by = random.of(&[By::Crate, By::C]);
        let (is_long, is_damaged, is_opened) = (random.below(LISTS_A_LONG_ONE) == 0, random.percent(self.damaged), random.percent(50));
        let holds = is_long || random.percent(40);
        let menu = if is_long { &mut self.long } else { &mut self.short };
        menu.opened = is_opened && !is_damaged;
        let seed = random.word();
        let steps = match is_damaged {
            true => damaged(seed, menu, holds),
            false => with_lengths(list(seed, menu).steps, &mut random),
        };
        let steps = match self.searches {
            true => with_searches(steps, &mut random),
            false => steps,
        };
        let steps = match self.catalogues {
            true => with_catalogues(steps, &mut random),
            false => steps,
        };
        Made { steps, way: Way { by, holds, plant } }
    }
}

/// One list in so many is a long one: a call there takes as long as hundreds of others.
const LISTS_A_LONG_ONE: usize = 200;

/// Lengths as the program `calls` has them, and those at which the library's tables change.
fn short_length(random: &mut Random) -> usize {
    match random.below(40) {
        0 => random.of(&[4095, 4096, 4097, 8191, 8192, 8193]),
        _ => values::length(random),
    }
}

fn long_length(random: &mut Random) -> usize {
    match random.below(3) {
        0 => random.of(&[65_536, 65_537, 131_072, 262_144, 524_288, 524_289, LONGEST - 1, LONGEST, LONGEST]),
        1 => random.between(65_536, 262_144),
        _ => random.between(262_144, LONGEST),
    }
}

/// The steps with lengths of memory and index for each opening.
fn with_lengths(mut steps: Vec<Step>, random: &mut Random) -> Vec<Step> {
    let mut length = 0;
    for step in &mut steps {
        match (step.name, step.args.first()) {
            ("list" | "fresh", Some(Arg::Number(n))) => length = *n as usize,
            ("open", None) if random.percent(50) => step.args = opening(random, length),
            _ => {}
        }
    }
    steps
}
