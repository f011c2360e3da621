//! The original Rust as an oracle: it answers scripts of calls as the program `calls` does. README.md says how.

// What only the linked comparison uses is here in any case.
#![cfg_attr(not(feature = "linked"), allow(dead_code))]

mod ask;
mod both_ways;
mod compare;
mod filling;
mod generate;
#[cfg(feature = "linked")]
mod linked;
mod measure;
mod random;
mod rebuilt;
mod replay;
mod rows;
mod script;
mod session;
mod shrink;
mod steps;
mod store;
mod values;

use compare::Program;
use generate::Menu;
use std::error::Error;
use std::process::ExitCode;

const USAGE: &str = "oracle                                      runs a script from standard input, prints the Rust's answers
oracle check FILE..                         compares scripts with the answers behind '; =>'
oracle time FILE [K]                        runs a script K times (10), prints the time of each call in the Rust
oracle measure FILE [K]                     runs a script K times (3), prints its answers and the times of the blocks that it names
oracle sample N [SEED] [--calls NAMES] [--opened]
                                            prints a script of N calls or more, each line with the Rust's answer
oracle compare N [SEED] [--calls NAMES] [--opened] --program FILE --folder FOLDER
                                            runs N calls or more on the Rust and on a program, which puts its files into a folder
oracle both-ways N [SEED] [--calls NAMES] --program FILE [--other FILE] --folder FOLDER
                                            runs N lists with poked words on a program, and opened on the same or another one
oracle linked N [SEED] [--calls NAMES] [--plant NAME] [--folder FOLDER]
                                            runs N calls or more on the linked library, on the reading and on the Rust
oracle lists N [SEED] [--plant NAME] [--folder FOLDER]
                                            runs N merges of lists or more likewise, of the same types in one order and another
oracle damage [SEED] --golden FILE [--plant NAME] [--folder FOLDER]
                                            loads damaged files of catalogues on the linked library and on the reading
oracle planted [SEED] [--calls NAMES]       shows that planted mistakes are found
NAMES: names of calls separated by commas, 'lattice' for kind, meet and the other calls of the lattice, 'others' for the calls from
make_init to ary_scale, 'lists' for the merges of lists, 'dump' for the store's words at the end of each list, 'all'. The makers are always
used, and 'find_entry', 'save' and 'load' by linked alone, with 'all' too. --opened opens the stores.";

/// What is compared where no calls are named, and what a sample has: dumps make long lines.
const COMPARED: &str = "all";
const SAMPLED: &str = "makers,lattice,others,lists";

fn main() -> ExitCode {
    let words: Vec<String> = std::env::args().skip(1).collect();
    match run(&words) {
        Ok(true) => ExitCode::SUCCESS,
        Ok(false) => ExitCode::from(1),
        Err(error) => {
            eprintln!("oracle: {error}");
            ExitCode::from(2)
        }
    }
}

/// Says whether all is well.
fn run(words: &[String]) -> Result<bool, Box<dyn Error>> {
    let Some((mode, rest)) = words.split_first() else {
        replay::run_script()?;
        return Ok(true);
    };
    let (plain, options) = split_options(rest)?;
    match (mode.as_str(), &plain[..]) {
        ("check", [_, ..]) => Ok(replay::check(&plain)?),
        ("time", [file, turns @ ..]) => {
            replay::time(file, number(turns, 10)? as usize)?;
            Ok(true)
        }
        ("measure", [file, turns @ ..]) => {
            measure::measure(file, number(turns, 3)?.max(1) as usize)?;
            Ok(true)
        }
        ("sample", [n, seed @ ..]) => {
            let menu = options.menu(SAMPLED)?;
            compare::sample(n.parse()?, number(seed, 1)?, &menu);
            Ok(true)
        }
        ("compare", [n, seed @ ..]) => {
            let program = options.program(&options.program)?;
            Ok(compare::compare(&program, n.parse()?, number(seed, 1)?, &options.menu(COMPARED)?)?)
        }
        ("both-ways", [n, seed @ ..]) if !options.opened => {
            let plain = options.program(&options.program)?;
            let opened = options.program(options.other.as_ref().map_or(&options.program, |_| &options.other))?;
            Ok(both_ways::compare(&plain, &opened, n.parse()?, number(seed, 1)?, &options.menu(COMPARED)?)?)
        }
        ("linked" | "lists" | "damage" | "planted", _) => linked(mode, &plain, &options),
        _ => Err(USAGE.into()),
    }
}

#[cfg(feature = "linked")]
fn linked(mode: &str, plain: &[String], options: &Options) -> Result<bool, Box<dyn Error>> {
    let calls = options.calls.as_deref().unwrap_or(COMPARED);
    let settings = |seed: &[String]| -> Result<linked::Settings, Box<dyn Error>> {
        let [plant, folder, golden] = [&options.plant, &options.folder, &options.golden].map(Option::as_deref);
        Ok(linked::Settings { seed: number(seed, 1)?, plant, folder, golden })
    };
    match (mode, plain) {
        ("linked", [n, seed @ ..]) => Ok(linked::compare(n.parse()?, calls, &settings(seed)?)?),
        ("lists", [n, seed @ ..]) => Ok(linked::merge(n.parse()?, &settings(seed)?)?),
        ("damage", seed) => Ok(linked::damage(&settings(seed)?)?),
        ("planted", seed) => Ok(linked::planted(number(seed, 1)?, calls)?),
        _ => Err(USAGE.into()),
    }
}

#[cfg(not(feature = "linked"))]
fn linked(mode: &str, _plain: &[String], _options: &Options) -> Result<bool, Box<dyn Error>> {
    Err(format!("{mode}: this oracle was built without the library; 'sh oracle/linked.sh' builds it with it").into())
}

#[derive(Default)]
struct Options {
    calls: Option<String>,
    program: Option<String>,
    other: Option<String>,
    folder: Option<String>,
    plant: Option<String>,
    golden: Option<String>,
    opened: bool,
}

impl Options {
    fn menu(&self, otherwise: &str) -> Result<Menu, Box<dyn Error>> {
        let mut menu = Menu::read(self.calls.as_deref().unwrap_or(otherwise))?;
        menu.opened = self.opened;
        Ok(menu)
    }

    fn program(&self, path: &Option<String>) -> Result<Program, Box<dyn Error>> {
        match (path, &self.folder) {
            (Some(path), Some(folder)) => Ok(Program { path: path.into(), folder: folder.into() }),
            _ => Err(USAGE.into()),
        }
    }
}

fn split_options(words: &[String]) -> Result<(Vec<String>, Options), Box<dyn Error>> {
    let mut plain = vec![];
    let mut options = Options::default();
    let mut words = words.iter();
    while let Some(word) = words.next() {
        let place = match word.as_str() {
            "--calls" => &mut options.calls,
            "--program" => &mut options.program,
            "--other" => &mut options.other,
            "--folder" => &mut options.folder,
            "--plant" => &mut options.plant,
            "--golden" => &mut options.golden,
            "--opened" => {
                options.opened = true;
                continue;
            }
            _ if word.starts_with("--") => return Err(format!("{word}: no option\n{USAGE}").into()),
            _ => {
                plain.push(word.clone());
                continue;
            }
        };
        *place = Some(words.next().ok_or_else(|| format!("{word} wants a word behind it"))?.clone());
    }
    Ok((plain, options))
}

fn number(words: &[String], otherwise: u64) -> Result<u64, Box<dyn Error>> {
    match words {
        [] => Ok(otherwise),
        [word] => Ok(word.parse()?),
        _ => Err(USAGE.into()),
    }
}
