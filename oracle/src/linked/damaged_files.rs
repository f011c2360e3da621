//! Damaged files (document 02, Slip 3): each byte of several good files set to each value, each file cut at every length, and files by chance, loaded
//! by the library and by the reading into lists of many lengths that hold any words. The replies are compared, and every word of the lists: what
//! they held where the file is refused, else the store and zeros behind it. What is loaded has to be written again as the same bytes.

mod chance;
mod good;
mod large;
mod load;

use super::catalogues::File;
use super::grouped::grouped;
use super::planted::Plant;
use crate::random::Random;
use good::Good;
use load::{Load, Shown};
use std::io;
use std::time::{Duration, Instant};

/// What a run is given.
pub struct Settings<'o> {
    pub seed: u64,
    /// The golden file.
    pub golden: &'o [u8],
    /// A mistake to be found.
    pub plant: Option<Plant>,
}

/// So many files by chance are loaded.
const BY_CHANCE: u64 = 10_000;

/// How often a load was answered so: 0 for accepted, else the refusal.
const ROWS: usize = 16;

/// The rows of the table in the order in which they are tested, 0 for accepted first.
const SHOWN: [usize; 6] = [0, 1, 14, 15, 5, 12];

pub struct Run<'o> {
    random: Random,
    plant: Option<Plant>,
    parts: Vec<(String, [u64; ROWS])>,
    loads: u64,
    start: Instant,
    told: Instant,
    good: Vec<Good>,
    settings: &'o Settings<'o>,
}

/// Nothing, or the script of a difference.
type Compared = Result<(), Shown>;

/// Runs all parts: the script of a difference, if there is one.
pub fn run(settings: &Settings) -> io::Result<Option<Vec<String>>> {
    let good = good::files(settings.golden).map_err(io::Error::other)?;
    let now = Instant::now();
    let (random, plant) = (Random::new(settings.seed), settings.plant);
    let mut run = Run { random, plant, parts: vec![], loads: 0, start: now, told: now, good, settings };
    let difference = run.all_parts().err();
    run.print();
    Ok(difference.map(|shown| shown.script()))
}

impl Run<'_> {
    fn all_parts(&mut self) -> Compared {
        for good in self.good.clone() {
            self.begin(&format!("each byte of {} set to each value", good.name));
            self.each_byte(&good)?;
            self.begin(&format!("{} cut at every length", good.name));
            self.each_cut(&good)?;
        }
        self.begin("files by chance");
        self.by_chance()?;
        self.begin("files of many entries, with and without two equal ones");
        self.large()?;
        self.begin("files of the longest store, and longer ones");
        self.longest()
    }

    fn begin(&mut self, part: &str) {
        self.parts.push((part.to_string(), [0; ROWS]));
    }

    fn each_byte(&mut self, good: &Good) -> Compared {
        let mut file = good.bytes.clone();
        for at in 0..file.len() {
            for byte in 0..=255 {
                file[at] = byte;
                self.load(&file, good.used)?;
            }
            file[at] = good.bytes[at];
        }
        Ok(())
    }

    fn each_cut(&mut self, good: &Good) -> Compared {
        for length in 0..=good.bytes.len() {
            // each of these lists, so that none of the refusals hides another
            for list in [good.used, good.used + 9, 94, 93] {
                self.load_into(&good.bytes[..length], list)?;
            }
        }
        Ok(())
    }

    fn by_chance(&mut self) -> Compared {
        for _ in 0..BY_CHANCE {
            let (file, used) = chance::file(&mut self.random, &self.good);
            self.load(&file, used)?;
            // and one that is never too short
            self.load_into(&file, used + 5000)?;
        }
        Ok(())
    }

    fn large(&mut self) -> Compared {
        for cycles in [100, 5000, large::MOST_CYCLES] {
            let words = large::mixed(cycles);
            self.load_words(&words)?;
            for part in 0..large::PARTS {
                for from in [0, self.random.below(cycles), cycles - 2] {
                    self.load_words(&large::with_copy(&words, part, from))?;
                }
            }
        }
        Ok(())
    }

    /// Words with a trailer that fits, into a list that is just long enough.
    fn load_words(&mut self, words: &[u64]) -> Compared {
        let file = File { label: b"large".to_vec(), words: words.to_vec() };
        self.load_into(&file.bytes(), 94 + words.len())
    }

    fn longest(&mut self) -> Compared {
        let (longest, longer) = (large::of_names(1_048_482), large::of_names(1_048_483));
        for length in [1_048_576, 1_048_575, 1_048_577] {
            self.load_into(&longest, length)?;
            self.load_into(&longer, length)?;
        }
        Ok(())
    }

    /// Into a list about as long as the store wants it, which has so many words.
    fn load(&mut self, file: &[u8], used: usize) -> Compared {
        let length = match self.random.below(16) {
            0 => used - 1,
            1 => 94,
            2 => self.random.of(&[0, 1, 93]),
            3..=6 => used,
            7 | 8 => used + 1,
            _ => used + self.random.below(64),
        };
        self.load_into(file, length)
    }

    fn load_into(&mut self, file: &[u8], length: usize) -> Compared {
        self.loads += 1;
        let load = Load { file, length, seed: self.random.word(), is_by_c: self.loads % 2 == 0, plant: self.plant };
        let row = load.compare()?;
        if let Some((_, rows)) = self.parts.last_mut() {
            rows[row] += 1;
        }
        if self.told.elapsed() > Duration::from_secs(3) {
            self.told = Instant::now();
            let rate = self.loads as f64 / self.start.elapsed().as_secs_f64();
            let part = self.parts.last().map_or("", |(part, _)| part);
            eprintln!("{} files loaded, {rate:.0} a second, no difference; now: {part}", grouped(self.loads));
        }
        Ok(())
    }

    fn print(&self) {
        let line = |name: &str, figures: [String; 7]| {
            let figures: Vec<String> = figures.iter().map(|figure| format!("{figure:>10}")).collect();
            println!("{name:<74} {}", figures.join(" "));
        };
        line("", ["loads", "accepted", "1", "14", "15", "5", "12"].map(str::to_string));
        let figures = |rows: &[u64; ROWS]| {
            let shown = SHOWN.map(|row| grouped(rows[row]));
            let [accepted, one, fourteen, fifteen, five, twelve] = shown;
            [grouped(rows.iter().sum()), accepted, one, fourteen, fifteen, five, twelve]
        };
        self.parts.iter().for_each(|(name, rows)| line(name, figures(rows)));
        let mut all = [0; ROWS];
        self.parts.iter().for_each(|(_, rows)| (0..ROWS).for_each(|row| all[row] += rows[row]));
        line("all", figures(&all));
        println!("{} seconds, seed {}", self.start.elapsed().as_secs(), self.settings.seed);
    }
}
