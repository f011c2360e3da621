// How the calls' times grow with the list: row 1 beside a plain scan and beside the same test by hand, and every call plain, opened and in the original Rust, on stores that are nearly
// full. The figures go to a file, of which plot.sh makes tables and drawings.
use crate::agree::{agree, agree_at_limits};
use crate::calls::{ferigulan_fresh, well_formed};
use crate::clock::{rounds, scanned};
use crate::measure::lengths;
use crate::open_store::Open;
use crate::row1::Row1;
use crate::sets::{Best, Set};
use std::fmt::Write;
use std::hint::black_box;

const LENGTHS: [usize; 5] = [1_000, 8_192, 65_536, 262_144, 1_048_576];
const FILE: &str = "target/bench-growth.tsv";

// How often everything is measured, one length after the other: PASSES says otherwise. With none the stores are built and checked alone.
fn passes() -> usize {
    std::env::var("PASSES").ok().and_then(|n| n.parse().ok()).unwrap_or(4)
}

// What is done with a whole list.
const WHOLE: [&str; 6] = ["scan", "row 1", "row 1 by hand", "fresh", "open, no memory", "open"];

fn pass_whole(s: &mut Open, by_hand: &mut Row1, best: &mut [Best; 6]) {
    let (words, memory, mut list) = (s.words.clone(), s.memory.len(), s.words.clone());
    for _ in 0..3 {
        let times = [
            rounds(4, || scanned(black_box(&words))),
            rounds(4, || assert!(black_box(well_formed(black_box(&words))))),
            rounds(4, || assert!(black_box(by_hand.holds(black_box(&words))))),
            rounds(4, || assert_eq!(unsafe { ferigulan_fresh(black_box(list.as_mut_ptr()), list.len()) }, 0)),
            rounds(4, || s.open(0)),
            rounds(4, || s.open(memory)),
        ];
        best.iter_mut().zip(times).for_each(|(best, ns)| best.add(4, ns));
    }
}

// All that is measured at one length.
struct Length {
    whole: [Best; 6],
    there: Set,
    new: Set,
}

impl Length {
    // The stores, on which row 1 by hand and row 1 of the library have to agree, damaged and not.
    fn build(len: usize) -> Length {
        eprintln!("growth: {len} words: the stores ..");
        let length = Length { whole: [Best::NONE; 6], there: Set::there(len), new: Set::new(len) };
        for set in [&length.there, &length.new] {
            let agreed = agree(&set.words, if len < 2_000 { 20_000 } else { 4_000 });
            let (yes, no, used) = (agreed.yes, agreed.no, set.words[0]);
            eprintln!("growth: {len} words, {used} used: row 1 and row 1 by hand both say yes {yes} times and no {no} times");
            set.check();
        }
        length
    }

    fn pass(&mut self, oracle: Option<&str>, by_hand: &mut Row1) {
        pass_whole(&mut self.there.open, by_hand, &mut self.whole);
        self.there.pass_there(oracle);
        self.new.pass_new(oracle);
    }

    fn lines(&self, text: &mut String) {
        for (what, best) in WHOLE.iter().zip(&self.whole) {
            line(text, ["whole list", what, "there", "plain"], &self.there, best, 1, 0.0);
        }
        for set in [&self.there, &self.new] {
            for work in &set.works {
                for (way, best) in [("plain", &work.plain), ("opened", &work.opened), ("rust", &work.rust)] {
                    let what = [work.asked.group, work.asked.of.name, set.name, way];
                    line(text, what, set, best, work.asked.calls.len(), work.appended);
                }
            }
        }
    }
}

// A line of the file: what it is about, the words of the list and those used, nanoseconds, of how many rounds they are the best, how many calls a round has, and how many entries each
// of them appends. Nothing where there was no round.
fn line(text: &mut String, what: [&str; 4], set: &Set, best: &Best, calls: usize, appended: f64) {
    if best.rounds > 0 {
        let (what, words, used) = (what.join("\t"), set.words.len(), set.words[0]);
        writeln!(text, "{what}\t{words}\t{used}\t{:.2}\t{}\t{calls}\t{appended:.3}", best.ns, best.rounds).unwrap();
    }
}

// The processor's name, and how many there are.
fn machine() -> (String, usize) {
    let info = std::fs::read_to_string("/proc/cpuinfo").unwrap_or_default();
    let name = info.lines().find(|l| l.starts_with("model name")).and_then(|l| l.split(':').nth(1)).unwrap_or("unknown");
    (name.trim().to_string(), std::thread::available_parallelism().map_or(1, |n| n.get()))
}

pub fn measure(oracle: Option<&str>) {
    if oracle.is_none() && passes() > 0 && std::env::var("ALONE").is_err() {
        eprintln!("growth: the oracle was not built, so that there is no original to compare with; ALONE=1 measures without it");
        std::process::exit(1);
    }
    let agreed = agree_at_limits();
    eprintln!("growth: entries at the limits: row 1 and row 1 by hand both say yes {} times and no {} times", agreed.yes, agreed.no);
    let mut all: Vec<Length> = lengths(&LENGTHS).into_iter().map(Length::build).collect();
    let mut by_hand = Row1::new();
    for pass in 1..=passes() {
        for length in &mut all {
            eprintln!("growth: pass {pass} of {}, {} words ..", passes(), length.there.words.len());
            length.pass(oracle, &mut by_hand);
        }
    }
    if passes() == 0 {
        return;
    }
    let (processor, cores) = machine();
    let mut text = format!("# processor\t{processor}\n# cores\t{cores}\n# passes\t{}\n", passes());
    text += "group\twhat\tset\tway\twords\tused\tns\trounds\tcalls\tappended\n";
    all.iter().for_each(|length| length.lines(&mut text));
    std::fs::write(FILE, text).unwrap_or_else(|e| panic!("{FILE}: {e}"));
    eprintln!("growth: the figures are in {FILE}");
}
