//! The figures of a run: everything that is to be written down about it.

use super::grouped::grouped;
use super::law::Merges;
use super::trial::By;
use crate::script::Call;
use crate::session::Answer;
use std::collections::BTreeMap;

/// What a call was made on, and how.
pub struct Circumstances {
    pub length: usize,
    pub is_open: bool,
    pub is_damaged: bool,
    /// Whether the store was loaded, and changed by calls alone since then.
    pub is_loaded: bool,
    pub is_filling: bool,
    pub by: By,
    /// Whether the original answered too.
    pub has_original: bool,
}

/// The refusals are 1 to 15; 0 stands for an accepted call.
const ROWS: usize = 16;

/// The last lengths of the classes that lists are counted in.
const CLASSES: &[usize] = &[93, 94, 400, 4_096, 65_535, 262_143, 524_288, 1_048_576, usize::MAX];

/// Calls on plain and on opened lists.
#[derive(Default, Clone, Copy)]
struct Class {
    plain: u64,
    opened: u64,
    damaged: u64,
}

/// The searches for entries that were accepted.
#[derive(Default)]
struct Searches {
    found: u64,
    absent: u64,
    opened: u64,
    damaged: u64,
    /// The entries that were not passed over, in all and by the search that has most.
    counted: u64,
    most: u64,
}

impl Searches {
    fn add(&mut self, found: bool, count: u64, told: &Circumstances) {
        *(if found { &mut self.found } else { &mut self.absent }) += 1;
        self.opened += u64::from(told.is_open);
        self.damaged += u64::from(told.is_damaged);
        self.counted += count;
        self.most = self.most.max(count);
    }

    fn print(&self) {
        if self.found + self.absent == 0 {
            return;
        }
        let [found, absent, opened, damaged] = [self.found, self.absent, self.opened, self.damaged].map(grouped);
        println!("searches for an entry: {found} found one, {absent} none; {opened} on opened stores, {damaged} on damaged words");
        println!("  entries not passed over: {}, at most {} by one search", grouped(self.counted), grouped(self.most));
    }
}

#[derive(Default)]
pub struct Tally {
    /// How many calls of a name, by the reply: 0 for accepted ones, else the refusal.
    counts: BTreeMap<&'static str, [u64; ROWS]>,
    classes: [Class; CLASSES.len()],
    pub calls: u64,
    /// Calls that filled long lists: not among the others.
    pub filling: u64,
    pub opens: u64,
    pub checks: u64,
    pub lists: u64,
    pub damaged: u64,
    /// Calls on words that row 1 refuses.
    row_one: u64,
    by_c: u64,
    with_original: u64,
    /// Calls on stores that were loaded.
    loaded: u64,
    loaded_with_original: u64,
    /// Of the damaged ones, those that are well formed and on an opened store.
    damaged_opened: u64,
    /// The merges of lists on stores that calls alone have made.
    pub merges: Merges,
    searches: Searches,
}

impl Tally {
    pub fn add(&mut self, call: &Call, answer: &Answer, told: &Circumstances) {
        if told.is_filling {
            self.filling += 1;
            return;
        }
        if call.name == "check" {
            self.checks += 1;
            return;
        }
        let row = match answer {
            Answer::Refused(row) => *row,
            _ => 0,
        };
        if let Answer::Searched(found, count) = answer {
            self.searches.add(found.is_some(), *count, told);
        }
        self.calls += 1;
        let name = if call.name == "reload" { "load" } else { call.name };
        self.counts.entry(name).or_default()[row as usize] += 1;
        let class = CLASSES.iter().position(|last| told.length <= *last).unwrap_or(0);
        let class = &mut self.classes[class];
        *(if told.is_open { &mut class.opened } else { &mut class.plain }) += 1;
        class.damaged += u64::from(told.is_damaged);
        self.damaged += u64::from(told.is_damaged);
        self.damaged_opened += u64::from(told.is_damaged && told.is_open);
        self.row_one += u64::from(row == 1);
        self.by_c += u64::from(told.by == By::C);
        self.with_original += u64::from(told.has_original);
        self.loaded += u64::from(told.is_loaded);
        self.loaded_with_original += u64::from(told.is_loaded && told.has_original);
    }

    /// How many of a hundred calls.
    pub fn share(&self, n: u64) -> f64 {
        100.0 * n as f64 / self.calls.max(1) as f64
    }

    pub fn print(&self) {
        self.print_calls();
        self.print_lengths();
        let line = |what: &str, n: u64| println!("{what:<74} {:>12} ({:.1} %)", grouped(n), self.share(n));
        line("on damaged words: poked, or never a store", self.damaged);
        line("  of these well formed, and on an opened store", self.damaged_opened);
        line("on words that row 1 refuses", self.row_one);
        line("answered by the original too (the reading answers all)", self.with_original);
        line("on stores that were loaded, and changed by calls alone since then", self.loaded);
        line("  of these answered by the original too", self.loaded_with_original);
        line("by the functions as C declares them (the others by the crate)", self.by_c);
        println!(
            "besides: {} lists, {} openings, {} tests of row 1 alone, {} calls that filled long lists",
            grouped(self.lists),
            grouped(self.opens),
            grouped(self.checks),
            grouped(self.filling)
        );
        self.merges.print();
        self.searches.print();
    }

    fn print_calls(&self) {
        println!("{:<20} {:>12} {:>12}  refused", "call", "calls", "accepted");
        for (name, rows) in &self.counts {
            let refused: Vec<String> = (1..ROWS).filter(|row| rows[*row] > 0).map(|row| format!("{row}: {}", grouped(rows[row]))).collect();
            println!("{name:<20} {:>12} {:>12}  {}", grouped(rows.iter().sum()), grouped(rows[0]), refused.join("  "));
        }
        let of_row = |row: usize| self.counts.values().map(|rows| rows[row]).sum::<u64>();
        let refused: Vec<String> = (1..ROWS).map(|row| format!("{row}: {}", grouped(of_row(row)))).collect();
        println!("{:<20} {:>12} {:>12}  {}", "all", grouped(self.calls), grouped(of_row(0)), refused.join("  "));
    }

    fn print_lengths(&self) {
        println!("{:<22} {:>12} {:>12} {:>12} {:>12}", "words of the list", "calls", "plain", "opened", "damaged");
        let mut first = 0;
        for (last, class) in CLASSES.iter().zip(&self.classes) {
            let name = match *last {
                usize::MAX => format!("from {}", grouped(first as u64)),
                last if last == first => grouped(last as u64),
                last => format!("{} to {}", grouped(first as u64), grouped(last as u64)),
            };
            let figures = [class.plain + class.opened, class.plain, class.opened, class.damaged].map(grouped);
            println!("{name:<22} {:>12} {:>12} {:>12} {:>12}", figures[0], figures[1], figures[2], figures[3]);
            first = last.saturating_add(1);
        }
    }
}
