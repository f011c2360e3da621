//! Makes a list with a difference as short as it finds: calls are left out, then arguments made simpler, as long as a difference stays.

use crate::steps::{Arg, Asked, Step};
use crate::store::SHORTEST;
use std::collections::HashSet;
use std::io;
use std::ops::Range;
use std::time::{Duration, Instant};

/// Sides that answer a list of steps, each by itself.
pub trait Sides {
    /// Runs the steps up to the first difference: none if there is none.
    fn difference(&mut self, steps: &[Step]) -> io::Result<Option<Shown>>;

    /// Other lists that may show the difference of this one in fewer lines, the shortest first.
    fn others(&self, _steps: &[Step], _shown: &Shown) -> Vec<Vec<Step>> {
        vec![]
    }
}

/// A list that ends with a difference.
pub struct Shown {
    /// The step that shows it.
    pub at: usize,
    /// The arguments of each step up to it, as numbers.
    pub numbers: Vec<Vec<u64>>,
    /// The calls that these steps are, and the first that is of the last step.
    pub asked: Vec<Asked>,
    pub first_of_last: usize,
    /// The same list as a script, each line with what was answered.
    pub lines: Vec<String>,
}

/// A list is run at most this often, and for this long.
const MOST_TRIES: usize = 20_000;
const LONGEST_TIME: Duration = Duration::from_secs(120);

struct Shrinker<'s, S> {
    sides: &'s mut S,
    tries: usize,
    start: Instant,
    /// The shortest list so far, which ends with the difference.
    steps: Vec<Step>,
    shown: Shown,
}

/// The shortest list found; nothing if the list shows no difference.
pub fn shrink<S: Sides>(sides: &mut S, steps: &[Step]) -> io::Result<Option<Shown>> {
    let Some(shown) = sides.difference(steps)? else {
        return Ok(None);
    };
    let steps = steps[..=shown.at].to_vec();
    let mut shrinker = Shrinker { sides, tries: 0, start: Instant::now(), steps, shown };
    shrinker.take_another()?;
    shrinker.leave_out_and_simplify()?;
    if shrinker.takes_fresh_types()? {
        shrinker.leave_out_and_simplify()?;
    }
    Ok(Some(shrinker.shown))
}

/// The types of the fresh store.
fn fresh_types() -> impl Iterator<Item = u64> + Clone {
    [5, 6, 7, 8, 9, 12, 15, 18, 20].into_iter().chain((22..=91).step_by(3))
}

/// A list that has room for what a call makes of them.
const ROOMY: u64 = 400;

impl<S: Sides> Shrinker<'_, S> {
    fn size(&self) -> usize {
        self.shown.lines.iter().map(String::len).sum()
    }

    fn is_over(&self) -> bool {
        self.tries >= MOST_TRIES || self.start.elapsed() > LONGEST_TIME
    }

    /// Takes a list over if it shows a difference, up to that.
    fn accepts(&mut self, mut steps: Vec<Step>) -> io::Result<bool> {
        self.tries += 1;
        let Some(shown) = self.sides.difference(&steps)? else {
            return Ok(false);
        };
        steps.truncate(shown.at + 1);
        (self.steps, self.shown) = (steps, shown);
        Ok(true)
    }

    fn leave_out_and_simplify(&mut self) -> io::Result<()> {
        loop {
            let before = self.size();
            self.leave_out_calls()?;
            self.simplify_arguments()?;
            if self.size() == before || self.is_over() {
                return Ok(());
            }
        }
    }

    /// Looks for a difference in the last call alone, on types of the fresh store, where more lines than that are left.
    fn takes_fresh_types(&mut self) -> io::Result<bool> {
        let Some(last) = self.steps.last().filter(|_| self.steps.len() > 2).cloned() else {
            return Ok(false);
        };
        let seconds: Vec<Option<u64>> = match last.args.len() {
            1 => vec![None],
            2 => fresh_types().map(Some).collect(),
            _ => return Ok(false),
        };
        let fresh = Step { id: last.id + 1, name: "fresh", args: vec![Arg::Number(ROOMY)], text: vec![] };
        for (first, second) in fresh_types().flat_map(|first| seconds.iter().map(move |second| (first, *second))) {
            let args = [Some(first), second].into_iter().flatten().map(Arg::Number).collect();
            let call = Step { args, ..last.clone() };
            if self.is_over() || self.accepts(vec![fresh.clone(), call])? {
                return Ok(!self.is_over());
            }
        }
        Ok(false)
    }

    fn take_another(&mut self) -> io::Result<()> {
        for steps in self.sides.others(&self.steps, &self.shown) {
            if self.accepts(steps)? {
                break;
            }
        }
        Ok(())
    }

    /// Leaves out many calls at once, then fewer, then single ones, from the end to the start.
    fn leave_out_calls(&mut self) -> io::Result<()> {
        let mut many = self.steps.len().div_ceil(2);
        while many > 0 {
            let mut end = self.steps.len();
            while end > 0 && !self.is_over() {
                let start = end.saturating_sub(many);
                let fewer = without(&self.steps, start, end);
                self.accepts(fewer)?;
                end = start.min(self.steps.len());
            }
            many /= 2;
        }
        Ok(())
    }

    fn simplify_arguments(&mut self) -> io::Result<()> {
        let mut i = 0;
        while i < self.steps.len() && !self.is_over() {
            self.shorten_text(i)?;
            self.shorten(i)?;
            let mut k = 0;
            while i < self.steps.len() && k < self.steps[i].args.len() {
                self.simplify(i, k)?;
                k += 1;
            }
            i += 1;
        }
        Ok(())
    }

    fn shorten_text(&mut self, i: usize) -> io::Result<()> {
        let half = self.steps[i].text.len() / 2;
        for length in [0, 1, half] {
            if i < self.steps.len() && length < self.steps[i].text.len() && !self.is_over() {
                let mut steps = self.steps.clone();
                steps[i].text.truncate(length);
                self.accepts(steps)?;
            }
        }
        Ok(())
    }

    /// Takes fields, elements or handles out of a struct, a tuple or a list, many at once, then fewer: of all that have as many, which may have
    /// to stay alike, and else of this one.
    fn shorten(&mut self, i: usize) -> io::Result<()> {
        let (first, width) = match self.steps.get(i).map(|step| step.name) {
            Some("struct") => (1, 4),
            Some("tuple" | "meet_list") => (0, 1),
            Some("find_entry") => (1, 1),
            _ => return Ok(()),
        };
        let mut many = self.steps[i].args.len() / width;
        while many > 0 {
            let mut k = first;
            while i < self.steps.len() && k + width <= self.steps[i].args.len() && !self.is_over() {
                let length = self.steps[i].args.len();
                let end = (k + many * width).min(first + (length - first) / width * width);
                if !self.take_out(i, k..end, true)? && !self.take_out(i, k..end, false)? {
                    k += many * width;
                }
            }
            many /= 2;
        }
        Ok(())
    }

    /// Takes these arguments out of a step, or of all steps of its name with as many arguments.
    fn take_out(&mut self, i: usize, range: Range<usize>, of_all: bool) -> io::Result<bool> {
        let mut steps = self.steps.clone();
        let (name, length) = (steps[i].name, steps[i].args.len());
        for (j, step) in steps.iter_mut().enumerate() {
            if j == i || (of_all && step.name == name && step.args.len() == length) {
                step.args.drain(range.clone());
            }
        }
        self.accepts(steps)
    }

    /// Puts a type of the fresh store, or a small number, in the place of what another call made; if nothing else, the number that it has
    /// now, where that is the same in every store.
    fn simplify(&mut self, i: usize, k: usize) -> io::Result<()> {
        let now = self.shown.numbers[i][k];
        let itself = if now < SHORTEST as u64 { now } else { 0 };
        for number in [0, 1, 5, 6, 9, 12, 18, 20, 25, 55, 61, 88, 94, 130, 200, 400, 2000, 10_000, 65_536, now / 2, itself] {
            if i >= self.steps.len() || self.is_over() || !is_simpler(number, self.steps[i].args[k]) {
                continue;
            }
            let mut steps = self.steps.clone();
            steps[i].args[k] = Arg::Number(number);
            self.accepts(steps)?;
        }
        Ok(())
    }
}

fn is_simpler(number: u64, arg: Arg) -> bool {
    match arg {
        Arg::Number(n) => number < n,
        _ => true,
    }
}

/// The steps without those from start to end, and without those that take what one of them made.
fn without(steps: &[Step], start: usize, end: usize) -> Vec<Step> {
    let mut gone: HashSet<usize> = HashSet::new();
    let mut left = vec![];
    for (i, step) in steps.iter().enumerate() {
        let takes_gone = step.args.iter().filter_map(Arg::refers_to).any(|id| gone.contains(&id));
        if (start..end).contains(&i) || takes_gone {
            gone.insert(step.id);
        } else {
            left.push(step.clone());
        }
    }
    left
}
