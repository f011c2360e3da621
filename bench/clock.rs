// How times are taken: the best of several rounds, since what else runs on the machine only makes a round longer.
use std::hint::black_box;
use std::time::{Duration, Instant};

// How many turns take so many milliseconds.
fn turns_for(millis: u128, f: &mut impl FnMut()) -> u32 {
    let mut turns = 1;
    loop {
        let t = Instant::now();
        (0..turns).for_each(|_| f());
        if t.elapsed().as_millis() >= millis {
            return turns;
        }
        turns *= 2;
    }
}

fn round(turns: u32, f: &mut impl FnMut()) -> f64 {
    let t = Instant::now();
    (0..turns).for_each(|_| f());
    t.elapsed().as_nanos() as f64 / turns as f64
}

// Nanoseconds a turn.
pub fn time(mut f: impl FnMut()) -> f64 {
    let turns = turns_for(20, &mut f);
    (0..7).map(|_| round(turns, &mut f)).fold(f64::MAX, f64::min)
}

// Nanoseconds a turn, the best of so many short rounds.
#[cfg_attr(not(opened), allow(dead_code))]
pub fn rounds(rounds: usize, mut f: impl FnMut()) -> f64 {
    let turns = turns_for(1, &mut f);
    (0..rounds).map(|_| round(turns, &mut f)).fold(f64::MAX, f64::min)
}

// Nanoseconds a turn, by many short rounds with a pause now and then: on a machine that others use, some of them are undisturbed.
#[cfg_attr(not(opened), allow(dead_code))]
pub fn time_short(mut f: impl FnMut()) -> f64 {
    let mut best = f64::MAX;
    for _ in 0..3 {
        best = best.min(rounds(20, &mut f));
        std::thread::sleep(Duration::from_millis(20));
    }
    best
}

// Nanoseconds a turn of two on the same thing, in turns, so that noise hits both. Where they differ by more than a twentieth, either
// way, more rounds follow after a moment, up to eight times as many: a difference that is noise goes away.
pub fn time_both<T>(on: &mut T, mut f: impl FnMut(&mut T), mut g: impl FnMut(&mut T)) -> (f64, f64) {
    let turns = turns_for(1, &mut || f(on));
    g(on);
    let mut best = (f64::MAX, f64::MAX);
    for _ in 0..8 {
        for _ in 0..12 {
            best.0 = best.0.min(round(turns, &mut || f(on)));
            best.1 = best.1.min(round(turns, &mut || g(on)));
        }
        if (best.1 / best.0 - 1.0).abs() < 0.05 {
            break;
        }
        std::thread::sleep(Duration::from_millis(20));
    }
    best
}

// Nanoseconds of one turn that cannot be made twice in a row: what `before` does is not timed.
pub fn time_one<T>(rounds: usize, mut before: impl FnMut() -> T, mut f: impl FnMut(&mut T)) -> f64 {
    let mut best = f64::MAX;
    for _ in 0..rounds {
        let mut x = before();
        let t = Instant::now();
        f(&mut x);
        best = best.min(t.elapsed().as_nanos() as f64);
    }
    best
}

// The least that a stretch of no work takes: taken off where a stretch is short. On a busy machine the mean is more, and would leave nothing of the shortest ones.
#[cfg_attr(not(opened), allow(dead_code))]
pub fn clock() -> f64 {
    let empty = || Instant::now().elapsed().as_nanos() as f64;
    (0..10_000).map(|_| empty()).fold(f64::MAX, f64::min)
}

// A plain scan of words: their exclusive or, which the compiler vectorizes. Sixteen words a turn and never inlined, since a short loop takes up to twice as long
// where it happens to stand across two lines of the processor's cache.
#[inline(never)]
pub fn scanned(words: &[u64]) {
    let (mut sixteens, mut lanes) = (words.chunks_exact(16), [0; 16]);
    for sixteen in sixteens.by_ref() {
        lanes.iter_mut().zip(sixteen).for_each(|(lane, word)| *lane ^= word);
    }
    black_box(lanes.iter().chain(sixteens.remainder()).fold(0u64, |all, word| all ^ word));
}

pub fn scan(words: &[u64]) -> f64 {
    time(|| scanned(black_box(words)))
}

// A time with its ratio to another.
pub fn beside(ns: f64, other: f64) -> String {
    let places = if ns < other / 10.0 { 4 } else { 1 };
    format!("{ns:.0} ns ({:.places$}x)", ns / other)
}

// A time in the unit that suits it.
pub fn human(ns: f64) -> String {
    match ns {
        x if x < 1e4 => format!("{x:.0} ns"),
        x if x < 1e6 => format!("{:.1} us", x / 1e3),
        x if x < 1e9 => format!("{:.1} ms", x / 1e6),
        x => format!("{:.1} s", x / 1e9),
    }
}
