// What a stretch of calls costs, plain and opened. All calls of a stretch run one after the other, with nothing else among them.
use crate::built::entries;
use crate::calls::{Call, Lent};
use crate::clock::{clock, time_short};
use crate::open_store::Open;
use std::hint::black_box;
use std::time::Instant;

// So many calls stay in the processor's caches; from lists of this length on there is a figure of many, too.
pub const FEW: usize = 32;
pub const MANY: usize = 4_096;
pub const LONG: usize = 65_536;

// The lengths that WORDS names, or else these.
pub fn lengths(own: &[usize]) -> Vec<usize> {
    let named = std::env::var("WORDS").unwrap_or_default();
    let named: Vec<usize> = named.split([' ', ',']).filter_map(|n| n.parse().ok()).collect();
    if named.is_empty() {
        own.to_vec()
    } else {
        named
    }
}

// The words of the memory of answers: so many, or what MEMORY says.
pub fn memory(own: usize) -> usize {
    std::env::var("MEMORY").ok().and_then(|n| n.parse().ok()).unwrap_or(own)
}

// In short lists four words for each word, at most two mebibytes.
pub fn small_memory(len: usize) -> usize {
    memory((4 * len).min(262_144))
}

// Nanoseconds, with a place behind the point where there are few.
pub fn ns(x: f64) -> String {
    if x < 100.0 {
        format!("{x:.1}")
    } else {
        format!("{x:.0}")
    }
}

// All calls, opened.
pub fn stretch(s: &mut Open, calls: &[Call], lent: &mut Lent) {
    calls.iter().for_each(|c| assert_eq!(black_box(black_box(c).opened(s, black_box(lent))), 0, "refused: {}", c.line()));
}

// All calls, opened; what they tell, in a script's words.
pub fn told(s: &mut Open, calls: &[Call]) -> Vec<String> {
    let mut lent = Lent::new();
    let tell = |c: &Call| {
        let refused = c.opened(s, &mut lent);
        c.told(refused, &lent)
    };
    calls.iter().map(tell).collect()
}

// Nanoseconds a call, of calls that are asked again and again.
pub fn again(s: &mut Open, calls: &[Call]) -> f64 {
    let (used, mut lent) = (s.used(), Lent::new());
    let ns = time_short(|| stretch(s, calls, &mut lent));
    assert_eq!(s.used(), used, "an answer was not there");
    ns / calls.len() as f64
}

// Nanoseconds a call, of calls on words that were just opened: one round.
pub fn once(s: &mut Open, words: &[u64], calls: &[Call], lent: &mut Lent) -> f64 {
    s.start(words);
    let t = Instant::now();
    stretch(s, calls, lent);
    t.elapsed().as_nanos() as f64 / calls.len() as f64
}

// The best of several rounds, each on the same words.
pub fn first(s: &mut Open, words: &[u64], calls: &[Call]) -> f64 {
    let rounds = (20_000_000 / words.len()).clamp(12, 300);
    let (mut best, begin, mut lent) = (f64::MAX, Instant::now(), Lent::new());
    for round in 0..rounds {
        if round >= 3 && begin.elapsed().as_millis() > 1_000 {
            break;
        }
        best = best.min(once(s, words, calls, &mut lent));
    }
    best - clock() / calls.len() as f64
}

// The plain calls have to tell what the opened ones did.
pub fn check_plain(words: &[u64], calls: &[Call], told: &[String]) {
    let (mut w, mut lent) = (words.to_vec(), Lent::new());
    for (call, told) in calls.iter().zip(told) {
        let refused = call.plain(&mut w, &mut lent);
        assert_eq!(call.told(refused, &lent), *told, "plain and opened differ: {}", call.line());
    }
}

// Nanoseconds a plain call: one round.
pub fn plain_once(w: &mut [u64], calls: &[Call], lent: &mut Lent) -> f64 {
    let t = Instant::now();
    calls.iter().for_each(|c| assert_eq!(black_box(black_box(c).plain(w, black_box(lent))), 0, "refused: {}", c.line()));
    t.elapsed().as_nanos() as f64 / calls.len() as f64
}

// The best of five rounds, each on the same words, of few calls, since each takes its time.
pub fn plain(words: &[u64], calls: &[Call], told: &[String]) -> f64 {
    let calls = &calls[..calls.len().min((3_000_000 / words.len()).clamp(4, FEW))];
    check_plain(words, calls, told);
    let (mut w, mut lent) = (words.to_vec(), Lent::new());
    let mut round = || {
        w.copy_from_slice(words);
        plain_once(&mut w, calls, &mut lent)
    };
    (0..5).map(|_| round()).fold(f64::MAX, f64::min)
}

// Calls on operands that no call before had, on these words: what they tell, the words after them, and how many entries each appends.
pub struct New {
    pub told: Vec<String>,
    pub after: Vec<u64>,
    pub appended: f64,
}

impl New {
    pub fn run(s: &mut Open, before: &[u64], calls: &[Call]) -> New {
        s.start(before);
        let told = told(s, calls);
        let after = s.words.clone();
        let count = entries(&after, before[0] as usize, after[0] as usize);
        New { told, after, appended: count as f64 / calls.len() as f64 }
    }
}
