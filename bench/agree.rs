// Row 1 by hand and row 1 of the library: whether they say the same, of a store and of the same store with damaged words.
use crate::calls::well_formed;
use crate::random::Random;
use crate::row1::Row1;
use crate::stores::Store;

// Words that may be put in the place of one: near it, of another place, a handle, a head, a limit.
const OTHERS: u64 = 16;
fn other(words: &[u64], at: usize, which: u64, random: &mut Random) -> u64 {
    let (word, used) = (words[at], words[0]);
    match which {
        0 => word.wrapping_add(1),
        1 => word.wrapping_sub(1),
        2 => word ^ 1 << random.below(64),
        3 => word ^ 1 << random.below(20),
        4 => words[random.below(used) as usize],
        5 => random.below(used),
        6 => at as u64,
        7 => 0,
        8 => 1 + random.below(4) * 256,
        9 => random.below(13) + 256 * random.below(34) + 65_536 * random.below(5),
        10 => word + 256,
        11 => word.wrapping_sub(256),
        12 => word + 65_536,
        13 => {
            [254, 255, 256, 31, 32, 33, 64, 128, 160, 4_294_967_295, 4_294_967_296, 8_589_934_591, 8_589_934_592][random.below(13) as usize]
        }
        14 => random.next(),
        _ => words.len() as u64 - random.below(3),
    }
}

// Entries at the limits, to stand behind the fresh words: which single words in a store do not reach.
fn edges() -> Vec<Vec<u64>> {
    let head = |kind: u64, depth: u64, n: u64| kind + 256 * depth + 65_536 * n;
    let mut all = Vec::new();
    for size in 0..=200 {
        all.extend([0, 1].map(|bits| vec![head(6, 1, 0), size, bits]));
    }
    for n in 250..=260 {
        let bytes = [vec![u64::MAX; n as usize / 8], vec![1; usize::from(n % 8 > 0)]].concat();
        all.push([vec![head(0, 0, n)], bytes].concat());
        all.push([vec![head(7, 2, n)], vec![25; n as usize]].concat());
        all.push([vec![head(8, 2, n), 1], [1, 25, 0].repeat(n as usize)].concat());
    }
    // tuples, pointers and memories, each around the last entry, from depth 2 on
    for kind in [7, 10, 11] {
        let mut tower = vec![head(5, 1, 0), 3, 4];
        for depth in 2..=34 {
            let last = 94 + tower.len() as u64 - if depth == 2 { 3 } else { 2 };
            tower.extend([head(7, depth, 1), last]);
            let around = 94 + tower.len() as u64 - 2;
            let top: &[u64] = match kind {
                7 => &[],
                10 => &[head(8, depth + 1, 1), 1, 1, around, 0, head(10, depth + 2, 0), around + 2, 0],
                _ => &[head(11, depth + 1, 0), 1, around],
            };
            all.push([&tower, top].concat());
        }
    }
    all
}

// How often both said yes and no.
#[derive(Default)]
pub struct Agreed {
    pub yes: usize,
    pub no: usize,
}

impl Agreed {
    fn compare(&mut self, by_hand: &mut Row1, words: &[u64], what: impl Fn() -> String) {
        let (ours, theirs) = (well_formed(words), by_hand.holds(words));
        assert_eq!(ours, theirs, "row 1 says {ours}, and by hand it is {theirs}: {}", what());
        *(if ours { &mut self.yes } else { &mut self.no }) += 1;
    }
}

// What stands at the limits, behind the fresh words.
pub fn agree_at_limits() -> Agreed {
    let (mut by_hand, mut agreed) = (Row1::new(), Agreed::default());
    for entries in edges() {
        let mut words = [Store::fresh(94).words, entries].concat();
        words[0] = words.len() as u64;
        agreed.compare(&mut by_hand, &words, || format!("the fresh words, and then {:?}", &words[94..]));
    }
    agreed
}

// The store itself, lists that are too short and too long, and then so many words, each with something else in its place: one after the other where there are enough pokes for all.
pub fn agree(words: &[u64], pokes: usize) -> Agreed {
    let (mut by_hand, mut agreed, mut random) = (Row1::new(), Agreed::default(), Random(words.len() as u64));
    agreed.compare(&mut by_hand, words, || "the store itself".to_string());
    assert_eq!(agreed.yes, 1, "the store itself is not well formed");
    let longest = [words, &vec![0; 1_048_577 - words.len()]].concat();
    for len in [0, 1, 93, 94, words[0] as usize - 1, words[0] as usize, 1_048_576, 1_048_577] {
        agreed.compare(&mut by_hand, &longest[..len], || format!("the first {len} words, and zeros behind them"));
    }
    let mut w = words.to_vec();
    let each = pokes / words.len() >= OTHERS as usize;
    for i in 0..pokes as u64 {
        let at = if each { i % words.len() as u64 } else { random.below(words.len() as u64) } as usize;
        let which = if each { i / words.len() as u64 % OTHERS } else { random.below(OTHERS) };
        let new = other(words, at, which, &mut random);
        w[at] = new;
        agreed.compare(&mut by_hand, &w, || format!("word {at} of {} is {new} in the place of {}", words.len(), words[at]));
        w[at] = words[at];
    }
    agreed
}
