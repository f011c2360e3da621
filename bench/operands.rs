// The stores of the part `opened`: types to ask the operations about, and a store for each maker.
use crate::built::{Built, BYTE, INT};
use crate::calls::{make, Call};

impl Built {
    fn range(&mut self, k: u64) -> u64 {
        self.int(k, k + 7)
    }

    fn pair(&mut self, int: u64) -> u64 {
        self.tuple(&[int, INT])
    }

    fn two_fields(&mut self, name: u64, int: u64, pair: u64, last: u64) -> u64 {
        self.structure(name, &[name, int, 1, 0, name, pair, 2, last])
    }
}

// Types to ask the operations about: an Int, a pair of an Int, a struct of both or a pointer to it, in turn, each with parts of its own. The first and
// the last are of one kind, and so on inwards: those are the couples.
pub struct Operands {
    pub built: Built,
    pub couples: Vec<(u64, u64)>,
}

// As many operands as take so many words, ten each on the average.
pub fn operands(len: usize, words: usize) -> Operands {
    let mut b = Built::fresh(len);
    let name = b.name("S");
    let half = (words / 20 / 4).max(1) * 4;
    let types: Vec<u64> = (0..2 * half)
        .map(|i| {
            let (k, depth) = (100 + 9 * i as u64, i.min(2 * half - 1 - i) % 4);
            let mut t = b.range(k);
            let int = t;
            if depth > 0 {
                t = b.pair(int);
            }
            if depth > 1 {
                t = b.two_fields(name, int, t, k % 2);
            }
            if depth > 2 {
                t = b.pointer(t, k % 2);
            }
            t
        })
        .collect();
    let couples = (0..half).map(|i| (types[i], types[2 * half - 1 - i])).collect();
    Operands { built: b, couples }
}

// What one maker is asked: calls whose entries are there, and as many whose entries are not.
pub struct Maker {
    pub built: Built,
    pub found: Vec<Call>,
    pub new: Vec<Call>,
}

pub const MAKERS: usize = 9;

// A store of one maker's entries and of what they hold, half full, and what to ask.
pub fn maker(len: usize, which: usize) -> Maker {
    // the words of an entry with all that it holds
    const GROUP: [usize; MAKERS] = [3, 3, 6, 2, 14, 6, 17, 6, 8];
    let mut b = Built::fresh(len);
    let name = b.name("S");
    let array = b.array_names();
    let groups = ((len - b.used()) / 2 / GROUP[which]).max(1) as u64;
    let (mut found, mut new) = (Vec::new(), Vec::new());
    for g in 0..groups {
        let k = 100 + 9 * g;
        let fresh = match which {
            0 => {
                b.range(k);
                make::int(k + 1, k + 7)
            }
            1 => {
                b.float(1000.0 + g as f64);
                make::float(1000.5 + g as f64)
            }
            2 => {
                let int = b.range(k);
                b.pair(int);
                make::tuple(&[int, int])
            }
            3 => {
                b.name(&format!("n{g:07}"));
                make::name(format!("o{g:07}").as_bytes())
            }
            4 => {
                let int = b.range(k);
                let pair = b.pair(int);
                b.two_fields(name, int, pair, g % 2);
                make::structure(name, &[name, int, 3, 0, name, pair, 4, g % 2])
            }
            5 => {
                let other = b.name(&format!("m{g:07}"));
                let named = b.name(&format!("n{g:07}"));
                b.fref(named);
                make::fref(other)
            }
            6 => {
                let int = b.range(k);
                let pair = b.pair(int);
                let st = b.two_fields(name, int, pair, g % 2);
                b.pointer(st, g % 2);
                make::pointer(st, 1 - g % 2)
            }
            7 => {
                let int = b.range(k);
                b.memory(g + 1, int);
                make::memory(g + 2, int)
            }
            _ => {
                b.array(array, g);
                make::array(INT, 2 * g + 2, BYTE, 2 * g + 1, b"u8")
            }
        };
        found.push(b.made[b.made.len() - 1].0.clone());
        new.push(fresh);
    }
    Maker { built: b, found, new }
}
