// The stores that calls are measured on.
use crate::calls::{ferigulan_fresh, make, Call, NEW, REFUSED};
use crate::functions::OPERATIONS;

// A store, and the calls that made its types.
pub struct Store {
    pub words: Vec<u64>,
    pub calls: Vec<Call>,
}

impl Store {
    pub fn fresh(len: usize) -> Store {
        let mut words = vec![0u64; len];
        assert_eq!(unsafe { ferigulan_fresh(words.as_mut_ptr(), len) }, 0);
        Store { words, calls: Vec::new() }
    }

    pub fn used(&self) -> usize {
        self.words[0] as usize
    }

    // The handle that a call answers, if its entry fits.
    pub fn fits(&mut self, call: Call) -> Option<u64> {
        let h = call.run(NEW, &mut self.words);
        if h >= REFUSED {
            assert_eq!(h, REFUSED + 12, "{}", call.line());
            return None;
        }
        self.calls.push(call);
        Some(h)
    }

    pub fn make(&mut self, call: Call) -> u64 {
        self.fits(call).expect("the list is long enough")
    }

    // Takes back what was appended: the next call makes it again.
    pub fn back(&mut self, used: usize) {
        let end = self.used();
        self.words[used..end].fill(0);
        self.words[0] = used as u64;
    }
}

// A nearly full store, built word by word: Ints, pairs of them, names, structs of two fields and pointers, in turn.
pub fn filled(len: usize) -> Vec<u64> {
    let mut w = Store::fresh(len).words;
    let mut used = 94;
    let mut k = 100u64;
    loop {
        let int = used as u64;
        let mut e = vec![261, k, k + 7]; // an Int
        e.extend([7 + 256 * 2 + 65536 * 2, int, 25]); // a pair
        let name = int + 6;
        e.extend([65536 * 8, name_number(k)]); // a name of eight bytes
        e.extend([8 + 256 * 2 + 65536 * 2, name, name, int, 2 * k, name, 25, 2 * k + 1]); // a struct of two fields
        e.extend([10 + 256 * 3, name + 2, 1]); // a pointer to it
        if used + e.len() + 3 > len {
            break;
        }
        w[used..used + e.len()].copy_from_slice(&e);
        used += e.len();
        k += 1;
    }
    w[0] = used as u64;
    w
}

// The bytes of the k-th name of a filled store, as a word; the first is k = 100.
pub fn name_number(k: u64) -> u64 {
    0x6161_0000_0000 + k
}

// Types to call on: a store and its couples of types of one kind.
pub struct Types {
    pub store: Store,
    pub couples: Vec<(u64, u64)>,
}

// Ints, pairs, structs of two fields and pointers to them; half of the room is left for what the calls make.
pub fn flat(len: usize) -> Types {
    if len < 256 {
        return small(len);
    }
    let mut s = Store::fresh(len);
    let name = s.make(make::name(b"S"));
    others(&mut s, name, (len / 512).clamp(1, 8) as u64);
    let mut groups: Vec<[u64; 4]> = Vec::new();
    let mut k = 100u64;
    while groups.len() < 2 || s.used() + 40 < len / 2 {
        let int = s.make(make::int(k, k + 7));
        let pair = s.make(make::tuple(&[int, 25]));
        let st = s.make(make::structure(name, &[name, int, 1, 0, name, pair, 2, k % 2]));
        let ptr = s.make(make::pointer(st, k % 2));
        groups.push([int, pair, st, ptr]);
        k += 9;
    }
    // types of one kind, from places spread over the store
    let mut couples = Vec::new();
    for i in 0..(len / 256).clamp(1, 8) {
        let (x, y) = (groups[i * (groups.len() - 1) / 16], groups[(16 - i) * (groups.len() - 1) / 16]);
        couples.extend((0..4).map(|j| (x[j], y[j])));
    }
    Types { store: s, couples }
}

// A list with room for little more than the fresh words: types that are there from the beginning, and one of each kind that is not.
fn small(len: usize) -> Types {
    let mut s = Store::fresh(len);
    let name = s.make(make::name(b"S"));
    others(&mut s, name, 1);
    s.make(make::int(0, 255));
    s.make(make::tuple(&[7, 8]));
    s.make(make::structure(1, &[]));
    s.make(make::pointer(20, 1));
    Types { store: s, couples: vec![(9, 12), (64, 67), (18, 20), (82, 85)] }
}

// Of the kinds that the operations are not asked about, n of each. The first Float and the first memory are there from the beginning.
fn others(s: &mut Store, name: u64, n: u64) {
    for k in 0..n {
        s.fits(make::fref(if k == 0 { name } else { 1 }));
        s.fits(make::float(k as f64));
        s.fits(if k == 0 { make::memory(u32::MAX as u64, 6) } else { make::memory(k, 25) });
        s.fits(make::array(25, 2 * k + 1, 40, 2 * k + 2, b""));
    }
}

// Deeper ones: pairs of pointers to structs of so many fields, each a pointer to a struct of pairs (depth 7). They come in twos with
// the same names and other Ints, so that two of them meet into the fields.
pub fn deep(len: usize, fields: u64) -> Option<Types> {
    let mut s = Store::fresh(len);
    let name = s.fits(make::name(b"D"))?;
    let mut tops: Vec<[u64; 3]> = Vec::new();
    let mut k = 100u64;
    while tops.len() < 2 || (s.used() as u64 + 40 * fields < len as u64 / 2) {
        let mut big = Vec::new();
        for f in 0..fields {
            let int = s.fits(make::int(k, k + 7))?;
            let pair = s.fits(make::tuple(&[int, 25]))?;
            let st = s.fits(make::structure(name, &[name, pair, 1, 0, name, pair, 2, f % 2]))?;
            let ptr = s.fits(make::pointer(st, 0))?;
            big.extend([name, ptr, f, f % 2]);
            k += 9;
        }
        let st = s.fits(make::structure(name, &big))?;
        let ptr = s.fits(make::pointer(st, 1))?;
        let pair = s.fits(make::tuple(&[ptr, 25]))?;
        tops.push([st, ptr, pair]);
    }
    let (x, y) = (tops[0], tops[tops.len() - 1]);
    Some(Types { store: s, couples: (0..3).map(|j| (x[j], y[j])).collect() })
}

// The deeper types with as many fields, up to 8, as leave room for what the operations make of them.
pub fn widest(len: usize) -> Option<Types> {
    [8, 4, 2, 1].into_iter().filter_map(|fields| deep(len, fields)).find(|t| {
        let mut words = t.store.words.clone();
        operations(&t.couples).iter().all(|call| call.run(NEW, &mut words) < REFUSED)
    })
}

// Every operation on every couple.
pub fn operations(couples: &[(u64, u64)]) -> Vec<Call> {
    OPERATIONS.iter().flat_map(|o| couples.iter().map(move |(a, b)| Call::new(o, &[*a, *b]))).collect()
}
