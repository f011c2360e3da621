// What the calls that tell something of a type cost on an opened store, beside the plain call, row 1 and the original Rust: the same calls, in one
// run. (make_init, make_zero and non_zero, which hand back types, are among them.)
use crate::built::{spread, Built};
use crate::calls::{well_formed, Call, Lent};
use crate::clock::time_both;
use crate::functions::{of, Function};
use crate::measure::{again, check_plain, first, lengths, ns, small_memory, told, FEW, LONG, MANY};
use crate::open_store::Open;
use crate::script::{beside_rust, figure, turns, Script};
use std::hint::black_box;

const LENGTHS: [usize; 2] = [1_000, 65_536];

// ---- what is asked about

// Types of the fresh store that have log sizes: u8, all numbers, u16, null, size 32, i8, i32, size 64.
const SIZED: [u64; 8] = [40, 25, 43, 88, 58, 31, 37, 61];
const NAMED_INTS: [u64; 8] = [15, 25, 31, 34, 37, 40, 43, 46];
const FLOAT_SIZES: [u64; 4] = [49, 52, 58, 61];

// What stores are made of.
struct Parts {
    built: Built,
    // the name of the structs, the names of their fields, and what an array has
    name: u64,
    names: Vec<u64>,
    array: [u64; 3],
}

impl Parts {
    fn new(len: usize) -> Parts {
        let mut built = Built::fresh(len);
        let name = built.name("S");
        let names = (0..8).map(|i| built.name(&format!("field{i}"))).collect();
        let array = built.array_names();
        Parts { built, name, names, array }
    }

    // A struct of so many fields, whose aliases no other struct has.
    fn structure(&mut self, n: u64, g: u64) -> u64 {
        let field = |i: u64| [self.names[i as usize % 8], SIZED[(g + i) as usize % 8], alias(g, i), i % 2];
        let fields: Vec<u64> = (0..n).flat_map(field).collect();
        self.built.structure(self.name, &fields)
    }

    // A pointer to a struct of two fields.
    fn pointer(&mut self, g: u64) -> u64 {
        let s = self.structure(2, g);
        self.built.pointer(s, g / 4 % 2)
    }

    // A forward reference, with a name of its own.
    fn fref(&mut self, g: u64) -> u64 {
        let name = self.built.name(&format!("n{g:07}"));
        self.built.fref(name)
    }
}

// The alias of a field of a struct of ours.
fn alias(g: u64, i: u64) -> u64 {
    128 * g + i + 1
}

// What a store is made of, and which calls are asked about it.
struct Subject {
    what: &'static str,
    calls: &'static [&'static Function],
    // the words that a group takes, on the average
    group: usize,
    // makes a group, and hands back what is asked about and how many fields it has
    make: fn(&mut Parts, u64) -> (u64, u64),
}

static SUBJECTS: [Subject; 10] = [
    Subject {
        what: "Ints, Floats, pointers",
        calls: &[&of::kind, &of::make_init, &of::make_zero, &of::is_high, &of::is_high_or_constant, &of::is_constant],
        group: 5,
        make: |p, g| match g % 4 {
            0 => (p.built.int(100 + 9 * g, 107 + 9 * g), 0),
            1 => (p.built.float(1000.5 + g as f64), 0),
            2 => (p.built.int(100 + g, 100 + g), 0),
            _ => (p.pointer(g), 0),
        },
    },
    Subject {
        what: "Ints with 0 at an end or without, pointers",
        calls: &[&of::non_zero],
        group: 5,
        make: |p, g| match g % 4 {
            0 => (p.built.int(0, 300 + g), 0),
            1 => (p.built.int((300 + g).wrapping_neg(), 0), 0),
            2 => (p.built.int(100 + 9 * g, 107 + 9 * g), 0),
            _ => (p.pointer(g), 0),
        },
    },
    Subject {
        what: "structs, forward references, pointers to both",
        calls: &[&of::is_fref],
        group: 8,
        make: |p, g| match g % 4 {
            0 => (p.structure(2, g), 0),
            1 => (p.fref(g), 0),
            2 => (p.pointer(g), 0),
            _ => {
                let to = p.fref(g);
                (p.built.pointer(to, g / 4 % 2), 0)
            }
        },
    },
    Subject {
        what: "named and constant Ints, Floats, pointers",
        calls: &[&of::log_size],
        group: 5,
        make: |p, g| match g % 4 {
            0 => (NAMED_INTS[g as usize / 4 % 8], 0),
            1 => (p.built.float(if g / 4 % 2 == 0 { 1000.5 } else { 1000.1 } + g as f64), 0),
            2 => (p.built.int(100 + g, 100 + g), 0),
            _ => (p.pointer(g), 0),
        },
    },
    Subject {
        what: "Ints: constant, above 0, across it, high",
        calls: &[&of::int_min, &of::int_max, &of::int_value, &of::int_mask],
        group: 3,
        make: |p, g| match g % 4 {
            0 => (p.built.int(100 + g, 100 + g), 0),
            1 => (p.built.int(100 + 9 * g, 107 + 9 * g), 0),
            2 => (p.built.int((100 + g).wrapping_neg(), g), 0),
            _ => (p.built.int(107 + 9 * g, 100 + 9 * g), 0),
        },
    },
    Subject {
        what: "Floats: constants, three in four, and sizes",
        calls: &[&of::float_sz, &of::float_is_f32, &of::float_value, &of::float_reading],
        group: 3,
        make: |p, g| match g % 4 {
            0 => (p.built.float(1000.5 + g as f64), 0),
            1 => (p.built.float(1000.1 + g as f64), 0),
            2 => (p.built.float(-1000.25 - g as f64), 0),
            _ => (FLOAT_SIZES[g as usize / 4 % 4], 0),
        },
    },
    Subject {
        what: "structs of 2 to 8 fields",
        calls: &[&of::struct_name, &of::struct_fields, &of::find, &of::find_alias, &of::is_ary, &of::offset, &of::offsets],
        group: 17,
        make: |p, g| (p.structure(2 + g % 7, g), 2 + g % 7),
    },
    Subject {
        what: "structs of 8 fields",
        calls: &[&of::struct_fields, &of::find, &of::find_alias, &of::offset, &of::offsets],
        group: 26,
        make: |p, g| (p.structure(8, g), 8),
    },
    Subject {
        what: "arrays",
        calls: &[&of::struct_fields, &of::find, &of::is_ary, &of::offset, &of::ary_base, &of::ary_scale],
        group: 8,
        make: |p, g| (p.built.array(p.array, g), 2),
    },
    Subject {
        what: "structs of 100 fields",
        calls: &[&of::struct_fields, &of::find_alias, &of::offset, &of::offsets],
        group: 302,
        make: |p, g| (p.structure(100, g), 100),
    },
];

// A store half full of a subject's groups, and what is asked about: each with its number of fields.
fn store(len: usize, subject: &Subject) -> (Built, Vec<(u64, u64)>) {
    let mut p = Parts::new(len);
    let groups = ((len - p.built.used()) / 2 / subject.group).max(1) as u64;
    let asked = (0..groups).map(|g| (subject.make)(&mut p, g)).collect();
    (p.built, asked)
}

// The calls about them.
fn calls_of(of: &'static Function, built: &Built, asked: &[(u64, u64)]) -> Vec<Call> {
    asked.iter().map(|(h, n)| about(of, built, *h, *n)).collect()
}

// The call about a type, with so many fields if it is a struct: of names and aliases the last, of indexes the last field's, an output that is just long enough.
pub fn about(of: &'static Function, built: &Built, h: u64, n: u64) -> Call {
    // the last field's name, type, and twice its alias, with its flag
    let last = |word: u64| built.words[(h + 2 + 3 * (n - 1) + word) as usize];
    match of.name {
        "struct_fields" => Call::new(of, &[h, 4 * n]),
        "offsets" => Call::new(of, &[h, n + 1]),
        "offset" => Call::new(of, &[h, n - 1]),
        "find" => Call::new(of, &[h, last(0)]),
        "find_alias" => Call::new(of, &[h, last(2) / 2]),
        _ => Call::new(of, &[h]),
    }
}

// ---- figures

struct Line {
    len: usize,
    call: &'static str,
    calls: usize,
    // row 1 and the plain call; not of a first time
    plain: Option<(f64, f64)>,
    opened: f64,
    rust: Option<f64>,
}

impl Line {
    fn print(&self) {
        let Line { len, call, calls, plain, opened, rust } = self;
        let plain = plain.map_or(String::new(), |(row1, plain)| format!(" {:>11} {:>11} {:>8.2}", ns(row1), ns(plain), plain / row1));
        println!("{len:>9} {call:>20} {calls:>6}{plain} {:>9} {}", ns(*opened), beside_rust(*opened, *rust));
    }
}

// Nanoseconds of row 1 and of a plain call, in turns on the same words.
fn plain(words: &[u64], calls: &[Call], told: &[String]) -> (f64, f64) {
    check_plain(words, calls, told);
    let (mut w, mut lent, mut next) = (words.to_vec(), Lent::new(), 0);
    time_both(
        &mut w,
        |w| assert!(black_box(well_formed(black_box(w)))),
        |w| {
            assert_eq!(black_box(black_box(&calls[next]).plain(w, black_box(&mut lent))), 0);
            next = (next + 1) % calls.len();
        },
    )
}

// The Rust keeps a struct's offsets once they were asked for, and an Int once it was made: of these calls the first time is another matter.
pub fn keeps(call: &str) -> bool {
    ["non_zero", "offset", "offsets", "ary_base"].contains(&call)
}

// The lines of calls that are asked again and again, and that of the first time.
fn one_call(oracle: Option<&str>, len: usize, of: &'static Function, subject: &Subject) -> (Vec<Line>, Option<Line>) {
    let (built, asked) = store(len, subject);
    let all = calls_of(of, &built, &asked);
    let mut s = Open::new(built.words.clone(), small_memory(len));
    let mut script = Script::fresh(len, &built.made);
    // the first time: all of them, before any other call
    let sets = [("many", spread(&all, MANY)), ("few", spread(&all, FEW))];
    let told = sets.each_ref().map(|(set, calls)| {
        let told = told(&mut s, calls);
        script.block(set, calls, &told);
        told
    });
    let base = plain(&s.words.clone(), &sets[1].1, &told[1]);
    let rust = script.times(oracle, turns(len));
    let line = |(set, calls): &(&str, Vec<Call>), plain, opened, which| {
        let rust = figure(&rust, set, which);
        Line { len, call: of.name, calls: calls.len(), plain, opened, rust }
    };
    let [many, few] = &sets;
    let mut lines = vec![line(few, Some(base), again(&mut s, &few.1), 2)];
    if len >= LONG && many.1.len() > few.1.len() {
        lines.push(line(many, Some(base), again(&mut s, &many.1), 2));
    }
    let once = keeps(of.name).then(|| line(many, None, first(&mut s, &built.words, &many.1), 0));
    (lines, once)
}

pub fn tables(oracle: Option<&str>) {
    let (mut again, mut first) = (Vec::new(), Vec::new());
    for subject in &SUBJECTS {
        let (mut lines, mut once) = (Vec::new(), Vec::new());
        for of in subject.calls {
            for len in lengths(&LENGTHS) {
                eprintln!("told: {len} words, {}, {} ..", subject.what, of.name);
                let one = one_call(oracle, len, of, subject);
                lines.extend(one.0);
                once.extend(one.1);
            }
        }
        again.push((subject.what, lines));
        first.push((subject.what, once));
    }
    let columns = format!("{:>9} {:>9} {:>14}", "opened", "the Rust", "opened to Rust");
    println!(
        "\nWhat is told of types: nanoseconds a call, of calls asked again and again; row 1 alone, the plain call and its ratio to row 1"
    );
    println!("{:>9} {:>20} {:>6} {:>11} {:>11} {:>8} {columns}", "words", "call", "calls", "row 1", "plain", "to row 1");
    print(&again);
    println!("\nThe first time: the store opened anew, and the Rust in a new arena, where it keeps no offsets yet and has not made the Ints of non_zero");
    println!("{:>9} {:>20} {:>6} {columns}", "words", "call", "calls");
    print(&first);
}

fn print(table: &[(&str, Vec<Line>)]) {
    for (what, lines) in table.iter().filter(|part| !part.1.is_empty()) {
        println!("{what}:");
        lines.iter().for_each(Line::print);
    }
}
