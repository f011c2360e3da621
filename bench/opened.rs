// What a call costs on an opened store, beside the plain call and the original Rust: the same calls, in one run.
use crate::built::spread;
use crate::calls::{well_formed, Call, Lent};
use crate::clock::{time, time_both};
use crate::functions::{of, Function, OPERATIONS};
use crate::measure::{again, first, lengths, ns, plain, small_memory, told, New, FEW, LONG, MANY};
use crate::open_store::Open;
use crate::operands::{maker, operands, Maker, Operands, MAKERS};
use crate::script::{beside_rust, figure, turns, Script, Times};
use std::hint::black_box;

const LENGTHS: [usize; 5] = [1_000, 2_048, 8_192, 65_536, 1_048_576];

// ---- one line of a table

struct Line {
    len: usize,
    call: &'static str,
    calls: usize,
    // of new calls: how many entries each appends
    appended: Option<f64>,
    plain: f64,
    opened: f64,
    rust: Option<f64>,
}

impl Line {
    fn print(&self) {
        let appended = match self.appended {
            None => String::new(),
            Some(x) if x > 0.0 && x < 0.01 => format!(" {:>9}", "<0.01"),
            Some(x) => format!(" {x:>9.2}"),
        };
        let Line { len, call, calls, plain, opened, rust, .. } = self;
        println!("{len:>9} {call:>16} {calls:>6}{appended} {:>11} {:>9} {}", ns(*plain), ns(*opened), beside_rust(*opened, *rust));
    }
}

#[derive(Default)]
struct Tables {
    again: Vec<Line>,
    new: Vec<Line>,
}

// ---- the operations

// The calls of an operation on couples, or on the types of couples one by one.
fn calls_of(o: &'static Function, couples: &[(u64, u64)]) -> Vec<Call> {
    let firsts = couples.iter().map(|(a, b)| Call::new(o, &[*a, *b]));
    // the types one by one: first those of one end of the list, so that their kinds take turns
    let seconds = couples.iter().filter(|_| o.numbers == 1).map(|(_, b)| Call::new(o, &[*b]));
    spread(&firsts.chain(seconds).collect::<Vec<_>>(), MANY)
}

// The same calls on the other side.
fn swapped(calls: &[Call]) -> Vec<Call> {
    calls.iter().filter(|c| c.of.numbers == 2).map(|c| Call::new(c.of, &[c.numbers[1], c.numbers[0]])).collect()
}

// isa of two such types is always no, and known at once. So every other four are asked about a type above, the meet, which is made before.
fn half_above(s: &mut Open, t: &mut Operands, calls: Vec<Call>) -> Vec<Call> {
    let mut asked = calls;
    let mut lent = Lent::new();
    s.start(&t.built.words);
    for call in asked.iter_mut().enumerate().filter(|(i, _)| i / 4 % 2 == 1).map(|(_, call)| call) {
        let meet = Call { of: &of::meet, ..call.clone() };
        if meet.opened(s, &mut lent) == 0 {
            t.built.made.push((meet, lent.answer));
            call.numbers[1] = lent.answer;
        }
    }
    t.built.words.copy_from_slice(&s.words);
    asked
}

// As many operands as leave room for what the calls append, on both sides.
fn fitting(len: usize, o: &'static Function) -> Option<(Operands, Vec<Call>, Open)> {
    let fits = |tenths: usize| {
        let t = operands(len, (len - 94) * tenths / 20);
        let calls = calls_of(o, &t.couples);
        let (mut s, mut lent) = (Open::new(t.built.words.clone(), small_memory(len)), Lent::new());
        let all = calls.iter().chain(&swapped(&calls)).all(|c| c.opened(&mut s, &mut lent) == 0);
        all.then_some((t, calls, s))
    };
    [12, 9, 7, 5, 4, 3, 2, 1].into_iter().find_map(fits)
}

fn operation(oracle: Option<&str>, len: usize, o: &'static Function, tables: &mut Tables) {
    let Some((mut t, mut calls, mut s)) = fitting(len, o) else {
        eprintln!("opened: {len} words, {}: left out, its answers do not fit", o.name);
        return;
    };
    if o.name == "isa" {
        calls = half_above(&mut s, &mut t, calls);
    }
    let mut script = Script::fresh(len, &t.built.made);
    let new = News::measure(&mut s, &t.built.words, &calls, &mut script);

    // again and again: few of them, and all on both sides
    s.start(&new.after);
    let few = spread(&calls, FEW);
    let mut many = if o.numbers == 2 { spread(&calls, MANY / 2) } else { calls };
    many.extend(swapped(&many));
    let told = [("few", &few), ("many", &many)].map(|(set, calls)| {
        let told = told(&mut s, calls);
        script.block(set, calls, &told);
        told
    });
    let base = plain(&s.words.clone(), &few, &told[0]);
    let rust = script.times(oracle, turns(len));
    for (set, calls) in [("few", &few), ("many", &many)].into_iter().take(if len >= LONG { 2 } else { 1 }) {
        let (opened, rust) = (again(&mut s, calls), figure(&rust, set, 2));
        tables.again.push(Line { len, call: o.name, calls: calls.len(), appended: None, plain: base, opened, rust });
    }
    tables.new.extend(new.lines(len, o.name, &rust));
}

// New calls, plain and opened: on the words before them, and on those after them, opened anew, where every answer is there and nothing is remembered.
struct News {
    calls: usize,
    appended: f64,
    after: Vec<u64>,
    times: [(f64, f64); 2],
}

impl News {
    fn measure(s: &mut Open, before: &[u64], calls: &[Call], script: &mut Script) -> News {
        let New { told, after, appended } = New::run(s, before, calls);
        script.block("new", calls, &told);
        let times = [before, &after].map(|w| (plain(w, calls, &told), first(s, w, calls)));
        News { calls: calls.len(), appended, after, times }
    }

    // With what they append, if anything, and with all there.
    fn lines(&self, len: usize, call: &'static str, rust: &Option<Times>) -> Vec<Line> {
        let line = |(which, (plain, opened)): (usize, (f64, f64))| {
            let appended = Some(if which == 0 { self.appended } else { 0.0 });
            Line { len, call, calls: self.calls, appended, plain, opened, rust: figure(rust, "new", which) }
        };
        let lines = if self.appended > 0.0 { 2 } else { 1 };
        self.times.into_iter().enumerate().take(lines).map(line).collect()
    }
}

// ---- the makers, kind and get_bool

fn one_maker(oracle: Option<&str>, len: usize, asked: Maker, tables: &mut Tables) {
    let Maker { built, found, new: fresh } = asked;
    let call = found[0].name();
    let mut script = Script::fresh(len, &built.made);
    let mut s = Open::new(built.words.clone(), small_memory(len));
    let mut lines = Vec::new();
    for (set, calls) in [("few", spread(&found, FEW)), ("many", spread(&found, MANY))] {
        if set == "many" && (len < LONG || calls.len() <= FEW) {
            continue;
        }
        let told = told(&mut s, &calls);
        script.block(set, &calls, &told);
        let (plain, opened) = (plain(&built.words, &calls, &told), again(&mut s, &calls));
        lines.push((set, Line { len, call, calls: calls.len(), appended: None, plain, opened, rust: None }));
    }
    let calls = spread(&fresh, MANY);
    let new = (!calls.is_empty()).then(|| News::measure(&mut s, &built.words, &calls, &mut script));
    let rust = script.times(oracle, turns(len));
    tables.again.extend(lines.into_iter().map(|(set, line)| Line { rust: figure(&rust, set, 2), ..line }));
    tables.new.extend(new.iter().flat_map(|new| new.lines(len, call, &rust)));
}

fn all_makers(oracle: Option<&str>, len: usize, tables: &mut Tables) {
    (0..MAKERS).for_each(|which| one_maker(oracle, len, maker(len, which), tables));
    // kind, on the types of a store of pointers; the names are the first four entries
    let built = maker(len, 6).built;
    let kinds: Vec<Call> = built.made[4..].iter().map(|m| Call::new(&of::kind, &[m.1])).collect();
    one_maker(oracle, len, Maker { built, found: kinds.clone(), new: kinds }, tables);
    let built = maker(len, 0).built;
    let bools = [0, 1].map(|value| Call::new(&of::get_bool, &[value])).to_vec();
    one_maker(oracle, len, Maker { built, found: bools, new: vec![] }, tables);
}

// ---- opening

// Row 1, opening without a memory and with one, for each used word; and what blanking takes for each word of the memory.
fn opening(len: usize) -> String {
    let words = maker(len, 6).built.words;
    let used = words[0] as f64;
    let k = small_memory(len);
    let mut s = Open::new(words, k);
    let row1 = time(|| assert!(black_box(well_formed(black_box(&s.words)))));
    let (without, with) = time_both(&mut s, |s| s.open(0), |s| s.open(k));
    let each = |x: f64| format!("{} ({:.2})", ns(x), x / used);
    let blank = format!("{} ({:.2})", ns((with - without).max(0.0)), (with - without).max(0.0) / k as f64);
    format!("{len:>9} {used:>9} {k:>9} {:>18} {:>20} {:>20} {blank:>20}", each(row1), each(without), each(with))
}

pub fn tables(oracle: Option<&str>) {
    let mut tables = Tables::default();
    let mut open = Vec::new();
    for len in lengths(&LENGTHS) {
        eprintln!("opened: {len} words, the makers ..");
        all_makers(oracle, len, &mut tables);
        for o in OPERATIONS {
            eprintln!("opened: {len} words, {} ..", o.name);
            operation(oracle, len, o, &mut tables);
        }
        open.push(opening(len));
    }
    let columns = format!("{:>11} {:>9} {:>9} {:>14}", "plain", "opened", "the Rust", "opened to Rust");
    println!("\nOpened stores: nanoseconds a call, of calls whose answers are there, asked again and again");
    println!("{:>9} {:>16} {:>6} {columns}", "words", "call", "calls");
    tables.again.iter().for_each(Line::print);
    println!("\nOpened stores: nanoseconds a call, of calls on operands that no call before had, with the entries that each appends; where it is 0, all answers are there");
    println!("{:>9} {:>16} {:>6} {:>9} {columns}", "words", "call", "calls", "entries");
    tables.new.iter().for_each(Line::print);
    println!("\nOpening a store, nanoseconds and, in brackets, for each used word; of blanking for each word of the memory");
    println!("{:>9} {:>9} {:>9} {:>18} {:>20} {:>20} {:>20}", "words", "used", "memory", "row 1", "open, no memory", "open", "blanking");
    open.iter().for_each(|line| println!("{line}"));
}
