// What a call costs, as a ratio to a plain scan of the same words, and beside the original Rust.
use crate::calls::{make, well_formed, Call, NEW, REFUSED};
use crate::clock::{beside, scan, time};
use crate::functions::OPERATIONS;
use crate::stores::{filled, flat, operations};
use std::hint::black_box;
use std::process::Command;

// Row 1, an Int found last, a new Int and a new name on stores that are nearly full.
pub fn makers() {
    println!("{:>9} {:>12} {:>22} {:>22} {:>22} {:>22}", "words", "scan ns", "row 1", "Int found last", "new Int", "new name");
    for len in [110usize, 1_000, 8_192, 65_536, 1_048_576] {
        eprintln!("makers: {len} words ..");
        let mut w = filled(len);
        let at = w[0];
        let plain = scan(&w);
        let row1 = time(|| assert!(black_box(well_formed(black_box(&w)))));
        let int = make::int(1, 99);
        assert_eq!(int.run(NEW, &mut w), at);
        let found = time(|| assert_eq!(black_box(int.run(NEW, &mut w)), at));
        let back = |w: &mut Vec<u64>| {
            w[at as usize..at as usize + 3].fill(0);
            w[0] = at;
        };
        let mut again = |call: Call| {
            time(|| {
                back(&mut w);
                assert_eq!(black_box(call.run(NEW, &mut w)), at)
            })
        };
        let (new, name) = (again(int), again(make::name(b"a name no")));
        let show = |x: f64| beside(x, plain);
        println!("{len:>9} {plain:>12.0} {:>22} {:>22} {:>22} {:>22}", show(row1), show(found), show(new), show(name));
    }
}

// The Rust's nanoseconds a call, from the oracle's own clock around its functions: what it prints of a script. Only where it answers
// every call as we do, since a call that it takes otherwise, or not at all, is other work.
fn rust(oracle: &str, len: usize, calls: &[Call], words: &mut [u64]) -> Option<String> {
    const SCRIPT: &str = "target/bench-types.txt";
    let script: String = calls.iter().map(|c| c.line() + "\n").collect();
    std::fs::write(SCRIPT, format!("fresh {len}\n{script}")).ok()?;
    let theirs = Command::new(oracle).stdin(std::fs::File::open(SCRIPT).ok()?).output().ok()?;
    let theirs = String::from_utf8(theirs.stdout).ok()?;
    let mut lines = theirs.lines().skip(1);
    for c in calls {
        let (x, y) = (c.run(NEW, words).to_string(), lines.next().unwrap_or("nothing"));
        if x != y {
            eprintln!("operations: the Rust is left out: to '{}' it answers {y}, and we {x}", c.line());
            return None;
        }
    }
    let out = Command::new(oracle).args(["time", SCRIPT, "20"]).output().ok()?;
    String::from_utf8(out.stdout).ok()
}

fn figure(text: &str, name: &str) -> Option<f64> {
    let line = text.lines().find(|l| l.split_whitespace().next() == Some(name))?;
    line.split_whitespace().nth(2)?.parse().ok()
}

// The operations on Ints, pairs, structs and pointers, whose answers are there already.
pub fn lattice(oracle: Option<&str>) {
    println!("\n{:>9} {:>12} {:>10} {:>22} {:>20}", "words", "scan ns", "call", "time", "the Rust");
    for len in [2_048usize, 8_192, 65_536] {
        eprintln!("operations: {len} words ..");
        let t = flat(len);
        let mut w = t.store.words;
        let calls = operations(&t.couples);
        calls.iter().for_each(|c| assert!(c.run(NEW, &mut w) < REFUSED));
        let made: Vec<Call> = t.store.calls.iter().chain(&calls).cloned().collect();
        let theirs = oracle.and_then(|o| rust(o, len, &made, &mut w));
        let plain = scan(&w);
        for o in OPERATIONS {
            let calls: Vec<Call> = t.couples.iter().map(|(a, b)| Call::new(o, &[*a, *b])).collect();
            let ours = time(|| calls.iter().for_each(|c| assert!(black_box(c.run(NEW, &mut w)) < REFUSED))) / calls.len() as f64;
            let other = theirs.as_ref().and_then(|t| figure(t, o.name)).map(|y| format!("{y:.0} ns ({:.0}x)", ours / y));
            println!("{len:>9} {plain:>12.0} {:>10} {:>22} {:>20}", o.name, beside(ours, plain), other.unwrap_or("not run".to_string()));
        }
    }
}
