//! `oracle measure`: the Rust's functions by the stretch. A script names blocks of calls by a line `; measure NAME`, up to a line `; end`. The
//! calls of a block are made ready first (none may take what another one of its block makes), and then run one after the other as one
//! stretch, with nothing of ours among them: once, which is when their answers are made; once more; and then again and again. What the
//! calls answer is asked afterwards as ever, and printed.

use crate::ask::{ready, Ready};
use crate::replay::spell;
use crate::rows::refusal;
use crate::script::{read_line, Call, Line};
use crate::session::Session;
use original::datastructures::arena::DroplessArena;
use original::sea_of_nodes::types::Types;
use std::fs;
use std::hint::black_box;
use std::io::{self, BufWriter, Write};
use std::time::Instant;

/// Nanoseconds a call of a block: the first time, the second, and the best of many rounds.
#[derive(Clone)]
struct Figures {
    name: String,
    times: [f64; 3],
}

/// How often calls are run again and again, in the first two runs of the script, and for how long each time.
const ROUNDS: usize = 30;
const NANOS: f64 = 1e6;

/// Prints what the script answers, and then a line for each block: `; NAME FIRST SECOND AGAIN`, the best of so many runs of the script, each
/// with a new arena.
pub fn measure(file: &str, turns: usize) -> io::Result<()> {
    let script = fs::read_to_string(file)?;
    let mut out = BufWriter::new(io::stdout().lock());
    let clock = least_of_the_clock();
    let (answers, mut best) = run(&script, clock, ROUNDS);
    for turn in 1..turns {
        let rounds = if turn == 1 { ROUNDS } else { 0 };
        for (old, new) in best.iter_mut().zip(run(&script, clock, rounds).1) {
            old.times = [0, 1, 2].map(|i| old.times[i].min(new.times[i]));
        }
    }
    for answer in answers {
        writeln!(out, "{answer}")?;
    }
    for Figures { name, times: [first, second, again] } in best {
        writeln!(out, "; {name} {first:.1} {second:.1} {again:.1}")?;
    }
    out.flush()
}

/// The least that a stretch of no work takes, in nanoseconds: taken off each stretch. On a busy machine the mean is more, and would leave nothing of the shortest stretches.
fn least_of_the_clock() -> f64 {
    let empty = || Instant::now().elapsed().as_nanos() as f64;
    (0..10_000).map(|_| empty()).fold(f64::MAX, f64::min)
}

fn run(script: &str, clock: f64, rounds: usize) -> (Vec<String>, Vec<Figures>) {
    let arena = DroplessArena::new();
    let types = Types::new(&arena);
    let mut session = Session::with_long_lists(&types);
    let (mut answers, mut figures) = (vec![], vec![]);
    let mut lines = script.lines();
    while let Some(line) = lines.next() {
        let block: Vec<&str> = match line.strip_prefix("; measure ") {
            Some(name) => {
                let block: Vec<&str> = lines.by_ref().take_while(|line| *line != "; end").collect();
                figures.push(Figures { name: name.to_string(), times: stretch(&session, &types, &block, clock, rounds) });
                block
            }
            None => vec![line],
        };
        for line in block {
            answers.extend(session.run_line(line).map(|answer| spell(line, &answer)));
        }
    }
    (answers, figures)
}

/// The calls of a block that the Rust would be asked, in its own types.
fn make_ready<'t>(session: &Session<'_, 't>, block: &[&str]) -> Vec<Ready<'t>> {
    let call = |line: &&str| match read_line(line) {
        Line::Call(call) => call.written_out(),
        _ => None,
    };
    let make = |call: Call| {
        let store = session.store()?;
        refusal(store, &call).is_none().then(|| ready(store, &call).ok()).flatten()
    };
    block.iter().filter_map(call).filter_map(make).collect()
}

fn stretch<'t>(session: &Session<'_, 't>, types: &Types<'t>, block: &[&str], clock: f64, rounds: usize) -> [f64; 3] {
    let ready = make_ready(session, block);
    let pass = |turns: usize| {
        let start = Instant::now();
        for _ in 0..turns {
            ready.iter().for_each(|call| drop(black_box(black_box(call).run(types))));
        }
        (start.elapsed().as_nanos() as f64 - clock).max(0.0) / turns as f64 / ready.len().max(1) as f64
    };
    let (first, second) = (pass(1), pass(1));
    let turns = (NANOS / (second * ready.len() as f64).max(1.0)).ceil() as usize;
    [first, second, (0..rounds).map(|_| pass(turns)).fold(f64::MAX, f64::min)]
}
