//! Scripts that exist already: run and printed, compared with the answers they carry, or timed.

use crate::script::{read_line, without_comment, Line};
use crate::session::{Answer, Session};
use original::datastructures::arena::DroplessArena;
use original::sea_of_nodes::types::Types;
use std::collections::BTreeMap;
use std::fs;
use std::io::{self, BufRead, BufWriter, Write};
use std::time::{Duration, Instant};

/// `oracle`: runs a script from standard input and prints the answers.
pub fn run_script() -> io::Result<()> {
    let arena = DroplessArena::new();
    let types = Types::new(&arena);
    let mut session = Session::new(&types);
    let mut out = BufWriter::new(io::stdout().lock());
    for line in io::stdin().lock().lines() {
        let line = line?;
        if let Some(answer) = session.run_line(&line) {
            writeln!(out, "{}", spell(&line, &answer))?;
        }
    }
    out.flush()
}

/// An answer as `calls` prints it: the line itself behind the mark where it is no call.
pub fn spell(line: &str, answer: &Answer) -> String {
    match answer {
        Answer::Malformed => format!("? {}", without_comment(line)),
        _ => answer.to_string(),
    }
}

/// How the answers of a script compare with those that stand behind '; =>'.
#[derive(Default)]
struct Verdict {
    equal: usize,
    not_compared: usize,
    different: usize,
}

/// `oracle check FILE..`: compares scripts with the answers that they carry. Says whether all agree.
pub fn check(files: &[String]) -> io::Result<bool> {
    let mut all_agree = true;
    for file in files {
        let verdict = check_script(file, &fs::read_to_string(file)?);
        all_agree &= verdict.different == 0;
        println!("{file}: {} equal, {} not compared, {} different", verdict.equal, verdict.not_compared, verdict.different);
    }
    Ok(all_agree)
}

fn check_script(file: &str, script: &str) -> Verdict {
    let arena = DroplessArena::new();
    let types = Types::new(&arena);
    let mut session = Session::new(&types);
    let mut verdict = Verdict::default();
    for (i, line) in script.lines().enumerate() {
        let Some(answer) = session.run_line(line) else { continue };
        let got = spell(line, &answer);
        let Some((_, wanted)) = line.split_once("; =>") else { continue };
        let (got, wanted) = (got.trim_end(), wanted.trim());
        let not_written = answer == Answer::Malformed && !wanted.starts_with('?');
        if wanted == "*" || not_written || matches!(answer, Answer::NotHeld(_)) {
            verdict.not_compared += 1;
        } else if got == wanted {
            verdict.equal += 1;
        } else {
            verdict.different += 1;
            println!("{file}:{}: {}: wanted {wanted}, the Rust {got}", i + 1, without_comment(line));
        }
    }
    verdict
}

/// `oracle time FILE [K]`: runs a script K times and prints, for each call, how long the Rust's own function takes.
pub fn time(file: &str, turns: usize) -> io::Result<()> {
    let script = fs::read_to_string(file)?;
    let mut spent: BTreeMap<&'static str, (u64, Duration)> = BTreeMap::new();
    for _ in 0..turns {
        time_script(&script, &mut spent);
    }
    let empty = cost_of_the_clock();
    println!("{:<20} {:>10} {:>12}   (debug assertions: {})", "call", "calls", "ns per call", cfg!(debug_assertions));
    for (name, (calls, time)) in spent {
        let each = (time.as_nanos() as f64 / calls as f64 - empty).max(0.0);
        println!("{name:<20} {calls:>10} {each:>12.1}");
    }
    Ok(())
}

/// A new arena each time, so that a call that makes a type makes it in every run. Calls that never reach the Rust (refused ones, and
/// kind, which only looks at a type) are not counted.
fn time_script(script: &str, spent: &mut BTreeMap<&'static str, (u64, Duration)>) {
    let arena = DroplessArena::new();
    let types = Types::new(&arena);
    let mut session = Session::new(&types);
    for line in script.lines() {
        let Line::Call(call) = read_line(line) else { continue };
        session.clock.spent = Duration::ZERO;
        session.run(&call);
        if session.clock.spent > Duration::ZERO {
            let sum = spent.entry(call.name).or_default();
            *sum = (sum.0 + 1, sum.1 + session.clock.spent);
        }
    }
}

/// What a measured stretch of no work takes, in nanoseconds: taken off each call.
pub fn cost_of_the_clock() -> f64 {
    const TURNS: u32 = 100_000;
    let mut sum = Duration::ZERO;
    for _ in 0..TURNS {
        let start = Instant::now();
        sum += start.elapsed();
    }
    sum.as_nanos() as f64 / f64::from(TURNS)
}
