//! Differences in long lists. A list that one step fills would be shown by thousands of lines: other lists are tried in its place.

use crate::session::Answer;
use crate::shrink::Shown;
use crate::steps::{Arg, Asked, Step};
use crate::store::SHORTEST;
use std::collections::HashMap;

/// Of a list with a step `fill`, others without: filled at once, by pokes, with the same steps behind them, or with the last call alone on types
/// that are made there; where the filling itself shows the difference, with the last of its calls behind the pokes, or with all its calls as
/// steps of their own.
pub fn others(steps: &[Step], shown: &Shown) -> Vec<Vec<Step>> {
    let Some(at) = steps.iter().position(|step| step.name == "fill") else {
        return vec![];
    };
    let before = &steps[..at];
    if let Some(last) = steps[at + 1..].last() {
        let raised = raised(&steps[at], steps[at].args[1]);
        let same = [before, std::slice::from_ref(&raised), &steps[at + 1..]].concat();
        let alone = on_late_types(last).into_iter().map(|late| [before, std::slice::from_ref(&raised), &late].concat());
        return [same].into_iter().chain(alone).collect();
    }
    let calls = &shown.asked[shown.first_of_last..];
    let as_steps = as_steps(calls, steps[at].id + 1);
    let open = Step { id: steps[at].id + calls.len() + 1, name: "open", args: vec![], text: vec![] };
    let last_ones = [1, 8, 64, 512].into_iter().filter(|many| *many < calls.len()).map(|many| {
        let first = calls.len() - many;
        let used = calls[..first].iter().filter_map(handle).max().unwrap_or(SHORTEST as u64);
        [before, &[raised(&steps[at], Arg::Number(used)), open.clone()], &as_steps[first..]].concat()
    });
    last_ones.chain([[before, &as_steps[..]].concat()]).collect()
}

/// The step that fills a list at once.
fn raised(fill: &Step, until: Arg) -> Step {
    Step { id: fill.id, name: "raise", args: vec![until], text: vec![] }
}

/// The call alone, on types of each kind that are made just before it.
fn on_late_types(call: &Step) -> Vec<Vec<Step>> {
    let first = call.id + 1;
    let number = Arg::Number;
    let makers = [
        ("int", vec![number(3), number(9)]),
        ("float", vec![number(1)]),
        ("tuple", vec![number(25)]),
        ("struct", [1, 1, 25, 0, 0].map(number).to_vec()),
        ("fref", vec![number(1)]),
        ("ptr", vec![Arg::Answer(first + 3), number(0)]),
        ("mem", vec![number(0), number(25)]),
    ];
    let made: Vec<Arg> = (0..makers.len()).map(|i| Arg::Answer(first + i)).collect();
    let all: Vec<Vec<Arg>> = match call.args.len() {
        1 => made.iter().map(|a| vec![*a]).collect(),
        2 => made.iter().flat_map(|a| made.iter().map(|b| vec![*a, *b])).collect(),
        _ => vec![],
    };
    let makers: Vec<Step> =
        makers.into_iter().enumerate().map(|(i, (name, args))| Step { id: first + i, name, args, text: vec![] }).collect();
    all.into_iter().map(|args| [&makers[..], &[Step { args, ..call.clone() }]].concat()).collect()
}

fn handle(asked: &Asked) -> Option<u64> {
    match asked.answer {
        Answer::Number(handle) => Some(handle),
        _ => None,
    }
}

/// The makers as steps with ids from this one on: handles that one of them answered by where they come from.
fn as_steps(calls: &[Asked], first_id: usize) -> Vec<Step> {
    let mut from: HashMap<u64, usize> = HashMap::new();
    let mut steps = vec![];
    for (id, asked) in (first_id..).zip(calls) {
        let (name, numbers) = (asked.call.name, &asked.call.numbers);
        let arg = |(k, number): (usize, &u64)| match from.get(number).filter(|_| is_handle(name, k)) {
            Some(id) => Arg::Answer(*id),
            None => Arg::Number(*number),
        };
        steps.push(Step { id, name, args: numbers.iter().enumerate().map(arg).collect(), text: asked.call.text.clone() });
        if let Some(handle) = handle(asked).filter(|handle| *handle >= SHORTEST as u64) {
            from.entry(handle).or_insert(id);
        }
    }
    steps
}

/// Whether an argument of a maker is a handle.
fn is_handle(name: &str, k: usize) -> bool {
    match name {
        "tuple" => true,
        "struct" => k == 0 || k % 4 == 1 || k % 4 == 2,
        "ptr" => k == 0,
        "mem" => k == 1,
        "ary" => k == 0 || k == 2,
        _ => false,
    }
}
