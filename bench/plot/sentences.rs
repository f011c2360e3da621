// The sentences with figures, in Markdown.
use crate::data::{short, time, whole, Data};
use crate::tables::table;

const NOT_RUN: &str = "The original was not run.\n";

pub fn machine(data: &Data) -> String {
    let (processor, cores, passes) = (data.fact("processor"), data.fact("cores"), data.fact("passes"));
    format!("Processor: {processor}, x86-64, {cores} cores. Passes: {passes}.\n")
}

fn least_and_most(all: &[(f64, &str)], shown: fn(f64) -> String) -> String {
    let by = |a: &&(f64, &str), b: &&(f64, &str)| a.0.total_cmp(&b.0);
    let (Some(least), Some(most)) = (all.iter().min_by(by), all.iter().max_by(by)) else { return "not run".to_string() };
    format!("{} (`{}`) to {} (`{}`)", shown(least.0), least.1, shown(most.0), most.1)
}

pub fn grows(data: &Data) -> String {
    let (first, last) = data.first_and_last();
    let factor = |call: &str, way: &str| Some(data.ns(call, "there", way, last)? / data.ns(call, "there", way, first)?);
    let row = |(group, calls): (&str, Vec<&str>)| {
        let cell =
            |way: &str| least_and_most(&calls.iter().filter_map(|call| Some((factor(call, way)?, *call))).collect::<Vec<_>>(), short);
        vec![group.to_string(), cell("plain"), cell("opened"), cell("rust")]
    };
    let rows: Vec<Vec<String>> = data.groups("there").into_iter().map(row).collect();
    let said = format!(
        "From {} words to {}, {} times as many, the times of calls whose answers are there grow so many times, from the least to the most:\n\n",
        whole(first),
        whole(last),
        short(last as f64 / first as f64)
    );
    said + &table(&["calls", "plain", "opened", "the original"].map(str::to_string), &rows)
}

// The least and the largest of a call's ratios to the original.
fn span(data: &Data, set: &str, call: &str) -> Option<(f64, f64)> {
    let all = data.ratios(call, set);
    (!all.is_empty()).then(|| (all.iter().copied().fold(f64::MAX, f64::min), all.iter().copied().fold(0.0, f64::max)))
}

// Less than a tenth more or less is taken as equal.
const NEAR: f64 = 1.1;

// By the least and the largest ratio of a call.
type Kind = (&'static str, fn(f64, f64) -> bool);
const KINDS: [Kind; 4] = [
    ("Slower than the original at every length", |low, _| low >= NEAR),
    ("Slower at some lengths and equal at others", |low, high| low < NEAR && low > 1.0 / NEAR && high >= NEAR),
    ("Equal at all lengths, or slower at some and faster at others", |low, high| (low > 1.0 / NEAR) == (high < NEAR)),
    ("Faster at some lengths or all, and slower at none", |low, high| low <= 1.0 / NEAR && high < NEAR),
];

pub fn slower(data: &Data, set: &str) -> String {
    let spans = data.calls(set).into_iter().filter_map(|call| span(data, set, call).map(|(low, high)| (low, high, call)));
    let mut calls: Vec<(f64, f64, &str)> = spans.collect();
    if calls.is_empty() {
        return NOT_RUN.to_string();
    }
    calls.sort_by(|a, b| (b.0 * b.1).total_cmp(&(a.0 * a.1)));
    let mut text = String::new();
    for (name, holds) in KINDS {
        let these = calls.iter().filter(|(low, high, _)| holds(*low, *high));
        let these: Vec<String> = these.map(|(low, high, call)| format!("`{call}` {} to {}", short(*low), short(*high))).collect();
        let said = if these.is_empty() { String::new() } else { format!(": {}", these.join("; ")) };
        text += &format!("- {name}, {} of {}{said}.\n", these.len(), calls.len());
    }
    text
}

// Plain calls beside the original.
pub fn plain_slower(data: &Data) -> String {
    let ratios = |n: usize| -> Vec<(f64, &str)> {
        data.calls("there").into_iter().filter_map(|call| Some((data.ratio(call, "there", "plain", "rust", n)?, call))).collect()
    };
    let at = |n: usize| format!("at {} words {} times", whole(n), least_and_most(&ratios(n), short));
    let (first, last) = data.first_and_last();
    if ratios(first).is_empty() {
        return NOT_RUN.to_string();
    }
    format!("A plain call takes, {}, and {} what the original takes.\n", at(first), at(last))
}

// Row 1 at one length.
fn row1_at(data: &Data, n: usize) -> String {
    let [scan, row1, hand] = ["scan", "row 1", "row 1 by hand"].map(|what| data.ns(what, "there", "plain", n).unwrap_or(f64::NAN));
    let (words, each) = (whole(n), short(row1 / n as f64));
    format!(
        "{words} words in {}, {each} ns a word: {} times a plain scan, {} times the same test by hand.",
        time(row1),
        short(row1 / scan),
        short(row1 / hand)
    )
}

// The whole page in a few lines.
pub fn in_short(data: &Data) -> String {
    let (first, last) = data.first_and_last();
    let times = |way: &str| {
        let at = |n: usize| {
            let all: Vec<(f64, &str)> =
                data.calls("there").into_iter().filter_map(|call| Some((data.ns(call, "there", way, n)?, call))).collect();
            format!("at {} words {}", whole(n), least_and_most(&all, time))
        };
        format!("{}; {}", at(first), at(last))
    };
    let mut text = format!("- Row 1: {}\n", row1_at(data, last));
    text += &format!("- A plain call whose answer is there: {}.\n", times("plain"));
    text += &format!("- The same opened: {}.\n", times("opened"));
    text += &format!("- The original: {}.\n", times("rust"));
    let spans: Vec<(f64, f64)> = data.calls("there").into_iter().filter_map(|call| span(data, "there", call)).collect();
    let count = |holds: fn(f64, f64) -> bool| spans.iter().filter(|(low, high)| holds(*low, *high)).count();
    let (slower, faster) = (count(|low, _| low >= NEAR), count(|_, high| high <= 1.0 / NEAR));
    let (least, most) = (spans.iter().map(|span| span.0).fold(f64::MAX, f64::min), spans.iter().map(|span| span.1).fold(0.0, f64::max));
    if !spans.is_empty() {
        let n = spans.len();
        text += &format!("- Of {n} opened calls, the answers there, {slower} take longer than the original at every length, up to {} times as long; {faster} take less at every length, down to {} of its time.\n", short(most), short(least));
    }
    text
}
