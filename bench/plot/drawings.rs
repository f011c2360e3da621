// The drawings.
use crate::data::{short, whole, Data};
use crate::panel::{Line, Panel};
use crate::svg::{At, Mark, Style, Svg};

const WIDTH: f64 = 960.0;
const PLAIN: Style = Style { colour: "#000000", dash: "", mark: Mark::Disc };
const OPENED: Style = Style { colour: "#1f5fa8", dash: "7 3", mark: Mark::Square };
const RUST: Style = Style { colour: "#b4441c", dash: "2 3", mark: Mark::Diamond };

fn points(data: &Data, what: &str, set: &str, way: &str) -> Vec<(f64, f64)> {
    data.lengths().into_iter().filter_map(|n| Some((n as f64, data.ns(what, set, way, n)?))).collect()
}

fn range(data: &Data) -> (f64, f64) {
    let (first, last) = data.first_and_last();
    // a single length is a range too
    (first as f64, last.max(2 * first) as f64)
}

// The powers of ten around these times.
fn decades(times: impl Iterator<Item = f64> + Clone) -> (f64, f64) {
    let (low, high) = (times.clone().fold(f64::MAX, f64::min), times.fold(0.0, f64::max));
    (10f64.powf(low.log10().floor()), 10f64.powf(high.log10().ceil()))
}

// What is done with the whole list.
pub fn row1(data: &Data) -> String {
    let last = data.first_and_last().1;
    let line = |what: &str, name: &str, dash: &'static str, mark: Mark| {
        let to_scan = data.to_scan(what, "there", last).filter(|_| what != "scan");
        let name = to_scan.map_or(name.to_string(), |x| format!("{name}: {} scans", short(x)));
        Line { name, style: Style { colour: "#000000", dash, mark }, points: points(data, what, "there", "plain") }
    };
    let lines = [
        line("open", "opening", "9 3 2 3", Mark::None),
        line("row 1", "row 1", "", Mark::Disc),
        line("row 1 by hand", "by hand", "7 3", Mark::Square),
        line("scan", "plain scan", "2 3", Mark::Diamond),
    ];
    let ns = decades(lines.iter().flat_map(|line| line.points.iter().map(|point| point.1)));
    let panel = Panel { left: 70.0, top: 40.0, width: 720.0, height: 330.0, words: range(data), ns, size: 13.0 };
    let mut svg = Svg::new(WIDTH, 410.0, "Row 1, the same test by hand, opening and a plain scan: time by the words of the list");
    svg.bold(10.0, 22.0, 14.0, "Row 1 beside a plain scan and the same test by hand: time by the words of the list");
    panel.times(&mut svg, 10.0, true);
    let lengths: Vec<(f64, String)> = data.lengths().into_iter().map(|n| (n as f64, whole(n))).collect();
    panel.lengths(&mut svg, &lengths, true);
    panel.lines(&mut svg, &lines);
    svg.finish()
}

const COLUMNS: usize = 4;
const ROW: f64 = 124.0;

// A panel a call: plain, opened and the original Rust.
pub fn calls(data: &Data, set: &str, title: &str) -> String {
    let groups = data.groups(set);
    let rows: usize = groups.iter().map(|group| group.1.len().div_ceil(COLUMNS)).sum();
    let mut svg = Svg::new(WIDTH, 40.0 + ROW * rows as f64 + 34.0 * groups.len() as f64, title);
    svg.bold(10.0, 22.0, 14.0, title);
    let times = data.calls(set).into_iter().flat_map(|call| ["plain", "opened", "rust"].map(|way| points(data, call, set, way))).flatten();
    let ns = decades(times.map(|point| point.1));
    let mut top = 40.0;
    for (group, calls) in groups {
        svg.bold(10.0, top + 12.0, 13.0, group);
        top += 18.0;
        for (i, call) in calls.iter().enumerate() {
            let (column, last) = (i % COLUMNS, i + COLUMNS >= calls.len());
            let (left, top) = (56.0 + 230.0 * column as f64, top + ROW * (i / COLUMNS) as f64 + 18.0);
            let panel = Panel { left, top, width: 146.0, height: 92.0, words: range(data), ns, size: 11.0 };
            one_call(&mut svg, data, set, call, &panel, column == 0, last);
        }
        top += ROW * calls.len().div_ceil(COLUMNS) as f64 + 16.0;
    }
    svg.finish()
}

fn one_call(svg: &mut Svg, data: &Data, set: &str, call: &str, panel: &Panel, times: bool, lengths: bool) {
    svg.bold(panel.left, panel.top - 5.0, 12.0, call);
    panel.times(svg, 100.0, times);
    let decades = [(1e3, "1k"), (1e4, "10k"), (1e5, "100k"), (1e6, "1M")].map(|(n, name)| (n, name.to_string()));
    let (from, to) = panel.words;
    let shown: Vec<(f64, String)> = decades.into_iter().filter(|decade| decade.0 >= from && decade.0 <= to).collect();
    panel.lengths(svg, &shown, lengths);
    let lines = [("plain", "plain", PLAIN), ("opened", "opened", OPENED), ("rust", "original", RUST)];
    let lines = lines.map(|(way, name, style)| Line { name: name.to_string(), style, points: points(data, call, set, way) });
    panel.lines(svg, &lines);
}

// The ratio of the opened call to the original, of each call at each length: from the slowest to the fastest.
pub fn ratios(data: &Data) -> String {
    let sets = [("there", "the answers are there"), ("new", "the first time")];
    let calls = sets.map(|(set, _)| slowest_first(data, set));
    let rows = calls[0].len().max(calls[1].len());
    let title = "Time of the opened call to that of the original: right of 1 the original is faster";
    let mut svg = Svg::new(WIDTH, 110.0 + 15.0 * rows as f64, title);
    svg.bold(10.0, 22.0, 14.0, title);
    legend(&mut svg, data);
    let all: Vec<f64> =
        sets.iter().zip(&calls).flat_map(|((set, _), calls)| calls.iter().flat_map(|call| data.ratios(call, set))).collect();
    for (i, ((set, name), calls)) in sets.iter().zip(&calls).enumerate() {
        one_set(&mut svg, data, set, name, calls, 150.0 + 480.0 * i as f64, &all);
    }
    svg.finish()
}

// The calls of which the original was run, by the geometric mean of their ratios.
fn slowest_first<'a>(data: &'a Data, set: &str) -> Vec<&'a str> {
    let mean = |call: &str| {
        let all = data.ratios(call, set);
        (!all.is_empty()).then(|| all.iter().map(|x| x.ln()).sum::<f64>() / all.len() as f64)
    };
    let mut calls: Vec<(f64, &str)> = data.calls(set).into_iter().filter_map(|call| Some((mean(call)?, call))).collect();
    calls.sort_by(|a, b| b.0.total_cmp(&a.0));
    calls.into_iter().map(|call| call.1).collect()
}

// The longer the list, the larger and the darker the mark.
fn sized(svg: &mut Svg, at: (f64, f64), i: usize, n: usize) {
    let (r, last) = (1.8 + 2.4 * i as f64 / (n - 1).max(1) as f64, i + 1 == n);
    svg.mark(at, r, "#000000", if last { Mark::Disc } else { Mark::Square });
}

fn legend(svg: &mut Svg, data: &Data) {
    let lengths = data.lengths();
    svg.text(10.0, 44.0, 12.0, At::Start, "words of the list:");
    for (i, n) in lengths.iter().enumerate() {
        let x = 120.0 + 90.0 * i as f64;
        sized(svg, (x, 40.0), i, lengths.len());
        svg.text(x + 8.0, 44.0, 12.0, At::Start, &whole(*n));
    }
}

fn one_set(svg: &mut Svg, data: &Data, set: &str, name: &str, calls: &[&str], left: f64, all: &[f64]) {
    let (low, high) = (all.iter().copied().fold(0.5, f64::min), all.iter().copied().fold(2.0, f64::max));
    let (top, bottom, width) = (78.0, 82.0 + 15.0 * calls.len() as f64, 300.0);
    let x = |ratio: f64| left + width * (ratio / low).ln() / (high / low).ln();
    svg.bold(left, 66.0, 12.0, name);
    for ratio in [0.1, 0.2, 0.5, 1.0, 2.0, 5.0, 10.0, 20.0].into_iter().filter(|ratio| (low..=high).contains(ratio)) {
        svg.rule((x(ratio), top), (x(ratio), bottom), if ratio == 1.0 { "#000000" } else { "#d8d8d8" });
        svg.text(x(ratio), bottom + 13.0, 11.0, At::Middle, &ratio.to_string());
    }
    let lengths = data.lengths();
    for (i, call) in calls.iter().enumerate() {
        let y = top + 10.0 + 15.0 * i as f64;
        svg.text(left - 8.0, y + 4.0, 11.0, At::End, call);
        for (j, n) in lengths.iter().enumerate() {
            if let Some(ratio) = data.ratio(call, set, "opened", "rust", *n) {
                sized(svg, (x(ratio), y), j, lengths.len());
            }
        }
    }
}
