// The tables, in Markdown.
use crate::data::{short, time, whole, Data, Row};

pub fn table(head: &[String], rows: &[Vec<String>]) -> String {
    let line = |cells: &[String]| format!("| {} |\n", cells.join(" | "));
    let rules = vec!["---".to_string(); head.len()];
    line(head) + &line(&rules).replace(' ', "") + &rows.iter().map(|row| line(row)).collect::<String>()
}

// A first column, and one for each length.
fn head(data: &Data, first: &[&str]) -> Vec<String> {
    first.iter().map(|name| name.to_string()).chain(data.lengths().into_iter().map(whole)).collect()
}

// How full the stores are, and how many calls are asked.
pub fn stores(data: &Data) -> String {
    let row = |name: &str, cell: &dyn Fn(usize) -> Option<String>| {
        let cells = data.lengths().into_iter().map(|n| cell(n).unwrap_or_default());
        std::iter::once(name.to_string()).chain(cells).collect::<Vec<String>>()
    };
    let largest = |set: &str, n: usize, of: fn(&Row) -> usize| {
        data.calls(set).into_iter().filter_map(|call| data.row(call, set, "opened", n)).map(of).max().map(whole)
    };
    let rows = [
        row("used, the answers there", &|n| largest("there", n, |row| row.used)),
        row("used, before new calls", &|n| largest("new", n, |row| row.used)),
        row("calls of each function, up to", &|n| largest("there", n, |row| row.calls)),
    ];
    table(&head(data, &["words"]), &rows)
}

pub fn row1(data: &Data) -> String {
    let heads = [
        "words",
        "plain scan",
        "row 1",
        "to the scan",
        "by hand in Rust",
        "to the scan",
        "row 1 to by hand",
        "fresh",
        "opening",
        "without a memory",
    ];
    let ns = |what: &str, n: usize| data.ns(what, "there", "plain", n).unwrap_or(f64::NAN);
    let rows = data.lengths().into_iter().map(|n| {
        let [scan, row1, hand, fresh, open, bare] =
            ["scan", "row 1", "row 1 by hand", "fresh", "open", "open, no memory"].map(|what| ns(what, n));
        let ratios = [row1 / scan, hand / scan, row1 / hand].map(short);
        let [to_scan, hand_to_scan, to_hand] = ratios;
        vec![whole(n), time(scan), time(row1), to_scan, time(hand), hand_to_scan, to_hand, time(fresh), time(open), time(bare)]
    });
    table(&heads.map(str::to_string), &rows.collect::<Vec<_>>())
}

// Plain calls: the time, and the ratio to a plain scan.
pub fn plain(data: &Data, set: &str) -> String {
    let cell = |call: &str, n: usize| Some(format!("{} ({})", time(data.ns(call, set, "plain", n)?), short(data.to_scan(call, set, n)?)));
    let rows = data.calls(set).into_iter().map(|call| {
        let cells = data.lengths().into_iter().map(|n| cell(call, n).unwrap_or("-".to_string()));
        std::iter::once(format!("`{call}`")).chain(cells).collect()
    });
    table(&head(data, &["call"]), &rows.collect::<Vec<_>>())
}

// Opened calls: the time, the original's, and the ratio. Of new calls also how many entries each appends, on the longest list.
pub fn opened(data: &Data, set: &str) -> String {
    let number = |ns: f64| time(ns).replace(" ns", "");
    let cell = |call: &str, n: usize| {
        let ours = data.ns(call, set, "opened", n)?;
        let Some(rust) = data.ns(call, set, "rust", n) else { return Some(format!("{}, not run", number(ours))) };
        Some(format!("{}, {} ({})", number(ours), number(rust), short(ours / rust)))
    };
    let (lengths, last) = (data.lengths(), data.first_and_last().1);
    let first: &[&str] = if set == "new" { &["call", "entries"] } else { &["call"] };
    let rows = data.calls(set).into_iter().map(|call| {
        let appended = data.row(call, set, "opened", last).map_or("-".to_string(), |row| format!("{:.2}", row.appended));
        let names = [format!("`{call}`"), appended].into_iter().take(first.len());
        names.chain(lengths.iter().map(|n| cell(call, *n).unwrap_or("-".to_string()))).collect()
    });
    table(&head(data, first), &rows.collect::<Vec<_>>())
}
