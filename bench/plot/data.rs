// The figures of the file that the part `growth` writes.
use crate::grouped::grouped;
use std::collections::HashMap;

pub struct Data {
    // what is said of the run: processor, cores, passes
    facts: Vec<(String, String)>,
    rows: Vec<Row>,
    // by what, set, way and words
    places: HashMap<(String, String, String, usize), usize>,
}

pub struct Row {
    pub group: String,
    pub what: String,
    pub set: String,
    pub way: String,
    pub words: usize,
    pub used: usize,
    pub ns: f64,
    pub calls: usize,
    pub appended: f64,
}

const HEAD: &str = "group\twhat\tset\tway\twords\tused\tns\trounds\tcalls\tappended";

impl Data {
    pub fn read(file: &str) -> Result<Data, String> {
        let text = std::fs::read_to_string(file).map_err(|e| format!("{file}: {e}; run 'sh bench/growth.sh'"))?;
        let mut data = Data { facts: vec![], rows: vec![], places: HashMap::new() };
        for (i, line) in text.lines().enumerate() {
            if let Some((name, fact)) = line.strip_prefix("# ").and_then(|line| line.split_once('\t')) {
                data.facts.push((name.to_string(), fact.to_string()));
            } else if line != HEAD {
                let row = row(line).ok_or_else(|| format!("{file}, line {}: not of the form '{HEAD}'", i + 1))?;
                data.places.insert((row.what.clone(), row.set.clone(), row.way.clone(), row.words), data.rows.len());
                data.rows.push(row);
            }
        }
        if data.rows.is_empty() {
            return Err(format!("{file}: no figures"));
        }
        Ok(data)
    }

    pub fn fact(&self, name: &str) -> &str {
        self.facts.iter().find(|fact| fact.0 == name).map_or("unknown", |fact| &fact.1)
    }

    pub fn row(&self, what: &str, set: &str, way: &str, words: usize) -> Option<&Row> {
        self.places.get(&(what.to_string(), set.to_string(), way.to_string(), words)).map(|at| &self.rows[*at])
    }

    // None also where the clock could not tell it from nothing.
    pub fn ns(&self, what: &str, set: &str, way: &str, words: usize) -> Option<f64> {
        self.row(what, set, way, words).map(|row| row.ns).filter(|ns| *ns > 0.0)
    }

    // The ratio of two ways of one call.
    pub fn ratio(&self, what: &str, set: &str, way: &str, to: &str, words: usize) -> Option<f64> {
        Some(self.ns(what, set, way, words)? / self.ns(what, set, to, words)?)
    }

    // Of opened calls to the original, at all lengths.
    pub fn ratios(&self, what: &str, set: &str) -> Vec<f64> {
        self.lengths().into_iter().filter_map(|n| self.ratio(what, set, "opened", "rust", n)).collect()
    }

    // To a plain scan of the list.
    pub fn to_scan(&self, what: &str, set: &str, words: usize) -> Option<f64> {
        Some(self.ns(what, set, "plain", words)? / self.ns("scan", "there", "plain", words)?)
    }

    pub fn lengths(&self) -> Vec<usize> {
        let mut lengths: Vec<usize> = self.rows.iter().map(|row| row.words).collect();
        lengths.sort();
        lengths.dedup();
        lengths
    }

    pub fn first_and_last(&self) -> (usize, usize) {
        let lengths = self.lengths();
        (lengths[0], lengths[lengths.len() - 1])
    }

    // The groups of calls in their order, each with its calls.
    pub fn groups(&self, set: &str) -> Vec<(&str, Vec<&str>)> {
        let mut groups: Vec<(&str, Vec<&str>)> = vec![];
        for row in self.rows.iter().filter(|row| row.set == set && row.group != "whole list") {
            let at = groups.iter().position(|group| group.0 == row.group).unwrap_or(groups.len());
            if at == groups.len() {
                groups.push((&row.group, vec![]));
            }
            if !groups[at].1.contains(&row.what.as_str()) {
                groups[at].1.push(&row.what);
            }
        }
        groups
    }

    pub fn calls(&self, set: &str) -> Vec<&str> {
        self.groups(set).into_iter().flat_map(|group| group.1).collect()
    }
}

fn row(line: &str) -> Option<Row> {
    let cells: Vec<&str> = line.split('\t').collect();
    let [group, what, set, way, words, used, ns, _, calls, appended] = cells[..] else { return None };
    let [group, what, set, way] = [group, what, set, way].map(str::to_string);
    let (words, used, calls) = (words.parse().ok()?, used.parse().ok()?, calls.parse().ok()?);
    Some(Row { group, what, set, way, words, used, ns: ns.parse().ok()?, calls, appended: appended.parse().ok()? })
}

// ---- how figures are written

// A number with commas.
pub fn whole(n: usize) -> String {
    grouped(n as u64)
}

// Three digits, or all of those before the point.
pub fn short(x: f64) -> String {
    match x {
        x if x < 9.995 => format!("{x:.2}"),
        x if x < 99.95 => format!("{x:.1}"),
        x => whole(x.round() as usize),
    }
}

// A time in the unit that suits it.
pub fn time(ns: f64) -> String {
    match ns {
        x if x < 99.95 => format!("{x:.1} ns"),
        x if x < 9_995.0 => format!("{} ns", whole(x.round() as usize)),
        x if x < 999_500.0 => format!("{} µs", short(x / 1e3)),
        x => format!("{} ms", short(x / 1e6)),
    }
}
