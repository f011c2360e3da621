// A panel: lines over words and nanoseconds, both logarithmic, each with its name at its end.
use crate::svg::{At, Style, Svg};

pub struct Line {
    pub name: String,
    pub style: Style,
    // words, nanoseconds
    pub points: Vec<(f64, f64)>,
}

pub struct Panel {
    pub left: f64,
    pub top: f64,
    pub width: f64,
    pub height: f64,
    // from and to
    pub words: (f64, f64),
    pub ns: (f64, f64),
    pub size: f64,
}

const GRID: &str = "#d8d8d8";

// Where a value stands between two, by its logarithm.
fn part(x: f64, (from, to): (f64, f64)) -> f64 {
    (x / from).ln() / (to / from).ln()
}

// The name of a power of ten.
fn power(ns: f64) -> String {
    let (unit, name) =
        [(1e9, "s"), (1e6, "ms"), (1e3, "µs"), (1.0, "ns")].into_iter().find(|unit| ns > unit.0 * 0.99).unwrap_or((1.0, "ns"));
    format!("{} {name}", (ns / unit * 10.0).round() / 10.0)
}

impl Panel {
    fn x(&self, words: f64) -> f64 {
        self.left + self.width * part(words, self.words)
    }

    fn y(&self, ns: f64) -> f64 {
        self.top + self.height * (1.0 - part(ns, self.ns))
    }

    // Rules at powers of ten, each or every other, with the time beside them where it is asked for.
    pub fn times(&self, svg: &mut Svg, step: f64, named: bool) {
        let mut ns = self.ns.0;
        while ns <= self.ns.1 * 1.001 {
            svg.rule((self.left, self.y(ns)), (self.left + self.width, self.y(ns)), GRID);
            if named {
                svg.text(self.left - 4.0, self.y(ns) + self.size / 3.0, self.size, At::End, &power(ns));
            }
            ns *= step;
        }
    }

    // Rules at these lengths, with names below where it is asked for.
    pub fn lengths(&self, svg: &mut Svg, lengths: &[(f64, String)], named: bool) {
        for (words, name) in lengths {
            svg.rule((self.x(*words), self.top), (self.x(*words), self.top + self.height), GRID);
            if named {
                svg.text(self.x(*words), self.top + self.height + self.size + 2.0, self.size, At::Middle, name);
            }
        }
    }

    pub fn lines(&self, svg: &mut Svg, lines: &[Line]) {
        let mut ends: Vec<(f64, f64, &str)> = vec![];
        for line in lines.iter().filter(|line| !line.points.is_empty()) {
            let points: Vec<(f64, f64)> = line.points.iter().map(|(words, ns)| (self.x(*words), self.y(*ns))).collect();
            svg.line(&points, line.style);
            let (x, y) = points[points.len() - 1];
            ends.push((y, x, &line.name));
        }
        // the names from above, each so far below the last that both can be read; then back up where that went too low
        ends.sort_by(|a, b| a.0.total_cmp(&b.0));
        let apart = 1.1 * self.size;
        for i in 1..ends.len() {
            ends[i].0 = ends[i].0.max(ends[i - 1].0 + apart);
        }
        let bottom = self.top + self.height + 2.0;
        for i in (0..ends.len()).rev() {
            let most = if i + 1 < ends.len() { ends[i + 1].0 - apart } else { bottom };
            ends[i].0 = ends[i].0.min(most);
        }
        ends.iter().for_each(|(y, x, name)| svg.text(x + 6.0, y + self.size / 3.0, self.size, At::Start, name));
    }
}
