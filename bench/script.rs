// Scripts for the oracle, and the Rust's figures.
use crate::calls::Call;
use std::process::Command;

// A script for the oracle: makers, then blocks of calls; and what it has to answer, a line each.
#[derive(Clone)]
pub struct Script {
    text: String,
    answers: String,
}

// The Rust's nanoseconds a call of each block: the first time, the second and again.
pub type Times = Vec<(String, [f64; 3])>;

impl Script {
    pub fn fresh(len: usize, made: &[(Call, u64)]) -> Script {
        let mut script = Script { text: format!("fresh {len}\n"), answers: "ok\n".to_string() };
        made.iter().for_each(|(call, h)| script.line(call, &h.to_string()));
        script
    }

    fn line(&mut self, call: &Call, answer: &str) {
        self.text += &call.line();
        self.text += "\n";
        self.answers += answer;
        self.answers += "\n";
    }

    // Calls with what they tell.
    pub fn block(&mut self, name: &str, calls: &[Call], told: &[String]) {
        self.text += &format!("; measure {name}\n");
        calls.iter().zip(told).for_each(|(call, told)| self.line(call, told));
        self.text += "; end\n";
    }

    // The Rust's figures, where it answers every call as we do.
    pub fn times(&self, oracle: Option<&str>, turns: usize) -> Option<Times> {
        const SCRIPT: &str = "target/bench-script.txt";
        std::fs::write(SCRIPT, &self.text).ok()?;
        let out = Command::new(oracle?).args(["measure", SCRIPT, &turns.to_string()]).output().ok()?;
        let out = String::from_utf8(out.stdout).ok()?;
        let mut lines = out.lines();
        let calls = self.text.lines().filter(|line| !line.starts_with(';'));
        for (call, ours) in calls.zip(self.answers.lines()) {
            let theirs = lines.next().unwrap_or("nothing");
            if theirs != ours {
                eprintln!("the Rust is left out: to '{call}' it answers {theirs}, and we {ours}");
                return None;
            }
        }
        lines.map(figures).collect()
    }
}

// A line `; NAME FIRST SECOND AGAIN`.
fn figures(line: &str) -> Option<(String, [f64; 3])> {
    let words: Vec<&str> = line.split_whitespace().collect();
    let [";", name, first, second, again] = words[..] else { return None };
    Some((name.to_string(), [first.parse().ok()?, second.parse().ok()?, again.parse().ok()?]))
}

pub fn figure(times: &Option<Times>, name: &str, which: usize) -> Option<f64> {
    Some(times.as_ref()?.iter().find(|block| block.0 == name)?.1[which])
}

pub fn turns(len: usize) -> usize {
    (2_000_000 / len).clamp(3, 40)
}

// The columns of the Rust's time and of the ratio to it.
pub fn beside_rust(ours: f64, rust: Option<f64>) -> String {
    let (time, ratio) = rust.map_or(("not run".to_string(), "-".to_string()), |y| (crate::measure::ns(y), format!("{:.2}", ours / y)));
    format!("{time:>9} {ratio:>14}")
}
