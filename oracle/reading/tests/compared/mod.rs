//! A script's answers beside those that stand behind `; =>`.

use crate::script::Script;

/// How many lines have an answer, and what is wrong with some.
pub fn compare(script: &mut Script, text: &str) -> (usize, Vec<String>) {
    let (mut answers, mut wrong) = (0, Vec::new());
    for (number, line) in text.lines().enumerate() {
        let (line, want) = match line.split_once(';') {
            Some((line, comment)) => (line.trim(), comment.trim_start().strip_prefix("=>").map(str::trim)),
            None => (line.trim(), None),
        };
        if line.is_empty() {
            continue;
        }
        let got = script.run(line);
        let Some(want) = want else { continue };
        answers += 1;
        if want != "*" && want != got.trim() {
            wrong.push(format!("line {}: {line:.60}: want {want}, got {got}", number + 1));
        }
    }
    (answers, wrong)
}
