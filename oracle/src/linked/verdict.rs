//! What is told of a difference: the sides by what they say, and the script that shows it.

use crate::script::Call;
use crate::session::Answer;
use crate::steps::Asked;

/// What differs, as it stands behind a line of a script.
pub struct Difference(String);

impl Difference {
    pub fn new(text: String) -> Difference {
        Difference(text)
    }
}

impl std::fmt::Display for Difference {
    fn fmt(&self, f: &mut std::fmt::Formatter<'_>) -> std::fmt::Result {
        f.write_str(&self.0)
    }
}

/// The answers of the sides.
pub fn answers(original: Option<&Answer>, reading: &Answer, library: &Answer) -> String {
    format!("; => {}", sides(original.map(Answer::to_string), reading.to_string(), library.to_string()))
}

/// A word of the list or of the output as the sides have it.
pub fn word(what: &str, at: usize, original: Option<u64>, reading: u64, library: u64) -> String {
    format!("; {what} {at} is {}", sides(original.map(|word| word.to_string()), reading.to_string(), library.to_string()))
}

/// What the sides say, each with who says it.
fn sides(original: Option<String>, reading: String, library: String) -> String {
    let mut said: Vec<(String, Vec<&str>)> = vec![];
    for (who, what) in [("the Rust", original), ("the reading", Some(reading)), ("the library", Some(library))] {
        let Some(what) = what else { continue };
        match said.iter_mut().find(|(same, _)| *same == what) {
            Some((_, all)) => all.push(who),
            None => said.push((what, vec![who])),
        }
    }
    said.iter().map(|(what, who)| format!("{what} ({})", who.join(", "))).collect::<Vec<_>>().join(", ")
}

/// A list of more handles than this, all of them the same, is shown by their count.
const FEW_HANDLES: usize = 8;

/// A call as a script has it, and a comment, in which stands what no script can say: `open` has no numbers there, `find_entry` always has some.
fn line(call: &Call) -> (String, String) {
    match (call.name, &call.numbers[..]) {
        ("meet_list", handles @ [first, ..]) if handles.len() > FEW_HANDLES && handles.iter().all(|handle| handle == first) => {
            (format!("meet_rep {} {first}", handles.len()), String::new())
        }
        ("find_entry", []) => ("find_entry".to_string(), " (an entry of no words, which no script can look for)".to_string()),
        ("open", [memory, more]) => {
            ("open".to_string(), format!(" (a memory of {memory} words, an index of {} more than needed)", *more as i64))
        }
        _ => (call.to_string(), String::new()),
    }
}

/// The calls as a script, each with its answer; the last one, which shows the difference, with what differs.
pub fn script(asked: &[Asked], difference: &Difference) -> Vec<String> {
    let (count, is_answer) = (asked.len(), difference.0.starts_with("; =>"));
    let spell = |(i, asked): (usize, &Asked)| {
        let (call, comment) = line(&asked.call);
        let whole = format!("{call} ; => {}{comment}", asked.answer);
        match i + 1 == count {
            true if is_answer => format!("{call} {difference}{comment}"),
            true => format!("{whole} {difference}"),
            false => whole,
        }
    };
    asked.iter().enumerate().map(spell).collect()
}
