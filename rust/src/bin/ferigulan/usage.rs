//! How the lines of a script are written, for messages and for help.
use crate::script::{name, shown, Said};
use crate::session::LINES;
use crate::table::{Usage, CALLS};

fn all() -> impl Iterator<Item = &'static Usage> {
    LINES.iter().chain(CALLS)
}

fn written(usage: &Usage) -> String {
    format!("{} {}", usage.name, usage.arguments).trim_end().to_string()
}

/// Why a line whose words are right is no call: its name, or how many numbers it has.
pub fn why(call: &[u8], said: Said) -> String {
    let named = |is: fn(&Usage, &str) -> bool| all().filter(|usage| is(usage, said.0)).map(written).collect::<Vec<_>>().join("' or '");
    let by_name = named(|usage, name| usage.name == name);
    if !by_name.is_empty() {
        return format!("it is written '{by_name}'");
    }
    let by_call = named(|usage, name| usage.call == name && !name.is_empty());
    if !by_call.is_empty() {
        return format!("in a script {} is written '{by_call}'", said.0);
    }
    format!("there is no call '{}'", shown(name(call)))
}

/// The ways in which lines are written, one a line.
pub fn lines() -> String {
    all().map(|usage| format!("  {:<31} {}\n", written(usage), usage.does)).collect()
}
