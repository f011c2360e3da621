//! The script language: one call a line.

mod catalogue;

use crate::common::List;
use reading::{well_formed, Call, Reply};

#[derive(Default)]
pub struct Script {
    words: Vec<u64>,
    /// The list as `keep` found it; the empty one before.
    kept: Vec<u64>,
    /// The file that was last written; the empty one before.
    pub file: Vec<u8>,
}

/// "Numbers are decimal (a negative one stands for its two's complement word) or 0x hex".
fn number(word: &str) -> Option<u64> {
    match word.strip_prefix("0x") {
        Some(hex) => u64::from_str_radix(hex, 16).ok(),
        None => word.parse().ok().or_else(|| word.parse::<i64>().ok().map(|signed| signed as u64)),
    }
}

/// "names and texts are hex bytes, nothing for the empty one".
fn bytes(hex: &str) -> Option<Vec<u8>> {
    let pair = |i: usize| u8::from_str_radix(hex.get(i..i + 2)?, 16).ok();
    (0..hex.len()).step_by(2).map(pair).collect()
}

fn joined(words: &[u64]) -> String {
    words.iter().map(u64::to_string).collect::<Vec<_>>().join(" ")
}

impl Script {
    /// The answer that a line prints.
    pub fn run(&mut self, line: &str) -> String {
        let (call, rest) = line.split_once(' ').unwrap_or((line, ""));
        let answer = self.on_the_list(call, rest).or_else(|| self.on_the_file(call, rest)).or_else(|| self.call(call, rest));
        answer.unwrap_or_else(|| format!("? {line}"))
    }

    /// The lines that are no calls on types.
    fn on_the_list(&mut self, call: &str, rest: &str) -> Option<String> {
        let numbers: Vec<u64> = rest.split_whitespace().map(number).collect::<Option<_>>()?;
        match (call, numbers[..].as_ref()) {
            ("list", &[length]) => self.words = vec![0; length as usize],
            ("list", &[length, word]) => self.words = vec![word; length as usize],
            ("fresh", &[]) => return self.reply(&Call::Fresh, 0),
            ("fresh", &[length]) => {
                self.words = vec![0; length as usize];
                return self.reply(&Call::Fresh, 0);
            }
            ("poke", &[at, word]) => *self.words.get_mut(at as usize)? = word,
            ("peek", &[at]) => return self.words.get(at as usize).map(u64::to_string),
            ("dump", &[]) => return self.words.get(..*self.words.first()? as usize).map(joined),
            ("dumpall", &[]) => return Some(joined(&self.words)),
            ("check", &[]) => return Some(u64::from(well_formed(&self.words)).to_string()),
            // The held way is run beside each call anyway.
            ("open", &[]) => return Some(if well_formed(&self.words) { "ok" } else { "-1" }.to_string()),
            ("close", &[]) => {}
            ("keep", &[]) => self.kept = self.words.clone(),
            ("kept", &[]) => return Some(u64::from(self.kept == self.words).to_string()),
            _ => return None,
        }
        Some("ok".to_string())
    }

    fn call(&mut self, call: &str, rest: &str) -> Option<String> {
        match call {
            "str" => self.reply(&Call::GetStr(&bytes(rest)?), 0),
            "ary" => {
                let words: Vec<&str> = rest.split_whitespace().collect();
                let [len, len_alias, body, body_alias] = [0, 1, 2, 3].map(|i| words.get(i).and_then(|word| number(word)));
                let text = bytes(words.get(4).unwrap_or(&""))?;
                self.reply(&Call::MakeAry(len?, len_alias?, body?, body_alias?, &text), 0)
            }
            _ => {
                let numbers: Vec<u64> = rest.split_whitespace().map(number).collect::<Option<_>>()?;
                self.on_lists(call, &numbers)
            }
        }
    }

    /// The calls with a list or an output, and then those with one or two numbers.
    fn on_lists(&mut self, call: &str, numbers: &[u64]) -> Option<String> {
        match (call, numbers) {
            ("tuple", types) => self.reply(&Call::GetTuple(types), 0),
            ("struct", [name, fields @ ..]) => self.reply(&Call::GetStruct(*name, fields), 0),
            ("find_entry", entry @ [_, ..]) => self.reply(&Call::FindEntry(entry), 0),
            ("meet_list", types) => self.reply(&Call::MeetList(types), 0),
            ("meet_rep", &[count, t]) => self.reply(&Call::MeetList(&vec![t; count as usize]), 0),
            ("fields", &[s, length]) => self.reply(&Call::StructFields(s), length),
            ("offsets", &[s, length]) => self.reply(&Call::Offsets(s), length),
            (_, &[a]) => self.reply(&of_one(call, a)?, 0),
            (_, &[a, b]) => self.reply(&of_two(call, a, b)?, 0),
            _ => None,
        }
    }

    fn reply(&mut self, call: &Call, length: u64) -> Option<String> {
        let mut output = vec![7777; length as usize];
        let reply = self.on_words(|list| list.call_with(call, &mut output));
        Some(match reply {
            Reply::Refused(row) => format!("-{row}"),
            Reply::Done => "ok".to_string(),
            Reply::Handle(number) | Reply::Number(number) => number.to_string(),
            Reply::Signed(number) => format!("={number}"),
            Reply::Yes => "1".to_string(),
            Reply::No => "0".to_string(),
            Reply::Absent => "absent".to_string(),
            Reply::Constant(bits) if matches!(call, Call::FloatReading(_)) => format!("constant {bits}"),
            Reply::Constant(bits) => bits.to_string(),
            Reply::Size(sz) => format!("size ={sz}"),
            Reply::Filled(n) => format!("{n} : {}", joined(&output)),
            Reply::Searched(Some(handle), count) => format!("{handle} {count}"),
            Reply::Searched(None, count) => format!("absent {count}"),
        })
    }

    /// The words as a list that checks what a call must keep.
    fn on_words(&mut self, call: impl FnOnce(&mut List) -> Reply) -> Reply {
        let mut list = List { words: std::mem::take(&mut self.words) };
        let reply = call(&mut list);
        self.words = list.words;
        reply
    }
}

fn of_one(call: &str, a: u64) -> Option<Call<'static>> {
    Some(match call {
        "kind" => Call::Kind(a),
        "get_bool" => Call::GetBool(a),
        "int" => Call::GetInt(a),
        "float" => Call::GetFloat(a),
        "fref" => Call::MakeStructFref(a),
        "dual" => Call::Dual(a),
        "glb" => Call::Glb(a),
        "lub" => Call::Lub(a),
        "is_final" => Call::IsFinal(a),
        "make_ro" => Call::MakeRo(a),
        "make_init" => Call::MakeInit(a),
        "make_zero" => Call::MakeZero(a),
        "non_zero" => Call::NonZero(a),
        "is_high" => Call::IsHigh(a),
        "is_high_or_constant" => Call::IsHighOrConstant(a),
        "is_constant" => Call::IsConstant(a),
        "is_fref" => Call::IsFref(a),
        "log_size" => Call::LogSize(a),
        "min" => Call::IntMin(a),
        "max" => Call::IntMax(a),
        "value" => Call::IntValue(a),
        "mask" => Call::IntMask(a),
        "sz" => Call::FloatSz(a),
        "is_f32" => Call::FloatIsF32(a),
        "float_value" => Call::FloatValue(a),
        "reading" => Call::FloatReading(a),
        "name" => Call::StructName(a),
        "is_ary" => Call::IsAry(a),
        "ary_base" => Call::AryBase(a),
        "ary_scale" => Call::AryScale(a),
        _ => return None,
    })
}

fn of_two(call: &str, a: u64, b: u64) -> Option<Call<'static>> {
    Some(match call {
        "int" => Call::MakeInt(a, b),
        "float" => Call::MakeFloat(a, b),
        "ptr" => Call::GetMemPtr(a, b),
        "mem" => Call::GetMem(a, b),
        "meet" => Call::Meet(a, b),
        "isa" => Call::Isa(a, b),
        "join" => Call::Join(a, b),
        "find" => Call::Find(a, b),
        "find_alias" => Call::FindAlias(a, b),
        "offset" => Call::Offset(a, b),
        _ => return None,
    })
}
