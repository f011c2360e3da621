// A call with its arguments: how it is run, what it tells, and the line of a script that makes it. The functions are in functions.rs.
use crate::functions::{Function, Plain};
#[cfg(opened)]
use crate::open_store::Open;

// Answers from here on are refusals.
pub const REFUSED: u64 = 1 << 63;

extern "C" {
    pub fn ferigulan_well_formed(words: *const u64, n: usize) -> bool;
    pub fn ferigulan_fresh(words: *mut u64, n: usize) -> u32;
}

// Row 1, as the library tests it.
pub fn well_formed(words: &[u64]) -> bool {
    unsafe { ferigulan_well_formed(words.as_ptr(), words.len()) }
}

// The archive whose function is called.
pub type Library = fn(&'static Function) -> Plain;
pub const NEW: Library = |f| f.plain;
#[cfg(old)]
pub const OLD: Option<Library> = Some(|f| f.old.expect("the old library is asked for the first calls alone"));
#[cfg(not(old))]
pub const OLD: Option<Library> = None;

// How a script tells an answer.
#[cfg_attr(not(told), allow(dead_code))]
pub enum Form {
    Number,
    Signed,
    NumberOrAbsent,
    SignedOrAbsent,
    Reading,
    Filled,
}

// What calls are lent for their answers.
pub struct Lent {
    pub which: u64,
    pub answer: u64,
    pub output: Vec<u64>,
}

impl Lent {
    // With room for the longest output: four words for each of 255 fields.
    #[cfg(opened)]
    pub fn new() -> Lent {
        Lent { which: 0, answer: 0, output: vec![0; 4 * 255] }
    }

    // The answer that is here, as scripts tell it.
    fn told(&self, form: &Form) -> String {
        let Lent { which, answer, output } = self;
        let signed = *answer as i64;
        match (form, which) {
            (Form::NumberOrAbsent | Form::SignedOrAbsent, 0) => "absent".to_string(),
            (Form::Number | Form::NumberOrAbsent, _) => answer.to_string(),
            (Form::Signed | Form::SignedOrAbsent, _) => format!("={signed}"),
            (Form::Reading, 0) => format!("size ={signed}"),
            (Form::Reading, _) => format!("constant {answer}"),
            (Form::Filled, _) => output[..*answer as usize].iter().fold(format!("{answer} :"), |s, w| s + &format!(" {w}")),
        }
    }
}

#[derive(Clone)]
pub struct Call {
    pub of: &'static Function,
    // the last of these are 0 where the function takes fewer
    pub numbers: [u64; 4],
    pub list: Box<[u64]>,
    pub text: Box<[u8]>,
}

impl Call {
    pub fn new(of: &'static Function, given: &[u64]) -> Call {
        let mut numbers = [0; 4];
        numbers[..given.len()].copy_from_slice(given);
        Call { of, numbers, list: Box::new([]), text: Box::new([]) }
    }

    pub fn with_list(of: &'static Function, given: &[u64], list: &[u64]) -> Call {
        Call { list: list.into(), ..Call::new(of, given) }
    }

    pub fn with_text(of: &'static Function, given: &[u64], text: &[u8]) -> Call {
        Call { text: text.into(), ..Call::new(of, given) }
    }

    pub fn name(&self) -> &'static str {
        self.of.name
    }

    // What a plain call tells, as one word: its answer, or its refusal's number above REFUSED. No answer that is asked for this way comes
    // near that.
    #[inline(always)]
    pub fn run(&self, library: Library, words: &mut [u64]) -> u64 {
        let mut lent = Lent { which: 0, answer: 0, output: Vec::new() };
        match library(self.of)(words, self, &mut lent) {
            0 => lent.answer,
            n => REFUSED + u64::from(n),
        }
    }

    #[cfg(opened)]
    #[inline(always)]
    pub fn plain(&self, words: &mut [u64], lent: &mut Lent) -> u32 {
        (self.of.plain)(words, self, lent)
    }

    #[cfg(opened)]
    #[inline(always)]
    pub fn opened(&self, s: &mut Open, lent: &mut Lent) -> u32 {
        (self.of.opened)(s, self, lent)
    }

    // What the call told, which was just made and was not refused, in a script's words.
    #[cfg_attr(not(opened), allow(dead_code))]
    pub fn told(&self, refused: u32, lent: &Lent) -> String {
        assert_eq!(refused, 0, "refused: {}", self.line());
        lent.told(&self.of.form)
    }

    // The line of a script that makes the same call. An empty text is nothing: a space at the end would make the line no call.
    pub fn line(&self) -> String {
        let mut line = self.of.script.to_string();
        for number in self.numbers[..self.of.numbers].iter().chain(&self.list) {
            line += &format!(" {number}");
        }
        if !self.text.is_empty() {
            line += " ";
        }
        self.text.iter().for_each(|byte| line += &format!("{byte:02x}"));
        line
    }
}

// The calls that make a type, or a name.
pub mod make {
    use super::Call;
    use crate::functions::of;

    pub fn int(min: u64, max: u64) -> Call {
        Call::new(&of::make_int, &[min, max])
    }

    // A constant.
    pub fn float(x: f64) -> Call {
        Call::new(&of::make_float, &[0, x.to_bits()])
    }

    pub fn tuple(types: &[u64]) -> Call {
        Call::with_list(&of::get_tuple, &[], types)
    }

    pub fn name(text: &[u8]) -> Call {
        Call::with_text(&of::get_str, &[], text)
    }

    // Four words a field: name, type, alias, final.
    pub fn structure(name: u64, fields: &[u64]) -> Call {
        Call::with_list(&of::get_struct, &[name], fields)
    }

    pub fn fref(name: u64) -> Call {
        Call::new(&of::make_struct_fref, &[name])
    }

    pub fn pointer(to: u64, nil: u64) -> Call {
        Call::new(&of::get_mem_ptr, &[to, nil])
    }

    pub fn memory(alias: u64, t: u64) -> Call {
        Call::new(&of::get_mem, &[alias, t])
    }

    pub fn array(length: u64, length_alias: u64, body: u64, body_alias: u64, text: &[u8]) -> Call {
        Call::with_text(&of::make_ary, &[length, length_alias, body, body_alias], text)
    }
}
