//! Arguments as words, and answers from words.
use crate::{Handle, Kind, Reading, Search};

/// The type of an argument: `Word` is what a caller may get wrong, and comes as anything that is a word (a flag, an alias).
macro_rules! argument {
    (Word) => { impl Into<u64> };
    ($type:ident) => { $type };
}

/// An argument as a word.
macro_rules! word {
    (Handle, $argument:ident) => {
        $argument.word()
    };
    (Word, $argument:ident) => {
        $argument.into()
    };
    (u64, $argument:ident) => {
        $argument
    };
    (i64, $argument:ident) => {
        $argument as u64
    };
    (f64, $argument:ident) => {
        $argument.to_bits()
    };
}

pub(crate) use {argument, word};

/// An answer, from the word or words `W` that a call told it with.
pub(crate) trait Told<W> {
    fn told(words: W) -> Self;
}

impl Told<u64> for u64 {
    fn told(word: u64) -> u64 {
        word
    }
}

// How many words or bytes were filled, no more than the output's length; or the length of a label, which the file holds.
impl Told<u64> for usize {
    fn told(word: u64) -> usize {
        word as usize
    }
}

impl Told<u64> for i64 {
    fn told(word: u64) -> i64 {
        word as i64
    }
}

// A Float's size: 0, ±32 or ±64.
impl Told<u64> for i8 {
    fn told(word: u64) -> i8 {
        word as i8
    }
}

impl Told<u64> for f64 {
    fn told(word: u64) -> f64 {
        f64::from_bits(word)
    }
}

impl Told<u64> for bool {
    fn told(word: u64) -> bool {
        word != 0
    }
}

impl Told<u64> for Handle {
    fn told(word: u64) -> Handle {
        Handle::new(word)
    }
}

impl Told<u64> for Kind {
    fn told(word: u64) -> Kind {
        Kind::from_number(word).expect("a kind is one of 0 to 11")
    }
}

impl<T: Told<u64>> Told<(u64, u64)> for Option<T> {
    fn told((which, word): (u64, u64)) -> Option<T> {
        (which != 0).then(|| T::told(word))
    }
}

impl Told<(u64, u64)> for Reading {
    fn told((which, word): (u64, u64)) -> Reading {
        if which != 0 {
            Reading::Constant(f64::told(word))
        } else {
            Reading::Sized(i8::told(word))
        }
    }
}

impl Told<(u64, u64, u64)> for Search {
    fn told((which, count, word): (u64, u64, u64)) -> Search {
        Search { handle: Option::told((which, word)), count }
    }
}
