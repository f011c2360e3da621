//! A script of calls: its lines, and the words, numbers and texts of a line, read just as the program `calls` reads them.
use crate::names;
use crate::spelling::grouped;
use std::io::{self, BufRead, BufReader, Read};

/// A line of this many bytes, its end not counted, is too long to be one. It also bounds the numbers and the bytes of a text in a line.
pub const LONGEST: usize = 262_144;

/// A line of the script, and what it says.
#[derive(Default)]
pub struct Line {
    /// Its number in the script, from 1.
    pub number: u64,
    /// Its bytes without the end, or as many of them as a line may not have.
    bytes: Vec<u8>,
    /// How many of them stand before the comment and the spaces that lead to it.
    cut: usize,
    pub numbers: Vec<u64>,
    pub text: Vec<u8>,
    /// What is wrong with its words, if something is.
    wrong: Option<String>,
}

/// What a line says: a name and numbers behind it.
pub type Said<'a> = (&'a str, &'a [u64]);

impl Line {
    /// The line without its comment.
    pub fn call(&self) -> &[u8] {
        &self.bytes[..self.cut]
    }

    /// The comment, from its `;` on; nothing where there is none.
    pub fn comment(&self) -> &[u8] {
        let spaces = self.bytes[self.cut..].iter().take_while(|byte| **byte == b' ').count();
        &self.bytes[self.cut + spaces..]
    }

    /// The call that the line names and its numbers, or nothing where it is empty but for a comment; or what is wrong with its words.
    pub fn said(&self) -> Result<Option<Said<'_>>, String> {
        match &self.wrong {
            Some(wrong) => Err(wrong.clone()),
            None if self.cut == 0 => Ok(None),
            None => Ok(Some((std::str::from_utf8(name(self.call())).unwrap_or_default(), &self.numbers))),
        }
    }

    fn is_too_long(&self) -> bool {
        self.bytes.len() >= LONGEST
    }

    /// Reads the words of the line.
    fn read_words(&mut self) {
        self.numbers.clear();
        self.text.clear();
        if self.is_too_long() {
            self.cut = LONGEST;
            self.wrong = Some(format!("the line has {} bytes or more", grouped(LONGEST as u64)));
            return;
        }
        self.cut = cut(&self.bytes);
        self.wrong = words(&self.bytes[..self.cut], &mut self.numbers, &mut self.text).err();
    }
}

/// The first word of a call.
pub fn name(call: &[u8]) -> &[u8] {
    call.split(|byte| *byte == b' ').next().unwrap_or_default()
}

/// How long a line is without its comment and the spaces before that.
fn cut(line: &[u8]) -> usize {
    match line.iter().position(|byte| *byte == b';') {
        Some(comment) => line[..comment].iter().rposition(|byte| *byte != b' ').map_or(0, |last| last + 1),
        None => line.len(),
    }
}

/// How many numbers stand before the text, for the calls that take one.
fn numbers_before_text(name: &[u8]) -> Option<usize> {
    match name {
        b"str" | b"load" | b"fadd" => Some(0),
        b"ary" => Some(4),
        _ => None,
    }
}

fn words(call: &[u8], numbers: &mut Vec<u64>, text: &mut Vec<u8>) -> Result<(), String> {
    match call {
        [b' ', ..] => return Err("a line begins with a word, not with a space".to_string()),
        [.., b'\r'] => return Err("the line ends in a carriage return".to_string()),
        _ => (),
    }
    if name(call) == b"save" {
        return save_words(call, numbers, text);
    }
    let before = numbers_before_text(name(call));
    let most = before.map_or(usize::MAX, |k| k + 2);
    let mut words = call.splitn(most, |byte| *byte == b' ').skip(1);
    for word in words.by_ref().take(before.unwrap_or(usize::MAX)) {
        numbers.push(number(word).ok_or_else(|| no_number(word))?);
    }
    match words.next() {
        Some(word) => read_text(word, text).ok_or_else(|| no_text(word)),
        None => Ok(()),
    }
}

/// The words of `save`: a number, and before it a text where there are two.
fn save_words(call: &[u8], numbers: &mut Vec<u64>, text: &mut Vec<u8>) -> Result<(), String> {
    let words: Vec<&[u8]> = call.split(|byte| *byte == b' ').skip(1).collect();
    let (label, length) = match words[..] {
        [length] => (None, length),
        [label, length] => (Some(label), length),
        _ => return Ok(()),
    };
    if let Some(label) = label {
        read_text(label, text).ok_or_else(|| no_text(label))?;
    }
    numbers.push(number(length).ok_or_else(|| no_number(length))?);
    Ok(())
}

/// The number that a word says: decimal digits; `-` before them for the two's complement; `0x` before hex digits.
pub fn number(word: &[u8]) -> Option<u64> {
    match word {
        [b'-', digits @ ..] => negative(unsigned(digits, 10, 20)?),
        [b'0', b'x', digits @ ..] => unsigned(digits, 16, 16),
        digits => unsigned(digits, 10, 20),
    }
}

/// One to `most` digits, whose value fits 64 bits.
fn unsigned(digits: &[u8], base: u32, most: usize) -> Option<u64> {
    if digits.is_empty() || digits.len() > most {
        return None;
    }
    digits.iter().try_fold(0_u64, |sum, byte| sum.checked_mul(base.into())?.checked_add(digit(*byte, base)?.into()))
}

fn digit(byte: u8, base: u32) -> Option<u32> {
    char::from(byte).to_digit(base)
}

/// The two's complement of a magnitude of at most 2^63.
fn negative(magnitude: u64) -> Option<u64> {
    (magnitude <= 1 << 63).then(|| magnitude.wrapping_neg())
}

/// A text: a pair of hex digits for each byte. After a space there is at least one.
fn read_text(word: &[u8], text: &mut Vec<u8>) -> Option<()> {
    if word.is_empty() || word.len() % 2 != 0 {
        return None;
    }
    for pair in word.chunks_exact(2) {
        text.push((16 * digit(pair[0], 16)? + digit(pair[1], 16)?) as u8);
    }
    Some(())
}

fn no_number(word: &[u8]) -> String {
    no_word(word, "is no number of 64 bits")
}

fn no_text(word: &[u8]) -> String {
    no_word(word, "is no text, which is pairs of hex digits")
}

fn no_word(word: &[u8], is_none: &str) -> String {
    match word {
        [] => "one space separates two words, and none ends the line".to_string(),
        _ => format!("'{}' {is_none}", shown(word)),
    }
}

/// The beginning of a word, for a message.
pub fn shown(word: &[u8]) -> String {
    names::escaped(word, &[], 40)
}

/// The lines of a script, one after the other.
pub struct Script<R> {
    input: BufReader<R>,
    pub line: Line,
}

impl<R: Read> Script<R> {
    pub fn new(input: R) -> Script<R> {
        Script { input: BufReader::with_capacity(1 << 16, input), line: Line::default() }
    }

    /// Whether the next line may have to be waited for.
    pub fn waits(&self) -> bool {
        self.input.buffer().is_empty()
    }

    /// Reads the next line, if there is one. A last line needs no end.
    pub fn next_line(&mut self) -> io::Result<bool> {
        self.line.bytes.clear();
        self.line.number += 1;
        let ended = self.take_until_end(LONGEST)?;
        if !ended && self.line.is_too_long() {
            self.input.skip_until(b'\n')?;
        }
        self.line.read_words();
        Ok(ended || !self.line.bytes.is_empty())
    }

    /// Takes bytes up to the line's end, which is passed over, but no more than `most`. Tells whether there was an end.
    fn take_until_end(&mut self, most: usize) -> io::Result<bool> {
        let bytes = &mut self.line.bytes;
        self.input.by_ref().take(most as u64).read_until(b'\n', bytes)?;
        let ended = bytes.last() == Some(&b'\n');
        if ended {
            bytes.pop();
        }
        Ok(ended)
    }
}
