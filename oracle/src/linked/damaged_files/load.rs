//! One load on both sides.

use crate::linked::by_c::ByC;
use crate::linked::by_crate::Plain;
use crate::linked::bytes::GuardedBytes;
use crate::linked::door::{are_kept, Door, Guarded};
use crate::linked::planted::Plant;
use crate::linked::typed::loaded;
use crate::linked::verdict::{answers, word};
use crate::random::Random;
use crate::script::Call;
use reading::Reply;

/// A file, and the list that it is loaded into.
pub struct Load<'f> {
    pub file: &'f [u8],
    pub length: usize,
    /// What the list holds before.
    pub seed: u64,
    pub is_by_c: bool,
    pub plant: Option<Plant>,
}

/// A load that shows a difference, and what differs.
pub struct Shown {
    file: Vec<u8>,
    words: Vec<u64>,
    is_by_c: bool,
    plant: Option<Plant>,
    what: String,
}

/// Lists hold this where any words will do.
const SEVEN: u64 = 7;

/// What the library has done, as the reading does it: the reply's row, 0 for accepted. Else what differs.
fn compared(before: &[u64], file: &[u8], is_by_c: bool, plant: Option<Plant>) -> Result<usize, String> {
    let mut wanted = before.to_vec();
    let reading = reading::load(&mut wanted, file);
    let mut list = Guarded::new(before.iter().copied());
    let lent = GuardedBytes::new(file.iter().copied(), file.len());
    let (words, guards) = list.split();
    let library = match is_by_c {
        true => loaded_by(&mut ByC::Plain(words), &lent, plant),
        false => loaded_by(&mut Plain(words), &lent, plant),
    };
    let library = library.map_err(|what| format!("; {what}"))?;
    if library != reading {
        return Err(answers(None, &loaded(reading), &loaded(library)));
    }
    if !are_kept(&guards) || !lent.are_guards_kept() || std::hint::black_box(lent.bytes()) != file {
        return Err("; a byte of the file, or something beside what was lent, was written".to_string());
    }
    if let Some(at) = (0..before.len()).find(|at| list.words()[*at] != wanted[*at]) {
        return Err(word("word", at, None, wanted[at], list.words()[at]));
    }
    match reading {
        Reply::Refused(row) => Ok(row.into()),
        Reply::Number(label) => written_again(&mut list, file, label as usize, is_by_c).map(|()| 0),
        other => unreachable!("a loader answers {other:?}"),
    }
}

fn loaded_by(door: &mut dyn Door, file: &GuardedBytes, plant: Option<Plant>) -> Result<Reply, String> {
    match plant {
        Some(plant) => plant.load(door, file.bytes()),
        None => door.load(file.bytes()),
    }
}

/// "It takes just the files that the writer makes": what was loaded is written as the same bytes.
fn written_again(list: &mut Guarded, file: &[u8], label: usize, is_by_c: bool) -> Result<(), String> {
    let mut output = GuardedBytes::new(std::iter::repeat_n(0, file.len()), label);
    let words = list.split().0;
    let reply = match is_by_c {
        true => ByC::Plain(words).save(&file[..label], output.bytes_mut()),
        false => Plain(words).save(&file[..label], output.bytes_mut()),
    };
    match reply? == Reply::Number(file.len() as u64) && output.bytes() == file && output.are_guards_kept() {
        true => Ok(()),
        false => Err("; it was loaded, and is not written again as the same bytes".to_string()),
    }
}

impl Load<'_> {
    /// The row of the reply, 0 for accepted.
    pub fn compare(&self) -> Result<usize, Shown> {
        let mut random = Random::new(self.seed);
        let words: Vec<u64> = (0..self.length).map(|_| random.word()).collect();
        compared(&words, self.file, self.is_by_c, self.plant).map_err(|what| self.shown(words, what))
    }

    /// The difference, on a list of sevens if these show it too.
    fn shown(&self, words: Vec<u64>, what: String) -> Shown {
        let sevens = vec![SEVEN; self.length];
        let (words, what) = match compared(&sevens, self.file, self.is_by_c, self.plant) {
            Err(what) => (sevens, what),
            Ok(_) => (words, what),
        };
        Shown { file: self.file.to_vec(), words, is_by_c: self.is_by_c, plant: self.plant, what }
    }
}

impl Shown {
    /// The script that shows it, with as short a file as it finds.
    pub fn script(mut self) -> Vec<String> {
        for size in [64, 8, 1] {
            self.shorten(size);
        }
        let way = if self.is_by_c { "the functions as C declares them" } else { "the crate" };
        let mut lines = vec![format!("; by {way}"), format!("list {} {SEVEN} ; => ok", self.words.len())];
        let others = self.words.iter().enumerate().filter(|(_, word)| **word != SEVEN);
        lines.extend(others.map(|(at, word)| format!("poke {at} {word} ; => ok")));
        let call = Call { name: "load", numbers: vec![], text: self.file };
        lines.push(format!("{call} {}", self.what));
        lines
    }

    /// Leaves out so many bytes of the file at a time, wherever a difference stays.
    fn shorten(&mut self, size: usize) {
        let mut at = 0;
        while at + size <= self.file.len() {
            let shorter = [&self.file[..at], &self.file[at + size..]].concat();
            let all = [fitting(&shorter, size), Some(shorter)];
            if !all.into_iter().flatten().any(|file| self.takes(file)) {
                at += 1;
            }
        }
    }

    fn takes(&mut self, file: Vec<u8>) -> bool {
        match compared(&self.words, &file, self.is_by_c, self.plant) {
            Ok(_) => false,
            Err(what) => {
                (self.file, self.what) = (file, what);
                true
            }
        }
    }
}

/// A file that has lost so many bytes of words, with their number lowered.
fn fitting(file: &[u8], lost: usize) -> Option<Vec<u8>> {
    let at = file.len().checked_sub(8)?;
    let mut eight = [0; 8];
    eight.copy_from_slice(&file[at..]);
    let number = u64::from_le_bytes(eight).checked_sub(lost as u64 / 8).filter(|_| lost % 8 == 0)?;
    Some([&file[..at], &number.to_le_bytes()].concat())
}
