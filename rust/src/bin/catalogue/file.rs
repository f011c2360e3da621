//! Files: their bytes, and the library's answer to them.
use crate::reason::Reason;
use crate::shared::command::{input, usage, Failure};
use crate::spelling::grouped;
use crate::wrong::LONGEST;
use ferigulan::{calls, Refusal, LONGEST_FILE};
use std::ffi::OsStr;
use std::io::Read;

/// No more than this is read of a file: twice what the longest catalogue has, so that one which is too long by little gets its reason.
const MOST: usize = 2 * LONGEST_FILE;

/// A file as it was read.
pub struct Bytes {
    pub name: String,
    pub bytes: Vec<u8>,
}

impl Bytes {
    pub fn read(file: &OsStr) -> Result<Bytes, Failure> {
        let (name, input) = input(file)?;
        let mut bytes = Vec::new();
        match input.take(MOST as u64 + 1).read_to_end(&mut bytes) {
            Ok(_) => Ok(Bytes { name, bytes }),
            Err(error) => Err(Failure::Read(name, error)),
        }
    }

    /// Why the library is not even asked, where the file is far too long.
    pub fn too_long(&self) -> Option<String> {
        let longest = grouped(LONGEST_FILE as u64);
        (self.bytes.len() > MOST).then(|| format!("more than {} bytes, and no catalogue has more than {longest}", grouped(MOST as u64)))
    }

    /// The catalogue that the file is, by the library: it loads it into a list as long as lists get.
    pub fn load(&self) -> Result<Catalogue, Refusal> {
        let mut words = vec![0; LONGEST];
        let label = calls::load(&mut words, &self.bytes)?;
        words.truncate(words[0] as usize);
        Ok(Catalogue { label: self.bytes[..label].to_vec(), words })
    }
}

/// A saved store: the used words, the fresh ones among them.
pub struct Catalogue {
    pub label: Vec<u8>,
    pub words: Vec<u64>,
}

/// A file that has to be a catalogue.
pub fn good(file: &OsStr) -> Result<(Bytes, Catalogue), Failure> {
    let bytes = Bytes::read(file)?;
    if let Some(why) = bytes.too_long() {
        return usage(format!("{}: no catalogue: {why}", bytes.name));
    }
    match bytes.load() {
        Ok(catalogue) => Ok((bytes, catalogue)),
        Err(refusal) => {
            let why = Reason::of(&bytes.bytes).map_or(refusal.to_string(), |reason| reason.lines.join("; "));
            usage(format!("{}: no catalogue, {}: {why}", bytes.name, refusal.number()))
        }
    }
}
