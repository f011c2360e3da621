//! What a script keeps beside its list: the list as it once was, and a file.
use crate::script::Said;
use crate::spell::Answer;
use crate::spelling::grouped;
use ferigulan::calls;

/// What each byte of an output holds before a call.
const BLANK: u8 = 0x77;

/// Both are empty, as a script's list is at its beginning, until the script says otherwise.
pub struct Kept {
    list: Vec<u64>,
    /// The last file that was written, or what the script has made of it.
    file: Vec<u8>,
    /// How many bytes a file, and its output, may have.
    most: u64,
}

impl Kept {
    pub fn new(most: u64) -> Kept {
        Kept { list: Vec::new(), file: Vec::new(), most }
    }

    /// Answers a line about the list as it was, or about the file.
    pub fn answer(&mut self, words: &[u64], said: Said, text: &[u8]) -> Result<Option<Answer>, String> {
        match said {
            ("keep", []) => words.clone_into(&mut self.list),
            ("kept", []) => return Ok(Some(Answer::Flag(words == self.list))),
            ("save", &[length]) => return self.save(words, text, length).map(Some),
            ("file", []) => return Ok(Some(Answer::File(self.file.clone()))),
            ("fadd", []) => self.lengthen(text)?,
            ("fpoke", &[at, byte]) => *self.byte(at)? = u8::try_from(byte).map_err(|_| format!("{byte} is no byte"))?,
            ("fcut", &[length]) => self.file.truncate(usize::try_from(length).unwrap_or(usize::MAX)),
            _ => return Ok(None),
        }
        Ok(Some(Answer::Accepted))
    }

    /// Writes a store's file into an output of so many bytes, and keeps it.
    fn save(&mut self, words: &[u64], label: &[u8], length: u64) -> Result<Answer, String> {
        let mut output = vec![BLANK; self.fits(length)?];
        match calls::save(words, label, &mut output) {
            Ok(n) => {
                self.file = output[..n].to_vec();
                Ok(Answer::Saved(n, output))
            }
            Err(refusal) => Ok(Answer::Refused(refusal)),
        }
    }

    /// Fills the words from these bytes, or from the kept file.
    pub fn load(&self, words: &mut [u64], bytes: Option<&[u8]>) -> Result<Answer, String> {
        let file = bytes.unwrap_or(&self.file);
        self.fits(file.len() as u64)?;
        Ok(calls::load(words, file).map_or_else(Answer::Refused, |label| Answer::Loaded(file[..label].to_vec())))
    }

    fn lengthen(&mut self, text: &[u8]) -> Result<(), String> {
        self.fits((self.file.len() + text.len()) as u64)?;
        self.file.extend(text);
        Ok(())
    }

    fn byte(&mut self, at: u64) -> Result<&mut u8, String> {
        let n = self.file.len();
        let byte = usize::try_from(at).ok().and_then(|at| self.file.get_mut(at));
        byte.ok_or_else(|| format!("there is no byte {at} in a file of {n}"))
    }

    /// A length that a file may have.
    fn fits(&self, length: u64) -> Result<usize, String> {
        if length > self.most {
            return Err(format!("a file has at most {} bytes", grouped(self.most)));
        }
        Ok(length as usize)
    }
}
