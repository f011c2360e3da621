//! A lent list on which each call is run in both ways, plain and held, and asked for what every call must keep.
#![allow(dead_code)]

use reading::{answer, load, save, well_formed, Call, Held, Reply};

pub struct List {
    pub words: Vec<u64>,
}

impl List {
    pub fn fresh(length: usize) -> List {
        let mut list = List { words: vec![7; length] };
        assert_eq!(list.call(&Call::Fresh), Reply::Done);
        list
    }

    pub fn call(&mut self, call: &Call) -> Reply {
        self.call_with(call, &mut [])
    }

    /// The call. Checked besides: the held way answers and leaves the same; a refusal changes nothing; what is answered once is answered
    /// again with nothing appended.
    pub fn call_with(&mut self, call: &Call, output: &mut [u64]) -> Reply {
        let (words, before) = (self.words.clone(), output.to_vec());
        let reply = answer(&mut self.words, call, output);
        if let Reply::Refused(_) = reply {
            assert!(self.words == words && output == before, "{call:?} is refused and changes a word");
        }
        self.check_held(call, (words, before), reply, output);
        let (words, after) = (self.words.clone(), output.to_vec());
        assert_eq!(answer(&mut self.words, call, output), reply, "{call:?} the second time");
        assert!(self.words == words && output == after, "{call:?} changes a word the second time");
        reply
    }

    fn check_held(&self, call: &Call, (words, mut held_output): (Vec<u64>, Vec<u64>), reply: Reply, output: &[u64]) {
        match Held::new(words) {
            Err(words) => assert!(!well_formed(&words) && (reply == Reply::Refused(1) || *call == Call::Fresh)),
            Ok(mut held) => {
                assert_eq!(held.answer(call, &mut held_output), reply, "{call:?} held");
                assert!(held.words() == self.words && held_output == output, "{call:?} held leaves other words");
                assert!(well_formed(held.words()));
            }
        }
    }

    /// Writes a file. Checked besides: what a refusal and the bytes past the file must keep; the same bytes again the second time.
    pub fn save(&mut self, label: &[u8], output: &mut [u8]) -> Reply {
        let before = output.to_vec();
        let reply = save(&self.words, label, output);
        let written = match reply {
            Reply::Number(length) => length as usize,
            _ => 0,
        };
        assert!(output[written..] == before[written..], "a writer changes a byte past its file");
        let after = output.to_vec();
        assert_eq!(save(&self.words, label, output), reply);
        assert!(output == after, "a writer writes other bytes the second time");
        reply
    }

    /// Loads a file. Checked besides: a refusal changes nothing; what is filled is a store, and the same the second time.
    pub fn load(&mut self, file: &[u8]) -> Reply {
        let before = self.words.clone();
        let reply = load(&mut self.words, file);
        match reply {
            Reply::Refused(_) => assert!(self.words == before, "a refused load changes a word"),
            _ => assert!(well_formed(&self.words), "what is loaded is no store"),
        }
        let after = self.words.clone();
        assert_eq!(load(&mut self.words, file), reply);
        assert!(self.words == after, "a load changes a word the second time");
        reply
    }

    /// The file of these words under a label.
    pub fn file(&mut self, label: &[u8]) -> Vec<u8> {
        let mut output = vec![7; label.len() + 8 * self.words.len()];
        match self.save(label, &mut output) {
            Reply::Number(length) => output[..length as usize].to_vec(),
            other => panic!("a writer answers {other:?}"),
        }
    }

    pub fn handle(&mut self, call: &Call) -> u64 {
        match self.call(call) {
            Reply::Handle(handle) => handle,
            other => panic!("{call:?} answers {other:?}"),
        }
    }

    pub fn refused(&mut self, call: &Call) -> u8 {
        match self.call(call) {
            Reply::Refused(row) => row,
            other => panic!("{call:?} answers {other:?}"),
        }
    }

    pub fn int(&mut self, min: i64, max: i64) -> u64 {
        self.handle(&Call::MakeInt(min as u64, max as u64))
    }

    pub fn float(&mut self, value: f64) -> u64 {
        self.handle(&Call::GetFloat(value.to_bits()))
    }

    pub fn name(&mut self, bytes: &[u8]) -> u64 {
        self.handle(&Call::GetStr(bytes))
    }

    pub fn ends(&mut self, a: u64) -> (i64, i64) {
        match (self.call(&Call::IntMin(a)), self.call(&Call::IntMax(a))) {
            (Reply::Signed(min), Reply::Signed(max)) => (min, max),
            other => panic!("the ends of {a} are {other:?}"),
        }
    }

    /// Appends an entry's words as damage does, without a search for an equal one. Its handle.
    pub fn append(&mut self, entry: &[u64]) -> u64 {
        let at = self.words[0] as usize;
        self.words[at..at + entry.len()].copy_from_slice(entry);
        self.words[0] += entry.len() as u64;
        assert!(well_formed(&self.words), "the entry {entry:?} is damage that row 1 sees");
        at as u64
    }

    /// Appends a copy of the first `length` words of an entry: all of it.
    pub fn copy(&mut self, handle: u64, length: usize) -> u64 {
        let at = handle as usize;
        let entry = self.words[at..at + length].to_vec();
        self.append(&entry)
    }

    pub fn used(&self) -> u64 {
        self.words[0]
    }
}
