//! A run of a script: the list that it lends to calls, and the lines about that list itself.
use crate::kept::Kept;
use crate::page::Page;
use crate::script::{Line, Said, Script};
use crate::spell::Answer;
use crate::spelling::grouped;
use crate::table::{self, Lent, Usage};
use crate::wrong::LONGEST;
use crate::{usage, Failure};
use ferigulan::{calls, index_len, memory_len, OpenedStore, Store, LONGEST_FILE};
use std::io::Read;

/// How many words a list and an output may have, and how many bytes a file.
#[derive(Clone, Copy)]
pub struct Limits {
    pub words: u64,
    pub output: u64,
    pub file: u64,
}

/// The room that the program `calls` has.
pub const SHORT: Limits = Limits { words: 65_536, output: 4_096, file: 65_536 };

/// As many words as a store may have.
pub const LONG: Limits = Limits { words: LONGEST as u64, output: LONGEST as u64, file: LONGEST_FILE as u64 };

/// The lines about the list.
pub const LINES: &[Usage] = &[
    Usage { name: "list", arguments: "N", call: "", does: "a lent list of N words, each 0" },
    Usage { name: "list", arguments: "N V", call: "", does: "a lent list of N words, each V" },
    Usage { name: "fresh", arguments: "", call: "fresh", does: "a fresh store in the list" },
    Usage { name: "fresh", arguments: "N", call: "fresh", does: "a fresh store in a new list of N words" },
    Usage { name: "poke", arguments: "I V", call: "", does: "sets word I to V" },
    Usage { name: "peek", arguments: "I", call: "", does: "reads word I" },
    Usage { name: "dump", arguments: "", call: "", does: "the used words, or the entries that they are" },
    Usage { name: "dumpall", arguments: "", call: "", does: "all words" },
    Usage { name: "check", arguments: "", call: "well_formed", does: "whether the words are well formed" },
    Usage { name: "find_entry", arguments: "W..", call: "find_entry", does: "looks for an entry by its words" },
    Usage { name: "keep", arguments: "", call: "", does: "remembers the list, all its words" },
    Usage { name: "kept", arguments: "", call: "", does: "whether the list is as it was then" },
    Usage { name: "save", arguments: "OUTLEN", call: "", does: "the store's file, into OUTLEN bytes; kept" },
    Usage { name: "save", arguments: "HEX OUTLEN", call: "save", does: "the same with a label" },
    Usage { name: "load", arguments: "HEX", call: "load", does: "fills the list from a file's bytes" },
    Usage { name: "reload", arguments: "", call: "", does: "fills the list from the kept file" },
    Usage { name: "file", arguments: "", call: "", does: "the kept file" },
    Usage { name: "fadd", arguments: "HEX", call: "", does: "adds bytes to its end" },
    Usage { name: "fpoke", arguments: "I B", call: "", does: "sets its byte I to B" },
    Usage { name: "fcut", arguments: "N", call: "", does: "cuts it to at most N bytes" },
    Usage { name: "open", arguments: "", call: "open", does: "opens the store: the same answers, sooner" },
    Usage { name: "close", arguments: "", call: "", does: "closes it; so do poke, list, fresh and load" },
];

/// What a line gives: nothing where it is empty, an answer, or why it is no call.
pub enum Reply {
    Nothing,
    Answer(Answer),
    Malformed(String),
}

pub struct Session {
    limits: Limits,
    words: Vec<u64>,
    /// Lent for an opened store.
    index: Vec<u64>,
    memory: Vec<u64>,
    /// Lent to a call that fills one.
    output: Vec<u64>,
    kept: Kept,
}

impl Session {
    pub fn new(limits: Limits) -> Session {
        let kept = Kept::new(limits.file);
        Session { limits, words: Vec::new(), index: Vec::new(), memory: Vec::new(), output: Vec::new(), kept }
    }

    /// Runs a script to its end.
    pub fn run<R: Read>(&mut self, script: &mut Script<R>, page: &mut Page) -> Result<(), Failure> {
        let mut more = advance(script, page)?;
        while more {
            if matches!(script.line.said(), Ok(Some(("open", [])))) {
                more = self.run_opened(script, page)?;
            } else {
                let reply = reply(&script.line, |said| self.answer(said, &script.line.text));
                page.put(&script.line, &reply, &self.words, &self.output)?;
                more = advance(script, page)?;
            }
        }
        Ok(())
    }

    /// Opens the list, and runs lines on the opened store as long as it is one: up to a line that writes the list by itself, or opens it
    /// again, which is not run here. Tells whether there is such a line. The lists are borrowed all that time.
    fn run_opened<R: Read>(&mut self, script: &mut Script<R>, page: &mut Page) -> Result<bool, Failure> {
        let n = self.words.len();
        self.index.resize(index_len(n), 0);
        self.memory.resize(memory_len(n), 0);
        let mut store = Store::from_words(&mut self.words);
        let opened = store.as_mut().map_err(|refusal| *refusal).and_then(|store| store.open(&mut self.index, &mut self.memory));
        let mut opened = match opened {
            Ok(opened) => opened,
            Err(refusal) => {
                page.put(&script.line, &Reply::Answer(Answer::Refused(refusal)), &[], &[])?;
                return advance(script, page);
            }
        };
        page.put(&script.line, &Reply::Answer(Answer::Accepted), &[], &[])?;
        while advance(script, page)? {
            if ends_opened(&script.line) {
                return Ok(true);
            }
            let mut lent = Lent { text: &script.line.text, output: &mut self.output, most_output: self.limits.output };
            let reply = reply(&script.line, |said| answer_opened(&mut opened, said, &mut lent, &mut self.kept));
            page.put(&script.line, &reply, opened.words(), &self.output)?;
        }
        Ok(false)
    }

    /// Answers a line on the list as it is, the plain way.
    fn answer(&mut self, said: Said, text: &[u8]) -> Result<Option<Answer>, String> {
        if let Some(answer) = self.change(said, text)? {
            return Ok(Some(answer));
        }
        if let Some(answer) = look(&self.words, said, text, &mut self.kept)? {
            return Ok(Some(answer));
        }
        let mut lent = Lent { text, output: &mut self.output, most_output: self.limits.output };
        table::plain(&mut self.words, said.0, said.1, &mut lent)
    }

    /// The lines that write the list by themselves.
    fn change(&mut self, said: Said, text: &[u8]) -> Result<Option<Answer>, String> {
        match said {
            ("list", &[n]) => self.list(n, 0)?,
            ("list", &[n, value]) => self.list(n, value)?,
            ("fresh", []) => return Ok(Some(self.fresh())),
            ("fresh", &[n]) => {
                self.list(n, 0)?;
                return Ok(Some(self.fresh()));
            }
            ("poke", &[i, value]) => {
                let at = place(&self.words, i)?;
                self.words[at] = value;
            }
            ("load", []) => return self.kept.load(&mut self.words, Some(text)).map(Some),
            ("reload", []) => return self.kept.load(&mut self.words, None).map(Some),
            ("close", []) => (),
            _ => return Ok(None),
        }
        Ok(Some(Answer::Accepted))
    }

    /// A list of n words, each the value.
    fn list(&mut self, n: u64, value: u64) -> Result<(), String> {
        if n > self.limits.words {
            return Err(format!("a list has at most {} words", grouped(self.limits.words)));
        }
        self.words.clear();
        self.words.resize(n as usize, value);
        Ok(())
    }

    fn fresh(&mut self) -> Answer {
        calls::fresh(&mut self.words).map_or_else(Answer::Refused, |()| Answer::Accepted)
    }
}

/// Reads the next line. What was answered so far is written out before one has to be waited for.
fn advance<R: Read>(script: &mut Script<R>, page: &mut Page) -> Result<bool, Failure> {
    if script.waits() {
        page.flush()?;
    }
    script.next_line().map_err(|error| Failure::Read(page.script().to_string(), error))
}

/// What a line gives, where `answer` answers those that say something.
fn reply(line: &Line, answer: impl FnOnce(Said) -> Result<Option<Answer>, String>) -> Reply {
    let said = match line.said() {
        Ok(Some(said)) => said,
        Ok(None) => return Reply::Nothing,
        Err(wrong) => return Reply::Malformed(wrong),
    };
    match answer(said) {
        Ok(Some(answer)) => Reply::Answer(answer),
        Ok(None) => Reply::Malformed(usage::why(line.call(), said)),
        Err(wrong) => Reply::Malformed(wrong),
    }
}

/// Whether an opened store is one no longer at this line.
fn ends_opened(line: &Line) -> bool {
    matches!(
        line.said(),
        Ok(Some(("list", [_] | [_, _]) | ("fresh", [] | [_]) | ("poke", [_, _]) | ("open" | "close" | "load" | "reload", [])))
    )
}

/// Answers a line on an opened store.
fn answer_opened(store: &mut OpenedStore, said: Said, lent: &mut Lent, kept: &mut Kept) -> Result<Option<Answer>, String> {
    if let Some(answer) = look(store.words(), said, lent.text, kept)? {
        return Ok(Some(answer));
    }
    table::opened(store, said.0, said.1, lent)
}

/// The lines that read the list, and those about what is kept.
fn look(words: &[u64], said: Said, text: &[u8], kept: &mut Kept) -> Result<Option<Answer>, String> {
    Ok(Some(match said {
        ("peek", &[i]) => Answer::Number(words[place(words, i)?]),
        ("dump", []) => Answer::Used,
        ("dumpall", []) => Answer::All,
        ("check", []) => Answer::Flag(calls::well_formed(words)),
        // an entry has a word at least, its head
        ("find_entry", entry @ [_, ..]) => calls::find_entry(words, entry).map_or_else(Answer::Refused, Answer::Search),
        _ => return kept.answer(words, said, text),
    }))
}

/// The place of a word of the list.
fn place(words: &[u64], i: u64) -> Result<usize, String> {
    let n = words.len();
    usize::try_from(i).ok().filter(|i| *i < n).ok_or_else(|| format!("there is no word {i} in a list of {n}"))
}
