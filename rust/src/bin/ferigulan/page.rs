//! What the program writes of a run: plain, as the program `calls` does, or with the types in a readable form.
use crate::names::escaped;
use crate::progress::Progress;
use crate::script::Line;
use crate::session::Reply;
use crate::show;
use crate::spell::Answer;
use crate::wrong;
use crate::Failure;
use std::io::{self, BufWriter, Stdout, Write};

#[derive(Clone, Copy, PartialEq)]
pub enum Form {
    Plain,
    Readable,
}

/// A call is shown with at most this many characters.
const LONGEST: usize = 120;

pub struct Page {
    out: BufWriter<Stdout>,
    form: Form,
    /// What the script is called in messages.
    script: String,
    progress: Progress,
    /// How many lines were no calls.
    pub malformed: u64,
}

impl Page {
    pub fn new(form: Form) -> Page {
        Page { out: BufWriter::with_capacity(1 << 16, io::stdout()), form, script: String::new(), progress: Progress::new(), malformed: 0 }
    }

    pub fn script(&self) -> &str {
        &self.script
    }

    /// Begins with another script.
    pub fn begin(&mut self, script: String) {
        self.script = script;
    }

    /// Writes out what waits.
    pub fn flush(&mut self) -> Result<(), Failure> {
        self.out.flush().map_err(Failure::Write)
    }

    /// Ends the run.
    pub fn end(&mut self) -> Result<(), Failure> {
        self.progress.clear();
        self.flush()
    }

    /// Writes a line's answer. The words and the output are as the line left them.
    pub fn put(&mut self, line: &Line, reply: &Reply, words: &[u64], output: &[u64]) -> Result<(), Failure> {
        self.progress.line(&self.script, line.number);
        if let Reply::Malformed(_) = reply {
            self.malformed += 1;
        }
        match self.form {
            Form::Plain => self.put_plain(line, reply, words, output),
            Form::Readable => self.put_readable(line, reply, words, output),
        }
        .map_err(Failure::Write)
    }

    fn put_plain(&mut self, line: &Line, reply: &Reply, words: &[u64], output: &[u64]) -> io::Result<()> {
        match reply {
            Reply::Nothing => Ok(()),
            Reply::Answer(answer) => writeln!(self.out, "{}", answer.plain(words, output)),
            Reply::Malformed(_) => {
                self.out.write_all(b"? ")?;
                self.out.write_all(line.call())?;
                self.out.write_all(b"\n")
            }
        }
    }

    /// One line for each of the script: the call, the answer as it is in the plain form, what it means, and the comment.
    fn put_readable(&mut self, line: &Line, reply: &Reply, words: &[u64], output: &[u64]) -> io::Result<()> {
        match reply {
            Reply::Nothing => writeln!(self.out, "{}", shown_comment(line)),
            Reply::Answer(Answer::Used) => {
                self.columns(line, &wrong::used(words).to_string(), &format!("words used, {}", show::verdict(words)))?;
                show::entries_made(words, &mut self.out)
            }
            Reply::Answer(answer) => self.columns(line, &answer.plain(words, output), &answer.meaning(words)),
            Reply::Malformed(why) => {
                self.columns(line, "?", "")?;
                self.out.flush()?;
                self.progress.clear();
                let _ = writeln!(io::stderr(), "{}:{}: {why}", self.script, line.number);
                Ok(())
            }
        }
    }

    fn columns(&mut self, line: &Line, answer: &str, meaning: &str) -> io::Result<()> {
        let row = format!("{:<28} => {answer:<6} {meaning}", escaped(line.call(), &[], LONGEST));
        let row = format!("{:<70}  {}", row.trim_end(), shown_comment(line));
        writeln!(self.out, "{}", row.trim_end())
    }
}

fn shown_comment(line: &Line) -> String {
    escaped(line.comment(), &[], usize::MAX)
}
