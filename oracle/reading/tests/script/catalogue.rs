//! The lines of a saved catalogue (document 02, Slip 3): the calls, and what is done to the file that is kept.

use super::{bytes, number, Script};
use reading::Reply;

/// As many bytes has a file of a script, and an output that one is written into.
const MOST_BYTES: usize = 65_536;

/// What the output holds before a file is written.
const BEFORE: u8 = 0x77;

fn hex(bytes: &[u8]) -> String {
    bytes.iter().map(|byte| format!("{byte:02x}")).collect()
}

fn done() -> Option<String> {
    Some("ok".to_string())
}

impl Script {
    pub(super) fn on_the_file(&mut self, call: &str, rest: &str) -> Option<String> {
        match (call, rest) {
            ("save", _) => {
                let (label, length) = rest.rsplit_once(' ').unwrap_or(("", rest));
                self.save(&bytes(label)?, number(length)? as usize)
            }
            ("load", _) => self.load(&bytes(rest)?),
            ("reload", "") => self.load(&self.file.clone()),
            ("file", "") => Some(hex(&self.file)),
            ("fpoke", _) => {
                let (at, byte) = rest.split_once(' ')?;
                *self.file.get_mut(number(at)? as usize)? = u8::try_from(number(byte)?).ok()?;
                done()
            }
            ("fcut", _) => {
                self.file.truncate(number(rest)? as usize);
                done()
            }
            ("fadd", _) => {
                let more = bytes(rest)?;
                if self.file.len() + more.len() > MOST_BYTES {
                    return None;
                }
                self.file.extend(more);
                done()
            }
            _ => None,
        }
    }

    /// An accepted file is kept.
    fn save(&mut self, label: &[u8], length: usize) -> Option<String> {
        if length > MOST_BYTES {
            return None;
        }
        let mut output = vec![BEFORE; length];
        Some(match self.on_words(|list| list.save(label, &mut output)) {
            Reply::Number(n) => {
                self.file = output[..n as usize].to_vec();
                format!("{n} : {}", hex(&output))
            }
            Reply::Refused(row) => format!("-{row}"),
            other => panic!("a writer answers {other:?}"),
        })
    }

    fn load(&mut self, file: &[u8]) -> Option<String> {
        Some(match self.on_words(|list| list.load(file)) {
            Reply::Number(n) => n.to_string(),
            Reply::Refused(row) => format!("-{row}"),
            other => panic!("a loader answers {other:?}"),
        })
    }
}
