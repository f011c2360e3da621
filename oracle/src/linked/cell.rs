//! The words for the answer that a function is lent in C, with guard words around them.

use reading::Reply;

/// What stands around the words for the answer, and what stands in them before a call.
const GUARD: u64 = 0x0dd5_0dd5_0dd5_0dd5;
const BEFORE: u64 = 0xe5e5_0000_0000_e5e5;

/// One object, so that a function that writes past a word writes a guard.
#[repr(C)]
pub struct Cell {
    guards: [u64; 4],
    which: u64,
    between: [u64; 4],
    count: u64,
    also_between: [u64; 4],
    answer: u64,
    behind: [u64; 4],
}

/// The words of a cell as a function is lent them.
pub struct Lent {
    pub which: *mut u64,
    pub count: *mut u64,
    pub answer: *mut u64,
}

/// How a reply is told: in the word for the answer, or in two or three of them.
pub enum Shape {
    /// The answer alone, as this.
    One(fn(u64) -> Reply),
    /// 1 and the answer, as this; or 0, and the answer kept.
    Perhaps(fn(u64) -> Reply),
    /// 1 and the answer as the first, or 0 and the answer as the second.
    Either(fn(u64) -> Reply, fn(u64) -> Reply),
    /// A count, and 1 and the answer; or 0, and the answer kept.
    Search,
}

impl Cell {
    pub fn new() -> Cell {
        let guard = [GUARD; 4];
        Cell { guards: guard, which: BEFORE, between: guard, count: BEFORE, also_between: guard, answer: BEFORE, behind: guard }
    }

    /// The three words. The pointers come from the whole cell, so that a write beside a word is a write into the cell.
    pub fn lend(&mut self) -> Lent {
        let cell = std::ptr::from_mut(self);
        // SAFETY: all three fields are inside the cell.
        unsafe { Lent { which: &raw mut (*cell).which, count: &raw mut (*cell).count, answer: &raw mut (*cell).answer } }
    }

    /// The reply that a function has returned and told.
    pub fn reply(&self, status: u32, shape: Shape) -> Result<Reply, String> {
        let cell = std::hint::black_box(self);
        if [cell.guards, cell.between, cell.also_between, cell.behind] != [[GUARD; 4]; 4] {
            return Err("it wrote beside the words for the answer".to_string());
        }
        let (which, count, answer) = (cell.which, cell.count, cell.answer);
        match (status, shape) {
            (1..=15, _) if [which, count, answer] == [BEFORE; 3] => Ok(Reply::Refused(status as u8)),
            (1..=15, _) => {
                Err(format!("it refused the call with {status}, and wrote the words for the answer: {which}, {count}, {answer}"))
            }
            (0, Shape::Search) if (which, answer) == (0, BEFORE) => Ok(Reply::Searched(None, count)),
            (0, Shape::Search) if which == 1 => Ok(Reply::Searched(Some(answer), count)),
            (0, Shape::One(reply)) if [which, count] == [BEFORE; 2] => Ok(reply(answer)),
            (0, Shape::Perhaps(_)) if (which, count, answer) == (0, BEFORE, BEFORE) => Ok(Reply::Absent),
            (0, Shape::Perhaps(reply) | Shape::Either(reply, _)) if (which, count) == (1, BEFORE) => Ok(reply(answer)),
            (0, Shape::Either(_, reply)) if (which, count) == (0, BEFORE) => Ok(reply(answer)),
            (0, _) => Err(format!("it left {which}, {count} and {answer} in the words for the answer")),
            _ => Err(format!("it returned {status}")),
        }
    }
}

/// Yes or no, if the word is 1 or 0.
pub fn flag(word: u64) -> Reply {
    match word {
        0 => Reply::No,
        1 => Reply::Yes,
        other => Reply::Number(other),
    }
}

pub fn signed(word: u64) -> Reply {
    Reply::Signed(word as i64)
}

pub fn size(word: u64) -> Reply {
    Reply::Size(word as i64)
}
