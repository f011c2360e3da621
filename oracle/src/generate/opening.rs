//! The same lists on opened stores: `open` behind each line that makes a list, and by chance `close` and `open` among the calls. The calls
//! themselves are those of the list without.

use super::List;
use crate::random::Random;
use crate::script::Call;
use crate::session::Answer;
use crate::steps::{Asked, Step};

struct Opening {
    list: List,
    /// The steps that are put in get the ids from here on.
    next: usize,
    /// Whether the list is a store, and whether it is open.
    is_store: bool,
    is_open: bool,
}

/// A list with its store opened. The chance is not that of the calls, so that they stay the same.
pub fn opened(list: List, seed: u64) -> List {
    let mut random = Random::new(!seed);
    let next = list.steps.len();
    let mut opening = Opening { list: List { steps: vec![], asked: vec![] }, next, is_store: false, is_open: false };
    for (step, asked) in list.steps.into_iter().zip(list.asked) {
        let (name, accepted) = (step.name, asked.answer == Answer::Accepted);
        opening.list.steps.push(step);
        opening.list.asked.push(asked);
        if ["list", "fresh"].contains(&name) {
            opening.is_store = name == "fresh" && accepted;
            opening.open();
        } else {
            opening.by_chance(&mut random);
        }
    }
    opening.list
}

impl Opening {
    /// An open store is now and then closed, for a while or for no call at all, or opened once more.
    fn by_chance(&mut self, random: &mut Random) {
        if !self.is_open {
            if random.percent(15) {
                self.open();
            }
            return;
        }
        match random.below(100) {
            0 => self.close(),
            1 => {
                self.close();
                self.open();
            }
            2 => self.open(),
            _ => {}
        }
    }

    fn open(&mut self) {
        self.is_open = self.is_store;
        self.put("open", if self.is_store { Answer::Accepted } else { Answer::Refused(1) });
    }

    fn close(&mut self) {
        self.is_open = false;
        self.put("close", Answer::Accepted);
    }

    fn put(&mut self, name: &'static str, answer: Answer) {
        self.list.steps.push(Step { id: self.next, name, args: vec![], text: vec![] });
        self.list.asked.push(Asked { call: Call { name, numbers: vec![], text: vec![] }, answer });
        self.next += 1;
    }
}
