//! Mistakes planted between the library and the comparison, to show that it finds them. The library itself stays as it is: each mistake asks it
//! something else, or changes what it has answered or written.

mod catalogue;

use super::door::Door;
use super::entries::Entries;
use reading::{Call, Reply};

/// A mistake: its name, what the library would do wrong, and how that is done.
#[derive(Clone, Copy)]
pub struct Plant {
    pub name: &'static str,
    pub what: &'static str,
    answer: fn(&mut dyn Door, &Call, &mut [u64]) -> Answered,
    save: fn(&mut dyn Door, &[u8], &mut [u8]) -> Answered,
    load: fn(&mut dyn Door, &[u8]) -> Answered,
    /// Whether a store that is opened again has the memory of answers of the time before.
    pub keeps_memory: bool,
}

const fn plant(name: &'static str, what: &'static str, answer: fn(&mut dyn Door, &Call, &mut [u64]) -> Answered) -> Plant {
    Plant { name, what, answer, save: |door, label, file| door.save(label, file), load: |door, file| door.load(file), keeps_memory: false }
}

/// A mistake of the writer of files alone.
const fn save_plant(name: &'static str, what: &'static str, save: fn(&mut dyn Door, &[u8], &mut [u8]) -> Answered) -> Plant {
    Plant { save, ..plant(name, what, |door, call, output| door.answer(call, output)) }
}

/// A mistake of the loader alone.
const fn load_plant(name: &'static str, what: &'static str, load: fn(&mut dyn Door, &[u8]) -> Answered) -> Plant {
    Plant { load, ..plant(name, what, |door, call, output| door.answer(call, output)) }
}

pub const PLANTS: &[Plant] = &[
    plant("int-max", "meet of two Ints keeps the first's max where the second's is larger by 1", int_max),
    plant("word-left", "a plain call that is refused with 12 leaves a word behind the used ones", word_left),
    plant("full-too-soon", "a plain call gives 12 where its entries would just fill the list", full_too_soon),
    plant("last-alias", "find_alias gives the last field with the alias", last_alias),
    plant("past-the-answer", "offsets writes a word of the output past its answer", past_the_answer),
    plant("equal-is-enough", "isa is yes where the meet is an entry equal to the second", equal_is_enough),
    plant("name-handles", "find compares the names' handles, not their bytes", name_handles),
    plant("last-word", "row 1 does not look at the list's last word", last_word),
    plant("many-fields", "is_ary is yes of structs of more than 124 fields", many_fields),
    plant("bytes-as-text", "get_str takes bytes that are no UTF-8 for U+FFFD", bytes_as_text),
    plant("late-handles", "kind answers 2 for handles above 524,288", late_handles),
    Plant {
        keeps_memory: true,
        ..plant("old-memory", "opening a list again does not blank the memory of answers", |door, call, output| door.answer(call, output))
    },
    plant("shared-final", "an opened is_final is yes of structs of more than 3 fields", shared_final),
    plant("half-a-list", "a list that is refused with 12 leaves what its first merges have made", half_a_list),
    plant("handles-first", "the handles of a list that is too long are tested before its length", handles_first),
    plant("one-short", "a search does not count the entry that it finds", one_short),
    plant("behind-the-found", "a search goes on to count behind the entry that it finds", behind_the_found),
    plant("last-equal", "a search finds the last equal entry, and counts up to it", last_equal),
    save_plant("label-left-out", "the writer leaves the label out of the length", catalogue::label_left_out),
    save_plant("past-the-file", "the writer writes a byte past its file", catalogue::past_the_file),
    save_plant("long-label", "the writer tests the output before the label", catalogue::long_label),
    load_plant("writes-first", "the loader writes the fresh words before it looks at those of the file", catalogue::writes_first),
    load_plant("wrapped-sum", "the loader adds the trailer up modulo 2 to the 64", catalogue::wrapped_sum),
    load_plant("words-first", "the loader tests the words before the trailer: 14 after 15", catalogue::words_first),
    load_plant("equal-entries", "the loader lets two equal entries in", catalogue::equal_entries),
    load_plant("room-first", "the loader tests the list's length before the label's: 5 after 12", catalogue::room_first),
    load_plant("rest-kept", "the loader leaves the list's rest as it was", catalogue::rest_kept),
    load_plant("wants-a-store", "the loader refuses a list that is no store before", catalogue::wants_a_store),
];

impl Plant {
    pub fn named(name: &str) -> Option<Plant> {
        PLANTS.iter().find(|plant| plant.name == name).copied()
    }

    pub fn answer(&self, door: &mut dyn Door, call: &Call, output: &mut [u64]) -> Result<Reply, String> {
        (self.answer)(door, call, output)
    }

    pub fn save(&self, door: &mut dyn Door, label: &[u8], file: &mut [u8]) -> Answered {
        (self.save)(door, label, file)
    }

    pub fn load(&self, door: &mut dyn Door, file: &[u8]) -> Answered {
        (self.load)(door, file)
    }
}

type Answered = Result<Reply, String>;

/// Where a list's merges start.
const TOP: u64 = 6;

fn used(door: &dyn Door) -> usize {
    door.words().first().map_or(0, |used| *used as usize)
}

/// The kind of a handle, if the list is a store and the handle a type's.
fn kind(door: &mut dyn Door, handle: u64) -> Option<u64> {
    match door.answer(&Call::Kind(handle), &mut []) {
        Ok(Reply::Number(kind)) => Some(kind),
        _ => None,
    }
}

/// The words of a struct's fields, three each.
fn fields(door: &mut dyn Door, s: u64) -> Option<Vec<[u64; 3]>> {
    if kind(door, s) != Some(8) {
        return None;
    }
    let (at, words) = (s as usize, door.words());
    let n = (words[at] / 65_536) as usize;
    Some(words[at + 2..at + 2 + 3 * n].chunks_exact(3).map(|field| [field[0], field[1], field[2]]).collect())
}

fn int_max(door: &mut dyn Door, call: &Call, output: &mut [u64]) -> Answered {
    if let Call::Meet(a, b) = *call {
        if kind(door, a) == Some(5) && kind(door, b) == Some(5) {
            let end = |handle: u64, k: usize| door.words()[handle as usize + k] as i64;
            if end(a, 2).checked_add(1) == Some(end(b, 2)) {
                let (min, max) = (end(a, 1).min(end(b, 1)), end(a, 2));
                return door.answer(&Call::MakeInt(min as u64, max as u64), output);
            }
        }
    }
    door.answer(call, output)
}

fn word_left(door: &mut dyn Door, call: &Call, output: &mut [u64]) -> Answered {
    let reply = door.answer(call, output)?;
    let used = used(door);
    if let (Reply::Refused(12), Some(word)) = (reply, door.words_mut().and_then(|words| words.get_mut(used))) {
        *word = 5 + 256;
    }
    Ok(reply)
}

fn full_too_soon(door: &mut dyn Door, call: &Call, output: &mut [u64]) -> Answered {
    let before = used(door);
    let reply = door.answer(call, output)?;
    let (after, is_fresh) = (used(door), matches!(call, Call::Fresh));
    if after == before || after != door.words().len() || is_fresh {
        return Ok(reply);
    }
    match door.words_mut() {
        Some(words) => {
            words[before..].fill(0);
            words[0] = before as u64;
            Ok(Reply::Refused(12))
        }
        None => Ok(reply),
    }
}

fn last_alias(door: &mut dyn Door, call: &Call, output: &mut [u64]) -> Answered {
    let reply = door.answer(call, output)?;
    if let (Call::FindAlias(s, alias), Reply::Number(_)) = (*call, reply) {
        let last = fields(door, s).and_then(|fields| fields.iter().rposition(|field| field[2] / 2 == alias));
        return Ok(last.map_or(reply, |at| Reply::Number(at as u64)));
    }
    Ok(reply)
}

fn past_the_answer(door: &mut dyn Door, call: &Call, output: &mut [u64]) -> Answered {
    let reply = door.answer(call, output)?;
    if let (Call::Offsets(_), Reply::Filled(n)) = (call, reply) {
        if let Some(word) = output.get_mut(n as usize) {
            *word = 0;
        }
    }
    Ok(reply)
}

fn equal_is_enough(door: &mut dyn Door, call: &Call, output: &mut [u64]) -> Answered {
    let reply = door.answer(call, output)?;
    if let (Call::Isa(a, b), Reply::No) = (*call, reply) {
        // the lowest Int that is equal to b
        if kind(door, b) == Some(5) {
            let b = b as usize;
            let words = door.words();
            let lowest = (1..b).find(|at| words[*at..*at + 3] == words[b..b + 3]);
            if let Some(lowest) = lowest.filter(|at| kind(door, *at as u64) == Some(5)) {
                return door.answer(&Call::Isa(a, lowest as u64), output);
            }
        }
    }
    Ok(reply)
}

fn name_handles(door: &mut dyn Door, call: &Call, output: &mut [u64]) -> Answered {
    let reply = door.answer(call, output)?;
    if let (Call::Find(s, name), Reply::Number(_)) = (*call, reply) {
        let same = fields(door, s).and_then(|fields| fields.iter().position(|field| field[0] == name));
        return Ok(same.map_or(Reply::Absent, |at| Reply::Number(at as u64)));
    }
    Ok(reply)
}

fn last_word(door: &mut dyn Door, call: &Call, output: &mut [u64]) -> Answered {
    let reply = door.answer(call, output)?;
    let last = door.words().last().copied().unwrap_or(0);
    if reply == Reply::Refused(1) && last != 0 && used(door) < door.words().len() {
        let set = |door: &mut dyn Door, word: u64| {
            if let Some(place) = door.words_mut().and_then(<[u64]>::last_mut) {
                *place = word;
            }
        };
        set(door, 0);
        let reply = door.answer(call, output);
        if used(door) < door.words().len() {
            set(door, last);
        }
        return reply;
    }
    Ok(reply)
}

fn many_fields(door: &mut dyn Door, call: &Call, output: &mut [u64]) -> Answered {
    let reply = door.answer(call, output)?;
    match *call {
        Call::IsAry(s) if fields(door, s).is_some_and(|fields| fields.len() > 124) => Ok(Reply::Yes),
        _ => Ok(reply),
    }
}

fn bytes_as_text(door: &mut dyn Door, call: &Call, output: &mut [u64]) -> Answered {
    match *call {
        Call::GetStr(name) if name.len() < 80 => door.answer(&Call::GetStr(String::from_utf8_lossy(name).as_bytes()), output),
        _ => door.answer(call, output),
    }
}

fn late_handles(door: &mut dyn Door, call: &Call, output: &mut [u64]) -> Answered {
    let reply = door.answer(call, output)?;
    match (call, reply) {
        (Call::Kind(h), Reply::Number(_)) if *h > 524_288 => Ok(Reply::Refused(2)),
        _ => Ok(reply),
    }
}

fn shared_final(door: &mut dyn Door, call: &Call, output: &mut [u64]) -> Answered {
    let reply = door.answer(call, output)?;
    match *call {
        Call::IsFinal(a) if door.words_mut().is_none() && fields(door, a).is_some_and(|fields| fields.len() > 3) => Ok(Reply::Yes),
        _ => Ok(reply),
    }
}

fn half_a_list(door: &mut dyn Door, call: &Call, output: &mut [u64]) -> Answered {
    let reply = door.answer(call, output)?;
    if let (Call::MeetList(types), Reply::Refused(12)) = (call, reply) {
        let mut merged = TOP;
        for t in types.iter() {
            match door.answer(&Call::Meet(merged, *t), output)? {
                Reply::Handle(handle) => merged = handle,
                _ => break,
            }
        }
    }
    Ok(reply)
}

fn handles_first(door: &mut dyn Door, call: &Call, output: &mut [u64]) -> Answered {
    let reply = door.answer(call, output)?;
    if let (Call::MeetList(types), Reply::Refused(13)) = (call, reply) {
        let starts_none = |t: &u64| door.answer(&Call::Kind(*t), &mut []) == Ok(Reply::Refused(2));
        return Ok(if types.iter().any(starts_none) { Reply::Refused(2) } else { reply });
    }
    Ok(reply)
}

fn one_short(door: &mut dyn Door, call: &Call, output: &mut [u64]) -> Answered {
    let reply = door.answer(call, output)?;
    Ok(match reply {
        Reply::Searched(Some(handle), count) => Reply::Searched(Some(handle), count - 1),
        _ => reply,
    })
}

/// The handles of all entries with this head.
fn of_head(door: &dyn Door, head: u64) -> Vec<u64> {
    let mut entries = Entries::default();
    entries.read_on(door.words());
    entries.list.iter().map(|entry| entry.handle).filter(|handle| door.words()[*handle as usize] == head).collect()
}

fn behind_the_found(door: &mut dyn Door, call: &Call, output: &mut [u64]) -> Answered {
    let reply = door.answer(call, output)?;
    if let (Call::FindEntry(entry), Reply::Searched(Some(handle), _)) = (call, reply) {
        return Ok(Reply::Searched(Some(handle), of_head(door, entry[0]).len() as u64));
    }
    Ok(reply)
}

fn last_equal(door: &mut dyn Door, call: &Call, output: &mut [u64]) -> Answered {
    let reply = door.answer(call, output)?;
    if let (Call::FindEntry(entry), Reply::Searched(Some(_), _)) = (call, reply) {
        let handles = of_head(door, entry[0]);
        let last = handles.iter().rposition(|handle| door.words()[*handle as usize..].starts_with(entry));
        return Ok(last.map_or(reply, |place| Reply::Searched(Some(handles[place]), place as u64 + 1)));
    }
    Ok(reply)
}
