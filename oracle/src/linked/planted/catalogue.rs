//! Mistakes in writing and loading files.

use super::{used, Answered};
use crate::linked::catalogues::File;
use crate::linked::door::Door;
use ferigulan::calls;
use reading::{Call, Reply};

pub fn label_left_out(door: &mut dyn Door, label: &[u8], file: &mut [u8]) -> Answered {
    Ok(match door.save(label, file)? {
        Reply::Number(length) => Reply::Number(length - label.len() as u64),
        other => other,
    })
}

pub fn past_the_file(door: &mut dyn Door, label: &[u8], file: &mut [u8]) -> Answered {
    let reply = door.save(label, file)?;
    if let Reply::Number(length) = reply {
        if let Some(byte) = file.get_mut(length as usize) {
            *byte = 0;
        }
    }
    Ok(reply)
}

pub fn long_label(door: &mut dyn Door, label: &[u8], file: &mut [u8]) -> Answered {
    let reply = door.save(label, file)?;
    let is_short = file.len() < label.len() + 8 * (used(door) - 94.min(used(door))) + 16;
    Ok(if reply == Reply::Refused(5) && is_short { Reply::Refused(11) } else { reply })
}

pub fn writes_first(door: &mut dyn Door, file: &[u8]) -> Answered {
    let reply = door.load(file)?;
    if reply == Reply::Refused(15) {
        door.answer(&Call::Fresh, &mut [])?;
    }
    Ok(reply)
}

/// A trailer that fits but for the wrap gives more words than any store has.
pub fn wrapped_sum(door: &mut dyn Door, file: &[u8]) -> Answered {
    let reply = door.load(file)?;
    let fits =
        File::trailer(file).is_some_and(|(start, number)| start.wrapping_add(number.wrapping_mul(8)).wrapping_add(16) == file.len() as u64);
    Ok(if reply == Reply::Refused(14) && fits { Reply::Refused(15) } else { reply })
}

/// Asks for the same file with the position that fits its number of words, on a list that keeps.
pub fn words_first(door: &mut dyn Door, file: &[u8]) -> Answered {
    let reply = door.load(file)?;
    let Some((_, number)) = File::trailer(file).filter(|_| reply == Reply::Refused(14)) else { return Ok(reply) };
    let Some(start) = number.checked_mul(8).and_then(|bytes| (file.len() as u64 - 16).checked_sub(bytes)) else { return Ok(reply) };
    let mut fitting = file.to_vec();
    let at = fitting.len() - 16;
    fitting[at..at + 8].copy_from_slice(&start.to_le_bytes());
    let is_store = calls::load(&mut vec![0; 94], &fitting) != Err(ferigulan::Refusal::BadWords);
    Ok(if is_store { reply } else { Reply::Refused(15) })
}

pub fn equal_entries(door: &mut dyn Door, file: &[u8]) -> Answered {
    let reply = door.load(file)?;
    let Some(read) = File::read(file).filter(|_| reply == Reply::Refused(15)) else { return Ok(reply) };
    let store = read.store();
    match door.words_mut() {
        Some(words) if calls::well_formed(&store) && read.label.len() <= 255 && store.len() <= words.len() => {
            words.fill(0);
            words[..store.len()].copy_from_slice(&store);
            Ok(Reply::Number(read.label.len() as u64))
        }
        _ => Ok(reply),
    }
}

pub fn room_first(door: &mut dyn Door, file: &[u8]) -> Answered {
    let reply = door.load(file)?;
    let is_short = File::read(file).is_some_and(|read| read.store().len() > door.words().len());
    Ok(if reply == Reply::Refused(5) && is_short { Reply::Refused(12) } else { reply })
}

pub fn rest_kept(door: &mut dyn Door, file: &[u8]) -> Answered {
    let before = door.words().to_vec();
    let reply = door.load(file)?;
    let used = used(door);
    if let (Reply::Number(_), Some(words)) = (reply, door.words_mut()) {
        words[used..].copy_from_slice(&before[used..]);
    }
    Ok(reply)
}

pub fn wants_a_store(door: &mut dyn Door, file: &[u8]) -> Answered {
    let (before, was_store) = (door.words().to_vec(), calls::well_formed(door.words()));
    let reply = door.load(file)?;
    match door.words_mut() {
        Some(words) if !was_store => {
            words.copy_from_slice(&before);
            Ok(Reply::Refused(1))
        }
        _ => Ok(reply),
    }
}
