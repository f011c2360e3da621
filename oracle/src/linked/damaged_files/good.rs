//! The good files that are damaged.

use crate::linked::catalogues::File;
use ferigulan::calls;
use reading::{answer, Call, Reply};

/// A file that the writer has made.
#[derive(Clone)]
pub struct Good {
    pub name: String,
    pub bytes: Vec<u8>,
    /// How many words its store has.
    pub used: usize,
}

impl Good {
    fn new(name: String, bytes: Vec<u8>) -> Result<Good, String> {
        let file = File::read(&bytes).ok_or_else(|| format!("{name}: the trailer does not fit"))?;
        Ok(Good { name, used: file.store().len(), bytes })
    }
}

/// The labels that each small store is written with.
const LABELS: [usize; 3] = [0, 3, 255];

/// The golden file, which the library has to write again as it is, and files of small stores as the library writes them.
pub fn files(golden: &[u8]) -> Result<Vec<Good>, String> {
    let golden = Good::new("the golden file".to_string(), golden.to_vec())?;
    let mut words = vec![7; golden.used];
    let length = calls::load(&mut words, &golden.bytes).map_err(|refusal| format!("the golden file is refused: {refusal}"))?;
    if written(&words, &golden.bytes[..length])? != golden.bytes {
        return Err("the golden file, loaded and written again, has other bytes".to_string());
    }
    let mut all = vec![golden];
    for (name, words) in [("a fresh store's file", store(|_| {})), ("a file of each kind", store(some_of_each))] {
        for length in LABELS {
            let bytes = written(&words, &label(length))?;
            all.push(Good::new(format!("{name}, label of {length} bytes,"), bytes)?);
        }
    }
    Ok(all)
}

/// The words of an Int, so that a mistake in the place of the words would show.
fn label(length: usize) -> Vec<u8> {
    [5, 1, 0, 0, 0, 0, 0, 0, 3, 0, 0, 0, 0, 0, 0, 0].into_iter().cycle().take(length).collect()
}

fn written(words: &[u64], label: &[u8]) -> Result<Vec<u8>, String> {
    let mut bytes = vec![0; label.len() + 8 * words.len()];
    let length = calls::save(words, label, &mut bytes).map_err(|refusal| format!("a file is not written: {refusal}"))?;
    bytes.truncate(length);
    Ok(bytes)
}

/// A fresh store, grown by these calls.
fn store(grow: fn(&mut Vec<u64>)) -> Vec<u64> {
    let mut words = vec![0; 400];
    answer(&mut words, &Call::Fresh, &mut []);
    grow(&mut words);
    words
}

/// An entry of each kind that a file can hold, and some more.
fn some_of_each(words: &mut Vec<u64>) {
    let mut make = |call: &Call| match answer(words, call, &mut []) {
        Reply::Handle(handle) => handle,
        other => unreachable!("{call:?} answers {other:?}"),
    };
    let (empty, name) = (make(&Call::GetStr(b"")), make(&Call::GetStr(b"nine byte")));
    make(&Call::MakeInt(3, 9));
    make(&Call::GetFloat(0x8000_0000_0000_0000));
    make(&Call::GetTuple(&[]));
    let tuple = make(&Call::GetTuple(&[9, 55]));
    let with_fields = make(&Call::GetStruct(name, &[empty, tuple, 4_294_967_295, 1, name, 9, 0, 0]));
    let reference = make(&Call::MakeStructFref(name));
    make(&Call::GetMemPtr(reference, 1));
    let pointer = make(&Call::GetMemPtr(with_fields, 0));
    make(&Call::GetMem(7, pointer));
}
