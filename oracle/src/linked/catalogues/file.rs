//! A file of a catalogue, taken apart and put together: what files by chance are made of. Nothing here decides what a load answers.

/// The label and the words of a file whose trailer fits.
#[derive(Clone)]
pub struct File {
    pub label: Vec<u8>,
    pub words: Vec<u64>,
}

const TRAILER: usize = 16;

/// The words of a fresh store, without the number of used ones.
fn fresh() -> Vec<u64> {
    let mut words = vec![0; 94];
    reading::answer(&mut words, &reading::Call::Fresh, &mut []);
    words
}

pub fn word(bytes: &[u8]) -> u64 {
    let mut eight = [0; 8];
    eight.copy_from_slice(bytes);
    u64::from_le_bytes(eight)
}

impl File {
    /// The two words of the trailer, if there is room for one.
    pub fn trailer(bytes: &[u8]) -> Option<(u64, u64)> {
        let at = bytes.len().checked_sub(TRAILER)?;
        Some((word(&bytes[at..at + 8]), word(&bytes[at + 8..])))
    }

    pub fn read(bytes: &[u8]) -> Option<File> {
        let (start, number) = File::trailer(bytes)?;
        let end = bytes.len() - TRAILER;
        let words = number.checked_mul(8).and_then(|size| start.checked_add(size));
        if words != Some(end as u64) {
            return None;
        }
        let (label, rest) = bytes[..end].split_at(start as usize);
        Some(File { label: label.to_vec(), words: rest.chunks_exact(8).map(word).collect() })
    }

    pub fn bytes(&self) -> Vec<u8> {
        self.with_trailer(self.label.len() as u64, self.words.len() as u64)
    }

    /// With any two words as its trailer.
    pub fn with_trailer(&self, start: u64, number: u64) -> Vec<u8> {
        let trailer = [start, number];
        let after = self.words.iter().chain(&trailer).flat_map(|word| word.to_le_bytes());
        self.label.iter().copied().chain(after).collect()
    }

    /// The words behind the fresh ones.
    pub fn store(&self) -> Vec<u64> {
        let mut store = fresh();
        store.extend(&self.words);
        store[0] = store.len() as u64;
        store
    }
}
