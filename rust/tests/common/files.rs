//! Files made by hand, as document 02, Slip 3 describes them.

/// A file: the label, the words from 94 on, where they start and how many they are.
pub fn file(label: &[u8], words: &[u64]) -> Vec<u8> {
    trailed(label, words, label.len() as u64, words.len() as u64)
}

/// The same with whatever trailer.
pub fn trailed(label: &[u8], words: &[u64], start: u64, count: u64) -> Vec<u8> {
    let bytes = words.iter().chain([&start, &count]).flat_map(|word| word.to_le_bytes());
    label.iter().copied().chain(bytes).collect()
}

/// The words from 94 on of a store that is as full of Ints as a list of so many words gets.
pub fn ints(length: usize) -> Vec<u64> {
    (1_000..).flat_map(|k| [261, k, k + 7]).take((length - 94) / 3 * 3).collect()
}
