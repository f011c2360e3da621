// A store that is open: the words, the index and the memory of answers.
extern "C" {
    fn ferigulan_open(words: *const u64, n: usize, index: *mut u64, m: usize, memory: *mut u64, k: usize) -> u32;
}

pub struct Open {
    pub words: Vec<u64>,
    pub index: Vec<u64>,
    pub memory: Vec<u64>,
}

impl Open {
    // Opens these words, with a memory of so many words.
    pub fn new(words: Vec<u64>, memory: usize) -> Open {
        let n = words.len();
        let mut open = Open { words, index: vec![0; 2 * n + n / 64 + 1], memory: vec![0; memory] };
        open.open(memory);
        open
    }

    // Opens the words anew, with as much of the memory as is asked for.
    pub fn open(&mut self, memory: usize) {
        let (w, i, k) = (&self.words, &mut self.index, &mut self.memory[..memory]);
        let r = unsafe { ferigulan_open(w.as_ptr(), w.len(), i.as_mut_ptr(), i.len(), k.as_mut_ptr(), k.len()) };
        assert_eq!(r, 0, "opening was refused");
    }

    // Other words in the place of these, opened: nothing is remembered.
    pub fn start(&mut self, words: &[u64]) {
        self.words.copy_from_slice(words);
        self.open(self.memory.len());
    }

    pub fn used(&self) -> usize {
        self.words[0] as usize
    }
}
