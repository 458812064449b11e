//! Stands in for the crate `phf`: a constant set of words. The slots are filled at compile time, so that a look-up costs a hash and a compare.
pub struct Set<T: 'static> {
    words: &'static [T],
    slots: [u16; SLOTS],
}

const SLOTS: usize = 1024;

const fn slot(word: &[u8]) -> usize {
    let mut h: u32 = 2166136261;
    let mut i = 0;
    while i < word.len() {
        h = (h ^ word[i] as u32).wrapping_mul(16777619);
        i += 1;
    }
    (h ^ (h >> 15)) as usize % SLOTS
}

impl Set<&'static str> {
    pub const fn new(words: &'static [&'static str]) -> Self {
        let mut slots = [0; SLOTS];
        let mut i = 0;
        while i < words.len() {
            let mut s = slot(words[i].as_bytes());
            while slots[s] != 0 {
                s = (s + 1) % SLOTS;
            }
            slots[s] = i as u16 + 1;
            i += 1;
        }
        Set { words, slots }
    }

    pub fn words(&self) -> &'static [&'static str] {
        self.words
    }

    pub fn contains(&self, word: &str) -> bool {
        let mut s = slot(word.as_bytes());
        while self.slots[s] != 0 {
            if self.words[self.slots[s] as usize - 1] == word {
                return true;
            }
            s = (s + 1) % SLOTS;
        }
        false
    }
}

#[macro_export]
macro_rules! phf_set {
    ($($word:expr),* $(,)?) => { $crate::Set::new(&[$($word),*]) };
}
