//! A set of pair numbers as four words, the form the lent table has.

/// Words of one holder's stored set.
pub const SET_WORDS: usize = 4;

/// Pair p is bit p modulo 64 (0 lowest) of word p/64.
#[derive(Clone, Copy, Debug, Default, PartialEq, Eq)]
pub struct PairSet(pub [u64; SET_WORDS]);

impl PairSet {
    /// The set stored for `holder`.
    pub fn stored(table: &[u64], holder: usize) -> PairSet {
        let start = SET_WORDS * holder;
        let mut words = [0; SET_WORDS];
        words.copy_from_slice(&table[start..start + SET_WORDS]);
        PairSet(words)
    }

    pub fn store(self, table: &mut [u64], holder: usize) {
        let start = SET_WORDS * holder;
        table[start..start + SET_WORDS].copy_from_slice(&self.0);
    }

    pub fn insert(&mut self, pair: usize) {
        self.0[pair / 64] |= 1 << (pair % 64);
    }

    pub fn remove(&mut self, pair: usize) {
        self.0[pair / 64] &= !(1 << (pair % 64));
    }

    pub fn contains(&self, pair: usize) -> bool {
        self.0[pair / 64] >> (pair % 64) & 1 == 1
    }

    pub fn join(&mut self, other: &PairSet) {
        for (word, more) in self.0.iter_mut().zip(other.0) {
            *word |= more;
        }
    }

    /// The pair numbers in the set, rising.
    pub fn iter(&self) -> impl Iterator<Item = usize> + '_ {
        (0..SET_WORDS).flat_map(|place| ones(self.0[place]).map(move |bit| 64 * place + bit))
    }
}

/// The places of the one bits of `word`, rising.
fn ones(mut word: u64) -> impl Iterator<Item = usize> {
    std::iter::from_fn(move || {
        if word == 0 {
            return None;
        }
        let place = word.trailing_zeros() as usize;
        word &= word - 1;
        Some(place)
    })
}

#[cfg(test)]
mod tests {
    use super::*;

    #[test]
    fn pair_255_is_the_highest_bit_of_the_fourth_word() {
        let mut set = PairSet::default();
        for pair in [0, 63, 64, 255] {
            set.insert(pair);
        }
        assert_eq!(set.0, [1 | 1 << 63, 1, 0, 1 << 63]);
        assert_eq!(set.iter().collect::<Vec<_>>(), [0, 63, 64, 255]);
        set.remove(63);
        assert!(!set.contains(63) && set.contains(64));
    }

    #[test]
    fn holder_k_is_stored_from_word_4k() {
        let mut table = vec![0; 1024];
        PairSet([1, 2, 3, 4]).store(&mut table, 255);
        assert_eq!(table[1020..], [1, 2, 3, 4]);
        assert_eq!(PairSet::stored(&table, 255).0, [1, 2, 3, 4]);
        assert!(table[..1020].iter().all(|&word| word == 0));
    }
}
