//! A set of basic types: 1,024 marks in 16 words.

#[derive(Clone, Copy, Debug, PartialEq, Eq)]
pub struct Set([u64; 16]);

impl Set {
    pub const EMPTY: Set = Set([0; 16]);

    #[inline]
    pub fn insert(&mut self, basic: u16) {
        self.0[word(basic)] |= 1 << (basic % 64);
    }

    /// Inserts basic types that rise: those of one word are put together before it is written.
    #[inline]
    pub fn insert_rising(&mut self, basics: impl Iterator<Item = u16>) {
        let (mut place, mut bits) = (0, 0);
        for basic in basics {
            if word(basic) != place {
                self.0[place] |= bits;
                (place, bits) = (word(basic), 0);
            }
            bits |= 1 << (basic % 64);
        }
        self.0[place] |= bits;
    }

    #[inline]
    pub fn has(&self, basic: u16) -> bool {
        self.0[word(basic)] >> (basic % 64) & 1 == 1
    }

    /// Whether it is the set of this basic type alone.
    #[inline]
    pub fn is(&self, basic: u16) -> bool {
        self.has(basic) && self.0.iter().map(|word| word.count_ones()).sum::<u32>() == 1
    }

    pub fn include(&mut self, other: &Set) {
        for (mine, its) in self.0.iter_mut().zip(&other.0) {
            *mine |= its;
        }
    }

    /// Whole words are combined before the one test: no early end pays off in 16 words.
    #[inline]
    pub fn within(&self, other: &Set) -> bool {
        let pairs = self.0.iter().zip(&other.0);
        pairs.fold(0, |missing, (mine, its)| missing | (mine & !its)) == 0
    }

    #[inline]
    pub fn touches(&self, other: &Set) -> bool {
        let pairs = self.0.iter().zip(&other.0);
        pairs.fold(0, |shared, (mine, its)| shared | (mine & its)) != 0
    }
}

/// Basic types are below 1,024; the mask tells the compiler so.
#[inline]
fn word(basic: u16) -> usize {
    usize::from(basic / 64) & 15
}
