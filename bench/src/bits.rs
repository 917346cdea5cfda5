//! Sets of small numbers, of a fixed count of machine words.

#[derive(Clone, Copy, Debug, PartialEq, Eq)]
pub struct Bits<const N: usize>(pub [u64; N]);

impl<const N: usize> Default for Bits<N> {
    fn default() -> Self {
        Bits([0; N])
    }
}

impl<const N: usize> Bits<N> {
    pub const EMPTY: Self = Bits([0; N]);

    #[inline(always)]
    pub fn one(at: usize) -> Self {
        let mut set = Self::EMPTY;
        set.insert(at);
        set
    }

    /// The numbers below a count.
    pub fn below(count: usize) -> Self {
        let mut set = Self::EMPTY;
        for (w, word) in set.0.iter_mut().enumerate() {
            let left = count.saturating_sub(64 * w);
            *word = if left >= 64 { !0 } else { (1 << left) - 1 };
        }
        set
    }

    #[inline(always)]
    pub fn insert(&mut self, at: usize) {
        if N == 1 {
            self.0[0] |= 1 << (at & 63);
        } else {
            self.0[at >> 6] |= 1 << (at & 63);
        }
    }

    #[inline(always)]
    pub fn remove(&mut self, at: usize) {
        self.0[at >> 6] &= !(1 << (at & 63));
    }

    #[inline(always)]
    pub fn has(&self, at: usize) -> bool {
        if N == 1 {
            self.0[0] >> (at & 63) & 1 == 1
        } else {
            self.0[at >> 6] >> (at & 63) & 1 == 1
        }
    }

    #[inline(always)]
    pub fn and(&self, other: &Self) -> Self {
        let mut set = *self;
        for w in 0..N {
            set.0[w] &= other.0[w];
        }
        set
    }

    #[inline(always)]
    pub fn or(&self, other: &Self) -> Self {
        let mut set = *self;
        for w in 0..N {
            set.0[w] |= other.0[w];
        }
        set
    }

    #[inline(always)]
    pub fn without(&self, other: &Self) -> Self {
        let mut set = *self;
        for w in 0..N {
            set.0[w] &= !other.0[w];
        }
        set
    }

    #[inline(always)]
    pub fn is_empty(&self) -> bool {
        let mut all = 0;
        for w in 0..N {
            all |= self.0[w];
        }
        all == 0
    }

    #[inline(always)]
    pub fn meets(&self, other: &Self) -> bool {
        let mut all = 0;
        for w in 0..N {
            all |= self.0[w] & other.0[w];
        }
        all != 0
    }

    #[inline(always)]
    pub fn count(&self) -> u32 {
        let mut all = 0;
        for w in 0..N {
            all += self.0[w].count_ones();
        }
        all
    }

    /// The first number of a set that is not empty.
    #[inline(always)]
    pub fn first(&self) -> usize {
        for w in 0..N {
            if self.0[w] != 0 {
                return 64 * w + self.0[w].trailing_zeros() as usize;
            }
        }
        64 * N
    }

    /// The one number of a set that has just one.
    #[inline(always)]
    pub fn single(&self) -> Option<usize> {
        if N == 1 {
            let word = self.0[0];
            return if word != 0 && word & (word - 1) == 0 { Some(word.trailing_zeros() as usize) } else { None };
        }
        let mut found = None;
        for w in 0..N {
            let word = self.0[w];
            if word != 0 {
                if found.is_some() || word & (word - 1) != 0 {
                    return None;
                }
                found = Some(64 * w + word.trailing_zeros() as usize);
            }
        }
        found
    }

    /// Calls for each number, from the lowest, until the answer is no.
    #[inline(always)]
    pub fn each(&self, mut call: impl FnMut(usize) -> bool) {
        for w in 0..N {
            let mut word = self.0[w];
            while word != 0 {
                if !call(64 * w + word.trailing_zeros() as usize) {
                    return;
                }
                word &= word - 1;
            }
        }
    }
}
