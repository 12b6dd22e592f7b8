//! The count of what was tried, and random numbers that a seed repeats.

pub struct Run {
    pub passed: u64,
    pub failed: u64,
    /// How many random cases each group tries.
    pub cases: u64,
    state: u64,
}

impl Run {
    pub fn new(seed: u64, cases: u64) -> Run {
        Run { passed: 0, failed: 0, cases, state: seed.wrapping_mul(2).wrapping_add(0x9e37_79b9_7f4a_7c15) | 1 }
    }

    /// xorshift64*
    pub fn next(&mut self) -> u64 {
        self.state ^= self.state >> 12;
        self.state ^= self.state << 25;
        self.state ^= self.state >> 27;
        self.state.wrapping_mul(0x2545_f491_4f6c_dd1d)
    }

    /// A number below n.
    pub fn below(&mut self, n: u64) -> u64 {
        (self.next() >> 11) % n
    }

    /// One of the list.
    pub fn one_of<T: Copy>(&mut self, of: &[T]) -> T {
        of[self.below(of.len() as u64) as usize]
    }

    /// One case: what came out against what should.
    pub fn same<T: PartialEq + std::fmt::Debug>(&mut self, what: impl Fn() -> String, got: T, want: T) {
        if got == want {
            self.passed += 1;
        } else {
            self.failed += 1;
            if self.failed <= 20 {
                println!("FAILED {}: got {:?}, should be {:?}", what(), got, want);
            }
        }
    }
}
