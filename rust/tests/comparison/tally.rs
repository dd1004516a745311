//! How many inputs have which answer.

#[derive(Clone, Copy, Debug, Default)]
pub struct Tally(pub [u64; 13]);

impl Tally {
    pub fn count(&mut self, answer: &Result<Vec<u8>, u8>) {
        self.count_number(answer.as_ref().err().copied().unwrap_or(0));
    }

    pub fn count_number(&mut self, number: u8) {
        self.0[usize::from(number)] += 1;
    }

    pub fn total(&self) -> u64 {
        self.0.iter().sum()
    }

    /// At least as many with each of these answers.
    pub fn assert_at_least(&self, counts: &[(usize, u64)]) {
        for &(number, least) in counts {
            assert!(self.0[number] >= least, "number {number}: {:?}", self.0);
        }
    }
}
