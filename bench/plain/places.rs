//! Where a word lies: its line, its index there, and the line's bank and sets.
use crate::options::Options;

/// Divides by a number that stays the same. Powers of two, which are usual, take a shift.
#[derive(Clone, Copy)]
pub struct Divisor {
    number: u64,
    shift: u32,
    is_power: bool,
}

impl Divisor {
    pub fn new(number: u64) -> Divisor {
        Divisor { number, shift: number.trailing_zeros(), is_power: number.is_power_of_two() }
    }

    #[inline(always)]
    pub fn quotient(self, dividend: u64) -> u64 {
        if self.is_power { dividend >> self.shift } else { dividend / self.number }
    }

    #[inline(always)]
    pub fn remainder(self, dividend: u64) -> u64 {
        if self.is_power { dividend & (self.number - 1) } else { dividend % self.number }
    }
}

/// The sets of all caches are counted core by core, those of all banks bank by bank.
pub struct Places {
    line_words: Divisor,
    sets: Divisor,
    banks: Divisor,
    bank_sets: Divisor,
}

impl Places {
    pub fn new(options: &Options) -> Places {
        Places {
            line_words: Divisor::new(options.line_words),
            sets: Divisor::new(options.sets),
            banks: Divisor::new(options.banks),
            bank_sets: Divisor::new(options.bank_sets),
        }
    }

    #[inline(always)]
    pub fn line(&self, word: u64) -> u64 {
        self.line_words.quotient(word)
    }

    /// The index of a word in its line. A line has at most eight, so the mask changes nothing.
    #[inline(always)]
    pub fn index_in_line(&self, word: u64) -> usize {
        self.line_words.remainder(word) as usize & 7
    }

    #[inline(always)]
    pub fn cache_set(&self, core: usize, line: u64) -> usize {
        core * self.sets.number as usize + self.sets.remainder(line) as usize
    }

    #[inline(always)]
    pub fn bank(&self, line: u64) -> usize {
        self.banks.remainder(line) as usize
    }

    #[inline(always)]
    pub fn bank_set(&self, line: u64) -> usize {
        let within = self.bank_sets.remainder(self.banks.quotient(line)) as usize;
        self.bank(line) * self.bank_sets.number as usize + within
    }

    /// The set of a line whose bank is known.
    #[inline(always)]
    pub fn set_in_bank(&self, bank: usize, line: u64) -> usize {
        let within = self.bank_sets.remainder(self.banks.quotient(line)) as usize;
        bank * self.bank_sets.number as usize + within
    }
}
