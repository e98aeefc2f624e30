//! The generator of random words of docs/SCHEDULES.md, which programs and seeded schedules draw from.

const MULTIPLIER: u64 = 6_364_136_223_846_793_005;
const SEED_INCREMENT: u64 = 11_634_580_027_462_260_723;

pub struct Generator {
    state: u64,
    increment: u64,
}

fn word_of(state: u64) -> u32 {
    ((((state >> 18) ^ state) >> 27) as u32).rotate_right((state >> 59) as u32)
}

impl Generator {
    pub fn of_seed(seed: u64) -> Generator {
        let mut state = seed;
        let words: [u64; 4] = std::array::from_fn(|_| {
            state = state.wrapping_mul(MULTIPLIER).wrapping_add(SEED_INCREMENT);
            u64::from(word_of(state))
        });
        let start = words[0] | words[1] << 32;
        let increment = words[2] | words[3] << 32 | 1;
        Generator { state: start.wrapping_add(increment).wrapping_mul(MULTIPLIER).wrapping_add(increment), increment }
    }

    #[inline(always)]
    pub fn draw(&mut self) -> u32 {
        let word = word_of(self.state);
        self.state = self.state.wrapping_mul(MULTIPLIER).wrapping_add(self.increment);
        word
    }
}
