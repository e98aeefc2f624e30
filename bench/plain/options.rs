//! How a machine is set up and by which schedule it runs: the options of the project's program, with its defaults.

#[derive(Clone, Copy)]
pub enum Schedule {
    Round,
    Seed,
}

/// `time` is the time with which cores and banks begin.
pub struct Options {
    pub banks: u64,
    pub sets: u64,
    pub ways: usize,
    pub bank_sets: u64,
    pub bank_ways: usize,
    pub line_words: u64,
    pub lease: u64,
    pub messages: usize,
    pub time: u64,
    pub private_write: bool,
    pub schedule: Schedule,
    pub seed: u64,
    pub limit: u64,
}

impl Default for Options {
    fn default() -> Options {
        Options {
            banks: 1,
            sets: 64,
            ways: 4,
            bank_sets: 256,
            bank_ways: 8,
            line_words: 1,
            lease: 10,
            messages: 4096,
            time: 0,
            private_write: false,
            schedule: Schedule::Round,
            seed: 0,
            limit: 100_000,
        }
    }
}

impl Options {
    /// Sets the options of a command line, and gives the words that are none.
    pub fn read<'a>(&mut self, words: &'a [String]) -> Vec<&'a str> {
        let mut rest = Vec::new();
        let mut words = words.iter().map(String::as_str);
        while let Some(word) = words.next() {
            match word {
                "--private-write" => self.private_write = true,
                "--schedule" => {
                    self.schedule = match words.next() {
                        Some("round") => Schedule::Round,
                        Some("seed") => Schedule::Seed,
                        _ => panic!("a schedule is round or seed"),
                    }
                }
                "--records" => rest.push(word),
                _ => match word.strip_prefix("--") {
                    Some(name) => {
                        let value = words.next().expect("a value");
                        self.set(name, value.parse().expect("a number"));
                    }
                    None => rest.push(word),
                },
            }
        }
        rest
    }

    fn set(&mut self, name: &str, value: u64) {
        match name {
            "banks" => self.banks = value,
            "sets" => self.sets = value,
            "ways" => self.ways = value as usize,
            "bank-sets" => self.bank_sets = value,
            "bank-ways" => self.bank_ways = value as usize,
            "line-words" => self.line_words = value,
            "lease" => self.lease = value,
            "messages" => self.messages = value as usize,
            "time" => self.time = value,
            "seed" => self.seed = value,
            "limit" => self.limit = value,
            _ => panic!("no option {name}"),
        }
    }
}
