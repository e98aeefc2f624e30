//! Lines in rising order, from which a seeded schedule draws one by its rank.

/// The lines lie in blocks, which are short, so that a new line moves few others.
#[derive(Default, Clone)]
pub struct RankedLines {
    greatest: Vec<u64>,
    blocks: Vec<Vec<u64>>,
    count: usize,
}

const BLOCK_LENGTH: usize = 128;

impl RankedLines {
    pub fn count(&self) -> usize {
        self.count
    }

    /// The number of the block that has a line or would have it; of no block if the line is greater than all.
    fn block_of(&self, line: u64) -> usize {
        self.greatest.partition_point(|&greatest| greatest < line)
    }

    pub fn add(&mut self, line: u64) {
        self.count += 1;
        if self.blocks.is_empty() {
            self.blocks.push(Vec::with_capacity(BLOCK_LENGTH));
            self.greatest.push(line);
        }
        let number = self.block_of(line).min(self.blocks.len() - 1);
        let block = &mut self.blocks[number];
        let index = block.partition_point(|&other| other < line);
        if index == block.len() {
            self.greatest[number] = line;
        }
        block.insert(index, line);
        if block.len() == BLOCK_LENGTH {
            self.halve(number);
        }
    }

    fn halve(&mut self, number: usize) {
        let block = &mut self.blocks[number];
        let mut upper = Vec::with_capacity(BLOCK_LENGTH);
        upper.extend_from_slice(&block[BLOCK_LENGTH / 2..]);
        block.truncate(BLOCK_LENGTH / 2);
        self.greatest.insert(number, block[BLOCK_LENGTH / 2 - 1]);
        self.blocks.insert(number + 1, upper);
    }

    /// Takes out a line that is there.
    pub fn remove(&mut self, line: u64) {
        self.count -= 1;
        let number = self.block_of(line);
        let block = &mut self.blocks[number];
        let index = block.partition_point(|&other| other < line);
        debug_assert!(block[index] == line);
        block.remove(index);
        match block.last() {
            Some(&last) => self.greatest[number] = last,
            None => {
                self.blocks.remove(number);
                self.greatest.remove(number);
            }
        }
    }

    /// How many lines stand before a line that is there.
    pub fn rank(&self, line: u64) -> usize {
        let number = self.block_of(line);
        let before: usize = self.blocks[..number].iter().map(Vec::len).sum();
        before + self.blocks[number].partition_point(|&other| other < line)
    }

    /// The line of a rank below the count.
    pub fn of_rank(&self, rank: usize) -> u64 {
        let mut rest = rank;
        for block in &self.blocks {
            if rest < block.len() {
                return block[rest];
            }
            rest -= block.len();
        }
        unreachable!("no line has such a rank")
    }
}
