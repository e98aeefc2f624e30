//! Lines in sets, each with what a cache or bank has of it, and the order in which the lines of a set were used.

/// Some ways of a set, as bits of a mask: those with a line, those whose line is Shared in a bank, and those for whose
/// line something is under way in a bank. A cache uses the first alone.
#[derive(Clone, Copy, Default)]
pub struct WayMasks {
    pub present: u64,
    pub shared: u64,
    pub under_way: u64,
}

impl WayMasks {
    #[inline(always)]
    pub fn mark_under_way(&mut self, way: u64) {
        self.shared &= !way;
        self.under_way |= way;
    }

    #[inline(always)]
    pub fn mark_shared(&mut self, way: u64) {
        self.shared |= way;
        self.under_way &= !way;
    }

    #[inline(always)]
    pub fn mark_owned(&mut self, way: u64) {
        self.shared &= !way;
    }
}

/// The place of a line is its index in `lines`. Each use of a line gives it a stamp greater than all before, so the
/// order of use takes no moves. A set has `stride` places, a multiple of four: four lines are compared at a time.
pub struct Sets<T> {
    stride: usize,
    all_ways: u64,
    last_stamp: u64,
    pub masks: Vec<WayMasks>,
    pub lines: Vec<u64>,
    stamps: Vec<u64>,
    pub contents: Vec<T>,
}

impl<T: Clone> Sets<T> {
    pub fn new(sets: usize, ways: usize, empty: T) -> Sets<T> {
        assert!((1..=16).contains(&ways), "a set has 1 to 16 ways");
        let stride = ways.next_multiple_of(4);
        Sets {
            stride,
            all_ways: (1 << ways) - 1,
            last_stamp: 0,
            masks: vec![WayMasks::default(); sets],
            lines: vec![0; sets * stride],
            stamps: vec![0; sets * stride],
            contents: vec![empty; sets * stride],
        }
    }

    /// The place of a line in its set, if it is there.
    #[inline(always)]
    pub fn find(&self, set: usize, line: u64) -> Option<usize> {
        let first = set * self.stride;
        let row = &self.lines[first..first + self.stride];
        let mut equal = 0;
        for (index, four) in row.chunks_exact(4).enumerate() {
            let bits = u64::from(four[0] == line)
                | u64::from(four[1] == line) << 1
                | u64::from(four[2] == line) << 2
                | u64::from(four[3] == line) << 3;
            equal |= bits << (4 * index);
        }
        equal &= self.masks[set].present;
        if equal == 0 { None } else { Some(first + equal.trailing_zeros() as usize) }
    }

    #[inline(always)]
    pub fn is_full(&self, set: usize) -> bool {
        self.masks[set].present == self.all_ways
    }

    /// Makes a line the most recently used.
    #[inline(always)]
    pub fn touch(&mut self, place: usize) {
        self.last_stamp += 1;
        self.stamps[place] = self.last_stamp;
    }

    /// Gives a line a place in a set that isn't full, as the most recently used one. What it holds is to be written.
    #[inline(always)]
    pub fn add(&mut self, set: usize, line: u64) -> usize {
        let way = self.masks[set].present.trailing_ones() as usize;
        self.masks[set].present |= 1 << way;
        let place = set * self.stride + way;
        self.lines[place] = line;
        self.touch(place);
        place
    }

    /// The way of a place in its set, as the bit of a mask.
    #[inline(always)]
    pub fn way(&self, set: usize, place: usize) -> u64 {
        1 << (place - set * self.stride)
    }

    #[inline(always)]
    pub fn remove(&mut self, set: usize, place: usize) {
        let way = self.way(set, place);
        let masks = &mut self.masks[set];
        masks.present &= !way;
        masks.shared &= !way;
        masks.under_way &= !way;
    }

    /// The place of the least recently used line of some ways of a set; there is one.
    #[inline(always)]
    pub fn least_recent(&self, set: usize, ways: u64) -> usize {
        let first = set * self.stride;
        let stamps = &self.stamps[first..first + self.stride];
        let (mut found, mut least, mut rest) = (0, u64::MAX, ways);
        while rest != 0 {
            let way = rest.trailing_zeros() as usize;
            if stamps[way] < least {
                (found, least) = (way, stamps[way]);
            }
            rest &= rest - 1;
        }
        first + found
    }
}
