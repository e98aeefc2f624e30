//! The events of a core: steps of its program, attempts at its open operation, and evictions from its cache.
use crate::machine::{Attempted, Exhausted, Machine, Stepped};
use crate::network::{MessageKind, Words};
use crate::programs::{Record, Step, StepKind};

pub struct Core {
    /// The core's time.
    pub pts: u64,
    /// The operation that is open, or was the last to be, with its line and the line's set.
    pub operation: Step,
    pub line: u64,
    pub set: usize,
    pub has_open_operation: bool,
    pub has_request_out: bool,
    /// Whether there is a copy of the open operation's line. Only a machine that keeps lines in order tells.
    pub has_pinned_copy: bool,
    completed: u32,
    next_step: usize,
    program: Vec<Step>,
}

impl Core {
    pub fn new(pts: u64, program: Vec<Step>) -> Core {
        Core {
            pts,
            operation: Step { word: 0, value: 0, kind: StepKind::Load },
            line: 0,
            set: 0,
            has_open_operation: false,
            has_request_out: false,
            has_pinned_copy: false,
            completed: 0,
            next_step: 0,
            program,
        }
    }

    #[inline(always)]
    pub fn has_next_step(&self) -> bool {
        self.next_step < self.program.len()
    }
}

/// What a private cache has of a line. By the alignment it takes two lines of the processor's cache, never three. So
/// it is with entries and messages.
#[derive(Clone)]
#[repr(align(32))]
pub struct PrivateCopy {
    pub wts: u64,
    pub rts: u64,
    pub is_exclusive: bool,
    pub was_written: bool,
    pub words: Words,
}

impl PrivateCopy {
    pub const EMPTY: PrivateCopy =
        PrivateCopy { wts: 0, rts: 0, is_exclusive: false, was_written: false, words: [0; 8] };

    /// Reads the copy for a core at a time, and gives the time of the load.
    #[inline(always)]
    fn load(&mut self, pts: u64) -> u64 {
        let time = pts.max(self.wts);
        if self.is_exclusive {
            self.rts = self.rts.max(time);
        }
        time
    }

    /// Writes a word for a core at a time, and gives the time of the store or swap.
    #[inline(always)]
    fn write(&mut self, pts: u64, index: usize, value: u64, private_write: bool) -> Result<u64, Exhausted> {
        let least = if private_write && self.was_written { Some(self.rts) } else { self.rts.checked_add(1) };
        let time = pts.max(least.ok_or(Exhausted)?);
        self.words[index] = value;
        self.wts = time;
        self.rts = time;
        self.was_written = true;
        Ok(time)
    }
}

impl<const ORDERED: bool> Machine<ORDERED> {
    /// The next step of a core that has one, and no open operation.
    #[inline(always)]
    pub fn step(&mut self, index: usize) -> Result<Stepped, Exhausted> {
        self.events += 1;
        let core = &mut self.cores[index];
        let step = core.program[core.next_step];
        if step.kind == StepKind::Advance {
            core.pts = core.pts.checked_add(1).ok_or(Exhausted)?;
            core.next_step += 1;
            if !core.has_next_step() {
                self.finish(index);
            }
            return Ok(Stepped::Advanced);
        }
        core.next_step += 1;
        core.operation = step;
        core.line = self.places.line(step.word);
        core.set = self.places.cache_set(index, core.line);
        core.has_open_operation = true;
        self.issued += 1;
        if ORDERED && self.caches.find(core.set, core.line).is_some() {
            core.has_pinned_copy = true;
            self.pinned_copies += 1;
        }
        Ok(Stepped::Issued)
    }

    #[inline(always)]
    fn finish(&mut self, index: usize) {
        self.ready &= !(1 << index);
        self.unfinished -= 1;
    }

    /// An attempt at the open operation.
    #[inline(always)]
    pub fn attempt(&mut self, index: usize) -> Result<Attempted, Exhausted> {
        self.events += 1;
        let core = &self.cores[index];
        // While a request is out no look-up is needed. Until the reply comes, the copy stays as it was, or absent: it
        // is pinned, its recall is held, and the core's time doesn't fall.
        if core.has_request_out {
            return Ok(Attempted::Waiting);
        }
        let version = match self.caches.find(core.set, core.line) {
            Some(place) => {
                let copy = &self.caches.contents[place];
                if copy.is_exclusive || core.operation.kind == StepKind::Load && core.pts <= copy.rts {
                    return self.complete(index, place);
                }
                Some(copy.wts)
            }
            None if self.caches.is_full(core.set) => return Ok(Attempted::NoRoom(core.set)),
            None => None,
        };
        Ok(self.request(index, version))
    }

    #[inline(always)]
    fn complete(&mut self, index: usize, place: usize) -> Result<Attempted, Exhausted> {
        let core = &mut self.cores[index];
        let copy = &mut self.caches.contents[place];
        let Step { word, value, kind } = core.operation;
        let index_in_line = self.places.index_in_line(word);
        let received = copy.words[index_in_line];
        let time = match kind {
            StepKind::Load => copy.load(core.pts),
            _ => copy.write(core.pts, index_in_line, value, self.private_write)?,
        };
        self.caches.touch(place);
        let number = self.records.len() as u64;
        let record = Record { word, value, received, time, number, place: core.completed, core: index as u8, kind };
        self.records.push(record);
        core.completed += 1;
        core.pts = time;
        core.has_open_operation = false;
        if ORDERED {
            core.has_pinned_copy = false;
            self.pinned_copies -= 1;
        }
        if !core.has_next_step() {
            self.finish(index);
        }
        Ok(Attempted::Completed)
    }

    /// Sends the request that the open operation needs, with the version of the core's copy.
    #[inline(always)]
    fn request(&mut self, index: usize, version: Option<u64>) -> Attempted {
        if !self.network.has_room() {
            return Attempted::NetworkFull;
        }
        let core = &mut self.cores[index];
        let reads = core.operation.kind == StepKind::Load;
        let kind = if reads { MessageKind::ShReq } else { MessageKind::ExReq };
        let message = self.network.send(kind, core.line, index as u8);
        message.has_version = version.is_some();
        message.wts = version.unwrap_or(0);
        message.rts = core.pts;
        core.has_request_out = true;
        self.ready &= !(1 << index);
        Attempted::Requested
    }

    /// Evicts the victim of a full set; whether it left.
    #[inline(always)]
    pub fn evict_victim(&mut self, index: usize, set: usize) -> bool {
        let victim = self.caches.least_recent(set, self.caches.masks[set].present);
        self.evict_copy(index, set, victim)
    }

    /// Evicts a copy that isn't pinned; whether it left, which the network may refuse.
    #[inline(always)]
    pub fn evict_copy(&mut self, index: usize, set: usize, place: usize) -> bool {
        self.events += 1;
        let line = self.caches.lines[place];
        let copy = &self.caches.contents[place];
        if copy.is_exclusive {
            if !self.network.has_room() {
                return false;
            }
            let message = self.network.send(MessageKind::FlushRep, line, index as u8);
            message.wts = copy.wts;
            message.rts = copy.rts;
            message.words = copy.words;
            self.network.counts.flushes += 1;
        }
        self.remove_copy(index, set, place);
        true
    }

    #[inline(always)]
    pub fn remove_copy(&mut self, index: usize, set: usize, place: usize) {
        self.caches.remove(set, place);
        if ORDERED {
            self.cache_lines[index].remove(self.caches.lines[place]);
            self.copies -= 1;
        }
    }
}
