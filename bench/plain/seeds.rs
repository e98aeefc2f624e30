//! Runs by a seed: each turn is one event, which is drawn, and the eviction that follows it.
use crate::generator::Generator;
use crate::machine::{Attempted, Delivered, Exhausted, Machine};
use crate::runs::End;

/// The place of a drawn event in its list, which has fewer than 2^32 events.
#[inline(always)]
fn place_in_list(drawn: u32, length: usize) -> usize {
    (drawn % length as u32) as usize
}

impl Machine<true> {
    pub fn drive_seed(&mut self, seed: u64, limit: u64) -> Result<End, Exhausted> {
        let mut generator = Generator::of_seed(seed);
        while self.unfinished > 0 {
            if self.turns == limit {
                return Ok(End::Limit);
            }
            self.turns += 1;
            let (list, drawn) = (generator.draw(), generator.draw());
            match list % 16 {
                0 => self.advance_drawn(drawn)?,
                1 => self.evict_drawn_copy(drawn),
                2 => self.evict_drawn_entry(drawn),
                _ => self.make_drawn_event(drawn)?,
            }
        }
        Ok(End::AllDone)
    }

    fn advance_drawn(&mut self, drawn: u32) -> Result<(), Exhausted> {
        self.events += 1;
        let index = place_in_list(drawn, self.cores.len());
        let core = &mut self.cores[index];
        core.pts = core.pts.checked_add(1).ok_or(Exhausted)?;
        Ok(())
    }

    /// Evicts a copy of those that aren't pinned, if there is one.
    fn evict_drawn_copy(&mut self, drawn: u32) {
        let total = self.copies - self.pinned_copies;
        if total == 0 {
            return;
        }
        let mut rank = place_in_list(drawn, total);
        for (index, core) in self.cores.iter().enumerate() {
            let lines = &self.cache_lines[index];
            let count = lines.count() - usize::from(core.has_pinned_copy);
            if rank >= count {
                rank -= count;
                continue;
            }
            if core.has_pinned_copy && rank >= lines.rank(core.line) {
                rank += 1;
            }
            let line = lines.of_rank(rank);
            let set = self.places.cache_set(index, line);
            let place = self.caches.find(set, line).expect("the copy is there");
            self.evict_copy(index, set, place);
            return;
        }
    }

    /// Evicts an entry of those that are Shared or Exclusive, if there is one.
    fn evict_drawn_entry(&mut self, drawn: u32) {
        let total: usize = self.bank_lines.iter().map(|lines| lines.count()).sum();
        if total == 0 {
            return;
        }
        let mut rank = place_in_list(drawn, total);
        for lines in &self.bank_lines {
            if rank >= lines.count() {
                rank -= lines.count();
                continue;
            }
            let line = lines.of_rank(rank);
            let set = self.places.bank_set(line);
            let place = self.banks.find(set, line).expect("the entry is there");
            self.evict_entry(set, place);
            return;
        }
    }

    /// Makes the event of a ready core, or a delivery.
    fn make_drawn_event(&mut self, drawn: u32) -> Result<(), Exhausted> {
        let ready = self.ready.count_ones() as usize;
        let total = ready + self.network.order.len();
        if total == 0 {
            return Ok(());
        }
        let place = place_in_list(drawn, total);
        if place < ready { self.turn_of_ready_core(place) } else { self.deliver_one(place - ready) }
    }

    #[inline(always)]
    fn turn_of_ready_core(&mut self, rank: usize) -> Result<(), Exhausted> {
        let mut ready = self.ready;
        for _ in 0..rank {
            ready &= ready - 1;
        }
        let index = ready.trailing_zeros() as usize;
        if !self.cores[index].has_open_operation {
            self.step(index)?;
        } else if let Attempted::NoRoom(set) = self.attempt(index)? {
            self.evict_victim(index, set);
        }
        Ok(())
    }

    #[inline(always)]
    fn deliver_one(&mut self, place: usize) -> Result<(), Exhausted> {
        let slot = self.network.order[place];
        match self.deliver(slot as usize)? {
            Delivered::Consumed => {
                self.network.order.remove(place);
                self.network.free(slot);
            }
            Delivered::Answered => {
                self.network.order.remove(place);
                self.network.order.push(slot);
            }
            Delivered::HeldForRoom(set) => {
                self.make_room(set);
            }
            Delivered::Started | Delivered::Held | Delivered::NetworkFull => {}
        }
        Ok(())
    }
}
