//! Runs by rounds: each core has its turn, then each message in flight is delivered.
use crate::machine::{Attempted, Delivered, Exhausted, Machine, Stepped};
use crate::runs::End;

impl Machine<false> {
    /// It isn't put into its caller, since the compiler makes better code of it alone.
    #[inline(never)]
    pub fn drive_round(&mut self, limit: u64) -> Result<End, Exhausted> {
        while self.unfinished > 0 {
            if self.turns == limit {
                return Ok(End::Limit);
            }
            self.turns += 1;
            let mut progress = false;
            for index in 0..self.cores.len() {
                progress |= self.turn_of_core(index)?;
            }
            progress |= self.deliver_all()?;
            if !progress {
                return Ok(End::Stalled);
            }
        }
        Ok(End::AllDone)
    }

    /// The turn of a core; whether there was progress.
    #[inline(always)]
    fn turn_of_core(&mut self, index: usize) -> Result<bool, Exhausted> {
        let core = &self.cores[index];
        let mut progress = false;
        if !core.has_open_operation {
            if !core.has_next_step() {
                return Ok(false);
            }
            if self.step(index)? == Stepped::Advanced {
                return Ok(true);
            }
            progress = true;
        }
        let mut attempted = self.attempt(index)?;
        if let Attempted::NoRoom(set) = attempted {
            progress |= self.evict_victim(index, set);
            attempted = self.attempt(index)?;
        }
        Ok(progress || matches!(attempted, Attempted::Completed | Attempted::Requested))
    }

    /// Delivers the messages that are in flight now, each once; whether there was progress. What stays moves to the
    /// front of the order, and what was sent meanwhile stands behind it in the end.
    #[inline(always)]
    fn deliver_all(&mut self) -> Result<bool, Exhausted> {
        let before = self.network.order.len();
        let mut progress = false;
        let mut kept = 0;
        for place in 0..before {
            let slot = self.network.order[place];
            let delivered = self.deliver(slot as usize)?;
            match delivered {
                Delivered::Consumed => {
                    progress = true;
                    self.network.free(slot);
                    continue;
                }
                Delivered::Answered => {
                    progress = true;
                    self.network.order.push(slot);
                    continue;
                }
                Delivered::Started => progress = true,
                Delivered::HeldForRoom(set) => progress |= self.make_room(set),
                Delivered::Held | Delivered::NetworkFull => {}
            }
            self.network.order[kept] = slot;
            kept += 1;
        }
        let after = self.network.order.len();
        self.network.order.copy_within(before..after, kept);
        self.network.order.truncate(kept + after - before);
        Ok(progress)
    }
}
