//! Deliveries of messages: which part gets one, what comes to a core, and what comes to DRAM.
use crate::machine::{Delivered, Exhausted, Machine};
use crate::network::MessageKind;

impl<const ORDERED: bool> Machine<ORDERED> {
    /// Delivers the message of a slot.
    #[inline(always)]
    pub fn deliver(&mut self, slot: usize) -> Result<Delivered, Exhausted> {
        self.events += 1;
        let message = &mut self.network.slots[slot];
        Ok(match message.kind {
            MessageKind::ShReq | MessageKind::ExReq => return self.deliver_request(slot),
            MessageKind::ShRep | MessageKind::ExRep => self.deliver_line(slot),
            MessageKind::RenewRep | MessageKind::UpgradeRep => self.deliver_lease(slot),
            MessageKind::FlushReq | MessageKind::WbReq => return self.deliver_recall(slot),
            MessageKind::FlushRep | MessageKind::WbRep | MessageKind::DramLdRep => self.deliver_returned(slot),
            MessageKind::DramStRep => self.deliver_stored(slot),
            MessageKind::DramLd => {
                message.kind = MessageKind::DramLdRep;
                message.words = self.dram.load(message.line);
                Delivered::Answered
            }
            MessageKind::DramSt => {
                message.kind = MessageKind::DramStRep;
                self.dram.store(message.line, message.words);
                Delivered::Answered
            }
        })
    }

    /// ShRep, ExRep at a core: the copy arrives.
    #[inline(always)]
    fn deliver_line(&mut self, slot: usize) -> Delivered {
        let message = &self.network.slots[slot];
        let index = message.core as usize;
        let core = &mut self.cores[index];
        core.has_request_out = false;
        self.ready |= 1 << index;
        let place = match self.caches.find(core.set, message.line) {
            Some(place) => {
                self.caches.touch(place);
                place
            }
            None => {
                if ORDERED {
                    core.has_pinned_copy = true;
                    self.pinned_copies += 1;
                    self.copies += 1;
                    self.cache_lines[index].add(message.line);
                }
                self.caches.add(core.set, message.line)
            }
        };
        let copy = &mut self.caches.contents[place];
        copy.wts = message.wts;
        copy.rts = message.rts;
        copy.is_exclusive = message.kind == MessageKind::ExRep;
        copy.was_written = false;
        copy.words = message.words;
        Delivered::Consumed
    }

    /// RenewRep, UpgradeRep at a core: its Shared copy has a new lease, or becomes Exclusive.
    #[inline(always)]
    fn deliver_lease(&mut self, slot: usize) -> Delivered {
        let message = &self.network.slots[slot];
        let index = message.core as usize;
        let core = &mut self.cores[index];
        core.has_request_out = false;
        self.ready |= 1 << index;
        let place = self.caches.find(core.set, message.line).expect("a copy is renewed");
        let copy = &mut self.caches.contents[place];
        copy.rts = message.rts;
        if message.kind == MessageKind::UpgradeRep {
            copy.is_exclusive = true;
            copy.was_written = false;
        }
        Delivered::Consumed
    }

    /// FlushReq, WbReq at a core: the line goes back, unless the open operation is on it or the core doesn't own it.
    #[inline(always)]
    fn deliver_recall(&mut self, slot: usize) -> Result<Delivered, Exhausted> {
        let message = &mut self.network.slots[slot];
        let index = message.core as usize;
        let core = &self.cores[index];
        if core.has_open_operation && core.line == message.line {
            return Ok(Delivered::Held);
        }
        let set = self.places.cache_set(index, message.line);
        let Some(place) = self.caches.find(set, message.line) else { return Ok(Delivered::Consumed) };
        let copy = &mut self.caches.contents[place];
        if !copy.is_exclusive {
            return Ok(Delivered::Consumed);
        }
        let keeps_copy = message.kind == MessageKind::WbReq;
        if keeps_copy {
            let own_lease = copy.wts.checked_add(self.lease).ok_or(Exhausted)?;
            copy.rts = copy.rts.max(own_lease).max(message.rts);
            copy.is_exclusive = false;
            copy.was_written = false;
        }
        message.kind = if keeps_copy { MessageKind::WbRep } else { MessageKind::FlushRep };
        message.wts = copy.wts;
        message.rts = copy.rts;
        message.words = copy.words;
        if keeps_copy {
            self.network.counts.write_backs += 1;
        } else {
            self.network.counts.flushes += 1;
            self.remove_copy(index, set, place);
        }
        Ok(Delivered::Answered)
    }
}
