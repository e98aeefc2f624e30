//! The events of a bank: what comes to it, and evictions of its entries.
use crate::machine::{Delivered, Exhausted, Machine};
use crate::network::{MessageKind, Words};

#[derive(Clone, Copy, PartialEq, Eq)]
#[repr(u8)]
pub enum EntryState {
    Loading,
    Shared,
    Exclusive,
    Recalling,
    Storing,
}

/// What a bank has of a line. An Exclusive entry has an owner; only of a Shared one the times and words say something.
#[derive(Clone)]
#[repr(align(32))]
pub struct Entry {
    wts: u64,
    rts: u64,
    state: EntryState,
    owner: u8,
    is_dirty: bool,
    words: Words,
}

impl Entry {
    pub const EMPTY: Entry =
        Entry { wts: 0, rts: 0, state: EntryState::Loading, owner: 0, is_dirty: false, words: [0; 8] };
}

impl<const ORDERED: bool> Machine<ORDERED> {
    /// ShReq, ExReq: may a core read or own a line?
    #[inline(always)]
    pub fn deliver_request(&mut self, slot: usize) -> Result<Delivered, Exhausted> {
        let line = self.network.slots[slot].line;
        let set = self.places.bank_set(line);
        let Some(place) = self.banks.find(set, line) else { return Ok(self.begin_loading(set, line)) };
        match self.banks.contents[place].state {
            EntryState::Shared => self.grant(slot, set, place),
            EntryState::Exclusive => self.recall(slot, set, place),
            _ => Ok(Delivered::Held),
        }
    }

    /// Asks DRAM for a line of which there is no entry.
    #[inline(always)]
    fn begin_loading(&mut self, set: usize, line: u64) -> Delivered {
        if self.banks.is_full(set) {
            let can_make_room = self.banks.masks[set].under_way == 0;
            return if can_make_room { Delivered::HeldForRoom(set) } else { Delivered::Held };
        }
        if !self.network.has_room() {
            return Delivered::NetworkFull;
        }
        self.network.send(MessageKind::DramLd, line, 0);
        let place = self.banks.add(set, line);
        let way = self.banks.way(set, place);
        self.banks.masks[set].mark_under_way(way);
        let entry = &mut self.banks.contents[place];
        entry.state = EntryState::Loading;
        entry.is_dirty = false;
        Delivered::Started
    }

    /// Answers a request for a Shared line.
    #[inline(always)]
    fn grant(&mut self, slot: usize, set: usize, place: usize) -> Result<Delivered, Exhausted> {
        let message = &mut self.network.slots[slot];
        let way = self.banks.way(set, place);
        let entry = &mut self.banks.contents[place];
        let has_words = message.has_version && message.wts == entry.wts;
        if message.kind == MessageKind::ShReq {
            let own_lease = entry.wts.checked_add(self.lease).ok_or(Exhausted)?;
            let reader_lease = message.rts.checked_add(self.lease).ok_or(Exhausted)?;
            entry.rts = entry.rts.max(own_lease).max(reader_lease);
            message.kind = if has_words { MessageKind::RenewRep } else { MessageKind::ShRep };
            self.network.counts.renewals += u64::from(has_words);
        } else {
            entry.state = EntryState::Exclusive;
            entry.owner = message.core;
            self.banks.masks[set].mark_owned(way);
            message.kind = if has_words { MessageKind::UpgradeRep } else { MessageKind::ExRep };
            self.network.counts.upgrades += u64::from(has_words);
        }
        message.rts = entry.rts;
        if !has_words {
            message.wts = entry.wts;
            message.words = entry.words;
        }
        self.banks.touch(place);
        Ok(Delivered::Answered)
    }

    /// Asks the owner of an Exclusive line to give it back, for a request that waits.
    #[inline(always)]
    fn recall(&mut self, slot: usize, set: usize, place: usize) -> Result<Delivered, Exhausted> {
        let message = &self.network.slots[slot];
        let line = message.line;
        let (kind, until) = if message.kind == MessageKind::ShReq {
            (MessageKind::WbReq, message.rts.checked_add(self.lease).ok_or(Exhausted)?)
        } else {
            (MessageKind::FlushReq, 0)
        };
        if !self.network.has_room() {
            return Ok(Delivered::NetworkFull);
        }
        let way = self.banks.way(set, place);
        let entry = &mut self.banks.contents[place];
        entry.state = EntryState::Recalling;
        self.network.send(kind, line, entry.owner).rts = until;
        self.banks.masks[set].mark_under_way(way);
        if ORDERED {
            self.bank_lines[self.places.bank(line)].remove(line);
        }
        Ok(Delivered::Started)
    }

    /// FlushRep, WbRep, DramLdRep: a line comes back from its owner, or from DRAM.
    #[inline(always)]
    pub fn deliver_returned(&mut self, slot: usize) -> Delivered {
        let message = &self.network.slots[slot];
        let line = message.line;
        let bank = self.places.bank(line);
        let set = self.places.set_in_bank(bank, line);
        let place = self.banks.find(set, line).expect("a line that comes back has an entry");
        let way = self.banks.way(set, place);
        let entry = &mut self.banks.contents[place];
        if ORDERED && entry.state != EntryState::Exclusive {
            self.bank_lines[bank].add(line);
        }
        if message.kind == MessageKind::DramLdRep {
            entry.wts = self.mts[bank];
            entry.rts = entry.wts;
        } else {
            entry.wts = message.wts;
            entry.rts = message.rts;
            entry.is_dirty = true;
        }
        entry.state = EntryState::Shared;
        entry.words = message.words;
        self.banks.masks[set].mark_shared(way);
        Delivered::Consumed
    }

    /// DramStRep: DRAM has the words, and the entry leaves.
    #[inline(always)]
    pub fn deliver_stored(&mut self, slot: usize) -> Delivered {
        let line = self.network.slots[slot].line;
        let set = self.places.bank_set(line);
        let place = self.banks.find(set, line).expect("a line that was stored has an entry");
        self.banks.remove(set, place);
        Delivered::Consumed
    }

    /// Evicts the line whose leaving makes room in a full set in which nothing is under way; whether it was evicted.
    #[inline(always)]
    pub fn make_room(&mut self, set: usize) -> bool {
        let masks = &self.banks.masks[set];
        let ways = if masks.shared != 0 { masks.shared } else { masks.present };
        self.evict_entry(set, self.banks.least_recent(set, ways))
    }

    /// Evicts or recalls a line that is Shared or Exclusive; whether it was, which the network may refuse.
    #[inline(always)]
    pub fn evict_entry(&mut self, set: usize, place: usize) -> bool {
        self.events += 1;
        let line = self.banks.lines[place];
        let bank = self.places.bank(line);
        let way = self.banks.way(set, place);
        let entry = &mut self.banks.contents[place];
        let is_owned = entry.state == EntryState::Exclusive;
        if (is_owned || entry.is_dirty) && !self.network.has_room() {
            return false;
        }
        if !is_owned {
            self.mts[bank] = self.mts[bank].max(entry.rts);
        }
        if is_owned {
            entry.state = EntryState::Recalling;
            self.network.send(MessageKind::FlushReq, line, entry.owner);
            self.banks.masks[set].mark_under_way(way);
        } else if entry.is_dirty {
            entry.state = EntryState::Storing;
            self.network.send(MessageKind::DramSt, line, 0).words = entry.words;
            self.banks.masks[set].mark_under_way(way);
        } else {
            self.banks.remove(set, place);
        }
        if ORDERED {
            self.bank_lines[bank].remove(line);
        }
        true
    }
}
