//! The messages in flight.

/// The words of a line; of a line of one word the other seven are 0.
pub type Words = [u64; 8];

#[derive(Clone, Copy, PartialEq, Eq)]
#[repr(u8)]
pub enum MessageKind {
    ShReq,
    ExReq,
    ShRep,
    ExRep,
    RenewRep,
    UpgradeRep,
    FlushReq,
    WbReq,
    FlushRep,
    WbRep,
    DramLd,
    DramLdRep,
    DramSt,
    DramStRep,
}

/// A message carries what its kind does by docs/PROTOCOL.md; what lies in its other fields says nothing. `core` is the
/// core that sent it or gets it. `wts` of a request is the version of its core's copy, if it has one, and `rts` the
/// core's time.
#[repr(align(32))]
pub struct Message {
    pub line: u64,
    pub wts: u64,
    pub rts: u64,
    pub kind: MessageKind,
    pub core: u8,
    pub has_version: bool,
    pub words: Words,
}

/// How many messages of the counted kinds were sent.
#[derive(Default, Clone)]
pub struct Counts {
    pub renewals: u64,
    pub upgrades: u64,
    pub flushes: u64,
    pub write_backs: u64,
}

/// Messages lie in slots. `order` has the slots in the order of sending, so it stands for the numbers of messages. An
/// answer is written into the slot of the message that is answered, which then goes to the end of the order.
pub struct Network {
    pub slots: Vec<Message>,
    free_slots: Vec<u32>,
    pub order: Vec<u32>,
    in_flight: usize,
    capacity: usize,
    pub counts: Counts,
}

impl Network {
    pub fn new(capacity: usize) -> Network {
        Network {
            slots: Vec::new(),
            free_slots: Vec::new(),
            order: Vec::new(),
            in_flight: 0,
            capacity,
            counts: Counts::default(),
        }
    }

    #[inline(always)]
    pub fn has_room(&self) -> bool {
        self.in_flight < self.capacity
    }

    /// A new message at the end of the order, of which the caller writes what else it carries. There is room for it.
    #[inline(always)]
    pub fn send(&mut self, kind: MessageKind, line: u64, core: u8) -> &mut Message {
        self.in_flight += 1;
        let slot = match self.free_slots.pop() {
            Some(slot) => slot,
            None => {
                self.slots.push(Message { line, wts: 0, rts: 0, kind, core, has_version: false, words: [0; 8] });
                (self.slots.len() - 1) as u32
            }
        };
        self.order.push(slot);
        let message = &mut self.slots[slot as usize];
        message.line = line;
        message.kind = kind;
        message.core = core;
        message
    }

    /// Frees the slot of a message that was consumed; the caller takes it off the order.
    #[inline(always)]
    pub fn free(&mut self, slot: u32) {
        self.in_flight -= 1;
        self.free_slots.push(slot);
    }
}
