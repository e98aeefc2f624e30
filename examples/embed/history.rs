//! A caller in Rust: what the library exports, safe functions over it, and a history that they check. It prints what
//! they answer.

/// The library's exports, as `tardis.h` declares them, and safe functions over them. A Rust slice is what the exports
/// take as a pointer and a length, and a `&mut` is shared with nothing. So no call of these breaks what they ask for.
mod tardis {
    /// An operation that a core was issued: 0 a load, 1 a store, 2 a swap.
    #[repr(C)]
    #[derive(Clone, Copy)]
    pub struct Operation {
        pub core: u32,
        pub kind: u32,
        pub address: u64,
        pub value: u64,
    }

    /// A record of a completed operation.
    #[repr(C)]
    #[derive(Clone, Copy)]
    pub struct Record {
        pub operation: Operation,
        pub place: u64,
        pub received: u64,
        pub time: u64,
        pub number: u64,
    }

    /// A word, and what it opens with.
    #[repr(C)]
    #[derive(Clone, Copy)]
    pub struct Word {
        pub address: u64,
        pub value: u64,
    }

    /// The kind of a verdict or of a fault, and a number or an index; with a wrong value what was expected, from where
    /// (1 the opening memory, 2 a record), and that record's number.
    #[repr(C)]
    #[derive(Clone, Copy, Debug, Default, PartialEq)]
    pub struct Found {
        pub kind: u64,
        pub number: u64,
        pub expected: u64,
        pub source: u64,
        pub writer: u64,
    }

    /// The options of a run.
    #[repr(C)]
    #[derive(Clone, Copy, Debug, Default)]
    pub struct Options {
        pub lease: u64,
        pub time: u64,
        pub banks: u64,
        pub sets: u64,
        pub ways: u64,
        pub bank_sets: u64,
        pub bank_ways: u64,
        pub line_words: u64,
        pub messages: u64,
        pub private_write: u64,
        pub by_seed: u64,
        pub seed: u64,
        pub limit: u64,
        pub runs: u64,
        pub records: u64,
        pub fair: u64,
        pub json: u64,
        pub counts: u64,
        pub every: u64,
    }

    unsafe extern "C" {
        fn tardis_c_defaults(options: *mut Options);
        fn tardis_c_litmus(
            text: *const u8,
            text_length: usize,
            options: *const Options,
            buffer: *mut u8,
            size: usize,
            length: *mut usize,
        ) -> u32;
        fn tardis_c_check_history(
            opening: *const Word,
            opening_count: usize,
            operations: *const Operation,
            operation_count: usize,
            records: *const Record,
            record_count: usize,
            found: *mut Found,
        ) -> u32;
    }

    pub fn defaults() -> Options {
        let mut options = Options::default();
        // SAFETY: the pointer is that of an `Options` of our own.
        unsafe { tardis_c_defaults(&mut options) };
        options
    }

    /// The number that the call answers, and the text.
    pub fn run_litmus(text: &[u8], options: &Options) -> (u32, Vec<u8>) {
        let mut buffer = vec![0; 4096];
        loop {
            let mut length = 0;
            // SAFETY: pointers and lengths are those of slices and values that are borrowed for the call.
            let number = unsafe {
                tardis_c_litmus(
                    text.as_ptr(),
                    text.len(),
                    options,
                    buffer.as_mut_ptr(),
                    buffer.len(),
                    &mut length,
                )
            };
            if length <= buffer.len() {
                buffer.truncate(length);
                return (number, buffer);
            }
            buffer.resize(length, 0);
        }
    }

    /// The number that the call answers, and what it finds.
    pub fn check_history(
        opening: &[Word],
        operations: &[Operation],
        records: &[Record],
    ) -> (u32, Found) {
        let mut found = Found::default();
        // SAFETY: pointers and lengths are those of slices and values that are borrowed for the call.
        let number = unsafe {
            tardis_c_check_history(
                opening.as_ptr(),
                opening.len(),
                operations.as_ptr(),
                operations.len(),
                records.as_ptr(),
                records.len(),
                &mut found,
            )
        };
        (number, found)
    }
}

use tardis::{Operation, Record, Word};

/// Core 0 stores a message and then a flag; core 1 loads the flag, which is up, and then the message.
fn history(message: u64) -> (Vec<Operation>, Vec<Record>) {
    let operation = |core, kind, address, value| Operation {
        core,
        kind,
        address,
        value,
    };
    let issued = vec![
        operation(0, 1, 0x0, 1),
        operation(0, 1, 0x8, 1),
        operation(1, 0, 0x8, 0),
        operation(1, 0, 0x0, 0),
    ];
    let received = [0, 0, 1, message];
    let records = (0..4).map(|at| Record {
        operation: issued[at],
        place: at as u64 % 2,
        received: received[at],
        time: 1,
        number: at as u64,
    });
    (issued.clone(), records.collect())
}

fn main() {
    for message in [1, 0] {
        let (issued, records) = history(message);
        let (number, found) = tardis::check_history(&[], &issued, &records);
        println!(
            "the message {message}: number {number}, kind {} with {}, expected {} of source {}, record {}",
            found.kind, found.number, found.expected, found.source, found.writer
        );
    }
    // Core 1 loads the message alone, which was there before.
    let (issued, mut records) = history(5);
    records[3].place = 0;
    records[3].number = 0;
    let opening = [Word { address: 0x0, value: 5 }];
    let (number, found) = tardis::check_history(&opening, &issued[3..], &records[3..]);
    println!("an opening of 5: number {number}, kind {}", found.kind);
    let text = b"RISCV ONE\n{ 0:x5=1; 0:x6=x; }\n P0 ;\n sw x5,0(x6) ;\nexists (x=1)\n";
    let (number, report) = tardis::run_litmus(text, &tardis::defaults());
    println!("a test: number {number}");
    print!("{}", String::from_utf8_lossy(&report));
}
