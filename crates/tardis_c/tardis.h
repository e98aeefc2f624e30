/* The checker and the runner of "Tardis, proved" for C and C++. crates/tardis_c/README.md of the repository says what
   is proved of them and how to link them. At the end is a machine that the caller drives, event by event. The numbers
   that calls answer are the program's numbers of errors where it has them, and not its exit statuses.

   Texts are bytes with a length, and need no byte 0 at their end. A null pointer stands for nothing where the length is
   0, and is TARDIS_NULL elsewhere. What a call writes must not overlap anything else that it is given. No call keeps a
   pointer, starts a thread or prints. Calls of several threads at a time don't touch each other, but one machine takes
   one call at a time. Memory comes from malloc, realloc and free, and is given back before a call ends, or, of a
   machine, when that is closed.

   Where a text goes out, *length says how long it is. It stands at the front of the buffer if all of it fits; otherwise
   the buffer stays as it is. It is a report, or on TARDIS_NO_MEMORY, TARDIS_BAD_TEST, TARDIS_BAD_LINE,
   TARDIS_BAD_MACHINE, TARDIS_BAD_OPENING and TARDIS_TOO_MANY_STATES the line that the program writes to standard error.
   TARDIS_SHORT_BUFFER is answered for reports alone: a line that doesn't fit keeps its number. So on those six, read
   the buffer only if *length is at most its size. */
#ifndef TARDIS_H
#define TARDIS_H

#include <stddef.h>
#include <stdint.h>
#include <stdlib.h>

#ifdef __cplusplus
extern "C" {
#endif

/* The version: 10000 for each major version, 100 for each minor one, 1 for each patch. So 401 is 0.4.1. */
#define TARDIS_VERSION 401

enum tardis_number {
    TARDIS_DONE = 0,         /* every run ended all done; the records are legal; all ends are listed */
    TARDIS_NO_MEMORY = 3,    /* memory was refused */
    TARDIS_BAD_TEST = 4,     /* the text is no litmus test */
    TARDIS_BAD_LINE = 5,     /* the text is no trace, or its records are none */
    TARDIS_BAD_MACHINE = 6,  /* a value of the machine's configuration is out of its range */
    TARDIS_NOT_DONE = 7,     /* some run ended otherwise; the records aren't legal */
    TARDIS_TOO_MANY_STATES = 7, /* of tardis_list_ends alone: it would keep more states at once than it may */
    TARDIS_SHORT_BUFFER = 8, /* the report, whatever it says, doesn't fit into the buffer */
    TARDIS_NULL = 9,         /* a pointer is null: nothing was done, and nothing is written */
    TARDIS_BAD_OPERATION = 10, /* an operation of an array has a fault */
    TARDIS_BAD_RECORD = 11,    /* a record of an array has a fault, and no operation has one */
    TARDIS_BAD_OPENING = 12,   /* the text is no opening; a word of an array has a fault */
    TARDIS_NO_SYSTEM = 16,     /* no machine is open: it never was, or is closed (13 to 15 are of no call) */
    TARDIS_IS_OPEN = 17,       /* a machine is open already, and stays */
    TARDIS_NO_SUCH = 18        /* there is no such core, bank, message in flight or record, or none at the index */
};

/* The options of a run. Those named flags are set by any number but 0. */
struct tardis_options {
    uint64_t lease;         /* ticks, 1 to 4294967296 */
    uint64_t time;          /* of every core and bank before the first event */
    uint64_t banks;         /* 1 to 8 */
    uint64_t sets;          /* of a private cache, 1 to 1024 */
    uint64_t ways;          /* lines of a private set, 1 to 16 */
    uint64_t bank_sets;     /* 1 to 1024 */
    uint64_t bank_ways;     /* 1 to 16 */
    uint64_t line_words;    /* 1 or 8 */
    uint64_t messages;      /* in flight, 1 to 65536; with no more than cores a run may get stuck */
    uint64_t private_write; /* a flag */
    uint64_t by_seed;       /* a flag: events are drawn, and not in rounds */
    uint64_t seed;          /* of the first run, if events are drawn; each further run has the next */
    uint64_t limit;         /* the most rounds or turns of a run; 4294967295 if it is above that, and 0 allows none */
    uint64_t runs;          /* of a litmus test; any number, 0 too (a report of no run, TARDIS_DONE). How each run ended
                               is kept in memory until the call ends */
    uint64_t records;       /* a flag: a trace's records are written, and not its report */
    uint64_t fair;          /* a flag: rounds are fair; of no effect if events are drawn */
    uint64_t json;          /* a flag: a report is one JSON object, and not lines; of no effect where records are
                               written */
    uint64_t counts;        /* a flag: what a trace's run did, in numbers, stands behind its report; of no effect where
                               records are written */
    uint64_t every;         /* any number: the counts have a row each time that so many more operations are completed,
                               and none for 0; of no effect without counts */
};

/* How many states a list of ends may keep at once if the program isn't told otherwise. */
#define TARDIS_USUAL_STATES 4194304

enum tardis_kind { TARDIS_LOAD = 0, TARDIS_STORE = 1, TARDIS_SWAP = 2 };

/* Histories are of cores with numbers below this. A check keeps some 40 bytes for each number up to the greatest that
   was issued an operation: 40 MB if that is the last one. */
#define TARDIS_MOST_CORES 1048576

/* A word of the opening memory: what it holds before all operations. Words that aren't named hold 0. */
struct tardis_word {
    uint64_t address; /* a multiple of 8 */
    uint64_t value;
};

/* An operation that a core was issued. */
struct tardis_operation {
    uint32_t core;    /* below TARDIS_MOST_CORES */
    uint32_t kind;    /* enum tardis_kind */
    uint64_t address; /* of a word: a multiple of 8 */
    uint64_t value;   /* what is written; a load's isn't looked at */
};

/* A record of a completed operation. */
struct tardis_record {
    struct tardis_operation operation;
    uint64_t place;    /* in the core's program order, from 0 on; below 2^32 */
    uint64_t received; /* a store's isn't looked at */
    uint64_t time;     /* the timestamp */
    uint64_t number;   /* the completion number: from 0 on, each once */
};

enum tardis_told_kind {
    TARDIS_LEGAL = 0,
    TARDIS_MISSING_NUMBER = 1,       /* the least number that no record has */
    TARDIS_OUT_OF_PROGRAM_ORDER = 2, /* the number of the first faulty record, as they stand by time and number */
    TARDIS_WRONG_VALUE = 3,          /* likewise */
    TARDIS_BAD_CORE = 4,             /* from here on: the index of the first faulty item */
    TARDIS_BAD_KIND = 5,
    TARDIS_BAD_ADDRESS = 6,
    TARDIS_BAD_PLACE = 7
};

/* What is wrong, and with which number or index. It says something on TARDIS_DONE, TARDIS_NOT_DONE,
   TARDIS_BAD_OPERATION and TARDIS_BAD_RECORD alone. On TARDIS_NO_MEMORY both are 0, but no verdict was found. */
struct tardis_told {
    uint64_t kind; /* enum tardis_told_kind */
    uint64_t number;
};

/* Where a value comes from. */
enum tardis_source {
    TARDIS_NOTHING_EXPECTED = 0,
    TARDIS_OPENING_MEMORY = 1,
    TARDIS_A_RECORD = 2
};

/* What is wrong with a history: as in `struct tardis_told`, also on TARDIS_BAD_OPENING. With TARDIS_WRONG_VALUE what
   the record should have received, too, and who wrote that; else all of this is 0. */
struct tardis_found {
    uint64_t kind; /* enum tardis_told_kind */
    uint64_t number;
    uint64_t expected;
    uint64_t source; /* enum tardis_source */
    uint64_t writer; /* the number of the record, on TARDIS_A_RECORD */
};

/* The first core that hasn't as many records as operations, and how many records it has. If these are legal, its
   operation at this place is the first one that lacks its record. It says something on TARDIS_NOT_DONE alone. */
struct tardis_lack {
    uint64_t core;
    uint64_t place; /* in the core's program order, from 0 on */
};

/* A machine that the caller drives. Begin with one of all zeros, as `struct tardis_system system = {0}`, open it, and
   end it with tardis_system_close. What it holds is the library's: don't change it, and don't use a copy of it.

   The seats of docs/SEATS.md, by which several threads drive one machine, have no form in C: that each seat is one
   thread's, and all seats one machine's, is a rule that only Rattle can check. Threads may each have a machine. */
struct tardis_system {
    void *machine;
    uint64_t is_open;
};

enum tardis_answer_kind {
    TARDIS_ISSUED = 0,
    TARDIS_COMPLETED = 1,  /* the open operation is completed, with a record */
    TARDIS_REQUESTED = 2,  /* a request was sent */
    TARDIS_WAITING = 3,    /* the request is out, and the copy doesn't serve the operation yet */
    TARDIS_IDLE = 4,       /* no operation is open */
    TARDIS_DELIVERED = 5,  /* the message is consumed, and answered if its kind is answered */
    TARDIS_DROPPED = 6,    /* the message is consumed, and had no effect */
    TARDIS_HELD = 7,       /* the message stays in flight, and nothing changed */
    TARDIS_STARTED = 8,    /* the message stays in flight, and another was sent on its behalf */
    TARDIS_EVICTED = 9,    /* the copy or the entry is gone, or a dirty line is on its way to DRAM */
    TARDIS_RECALLED = 10,  /* the bank asks the owner to return the line, which stays */
    TARDIS_ADVANCED = 11,
    TARDIS_REFUSED = 12    /* nothing changed, but that TARDIS_EXHAUSTED stops the machine */
};

enum tardis_refusal {
    TARDIS_NOT_REFUSED = 0,
    TARDIS_BUSY = 1,            /* an operation is open; the entry is being loaded, recalled or stored */
    TARDIS_TOO_MANY = 2,        /* the core was issued 4294967295 operations */
    TARDIS_NOT_THERE = 3,       /* there is no such core, bank, message in flight, copy or entry */
    TARDIS_NO_ROOM = 4,         /* the core has no place for a copy of the line: evict tardis_system_victim's */
    TARDIS_PINNED = 5,          /* the open operation is on the line */
    TARDIS_NETWORK_FULL = 6,    /* as many messages are in flight as can be, or numbers of messages are used up */
    TARDIS_MEMORY_REFUSED = 7,  /* an allocation failed */
    TARDIS_EXHAUSTED = 8,       /* a sum of times doesn't fit 64 bits: the machine is stopped */
    TARDIS_STOPPED = 9          /* an earlier event was answered TARDIS_EXHAUSTED */
};

/* The answer to an event. */
struct tardis_answer {
    uint64_t kind;                  /* enum tardis_answer_kind */
    uint64_t refusal;               /* enum tardis_refusal */
    struct tardis_record completed; /* on TARDIS_COMPLETED, else zeros */
};

enum tardis_message_kind {
    TARDIS_SH_REQ = 0,
    TARDIS_EX_REQ = 1,
    TARDIS_SH_REP = 2,
    TARDIS_EX_REP = 3,
    TARDIS_RENEW_REP = 4,
    TARDIS_UPGRADE_REP = 5,
    TARDIS_FLUSH_REQ = 6,
    TARDIS_WB_REQ = 7,
    TARDIS_FLUSH_REP = 8,
    TARDIS_WB_REP = 9,
    TARDIS_DRAM_LD = 10,
    TARDIS_DRAM_LD_REP = 11,
    TARDIS_DRAM_ST = 12,
    TARDIS_DRAM_ST_REP = 13
};

enum tardis_end { TARDIS_CORE = 0, TARDIS_BANK = 1, TARDIS_DRAM = 2 };

/* A message in flight. What its kind doesn't carry is 0. */
struct tardis_message {
    uint64_t number;
    uint64_t kind;        /* enum tardis_message_kind */
    uint64_t from_kind;   /* enum tardis_end */
    uint64_t from;        /* the number of that core, or of that bank or the bank of that DRAM */
    uint64_t to_kind;     /* enum tardis_end */
    uint64_t to;
    uint64_t line;        /* the line's number: the byte address of its first word, divided by 8 * line_words */
    uint64_t pts;         /* the time of the core that asks to read, in ticks */
    uint64_t has_version; /* 1 if the core that asks has a copy, */
    uint64_t version;     /* which is of this version */
    uint64_t wts;         /* the time of the line's last write */
    uint64_t rts;         /* the time up to which the line may be read */
    uint64_t words[8];    /* the line's words: all eight, or the first where line_words is 1 */
};

/* A core's open operation. */
struct tardis_open {
    uint64_t state; /* 0 there is none, 1 there is one, 2 there is one whose request is out */
    struct tardis_operation operation; /* else zeros */
};

/* What is to be evicted. */
struct tardis_place {
    uint64_t is_there; /* 1 if something is, else all is 0 */
    uint64_t bank;     /* 0 where a core's copy is */
    uint64_t line;     /* the line's number */
};

/* What a machine has counted. UINT64_MAX stands for more of the first four, too. */
struct tardis_totals {
    uint64_t renewals; /* sent */
    uint64_t upgrades;
    uint64_t flushes;
    uint64_t write_backs;
    uint64_t messages;   /* in flight */
    uint64_t records;    /* completed operations */
    uint64_t is_stopped; /* 1 if an event was answered TARDIS_EXHAUSTED */
};

/* The exports. A slice is a pointer, which is never null, and then how many items there are, below 2^63 bytes. */
uint32_t tardis_c_version(void);
void tardis_c_defaults(struct tardis_options *options);
uint32_t tardis_c_litmus(const uint8_t *text, size_t text_length, const struct tardis_options *options,
                         uint8_t *buffer, size_t size, size_t *length);
uint32_t tardis_c_ends(const uint8_t *text, size_t text_length, uint64_t states, uint32_t orders, uint32_t json,
                       uint8_t *buffer, size_t size, size_t *length);
uint32_t tardis_c_trace(const uint8_t *text, size_t text_length, const struct tardis_options *options,
                        uint8_t *buffer, size_t size, size_t *length);
uint32_t tardis_c_check(const uint8_t *trace, size_t trace_length, const uint8_t *records, size_t records_length,
                        uint8_t *buffer, size_t size, size_t *length);
uint32_t tardis_c_check_opened(const uint8_t *opening, size_t opening_length, const uint8_t *trace, size_t trace_length,
                               const uint8_t *records, size_t records_length, uint32_t complete, uint32_t json,
                               uint8_t *buffer, size_t size, size_t *length);
uint32_t tardis_c_check_arrays(const struct tardis_operation *operations, size_t operation_count,
                               const struct tardis_record *records, size_t record_count, struct tardis_told *told);
uint32_t tardis_c_check_history(const struct tardis_word *opening, size_t opening_count,
                                const struct tardis_operation *operations, size_t operation_count,
                                const struct tardis_record *records, size_t record_count, struct tardis_found *found);
uint32_t tardis_c_first_lack(const struct tardis_operation *operations, size_t operation_count,
                             const struct tardis_record *records, size_t record_count, struct tardis_lack *lack);
uint32_t tardis_c_word_fault(const struct tardis_word *word);
uint32_t tardis_c_operation_fault(const struct tardis_operation *operation);
uint32_t tardis_c_record_fault(const struct tardis_record *record);
uint32_t tardis_c_system_open(struct tardis_system *system, uint32_t cores, const struct tardis_options *options,
                              const struct tardis_word *opening, size_t opening_count);
void tardis_c_system_close(struct tardis_system *system);
uint32_t tardis_c_system_issue(struct tardis_system *system, const struct tardis_operation *operation,
                               struct tardis_answer *answer);
uint32_t tardis_c_system_attempt(struct tardis_system *system, uint32_t core, struct tardis_answer *answer);
uint32_t tardis_c_system_deliver(struct tardis_system *system, uint64_t number, struct tardis_answer *answer);
uint32_t tardis_c_system_evict_copy(struct tardis_system *system, uint32_t core, uint64_t line,
                                    struct tardis_answer *answer);
uint32_t tardis_c_system_evict_entry(struct tardis_system *system, uint32_t bank, uint64_t line,
                                     struct tardis_answer *answer);
uint32_t tardis_c_system_advance(struct tardis_system *system, uint32_t core, struct tardis_answer *answer);
uint32_t tardis_c_system_totals(struct tardis_system *system, struct tardis_totals *totals);
uint32_t tardis_c_system_message_number(struct tardis_system *system, uint32_t index, uint64_t *number);
uint32_t tardis_c_system_message(struct tardis_system *system, uint64_t number, struct tardis_message *message);
uint32_t tardis_c_system_record(struct tardis_system *system, size_t number, struct tardis_record *record);
uint32_t tardis_c_system_open_operation(struct tardis_system *system, uint32_t core, struct tardis_open *operation);
uint32_t tardis_c_system_copies(struct tardis_system *system, uint32_t core, uint64_t *lines, size_t size,
                                size_t *count);
uint32_t tardis_c_system_entries(struct tardis_system *system, uint32_t bank, uint64_t *lines, size_t size,
                                 size_t *count);
uint32_t tardis_c_system_victim(struct tardis_system *system, uint32_t core, uint64_t line,
                                struct tardis_place *place);
uint32_t tardis_c_system_make_room(struct tardis_system *system, uint64_t number, struct tardis_place *place);
uint32_t tardis_c_system_owners(struct tardis_system *system, uint64_t line, uint64_t *owners);
uint32_t tardis_c_system_value(struct tardis_system *system, uint64_t address, uint64_t *value);

/* What stands at no address: nothing is read there. */
static uint64_t tardis_nothing;

static inline int tardis_is_null(const void *pointer, size_t count) { return !pointer && count; }

static inline const uint8_t *tardis_text(const char *text) {
    return text ? (const uint8_t *)text : (const uint8_t *)&tardis_nothing;
}

static inline uint8_t *tardis_buffer(char *buffer) { return buffer ? (uint8_t *)buffer : (uint8_t *)&tardis_nothing; }

/* The library's version. If it isn't TARDIS_VERSION, the library is of another header: compile anew. */
static inline uint32_t tardis_version(void) { return tardis_c_version(); }

/* The options of a run if none is said, as the program has them. */
static inline int tardis_defaults(struct tardis_options *options) {
    if (!options) return TARDIS_NULL;
    tardis_c_defaults(options);
    return TARDIS_DONE;
}

/* Runs a litmus test, and puts the report into the buffer. */
static inline int tardis_run_litmus(const char *text, size_t text_length, const struct tardis_options *options,
                                    char *buffer, size_t size, size_t *length) {
    if (tardis_is_null(text, text_length) || !options || tardis_is_null(buffer, size) || !length) return TARDIS_NULL;
    *length = 0;
    return (int)tardis_c_litmus(tardis_text(text), text_length, options, tardis_buffer(buffer), size, length);
}

/* Lists every end that a litmus test has, in any run, and no other; puts the list into the buffer. At most `states`
   states are kept at once. That may be any number; the program's is TARDIS_USUAL_STATES. If they are too few, the line
   says how many are enough to go on. Where `orders` isn't 0, each end has an order of the threads' memory operations
   that leads there. Where `json` isn't 0, the list is one JSON object, and not lines. */
static inline int tardis_list_ends(const char *text, size_t text_length, uint64_t states, uint32_t orders,
                                   uint32_t json, char *buffer, size_t size, size_t *length) {
    if (tardis_is_null(text, text_length) || tardis_is_null(buffer, size) || !length) return TARDIS_NULL;
    *length = 0;
    return (int)tardis_c_ends(tardis_text(text), text_length, states, orders, json, tardis_buffer(buffer), size,
                              length);
}

/* Runs a trace, and puts the report, with counts behind it if they are asked for, or the records, into the buffer. */
static inline int tardis_run_trace(const char *text, size_t text_length, const struct tardis_options *options,
                                   char *buffer, size_t size, size_t *length) {
    if (tardis_is_null(text, text_length) || !options || tardis_is_null(buffer, size) || !length) return TARDIS_NULL;
    *length = 0;
    return (int)tardis_c_trace(tardis_text(text), text_length, options, tardis_buffer(buffer), size, length);
}

/* Checks records against a trace, both as texts, and puts the line of the verdict into the buffer. */
static inline int tardis_check(const char *trace, size_t trace_length, const char *records, size_t records_length,
                               char *buffer, size_t size, size_t *length) {
    if (tardis_is_null(trace, trace_length) || tardis_is_null(records, records_length)) return TARDIS_NULL;
    if (tardis_is_null(buffer, size) || !length) return TARDIS_NULL;
    *length = 0;
    return (int)tardis_c_check(tardis_text(trace), trace_length, tardis_text(records), records_length,
                               tardis_buffer(buffer), size, length);
}

/* Does so over the memory that an opening gives, as a text too: a line for each word with its value, and 0 for all
   other words; the empty text gives zeros. Where `complete` isn't 0, legal records must be those of all operations.
   Where `json` isn't 0, the verdict is one JSON object, and not a line. The opening's fault, TARDIS_BAD_OPENING, takes
   precedence over the others. */
static inline int tardis_check_opened(const char *opening, size_t opening_length, const char *trace,
                                      size_t trace_length, const char *records, size_t records_length,
                                      uint32_t complete, uint32_t json, char *buffer, size_t size, size_t *length) {
    if (tardis_is_null(opening, opening_length) || tardis_is_null(trace, trace_length)) return TARDIS_NULL;
    if (tardis_is_null(records, records_length) || tardis_is_null(buffer, size) || !length) return TARDIS_NULL;
    *length = 0;
    return (int)tardis_c_check_opened(tardis_text(opening), opening_length, tardis_text(trace), trace_length,
                                      tardis_text(records), records_length, complete, json, tardis_buffer(buffer),
                                      size, length);
}

/* Checks records against what cores were issued, each core's operations in its order, over a memory of zeros. Look at
   the number first: what is told says nothing on TARDIS_NO_MEMORY and TARDIS_NULL. */
static inline int tardis_check_records(const struct tardis_operation *operations, size_t operation_count,
                                       const struct tardis_record *records, size_t record_count,
                                       struct tardis_told *told) {
    if (tardis_is_null(operations, operation_count) || tardis_is_null(records, record_count)) return TARDIS_NULL;
    if (!told) return TARDIS_NULL;
    told->kind = told->number = 0;
    if (!operations) operations = (const struct tardis_operation *)&tardis_nothing;
    if (!records) records = (const struct tardis_record *)&tardis_nothing;
    return (int)tardis_c_check_arrays(operations, operation_count, records, record_count, told);
}

/* Does so over the memory that opens with these words, of which the later of two for one address counts; and finds
   what was expected in place of a wrong value, and who wrote it. A fault of a word takes precedence over one of an
   operation, and that over one of a record.

   The verdict is on what is there. If no later record comes before one of these by time and number, a wrong value or a
   fault of program order stays one. Else a later record may mend it, or break what was legal. */
static inline int tardis_check_history(const struct tardis_word *opening, size_t opening_count,
                                       const struct tardis_operation *operations, size_t operation_count,
                                       const struct tardis_record *records, size_t record_count,
                                       struct tardis_found *found) {
    if (tardis_is_null(opening, opening_count) || tardis_is_null(operations, operation_count)) return TARDIS_NULL;
    if (tardis_is_null(records, record_count) || !found) return TARDIS_NULL;
    found->kind = found->number = found->expected = found->source = found->writer = 0;
    if (!opening) opening = (const struct tardis_word *)&tardis_nothing;
    if (!operations) operations = (const struct tardis_operation *)&tardis_nothing;
    if (!records) records = (const struct tardis_record *)&tardis_nothing;
    return (int)tardis_c_check_history(opening, opening_count, operations, operation_count, records, record_count,
                                       found);
}

/* Whether each core has as many records as operations: TARDIS_DONE if so, and else TARDIS_NOT_DONE. Whether the records
   are legal isn't looked at: with tardis_check_history the two say what `tardis check --complete` does. A fault of
   an operation takes precedence over one of a record; tardis_check_records says which item has it. */
static inline int tardis_first_lack(const struct tardis_operation *operations, size_t operation_count,
                                    const struct tardis_record *records, size_t record_count,
                                    struct tardis_lack *lack) {
    if (tardis_is_null(operations, operation_count) || tardis_is_null(records, record_count)) return TARDIS_NULL;
    if (!lack) return TARDIS_NULL;
    lack->core = lack->place = 0;
    if (!operations) operations = (const struct tardis_operation *)&tardis_nothing;
    if (!records) records = (const struct tardis_record *)&tardis_nothing;
    return (int)tardis_c_first_lack(operations, operation_count, records, record_count, lack);
}

/* A history that grows: begin with one of all zeros, as `struct tardis_history history = {0}`, and end it with
   tardis_history_free. What is added is copied. An item with a fault is refused: TARDIS_BAD_OPENING,
   TARDIS_BAD_OPERATION or TARDIS_BAD_RECORD. Then, and on TARDIS_NO_MEMORY, the history stays as it was. */
struct tardis_history {
    struct tardis_word *opening;
    struct tardis_operation *operations;
    struct tardis_record *records;
    size_t opening_count, operation_count, record_count;
};

/* Items with room for one more; null if memory was refused, and then they stay where they are. They have room for as
   many as the least power of two that isn't below their count. */
static inline void *tardis_grown(void *items, size_t count, size_t size) {
    if (count & (count - 1)) return items;
    if (count > (size_t)-1 / 2 / size) return NULL;
    return realloc(items, (count ? 2 * count : 1) * size);
}

/* A word's value before all operations. */
static inline int tardis_history_open(struct tardis_history *history, const struct tardis_word *word) {
    void *grown;
    if (!history || !word) return TARDIS_NULL;
    if (tardis_c_word_fault(word)) return TARDIS_BAD_OPENING;
    if (!(grown = tardis_grown(history->opening, history->opening_count, sizeof *word))) return TARDIS_NO_MEMORY;
    history->opening = (struct tardis_word *)grown;
    history->opening[history->opening_count++] = *word;
    return TARDIS_DONE;
}

/* The next operation of its core. */
static inline int tardis_history_issue(struct tardis_history *history, const struct tardis_operation *operation) {
    void *grown;
    if (!history || !operation) return TARDIS_NULL;
    if (tardis_c_operation_fault(operation)) return TARDIS_BAD_OPERATION;
    grown = tardis_grown(history->operations, history->operation_count, sizeof *operation);
    if (!grown) return TARDIS_NO_MEMORY;
    history->operations = (struct tardis_operation *)grown;
    history->operations[history->operation_count++] = *operation;
    return TARDIS_DONE;
}

/* A record of an operation, which may be added before its operation and in any order. */
static inline int tardis_history_complete(struct tardis_history *history, const struct tardis_record *record) {
    void *grown;
    if (!history || !record) return TARDIS_NULL;
    if (tardis_c_record_fault(record)) return TARDIS_BAD_RECORD;
    if (!(grown = tardis_grown(history->records, history->record_count, sizeof *record))) return TARDIS_NO_MEMORY;
    history->records = (struct tardis_record *)grown;
    history->records[history->record_count++] = *record;
    return TARDIS_DONE;
}

/* The verdict on all that there is so far, as of tardis_check_history. Each call goes through the whole history: asked
   after each of n records, it takes time in proportion to n * n. */
static inline int tardis_history_verdict(const struct tardis_history *history, struct tardis_found *found) {
    if (!history) return TARDIS_NULL;
    return tardis_check_history(history->opening, history->opening_count, history->operations,
                                history->operation_count, history->records, history->record_count, found);
}

/* Whether each operation so far has its record, as of tardis_first_lack. Ask for the verdict, too. */
static inline int tardis_history_lack(const struct tardis_history *history, struct tardis_lack *lack) {
    if (!history) return TARDIS_NULL;
    return tardis_first_lack(history->operations, history->operation_count, history->records, history->record_count,
                             lack);
}

/* Gives the memory back; the history is empty then. */
static inline void tardis_history_free(struct tardis_history *history) {
    static const struct tardis_history none = {NULL, NULL, NULL, 0, 0, 0};
    if (!history) return;
    free(history->opening);
    free(history->operations);
    free(history->records);
    *history = none;
}

/* Opens a machine with 1 to 64 cores, built as the options say (`lease` to `private_write`; the rest is of no effect),
   over a memory that opens with these words, of which the later of two for one address counts. TARDIS_IS_OPEN;
   TARDIS_BAD_OPENING if a word has a fault, else TARDIS_BAD_MACHINE if a number is out of its range, and
   TARDIS_NO_MEMORY. Unless it answers TARDIS_DONE the structure stays as it was. */
static inline int tardis_system_open(struct tardis_system *system, uint32_t cores,
                                     const struct tardis_options *options, const struct tardis_word *opening,
                                     size_t opening_count) {
    if (!system || !options || tardis_is_null(opening, opening_count)) return TARDIS_NULL;
    if (!opening) opening = (const struct tardis_word *)&tardis_nothing;
    return (int)tardis_c_system_open(system, cores, options, opening, opening_count);
}

/* Gives the machine's memory back: none is open then. Where none is, it does nothing. */
static inline void tardis_system_close(struct tardis_system *system) {
    if (system) tardis_c_system_close(system);
}

/* Events. Each is TARDIS_DONE with its answer, which may be a refusal, or TARDIS_NO_SYSTEM. Unless it is TARDIS_DONE,
   the answer stays as it was. A line is named by its number: the byte address of one of its words, divided by
   8 * line_words. Its bank is that number modulo `banks`. */

/* A core is given its next operation, which is attempted later. TARDIS_BAD_OPERATION if that has a fault, also without
   a machine. A core that the machine doesn't have is TARDIS_NOT_THERE. */
static inline int tardis_system_issue(struct tardis_system *system, const struct tardis_operation *operation,
                                      struct tardis_answer *answer) {
    if (!system || !operation || !answer) return TARDIS_NULL;
    return (int)tardis_c_system_issue(system, operation, answer);
}

/* A core tries to complete its open operation, or sends the request that it needs. */
static inline int tardis_system_attempt(struct tardis_system *system, uint32_t core, struct tardis_answer *answer) {
    if (!system || !answer) return TARDIS_NULL;
    return (int)tardis_c_system_attempt(system, core, answer);
}

/* The message in flight that has this number arrives. */
static inline int tardis_system_deliver(struct tardis_system *system, uint64_t number, struct tardis_answer *answer) {
    if (!system || !answer) return TARDIS_NULL;
    return (int)tardis_c_system_deliver(system, number, answer);
}

/* A core gives up its copy of a line. */
static inline int tardis_system_evict_copy(struct tardis_system *system, uint32_t core, uint64_t line,
                                           struct tardis_answer *answer) {
    if (!system || !answer) return TARDIS_NULL;
    return (int)tardis_c_system_evict_copy(system, core, line, answer);
}

/* A bank gives up its entry of a line, or recalls the line first. */
static inline int tardis_system_evict_entry(struct tardis_system *system, uint32_t bank, uint64_t line,
                                            struct tardis_answer *answer) {
    if (!system || !answer) return TARDIS_NULL;
    return (int)tardis_c_system_evict_entry(system, bank, line, answer);
}

/* A core's time goes on by one tick. */
static inline int tardis_system_advance(struct tardis_system *system, uint32_t core, struct tardis_answer *answer) {
    if (!system || !answer) return TARDIS_NULL;
    return (int)tardis_c_system_advance(system, core, answer);
}

/* Look-ups, which change nothing of the machine. Where one isn't TARDIS_DONE, what it would tell stays as it was. */

/* What the machine has counted. */
static inline int tardis_system_totals(struct tardis_system *system, struct tardis_totals *totals) {
    return system && totals ? (int)tardis_c_system_totals(system, totals) : TARDIS_NULL;
}

/* The number of the message at an index of those in flight, in the order of sending; TARDIS_NO_SUCH past the last. */
static inline int tardis_system_message_number(struct tardis_system *system, uint32_t index, uint64_t *number) {
    return system && number ? (int)tardis_c_system_message_number(system, index, number) : TARDIS_NULL;
}

/* The message in flight that has a number; TARDIS_NO_SUCH if there is none. */
static inline int tardis_system_message(struct tardis_system *system, uint64_t number,
                                        struct tardis_message *message) {
    return system && message ? (int)tardis_c_system_message(system, number, message) : TARDIS_NULL;
}

/* The record of the operation that completed as this one, from 0 on; TARDIS_NO_SUCH if there is none yet. */
static inline int tardis_system_record(struct tardis_system *system, size_t number, struct tardis_record *record) {
    return system && record ? (int)tardis_c_system_record(system, number, record) : TARDIS_NULL;
}

/* A core's open operation, if it has one; TARDIS_NO_SUCH if there is no such core. */
static inline int tardis_system_open_operation(struct tardis_system *system, uint32_t core,
                                               struct tardis_open *operation) {
    return system && operation ? (int)tardis_c_system_open_operation(system, core, operation) : TARDIS_NULL;
}

/* The numbers of the lines that a core has copies of, in rising order: as many as `lines` has room for, and *count says
   how many there are. TARDIS_NO_SUCH if there is no such core, else TARDIS_NO_MEMORY if memory is refused. A core has at
   most sets * ways copies, and a bank bank_sets * bank_ways entries. */
static inline int tardis_system_copies(struct tardis_system *system, uint32_t core, uint64_t *lines, size_t size,
                                       size_t *count) {
    if (!system || tardis_is_null(lines, size) || !count) return TARDIS_NULL;
    return (int)tardis_c_system_copies(system, core, lines ? lines : &tardis_nothing, size, count);
}

/* The numbers of the lines that a bank has Shared or Exclusive, in the same way. */
static inline int tardis_system_entries(struct tardis_system *system, uint32_t bank, uint64_t *lines, size_t size,
                                        size_t *count) {
    if (!system || tardis_is_null(lines, size) || !count) return TARDIS_NULL;
    return (int)tardis_c_system_entries(system, bank, lines ? lines : &tardis_nothing, size, count);
}

/* The copy to evict from a core's cache to make a place for a line, if there is none; TARDIS_NO_SUCH if there is no
   such core. */
static inline int tardis_system_victim(struct tardis_system *system, uint32_t core, uint64_t line,
                                       struct tardis_place *place) {
    return system && place ? (int)tardis_c_system_victim(system, core, line, place) : TARDIS_NULL;
}

/* The bank and the line to evict so that a message, a request that is held, finds room; nothing if that is of no
   use, or if no message has this number. */
static inline int tardis_system_make_room(struct tardis_system *system, uint64_t number, struct tardis_place *place) {
    return system && place ? (int)tardis_c_system_make_room(system, number, place) : TARDIS_NULL;
}

/* How many own a line, 0 or 1: its Exclusive copy, or a grant or a return of it in flight. */
static inline int tardis_system_owners(struct tardis_system *system, uint64_t line, uint64_t *owners) {
    return system && owners ? (int)tardis_c_system_owners(system, line, owners) : TARDIS_NULL;
}

/* The value of the word at a byte address, where its line now is; of the word that the address lies in if it isn't a
   multiple of 8. */
static inline int tardis_system_value(struct tardis_system *system, uint64_t address, uint64_t *value) {
    return system && value ? (int)tardis_c_system_value(system, address, value) : TARDIS_NULL;
}

/* The words that docs/EVENTS.md has for an answer, for the cause of a refusal (the empty text for none), for a kind of
   message, and for what is at an end of it. Each is null for a number that is none of these. */
static inline const char *tardis_answer_name(uint64_t kind) {
    static const char *const names[] = {"issued", "completed", "requested", "waiting", "idle", "delivered", "dropped",
                                        "held", "started", "evicted", "recalled", "advanced", "refused"};
    return kind < sizeof names / sizeof *names ? names[kind] : NULL;
}

static inline const char *tardis_refusal_name(uint64_t refusal) {
    static const char *const names[] = {"", "Busy", "TooMany", "NoSuch", "NoRoom", "Pinned", "NetworkFull", "NoMemory",
                                        "Exhausted", "Stopped"};
    return refusal < sizeof names / sizeof *names ? names[refusal] : NULL;
}

static inline const char *tardis_message_name(uint64_t kind) {
    static const char *const names[] = {"ShReq", "ExReq", "ShRep", "ExRep", "RenewRep", "UpgradeRep", "FlushReq",
                                        "WbReq", "FlushRep", "WbRep", "DramLd", "DramLdRep", "DramSt", "DramStRep"};
    return kind < sizeof names / sizeof *names ? names[kind] : NULL;
}

static inline const char *tardis_end_name(uint64_t kind) {
    static const char *const names[] = {"core", "bank", "dram"};
    return kind < sizeof names / sizeof *names ? names[kind] : NULL;
}

#ifdef __cplusplus
}
#endif

#endif
