/* Calls of machines of tardis.h, by hand: each number that a call may answer, what stays, null pointers, machines that
   aren't open, and memory that is refused. The file is C and C++. It is linked with --wrap=malloc and --wrap=realloc.
   It prints the first call that answers otherwise, and ends with status 1; with none it prints nothing. */
#include "tardis.h"

#include <stdio.h>
#include <stdlib.h>
#include <string.h>

#ifdef __cplusplus
extern "C" {
#endif
void *__real_malloc(size_t size);
void *__real_realloc(void *block, size_t size);
void *__wrap_malloc(size_t size);
void *__wrap_realloc(void *block, size_t size);
#ifdef __cplusplus
}
#endif

/* Which growth of memory is refused, counted from 1; 0 for none. */
static unsigned refused_at, growths;

static int is_refused(void) { return ++growths == refused_at; }

void *__wrap_malloc(size_t size) { return is_refused() ? NULL : __real_malloc(size); }

void *__wrap_realloc(void *block, size_t size) { return is_refused() ? NULL : __real_realloc(block, size); }

#define MUST(test) \
    do { \
        if (!(test)) { \
            printf("system_calls.c:%d: not so: %s\n", __LINE__, #test); \
            exit(1); \
        } \
    } while (0)

static struct tardis_system machine;
static struct tardis_options options;
static struct tardis_answer answer;
static struct tardis_totals totals;
static struct tardis_message message;
static struct tardis_record done;
static struct tardis_open opened;
static struct tardis_place place;
static uint64_t number, lines[3];
static size_t count;
static const struct tardis_word five = {8, 5};
static const struct tardis_operation load = {1, TARDIS_LOAD, 8, 7};

/* What calls may write to, filled with sevens; whether none of it was written to. */
static void fill(void) {
    memset(&answer, 7, sizeof answer), memset(&totals, 7, sizeof totals), memset(&message, 7, sizeof message);
    memset(&done, 7, sizeof done), memset(&opened, 7, sizeof opened), memset(&place, 7, sizeof place);
    memset(&number, 7, sizeof number), memset(lines, 7, sizeof lines), memset(&count, 7, sizeof count);
}

static int is_filled(void) {
    const uint64_t sevens = 0x0707070707070707;
    return answer.kind == sevens && answer.refusal == sevens && answer.completed.number == sevens &&
           totals.renewals == sevens && totals.is_stopped == sevens && message.number == sevens &&
           message.rts == sevens && message.words[7] == sevens && done.place == sevens && opened.state == sevens &&
           opened.operation.value == sevens && place.is_there == sevens && place.line == sevens && number == sevens &&
           lines[0] == sevens && count == sevens;
}

/* Each call but `open` and `close` of a machine that isn't open, or of none, answers this, and writes nothing. */
static void all_answer(struct tardis_system *of, int wanted) {
    fill();
    MUST(tardis_system_issue(of, &load, &answer) == wanted && tardis_system_attempt(of, 0, &answer) == wanted);
    MUST(tardis_system_deliver(of, 0, &answer) == wanted && tardis_system_evict_copy(of, 0, 0, &answer) == wanted);
    MUST(tardis_system_evict_entry(of, 0, 0, &answer) == wanted && tardis_system_advance(of, 0, &answer) == wanted);
    MUST(tardis_system_totals(of, &totals) == wanted && tardis_system_message_number(of, 0, &number) == wanted);
    MUST(tardis_system_message(of, 0, &message) == wanted && tardis_system_record(of, 0, &done) == wanted);
    MUST(tardis_system_open_operation(of, 0, &opened) == wanted && tardis_system_victim(of, 0, 0, &place) == wanted);
    MUST(tardis_system_make_room(of, 0, &place) == wanted && tardis_system_owners(of, 0, &number) == wanted);
    MUST(tardis_system_value(of, 8, &number) == wanted && tardis_system_copies(of, 0, lines, 3, &count) == wanted);
    MUST(tardis_system_entries(of, 0, lines, 3, &count) == wanted);
    MUST(is_filled());
}

static void nulls(void) {
    MUST(tardis_system_open(NULL, 2, &options, NULL, 0) == TARDIS_NULL);
    MUST(tardis_system_open(&machine, 2, NULL, NULL, 0) == TARDIS_NULL);
    MUST(tardis_system_open(&machine, 2, &options, NULL, 1) == TARDIS_NULL);
    tardis_system_close(NULL);
    MUST(tardis_system_open(&machine, 2, &options, NULL, 0) == TARDIS_DONE);
    all_answer(NULL, TARDIS_NULL);
    MUST(tardis_system_issue(&machine, NULL, &answer) == TARDIS_NULL);
    MUST(tardis_system_issue(&machine, &load, NULL) == TARDIS_NULL);
    MUST(tardis_system_attempt(&machine, 0, NULL) == TARDIS_NULL);
    MUST(tardis_system_deliver(&machine, 0, NULL) == TARDIS_NULL);
    MUST(tardis_system_evict_copy(&machine, 0, 0, NULL) == TARDIS_NULL);
    MUST(tardis_system_evict_entry(&machine, 0, 0, NULL) == TARDIS_NULL);
    MUST(tardis_system_advance(&machine, 0, NULL) == TARDIS_NULL);
    MUST(tardis_system_totals(&machine, NULL) == TARDIS_NULL);
    MUST(tardis_system_message_number(&machine, 0, NULL) == TARDIS_NULL);
    MUST(tardis_system_message(&machine, 0, NULL) == TARDIS_NULL);
    MUST(tardis_system_record(&machine, 0, NULL) == TARDIS_NULL);
    MUST(tardis_system_open_operation(&machine, 0, NULL) == TARDIS_NULL);
    MUST(tardis_system_victim(&machine, 0, 0, NULL) == TARDIS_NULL);
    MUST(tardis_system_make_room(&machine, 0, NULL) == TARDIS_NULL);
    MUST(tardis_system_owners(&machine, 0, NULL) == TARDIS_NULL);
    MUST(tardis_system_copies(&machine, 0, lines, 3, NULL) == TARDIS_NULL);
    MUST(tardis_system_copies(&machine, 0, NULL, 1, &count) == TARDIS_NULL);
    MUST(tardis_system_entries(&machine, 0, lines, 3, NULL) == TARDIS_NULL);
    MUST(tardis_system_entries(&machine, 0, NULL, 1, &count) == TARDIS_NULL);
    MUST(tardis_system_value(&machine, 0, NULL) == TARDIS_NULL && is_filled());
    MUST(tardis_system_open_operation(&machine, 1, &opened) == TARDIS_DONE && opened.state == 0);
    tardis_system_close(&machine);
}

/* Machines that aren't opened, and what stays of the structure then. */
static void openings(void) {
    static const struct tardis_word words[] = {{8, 5}, {12, 6}};
    uint64_t *const sizes[] = {&options.lease, &options.banks, &options.sets, &options.ways, &options.bank_sets,
                               &options.bank_ways, &options.line_words, &options.messages};
    size_t at;
    MUST(sizeof machine == 16 && TARDIS_NO_SYSTEM == 16 && TARDIS_IS_OPEN == 17 && TARDIS_NO_SUCH == 18);
    all_answer(&machine, TARDIS_NO_SYSTEM);
    tardis_system_close(&machine);
    MUST(tardis_system_open(&machine, 2, &options, words, 2) == TARDIS_BAD_OPENING);
    MUST(tardis_system_open(&machine, 0, &options, words, 2) == TARDIS_BAD_OPENING); /* it comes before this one: */
    MUST(tardis_system_open(&machine, 0, &options, words, 1) == TARDIS_BAD_MACHINE);
    MUST(tardis_system_open(&machine, 65, &options, words, 1) == TARDIS_BAD_MACHINE);
    for (at = 0; at < sizeof sizes / sizeof *sizes; at++) {
        const uint64_t right = *sizes[at];
        *sizes[at] = 0;
        MUST(tardis_system_open(&machine, 2, &options, words, 1) == TARDIS_BAD_MACHINE);
        *sizes[at] = right + 0x100000000; /* the low half is right */
        MUST(tardis_system_open(&machine, 2, &options, words, 1) == TARDIS_BAD_MACHINE);
        *sizes[at] = right;
    }
    MUST(!machine.is_open);
    all_answer(&machine, TARDIS_NO_SYSTEM);
    MUST(tardis_system_open(&machine, 64, &options, words, 1) == TARDIS_DONE && machine.is_open == 1);
    MUST(tardis_system_issue(&machine, &load, &answer) == TARDIS_DONE && answer.kind == TARDIS_ISSUED);
    MUST(tardis_system_open(&machine, 2, &options, words, 2) == TARDIS_IS_OPEN);
    MUST(tardis_system_open_operation(&machine, 1, &opened) == TARDIS_DONE && opened.state == 1);
    tardis_system_close(&machine);
    MUST(!machine.is_open);
    all_answer(&machine, TARDIS_NO_SYSTEM);
    tardis_system_close(&machine);
}

/* The load of docs/EVENTS.md's first example, by hand, over a word that opens with 5. Where memory is refused, what was
   called is called again: nothing has changed. */
static int was_refused;

static int again(int told) {
    MUST(told == TARDIS_DONE);
    if (answer.kind != TARDIS_REFUSED) return 0;
    MUST(answer.refusal == TARDIS_MEMORY_REFUSED && !was_refused && refused_at);
    return was_refused = 1;
}

static void loads(void) {
    static const uint64_t arrivals[] = {0, 1, 2, 0, 3};
    static const uint64_t kinds[] = {TARDIS_STARTED, TARDIS_DELIVERED, TARDIS_DELIVERED, TARDIS_DELIVERED,
                                     TARDIS_DELIVERED};
    size_t at;
    do at = (size_t)tardis_system_open(&machine, 2, &options, &five, 1);
    while (at == TARDIS_NO_MEMORY && !machine.is_open && refused_at && !was_refused && (was_refused = 1));
    MUST(at == TARDIS_DONE);
    while (again(tardis_system_issue(&machine, &load, &answer))) {}
    MUST(answer.kind == TARDIS_ISSUED && answer.refusal == 0 && answer.completed.number == 0);
    while (again(tardis_system_attempt(&machine, 1, &answer))) {}
    MUST(answer.kind == TARDIS_REQUESTED);
    for (at = 0; at < 5; at++) {
        while (again(tardis_system_deliver(&machine, arrivals[at], &answer))) {}
        MUST(answer.kind == kinds[at]);
    }
    while (again(tardis_system_attempt(&machine, 1, &answer))) {}
    MUST(answer.kind == TARDIS_COMPLETED && answer.completed.operation.core == 1);
    MUST(answer.completed.operation.kind == TARDIS_LOAD && answer.completed.operation.address == 8);
    MUST(answer.completed.operation.value == 0 && answer.completed.received == 5);
}

/* Core 1 then stores to the word, gives up the line, and the bank stores it: the line's first store in DRAM, m7, takes
   memory. What a message doesn't carry is 0. */
static void stores(void) {
    static const struct tardis_operation store = {1, TARDIS_STORE, 8, 6};
    static const struct tardis_message sent[] = {
        {4, TARDIS_EX_REQ, TARDIS_CORE, 1, TARDIS_BANK, 0, 1, 0, 1, 0, 0, 0, {0}},
        {5, TARDIS_UPGRADE_REP, TARDIS_BANK, 0, TARDIS_CORE, 1, 1, 0, 0, 0, 0, 10, {0}},
        {6, TARDIS_FLUSH_REP, TARDIS_CORE, 1, TARDIS_BANK, 0, 1, 0, 0, 0, 11, 11, {6}},
        {7, TARDIS_DRAM_ST, TARDIS_BANK, 0, TARDIS_DRAM, 0, 1, 0, 0, 0, 0, 0, {6}},
        {8, TARDIS_DRAM_ST_REP, TARDIS_DRAM, 0, TARDIS_BANK, 0, 1, 0, 0, 0, 0, 0, {0}}};
    size_t at;
    while (again(tardis_system_issue(&machine, &store, &answer))) {}
    while (again(tardis_system_attempt(&machine, 1, &answer))) {}
    MUST(answer.kind == TARDIS_REQUESTED);
    for (at = 0; at < 5; at++) {
        MUST(tardis_system_message(&machine, at + 4, &message) == TARDIS_DONE);
        MUST(memcmp(&message, &sent[at], sizeof message) == 0);
        while (again(tardis_system_deliver(&machine, at + 4, &answer))) {}
        MUST(answer.kind == TARDIS_DELIVERED);
        if (at == 1) {
            while (again(tardis_system_attempt(&machine, 1, &answer))) {}
            MUST(answer.kind == TARDIS_COMPLETED && answer.completed.received == 0);
            while (again(tardis_system_evict_copy(&machine, 1, 1, &answer))) {}
            MUST(answer.kind == TARDIS_EVICTED);
        } else if (at == 2) {
            while (again(tardis_system_evict_entry(&machine, 0, 1, &answer))) {}
            MUST(answer.kind == TARDIS_EVICTED);
        }
    }
}

static void faults(void) {
    struct tardis_operation wrong = load;
    loads();
    fill();
    wrong.kind = 3;
    MUST(tardis_system_issue(&machine, &wrong, &answer) == TARDIS_BAD_OPERATION);
    wrong.kind = TARDIS_LOAD;
    wrong.address = 12;
    MUST(tardis_system_issue(&machine, &wrong, &answer) == TARDIS_BAD_OPERATION);
    wrong.core = TARDIS_MOST_CORES;
    MUST(tardis_system_issue(&machine, &wrong, &answer) == TARDIS_BAD_OPERATION);
    MUST(tardis_system_message_number(&machine, 0, &number) == TARDIS_NO_SUCH);
    MUST(tardis_system_message(&machine, 0, &message) == TARDIS_NO_SUCH);
    MUST(tardis_system_record(&machine, 1, &done) == TARDIS_NO_SUCH);
    MUST(tardis_system_open_operation(&machine, 2, &opened) == TARDIS_NO_SUCH);
    MUST(tardis_system_victim(&machine, 2, 0, &place) == TARDIS_NO_SUCH);
    refused_at = growths + 1; /* a part that isn't there takes no memory */
    MUST(tardis_system_copies(&machine, 2, lines, 3, &count) == TARDIS_NO_SUCH);
    MUST(tardis_system_entries(&machine, 1, lines, 3, &count) == TARDIS_NO_SUCH);
    MUST(tardis_system_copies(&machine, 1, lines, 3, &count) == TARDIS_NO_MEMORY);
    refused_at = growths + 1;
    MUST(tardis_system_entries(&machine, 0, lines, 3, &count) == TARDIS_NO_MEMORY && is_filled());
    refused_at = 0;
    MUST(tardis_system_copies(&machine, 1, NULL, 0, &count) == TARDIS_DONE && count == 1);
    MUST(tardis_system_copies(&machine, 1, lines + 1, 2, &count) == TARDIS_DONE && count == 1);
    MUST(lines[0] != 1 && lines[1] == 1 && lines[2] == lines[0]);
    fill();
    MUST(tardis_system_entries(&machine, 0, lines, 3, &count) == TARDIS_DONE && count == 1 && lines[0] == 1);
    MUST(tardis_system_copies(&machine, 0, lines, 3, &count) == TARDIS_DONE && count == 0 && lines[0] == 1);
    wrong = load;
    wrong.core = 2;
    MUST(tardis_system_issue(&machine, &wrong, &answer) == TARDIS_DONE && answer.kind == TARDIS_REFUSED);
    MUST(answer.refusal == TARDIS_NOT_THERE && answer.completed.received == 0);
    MUST(tardis_system_totals(&machine, &totals) == TARDIS_DONE && totals.records == 1 && totals.messages == 0);
    MUST(totals.renewals == 0 && totals.is_stopped == 0);
    MUST(tardis_system_value(&machine, 8, &number) == TARDIS_DONE && number == 5);
    MUST(tardis_system_owners(&machine, 1, &number) == TARDIS_DONE && number == 0);
    MUST(tardis_system_record(&machine, 0, &done) == TARDIS_DONE && done.received == 5 && done.place == 0);
    MUST(tardis_system_make_room(&machine, 3, &place) == TARDIS_DONE && place.is_there == 0 && place.line == 0);
    tardis_system_close(&machine);
}

/* Each growth of memory in turn is refused. A list that can't grow ahead grows by as much as it needs, once more. */
static void refused(void) {
    unsigned at, most;
    growths = 0;
    loads();
    stores();
    most = growths;
    tardis_system_close(&machine);
    for (at = 1; at <= most; at++) {
        growths = 0;
        refused_at = at;
        was_refused = 0;
        loads();
        stores();
        MUST(was_refused || growths == most + 1);
        refused_at = 0;
        tardis_system_close(&machine);
    }
    MUST(most > 10);
}

/* Each number's word, and that the next number has none. */
static void names(void) {
    MUST(strcmp(tardis_answer_name(TARDIS_ISSUED), "issued") == 0 && !tardis_answer_name(TARDIS_REFUSED + 1));
    MUST(strcmp(tardis_answer_name(TARDIS_REFUSED), "refused") == 0 && !*tardis_refusal_name(TARDIS_NOT_REFUSED));
    MUST(strcmp(tardis_refusal_name(TARDIS_TOO_MANY), "TooMany") == 0 && !tardis_refusal_name(TARDIS_STOPPED + 1));
    MUST(strcmp(tardis_refusal_name(TARDIS_MEMORY_REFUSED), "NoMemory") == 0 && !tardis_end_name(TARDIS_DRAM + 1));
    MUST(strcmp(tardis_message_name(TARDIS_DRAM_ST_REP), "DramStRep") == 0);
    MUST(!tardis_message_name(TARDIS_DRAM_ST_REP + 1) && !tardis_message_name(UINT64_MAX));
    MUST(strcmp(tardis_end_name(TARDIS_DRAM), "dram") == 0);
}

int main(void) {
    names();
    tardis_defaults(&options);
    nulls();
    openings();
    faults();
    refused();
    return 0;
}
