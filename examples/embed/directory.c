/* A directory machine by MSI that has its own history checked: directory SEED [completion | lost]. It prints its log, a
   line for each operation as it completes, and last, behind a #, the verdict. Status 0 if that is legal, else 1.

   Three cores do 40 operations each on two words. A message takes 1 to 10 cycles, drawn by the seed, and one in eight
   takes 60 more. So an invalidation may overtake the data of a load: that load is ordered when its data was sent
   (docs/DIRECTORY-TIMES.md). With `completion` it is ordered when it completes, which gives false alarms. With `lost`
   the machine is broken: every fourth invalidation is acknowledged, but the copy stays. */
#include "tardis.h"

#include <stdio.h>
#include <stdlib.h>
#include <string.h>

enum { CORES = 3, EACH = 40, ALL = CORES * EACH, WORDS = 2, IN_FLIGHT = CORES * (1 + WORDS), LATE = 60, NOBODY = -1 };
enum call { BEGIN, REQUEST, INVALIDATE, ACKNOWLEDGE, RECALL, RETURN, DATA, ARRIVED };
enum state { INVALID, SHARED, MODIFIED };

struct message {
    enum call call;
    int core, word, is_load;
    uint64_t value, sent, arrives;
};

/* A core's copies, and whether an invalidation overtook the data that it waits for. */
struct core {
    int done, overtaken[WORDS];
    enum state state[WORDS];
    uint64_t value[WORDS];
};

/* A word at the directory: the request that it serves while it is busy, and those that wait. */
struct line {
    int is_busy, owner, missing, waiting, sharers[CORES];
    uint64_t value;
    struct message serving, queue[CORES];
};

/* An operation as it completed; `sent` is the cycle in which overtaken data was sent, else 0. */
struct entry {
    uint64_t cycle, sent;
    struct tardis_record record;
};

static struct message flying[IN_FLIGHT];
static int in_flight, logged, invalidated, is_broken;
static uint64_t now, drawn;
static struct core cores[CORES];
static struct line lines[WORDS];
static struct tardis_operation programs[CORES][EACH];
static struct entry entries[ALL];

static uint64_t draw(uint64_t below) {
    drawn = drawn * 6364136223846793005u + 1442695040888963407u;
    return (drawn >> 33) % below;
}

static void send(enum call call, int core, int word, int is_load, uint64_t value) {
    struct message message = {call, core, word, is_load, value, now, now + 1 + draw(10) + (draw(8) ? 0 : LATE)};
    if (in_flight == IN_FLIGHT) abort(); /* a core has one under way, and a word one for each core */
    flying[in_flight++] = message;
}

/* The core's operation on its copy, and then its next one. */
static void complete(int number, int word, uint64_t sent) {
    struct core *core = &cores[number];
    struct entry *entry = &entries[logged++];
    entry->cycle = now;
    entry->sent = sent;
    entry->record.operation = programs[number][core->done];
    entry->record.received = core->value[word];
    entry->record.place = (uint64_t)core->done++;
    if (entry->record.operation.kind != TARDIS_LOAD) core->value[word] = entry->record.operation.value;
    send(BEGIN, number, 0, 0, 0);
}

static void begin(int number) {
    struct core *core = &cores[number];
    if (core->done < EACH) {
        struct tardis_operation operation = programs[number][core->done];
        int word = (int)(operation.address / 8), is_load = operation.kind == TARDIS_LOAD;
        if (core->state[word] == MODIFIED || (is_load && core->state[word] == SHARED))
            complete(number, word, 0);
        else
            send(REQUEST, number, word, is_load, 0);
    }
}

/* The directory serves a request. A load's data goes out at once; a store's, when no other core has a copy. */
static void serve(struct line *line, struct message request) {
    line->is_busy = 1;
    line->serving = request;
    if (line->owner != NOBODY) {
        send(RECALL, line->owner, request.word, request.is_load, 0);
        return;
    }
    for (int other = 0; other < CORES && !request.is_load; other++)
        if (line->sharers[other] && other != request.core) {
            send(INVALIDATE, other, request.word, 0, 0);
            line->missing++;
        }
    if (line->missing) return;
    line->sharers[request.core] = request.is_load;
    line->owner = request.is_load ? NOBODY : request.core;
    line->is_busy = !request.is_load;
    send(DATA, request.core, request.word, request.is_load, line->value);
}

/* The requests that wait, up to one that takes longer. */
static void go_on(struct line *line) {
    while (!line->is_busy && line->waiting) {
        struct message next = line->queue[0];
        memmove(line->queue, line->queue + 1, (size_t)--line->waiting * sizeof next);
        serve(line, next);
    }
}

static void invalidate(struct core *core, struct message message) {
    if (!is_broken || ++invalidated % 4) {
        core->overtaken[message.word] = core->state[message.word] == INVALID;
        core->state[message.word] = INVALID;
    }
    send(ACKNOWLEDGE, message.core, message.word, 0, 0);
}

/* Data serves the operation that asked for it. If it was overtaken, it then goes. */
static void receive(struct core *core, struct message data) {
    int overtaken = data.is_load && core->overtaken[data.word];
    core->value[data.word] = data.value;
    core->state[data.word] = overtaken ? INVALID : data.is_load ? SHARED : MODIFIED;
    core->overtaken[data.word] = 0;
    complete(data.core, data.word, overtaken ? data.sent : 0);
    if (!data.is_load) send(ARRIVED, data.core, data.word, 0, 0);
}

/* What a message does at a core. */
static void at_core(struct message message) {
    struct core *core = &cores[message.core];
    if (message.call == BEGIN) begin(message.core);
    if (message.call == DATA) receive(core, message);
    if (message.call == INVALIDATE) invalidate(core, message);
    if (message.call == RECALL) {
        core->state[message.word] = message.is_load ? SHARED : INVALID;
        send(RETURN, message.core, message.word, message.is_load, core->value[message.word]);
    }
}

/* What a message does at the directory. */
static void at_directory(struct line *line, struct message message) {
    if (message.call == REQUEST) line->queue[line->waiting++] = message;
    if (message.call == ARRIVED) line->is_busy = 0;
    if (message.call == RETURN) {
        line->value = message.value;
        line->owner = NOBODY;
        line->sharers[message.core] = message.is_load;
        serve(line, line->serving);
    }
    if (message.call == ACKNOWLEDGE) {
        line->sharers[message.core] = 0;
        if (!--line->missing) serve(line, line->serving);
    }
    go_on(line);
}

/* Draws the programs, and runs them to their end, message by message. */
static void run(void) {
    for (int word = 0; word < WORDS; word++) lines[word].owner = NOBODY;
    for (int at = 0; at < ALL; at++) {
        struct tardis_operation *operation = &programs[at % CORES][at / CORES];
        operation->core = (uint32_t)(at % CORES);
        operation->kind = (uint32_t)draw(3);
        operation->address = 8 * draw(WORDS);
        operation->value = (uint64_t)at + 1;
    }
    for (int core = 0; core < CORES; core++) send(BEGIN, core, 0, 0, 0);
    while (in_flight) {
        int first = 0;
        for (int at = 1; at < in_flight; at++)
            if (flying[at].arrives < flying[first].arrives) first = at;
        struct message message = flying[first];
        flying[first] = flying[--in_flight];
        now = message.arrives;
        if (message.call == BEGIN || message.call == DATA || message.call == INVALIDATE || message.call == RECALL)
            at_core(message);
        else
            at_directory(&lines[message.word], message);
    }
}

/* The log: when an operation completed, what it was, and of overtaken data when that was sent. */
static void print_log(void) {
    static const char *const names[] = {"load", "store", "swap"};
    for (int at = 0; at < logged; at++) {
        struct tardis_operation operation = entries[at].record.operation;
        printf("%llu core %u %s 0x%llx", (unsigned long long)entries[at].cycle, (unsigned)operation.core,
               names[operation.kind], (unsigned long long)operation.address);
        if (operation.kind != TARDIS_LOAD) printf(" value %llu", (unsigned long long)operation.value);
        if (operation.kind != TARDIS_STORE) printf(" got %llu", (unsigned long long)entries[at].record.received);
        if (entries[at].sent) printf(" sent %llu overtaken", (unsigned long long)entries[at].sent);
        puts("");
    }
}

/* When an operation takes effect: a load of overtaken data when that was sent. */
static uint64_t effect(const struct entry *entry, int by_completion) {
    return entry->sent && !by_completion ? entry->sent : entry->cycle;
}

/* The log as arrays: each core's operations in its order, and the records numbered by effect, at equal cycles as they
   completed. Prints the verdict, and the line of the log that it means. */
static int is_legal(int by_completion) {
    static const char *const said[] = {"legal", "bad number", "out of program order", "wrong value"};
    static struct tardis_operation operations[ALL];
    static struct tardis_record records[ALL];
    struct tardis_told told;
    int number, line = 0;
    for (int at = 0; at < logged; at++) {
        uint64_t own = effect(&entries[at], by_completion);
        operations[at] = entries[at].record.operation;
        records[at] = entries[at].record;
        for (int other = 0; other < logged; other++) {
            uint64_t its = effect(&entries[other], by_completion);
            records[at].number += its < own || (its == own && other < at);
        }
    }
    number = tardis_check_records(operations, ALL, records, ALL, &told);
    if (number != TARDIS_DONE && number != TARDIS_NOT_DONE) abort();
    while (told.kind && records[line].number != told.number) line++;
    if (told.kind)
        printf("# %s %llu, line %d\n", said[told.kind], (unsigned long long)told.number, line + 1);
    else
        puts("# legal");
    return !told.kind;
}

int main(int count, char **words) {
    const char *way = count == 3 ? words[2] : "";
    int by_completion = !strcmp(way, "completion");
    is_broken = !strcmp(way, "lost");
    if (count < 2 || count > 3 || (*way && !by_completion && !is_broken)) {
        fputs("directory: give a seed, and perhaps `completion` or `lost`\n", stderr);
        return 2;
    }
    drawn = strtoull(words[1], NULL, 10);
    run();
    print_log();
    return !is_legal(by_completion);
}
