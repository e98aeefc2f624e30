/* Plays calls of docs/EVENTS.md on a machine of tardis.h, for tests/systems.py: systems CORES OPTION.. opens it, with
   the first ten options in the order of struct tardis_options and then, in pairs, words and their values. Each line of
   standard input is a call, and its answer one line. */
#include "tardis.h"

#include <inttypes.h>
#include <stdio.h>
#include <stdlib.h>
#include <string.h>

static struct tardis_system machine;
static uint64_t line_bytes;

static void must(int number, int wanted) {
    if (number == wanted) return;
    fprintf(stderr, "systems: a call answered %d\n", number);
    exit(1);
}

static uint64_t line_of(uint64_t address) { return address / line_bytes; }

/* A record as a text of records has it. */
static void put_record(const struct tardis_record *record) {
    const struct tardis_operation *const of = &record->operation;
    printf("%u %" PRIu64 " %c 0x%" PRIx64, (unsigned)of->core, record->place, "RWS"[of->kind], of->address);
    if (of->kind != TARDIS_LOAD) printf(" %" PRIu64, of->value);
    if (of->kind != TARDIS_STORE) printf(" %" PRIu64, record->received);
    printf(" %" PRIu64 " %" PRIu64 "\n", record->time, record->number);
}

/* Whether all bytes are 0. */
static int is_zero(const void *at, size_t size) {
    const unsigned char *const bytes = (const unsigned char *)at;
    size_t each = 0;
    while (each < size && bytes[each] == 0) each++;
    return each == size;
}

static void put_answer(int number, const struct tardis_answer *answer) {
    must(number, TARDIS_DONE);
    must(answer->kind == TARDIS_COMPLETED || is_zero(&answer->completed, sizeof answer->completed), 1);
    fputs(tardis_answer_name(answer->kind), stdout);
    if (answer->kind == TARDIS_COMPLETED || answer->kind == TARDIS_REFUSED) putchar(' ');
    if (answer->kind == TARDIS_COMPLETED) put_record(&answer->completed);
    else puts(tardis_refusal_name(answer->refusal));
}

static void event(const char *line) {
    struct tardis_answer answer;
    unsigned seat;
    uint64_t number, value = 0;
    char kind;
    if (sscanf(line, "issue %u %c 0x%" SCNx64 " %" SCNu64, &seat, &kind, &number, &value) >= 3) {
        const uint32_t kinds = kind == 'R' ? TARDIS_LOAD : kind == 'W' ? TARDIS_STORE : TARDIS_SWAP;
        const struct tardis_operation operation = {seat, kinds, number, value};
        put_answer(tardis_system_issue(&machine, &operation, &answer), &answer);
    } else if (sscanf(line, "attempt %u", &seat) == 1) {
        put_answer(tardis_system_attempt(&machine, seat, &answer), &answer);
    } else if (sscanf(line, "deliver m%" SCNu64, &number) == 1) {
        put_answer(tardis_system_deliver(&machine, number, &answer), &answer);
    } else if (sscanf(line, "evict core %u 0x%" SCNx64, &seat, &number) == 2) {
        put_answer(tardis_system_evict_copy(&machine, seat, line_of(number), &answer), &answer);
    } else if (sscanf(line, "evict bank %u 0x%" SCNx64, &seat, &number) == 2) {
        put_answer(tardis_system_evict_entry(&machine, seat, line_of(number), &answer), &answer);
    } else if (sscanf(line, "advance %u", &seat) == 1) {
        put_answer(tardis_system_advance(&machine, seat, &answer), &answer);
    } else {
        must(1, 0);
    }
}

static void put_place(int number, const struct tardis_place *place, const char *bank) {
    if (number == TARDIS_NO_SUCH || !place->is_there) {
        must(number == TARDIS_NO_SUCH || is_zero(place, sizeof *place), 1);
        puts("none");
        return;
    }
    must(number, TARDIS_DONE);
    printf(bank, (unsigned)place->bank);
    printf("0x%" PRIx64 "\n", place->line * line_bytes);
}

/* A message. What it doesn't carry must be 0. */
static void put_message(const struct tardis_message *message) {
    const uint64_t kind = message->kind;
    const int has_line = kind == TARDIS_SH_REP || kind == TARDIS_EX_REP || kind == TARDIS_FLUSH_REP ||
                         kind == TARDIS_WB_REP;
    const uint64_t words = has_line || kind == TARDIS_DRAM_LD_REP || kind == TARDIS_DRAM_ST ? line_bytes / 8 : 0;
    const int has_rts = kind >= TARDIS_SH_REP && kind <= TARDIS_WB_REP && kind != TARDIS_FLUSH_REQ;
    uint64_t at;
    must(kind == TARDIS_SH_REQ || !message->pts, 1);
    must(kind <= TARDIS_EX_REQ ? message->has_version || !message->version
                               : !message->has_version && !message->version, 1);
    must((has_line || !message->wts) && (has_rts || !message->rts), 1);
    printf("%s %s %" PRIu64 " > %s %" PRIu64 " 0x%" PRIx64, tardis_message_name(kind),
           tardis_end_name(message->from_kind), message->from, tardis_end_name(message->to_kind), message->to,
           message->line * line_bytes);
    if (kind == TARDIS_SH_REQ) printf(" pts %" PRIu64, message->pts);
    if (kind <= TARDIS_EX_REQ && message->has_version) printf(" version %" PRIu64, message->version);
    else if (kind <= TARDIS_EX_REQ) fputs(" version none", stdout);
    if (has_line) printf(" wts %" PRIu64, message->wts);
    if (has_rts) printf(" rts %" PRIu64, message->rts);
    if (words) fputs(" words", stdout);
    for (at = 0; at < 8; at++) {
        if (at < words) printf(" %" PRIu64, message->words[at]);
        else must(message->words[at] != 0, 0);
    }
    puts("");
}

static void put_open(unsigned core) {
    struct tardis_open opened;
    const int number = tardis_system_open_operation(&machine, core, &opened);
    if (number == TARDIS_NO_SUCH || opened.state == 0) {
        must(number == TARDIS_NO_SUCH || is_zero(&opened, sizeof opened), 1);
        puts("none");
        return;
    }
    must(number, TARDIS_DONE);
    printf("%c 0x%" PRIx64, "RWS"[opened.operation.kind], opened.operation.address);
    if (opened.operation.kind != TARDIS_LOAD) printf(" %" PRIu64, opened.operation.value);
    puts(opened.state == 2 ? " requested" : "");
}

static void flight(void) {
    uint64_t number;
    uint32_t index = 0;
    while (tardis_system_message_number(&machine, index, &number) == TARDIS_DONE)
        printf(index++ ? " m%" PRIu64 : "m%" PRIu64, number);
    puts(index ? "" : "none");
}

/* The lines of a core's copies, or of a bank's entries; with room for few of them at first. */
static void lines(const char *name, uint32_t seat) {
    int (*const look_up)(struct tardis_system *, uint32_t, uint64_t *, size_t, size_t *) =
        *name == 'c' ? tardis_system_copies : tardis_system_entries;
    uint64_t few[2] = {7, 7}, all[20];
    size_t count, again, at;
    const int number = look_up(&machine, seat, few, 1, &count);
    if (number == TARDIS_NO_SUCH || count == 0) {
        puts("none");
        return;
    }
    must(number, TARDIS_DONE);
    must(look_up(&machine, seat, all, 20, &again), TARDIS_DONE);
    must(again != count || count > 20 || few[0] != all[0] || few[1] != 7, 0);
    for (at = 0; at < count; at++) printf(at ? " 0x%" PRIx64 : "0x%" PRIx64, all[at] * line_bytes);
    puts("");
}

static void totals(const char *line) {
    struct tardis_totals all;
    must(tardis_system_totals(&machine, &all), TARDIS_DONE);
    if (*line == 'r') printf("%" PRIu64 "\n", all.records);
    else if (line[1] == 't') puts(all.is_stopped ? "yes" : "no");
    else
        printf("renewals %" PRIu64 " upgrades %" PRIu64 " flushes %" PRIu64 " write-backs %" PRIu64 "\n", all.renewals,
               all.upgrades, all.flushes, all.write_backs);
}

/* A look-up; 0 if the line is none. */
static int look(const char *line) {
    struct tardis_message message;
    struct tardis_record record;
    struct tardis_place place;
    uint64_t number, value;
    unsigned core;
    if (sscanf(line, "message m%" SCNu64, &number) == 1) {
        if (tardis_system_message(&machine, number, &message) == TARDIS_DONE) put_message(&message);
        else puts("none");
    } else if (sscanf(line, "record %" SCNu64, &number) == 1) {
        if (tardis_system_record(&machine, (size_t)number, &record) == TARDIS_DONE) put_record(&record);
        else puts("none");
    } else if (sscanf(line, "open %u", &core) == 1) {
        put_open(core);
    } else if (sscanf(line, "copies %u", &core) == 1 || sscanf(line, "entries %u", &core) == 1) {
        lines(line, core);
    } else if (sscanf(line, "victim %u 0x%" SCNx64, &core, &number) == 2) {
        put_place(tardis_system_victim(&machine, core, line_of(number), &place), &place, "");
    } else if (sscanf(line, "room m%" SCNu64, &number) == 1) {
        put_place(tardis_system_make_room(&machine, number, &place), &place, "bank %u ");
    } else if (sscanf(line, "owners 0x%" SCNx64, &number) == 1) {
        must(tardis_system_owners(&machine, line_of(number), &value), TARDIS_DONE);
        printf("%" PRIu64 "\n", value);
    } else if (sscanf(line, "word 0x%" SCNx64, &number) == 1) {
        must(tardis_system_value(&machine, number, &value), TARDIS_DONE);
        printf("%" PRIu64 "\n", value);
    } else {
        return 0;
    }
    return 1;
}

int main(int count, char **words) {
    struct tardis_options options;
    struct tardis_word opening[64];
    uint64_t *const option = (uint64_t *)&options;
    char line[200];
    int at, opened = 0;
    if (count < 12) return 2;
    tardis_defaults(&options);
    for (at = 0; at < 10; at++) option[at] = strtoull(words[2 + at], NULL, 10);
    for (at = 12; at + 1 < count && opened < 64; at += 2) {
        opening[opened].address = strtoull(words[at], NULL, 16);
        opening[opened++].value = strtoull(words[at + 1], NULL, 10);
    }
    line_bytes = 8 * options.line_words;
    must(tardis_system_open(&machine, (uint32_t)atoi(words[1]), &options, opening, (size_t)opened), TARDIS_DONE);
    while (fgets(line, sizeof line, stdin)) {
        if (strcmp(line, "flight\n") == 0) flight();
        else if (strcmp(line, "sent\n") == 0 || strcmp(line, "records\n") == 0 || strcmp(line, "stopped\n") == 0)
            totals(line);
        else if (!look(line)) event(line);
        fflush(stdout);
    }
    tardis_system_close(&machine);
    return 0;
}
