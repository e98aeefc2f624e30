/* Drives the machine from C: core 1 loads a word that opens with 5. Each message in flight is printed before it
   arrives; here the last one sent arrives first. */
#include "tardis.h"

#include <inttypes.h>
#include <stdio.h>
#include <stdlib.h>

static struct tardis_system machine;
static struct tardis_answer answer;

/* The program ends where a call has no answer. */
static void must(int number) {
    if (number == TARDIS_DONE) return;
    fprintf(stderr, "drive: a call answered %d\n", number);
    exit(1);
}

static void print_message(const struct tardis_message *message) {
    printf("m%" PRIu64 " %s %s %" PRIu64 " > %s %" PRIu64 " 0x%" PRIx64, message->number,
           tardis_message_name(message->kind), tardis_end_name(message->from_kind), message->from,
           tardis_end_name(message->to_kind), message->to, 8 * message->line);
    if (message->kind == TARDIS_SH_REQ)
        printf(" pts %" PRIu64 " version %s", message->pts, message->has_version ? "some" : "none");
    if (message->kind == TARDIS_SH_REP)
        printf(" wts %" PRIu64 " rts %" PRIu64 " words %" PRIu64, message->wts, message->rts, message->words[0]);
}

static void print_load(const struct tardis_record *record) {
    printf("completed %u %" PRIu64 " R 0x%" PRIx64 " %" PRIu64 " %" PRIu64 " %" PRIu64 "\n",
           (unsigned)record->operation.core, record->place, record->operation.address, record->received, record->time,
           record->number);
    printf("core %u received %" PRIu64 "\n", (unsigned)record->operation.core, record->received);
}

int main(void) {
    const struct tardis_word five = {0x8, 5};
    const struct tardis_operation load = {1, TARDIS_LOAD, 0x8, 0};
    struct tardis_options options;
    struct tardis_totals totals;
    struct tardis_message message;
    uint64_t number;
    tardis_defaults(&options);
    must(tardis_system_open(&machine, 2, &options, &five, 1));
    puts("opened");
    must(tardis_system_issue(&machine, &load, &answer));
    puts(tardis_answer_name(answer.kind));
    must(tardis_system_attempt(&machine, 1, &answer));
    puts(tardis_answer_name(answer.kind));
    while (tardis_system_totals(&machine, &totals) == TARDIS_DONE && totals.messages) {
        must(tardis_system_message_number(&machine, (uint32_t)totals.messages - 1, &number));
        must(tardis_system_message(&machine, number, &message));
        print_message(&message);
        must(tardis_system_deliver(&machine, number, &answer));
        printf(": %s\n", tardis_answer_name(answer.kind));
    }
    must(tardis_system_attempt(&machine, 1, &answer));
    if (answer.kind == TARDIS_COMPLETED) print_load(&answer.completed);
    tardis_system_close(&machine);
    return 0;
}
