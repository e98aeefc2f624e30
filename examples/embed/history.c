/* A history that grows, from standard input: each line adds an item, or asks for the verdict on all so far, which goes
   to standard output. Values are decimal, addresses 0x and hexadecimal digits; R is a load, W a store and S a swap.

       word ADDRESS VALUE                       what a word holds before all operations; else it holds 0
       issue CORE KIND ADDRESS WRITTEN          the next operation of a core; of a load, WRITTEN is 0
       record CORE PLACE KIND ADDRESS WRITTEN RECEIVED TIME NUMBER
       verdict
       complete                                 the verdict, for which each operation must have its record

   An item that is refused gets a line with the number of tardis.h that says why. */
#include "tardis.h"

#include <inttypes.h>
#include <stdio.h>
#include <string.h>

/* What is said of a history that is legal. */
static void print_lack(const struct tardis_history *history) {
    struct tardis_lack lack;
    const int number = tardis_history_lack(history, &lack);
    if (number == TARDIS_DONE) puts("legal");
    else if (number != TARDIS_NOT_DONE) printf("number %d\n", number);
    else printf("no record of operation %" PRIu64 " of core %" PRIu64 "\n", lack.place, lack.core);
}

static void print_verdict(const struct tardis_history *history, int is_complete) {
    static const char *const words[] = {"legal", "bad number", "out of program order", "wrong value"};
    struct tardis_found found;
    const int number = tardis_history_verdict(history, &found);
    if (number == TARDIS_DONE && is_complete) print_lack(history);
    else if (number == TARDIS_DONE) puts("legal");
    else if (number != TARDIS_NOT_DONE) printf("number %d\n", number);
    else if (found.source == TARDIS_NOTHING_EXPECTED) printf("%s %" PRIu64 "\n", words[found.kind], found.number);
    else {
        printf("%s %" PRIu64 ": expected %" PRIu64 " of ", words[found.kind], found.number, found.expected);
        if (found.source == TARDIS_A_RECORD) printf("record %" PRIu64 "\n", found.writer);
        else puts("the opening memory");
    }
}

/* The number of the kind that a letter stands for; one that there isn't for another letter. */
static uint32_t kind_of(char letter) {
    return letter == 'R' ? TARDIS_LOAD : letter == 'W' ? TARDIS_STORE : letter == 'S' ? TARDIS_SWAP : 3;
}

/* Adds the item of a line; -1 if that has no such form. */
static int add(struct tardis_history *history, const char *line) {
    struct tardis_word word;
    struct tardis_operation operation;
    struct tardis_record record;
    char kind;
    if (sscanf(line, "word %" SCNx64 " %" SCNu64, &word.address, &word.value) == 2)
        return tardis_history_open(history, &word);
    if (sscanf(line, "issue %" SCNu32 " %c %" SCNx64 " %" SCNu64, &operation.core, &kind, &operation.address,
               &operation.value) == 4) {
        operation.kind = kind_of(kind);
        return tardis_history_issue(history, &operation);
    }
    if (sscanf(line, "record %" SCNu32 " %" SCNu64 " %c %" SCNx64 " %" SCNu64 " %" SCNu64 " %" SCNu64 " %" SCNu64,
               &operation.core, &record.place, &kind, &operation.address, &operation.value, &record.received,
               &record.time, &record.number) == 8) {
        operation.kind = kind_of(kind);
        record.operation = operation;
        return tardis_history_complete(history, &record);
    }
    return -1;
}

int main(void) {
    struct tardis_history history = {0};
    char line[256]; /* eight numbers of 20 digits at most, and two words */
    int number = TARDIS_DONE;
    while (number >= 0 && fgets(line, sizeof line, stdin)) {
        if (!strcmp(line, "verdict\n")) print_verdict(&history, 0);
        else if (!strcmp(line, "complete\n")) print_verdict(&history, 1);
        else if ((number = add(&history, line)) > TARDIS_DONE) printf("number %d\n", number);
    }
    if (number < 0) fprintf(stderr, "history: %s", line);
    tardis_history_free(&history);
    return number < 0 ? 2 : 0;
}
