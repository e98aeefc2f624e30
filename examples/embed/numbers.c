/* Calls of the library, by hand: each number that a call may answer, and what goes out with it. The file is C and C++.
   It is linked with --wrap=malloc and --wrap=realloc, so that memory can be refused. It prints the first call that
   answers otherwise, and ends with status 1; with none it prints nothing. */
#include "tardis.h"

#include <stdio.h>
#include <stdlib.h>
#include <string.h>

#ifdef __cplusplus
extern "C" {
#endif
void *__real_malloc(size_t size);
void *__real_realloc(void *block, size_t size);
void *__wrap_malloc(size_t size);
void *__wrap_realloc(void *block, size_t size);
#ifdef __cplusplus
}
#endif

/* Which growth of memory is refused, counted from 1; 0 for none. */
static unsigned refused_at, growths;

static int is_refused(void) { return ++growths == refused_at; }

void *__wrap_malloc(size_t size) { return is_refused() ? NULL : __real_malloc(size); }

void *__wrap_realloc(void *block, size_t size) { return is_refused() ? NULL : __real_realloc(block, size); }

#define MUST(test) \
    do { \
        if (!(test)) { \
            printf("numbers.c:%d: not so: %s\n", __LINE__, #test); \
            exit(1); \
        } \
    } while (0)

/* More operations than 16 bits count, and one run more than the program takes; few of both with FEW, for valgrind. */
#ifdef FEW
enum { MANY = 1000, RUNS = 1001 };
#else
enum { MANY = 100000, RUNS = 1000001 };
#endif

static char buffer[2000];
static size_t length;

/* Whether the buffer has this text in front and what it had before behind that, and the length is the text's. */
static int has(const char *text) {
    size_t at, size = strlen(text);
    int is = length == size && !memcmp(buffer, text, size);
    for (at = size; at < sizeof buffer; at++) is = is && buffer[at] == '~';
    memset(buffer, '~', sizeof buffer);
    return is;
}

/* The calls take numbers of these widths: a narrower one in the header is another type, which the compiler refuses. */
typedef int runs_text(const char *, size_t, const struct tardis_options *, char *, size_t, size_t *);
typedef uint32_t runs_bytes(const uint8_t *, size_t, const struct tardis_options *, uint8_t *, size_t, size_t *);

static void types(void) {
    runs_text *run_litmus = tardis_run_litmus, *run_trace = tardis_run_trace;
    runs_bytes *c_litmus = tardis_c_litmus, *c_trace = tardis_c_trace;
    int (*checks_texts)(const char *, size_t, const char *, size_t, char *, size_t, size_t *) = tardis_check;
    uint32_t (*checks_bytes)(const uint8_t *, size_t, const uint8_t *, size_t, uint8_t *, size_t, size_t *) =
        tardis_c_check;
    int (*checks_records)(const struct tardis_operation *, size_t, const struct tardis_record *, size_t,
                          struct tardis_told *) = tardis_check_records;
    uint32_t (*checks_arrays)(const struct tardis_operation *, size_t, const struct tardis_record *, size_t,
                              struct tardis_told *) = tardis_c_check_arrays;
    uint32_t (*c_version)(void) = tardis_c_version;
    (void)run_litmus, (void)run_trace, (void)c_litmus, (void)c_trace, (void)checks_texts, (void)checks_bytes;
    int (*checks_opened)(const char *, size_t, const char *, size_t, const char *, size_t, uint32_t, uint32_t, char *,
                         size_t, size_t *) = tardis_check_opened;
    uint32_t (*c_checks_opened)(const uint8_t *, size_t, const uint8_t *, size_t, const uint8_t *, size_t, uint32_t,
                                uint32_t, uint8_t *, size_t, size_t *) = tardis_c_check_opened;
    int (*checks_history)(const struct tardis_word *, size_t, const struct tardis_operation *, size_t,
                          const struct tardis_record *, size_t, struct tardis_found *) = tardis_check_history;
    uint32_t (*c_checks_history)(const struct tardis_word *, size_t, const struct tardis_operation *, size_t,
                                 const struct tardis_record *, size_t, struct tardis_found *) = tardis_c_check_history;
    (void)checks_records, (void)checks_arrays, (void)checks_opened, (void)c_checks_opened, (void)c_version;
    int (*finds_lack)(const struct tardis_operation *, size_t, const struct tardis_record *, size_t,
                      struct tardis_lack *) = tardis_first_lack;
    uint32_t (*c_finds_lack)(const struct tardis_operation *, size_t, const struct tardis_record *, size_t,
                             struct tardis_lack *) = tardis_c_first_lack;
    int (*lists_ends)(const char *, size_t, uint64_t, uint32_t, uint32_t, char *, size_t, size_t *) = tardis_list_ends;
    uint32_t (*c_ends)(const uint8_t *, size_t, uint64_t, uint32_t, uint32_t, uint8_t *, size_t, size_t *) =
        tardis_c_ends;
    (void)checks_history, (void)c_checks_history, (void)finds_lack, (void)c_finds_lack;
    (void)lists_ends, (void)c_ends;
}

static const char TRACE[] = "0 W 0x0 1\n1 R 0x0\n";
static const char RECORDS[] = "0 0 W 0x0 1 1 0\n1 0 R 0x0 1 1 1\n";
static const char TEST[] = "RISCV ONE\n{ 0:x5=1; 0:x6=x; }\n P0 ;\n sw x5,0(x6) ;\nexists (x=1)\n";

static int check(const char *trace, const char *records, size_t size) {
    return tardis_check(trace, strlen(trace), records, strlen(records), buffer, size, &length);
}

static int opened(const char *opening, const char *trace, const char *records, uint32_t complete, size_t size) {
    return tardis_check_opened(opening, strlen(opening), trace, strlen(trace), records, strlen(records), complete,
                               0, buffer, size, &length);
}

static int litmus(const char *text, const struct tardis_options *options, size_t size) {
    return tardis_run_litmus(text, strlen(text), options, buffer, size, &length);
}

static int ends(const char *text, uint64_t states, uint32_t orders, uint32_t json, size_t size) {
    return tardis_list_ends(text, strlen(text), states, orders, json, buffer, size, &length);
}

static int trace(const char *text, const struct tardis_options *options, size_t size) {
    return tardis_run_trace(text, strlen(text), options, buffer, size, &length);
}

/* What a caller in another language, which has no header, writes for the header's names. */
static void names(void) {
    MUST(TARDIS_VERSION == 401 && tardis_version() == 401);
    MUST(TARDIS_DONE == 0 && TARDIS_NO_MEMORY == 3 && TARDIS_BAD_TEST == 4 && TARDIS_BAD_LINE == 5);
    MUST(TARDIS_BAD_MACHINE == 6 && TARDIS_NOT_DONE == 7 && TARDIS_SHORT_BUFFER == 8 && TARDIS_NULL == 9);
    MUST(TARDIS_BAD_OPERATION == 10 && TARDIS_BAD_RECORD == 11 && TARDIS_BAD_OPENING == 12);
    MUST(TARDIS_TOO_MANY_STATES == 7 && TARDIS_USUAL_STATES == 4194304);
    MUST(TARDIS_LEGAL == 0 && TARDIS_MISSING_NUMBER == 1 && TARDIS_OUT_OF_PROGRAM_ORDER == 2);
    MUST(TARDIS_WRONG_VALUE == 3 && TARDIS_BAD_CORE == 4 && TARDIS_BAD_KIND == 5);
    MUST(TARDIS_BAD_ADDRESS == 6 && TARDIS_BAD_PLACE == 7);
    MUST(TARDIS_LOAD == 0 && TARDIS_STORE == 1 && TARDIS_SWAP == 2 && TARDIS_MOST_CORES == 1048576);
    MUST(TARDIS_NOTHING_EXPECTED == 0 && TARDIS_OPENING_MEMORY == 1 && TARDIS_A_RECORD == 2);
}

static void checks(void) {
    MUST(check(TRACE, RECORDS, 1000) == TARDIS_DONE && has("legal\n"));
    MUST(check(TRACE, "0 0 W 0x0 1 1 0\n1 0 R 0x0 0 1 1\n", 1000) == TARDIS_NOT_DONE && has("wrong value 1\n"));
    MUST(check("0 X\n", RECORDS, 1000) == TARDIS_BAD_LINE && has("tardis: line 1: 5 BadOperation\n"));
    MUST(check(TRACE, "\n0 0 W 0x1", 1000) == TARDIS_BAD_LINE && has("tardis: line 2: 6 BadAddress\n"));
    MUST(check(TRACE, RECORDS, 6) == TARDIS_DONE && has("legal\n"));
    MUST(check(TRACE, RECORDS, 5) == TARDIS_SHORT_BUFFER && length == 6 && (length = 0, has("")));
    MUST(check(TRACE, "7 0 R 0x0 0 1 1\n", 12) == TARDIS_SHORT_BUFFER && length == 13 && (length = 0, has("")));
    MUST(check("0 X\n", RECORDS, 30) == TARDIS_BAD_LINE && length == 31 && (length = 0, has("")));
    /* Only the bytes up to the length are the text: the rest of the line isn't read. */
    MUST(tardis_check("0 W 0x0 12", 9, RECORDS, 16, buffer, 1000, &length) == TARDIS_DONE && has("legal\n"));
    MUST(tardis_check(NULL, 0, NULL, 0, buffer, 1000, &length) == TARDIS_DONE && has("legal\n"));
    MUST(tardis_check(NULL, 0, NULL, 0, NULL, 0, &length) == TARDIS_SHORT_BUFFER && length == 6);
    {
        struct tardis_options options;
        tardis_defaults(&options);
        MUST(tardis_run_litmus(NULL, 0, &options, NULL, 0, &length) == TARDIS_BAD_TEST && length == 28);
        options.records = 1;
        MUST(tardis_run_trace(NULL, 0, &options, NULL, 0, &length) == TARDIS_DONE && length == 0);
    }
}

static void openings(void) {
    static const char load[] = "0 R 0x8\n", loaded[] = "0 0 R 0x8 5 0 0\n";
    MUST(opened("0x8 5\n0x10 6\n", load, loaded, 0, 1000) == TARDIS_DONE && has("legal\n"));
    MUST(opened("0x10 5\n", load, loaded, 0, 1000) == TARDIS_NOT_DONE && has("wrong value 0\n"));
    MUST(opened("", load, loaded, 0, 1000) == TARDIS_NOT_DONE && has("wrong value 0\n"));
    MUST(opened("0x8 5\n", load, "", 0, 1000) == TARDIS_DONE && has("legal\n"));
    MUST(opened("0x8 5\n", load, "", 65536, 1000) == TARDIS_NOT_DONE && has("no record of operation 0 of core 0\n"));
    MUST(opened("0x8 5\n", load, loaded, 1, 5) == TARDIS_SHORT_BUFFER && length == 6 && (length = 0, has("")));
    MUST(opened("0x8 5\n0x8 5\n", "0 X\n", loaded, 1, 1000) == TARDIS_BAD_OPENING);
    MUST(has("tardis: opening: line 2: 10 DoubleWord\n"));
    MUST(opened("8 5\n", load, loaded, 0, 10) == TARDIS_BAD_OPENING && length == 38 && (length = 0, has("")));
    MUST(opened("0x8 5\n", "0 X\n", "x", 0, 1000) == TARDIS_BAD_LINE && has("tardis: line 1: 5 BadOperation\n"));
    MUST(opened("0x8 5\n", load, "\nx", 0, 1000) == TARDIS_BAD_LINE && has("tardis: line 2: 4 BadCore\n"));
    MUST(tardis_check_opened("0x8 56", 5, load, 8, loaded, 16, 0, 0, buffer, 1000, &length) == TARDIS_DONE);
    MUST(has("legal\n"));
    MUST(tardis_check_opened(NULL, 0, NULL, 0, NULL, 0, 1, 0, buffer, 1000, &length) == TARDIS_DONE && has("legal\n"));
    MUST(tardis_check_opened(NULL, 0, load, 8, loaded, 16, 0, 65536, buffer, 1000, &length) == TARDIS_NOT_DONE);
    MUST(has("{\"version\":1,\"command\":\"check\",\"verdict\":\"wrong value\",\"number\":0}\n"));
    MUST(tardis_check_opened("0x8 5", 5, load, 8, NULL, 0, 1, 1, buffer, 1000, &length) == TARDIS_NOT_DONE);
    MUST(has("{\"version\":1,\"command\":\"check\",\"verdict\":\"no record\",\"place\":0,\"core\":0}\n"));
}

static void runs(void) {
    struct tardis_options options;
    MUST(tardis_defaults(&options) == TARDIS_DONE && options.lease == 10);
    MUST(options.limit == 100000 && options.runs == 1);
    MUST(trace(TRACE, &options, 1000) == TARDIS_DONE);
    MUST(has("cores 2\nissued 2\ncompleted 2\nend all-done\nloads 1\nstores 1\nswaps 0\nrenewals 0\nupgrades 0\n"
             "flushes 0\nwrite-backs 1\nstale-hits 0\norder legal\nword 0x0 1\n"));
    options.records = 1;
    MUST(trace("0 R 0x0\n", &options, 1000) == TARDIS_DONE && has("0 0 R 0x0 0 0 0\n"));
    MUST(trace("0 R 0x0\n", &options, 15) == TARDIS_SHORT_BUFFER && length == 16 && (length = 0, has("")));
    options.records = 4294967296; /* any number but 0 sets a flag */
    MUST(trace("0 R 0x0\n", &options, 1000) == TARDIS_DONE && has("0 0 R 0x0 0 0 0\n"));
    options.private_write = 4294967296;
    MUST(trace("0 W 0x0 1\n0 W 0x0 2\n", &options, 1000) == TARDIS_DONE);
    MUST(has("0 0 W 0x0 1 1 0\n0 1 W 0x0 2 1 1\n"));
    options.private_write = 0;
    options.by_seed = 4294967296; /* by rounds the load takes six turns, by the seed 6 nine */
    options.seed = 6;
    options.limit = 8;
    options.fair = 1; /* of no effect by a seed */
    MUST(trace("0 R 0x0\n", &options, 1000) == TARDIS_NOT_DONE && has(""));
    options.limit = 9;
    MUST(trace("0 R 0x0\n", &options, 1000) == TARDIS_DONE && has("0 0 R 0x0 0 1 0\n"));
    tardis_defaults(&options);
    options.records = 1;
    options.limit = 0;
    MUST(trace("0 R 0x0\n", &options, 1000) == TARDIS_NOT_DONE && has(""));
    MUST(trace("", &options, 1000) == TARDIS_DONE && has(""));
    MUST(litmus(TEST, &options, 1000) == TARDIS_NOT_DONE);
    tardis_defaults(&options);
    options.bank_sets = options.bank_ways = 1; /* three loads want one place: only fair rounds end, the twelfth */
    options.limit = 12;
    MUST(trace("0 R 0x0\n1 R 0x8\n2 R 0x0\n", &options, 1000) == TARDIS_NOT_DONE);
    options.fair = 4294967296;
    MUST(trace("0 R 0x0\n1 R 0x8\n2 R 0x0\n", &options, 1000) == TARDIS_DONE);
    memset(buffer, '~', sizeof buffer);
    tardis_defaults(&options);
    options.runs = 0;
    MUST(litmus(TEST, &options, 1000) == TARDIS_DONE);
    MUST(has("test ONE\nthreads 1\nruns 0\nall-done 0\nstalled 0\nlimit 0\nexhausted 0\nmemory 0\nstates 0\n"
             "condition exists\nheld 0\nverdict no\ncompleted 0\nrenewals 0\nupgrades 0\nflushes 0\nwrite-backs 0\n"
             "stale-hits 0\n"));
    options.lease = 0; /* without runs, too, the text is read and then the configuration looked at */
    MUST(litmus(TEST, &options, 1000) == TARDIS_BAD_MACHINE && has("tardis: bad configuration\n"));
    MUST(litmus("RISCV ", &options, 1000) == TARDIS_BAD_TEST && has("tardis: line 1: 4 BadHeader\n"));
    options.lease = 10;
    options.runs = RUNS;
    MUST(litmus(TEST, &options, 1000) == TARDIS_DONE && atoi(buffer + 24) == RUNS);
    memset(buffer, '~', sizeof buffer);
    tardis_defaults(&options);
    MUST(trace("0 R\n", &options, 1000) == TARDIS_BAD_LINE && has("tardis: line 1: 6 BadAddress\n"));
    MUST(litmus("RISCV ", &options, 1000) == TARDIS_BAD_TEST && has("tardis: line 1: 4 BadHeader\n"));
    options.lease = 0;
    MUST(litmus(TEST, &options, 1000) == TARDIS_BAD_MACHINE && has("tardis: bad configuration\n"));
    MUST(trace(TRACE, &options, 1000) == TARDIS_BAD_MACHINE && has("tardis: bad configuration\n"));
    MUST(trace("0 R\n", &options, 1000) == TARDIS_BAD_LINE && has("tardis: line 1: 6 BadAddress\n"));
    tardis_defaults(&options);
    options.records = 1;
    options.lease = options.limit = 4294967296; /* the greatest lease, and one turn more than a run has */
    MUST(trace("0 R 0x0\n", &options, 1000) == TARDIS_DONE && has("0 0 R 0x0 0 0 0\n"));
}

/* Store buffering: by hand, it has 1, 2, 3, 4 and 3 states by how many instructions are done, and three ends. */
static const char BUFFERING[] = "RISCV SB\n{ 0:x5=1; 0:x6=x; 0:x8=y; 1:x5=1; 1:x6=y; 1:x8=x; }\n P0 | P1 ;\n"
                                " sw x5,0(x6) | sw x5,0(x6) ;\n lw x7,0(x8) | lw x7,0(x8) ;\n"
                                "exists (0:x7=1 /\\ 1:x7=0)\n";
#define LISTED "test SB\nthreads 2\nstates 13\nends 3\n"
#define ASKED "condition exists\nheld 1\nobservation SB Sometimes 1 2\n"
#define ENDS LISTED "  0:x7=0 1:x7=1\n* 0:x7=1 1:x7=0\n  0:x7=1 1:x7=1\n" ASKED
#define ORDERED LISTED "  0:x7=0 1:x7=1   P0:1 P0:2 P1:1 P1:2\n* 0:x7=1 1:x7=0   P1:1 P1:2 P0:1 P0:2\n" \
                "  0:x7=1 1:x7=1   P0:1 P1:1 P0:2 P1:2\n" ASKED
#define END(holds, first, second) "{\"holds\":" holds ",\"values\":{\"0:x7\":" first ",\"1:x7\":" second "}}"
#define ENDS_OBJECT "{\"version\":1,\"command\":\"ends\",\"test\":\"SB\",\"threads\":2,\"states\":13,\"ends\":[" \
                    END("false", "0", "1") "," END("true", "1", "0") "," END("false", "1", "1") "]," \
                    "\"condition\":\"exists\",\"held\":1,\"observation\":\"Sometimes\"}\n"

/* All ends of a test: with orders, as JSON, and with too few states, of which no text is a report. */
static void lists(void) {
    static const char few[] = "tardis: more than 6 states; 9 are enough to go on\n"; /* a layer of 3, of 2 threads */
    MUST(ends(BUFFERING, TARDIS_USUAL_STATES, 0, 0, 1000) == TARDIS_DONE && has(ENDS));
    MUST(ends(BUFFERING, 7, 0, 0, strlen(ENDS)) == TARDIS_DONE && has(ENDS));
    MUST(ends(BUFFERING, UINT64_MAX, 65536, 0, 1000) == TARDIS_DONE && has(ORDERED)); /* any number sets a flag */
    MUST(ends(BUFFERING, 4294967296, 0, 65536, 1000) == TARDIS_DONE && has(ENDS_OBJECT));
    MUST(ends(BUFFERING, 7, 0, 0, strlen(ENDS) - 1) == TARDIS_SHORT_BUFFER && length == strlen(ENDS));
    length = 0;
    MUST(has(""));
    MUST(ends(BUFFERING, 6, 0, 0, 1000) == TARDIS_TOO_MANY_STATES && has(few));
    MUST(ends(BUFFERING, 6, 1, 1, strlen(few) - 1) == TARDIS_TOO_MANY_STATES && length == strlen(few));
    length = 0;
    MUST(has(""));
    MUST(ends(BUFFERING, 0, 0, 0, 1000) == TARDIS_TOO_MANY_STATES);
    MUST(has("tardis: more than 0 states; 3 are enough to go on\n"));
    MUST(ends("RISCV ", 7, 0, 0, 1000) == TARDIS_BAD_TEST && has("tardis: line 1: 4 BadHeader\n"));
    MUST(tardis_list_ends(NULL, 0, 7, 0, 0, NULL, 0, &length) == TARDIS_BAD_TEST && length == 28);
    /* Only the bytes up to the length are the text. */
    MUST(tardis_list_ends(BUFFERING, 6, 7, 0, 0, buffer, 1000, &length) == TARDIS_BAD_TEST);
    MUST(has("tardis: line 1: 4 BadHeader\n"));
}

/* Reports with counts and rows of them, and as JSON: by the second program. */
#define LOADED "cores 1\nissued 1\ncompleted 1\nend all-done\nloads 1\nstores 0\nswaps 0\nrenewals 0\nupgrades 0\n" \
               "flushes 0\nwrite-backs 0\nstale-hits 0\norder legal\nword 0x0 0\n"
#define COUNTED "events 14\nheld 2\ndropped 0\ncore 0 loads 1 stores 0 swaps 0 hits 0 cold 1 evicted 0 recalled 0 " \
                "ended 0 shared 0 evictions 0 returns 0 reloads 0 held 0 dropped 0 time 0 ShReq 1 ShRep 1\n" \
                "bank 0 evictions 0 held 2 dropped 0 ShReq 1 ShRep 1 DramLd 1 DramLdRep 1\n"
#define OBJECT "{\"version\":1,\"command\":\"trace\",\"cores\":1,\"issued\":1,\"completed\":1,\"end\":\"all-done\"," \
               "\"loads\":1,\"stores\":0,\"swaps\":0,\"renewals\":0,\"upgrades\":0,\"flushes\":0,\"write-backs\":0," \
               "\"stale-hits\":0,\"order\":\"legal\",\"words\":{\"0x0\":0}"
#define NUMBERS "\"events\":14,\"held\":2,\"dropped\":0,\"cores\":[{\"loads\":1,\"stores\":0,\"swaps\":0,\"hits\":0," \
                "\"cold\":1,\"evicted\":0,\"recalled\":0,\"ended\":0,\"shared\":0,\"evictions\":0,\"returns\":0," \
                "\"reloads\":0,\"held\":0,\"dropped\":0,\"time\":0,\"ShReq\":1,\"ShRep\":1}]," \
                "\"banks\":[{\"evictions\":0,\"held\":2,\"dropped\":0,\"ShReq\":1,\"ShRep\":1,\"DramLd\":1,\"DramLdRep\":1}]"

static void counts(void) {
    static const char load[] = "0 R 0x0\n";
    struct tardis_options options;
    tardis_defaults(&options);
    MUST(options.json == 0 && options.counts == 0 && options.every == 0);
    options.every = 1; /* of no effect without counts */
    MUST(trace(load, &options, 2000) == TARDIS_DONE && has(LOADED));
    options.counts = 4294967296;
    MUST(trace(load, &options, 2000) == TARDIS_DONE && has(LOADED "row 1\n" COUNTED COUNTED));
    options.every = 0;
    MUST(trace(load, &options, 2000) == TARDIS_DONE && has(LOADED COUNTED));
    options.json = 4294967296;
    MUST(trace(load, &options, 2000) == TARDIS_DONE && has(OBJECT ",\"counts\":{" NUMBERS "}}\n"));
    options.every = 4294967296; /* more than are completed */
    MUST(trace(load, &options, 2000) == TARDIS_DONE && has(OBJECT ",\"rows\":[],\"counts\":{" NUMBERS "}}\n"));
    options.every = 1;
    MUST(trace(load, &options, 2000) == TARDIS_DONE);
    MUST(has(OBJECT ",\"rows\":[{\"completed\":1," NUMBERS "}],\"counts\":{" NUMBERS "}}\n"));
    options.records = 1; /* they are lines, and have no counts */
    MUST(trace(load, &options, 2000) == TARDIS_DONE && has("0 0 R 0x0 0 0 0\n"));
    MUST(litmus(TEST, &options, 2000) == TARDIS_DONE);
    MUST(has("{\"version\":1,\"command\":\"litmus\",\"test\":\"ONE\",\"threads\":1,\"runs\":1,\"all-done\":1,"
             "\"stalled\":0,\"limit\":0,\"exhausted\":0,\"memory\":0,\"states\":[{\"count\":1,\"values\":{\"x\":1}}],"
             "\"condition\":\"exists\",\"held\":1,\"verdict\":\"yes\",\"completed\":1,\"renewals\":0,\"upgrades\":0,"
             "\"flushes\":0,\"write-backs\":0,\"stale-hits\":0}\n"));
}

static void nulls(void) {
    struct tardis_options options;
    struct tardis_told told;
    struct tardis_found found = {7, 7, 7, 7, 7};
    struct tardis_lack lack = {7, 7};
    tardis_defaults(&options);
    length = told.kind = told.number = 7;
    MUST(tardis_defaults(NULL) == TARDIS_NULL);
    MUST(tardis_check(NULL, 1, RECORDS, 1, buffer, 1000, &length) == TARDIS_NULL);
    MUST(tardis_check(TRACE, 1, NULL, 1, buffer, 1000, &length) == TARDIS_NULL);
    MUST(tardis_check(NULL, (size_t)1 << 32, RECORDS, 1, buffer, 1000, &length) == TARDIS_NULL);
    MUST(tardis_check(TRACE, 1, NULL, (size_t)1 << 32, buffer, 1000, &length) == TARDIS_NULL);
    MUST(tardis_check(TRACE, 1, RECORDS, 1, NULL, 1, &length) == TARDIS_NULL);
    MUST(tardis_check(TRACE, 1, RECORDS, 1, buffer, 1000, NULL) == TARDIS_NULL);
    MUST(tardis_check_opened(NULL, 1, TRACE, 1, RECORDS, 1, 0, 0, buffer, 1000, &length) == TARDIS_NULL);
    MUST(tardis_check_opened("", 0, NULL, 1, RECORDS, 1, 0, 0, buffer, 1000, &length) == TARDIS_NULL);
    MUST(tardis_check_opened("", 0, TRACE, 1, NULL, 1, 0, 0, buffer, 1000, &length) == TARDIS_NULL);
    MUST(tardis_check_opened("", 0, TRACE, 1, RECORDS, 1, 0, 0, NULL, 1, &length) == TARDIS_NULL);
    MUST(tardis_check_opened("", 0, TRACE, 1, RECORDS, 1, 0, 0, buffer, 1000, NULL) == TARDIS_NULL);
    MUST(tardis_run_litmus(NULL, 1, &options, buffer, 1000, &length) == TARDIS_NULL);
    MUST(tardis_run_litmus(TEST, 1, NULL, buffer, 1000, &length) == TARDIS_NULL);
    MUST(tardis_run_litmus(TEST, 1, &options, NULL, 1, &length) == TARDIS_NULL);
    MUST(tardis_run_litmus(TEST, 1, &options, buffer, 1000, NULL) == TARDIS_NULL);
    MUST(tardis_list_ends(NULL, 1, 7, 0, 0, buffer, 1000, &length) == TARDIS_NULL);
    MUST(tardis_list_ends(TEST, 1, 7, 0, 0, NULL, 1, &length) == TARDIS_NULL);
    MUST(tardis_list_ends(TEST, 1, 7, 0, 0, buffer, 1000, NULL) == TARDIS_NULL);
    MUST(tardis_run_trace(NULL, 1, &options, buffer, 1000, &length) == TARDIS_NULL);
    MUST(tardis_run_trace(TRACE, 1, NULL, buffer, 1000, &length) == TARDIS_NULL);
    MUST(tardis_run_trace(TRACE, 1, &options, NULL, 1, &length) == TARDIS_NULL);
    MUST(tardis_run_trace(TRACE, 1, &options, buffer, 1000, NULL) == TARDIS_NULL);
    MUST(tardis_check_records(NULL, 1, NULL, 0, &told) == TARDIS_NULL);
    MUST(tardis_check_records(NULL, 0, NULL, 1, &told) == TARDIS_NULL);
    MUST(tardis_check_records(NULL, 0, NULL, 0, NULL) == TARDIS_NULL);
    MUST(tardis_check_history(NULL, 1, NULL, 0, NULL, 0, &found) == TARDIS_NULL);
    MUST(tardis_check_history(NULL, 0, NULL, 1, NULL, 0, &found) == TARDIS_NULL);
    MUST(tardis_check_history(NULL, 0, NULL, 0, NULL, 1, &found) == TARDIS_NULL);
    MUST(tardis_check_history(NULL, 0, NULL, 0, NULL, 0, NULL) == TARDIS_NULL);
    MUST(tardis_first_lack(NULL, 1, NULL, 0, &lack) == TARDIS_NULL);
    MUST(tardis_first_lack(NULL, 0, NULL, 1, &lack) == TARDIS_NULL);
    MUST(tardis_first_lack(NULL, 0, NULL, 0, NULL) == TARDIS_NULL);
    MUST(tardis_history_lack(NULL, &lack) == TARDIS_NULL && lack.core == 7 && lack.place == 7);
    MUST(found.kind == 7 && found.number == 7 && found.expected == 7 && found.source == 7 && found.writer == 7);
    MUST(length == 7 && told.kind == 7 && told.number == 7); /* nothing is written */
    length = 0;
    MUST(has(""));
}

static struct tardis_told told;

/* Whether a check of these arrays answers this number, and tells this. */
static int answers(const struct tardis_operation *operations, size_t operation_count,
                   const struct tardis_record *records, size_t record_count, int wanted, uint64_t kind,
                   uint64_t number) {
    int got = tardis_check_records(operations, operation_count, records, record_count, &told);
    return got == wanted && told.kind == kind && told.number == number;
}

/* Core 0 stores 1, core 1 swaps in 2, and core 0 loads; the greatest word, and words of both cores in one list. */
static struct tardis_operation issued[3] = {
    {0, TARDIS_STORE, 0xfffffffffffffff8, 1},
    {1, TARDIS_SWAP, 0xfffffffffffffff8, 2},
    {0, TARDIS_LOAD, 0xfffffffffffffff8, 7}};
static struct tardis_record done[3] = {
    {{0, TARDIS_LOAD, 0xfffffffffffffff8, 9}, 1, 2, 3, 2},
    {{0, TARDIS_STORE, 0xfffffffffffffff8, 1}, 0, 9, 1, 0},
    {{1, TARDIS_SWAP, 0xfffffffffffffff8, 2}, 0, 1, 2, 1}};

static void arrays(void) {
    MUST(answers(NULL, 0, NULL, 0, TARDIS_DONE, TARDIS_LEGAL, 0));
    MUST(answers(issued, 3, done, 3, TARDIS_DONE, TARDIS_LEGAL, 0));
    MUST(answers(issued, 2, done, 3, TARDIS_NOT_DONE, TARDIS_OUT_OF_PROGRAM_ORDER, 2));
    MUST(answers(issued, 3, done, 2, TARDIS_NOT_DONE, TARDIS_MISSING_NUMBER, 1));
    done[0].received = 1;
    MUST(answers(issued, 3, done, 3, TARDIS_NOT_DONE, TARDIS_WRONG_VALUE, 2));
    done[0].place = 4294967295; /* the greatest that may be */
    MUST(answers(issued, 3, done, 3, TARDIS_NOT_DONE, TARDIS_OUT_OF_PROGRAM_ORDER, 2));
    done[0].place = 4294967296;
    MUST(answers(issued, 3, done, 3, TARDIS_BAD_RECORD, TARDIS_BAD_PLACE, 0));
    done[2].operation.core = TARDIS_MOST_CORES;
    done[2].operation.kind = 3;
    done[2].operation.address = 4;
    done[2].place = 4294967296;
    MUST(answers(issued, 3, done, 3, TARDIS_BAD_RECORD, TARDIS_BAD_PLACE, 0)); /* of the first of two */
    done[0].place = 1;
    MUST(answers(issued, 3, done, 3, TARDIS_BAD_RECORD, TARDIS_BAD_CORE, 2));
    done[2].operation.core = 1;
    MUST(answers(issued, 3, done, 3, TARDIS_BAD_RECORD, TARDIS_BAD_KIND, 2));
    done[2].operation.kind = TARDIS_SWAP;
    MUST(answers(issued, 3, done, 3, TARDIS_BAD_RECORD, TARDIS_BAD_ADDRESS, 2));
    done[2].operation.kind = 3;
    done[2].operation.address = 0xfffffffffffffff8;
    done[2].place = 0;
    issued[1].address = 4;
    MUST(answers(issued, 3, done, 3, TARDIS_BAD_OPERATION, TARDIS_BAD_ADDRESS, 1));
    MUST(answers(issued, 1, done + 1, 1, TARDIS_DONE, TARDIS_LEGAL, 0));
    issued[1].address = 0xfffffffffffffff8;
    done[2].operation.kind = TARDIS_SWAP;
    done[0].received = 2;
}

/* Many operations, and two words that are alike in their low 32 bits. */
static struct tardis_operation loads[MANY];
static struct tardis_record loaded[MANY];
static struct tardis_operation far_issued[2] = {{0, TARDIS_STORE, 0x100000000, 1}, {0, TARDIS_LOAD, 0, 0}};
static struct tardis_record far_done[2] = {
    {{0, TARDIS_STORE, 0x100000000, 1}, 0, 0, 1, 0},
    {{0, TARDIS_LOAD, 0, 0}, 1, 0, 1, 1}};

static void many(void) {
    size_t at;
    for (at = 0; at < MANY; at++) loaded[at].place = loaded[at].number = at;
    MUST(answers(loads, MANY, loaded, MANY, TARDIS_DONE, TARDIS_LEGAL, 0));
    loaded[MANY - 1].received = 1;
    MUST(answers(loads, MANY, loaded, MANY, TARDIS_NOT_DONE, TARDIS_WRONG_VALUE, MANY - 1));
    MUST(answers(far_issued, 2, far_done, 2, TARDIS_DONE, TARDIS_LEGAL, 0));
}

/* The records are one list, and their numbers another: as number 0 isn't there, no other is made. */
static void one_list(void) {
    size_t at;
    for (at = 0; at < MANY; at++) loaded[at].number = MANY;
    growths = 0;
    MUST(tardis_check_records(NULL, 0, loaded, MANY, &told) == TARDIS_NOT_DONE && growths == 2);
    MUST(told.kind == TARDIS_MISSING_NUMBER && told.number == 0);
}

/* Numbers past 32 bits, or 16: a field of the library that is narrower than the header's would have their low bits. */
static void wide(void) {
    static struct tardis_operation wide_issued[2] = {{0, TARDIS_STORE, 0, 0x100000001}, {0, TARDIS_LOAD, 0, 0}};
    static struct tardis_record wide_done[2] = {
        {{0, TARDIS_STORE, 0, 0x100000001}, 0, 0, 1, 0}, {{0, TARDIS_LOAD, 0, 0}, 1, 0x100000001, 0x100000000, 1}};
    struct tardis_options options;
    uint64_t *const sizes[] = {&options.lease, &options.banks, &options.sets, &options.ways, &options.bank_sets,
                               &options.bank_ways, &options.line_words, &options.messages};
    size_t at;
    MUST(answers(wide_issued, 2, wide_done, 2, TARDIS_DONE, TARDIS_LEGAL, 0));
    wide_done[1].received = 1;
    MUST(answers(wide_issued, 2, wide_done, 2, TARDIS_NOT_DONE, TARDIS_WRONG_VALUE, 1));
    wide_done[1].number = 0x100000001;
    MUST(answers(wide_issued, 2, wide_done, 2, TARDIS_NOT_DONE, TARDIS_MISSING_NUMBER, 1));
    wide_issued[1].kind = 65536;
    MUST(answers(wide_issued, 2, wide_done, 2, TARDIS_BAD_OPERATION, TARDIS_BAD_KIND, 1));
    wide_issued[1].core = TARDIS_MOST_CORES;
    MUST(answers(wide_issued, 2, wide_done, 2, TARDIS_BAD_OPERATION, TARDIS_BAD_CORE, 1));
    for (at = 0; at < sizeof sizes / sizeof *sizes; at++) {
        tardis_defaults(&options);
        *sizes[at] += 0x100000000;
        MUST(trace(TRACE, &options, 1000) == TARDIS_BAD_MACHINE && has("tardis: bad configuration\n"));
    }
    tardis_defaults(&options); /* what a report of no run doesn't grow by is refused to the first of 2^32 runs */
    options.limit = options.runs = growths = 0;
    MUST(litmus(TEST, &options, 0) == TARDIS_SHORT_BUFFER);
    refused_at = growths + 1;
    options.runs = 0x100000000;
    growths = 0;
    MUST(litmus(TEST, &options, 1000) == TARDIS_NO_MEMORY && has("tardis: no memory\n"));
    refused_at = 0;
}

static struct tardis_found found;

/* Whether a check of a history answers this number, and finds this. */
static int finds(const struct tardis_word *opening, size_t opening_count, const struct tardis_operation *operations,
                 size_t operation_count, const struct tardis_record *records, size_t record_count, int wanted,
                 struct tardis_found expected) {
    int got = tardis_check_history(opening, opening_count, operations, operation_count, records, record_count, &found);
    return got == wanted && !memcmp(&found, &expected, sizeof found);
}

static struct tardis_found of(uint64_t kind, uint64_t number, uint64_t expected, uint64_t source, uint64_t writer) {
    struct tardis_found all = {kind, number, expected, source, writer};
    return all;
}

/* What a word opens with is expected, and of two values for one word the later; one that isn't named opens with 0. */
static void opened_words(void) {
    struct tardis_word opening[3] = {{0x8, 5}, {0x10, 6}, {0x8, 7}};
    struct tardis_operation load = {0, TARDIS_LOAD, 0x8, 0};
    struct tardis_record record = {{0, TARDIS_LOAD, 0x8, 0}, 0, 5, 0, 0};
    MUST(finds(NULL, 0, NULL, 0, NULL, 0, TARDIS_DONE, of(0, 0, 0, 0, 0)));
    MUST(finds(opening, 2, NULL, 0, NULL, 0, TARDIS_DONE, of(0, 0, 0, 0, 0)));
    MUST(finds(opening, 2, &load, 1, &record, 1, TARDIS_DONE, of(0, 0, 0, 0, 0)));
    MUST(finds(opening, 3, &load, 1, &record, 1, TARDIS_NOT_DONE, of(TARDIS_WRONG_VALUE, 0, 7, 1, 0)));
    MUST(finds(opening + 1, 1, &load, 1, &record, 1, TARDIS_NOT_DONE, of(TARDIS_WRONG_VALUE, 0, 0, 1, 0)));
    record.number = 1;
    MUST(finds(opening, 3, &load, 1, &record, 1, TARDIS_NOT_DONE, of(TARDIS_MISSING_NUMBER, 0, 0, 0, 0)));
    record.number = 0;
    MUST(finds(opening, 3, NULL, 0, &record, 1, TARDIS_NOT_DONE, of(TARDIS_OUT_OF_PROGRAM_ORDER, 0, 0, 0, 0)));
    /* A fault of a word comes before one of an operation, and that before one of a record. */
    record.place = 4294967296;
    MUST(finds(opening, 3, &load, 1, &record, 1, TARDIS_BAD_RECORD, of(TARDIS_BAD_PLACE, 0, 0, 0, 0)));
    load.core = TARDIS_MOST_CORES;
    MUST(finds(opening, 3, &load, 1, &record, 1, TARDIS_BAD_OPERATION, of(TARDIS_BAD_CORE, 0, 0, 0, 0)));
    opening[1].address = 0x14;
    opening[2].address = 0x14;
    MUST(finds(opening, 3, &load, 1, &record, 1, TARDIS_BAD_OPENING, of(TARDIS_BAD_ADDRESS, 1, 0, 0, 0)));
}

/* The write that a value should come from is the last one of its word by time and number, before the record. */
static void writers(void) {
    static const struct tardis_operation issued[5] = {{0, TARDIS_STORE, 0, 1}, {1, TARDIS_STORE, 0, 2},
        {2, TARDIS_SWAP, 0, 3}, {3, TARDIS_STORE, 8, 4}, {4, TARDIS_LOAD, 0, 0}};
    /* In order: the store of 2 (number 1, time 3), that to another word, the swap (number 3, time 4), which receives 2,
       the load (number 4, time 4), and the store of 1 (number 0, time 5). */
    struct tardis_record done[5] = {{{0, TARDIS_STORE, 0, 1}, 0, 0, 5, 0}, {{4, TARDIS_LOAD, 0, 0}, 0, 3, 4, 4},
        {{2, TARDIS_SWAP, 0, 3}, 0, 2, 4, 3}, {{3, TARDIS_STORE, 8, 4}, 0, 0, 4, 2},
        {{1, TARDIS_STORE, 0, 2}, 0, 0, 3, 1}};
    MUST(finds(NULL, 0, issued, 5, done, 5, TARDIS_DONE, of(0, 0, 0, 0, 0)));
    done[1].received = 1;
    MUST(finds(NULL, 0, issued, 5, done, 5, TARDIS_NOT_DONE, of(TARDIS_WRONG_VALUE, 4, 3, 2, 3)));
    done[2].received = 0;
    MUST(finds(NULL, 0, issued, 5, done, 5, TARDIS_NOT_DONE, of(TARDIS_WRONG_VALUE, 3, 2, 2, 1)));
    done[2].time = 2; /* now the swap is the first of its word */
    MUST(finds(NULL, 0, issued, 5, done, 5, TARDIS_NOT_DONE, of(TARDIS_WRONG_VALUE, 4, 2, 2, 1)));
    done[1].time = 6; /* and the load the last */
    MUST(finds(NULL, 0, issued, 5, done, 5, TARDIS_DONE, of(0, 0, 0, 0, 0)));
    done[1].received = 3;
    MUST(finds(NULL, 0, issued, 5, done, 5, TARDIS_NOT_DONE, of(TARDIS_WRONG_VALUE, 4, 1, 2, 0)));
}

/* Each core stores its number plus 1 to one word, in turn; then the last one loads. */
static void many_cores(uint32_t cores) {
    static struct tardis_operation stores[1001];
    static struct tardis_record stored[1001];
    uint32_t core;
    for (core = 0; core < cores; core++) {
        struct tardis_operation store = {core, TARDIS_STORE, 0, 0};
        struct tardis_record record = {{0, 0, 0, 0}, 0, 0, 7, 0};
        store.value = core + 1;
        record.operation = stores[core] = store;
        record.number = core;
        stored[core] = record;
    }
    stores[cores] = stores[cores - 1];
    stores[cores].kind = TARDIS_LOAD;
    stored[cores] = stored[cores - 1];
    stored[cores].operation = stores[cores];
    stored[cores].number = stored[cores].received = cores;
    stored[cores].place = 1;
    MUST(finds(NULL, 0, stores, cores + 1, stored, cores + 1, TARDIS_DONE, of(0, 0, 0, 0, 0)));
    MUST(answers(stores, cores + 1, stored, cores + 1, TARDIS_DONE, 0, 0));
    stored[cores].received = 1;
    MUST(finds(NULL, 0, stores, cores + 1, stored, cores + 1, TARDIS_NOT_DONE,
               of(TARDIS_WRONG_VALUE, cores, cores, 2, cores - 1)));
    stored[cores].operation.core = 0; /* which wasn't issued a second operation */
    MUST(finds(NULL, 0, stores, cores + 1, stored, cores + 1, TARDIS_NOT_DONE,
               of(TARDIS_OUT_OF_PROGRAM_ORDER, cores, 0, 0, 0)));
}

/* The last core that there may be; a record of a core above all that were issued an operation. */
static void last_core(void) {
    struct tardis_operation load = {TARDIS_MOST_CORES - 1, TARDIS_LOAD, 0, 0};
    struct tardis_record record = {{TARDIS_MOST_CORES - 1, TARDIS_LOAD, 0, 0}, 0, 0, 0, 0};
    MUST(finds(NULL, 0, &load, 1, &record, 1, TARDIS_DONE, of(0, 0, 0, 0, 0)));
    load.core = 0;
    MUST(finds(NULL, 0, &load, 1, &record, 1, TARDIS_NOT_DONE, of(TARDIS_OUT_OF_PROGRAM_ORDER, 0, 0, 0, 0)));
}

/* Whether this number is answered, and this core and place told. */
static int lacks(size_t operation_count, size_t record_count, int wanted, uint64_t core, uint64_t place) {
    static const struct tardis_operation loads[5] = {{3, TARDIS_LOAD, 0, 0}, {1, TARDIS_LOAD, 0, 0},
        {TARDIS_MOST_CORES - 1, TARDIS_LOAD, 0, 0}, {3, TARDIS_LOAD, 8, 0}, {TARDIS_MOST_CORES, TARDIS_LOAD, 0, 0}};
    static const struct tardis_record loaded[6] = {{{1, TARDIS_LOAD, 0, 0}, 0, 0, 0, 0},
        {{3, TARDIS_LOAD, 0, 0}, 0, 0, 0, 1}, {{TARDIS_MOST_CORES - 1, TARDIS_LOAD, 0, 0}, 0, 0, 0, 2},
        {{3, TARDIS_LOAD, 8, 0}, 1, 0, 0, 3}, {{0, TARDIS_LOAD, 0, 0}, 0, 0, 0, 4},
        {{0, TARDIS_LOAD, 0, 0}, 4294967296, 0, 0, 5}};
    struct tardis_lack lack = {7, 7};
    int got = tardis_first_lack(operation_count ? loads : NULL, operation_count, record_count ? loaded : NULL,
                                record_count, &lack);
    return got == wanted && lack.core == core && lack.place == place;
}

/* The first core whose records aren't as many as its operations; one that has records alone, too. */
static void lacking(void) {
    MUST(lacks(0, 0, TARDIS_DONE, 0, 0));
    MUST(lacks(4, 0, TARDIS_NOT_DONE, 1, 0));
    MUST(lacks(4, 1, TARDIS_NOT_DONE, 3, 0));
    MUST(lacks(4, 2, TARDIS_NOT_DONE, 3, 1));
    MUST(lacks(4, 3, TARDIS_NOT_DONE, 3, 1));
    MUST(lacks(4, 4, TARDIS_DONE, 0, 0));
    MUST(lacks(3, 2, TARDIS_NOT_DONE, TARDIS_MOST_CORES - 1, 0));
    MUST(lacks(3, 4, TARDIS_NOT_DONE, 3, 2));
    MUST(lacks(0, 3, TARDIS_NOT_DONE, 1, 1));
    MUST(lacks(4, 5, TARDIS_NOT_DONE, 0, 1));
    MUST(lacks(5, 6, TARDIS_BAD_OPERATION, 0, 0));
    MUST(lacks(4, 6, TARDIS_BAD_RECORD, 0, 0));
}

/* A history that grows, asked after each record; what is refused changes nothing. */
static void grows(void) {
    static struct tardis_history history;
    struct tardis_word word = {0, 9};
    struct tardis_operation load = {70, TARDIS_LOAD, 0, 0}, store = {71, TARDIS_STORE, 0, 1};
    struct tardis_record loaded = {{70, TARDIS_LOAD, 0, 0}, 0, 9, 0, 0};
    struct tardis_record stored = {{71, TARDIS_STORE, 0, 1}, 0, 0, 1, 1};
    struct tardis_lack lack;
    uint64_t at;
    MUST(tardis_history_verdict(&history, &found) == TARDIS_DONE);
    MUST(tardis_history_lack(&history, &lack) == TARDIS_DONE && tardis_history_lack(&history, NULL) == TARDIS_NULL);
    MUST(tardis_history_open(&history, &word) == TARDIS_DONE && tardis_history_issue(&history, &load) == TARDIS_DONE);
    MUST(tardis_history_complete(&history, &loaded) == TARDIS_DONE);
    MUST(tardis_history_verdict(&history, &found) == TARDIS_DONE);
    word.address = 4;
    load.kind = 3;
    loaded.place = 4294967296;
    MUST(tardis_history_open(&history, &word) == TARDIS_BAD_OPENING);
    MUST(tardis_history_issue(&history, &load) == TARDIS_BAD_OPERATION);
    MUST(tardis_history_complete(&history, &loaded) == TARDIS_BAD_RECORD);
    load.kind = TARDIS_LOAD;
    load.core = loaded.operation.core = TARDIS_MOST_CORES;
    loaded.place = 0;
    MUST(tardis_history_issue(&history, &load) == TARDIS_BAD_OPERATION);
    MUST(tardis_history_complete(&history, &loaded) == TARDIS_BAD_RECORD);
    MUST(tardis_history_open(&history, NULL) == TARDIS_NULL && tardis_history_issue(&history, NULL) == TARDIS_NULL);
    MUST(tardis_history_complete(&history, NULL) == TARDIS_NULL);
    MUST(tardis_history_verdict(&history, NULL) == TARDIS_NULL && tardis_history_verdict(NULL, &found) == TARDIS_NULL);
    MUST(tardis_history_open(NULL, &word) == TARDIS_NULL && tardis_history_issue(NULL, &load) == TARDIS_NULL);
    MUST(tardis_history_complete(NULL, &loaded) == TARDIS_NULL);
    MUST(history.opening_count == 1 && history.operation_count == 1 && history.record_count == 1);
    MUST(tardis_history_lack(&history, &lack) == TARDIS_DONE);
    MUST(tardis_history_issue(&history, &store) == TARDIS_DONE);
    MUST(tardis_history_verdict(&history, &found) == TARDIS_DONE);
    MUST(tardis_history_lack(&history, &lack) == TARDIS_NOT_DONE && lack.core == 71 && lack.place == 0);
    MUST(tardis_history_complete(&history, &stored) == TARDIS_DONE);
    MUST(tardis_history_verdict(&history, &found) == TARDIS_DONE);
    load.core = loaded.operation.core = 70;
    for (at = 2; at < 10; at++) { /* loads of what was stored, and in the end of what was there before */
        loaded.place = at - 1;
        loaded.time = loaded.number = at;
        loaded.received = at == 9 ? 9 : 1;
        MUST(tardis_history_issue(&history, &load) == TARDIS_DONE);
        MUST(tardis_history_complete(&history, &loaded) == TARDIS_DONE);
        MUST(tardis_history_verdict(&history, &found) == (at == 9 ? TARDIS_NOT_DONE : TARDIS_DONE));
    }
    found.kind ^= TARDIS_WRONG_VALUE;
    MUST(found.kind == 0 && found.number == 9 && found.expected == 1 && found.source == 2 && found.writer == 1);
    tardis_history_free(&history);
    MUST(!history.opening && !history.operations && !history.records && history.record_count == 0);
    tardis_history_free(NULL);
}

/* The items of a history are refused memory, and are added once there is some. */
static void refused_items(void) {
    static struct tardis_history history;
    static const struct tardis_word word = {0, 9};
    size_t at;
    for (at = 0; at < 5; at++) {
        refused_at = 1;
        growths = 0;
        MUST(tardis_history_open(&history, &word) == (growths ? TARDIS_NO_MEMORY : TARDIS_DONE));
        growths = 0;
        MUST(tardis_history_issue(&history, issued) == (growths ? TARDIS_NO_MEMORY : TARDIS_DONE));
        growths = 0;
        MUST(tardis_history_complete(&history, done) == (growths ? TARDIS_NO_MEMORY : TARDIS_DONE));
        refused_at = 0;
        if (at != 3) { /* there was no room for one more, in none of the three */
            MUST(history.opening_count == at && history.operation_count == at && history.record_count == at);
            MUST(tardis_history_open(&history, &word) == TARDIS_DONE);
            MUST(tardis_history_issue(&history, issued) == TARDIS_DONE);
            MUST(tardis_history_complete(&history, done) == TARDIS_DONE);
        }
        MUST(history.opening_count == at + 1 && history.operation_count == at + 1 && history.record_count == at + 1);
        MUST(!memcmp(&history.opening[at], &word, sizeof word));
        MUST(!memcmp(&history.operations[at], issued, sizeof *issued));
        MUST(!memcmp(&history.records[at], done, sizeof *done));
    }
    tardis_history_free(&history);
}

/* Checks of a legal history, and of one with a wrong value, are refused each growth of memory in turn. */
static void refused_histories(void) {
    static const struct tardis_word opening[2] = {{0, 9}, {8, 9}};
    static const struct tardis_found nothing = {0, 0, 0, 0, 0};
    const uint64_t received = done[0].received;
    int number, is_wrong, wanted;
    for (is_wrong = 0; is_wrong < 2; is_wrong++) {
        done[0].received = received + (uint64_t)is_wrong;
        wanted = is_wrong ? TARDIS_NOT_DONE : TARDIS_DONE;
        for (refused_at = 1;; refused_at++) {
            growths = 0;
            number = tardis_check_history(opening, 2, issued, 3, done, 3, &found);
            if (growths < refused_at) break;
            /* a call that can do without what was refused goes on */
            if (number == wanted) continue;
            MUST(number == TARDIS_NO_MEMORY && !memcmp(&found, &nothing, sizeof found));
        }
        MUST(refused_at > 6 && number == wanted);
    }
    done[0].received = received;
    refused_items();
}

/* Of TEST likewise. */
#define STORED "test ONE\nthreads 1\nruns 1\nall-done 1\nstalled 0\nlimit 0\nexhausted 0\nmemory 0\nstates 1\n1 x=1\n" \
               "condition exists\nheld 1\nverdict yes\ncompleted 1\nrenewals 0\nupgrades 0\nflushes 0\n" \
               "write-backs 0\nstale-hits 0\n"
#define STORED_OBJECT "{\"version\":1,\"command\":\"litmus\",\"test\":\"ONE\",\"threads\":1,\"runs\":1," \
                      "\"all-done\":1,\"stalled\":0,\"limit\":0,\"exhausted\":0,\"memory\":0," \
                      "\"states\":[{\"count\":1,\"values\":{\"x\":1}}],\"condition\":\"exists\",\"held\":1," \
                      "\"verdict\":\"yes\",\"completed\":1,\"renewals\":0,\"upgrades\":0,\"flushes\":0," \
                      "\"write-backs\":0,\"stale-hits\":0}\n"

/* How a run is reported: its options, the whole text by the second program, and words of the text if the run ended for
   want of memory, which is before its operation completed. */
struct way {
    int is_litmus;
    uint64_t records, counts, every, json;
    const char *whole, *cut;
};

static int ran(const struct way *way) {
    struct tardis_options options;
    tardis_defaults(&options);
    options.records = way->records;
    options.counts = way->counts;
    options.every = way->every;
    options.json = way->json;
    return way->is_litmus ? litmus(TEST, &options, sizeof buffer) : trace("0 R 0x0\n", &options, sizeof buffer);
}

/* Whether the text that came out has these words, or none where they are empty. */
static int tells(const char *words) {
    size_t at, size = strlen(words), count = length;
    int is = size == 0 && count == 0;
    for (at = 0; size && !is && at + size <= count; at++) is = !memcmp(buffer + at, words, size);
    memset(buffer, '~', sizeof buffer);
    return is;
}

/* Runs, however they are reported, are refused each growth of memory in turn. */
static void refused_runs(void) {
    static const char cut[] = "completed 0\nend memory\nloads 0\n";
    static const char cut_object[] = "\"completed\":0,\"end\":\"memory\",\"loads\":0,";
    static const struct way ways[] = {
        {0, 0, 0, 0, 0, LOADED, cut},
        {0, 0, 1, 0, 0, LOADED COUNTED, cut},
        {0, 0, 1, 1, 0, LOADED "row 1\n" COUNTED COUNTED, cut},
        {0, 0, 0, 0, 1, OBJECT "}\n", cut_object},
        {0, 0, 1, 0, 1, OBJECT ",\"counts\":{" NUMBERS "}}\n", cut_object},
        {0, 0, 1, 1, 1, OBJECT ",\"rows\":[{\"completed\":1," NUMBERS "}],\"counts\":{" NUMBERS "}}\n", cut_object},
        {0, 1, 0, 0, 0, "0 0 R 0x0 0 0 0\n", ""},
        {1, 0, 0, 0, 0, STORED, "memory 1\nstates 0\n"},
        {1, 0, 0, 0, 1, STORED_OBJECT, "\"memory\":1,\"states\":[],"}};
    size_t at;
    for (at = 0; at < sizeof ways / sizeof *ways; at++) {
        int number, were_cut = 0, had_none = 0;
        for (refused_at = 1;; refused_at++) {
            growths = 0;
            number = ran(&ways[at]);
            if (growths < refused_at) break;
            if (number == TARDIS_DONE) MUST(has(ways[at].whole)); /* it can do without what was refused */
            else if (number == TARDIS_NOT_DONE) MUST(++were_cut && tells(ways[at].cut));
            else MUST(++had_none && number == TARDIS_NO_MEMORY && has("tardis: no memory\n"));
        }
        MUST(number == TARDIS_DONE && has(ways[at].whole) && were_cut && had_none);
    }
    refused_at = 0;
}

/* Lists of ends, however they are laid out, are refused each growth of memory in turn. */
static void refused_lists(void) {
    static const char *const lists[3] = {ENDS, ORDERED, ENDS_OBJECT};
    uint32_t way;
    for (way = 0; way < 3; way++) {
        int number, refused = 0;
        for (refused_at = 1;; refused_at++) {
            growths = 0;
            number = ends(BUFFERING, 7, way == 1, way == 2, sizeof buffer);
            if (growths < refused_at) break;
            if (number == TARDIS_DONE) MUST(has(lists[way])); /* it can do without what was refused */
            else MUST(++refused && number == TARDIS_NO_MEMORY && has("tardis: no memory\n"));
        }
        MUST(number == TARDIS_DONE && has(lists[way]) && refused > 6);
    }
    refused_at = 0;
}

/* Each growth of memory is refused in turn, until a call asks for no more. */
static void refusals(void) {
    struct tardis_lack lack = {7, 7};
    int number;
    for (refused_at = 1;; refused_at++) {
        growths = 0;
        number = opened("0x0 5\n0x8 6\n", TRACE, RECORDS, 1, 1000);
        if (growths < refused_at) break;
        /* a call that can do without what was refused goes on */
        MUST(number == TARDIS_NO_MEMORY ? has("tardis: no memory\n") : number == TARDIS_DONE && has("legal\n"));
    }
    MUST(number == TARDIS_DONE && has("legal\n"));
    for (refused_at = 1;; refused_at++) {
        growths = 0;
        number = check(TRACE, RECORDS, 1000);
        if (growths < refused_at) break;
        MUST(number == TARDIS_NO_MEMORY && has("tardis: no memory\n"));
    }
    MUST(refused_at > 1 && number == TARDIS_DONE && has("legal\n"));
    for (refused_at = 1;; refused_at++) {
        growths = 0;
        number = tardis_check_records(issued, 3, done, 3, &told);
        if (growths < refused_at) break;
        MUST(number == TARDIS_NO_MEMORY && told.kind == 0 && told.number == 0);
    }
    MUST(refused_at > 1 && number == TARDIS_DONE);
    for (refused_at = 1;; refused_at++) {
        growths = 0;
        number = tardis_first_lack(issued, 3, done, 3, &lack);
        if (growths < refused_at) break;
        MUST(number == TARDIS_NO_MEMORY && lack.core == 0 && lack.place == 0);
    }
    MUST(refused_at > 2 && number == TARDIS_DONE);
    refused_histories();
    refused_runs();
    refused_lists();
}

int main(void) {
    memset(buffer, '~', sizeof buffer);
    types();
    names();
    checks();
    openings();
    runs();
    lists();
    counts();
    nulls();
    arrays();
    many();
    wide();
    one_list();
    opened_words();
    writers();
    many_cores(65);
    many_cores(1000);
    last_core();
    lacking();
    grows();
    refusals();
    return 0;
}
