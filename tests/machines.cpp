// Machines of tardis.hpp, by hand: events, look-ups, what is refused, and machines that are moved; and the records of
// lines. The program is linked with --wrap=malloc and --wrap=realloc, which refuse memory where they are told to.
#include "tardis.hpp"

#include <cstdlib>
#include <cstring>
#include <iostream>

static bool is_refused;

extern "C" {
void *__real_malloc(size_t size);
void *__real_realloc(void *block, size_t size);
void *__wrap_malloc(size_t size) { return is_refused ? nullptr : __real_malloc(size); }
void *__wrap_realloc(void *block, size_t size) { return is_refused ? nullptr : __real_realloc(block, size); }
}

namespace {

void expect(bool good, const char *what) {
    if (good) return;
    std::cerr << "machines: " << what << '\n';
    std::exit(1);
}

// Whether there is this record.
bool is(const std::optional<tardis_record> &record, const tardis_record &wanted) {
    return record && std::memcmp(&*record, &wanted, sizeof wanted) == 0;
}

// Whether an answer has this kind, and no record; a refusal this cause.
bool is(const tardis::Answer &answer, tardis_answer_kind kind, tardis_refusal refusal = TARDIS_NOT_REFUSED) {
    return answer.number == TARDIS_DONE && answer.kind == kind && answer.refusal == refusal && !answer.record;
}

// Whether each call is an error of a machine that isn't there.
bool is_none(tardis::Machine &machine) {
    const tardis::Answer answers[] = {machine.issue({0, TARDIS_LOAD, 8, 0}), machine.attempt(0), machine.deliver(0),
                                      machine.advance(0), machine.evict_copy(0, 8), machine.evict_entry(0, 8)};
    for (const tardis::Answer &answer : answers)
        if (answer.number != TARDIS_NO_SYSTEM || answer.kind != TARDIS_REFUSED || answer.cause() != "") return false;
    return !machine.victim(0, 8) && !machine.room(0) && !machine.message(0) && machine.in_flight().empty() &&
           !machine.record(0) && machine.records().empty() && !machine.open_operation(0) &&
           machine.copies(0).number == TARDIS_NO_SYSTEM && machine.entries(0).number == TARDIS_NO_SYSTEM &&
           !machine.owners(8) && !machine.value(8) && !machine.totals();
}

// Machines that aren't opened, and why.
void openings() {
    tardis_options options = tardis::defaults();
    const tardis_word words[] = {{8, 5}, {12, 6}};
    int why = -1;
    expect(!tardis::Machine::open(65, options, {}, &why) && why == TARDIS_BAD_MACHINE, "65 cores");
    expect(!tardis::Machine::open(0), "no core");
    expect(!tardis::Machine::open(2, options, words, &why) && why == TARDIS_BAD_OPENING, "an opening");
    expect(!tardis::Machine::open(2, options, {nullptr, 1}, &why) && why == TARDIS_NULL, "no opening");
    is_refused = true;
    expect(!tardis::Machine::open(2, options, {}, &why) && why == TARDIS_NO_MEMORY, "a machine without memory");
    is_refused = false;
    options.line_words = 0;
    expect(!tardis::Machine::open(2, options, {}, &why) && why == TARDIS_BAD_MACHINE, "lines without words");
    expect(tardis::Machine::open(2, tardis::defaults(), {words, 1}, &why) && why == TARDIS_DONE, "a machine");
}

// A machine that is moved from one value to another.
void moved() {
    tardis_options wide = tardis::defaults();
    wide.line_words = 8;
    auto first = tardis::Machine::open(1), second = tardis::Machine::open(2, wide);
    expect(is(second->issue({1, TARDIS_LOAD, 0x88, 0}), TARDIS_ISSUED), "a load");
    *first = std::move(*second);
    second.reset();
    expect(first->open_operation(1)->operation.address == 0x88, "a machine that was moved");
    expect(is(first->attempt(1), TARDIS_REQUESTED) && first->message(0)->address == 0x80, "lines of eight words");
    tardis::Machine last = std::move(*first);
    expect(is_none(*first) && last.in_flight().size() == 1, "a machine that was moved from");
}

// A load of a word that opens with 5: what is in flight, and what the machine shows.
void loads() {
    const tardis_word five{0x28, 5};
    auto machine = tardis::Machine::open(2, tardis::defaults(), {&five, 1});
    const tardis_operation load{1, TARDIS_LOAD, 0x28, 9};
    expect(is(machine->attempt(1), TARDIS_IDLE) && !machine->open_operation(1), "nothing is open");
    expect(is(machine->issue(load), TARDIS_ISSUED), "a load");
    expect(is(machine->issue(load), TARDIS_REFUSED, TARDIS_BUSY), "a second one");
    expect(machine->open_operation(1)->state == 1 && machine->in_flight().empty(), "what is open");
    expect(is(machine->attempt(1), TARDIS_REQUESTED) && machine->open_operation(1)->state == 2, "its request");
    expect(is(machine->attempt(1), TARDIS_WAITING), "a request that is out");
    const auto sent = machine->message(0);
    expect(sent && sent->number == 0 && sent->name() == "ShReq" && sent->kind == TARDIS_SH_REQ, "what is sent");
    expect(sent->from_kind == TARDIS_CORE && sent->from == 1 && sent->to_kind == TARDIS_BANK && sent->to == 0,
           "its ends");
    expect(sent->address == 0x28 && sent->pts == 0 && !sent->has_version, "what it carries");
    expect(is(machine->deliver(0), TARDIS_STARTED), "a fetch");
    uint64_t sum = 0;
    for (const tardis::Message &message : machine->in_flight()) sum = 10 * sum + message.number + 1;
    expect(sum == 12 && machine->totals()->messages == 2, "a request and its fetch");
    expect(!machine->record(0) && machine->records().empty(), "a record that there isn't yet");
    for (const uint64_t number : {1, 2, 0}) expect(is(machine->deliver(number), TARDIS_DELIVERED), "an arrival");
    const auto reply = machine->message(3);
    expect(reply->kind == TARDIS_SH_REP && reply->wts == 0 && reply->rts == 10, "a lease");
    expect(reply->words[0] == 5 && std::count(reply->words + 1, reply->words + 8, 0u) == 7, "what it brings");
    expect(is(machine->deliver(3), TARDIS_DELIVERED), "the last arrival");
    const tardis_record loaded{{1, TARDIS_LOAD, 0x28, 0}, 0, 5, 0, 0};
    const tardis::Answer answer = machine->attempt(1);
    expect(answer.kind == TARDIS_COMPLETED && answer.name() == "completed" && is(answer.record, loaded), "its record");
    expect(is(machine->record(0), loaded) && !machine->record(1), "a record by its number");
    expect(machine->records().size() == 1 && is(machine->records()[0], loaded) && machine->records(1).empty(), "all");
    expect(machine->copies(1) == std::vector<uint64_t>{0x28} && machine->copies(0).empty(), "copies");
    expect(machine->copies(0).number == TARDIS_DONE, "that there are no copies");
    expect(machine->entries(0) == std::vector<uint64_t>{0x28}, "entries");
    for (const tardis::Lines &none : {machine->copies(2), machine->copies(UINT32_MAX), machine->entries(1)})
        expect(none.empty() && none.number == TARDIS_NO_SUCH, "lines of what isn't there");
    is_refused = true;
    for (const tardis::Lines &none : {machine->copies(1), machine->entries(0)})
        expect(none.empty() && none.number == TARDIS_NO_MEMORY, "lines without memory");
    is_refused = false;
    expect(machine->value(0x28) == 5 && machine->value(0x30) == 0 && machine->owners(0x28) == 0, "values and owners");
    expect(is(machine->deliver(7), TARDIS_REFUSED, TARDIS_NOT_THERE) && !machine->message(7), "no such message");
    expect(machine->deliver(7).name() == "refused" && machine->deliver(7).cause() == "NoSuch", "a refusal's words");
    expect(machine->issue({0, 3, 8, 0}).number == TARDIS_BAD_OPERATION, "an operation of no kind");
    const tardis_totals totals = *machine->totals();
    expect(totals.records == 1 && totals.messages == 0 && totals.renewals == 0 && !totals.is_stopped, "totals");
}

// Events and places, where each part has one: a swap, and what is evicted for a load of another line.
void places() {
    tardis_options options = tardis::defaults();
    options.banks = 2;
    options.sets = options.ways = options.bank_sets = options.bank_ways = 1;
    auto small = tardis::Machine::open(2, options);
    expect(is(small->issue({0, TARDIS_SWAP, 8, 7}), TARDIS_ISSUED), "a swap");
    expect(is(small->attempt(0), TARDIS_REQUESTED), "its request");
    for (const uint64_t number : {0, 1, 2, 0, 3}) small->deliver(number);
    expect(is(small->attempt(0).record, {{0, TARDIS_SWAP, 8, 7}, 0, 0, 1, 0}), "a swap's record");
    expect(small->owners(8) == 1 && small->value(8) == 7, "an owner");
    expect(is(small->issue({0, TARDIS_LOAD, 24, 9}), TARDIS_ISSUED), "a load");
    expect(is(small->attempt(0), TARDIS_REFUSED, TARDIS_NO_ROOM), "no place");
    expect(small->victim(0, 24) == 8 && !small->victim(0, 8) && !small->victim(2, 8), "a victim");
    expect(is(small->evict_copy(0, 8), TARDIS_EVICTED) && is(small->attempt(0), TARDIS_REQUESTED), "a place");
    expect(small->room(5) == std::pair(1u, uint64_t(8)) && !small->room(4), "what makes room");
    expect(is(small->deliver(4), TARDIS_DELIVERED) && is(small->deliver(5), TARDIS_HELD), "a message that is held");
    expect(is(small->evict_entry(1, 8), TARDIS_EVICTED) && is(small->advance(0), TARDIS_ADVANCED), "a place in a bank");
    expect(is(small->issue({1, TARDIS_STORE, UINT64_MAX - 7, UINT64_MAX}), TARDIS_ISSUED), "the greatest numbers");
    const tardis_operation open = small->open_operation(1)->operation;
    expect(open.kind == TARDIS_STORE && open.address == UINT64_MAX - 7 && open.value == UINT64_MAX, "what is open");
}

// Lines of eight words, each named by one of its words: a swap, what it gives up, and what a bank does.
void wide() {
    tardis_options options = tardis::defaults();
    options.line_words = 8;
    options.sets = options.ways = options.bank_sets = options.bank_ways = 1;
    auto machine = tardis::Machine::open(1, options);
    machine->issue({0, TARDIS_SWAP, 0x88, 7});
    machine->attempt(0);
    for (const uint64_t number : {0, 1, 2, 0, 3}) machine->deliver(number);
    expect(machine->attempt(0).kind == TARDIS_COMPLETED, "a swap in a line of eight words");
    expect(machine->copies(0) == std::vector<uint64_t>{0x80}, "a copy of eight words");
    expect(machine->owners(0xb8) == 1 && machine->owners(0xc0) == 0 && machine->owners(0x78) == 0, "whose line it is");
    expect(machine->value(0x88) == 7 && machine->value(0x80) == 0, "words of a line");
    expect(machine->victim(0, 0x100) == 0x80 && !machine->victim(0, 0xb8), "a victim of eight words");
    expect(is(machine->evict_copy(0, 0xb8), TARDIS_EVICTED), "a copy that is given up");
    expect(is(machine->deliver(4), TARDIS_DELIVERED), "its return");
    expect(machine->entries(0) == std::vector<uint64_t>{0x80}, "an entry of eight words");
    machine->issue({0, TARDIS_LOAD, 0x138, 0});
    machine->attempt(0);
    expect(machine->message(5)->address == 0x100 && machine->room(5) == std::pair(0u, uint64_t(0x80)), "its room");
    expect(is(machine->evict_entry(0, 0xa0), TARDIS_EVICTED) && machine->message(6)->words[1] == 7, "its store");
}

// More lines than fit where they are first put, from the last to the first.
void many() {
    auto machine = tardis::Machine::open(1);
    std::vector<uint64_t> lines;
    for (uint64_t line = 0; line < 70; line++) {
        lines.push_back(8 * line);
        machine->issue({0, TARDIS_LOAD, 8 * (69 - line), 0});
        machine->attempt(0);
        for (const uint64_t number : {0, 1, 2, 0, 3}) machine->deliver(4 * line + number);
        machine->attempt(0);
    }
    expect(machine->copies(0) == lines && machine->entries(0) == lines, "70 lines");
}

// Records of lines.
void records() {
    const uint64_t most = UINT64_MAX;
    const auto of = tardis::record_of;
    expect(is(of("1 2 R 0x8 5 6 7"), {{1, TARDIS_LOAD, 8, 0}, 2, 5, 6, 7}), "a load's record");
    expect(is(of("63 0 W 0x10 9 1 2"), {{63, TARDIS_STORE, 16, 9}, 0, 0, 1, 2}), "a store's record");
    expect(is(of("1048575 3 S 0xfffffffffffffff8 18446744073709551615 4 18446744073709551615 6"),
              {{1048575, TARDIS_SWAP, most - 7, most}, 3, 4, most, 6}),
           "a swap's record");
    expect(of(std::string_view("1 2 R 0x8 5 6 78").substr(0, 15))->number == 7, "a line's length");
    for (const char *line :
         {"", "none", "completed 1 0 R 0x8 5 0 0", "1 0 R 0x8 5 0", "1 0 R 0x8 5 0 0 0", "1 0 W 0x8 5 6 0 0",
          "1 0 S 0x8 5 0 0", "1 0 X 0x8 5 0 0", "1 0  0x8 5 0 0", "1 0 R 8 5 0 0", "1 0 R 0x 5 0 0", "1 0 R 0xg 5 0 0",
          "1 0 R 0x8 a 0 0", "1 0 R 0x8  5 0 0", "1 0 R 0x8 5 0 0 ", "1 0 R 0x8 5 0 ; 0", "\n1 0 R 0x8 5 0 0",
          "1 0 R 0x8 5 0 0\n", "1 0 RW 0x8 5 0 0", "-1 0 R 0x8 5 0 0", "1048576 0 R 0x8 5 0 0", "1 0", "1 0 ", "1 0 R",
          "1 0 R 0x8 18446744073709551616 0 0", "1 0 R 0x10000000000000000 5 0 0"}) {
        const std::vector<char> bytes(line, line + std::strlen(line)); // so that valgrind sees what is read behind them
        expect(!of({bytes.data(), bytes.size()}), line);
    }
}

} // namespace

int main() {
    openings();
    moved();
    loads();
    places();
    wide();
    many();
    records();
}
