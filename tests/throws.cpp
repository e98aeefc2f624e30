// Errors of tardis.hpp as exceptions, by hand. What isn't an error is answered. The program is linked with --wrap=malloc
// and --wrap=realloc, which refuse memory where they are told to.
#define TARDIS_EXCEPTIONS
#include "tardis.hpp"

#include <cstdlib>
#include <iostream>

static bool is_refused;

extern "C" {
void *__real_malloc(size_t size);
void *__real_realloc(void *block, size_t size);
void *__wrap_malloc(size_t size) { return is_refused ? nullptr : __real_malloc(size); }
void *__wrap_realloc(void *block, size_t size) { return is_refused ? nullptr : __real_realloc(block, size); }
}

namespace {

void expect(bool good, const std::string &what) {
    if (good) return;
    std::cerr << "throws: " << what << '\n';
    std::exit(1);
}

// The call throws an error of this number, with these words.
template <class Call> void throws(int number, const std::string &words, Call call) {
    try {
        call();
    } catch (const tardis::Error &error) {
        return expect(error.number == number && error.what() == words,
                      words + ": number " + std::to_string(error.number) + ": " + error.what());
    }
    expect(false, words + ": nothing is thrown");
}

void reports() {
    tardis_options options = tardis::defaults();
    throws(TARDIS_BAD_TEST, "tardis: line 1: 4 BadHeader", [] { tardis::litmus("X\n"); });
    throws(TARDIS_BAD_LINE, "tardis: line 2: 5 BadOperation", [] { tardis::trace("0 R 0x0\n0 X\n"); });
    throws(TARDIS_BAD_OPENING, "tardis: opening: line 1: 6 BadAddress", [] { tardis::check("", "", "8 1"); });
    options.lease = 0;
    throws(TARDIS_BAD_MACHINE, "tardis: bad configuration", [&] { tardis::trace("0 R 0x0\n", options); });
    options = tardis::defaults();
    options.limit = 1;
    expect(tardis::trace("0 R 0x0\n", options).number == TARDIS_NOT_DONE, "a run that is cut off is no error");
    expect(tardis::check("0 R 0x0\n", "0 0 R 0x0 1 0 0\n").text == "wrong value 0\n", "a verdict is no error");
    throws(TARDIS_NO_MEMORY, "tardis: no memory", [] {
        tardis::told(30, [](char *buffer, size_t, size_t *length) {
            *length = std::string_view("tardis: no memory\n").copy(buffer, 30);
            return static_cast<int>(TARDIS_NO_MEMORY);
        });
    });
    throws(TARDIS_NULL, "tardis: a pointer is null", [] { tardis::trace(std::string_view(nullptr, 3)); });
    const char *const test = "RISCV ONE\n{ 0:x6=x; }\n P0 ;\n lw x5,0(x6) ;\nexists (x=1)\n";
    throws(TARDIS_TOO_MANY_STATES, "tardis: more than 1 states; 2 are enough to go on",
           [&] { tardis::ends(test, false, 1); });
    expect(tardis::ends(test, false, 2).ends().begin()->values == "x=0", "a list is no error");
}

void histories() {
    tardis::History history;
    const tardis_record loaded{{0, TARDIS_LOAD, 8, 0}, 0, 5, 0, 0};
    throws(TARDIS_BAD_OPENING, "tardis: word: bad address", [&] { history.open(4, 1); });
    throws(TARDIS_BAD_OPERATION, "tardis: operation: bad core", [&] { history.issue({TARDIS_MOST_CORES, 0, 8, 0}); });
    throws(TARDIS_BAD_OPERATION, "tardis: operation: bad kind", [&] { history.issue({0, 3, 8, 0}); });
    throws(TARDIS_BAD_RECORD, "tardis: record: bad place", [&] {
        tardis_record record = loaded;
        record.place = 4294967296;
        history.complete(record);
    });
    expect(history.opened().empty() && history.issued().empty() && history.completed().empty(), "what is refused");
    expect(history.issue(loaded.operation) == TARDIS_DONE && history.complete(loaded) == TARDIS_DONE, "what isn't");
    expect(history.verdict().number == TARDIS_NOT_DONE && history.verdict().found.expected == 0, "a wrong value");
    const tardis_operation operations[] = {loaded.operation, {0, 3, 8, 0}};
    throws(TARDIS_BAD_OPERATION, "tardis: operation 1: bad kind",
           [&] { tardis::check_history(operations, history.completed()); });
    throws(TARDIS_NULL, "tardis: a pointer is null",
           [] { tardis::check_history(tardis::View<tardis_operation>(nullptr, 1), {}); });
}

void machines() {
    const tardis_options options = tardis::defaults();
    const tardis_word words[] = {{8, 5}, {12, 6}};
    int why = TARDIS_DONE;
    throws(TARDIS_BAD_MACHINE, "tardis: bad configuration", [&] { tardis::Machine::open(65, options, {}, &why); });
    expect(why == TARDIS_BAD_MACHINE, "why a machine isn't opened");
    throws(TARDIS_BAD_OPENING, "tardis: word 1: bad address", [&] { tardis::Machine::open(2, options, words); });
    throws(TARDIS_NULL, "tardis: a pointer is null", [&] { tardis::Machine::open(2, options, {nullptr, 1}); });
    auto machine = tardis::Machine::open(2, options);
    throws(TARDIS_BAD_OPERATION, "tardis: operation: bad kind", [&] { machine->issue({0, 3, 8, 0}); });
    expect(machine->deliver(7).cause() == "NoSuch" && machine->issue({0, 0, 8, 0}).name() == "issued", "a refusal");
    expect(!machine->message(7) && !machine->record(0) && !machine->open_operation(7), "what there isn't");
    expect(machine->in_flight().empty() && machine->attempt(0).name() == "requested", "the calls behind them");
    tardis::Machine moved = std::move(*machine);
    throws(TARDIS_NO_SYSTEM, "tardis: no machine is open", [&] { machine->in_flight(); });
    throws(TARDIS_NO_SYSTEM, "tardis: no machine is open", [&] { machine->advance(0); });
    throws(TARDIS_NO_SYSTEM, "tardis: no machine is open", [&] { machine->copies(0); });
    expect(moved.in_flight().size() == 1, "a machine that was moved");
    for (const uint64_t number : {0, 1, 2, 0, 3}) moved.deliver(number);
    expect(moved.copies(7).number == TARDIS_NO_SUCH && moved.entries(7).empty(), "lines of what isn't there");
    is_refused = true;
    throws(TARDIS_NO_MEMORY, "tardis: no memory", [&] { moved.copies(0); });
    throws(TARDIS_NO_MEMORY, "tardis: no memory", [&] { moved.entries(0); });
    is_refused = false;
}

} // namespace

int main() {
    reports();
    histories();
    machines();
}
