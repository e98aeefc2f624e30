// Reports and views of tardis.hpp, by hand: each report is made once, and nothing of it is copied. The program is
// linked with --wrap=tardis_c_trace, which counts.
#include "tardis.hpp"

#include <array>
#include <cstdlib>
#include <cstring>
#include <iostream>

static int calls;

extern "C" {
uint32_t __real_tardis_c_trace(const uint8_t *text, size_t text_length, const tardis_options *options,
                               uint8_t *buffer, size_t size, size_t *length);
uint32_t __wrap_tardis_c_trace(const uint8_t *text, size_t text_length, const tardis_options *options,
                               uint8_t *buffer, size_t size, size_t *length) {
    calls++;
    return __real_tardis_c_trace(text, text_length, options, buffer, size, length);
}
}

namespace {

void expect(bool good, const char *what) {
    if (good) return;
    std::cerr << "reports: " << what << '\n';
    std::exit(1);
}

// Whether two records are the same.
bool is(const tardis_record &one, const tardis_record &other) { return std::memcmp(&one, &other, sizeof one) == 0; }

// The records of a trace and the end states of a test, in a report's memory, which lives as long as what needs it.
void parts() {
    tardis_options options = tardis::defaults();
    const std::string text = "0 W 0x8 7\n1 S 0x8 9\n";
    const tardis::Records none = tardis::trace(text, options).records();
    expect(none.begin() == none.end(), "the records of a report that has none");
    options.records = 1;
    const tardis::Records records = tardis::trace(text, options).records(); // the report is gone
    const std::vector<tardis_record> copied(records.begin(), records.end());
    expect(copied.size() == 2 && is(copied[0], {{0, TARDIS_STORE, 8, 7}, 0, 0, 1, 0}), "a store's record");
    expect(is(copied[1], {{1, TARDIS_SWAP, 8, 9}, 0, 7, 2, 1}), "a swap's record");
    options.lease = 0;
    expect(tardis::trace(text, options).records().begin() == records.end(), "the records of an error");
    // Lines without a record are passed over, and the last one may lack its line feed.
    uint64_t met = 0;
    for (const tardis_record &record : tardis::Records("x\n\n1 0 R 0x8 5 0 0\n1 1\n1 1 R 0x8 5 0 1"))
        met += record.number + 1;
    expect(met == 3, "lines without a record");

    const std::string report = "test 7\nstates 2\n12 0:x7=1 0:x71=18446744073709551615\n3 0:x7=0 0:x71=4\nheld 0\n";
    const tardis::States read(report);
    const std::vector<tardis::State> states(read.begin(), read.end());
    expect(states.size() == 2 && states[0].times == 12 && states[1].times == 3, "two states");
    expect(states[0].values.data() == report.data() + report.find("0:x7=1"), "values that aren't copied");
    expect(states[0].value("0:x7") == 1 && states[0].value("0:x71") == UINT64_MAX && states[1].value("0:x71") == 4,
           "values of names");
    expect(!states[0].value("0:x") && !states[0].value("x7") && !states[0].value(""), "no such name");
    const tardis::Report ran = tardis::litmus("RISCV ONE\n{ 0:x5=1; 0:x6=x; }\n P0 ;\n sw x5,0(x6) ;\nexists (x=1)\n");
    expect(ran.states().begin()->times == 1 && ran.states().begin()->value("x") == 1, "the state of a run");
    const tardis::Report shared = ran;
    expect(shared.text.data() == ran.text.data(), "a report that is copied shares its memory");
    expect(tardis::litmus("").states().begin() == tardis::States("").end(), "the states of an error");
}

// The list of all ends, by hand: 1, 2, 3, 4 and 3 states by how many instructions are done.
void lists() {
    const std::string text = "RISCV SB\n{ 0:x5=1; 0:x6=x; 0:x8=y; 1:x5=1; 1:x6=y; 1:x8=x; }\n P0 | P1 ;\n"
                             " sw x5,0(x6) | sw x5,0(x6) ;\n lw x7,0(x8) | lw x7,0(x8) ;\n"
                             "exists (0:x7=1 /\\ 1:x7=0)\n";
    const tardis::List listed = tardis::ends(text, true);
    const tardis::Ends ends = tardis::ends(text).ends(); // the list is gone
    expect(listed.number == TARDIS_DONE && listed.is_report(), "a list");
    std::string told;
    for (const tardis::End &end : listed.ends())
        told += std::string(end.holds ? "*" : "-") + std::to_string(*end.value("0:x7")) +
                std::to_string(*end.value("1:x7")) + ' ' + std::string(end.order) + '\n';
    expect(told == "-01 P0:1 P0:2 P1:1 P1:2\n*10 P1:1 P1:2 P0:1 P0:2\n-11 P0:1 P1:1 P0:2 P1:2\n", "its ends");
    expect(std::distance(ends.begin(), ends.end()) == 3 && ends.begin()->values == "0:x7=0 1:x7=1", "ends alone");
    expect(ends.begin()->order.empty() && !ends.begin()->value("0:x"), "no order, and no such name");
    const tardis::List few = tardis::ends(text, false, 6);
    expect(few.number == TARDIS_TOO_MANY_STATES && !few.is_report() && few.ends().begin() == ends.end(), "six states");
    expect(few.text == "tardis: more than 6 states; 9 are enough to go on\n", "why there is no list");
    expect(tardis::ends(text, false, 7, true).text.rfind("{\"version\":1,\"command\":\"ends\",", 0) == 0, "an object");
    expect(tardis::ends("").number == TARDIS_BAD_TEST, "the ends of no test");
}

// Histories over arrays of the caller's.
void views() {
    const std::vector<tardis_operation> operations{{0, TARDIS_LOAD, 8, 0}, {1, TARDIS_STORE, 8, 3}};
    const std::array<tardis_record, 2> records{{{operations[0], 0, 5, 0, 0}, {operations[1], 0, 0, 1, 1}}};
    const tardis_word opening[] = {{8, 5}};
    expect(tardis::check_history(operations, records, opening, true).is_legal(), "a legal history");
    const tardis::Verdict wrong = tardis::check_history(operations, records);
    expect(wrong.number == TARDIS_NOT_DONE && wrong.found.kind == TARDIS_WRONG_VALUE && wrong.found.expected == 0 &&
               wrong.found.source == TARDIS_OPENING_MEMORY,
           "a wrong value");
    const tardis::View<tardis_record> first(records.data(), 1);
    const auto lack = tardis::check_history(operations, first, opening, true).lack;
    expect(lack && lack->core == 1 && lack->place == 0, "an operation without a record");
    expect(tardis::check_history({}, {}).is_legal(), "an empty history");
    expect(tardis::check_history(tardis::View<tardis_operation>(nullptr, 1), {}).number == TARDIS_NULL, "a null view");
    tardis::History history;
    history.open(8, 5);
    for (const tardis_operation &operation : operations) history.issue(operation);
    for (const tardis_record &record : records) history.complete(record);
    expect(history.opened().size() == 1 && history.opened()[0].value == 5, "the words of a history");
    expect(history.issued().size() == 2 && history.issued().end()[-1].value == 3, "its operations");
    expect(history.completed().size() == 2 && is(*history.completed().begin(), records[0]), "its records");
    expect(history.completed().data() == history.completed().begin(), "the same records");
    expect(tardis::check_history(history.issued(), history.completed(), history.opened()).is_legal(), "its verdict");
}

} // namespace

int main() {
    expect(tardis::version() == "0.4.1", "the version");
    parts();
    lists();
    views();
    calls = 0;
    // A value and times of 20 digits, with which a record is as long as it can be next to its operation.
    std::string text = "0 W 0x0 18446744073709551615\n";
    for (int number = 1; number < 30000; number++) text += "0 R 0x0\n";
    tardis_options options = tardis::defaults();
    options.records = 1;
    options.time = 18446744073709500000u;
    const tardis::Report records = tardis::trace(text, options);
    expect(records.number == TARDIS_DONE && records.text.rfind("0 0 W 0x0 18446744073709551615 ", 0) == 0, "records");
    expect(records.text.size() > 7 * text.size() && records.text.back() == '\n', "records that are long");
    expect(calls == 1, "a trace that runs once");
    options.lease = 0;
    expect(tardis::trace(text, options).text == "tardis: bad configuration\n", "an error's line");
    // A text of 25 bytes that doesn't fit into 10 or 24, and does into 25.
    for (const size_t size : {10, 24, 25}) {
        int made = 0;
        const tardis::Report report = tardis::told(size, [&made](char *buffer, size_t room, size_t *length) {
            made++;
            *length = 25;
            if (room < 25) return static_cast<int>(TARDIS_SHORT_BUFFER);
            std::string(25, 'x').copy(buffer, 25);
            return static_cast<int>(TARDIS_NOT_DONE);
        });
        expect(report.is_report() && report.text == std::string(25, 'x') && made == (size < 25 ? 2 : 1), "a buffer");
    }
}
