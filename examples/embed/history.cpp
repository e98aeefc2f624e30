// A history that grows, from standard input, in C++: the lines are those of history.c, and so is what it prints.
#include "tardis.hpp"

#include <iostream>
#include <sstream>

namespace {

void print_verdict(const tardis::Verdict &verdict) {
    static const char *const WORDS[] = {"legal", "bad number", "out of program order", "wrong value"};
    const auto &[number, found, lack] = verdict;
    if (number != TARDIS_DONE && number != TARDIS_NOT_DONE) std::cout << "number " << number;
    else if (lack) std::cout << "no record of operation " << lack->place << " of core " << lack->core;
    else std::cout << WORDS[found.kind];
    if (number == TARDIS_NOT_DONE && !lack) std::cout << ' ' << found.number;
    if (found.source != TARDIS_NOTHING_EXPECTED) std::cout << ": expected " << found.expected << " of ";
    if (found.source == TARDIS_OPENING_MEMORY) std::cout << "the opening memory";
    if (found.source == TARDIS_A_RECORD) std::cout << "record " << found.writer;
    std::cout << '\n';
}

// The rest of a line: KIND ADDRESS WRITTEN, of an operation of this core.
bool read(std::istream &fields, tardis_operation &operation) {
    char kind = 0;
    if (!(fields >> kind >> std::hex >> operation.address >> std::dec >> operation.value)) return false;
    operation.kind = kind == 'R' ? TARDIS_LOAD : kind == 'W' ? TARDIS_STORE : kind == 'S' ? TARDIS_SWAP : 3;
    return true;
}

// Adds the item of a line; none if that has no such form.
std::optional<int> add(tardis::History &history, const std::string &line) {
    std::istringstream fields(line);
    std::string item;
    fields >> item;
    if (item == "word") {
        uint64_t address = 0, value = 0;
        if (fields >> std::hex >> address >> std::dec >> value) return history.open(address, value);
        return std::nullopt;
    }
    tardis_record record{};
    tardis_operation &operation = record.operation;
    fields >> operation.core;
    if (item == "issue") return read(fields, operation) ? std::optional(history.issue(operation)) : std::nullopt;
    if (item != "record" || !(fields >> record.place) || !read(fields, operation)) return std::nullopt;
    if (!(fields >> record.received >> record.time >> record.number)) return std::nullopt;
    return history.complete(record);
}

} // namespace

int main() {
    tardis::History history;
    for (std::string line; std::getline(std::cin, line);) {
        if (line == "verdict" || line == "complete") {
            print_verdict(history.verdict(line == "complete"));
            continue;
        }
        const auto number = add(history, line);
        if (!number) {
            std::cerr << "history: " << line << '\n';
            return 2;
        }
        if (*number != TARDIS_DONE) std::cout << "number " << *number << '\n';
    }
    return 0;
}
