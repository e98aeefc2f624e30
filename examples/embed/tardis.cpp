// The program's commands over the library, for a caller in C++: litmus, ends, trace and check with their options, but
// for --schedule threads and --workers. What it prints and its status are the program's, so that tests/check.sh can try
// it. With EMBED_ARRAYS in the environment, `check` gives the library arrays in place of texts, where these are read
// here.
#include "tardis.hpp"

#include <cstdio>
#include <cstdlib>
#include <iostream>
#include <map>
#include <sstream>
#include <string>
#include <vector>

namespace {

const std::map<std::string, uint64_t tardis_options::*> NUMBERS = {
    {"--lease", &tardis_options::lease}, {"--time", &tardis_options::time}, {"--banks", &tardis_options::banks},
    {"--sets", &tardis_options::sets}, {"--ways", &tardis_options::ways}, {"--bank-sets", &tardis_options::bank_sets},
    {"--bank-ways", &tardis_options::bank_ways}, {"--line-words", &tardis_options::line_words},
    {"--messages", &tardis_options::messages}, {"--seed", &tardis_options::seed}, {"--limit", &tardis_options::limit},
    {"--runs", &tardis_options::runs}, {"--every", &tardis_options::every}};

// Ends the program as the program does: a line on standard error, and a status.
[[noreturn]] void fail(const std::string &line, int status) {
    std::cerr << "tardis: " << line << '\n';
    std::exit(status);
}

std::string text_of(const std::string &name) {
    std::FILE *file = std::fopen(name.c_str(), "rb");
    if (!file) fail("read failed", 4);
    std::string text;
    char block[8192];
    for (size_t count; (count = std::fread(block, 1, sizeof block, file)) > 0;) text.append(block, count);
    if (std::ferror(file)) fail("read failed", 4);
    std::fclose(file);
    return text;
}

// What a check is asked beside its two files, or for a list of ends.
struct Asked {
    bool complete = false;
    bool json = false;
    std::string opening;  // the text
    bool orders = false;
    uint64_t states = TARDIS_USUAL_STATES;
};

// The options and the other words of a command line.
std::vector<std::string> words_of(int count, char **words, tardis_options &options, Asked &asked) {
    std::vector<std::string> others;
    for (int at = 2; at < count; at++) {
        const std::string word = words[at];
        const auto number = NUMBERS.find(word);
        if (word == "--private-write") options.private_write = 1;
        else if (word == "--records") options.records = 1;
        else if (word == "--fair") options.fair = 1;
        else if (word == "--counts") options.counts = 1;
        else if (word == "--json") options.json = asked.json = true;
        else if (word == "--complete") asked.complete = true;
        else if (word == "--orders") asked.orders = true;
        else if (word.rfind("--", 0) != 0) others.push_back(word);
        else if (++at == count) fail("bad command line", 3);
        else if (word == "--opening") asked.opening = text_of(words[at]);
        else if (word == "--states") asked.states = std::strtoull(words[at], nullptr, 10);
        else if (word == "--schedule") options.by_seed = words[at] == std::string("seed");
        else if (number != NUMBERS.end()) options.*number->second = std::strtoull(words[at], nullptr, 10);
        else fail("bad command line", 3);
    }
    return others;
}

// The text goes out; the status that the program would have.
template <class Told> int told(const Told &report) {
    std::FILE *out = report.is_report() ? stdout : stderr;
    std::fwrite(report.text.data(), 1, report.text.size(), out);
    if (std::fflush(out) != 0) fail("write failed", 4);
    switch (report.number) {
    case TARDIS_DONE: return 0;
    case TARDIS_BAD_TEST: case TARDIS_BAD_LINE: case TARDIS_BAD_OPENING: return 2;
    case TARDIS_BAD_MACHINE: return 3;
    default: return 1;
    }
}

// The lines of a text that say something, without comments, each in its fields.
std::vector<std::vector<std::string>> fields_of(const std::string &text) {
    std::vector<std::vector<std::string>> lines;
    std::istringstream rest(text);
    for (std::string line; std::getline(rest, line);) {
        std::istringstream fields(line.substr(0, line.find('#')));
        std::vector<std::string> found;
        for (std::string field; fields >> field;) found.push_back(field);
        if (!found.empty()) lines.push_back(found);
    }
    return lines;
}

// The operation of the core in the field `core`, whose letter, address and value are in those from `at` on.
tardis_operation operation_of(const std::vector<std::string> &fields, size_t at) {
    const std::string &letter = fields[at];
    const uint32_t kind = letter == "R" ? TARDIS_LOAD : letter == "W" ? TARDIS_STORE : TARDIS_SWAP;
    const uint64_t value = kind == TARDIS_LOAD ? 0 : std::stoull(fields[at + 2]);
    return {static_cast<uint32_t>(std::stoul(fields[0])), kind, std::stoull(fields[at + 1], nullptr, 16), value};
}

// What `check` prints, from arrays.
int check_arrays(const std::string &trace, const std::string &text, bool complete) {
    tardis::History history;
    for (const auto &line : fields_of(trace))
        if (line[0] != "trace" && line[1] != "A") history.issue(operation_of(line, 1));
    for (const auto &line : fields_of(text)) {
        const tardis_operation operation = operation_of(line, 2);
        const uint64_t received = operation.kind == TARDIS_STORE ? 0 : std::stoull(line[line.size() - 3]);
        history.complete({operation, std::stoull(line[1]), received, std::stoull(line[line.size() - 2]),
                          std::stoull(line.back())});
    }
    const auto [number, told, lack] = history.verdict(complete);
    static const char *const WORDS[] = {"legal", "bad number", "out of program order", "wrong value"};
    if (number != TARDIS_DONE && number != TARDIS_NOT_DONE) fail("number " + std::to_string(number), 1);
    if (lack) std::cout << "no record of operation " << lack->place << " of core " << lack->core;
    else std::cout << WORDS[told.kind];
    if (number == TARDIS_NOT_DONE && !lack) std::cout << ' ' << told.number;
    std::cout << '\n';
    return number == TARDIS_DONE ? 0 : 1;
}

}  // namespace

int main(int count, char **words) {
    tardis_options options = tardis::defaults();
    const std::string command = count > 1 ? words[1] : "";
    Asked asked;
    const std::vector<std::string> files = words_of(count, words, options, asked);
    if (files.size() != (command == "check" ? 2 : 1)) fail("bad command line", 3);
    const std::string text = text_of(files[0]);
    if (command == "litmus") return told(tardis::litmus(text, options));
    if (command == "ends") return told(tardis::ends(text, asked.orders, asked.states, asked.json));
    if (command == "trace") return told(tardis::trace(text, options));
    if (command != "check") fail("bad command line", 3);
    const std::string records = text_of(files[1]);
    if (std::getenv("EMBED_ARRAYS")) return check_arrays(text, records, asked.complete);
    return told(tardis::check(text, records, asked.opening, asked.complete, asked.json));
}
