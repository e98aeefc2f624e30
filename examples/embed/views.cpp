// Reports without copies, with exceptions: views litmus TEST | views trace TRACE. It prints, of a litmus test by 300
// seeds, how often each value of each name was met at the end; of a trace, how many operations each core completed, how
// many of them wrote, and the time of its last one. A text that is refused ends it, with the library's words.
#define TARDIS_EXCEPTIONS
#include "tardis.hpp"

#include <fstream>
#include <iostream>
#include <map>
#include <sstream>

namespace {

void print_values(const std::string &text) {
    tardis_options options = tardis::defaults();
    options.by_seed = 1;
    options.runs = 300;
    std::map<std::string_view, uint64_t> met;
    const tardis::Report report = tardis::litmus(text, options); // which has the memory that the keys are in
    for (const tardis::State &state : report.states())
        for (size_t at = 0; at < state.values.size();) {
            const size_t end = std::min(state.values.find(' ', at), state.values.size());
            met[state.values.substr(at, end - at)] += state.times;
            at = end + 1;
        }
    for (const auto &[value, times] : met) std::cout << value << ": " << times << '\n';
}

struct Core {
    uint64_t completed = 0, written = 0, last = 0;
};

void print_cores(const std::string &text) {
    tardis_options options = tardis::defaults();
    options.records = 1;
    std::map<uint32_t, Core> cores;
    for (const tardis_record &record : tardis::trace(text, options).records()) {
        Core &core = cores[record.operation.core];
        core.completed++;
        core.written += record.operation.kind != TARDIS_LOAD;
        core.last = record.time;
    }
    for (const auto &[number, core] : cores)
        std::cout << "core " << number << ": " << core.completed << " completed, " << core.written << " wrote, time "
                  << core.last << '\n';
}

} // namespace

int main(int count, char **words) {
    const std::string command = count == 3 ? words[1] : "";
    std::ifstream file(count == 3 ? words[2] : "");
    if (!file || (command != "litmus" && command != "trace")) {
        std::cerr << "views: give litmus and a test, or trace and a trace\n";
        return 2;
    }
    std::ostringstream text;
    text << file.rdbuf();
    try {
        command == "litmus" ? print_values(text.str()) : print_cores(text.str());
    } catch (const tardis::Error &error) {
        std::cerr << error.what() << '\n';
        return 2;
    }
}
