// A network of one's own drives the machine: latency TRACE [LEASE ..], as latency.py in C++. A hop takes 10 cycles,
// DRAM 100, a hit 1, and an advance none; a message that is held tries again a hop later.
#include "tardis.hpp"

#include <cstdlib>
#include <fstream>
#include <iostream>
#include <map>
#include <queue>
#include <sstream>
#include <tuple>

namespace {

constexpr uint64_t HOP = 10, DRAM = 100, HIT = 1;

// An operation, or nothing: then the core's time goes on.
using Step = std::optional<tardis_operation>;
using Programs = std::map<unsigned, std::queue<Step>>;

// A time, whether a message arrives then (or a core goes on, which comes first), and which.
using Due = std::tuple<uint64_t, bool, uint64_t>;

class Network {
  public:
    Network(tardis::Machine &machine, Programs programs, unsigned cores)
        : machine(machine), programs(std::move(programs)) {
        for (unsigned core = 0; core < cores; core++) due.push({0, false, core});
    }

    // The time of the last event; none if a step is refused.
    std::optional<uint64_t> run() {
        uint64_t now = 0;
        while (!due.empty()) {
            const auto [time, is_message, number] = due.top();
            due.pop();
            now = time;
            if (is_message) arrive(number, now);
            else go_on(static_cast<unsigned>(number), now);
            if (is_refused) return std::nullopt;
            for (const tardis::Message &message : machine.in_flight()) {
                if (message.number < sent) continue;
                const bool is_dram = message.from_kind == TARDIS_DRAM || message.to_kind == TARDIS_DRAM;
                due.push({now + (is_dram ? DRAM : HOP), true, message.number});
                sent = message.number + 1;
            }
        }
        return now;
    }

    // What the cores were issued, and what they completed.
    tardis::History history;

  private:
    // The core issues its next operation, if it has none open, and attempts it.
    void go_on(unsigned core, uint64_t now) {
        for (auto &steps = programs[core]; !machine.open_operation(core); steps.pop()) {
            if (steps.empty()) return;
            const Step &step = steps.front();
            const tardis::Answer answer = step ? machine.issue(*step) : machine.advance(core);
            is_refused |= answer.kind == TARDIS_REFUSED;
            if (step) history.issue(*step);
        }
        tardis::Answer answer = machine.attempt(core);
        if (answer.refusal == TARDIS_NO_ROOM) {
            const uint64_t wanted = machine.open_operation(core)->operation.address;
            if (const auto victim = machine.victim(core, wanted)) machine.evict_copy(core, *victim);
            answer = machine.attempt(core);
        }
        if (!answer.record) return;
        history.complete(*answer.record);
        due.push({now + HIT, false, core});
    }

    // The message arrives; a core that got one goes on.
    void arrive(uint64_t number, uint64_t now) {
        const auto message = machine.message(number);
        if (!message) return;
        const tardis::Answer answer = machine.deliver(number);
        if (answer.kind == TARDIS_HELD || answer.kind == TARDIS_STARTED) {
            if (const auto room = machine.room(number)) machine.evict_entry(room->first, room->second);
            due.push({now + HOP, true, number});
        } else if (message->to_kind == TARDIS_CORE) {
            due.push({now, false, message->to});
        }
    }

    tardis::Machine &machine;
    Programs programs;
    std::priority_queue<Due, std::vector<Due>, std::greater<Due>> due;
    uint64_t sent = 0;
    bool is_refused = false;
};

// The steps of each core, in the text's order; none if a line is no step.
std::optional<Programs> programs_of(std::istream &text) {
    Programs programs;
    for (std::string line; std::getline(text, line);) {
        std::istringstream words(line.substr(0, line.find('#')));
        std::string first, letter, more;
        if (!(words >> first) || first == "trace") continue;
        tardis_operation operation{0, TARDIS_LOAD, 0, 0};
        words >> letter;
        operation.kind = letter == "R" ? TARDIS_LOAD : letter == "W" ? TARDIS_STORE : TARDIS_SWAP;
        if (letter != "A") words >> std::hex >> operation.address;
        if (letter == "W" || letter == "S") words >> std::dec >> operation.value;
        if (!words || words >> more || !(std::istringstream(first) >> operation.core)) return std::nullopt;
        programs[operation.core].push(letter == "A" ? Step() : operation);
    }
    return programs;
}

} // namespace

int main(int count, char **words) {
    std::ifstream file(count > 1 ? words[1] : "");
    const auto programs = programs_of(file);
    if (count < 2 || !programs || !file.eof()) {
        std::cerr << "latency: give a trace, and leases\n";
        return 2;
    }
    const unsigned cores = programs->empty() ? 1 : programs->rbegin()->first + 1;
    std::vector<std::string> leases(words + 2, words + count);
    if (leases.empty()) leases = {"1", "10", "100", "1000", "10000"};
    for (const std::string &lease : leases) {
        tardis_options options = tardis::defaults();
        options.lease = std::strtoull(lease.c_str(), nullptr, 10);
        auto machine = tardis::Machine::open(cores, options);
        std::optional<Network> network;
        if (machine) network.emplace(*machine, *programs, cores);
        const auto cycles = network ? network->run() : std::nullopt;
        if (!cycles) {
            std::cerr << "latency: lease " << lease << ": no machine of " << cores << " cores takes the trace\n";
            return 1;
        }
        std::cout << "lease " << lease << ": " << *cycles << " cycles, " << machine->records().size() << " operations, "
                  << (network->history.verdict(true).is_legal() ? "legal" : "not legal") << '\n';
    }
}
