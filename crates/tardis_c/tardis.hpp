// The checker, the runner and the machine for C++17, header only, over tardis.h. Nothing here is proved; what it calls
// is.
//
// Errors are values: numbers of tardis.h, and empty optionals; nothing throws but for want of memory. If
// TARDIS_EXCEPTIONS is defined before this file is included, a call that would answer an error throws a tardis::Error
// in its place, and all else stays the same. Each file of a program may choose: the two have types of their own.
#ifndef TARDIS_HPP
#define TARDIS_HPP

#include "tardis.h"

#include <algorithm>
#include <charconv>
#include <functional>
#include <iterator>
#include <memory>
#include <optional>
#include <stdexcept>
#include <string>
#include <string_view>
#include <type_traits>
#include <utility>
#include <vector>

#ifdef TARDIS_EXCEPTIONS
#define TARDIS_ERRORS errors_thrown
#else
#define TARDIS_ERRORS errors_answered
#endif

namespace tardis {
inline namespace TARDIS_ERRORS {

#ifdef TARDIS_EXCEPTIONS
// Why a call has no answer: the number of tardis.h, and what the call would have said in words.
class Error : public std::runtime_error {
  public:
    Error(int number, const std::string &words) : std::runtime_error(words), number(number) {}
    int number;
};

// What a call does in place of answering an error.
[[noreturn]] inline void fail(int number, const std::string &words) { throw Error(number, words); }
#else
inline void fail(int, const std::string &) {}
#endif

// The library's version, as 0.4.1.
inline std::string version() {
    const uint32_t number = tardis_version();
    return std::to_string(number / 10000) + '.' + std::to_string(number / 100 % 100) + '.' +
           std::to_string(number % 100);
}

// The default options of a run.
inline tardis_options defaults() {
    tardis_options options{};
    tardis_defaults(&options);
    return options;
}

// Items of an array that somebody else has: nothing is copied. A view serves as long as these stay where they are.
template <class Item> class View {
  public:
    View() = default;
    View(const Item *items, size_t count) : items(items), count(count) {}
    // All items of a vector or an array.
    template <class Items, class = std::enable_if_t<std::is_same_v<
                               decltype(std::data(std::declval<const Items &>())), const Item *>>>
    View(const Items &all) : View(std::data(all), std::size(all)) {}

    const Item *data() const { return items; }
    size_t size() const { return count; }
    bool empty() const { return count == 0; }
    const Item *begin() const { return items; }
    const Item *end() const { return items + count; }
    const Item &operator[](size_t at) const { return items[at]; }

  private:
    const Item *items = nullptr;
    size_t count = 0;
};

// The value of a name, as 0:x7, among words as `0:x7=1 1:x7=0`; none if none of them has that name.
inline std::optional<uint64_t> value_in(std::string_view values, std::string_view name) {
    for (size_t at = 0, end; at < values.size(); at = end + 1) {
        end = std::min(values.find(' ', at), values.size());
        const std::string_view word = values.substr(at, end - at);
        if (word.size() <= name.size() || word[name.size()] != '=' || word.substr(0, name.size()) != name) continue;
        uint64_t number = 0;
        std::from_chars(word.data() + name.size() + 1, word.data() + word.size(), number);
        return number;
    }
    return std::nullopt;
}

// An end state of a litmus test: how many runs ended in it, and the value of each name in the condition, as
// `0:x7=1 1:x7=0`, in the report's memory.
struct State {
    uint64_t times = 0;
    std::string_view values;

    // The value of a name, as 0:x7; none if the condition doesn't have that name.
    std::optional<uint64_t> value(std::string_view name) const { return value_in(values, name); }
};

// An end that a litmus test has: whether it makes the condition's expression true, the value of each name in that, and
// operations that lead there, as `P0:1 P1:1 P0:2 P1:2`, if these were asked for; all in the list's memory.
struct End {
    bool holds = false;
    std::string_view values, order;

    // The value of a name, as 0:x7; none if the condition doesn't have that name.
    std::optional<uint64_t> value(std::string_view name) const { return value_in(values, name); }
};

// The record that a line of a trace's records has. A load has the value 0, and a store receives 0.
inline std::optional<tardis_record> record_of(std::string_view line) {
    const char *at = line.data(), *const end = at + line.size();
    // Whether the next word is a number of at most 64 bits; what follows it is next then.
    const auto is_read = [&](uint64_t &number, int base = 10) {
        const auto read = std::from_chars(at, end, number, base);
        if (read.ec != std::errc() || (read.ptr != end && *read.ptr != ' ')) return false;
        at = read.ptr == end ? end : read.ptr + 1;
        return true;
    };
    tardis_record record{};
    uint64_t core = 0;
    if (!is_read(core) || core >= TARDIS_MOST_CORES || !is_read(record.place) || end - at < 4) return std::nullopt;
    const size_t kind = std::string_view("RWS").find(*at); // as enum tardis_kind has them
    if (kind == std::string_view::npos || std::string_view(at + 1, 3) != " 0x") return std::nullopt;
    at += 4;
    record.operation.core = static_cast<uint32_t>(core);
    record.operation.kind = static_cast<uint32_t>(kind);
    if (!is_read(record.operation.address, 16)) return std::nullopt;
    if (kind != TARDIS_LOAD && !is_read(record.operation.value)) return std::nullopt;
    if (kind != TARDIS_STORE && !is_read(record.received)) return std::nullopt;
    if (!is_read(record.time) || !is_read(record.number) || at != end || at[-1] == ' ') return std::nullopt;
    return record;
}

// The end state that a line of a litmus report has.
inline std::optional<State> state_of(std::string_view line) {
    State state;
    const auto read = std::from_chars(line.data(), line.data() + line.size(), state.times);
    if (read.ec != std::errc()) return std::nullopt;
    state.values = line.substr(std::min<size_t>(read.ptr - line.data() + 1, line.size()));
    return state;
}

// The end that a line of a list of ends has.
inline std::optional<End> end_of(std::string_view line) {
    if (line.size() < 2 || line[1] != ' ' || (line[0] != ' ' && line[0] != '*')) return std::nullopt;
    End end;
    end.holds = line[0] == '*';
    line.remove_prefix(2);
    const size_t size = std::min(line.find("   "), line.size());
    end.values = line.substr(0, size);
    end.order = line.substr(std::min(size + 3, line.size()));
    return end;
}

// A text, with memory that all copies of it share: so a copy may outlive what it came from. A plain string_view of it
// may not, nor what is read from it. A text without memory is somebody else's.
struct Text : std::string_view {
    Text() = default;
    Text(std::string_view text, std::shared_ptr<const char[]> memory = nullptr)
        : std::string_view(text), memory(std::move(memory)) {}
    std::shared_ptr<const char[]> memory;
};

// What the lines of a text have, as records or states: each is read when a loop comes to it, and lines without one are
// passed over. The text's memory stays while this or an iterator lives.
template <class Part, std::optional<Part> (*part_of)(std::string_view)> class Parts {
  public:
    class Iterator {
      public:
        using iterator_category = std::input_iterator_tag;
        using value_type = Part;
        using difference_type = std::ptrdiff_t;
        using pointer = const Part *;
        using reference = const Part &;

        explicit Iterator(const Text &rest) : rest(rest) { go_on(); }
        const Part &operator*() const { return *part; }
        const Part *operator->() const { return &*part; }
        Iterator &operator++() {
            go_on();
            return *this;
        }
        Iterator operator++(int) {
            Iterator before = *this;
            go_on();
            return before;
        }
        bool operator==(const Iterator &other) const {
            return part.has_value() == other.part.has_value() && rest.size() == other.rest.size();
        }
        bool operator!=(const Iterator &other) const { return !(*this == other); }

      private:
        void go_on() {
            for (part.reset(); !part && !rest.empty();) {
                const size_t size = std::min(rest.find('\n'), rest.size());
                part = part_of(rest.substr(0, size));
                rest.remove_prefix(std::min(size + 1, rest.size()));
            }
        }
        Text rest;
        std::optional<Part> part;
    };

    explicit Parts(Text text) : text(std::move(text)) {}
    explicit Parts(std::string_view text) : text(text) {}
    Iterator begin() const { return Iterator(text); }
    Iterator end() const { return Iterator({}); }

  private:
    Text text;
};

using Records = Parts<tardis_record, record_of>;
using States = Parts<State, state_of>;
using Ends = Parts<End, end_of>;

// A number of tardis.h, and the report or the error's line.
struct Report {
    int number = TARDIS_NULL;
    Text text;

    bool is_report() const { return number == TARDIS_DONE || number == TARDIS_NOT_DONE; }
    // The records of a trace, if these were asked for.
    Records records() const { return Records(is_report() ? text : Text()); }
    // The end states of a litmus test, if the report is in lines.
    States states() const { return States(is_report() ? text : Text()); }
};

// A number of tardis.h, and the list of all ends of a litmus test, or the error's line.
struct List {
    int number = TARDIS_NULL;
    Text text;

    bool is_report() const { return number == TARDIS_DONE; }
    // The ends, if the list is in lines.
    Ends ends() const { return Ends(is_report() ? text : Text()); }
};

// Calls once where the text fits into so many bytes, and again with the length that this reports where it doesn't.
// A page of the buffer that nothing is written to takes no memory.
template <class Told = Report>
Told told(size_t size, const std::function<int(char *buffer, size_t size, size_t *length)> &call) {
    std::shared_ptr<char[]> buffer(new char[size]);
    size_t length = 0;
    int number = call(buffer.get(), size, &length);
    while (length > size) {
        size = length;
        buffer.reset(new char[size]);
        number = call(buffer.get(), size, &length);
    }
    const Told report{number, {{buffer.get(), length}, buffer}};
    if (!report.is_report()) {
        const std::string line(report.text.substr(0, report.text.find('\n')));
        fail(number, line.empty() ? "tardis: a pointer is null" : line);
    }
    return report;
}

// Bytes for the report on a text. A record has at most 12 times the bytes of its operation in the trace, and a word of
// a report fewer. Only a report with some ten thousand end states is longer, a list of as many ends, or one with many
// rows of counts.
inline size_t room(std::string_view text) { return (1 << 20) + 12 * text.size(); }

inline Report litmus(std::string_view text, const tardis_options &options = defaults()) {
    return told(room(text), [&](char *buffer, size_t size, size_t *length) {
        return tardis_run_litmus(text.data(), text.size(), &options, buffer, size, length);
    });
}

// Every end that a litmus test has, in any run; each with operations that lead there, if they are asked for. So many
// states are kept at once at most; if they are too few, the number is TARDIS_TOO_MANY_STATES.
inline List ends(std::string_view text, bool orders = false, uint64_t states = TARDIS_USUAL_STATES, bool json = false) {
    return told<List>(room(text), [&](char *buffer, size_t size, size_t *length) {
        return tardis_list_ends(text.data(), text.size(), states, orders, json, buffer, size, length);
    });
}
// C and Python have the states first. A number of them in the place of the flag isn't taken for one.
template <class Number, class = std::enable_if_t<!std::is_same_v<Number, bool>>>
List ends(std::string_view text, Number orders, uint64_t states = 0, bool json = false) = delete;

// The report of a trace, with counts behind it or as JSON if the options say so, or its records.
inline Report trace(std::string_view text, const tardis_options &options = defaults()) {
    return told(room(text), [&](char *buffer, size_t size, size_t *length) {
        return tardis_run_trace(text.data(), text.size(), &options, buffer, size, length);
    });
}

// The verdict on records; over an opening, in which lines as `0x8 5` give words values; and, if that is asked for, on
// whether each operation has its record, and as JSON.
inline Report check(std::string_view trace, std::string_view records, std::string_view opening = {},
                    bool complete = false, bool json = false) {
    return told(200, [&](char *buffer, size_t size, size_t *length) {
        return tardis_check_opened(opening.data(), opening.size(), trace.data(), trace.size(), records.data(),
                                   records.size(), complete, json, buffer, size, length);
    });
}

// The verdict on a history: the number of tardis.h; what is wrong, and with a wrong value what was expected and who
// wrote it; and of legal records, if that was asked for, which operation lacks its own.
struct Verdict {
    int number = TARDIS_NULL;
    tardis_found found{};
    std::optional<tardis_lack> lack{};
    bool is_legal() const { return number == TARDIS_DONE; }
};

// Why a call has no answer, in words.
inline std::string words_of(int number) {
    switch (number) {
    case TARDIS_NO_MEMORY: return "tardis: no memory";
    case TARDIS_BAD_MACHINE: return "tardis: bad configuration";
    case TARDIS_NO_SYSTEM: return "tardis: no machine is open";
    default: return "tardis: a pointer is null";
    }
}

// What is wrong with an item that is refused, in words, as `tardis: record 3: bad place`. `at` is its index, if it is
// of an array.
inline std::string words_of(int number, uint64_t kind, const uint64_t *at = nullptr) {
    static const char *const faults[] = {"bad core", "bad kind", "bad address", "bad place"};
    const char *const item = number == TARDIS_BAD_OPENING     ? "word"
                             : number == TARDIS_BAD_OPERATION ? "operation"
                                                              : "record";
    const std::string place = at ? ' ' + std::to_string(*at) : "";
    return std::string("tardis: ") + item + place + ": " + faults[kind - TARDIS_BAD_CORE];
}

// The verdict on a history of arrays, which aren't copied: records of what cores were issued, each core's operations in
// its order, over a memory that opens with these words and 0 elsewhere. With `complete`, legal records must be those of
// all operations.
inline Verdict check_history(View<tardis_operation> operations, View<tardis_record> records,
                             View<tardis_word> opening = {}, bool complete = false) {
    Verdict verdict;
    verdict.number = tardis_check_history(opening.data(), opening.size(), operations.data(), operations.size(),
                                          records.data(), records.size(), &verdict.found);
    if (complete && verdict.is_legal()) {
        tardis_lack lack{};
        verdict.number =
            tardis_first_lack(operations.data(), operations.size(), records.data(), records.size(), &lack);
        if (verdict.number == TARDIS_NOT_DONE) verdict.lack = lack;
    }
    if (verdict.number == TARDIS_NO_MEMORY || verdict.number == TARDIS_NULL)
        fail(verdict.number, words_of(verdict.number));
    if (verdict.number >= TARDIS_BAD_OPERATION)
        fail(verdict.number, words_of(verdict.number, verdict.found.kind, &verdict.found.number));
    return verdict;
}

// What words open with, what cores were issued, each core's operations in its order, and records of what is completed.
// It grows: an item is added if it has no fault; else the number says so, and nothing changes. Words that aren't opened
// hold 0, and a word that is opened again opens with the later value.
class History {
  public:
    int open(uint64_t address, uint64_t value) {
        const tardis_word word{address, value};
        return added(words, word, tardis_c_word_fault(&word), TARDIS_BAD_OPENING);
    }
    int issue(const tardis_operation &operation) {
        return added(operations, operation, tardis_c_operation_fault(&operation), TARDIS_BAD_OPERATION);
    }
    int complete(const tardis_record &record) {
        return added(records, record, tardis_c_record_fault(&record), TARDIS_BAD_RECORD);
    }
    // The verdict on all that there is so far, as of `check_history`. Each call goes through the whole history: asked
    // after each of n records, it takes time in proportion to n * n.
    Verdict verdict(bool complete = false) const { return check_history(operations, records, words, complete); }

    // All that there is so far. A view serves until the next item of its kind is added.
    View<tardis_word> opened() const { return words; }
    View<tardis_operation> issued() const { return operations; }
    View<tardis_record> completed() const { return records; }

  private:
    template <class Item> static int added(std::vector<Item> &items, const Item &item, uint32_t fault, int number) {
        if (fault != 0) {
            fail(number, words_of(number, fault));
            return number;
        }
        items.push_back(item);
        return TARDIS_DONE;
    }
    std::vector<tardis_word> words;
    std::vector<tardis_operation> operations;
    std::vector<tardis_record> records;
};

// The answer to an event. Unless `number` is TARDIS_DONE there is none, and the rest is that of a refusal without a
// cause.
struct Answer {
    int number = TARDIS_NO_SYSTEM;
    tardis_answer_kind kind = TARDIS_REFUSED;
    tardis_refusal refusal = TARDIS_NOT_REFUSED;
    std::optional<tardis_record> record{}; // of a completion

    // The words of docs/EVENTS.md, as `requested`; and the cause of a refusal, as `NoRoom`, or the empty text.
    std::string_view name() const { return tardis_answer_name(kind); }
    std::string_view cause() const { return tardis_refusal_name(refusal); }
};

// A message in flight: what tardis.h shows of it, and the byte address of its line's first word.
struct Message : tardis_message {
    uint64_t address = 0;

    std::string_view name() const { return tardis_message_name(kind); }
};

// Lines, by the byte addresses of their first words. Unless `number` is TARDIS_DONE there are none.
struct Lines : std::vector<uint64_t> {
    int number = TARDIS_NO_SYSTEM;
};

// A machine that you drive: you say which core attempts, and when each message arrives. It is the library's, in your
// program, and ends with this value. A line is named by the byte address of any of its words. One thread at a time may
// call it. A machine that another was made from is none: its calls are errors. An assignment by move swaps the two.
class Machine {
  public:
    // Opens a machine as the options say (`lease` to `private_write`), over a memory that opens with these words; none
    // if that is refused. `why` gets the number of tardis.h.
    static std::optional<Machine> open(unsigned cores, const tardis_options &options = defaults(),
                                       View<tardis_word> opening = {}, int *why = nullptr) {
        Machine machine(8 * options.line_words);
        const int number = tardis_system_open(&machine.system, cores, &options, opening.data(), opening.size());
        if (why) *why = number;
        if (number == TARDIS_DONE) return machine;
        uint64_t at = 0;
        while (number == TARDIS_BAD_OPENING && !tardis_c_word_fault(&opening[at])) at++;
        fail(number, number == TARDIS_BAD_OPENING ? words_of(number, tardis_c_word_fault(&opening[at]), &at)
                                                  : words_of(number));
        return std::nullopt;
    }

    Machine(Machine &&other) noexcept
        : system(std::exchange(other.system, {nullptr, 0})), line_bytes(other.line_bytes) {}
    Machine &operator=(Machine &&other) noexcept {
        std::swap(system, other.system);
        std::swap(line_bytes, other.line_bytes);
        return *this;
    }
    ~Machine() { tardis_system_close(&system); }

    // Events. An operation that is issued is attempted later.
    Answer issue(const tardis_operation &operation) { return event(tardis_system_issue, &operation); }
    Answer attempt(unsigned core) { return event(tardis_system_attempt, core); }
    Answer deliver(uint64_t number) { return event(tardis_system_deliver, number); }
    Answer advance(unsigned core) { return event(tardis_system_advance, core); }
    // The core gives up its copy of a line; the bank gives up its entry, or recalls the line first.
    Answer evict_copy(unsigned core, uint64_t address) {
        return event(tardis_system_evict_copy, core, address / line_bytes);
    }
    Answer evict_entry(unsigned bank, uint64_t address) {
        return event(tardis_system_evict_entry, bank, address / line_bytes);
    }

    // The line to evict so that the core has a place for this one, on TARDIS_NO_ROOM; none if it has one.
    std::optional<uint64_t> victim(unsigned core, uint64_t address) const {
        const auto place = look<tardis_place>(tardis_system_victim, core, address / line_bytes);
        return place && place->is_there ? std::optional(place->line * line_bytes) : std::nullopt;
    }
    // The bank and the line to evict so that a message, a request that was held, finds room; none if that is of no use.
    std::optional<std::pair<unsigned, uint64_t>> room(uint64_t number) const {
        const auto place = look<tardis_place>(tardis_system_make_room, number);
        if (!place || !place->is_there) return std::nullopt;
        return std::pair(static_cast<unsigned>(place->bank), place->line * line_bytes);
    }

    // The message in flight that has this number, if there is one.
    std::optional<Message> message(uint64_t number) const {
        const auto found = look<tardis_message>(tardis_system_message, number);
        return found ? std::optional(Message{*found, found->line * line_bytes}) : std::nullopt;
    }
    // The messages in flight, in the order of sending.
    std::vector<Message> in_flight() const {
        std::vector<Message> all;
        for (uint32_t index = 0; const auto number = look<uint64_t>(tardis_system_message_number, index); index++)
            all.push_back(*message(*number));
        return all;
    }

    // The record of the operation that completed as this one, from 0 on; none if there is none yet.
    std::optional<tardis_record> record(size_t number) const {
        return look<tardis_record>(tardis_system_record, number);
    }
    // The records from this one on.
    std::vector<tardis_record> records(size_t first = 0) const {
        std::vector<tardis_record> all;
        while (const auto next = record(first + all.size())) all.push_back(*next);
        return all;
    }
    // The core's open operation, and whether its request is out; none if it has none.
    std::optional<tardis_open> open_operation(unsigned core) const {
        const auto found = look<tardis_open>(tardis_system_open_operation, core);
        return found && found->state ? found : std::nullopt;
    }
    // The lines that a core has copies of, or that a bank has Shared or Exclusive, in rising order. Their number is
    // TARDIS_NO_SUCH if there is no such core or bank.
    Lines copies(unsigned core) const { return lines(tardis_system_copies, core); }
    Lines entries(unsigned bank) const { return lines(tardis_system_entries, bank); }

    // How many own a line, 0 or 1; the value of the word at an address; and what the machine has counted.
    std::optional<uint64_t> owners(uint64_t address) const {
        return look<uint64_t>(tardis_system_owners, address / line_bytes);
    }
    std::optional<uint64_t> value(uint64_t address) const { return look<uint64_t>(tardis_system_value, address); }
    std::optional<tardis_totals> totals() const { return look<tardis_totals>(tardis_system_totals); }

  private:
    explicit Machine(uint64_t line_bytes) : line_bytes(line_bytes) {}

    template <class Call, class... Of> Answer event(Call call, Of... of) {
        tardis_answer told{};
        const int number = call(&system, of..., &told);
        if (number == TARDIS_DONE) {
            Answer answer{number, static_cast<tardis_answer_kind>(told.kind),
                          static_cast<tardis_refusal>(told.refusal)};
            if (told.kind == TARDIS_COMPLETED) answer.record = told.completed;
            return answer;
        }
        if constexpr ((std::is_same_v<Of, const tardis_operation *> || ...))
            if (number == TARDIS_BAD_OPERATION) fail(number, words_of(number, tardis_c_operation_fault(of...)));
        fail(number, words_of(number));
        return {number};
    }
    // What a look-up tells; none if there is no such thing, or no machine.
    template <class Told, class Call, class... Of> std::optional<Told> look(Call call, Of... of) const {
        Told told{};
        const int number = call(&system, of..., &told);
        if (number == TARDIS_DONE) return told;
        if (number != TARDIS_NO_SUCH) fail(number, words_of(number));
        return std::nullopt;
    }
    template <class Call> Lines lines(Call call, unsigned seat) const {
        Lines all;
        size_t count = 64; // which mostly is enough
        do {
            all.resize(count);
            all.number = call(&system, seat, all.data(), all.size(), &count);
        } while (all.number == TARDIS_DONE && count > all.size());
        if (all.number != TARDIS_DONE && all.number != TARDIS_NO_SUCH) fail(all.number, words_of(all.number));
        all.resize(all.number == TARDIS_DONE ? count : 0);
        for (uint64_t &line : all) line *= line_bytes;
        return all;
    }
    mutable tardis_system system{nullptr, 0}; // the library takes it so for look-ups, too, and changes nothing then
    uint64_t line_bytes;
};

} // namespace TARDIS_ERRORS
} // namespace tardis

#undef TARDIS_ERRORS

#endif
