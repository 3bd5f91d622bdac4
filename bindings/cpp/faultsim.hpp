// faultsim.hpp: fault simulation from C++20, over faultsim.h.
//
// A Job owns its handle and moves. Give it to one thread at a time, for const calls, too; share()
// makes another one for another thread. A call that fails throws faultsim::Error, or std::bad_alloc
// if memory ran out.
#ifndef FAULTSIM_HPP
#define FAULTSIM_HPP

#if __cplusplus < 202002L
#error "faultsim.hpp needs C++20: -std=c++20"
#endif

#include "faultsim.h"

#include <cstdint>
#include <functional>
#include <iterator>
#include <new>
#include <numeric>
#include <optional>
#include <span>
#include <stdexcept>
#include <string>
#include <string_view>
#include <utility>
#include <vector>

namespace faultsim {

enum class Model : std::uint32_t {
    stuck_at = FS_STUCK_AT,
    transition = FS_TRANSITION,
    transition_pairs = FS_TRANSITION_PAIRS
};

// Which faults have a line in a report.
enum class Lines : std::uint32_t {
    none = FS_LINES_NONE,
    all = FS_LINES_ALL,
    undetected = FS_LINES_UNDETECTED
};

// The fan-in of each signal: the signals that the pins of its gate read, in order.
struct FanIns {
    std::vector<std::uint32_t> starts, pins;

    // Returns the fan-in of one signal; a source has none.
    std::span<const std::uint32_t> of(std::uint32_t signal) const {
        std::uint32_t start = starts.at(signal);
        return std::span(pins).subspan(start, starts.at(signal + std::size_t{1}) - start);
    }
};

// The fan-out of each signal: the pins of gates that read it, by the number of the gate's signal
// and then by pin.
struct FanOuts {
    std::vector<std::uint32_t> starts;
    std::vector<fs_pin> pins;

    // Returns the fan-out of one signal. Its data pins and OUTPUT lines are observers.
    std::span<const fs_pin> of(std::uint32_t signal) const {
        std::uint32_t start = starts.at(signal);
        return std::span(pins).subspan(start, starts.at(signal + std::size_t{1}) - start);
    }
};

// Why a call fails: a status of faultsim.h, and if a text or words are wrong a kind and a place.
class Error : public std::runtime_error {
public:
    Error(std::uint32_t given_status, fs_fault given_fault)
        : std::runtime_error(text_of(given_status, given_fault)), status(given_status),
          fault(given_fault) {}

    std::uint32_t status;
    fs_fault fault;

private:
    static std::string text_of(std::uint32_t status, fs_fault fault) {
        char least = 0;
        std::string text(fs_message(status, &fault, &least, 1), '\0');
        fs_message(status, &fault, text.data(), text.size() + 1);
        return text;
    }
};

namespace detail {

inline void check(std::uint32_t status, fs_fault fault = {}) {
    if (status == FS_MEMORY)
        throw std::bad_alloc();
    if (status != FS_DONE)
        throw Error(status, fault);
}

// A call may not read what it writes.
template <class Number>
void check_apart(std::span<const std::uint32_t> read, std::span<Number> written) {
    std::less<const void *> before;
    if (before(written.data(), read.data() + read.size())
        && before(read.data(), written.data() + written.size()))
        check(FS_RANGE);
}

inline void check_version() {
    if (fs_version() != FAULTSIM_VERSION)
        throw std::runtime_error("the library has another version than faultsim.h");
}

inline const std::uint8_t *bytes(std::string_view text) {
    static constexpr std::uint8_t nothing = 0;
    return text.empty() ? &nothing : reinterpret_cast<const std::uint8_t *>(text.data());
}

// The address of the first item. It is never null, not even of an empty span.
template <class Item> Item *at(std::span<Item> items) {
    static std::remove_const_t<Item> nothing{};
    return items.empty() ? &nothing : items.data();
}

} // namespace detail

// How many faults the tests of a job detect, and how many there are.
struct Coverage {
    std::uint32_t detected, faults;
};

// A circuit, its faults in classes, and tests.
class Job {
public:
    // Reads a bench file's text. The job has no tests yet.
    explicit Job(std::string_view bench, Model model = Model::stuck_at) {
        detail::check_version();
        fs_fault fault{};
        detail::check(fs_job_read(static_cast<std::uint32_t>(model), detail::bytes(bench),
                                  bench.size(), &handle, &fault),
                      fault);
    }

    Job(Job &&other) noexcept : handle(std::exchange(other.handle, fs_job{})) {}

    Job &operator=(Job &&other) noexcept {
        if (this != &other) {
            fs_job_free(&handle);
            handle = std::exchange(other.handle, fs_job{});
        }
        return *this;
    }

    Job(const Job &) = delete;
    Job &operator=(const Job &) = delete;
    ~Job() { fs_job_free(&handle); }

    // Makes a second job of the same circuit, faults and tests, for another thread.
    Job share() {
        Job other;
        detail::check(fs_job_share(&handle, &other.handle));
        return other;
    }

    fs_sizes sizes() const {
        fs_sizes sizes{};
        detail::check(fs_sizes_of(&handle, &sizes));
        return sizes;
    }

    // Takes the tests of a text: a line of 0s and 1s for each.
    void set_text(std::string_view text) {
        fs_fault fault{};
        detail::check(fs_set_text(&handle, detail::bytes(text), text.size(), &fault), fault);
    }

    // Takes tests in words: for each block of 64 tests one for each source.
    void set_words(std::uint32_t count, std::span<const std::uint64_t> words) {
        fs_fault fault{};
        detail::check(fs_set_words(&handle, count, detail::at(words), words.size(), &fault), fault);
    }

    // Takes tests in words after the job's last test, which is test 0 of the new list: so under
    // Model::transition the pair of it and the first new test isn't lost. Under
    // Model::transition_pairs use set_words: this call would move the pairs by one test.
    void next_words(std::uint32_t count, std::span<const std::uint64_t> words) {
        fs_fault fault{};
        detail::check(fs_next_words(&handle, count, detail::at(words), words.size(), &fault),
                      fault);
    }

    // Returns the class of each fault.
    std::vector<std::uint32_t> classes_of() const {
        std::vector<std::uint32_t> classes(sizes().faults);
        detail::check(fs_classes_of(&handle, detail::at(std::span(classes)), classes.size()));
        return classes;
    }

    // Returns the stem of each class, the signal at which its fanout-free region ends.
    std::vector<std::uint32_t> stems_of() const {
        std::vector<std::uint32_t> stems(sizes().classes);
        detail::check(fs_stems_of(&handle, detail::at(std::span(stems)), stems.size()));
        return stems;
    }

    std::string name_of(std::uint32_t signal) const {
        return text([&](auto... room) { return fs_name_of(&handle, signal, room...); });
    }

    // Returns the name of a fault, as each line of `faultsim faults` begins: `stem G1 sa0`.
    std::string fault_name(std::uint32_t fault) const {
        return text([&](auto... room) { return fs_fault_text(&handle, fault, room...); });
    }

    // Returns the place of a signal in a test, from 0, or none for the signal of a gate.
    std::optional<std::uint32_t> source_of(std::uint32_t signal) const {
        std::uint32_t place = 0;
        std::uint32_t status = fs_source_of(&handle, signal, &place);
        if (status == FS_RANGE)
            return std::nullopt;
        detail::check(status);
        return place;
    }

    // Returns the number of the signal of a name, or none if no signal has it.
    std::optional<std::uint32_t> signal_named(std::string_view name) const {
        std::uint32_t signal = 0;
        std::uint32_t status = fs_signal_named(&handle, detail::bytes(name), name.size(), &signal);
        if (status == FS_RANGE)
            return std::nullopt;
        detail::check(status);
        return signal;
    }

    // Returns the kind of each signal: FS_SOURCE, or the kind of the gate that drives it.
    std::vector<std::uint32_t> kinds_of() const {
        std::vector<std::uint32_t> kinds(sizes().signals);
        detail::check(fs_kinds_of(&handle, detail::at(std::span(kinds)), kinds.size()));
        return kinds;
    }

    // Returns the level of each signal: 0 for a source, and for the signal of a gate one more than
    // the greatest level of the signals that the gate reads.
    std::vector<std::uint32_t> levels_of() const {
        std::vector<std::uint32_t> levels(sizes().signals);
        detail::check(fs_levels_of(&handle, detail::at(std::span(levels)), levels.size()));
        return levels;
    }

    // Returns the fan-in of each signal.
    FanIns fan_ins_of() const { return rows<FanIns>(fs_fan_ins_of); }

    // Returns the fan-out of each signal.
    FanOuts fan_outs_of() const { return rows<FanOuts>(fs_fan_outs_of); }

    // Returns the site of each fault.
    std::vector<fs_site> sites_of() const {
        std::vector<fs_site> sites(sizes().faults);
        detail::check(fs_sites_of(&handle, detail::at(std::span(sites)), sites.size()));
        return sites;
    }

    // Returns the fault of a site, or none if the circuit has no such fault. It looks at one fault
    // after another: for many sites make a table from sites_of.
    std::optional<std::uint32_t> fault_at(const fs_site &site) const {
        std::uint32_t fault = 0;
        std::uint32_t status = fs_fault_at(&handle, &site, &fault);
        if (status == FS_RANGE)
            return std::nullopt;
        detail::check(status);
        return fault;
    }

    // Returns the fault-free values of all signals in the tests of a block, a word for each signal.
    // Bits past the last test may be 1.
    std::vector<std::uint64_t> values(std::uint32_t block) const {
        std::vector<std::uint64_t> words(sizes().signals);
        detail::check(fs_values(&handle, block, detail::at(std::span(words)), words.size()));
        return words;
    }

    // Returns the fault-free value of a signal: bit k is that in test 64 * block + k. Bits past the
    // last test may be 1.
    std::uint64_t word(std::uint32_t block, std::uint32_t signal) const {
        std::uint64_t word = 0;
        detail::check(fs_word(&handle, block, signal, &word));
        return word;
    }

    // Returns the signal of each observer: the OUTPUT lines, then the data pins of the flip-flops.
    std::vector<std::uint32_t> observers() const {
        std::size_t wanted = 0;
        std::uint32_t nothing = 0;
        if (std::uint32_t status = fs_observers_of(&handle, &nothing, 0, &wanted);
            status != FS_RANGE || wanted == 0) {
            detail::check(status);
            return {};
        }
        std::vector<std::uint32_t> signals(wanted);
        detail::check(fs_observers_of(&handle, signals.data(), signals.size(), &wanted));
        return signals;
    }

    // Returns the fault-free values of the observers: for each block a word for each of them. Bits
    // past the last test may be 1.
    std::vector<std::uint64_t> responses() const {
        std::vector<std::uint64_t> words(sizes().blocks * observers().size());
        detail::check(fs_responses(&handle, detail::at(std::span(words)), words.size()));
        return words;
    }

    // Returns the report that `faultsim run` writes: the lines that are asked for, the coverage,
    // and with `classes` that of the classes.
    std::string report(Lines lines = Lines::none, bool classes = false) const {
        return text([&](auto... room) {
            return fs_report(&handle, static_cast<std::uint32_t>(lines), classes, room...);
        });
    }

    // Writes for each class of a list the first test that detects it, or FS_NONE. The lengths are
    // equal. Spans that overlap are out of range.
    void simulate(std::span<const std::uint32_t> classes, std::span<std::uint32_t> firsts) const {
        detail::check_apart(classes, firsts);
        detail::check(fs_simulate(&handle, detail::at(classes), classes.size(),
                                  detail::at(firsts), firsts.size()));
    }

    // Returns how many faults the tests detect, and how many there are.
    Coverage coverage() const {
        std::vector<std::uint32_t> classes(sizes().classes), firsts(classes.size());
        std::iota(classes.begin(), classes.end(), 0u);
        simulate(classes, firsts);
        Coverage coverage{0, 0};
        for (std::uint32_t class_number : classes_of()) {
            coverage.detected += firsts[class_number] != FS_NONE;
            coverage.faults++;
        }
        return coverage;
    }

    // Writes for each signal of a list the tests of a block in which complementing the signal is
    // seen at an observer: bit k of its word is 1 exactly if test 64 * block + k detects the signal
    // stuck at the complement of its fault-free value. The lengths are equal. Spans that overlap
    // are out of range.
    void observed(std::uint32_t block, std::span<const std::uint32_t> signals,
                  std::span<std::uint64_t> words) const {
        detail::check_apart(signals, words);
        detail::check(fs_observed(&handle, block, detail::at(signals), signals.size(),
                                  detail::at(words), words.size()));
    }

    // Writes for each class of a list the word that detecting returns for the class and the block,
    // region by region. The lengths are equal. Spans that overlap are out of range.
    void lanes(std::uint32_t block, std::span<const std::uint32_t> classes,
               std::span<std::uint64_t> words) const {
        detail::check_apart(classes, words);
        detail::check(fs_lanes(&handle, block, detail::at(classes), classes.size(),
                               detail::at(words), words.size()));
    }

    // Adds to the count of each class of a list the number of tests of a block that detect it, up
    // to `most`, region by region. The lengths are equal. Spans that overlap are out of range.
    void count(std::uint32_t block, std::span<const std::uint32_t> classes, std::uint32_t most,
               std::span<std::uint32_t> counts) const {
        detail::check_apart(classes, counts);
        detail::check(fs_count(&handle, block, detail::at(classes), classes.size(), most,
                               detail::at(counts), counts.size()));
    }

    // Returns a word: bit k is 1 exactly if test 64 * block + k detects the class.
    std::uint64_t detecting(std::uint32_t class_number, std::uint32_t block) const {
        std::uint64_t lanes = 0;
        detail::check(fs_detecting(&handle, class_number, block, &lanes));
        return lanes;
    }

    // Counts how many tests detect each class of a list, no more than `most` of a class. The
    // lengths are equal. Spans that overlap are out of range. It simulates region by region, and
    // leaves out a class whose count is `most`.
    void detections(std::span<const std::uint32_t> classes, std::uint32_t most,
                    std::span<std::uint32_t> counts) const {
        detail::check_apart(classes, counts);
        detail::check(fs_detections(&handle, detail::at(classes), classes.size(), most,
                                    detail::at(counts), counts.size()));
    }

private:
    Job() = default;

    // Returns the rows of all signals that a call writes, once it has told their number of pins.
    template <class Rows> Rows rows(auto call) const {
        std::size_t wanted = 0;
        Rows all{std::vector<std::uint32_t>(sizes().signals + std::size_t{1}), {}};
        typename decltype(all.pins)::value_type nothing{};
        std::uint32_t status =
            call(&handle, all.starts.data(), all.starts.size(), &nothing, 0, &wanted);
        if (status == FS_RANGE && wanted != 0) {
            all.pins.resize(wanted);
            status = call(&handle, all.starts.data(), all.starts.size(), all.pins.data(),
                          all.pins.size(), &wanted);
        }
        detail::check(status);
        return all;
    }

    // Returns the text of a call whose last argument gets the number of its bytes.
    static std::string text(auto call) {
        std::uint8_t nothing = 0;
        std::size_t wanted = 0;
        std::uint32_t status = call(&nothing, std::size_t{0}, &wanted);
        if (status != FS_RANGE || wanted == 0) {
            detail::check(status);
            return {};
        }
        std::string text(wanted, '\0');
        detail::check(call(reinterpret_cast<std::uint8_t *>(text.data()), text.size(), &wanted));
        return text;
    }

    // The calls that change nothing of the job write to its handle while they run.
    mutable fs_job handle{};
};

// Returns the first test of a text that detects each fault of a circuit, or FS_NONE.
inline std::vector<std::uint32_t> firsts(std::string_view bench, std::string_view tests,
                                         Model model = Model::stuck_at) {
    detail::check_version();
    std::vector<std::uint32_t> firsts;
    std::uint32_t status = FS_RANGE, faults = 0;
    fs_fault fault{};
    for (int turn = 0; status == FS_RANGE && turn < 2; turn++) {
        firsts.resize(faults);
        status = fs_firsts(static_cast<std::uint32_t>(model), detail::bytes(bench), bench.size(),
                           detail::bytes(tests), tests.size(), detail::at(std::span(firsts)),
                           firsts.size(), &faults, &fault);
    }
    detail::check(status, fault);
    return firsts;
}

} // namespace faultsim

#endif
