// Runs the calls of bindings/cases.txt, and compares their results.
//
// usage: cases FILE
//
// Link with a library that has refuse.c. Prints each call that has another result, and then how
// many calls there were. Returns 0 if there were some, and all had their results.
#include "faultsim.hpp"
#include "refuse.h"

#include <algorithm>
#include <cstdio>
#include <fstream>
#include <functional>
#include <iterator>
#include <map>
#include <numeric>
#include <optional>
#include <sstream>
#include <string>
#include <vector>

using Strings = std::vector<std::string>;
using Numbers = std::vector<std::uint32_t>;
using Words = std::vector<std::uint64_t>;

static std::map<std::string, std::string> texts;
static std::map<std::string, std::optional<faultsim::Job>> jobs;

// The arguments of a call, and the job of its handle.
struct Call {
    std::string handle;
    Strings words;

    // The job: all calls but those that take tests or share leave it as it is.
    const faultsim::Job &job() const { return *jobs[handle]; }
    faultsim::Job &changed_job() const { return *jobs[handle]; }
    std::uint32_t number(std::size_t at) const {
        return static_cast<std::uint32_t>(std::stoul(words.at(at)));
    }
    const std::string &text(std::size_t at) const { return texts.at(words.at(at)); }
};

static std::string decimal(std::uint32_t number) { return std::to_string(number); }

static std::string test_of(std::uint32_t first) {
    return first == FS_NONE ? "-" : decimal(first);
}

static std::string hexadecimal(std::uint64_t word) {
    std::ostringstream text;
    text << std::hex << word;
    return text.str();
}

static std::string joined(const auto &items, auto spell, std::string_view between = " ") {
    std::string all;
    for (std::size_t i = 0; i < items.size(); i++)
        (all += i ? between : "") += spell(items[i]);
    return all;
}

static std::string same(const std::string &text) { return text; }

static faultsim::Model model_of(const std::string &name) {
    static const std::map<std::string, faultsim::Model> models{
        {"stuck", faultsim::Model::stuck_at},
        {"transition", faultsim::Model::transition},
        {"transition-pairs", faultsim::Model::transition_pairs}};
    return models.at(name);
}

// The tests of a block as bits.
static std::uint64_t lanes_of(const faultsim::Job &job, std::size_t block) {
    std::size_t left = job.sizes().tests - 64 * block;
    return left >= 64 ? ~std::uint64_t{0} : (std::uint64_t{1} << left) - 1;
}

// The numbers from a word on, or all below a count.
static Numbers numbers_at(const Call &call, std::size_t at, std::uint32_t count) {
    Numbers numbers;
    if (at < call.words.size() && call.words[at] == "all") {
        numbers.resize(count);
        std::iota(numbers.begin(), numbers.end(), 0u);
        return numbers;
    }
    for (; at < call.words.size(); at++)
        numbers.push_back(call.number(at));
    return numbers;
}

// The classes from a word on: their numbers, or all.
static Numbers classes_at(const Call &call, std::size_t at) {
    return numbers_at(call, at, call.job().sizes().classes);
}

static Words words_from(const Call &call, std::size_t at) {
    Words words;
    for (; at < call.words.size(); at++)
        words.push_back(std::stoull(call.words[at], nullptr, 16));
    return words;
}

// The names of signals, all or by their place in a test.
static Strings names(const faultsim::Job &job, bool are_sources) {
    fs_sizes n = job.sizes();
    Strings all(are_sources ? n.sources : n.signals);
    for (std::uint32_t signal = 0; signal < n.signals; signal++) {
        auto place = are_sources ? job.source_of(signal) : std::optional(signal);
        if (place)
            all.at(*place) = job.name_of(signal);
    }
    return all;
}

static Strings fault_names(const faultsim::Job &job) {
    Strings all;
    for (std::uint32_t fault = 0; fault < job.sizes().faults; fault++)
        all.push_back(job.fault_name(fault));
    return all;
}

// The rows of a text as words.
static void set_rows(faultsim::Job &job, const std::string &rows) {
    std::size_t sources = job.sizes().sources, count = rows.size() / (sources + 1);
    Words words((count + 63) / 64 * sources);
    for (std::size_t row = 0; row < count; row++)
        for (std::size_t source = 0; source < sources; source++)
            if (rows[row * (sources + 1) + source] == '1')
                words[row / 64 * sources + source] |= std::uint64_t{1} << row % 64;
    job.set_words(static_cast<std::uint32_t>(count), words);
}

static std::string responses(const faultsim::Job &job) {
    Words words = job.responses();
    for (std::size_t i = 0, observers = job.observers().size(); i < words.size(); i++)
        words[i] &= lanes_of(job, i / observers);
    return joined(words, hexadecimal);
}

static std::string number_or_none(std::optional<std::uint32_t> number) {
    return number ? decimal(*number) : "-";
}

static std::string fan_ins(const faultsim::Job &job) {
    faultsim::FanIns all = job.fan_ins_of();
    Numbers by_signal;
    for (std::uint32_t signal = 0; signal < job.sizes().signals; signal++)
        by_signal.insert(by_signal.end(), all.of(signal).begin(), all.of(signal).end());
    if (by_signal != all.pins)
        return "other pins by signal";
    return joined(all.starts, decimal) + ", " + joined(all.pins, decimal);
}

static std::string fan_outs(const faultsim::Job &job) {
    faultsim::FanOuts all = job.fan_outs_of();
    std::string text = joined(all.starts, decimal);
    for (std::uint32_t signal = 0; signal < job.sizes().signals; signal++)
        for (const fs_pin &pin : all.of(signal))
            text += ", " + decimal(pin.gate) + " " + decimal(pin.pin);
    return text;
}

static std::string site_text(const fs_site &site) {
    return joined(Numbers{site.kind, site.at, site.pin, site.stuck}, decimal);
}

static std::string values(const faultsim::Job &job, std::uint32_t block) {
    Words words = job.values(block);
    for (std::uint64_t &word : words)
        word &= lanes_of(job, block);
    return joined(words, hexadecimal);
}

static std::string report(const Call &call) {
    static const std::map<std::string, faultsim::Lines> lines{
        {"none", faultsim::Lines::none},
        {"all", faultsim::Lines::all},
        {"undetected", faultsim::Lines::undetected}};
    std::string text = call.job().report(lines.at(call.words.at(0)), call.words.at(1) == "true");
    std::ranges::replace(text, '\n', '/');
    return text;
}

static std::string sizes(const faultsim::Job &job) {
    fs_sizes n = job.sizes();
    return joined(Numbers{n.sources, n.signals, n.faults, n.classes, n.tests, n.blocks}, decimal);
}

static std::string simulate(const Call &call) {
    Numbers classes = classes_at(call, 0), firsts(classes.size());
    call.job().simulate(classes, firsts);
    return joined(firsts, test_of);
}

static std::string observed(const Call &call) {
    Numbers signals = numbers_at(call, 1, call.job().sizes().signals);
    Words words(signals.size());
    call.job().observed(call.number(0), signals, words);
    return joined(words, hexadecimal);
}

static std::string lanes(const Call &call) {
    Numbers classes = classes_at(call, 1);
    Words words(classes.size());
    call.job().lanes(call.number(0), classes, words);
    return joined(words, hexadecimal);
}

static std::string count(const Call &call) {
    Numbers classes = classes_at(call, 3), counts(classes.size(), call.number(2));
    call.job().count(call.number(0), classes, call.number(1), counts);
    return joined(counts, decimal);
}

static std::string detections(const Call &call) {
    Numbers classes = classes_at(call, 1), counts(classes.size());
    call.job().detections(classes, call.number(0), counts);
    return joined(counts, decimal);
}

static std::string coverage(const Call &call) {
    auto [detected, faults] = call.job().coverage();
    return decimal(detected) + " of " + decimal(faults);
}

// A call with nothing to print.
static auto quiet(auto call) {
    return [call](const Call &it) {
        call(it);
        return std::string();
    };
}

static std::string error(const Call &call) {
    return faultsim::Error(FS_REFUSED, fs_fault{call.number(0), call.number(1)}).what();
}

static const std::map<std::string, std::function<std::string(const Call &)>> calls{
    {"read", quiet([](const Call &it) {
         jobs[it.handle] = faultsim::Job(it.text(1), model_of(it.words.at(0)));
     })},
    {"share", quiet([](const Call &it) { jobs[it.handle] = jobs[it.words.at(0)]->share(); })},
    {"free", quiet([](const Call &it) { jobs[it.handle].reset(); })},
    {"set_text", quiet([](const Call &it) { it.changed_job().set_text(it.text(0)); })},
    {"set_words", quiet([](const Call &it) {
         it.changed_job().set_words(it.number(0), words_from(it, 1));
     })},
    {"next_words", quiet([](const Call &it) {
         it.changed_job().next_words(it.number(0), words_from(it, 1));
     })},
    {"set_rows", quiet([](const Call &it) { set_rows(it.changed_job(), it.text(0)); })},
    {"sizes", [](const Call &it) { return sizes(it.job()); }},
    {"names", [](const Call &it) { return joined(names(it.job(), false), same); }},
    {"sources", [](const Call &it) { return joined(names(it.job(), true), same); }},
    {"name_of", [](const Call &it) { return it.job().name_of(it.number(0)); }},
    {"fault_name", [](const Call &it) { return it.job().fault_name(it.number(0)); }},
    {"fault_names", [](const Call &it) { return joined(fault_names(it.job()), same, ", "); }},
    {"classes_of", [](const Call &it) { return joined(it.job().classes_of(), decimal); }},
    {"stems_of", [](const Call &it) { return joined(it.job().stems_of(), decimal); }},
    {"signal_named", [](const Call &it) {
         return number_or_none(it.job().signal_named(it.words.at(0)));
     }},
    {"kinds_of", [](const Call &it) { return joined(it.job().kinds_of(), decimal); }},
    {"levels_of", [](const Call &it) { return joined(it.job().levels_of(), decimal); }},
    {"fan_ins_of", [](const Call &it) { return fan_ins(it.job()); }},
    {"fan_outs_of", [](const Call &it) { return fan_outs(it.job()); }},
    {"sites_of", [](const Call &it) { return joined(it.job().sites_of(), site_text, ", "); }},
    {"fault_at", [](const Call &it) {
         fs_site site{it.number(0), it.number(1), it.number(2), it.number(3)};
         return number_or_none(it.job().fault_at(site));
     }},
    {"values", [](const Call &it) { return values(it.job(), it.number(0)); }},
    {"observers", [](const Call &it) { return joined(it.job().observers(), decimal); }},
    {"word", [](const Call &it) {
         std::uint64_t word = it.job().word(it.number(0), it.number(1));
         return hexadecimal(word & lanes_of(it.job(), it.number(0)));
     }},
    {"responses", [](const Call &it) { return responses(it.job()); }},
    {"simulate", simulate},
    {"observed", observed},
    {"lanes", lanes},
    {"count", count},
    {"detecting", [](const Call &it) {
         return hexadecimal(it.job().detecting(it.number(0), it.number(1)));
     }},
    {"detections", detections},
    {"report", report},
    {"coverage", coverage},
    {"firsts", [](const Call &it) {
         return joined(faultsim::firsts(it.text(1), it.text(2), model_of(it.words.at(0))), test_of);
     }},
    {"version", [](const Call &) { return decimal(fs_version()); }},
    {"error", error},
    {"status", [](const Call &it) {
         return std::string(faultsim::Error(it.number(0), {}).what());
     }},
};

// What a call returns, or why it fails.
static std::string result_of(const std::string &name, const Call &call, bool is_refused) {
    const auto &it = calls.at(name);
    refuse_allocations(is_refused);
    try {
        std::string result = it(call);
        refuse_allocations(false);
        return result;
    } catch (const std::bad_alloc &) {
        refuse_allocations(false);
        return "memory";
    } catch (const faultsim::Error &error) {
        refuse_allocations(false);
        switch (error.status) {
        case FS_REFUSED:
            return "refused " + decimal(error.fault.kind) + ' ' + std::to_string(error.fault.place);
        case FS_RANGE: return "range";
        case FS_SHARED: return "shared";
        default: return error.what();
        }
    }
}

// Runs the call of a line. Returns whether it has its result.
static bool comes_out(const std::string &line) {
    std::size_t mark = line.find(" =");
    std::istringstream head(line.substr(0, mark));
    Strings words(std::istream_iterator<std::string>(head), {});
    std::string wanted;
    if (mark != line.npos && mark + 3 < line.size())
        wanted = line.substr(mark + 3);
    bool is_refused = words.at(0) == "refused";
    if (is_refused)
        words.erase(words.begin());
    Call call{words.at(0), {words.begin() + 2, words.end()}};
    std::string result = result_of(words.at(1), call, is_refused);
    if (result != wanted)
        std::printf("FAILED %s\n    is %s\n", line.c_str(), result.c_str());
    return result == wanted;
}

int main(int argc, char **argv) {
    std::ifstream file(argc == 2 ? argv[1] : "");
    std::string *text = nullptr;
    unsigned run = 0, failed = 0;
    for (std::string line; std::getline(file, line);) {
        if (line.empty() || line[0] == '#')
            continue;
        if (line.starts_with("-- ")) {
            text = &texts[line.substr(3)];
        } else if (line.starts_with("== ")) {
            text = nullptr;
            jobs.clear();
        } else if (text) {
            *text += line + '\n';
        } else {
            run++;
            failed += !comes_out(line);
        }
    }
    std::printf("%u calls, %u failed\n", run, failed);
    return !run || failed;
}
