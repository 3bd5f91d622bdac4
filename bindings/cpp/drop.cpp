// A loop with fault dropping under each fault model: simulates tests block by block, each block
// only for the classes that no earlier test detects, and prints what `faultsim run --list` prints.
//
// usage: drop BENCH TESTS MODEL
//
// TESTS has nothing but a line of 0s and 1s for each test. MODEL is stuck, transition or
// transition-pairs.
#include "faultsim.hpp"

#include <algorithm>
#include <fstream>
#include <iostream>
#include <iterator>
#include <map>
#include <numeric>
#include <string>
#include <vector>

using Words = std::vector<std::uint64_t>;
using Numbers = std::vector<std::uint32_t>;
using Rows = std::span<const std::string>;

static std::ifstream opened(const char *path) {
    std::ifstream file(path, std::ios::binary);
    if (!file)
        throw std::runtime_error(std::string("can't read ") + path);
    return file;
}

// The words of the rows of a block.
static Words words_of(Rows rows, std::size_t sources) {
    Words words(sources);
    for (std::size_t test = 0; test < rows.size(); test++)
        for (std::size_t i = 0; i < sources; i++)
            words[i] |= std::uint64_t{rows[test].at(i) == '1'} << test;
    return words;
}

// The first test of each class. Under Model::transition each block follows the last test: with it,
// 63 tests are a block of 64.
static Numbers first_tests(faultsim::Job &job, Rows rows, bool follow) {
    Numbers firsts(job.sizes().classes, FS_NONE), left(firsts.size());
    std::iota(left.begin(), left.end(), 0u);
    std::size_t most = follow ? 63 : 64;
    for (std::size_t test = 0; test < rows.size(); test += most) {
        Rows block = rows.subspan(test, std::min(most, rows.size() - test));
        auto count = static_cast<std::uint32_t>(block.size());
        auto before = static_cast<std::uint32_t>(follow && test ? test - 1 : test);
        Words words = words_of(block, job.sizes().sources);
        follow ? job.next_words(count, words) : job.set_words(count, words);
        Numbers found(left.size()), still;
        job.simulate(left, found);
        for (std::size_t i = 0; i < left.size(); i++)
            if (found[i] == FS_NONE)
                still.push_back(left[i]);
            else
                firsts[left[i]] = before + found[i];
        left = still;
    }
    return firsts;
}

int main(int argc, char **argv) try {
    static const std::map<std::string, faultsim::Model> models{
        {"stuck", faultsim::Model::stuck_at},
        {"transition", faultsim::Model::transition},
        {"transition-pairs", faultsim::Model::transition_pairs}};
    if (argc != 4 || !models.contains(argv[3]))
        throw std::runtime_error("usage: drop BENCH TESTS MODEL");
    auto bench_file = opened(argv[1]), rows_file = opened(argv[2]);
    std::string bench{std::istreambuf_iterator<char>(bench_file), {}};
    std::vector<std::string> rows{std::istream_iterator<std::string>(rows_file), {}};
    auto model = models.at(argv[3]);
    faultsim::Job job(bench, model);
    Numbers firsts = first_tests(job, rows, model == faultsim::Model::transition);
    Numbers of = job.classes_of();
    std::size_t detected = 0;
    for (std::uint32_t fault = 0; fault < of.size(); fault++) {
        std::uint32_t first = firsts[of[fault]];
        detected += first != FS_NONE;
        std::cout << job.fault_name(fault) << ' '
                  << (first == FS_NONE ? "none" : std::to_string(first)) << '\n';
    }
    std::size_t hundredths = 10'000 * detected / of.size();
    std::cout << detected << " of " << of.size() << " (" << hundredths / 100 << '.'
              << hundredths / 10 % 10 << hundredths % 10 << "%)\n";
    return 0;
} catch (const std::exception &error) {
    std::cerr << "drop: " << error.what() << '\n';
    return 1;
}
