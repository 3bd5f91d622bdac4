// A random test generator: blocks of 64 random tests, of which it keeps those that are the first to
// detect a class, until 20 blocks in a row bring none.
//
// usage: generator BENCH [SEED] > TESTS
//
// The tests go to standard output, and a line about them to standard error.
#include "faultsim.hpp"

#include <algorithm>
#include <fstream>
#include <iostream>
#include <iterator>
#include <numeric>
#include <string>
#include <vector>

using Words = std::vector<std::uint64_t>;
using Numbers = std::vector<std::uint32_t>;

// Random words (Vigna, xorshift64*).
static std::uint64_t next(std::uint64_t &state) {
    state ^= state >> 12;
    state ^= state << 25;
    state ^= state >> 27;
    return state * 2685821657736338717u;
}

// Keeps the tests of a block that are the first of a class, and drops those classes from the list.
static unsigned keep(const Words &words, Numbers &left, const Numbers &firsts) {
    std::uint64_t news = 0;
    Numbers still;
    for (std::size_t i = 0; i < left.size(); i++) {
        if (firsts[i] == FS_NONE)
            still.push_back(left[i]);
        else
            news |= std::uint64_t{1} << firsts[i];
    }
    left = still;
    unsigned kept = 0;
    for (unsigned lane = 0; lane < 64; lane++) {
        if (!(news >> lane & 1))
            continue;
        kept++;
        std::string row;
        for (auto word : words)
            row += "01"[word >> lane & 1];
        std::cout << row << '\n';
    }
    return kept;
}

int main(int argc, char **argv) try {
    if (argc < 2)
        throw std::runtime_error("usage: generator BENCH [SEED]");
    std::ifstream file(argv[1], std::ios::binary);
    if (!file)
        throw std::runtime_error(std::string("can't read ") + argv[1]);
    std::string bench{std::istreambuf_iterator<char>(file), {}};
    std::uint64_t state = argc > 2 ? std::stoull(argv[2]) : 1;
    faultsim::Job job(bench);
    Words words(job.sizes().sources);
    Numbers left(job.sizes().classes);
    std::iota(left.begin(), left.end(), 0u);
    unsigned kept = 0;
    for (int idle = 0; idle < 20 && !left.empty();) {
        std::ranges::generate(words, [&] { return next(state); });
        job.set_words(64, words);
        Numbers firsts(left.size());
        job.simulate(left, firsts);
        unsigned news = keep(words, left, firsts);
        idle = news ? 0 : idle + 1;
        kept += news;
    }
    // The faults of the classes that are left are undetected.
    auto of = job.classes_of();
    auto undetected = [&](auto it) { return std::ranges::binary_search(left, it); };
    auto open = std::ranges::count_if(of, undetected);
    std::cerr << kept << " tests, " << of.size() - static_cast<std::size_t>(open) << " of "
              << of.size() << '\n';
    return 0;
} catch (const std::exception &error) {
    std::cerr << "generator: " << error.what() << '\n';
    return 1;
}
