// A generator of random tests over the baseline, as a yardstick for `faultgen`.
//
//   g++ -O3 -march=x86-64-v2 -std=c++17 -pthread generator.cpp -o generator
//   generator BENCH [stuck|transition] [SEED] [MOST] > TESTS
//
// It does the same as `faultgen`, in one thread. It tries rounds of 20 blocks of random tests. A class is
// simulated by events, block after block, up to the first that detects it; one test of that block that
// detects it is kept, unless a kept one already does. It ends if no class is left, or after a round without
// new detections. Stuck-at tests are then reversed and sorted three times by how many faults each is the
// first to detect. Of the first MOST, the needed ones remain: the first for some fault, and for stuck-at
// faults the last for some fault, too. The tests go to standard output, the seconds and counts to standard
// error.

#include <algorithm>
#include <chrono>
#include <random>

#include "baseline/report.hpp"
#include "baseline/workers.hpp"

static const u32 ROUND_BLOCKS = 20, PASSES = 3;

// A test: a 0 or 1 for each source.
using Row = std::vector<u8>;

static Tests random_tests(u32 width, std::mt19937_64& random) {
    Tests t;
    t.width = width;
    t.count = 64 * ROUND_BLOCKS;
    t.words.resize(size_t(width) * ROUND_BLOCKS);
    for (u64& w : t.words) w = random();
    return t;
}

static Tests tests_of(const std::vector<Row>& rows, u32 width) {
    Tests t;
    t.width = width;
    t.count = u32(rows.size());
    t.words.resize(size_t(t.blocks()) * width);
    for (u32 n = 0; n < t.count; ++n)
        for (u32 s = 0; s < width; ++s) t.words[size_t(n / 64) * width + s] |= u64(rows[n][s]) << (n % 64);
    return t;
}

// The classes of a list that no test of a job detects, and in `needed` the tests that the others need.
static std::vector<u32> one_round(const Job& j, std::vector<u32> open, std::vector<u64>& needed) {
    Kernel<u64> kernel(j);
    for (u32 b = 0; b < ROUND_BLOCKS; ++b) {
        std::vector<u32> still;
        kernel.enter(b);
        for (u32 k : open) {
            u64 lanes = kernel.detect(j.origin[k], false);
            if (!lanes) still.push_back(k);
            else if (!(lanes & needed[b])) needed[b] |= lanes & (0 - lanes);
        }
        open.swap(still);
    }
    return open;
}

static void keep(const Tests& t, const std::vector<u64>& needed, bool pairs, std::vector<Row>& rows) {
    auto is_in = [&](u32 n) { return n < t.count && (needed[n / 64] >> (n % 64) & 1); };
    for (u32 n = 0; n < t.count; ++n) {
        if (!is_in(n) && !(pairs && is_in(n + 1))) continue;
        Row row;
        for (u32 s = 0; s < t.width; ++s) row.push_back(t.words[size_t(n / 64) * t.width + s] >> (n % 64) & 1);
        rows.push_back(row);
    }
}

// For each test how many faults it is the first to detect.
static std::vector<u32> news_of(const Circuit& c, const Faults& f, const std::vector<Row>& rows, bool transition) {
    Job j = make_job(c, f, tests_of(rows, c.sources()), 1, transition, false, {true, true});
    Plan plan;
    plan.regions = plan.groups = true;
    Totals totals;
    std::vector<u32> first = run(j, plan, 1, totals), news(rows.size(), 0);
    for (u32 k = 0; k < f.count(); ++k)
        if (first[f.class_of[k]] != NONE) ++news[first[f.class_of[k]]];
    return news;
}

static std::vector<Row> sorted(const Circuit& c, const Faults& f, const std::vector<Row>& rows) {
    std::vector<u32> news = news_of(c, f, rows, false), order;
    for (u32 n = 0; n < rows.size(); ++n)
        if (news[n] > 0) order.push_back(n);
    std::stable_sort(order.begin(), order.end(), [&](u32 a, u32 b) { return news[a] > news[b]; });
    std::vector<Row> out;
    for (u32 n : order) out.push_back(rows[n]);
    return out;
}

// The tests that are needed to detect what all detect.
static std::vector<Row> needed_of(const Circuit& c, const Faults& f, const std::vector<Row>& rows, bool transition) {
    std::vector<u32> news = news_of(c, f, rows, transition);
    std::vector<Row> finding, last;
    for (u32 n = 0; n < rows.size(); ++n)
        if (news[n] > 0 || (transition && n + 1 < rows.size() && news[n + 1] > 0)) finding.push_back(rows[n]);
    if (transition) return finding;
    std::reverse(finding.begin(), finding.end());
    news = news_of(c, f, finding, false);
    for (u32 n = u32(finding.size()); n-- > 0;)
        if (news[n] > 0) last.push_back(finding[n]);
    return last;
}

int main(int argc, char** argv) {
    auto start = std::chrono::steady_clock::now();
    bool transition = argc > 2 && std::string(argv[2]) == "transition";
    std::mt19937_64 random(argc > 3 ? std::stoul(argv[3]) : 1);
    size_t most = argc > 4 ? std::stoul(argv[4]) : 65536;
    Circuit c = read_bench(read_file(argv[1]));
    Faults f = list_faults(c, transition);
    Job j = make_job(c, f, random_tests(c.sources(), random), 1, transition, false, {false, true});
    std::vector<u32> place(j.size), left(f.rep.size());
    for (u32 n = 0; n < j.size; ++n) place[c.order[n]] = n;
    for (u32 k = 0; k < left.size(); ++k) left[k] = k;
    std::vector<Row> rows;
    u32 rounds = 0;
    for (bool news = true; !left.empty() && news; ++rounds) {
        Tests t = random_tests(c.sources(), random);
        find_good_words(c, t, place, 1, j);
        std::vector<u64> needed(ROUND_BLOCKS, 0);
        std::vector<u32> open = one_round(j, left, needed);
        news = open.size() < left.size();
        left.swap(open);
        keep(t, needed, transition, rows);
    }
    size_t found = rows.size();
    if (!transition) {
        std::reverse(rows.begin(), rows.end());
        for (u32 k = 0; k < PASSES; ++k) rows = sorted(c, f, rows);
    }
    if (rows.size() > most) rows.resize(most);
    rows = needed_of(c, f, rows, transition);
    for (const Row& row : rows) {
        for (u8 bit : row) putchar('0' + bit);
        putchar('\n');
    }
    double seconds = std::chrono::duration<double>(std::chrono::steady_clock::now() - start).count();
    std::fprintf(stderr, "%.3f s, %u blocks tried, %zu tests found, %zu written, %zu of %zu classes left\n",
                 seconds, rounds * ROUND_BLOCKS, found, rows.size(), left.size(), f.rep.size());
}
