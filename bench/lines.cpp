// What the cache lines of the shared ledger cost, without a simulation: threads claim pieces by an
// atomic counter and change the byte of each piece in a word of eight.
//
//   g++ -O2 -std=c++17 -pthread lines.cpp -o lines
//   lines PERCENT LENGTH      e.g. 32 900: of 14,000 classes 32% take 900 multiplications (some
//                             1.2 microseconds), as a piece that is simulated; the others are
//                             changed at once, as a piece that is dropped
//
// Printed is the time a piece with 1, 2 and 4 threads, and the gain over 1, where a thread claims
// one piece at a time and changes its byte by one locked `or`, by a load and a compare-and-exchange
// until it succeeds (what the kit makes of `fetch_or`), or by one locked `add`; where it does the
// last and rests as workers do (`crates/workers/src/pace.rt`, with 100 multiplications for what a
// claim costs); and where it claims 64 pieces at a time, as no ledger may that hands out pieces in
// one order.

#include <atomic>
#include <chrono>
#include <cstdint>
#include <cstdio>
#include <cstdlib>
#include <thread>
#include <vector>

using u64 = uint64_t;

enum Way { OR, EXCHANGE, ADD, RESTS, CHUNKS };
static const char* NAMES[] = {"locked or", "load and exchange", "locked add", "locked add, and rests",
                              "64 at a time, locked or"};
static const u64 CLASSES = 14000, BLOCKS = 200, PIECES = CLASSES * BLOCKS;

static u64 busy(u64 x, int length) {
    for (int j = 0; j < length; ++j) x = x * 6364136223846793005ull + 1;
    asm volatile("" ::"r"(x));
    return x;
}

static void mark(std::atomic<u64>& word, u64 bit, Way way) {
    if (way == ADD || way == RESTS) {
        word.fetch_add(bit);
    } else if (way == EXCHANGE) {
        for (u64 old = word.load(); !word.compare_exchange_strong(old, old | bit); old = word.load()) {
        }
    } else {
        word.fetch_or(bit);
    }
}

// What a thread owes for claims between which others claimed, less what it worked.
struct Pace {
    u64 last = 0, owed = 0;

    void after(u64 piece, int worked, int worker) {
        const bool alone = piece == last + 1;
        last = piece;
        owed += alone ? 0 : 100;
        const u64 paid = worked + alone;
        owed = owed > paid ? owed - paid : 0;
        if (owed >= 1600) {
            owed -= 400;
            for (int i = 0; i < 1000 * worker; ++i) __builtin_ia32_pause();
        }
    }
};

static double seconds(int threads, Way way, int length, const std::vector<char>& simulated) {
    std::vector<std::atomic<u64>> words(PIECES / 8 + 1);
    for (auto& word : words) word = 0;
    alignas(64) std::atomic<u64> next{0};
    const u64 chunk = way == CHUNKS ? 64 : 1;
    std::vector<std::thread> crew;
    auto begin = std::chrono::steady_clock::now();
    for (int w = 0; w < threads; ++w) {
        crew.emplace_back([&, w] {
            u64 x = 1;
            Pace pace;
            for (u64 first; (first = next.fetch_add(chunk)) < PIECES;) {
                for (u64 n = first; n < first + chunk && n < PIECES; ++n) {
                    x = busy(x, simulated[n % CLASSES] ? length : 10);
                    mark(words[n / 8], u64(1) << (8 * (n % 8)), way);
                    if (way == RESTS) pace.after(n, simulated[n % CLASSES] ? length : 0, w);
                }
            }
        });
    }
    for (auto& thread : crew) thread.join();
    return std::chrono::duration<double>(std::chrono::steady_clock::now() - begin).count();
}

int main(int count, char** words) {
    const int percent = count > 1 ? atoi(words[1]) : 32, length = count > 2 ? atoi(words[2]) : 900;
    std::vector<char> simulated(CLASSES);
    u64 seed = 1;
    for (auto& is : simulated) {
        seed = seed * 6364136223846793005ull + 1442695040888963407ull;
        is = int((seed >> 33) % 100) < percent;
    }
    for (Way way : {OR, EXCHANGE, ADD, RESTS, CHUNKS}) {
        const double one = seconds(1, way, length, simulated);
        printf("%s: %.1f ns a piece with 1 thread", NAMES[way], one * 1e9 / PIECES);
        for (int threads : {2, 4}) {
            const double took = seconds(threads, way, length, simulated);
            printf(", %.1f with %d (gain %.2f)", took * 1e9 / PIECES, threads, one / took);
        }
        printf("\n");
    }
}
