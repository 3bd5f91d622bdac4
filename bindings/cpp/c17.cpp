// C17 under one test, 11111, by one thread and by two. Prints '14 of 34' and returns 0.
#include "faultsim.hpp"

#include <algorithm>
#include <array>
#include <cstdio>
#include <numeric>
#include <span>
#include <string_view>
#include <thread>
#include <vector>

static const char *const C17 =
    "INPUT(1)\nINPUT(2)\nINPUT(3)\nINPUT(6)\nINPUT(7)\nOUTPUT(22)\nOUTPUT(23)\n"
    "10 = NAND(1, 3)\n11 = NAND(3, 6)\n16 = NAND(2, 11)\n19 = NAND(11, 7)\n"
    "22 = NAND(10, 16)\n23 = NAND(16, 19)\n";

static bool fails_with(std::uint32_t status, auto call) {
    try {
        call();
    } catch (const faultsim::Error &error) {
        return error.status == status;
    }
    return false;
}

// A job that is moved onto another frees the other's, and leaves its own to no one else.
static bool moves() {
    faultsim::Job onto("INPUT(a)\nOUTPUT(a)\n"), from(C17);
    onto = std::move(from);
    if (onto.sizes().faults != 34 || !fails_with(FS_NO_JOB, [&] { from.sizes(); }))
        return false;
    from = faultsim::Job("INPUT(a)\nOUTPUT(a)\n");
    return onto.sizes().faults == 34 && from.sizes().sources == 1;
}

// Calls that must fail, of a job of C17.
static bool fails(faultsim::Job job) {
    try {
        job.set_text("11111\n111\n");
        return false;
    } catch (const faultsim::Error &error) {
        if (std::string_view(error.what()) != "tests line 2: wrong width")
            return false;
    }
    // Classes that are in range, in spans that overlap.
    std::array<std::uint32_t, 3> numbers{0, 1, 2};
    auto read = std::span(numbers).first(2), written = std::span(numbers).subspan(1, 2);
    return fails_with(FS_RANGE, [&] { job.detecting(1000, 0); })
        && fails_with(FS_RANGE, [&] { job.fault_name(34); })
        && fails_with(FS_RANGE, [&] { job.simulate(read, written); })
        && fails_with(FS_RANGE, [&] { job.detections(read, 1, written); })
        && numbers == std::array<std::uint32_t, 3>{0, 1, 2}
        && fails_with(FS_REFUSED, [&] { job.set_text("111\n"); })
        && fails_with(FS_REFUSED, [&] { faultsim::Job("z = AND(a, b)\n"); });
}

int main() {
    faultsim::Job job(C17);
    job.set_words(1, std::array<std::uint64_t, 5>{1, 1, 1, 1, 1});
    std::vector<std::uint32_t> classes(job.sizes().classes), firsts(classes.size());
    std::iota(classes.begin(), classes.end(), 0u);
    {
        faultsim::Job second = job.share();
        std::span whole(classes), found(firsts);
        std::size_t half = whole.size() / 2;
        std::jthread back([&] { second.simulate(whole.subspan(half), found.subspan(half)); });
        job.simulate(whole.first(half), found.first(half));
        auto is_shared = [&](faultsim::Job &it) {
            return fails_with(FS_SHARED, [&] { it.set_text("00000\n"); });
        };
        back.join();
        if (!is_shared(job) || !is_shared(second))
            return 1;
    }
    job.set_text("11111\n");
    auto of = job.classes_of();
    auto found = std::ranges::count_if(of, [&](auto it) { return firsts[it] != FS_NONE; });
    std::printf("%td of %zu\n", found, of.size());
    std::array<std::uint32_t, 2> counts{};
    job.detections(std::span(classes).first(2), 5, counts);
    for (std::size_t i = 0; i < counts.size(); i++)
        if (counts[i] != (firsts[i] != FS_NONE) || job.fault_name(33) != "stem 23 sa1")
            return 1;
    // Under 11111 NAND(10, 16) is 1, and NAND(16, 19) is 0.
    auto shown = job.responses();
    if (job.observers().size() != 2 || shown.size() != 2 || !(shown[0] & 1) || (shown[1] & 1))
        return 1;
    if (job.report() != "14 of 34 (41.17%)\n")
        return 1;
    if (auto covered = job.coverage(); covered.detected != 14 || covered.faults != 34)
        return 1;
    // A buffer: under 0 and then 1 the 1 detects that a line is slow to rise.
    faultsim::Job buffer("INPUT(a)\nOUTPUT(z)\nz = BUFF(a)\n", faultsim::Model::transition);
    buffer.set_text("0\n");
    buffer.next_words(1, std::array<std::uint64_t, 1>{1});
    if (buffer.sizes().tests != 2 || buffer.detecting(buffer.classes_of()[0], 0) != 2)
        return 1;
    return moves() && fails(std::move(job)) ? 0 : 1;
}
