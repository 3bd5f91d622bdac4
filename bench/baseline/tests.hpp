// Tests, and orders of moves.

#pragma once

#include <vector>

#include "texts.hpp"

// Tests as words of 64 lanes.  A block is 64 tests in a row; test n is lane n mod 64 of block n / 64.
struct Tests {
    u32 width = 0, count = 0;
    std::vector<u64> words;  // block by block, one word a source
    u32 blocks() const { return (count + 63) / 64; }
};

inline Tests read_tests(const std::string& text, u32 width, u32 limit) {
    Tests t;
    t.width = width;
    each_row(text, [&](u64 number, const char* begin, const char* end) {
        std::string where = "tests line " + std::to_string(number);
        if (t.count == limit) refuse("tests: more than " + std::to_string(limit) + " rows");
        for (const char* p = begin; p < end; ++p)
            if (*p != '0' && *p != '1') refuse(where + ": not 0 or 1");
        if (size_t(end - begin) != width) refuse(where + ": wrong width");
        if (t.count % 64 == 0) t.words.resize(t.words.size() + width, 0);
        u64* word = &t.words[size_t(t.count / 64) * width];
        for (u32 i = 0; i < width; ++i) word[i] |= u64(begin[i] & 1) << (t.count % 64);
        ++t.count;
    });
    return t;
}

// An order is only read: no order changes the report.
inline void read_order(const std::string& text, u32 workers) {
    u32 count = 0;
    each_row(text, [&](u64 number, const char* begin, const char* end) {
        if (count == 1000000) refuse("order: more than 1000000 moves");
        ++count;
        std::string where = "order line " + std::to_string(number);
        u32 value = 0;
        bool good = end - begin <= 9;
        for (const char* p = begin; good && p < end; ++p) {
            good = *p >= '0' && *p <= '9';
            value = value * 10 + u32(*p - '0');
        }
        if (!good) refuse(where + ": not a number");
        if (value >= workers) refuse(where + ": no such worker");
    });
}
