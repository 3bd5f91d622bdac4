// Texts: whole files, their lines, and the refusals that a program answers.

#pragma once

#include <cstdint>
#include <cstdio>
#include <cstring>
#include <string>

using u8 = uint8_t;
using u32 = uint32_t;
using u64 = uint64_t;
constexpr u32 NONE = 0xFFFFFFFFu;

// What the program says on standard error, and its status.
struct Refusal {
    std::string words;
    int status;
};

[[noreturn]] inline void refuse(const std::string& words, int status = 1) {
    throw Refusal{words, status};
}

// The rest of a file; false where it can't be read.
inline bool read_rest(FILE* file, std::string& text) {
    char part[4096];
    size_t got;
    while ((got = std::fread(part, 1, sizeof part, file)) > 0) text.append(part, got);
    return !std::ferror(file);
}

inline std::string read_file(const std::string& path) {
    FILE* file = std::fopen(path.c_str(), "rb");
    if (!file) refuse("cannot read " + path, 3);
    // A file that knows its size is read at once; a pipe has none, and all of it is the rest.
    std::fseek(file, 0, SEEK_END);
    long size = std::ftell(file);
    std::fseek(file, 0, SEEK_SET);
    std::string text;
    if (size > 0 && size < (1L << 40)) text.resize(size_t(size));
    size_t got = text.empty() ? 0 : std::fread(&text[0], 1, text.size(), file);
    bool ok = got == text.size() && read_rest(file, text);
    std::fclose(file);
    if (!ok) refuse("cannot read " + path, 3);
    return text;
}

// Calls use(number, begin, end) for each line, without its end and its comment.
template <class Use>
void each_line(const std::string& text, Use use) {
    const char* at = text.data();
    const char* end = at + text.size();
    for (u64 number = 1;; ++number) {
        const char* lf = static_cast<const char*>(std::memchr(at, '\n', size_t(end - at)));
        const char* stop = lf ? lf : end;
        if (stop > at && stop[-1] == '\r') --stop;
        const char* comment = nullptr;
        if (stop > at) comment = static_cast<const char*>(std::memchr(at, '#', size_t(stop - at)));
        use(number, at, comment ? comment : stop);
        if (!lf) return;
        at = lf + 1;
    }
}

// The same without the blanks around a line, and without lines that are blank.
template <class Use>
void each_row(const std::string& text, Use use) {
    auto blank = [](char c) { return c == ' ' || c == '\t'; };
    each_line(text, [&](u64 number, const char* begin, const char* end) {
        while (begin < end && blank(*begin)) ++begin;
        while (begin < end && blank(end[-1])) --end;
        if (begin < end) use(number, begin, end);
    });
}

inline void put_number(std::string& out, u64 number) {
    char digits[20];
    int at = 20;
    do digits[--at] = char('0' + number % 10);
    while (number /= 10);
    out.append(digits + at, size_t(20 - at));
}
