// Faults: the uncollapsed list of a model, and its classes of equivalent faults.

#pragma once

#include "circuit.hpp"

struct Faults {
    std::vector<Sink> line;       // of each line; fault 2 * line + bit is at it
    std::vector<u32> first_line;  // of each signal: the line of the signal itself
    std::vector<u32> class_of;    // of each fault
    std::vector<u32> rep;         // of each class: the fault that stands for it
    u32 count() const { return u32(2 * line.size()); }
};

// A signal is a line, and so is each of its sinks where there are two or more.
inline void list_lines(const Circuit& c, Faults& f) {
    f.first_line.reserve(c.signals());
    for (u32 s = 0; s < c.signals(); ++s) {
        f.first_line.push_back(u32(f.line.size()));
        f.line.push_back({STEM, s, 0});
        if (c.sink_count(s) >= 2)
            f.line.insert(f.line.end(), c.sinks.begin() + c.sink_begin[s],
                          c.sinks.begin() + c.sink_begin[s + 1]);
    }
}

// The bit at which a gate's output is stuck by a pin stuck at `bit`, or NONE.  A slow transition
// goes through a gate of one pin alone, since it needs two tests.
inline u32 passed_on(u8 kind, u32 bit, bool transition) {
    switch (kind) {
        case BUFF: return bit;
        case NOT: return 1 - bit;
        case AND: return bit == 0 && !transition ? 0 : NONE;
        case NAND: return bit == 0 && !transition ? 1 : NONE;
        case OR: return bit == 1 && !transition ? 1 : NONE;
        case NOR: return bit == 1 && !transition ? 0 : NONE;
        default: return NONE;
    }
}

// Of each fault the last one of its chain of equivalent faults, from the last level back.
inline std::vector<u32> chain_ends(const Circuit& c, const Faults& f, bool transition) {
    std::vector<u32> end(f.count());
    for (size_t n = c.order.size(); n-- > 0;) {
        u32 s = c.order[n];
        u32 stop = s + 1 < c.signals() ? f.first_line[s + 1] : u32(f.line.size());
        for (u32 l = f.first_line[s]; l < stop; ++l)
            for (u32 bit = 0; bit < 2; ++bit) {
                Sink reader = f.line[l];
                if (reader.type == STEM && c.sink_count(s) == 1) reader = c.sinks[c.sink_begin[s]];
                u32 out = reader.type == PIN ? passed_on(c.kind[reader.a], bit, transition) : NONE;
                u32 own = 2 * l + bit;
                end[own] = out == NONE ? own : end[2 * f.first_line[reader.a] + out];
            }
    }
    return end;
}

inline Faults list_faults(const Circuit& c, bool transition) {
    Faults f;
    list_lines(c, f);
    std::vector<u32> end = chain_ends(c, f, transition);
    f.class_of.assign(f.count(), NONE);
    for (u32 n = 0; n < f.count(); ++n)
        if (end[n] == n) f.class_of[n] = u32(f.rep.size()), f.rep.push_back(n);
    for (u32 n = 0; n < f.count(); ++n) f.class_of[n] = f.class_of[end[n]];
    return f;
}
