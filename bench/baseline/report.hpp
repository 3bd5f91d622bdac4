// What the program writes: the report of a run, and the listing of faults and classes.

#pragma once

#include "faults.hpp"

inline void put_fault(std::string& out, const Circuit& c, const Sink& line, u32 bit, bool transition) {
    switch (line.type) {
        case STEM: out += "stem "; out += c.name[line.a]; break;
        case PIN: out += "pin "; out += c.name[line.a]; out += ' '; put_number(out, line.b + 1); break;
        case DATA: out += "data "; out += c.name[c.cell_q[line.a]]; break;
        case OUT: out += "out "; put_number(out, line.a + 1); break;
    }
    out += transition ? (bit ? " stf" : " str") : (bit ? " sa1" : " sa0");
}

// The coverage, and with `list` each fault and its first test before that.
inline std::string report(const Circuit& c, const Faults& f, const std::vector<u32>& first, bool list,
                          bool transition) {
    std::string out;
    u64 detected = 0, total = f.count();
    for (u32 n = 0; n < total; ++n) {
        u32 test = first[f.class_of[n]];
        detected += test != NONE;
        if (!list) continue;
        put_fault(out, c, f.line[n / 2], n & 1, transition);
        out += ' ';
        if (test == NONE) out += "none";
        else put_number(out, test);
        out += '\n';
    }
    char line[80];
    u64 hundredths = 10000 * detected / total;
    std::snprintf(line, sizeof line, "%llu of %llu (%llu.%02llu%%)\n", (unsigned long long)detected,
                  (unsigned long long)total, (unsigned long long)(hundredths / 100),
                  (unsigned long long)(hundredths % 100));
    return out + line;
}

inline std::string listing(const Circuit& c, const Faults& f, bool transition) {
    std::string out;
    for (u32 n = 0; n < f.count(); ++n) {
        put_fault(out, c, f.line[n / 2], n & 1, transition);
        out += " class ";
        put_number(out, f.class_of[n]);
        out += '\n';
    }
    put_number(out, f.count());
    out += " faults in ";
    put_number(out, f.rep.size());
    return out + " classes\n";
}
