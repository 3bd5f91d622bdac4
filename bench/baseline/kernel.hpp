// The kernel: how a difference spreads from a signal, on words of 64 lanes or of 256.

#pragma once

#include "job.hpp"

// ------------------------------------------------------------------ lanes
//
// A word has a bit for each test of a block (64 lanes), or of a group of four blocks (256 lanes).

struct Wide {
    u64 part[4];

    static Wide all(u64 w) { return {{w, w, w, w}}; }

    // Part by part.  The compiler makes two operations of 128 bits of it.
    template <class Operation>
    Wide each(const Wide& other, Operation of) const {
        Wide out;
        for (u32 i = 0; i < 4; ++i) out.part[i] = of(part[i], other.part[i]);
        return out;
    }
    Wide operator&(const Wide& other) const { return each(other, [](u64 a, u64 b) { return a & b; }); }
    Wide operator|(const Wide& other) const { return each(other, [](u64 a, u64 b) { return a | b; }); }
    Wide operator^(const Wide& other) const { return each(other, [](u64 a, u64 b) { return a ^ b; }); }
    Wide operator^(u64 w) const { return *this ^ all(w); }
    Wide operator~() const { return *this ^ ~u64(0); }
    Wide operator<<(u32 by) const { return each({}, [by](u64 a, u64) { return a << by; }); }
    Wide& operator&=(const Wide& other) { return *this = *this & other; }
    Wide& operator|=(const Wide& other) { return *this = *this | other; }
    Wide& operator^=(const Wide& other) { return *this = *this ^ other; }
};

inline bool any(u64 w) { return w != 0; }
inline bool any(const Wide& w) { return (w.part[0] | w.part[1] | w.part[2] | w.part[3]) != 0; }

// The part of a word that is of one block.
inline u64& part(u64& w, u32) { return w; }
inline u64& part(Wide& w, u32 block) { return w.part[block]; }

// The least lane, or the number of lanes.
inline u32 least(u64 w) { return w ? u32(__builtin_ctzll(w)) : 64; }
inline u32 least(const Wide& w) {
    for (u32 i = 0; i < 4; ++i)
        if (w.part[i]) return 64 * i + u32(__builtin_ctzll(w.part[i]));
    return 256;
}

// The lanes below the least lane of a word; all where it has none.
inline u64 below_least(u64 w) { return ~w & (w - 1); }
inline Wide below_least(const Wide& w) {
    Wide out = {};
    for (u32 i = 0; i < 4; ++i) {
        out.part[i] = below_least(w.part[i]);
        if (w.part[i]) break;
    }
    return out;
}

// All lanes, or none.
template <class Word>
inline Word all_lanes(bool bit) { return Word{} ^ (0 - u64(bit)); }

// ------------------------------------------------------------------ the kernel

// What a thread keeps for words of one width.  A UNIT is a block, or a group of four in turn; it goes by
// its first block.
template <class Word>
class Kernel {
    static constexpr u32 BLOCKS = sizeof(Word) / 8;
    const Job& j_;
    u32 unit_ = NONE;
    Word inside_{};                    // the lanes of the unit that are tests
    std::vector<Word> val_;            // between calls: the fault-free words of the unit
    std::vector<u32> bucket_, fill_;   // the places that wait, level by level, and how many in each
    std::vector<u8> pending_;          // whether a place waits
    std::vector<u32> changed_;         // the places that differ, in turn, and their words before
    std::vector<Word> before_;

  public:
    static constexpr u32 LANES = 64 * BLOCKS;
    u64 evaluations = 0;               // one gate on one word, whatever its width

    explicit Kernel(const Job& j)
        : j_(j), val_(j.size), bucket_(j.size), fill_(j.bucket_begin.size(), 0), pending_(j.size, 0),
          changed_(j.size), before_(j.size) {}

    // Loads the fault-free words of a unit.
    void enter(u32 unit) {
        if (unit_ == unit) return;
        unit_ = unit;
        for (u32 i = 0; i < BLOCKS; ++i) {
            u32 block = unit + i;
            u32 tests = block < j_.blocks ? std::min(64u, j_.tests - 64 * block) : 0;
            part(inside_, i) = tests == 64 ? ~u64(0) : (u64(1) << tests) - 1;
            if (tests == 0) continue;
            const u64* good = &j_.good[size_t(block) * j_.size];
            if (BLOCKS == 1) std::memcpy(val_.data(), good, size_t(j_.size) * 8);
            else for (u32 n = 0; n < j_.size; ++n) part(val_[n], i) = good[n];
        }
    }

    // By events: the lanes that detect a class.  With `trim` only lanes below the least one so far are
    // followed on, so that one is right, and others may be missing.
    Word detect(const Origin& o, bool trim) {
        Word fits = fitting(o), diff = excited(o, fits);
        if (!any(diff) || o.where == AT_OBSERVER) return diff;
        if (o.where == AT_PIN) diff = pin_change(o, diff);
        if (!any(diff)) return diff;
        u32 start = o.where == AT_PIN ? o.gate : o.signal;
        return spread(start, diff, fits, [trim](Word& followed, const Word& seen) {
            if (trim) followed &= below_least(seen);
        });
    }

    // By regions: the lanes in which a class arrives at the stem of its region; at an observer, those in
    // which it is seen.
    Word arrival(const Origin& o) {
        Word diff = excited(o, fitting(o));
        if (!any(diff) || o.where == AT_OBSERVER) return diff;
        if (o.where == AT_PIN) return arrive(o.gate, pin_change(o, diff));
        return arrive(o.signal, diff);
    }

    // Lets a signal differ in some lanes, of those that are followed, and spreads that level by level.
    // Where a difference is observed, `follow(followed, seen)` may take lanes from those followed.
    // Tells lanes in which the difference is observed: all such of those that are followed at the end,
    // some of the others.
    template <class Follow>
    Word spread(u32 start, Word diff, Word followed, Follow follow) {
        const Gate* gate = j_.gate.data();
        const u32* pin = j_.pin.data();
        const u32* fan = j_.fan.data();
        const u32* begin = j_.bucket_begin.data();
        Word* val = val_.data();
        u32* bucket = bucket_.data();
        u32* fill = fill_.data();
        u8* pending = pending_.data();
        u32 changes = 0, high = 0;
        u64 count = 0;
        Word seen{};

        auto change = [&](u32 n, const Word& lanes) {
            const Gate& g = gate[n];
            changed_[changes] = n;
            before_[changes++] = val[n];
            val[n] ^= lanes;
            if (g.observed) {
                seen |= lanes;
                follow(followed, seen);
            }
            for (u32 k = g.fan_begin; k < g.fan_end; ++k) {
                u32 r = fan[k];
                if (pending[r]) continue;
                pending[r] = 1;
                u32 l = gate[r].level;
                bucket[begin[l] + fill[l]++] = r;
                high = std::max(high, l);
            }
        };

        change(start, diff);
        for (u32 l = gate[start].level + 1; l <= high; ++l) {
            u32 here = fill[l];
            fill[l] = 0;
            const u32* row = bucket + begin[l];
            if (!any(followed)) {  // nothing can change what is told: only clear up
                for (u32 k = 0; k < here; ++k) pending[row[k]] = 0;
                continue;
            }
            for (u32 k = 0; k < here; ++k) {
                u32 n = row[k];
                pending[n] = 0;
                Word lanes = (evaluate(gate[n], val, pin) ^ val[n]) & followed;
                if (any(lanes)) change(n, lanes);
            }
            count += here;
        }
        while (changes > 0) {
            --changes;
            val[changed_[changes]] = before_[changes];
        }
        evaluations += count;
        return seen;
    }

  private:
    // The lanes in which the class may be detected at all: those of the tests, and for a transition fault
    // those where the test before gives the line the bit that it is slow to leave, in a list of pairs those
    // of odd number alone.
    Word fitting(const Origin& o) const {
        if (!j_.transition) return inside_;
        Word earlier = val_[o.signal] << 1;
        for (u32 i = 0; i < BLOCKS; ++i) {
            u32 block = unit_ + i;
            if (block == 0 || block >= j_.blocks) continue;
            // Each block's lane 0 comes after the last lane of the block before.
            part(earlier, i) |= j_.good[size_t(block - 1) * j_.size + o.signal] >> 63;
        }
        Word lanes = inside_ & ~(earlier ^ all_lanes<Word>(o.stuck));
        if (unit_ == 0) part(lanes, 0) &= ~u64(1);  // the first test has none before it
        if (j_.pairs)
            for (u32 i = 0; i < BLOCKS; ++i) part(lanes, i) &= 0xAAAAAAAAAAAAAAAA;
        return lanes;
    }

    // The lanes, of some, in which the line has not the stuck bit.
    Word excited(const Origin& o, const Word& lanes) const {
        return (val_[o.signal] ^ all_lanes<Word>(o.stuck)) & lanes;
    }

    // The lanes, of those that excite a fault at a pin, in which it changes the gate's word.
    Word pin_change(const Origin& o, const Word& excited) {
        const Gate& g = j_.gate[o.gate];
        u64 in = 0 - u64(g.in), out = 0 - u64(g.out);
        bool is_xor = g.form == XOR2 || g.form == XORN;
        Word word = all_lanes<Word>(!is_xor), stuck = all_lanes<Word>(o.stuck);
        for (u32 k = g.pin_begin; k < g.pin_end; ++k) {
            Word pin = k - g.pin_begin == o.pin ? stuck : val_[j_.pin[k]];
            if (is_xor) word ^= pin;
            else word &= pin ^ in;
        }
        ++evaluations;
        return (word ^ out ^ val_[o.gate]) & excited;
    }

    // Follows a difference from a signal to the stem of its region, gate by gate: there is one reader each
    // time, so nothing waits.
    Word arrive(u32 n, Word diff) {
        for (u32 g; any(diff) && (g = j_.next[n]) != NONE; n = g) {
            Word good = val_[n];
            val_[n] = good ^ diff;
            diff = evaluate(j_.gate[g], val_.data(), j_.pin.data()) ^ val_[g];
            val_[n] = good;
            ++evaluations;
        }
        return diff;
    }
};
