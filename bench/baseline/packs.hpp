// Packs: several stems are flipped at once, each in a slot of lanes of its own.
#pragma once
#include <immintrin.h>
#include <numeric>
#include "workers.hpp"

template <u32 N>
struct alignas(N >= 4 ? 32 : N * 8) Vec {
    u64 p[N];
    template <class F> static Vec make(F f) {
        Vec o;
        for (u32 i = 0; i < N; ++i) o.p[i] = f(i);
        return o;
    }
    Vec operator&(const Vec& b) const { return make([&](u32 i) { return p[i] & b.p[i]; }); }
    Vec operator|(const Vec& b) const { return make([&](u32 i) { return p[i] | b.p[i]; }); }
    Vec operator^(const Vec& b) const { return make([&](u32 i) { return p[i] ^ b.p[i]; }); }
    Vec operator^(u64 b) const { return make([&](u32 i) { return p[i] ^ b; }); }
    Vec operator~() const { return make([&](u32 i) { return ~p[i]; }); }
    Vec& operator&=(const Vec& b) { return *this = *this & b; }
    Vec& operator|=(const Vec& b) { return *this = *this | b; }
    Vec& operator^=(const Vec& b) { return *this = *this ^ b; }
};
template <u32 N> inline bool any(const Vec<N>& w) {
    if constexpr (N == 1) return w.p[0] != 0;
    else {
#ifdef __AVX__
        if constexpr (N >= 4) {
            __m256i x = _mm256_loadu_si256((const __m256i*)w.p);
            for (u32 i = 4; i < N; i += 4) {
                __m256i y = _mm256_loadu_si256((const __m256i*)(w.p + i));
                x = (__m256i)_mm256_or_pd((__m256d)x, (__m256d)y);
            }
            return !_mm256_testz_si256(x, x);
        }
#endif
        __m128i x = _mm_loadu_si128((const __m128i*)w.p);
        for (u32 i = 2; i < N; i += 2)
            x = _mm_or_si128(x, _mm_loadu_si128((const __m128i*)(w.p + i)));
        return !_mm_testz_si128(x, x);
    }
}
template <u32 N> inline u32 least(const Vec<N>& w) {
    for (u32 i = 0; i < N; ++i) if (w.p[i]) return 64 * i + u32(__builtin_ctzll(w.p[i]));
    return 64 * N;
}
template <u32 N> inline Vec<N> below(const Vec<N>& w) {  // lanes below the least
    Vec<N> o{};
    for (u32 i = 0; i < N; ++i) { o.p[i] = below_least(w.p[i]); if (w.p[i]) break; }
    return o;
}

struct PackPlan {
    // Of each stage the tests of a unit and how often a word has them; the last stage goes on.
    std::vector<std::pair<u32, u32>> stages{{64, 8}, {256, 2}, {512, 1}};
    bool cones = true;    // places cone by cone, else by level
};

// Evaluations inside regions, beyond stems and without a fault, and what else is told.
struct PackTotals {
    u64 chain = 0, spread = 0, good = 0, words = 0;
    u64 spreads = 0, slots = 0, first_stage = 0, arrivals = 0;
};

// A block of memory whose pages are only touched where they are used.
template <class T> struct Raw {
    T* at = nullptr;
    size_t bytes = 0;
    void reserve(size_t n) {
        if (n * sizeof(T) <= bytes) return;
        std::free(at);
        bytes = (n * sizeof(T) + 63) / 64 * 64;
        at = static_cast<T*>(std::aligned_alloc(64, bytes));
    }
    ~Raw() { std::free(at); }
};

// What stays from unit to unit.
struct State {
    std::vector<u32> seat;            // of each region the open seats, from first_seat[r] on
    std::vector<u32> count;           // and how many these are
    std::vector<u32> first;           // of each seat: the first test that detects it
    Raw<u64> good, cur, sens;         // the unit's fault-free words; for cur and sens see Engine
    std::vector<u32> index, changed, stamp, climb;
    std::vector<u64> bits;            // the places that wait, as a set
    std::vector<u64> top;             // and which words of it have any
    std::vector<u8> last;             // of each place: the bit under the test before the unit
    u32 now = 0;
};

// Simulates all open classes on one unit of tests.  A word has P parts of 64 lanes; a unit of K
// parts stands in it once or in P / K copies, and each stem of a pack is flipped in one copy.
template <u32 K, u32 P>
class Engine {
    using TW = Vec<K>;     // the tests of the unit
    using Word = Vec<P>;
    const Job& j_;
    const Tests& t_;
    State& s_;
    PackTotals& n_;
    const u32 start_;
    TW* good_;
    TW* sens_;
    Word* cur_;            // cur_[0] is 0, cur_[i] the lanes in which place changed[i] differs
    TW inside_{};
    struct Wanted { u32 seat, hit; TW rest; };
    struct Slot { u32 stem, region, begin, end; TW lanes; };
    std::vector<Wanted> wanted_;
    std::vector<Slot> slots_;

    Word all_copies(const TW& w) const {
        if constexpr (K == P) return w;
        else return Word::make([&](u32 i) { return w.p[i % K]; });
    }
    TW of_copy(const Word& w, u32 q) const {
        return TW::make([&](u32 i) { return w.p[q * K + i]; });
    }
    void or_copy(Word& w, u32 q, const TW& lanes) const {
        for (u32 i = 0; i < K; ++i) w.p[q * K + i] |= lanes.p[i];
    }
    void and_copy(Word& w, u32 q, const TW& lanes) const {
        for (u32 i = 0; i < K; ++i) w.p[q * K + i] &= lanes.p[i];
    }
    Word word_of(u32 a) const { return all_copies(good_[a]) ^ cur_[s_.index[a]]; }

    // How a gate's word differs from its fault-free one.
    Word difference(u32 n) const {
        const Gate& g = j_.gate[n];
        u64 in = 0 - u64(g.in), out = 0 - u64(g.out);
        Word w, good = all_copies(good_[n]);
        switch (g.form) {
            case AND2: return ((word_of(g.a) ^ in) & (word_of(g.b) ^ in)) ^ out ^ good;
            case XOR2: return cur_[s_.index[g.a]] ^ cur_[s_.index[g.b]];
            case ANDN:
                w = (word_of(g.a) ^ in) & (word_of(g.b) ^ in);
                for (u32 k = g.pin_begin + 2; k < g.pin_end; ++k) w &= word_of(j_.pin[k]) ^ in;
                return w ^ out ^ good;
            default:
                w = cur_[s_.index[g.a]] ^ cur_[s_.index[g.b]];
                for (u32 k = g.pin_begin + 2; k < g.pin_end; ++k) w ^= cur_[s_.index[j_.pin[k]]];
                return w;
        }
    }

  public:
    Engine(const Job& j, const Tests& t, State& s, PackTotals& n, u32 start)
        : j_(j), t_(t), s_(s), n_(n), start_(start) {
        s_.good.reserve(size_t(j.size) * K);
        s_.sens.reserve(size_t(j.size) * K);
        s_.cur.reserve((size_t(j.size) + 1) * P);
        good_ = reinterpret_cast<TW*>(s_.good.at);
        sens_ = reinterpret_cast<TW*>(s_.sens.at);
        cur_ = reinterpret_cast<Word*>(s_.cur.at);
        cur_[0] = Word{};
        ++s_.now;
        find_good();
    }

    // The fault-free words of the unit, by words of all of its tests.
    void find_good() {
        u32 sources = t_.width;
        for (u32 i = 0; i < K; ++i) {
            u32 block = start_ / 64 + i;
            u32 have = block < t_.blocks() ? std::min(64u, t_.count - 64 * block) : 0;
            inside_.p[i] = have == 64 ? ~u64(0) : (u64(1) << have) - 1;
        }
        for (u32 i = 0; i < sources; ++i) {
            TW w{};
            for (u32 k = 0; k < K; ++k) {
                u32 block = start_ / 64 + k;
                if (block < t_.blocks()) w.p[k] = t_.words[size_t(block) * sources + j_.source[i]];
            }
            good_[i] = w;
        }
        for (u32 n = sources; n < j_.size; ++n)
            good_[n] = evaluate(j_.gate[n], good_, j_.pin.data());
        n_.good += j_.size - sources;
    }
    // Keeps the bits under the last test for the unit after this one.
    void keep_last() {
        if (!j_.transition) return;
        for (u32 n = 0; n < j_.size; ++n) s_.last[n] = u8(good_[n].p[K - 1] >> 63);
    }

    TW fitting(const Origin& o) const {
        if (!j_.transition) return inside_;
        TW earlier;
        for (u32 i = 0; i < K; ++i) {
            u64 before = i == 0 ? u64(s_.last[o.signal]) : good_[o.signal].p[i - 1] >> 63;
            earlier.p[i] = good_[o.signal].p[i] << 1 | before;
        }
        TW lanes = inside_ & ~(earlier ^ (0 - u64(o.stuck)));
        if (start_ == 0) lanes.p[0] &= ~u64(1);
        if (j_.pairs)
            for (u32 i = 0; i < K; ++i) lanes.p[i] &= 0xAAAAAAAAAAAAAAAA;
        return lanes;
    }
    TW excited(const Origin& o) const {
        return (good_[o.signal] ^ (0 - u64(o.stuck))) & fitting(o);
    }

    // The lanes in which a flip of a pin alone changes the gate's output.
    TW side(u32 gate, u32 pin) {
        const Gate& g = j_.gate[gate];
        ++n_.chain; n_.words += K;
        TW all = TW{} ^ ~u64(0);
        if (g.form == XOR2 || g.form == XORN) return all;
        u64 in = 0 - u64(g.in);
        if (g.form == AND2)
            return g.pin_end - g.pin_begin == 1 ? all : good_[pin == 0 ? g.b : g.a] ^ in;
        for (u32 k = g.pin_begin; k < g.pin_end; ++k)
            if (k - g.pin_begin != pin) all &= good_[j_.pin[k]] ^ in;
        return all;
    }
    u32 pin_of(u32 gate, u32 signal) const {
        u32 k = j_.gate[gate].pin_begin;
        while (j_.pin[k] != signal) ++k;
        return k - j_.gate[gate].pin_begin;
    }
    // The lanes in which a flip of a signal changes the stem of its region: found once in a unit,
    // where it is asked for.
    const TW& sens(u32 n) {
        u32* stamp = s_.stamp.data();
        s_.climb.clear();
        for (u32 m = n; stamp[m] != s_.now; m = j_.next[m]) {
            s_.climb.push_back(m);
            if (j_.next[m] == NONE) break;
        }
        while (!s_.climb.empty()) {
            u32 m = s_.climb.back(), g = j_.next[m];
            s_.climb.pop_back();
            if (g == NONE) sens_[m] = inside_;
            else sens_[m] = any(sens_[g]) ? sens_[g] & side(g, pin_of(g, m)) : sens_[g];
            stamp[m] = s_.now;
        }
        return sens_[n];
    }
    TW arrival(const Origin& o) {
        TW diff = excited(o);
        if (!any(diff) || o.where == AT_OBSERVER) return diff;
        ++n_.arrivals;
        if (o.where != AT_PIN) return diff & sens(o.signal);
        diff &= sens(o.gate);
        return any(diff) ? diff & side(o.gate, o.pin) : diff;
    }

    void close(u32 seat, u32 lane) { s_.first[seat] = start_ + lane; }
    void compact(u32 r) {
        u32 *s = &s_.seat[j_.first_seat[r]], n = 0;
        for (u32 k = 0; k < s_.count[r]; ++k) if (s_.first[s[k]] == NONE) s[n++] = s[k];
        s_.count[r] = n;
    }

    // Lanes of a slot are newly seen: the lanes that its classes still need.
    TW update(Slot& s, const TW& fresh) {
        TW needed{};
        for (u32 k = s.begin; k < s.end;) {
            Wanted& w = wanted_[k];
            TW t = w.rest & fresh;
            if (any(t)) { w.hit = least(t); w.rest &= below(t); }
            needed |= w.rest;
            if (any(w.rest)) ++k;
            else { close(w.seat, w.hit); std::swap(w, wanted_[--s.end]); }
        }
        return needed;
    }

    void flush() {
        if (slots_.empty()) return;
        ++n_.spreads; n_.slots += slots_.size();
        spread();
        for (Slot& s : slots_) {
            for (u32 k = s.begin; k < s.end; ++k)
                if (wanted_[k].hit != NONE) close(wanted_[k].seat, wanted_[k].hit);
            compact(s.region);
        }
        slots_.clear(); wanted_.clear();
    }

    // Flips each stem of the pack in its lanes, and follows what differs place by place.
    void spread() {
        const Gate* gate = j_.gate.data();
        const u32* fan = j_.fan.data();
        u64* bits = s_.bits.data();
        u64* top = s_.top.data();
        u32* index = s_.index.data();
        u32* changed = s_.changed.data();
        u32 changes = 0, high = 0, si = 0, ns = u32(slots_.size()), wi = 0;
        u64 count = 0;
        Word followed{};
        for (u32 q = 0; q < ns; ++q) or_copy(followed, q, slots_[q].lanes);
        auto observe = [&](const Word& lanes) {
            Word fresh = lanes & followed;
            if (!any(fresh)) return;
            for (u32 q = 0; q < ns; ++q) {
                TW f = of_copy(fresh, q);
                if (any(f)) and_copy(followed, q, update(slots_[q], f));
            }
        };
        auto change = [&](u32 n, const Word& lanes) {
            const Gate& g = gate[n];
            index[n] = ++changes;
            changed[changes] = n;
            cur_[changes] = lanes;
            if (g.observed) observe(lanes);
            for (u32 k = g.fan_begin; k < g.fan_end; ++k) {
                u32 r = fan[k];
                bits[r >> 6] |= u64(1) << (r & 63);
                top[r >> 12] |= u64(1) << (r >> 6 & 63);
                high = std::max(high, r >> 12);
            }
        };
        auto start = [&] {
            u32 stem = slots_[si].stem;
            Word lanes{};
            or_copy(lanes, si, slots_[si].lanes);
            ++si;
            wi = stem >> 6;
            change(stem, lanes);
        };
        start();
        while (any(followed)) {
            u64 w = bits[wi];
            if (!w) {
                u32 ti = wi >> 6;
                top[ti] &= ~(u64(1) << (wi & 63));
                u64 t = top[ti] & (~u64(0) << (wi & 63));
                while (!t && ti < high) t = top[++ti];
                if (t) wi = ti * 64 + u32(__builtin_ctzll(t));
                else if (si < ns) start();
                else break;
                continue;
            }
            u32 n = wi * 64 + u32(__builtin_ctzll(w));
            if (si < ns && slots_[si].stem < n) { start(); continue; }
            bits[wi] = w & (w - 1);
            ++count;
            Word lanes = difference(n) & followed;
            if (si < ns && slots_[si].stem == n) { or_copy(lanes, si, slots_[si].lanes); ++si; }
            if (any(lanes)) change(n, lanes);
        }
        for (u32 ti = wi >> 6; ti <= high; ++ti) {
            for (u64 t = top[ti]; t; t &= t - 1) bits[ti * 64 + u32(__builtin_ctzll(t))] = 0;
            top[ti] = 0;
        }
        for (; changes > 0; --changes) index[changed[changes]] = 0;
        n_.spread += count;
        n_.words += count * P;
    }

    void process(const std::vector<u32>& order) {
        for (u32 r : order) {
            u32 n = s_.count[r], stem = j_.stem[r], begin = u32(wanted_.size());
            bool observed = j_.gate[stem].observed, closed = false;
            TW lanes{};
            const u32* seats = &s_.seat[j_.first_seat[r]];
            for (u32 k = 0; k < n; ++k) {
                const Origin& o = j_.origin[seats[k]];
                TW a = arrival(o);
                if (!any(a)) continue;
                if (observed || o.where == AT_OBSERVER) {
                    close(seats[k], least(a));
                    closed = true;
                    continue;
                }
                lanes |= a;
                wanted_.push_back({seats[k], NONE, a});
            }
            if (begin == wanted_.size()) {
                if (closed) compact(r);
                continue;
            }
            slots_.push_back({stem, r, begin, u32(wanted_.size()), lanes});
            if (slots_.size() == P / K) flush();
        }
        flush();
        keep_last();
    }
};

inline std::vector<u32> run_packs(const Job& j, const Tests& all, const PackPlan& plan,
                                  Totals& totals, PackTotals& t) {
    State s;
    u32 classes = u32(j.origin.size());
    s.first.assign(classes, NONE);
    s.seat.resize(classes);
    std::iota(s.seat.begin(), s.seat.end(), 0);
    s.index.assign(j.size, 0);
    s.changed.resize(j.size + 1);
    s.stamp.assign(j.size, 0);
    s.bits.assign(j.size / 64 + 1, 0);
    s.top.assign(j.size / 4096 + 1, 0);
    s.last.assign(j.transition ? j.size : 0, 0);
    std::vector<u8> live(j.size, 0);
    for (u32 n = j.size; n-- > 0;) {
        live[n] = j.gate[n].observed;
        for (u32 k = j.gate[n].fan_begin; k < j.gate[n].fan_end; ++k) live[n] |= live[j.fan[k]];
    }
    std::vector<u32> order;
    for (u32 r = 0; r < j.stem.size(); ++r) {
        s.count.push_back(j.first_seat[r + 1] - j.first_seat[r]);
        if (live[j.stem[r]]) order.push_back(r);
    }
    size_t stage = 0;
    for (u32 start = 0; start < j.tests;) {
        auto [tests, copies] = plan.stages[std::min(stage++, plan.stages.size() - 1)];
        auto done_with = [&](u32 r) { return s.count[r] == 0; };
        order.erase(std::remove_if(order.begin(), order.end(), done_with), order.end());
        while (tests > 64 && tests / 2 >= j.tests - start) tests /= 2, copies *= 2;
        if (order.empty()) break;
        u32 k = tests / 64, p = k * copies;
        bool done = false;
        auto run = [&](auto kk, auto pp) {
            constexpr u32 K = decltype(kk)::value, P = decltype(pp)::value;
            if (k != K || p != P) return;
            Engine<K, P>(j, all, s, t, start).process(order);
            done = true;
        };
#define C(K, P) run(std::integral_constant<u32, K>{}, std::integral_constant<u32, P>{});
        C(1, 1) C(1, 2) C(1, 4) C(1, 8) C(1, 16) C(2, 2) C(2, 4) C(2, 8) C(2, 16)
        C(4, 4) C(4, 8) C(4, 16) C(8, 8) C(8, 16) C(16, 16)
#undef C
        if (!done) refuse("no such stage");
        if (start == 0) t.first_stage = t.spread;
        start += tests;
    }
    totals.evaluations = t.chain + t.spread;
    std::vector<u32> result(classes);
    for (u32 k = 0; k < classes; ++k) result[k] = s.first[j.seat[k]];
    return result;
}

// Orders the signals cone by cone, from the lowest observed signal on: sources first, then of each
// observed signal the gates of its cone that no lower one has, each after what it reads.  So what
// is met first when a difference spreads leads to the nearest observer.
inline void order_by_cones(Circuit& c) {
    std::vector<u8> met(c.signals(), 0);
    std::vector<u32> order(c.order.begin(), c.order.begin() + c.sources());
    for (u32 s : order) met[s] = 1;
    std::vector<std::pair<u32, u32>> stack;   // a signal, and how many of its pins were looked at
    auto visit = [&](u32 root) {
        if (met[root]) return;
        met[root] = 1;
        stack.push_back({root, 0});
        while (!stack.empty()) {
            auto& [s, k] = stack.back();
            if (c.pin_begin[s] + k == c.pin_begin[s + 1]) {
                order.push_back(s);
                stack.pop_back();
                continue;
            }
            u32 pin = c.pins[c.pin_begin[s] + k++];
            if (!met[pin]) met[pin] = 1, stack.push_back({pin, 0});
        }
    };
    std::vector<u32> observed(c.outputs);
    observed.insert(observed.end(), c.cell_d.begin(), c.cell_d.end());
    auto lower = [&](u32 a, u32 b) { return c.level[a] < c.level[b]; };
    std::stable_sort(observed.begin(), observed.end(), lower);
    for (u32 s : observed) visit(s);
    for (u32 s : c.order) visit(s);           // dead gates
    c.order = order;
}
