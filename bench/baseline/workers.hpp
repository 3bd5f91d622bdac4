// Workers: which class is simulated on which block, by whom, and what is kept from piece to piece.

#pragma once

#include <memory>

#include "kernel.hpp"

struct Plan {
    bool regions = false;  // one flip of a stem for all classes of its region, in place of one run a class
    bool groups = false;   // four blocks at a time, from the second block on
    bool trim = true;      // by events: only lanes below the least hit are followed on
    bool drop = true;      // a class is done at its first hit
};

// The outcome of a class on a step, a block or a group: the least lane that detects it, or NONE.
struct Outcome {
    u32 step, lane;
};

// Of each seat the outcome on the last step on which it was found out.  An entry is true whoever put it
// there, and one word, so all workers share this table and need no order between them.
class Memos {
    std::vector<std::atomic<u64>> words_;

  public:
    explicit Memos(size_t seats) : words_(seats) {
        for (auto& w : words_) w.store(~u64(0), std::memory_order_relaxed);
    }
    Outcome at(u32 seat) const {
        u64 w = words_[seat].load(std::memory_order_relaxed);
        return {u32(w >> 32), u32(w)};
    }
    void put(u32 seat, Outcome o) {
        words_[seat].store(u64(o.step) << 32 | o.lane, std::memory_order_relaxed);
    }
};

// Finds out classes on units of one width.
template <class Word>
class Finder {
    // A class of the region in hand, and the lanes in which it arrives at the stem.
    struct Wanted {
        u32 seat;
        Word arrives;
    };
    const Job& j_;
    const Plan plan_;
    Memos& memos_;
    std::vector<Wanted> wanted_;

    Outcome conclude(u32 seat, u32 step, const Word& seen) {
        u32 lane = least(seen);
        Outcome o{step, lane == Kernel<Word>::LANES ? NONE : lane};
        memos_.put(seat, o);
        return o;
    }

    // Whether a class will likely be asked for on this step too: on the first step every one, later those
    // that were clear on the step before.  Any answer is right; a bad one costs evaluations.
    bool likely(u32 seat, u32 step) const {
        Outcome o = memos_.at(seat);
        return step == 0 ? o.step == NONE : o.step == step - 1 && o.lane == NONE;
    }

    // Takes the other likely classes of the region in hand too, and concludes those that don't arrive.
    void gather(u32 region, u32 seat, u32 step) {
        for (u32 other = j_.first_seat[region]; other < j_.first_seat[region + 1]; ++other) {
            const Origin& o = j_.origin[other];
            if (other == seat || o.where == AT_OBSERVER || !likely(other, step)) continue;
            Word arrives = kernel.arrival(o);
            if (any(arrives)) wanted_.push_back({other, arrives});
            else conclude(other, step, arrives);
        }
    }

    // Flips the stem in all lanes that are wanted at once.  Each class is followed below its own hit alone.
    Word flip(u32 stem) {
        Word lanes{}, last{};
        for (const Wanted& w : wanted_) lanes |= w.arrives;
        return kernel.spread(stem, lanes, lanes, [&](Word& followed, const Word& seen) {
            if (!any(seen & ~last)) return;
            last = seen;
            Word needed{};
            for (const Wanted& w : wanted_) needed |= w.arrives & below_least(w.arrives & seen);
            followed &= needed;
        });
    }

  public:
    Kernel<Word> kernel;

    Finder(const Job& j, const Plan& plan, Memos& memos) : j_(j), plan_(plan), memos_(memos), kernel(j) {}

    // The outcome of a class on the step that begins at a block.
    Outcome find_out(u32 seat, u32 block, u32 step) {
        kernel.enter(block);
        const Origin& o = j_.origin[seat];
        if (!plan_.regions) return conclude(seat, step, kernel.detect(o, plan_.trim));
        u32 region = j_.region_of(o), stem = j_.stem[region];
        Word own = kernel.arrival(o);
        bool ends_here = o.where == AT_OBSERVER || j_.gate[stem].observed;
        if (!any(own) || ends_here) return conclude(seat, step, own);
        wanted_.clear();
        wanted_.push_back({seat, own});
        gather(region, seat, step);
        Word seen = flip(stem);
        for (size_t k = 1; k < wanted_.size(); ++k)
            conclude(wanted_[k].seat, step, wanted_[k].arrives & seen);
        return conclude(seat, step, own & seen);
    }
};

// One thread's kernels and counts.  The first block is handled by itself, since most classes drop there;
// with groups the later ones go four at a time.  A STEP is a block by itself or a group, in turn.
class Worker {
    const Plan plan_;
    const Job& j_;
    Memos& memos_;
    Finder<u64> narrow_;
    std::unique_ptr<Finder<Wide>> wide_;

    // By events on the block alone.
    u32 alone(u32 seat, u32 block) {
        narrow_.kernel.enter(block);
        return least(narrow_.kernel.detect(j_.origin[seat], plan_.trim));
    }

  public:
    u64 simulated = 0;

    Worker(const Job& j, const Plan& plan, Memos& memos)
        : plan_(plan), j_(j), memos_(memos), narrow_(j, plan, memos) {
        if (plan.groups && j.blocks > 1) wide_ = std::make_unique<Finder<Wide>>(j, plan, memos);
    }

    u64 wide_evaluations() const { return wide_ ? wide_->kernel.evaluations : 0; }
    u64 evaluations() const { return narrow_.kernel.evaluations + wide_evaluations(); }

    // The least lane of the block that detects the class, or 64.
    u32 outcome(u32 seat, u32 block) {
        ++simulated;
        if (!plan_.regions && !plan_.groups) return alone(seat, block);
        bool grouped = wide_ && block > 0;
        u32 step = grouped ? 1 + (block - 1) / 4 : block;
        u32 within = grouped ? (block - 1) % 4 : 0;
        Outcome o = memos_.at(seat);
        // What `find_out` gives is read, not the memo again: another worker may have put a later step there.
        if (o.step != step)
            o = grouped ? wide_->find_out(seat, block - within, step) : narrow_.find_out(seat, block, step);
        u32 from = 64 * within;
        if (o.lane == NONE || o.lane >= from + 64) return 64;
        if (o.lane >= from) return o.lane - from;
        // The class was hit in an earlier block of the group and wasn't dropped.
        return alone(seat, block);
    }
};

struct Totals {
    u64 evaluations = 0, wide = 0, simulated = 0, pieces = 0;
};

// The first test of each class, or NONE.  Piece n is the class at seat n mod C on block n div C; workers
// claim pieces in chunks from one counter.
inline std::vector<u32> run(const Job& j, const Plan& plan, u32 workers, Totals& totals) {
    u64 classes = j.origin.size(), pieces = classes * j.blocks;
    std::vector<std::atomic<u32>> first(classes);  // of each seat
    for (auto& x : first) x.store(NONE, std::memory_order_relaxed);
    Memos memos(plan.regions || plan.groups ? classes : 0);
    alignas(64) std::atomic<u64> next{0};
    std::atomic<u64> evaluations{0}, wide{0}, simulated{0};
    u64 chunk = std::clamp<u64>(classes / (u64(workers) * 16), 1, 256);
    in_threads(workers, [&](u32) {
        Worker w(j, plan, memos);
        for (u64 n; (n = next.fetch_add(chunk, std::memory_order_relaxed)) < pieces;) {
            u64 stop = std::min(n + chunk, pieces);
            u32 block = u32(n / classes), seat = u32(n % classes);
            for (; n < stop; ++n) {
                u32 known = first[seat].load(std::memory_order_relaxed);
                if (!plan.drop || known >= 64 * block) {
                    u32 lane = w.outcome(seat, block), test = 64 * block + lane;
                    while (lane < 64 && test < known &&
                           !first[seat].compare_exchange_weak(known, test, std::memory_order_relaxed)) {
                    }
                }
                if (++seat == classes) seat = 0, ++block;
            }
        }
        evaluations += w.evaluations();
        wide += w.wide_evaluations();
        simulated += w.simulated;
    });
    totals = {evaluations, wide, simulated, pieces};
    std::vector<u32> result(classes);
    for (u64 k = 0; k < classes; ++k) result[k] = first[j.seat[k]].load();
    return result;
}
