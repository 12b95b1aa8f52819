#include "handover.h"

#include <algorithm>

namespace judge {

namespace {

constexpr std::size_t MOST = 32;    // offers and hands of a block, flags that one has read
constexpr std::size_t MOST_FLAGS = 1 << 20;
constexpr int MOST_HOLDERS = 64;    // each holds the pointer of the next

}  // namespace

// A stack isn't handed over: what it holds belongs to several.
u64 Handover::block_of(u64 pointer) const {
    auto after = blocks_.upper_bound(pointer);
    if (after == blocks_.begin())
        return 0;
    const auto &found = *std::prev(after);
    const event &taken = run_.trace[found.second.at];
    bool is_block = taken.kind == MEMORY && taken.mark != STACK && pointer - found.first < found.second.size;
    return is_block ? found.first : 0;
}

void Handover::see(std::size_t at, const event &e) {
    if (run_.counts.locks == 0)
        return;
    const Step step{static_cast<u32>(at), run_.segment_of[at]};
    see_flag(e, step, run_.locks_of[at]);
    if (e.size == sizeof(u64))
        see_pointer(e, step, run_.locks_of[at]);
}

void Handover::see_pointer(const event &e, const Step &step, u32 locks) {
    if (blocks_.empty() || e.value < blocks_.begin()->first || (e.kind == READ && locks == 0))
        return;
    const u64 block = block_of(e.value);
    if (!block)
        return;
    if (e.kind == READ)
        return take(known_[block], Offer{step, locks});
    const u64 holder = block_of(e.address);
    if (holder && holder != block)
        known_[block].holder = holder;
    if (locks)
        offer(known_[block], Offer{step, locks});
}

bool Handover::is_new_since(u64 address, const Step &step) const {
    auto after = blocks_.upper_bound(address);
    return after != blocks_.begin() && std::prev(after)->second.at > step.at;
}

void Handover::see_flag(const event &e, const Step &step, u32 locks) {
    auto found = flags_.find(e.address);
    if (found != flags_.end() && is_new_since(e.address, found->second.written)) {
        flags_.erase(found);
        found = flags_.end();
    }
    if (e.kind == WRITE) {
        if (found != flags_.end()) {
            found->second.is_one = false;
        } else if (locks && flags_.size() < MOST_FLAGS) {
            flags_.emplace(e.address, Flag{step, locks, e.value, true});
            last_flag_[step.segment] = step.at;
        }
        return;
    }
    if (found == flags_.end() || !found->second.is_one || found->second.value != e.value
        || !run_.locks.exclude(found->second.locks, locks))
        return;
    auto &signals = signals_[run_.segments[step.segment].actor];
    if (signals.size() == MOST)
        signals.erase(signals.begin());
    signals.push_back(Signal{e.address, step});
}

bool Handover::is_told(const Step &earlier, const Step &later) {
    auto signals = signals_.find(run_.segments[later.segment].actor);
    return signals != signals_.end() && std::any_of(signals->second.begin(), signals->second.end(), [&](const Signal &signal) {
        auto flag = flags_.find(signal.flag);
        return flag != flags_.end() && flag->second.is_one && flag->second.written.at < signal.read.at
               && follows(signal.read, later) && follows(earlier, flag->second.written);
    });
}

void Handover::offer(Known &block, const Offer &offer) {
    if (block.offers.size() == MOST)
        block.offers.erase(block.offers.begin());
    block.offers.push_back(offer);
}

void Handover::take(Known &block, const Offer &taker) {
    if (block.offers.empty() || !run_.locks.exclude(block.offers.back().locks, taker.locks))
        return;
    if (block.hands.size() == MOST)
        block.hands.erase(block.hands.begin());
    block.hands.push_back(Hand{block.offers.back().step, taker.step});
}

void Handover::forget(u64 address, u64 size) {
    known_.erase(known_.lower_bound(address), known_.lower_bound(address + size));
}

// The block itself, or the nearest one that holds its pointer, whose own was written under a lock.
const Handover::Known *Handover::offered(u64 block) const {
    for (int i = 0; i < MOST_HOLDERS && block; i++) {
        auto found = known_.find(block);
        if (found == known_.end())
            return nullptr;
        if (!found->second.offers.empty())
            return &found->second;
        block = found->second.holder;
    }
    return nullptr;
}

bool Handover::is_offered(u32 segment, u32 from, u32 to, u64 address) const {
    auto flag = last_flag_.find(segment);
    if (flag != last_flag_.end() && flag->second > from && flag->second < to)
        return true;
    const u64 begin = known_.empty() ? 0 : block_of(address);
    const Known *block = begin ? offered(begin) : nullptr;
    return block && std::any_of(block->offers.begin(), block->offers.end(), [=](const Offer &offer) {
        return offer.step.at > from && offer.step.at < to;
    });
}

bool Handover::follows(const Step &earlier, const Step &later) {
    return earlier.segment == later.segment ? earlier.at < later.at : run_.is_before(earlier.segment, later.segment);
}

// Whether who does the step has the block: from an offer on anybody may take it, also who has offered it.
bool Handover::is_in_hand(const Known &block, const Step &step) {
    return std::all_of(block.offers.begin(), block.offers.end(), [&](const Offer &offer) {
        return !follows(offer.step, step) || std::any_of(block.hands.begin(), block.hands.end(), [&](const Hand &hand) {
            return follows(offer.step, hand.taken) && follows(hand.taken, step);
        });
    });
}

// It may have gone through several hands.
bool Handover::is_between(const Step &earlier, const Step &later, u64 address) {
    if (is_told(earlier, later))
        return true;
    const u64 begin = known_.empty() ? 0 : block_of(address);
    const Known *block = begin ? offered(begin) : nullptr;
    if (!block || !is_in_hand(*block, earlier))
        return false;
    std::vector<Step> reached(1, earlier);
    for (const Hand &hand : block->hands) {
        auto is_given_after = [&](const Step &step) { return follows(step, hand.given); };
        if (!std::any_of(reached.begin(), reached.end(), is_given_after))
            continue;
        if (follows(hand.taken, later))
            return true;
        reached.push_back(hand.taken);
    }
    return false;
}

}  // namespace judge
