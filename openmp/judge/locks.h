// The sets of locks that are held, each known by a number; 0 is the empty one.
#pragma once

#include <algorithm>
#include <map>
#include <vector>

#include "trace.h"

namespace judge {

class LockSets {
public:
    LockSets() : sets_(1) { numbers_[{}] = 0; }

    u32 with(u32 set, u64 lock, bool is_shared) {
        auto locks = sets_[set];
        locks.push_back({lock, is_shared});
        std::sort(locks.begin(), locks.end());
        return number(locks);
    }

    u32 without(u32 set, u64 lock) {
        auto locks = sets_[set];
        auto at = std::find_if(locks.begin(), locks.end(), [=](const Lock &held) { return held.first == lock; });
        if (at != locks.end())
            locks.erase(at);
        return number(locks);
    }

    // Whether some lock keeps these two apart: both hold it, and not both only to read.
    bool exclude(u32 one, u32 other) const {
        if (one == 0 || other == 0)
            return false;
        for (const Lock &a : sets_[one])
            for (const Lock &b : sets_[other])
                if (a.first == b.first && !(a.second && b.second))
                    return true;
        return false;
    }

    // Whether all of these locks are held there too.
    bool are_in(u32 some, u32 all) const {
        return some == all || std::includes(sets_[all].begin(), sets_[all].end(), sets_[some].begin(), sets_[some].end());
    }

private:
    using Lock = std::pair<u64, bool>;

    u32 number(const std::vector<Lock> &locks) {
        auto added = numbers_.emplace(locks, static_cast<u32>(sets_.size()));
        if (added.second)
            sets_.push_back(locks);
        return added.first->second;
    }

    std::vector<std::vector<Lock>> sets_;
    std::map<std::vector<Lock>, u32> numbers_;
};

}  // namespace judge
