// What each thread of a larger team would do, where a team of one stands for it.
#include "memory.h"

namespace judge {

namespace {

constexpr std::size_t MOST_COPIED = 1 << 20;

}  // namespace

// In a team of one thread: what all threads of a larger one would do, to memory that they share, each would do at once.
void Memory::look_for_copies(const Now &now) {
    const Segment &segment = run_.segments[now.segment];
    const Actor &actor = run_.actors[segment.actor];
    bool is_copied = actor.flags & Actor::IS_PART ? !(segment.flags & (Segment::IS_UNIT | Segment::IS_ALONE))
                                                  : (actor.flags & Actor::IS_COPIED) != 0;
    if (!is_copied || actor.region == NONE)
        return;
    const Region &region = run_.regions[actor.region];
    if (!region.stands_for_more() || is_on_stack(segment.actor, now.address))
        return;
    const Block *block = block_at(now.address);
    if (block && block->at > region.begun)
        return;
    meet_copies(now, now.at < actor.parted, region.has_number);
    if (!now.is_write || now.is_atomic || now.locks != 0)
        return;
    if (region.has_number) {
        by_one_number++;
        return;
    }
    auto added = copied_.emplace(std::make_pair(segment.actor, run_.trace[now.at].place),
                                 Copied{now, now.at < actor.parted});
    Copied &known = added.first->second;
    if (!added.second && !known.is_sure && known.now.address != now.address)
        known.now.size = 0;
}

// What one thread does under a lock and then without it, another one may do at once. Where the threads go by their numbers,
// it may do something else.
void Memory::meet_copies(Now now, bool is_sure, bool has_number) {
    u64 end = (now.address + now.size + GRANULE - 1) / GRANULE;
    for (now.granule = now.address / GRANULE; now.granule < end && copied_at_.size() < MOST_COPIED; now.granule++) {
        auto &all = copied_at_[now.granule];
        now.mask = mask_of(now.granule, now.address, now.size);
        bool is_known = false;
        for (const Copied &other : all) {
            const Now &then = other.now;
            is_known = is_known || (then.locks == now.locks && then.is_atomic == now.is_atomic && then.is_write == now.is_write
                                    && (then.mask & now.mask) == now.mask);
            if (!(then.mask & now.mask) || !(then.is_write || now.is_write) || (then.is_atomic && now.is_atomic)
                || run_.locks.exclude(then.locks, now.locks))
                continue;
            if (has_number) {
                by_one_number++;
                continue;
            }
            Race *race = add_race(now, then.at, then.segment, false, true);
            if (race)
                race->is_sure = is_sure && other.is_sure;
        }
        if (!is_known && all.size() < MOST_RACES)
            all.push_back(Copied{now, is_sure});
    }
}

// Where the threads may have gone different ways, an address that varies may be another one for each.
void Memory::tell_copies() {
    for (auto &entry : copied_)
        if (entry.second.now.size != 0) {
            Race *race = add_race(entry.second.now, entry.second.now.at, entry.second.now.segment, false, true);
            if (race)
                race->is_sure = entry.second.is_sure;
        }
}

}  // namespace judge
