// Locks, which keep apart and don't order, and atomic operations that hand over, which order as they were seen.
#include "run.h"

namespace judge {

void Run::lock(std::size_t at, const event &e) {
    State &s = state_of(e);
    part_ways(s, at);
    if (e.kind == UNLOCK) {
        s.reduction = NONE;
        s.locks = locks.without(s.locks, e.address);
        return;
    }
    (e.value ? counts.reductions : counts.locks)++;
    s.locks = locks.with(s.locks, e.address, e.mark == SHARED);
    if (e.mark == REDUCES && s.phase != NONE && actors[s.actor].flags & Actor::IS_PART)
        reduce(s, at, e.address);
}

// Whoever of the team's threads puts the parts together, any other one might.
void Run::reduce(State &s, std::size_t at, u64 lock) {
    auto added = reduction_of_.emplace(std::make_pair(s.phase, lock), static_cast<u32>(reductions.size()));
    if (added.second)
        reductions.emplace_back();
    s.reduction = reduction_at[at] = added.first->second;
    segment_of[at] = s.segment;
    locks_of[at] = s.locks;
}

// Makes it a node after both.
void Run::join(u32 &node, u32 other) {
    if (node == other || other == NONE)
        return;
    if (node == NONE) {
        node = other;
        return;
    }
    u32 both = graph_.add(std::max(node, other));
    graph_.lead(std::min(node, other), both);
    node = both;
}

// What is stored over what was released is no release any more; who changes it hands on what was there.
void Run::release(const event &e) {
    State &s = state_of(e);
    if (e.mark & NOTHING) {
        released_.erase(e.address);
        return;
    }
    u32 node = node_of(s);
    auto added = released_.emplace(e.address, Released{NONE, s.actor, NONE, false});
    Released &at = added.first->second;
    if (!(e.mark & KEEPS))
        at = Released{NONE, s.actor, NONE, (e.mark & GUARD) != 0};
    if (at.actor != s.actor)
        at.actor = NONE;
    join(at.node, node);
    if (!(e.mark & DOWN))
        join(at.raised, node);
    split(s);
}

// Who counts up takes nothing over from those who count down: an owner more isn't in front of an owner less.
void Run::acquire(const event &e) {
    State &s = state_of(e);
    auto known = released_.find(e.address);
    bool is_in_turn = !(actors[s.actor].flags & Actor::IS_PART);    // units of one thread come in any order
    if (known == released_.end() || (known->second.actor == s.actor && is_in_turn))
        return;
    u32 node = e.mark & UP ? known->second.raised : known->second.node;
    if (node == NONE)
        return;
    if (!known->second.is_guard)
        counts.soft++;
    split(s, node);
}

}  // namespace judge
