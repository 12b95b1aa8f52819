// The events of a run, one after the other.
#include "run.h"

namespace judge {

Run::Run(const Trace &of) : trace(of) {
    has_ended = trace.has_end();
    segment_of.assign(trace.size(), NONE);
    locks_of.assign(trace.size(), 0);
    chain_of.assign(trace.size(), NONE);
    actors.emplace_back();
    actors[0].is_started = true;
    number_of_.push_back(0);
    fresh(0);
    add_segment(0, graph_.add(NONE), 0);
    actors[0].start = segments[0].node;
    for (std::size_t at = 0; at < trace.size() && fault.rule.empty(); at++)
        take(at);
    finish();
}

// A number that no task was given stands for the program's first thread.
State &Run::state(u32 number) {
    if (number < states_.size() && states_[number])
        return *states_[number];
    return *states_[0];
}

State &Run::fresh(u32 number) {
    if (number >= states_.size())
        states_.resize(number + number / 2 + 16);
    states_[number] = std::make_shared<State>();
    return *states_[number];
}

u32 Run::add_segment(u32 actor, u32 node, u32 flags) {
    segments.push_back(Segment{actor, node, flags, NONE});
    return static_cast<u32>(segments.size() - 1);
}

u32 Run::node_of(State &s) {
    Segment &segment = segments[s.segment];
    if (segment.flags & Segment::IS_LIGHT) {
        segment.node = graph_.add(phases[segment.node].open);
        segment.flags &= ~Segment::IS_LIGHT;
    }
    return segment.node;
}

// The actor's next part begins, after the one that it was in and after another one.
void Run::split(State &s, u32 also) {
    u32 node = graph_.add(node_of(s));
    if (also != NONE)
        graph_.lead(also, node);
    const u32 lanes = segments[s.segment].lanes;
    s.segment = add_segment(s.actor, node, segments[s.segment].flags);
    segments[s.segment].lanes = lanes;
}

void Run::refuse(const char *rule, const char *step, const State &s, u32 other, const event &e) {
    if (fault.rule.empty())
        fault = Fault{rule, step, s.actor, other, e.place, static_cast<u32>(now_ + 1)};
}

void Run::take(std::size_t at) {
    const event &e = trace[at];
    now_ = at;
    if (e.kind == READ || e.kind == WRITE)
        return access(at, e);
    if (e.kind == CHAIN) {
        state_of(e).callers = static_cast<u32>(at);
        return;
    }
    if (e.kind != START && e.kind != ITEM && e.kind != IMPLICIT_BEGIN && e.kind != NOTE) {
        State &s = state_of(e);
        if (s.pending != NONE && e.kind != MEMORY && e.kind != COPY)
            return refuse("Undeferred", e.kind == END ? "ends" : "goes on", s, s.pending, e);
    }
    take_sync(at, e);
    state_of(e).seen = at;
}

void Run::access(std::size_t at, const event &e) {
    State &s = state_of(e);
    if (s.pending != NONE)
        return refuse("Undeferred", e.kind == READ ? "reads" : "writes", s, s.pending, e);
    s.seen = at;
    segment_of[at] = s.segment;
    locks_of[at] = locks_with(s, e);
    chain_of[at] = e.mark & OUTERMOST ? NONE : s.callers;
    if (s.reduction != NONE && e.kind == WRITE && !(e.mark & FREED)) {
        reductions[s.reduction].actor = s.actor;
        reductions[s.reduction].writes.push_back(at);
    }
    if (e.mark & ATOMIC)
        part_ways(s, at);
    if (e.mark & FRAME && e.mark & FREED)
        end_frame(s, at, e);
    else if (!lives_.is_empty())
        find_late(s, at, e);
}

namespace {

// Where what the event touches begins, and how many bytes are from there to its end.
std::pair<u64, u64> extent_of(const event &e) {
    if (e.size != SET)
        return {e.address, e.size == LARGE ? e.value : e.size};
    const u64 element = u64{1} << ((e.mark >> ROW_SHIFT) - 1);
    u64 first = 0, end = 64;
    while (first < end && !(e.value >> first & 1))
        first++;
    while (end > first && !(e.value >> (end - 1) & 1))
        end--;
    return {e.address + first * element, (end - first) * element};
}

}  // namespace

// With those that stand for a reduction, which keeps apart what is done to its variable, and nothing else.
u32 Run::locks_with(const State &s, const event &e) {
    u32 held = region_copies_.empty() ? s.locks : locks_with_copy(s, e);
    if (s.reduced.empty())
        return held;
    const auto extent = extent_of(e);
    for (const auto &reduced : s.reduced)
        if (extent.first - reduced.first < reduced.second && extent.first + extent.second <= reduced.first + reduced.second)
            held = locks.with(held, reduced.first, false);
    return held;
}

// A task that is part of a reduction, and has the variable itself for its copy.
void Run::take_part(State &s, u64 address) {
    const std::pair<u64, u64> reduced{address, sizes_.emplace(address, sizeof(u64)).first->second};
    if (std::find(s.reduced.begin(), s.reduced.end(), reduced) == s.reduced.end())
        s.reduced.push_back(reduced);
}

// A thread whose copy its region's reduction puts together takes part in that itself: a task that has no other copy adds to
// it under a lock of its own, which keeps that thread apart too.
u32 Run::locks_with_copy(const State &s, const event &e) {
    auto copy = region_copies_.upper_bound(e.address);
    if (copy == region_copies_.begin() || !(actors[s.actor].flags & Actor::IS_PART))
        return s.locks;
    --copy;
    bool is_in = e.address - copy->first < copy->second.size && actors[s.actor].region == copy->second.region;
    return is_in ? locks.with(s.locks, copy->first, false) : s.locks;
}

// What is read under a lock or by an atomic operation may be another value for each thread.
void Run::part_ways(const State &s, std::size_t at) {
    actors[s.actor].parted = std::min(actors[s.actor].parted, at);
}

// What a task starts with may be memory that is free, and a part of its thread's stack.
void Run::take_start(std::size_t at, const event &e) {
    start(e, trace.thread(at));
    segment_of[at] = state_of(e).segment;
    if (e.mark & STACK) {
        forget_released(e);
        take_stack(state_of(e), at, e);
    }
}

void Run::take_end(std::size_t at, const event &e) {
    segment_of[at] = state_of(e).segment;
    if (e.mark & STACK)
        give_back_stack(at, e.address + e.value);
    end(e);
}

// What is new there: a block, the part of its thread's stack that a task has from here on, or what is free of a stack again.
void Run::take_memory(std::size_t at, const event &e) {
    segment_of[at] = state_of(e).segment;
    forget_released(e);
    if (e.mark & STACK)
        take_stack(state_of(e), at, e);
    else if (lives_.is_stack(trace.thread(at), e.address))
        give_back_stack(at, e.address + e.value);
}

void Run::take_lane(std::size_t at, const event &e) {
    segment_of[at] = state_of(e).segment;
    forget_released(e);
    begin_lane(e);
}

void Run::take_sync(std::size_t at, const event &e) {
    switch (e.kind) {
    case CREATE: return create(e);
    case ITEM:
        actors[state_of(e).actor].items.push_back(Item{e.address, e.value, e.mark});
        return;
    case START: return take_start(at, e);
    case END: return take_end(at, e);
    case RESUME: actors[state_of(e).actor].thread = trace.thread(at); return;
    case FULFIL: return fulfil(e);
    case WAIT: return wait(e);
    case WAIT_ITEM: state_of(e).wait_items.push_back(Item{e.address, e.value, e.mark}); return;
    case WAIT_ITEMS: return wait_items(e);
    case GROUP_OPEN: return open_group(e);
    case GROUP_CLOSE: return close_group(at, e);
    case REGION_BEGIN: return begin_region(e);
    case REGION_END:
        // Of a team's first task the runtime doesn't tell the end.
        give_back_stack(at, lives_.base_of(trace.thread(at), state_of(e).actor) - 1);
        return end_region(e);
    case IMPLICIT_BEGIN: return begin_part(e, trace.thread(at));
    case BARRIER_BEGIN: return begin_barrier(e);
    case BARRIER_END: return end_barrier(e);
    case LOCK: case UNLOCK: return lock(at, e);
    case RELEASE: return release(e);
    case ACQUIRE: return acquire(e);
    case NOTE: return note(e);
    case COPY: return copy(at, e);
    case MEMORY: return take_memory(at, e);
    case LANE: return take_lane(at, e);
    case ENDED: return;
    default: return take_share(e);
    }
}

// What was released in memory that is new was somebody else's.
void Run::forget_released(const event &e) {
    released_.erase(released_.lower_bound(e.address), released_.lower_bound(e.address + e.value));
}

void Run::take_share(const event &e) {
    switch (e.kind) {
    case LOOP_BEGIN: return begin_loop(e);
    case ITERATION: return iterate(e);
    case LOOP_END: return end_loop(e);
    case SINGLE_BEGIN: return begin_single(e);
    case SINGLE_END: return end_single(e);
    case MASKED_BEGIN: return begin_masked(e);
    case MASKED_END: return end_masked(e);
    case ORDERED_BEGIN: return begin_ordered(e);
    case ORDERED_END: return end_ordered(e);
    case LAST_BEGIN: return begin_last(e);
    case LAST_END: return end_last(e);
    case LANES_BEGIN: return begin_lanes(e);
    case LANES_END: return end_lanes(e);
    case POST: return post(e);
    case AWAIT: return await(e);
    default: return;
    }
}

void Run::note(const event &e) {
    State &s = state_of(e);
    switch (e.value) {
    case NOTE_REDUCTION: counts.reductions++; return;
    case NOTE_DETACH: counts.detached++; return;
    case NOTE_PRIORITY: counts.priorities++; return;
    case NOTE_CANCEL:
        counts.cancellations++;
        if (s.actor != 0 && !(actors[s.actor].flags & Actor::IS_PART) && !actors[s.actor].is_started)
            actors[s.actor].flags |= Actor::IS_DISCARDED;
        return;
    case NOTE_DEEP: counts.deep++; return;
    case NOTE_FORK: counts.forks++; return;
    case NOTE_NO_TOOL: counts.no_tool++; return;
    case NOTE_ONE_THREAD: s.is_next_one = true; return;
    case NOTE_ONE_FROM_HERE: s.is_one = true; return;
    case NOTE_ONE_TEAM: s.is_next_team_one = true; return;
    case NOTE_MORE_FROM_HERE: s.is_one = false; return;
    case NOTE_THREAD_NUMBER:
        actors[s.actor].flags |= Actor::HAS_NUMBER;
        if (actors[s.actor].flags & Actor::IS_PART)
            regions[actors[s.actor].region].has_number = true;
        return;
    default: return;
    }
}

// A thread's copy of a reduced variable: nobody else touches it. What a group's task adds to its copy may be put into the
// variable at any time from there to the group's end, one task's after the other's (OpenMP 5.2, 5.5.8).
void Run::copy(std::size_t at, const event &e) {
    State &s = state_of(e);
    if (e.size) {
        u64 size = e.size == LARGE ? e.value : e.size;
        sizes_[e.address] = size;
        if (s.group != NONE) {
            groups[s.group].reduced.emplace_back(e.address, size);
            groups[s.group].reduced_at = at;
            originals_.insert(e.address);
        } else if (actors[s.actor].flags & Actor::IS_PART) {
            region_copies_[e.address] = RegionCopy{size, actors[s.actor].region};
        }
        return;
    }
    if (e.address == e.value)
        return take_part(s, e.address);
    auto known = sizes_.find(e.value);
    u64 size = known == sizes_.end() ? 8 : known->second;
    sizes_[e.address] = size;
    copies[e.address] = std::max(copies[e.address], size);
    if (originals_.count(e.value)) {
        combined[at].emplace_back(e.value, size);
        segment_of[at] = s.segment;
        locks_of[at] = locks.with(s.locks, e.value, false);
    }
}

void Run::finish() {
    for (u32 i = 1; i < actors.size(); i++)
        if (!(actors[i].flags & Actor::IS_PART) && !actors[i].is_ended)
            unended.push_back(i);
    for (const Region &region : regions)
        open_regions += region.is_ended ? 0 : 1;
    states_.clear();
    graph_.finish();
}

u32 Run::begin_of(u32 segment) const {
    const Segment &at = segments[segment];
    return at.flags & Segment::IS_LIGHT ? phases[at.node].open : at.node;
}

u32 Run::in_front_of(u32 segment) const {
    const Segment &at = segments[segment];
    return at.flags & Segment::IS_LIGHT ? phases[at.node].open : graph_.parent(at.node);
}

u32 Run::end_of(u32 segment) const {
    const Segment &at = segments[segment];
    return at.flags & Segment::IS_LIGHT ? phases[at.node].close : at.node;
}

bool Run::is_before_node(u32 segment, u32 node) {
    u32 end = end_of(segment);
    return end != NONE && graph_.leads(end, node);
}

bool Run::is_before(u32 one, u32 other) {
    const Segment &a = segments[one], &b = segments[other];
    if (one == other)
        return true;
    if (a.flags & b.flags & Segment::IS_LIGHT && a.node == b.node)
        return is_lane_before(one, other);
    return is_before_node(one, begin_of(other));
}

u32 Run::home(u32 actor) const {
    while (actors[actor].flags & Actor::IS_PART)
        actor = actors[actor].parent;
    return actor;
}

std::string Run::name(u32 actor) const {
    std::string text;
    for (u32 at = home(actor); at != 0; at = home(actors[at].parent))
        text = "." + std::to_string(actors[at].child) + text;
    return "0" + text;
}

namespace {

bool exclude(const Actor &one, const Actor &other) {
    for (const Item &a : one.items)
        for (const Item &b : other.items)
            if (a.type == Item::MUTEXINOUTSET && b.type == Item::MUTEXINOUTSET && a.address == b.address)
                return true;
    return false;
}

}  // namespace

// A task that excludes another keeps apart from it all that comes in front of its end.
bool Run::are_apart(u32 one, u32 other) {
    for (u32 a = segments[one].actor; a != NONE; a = actors[a].parent)
        for (u32 b = segments[other].actor; b != NONE; b = actors[b].parent) {
            if (a == b || a == 0 || b == 0 || !are_siblings(a, b) || !exclude(actors[a], actors[b]))
                continue;
            bool is_in_a = segments[one].actor == a
                           || (actors[a].end != NONE && graph_.leads(segments[one].node, actors[a].end));
            bool is_in_b = segments[other].actor == b
                           || (actors[b].end != NONE && graph_.leads(segments[other].node, actors[b].end));
            if (is_in_a && is_in_b)
                return true;
        }
    return false;
}

}  // namespace judge
