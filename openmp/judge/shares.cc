// What a team's threads share out. Which thread takes an iteration, a section or a single block is no order: each is a
// unit that stands beside the others of its phase, whoever did it. Of static loops of one shape the same thread does the
// same iteration (OpenMP 5.2, 11.5.3), so these are one unit.
#include "run.h"

namespace judge {

Shared *Run::next_shared(State &s) {
    auto &all = regions[phases[s.phase].region].shared;
    if (s.shared_count >= all.size())
        all.push_back(std::make_unique<Shared>());
    return all[s.shared_count++].get();
}

namespace {

bool has_share(const State &s, const std::vector<Actor> &actors) {
    return s.phase != NONE && actors[s.actor].flags & Actor::IS_PART;
}

}  // namespace

// Where a clause wants one thread, that thread does all in its order.
bool Run::is_one_by_clause(const State &s) const {
    const Region &region = regions[phases[s.phase].region];
    return region.size == 1 && region.is_one_by_clause;
}

void Run::begin_loop(const event &e) {
    State &s = state_of(e);
    if (!has_share(s, actors) || is_one_by_clause(s))
        return;
    leave_unit(s);
    s.loop = Loop{};
    s.loop.is_on = true;
    s.loop.is_static = e.mark & LOOP_STATIC;
    s.loop.count = e.address;
    s.loop.chunk = e.value;
    s.loop.shared = next_shared(s);
    s.chain = s.segment;
}

// A chunk of a size that the program has given is done in its order by one thread; else each iteration may be another's.
void Run::iterate(const event &e) {
    State &s = state_of(e);
    Loop &loop = s.loop;
    if (!loop.is_on || s.chain == NONE)
        return;
    if (!loop.is_static && loop.chunk > 1 && e.mark != HANDED_OUT)
        return;
    u64 unit = loop.is_static && loop.chunk > 1 ? e.value / loop.chunk : e.value;
    if (unit == loop.unit)
        return;
    u32 chain = s.chain;
    leave_unit(s);
    s.chain = chain;
    loop.unit = unit;
    if (loop.is_static) {
        auto added = s.statics[{loop.count, loop.chunk}].emplace(unit, static_cast<u32>(segments.size()));
        if (!added.second) {
            enter_unit(s, added.first->second);
            return;
        }
    }
    enter_unit(s, add_segment(s.actor, s.phase, Segment::IS_UNIT | Segment::IS_LIGHT));
}

void Run::enter_unit(State &s, u32 segment) {
    s.segment = segment;
    s.unit = static_cast<u32>(units.size());
    units.emplace_back();
    units.back().same = s.unit;
}

// The same thread has the same iterations of static loops of one shape in one phase.
void Run::find_same_unit(State &s) {
    if (s.unit != NONE && s.loop.is_on && s.loop.is_static)
        units[s.unit].same = s.static_units.emplace(std::array<u64, 3>{s.loop.count, s.loop.chunk, s.loop.unit}, s.unit).first->second;
}

// A unit by which something is ordered has nodes, and the phase ends after the last of them.
void Run::leave_unit(State &s) {
    if (s.chain == NONE)
        return;
    const Segment &segment = segments[s.segment];
    if (s.segment != s.chain && !(segment.flags & Segment::IS_LIGHT)) {
        phases[s.phase].arrivals.push_back(segment.node);
        units[s.unit].last = segment.node;
        if (s.loop.is_on && s.loop.is_static)
            s.statics[{s.loop.count, s.loop.chunk}][s.loop.unit] = s.segment;
    }
    if (s.unit != NONE)
        units[s.unit].end = now_;
    s.segment = s.chain;
    s.chain = s.unit = NONE;
}

// Who did the last iteration writes the variables that are `lastprivate`: one thread alone.
void Run::end_loop(const event &e) {
    State &s = state_of(e);
    if (!s.loop.is_on)
        return;
    leave_unit(s);
    s.loop.is_on = false;
    if (e.mark && has_share(s, actors))
        s.segment = add_segment(s.actor, graph_.add(node_of(s)), Segment::IS_ALONE);
}

// Where the pass tells it, it may come behind a barrier.
void Run::begin_last(const event &e) {
    State &s = state_of(e);
    if (has_share(s, actors) && s.chain == NONE)
        s.segment = add_segment(s.actor, graph_.add(node_of(s)), Segment::IS_ALONE);
}

void Run::end_last(const event &e) {
    State &s = state_of(e);
    if (has_share(s, actors) && s.chain == NONE)
        s.segment = add_segment(s.actor, graph_.add(node_of(s)), 0);
}

void Run::begin_single(const event &e) {
    State &s = state_of(e);
    if (!has_share(s, actors))
        return;
    leave_unit(s);
    next_shared(s);
    if (!e.mark || is_one_by_clause(s))
        return;
    s.chain = s.segment;
    enter_unit(s, add_segment(s.actor, graph_.add(phases[s.phase].open), Segment::IS_UNIT | Segment::IS_SINGLE));
}

void Run::end_single(const event &e) {
    State &s = state_of(e);
    if (!s.loop.is_on)
        leave_unit(s);
}

// A masked block is the first thread's, which does all of them in its order. Of a team of one it stands beside what the
// other threads of a larger one would do.
void Run::begin_masked(const event &e) {
    State &s = state_of(e);
    if (!has_share(s, actors) || segments[s.segment].flags & Segment::IS_UNIT)
        return;
    if (!regions[phases[s.phase].region].stands_for_more()) {
        s.segment = add_segment(s.actor, graph_.add(node_of(s)), Segment::IS_ALONE);
        return;
    }
    u32 node = graph_.add(phases[s.phase].open);
    graph_.lead(s.masked, node);
    s.chain = s.segment;
    enter_unit(s, add_segment(s.actor, node, Segment::IS_UNIT | Segment::IS_ALONE | Segment::IS_SINGLE));
    s.masked_unit = s.masked_unit == NONE ? s.unit : s.masked_unit;
    units[s.unit].same = s.masked_unit;
}

void Run::end_masked(const event &e) {
    State &s = state_of(e);
    if (!has_share(s, actors) || !(segments[s.segment].flags & Segment::IS_ALONE))
        return;
    if (s.chain == NONE) {
        s.segment = add_segment(s.actor, graph_.add(node_of(s)), 0);
        return;
    }
    s.masked = node_of(s);
    leave_unit(s);
}

// Ordered blocks come in the order of the iterations.
void Run::begin_ordered(const event &e) {
    State &s = state_of(e);
    if (s.lanes != NONE)
        return split(s, phases[s.lanes].ordered);
    if (!s.loop.is_on)
        return;
    split(s, s.loop.shared->ordered);
}

void Run::end_ordered(const event &e) {
    State &s = state_of(e);
    if (s.lanes != NONE)
        phases[s.lanes].ordered = node_of(s);
    if (s.lanes != NONE)
        return split(s);
    if (!s.loop.is_on)
        return;
    s.loop.shared->ordered = node_of(s);
    split(s);
}

void Run::post(const event &e) {
    State &s = state_of(e);
    if (!s.loop.is_on)
        return;
    s.loop.shared->posts[e.value] = node_of(s);
    split(s);
}

void Run::await(const event &e) {
    State &s = state_of(e);
    if (!s.loop.is_on)
        return;
    auto found = s.loop.shared->posts.find(e.value);
    split(s, found == s.loop.shared->posts.end() ? NONE : found->second);
}

}  // namespace judge
