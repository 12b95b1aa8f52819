// Loops of `simd`: each iteration is a lane, and any two lanes are at work at once, but those that `safelen` keeps apart.
#include "run.h"

namespace judge {

void Run::begin_lanes(const event &e) {
    State &s = state_of(e);
    s.lane_flags = segments[s.segment].flags & ~Segment::IS_LIGHT;
    s.lanes = open_phase(NONE, node_of(s));
    phases[s.lanes].safelen = e.value;
    counts.simd++;
}

void Run::begin_lane(const event &e) {
    State &s = state_of(e);
    if (s.lanes == NONE)
        return;
    leave_lane(s);
    s.segment = add_segment(s.actor, s.lanes, s.lane_flags | Segment::IS_LIGHT);
    segments[s.segment].lanes = s.lanes;
    if (phases[s.lanes].safelen)
        lane_of_[s.segment] = phases[s.lanes].lane_count++;
}

// A lane by which something is ordered has nodes, and the loop ends after the last of them.
void Run::leave_lane(State &s) {
    const Segment &segment = segments[s.segment];
    if (segment.lanes == s.lanes && !(segment.flags & Segment::IS_LIGHT))
        phases[s.lanes].arrivals.push_back(segment.node);
}

void Run::end_lanes(const event &e) {
    State &s = state_of(e);
    if (s.lanes == NONE)
        return;
    leave_lane(s);
    Phase &phase = phases[s.lanes];
    phase.close = graph_.add(phase.open);
    for (u32 node : phase.arrivals)
        graph_.lead(node, phase.close);
    s.segment = add_segment(s.actor, phase.close, s.lane_flags);
    s.lanes = NONE;
}

bool Run::are_lanes(u32 one, u32 other) const {
    return one != other && segments[one].lanes != NONE && segments[one].lanes == segments[other].lanes;
}

// Whether `safelen` keeps the two lanes of one loop apart.
bool Run::is_lane_before(u32 one, u32 other) const {
    const u64 safelen = segments[one].lanes == NONE ? 0 : phases[segments[one].lanes].safelen;
    return safelen != 0 && lane_of_.at(one) + safelen <= lane_of_.at(other);
}

}  // namespace judge
