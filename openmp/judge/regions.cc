// Parallel regions: the shares of their threads, and their phases from one barrier to the next.
#include "run.h"

namespace judge {

void Run::begin_region(const event &e) {
    State &s = state_of(e);
    Region region;
    region.meeting = s.actor;
    region.place = e.place;
    region.begun = now_;
    region.unit = s.unit;
    region.is_one_by_clause = s.is_next_one || s.is_one;
    region.is_league = leagues_.count(e.task) != 0;
    region.is_one_team = s.is_next_team_one;
    if (s.phase != NONE) {
        const Region &outer = regions[phases[s.phase].region];
        region.is_nested = outer.is_nested || !outer.is_league;
        region.may_be_teams = region.is_league && outer.size == 1 && !outer.is_one_team;
    }
    s.is_next_one = s.is_next_team_one = false;
    u32 number = static_cast<u32>(regions.size()), open = node_of(s);
    region_of_[e.address] = number;
    regions.push_back(std::move(region));
    regions[number].phases.push_back(open_phase(number, open));
    split(s);
}

u32 Run::open_phase(u32 region, u32 open) {
    phases.emplace_back();
    phases.back().open = open;
    phases.back().region = region;
    return static_cast<u32>(phases.size() - 1);
}

void Run::begin_part(const event &e, u32 thread) {
    auto known = region_of_.find(e.address);
    bool is_of_program = e.size == 1 && e.value == 1;
    if (e.mark == TEAMS || (e.address == 0 && !is_of_program))
        leagues_.insert(e.task);
    if (e.address == 0 || known == region_of_.end())
        return;
    Region &region = regions[known->second];
    region.is_league = region.is_league || e.mark == TEAMS;
    u32 part = static_cast<u32>(actors.size()), phase = region.phases[0];
    actors.emplace_back();
    number_of_.push_back(e.task);
    actors[part].parent = region.meeting;
    actors[part].place = region.place;
    actors[part].region = known->second;
    actors[part].thread = thread;
    actors[part].flags = Actor::IS_PART;
    actors[part].unit = region.unit;
    actors[part].made = region.begun;
    actors[part].is_started = true;
    region.size = std::max<u32>(region.size, e.size);
    team_most = std::max(team_most, region.size);
    region.parts.push_back(e.task);
    State &s = fresh(e.task);
    s.actor = part;
    s.phase = phase;
    s.is_one = state(number_of_[region.meeting]).is_one;
    u32 node = graph_.add(phases[phase].open);
    s.segment = add_segment(part, node, 0);
    actors[part].start = node;
}

void Run::begin_barrier(const event &e) {
    State &s = state_of(e);
    if (s.phase == NONE || !(actors[s.actor].flags & Actor::IS_PART))
        return;
    leave_unit(s);
    phases[s.phase].arrivals.push_back(node_of(s));
    s.barrier = now_;
    s.barrier_end = e.value;
}

// The first thread to go on shows that all have come, and that the tasks of the phase have ended.
void Run::end_barrier(const event &e) {
    State &s = state_of(e);
    if (s.phase == NONE || !(actors[s.actor].flags & Actor::IS_PART))
        return;
    u32 number = phases[s.phase].region;
    if (regions[number].is_ended)
        return;
    u32 close = close_phase(s.phase, s, e);
    if (!fault.rule.empty())
        return;
    auto &own = regions[number].phases;
    if (own.back() == s.phase)
        own.push_back(open_phase(number, close));
    for (std::size_t i = own.size(); i-- > 0;)
        if (own[i] == s.phase) {
            s.phase = own[i + 1];
            break;
        }
    s.segment = add_segment(s.actor, graph_.add(close), 0);
    s.children.clear();
    s.statics.clear();
    s.static_units.clear();
    s.masked = NONE;
}

u32 Run::close_phase(u32 number, const State &s, const event &e) {
    Phase &phase = phases[number];
    if (phase.close != NONE)
        return phase.close;
    u32 close = graph_.add(phase.open);
    for (u32 node : phase.arrivals)
        graph_.lead(node, close);
    for (u32 task : phase.tasks) {
        if (!actors[task].is_ended) {
            refuse("Group", "goes on behind the region's end or barrier", s, task, e);
            return close;
        }
        if (!actors[task].is_joined)
            graph_.lead(actors[task].end, close);
        actors[task].is_joined = true;
    }
    phase.close = close;
    phase.arrivals = {};
    phase.tasks = {};
    return close;
}

void Run::end_region(const event &e) {
    State &s = state_of(e);
    auto known = region_of_.find(e.address);
    if (known == region_of_.end())
        return;
    Region &region = regions[known->second];
    region.is_ended = true;
    for (auto copy = region_copies_.begin(); copy != region_copies_.end();)
        copy = copy->second.region == known->second ? region_copies_.erase(copy) : std::next(copy);
    for (u32 part : region.parts) {
        State &own = state(part);
        if (own.phase != region.phases.back())
            continue;
        leave_unit(own);
        phases[own.phase].arrivals.push_back(node_of(own));
    }
    u32 close = close_phase(region.phases.back(), s, e);
    if (fault.rule.empty())
        split(s, close);
}

}  // namespace judge
