// Tasks: how they are made, start and end, and what waits for them.
#include "run.h"

namespace judge {

namespace {

constexpr u64 UNDEFERRED = 0x8000000, FINAL = 0x20000000;

}  // namespace

void Run::create(const event &e) {
    u32 child = static_cast<u32>(actors.size()), number = static_cast<u32>(e.address);
    actors.emplace_back();
    number_of_.push_back(number);
    State &parent = state_of(e), &s = fresh(number);
    Actor &made = actors[child], &maker = actors[parent.actor];
    const Segment &segment = segments[parent.segment];
    bool is_in_share = maker.flags & Actor::IS_PART;
    bool is_copied = is_in_share ? !(segment.flags & (Segment::IS_UNIT | Segment::IS_ALONE)) : maker.flags & Actor::IS_COPIED;
    made.parent = parent.actor;
    made.place = e.place;
    made.child = ++actors[home(parent.actor)].children;
    made.region = maker.region;
    find_same_unit(parent);
    made.unit = parent.unit;
    made.made = now_;
    if (maker.parted <= now_)
        made.parted = now_;
    made.flags = (e.value & FINAL ? Actor::IS_FINAL : 0) | (is_copied ? Actor::IS_COPIED : 0)
                 | (e.mark ? Actor::IS_LOOPS : 0)
                 | (e.value & UNDEFERRED || maker.flags & Actor::IS_FINAL ? Actor::IS_UNDEFERRED : 0);
    made.start = node_of(parent);
    settle_items(parent);
    parent.unsettled = child;
    explicit_tasks++;
    s.actor = child;
    s.phase = parent.phase;
    s.group = parent.group;
    s.is_one = parent.is_one;
    parent.children.push_back(child);
    parent.under_way++;
    if (parent.group != NONE)
        groups[parent.group].members.push_back(child);
    if (parent.phase != NONE)
        phases[parent.phase].tasks.push_back(child);
    split(parent);
    if (made.flags & Actor::IS_UNDEFERRED)
        parent.pending = child;
}

// Of a team's thread two tasks are siblings where it surely makes both: another one might take one of the units.
bool Run::are_siblings(u32 one, u32 other) const {
    const Actor &a = actors[one], &b = actors[other];
    if (a.parent != b.parent)
        return false;
    const Actor &maker = actors[a.parent];
    if (!(maker.flags & Actor::IS_PART) || a.unit == b.unit)
        return true;
    const Region &region = regions[maker.region];
    if (region.size == 1 && !region.stands_for_more())
        return true;
    return a.unit != NONE && b.unit != NONE && units[a.unit].same == units[b.unit].same;
}

// The items of a child come behind its making: they are all there when the next child is made, or it starts.
void Run::settle_items(State &parent) {
    if (parent.unsettled == NONE)
        return;
    Actor &child = actors[parent.unsettled];
    if (!child.items.empty()) {
        if (!parent.siblings)
            parent.siblings = std::make_unique<Siblings>();
        for (u32 earlier : parent.siblings->before(child.items))
            if (are_siblings(earlier, parent.unsettled))
                child.waits.push_back(earlier);
        parent.siblings->add(parent.unsettled, child.items);
    }
    parent.unsettled = NONE;
}

// Of tasks that exclude each other one runs at a time.
void Run::keep_apart(State &s, const event &e) {
    State &parent = state(number_of_[actors[s.actor].parent]);
    for (const Item &item : actors[s.actor].items) {
        if (item.type != Item::MUTEXINOUTSET)
            continue;
        auto added = parent.running.emplace(item.address, s.actor);
        if (!added.second && added.first->second != s.actor)
            return refuse("Excluded", "starts", s, added.first->second, e);
    }
}

// `start` is the node at which it was made; what it waits for is known now.
void Run::start(const event &e, u32 thread) {
    State &s = state_of(e);
    if (s.actor == 0)
        return;
    Actor &actor = actors[s.actor];
    State &parent = state(number_of_[actor.parent]);
    if (parent.unsettled == s.actor)
        settle_items(parent);
    u32 node = graph_.add(actor.start);
    for (u32 earlier : actor.waits) {
        if (!actors[earlier].is_ended)
            return refuse("Waiting", "starts", s, earlier, e);
        graph_.lead(actors[earlier].end, node);
    }
    keep_apart(s, e);
    actor.is_started = true;
    actor.start = node;
    actor.thread = thread;
    s.segment = add_segment(s.actor, node, 0);
    if (actor.flags & Actor::IS_UNDEFERRED) {
        s.locks = parent.locks;
        s.reduced = parent.reduced;
    }
}

// A task that a cancellation discards before it starts ends there, and whoever waits for it goes on.
void Run::discard(State &s) {
    Actor &actor = actors[s.actor];
    State &parent = state(number_of_[actor.parent]);
    if (parent.unsettled == s.actor)
        settle_items(parent);
    u32 node = graph_.add(actor.start);
    for (u32 earlier : actor.waits)
        if (actors[earlier].is_ended)
            graph_.lead(actors[earlier].end, node);
    actor.is_started = true;
    actor.start = node;
    s.segment = add_segment(s.actor, node, 0);
}

void Run::end(const event &e) {
    State &s = state_of(e);
    if (s.actor == 0 || actors[s.actor].is_ended)
        return;
    if (actors[s.actor].flags & Actor::IS_DISCARDED)
        discard(s);
    if (!actors[s.actor].is_started)
        return;
    settle_items(s);
    Actor &actor = actors[s.actor];
    actor.is_ended = true;
    actor.end = node_of(s);
    if (s.fulfilled != NONE) {
        actor.end = graph_.add(actor.end);
        graph_.lead(s.fulfilled, actor.end);
    }
    State &parent = state(number_of_[actor.parent]);
    parent.under_way--;
    parent.leaves = parent.leaves || s.leaves || s.under_way != 0;
    for (const Item &item : actor.items)
        if (item.type == Item::MUTEXINOUTSET)
            parent.running.erase(item.address);
    if (parent.pending == s.actor) {
        parent.pending = NONE;
        actor.is_joined = true;
        split(parent, actor.end);
    }
    s.siblings.reset();
    s.children = {};
}

// The task's end comes after the call that fulfils its event, too.
void Run::fulfil(const event &e) {
    State &s = state_of(e);
    u32 node = node_of(s);
    split(s);
    state(static_cast<u32>(e.address)).fulfilled = node;
}

void Run::wait(const event &e) {
    State &s = state_of(e);
    u32 node = graph_.add(node_of(s));
    for (u32 child : s.children) {
        if (!actors[child].is_ended)
            return refuse("Children", "has waited", s, child, e);
        graph_.lead(actors[child].end, node);
        actors[child].is_joined = true;
    }
    s.children.clear();
    s.segment = add_segment(s.actor, node, segments[s.segment].flags);
}

void Run::wait_items(const event &e) {
    State &s = state_of(e);
    settle_items(s);
    u32 node = graph_.add(node_of(s));
    if (s.siblings)
        for (u32 child : s.siblings->before(s.wait_items)) {
            if (!actors[child].is_ended)
                return refuse("Children", "has waited", s, child, e);
            graph_.lead(actors[child].end, node);
        }
    s.wait_items.clear();
    s.segment = add_segment(s.actor, node, segments[s.segment].flags);
}

// By their names: of a group's members one may be made before another one that stands in front of it.
u32 Run::least_unended(const std::vector<u32> &members) const {
    u32 found = NONE;
    std::vector<u32> least;
    for (u32 member : members) {
        if (actors[member].is_ended)
            continue;
        std::vector<u32> path;
        for (u32 at = home(member); at != 0; at = home(actors[at].parent))
            path.insert(path.begin(), actors[at].child);
        if (found == NONE || path < least) {
            found = member;
            least = std::move(path);
        }
    }
    return found;
}

void Run::open_group(const event &e) {
    State &s = state_of(e);
    s.outer_groups.push_back(s.group);
    s.group = static_cast<u32>(groups.size());
    groups.emplace_back();
    split(s);
}

// The runtime has put the copies of reduced variables together by then.
void Run::close_group(std::size_t at, const event &e) {
    State &s = state_of(e);
    if (s.outer_groups.empty())
        return;
    Group &group = groups[s.group];
    u32 node = graph_.add(node_of(s));
    u32 unended = least_unended(group.members);
    if (unended != NONE)
        return refuse("Group", "closes the group", s, unended, e);
    for (u32 member : group.members) {
        graph_.lead(actors[member].end, node);
        actors[member].is_joined = true;
    }
    s.segment = add_segment(s.actor, node, segments[s.segment].flags);
    if (!group.reduced.empty()) {
        for (const auto &reduced : group.reduced)
            originals_.erase(originals_.find(reduced.first));
        combined[at] = std::move(group.reduced);
        reduced_at[at] = group.reduced_at;
        segment_of[at] = s.segment;
    }
    group.members = {};
    s.group = s.outer_groups.back();
    s.outer_groups.pop_back();
}

}  // namespace judge
