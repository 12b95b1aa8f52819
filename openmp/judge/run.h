// Who took part in a run and what comes before what: the tasks, the shares of a team's threads, and their segments.
#pragma once

#include <array>
#include <map>
#include <memory>
#include <set>
#include <string>
#include <unordered_map>
#include <vector>

#include "depends.h"
#include "graph.h"
#include "lives.h"
#include "locks.h"
#include "trace.h"

namespace judge {

// A task, or a thread's share of a parallel region.
struct Actor {
    enum Flag : u32 {
        IS_PART = 1,        // a thread's share
        IS_UNDEFERRED = 2,
        IS_FINAL = 4,
        IS_COPIED = 8,      // each thread of its team makes one of its own
        HAS_NUMBER = 16,    // it has asked for the thread's number
        IS_DETACHED = 32,
        IS_LOOPS = 64,      // of a taskloop
        IS_DISCARDED = 128  // by a cancellation, before it started
    };
    u32 parent = NONE;
    u32 flags = 0;
    int place = 0;          // of the directive
    u32 child = 0;          // the how manieth of its parent, or of what met the region
    u32 children = 0;
    u32 thread = NONE;
    u32 region = NONE;
    u32 start = NONE, end = NONE;   // nodes
    u32 unit = NONE;        // of a thread's share, in which it was made
    std::size_t made = 0;   // the event by which it was, or the region
    std::size_t parted = ~std::size_t{0};   // the event from which on the threads of its team may go different ways
    bool is_started = false, is_ended = false, is_joined = false;
    std::vector<Item> items;
    std::vector<u32> waits;         // the siblings that its items make it wait for
};

// A part of an actor between two steps that order something. A thread's part of a loop, an iteration, has no node of
// its own as long as nothing is ordered by it: it stands between the ends of its phase.
struct Segment {
    enum Flag : u32 { IS_UNIT = 1, IS_ALONE = 2, IS_LIGHT = 4, IS_SINGLE = 8 };
    u32 actor;
    u32 node;    // of a light one: its phase
    u32 flags;
    u32 lanes = NONE;   // the phase that is the `simd` loop of which it is a lane
};

// A part of a region between two barriers, or a `simd` loop, which has no region.
struct Phase {
    u32 open = NONE, close = NONE;    // nodes
    u32 region = NONE;
    u64 safelen = 0;                  // lanes as far apart as that come one after the other; 0: none do
    u32 lane_count = 0;
    u32 ordered = NONE;               // the last ordered block's node
    std::vector<u32> arrivals;        // nodes
    std::vector<u32> tasks;           // that were made in it
};

// An iteration, a section or a block that one thread takes: its last node, where it has one, and the event that ends it.
struct Unit {
    u32 same = NONE;        // the first unit that the same thread takes with it
    u32 last = NONE;
    std::size_t end = ~std::size_t{0};
};

// A worksharing construct that a team has met.
struct Shared {
    u32 ordered = NONE;                     // the last ordered block's node
    std::unordered_map<u64, u32> posts;     // nodes
};

struct Region {
    u32 meeting = NONE;     // an actor
    int place = 0;
    u32 size = 0;           // of the team
    std::size_t begun = 0;  // the event
    u32 unit = NONE;        // in which it was met
    bool is_league = false;     // of `teams`: its teams' first threads, or what such a one does
    bool is_one_team = false;   // by a clause
    bool may_be_teams = false;  // what the only team's first thread does, where there might be more teams
    bool is_one_by_clause = false, is_nested = false, has_number = false, is_ended = false;
    std::vector<u32> phases;
    std::vector<std::unique_ptr<Shared>> shared;
    std::vector<u32> parts;     // the numbers of its threads' tasks

    // Whether it has one thread, and might have more without a change of the program.
    bool stands_for_more() const {
        return !is_nested && (is_league ? may_be_teams : size == 1 && !is_one_by_clause);
    }
};

struct Group {
    std::vector<u32> members;
    std::vector<std::pair<u64, u64>> reduced;   // address, size
    std::size_t reduced_at = 0;                 // the event that says so
};

// What one thread writes to put a reduction of its team together: each of them may do it. The events.
struct Reduction {
    u32 actor = NONE;
    std::vector<std::size_t> writes;
};

// A touch of a variable whose function has ended.
struct Late {
    std::size_t at, ended;  // the two events
    std::size_t taken;      // the event from which on another one has the memory
    u32 taker;              // in this segment; NONE: nobody has it
};

struct Fault {
    std::string rule, step;
    u32 actor = NONE, other = NONE;
    int place = 0;
    u32 event = 0;      // the how manieth
};

// What isn't order, or is only this run's; counted.
struct Counts {
    u64 locks = 0, reductions = 0, detached = 0, priorities = 0, cancellations = 0, deep = 0, soft = 0, forks = 0,
        strangers = 0, copies = 0, no_tool = 0, simd = 0;
};

// A worksharing loop that a thread is in.
struct Loop {
    bool is_on = false, is_static = false;
    u64 count = 0, chunk = 0, unit = ~u64{0};
    Shared *shared = nullptr;
};

// What the events of one task stand for at a point of the run.
struct State {
    u32 actor = 0;
    u32 segment = 0;
    u32 chain = NONE;       // a thread's own segment while it is in a unit
    u32 locks = 0;
    u32 phase = NONE;
    u32 callers = NONE;     // the last event that named callers
    u32 pending = NONE;     // an undeferred child that is under way
    u32 shared_count = 0;   // how many worksharing constructs the thread has met
    u32 group = NONE;       // the innermost one
    u32 fulfilled = NONE;   // the node of the call that fulfils its event
    u32 masked = NONE;      // the node of the last masked block of the phase
    u32 unit = NONE;        // that the thread is in
    u32 reduction = NONE;   // that it puts together
    u32 lanes = NONE;       // the phase that is the `simd` loop it is in
    u32 lane_flags = 0;     // of its segment around that
    u32 masked_unit = NONE; // its first masked block
    std::map<std::array<u64, 3>, u32> static_units;     // in which it made tasks
    u32 unsettled = NONE;   // the last child, while its items come
    std::vector<FrameEnd> frames;   // that have ended while children may still come
    u32 under_way = 0;      // how many children haven't ended
    std::size_t seen = 0;   // its last event
    std::size_t barrier = 0;    // the one by which it has come to a barrier last
    u64 barrier_end = 0;        // below there it has nothing on the stack while it is there
    bool leaves = false;    // some child has ended in front of its own
    bool is_next_team_one = false;
    bool is_next_one = false;   // the next region has one thread by a clause
    bool is_one = false;        // so have those that no clause gives more, by the program's words
    Loop loop;
    std::vector<u32> children;       // not yet waited for
    std::vector<u32> outer_groups;
    std::unique_ptr<Siblings> siblings;
    std::map<u64, u32> running;      // children that exclude others, by address
    std::vector<Item> wait_items;
    std::vector<std::pair<u64, u64>> reduced;   // what it has no copy of, though it takes part in the reduction: address, size
    // Of the static loops of this phase, by their shapes, the segments of the thread's units.
    std::map<std::array<u64, 2>, std::unordered_map<u64, u32>> statics;
};

class Run {
public:
    explicit Run(const Trace &trace);

    bool is_before(u32 one, u32 other);
    // The node at which a segment begins, and those in front of it in the tree (NONE: there is none).
    u32 begin_of(u32 segment) const;
    u32 in_front_of(u32 segment) const;
    u32 parent_of(u32 node) const { return graph_.parent(node); }
    u32 end_of(u32 segment) const;      // the node at which it ends
    // Whether all of the segment comes in front of the node, or the node in front of the segment.
    bool is_before_node(u32 segment, u32 node);
    bool is_node_before(u32 node, u32 segment) { return graph_.leads(node, begin_of(segment)); }
    // Whether two tasks that exclude each other keep these segments apart.
    bool are_apart(u32 one, u32 other);
    // Whether they are two lanes of one `simd` loop.
    bool are_lanes(u32 one, u32 other) const;
    // The actor, or what met the region of which it is a share.
    u32 home(u32 actor) const;
    // `0.1.2`: the second child of the first child of the program.
    std::string name(u32 actor) const;
    // The recorder's number of its task.
    u32 number_of(u32 actor) const { return number_of_[actor]; }

    const Trace &trace;
    std::vector<Actor> actors;
    std::vector<Segment> segments;
    std::vector<Unit> units;
    std::vector<Phase> phases;
    std::vector<Region> regions;
    std::vector<Group> groups;
    std::vector<u32> segment_of, locks_of;    // of each event that is an access
    std::vector<u32> chain_of;                // the event that names its callers
    LockSets locks;
    Counts counts;
    Fault fault;
    std::vector<u32> unended;
    // The shared copies of reduced variables.
    std::map<u64, u64> copies;
    // Writes that the runtime does when it puts a reduction together: the event behind which, address and size.
    std::map<std::size_t, std::vector<std::pair<u64, u64>>> combined;
    std::map<std::size_t, std::size_t> reduced_at;  // by the event that closes a group: the one that says what it reduces
    std::vector<Reduction> reductions;
    std::map<std::size_t, u32> reduction_at;    // by the event at which a thread gives its part
    std::vector<Late> late;
    bool has_ended = false;
    u32 open_regions = 0, team_most = 1, explicit_tasks = 0;

private:
    State &state(u32 number);
    State &fresh(u32 number);
    State &state_of(const event &e) { return state(e.task); }
    void take(std::size_t at);
    void take_sync(std::size_t at, const event &e);
    void take_start(std::size_t at, const event &e);
    void take_end(std::size_t at, const event &e);
    void take_memory(std::size_t at, const event &e);
    void take_lane(std::size_t at, const event &e);
    void take_share(const event &e);
    void forget_released(const event &e);

    u32 add_segment(u32 actor, u32 node, u32 flags);
    u32 node_of(State &s);              // of the segment, which gets one where it has none
    void split(State &s, u32 also = NONE);
    void refuse(const char *rule, const char *step, const State &s, u32 other, const event &e);

    void create(const event &e);
    void settle_items(State &parent);
    bool are_siblings(u32 one, u32 other) const;
    void find_same_unit(State &s);
    void keep_apart(State &s, const event &e);
    void start(const event &e, u32 thread);
    void discard(State &s);
    void end(const event &e);
    void fulfil(const event &e);
    void wait(const event &e);
    void wait_items(const event &e);
    u32 least_unended(const std::vector<u32> &members) const;
    void open_group(const event &e);
    void close_group(std::size_t at, const event &e);
    void begin_region(const event &e);
    void end_region(const event &e);
    void begin_part(const event &e, u32 thread);
    void begin_barrier(const event &e);
    void end_barrier(const event &e);
    u32 close_phase(u32 phase, const State &s, const event &e);
    u32 open_phase(u32 region, u32 open);
    bool is_one_by_clause(const State &s) const;
    void begin_loop(const event &e);
    void iterate(const event &e);
    void enter_unit(State &s, u32 segment);
    void leave_unit(State &s);
    void end_loop(const event &e);
    void begin_last(const event &e);
    void end_last(const event &e);
    void begin_single(const event &e);
    void end_single(const event &e);
    void join(u32 &node, u32 other);
    void begin_masked(const event &e);
    void end_masked(const event &e);
    void begin_ordered(const event &e);
    void end_ordered(const event &e);
    void begin_lanes(const event &e);
    void begin_lane(const event &e);
    void leave_lane(State &s);
    void end_lanes(const event &e);
    bool is_lane_before(u32 one, u32 other) const;
    void post(const event &e);
    void await(const event &e);
    void lock(std::size_t at, const event &e);
    void reduce(State &s, std::size_t at, u64 lock);
    void release(const event &e);
    void acquire(const event &e);
    void note(const event &e);
    void copy(std::size_t at, const event &e);
    void take_part(State &s, u64 address);
    u32 locks_with(const State &s, const event &e);
    u32 locks_with_copy(const State &s, const event &e);
    void access(std::size_t at, const event &e);
    void take_stack(const State &s, std::size_t at, const event &e);
    void give_back_stack(std::size_t at, u64 base);
    void end_frame(State &s, std::size_t at, const event &e);
    bool comes_from(u32 actor, u32 other) const;
    bool is_gone(const Gone &gone, const Holder *holder, const State &s, Late &found);
    void find_late(const State &s, std::size_t at, const event &e);
    void part_ways(const State &s, std::size_t at);
    Shared *next_shared(State &s);
    void finish();

    Graph graph_;
    Lives lives_;
    std::vector<std::shared_ptr<State>> states_;   // 0 is the program's first thread, which others may stand for too
    std::unordered_map<u64, u32> region_of_;
    // What was released at an address: by all, and by those that don't count down.
    struct Released {
        u32 node, actor;
        u32 raised;
        bool is_guard;
    };
    std::map<u64, Released> released_;
    std::map<u64, u64> sizes_;      // of reduced variables
    std::multiset<u64> originals_;  // the reduced variables of open groups
    // A thread's copy of a variable that its region reduces with the tasks in it.
    struct RegionCopy {
        u64 size;
        u32 region;
    };
    std::map<u64, RegionCopy> region_copies_;
    std::vector<u32> number_of_;    // the task number of each actor
    std::map<std::pair<u32, u64>, u32> reduction_of_;   // by phase and lock
    std::unordered_map<u32, u32> lane_of_;  // where there is a `safelen`: the number of a segment's lane
    std::set<u32> leagues_;         // the first tasks of the teams of a league
    std::size_t now_ = 0;           // the event that is taken
};

}  // namespace judge
