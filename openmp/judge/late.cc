// Tasks that come too late: what they touch was a variable of one that they come from, whose function has ended.
#include "memory.h"

namespace judge {

namespace {

constexpr std::size_t MOST_FRAMES = 16;     // of one actor: the latest
constexpr std::size_t MOST_LATE = 1 << 16;

}  // namespace

// The stack below is new to the actor: whoever had it there has it no more.
void Run::take_stack(const State &s, std::size_t at, const event &e) {
    const u64 base = e.address + e.value;
    give_back_stack(at, base);
    lives_.take(trace.thread(at), e.address, Holder{s.actor, base, at, s.segment});
}

void Run::give_back_stack(std::size_t at, u64 base) {
    std::vector<u32> gone;
    const Holder *below = lives_.give_back(trace.thread(at), base, gone);
    for (u32 actor : gone) {
        State &s = state(number_of_[actor]);
        const auto frames = std::move(s.frames);
        s.frames = {};
        if (s.actor != actor || frames.empty() || (s.under_way == 0 && !s.leaves))
            continue;
        Gone left{at, frames, Holder{NONE, 0, 0, NONE}, NONE, NONE};
        if (below) {
            const State &has = state(number_of_[below->actor]);
            left.below = Holder{below->actor, below->base, at, has.segment};
            left.unit = has.unit;
            left.phase = has.phase;
        }
        lives_.leave(actor, std::move(left));
    }
}

// Where tasks may still come that know of the function's variables.
void Run::end_frame(State &s, std::size_t at, const event &e) {
    if (s.under_way != 0 || s.leaves) {
        const FrameEnd frame{e.address, e.address + (e.size == LARGE ? e.value : e.size), at};
        while (!s.frames.empty() && s.frames.back().low >= frame.low && s.frames.back().top <= frame.top)
            s.frames.pop_back();
        if (s.frames.size() == MOST_FRAMES)
            s.frames.erase(s.frames.begin());
        s.frames.push_back(frame);
    }
    if (e.mark & OUTERMOST)
        give_back_stack(at, e.address + (e.size == LARGE ? e.value : e.size));
}

bool Run::comes_from(u32 actor, u32 other) const {
    while (actor != NONE && actor != other)
        actor = actors[actor].parent;
    return actor != NONE;
}

// Whether the memory was given back and nobody that the actor might know of has it now; who has it is added to what was
// found. A share of a loop, an iteration, is in no order with the next one, so it doesn't say who may know.
bool Run::is_gone(const Gone &gone, const Holder *holder, const State &s, Late &found) {
    if (!holder)
        return true;
    const bool is_later = holder->at > gone.at;
    const State &has = state(number_of_[holder->actor]);
    if (!is_later && (has.seen < gone.at || (has.seen == has.barrier && trace[found.at].address < has.barrier_end)))
        return true;
    const Holder &taker = is_later ? *holder : gone.below;
    found.taken = taker.at;
    found.taker = taker.segment;
    if (taker.segment == NONE || segments[taker.segment].flags & Segment::IS_LIGHT)
        return false;
    return is_later ? !comes_from(s.actor, holder->actor)
                    : holder->actor == taker.actor && has.unit == gone.unit && has.phase == gone.phase;
}

// A task that touches the stack where one that it comes from had a variable.
void Run::find_late(const State &s, std::size_t at, const event &e) {
    bool is_stack = false;
    const Holder *holder = lives_.holder_of(e.address, is_stack);
    if (!is_stack || late.size() == MOST_LATE || !lives_.is_beyond(trace.thread(at), s.actor, e.address))
        return;
    for (u32 actor = actors[s.actor].parent; actor != NONE; actor = actors[actor].parent) {
        const Gone *gone = lives_.gone(actor);
        if (!gone)
            continue;
        auto frame = std::find_if(gone->frames.rbegin(), gone->frames.rend(), [&](const FrameEnd &end) {
            return e.address >= end.low && e.address < end.top;
        });
        if (frame == gone->frames.rend())
            continue;
        Late found{at, frame->at, 0, NONE};
        if (is_gone(*gone, holder, s, found))
            late.push_back(found);
        return;
    }
}

// A variable whose function has ended, where nobody has that memory, or one of whom the later step can't know.
void Memory::tell_late(std::size_t at) {
    for (; next_late_ < run_.late.size() && run_.late[next_late_].at <= at; next_late_++) {
        const Late &late = run_.late[next_late_];
        const event &e = run_.trace[at];
        const u32 segment = run_.segment_of[at], ended = run_.segment_of[late.ended];
        if (late.at != at || run_.is_before(ended, segment))
            continue;
        const Now now{static_cast<u32>(at), segment, run_.locks_of[at], e.address, e.size, e.address / GRANULE, e.kind == WRITE,
                      (e.mark & ATOMIC) != 0, 0};
        const Touch freed{ended, static_cast<u32>(late.ended), NONE, 0};
        const Touch taken{late.taker, static_cast<u32>(late.taken), NONE, 0};
        const bool may_know = late.taker != NONE
                              && (now.locks != 0 || run_.is_before(late.taker, segment) || is_handed_over(now, taken));
        if (!may_know && !is_handed_over(now, freed))
            add_race(now, freed.at, ended, run_.are_apart(ended, segment), false);
    }
}

}  // namespace judge
