// Who has which part of a thread's stack, and which functions' variables have ended there though a task may still come that
// knows of them.
#pragma once

#include <map>
#include <unordered_map>
#include <vector>

#include "trace.h"

namespace judge {

// The variables of a function that has ended.
struct FrameEnd {
    u64 low, top;
    std::size_t at;     // the event
};

// Who has the stack of a thread below `base`, down to who has the next part.
struct Holder {
    u32 actor;
    u64 base;
    std::size_t at;     // the event from which on
    u32 segment;        // in which it was then: behind that comes who may know of what is there
};

// What an actor leaves when its part of a stack is given back.
struct Gone {
    std::size_t at;
    std::vector<FrameEnd> frames;
    Holder below;       // who has the memory then, and in which segment it was; an actor NONE where nobody has
    u32 unit, phase;    // of that one
};

class Lives {
public:
    // The actor has the thread's stack from `low` to the holder's base.
    void take(u32 thread, u64 low, const Holder &holder);
    // Those that have no more of it where it is free up to `base`; the one that has it then, or nullptr.
    const Holder *give_back(u32 thread, u64 base, std::vector<u32> &gone);
    // Where the actor's part begins, below which others have theirs; the end of memory where it has none.
    u64 base_of(u32 thread, u32 actor) const;
    bool is_stack(u32 thread, u64 low) const { return thread < lows_.size() && lows_[thread] == low && low != 0; }
    void leave(u32 actor, Gone &&gone) { gone_[actor] = std::move(gone); }
    bool is_empty() const { return gone_.empty(); }
    const Gone *gone(u32 actor) const;
    // Whether the actor is the one that the thread runs, and the memory isn't of its own part.
    bool is_beyond(u32 thread, u32 actor, u64 address) const;
    // Who has this place; nullptr where nobody has. `is_stack` says whether it is of a stack at all.
    const Holder *holder_of(u64 address, bool &is_stack) const;

private:
    struct Stack {
        u64 top = 0;    // the highest base
        std::vector<Holder> holders;
    };

    Stack *stack_of(u32 thread);
    const Stack *stack_of(u32 thread) const { return const_cast<Lives *>(this)->stack_of(thread); }

    std::vector<u64> lows_;             // by the threads
    std::map<u64, Stack> stacks_;       // by where they begin
    std::unordered_map<u32, Gone> gone_;
};

}  // namespace judge
