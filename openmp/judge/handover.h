// What one task hands to another one under a lock. A block goes by its pointer, which is written and read under that lock, as
// in a pool or a queue: who had the block up to then, and who has it from there on, aren't at it at once. A flag is written
// once, under a lock: what came in front of that comes in front of what who has read it does next.
#pragma once

#include <map>
#include <unordered_map>
#include <vector>

#include "run.h"

namespace judge {

// A block that was taken, or a task's part of a stack.
struct Block {
    u64 size;
    u32 at;          // the event
    u32 segment;     // in which it was taken
};

// An access.
struct Step {
    u32 at;          // the event
    u32 segment;
};

class Handover {
public:
    Handover(Run &run, const std::map<u64, Block> &blocks) : run_(run), blocks_(blocks) {}

    // A load or store of one number.
    void see(std::size_t at, const event &e);
    // The memory from there on is new.
    void forget(u64 address, u64 size);
    // Whether something was handed out between these two events of a segment: the block at the address, or by a flag.
    bool is_offered(u32 segment, u32 from, u32 to, u64 address) const;
    // Whether that block, or one that has its pointer, was handed on behind the earlier step and in front of the later one,
    // or a flag told the later one of the earlier one.
    bool is_between(const Step &earlier, const Step &later, u64 address);

private:
    // A pointer to a block that was written under locks, or read under them.
    struct Offer {
        Step step;
        u32 locks;
    };
    struct Hand {
        Step given, taken;
    };
    // What is known of a block, by where it begins: the latest offers and hands.
    struct Known {
        std::vector<Offer> offers;
        std::vector<Hand> hands;
        u64 holder = 0;             // the block in which its pointer was stored last
    };

    struct Flag {
        Step written;
        u32 locks;
        u64 value;
        bool is_one;    // else it was written again
    };
    struct Signal {
        u64 flag;       // its address
        Step read;
    };

    void see_pointer(const event &e, const Step &step, u32 locks);
    void see_flag(const event &e, const Step &step, u32 locks);
    bool is_new_since(u64 address, const Step &step) const;     // whether the memory there is
    bool is_told(const Step &earlier, const Step &later);
    u64 block_of(u64 pointer) const;    // where it begins; 0 where the pointer leads into none
    void offer(Known &block, const Offer &offer);
    void take(Known &block, const Offer &taker);
    const Known *offered(u64 block) const;
    bool is_in_hand(const Known &block, const Step &step);
    bool follows(const Step &earlier, const Step &later);

    Run &run_;
    const std::map<u64, Block> &blocks_;
    std::map<u64, Known> known_;
    std::unordered_map<u64, Flag> flags_;                       // by their addresses
    std::unordered_map<u32, std::vector<Signal>> signals_;      // by who has read them: the latest ones
    std::unordered_map<u32, u32> last_flag_;                    // of each segment, the event that wrote it
};

}  // namespace judge
