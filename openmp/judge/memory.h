// Who touched which memory, and which of these touches nothing orders.
#pragma once

#include <array>
#include <map>
#include <memory>
#include <unordered_map>
#include <vector>

#include "handover.h"
#include "run.h"

namespace judge {

// A load or store that may still race with a later one.
struct Touch {
    u32 segment;
    u32 at;        // the event
    u32 next;
    u8 mask;       // which of the eight bytes
};

// Two touches that nothing orders; of one kind are those with the same two places.
struct Race {
    u32 earlier, later;   // events
    u32 earlier_segment, later_segment;
    u64 address;
    u64 count = 1;
    bool is_apart = false;
    bool is_copied = false;   // each thread of a larger team would do it: the two may be one event
    bool is_sure = true;      // else only where the place is no other one for each thread
};

// Which of a place's eight bytes these are.
inline u8 mask_of(u64 place, u64 address, u64 size) {
    u64 begin = address > place * 8 ? address - place * 8 : 0;
    u64 end = address + size - place * 8;
    return static_cast<u8>((end >= 8 ? 0xff : (1u << end) - 1) & ~((1u << begin) - 1));
}

class Memory {
public:
    // `is_plain`: each access is compared with all before it at its place, which shows that the short cuts lose nothing.
    Memory(Run &run, bool is_plain);

    std::vector<Race> races;
    u64 by_thread_number = 0;      // kept out, since the program asked for the thread's number
    u64 by_one_number = 0;         // of these, and of what more threads would do, in a team of one that might have more
    u64 by_atomics = 0, by_locks = 0, by_handover = 0, copies = 0, strangers = 0;
    std::map<u64, Block> blocks;   // as they were at the end
    // The block that an address was in when it was touched, for each race.
    std::vector<Block> block_of_race;
    std::vector<u64> block_begin;

private:
    // The touches of a place of eight bytes that are alike: loads or stores, under the same locks, atomic or not.
    struct Bucket {
        u32 next, head;
        u32 passed;      // a node that all of these come before
        u32 locks;
        bool is_write, is_atomic;
    };
    static constexpr u64 GRANULE = 8, PAGE = 512;
    static constexpr u32 MOST_RACES = 16;    // of one place: then it isn't looked at any more
    using Page = std::array<u32, PAGE>;

    struct Now {
        u32 at, segment, locks;
        u64 address, size, granule;
        bool is_write, is_atomic;
        u8 mask;
    };

    void take(std::size_t at);
    bool is_copy(u64 address) const;
    u64 size_of_block(const event &e) const;
    void reduce(std::size_t at);
    void touch_all(std::size_t at, const event &e);
    void touch_set(std::size_t at, const event &e);
    void touch(std::size_t at, u64 address, u64 size, bool is_write, u8 mark);
    void touch_place(Now &now, u32 &place);
    bool compare(const Now &now, Bucket &bucket);
    void keep(const Now &now, u32 &place);
    void is_new(std::size_t at, const event &e);
    void clear(u64 address, u64 size);
    std::size_t climb(u32 segment, u32 newest);
    void pass(const Now &now, Bucket &bucket);
    bool is_own(const Now &now, const Touch &earlier);
    bool is_in_turn(const Now &now, const Touch &earlier);
    bool is_handed_over(const Now &now, const Touch &earlier);
    bool is_on_stack(u32 part, u64 address) const;
    bool is_private(u32 part, u64 address) const;
    void tell_late(std::size_t at);
    void look_for_copies(const Now &now);
    void meet_copies(Now now, bool is_sure, bool has_number);
    void tell_copies();
    Race *add_race(const Now &now, u32 at, u32 segment, bool is_apart, bool is_copied);
    void keep_freed(const Now &now);
    void find_freed(const Now &now, u32 &place);
    const Block *block_at(u64 address, u64 *begin = nullptr) const;

    Run &run_;
    const bool is_plain_;
    Handover handover_;
    std::map<u64, std::unique_ptr<Page>> pages_;
    u64 last_page_number_ = ~u64{0};
    Page *last_page_ = nullptr;
    std::vector<Bucket> buckets_;
    std::vector<Touch> touches_;
    u32 free_bucket_ = NONE, free_touch_ = NONE;
    std::size_t next_late_ = 0;
    struct Key {
        u64 places, kinds;
        bool operator==(const Key &o) const { return places == o.places && kinds == o.kinds; }
    };
    struct Hash {
        std::size_t operator()(const Key &key) const { return key.places * 0x9E3779B97F4A7C15u ^ key.kinds; }
    };
    std::unordered_map<Key, u32, Hash> known_;
    std::map<u64, Now> freed_;               // what was given back last, by where it begins
    // What each thread of a larger team would do, by who does it and where.
    struct Copied {
        Now now;
        bool is_sure;     // else only where it is always the same address
    };
    std::map<std::pair<u32, int>, Copied> copied_;
    // Since the last barrier, by where: under which locks, loads and stores apart.
    std::unordered_map<u64, std::vector<Copied>> copied_at_;
    // The nodes up the tree from the segment that was looked at last, and the next one.
    std::vector<u32> path_;
    u32 path_of_ = NONE, above_ = NONE;
    std::unordered_map<u64, u32> raced_;     // how many races a place has had
    std::unordered_map<u32, std::pair<u64, u64>> stacks_;   // of each actor, its part of a stack
};

}  // namespace judge
