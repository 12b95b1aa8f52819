// Which earlier children a child waits for by its depend clauses (OpenMP 5.2, 15.9.5).
#pragma once

#include <map>
#include <unordered_map>
#include <vector>

#include "trace.h"

namespace judge {

// A depend item as the runtime has it: the type has bits.
struct Item {
    enum Type : u8 { IN = 1, OUT = 2, INOUT = 3, MUTEXINOUTSET = 4, INOUTSET = 8, ALL_MEMORY = 0x80 };
    u64 address, length;
    u8 type;
};

// The children of one task that a later one may have to wait for, by the addresses of their items.
class Siblings {
public:
    // The children that one with these items waits for.
    std::vector<u32> before(const std::vector<Item> &items) const;
    // The children that exclude one with these items.
    std::vector<u32> apart(const std::vector<Item> &items) const;
    void add(u32 child, const std::vector<Item> &items);

private:
    // The last children that had the address in a set of one type, and those of the set in front of it.
    struct Place {
        u8 type = 0;
        std::vector<u32> set, earlier;
    };

    static u8 kind(u8 type);
    void add_one(Place &place, u32 child, u8 type);
    void waits_for(const Place &place, u8 type, std::vector<u32> &found) const;

    std::unordered_map<u64, Place> places_;
    Place all_;
    std::vector<u32> with_items_;
};

}  // namespace judge
