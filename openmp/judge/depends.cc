#include "depends.h"

#include <algorithm>

namespace judge {

namespace {

bool is_set(u8 type) { return type != Item::INOUT; }

void append(std::vector<u32> &to, const std::vector<u32> &from) { to.insert(to.end(), from.begin(), from.end()); }

std::vector<u32> once(std::vector<u32> found) {
    std::sort(found.begin(), found.end());
    found.erase(std::unique(found.begin(), found.end()), found.end());
    return found;
}

bool names_all(const std::vector<Item> &items) {
    return std::any_of(items.begin(), items.end(), [](const Item &item) { return item.type & Item::ALL_MEMORY; });
}

}  // namespace

// `out` orders as `inout` does.
u8 Siblings::kind(u8 type) {
    if (type == Item::IN || type == Item::MUTEXINOUTSET || type == Item::INOUTSET)
        return type;
    return Item::INOUT;
}

// Children of one set don't wait for each other, but for the set in front.
void Siblings::waits_for(const Place &place, u8 type, std::vector<u32> &found) const {
    bool is_same = is_set(type) && place.type == type;
    append(found, is_same ? place.earlier : place.set);
}

std::vector<u32> Siblings::before(const std::vector<Item> &items) const {
    std::vector<u32> found;
    if (items.empty())
        return found;
    if (names_all(items))
        return with_items_;
    append(found, all_.set);
    for (const Item &item : items) {
        auto at = places_.find(item.address);
        if (at != places_.end())
            waits_for(at->second, kind(item.type), found);
    }
    return once(std::move(found));
}

std::vector<u32> Siblings::apart(const std::vector<Item> &items) const {
    std::vector<u32> found;
    for (const Item &item : items) {
        auto at = places_.find(item.address);
        if (item.type == Item::MUTEXINOUTSET && at != places_.end() && at->second.type == Item::MUTEXINOUTSET)
            append(found, at->second.set);
    }
    return found;
}

void Siblings::add_one(Place &place, u32 child, u8 type) {
    if (!(is_set(type) && place.type == type)) {
        place.earlier = std::move(place.set);
        place.set.clear();
        place.type = type;
    }
    place.set.push_back(child);
}

// A child of all memory comes after all that have items, and in front of all that get some.
void Siblings::add(u32 child, const std::vector<Item> &items) {
    if (items.empty())
        return;
    if (names_all(items)) {
        places_.clear();
        with_items_.assign(1, child);
        all_.set.assign(1, child);
        return;
    }
    with_items_.push_back(child);
    // A child that names an address twice has the stronger type.
    std::map<u64, u8> types;
    for (const Item &item : items) {
        u8 type = kind(item.type);
        auto added = types.emplace(item.address, type);
        if (!added.second && added.first->second != type)
            added.first->second = Item::INOUT;
    }
    for (const auto &entry : types)
        add_one(places_[entry.first], child, entry.second);
}

}  // namespace judge
