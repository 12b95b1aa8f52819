#include "memory.h"

namespace judge {

namespace {

constexpr u32 DEAD = NONE - 1;    // such a place
constexpr std::size_t FARTHEST = 256;    // nodes up the tree
constexpr u32 FEW = 4;            // loads that a load is compared with, to stand for them

}  // namespace

Memory::Memory(Run &run, bool is_plain) : run_(run), is_plain_(is_plain), handover_(run, blocks) {
    for (std::size_t at = 0; at < run.trace.size(); at++)
        take(at);
    tell_copies();
}

void Memory::take(std::size_t at) {
    const event &e = run_.trace[at];
    if (e.kind == BARRIER_END || e.kind == REGION_END)
        copied_at_.clear();
    if (e.kind == MEMORY || (e.kind == LANE && e.value != 0) || ((e.kind == START || e.kind == END) && (e.mark & STACK)))
        return is_new(at, e);
    if (e.kind == LOCK && e.mark == REDUCES)
        return reduce(at);
    if (e.kind == GROUP_CLOSE || e.kind == COPY) {
        auto found = run_.combined.find(at);
        if (found != run_.combined.end())
            for (const auto &written : found->second)
                if (!is_copy(written.first))
                    touch(at, written.first, written.second, true, 0);
        return;
    }
    if ((e.kind != READ && e.kind != WRITE) || run_.segment_of[at] == NONE)
        return;
    u64 size = e.size == LARGE ? e.value : e.size;
    if (is_copy(e.address)) {
        copies++;
        return;
    }
    if (run_.segments[run_.segment_of[at]].actor == 0 && run_.trace.thread(at) != 0)
        strangers++;
    if (e.size != SET && size <= sizeof(u64) && !(e.mark & FREED))
        handover_.see(at, e);
    touch_all(at, e);
    tell_late(at);
}

// Each thread of a team may put its part of a reduction into the variable when it has come to its end.
void Memory::reduce(std::size_t at) {
    auto found = run_.reduction_at.find(at);
    if (found == run_.reduction_at.end())
        return;
    const Reduction &reduction = run_.reductions[found->second];
    const u32 region = run_.actors[run_.segments[run_.segment_of[at]].actor].region;
    for (std::size_t written : reduction.writes) {
        const event &e = run_.trace[written];
        const Block *block = block_at(e.address);
        if (is_copy(e.address) || is_on_stack(reduction.actor, e.address) || (block && block->at > run_.regions[region].begun))
            continue;
        touch_all(at, e);
    }
}

// As the event does, which may be another one's.
void Memory::touch_all(std::size_t at, const event &e) {
    if (e.size == SET)
        return touch_set(at, e);
    u64 size = e.size == LARGE ? e.value : e.size;
    touch(at, e.address, size ? size : size_of_block(e), e.kind == WRITE, e.mark);
}

// Of a block that is given back without its size.
u64 Memory::size_of_block(const event &e) const {
    const Block *block = e.mark & FREED ? block_at(e.address) : nullptr;
    return block ? block->size : 1;
}

// Whether it is a thread's copy of a reduced variable.
bool Memory::is_copy(u64 address) const {
    auto copy = run_.copies.upper_bound(address);
    return copy != run_.copies.begin() && address - std::prev(copy)->first < std::prev(copy)->second;
}

// Elements that stand in a row are touched together.
void Memory::touch_set(std::size_t at, const event &e) {
    const u64 size = u64{1} << ((e.mark >> ROW_SHIFT) - 1);
    for (u64 i = 0, count; i < 64; i += count) {
        for (count = 0; i + count < 64 && e.value >> (i + count) & 1; count++) {}
        if (count)
            touch(at, e.address + i * size, count * size, e.kind == WRITE, e.mark);
        else
            count = 1;
    }
}

// What a block is given back for reaches over many places; only those that somebody has touched are looked at.
void Memory::touch(std::size_t at, u64 address, u64 size, bool is_write, u8 mark) {
    Now now{static_cast<u32>(at), run_.segment_of[at], run_.locks_of[at], address, size, 0, is_write,
            (mark & ATOMIC) != 0, 0};
    bool is_freed = mark & FREED;
    u64 low = address / GRANULE, high = (address + size + GRANULE - 1) / GRANULE;
    for (now.granule = low; now.granule < high; now.granule++) {
        u64 number = now.granule / PAGE;
        if (number != last_page_number_) {
            auto page = pages_.lower_bound(number);
            if (page == pages_.end() || page->first != number) {
                if (is_freed) {
                    if (page == pages_.end() || page->first * PAGE >= high)
                        break;
                    now.granule = page->first * PAGE - 1;
                    continue;
                }
                page = pages_.emplace(number, std::make_unique<Page>()).first;
                page->second->fill(NONE);
            }
            last_page_number_ = number;
            last_page_ = page->second.get();
        }
        u32 &place = (*last_page_)[now.granule % PAGE];
        if (place == NONE && !is_freed && !freed_.empty())
            find_freed(now, place);
        if (place == DEAD || (is_freed && place == NONE))
            continue;
        now.mask = mask_of(now.granule, address, size);
        touch_place(now, place);
    }
    if (is_freed)
        keep_freed(now);
    else
        look_for_copies(now);
}

// Of what is given back only places are marked that somebody has touched; who touches another one later looks here.
void Memory::keep_freed(const Now &now) {
    auto first = freed_.lower_bound(now.address);
    freed_.erase(first, freed_.lower_bound(now.address + now.size));
    freed_.emplace(now.address, now);
}

void Memory::find_freed(const Now &now, u32 &place) {
    auto after = freed_.upper_bound(now.granule * GRANULE + GRANULE - 1);
    if (after == freed_.begin())
        return;
    Now given = std::prev(after)->second;
    if (now.granule * GRANULE >= given.address + given.size)
        return;
    given.mask = mask_of(now.granule, given.address, given.size);
    keep(given, place);
}

void Memory::touch_place(Now &now, u32 &place) {
    bool is_known = false;
    for (u32 at = place; at != NONE; at = buckets_[at].next)
        is_known = compare(now, buckets_[at]) || is_known;
    if (!is_plain_ && raced_.size() && raced_.count(now.granule) && raced_[now.granule] >= MOST_RACES)
        place = DEAD;
    else if (!is_known)
        keep(now, place);
}

// Compares with the touches of one bucket, and drops those that this one stands for from here on. Gives whether one of
// them stands for this one.
bool Memory::compare(const Now &now, Bucket &bucket) {
    bool is_alike = bucket.is_write == now.is_write && bucket.is_atomic == now.is_atomic && bucket.locks == now.locks;
    bool conflicts = (bucket.is_write || now.is_write) && !(bucket.is_atomic && now.is_atomic)
                     && !run_.locks.exclude(bucket.locks, now.locks);
    bool covers = (now.is_write || !bucket.is_write) && (!now.is_atomic || bucket.is_atomic)
                  && run_.locks.are_in(now.locks, bucket.locks);
    if (!conflicts && (bucket.is_write || now.is_write))
        (bucket.is_atomic && now.is_atomic ? by_atomics : by_locks)++;
    if (!is_plain_ && conflicts && !is_alike && bucket.passed != NONE && run_.is_node_before(bucket.passed, now.segment))
        return false;
    u32 seen = 0;
    bool is_passed = conflicts;
    for (u32 *link = &bucket.head; *link != NONE;) {
        u32 here = *link;
        Touch touch = touches_[here];
        if (!is_plain_ && touch.segment == now.segment && is_alike && (touch.mask & now.mask) == now.mask
            && !handover_.is_offered(now.segment, touch.at, now.at, now.granule * GRANULE))
            return true;
        if (!conflicts && (is_plain_ || ++seen > FEW))
            return false;
        bool meets = touch.mask & now.mask && (conflicts || covers);
        bool is_ordered = meets && (run_.is_before(touch.segment, now.segment)
                                    || (!run_.are_lanes(touch.segment, now.segment)
                                        && (is_own(now, touch) || (conflicts && (is_in_turn(now, touch) || is_handed_over(now, touch))))));
        if (meets && !is_ordered && conflicts)
            add_race(now, touch.at, touch.segment, run_.are_apart(touch.segment, now.segment), false);
        is_passed = is_passed && is_ordered;
        if (!is_plain_ && is_ordered && covers && (touch.mask & ~now.mask) == 0) {
            *link = touch.next;
            touches_[here].next = free_touch_;
            free_touch_ = here;
        } else {
            link = &touches_[here].next;
        }
    }
    if (!is_plain_ && is_passed && bucket.head != NONE)
        pass(now, bucket);
    return false;
}

// The nodes up the tree from where the segment begins, as far as they are as new as that.
std::size_t Memory::climb(u32 segment, u32 newest) {
    if (path_.empty() || path_of_ != segment) {
        path_of_ = segment;
        path_.assign(1, run_.begin_of(segment));
        above_ = run_.in_front_of(segment);
    }
    for (; above_ != NONE && above_ >= newest && path_.size() < FARTHEST; above_ = run_.parent_of(above_))
        path_.push_back(above_);
    auto older = std::partition_point(path_.begin() + 1, path_.end(), [&](u32 node) { return node >= newest; });
    return static_cast<std::size_t>(older - path_.begin());
}

// All of the bucket's touches come before this one: who comes after a node that they all come before needn't look at each
// again. The farther that node is up the tree, the more come after it.
void Memory::pass(const Now &now, Bucket &bucket) {
    u32 newest = 0;
    for (u32 at = bucket.head; at != NONE; at = touches_[at].next)
        newest = std::max(newest, run_.end_of(touches_[at].segment));
    auto is_passed = [&](u32 node) {
        for (u32 at = bucket.head; at != NONE; at = touches_[at].next)
            if (!run_.is_before_node(touches_[at].segment, node))
                return false;
        return true;
    };
    std::size_t known = 0, beyond = climb(now.segment, newest);
    if (!is_passed(path_[0]))
        return;     // they are of the same iteration, which has no node
    while (beyond - known > 1) {
        std::size_t middle = known + (beyond - known) / 2;
        (is_passed(path_[middle]) ? known : beyond) = middle;
    }
    bucket.passed = path_[known];
}

void Memory::keep(const Now &now, u32 &place) {
    u32 at = place;
    while (at != NONE && !(buckets_[at].is_write == now.is_write && buckets_[at].is_atomic == now.is_atomic
                           && buckets_[at].locks == now.locks))
        at = buckets_[at].next;
    if (at == NONE) {
        at = free_bucket_;
        if (at == NONE) {
            at = static_cast<u32>(buckets_.size());
            buckets_.emplace_back();
        } else {
            free_bucket_ = buckets_[at].next;
        }
        buckets_[at] = Bucket{place, NONE, NONE, now.locks, now.is_write, now.is_atomic};
        place = at;
    }
    u32 kept = free_touch_;
    if (kept == NONE) {
        kept = static_cast<u32>(touches_.size());
        touches_.emplace_back();
    } else {
        free_touch_ = touches_[kept].next;
    }
    touches_[kept] = Touch{now.segment, now.at, buckets_[at].head, now.mask};
    buckets_[at].head = kept;
    buckets_[at].passed = NONE;
}

void Memory::is_new(std::size_t at, const event &e) {
    clear(e.address, e.value);
    freed_.erase(freed_.lower_bound(e.address), freed_.lower_bound(e.address + e.value));
    auto last = blocks.lower_bound(e.address + e.value);
    auto first = blocks.lower_bound(e.address);
    if (e.kind != END && (e.mark & STACK) && run_.segment_of[at] != NONE)
        stacks_.emplace(run_.segments[run_.segment_of[at]].actor, std::make_pair(e.address, e.value));
    blocks.erase(first, last);
    handover_.forget(e.address, e.value);
    blocks[e.address] = Block{e.value, static_cast<u32>(at), run_.segment_of[at]};
}

void Memory::clear(u64 address, u64 size) {
    u64 low = address / GRANULE, high = (address + size + GRANULE - 1) / GRANULE;
    for (auto page = pages_.lower_bound(low / PAGE); page != pages_.end() && page->first * PAGE < high; ++page) {
        u64 begin = page->first * PAGE;
        for (u64 i = std::max(low, begin); i < std::min(high, begin + PAGE); i++) {
            u32 &place = (*page->second)[i % PAGE];
            while (place != NONE && place != DEAD) {
                Bucket &bucket = buckets_[place];
                while (bucket.head != NONE) {
                    u32 kept = bucket.head;
                    bucket.head = touches_[kept].next;
                    touches_[kept].next = free_touch_;
                    free_touch_ = kept;
                }
                u32 next = bucket.next;
                bucket.next = free_bucket_;
                free_bucket_ = place;
                place = next;
            }
            if (place == DEAD)
                raced_.erase(i);
            place = NONE;
        }
    }
}

const Block *Memory::block_at(u64 address, u64 *begin) const {
    auto after = blocks.upper_bound(address);
    if (after == blocks.begin())
        return nullptr;
    const auto &found = *std::prev(after);
    if (begin)
        *begin = found.first;
    return address - found.first < found.second.size ? &found.second : nullptr;
}

bool Memory::is_on_stack(u32 part, u64 address) const {
    auto stack = stacks_.find(part);
    return stack != stacks_.end() && address - stack->second.first < stack->second.second;
}

// Whether the memory is one that a thread's share has for itself: its part of the stack, and what it has taken.
bool Memory::is_private(u32 part, u64 address) const {
    if (is_on_stack(part, address))
        return true;
    const Block *block = block_at(address);
    if (!block || block->segment == NONE)
        return false;
    const Segment &segment = run_.segments[block->segment];
    return segment.actor == part && !(segment.flags & Segment::IS_SINGLE);
}

// Whether the memory is of the stack of a thread that is in front of both, and the thread's own order is: another thread
// that took the later unit would have that memory on a stack of its own.
bool Memory::is_in_turn(const Now &now, const Touch &earlier) {
    const auto &actors = run_.actors;
    u32 part = run_.segments[now.segment].actor, child = NONE, other = run_.segments[earlier.segment].actor, made = NONE;
    while (part != NONE && !(actors[part].flags & Actor::IS_PART && is_on_stack(part, now.granule * GRANULE)))
        part = actors[child = part].parent;
    while (other != NONE && other != part)
        other = actors[made = other].parent;
    if (part == NONE || other == NONE)
        return false;
    std::size_t later = child == NONE ? now.at : actors[child].made;
    if (made == NONE)
        return earlier.at < later;
    u32 unit = actors[made].unit;
    return unit != NONE && run_.units[unit].end < later && run_.units[unit].last != NONE
           && run_.is_before_node(earlier.segment, run_.units[unit].last);
}

bool Memory::is_handed_over(const Now &now, const Touch &earlier) {
    bool is_between = handover_.is_between(Step{earlier.at, earlier.segment}, Step{now.at, now.segment}, now.granule * GRANULE);
    by_handover += is_between ? 1 : 0;
    return is_between;
}

// Whether one thread did both in units that might be two threads', on memory that is its own.
bool Memory::is_own(const Now &now, const Touch &earlier) {
    u32 one = run_.segments[earlier.segment].actor, other = run_.segments[now.segment].actor;
    const Actor &a = run_.actors[one], &b = run_.actors[other];
    bool is_one_thread = a.thread == b.thread && a.thread != NONE;
    if (one == other && a.flags & Actor::IS_PART && is_private(one, now.granule * GRANULE))
        return true;
    bool asked = one == other && a.flags & Actor::IS_PART ? run_.regions[a.region].has_number
                                                         : (a.flags & b.flags & Actor::HAS_NUMBER) != 0;
    if (!is_one_thread || !asked)
        return false;
    by_thread_number++;
    by_one_number += a.region != NONE && run_.regions[a.region].stands_for_more() ? 1 : 0;
    return true;
}

// The race, where it is the first of its kind.
Race *Memory::add_race(const Now &now, u32 at, u32 segment, bool is_apart, bool is_copied) {
    const event &e = run_.trace[at], &f = run_.trace[now.at];
    raced_[now.granule]++;
    u64 lines = static_cast<u64>(static_cast<u32>(e.place)) << 32 | static_cast<u32>(f.place);
    u64 kinds = (u64{e.kind} << 8 | f.kind) << 8 | (is_apart ? 2 : 0) | (is_copied ? 1 : 0);
    constexpr u8 MARKS = (1 << ROW_SHIFT) - 1;
    kinds |= static_cast<u64>(e.mark & MARKS) << 32 | static_cast<u64>(f.mark & MARKS) << 40;
    auto added = known_.emplace(Key{lines, kinds}, static_cast<u32>(races.size()));
    if (!added.second) {
        races[added.first->second].count++;
        return nullptr;
    }
    u64 address = std::max({now.address, e.kind == LOCK ? 0 : e.address, is_copied ? 0 : now.granule * GRANULE});
    races.push_back(Race{at, now.at, segment, now.segment, address, 1, is_apart, is_copied});
    u64 begin = 0;
    const Block *block = block_at(races.back().address, &begin);
    block_of_race.push_back(block ? *block : Block{0, NONE, NONE});
    block_begin.push_back(begin);
    return &races.back();
}

}  // namespace judge
