// Events that stand for several, which from here on are events of their own: a task's making, its end, and lanes.
#include "trace.h"

namespace judge {

namespace {

bool is_making(const event &e) { return e.kind == CREATE && e.size != 0; }

bool is_end(const event &e) { return e.kind == END && e.size != 0; }

bool is_element(const event &e) { return (e.kind == READ || e.kind == WRITE) && e.size != 0 && e.size <= LONGEST_NUMBER; }

// The loads and stores of a lane, which others that follow it have too.
struct Steps {
    const event *first;
    std::size_t count = 0, strides = 0;

    Steps(const event *lane, const event *end) : first(lane + 1) {
        if (lane->kind != LANE || lane->size == 0)
            return;
        while (first + count != end && is_element(first[count]))
            count++;
        while (first + count + strides != end && first[count + strides].kind == STRIDES)
            strides++;
        if (strides != (count + 3) / 4)
            throw BadTrace("the lanes of the trace are wrong");
    }

    u64 stride(std::size_t step) const {
        const event &e = first[count + step / 4];
        const u64 two = step % 4 < 2 ? e.address : e.value;
        return static_cast<u64>(static_cast<std::int32_t>(step % 2 ? two >> 32 : two));
    }
};

// The step of a lane so many behind the first one, of whose numbers nothing is known.
event farther(event e, u64 distance) {
    const u64 address = e.address + distance;
    const auto shift = static_cast<u32>(__builtin_ctz(e.size));
    e.address = address >> (shift + 6) << (shift + 6);
    e.value = u64{1} << (address >> shift & 63);
    e.size = SET;
    e.mark = static_cast<u8>(e.mark | (1 + shift) << ROW_SHIFT);
    return e;
}

// All have one number, so that each lane's steps stay together.
event *unfold_lanes(const event &lane, const Steps &steps, event *to) {
    for (u64 number = 0; number <= lane.size; number++) {
        *to = lane;
        to++->size = 0;
        for (std::size_t i = 0; i < steps.count; i++) {
            *to = number ? farther(steps.first[i], steps.stride(i) * number) : steps.first[i];
            to++->stamp = lane.stamp;
        }
    }
    return to;
}

// The child's record is new in front of its making, behind which the child may start.
event *unfold_making(const event &e, u64 stack, event *to) {
    const auto child = static_cast<u32>(e.value);
    const u64 used = e.value >> 32;
    to[0] = e;
    to[0].kind = MEMORY;
    to[0].value = e.size;
    to[0].stamp--;
    to[0].place = 0;
    to[0].size = to[0].mark = 0;
    to[1] = e;
    to[1].address = child;
    to[1].value = static_cast<u64>(e.mark & FLAGS) << FLAGS_SHIFT | FLAGS_EXPLICIT;
    to[1].size = to[1].mark = 0;
    if (!(e.mark & BEGINS))
        return to + 2;
    to[2] = event{used ? stack : 0, used, e.stamp, child, 0, 0, START, static_cast<u8>(used ? STACK : 0)};
    return to + 3;
}

// The frame of the task's outermost function ends in front of the task.
event *unfold_end(const event &e, event *to) {
    to[0] = e;
    to[0].kind = WRITE;
    to[0].stamp--;
    to[0].mark = FREED | FRAME | OUTERMOST;
    to[0].address = e.address + e.value - e.size;
    to[0].value = e.size > LONGEST_NUMBER ? e.size : 0;
    to[0].size = e.size > LONGEST_NUMBER ? static_cast<u16>(LARGE) : e.size;
    to[1] = e;
    to[1].place = 0;
    to[1].size = 0;
    return to + 2;
}

}  // namespace

std::size_t unfolded_size(const event *events, std::size_t count) {
    std::size_t size = 0;
    for (const event *end = events + count; events != end; events++) {
        const Steps steps(events, end);
        size += events->kind == STRIDES ? 0 : is_making(*events) ? (events->mark & BEGINS ? 3 : 2) : is_end(*events) ? 2 : 1;
        size += steps.count ? events->size * (1 + steps.count) : 0;
    }
    return size;
}

void unfold(const event *events, std::size_t count, event *to) {
    const u64 stack = word_at(&events->stamp);
    for (const event *end = events + count; events != end; events++) {
        const Steps steps(events, end);
        if (steps.count) {
            to = unfold_lanes(*events, steps, to);
            events += steps.count + steps.strides;
        } else if (is_making(*events)) {
            to = unfold_making(*events, stack, to);
        } else if (is_end(*events)) {
            to = unfold_end(*events, to);
        } else if (events->kind != STRIDES) {
            *to++ = *events;
        }
    }
}

}  // namespace judge
