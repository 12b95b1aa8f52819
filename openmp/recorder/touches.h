/* How a load or store is written down, which is told once in each part of a task. */
#ifndef TASKBACK_TOUCHES_H
#define TASKBACK_TOUCHES_H

#include "writing.h"

static inline void read_written(struct own *own) {
    struct event *event = own->unread;
    own->unread = 0;
    event->value = number_at(event->address, own->unread_size);
}

/* What the creator fills of a task's record, what the runtime does for a task, and what is being sorted. */
SELDOM void taskback_find_others(const struct own *own, uint64_t address, int *is_found);

static inline int is_apart(const struct own *own, uint64_t address) {
    if (__builtin_expect(!(own->record_size | own->muted | own->sorted.size), 1))
        return 0;
    int is_found;
    taskback_find_others(own, address, &is_found);
    return is_found;
}

/* A function's frame as frames that keep their pointers have it. */
struct frame {
    struct frame *outer;
    uint64_t back;
};

static inline struct frame *outer_of(const struct own *own, const struct frame *frame) {
    uint64_t outer = (uint64_t)frame->outer;
    int is_frame = outer > (uint64_t)frame && outer < own->stack_high - sizeof(struct frame) && outer % 8 == 0;
    return is_frame ? frame->outer : 0;
}

/* The frame of the function that makes the access; 0 where it can't be told. */
static inline struct frame *frame_of(const struct own *own, uint64_t place, struct frame *frame) {
    while (frame && frame->back != place)
        frame = outer_of(own, frame);
    return frame ? outer_of(own, frame) : 0;
}

static inline int are_callers_known(const struct own *own, const struct chain *chain, const struct frame *frame) {
    return !frame || (chain->frame == (uint64_t)frame && chain->caller == frame->back
                      && chain->outer == (uint64_t)frame->outer && chain->task == own->task);
}

/* Writes down who called the function that makes the access; the chain is that of its task. */
SELDOM void taskback_note_new_callers(struct own *own, struct chain *chain, struct frame *frame);

/* That where it isn't known from the task's access before; of the task's outermost function, which has none, the mark that
   says so. */
static inline int note_callers(struct own *own, struct frame *frame) {
    struct running *running = own->top;
    int is_own = running && running->task == own->task;
    if (is_own && frame && (uint64_t)frame + sizeof *frame == running->base)
        return OUTERMOST;
    struct chain *chain = is_own ? &running->chain : &own->chain;
    if (__builtin_expect(!are_callers_known(own, chain, frame), 0))
        taskback_note_new_callers(own, chain, frame);
    return 0;
}

static inline struct touched *touched_at(struct own *own, uint64_t block, uint64_t place) {
    return &own->touched[(block ^ place * 31) * 0x9E3779B97F4A7C15u >> (64 - TOUCHED_BITS)];
}

static inline uint64_t key_of(const struct own *own, uint64_t place) { return own->part_key | (uint32_t)place; }

/* What is no element of a block of its size stands alone: its block is its address, and no other block's number. */
static inline uint64_t alone(enum kind kind, uint64_t address) { return address | 1ull << 63 | (uint64_t)kind << 56; }

/* An access that comes again in one part of a task changes no order: it is written down once, a write with the number that
   it leaves in the end. */
__attribute__((always_inline)) static inline void touch_again(struct own *own, struct event *first, enum kind kind, uint64_t size, int has_number) {
    own->last = first;
    if (kind != WRITE || !has_number || own->unread == first)
        return;
    taskback_settle(own);
    own->unread = first;
    own->unread_size = (uint32_t)size;
}
/* `user` is the frame of the function that makes the access; 0 where it can't be told. */
__attribute__((always_inline)) static inline struct event *note_touch(struct own *own, enum kind kind, uint64_t address, uint64_t size,
                                                                      uint64_t place, int mark, struct frame *user) {
    if (own->unread)
        read_written(own);
    if (own->stack_high)
        mark |= note_callers(own, user);
    int has_number = size <= LONGEST_NUMBER && !(mark & FREED);
    uint64_t value = size > LONGEST_NUMBER ? size : kind == READ && has_number ? number_at(address, (uint32_t)size) : 0;
    struct event *event = own->last = write_down(own, kind, number_of_event(kind, mark), own->task, address, value, offset_of(place),
                                                 size_told(size), mark);
    if (kind == WRITE && has_number) {
        own->unread = event;
        own->unread_size = (uint32_t)size;
    }
    return event;
}

/* What no other task can know of yet: what the function has on the stack, and what the task has in its record. */
static inline int is_quiet(const struct own *own, const void *address) {
    return (uint64_t)address - own->stack_low < own->quiet_span || (uint64_t)address - own->quiet_record < own->quiet_size;
}
#endif
