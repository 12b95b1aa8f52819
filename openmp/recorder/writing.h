/* How an event is put behind those that the thread has written down: in a header, since this is most of what recording costs. */
#ifndef TASKBACK_WRITING_H
#define TASKBACK_WRITING_H

#include "recorder.h"

/* In a line of the cache of its own: each thread writes it. */
struct counter { uint32_t last; char rest[124]; } __attribute__((aligned(128)));
extern struct counter taskback_counter;

/* How many threads write events down. */
extern uint32_t taskback_thread_count;

/* From where the program is loaded. */
extern uint64_t taskback_base;

/* Makes room: the accesses in the piece are no longer there to be compared with. */
SELDOM void taskback_turn_page(struct own *own);

/* Packs the events of a piece behind its first one, where there is room for LONGEST_EVENT bytes for each; the end of that. */
unsigned char *taskback_pack(const struct event *first, const struct event *end, unsigned char *to);

/* Unaligned numbers; no call of memcpy, which would be recorded too. */
struct __attribute__((packed)) two { int16_t number; };
struct __attribute__((packed)) four { int32_t number; };
struct __attribute__((packed)) eight { uint64_t number; };

static inline uint64_t number_at(uint64_t address, uint32_t size) {
    if (__builtin_expect(size >= 8, 1))
        return ((const volatile struct eight *)address)->number;
    if (size == 4)
        return (uint64_t)(int64_t)((const volatile struct four *)address)->number;
    if (size == 2)
        return (uint64_t)(int64_t)((const volatile struct two *)address)->number;
    return size == 1 ? (uint64_t)(int64_t)*(const volatile int8_t *)address : 0;
}

/* A place, counted from where the program is loaded; 0: it isn't in it. */
static inline int32_t offset_of(uint64_t place) {
    if (__builtin_constant_p(place) && place == 0)
        return 0;
    int64_t offset = (int64_t)(place - taskback_base);
    return offset > 0 && offset <= INT32_MAX ? (int32_t)offset : 0;
}

static inline uint32_t number_of_event(enum kind kind, int mark) {
    return takes_number((uint8_t)kind, (uint8_t)mark) ? __atomic_add_fetch(&taskback_counter.last, 1, __ATOMIC_ACQ_REL)
                                                      : __atomic_load_n(&taskback_counter.last, __ATOMIC_ACQUIRE);
}

/* The half of an event that is stored last, as one number: until then the event has no kind. */
typedef uint64_t __attribute__((may_alias)) half;
_Static_assert(offsetof(struct event, place) == 24 && offsetof(struct event, kind) == 30 && sizeof(struct event) == 32,
               "the last eight bytes are one store");

static inline half last_half(int32_t place, uint16_t size, enum kind kind, int mark) {
    return (uint32_t)place | (uint64_t)size << 32 | (uint64_t)kind << 48 | (uint64_t)(uint8_t)mark << 56;
}

/* Behind what is written down last stands an event without a kind, at which the piece ends. */
__attribute__((always_inline)) static inline struct event *write_down(struct own *own, enum kind kind, uint32_t stamp, uint32_t task,
                                                                      uint64_t address, uint64_t value, int32_t place, uint16_t size, int mark) {
    if (__builtin_expect(own->next == own->end, 0))
        taskback_turn_page(own);
    struct event *event = own->next++;
    own->next->kind = 0;
    event->address = address;
    event->value = value;
    event->stamp = stamp;
    event->task = task;
    __atomic_store_n((half *)&event->place, last_half(place, size, kind, mark), __ATOMIC_RELEASE);
    return event;
}

/* Writes an event down, with the next number of the one counter. */
__attribute__((always_inline)) static inline struct event *note(struct own *own, enum kind kind, uint32_t task, uint64_t address,
                                                                uint64_t value, uint64_t place) {
    return write_down(own, kind, number_of_event(kind, 0), task, address, value, offset_of(place), 0, 0);
}
#endif
