/* The instrumentation's calls for atomic operations: each is done, and written down with its mark and its order. */
#include "recorder.h"

enum { RELAXED, CONSUME, ACQUIRING, RELEASING };

static int acquires(int order) { return order != RELAXED && order != RELEASING; }
static int releases(int order) { return order >= RELEASING; }

/* A load or store has been written down already, as any other; it is marked. */
static void touch(struct own *own, enum kind kind, uint64_t address, uint32_t size, uint64_t place) {
    struct event *last = own->last;
    if (last && last->address == address && last->kind == kind && last->size == size)
        last->mark |= ATOMIC;
    else
        taskback_access(kind, address, size, place, ATOMIC);
}

static void note_order(struct own *own, enum kind kind, uint64_t address, uint8_t mark, uint64_t place) {
    begin_loud_part(own);
    taskback_note(own, kind, own->task, address, 0, place)->mark = mark;
}

/* `way`: KEEPS where the operation goes on from what is there, and DOWN where it counts down. */
static void before_write(uint64_t address, uint32_t size, int order, int way, uint64_t place) {
    struct own *own = own_state();
    if (way) {      /* no call for a load or a store stands in front of it */
        taskback_access(READ, address, size, place, ATOMIC);
        taskback_access(WRITE, address, size, place, ATOMIC);
    } else {
        touch(own, WRITE, address, size, place);
    }
    if (releases(order) || (own->fenced && own->fenced == own->task))
        note_order(own, RELEASE, address, (uint8_t)way, place);
    else if (!way)
        note_order(own, RELEASE, address, NOTHING, place);
}

static void after_read(uint64_t address, int order, int way, uint64_t place) {
    struct own *own = own_state();
    if (acquires(order))
        note_order(own, ACQUIRE, address, (uint8_t)way, place);
    else
        own->loaded[own->loads++ % FENCED] = address;
}

void taskback_fence(void) {
    struct own *own = own_state();
    uint32_t count = own->loads < FENCED ? own->loads : FENCED;
    for (uint32_t i = 0; i < count; i++)
        note_order(own, ACQUIRE, own->loaded[i], 0, 0);
    own->loads = 0;
    own->fenced = own->task;
}

/* `up_or_down` is 1 where it adds, -1 where it subtracts, else 0. */
#define CHANGE(bits, type, name, operation, up_or_down)                                     \
    type __tsan_atomic##bits##_##name(volatile type *address, type value, int order) {      \
        int up = (up_or_down) * ((value) >> (bits - 1) ? -1 : 1);                            \
        before_write((uint64_t)address, bits / 8, order, KEEPS | (up < 0 ? DOWN : 0), PLACE); \
        type before = operation(address, value, __ATOMIC_SEQ_CST);                          \
        after_read((uint64_t)address, order, up > 0 ? UP : 0, PLACE);                       \
        return before;                                                                      \
    }

#define COMPARE(bits, type, name, weak)                                                                          \
    int __tsan_atomic##bits##_compare_exchange_##name(volatile type *address, type *expected, type value,        \
                                                      int order, int otherwise) {                                \
        before_write((uint64_t)address, bits / 8, order, KEEPS, PLACE);                                              \
        int done = __atomic_compare_exchange_n(address, expected, value, weak, __ATOMIC_SEQ_CST, __ATOMIC_SEQ_CST); \
        after_read((uint64_t)address, done ? order : otherwise, 0, PLACE);                                          \
        return done;                                                                                             \
    }

#define ATOMICS(bits, type)                                                                                   \
    type __tsan_atomic##bits##_load(const volatile type *address, int order) {                                \
        touch(own_state(), READ, (uint64_t)address, bits / 8, PLACE);                                         \
        type value = __atomic_load_n(address, __ATOMIC_SEQ_CST);                                              \
        after_read((uint64_t)address, order, 0, PLACE);                                                          \
        return value;                                                                                         \
    }                                                                                                         \
    void __tsan_atomic##bits##_store(volatile type *address, type value, int order) {                         \
        before_write((uint64_t)address, bits / 8, order, 0, PLACE);                                           \
        __atomic_store_n(address, value, __ATOMIC_SEQ_CST);                                                   \
    }                                                                                                         \
    CHANGE(bits, type, exchange, __atomic_exchange_n, 0)                                                         \
    CHANGE(bits, type, fetch_add, __atomic_fetch_add, 1)                                                         \
    CHANGE(bits, type, fetch_sub, __atomic_fetch_sub, -1)                                                         \
    CHANGE(bits, type, fetch_and, __atomic_fetch_and, 0)                                                         \
    CHANGE(bits, type, fetch_or, __atomic_fetch_or, 0)                                                           \
    CHANGE(bits, type, fetch_xor, __atomic_fetch_xor, 0)                                                         \
    CHANGE(bits, type, fetch_nand, __atomic_fetch_nand, 0)                                                       \
    COMPARE(bits, type, strong, 0)                                                                            \
    COMPARE(bits, type, weak, 1)                                                                              \
    type __tsan_atomic##bits##_compare_exchange_val(volatile type *address, type expected, type value,        \
                                                    int order, int otherwise) {                               \
        __tsan_atomic##bits##_compare_exchange_strong(address, &expected, value, order, otherwise);           \
        return expected;                                                                                      \
    }
ATOMICS(8, uint8_t)
ATOMICS(16, uint16_t)
ATOMICS(32, uint32_t)
ATOMICS(64, uint64_t)

void __tsan_atomic_thread_fence(int order) {
    (void)order;
    taskback_fence();
    __atomic_thread_fence(__ATOMIC_SEQ_CST);
}
void __tsan_atomic_signal_fence(int order) { (void)order; }
