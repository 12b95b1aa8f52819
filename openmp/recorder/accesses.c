/* The calls for loads and stores: of clang's coverage, and of the pass of our own. */
#include "touches.h"

__thread struct stretch taskback_stretches[STRETCHES] __attribute__((aligned(64)));

SELDOM void taskback_read_written(struct own *own) { read_written(own); }

SELDOM void taskback_end_part(struct own *own) {
    if (own->lanes.follows)
        taskback_part_lane(own);
    if (own->unread)
        read_written(own);
    for (; own->stretches; own->stretches &= own->stretches - 1)
        taskback_stretches[__builtin_ctzll(own->stretches)].next = 0;
}

/* What the creator fills of a task's record, what the runtime does for a task, and what is being sorted. */
SELDOM void taskback_find_others(const struct own *own, uint64_t address, int *is_found) {
    *is_found = (address - own->record < own->record_size && own->record_creator == own->task)
                || (own->muted && own->muted == own->task)
                || address - own->sorted.array < own->sorted.size || address - own->sorted.room < own->sorted.size;
}

/* That, a thread's own variables, and what the compiler's code reads of a task's record to find what the task shares. */
static inline int is_left_out(const struct own *own, enum kind kind, uint64_t address) {
    if (is_apart(own, address))
        return 1;
    if (address - own->tls_low < own->tls_size)
        return 1;
    const struct running *running = own->top;
    if (kind != READ || !running)
        return 0;
    return address - running->record < RECORD_HEAD || address - running->shared < SHARED_MOST;
}

/* Writes down who called the function that makes the access; the chain is that of its task. */
SELDOM void taskback_note_new_callers(struct own *own, struct chain *chain, struct frame *frame) {
    *chain = (struct chain){(uint64_t)frame, frame->back, (uint64_t)frame->outer, own->task};
    struct running *running = own->top;
    uint64_t places[CALLERS] = {0}, callers = 0;
    uint64_t base = running ? running->base : 0;
    while (callers < CALLERS && frame && (uint64_t)frame + sizeof *frame != base) {
        places[callers++] = (uint32_t)offset_of(frame->back);
        frame = outer_of(own, frame);
    }
    write_down(own, CHAIN, number_of_event(CHAIN, 0), own->task, places[1] | places[2] << 32, places[3] | places[4] << 32,
               (int32_t)places[0], 0, 0);
}

static inline uint8_t row_mark(uint32_t shift) { return (uint8_t)((1 + shift) << ROW_SHIFT); }

static inline struct row *row_at(struct own *own, uint64_t place) {
    return &own->rows[(uint32_t)place * 0x9E3779B1u >> (32 - ROW_BITS)];
}

/* Whether an element that was touched isn't written down again; in a part that isn't busy each element that is written has
   its own number. */
__attribute__((always_inline)) static inline int is_known(struct own *own, const struct touched *touched, enum kind kind, uint64_t address, uint32_t shift) {
    if (touched->first->address == address) {
        touch_again(own, touched->first, kind, 1u << shift, 1);
        return 1;
    }
    own->last = 0;
    return kind == READ || is_busy(own);
}

/* The next element of a row is the last one of the same event, and what was loaded of it is loaded again; most calls in a
   loop end here. What has been touched of the block is told by that event, too. */
__attribute__((always_inline)) static inline int goes_on(struct own *own, enum kind kind, uint64_t address, uint32_t shift, uint64_t place,
                                                         const struct frame *frame) {
    struct row *row = row_at(own, place);
    const uint64_t size = 1u << shift, far = address - row->low;
    if (far > row->length || row->key != key_of(own, place) || row->frame != (uint64_t)frame->outer
        || row->caller != frame->outer->back)
        return 0;
    if (far != row->length ? kind == WRITE || far + size > row->length : (address & ((64u << shift) - 1)) == 0)
        return 0;
    own->last = 0;
    if (far == row->length) {
        row->event->size = (uint16_t)(row->event->size + size);
        row->length += size;
    }
    return 1;
}

/* The elements of the block that are told: those in a row by its event alone. */
static inline uint64_t told_of(const struct touched *touched, uint32_t shift) {
    const struct event *first = touched->first;
    const uint32_t count = first->size >> shift;
    if (!(first->mark >> ROW_SHIFT))
        return touched->bits;
    return touched->bits | ~0ull >> (64 - (count < 64 ? count : 64)) << (first->address >> shift & 63);
}

/* What comes behind isn't the row's any more. */
static void end_row(struct own *own, struct touched *touched, uint32_t shift) {
    struct row *row = row_at(own, touched->key);
    touched->bits = told_of(touched, shift);
    if (row->event == touched->first)
        row->key = 0;
}

enum { UNKNOWN, GROWS, STAYS };

/* Whether more elements that this function's call touches may be told by what the block has. */
static inline int may_join(const struct touched *touched, const struct frame *user) {
    return touched->growth == GROWS && !(touched->first->mark & ATOMIC) && touched->frame == (uint64_t)user && touched->caller == user->back;
}

/* From here on the block's first event is a row; whether it goes on the program's code sees itself, where it has asked for that. */
static inline void keep_row(struct own *own, const struct touched *touched, uint32_t shift) {
    struct event *first = touched->first;
    const uint64_t low = first->address, length = first->size;
    first->mark = (uint8_t)(row_mark(shift) | (first->mark & OUTERMOST));
    if (own->asking.place == (uint32_t)touched->key && !own->lanes.depth) {
        own->stretches |= 1ull << own->asking.number;
        taskback_stretches[own->asking.number] = (struct stretch){low + length, low, &first->size};
    } else {
        *row_at(own, touched->key) = (struct row){low, length, touched->key, touched->frame, touched->caller, first};
    }
}

/* One more element of a block that the place has touched, by one chain of callers, where the part has much to tell: all but
   the first, or a row, are a second event. */
__attribute__((always_inline)) static inline int joins_set(struct own *own, struct touched *touched, uint64_t bit, const struct frame *frame) {
    if (!touched->set || touched->bits & bit || !may_join(touched, frame->outer))
        return 0;
    touched->set->value |= bit;
    touched->bits |= bit;
    own->last = 0;
    return 1;
}

/* The next one behind the first is the same event. */
static inline int joins(struct own *own, struct touched *touched, uint64_t address, uint32_t shift, uint64_t bit, const struct frame *frame) {
    struct event *first = touched->first;
    if (joins_set(own, touched, bit, frame))
        return 1;
    if (touched->set || !may_join(touched, frame->outer) || address != first->address + first->size)
        return 0;
    first->size = (uint16_t)(first->size + (1u << shift));
    keep_row(own, touched, shift);
    own->last = 0;
    return 1;
}

/* Begins the second event, where there is room in the page: else all that is in it is forgotten. */
static void begin_set(struct own *own, struct touched *touched, enum kind kind, uint64_t address, uint32_t shift,
                      uint64_t place) {
    if (touched->set || !is_busy(own) || own->next == own->end)
        return;
    end_row(own, touched, shift);
    touched->set = write_down(own, kind, number_of_event(kind, 0), own->task, address >> (shift + 6) << (shift + 6), 0, offset_of(place), SET,
                              row_mark(shift) | (touched->first->mark & OUTERMOST));
}

static inline int meets(uint64_t low, uint64_t size, uint64_t start, uint64_t length) {
    return length && start - low + length < size + length;
}

/* Whether nothing of the block is left out, and the place has a frame by which its callers are told apart. */
static int may_grow(const struct own *own, enum kind kind, uint64_t address, uint32_t shift, const struct frame *frame) {
    const uint64_t low = address >> (shift + 6) << (shift + 6), size = 64ull << shift;
    const struct running *running = own->top;
    if (own->muted || !outer_of(own, frame) || meets(low, size, own->tls_low, own->tls_size))
        return 0;
    if (meets(low, size, own->record, own->record_size) || meets(low, size, own->sorted.array, own->sorted.size)
        || meets(low, size, own->sorted.room, own->sorted.size))
        return 0;
    return kind != READ || !running
           || !(meets(low, size, running->record, RECORD_HEAD) || meets(low, size, running->shared, SHARED_MOST));
}

SELDOM static void find_growth(const struct own *own, struct touched *touched, enum kind kind, uint64_t address, uint32_t shift,
                               const struct frame *frame) {
    if (touched->growth == UNKNOWN)
        touched->growth = may_grow(own, kind, address, shift, frame) ? GROWS : STAYS;
}

/* The frame of the function that has called the recorder: the program's functions all keep their pointer. */
static inline struct frame *user_of(const struct frame *frame) {
    struct frame *user = frame->outer;
    if (!user)
        __builtin_unreachable();
    return user;
}

/* The first element of its block that the place touches in this part; `frame` is that of the call. */
__attribute__((always_inline)) static inline void touch_first(struct own *own, enum kind kind, uint64_t address, uint32_t shift,
                                                              struct touched *touched, uint64_t place, struct frame *frame) {
    if (is_left_out(own, kind, address))
        return;
    struct frame *user = user_of(frame);
    struct event *event = note_touch(own, kind, address, 1u << shift, place, 0, user);
    *touched = (struct touched){key_of(own, place), address >> (shift + 6), 1ull << (address >> shift & 63), event, 0, (uint64_t)user,
                                user->back, UNKNOWN};
}

/* Another element of it, or one that isn't where elements of its size are. */
__attribute__((noinline)) static void touch_more(struct own *own, enum kind kind, uint64_t address, uint32_t shift,
                                                 uint64_t place, struct frame *frame) {
    int is_aligned = (address & ((1u << shift) - 1)) == 0;
    uint64_t block = is_aligned ? address >> (shift + 6) : alone(kind, address);
    uint64_t bit = is_aligned ? 1ull << (address >> shift & 63) : 1;
    struct touched *touched = touched_at(own, block, place);
    int is_same = touched->key == key_of(own, place) && touched->block == block;
    uint64_t told = is_same ? told_of(touched, shift) : 0;
    if (is_left_out(own, kind, address) || (told & bit && is_known(own, touched, kind, address, shift)))
        return;
    if (is_same && is_aligned && touched->growth == UNKNOWN)
        find_growth(own, touched, kind, address, shift, frame);
    if (is_same && touched->growth == GROWS && !(told & bit) && !(touched->first->mark & ATOMIC)) {
        begin_set(own, touched, kind, address, shift, place);
        if (joins(own, touched, address, shift, bit, frame))
            return;
    }
    if (is_same)
        end_row(own, touched, shift);
    struct frame *user = outer_of(own, frame);
    struct event *event = note_touch(own, kind, address, 1u << shift, place, 0, user);
    uint64_t key = key_of(own, place);
    is_same = is_same && touched->key == key;   /* else the page was turned */
    *touched = (struct touched){key, block, bit | (is_same ? touched->bits : 0), event, is_same ? touched->set : 0, (uint64_t)user,
                                user ? user->back : 0, is_same ? touched->growth : UNKNOWN};
}

/* The program's store comes next: where its line of the cache is far, it is under way while the event is written down. */
static inline void fetch_to_write(uint64_t address) {
#ifdef __x86_64__
    __asm__ volatile("prefetchw (%0)" : : "r"(address));
#else
    __builtin_prefetch((const void *)address, 1);
#endif
}

void taskback_access(enum kind kind, uint64_t address, uint64_t size, uint64_t place, int mark) {
    struct own *own = own_state();
    if (is_left_out(own, kind, address) || (own->is_alone && kind == READ))
        return;
    if (own->lanes.follows)
        taskback_part_lane(own);
    struct touched *touched = touched_at(own, alone(kind, address), place);
    if (touched->key == key_of(own, place) && touched->block == alone(kind, address) && touched->bits == size) {
        touch_again(own, touched->first, kind, size, size <= LONGEST_NUMBER && !(mark & FREED));
        return;
    }
    struct event *event = note_touch(own, kind, address, size, place, mark, frame_of(own, place, __builtin_frame_address(0)));
    *touched = (struct touched){key_of(own, place), alone(kind, address), size, event, 0, 0, 0, 0};
}

/* An element of a block that the place has touched. */
__attribute__((noinline)) static void touch_known(struct own *own, enum kind kind, uint64_t address, uint32_t shift, uint64_t place, struct frame *frame) {
    uint64_t bit = 1ull << (address >> shift & 63);
    struct touched *touched = touched_at(own, address >> (shift + 6), place);
    if (touched->growth == UNKNOWN)
        find_growth(own, touched, kind, address, shift, frame);
    int is_told = told_of(touched, shift) & bit ? 1 : 0;
    if (is_told && kind == READ && !own->lanes.depth && may_join(touched, frame->outer) && address - touched->first->address < touched->first->size)
        keep_row(own, touched, shift);
    if (!(is_told ? is_known(own, touched, kind, address, shift) : joins(own, touched, address, shift, bit, frame)))
        touch_more(own, kind, address, shift, place, frame);
}

/* What is touched for the first time in its block. */
typedef void first_function(struct own *, uint64_t, struct touched *, uint64_t, struct frame *);

/* Each way ends with a call, so that none has registers to keep. */
__attribute__((always_inline)) static inline void touch(struct own *own, enum kind kind, uint64_t address, uint32_t shift, uint64_t place, struct frame *frame,
                                                        first_function *first) {
    uint64_t block = address >> (shift + 6);
    struct touched *touched = touched_at(own, block, place);
    if (address & ((1u << shift) - 1))
        touch_more(own, kind, address, shift, place, frame);
    else if (touched->key != key_of(own, place) || touched->block != block)
        first(own, address, touched, place, frame);
    else if (!joins_set(own, touched, 1ull << (address >> shift & 63), frame))
        touch_known(own, kind, address, shift, place, frame);
}

#define FIRST(bytes)                                                                                                        \
    __attribute__((noinline)) static void load_first##bytes(struct own *own, uint64_t address, struct touched *touched,    \
                                                            uint64_t place, struct frame *frame) {                         \
        touch_first(own, READ, address, __builtin_ctz(bytes), touched, place, frame);                                      \
    }                                                                                                                       \
    __attribute__((noinline)) static void store_first##bytes(struct own *own, uint64_t address, struct touched *touched,   \
                                                             uint64_t place, struct frame *frame) {                        \
        fetch_to_write(address);                                                                                           \
        touch_first(own, WRITE, address, __builtin_ctz(bytes), touched, place, frame);                                     \
    }
FIRST(1)
FIRST(2)
FIRST(4)
FIRST(8)
FIRST(16)

/* Whether a lane's access is the next one of those that it follows, and so isn't written down. */
static inline int follows(struct lanes *lanes, uint64_t address, uint64_t place, const struct frame *user) {
    if (!lanes->follows || lanes->met == lanes->known)
        return 0;
    struct lane_step *step = &lanes->steps[lanes->met];
    if (step->address != address || step->place != place || step->frame != (uint64_t)user || step->caller != user->back)
        return 0;
    step->address += step->stride;
    lanes->met++;
    return 1;
}

/* In a `simd` loop, where it isn't as in the lane before. */
__attribute__((noinline)) static void touch_in_lane(struct own *own, enum kind kind, uint64_t address, uint32_t shift, uint64_t place,
                                                    struct frame *frame) {
    static first_function *const firsts[2][5] = {{load_first1, load_first2, load_first4, load_first8, load_first16},
                                                 {store_first1, store_first2, store_first4, store_first8, store_first16}};
    if (is_quiet(own, (const void *)address) || (own->is_alone && kind == READ))
        return;
    if (own->lanes.follows)
        taskback_part_lane(own);
    touch(own, kind, address, shift, place, frame, firsts[kind == WRITE][shift]);
    struct frame *user = outer_of(own, frame);
    taskback_lane_steps(own, &(struct lane_step){address, 0, (uint64_t)user, user ? user->back : 0, place, shift, kind, 0});
}

/* What isn't the next element of a row. The calls below end with a call of these, as these do, so that those that go on have
   no registers to keep; `frame` is then that of the call still. */
__attribute__((always_inline)) static inline void access_here(struct own *own, enum kind kind, uint64_t address, uint32_t shift, uint64_t place,
                                                              struct frame *frame, first_function *first) {
    if (own->lanes.depth) {
        if (!follows(&own->lanes, address, place, frame->outer))
            touch_in_lane(own, kind, address, shift, place, frame);
    } else if (!is_quiet(own, (const void *)address) && !(kind == READ && own->is_alone))
        touch(own, kind, address, shift, place, frame, first);
}

/* Also by a thread that is new, or in a worksharing loop, of which it may be the number that is stored. */
#define HERE(bytes)                                                                                                         \
    __attribute__((noinline)) static void load##bytes(struct own *own, uint64_t address, uint64_t place, struct frame *frame) {  \
        access_here(own, READ, address, __builtin_ctz(bytes), place, frame, load_first##bytes);                            \
    }                                                                                                                       \
    __attribute__((noinline)) static void store##bytes(struct own *own, uint64_t address, uint64_t place, struct frame *frame) { \
        access_here(own, WRITE, address, __builtin_ctz(bytes), place, frame, store_first##bytes);                          \
    }                                                                                                                       \
    __attribute__((noinline)) static void load_apart##bytes(uint64_t address, uint64_t place, struct frame *frame) {       \
        load##bytes(own_state(), address, place, frame);                                                                   \
    }                                                                                                                       \
    __attribute__((noinline)) static void store_apart##bytes(uint64_t address, uint64_t place, struct frame *frame) {      \
        struct own *own = own_state();                                                                                     \
        if (own->loop.is_on)                                                                                               \
            taskback_stored_in_loop(own, address, bytes);                                                                  \
        if (!goes_on(own, WRITE, address, __builtin_ctz(bytes), place, frame))                                             \
            store##bytes(own, address, place, frame);                                                                      \
    }
HERE(1)
HERE(2)
HERE(4)
HERE(8)
HERE(16)

/* By the pass, where an exception is caught or a jump from elsewhere ends: the calls that it has left don't end theirs. */
void taskback_stretches_end(void) {
    for (int i = 0; i < STRETCHES; i++)
        taskback_stretches[i].next = 0;
}

#define FRAME_HERE ((struct frame *)__builtin_frame_address(0))
#define LOAD(bytes)                                                                               \
    void __sanitizer_cov_load##bytes(void *address) {                                             \
        struct own *own = taskback_own;                                                           \
        if (__builtin_expect(!own, 0))                                                            \
            load_apart##bytes((uint64_t)address, PLACE, FRAME_HERE);                              \
        else if (!goes_on(own, READ, (uint64_t)address, __builtin_ctz(bytes), PLACE, FRAME_HERE)) \
            load##bytes(own, (uint64_t)address, PLACE, FRAME_HERE);                               \
    }
#define STORE(bytes)                                                                               \
    void __sanitizer_cov_store##bytes(void *address) {                                             \
        struct own *own = taskback_own;                                                            \
        if (__builtin_expect(!own || own->loop.is_on, 0))                                          \
            store_apart##bytes((uint64_t)address, PLACE, FRAME_HERE);                              \
        else if (!goes_on(own, WRITE, (uint64_t)address, __builtin_ctz(bytes), PLACE, FRAME_HERE)) \
            store##bytes(own, (uint64_t)address, PLACE, FRAME_HERE);                               \
    }
/* By the pass, in a lane of a `simd` loop. */
#define IN_LANE(name, bytes, kind)                                                                                \
    void taskback_lane_##name##bytes(void *address) {                                                                         \
        struct own *own = taskback_own;                                                                                       \
        if (__builtin_expect(!own, 0))                                                                                        \
            name##_apart##bytes((uint64_t)address, PLACE, FRAME_HERE);                                                        \
        else if (!follows(&own->lanes, (uint64_t)address, PLACE, FRAME_HERE->outer)                                           \
                 && !goes_on(own, kind, (uint64_t)address, __builtin_ctz(bytes), PLACE, FRAME_HERE))                          \
            name##bytes(own, (uint64_t)address, PLACE, FRAME_HERE);                                                           \
    }
/* By the pass, in a loop, where its code has looked for the stretch of this number. */
#define IN_LOOP(name, bytes)                                                 \
    void taskback_##name##bytes(void *address, uint64_t number) {            \
        struct own *own = taskback_own;                                      \
        if (__builtin_expect(!own, 0)) {                                     \
            name##_apart##bytes((uint64_t)address, PLACE, FRAME_HERE);       \
            return;                                                          \
        }                                                                    \
        own->asking = (struct asking){(uint32_t)PLACE, (uint32_t)number};    \
        name##bytes(own, (uint64_t)address, PLACE, FRAME_HERE);              \
    }
#define ALL(bytes)              \
    LOAD(bytes)                 \
    STORE(bytes)                \
    IN_LANE(load, bytes, READ)  \
    IN_LANE(store, bytes, WRITE) \
    IN_LOOP(load, bytes)        \
    IN_LOOP(store, bytes)
ALL(1)
ALL(2)
ALL(4)
ALL(8)
ALL(16)

/* Of other sizes, as the pass of our own has them. */
void taskback_load(void *address, uint64_t size) {
    if (!is_quiet(own_state(), address))
        taskback_access(READ, (uint64_t)address, size, PLACE, 0);
}

void taskback_store(void *address, uint64_t size) {
    if (!is_quiet(own_state(), address))
        taskback_access(WRITE, (uint64_t)address, size, PLACE, 0);
}
