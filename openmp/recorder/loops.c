/* What a team's threads share out: loops and sections, single, masked and ordered blocks. */
#include "recorder.h"

enum { STATIC_CHUNKED = 33, STATIC = 34, DYNAMIC = 35, ORDERED_BASE = 64, ORDERED_END_OF_KINDS = 91 };
enum { MODIFIERS = 3 << 29 };

struct schedule {
    int kind, is_ordered;
};

static struct schedule schedule_of(int32_t number) {
    int kind = number & ~MODIFIERS;
    int is_ordered = kind > ORDERED_BASE && kind < ORDERED_END_OF_KINDS;
    return (struct schedule){is_ordered ? kind - ORDERED_BASE + 32 : kind, is_ordered};
}

static int keeps_chunks(int kind) { return kind == STATIC_CHUNKED || kind == DYNAMIC; }

/* The threads take the same loops in the same order, so the judge numbers them. */
static void begin_loop(struct own *own, int32_t number, uint64_t count, uint64_t chunk, uint64_t place) {
    struct schedule schedule = schedule_of(number);
    int is_static = schedule.kind == STATIC || schedule.kind == STATIC_CHUNKED;
    begin_part(own);
    struct event *event = taskback_note(own, LOOP_BEGIN, own->task, count, keeps_chunks(schedule.kind) ? chunk : 0, place);
    event->mark = (uint8_t)((is_static ? LOOP_STATIC : 0) | (schedule.is_ordered ? LOOP_ORDERED : 0));
}

static void watch_number(struct own *own, void *last, void *low, void *high, void *stride) {
    uint32_t size = own->loop.size;
    own->loop = (struct loop){0, {(uint64_t)low, (uint64_t)last, (uint64_t)high, (uint64_t)stride}, 0, size, own->task, 1, 1};
}

static uint64_t number_at(uint64_t address, uint32_t size) {
    return size == 4 ? (uint64_t)(int64_t)*(const volatile int32_t *)address : *(const volatile uint64_t *)address;
}

/* A store in a worksharing loop: where it is the loop's number that is stored, an iteration begins. The first store
   after the runtime has set the bounds, and that isn't one of these, sets the number to the lowest; then it counts up. */
SELDOM void taskback_stored_in_loop(struct own *own, uint64_t address, uint32_t size) {
    struct loop *loop = &own->loop;
    if (loop->task != own->task || size != loop->size)
        return;
    if (address == loop->bounds[0])
        loop->is_new = 1;
    for (int i = 0; i < 4; i++)
        if (loop->bounds[i] == address)
            return;
    const struct running *running = own->top;
    if (!loop->number && running && address - own->stack_low < running->base - own->stack_low)
        loop->number = address;
    if (address != loop->number)
        return;
    if (!loop->is_new && number_at(address, size) != loop->value) {
        loop->is_on = 0;    /* it isn't the number, which optimised code keeps in no memory */
        return;
    }
    loop->value = loop->is_new ? number_at(loop->bounds[0], size) : loop->value + 1;
    loop->is_new = 0;
    begin_part(own);
    taskback_note(own, ITERATION, own->task, address, loop->value, 0);
}

/* There where the pass has made the calls, of a program that isn't optimised. */
extern __attribute__((weak)) const char taskback_tells_last;

static void end_loop(struct own *own, int is_last, uint64_t place) {
    own->loop.is_on = 0;
    begin_part(own);
    taskback_note(own, LOOP_END, own->task, 0, 0, place)->mark = (uint8_t)(is_last && !&taskback_tells_last);
}

static int *last_of_static(struct own *own) { return (int *)own->loop.bounds[1]; }

#define STATIC_LOOP(suffix, type)                                                                                    \
    void __real___kmpc_for_static_init_##suffix(void *, int32_t, int32_t, int32_t *, type *, type *, void *, int64_t, \
                                                int64_t);                                                            \
    void __wrap___kmpc_for_static_init_##suffix(void *at, int32_t thread, int32_t schedule, int32_t *last, type *low, \
                                                type *high, void *stride, int64_t step, int64_t chunk) {             \
        struct own *own = own_state();                                                                               \
        begin_loop(own, schedule, (uint64_t)*high + 1, (uint64_t)(type)chunk, PLACE);                                \
        __real___kmpc_for_static_init_##suffix(at, thread, schedule, last, low, high, stride, step, chunk);          \
        own->loop.size = sizeof(type);                                                                               \
        taskback_note(own, ITERATION, own->task, 0, (uint64_t)*low, PLACE)->mark = HANDED_OUT;                       \
        watch_number(own, last, low, high, stride);                                                                  \
    }
STATIC_LOOP(4, int32_t)
STATIC_LOOP(4u, uint32_t)
STATIC_LOOP(8, int64_t)
STATIC_LOOP(8u, uint64_t)

void __real___kmpc_for_static_fini(void *, int32_t);
void __wrap___kmpc_for_static_fini(void *at, int32_t thread) {
    struct own *own = own_state();
    int *last = last_of_static(own);
    __real___kmpc_for_static_fini(at, thread);
    end_loop(own, last ? *last : 0, PLACE);
}

#define DISPATCHED_LOOP(suffix, type)                                                                            \
    void __real___kmpc_dispatch_init_##suffix(void *, int32_t, int32_t, type, type, int64_t, int64_t);           \
    void __wrap___kmpc_dispatch_init_##suffix(void *at, int32_t thread, int32_t schedule, type low, type high,   \
                                              int64_t step, int64_t chunk) {                                     \
        begin_loop(own_state(), schedule, (uint64_t)high - (uint64_t)low + 1, (uint64_t)(type)chunk, PLACE);     \
        __real___kmpc_dispatch_init_##suffix(at, thread, schedule, low, high, step, chunk);                      \
    }                                                                                                            \
    int __real___kmpc_dispatch_next_##suffix(void *, int32_t, int32_t *, type *, type *, void *);                \
    int __wrap___kmpc_dispatch_next_##suffix(void *at, int32_t thread, int32_t *last, type *low, type *high,     \
                                             void *stride) {                                                     \
        struct own *own = own_state();                                                                           \
        begin_part(own);                                                                                         \
        int is_more = __real___kmpc_dispatch_next_##suffix(at, thread, last, low, high, stride);                 \
        if (!is_more) {                                                                                          \
            end_loop(own, last ? *last : 0, PLACE);                                                              \
            return 0;                                                                                            \
        }                                                                                                        \
        taskback_note(own, ITERATION, own->task, 0, (uint64_t)*low, PLACE)->mark = HANDED_OUT;                   \
        own->loop.size = sizeof(type);                                                                           \
        watch_number(own, last, low, high, stride);                                                              \
        return is_more;                                                                                          \
    }
DISPATCHED_LOOP(4, int32_t)
DISPATCHED_LOOP(4u, uint32_t)
DISPATCHED_LOOP(8, int64_t)
DISPATCHED_LOOP(8u, uint64_t)

/* By the pass. */
void taskback_last_begin(void) {
    struct own *own = own_state();
    begin_part(own);
    own->is_last = 1;
    taskback_note(own, LAST_BEGIN, own->task, 0, 0, 0);
}

/* Others come here too. */
void taskback_last_end(void) {
    struct own *own = own_state();
    if (!own->is_last)
        return;
    begin_part(own);
    own->is_last = 0;
    taskback_note(own, LAST_END, own->task, 0, 0, 0);
}

static void note_here(enum kind kind, int mark, uint64_t place) {
    struct own *own = own_state();
    begin_part(own);
    taskback_note(own, kind, own->task, 0, 0, place)->mark = (uint8_t)mark;
}

int32_t __real___kmpc_single(void *, int32_t);
void __real___kmpc_end_single(void *, int32_t);
int32_t __real___kmpc_master(void *, int32_t);
void __real___kmpc_end_master(void *, int32_t);
int32_t __real___kmpc_masked(void *, int32_t, int32_t);
void __real___kmpc_end_masked(void *, int32_t);
void __real___kmpc_ordered(void *, int32_t);
void __real___kmpc_end_ordered(void *, int32_t);

int32_t __wrap___kmpc_single(void *at, int32_t thread) {
    int32_t does = __real___kmpc_single(at, thread);
    note_here(SINGLE_BEGIN, does != 0, PLACE);
    return does;
}

void __wrap___kmpc_end_single(void *at, int32_t thread) {
    note_here(SINGLE_END, 0, PLACE);
    __real___kmpc_end_single(at, thread);
}

int32_t __wrap___kmpc_master(void *at, int32_t thread) {
    int32_t does = __real___kmpc_master(at, thread);
    if (does)
        note_here(MASKED_BEGIN, 0, PLACE);
    return does;
}

void __wrap___kmpc_end_master(void *at, int32_t thread) {
    note_here(MASKED_END, 0, PLACE);
    __real___kmpc_end_master(at, thread);
}

int32_t __wrap___kmpc_masked(void *at, int32_t thread, int32_t filter) {
    int32_t does = __real___kmpc_masked(at, thread, filter);
    if (does)
        note_here(MASKED_BEGIN, 0, PLACE);
    return does;
}

void __wrap___kmpc_end_masked(void *at, int32_t thread) {
    note_here(MASKED_END, 0, PLACE);
    __real___kmpc_end_masked(at, thread);
}

void __wrap___kmpc_ordered(void *at, int32_t thread) {
    __real___kmpc_ordered(at, thread);
    note_here(ORDERED_BEGIN, 0, PLACE);
}

void __wrap___kmpc_end_ordered(void *at, int32_t thread) {
    note_here(ORDERED_END, 0, PLACE);
    __real___kmpc_end_ordered(at, thread);
}

/* ---- iterations that wait for others by `depend(sink: ..)` */

void __real___kmpc_doacross_init(void *, int32_t, int32_t, void *);
void __real___kmpc_doacross_post(void *, int32_t, const int64_t *);
void __real___kmpc_doacross_wait(void *, int32_t, const int64_t *);

static __thread int32_t dimensions;

static uint64_t hash_of(const int64_t *numbers) {
    uint64_t hash = 0;
    for (int32_t i = 0; i < dimensions; i++)
        hash = (hash ^ (uint64_t)numbers[i]) * 0x9E3779B97F4A7C15u + (uint64_t)i + 1;
    return hash;
}

void __wrap___kmpc_doacross_init(void *at, int32_t thread, int32_t count, void *bounds) {
    dimensions = count;
    __real___kmpc_doacross_init(at, thread, count, bounds);
}

void __wrap___kmpc_doacross_post(void *at, int32_t thread, const int64_t *numbers) {
    struct own *own = own_state();
    begin_loud_part(own);
    taskback_note(own, POST, own->task, 0, hash_of(numbers), PLACE);
    __real___kmpc_doacross_post(at, thread, numbers);
}

void __wrap___kmpc_doacross_wait(void *at, int32_t thread, const int64_t *numbers) {
    struct own *own = own_state();
    begin_loud_part(own);
    __real___kmpc_doacross_wait(at, thread, numbers);
    taskback_note(own, AWAIT, own->task, 0, hash_of(numbers), PLACE);
}

/* ---- what a program asks and says of its threads */

int __real_omp_get_thread_num(void);
void __real_omp_set_num_threads(int);
void __real___kmpc_push_num_threads(void *, int32_t, int32_t);
void __real___kmpc_push_num_teams(void *, int32_t, int32_t, int32_t);
__attribute__((weak)) void __real___kmpc_push_num_teams_51(void *, int32_t, int32_t, int32_t, int32_t);
int __real_omp_get_team_num(void);
void __real___kmpc_serialized_parallel(void *, int32_t);
void __real___kmpc_flush(void *);

static void note_of_threads(enum note note, uint64_t place) {
    struct own *own = own_state();
    taskback_note(own, NOTE, own->task, 0, note, place);
}

int __wrap_omp_get_thread_num(void) {
    note_of_threads(NOTE_THREAD_NUMBER, PLACE);
    return __real_omp_get_thread_num();
}

int __wrap_omp_get_team_num(void) {
    note_of_threads(NOTE_THREAD_NUMBER, PLACE);
    return __real_omp_get_team_num();
}

void __wrap_omp_set_num_threads(int count) {
    note_of_threads(count == 1 ? NOTE_ONE_FROM_HERE : NOTE_MORE_FROM_HERE, PLACE);
    __real_omp_set_num_threads(count);
}

void __wrap___kmpc_push_num_threads(void *at, int32_t thread, int32_t count) {
    if (count == 1)
        note_of_threads(NOTE_ONE_THREAD, PLACE);
    __real___kmpc_push_num_threads(at, thread, count);
}

void __wrap___kmpc_push_num_teams(void *at, int32_t thread, int32_t teams, int32_t threads) {
    if (teams == 1)
        note_of_threads(NOTE_ONE_TEAM, PLACE);
    __real___kmpc_push_num_teams(at, thread, teams, threads);
}

/* Not in the runtime of clang 14. */
void __wrap___kmpc_push_num_teams_51(void *at, int32_t thread, int32_t least, int32_t most, int32_t threads) {
    if (most == 1)
        note_of_threads(NOTE_ONE_TEAM, PLACE);
    __real___kmpc_push_num_teams_51(at, thread, least, most, threads);
}

/* A region whose `if` clause doesn't hold. */
void __wrap___kmpc_serialized_parallel(void *at, int32_t thread) {
    note_of_threads(NOTE_ONE_THREAD, PLACE);
    __real___kmpc_serialized_parallel(at, thread);
}

void __wrap___kmpc_flush(void *at) {
    taskback_fence();
    __real___kmpc_flush(at);
}
