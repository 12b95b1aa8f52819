/* What the program calls and the tool's interface doesn't tell: `ld --wrap` leads these calls through here. */
#include <stdlib.h>

#include "recorder.h"

/* ---- the runtime's entries for tasks */

void *__real___kmpc_omp_task_alloc(void *, int32_t, int32_t, size_t, size_t, void *);
int32_t __real___kmpc_omp_task(void *, int32_t, void *);
int32_t __real___kmpc_omp_task_with_deps(void *, int32_t, void *, int32_t, void *, int32_t, void *);
void __real___kmpc_omp_task_begin_if0(void *, int32_t, void *);
void __real___kmpc_omp_wait_deps(void *, int32_t, int32_t, void *, int32_t, void *);
/* Not in the runtime of clang 14. */
__attribute__((weak)) void __real___kmpc_omp_taskwait_deps_51(void *, int32_t, int32_t, void *, int32_t, void *, int32_t);
void __real___kmpc_taskloop(void *, int32_t, void *, int32_t, uint64_t *, uint64_t *, int64_t, int32_t, int32_t,
                            uint64_t, void *);
void *__real___kmpc_task_allow_completion_event(void *, int32_t, void *);
enum { HAS_PRIORITY = 0x20 };

/* The runtime's record of a task begins so. */
struct task_record {
    const uint64_t *shared;
    const void *entry;
};

/* In front of the pointers to what the task shares: the function that it runs, and how many bytes the pointers have. */
typedef int32_t entry_function(int32_t, void *);
struct entered {
    entry_function *entry;
    uint64_t size;
};

static struct entered *entered_of(const void *record) {
    return (struct entered *)((const struct task_record *)record)->shared - 1;
}

/* How far that may be below a task's first frame which it knows of: what it shares, and what a pointer of its own leads to,
   which may be one that it hasn't set yet. */
enum { FARTHEST = 1 << 16, FAR = 1 << 11, MOST_OWN = 32, LEAST_STACK = 1 << 18 };

static uint64_t gap_among(const uint64_t *pointers, uint64_t count, uint64_t here, uint64_t farthest) {
    uint64_t gap = 0;
#pragma clang loop unroll(disable)
    for (uint64_t i = 0; i < count; i++)
        if (here - pointers[i] < farthest && here - pointers[i] > gap)
            gap = here - pointers[i];
    return gap;
}

/* How far below `here` a variable stands that the task knows of; there it belongs to a function that has ended. */
static uint64_t gap_below(uint64_t here, const void *record) {
    const struct entered *entered = entered_of(record);
    const uint64_t *own = (const uint64_t *)((const char *)record + RECORD_HEAD);
    uint64_t count = (uint64_t)((const uint64_t *)entered - own);
    uint64_t of_shared = gap_among((const uint64_t *)(entered + 1), entered->size / sizeof *own, here, FARTHEST);
    uint64_t of_own = gap_among(own, count < MOST_OWN ? count : MOST_OWN, here, FAR);
    uint64_t gap = of_shared > of_own ? of_shared : of_own;
    return gap && here - own_state()->stack_low > LEAST_STACK ? gap : 0;
}

/* A task's frames begin below such a variable: else what touches it couldn't be told from what touches their own. */
static int32_t enter_task(int32_t thread, void *record) {
    void *gap = __builtin_alloca(gap_below((uint64_t)__builtin_frame_address(0), record));
    __asm__ volatile("" : : "r"(gap) : "memory");
    int32_t result = entered_of(record)->entry(thread, record);
    __asm__ volatile("" : : "r"(gap) : "memory");
    return result;
}

/* The creator fills the record of a task that is still to come: nobody else can see it until then. */
void *__wrap___kmpc_omp_task_alloc(void *at, int32_t thread, int32_t flags, size_t size, size_t shared, void *entry) {
    size += sizeof(struct entered);
    void *record = __real___kmpc_omp_task_alloc(at, thread, flags, size, shared ? shared : sizeof(uint64_t), (void *)enter_task);
    *entered_of(record) = (struct entered){(entry_function *)entry, shared};
    struct own *own = own_state();
    taskback_fill_record(own, (uint64_t)record, (size + 15) / 8 * 8 + shared);
    if (flags & HAS_PRIORITY)
        taskback_note(own, NOTE, own->task, 0, NOTE_PRIORITY, PLACE);
    if (!taskback_has_tool)
        taskback_note(own, NOTE, own->task, 0, NOTE_NO_TOOL, PLACE);
    return record;
}

void taskback_tell_record(struct own *own) {
    if (own->untold_size)
        taskback_new_memory(own, own->untold_record, own->untold_size, 0);
    own->untold_size = 0;
}

void taskback_fill_record(struct own *own, uint64_t record, uint64_t size) {
    taskback_tell_record(own);
    begin_part(own);
    own->untold_record = own->record = record;
    own->untold_size = size;
    own->record_size = size;
    own->record_creator = own->task;
}

/* A call that creates children: who makes it and where, which another task's call within it may change. */
struct call {
    struct own *own;
    uint32_t caller;
    uint64_t place;
    int undeferred;
};

static struct call enter(uint64_t place, int undeferred) {
    struct own *own = own_state();
    struct call before = {own, own->caller, own->caller_place, own->undeferred};
    begin_loud_part(own);
    own->made_size = own->record_size;
    own->record_size = 0;
    own->caller = own->task;
    own->caller_place = place;
    own->undeferred = undeferred;
    return before;
}

static void leave(const struct call *before) {
    struct own *own = before->own;
    own->caller = before->caller;
    own->caller_place = before->place;
    own->undeferred = before->undeferred;
    own->item_count = own->more_count = 0;
    own->made = 0;
}

static void keep_items(struct own *own, int count, const void *items, int more_count, const void *more_items) {
    own->item_count = count;
    own->items = items;
    own->more_count = more_count;
    own->more_items = more_items;
}

int32_t __wrap___kmpc_omp_task(void *at, int32_t thread, void *task) {
    struct call call = enter(PLACE, 0);
    keep_items(call.own, 0, 0, 0, 0);
    call.own->made = (uint64_t)task;
    int32_t result = __real___kmpc_omp_task(at, thread, task);
    leave(&call);
    return result;
}

int32_t __wrap___kmpc_omp_task_with_deps(void *at, int32_t thread, void *task, int32_t count, void *items,
                                         int32_t more_count, void *more_items) {
    struct call call = enter(PLACE, 0);
    keep_items(call.own, count, items, more_count, more_items);
    call.own->made = (uint64_t)task;
    int32_t result = __real___kmpc_omp_task_with_deps(at, thread, task, count, items, more_count, more_items);
    leave(&call);
    return result;
}

struct items {
    int count;
    const void *items;
    int more_count;
    const void *more;
};

static void note_wait_items(struct own *own, int count, const void *items) {
    const struct runtime_item *item = items;
    for (int i = 0; i < count; i++)
        taskback_note(own, WAIT_ITEM, own->task, item[i].address, item[i].length, 0)->mark = item[i].type;
}

/* Two things come here: an undeferred task with items, of which the record is already there, and a taskwait. */
struct record {
    uint64_t at, size;
};

static struct record before_wait(struct own *own) {
    begin_loud_part(own);
    struct record record = {own->record, own->record_creator == own->task ? own->record_size : 0};
    own->record_size = 0;
    return record;
}

static void after_wait(struct own *own, struct record record, struct items items, uint64_t place) {
    begin_loud_part(own);
    if (record.size) {
        own->record = record.at;
        own->record_size = record.size;
        own->record_creator = own->task;
        keep_items(own, items.count, items.items, items.more_count, items.more);
        return;
    }
    note_wait_items(own, items.count, items.items);
    note_wait_items(own, items.more_count, items.more);
    taskback_note(own, WAIT_ITEMS, own->task, 0, 0, place);
}

void __wrap___kmpc_omp_wait_deps(void *at, int32_t thread, int32_t count, void *items, int32_t more_count,
                                 void *more_items) {
    struct own *own = own_state();
    struct record record = before_wait(own);
    __real___kmpc_omp_wait_deps(at, thread, count, items, more_count, more_items);
    after_wait(own, record, (struct items){count, items, more_count, more_items}, PLACE);
}

void __wrap___kmpc_omp_taskwait_deps_51(void *at, int32_t thread, int32_t count, void *items, int32_t more_count,
                                        void *more_items, int32_t no_wait) {
    struct own *own = own_state();
    struct record record = before_wait(own);
    __real___kmpc_omp_taskwait_deps_51(at, thread, count, items, more_count, more_items, no_wait);
    after_wait(own, record, (struct items){count, items, more_count, more_items}, PLACE);
}

void __wrap___kmpc_omp_task_begin_if0(void *at, int32_t thread, void *task) {
    struct call call = enter(PLACE, 1);
    __real___kmpc_omp_task_begin_if0(at, thread, task);
    leave(&call);
}

/* ---- a loop's tasks: the runtime copies the record of the first, and calls a function for each copy */

void *__real_malloc(size_t);

typedef void copy_function(void *, void *, int32_t);

/* By the function that the tasks run: how large a record is, and what fills its copy. */
struct copied {
    const void *entry;
    copy_function *copy;
    uint64_t size;
    struct copied *link;
};

static struct copied *all_copied;

static struct copied *find_copied(const void *entry) {
    struct copied *found = __atomic_load_n(&all_copied, __ATOMIC_ACQUIRE);
    while (found && found->entry != entry)
        found = found->link;
    return found;
}

static void keep_copied(const void *entry, copy_function *copy, uint64_t size) {
    if (find_copied(entry))
        return;
    struct copied *kept = __real_malloc(sizeof *kept);
    if (!kept)
        abort();
    *kept = (struct copied){entry, copy, size, __atomic_load_n(&all_copied, __ATOMIC_ACQUIRE)};
    while (!__atomic_compare_exchange_n(&all_copied, &kept->link, kept, 0, __ATOMIC_ACQ_REL, __ATOMIC_ACQUIRE))
        ;
}

static void copy_record(void *to, void *from, int32_t is_last) {
    const struct copied *found = find_copied((const void *)entered_of(from)->entry);
    struct own *own = own_state();
    uint32_t muted = own->muted;
    taskback_fill_record(own, (uint64_t)to, found ? found->size : 0);
    own->muted = own->task;
    if (found && found->copy)
        found->copy(to, from, is_last);
    taskback_settle(own);
    own->muted = muted;
}

void __wrap___kmpc_taskloop(void *at, int32_t thread, void *task, int32_t deferred, uint64_t *low, uint64_t *high,
                            int64_t stride, int32_t no_group, int32_t schedule, uint64_t grain, void *copy) {
    struct own *own = own_state();
    keep_copied((const void *)entered_of(task)->entry, (copy_function *)copy, own->record_size);
    taskback_tell_record(own);
    struct call call = enter(PLACE, !deferred);
    keep_items(call.own, 0, 0, 0, 0);
    __real___kmpc_taskloop(at, thread, task, deferred, low, high, stride, no_group, schedule, grain, (void *)copy_record);
    leave(&call);
}

void *__wrap___kmpc_task_allow_completion_event(void *at, int32_t thread, void *task) {
    struct own *own = own_state();
    taskback_note(own, NOTE, own->task, 0, NOTE_DETACH, PLACE);
    return __real___kmpc_task_allow_completion_event(at, thread, task);
}
