/* Reductions: the copies of one thread serve several tasks, and nothing of them is shared; what the runtime does to put
   them together is no task's own access. */
#include "recorder.h"

void *__real___kmpc_taskred_init(int32_t, int32_t, void *);
void *__real___kmpc_taskred_modifier_init(void *, int32_t, int32_t, int32_t, void *);
void __real___kmpc_task_reduction_modifier_fini(void *, int32_t, int32_t);
void *__real___kmpc_task_reduction_get_th_data(int32_t, void *, void *);
void __real___kmpc_end_taskgroup(void *, int32_t);
int32_t __real___kmpc_reduce(void *, int32_t, int32_t, size_t, void *, void *, void *);
int32_t __real___kmpc_reduce_nowait(void *, int32_t, int32_t, size_t, void *, void *, void *);
void __real___kmpc_end_reduce(void *, int32_t, void *);
void __real___kmpc_end_reduce_nowait(void *, int32_t, void *);

/* Until `speak` the accesses of the thread's task are the runtime's. */
static uint32_t mute(struct own *own) {
    uint32_t before = own->muted;
    begin_part(own);
    own->muted = own->task;
    return before;
}

static void speak(struct own *own, uint32_t before) {
    taskback_settle(own);
    own->muted = before;
}

struct reduced {
    void *shared, *original;
    size_t size;
    void *rest[4];
};

static void note_reduction(int count, const void *data, uint64_t place) {
    const struct reduced *reduced = data;
    struct own *own = own_state();
    taskback_note(own, NOTE, own->task, 0, NOTE_REDUCTION, place);
    for (int i = 0; i < count; i++)
        set_size(taskback_note(own, COPY, own->task, (uint64_t)reduced[i].shared, 0, place), reduced[i].size);
}

void *__wrap___kmpc_taskred_init(int32_t thread, int32_t count, void *data) {
    note_reduction(count, data, PLACE);
    return __real___kmpc_taskred_init(thread, count, data);
}

void *__wrap___kmpc_taskred_modifier_init(void *at, int32_t thread, int32_t loop, int32_t count, void *data) {
    note_reduction(count, data, PLACE);
    return __real___kmpc_taskred_modifier_init(at, thread, loop, count, data);
}

void *__wrap___kmpc_task_reduction_get_th_data(int32_t thread, void *group, void *item) {
    struct own *own = own_state();
    uint32_t before = mute(own);
    void *copy = __real___kmpc_task_reduction_get_th_data(thread, group, item);
    speak(own, before);
    begin_part(own);
    taskback_note(own, COPY, own->task, (uint64_t)copy, (uint64_t)item, PLACE);
    return copy;
}

void __wrap___kmpc_task_reduction_modifier_fini(void *at, int32_t thread, int32_t is_loop) {
    struct own *own = own_state();
    uint32_t before = mute(own);
    __real___kmpc_task_reduction_modifier_fini(at, thread, is_loop);
    speak(own, before);
}

/* At a group's end the runtime puts the copies of its tasks together. */
void __wrap___kmpc_end_taskgroup(void *at, int32_t thread) {
    struct own *own = own_state();
    uint32_t before = mute(own);
    __real___kmpc_end_taskgroup(at, thread);
    speak(own, before);
}

/* From here to the end of the reduction the runtime keeps the team's threads apart, as a lock does. */
static void lock_reduction(const void *lock, uint64_t place) {
    struct own *own = own_state();
    begin_loud_part(own);
    taskback_note(own, NOTE, own->task, 0, NOTE_REDUCTION, place);
    taskback_note(own, LOCK, own->task, (uint64_t)lock, 1, place)->mark = REDUCES;
}

static void unlock_reduction(const void *lock, uint64_t place) {
    struct own *own = own_state();
    begin_part(own);
    taskback_note(own, UNLOCK, own->task, (uint64_t)lock, 0, place);
}

int32_t __wrap___kmpc_reduce(void *at, int32_t thread, int32_t count, size_t size, void *data, void *combine,
                             void *lock) {
    struct own *own = own_state();
    lock_reduction(lock, PLACE);
    uint32_t before = mute(own);
    int32_t way = __real___kmpc_reduce(at, thread, count, size, data, combine, lock);
    speak(own, before);
    if (way != 1)
        unlock_reduction(lock, PLACE);
    return way;
}

int32_t __wrap___kmpc_reduce_nowait(void *at, int32_t thread, int32_t count, size_t size, void *data, void *combine,
                                    void *lock) {
    struct own *own = own_state();
    lock_reduction(lock, PLACE);
    uint32_t before = mute(own);
    int32_t way = __real___kmpc_reduce_nowait(at, thread, count, size, data, combine, lock);
    speak(own, before);
    if (way != 1)
        unlock_reduction(lock, PLACE);
    return way;
}

/* Way 1 holds the lock up to here; way 2 has let it go already, and lets it go once more. */
void __wrap___kmpc_end_reduce(void *at, int32_t thread, void *lock) {
    unlock_reduction(lock, PLACE);
    __real___kmpc_end_reduce(at, thread, lock);
}

void __wrap___kmpc_end_reduce_nowait(void *at, int32_t thread, void *lock) {
    unlock_reduction(lock, PLACE);
    __real___kmpc_end_reduce_nowait(at, thread, lock);
}
