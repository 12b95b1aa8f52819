/* The OMPT tool: which tasks there are, and when each starts, waits and ends. */
#include <omp-tools.h>

#include "writing.h"

/* A task's data is its number with these below, and above it the size of its record. */
enum { STARTED = 1, UNTIED = 2, NUMBER_SHIFT = 2, SIZE_SHIFT = 34, SIZE_MOST = SET };
/* How many numbers of tasks a thread takes at once. */
enum { NUMBERS = 64 };

int taskback_has_tool;
int taskback_has_strangers;
static uint32_t task_count;
static uint64_t region_count;

static uint32_t number_of(const ompt_data_t *data) { return data ? (uint32_t)(data->value >> NUMBER_SHIFT) : 0; }

static void name_task(struct own *own, ompt_data_t *data, uint64_t marks) {
    if (own->task_number % NUMBERS == 0)
        own->task_number = __atomic_fetch_add(&task_count, NUMBERS, __ATOMIC_RELAXED);
    data->value = (uint64_t)++own->task_number << NUMBER_SHIFT | marks;
}

struct event *taskback_new_memory(struct own *own, uint64_t address, uint64_t size, uint64_t place) {
    begin_part(own);
    return note(own, MEMORY, own->task, address, size, place);
}

/* The runtime's record of a task stands at one distance from its data; 0 where that isn't known. */
static uint64_t record_distance;

static void learn_distance(struct own *own, const ompt_data_t *child) {
    static int is_wrong;
    if (!own->made || is_wrong)
        return;
    uint64_t distance = own->made - (uint64_t)child;
    if (record_distance && distance != record_distance)
        is_wrong = 1;
    record_distance = is_wrong ? 0 : distance;
    own->made = 0;
}

static void push_task(struct own *own, uint32_t task, uint32_t prior, int is_untied, const ompt_data_t *data) {
    if (own->depth < RUNNING_MOST) {
        uint64_t record = data && record_distance ? (uint64_t)data + record_distance : 0;
        uint64_t shared = record ? *(const uint64_t *)record : 0;
        struct running *top = &own->running[own->depth];
        top->task = task;
        top->prior = prior;
        top->is_untied = (uint8_t)is_untied;
        top->base = 0;
        top->record = record;
        top->shared = shared;
        top->chain.frame = 0;
        own->quiet_record = record;
        own->quiet_size = record ? data->value >> SIZE_SHIFT : 0;
    } else {
        note(own, NOTE, task, 0, NOTE_DEEP, 0);
    }
    set_depth(own, own->depth + 1);
}

/* The task's part of the stack, which is free from here on; 0 where it had none. */
static uint64_t drop_task(struct own *own, uint32_t task) {
    struct running *top = own->top;
    if (!top || top->task != task) {
        if (own->depth > RUNNING_MOST)
            set_depth(own, own->depth - 1);
        return 0;
    }
    set_depth(own, own->depth - 1);
    return top->base ? top->base - own->stack_low : 0;
}

void taskback_pop_task(struct own *own, uint32_t task) {
    uint64_t size = drop_task(own, task);
    if (size)
        taskback_new_memory(own, own->stack_low, size, 0);
}

/* The size of the record that the creator has filled for the child; 0 where it isn't known. */
static uint64_t record_size(struct own *own, uint32_t creator) {
    uint64_t size = own->record_size ? own->record_size : own->made_size;
    own->made_size = 0;
    return own->record_creator == creator && size < SIZE_MOST ? size : 0;
}

static void note_items(struct own *own, uint32_t child, int count, const void *items) {
    const struct runtime_item *item = items;
    for (int i = 0; i < count; i++)
        note(own, ITEM, child, item[i].address, item[i].length, 0)->mark = item[i].type;
}

/* The record that the creator has filled is new from the child's making on, if it is the child's: then one event says both. */
static void note_made(struct own *own, uint32_t creator, uint32_t child, uint64_t flags, uint64_t place) {
    uint64_t record = own->untold_record, size = own->untold_size;
    int is_childs = own->record_creator == creator && (!own->made || own->made == record) && size <= SIZE_MOST
                    && (flags & ((1u << FLAGS_SHIFT) - 1)) == FLAGS_EXPLICIT;
    if (size && !is_childs)
        taskback_tell_record(own);
    if (!size || !is_childs) {
        note(own, CREATE, creator, child, flags, place);
        return;
    }
    own->untold_size = 0;
    own->made_last = write_down(own, CREATE, number_of_event(CREATE, 0), creator, record, child, offset_of(place), (uint16_t)size,
                                (int)(flags >> FLAGS_SHIFT));
}

static void on_create(ompt_data_t *creator, const ompt_frame_t *frame, ompt_data_t *child, int flags, int depends,
                      const void *place) {
    (void)frame, (void)depends;
    struct own *own = own_state();
    if (flags & (ompt_task_initial | ompt_task_taskwait))
        return;
    begin_loud_part(own);
    name_task(own, child, flags & ompt_task_untied ? UNTIED : 0);
    child->value |= record_size(own, number_of(creator)) << SIZE_SHIFT;
    uint64_t kept = (uint32_t)flags & ~(uint32_t)ompt_task_undeferred;
    uint64_t where = (uint64_t)place;
    if (own->caller && own->caller == number_of(creator)) {
        where = own->caller_place;
        if (own->undeferred)
            kept |= ompt_task_undeferred;
    }
    if (own->is_alone) {    /* it makes a task outside of any region */
        own->is_alone = 0;
        taskback_has_strangers = 1;
    }
    note_made(own, number_of(creator), number_of(child), kept, where);
    learn_distance(own, child);
    note_items(own, number_of(child), own->item_count, own->items);
    note_items(own, number_of(child), own->more_count, own->more_items);
    own->item_count = own->more_count = 0;
}

/* The end of the outermost function's frame, which is written down last, becomes the task's: until that is whole the event
   has no kind. */
static int end_with_frame(struct own *own, uint32_t task, uint64_t stack) {
    struct event *event = own->next - 1;
    if (event != own->frame_end || event->task != task)
        return 0;
    uint64_t size = event->size == LARGE ? event->value : event->size;
    if (size >= SET || event->address + size != own->stack_low + stack)
        return 0;
    uint32_t place = (uint32_t)event->place;
    __atomic_store_n((half *)&event->place, 0, __ATOMIC_RELEASE);
    event->address = own->stack_low;
    event->value = stack;
    event->stamp = number_of_event(END, STACK);
    __atomic_store_n((half *)&event->place, last_half((int32_t)place, (uint16_t)size, END, STACK), __ATOMIC_RELEASE);
    return 1;
}

static void finish(struct own *own, uint32_t task, uint64_t stack) {
    if (!stack || !end_with_frame(own, task, stack))
        note(own, END, task, stack ? own->stack_low : 0, stack, 0)->mark = stack ? STACK : 0;
    own->frame_end = 0;
}

static int runs_here(const struct own *own, uint32_t task) {
    for (uint32_t i = own->depth < RUNNING_MOST ? own->depth : RUNNING_MOST; i > 0; i--)
        if (own->running[i - 1].task == task)
            return 1;
    return 0;
}

/* Where nothing stands between a task's making and its start, the making says that it starts. */
static struct event *note_start(struct own *own, uint32_t task) {
    struct event *made = own->next - 1;
    int mark = __atomic_load_n(&taskback_thread_count, __ATOMIC_RELAXED) > 1 ? COUNTED : 0;
    if (mark || made != own->made_last || (uint32_t)made->value != task)
        return write_down(own, START, number_of_event(START, mark), task, 0, 0, 0, 0, mark);
    made->mark |= BEGINS;
    return made;
}

/* An untied task may go on by another thread than before. */
static void go_on(struct own *own, ompt_data_t *next, uint32_t before) {
    int is_untied = (next->value & UNTIED) != 0;
    own->task = number_of(next);
    if (next->value & STARTED) {
        if (is_untied && !runs_here(own, own->task)) {
            note(own, RESUME, own->task, 0, 0, 0);
            push_task(own, own->task, before, 1, 0);
        }
        return;
    }
    next->value |= STARTED;
    own->started = note_start(own, own->task);
    push_task(own, own->task, before, is_untied, next);
}

static void on_schedule(ompt_data_t *prior, ompt_task_status_t status, ompt_data_t *next) {
    struct own *own = own_state();
    begin_loud_part(own);
    uint32_t before = number_of(prior), met = own->task;
    switch (status) {
    case ompt_task_complete:
    case ompt_task_cancel:
        finish(own, before, drop_task(own, before));
        break;
    case ompt_task_detach:
        taskback_pop_task(own, before);
        break;
    case ompt_task_late_fulfill:
        note(own, FULFIL, own->task, before, 0, 0);
        begin_part(own);
        finish(own, before, 0);
        return;
    case ompt_task_early_fulfill:
        note(own, FULFIL, own->task, before, 0, 0);
        return;
    case ompt_taskwait_complete:
        return;
    default:
        break;
    }
    if (next)
        go_on(own, next, met);
}

static ompt_get_task_info_t task_info;

/* Where the runtime's frames begin, which the thread's task has called; 0: not known. */
static uint64_t end_of_frames(void) {
    ompt_frame_t *frame = 0;
    int known = task_info ? task_info(0, 0, 0, &frame, 0, 0) : 0;
    return known && frame ? (uint64_t)frame->enter_frame.ptr : 0;
}

static void on_sync(ompt_sync_region_t kind, ompt_scope_endpoint_t end, ompt_data_t *region, ompt_data_t *task,
                    const void *place) {
    struct own *own = own_state();
    begin_loud_part(own);
    uint32_t number = task && task->value ? number_of(task) : own->task;
    uint64_t where = region ? region->value : 0;
    switch (kind) {
    case ompt_sync_region_taskwait:
        if (end == ompt_scope_end)
            note(own, WAIT, number, 0, 0, (uint64_t)place);
        break;
    case ompt_sync_region_taskgroup:
        note(own, end == ompt_scope_begin ? GROUP_OPEN : GROUP_CLOSE, number, 0, 0, (uint64_t)place);
        break;
    case ompt_sync_region_reduction:
        break;
    default:
        if (end == ompt_scope_begin)
            note(own, BARRIER_BEGIN, number, where, end_of_frames(), (uint64_t)place);
        else
            note(own, BARRIER_END, number, where, 0, (uint64_t)place);
        break;
    }
}

static void on_region_begin(ompt_data_t *task, const ompt_frame_t *frame, ompt_data_t *region, unsigned int wanted,
                            int flags, const void *place) {
    (void)frame, (void)flags;
    struct own *own = own_state();
    begin_loud_part(own);
    region->value = __atomic_add_fetch(&region_count, 1, __ATOMIC_RELAXED);
    own->is_alone = 0;
    if (own->nesting < NESTED) {
        own->outer[own->nesting] = own->loop;
        own->depths[own->nesting] = own->depth;
    }
    own->met = region->value;
    own->nesting++;
    own->loop.is_on = 0;
    note(own, REGION_BEGIN, number_of(task), region->value, wanted, (uint64_t)place);
}

static void on_region_end(ompt_data_t *region, ompt_data_t *task, int flags, const void *place) {
    (void)flags;
    struct own *own = own_state();
    begin_loud_part(own);
    own->task = number_of(task);
    note(own, REGION_END, own->task, region->value, 0, (uint64_t)place);
    own->met = 0;
    if (own->nesting > 0 && --own->nesting < NESTED) {
        own->loop = own->outer[own->nesting];
        if (own->depth > own->depths[own->nesting])     /* of a team's first task the runtime doesn't tell the end */
            set_depth(own, own->depths[own->nesting]);
    }
    own->is_alone = own->index == 0 && own->depth == 0 && !taskback_has_strangers;
}

static void on_implicit(ompt_scope_endpoint_t end, ompt_data_t *region, ompt_data_t *task, unsigned int size,
                        unsigned int index, int flags) {
    struct own *own = own_state();
    begin_loud_part(own);
    if (end == ompt_scope_end) {
        taskback_pop_task(own, number_of(task));
        return;
    }
    uint32_t before = own->task;
    name_task(own, task, STARTED);
    own->task = number_of(task);
    /* Of a league with one team the runtime doesn't say which region it is. */
    uint64_t where = region && region->value ? region->value : flags & ompt_task_initial ? own->met : 0;
    struct event *event = note(own, IMPLICIT_BEGIN, own->task, where, index, 0);
    event->size = (uint16_t)size;
    event->mark = where && flags & ompt_task_initial ? TEAMS : 0;
    if (where)
        push_task(own, own->task, before, 0, 0);
}

void taskback_note_lock(enum kind kind, const void *lock, uint64_t place) {
    struct own *own = own_state();
    begin_loud_part(own);
    note(own, kind, own->task, (uint64_t)lock, 0, place);
}

static void on_lock(ompt_mutex_t kind, ompt_wait_id_t lock, const void *place) {
    if (kind != ompt_mutex_ordered)
        taskback_note_lock(LOCK, (const void *)lock, (uint64_t)place);
}

static void on_unlock(ompt_mutex_t kind, ompt_wait_id_t lock, const void *place) {
    if (kind != ompt_mutex_ordered)
        taskback_note_lock(UNLOCK, (const void *)lock, (uint64_t)place);
}

static void on_cancel(ompt_data_t *task, int flags, const void *place) {
    (void)flags;
    taskback_note(own_state(), NOTE, number_of(task), 0, NOTE_CANCEL, (uint64_t)place);
}

static int begin(ompt_function_lookup_t look_up, int device, ompt_data_t *data) {
    (void)device, (void)data;
    ompt_set_callback_t set = (ompt_set_callback_t)look_up("ompt_set_callback");
    taskback_has_tool = 1;
    task_info = (ompt_get_task_info_t)look_up("ompt_get_task_info");
    set(ompt_callback_task_create, (ompt_callback_t)on_create);
    set(ompt_callback_task_schedule, (ompt_callback_t)on_schedule);
    set(ompt_callback_sync_region, (ompt_callback_t)on_sync);
    set(ompt_callback_parallel_begin, (ompt_callback_t)on_region_begin);
    set(ompt_callback_parallel_end, (ompt_callback_t)on_region_end);
    set(ompt_callback_implicit_task, (ompt_callback_t)on_implicit);
    set(ompt_callback_mutex_acquired, (ompt_callback_t)on_lock);
    set(ompt_callback_mutex_released, (ompt_callback_t)on_unlock);
    set(ompt_callback_cancel, (ompt_callback_t)on_cancel);
    return 1;
}

static void end(ompt_data_t *data) { (void)data; }

ompt_start_tool_result_t *ompt_start_tool(unsigned int version, const char *runtime) {
    static ompt_start_tool_result_t result = {begin, end, {0}};
    (void)version, (void)runtime;
    return &result;
}
