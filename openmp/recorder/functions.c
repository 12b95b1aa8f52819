/* The calls that clang's thread instrumentation makes where a function begins and ends: what it has on the stack ends with it. */
#include "touches.h"

/* What a function has on the stack ends with it; of one that is called again in this part it is told once. A task's outermost
   function ends once. */
static void end_frame(struct own *own, uint64_t low, uint64_t size, uint64_t place, int is_outermost, struct frame *user) {
    if (is_apart(own, low))
        return;
    if (own->lanes.follows)
        taskback_part_lane(own);
    if (is_outermost) {
        own->frame_end = note_touch(own, WRITE, low, size, place, FREED | FRAME | OUTERMOST, user);
        return;
    }
    struct touched *touched = touched_at(own, alone(WRITE, low), place);
    if (touched->key == key_of(own, place) && touched->block == alone(WRITE, low) && touched->bits == size) {
        touch_again(own, touched->first, WRITE, size, 0);
        return;
    }
    struct event *event = note_touch(own, WRITE, low, size, place, FREED | FRAME, user);
    *touched = (struct touched){key_of(own, place), alone(WRITE, low), size, event, 0, 0, 0, 0};
}

/* The first function that a task enters shows where its part of the stack begins; all below is new to it. */
SELDOM static void begin_stack(struct own *own, uint64_t top) {
    struct event *start = own->next - 1;
    uint64_t size = top - own->stack_low;
    own->top->base = top;
    if (start != own->started || (start->kind == CREATE && size > UINT32_MAX)) {
        taskback_new_memory(own, own->stack_low, size, 0)->mark = STACK;
    } else if (start->kind == CREATE) {
        start->value |= size << 32;
    } else {
        start->address = own->stack_low;
        start->value = size;
        start->mark |= STACK;
    }
}

/* What a function has on the stack no other task knows of until the function meets the runtime. */
void __tsan_func_entry(void *caller) {
    (void)caller;
    struct own *own = own_state();
    uint64_t top = (uint64_t)__builtin_frame_address(1) + 16;
    if (top - own->stack_low > own->quiet_span)
        own->quiet_span = own->stack_low ? top - own->stack_low : 0;
    if (own->top && !own->top->base)
        begin_stack(own, top);
}

/* What a function has on the stack ends with it, as a block that is given back. A task's first function is that task's to
   its end: of an untied task the runtime says at the latest call in it, or not at all, that it leaves the thread. */
__attribute__((noinline)) static void leave_function(struct own *own, uint64_t place, struct frame *frame) {
    struct running *running = own->top;
    uint64_t low = (uint64_t)frame + 16, top = (uint64_t)frame->outer + 16;
    int is_outermost = running && running->base == top;
    if (top - own->stack_low > own->quiet_span && top > low)
        end_frame(own, low, top - low, place, is_outermost, outer_of(own, frame));
    if (!is_outermost || !running->is_untied)
        return;
    own->task = running->prior;
    taskback_pop_task(own, running->task);
}

/* Nobody else knows of most functions' variables. */
void __tsan_func_exit(void) {
    struct own *own = own_state();
    uint64_t top = (uint64_t)__builtin_frame_address(1) + 16;
    struct running *running = own->top;
    int is_outermost = running && running->base == top;
    if (is_outermost)
        own->task = running->task;
    if (top - own->stack_low > own->quiet_span || (is_outermost && running->is_untied))
        leave_function(own, PLACE, __builtin_frame_address(0));
}

/* By the pass: what stands below on the stack ends there, as arrays whose length the program computes do with their block. */
void taskback_stack_restored(void *saved) {
    struct own *own = own_state();
    uint64_t top = (uint64_t)saved, low = (uint64_t)__builtin_frame_address(0) + 16;
    if (top - own->stack_low > own->quiet_span && top > low)
        taskback_access(WRITE, low, top - low, PLACE, FREED | FRAME);
}
