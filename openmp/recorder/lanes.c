/* Loops of `simd`: the pass tells where one begins and ends, and each of its iterations, which are lanes. */
#include "recorder.h"

/* Behind these the others are one lane. */
enum { LANES_MOST = 1 << 16 };

static void forget_lane(struct own *own) {
    own->lanes.follows = own->lanes.is_alike = 0;
    own->lanes.known = 0;
    own->lanes.met = LANE_STEPS + 1;
}

/* What is in the caller's frame a lane shares with the others, so it isn't quiet; and loads count, also of a thread that is
   alone. A loop within a lane is in the lane's order. */
void taskback_lanes_begin(uint64_t safelen) {
    struct own *own = own_state();
    if (own->lanes.depth++)
        return;
    begin_loud_part(own);
    own->lanes.was_alone = own->is_alone;
    own->lanes.task = own->task;
    own->lanes.count = 0;
    forget_lane(own);
    own->is_alone = 0;
    taskback_note(own, LANES_BEGIN, own->task, 0, safelen, PLACE);
}

static int is_outermost(const struct own *own) { return own->lanes.depth == 1 && own->lanes.task == own->task; }

/* ---- lanes that do what the one before did, each of their loads and stores farther on: one event for all of them */

static int is_element(const struct lane_step *step) {
    uint64_t size = 1ull << step->shift;
    return (step->address | step->stride) % size == 0 && step->stride + 0x80000000u <= 0xffffffffu;
}

/* Whether the next lane may follow this one: nothing but its steps was written down, and there is room for the strides. */
static int may_be_followed(const struct own *own) {
    const struct lanes *lanes = &own->lanes;
    if (!lanes->is_alike || lanes->met == 0 || lanes->met != lanes->known || own->next != lanes->event + 1 + lanes->met
        || own->end - own->next < LANE_STEPS / 4)
        return 0;
    for (uint32_t i = 0; i < lanes->met; i++)
        if (!is_element(&lanes->steps[i]) || lanes->event[1 + i].mark & ATOMIC)
            return 0;
    return 1;
}

static uint64_t strides_at(const struct lanes *lanes, uint32_t first) {
    uint64_t low = first < lanes->known ? (uint32_t)lanes->steps[first].stride : 0;
    return low | (first + 1 < lanes->known ? lanes->steps[first + 1].stride << 32 : 0);
}

static void begin_to_follow(struct own *own) {
    struct lanes *lanes = &own->lanes;
    begin_loud_part(own);
    for (uint32_t i = 0; i < lanes->known; i += 4)
        taskback_note(own, STRIDES, own->task, strides_at(lanes, i), strides_at(lanes, i + 2), 0);
    for (uint32_t i = 0; i < lanes->known; i++)
        lanes->steps[i].address += lanes->steps[i].stride;
    lanes->met = 0;
    lanes->follows = 1;
}

/* The lane has done all that the one before did. */
static void count_lane(struct own *own) {
    own->lanes.event->size++;
    own->events->place += (int32_t)(1 + own->lanes.known);
    own->lanes.met = 0;
}

/* A step by whose event only that it was made is known. */
static void note_step(struct own *own, const struct lane_step *step) {
    uint64_t address = step->address - step->stride;
    struct event *event = taskback_note(own, step->kind, own->task, address >> (step->shift + 6) << (step->shift + 6),
                                        1ull << (address >> step->shift & 63), step->place);
    event->size = SET;
    event->mark = (uint8_t)(step->mark | (1 + step->shift) << ROW_SHIFT);
}

SELDOM void taskback_part_lane(struct own *own) {
    uint64_t low = own->lanes.event->address, size = own->lanes.event->value;
    uint32_t met = own->lanes.met;
    forget_lane(own);
    begin_part(own);
    taskback_note(own, LANE, own->task, low, size, 0);
    for (uint32_t i = 0; i < met; i++)
        note_step(own, &own->lanes.steps[i]);
}

void taskback_lane_steps(struct own *own, const struct lane_step *step) {
    struct lanes *lanes = &own->lanes;
    const struct event *last = own->next - 1;
    uint32_t at = lanes->met;
    if (at >= LANE_STEPS || last != lanes->event + 1 + at || last->address != step->address || last->kind != step->kind
        || last->size != 1u << step->shift || last->mark >> ROW_SHIFT) {
        forget_lane(own);
        return;
    }
    struct lane_step *before = &lanes->steps[at];
    uint64_t stride = step->address - before->address;
    lanes->is_alike = lanes->is_alike && at < lanes->known && before->place == step->place && before->frame == step->frame
                      && before->caller == step->caller;
    *before = *step;
    before->stride = stride;
    before->mark = last->mark;
    lanes->met++;
}

/* What comes behind isn't a lane of its own. */
static void leave_lanes(struct own *own) {
    if (own->lanes.follows && own->lanes.met == own->lanes.known) {
        count_lane(own);
        own->lanes.follows = 0;
    }
    begin_part(own);
    forget_lane(own);
}

/* A lane that doesn't go on from one that follows; `top` is the end of what stands on the stack below its function. */
__attribute__((noinline)) static void begin_lane(struct own *own, uint64_t top) {
    if (!is_outermost(own) || own->lanes.count > LANES_MOST)
        return;
    if (++own->lanes.count > LANES_MOST)
        return leave_lanes(own);
    if (own->lanes.follows && own->lanes.met == own->lanes.known) {
        count_lane(own);
        forget_lane(own);
    } else if (!own->lanes.follows && may_be_followed(own)) {
        return begin_to_follow(own);
    }
    begin_loud_part(own);
    own->lanes.is_alike = own->lanes.met <= LANE_STEPS;
    own->lanes.known = own->lanes.is_alike ? own->lanes.met : 0;
    own->lanes.met = 0;
    own->lanes.event = taskback_note(own, LANE, own->task, own->stack_low, own->stack_low ? top - own->stack_low : 0, 0);
}

/* Most lanes end as one that followed, and the next one follows too. */
void taskback_lane(void) {
    struct own *own = own_state();
    struct lanes *lanes = &own->lanes;
    if (!is_outermost(own) || !lanes->follows || lanes->met != lanes->known || lanes->count >= LANES_MOST || lanes->event->size + 1 >= SET)
        return begin_lane(own, (uint64_t)__builtin_frame_address(0) + 16);
    lanes->count++;
    count_lane(own);
}

/* A variable that the lane has for itself, whose address it gives away. */
void taskback_lane_has(void *variable, uint64_t size) {
    struct own *own = own_state();
    if (is_outermost(own))
        taskback_new_memory(own, (uint64_t)variable, size, 0);
}

void taskback_lanes_end(void) {
    struct own *own = own_state();
    if (own->lanes.depth == 0 || --own->lanes.depth)
        return;
    leave_lanes(own);
    own->is_alone = own->lanes.was_alone;
    taskback_note(own, LANES_END, own->task, 0, 0, 0);
}

static void note_ordered(enum kind kind) {
    struct own *own = own_state();
    if (!is_outermost(own))
        return;
    begin_part(own);
    taskback_note(own, kind, own->task, 0, 0, 0);
}

void taskback_lane_in_order(void) { note_ordered(ORDERED_BEGIN); }
void taskback_lane_out_of_order(void) { note_ordered(ORDERED_END); }
