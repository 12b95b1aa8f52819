/* What the parts of the recorder share: the event, the thread's own state, and how an event is written down.
   No part takes a lock: a call may come from any thread, and from within the runtime. */
#ifndef TASKBACK_RECORDER_H
#define TASKBACK_RECORDER_H

#include <stddef.h>
#include <stdint.h>

#include "event.h"
#include "packing.h"

/* More is its value in place of a number. */
static inline uint16_t size_told(uint64_t size) { return size <= LONGEST_NUMBER ? (uint16_t)size : LARGE; }

static inline void set_size(struct event *event, uint64_t size) {
    event->size = size_told(size);
    if (size > LONGEST_NUMBER)
        event->value = size;
}

enum { RUNNING_MOST = 1024, TOUCHED_BITS = 10, ROW_BITS = 6, BUSY = 64, BUFFER = 2048, FENCED = 4, NESTED = 8 };

/* Parts of tasks are numbered in the upper halves of keys. */
#define PART (1ull << 32)

/* The function whose callers were written down last for a task. */
struct chain {
    uint64_t frame, caller, outer;
    uint32_t task;
};

/* A task that runs on this thread, where its part of the stack begins (0: not yet known), and what the runtime has of it. */
struct running {
    uint32_t task;
    uint32_t prior;            /* what ran on the thread before */
    uint8_t is_untied;
    uint64_t base;
    uint64_t record, shared;   /* the runtime's record, and its pointers to what the task shares; 0: not known */
    struct chain chain;
};

/* What one place has touched of 64 elements of one size that stand together, in the part of a task that is under way. */
struct touched {
    uint64_t key;              /* the part's number, and the place's lower half */
    uint64_t block;            /* which 64 elements; or an address that stands alone */
    uint64_t bits;             /* of the elements that are written down; or the size of what stands alone */
    struct event *first;       /* one of them, or some that stand in a row */
    struct event *set;         /* the others; 0: there are none */
    uint64_t frame, caller;    /* of the function that touched them, and where it was called */
    uint64_t growth;           /* whether more of them may be told by these events */
};

/* Elements of one block in a row, which one place touches, by one chain of callers. */
struct row {
    uint64_t low, length;      /* it goes on where these end */
    uint64_t key;              /* as of what is touched; 0: there is none */
    uint64_t frame, caller;
    struct event *event;
};

/* Elements in a row that a place in a loop of the program touches in one call of its function. The program's own code looks
   there whether an access is the next one, or one that is told, before it calls the recorder (stretches.h). */
struct stretch {
    uint64_t next, low;        /* 0: there is none */
    uint16_t *size;            /* that of the event */
};

/* The place that calls the recorder, where its code looks at a stretch, which has this number. */
struct asking { uint32_t place, number; };

enum { STRETCHES = 64 };
extern __thread struct stretch taskback_stretches[STRETCHES];

/* A worksharing loop that the thread is in: how its number is found, which unoptimised code keeps in memory. */
struct loop {
    uint64_t number;           /* the number's address, once it is known */
    uint64_t bounds[4];        /* what the runtime's call sets, the lowest first: none of these is the number */
    uint64_t value;            /* the number */
    uint32_t size;
    uint32_t task;
    int is_new;                /* the number's next value is the lowest one */
    int is_on;
};

/* A load or store of a lane, which the next one may make farther on. */
struct lane_step {
    uint64_t address, stride;
    uint64_t frame, caller;    /* of the function that makes it, and where it was called */
    uint64_t place;
    uint32_t shift;
    enum kind kind;
    uint8_t mark;
};

/* A `simd` loop that the thread is in. */
struct lanes {
    uint32_t depth;            /* of such loops within each other */
    uint32_t task;             /* that is in the outermost one */
    uint64_t count;
    int was_alone;
    int follows;               /* the lane does what the one before did, as far as it has come */
    int is_alike;              /* so it does, but each of its steps is written down */
    uint32_t met, known;       /* how many steps it has made, and how many the one before has made */
    struct event *event;       /* its own, or that of the first lane that it follows */
    struct lane_step steps[LANE_STEPS]; /* its own, those to come by the one before; where it follows, the next ones */
};

/* An array that is being sorted, and the room for that: the sort's own. */
struct sorted {
    uint64_t array, room, size;
};

struct own {
    struct event *next, *end;
    struct event *events;      /* a piece of the file, or of memory where nothing is kept */
    int is_mapped;
    struct own *link;
    uint64_t stack_high;
    struct chain chain;        /* of a task that isn't among those that run here */
    struct event *part;        /* behind what was written down in front of the part that is under way */
    struct event *made_last;   /* the last task's making, where that says of its record, too */
    struct event *started;     /* the last task's start */
    struct event *frame_end;   /* the end of the frame of its outermost function */
    uint64_t quiet_record, quiet_size; /* the task's record, while no other task can know of it */
    uint64_t quiet_span;       /* from stack_low on: memory that no other task can know of */
    uint64_t stack_low;
    struct event *unread;      /* a write whose number is read at the thread's next call */
    uint32_t unread_size;
    struct asking asking;
    uint64_t stretches;        /* a bit for each of these that is in use */
    struct event *last;        /* the last load or store, which may turn out to be an atomic operation's */
    int is_alone;              /* no other task and no other thread is there that could touch memory */
    uint64_t part_key;         /* its upper half rises at each call that isn't an access */
    uint32_t index;            /* the thread's number */
    uint32_t task;             /* the task that runs */
    uint32_t task_number;      /* the last one that the thread has given to a task */
    uint32_t muted;            /* a task whose accesses are the runtime's */
    uint32_t depth;
    struct running *top;       /* what runs; 0: nothing, or it is too deep */
    uint64_t tls_low, tls_size;
    struct sorted sorted;
    uint64_t record, record_size; /* a task's record that is being filled, before its task is created */
    uint64_t untold_record, untold_size; /* one that is new, which isn't yet written down */
    uint64_t made_size;        /* of the record that was filled last */
    uint32_t record_creator;
    int undeferred;            /* the children are that `caller` creates */
    uint32_t caller;           /* the task in a call of the runtime that creates children */
    uint64_t caller_place;
    uint64_t made;             /* the record of the child that it creates; 0: not known */
    int item_count;            /* the next child's items */
    const void *items;
    int more_count;
    const void *more_items;
    uint32_t fenced;           /* the task that has passed a fence last */
    uint32_t loads;            /* how many relaxed atomic loads there were; the addresses of the last ones */
    uint64_t loaded[FENCED];
    struct loop loop;
    struct loop outer[NESTED]; /* those around the regions that the thread has met */
    uint32_t depths[NESTED];   /* of the tasks on the stack when it met them */
    uint64_t met;              /* the region that it has met last, while it goes on */
    uint32_t nesting;
    struct lanes lanes;
    int is_last;               /* it does what falls to who did a loop's last iteration */
    struct running running[RUNNING_MOST];
    struct row rows[1 << ROW_BITS];
    struct touched touched[1 << TOUCHED_BITS];
    unsigned char packed[sizeof(struct event) + (BUFFER - 1) * LONGEST_EVENT + END_MARK + sizeof(struct event)];
};

/* Of a function that is seldom called: it keeps all registers, so that most calls of who calls it have none to save. It
   returns nothing, since clang 14 keeps the register of that, too. */
#define SELDOM __attribute__((preserve_most, noinline))

extern __thread struct own *taskback_own;
SELDOM void taskback_adopt(void);

/* This thread's state. */
static inline struct own *own_state(void) {
    if (__builtin_expect(!taskback_own, 0))
        taskback_adopt();
    return taskback_own;
}

static inline void set_depth(struct own *own, uint32_t depth) {
    own->depth = depth;
    own->top = depth > 0 && depth <= RUNNING_MOST ? &own->running[depth - 1] : 0;
}

/* Writes an event down, with the next number of the one counter. */
struct event *taskback_note(struct own *own, enum kind kind, uint32_t task, uint64_t address, uint64_t value,
                            uint64_t place);

/* Reads the number of the last write. */
SELDOM void taskback_read_written(struct own *own);

/* The lane under way is no more as the one before: what it has done is written down. */
SELDOM void taskback_part_lane(struct own *own);

/* What a part has under way ends with it. */
SELDOM void taskback_end_part(struct own *own);

static inline void taskback_settle(struct own *own) {
    if (own->unread)
        taskback_read_written(own);
}

/* From here on the same access counts again. */
static inline void begin_part(struct own *own) {
    if ((uint64_t)own->unread | own->stretches | (uint64_t)own->lanes.follows)
        taskback_end_part(own);
    own->last = 0;
    own->part = own->next;
    own->part_key += PART;
}

/* Whether the part has so much to tell that not each number is kept. */
static inline int is_busy(const struct own *own) { return own->next - own->part > BUSY; }

/* The task meets the runtime: another task may now know of what is on its stack. */
static inline void begin_loud_part(struct own *own) {
    uint64_t used = (uint64_t)__builtin_frame_address(0) - own->stack_low;
    begin_part(own);
    if (used < own->quiet_span)
        own->quiet_span = used;
    own->quiet_size = 0;
}

/* An access of `size` bytes by the thread's task. */
void taskback_access(enum kind kind, uint64_t address, uint64_t size, uint64_t place, int mark);

/* In a worksharing loop, whose number may be what was stored. */
SELDOM void taskback_stored_in_loop(struct own *own, uint64_t address, uint32_t size);

/* A lane's access was written down last, or none was. */
void taskback_lane_steps(struct own *own, const struct lane_step *step);

/* What a function of the library does to the program's memory. */
void taskback_touches(enum kind kind, const void *address, size_t size, uint64_t place);

/* An item of a task or of a taskwait, as the runtime's calls have it: `type` has bits. */
struct runtime_item {
    uint64_t address;
    uint64_t length;
    uint8_t type;
};

/* The bytes from here on are new: what was there before has nothing to do with them. */
struct event *taskback_new_memory(struct own *own, uint64_t address, uint64_t size, uint64_t place);

/* The untied task leaves this thread's stack. */
void taskback_pop_task(struct own *own, uint32_t task);

/* From here on other threads than the runtime's may touch memory at any time. */
extern int taskback_has_strangers;

/* The runtime's records of tasks begin with this many bytes of its own, in front of them a pointer to what is shared. */
enum { RECORD_HEAD = 40, SHARED_MOST = 64 };

/* A block that the program has taken, or gives back. */
void *taskback_taken(void *block, uint64_t place);
void taskback_given_back(void *block, uint64_t place);

/* The program has come to its end: nothing is written down any more. */
void taskback_end_trace(void);

/* Whether a file is written, and whether the runtime has called the recorder. */
extern int taskback_is_recording;
extern int taskback_has_tool;

/* A fence: what was stored before is seen by who reads what is stored atomically from here on. */
void taskback_fence(void);

/* A lock that is held from here on, or up to here. */
void taskback_note_lock(enum kind kind, const void *lock, uint64_t place);

/* The thread's task fills a record, which is new. */
void taskback_fill_record(struct own *own, uint64_t record, uint64_t size);

/* Writes down that it is new, where the making of its task isn't what comes next. */
void taskback_tell_record(struct own *own);

#define PLACE ((uint64_t)__builtin_return_address(0))
#endif
