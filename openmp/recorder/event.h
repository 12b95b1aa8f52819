/* What the recorder writes down and the judge reads: the events of a run. openmp/taskrun/trace.py has the same numbers. */
#ifndef TASKBACK_EVENT_H
#define TASKBACK_EVENT_H

#include <stdint.h>

/* The kinds of events. */
enum kind {
    CREATE = 1,     /* task: the creator; address: the child; value: its flags; place: the directive. With a size the
                       child's record is new, which has that size and is at the address, the child is the lower half of
                       value, and its flags are those of FLAGS_SHIFT in mark. With BEGINS there it starts at once, and value's
                       upper half is the size of its part of the stack, which is new; 0: not known */
    ITEM,           /* task: the child; address; value: the length; mark: the type's bits */
    START,          /* task; mark: STACK where address, value are its part of the stack, which is new; COUNTED */
    END,            /* task; mark: STACK where address, value are its part of the stack, which is new from here on. With a
                       size the frame of its outermost function, the part's upper end, has ended in front of it, at place */
    WAIT,           /* task: it has passed a taskwait */
    WAIT_ITEM,      /* task; the rest as of ITEM; in front of its WAIT_ITEMS */
    WAIT_ITEMS,     /* task: it has passed a taskwait with items */
    GROUP_OPEN,     /* task */
    GROUP_CLOSE,    /* task */
    REGION_BEGIN,   /* task: who met the parallel region; address: the region */
    REGION_END,     /* the same */
    IMPLICIT_BEGIN, /* task: the implicit task; address: its region, 0 for the initial task; value: its index; size: of
                       the team; mark: TEAMS where it is the first task of a team of a league, whose teams that counts */
    BARRIER_BEGIN,  /* task: an implicit task; address: its region; value: below there its functions have nothing on the
                       stack, 0 where that isn't known */
    BARRIER_END,    /* task, address */
    READ,           /* task; address; value: the number read; size; place; mark. Of elements that one place touches in
                       their order it is one event: the size is that of all, the number that of the first; so it is of
                       a SET of elements, whose numbers aren't kept: the address is that of the first of 64 */
    WRITE,          /* the same; the number written */
    MEMORY,         /* task; address, value: from here on this many bytes are new; place: who took them; mark: STACK */
    LOCK,           /* task; address: the lock; value: 1 where it is a reduction's; mark: SHARED, or REDUCES where the
                       team's threads put their parts together there */
    UNLOCK,         /* task; address: the lock */
    NOTE,           /* task; value: one of enum note; place */
    COPY,           /* address: a thread's copy of a reduced variable; value: the variable, which is its own copy where the
                       thread is alone; with a size, its own */
    CHUNK,          /* the first of each piece of the file; address: the thread's number; value: of a packed piece the
                       bytes that follow; place: for how many more events those of lanes stand; in place of stamp and task
                       it has the lower end of the thread's stack */
    ENDED,          /* the program has come to its end */
    LOOP_BEGIN,     /* task: an implicit task; address: how many iterations; value: the chunk's size, 0 for none; mark */
    ITERATION,      /* task; address: of the loop's number, or 0; value: the number; mark: HANDED_OUT */
    LOOP_END,       /* task; mark: 1 where it did the last iteration, and nothing else tells that */
    SINGLE_BEGIN,   /* task; mark: 1 where it is the one that does it */
    SINGLE_END,     /* task */
    MASKED_BEGIN,   /* task */
    MASKED_END,     /* task */
    ORDERED_BEGIN,  /* task */
    ORDERED_END,    /* task */
    POST,           /* task; address: the loop; value: the iteration's numbers, hashed */
    AWAIT,          /* the same */
    RELEASE,        /* task; address; mark: KEEPS where it adds to what is there, GUARD, NOTHING to take over,
                       DOWN where it counts down */
    ACQUIRE,        /* task; address; mark: UP where it counts up */
    FULFIL,         /* task; address: the task whose event it fulfils */
    RESUME,         /* task: it goes on on this thread, where it hasn't been */
    LAST_BEGIN,     /* task: from here on it does what falls to who did the last iteration of a loop */
    LAST_END,       /* task */
    LANES_BEGIN,    /* task: a `simd` loop; value: its `safelen`, 0 for none */
    LANE,           /* task: its next iteration; address, value: the stack below its function, which is new; size: how many
                       more follow that have the same loads and stores, whose numbers aren't kept: these are the next
                       events, up to STRIDES */
    LANES_END,      /* task */
    CHAIN,          /* task: its next loads and stores are in a function that was called at place, its caller at the low
                       half of address, and so on: the high half, and the halves of value */
    STRIDES         /* task; by how many bytes the loads and stores of a lane are farther than those of the one before: the
                       low half of address for the first, then its high one, and the halves of value; the others by more of
                       these events */
};

/* What the notation has no word for, and what else is told of a run. */
enum note {
    NOTE_REDUCTION = 1, NOTE_DETACH, NOTE_PRIORITY, NOTE_CANCEL, NOTE_DEEP, NOTE_THREAD_NUMBER,
    NOTE_ONE_THREAD,        /* the next region has one thread by a clause */
    NOTE_NO_TOOL, NOTE_NO_ROOM, NOTE_FORK,
    NOTE_ONE_FROM_HERE,     /* regions that the task meets have one thread where no clause says more */
    NOTE_MORE_FROM_HERE,
    NOTE_ONE_TEAM           /* the next league has one team by a clause */
};

/* Marks of a READ or WRITE; what is freed may be the frame of a function that ends. OUTERMOST: a task's outermost function
   does it, whom nobody has called. A block that is freed and has no size is as large as it was when it was taken. */
enum mark { ATOMIC = 1, FREED = 2, LIBRARY = 4, FRAME = 8, OUTERMOST = 16 };

/* Above these marks stands, of several elements, 1 and the power of two that is the size of each. */
enum { ROW_SHIFT = 5 };

/* The flags that a making's mark has, which are these bits of the runtime's, beside that of an explicit task. */
enum { FLAGS_SHIFT = 27, FLAGS_EXPLICIT = 4, FLAGS = 31, BEGINS = 32 };

/* Marks of a loop, of an iteration, of a release, of a lock that several may hold, of a task's own part of a stack, and of a
   start that has raised the counter, since there are several threads. */
enum { LOOP_STATIC = 1, LOOP_ORDERED = 2, HANDED_OUT = 1, KEEPS = 1, GUARD = 2, NOTHING = 4, DOWN = 8, UP = 8, SHARED = 1,
       REDUCES = 2, STACK = 1, TEAMS = 1, COUNTED = 2 };

/* 32 bytes: what is written is most of what recording costs. */
struct event {
    uint64_t address;
    uint64_t value;
    uint32_t stamp;
    uint32_t task;
    int32_t place;  /* from where the program is loaded; 0: not in it */
    uint16_t size;  /* or LARGE, SET */
    uint8_t kind;
    uint8_t mark;
};

/* Whether the event raises the one counter. The others, on which no order between threads hangs, have the number that it
   had: what is given back comes in front of who takes it next, and all else between two threads is ordered by numbers. A
   wait is behind ends, which have taken one; so is a start, but there may be items in front of it that another thread wrote. */
static inline int takes_number(uint8_t kind, uint8_t mark) {
    switch (kind) {
    case WRITE: return (mark & FREED) && !(mark & FRAME);
    case START: return (mark & COUNTED) != 0;
    case WAIT: case READ: case CHAIN: case MEMORY: case ITEM: case WAIT_ITEM: case ITERATION: case LANE: case STRIDES: case COPY: case NOTE: return 0;
    default: return 1;
    }
}

/* The end of a trace's first page, where events are missing. */
#define NO_ROOM "no room\n"

/* The sizes of a READ or WRITE that are none: the size is the value; the value has a bit for each of 64 elements. */
enum { LARGE = 0xffff, SET = 0xfffe, LONGEST_NUMBER = 16, CALLERS = 5, LANE_STEPS = 8 };
#endif
