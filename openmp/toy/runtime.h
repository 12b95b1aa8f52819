/* A toy task runtime: threads that share one stack of tasks, which depend items order. It writes its run as parts of a run text. */
#ifndef TOY_RUNTIME_H
#define TOY_RUNTIME_H

#include "../taskback_run.h"

#define TOY_MOST_TASKS 1000
#define TOY_MOST_THREADS 16
#define TOY_CELLS 3

typedef struct toy_task toy_task;
struct toy_task {
    void (*body)(toy_task *self);
    long long argument;
    const taskback_item *items; /* of type in, out and inout, each of one cell */
    int item_count;
    toy_task *parent;
    int is_over, blockers, children; /* blockers: how many tasks it still waits for; children: those that haven't ended */
    toy_task *below;                 /* the next one on the stack */
    taskback_task events;
    taskback_writer *writer; /* that of the thread that executes it */
};

/* Executes the root by so many threads, which write PREFIX.0, PREFIX.1 and so on. A hasty runtime has the seeded bug.
 * Returns whether all parts are whole. */
int toy_run(const char *prefix, int threads, int is_hasty, void (*root)(toy_task *self));

/* Generates a child; `named` has all of it but body and argument. */
void toy_spawn(toy_task *self, void (*body)(toy_task *self), long long argument, const taskback_spawned *named, const char *where);

/* Waits for the children. */
void toy_wait(toy_task *self, const char *where);

#endif
