/*
 * A program for the toy runtime: in each round one task adds 1 to cell 0, one adds 2 to cell 1, and one puts their sum into cell 2.
 *     toy PREFIX THREADS ROUNDS [hasty]
 */
#include "runtime.h"
#include <stdlib.h>

static long long cells[TOY_CELLS];
static int rounds;

static const taskback_item items[][3] = {
    {{TASKBACK_INOUT, 0}}, {{TASKBACK_INOUT, 1}}, {{TASKBACK_IN, 0}, {TASKBACK_IN, 1}, {TASKBACK_OUT, 2}}};
static const taskback_spawned fill_first = {"fill", NULL, 0, items[0], 1, 0};
static const taskback_spawned fill_second = {"fill", NULL, 0, items[1], 1, 0};
static const taskback_spawned add_both = {"add", NULL, 0, items[2], 3, 0};

static long long load(toy_task *self, long long cell, const char *where)
{
    taskback_load(self->writer, &self->events, cell, cells[cell], where);
    return cells[cell];
}

static void store(toy_task *self, long long cell, long long value, const char *where)
{
    cells[cell] = value;
    taskback_store(self->writer, &self->events, cell, value, where);
}

static void fill(toy_task *self)
{
    long long cell = self->argument;
    store(self, cell, load(self, cell, TASKBACK_HERE) + cell + 1, TASKBACK_HERE);
}

static void add(toy_task *self)
{
    store(self, 2, load(self, 0, TASKBACK_HERE) + load(self, 1, TASKBACK_HERE), TASKBACK_HERE);
}

static void root(toy_task *self)
{
    for (int round = 0; round < rounds; round++) {
        toy_spawn(self, fill, 0, &fill_first, TASKBACK_HERE);
        toy_spawn(self, fill, 1, &fill_second, TASKBACK_HERE);
        toy_spawn(self, add, 0, &add_both, TASKBACK_HERE);
    }
    toy_wait(self, TASKBACK_HERE);
    taskback_print(self->writer, &self->events, load(self, 2, TASKBACK_HERE), TASKBACK_HERE);
}

int main(int count, char **words)
{
    int threads = count > 3 ? atoi(words[2]) : 0;
    rounds = count > 3 ? atoi(words[3]) : 0;
    if (threads < 1 || threads > TOY_MOST_THREADS || rounds < 1 || 3 * rounds >= TOY_MOST_TASKS) {
        fprintf(stderr, "toy PREFIX THREADS ROUNDS [hasty]: 1 to %d threads, 1 to %d rounds\n", TOY_MOST_THREADS, (TOY_MOST_TASKS - 1) / 3);
        return 64;
    }
    return toy_run(words[1], threads, count > 4, root) ? 0 : 1;
}
