/* The runtime: one lock, under which all is decided, and each event written by which others learn of it. */
#include "runtime.h"
#include <pthread.h>

static pthread_mutex_t lock = PTHREAD_MUTEX_INITIALIZER;
static pthread_cond_t change = PTHREAD_COND_INITIALIZER;
static taskback_clock stamps;
static taskback_writer writers[TOY_MOST_THREADS];
static toy_task tasks[TOY_MOST_TASKS], *stack;
static int task_count, unended, is_hasty, is_done;

/* Whether a task depends on an earlier sibling. */
static int depends_on(const toy_task *task, const toy_task *earlier)
{
    if (task->parent != earlier->parent || task <= earlier)
        return 0;
    for (int i = 0; i < task->item_count; i++)
        for (int j = 0; j < earlier->item_count; j++)
            if (task->items[i].cell == earlier->items[j].cell && (task->items[i].type != TASKBACK_IN || earlier->items[j].type != TASKBACK_IN))
                return 1;
    return 0;
}

static void push(toy_task *task)
{
    task->below = stack;
    stack = task;
    pthread_cond_broadcast(&change);
}

/* Executes the task, whose end may let others start. The lock is held, but for the task's own statements. */
static void execute(toy_task *task, taskback_writer *writer)
{
    task->writer = writer;
    taskback_start(writer, &task->events, NULL);
    pthread_mutex_unlock(&lock);
    task->body(task);
    pthread_mutex_lock(&lock);
    taskback_end(writer, &task->events, NULL);
    task->is_over = 1;
    unended--;
    if (task->parent)
        task->parent->children--;
    for (toy_task *other = task + 1; other < tasks + task_count; other++)
        if (depends_on(other, task) && --other->blockers == 0)
            push(other);
    pthread_cond_broadcast(&change);
}

/* Executes the newest task that may start, or waits for a change. */
static void help(taskback_writer *writer)
{
    toy_task *task = stack;
    if (task) {
        stack = task->below;
        execute(task, writer);
    } else
        pthread_cond_wait(&change, &lock);
}

void toy_spawn(toy_task *self, void (*body)(toy_task *self), long long argument, const taskback_spawned *named, const char *where)
{
    pthread_mutex_lock(&lock);
    toy_task *child = tasks + task_count++;
    child->body = body, child->argument = argument, child->parent = self;
    child->items = named->items, child->item_count = named->item_count;
    taskback_spawn(self->writer, &self->events, &child->events, named, where);
    for (toy_task *earlier = tasks; earlier < child; earlier++)
        if (!earlier->is_over && depends_on(child, earlier))
            child->blockers = is_hasty ? 1 : child->blockers + 1; /* the bug: one end is waited for, however many there are */
    self->children++;
    unended++;
    if (child->blockers == 0)
        push(child);
    pthread_mutex_unlock(&lock);
}

void toy_wait(toy_task *self, const char *where)
{
    pthread_mutex_lock(&lock);
    while (self->children > 0)
        help(self->writer);
    taskback_wait(self->writer, &self->events, NULL, 0, where);
    pthread_mutex_unlock(&lock);
}

static void *work(void *writer)
{
    pthread_mutex_lock(&lock);
    while (!is_done)
        help((taskback_writer *)writer);
    pthread_mutex_unlock(&lock);
    return NULL;
}

int toy_run(const char *prefix, int threads, int hasty, void (*root)(toy_task *self))
{
    pthread_t others[TOY_MOST_THREADS];
    char path[4096];
    int is_whole = 1;
    for (int at = 0; at < threads; at++) {
        snprintf(path, sizeof path, "%s.%d", prefix, at);
        if (taskback_open(writers + at, path, &stamps, TOY_CELLS) != TASKBACK_OK)
            return 0;
    }
    is_hasty = hasty;
    tasks[0].body = root;
    taskback_root(&tasks[0].events);
    task_count = unended = 1;
    for (int at = 1; at < threads; at++)
        pthread_create(others + at, NULL, work, writers + at);
    pthread_mutex_lock(&lock);
    execute(tasks, writers);
    while (unended > 0)
        help(writers);
    is_done = 1;
    pthread_cond_broadcast(&change);
    pthread_mutex_unlock(&lock);
    for (int at = 1; at < threads; at++)
        pthread_join(others[at], NULL);
    for (int at = 0; at < threads; at++)
        is_whole &= taskback_close(writers + at) == TASKBACK_OK;
    return is_whole;
}
