/*
 * Writes run texts: the events of a run of tasks, one a line, each as the command `hist` writes it (docs/RUNS.md).
 * One file of C99 or C++11, for GCC and clang; nothing is linked but the C library.
 *
 *     taskback_clock clock = {0};                          one for all threads
 *     taskback_open(&writer, "run.0", &clock, 4);          one for each thread: run.0, run.1, ..
 *     taskback_start(&writer, &task, TASKBACK_HERE);       one call for each event
 *     taskback_close(&writer);
 *
 * and then `openmp/merge run.0 run.1 ..` puts the parts together. Without a clock (NULL) all threads share one writer, and
 * its file is a run text as it is, in the order in which the calls wrote their lines.
 *
 * WHICH ORDER IS MEANT. A history is one row of events, so an event has to be written (and by that stamped) inside of the
 * section that orders it in the runtime: while the lock is held, or between the atomic operations, by which others learn of it.
 *   spawn        before another thread can see the child
 *   start        after the runtime has decided that the task may begin, before its first statement
 *   load, store  in one section with the access: where a lock orders the accesses, under that lock
 *   wait, close  after the last task that is waited for has ended, before the next statement
 *   end, fault   after the task's last statement, before the runtime lets anyone know that it is over
 * Where an event is written too early or too late, a right runtime's run may be refused, and a wrong one's accepted. Of two
 * calls one of which returns before the other begins, by any synchronisation of the threads, the first has the lesser stamp.
 *
 * THREADS. Calls for one task are made by whoever executes it, one at a time; those for different tasks may overlap. A writer
 * with a clock is one thread's; one without a clock may be shared, since each line is one call of fwrite, which locks the file.
 *
 * ERRORS. Each call returns TASKBACK_OK, or why it wrote no event. Then task and child are as they were, and the writer has
 * failed: each later call returns that status and writes nothing, up to taskback_close, which returns it too. So it is enough
 * to look at what taskback_close returns. A writer with a clock that fails uses up one stamp, which merge finds missing.
 *
 * WHERE. The last argument is the event's comment, by custom the source line (`file.c:12`): TASKBACK_HERE is that of the call,
 * NULL writes none. It ends at its first line feed, and is cut where it has more than 1,000 bytes.
 */
#ifndef TASKBACK_RUN_H
#define TASKBACK_RUN_H

#include <errno.h>
#include <stdio.h>
#include <string.h>

#ifndef __GNUC__
#error "taskback_run.h wants GCC or clang, for the __atomic functions"
#endif

/* The bytes of a task's name with its final zero; a level of children has 2 to 11. Up to 16,384. */
#ifndef TASKBACK_NAME_SIZE
#define TASKBACK_NAME_SIZE 256
#endif
#if TASKBACK_NAME_SIZE < 16 || TASKBACK_NAME_SIZE > 16384
#error "TASKBACK_NAME_SIZE is 16 to 16384"
#endif

#define TASKBACK_MOST_CELLS 134217728LL
#define TASKBACK_MOST_ARGUMENTS 16
#define TASKBACK_MOST_ITEMS 64
#define TASKBACK_LINE_SIZE (4096 + 2 * TASKBACK_NAME_SIZE)

/* As a cell of an item: all memory (omp_all_memory), with TASKBACK_OUT and TASKBACK_INOUT alone. */
#define TASKBACK_ALL (-1LL)

/* The source line of the call, as an event's last argument. */
#define TASKBACK_TEXT_OF(word) #word
#define TASKBACK_DIGITS_OF(line) TASKBACK_TEXT_OF(line)
#define TASKBACK_HERE __FILE__ ":" TASKBACK_DIGITS_OF(__LINE__)

/* What a call returns. */
typedef enum taskback_status {
    TASKBACK_OK = 0,
    TASKBACK_WRITE = 1,    /* the file couldn't be opened, written or closed: the writer's `reason` is errno */
    TASKBACK_ARGUMENT = 2, /* a cell, an item, a count or a body's name is out of its range */
    TASKBACK_NAME = 3      /* the child's name doesn't fit into TASKBACK_NAME_SIZE, or it is the 4,294,967,296th child */
} taskback_status;

/* The counter that stamps the events of all threads: 0 at first. */
typedef struct taskback_clock {
    unsigned long long next;
} taskback_clock;

/* Where events are written. */
typedef struct taskback_writer {
    FILE *file;
    taskback_clock *clock;
    long long cells;
    int status;
    int reason;
} taskback_writer;

/* A task, as a runtime has it in its own record of the task: a value, which may be copied while nobody executes the task. */
typedef struct taskback_task {
    char name[TASKBACK_NAME_SIZE];
    unsigned int children;
    unsigned int steps;
} taskback_task;

/* The type of a depend item. */
typedef enum taskback_type { TASKBACK_IN, TASKBACK_OUT, TASKBACK_INOUT, TASKBACK_MUTEXINOUTSET, TASKBACK_INOUTSET } taskback_type;

/* A depend item: its type, and a cell or TASKBACK_ALL. */
typedef struct taskback_item {
    taskback_type type;
    long long cell;
} taskback_item;

/* What a child is spawned with. */
typedef struct taskback_spawned {
    const char *body;           /* its function: a letter or _, then letters, digits and _, at most 32 bytes */
    const long long *arguments; /* at most 16 */
    int argument_count;
    const taskback_item *items; /* at most 64 */
    int item_count;
    int is_undeferred; /* whether the parent goes on only after the child's end */
} taskback_spawned;

/* ---- parts of the calls below */

typedef struct taskback_line {
    size_t size;
    char text[TASKBACK_LINE_SIZE];
} taskback_line;

static inline void taskback_put(taskback_line *line, const char *text, size_t size)
{
    size_t left = sizeof line->text - 1 - line->size;
    size = size < left ? size : left;
    memcpy(line->text + line->size, text, size);
    line->size += size;
}

static inline void taskback_put_text(taskback_line *line, const char *text)
{
    taskback_put(line, text, strlen(text));
}

static inline void taskback_put_value(taskback_line *line, long long value)
{
    char digits[24];
    int size = snprintf(digits, sizeof digits, " %lld", value);
    taskback_put(line, digits, (size_t)size);
}

static inline taskback_status taskback_status_of(const taskback_writer *writer)
{
    return (taskback_status)__atomic_load_n(&writer->status, __ATOMIC_SEQ_CST);
}

/* The writer fails by this, where it hasn't failed yet; a lost stamp says so to merge. Returns how it failed first. */
static inline taskback_status taskback_fail(taskback_writer *writer, taskback_status status)
{
    int none = TASKBACK_OK, reason = errno;
    if (__atomic_compare_exchange_n(&writer->status, &none, (int)status, 0, __ATOMIC_SEQ_CST, __ATOMIC_SEQ_CST)) {
        writer->reason = status == TASKBACK_WRITE ? reason : 0;
        if (writer->clock)
            __atomic_fetch_add(&writer->clock->next, 1, __ATOMIC_SEQ_CST);
    }
    return taskback_status_of(writer);
}

/* Writes the line, with this comment. */
static inline taskback_status taskback_write(taskback_writer *writer, taskback_line *line, const char *where)
{
    if (where) {
        size_t size = strcspn(where, "\n");
        taskback_put_text(line, "  # ");
        taskback_put(line, where, size < 1000 ? size : 1000);
    }
    line->text[line->size++] = '\n';
    return fwrite(line->text, 1, line->size, writer->file) == line->size ? TASKBACK_OK : taskback_fail(writer, TASKBACK_WRITE);
}

/* Begins an event's line: its stamp, the task and the step. Nothing can fail then but the write. */
static inline void taskback_begin(taskback_writer *writer, const taskback_task *task, taskback_line *line)
{
    char text[48];
    line->size = 0;
    if (writer->clock) {
        unsigned long long stamp = __atomic_fetch_add(&writer->clock->next, 1, __ATOMIC_SEQ_CST);
        int size = snprintf(text, sizeof text, "%llu ", stamp);
        taskback_put(line, text, (size_t)size);
    }
    taskback_put_text(line, task->name);
    snprintf(text, sizeof text, "#%u ", task->steps + 1);
    taskback_put_text(line, text);
}

/* Writes the event, which is then one more step of the task. */
static inline taskback_status taskback_finish(taskback_writer *writer, taskback_task *task, taskback_line *line, const char *where)
{
    taskback_status status = taskback_write(writer, line, where);
    task->steps += status == TASKBACK_OK;
    return status;
}

/* Writes an event that is words alone. */
static inline taskback_status taskback_event(taskback_writer *writer, taskback_task *task, const char *word, const char *where)
{
    taskback_line line;
    if (taskback_status_of(writer) != TASKBACK_OK)
        return taskback_status_of(writer);
    taskback_begin(writer, task, &line);
    taskback_put_text(&line, word);
    return taskback_finish(writer, task, &line, where);
}

static inline int taskback_is_cell(const taskback_writer *writer, long long cell)
{
    return 0 <= cell && cell < writer->cells;
}

/* Whether these items may be a child's, or those of a taskwait. */
static inline int taskback_are_items(const taskback_writer *writer, const taskback_item *items, int count, int is_wait)
{
    int at;
    for (at = 0; at < count && at < TASKBACK_MOST_ITEMS; at++) {
        const taskback_item *item = items + at;
        int for_all = item->cell == TASKBACK_ALL && (item->type == TASKBACK_OUT || item->type == TASKBACK_INOUT);
        if ((unsigned int)item->type > (unsigned int)TASKBACK_INOUTSET || (is_wait && item->type == TASKBACK_MUTEXINOUTSET))
            return 0;
        if (!for_all && !taskback_is_cell(writer, item->cell))
            return 0;
    }
    return at == count;
}

static inline void taskback_put_items(taskback_line *line, const taskback_item *items, int count)
{
    static const char *const types[] = {"in", "out", "inout", "mutexinoutset", "inoutset"};
    for (int at = 0; at < count; at++) {
        taskback_put_text(line, " depend ");
        taskback_put_text(line, types[items[at].type]);
        if (items[at].cell == TASKBACK_ALL)
            taskback_put_text(line, " all");
        else
            taskback_put_value(line, items[at].cell);
    }
}

static inline int taskback_is_body(const char *body)
{
    static const char letters[] = "_abcdefghijklmnopqrstuvwxyzABCDEFGHIJKLMNOPQRSTUVWXYZ0123456789";
    size_t size = strlen(body);
    return 1 <= size && size <= 32 && strspn(body, letters) == size && !('0' <= body[0] && body[0] <= '9');
}

/* ---- the file */

/*
 * Creates the file and writes the count of the run's cells, 0 to 134,217,728. With a clock the file is a part, whose events
 * have stamps; each part of a run has the same count. A cell is 64 bits that tasks share, by an index of the caller's choice.
 * On failure there is nothing to close.
 */
static inline taskback_status taskback_open(taskback_writer *writer, const char *path, taskback_clock *clock, long long cells)
{
    memset(writer, 0, sizeof *writer);
    if (cells < 0 || cells > TASKBACK_MOST_CELLS)
        return TASKBACK_ARGUMENT;
    writer->file = fopen(path, "w");
    writer->clock = clock;
    writer->cells = cells;
    if (!writer->file) {
        writer->reason = errno;
        return TASKBACK_WRITE;
    }
    if (fprintf(writer->file, "cells %lld\n", cells) < 0)
        taskback_fail(writer, TASKBACK_WRITE);
    return TASKBACK_OK;
}

/* The value that a cell has before the run, where it isn't 0. Called before the writer's first event, once a cell and run. */
static inline taskback_status taskback_first(taskback_writer *writer, long long cell, long long value)
{
    taskback_line line;
    if (taskback_status_of(writer) != TASKBACK_OK)
        return taskback_status_of(writer);
    if (!taskback_is_cell(writer, cell))
        return taskback_fail(writer, TASKBACK_ARGUMENT);
    line.size = 0;
    taskback_put_text(&line, "cell");
    taskback_put_value(&line, cell);
    taskback_put_value(&line, value);
    return taskback_write(writer, &line, NULL);
}

/* Closes the file. Returns how the writer failed first, or that the last lines couldn't be written. Nobody may be in a call. */
static inline taskback_status taskback_close(taskback_writer *writer)
{
    if (fclose(writer->file) != 0 && taskback_status_of(writer) == TASKBACK_OK)
        taskback_fail(writer, TASKBACK_WRITE);
    writer->file = NULL;
    return taskback_status_of(writer);
}

/* ---- the tasks */

/* Makes this the root: the task `0`, which nobody spawns and which starts as any other. A child is made by taskback_spawn. */
static inline void taskback_root(taskback_task *task)
{
    memset(task, 0, sizeof *task);
    task->name[0] = '0';
}

/* ---- the events, one call for each kind */

/* The task begins: its first event. */
static inline taskback_status taskback_start(taskback_writer *writer, taskback_task *task, const char *where)
{
    return taskback_event(writer, task, "start", where);
}

/* Writes an event that is words, a cell or none (TASKBACK_ALL), and a value. */
static inline taskback_status taskback_valued(taskback_writer *writer, taskback_task *task, const char *word, long long cell,
                                              long long value, const char *where)
{
    taskback_line line;
    if (taskback_status_of(writer) != TASKBACK_OK)
        return taskback_status_of(writer);
    if (cell != TASKBACK_ALL && !taskback_is_cell(writer, cell))
        return taskback_fail(writer, TASKBACK_ARGUMENT);
    taskback_begin(writer, task, &line);
    taskback_put_text(&line, word);
    if (cell != TASKBACK_ALL)
        taskback_put_value(&line, cell);
    taskback_put_value(&line, value);
    return taskback_finish(writer, task, &line, where);
}

/* The task computes a value of its own, which no other task has. Nothing is judged by it. */
static inline taskback_status taskback_let(taskback_writer *writer, taskback_task *task, long long value, const char *where)
{
    return taskback_valued(writer, task, "let r0", TASKBACK_ALL, value, where);
}

/*
 * The task reads the cell, and finds this value, which has to be the one of the last store, else the cell's first. Who doesn't
 * record values gives 0 here and in each store: accesses race or don't whatever the values are.
 */
static inline taskback_status taskback_load(taskback_writer *writer, taskback_task *task, long long cell, long long value, const char *where)
{
    return cell == TASKBACK_ALL ? taskback_fail(writer, TASKBACK_ARGUMENT) : taskback_valued(writer, task, "load r0", cell, value, where);
}

/* The task writes the value into the cell. */
static inline taskback_status taskback_store(taskback_writer *writer, taskback_task *task, long long cell, long long value, const char *where)
{
    return cell == TASKBACK_ALL ? taskback_fail(writer, TASKBACK_ARGUMENT) : taskback_valued(writer, task, "store", cell, value, where);
}

/* The task writes the value to the one output of the program: two prints that nothing orders race. */
static inline taskback_status taskback_print(taskback_writer *writer, taskback_task *task, long long value, const char *where)
{
    return taskback_valued(writer, task, "print", TASKBACK_ALL, value, where);
}

/* The task generates a child, which gets its name here: the ordinals of a task's children count from 1. */
static inline taskback_status taskback_spawn(taskback_writer *writer, taskback_task *task, taskback_task *child,
                                             const taskback_spawned *with, const char *where)
{
    taskback_line line;
    taskback_task made;
    int size = snprintf(made.name, sizeof made.name, "%s.%u", task->name, task->children + 1);
    if (taskback_status_of(writer) != TASKBACK_OK)
        return taskback_status_of(writer);
    if (size < 0 || size >= TASKBACK_NAME_SIZE || task->children == 4294967295U)
        return taskback_fail(writer, TASKBACK_NAME);
    if (!taskback_is_body(with->body) || with->argument_count < 0 || with->argument_count > TASKBACK_MOST_ARGUMENTS ||
        !taskback_are_items(writer, with->items, with->item_count, 0))
        return taskback_fail(writer, TASKBACK_ARGUMENT);
    made.children = made.steps = 0;
    taskback_begin(writer, task, &line);
    taskback_put_text(&line, "spawn ");
    taskback_put_text(&line, made.name);
    taskback_put_text(&line, " ");
    taskback_put_text(&line, with->body);
    for (int at = 0; at < with->argument_count; at++)
        taskback_put_value(&line, with->arguments[at]);
    taskback_put_items(&line, with->items, with->item_count);
    if (with->is_undeferred)
        taskback_put_text(&line, " undeferred");
    taskback_status status = taskback_finish(writer, task, &line, where);
    if (status == TASKBACK_OK) {
        *child = made;
        task->children++;
    }
    return status;
}

/* A taskwait is over: for all children that the task has generated, or for those that a task with these items would depend on
 * (none of them TASKBACK_MUTEXINOUTSET). */
static inline taskback_status taskback_wait(taskback_writer *writer, taskback_task *task, const taskback_item *items, int count, const char *where)
{
    taskback_line line;
    if (taskback_status_of(writer) != TASKBACK_OK)
        return taskback_status_of(writer);
    if (!taskback_are_items(writer, items, count, 1))
        return taskback_fail(writer, TASKBACK_ARGUMENT);
    taskback_begin(writer, task, &line);
    taskback_put_text(&line, "wait");
    taskback_put_items(&line, items, count);
    return taskback_finish(writer, task, &line, where);
}

/* A taskgroup begins. */
static inline taskback_status taskback_open_group(taskback_writer *writer, taskback_task *task, const char *where)
{
    return taskback_event(writer, task, "open", where);
}

/* The task's newest open taskgroup is over: its children and all their descendants have ended. */
static inline taskback_status taskback_close_group(taskback_writer *writer, taskback_task *task, const char *where)
{
    return taskback_event(writer, task, "close", where);
}

/* The task tests a condition of its own. Nothing is judged by it. */
static inline taskback_status taskback_test(taskback_writer *writer, taskback_task *task, int is_met, const char *where)
{
    return taskback_event(writer, task, is_met ? "test yes" : "test no", where);
}

/* The task ends: its last event. Its children may still be under way. */
static inline taskback_status taskback_end(taskback_writer *writer, taskback_task *task, const char *where)
{
    return taskback_event(writer, task, "end", where);
}

/* The task ends by a fault of its own, as a bad address: its last event. */
static inline taskback_status taskback_fault(taskback_writer *writer, taskback_task *task, const char *where)
{
    return taskback_event(writer, task, "fault", where);
}

#endif
