"""The header by which run texts are written: each call and what it refuses, in C and C++, by one thread and by several."""

import os
import subprocess
import tempfile
import unittest

import support
from taskrun.merging import merged

WARNINGS = ("-Wall", "-Wextra", "-Wpedantic", "-Wconversion", "-Wsign-conversion", "-Wshadow", "-Werror")
COMPILERS = {"c": ("cc", "-std=c99", "-x", "c"), "c++": ("c++", "-std=c++11", "-x", "c++")}

EVENTS = """#include "taskback_run.h"
int main(int count, char **words)
{
    taskback_clock clock = {0};
    taskback_writer writer;
    taskback_task root, child, grandchild;
    const long long arguments[] = {-5, 7};
    const taskback_item items[] = {{TASKBACK_INOUT, 1}, {TASKBACK_OUT, TASKBACK_ALL}};
    taskback_spawned with = {"add", arguments, 2, items, 2, 0};
    (void)count;
    if (taskback_open(&writer, words[1], words[2] ? &clock : NULL, 3) != TASKBACK_OK)
        return 1;
    taskback_root(&root);
    taskback_first(&writer, 1, -4);
    taskback_start(&writer, &root, "a.c:1");
    taskback_let(&writer, &root, 9, NULL);
    taskback_spawn(&writer, &root, &child, &with, "two\\nlines");
    with.argument_count = with.item_count = 0;
    with.is_undeferred = 1;
    taskback_open_group(&writer, &root, NULL);
    taskback_start(&writer, &child, NULL);
    taskback_load(&writer, &child, 1, -4, NULL);
    taskback_store(&writer, &child, 2, 9223372036854775807LL, NULL);
    taskback_spawn(&writer, &child, &grandchild, &with, NULL);
    taskback_start(&writer, &grandchild, NULL);
    taskback_fault(&writer, &grandchild, NULL);
    taskback_print(&writer, &child, -1, NULL);
    taskback_end(&writer, &child, NULL);
    taskback_close_group(&writer, &root, NULL);
    taskback_test(&writer, &root, 1, NULL);
    taskback_test(&writer, &root, 0, NULL);
    taskback_wait(&writer, &root, items, 2, NULL);
    taskback_wait(&writer, &root, NULL, 0, NULL);
    taskback_end(&writer, &root, TASKBACK_HERE);
    return taskback_close(&writer);
}
"""
TEXT = """cells 3
cell 1 -4
0#1 start  # a.c:1
0#2 let r0 9
0#3 spawn 0.1 add -5 7 depend inout 1 depend out all  # two
0#4 open
0.1#1 start
0.1#2 load r0 1 -4
0.1#3 store 2 9223372036854775807
0.1#4 spawn 0.1.1 add undeferred
0.1.1#1 start
0.1.1#2 fault
0.1#5 print -1
0.1#6 end
0#5 close
0#6 test yes
0#7 test no
0#8 wait depend inout 1 depend out all
0#9 wait
0#10 end  # program.c:34
"""

# Each call, of which the last one is refused, with how the run closes and what is in the file.
REFUSED = {
    "taskback_load(&writer, &root, 3, 0, NULL)": 2, "taskback_load(&writer, &root, -1, 0, NULL)": 2,
    "taskback_store(&writer, &root, 3, 0, NULL)": 2, "taskback_store(&writer, &root, TASKBACK_ALL, 0, NULL)": 2,
    "taskback_first(&writer, -1, 0)": 2, "taskback_wait(&writer, &root, excluding, 1, NULL)": 2,
    "taskback_wait(&writer, &root, many, 65, NULL)": 2, "taskback_wait(&writer, &root, many, -1, NULL)": 2,
    "taskback_wait(&writer, &root, in_all, 1, NULL)": 2, "taskback_wait(&writer, &root, beyond, 1, NULL)": 2,
    'spawn(&writer, &root, "9x", 0, many, 0)': 2, 'spawn(&writer, &root, "", 0, many, 0)': 2,
    'spawn(&writer, &root, "a23456789012345678901234567890123", 0, many, 0)': 2, 'spawn(&writer, &root, "a", 17, many, 0)': 2,
    'spawn(&writer, &root, "a", -1, many, 0)': 2, 'spawn(&writer, &root, "a", 0, many, 65)': 2,
    "deep(&writer, &root)": 3, "many_children(&writer, &root)": 3,
}
CALLS = """#define TASKBACK_NAME_SIZE 16
#include "taskback_run.h"
static const long long arguments[17];
static const taskback_item many[65], excluding[] = {{TASKBACK_MUTEXINOUTSET, 0}}, in_all[] = {{TASKBACK_IN, TASKBACK_ALL}};
static const taskback_item beyond[] = {{TASKBACK_IN, 3}};
static taskback_status spawn(taskback_writer *writer, taskback_task *task, const char *body, int count, const taskback_item *items, int item_count)
{
    taskback_spawned with = {body, arguments, count, items, item_count, 0};
    taskback_task child = *task, before = *task;
    taskback_status status = taskback_spawn(writer, task, &child, &with, NULL);
    if (status != TASKBACK_OK && (memcmp(&before, task, sizeof before) || memcmp(&before, &child, sizeof before)))
        return (taskback_status)9;
    return status;
}
static taskback_status deep(taskback_writer *writer, taskback_task *task)
{
    strcpy(task->name, "0.1.1.1.1.1.10");
    return spawn(writer, task, "a", 0, many, 0);
}
static taskback_status many_children(taskback_writer *writer, taskback_task *task)
{
    task->children = 4294967295U;
    return spawn(writer, task, "a", 0, many, 0);
}
int main(int count, char **words)
{
    taskback_clock clock = {0};
    taskback_writer writer;
    taskback_task root;
    (void)count, (void)deep, (void)many_children, (void)excluding, (void)in_all, (void)beyond;
    if (taskback_open(&writer, words[1], &clock, 3) != TASKBACK_OK)
        return 8;
    taskback_root(&root);
    if (taskback_start(&writer, &root, NULL) != TASKBACK_OK || spawn(&writer, &root, "a", 16, many, 64) != TASKBACK_OK)
        return 7;
    taskback_status status = CALL;
    if (taskback_end(&writer, &root, NULL) != status || root.steps != 2 || clock.next != 3)
        return 6;
    return taskback_close(&writer) == status ? (int)status : 5;
}
"""

SHARED = """#include <pthread.h>
#include "taskback_run.h"
#define THREADS 8
#define STORES 5000
static taskback_clock clock_of_all;
static taskback_writer writers[THREADS];
static taskback_task tasks[THREADS];
static void *run(void *given)
{
    long at = (long)given;
    taskback_writer *writer = writers[0].clock ? writers + at : writers;
    taskback_start(writer, tasks + at, NULL);
    for (int count = 0; count < STORES; count++)
        taskback_store(writer, tasks + at, at, count, "a comment that is longer than the event");
    taskback_end(writer, tasks + at, NULL);
    return NULL;
}
int main(int count, char **words)
{
    taskback_spawned with = {"run", NULL, 0, NULL, 0, 0};
    taskback_task root;
    pthread_t threads[THREADS];
    int failed = 0;
    for (int at = 0; at < count - 1; at++)
        failed |= taskback_open(writers + at, words[at + 1], count > 2 ? &clock_of_all : NULL, THREADS) != TASKBACK_OK;
    taskback_root(&root);
    taskback_start(writers, &root, NULL);
    for (int at = 0; at < THREADS; at++)
        taskback_spawn(writers, &root, tasks + at, &with, NULL);
    for (long at = 0; at < THREADS; at++)
        pthread_create(threads + at, NULL, run, (void *)at);
    for (int at = 0; at < THREADS; at++)
        pthread_join(threads[at], NULL);
    taskback_wait(writers, &root, NULL, 0, NULL);
    taskback_end(writers, &root, NULL);
    for (int at = 0; at < count - 1; at++)
        failed |= taskback_close(writers + at) != TASKBACK_OK;
    return failed;
}
"""


class Written(unittest.TestCase):
    def setUp(self):
        folder = tempfile.TemporaryDirectory()
        self.addCleanup(folder.cleanup)
        self.folder = folder.name

    def path(self, name):
        return os.path.join(self.folder, name)

    def build(self, text, language="c", *words):
        """The path of the program, built without a warning."""
        with open(self.path("program.c"), "w", encoding="ascii") as file:
            file.write(text)
        command = [*COMPILERS[language], *WARNINGS, *words, f"-I{support.FOLDER}", "program.c", "-o", "program", "-pthread"]
        done = subprocess.run(command, cwd=self.folder, capture_output=True, text=True, check=False)
        self.assertEqual((done.returncode, done.stderr), (0, ""))
        return self.path("program")

    def run_program(self, program, *words):
        return subprocess.run([program, *words], cwd=self.folder, check=False).returncode

    def text(self, name):
        with open(self.path(name), encoding="ascii") as file:
            return file.read()


class Calls(Written):
    def test_each_event_in_each_language(self):
        for language in COMPILERS:
            self.assertEqual(self.run_program(self.build(EVENTS, language), "run"), 0)
            self.assertEqual(self.text("run"), TEXT, language)

    def test_stamps_count_the_events_of_a_part(self):
        self.assertEqual(self.run_program(self.build(EVENTS), "part", "stamps"), 0)
        lines = TEXT.splitlines(keepends=True)
        self.assertEqual(self.text("part"), "".join(lines[:2] + [f"{at} {line}" for at, line in enumerate(lines[2:])]))
        self.assertEqual(b"".join(merged([self.path("part")])).decode(), TEXT)

    def test_what_is_refused_leaves_task_and_child_and_a_lost_stamp(self):
        for call, status in REFUSED.items():
            with self.subTest(call=call):
                program = self.build(CALLS.replace("CALL", call))
                self.assertEqual(self.run_program(program, "run"), status)
                self.assertEqual([line.split()[:3] for line in self.text("run").splitlines()[1:]], [["0", "0#1", "start"], ["1", "0#2", "spawn"]])

    def test_files_that_can_not_be_written(self):
        program = self.build(EVENTS)
        self.assertEqual(self.run_program(program, "/no/file"), 1)
        self.assertEqual(self.run_program(program, "/dev/full"), 1)

    def test_counts_of_cells(self):
        program = self.build("#include <stdlib.h>\n" + EVENTS.replace("NULL, 3)", "NULL, atoll(words[3]))"))
        for count, status in (("-1", 1), ("134217729", 1), ("134217728", 0)):
            self.assertEqual(self.run_program(program, "run", "stamps", count), status)


class Threads(Written):
    def check_text(self, text):
        """All events are there, each task's in their order, whole."""
        tasks = {}
        for line in text.splitlines()[1:]:
            name, what = line.split(maxsplit=1)
            task, step = name.split("#")
            steps = tasks.setdefault(task, [])
            self.assertEqual(int(step), len(steps) + 1)
            steps.append(what)
        self.assertEqual(len(tasks), 9)
        self.assertEqual(tasks.pop("0")[-2:], ["wait", "end"])
        for task, steps in tasks.items():
            cell = int(task[2:]) - 1
            stores = [f"store {cell} {count}  # a comment that is longer than the event" for count in range(5000)]
            self.assertEqual(steps, ["start", *stores, "end"])

    def test_one_writer_for_all(self):
        self.assertEqual(self.run_program(self.build(SHARED), "run"), 0)
        self.check_text(self.text("run"))

    def test_a_part_for_each(self):
        names = [f"run.{at}" for at in range(8)]
        self.assertEqual(self.run_program(self.build(SHARED), *names), 0)
        self.check_text(b"".join(merged([self.path(name) for name in names])).decode())


if __name__ == "__main__":
    unittest.main()
