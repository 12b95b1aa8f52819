"""Sessions for the tools that refuse memory, reads and writes, and what judges whether an answer to one is right."""
import os
import re
import subprocess
from collections.abc import Callable, Iterator

TOP = os.path.join(os.path.dirname(os.path.abspath(__file__)), '..')
DIVIDER = b'\n---\n'

# Whether an answer is right, by its status, output and standard error.
Judge = Callable[[int, bytes, bytes], bool]

# Eight tasks exclude each other and add up.
SUM = b'cells 1\nbody main 0\n' + b''.join(b'task add %d depend mutexinoutset 0\n' % k for k in range(1, 9)) + b'''end
body add 1
load r1 0
let r1 r1 + r0
store 0 r1
end'''

# Groups, an undeferred task, prints, and a child that waits for its own.
GROUPS = b'''cells 2
body main 0
taskgroup
task outer 3 depend inout 0 depend in 1
task outer 4 depend in 0
end
task inner 5 if 1 == 2
print 1
end
body outer 1
taskgroup
task inner r0
end
store 0 r0
taskwait
end
body inner 1
load r1 0
print r1
store 1 r0
end'''

VIEWS = ('tasks', 'task 0.1', 'ready', 'waits', 'deps 0.2', 'breaks', 'cells', 'out', 'hist', 'why 0.1#2', 'causes 0.1#2', 'who 0#2', 'races', 'edges')


def session_of(name: str) -> bytes:
    with open(os.path.join(TOP, name), 'rb') as opened:
        return opened.read()


def every_command() -> bytes:
    """A session with each command, each kind of refusal and a full journal's neighbourhood."""
    body = session_of('examples/exclusion.session').split(DIVIDER)[0]
    commands = ('step 0\nrun 12\ntasks\ntask 0.1\nready\nwaits\ndeps 0.1\ncells\nout\nhist\nwhy 0#3\nwho 0#1\ncauses 0#3\nraces\nedges\nundo 0#1\n'
                'break print\nbreaks\ngo 1 50\nclear 1\nroll 0#2\nrolltask 0.1\nrollcell 0\nrollprint\nrun 99\nout\nfly\n# note\nhist\n')
    return body + DIVIDER + commands.encode()


def views() -> Iterator[tuple[str, bytes]]:
    """Sessions that show one view each, in the midst of a run, by the names of what they show."""
    race = session_of('examples/race.session').split(DIVIDER)[0]
    for name, program, steps in (('sum', SUM, 13), ('groups', GROUPS, 14), ('race', race, 99)):
        for view in VIEWS:
            commands = 'break cell 0\nbreak print\nrun %d\n%s\n' % (steps, view)
            yield '%s of %s' % (view, name), program + DIVIDER + commands.encode()


def of_workers(count: int) -> bytes:
    """The sum by so many workers, half of it taken back and executed again."""
    return SUM + DIVIDER + b'go %d 1000\ncells\nrolltask 0.3\ngo %d 1000\ncells\n' % (count, count)


def replayed(text: bytes, out: bytes) -> tuple[bytes, bytes]:
    """A session that executes by `step`, in their order, the steps that the reply says workers executed; and what it has to answer.

    Where a `go` says it is done, no task can step: a `run` after its steps says so.
    """
    goes: list[list[bytes]] = []
    said: list[bytes] = []
    taken: list[bytes] = []
    removed = 0
    for line in out.splitlines(keepends=True):
        step, ran = re.match(rb'([0-9.]+)#\d+ ', line), re.match(rb'ran (\d+) done\n', line)
        if ran:
            goes.append(taken + [b'run 1'])
            line = b'ran 0 done\n' if int(ran.group(1)) == len(taken) else b'another count of steps'
            taken = []
        elif step and not removed:
            taken.append(b'step ' + step.group(1))
        else:
            rolled = re.match(rb'rolled (\d+)\n', line)
            removed = int(rolled.group(1)) if rolled else max(0, removed - 1)
        said.append(line)
    each = iter(goes + [taken])
    commands = text.partition(DIVIDER)[2].splitlines()
    lines = [line for command in commands for line in (next(each, []) if command.startswith(b'go ') else [command])]
    return text.partition(DIVIDER)[0] + DIVIDER + b'\n'.join(lines) + b'\n', b''.join(said)


def is_answer(whole: bytes, status: int, out: bytes, err: bytes) -> bool:
    """Whether the program gave the whole output, or a beginning that ends with a whole line and status 3."""
    if status == 0:
        return out == whole and err == b''
    return status == 3 and err == b'taskback: memory\n' and out[-1:] in (b'', b'\n') and whole.startswith(out)


def judge(program: str, text: bytes) -> Judge:
    """Judges whether an answer to the session of one worker is right."""
    whole = subprocess.run([program], input=text, capture_output=True, check=False, timeout=300).stdout
    return lambda status, out, err: is_answer(whole, status, out, err)


def judge_workers(program: str, text: bytes) -> Judge:
    """Judges whether an answer to the session of several workers is right: one worker can execute the same steps."""

    def is_right(status: int, out: bytes, err: bytes) -> bool:
        steps, said = replayed(text, out)
        whole = subprocess.run([program], input=steps, capture_output=True, check=False, timeout=300).stdout
        return is_answer(whole, status, said, err)

    return is_right


def built_library(folder: str) -> str:
    """The library that refuses, built there."""
    library = os.path.join(folder, 'refuse.so')
    subprocess.run(['cc', '-shared', '-fPIC', '-O1', '-o', library, os.path.join(TOP, 'tools/refuse.c'), '-ldl'], check=True)
    return library
