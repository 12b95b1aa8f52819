#!/usr/bin/env python3
"""What the replies of a deep recursion cost: tasks that each generate the next and wait for it, down to so many levels.

    bench/levels.py [--program P] [LEVELS..]

One session runs down to the deepest task, shows all that a view can show of it, and rolls the first task back. Prints of each
reply its bytes and how long it took until its last byte was read, and at the end the memory of the program.
"""
import argparse
import os
import resource
import subprocess
import threading
import time
from collections.abc import Iterator
from io import BufferedReader
from typing import IO

TOP = os.path.dirname(os.path.dirname(os.path.abspath(__file__)))
TEXT = 'cells 0\nbody main 0\ntask t\nend\nbody t 0\ntask t\ntaskwait\nend\n---\n'
# A last line of each reply can't be told apart by a reader that keeps nothing, so each is followed by a line without a name.
COMMANDS = ['tasks', 'hist', 'ready', 'waits', 'races', 'why 0.1.1#1', 'causes 0.1.1#1', 'who 0.1#2', 'rolltask 0.1']
AFTER = b'cells 0\n'


def replies(stream: BufferedReader, count: int) -> Iterator[tuple[int, float]]:
    """The bytes of each reply, and when its last one was read."""
    size, rest = 0, b''
    for _ in range(count):
        while AFTER not in rest:
            block = stream.read1(1 << 20)
            if not block:
                return
            # What is looked for may lie across two blocks.
            size += len(rest) - len(rest[-len(AFTER):])
            rest = rest[-len(AFTER):] + block
        before, _, rest = rest.partition(AFTER)
        yield size + len(before), time.monotonic()
        size = 0


def measure(program: str, levels: int) -> None:
    commands = ['run %d' % (2 * levels + 1), *COMMANDS]
    session = TEXT + ''.join('%s\ncells\n' % command for command in commands)
    began = time.monotonic()
    child = subprocess.Popen([program, '--limit', '1000000'], stdin=subprocess.PIPE, stdout=subprocess.PIPE)
    given, told = child.stdin, child.stdout
    assert given is not None and isinstance(told, BufferedReader)

    def feed(commands: IO[bytes]) -> None:
        commands.write(session.encode())
        commands.close()
    feeder = threading.Thread(target=feed, args=(given,))
    feeder.start()
    print('%d levels' % levels)
    for command, (size, now) in zip(commands, replies(told, len(commands))):
        print('  %-18s %12.3f MB %8.2f s' % (command, size / 1e6, now - began), flush=True)
        began = now
    feeder.join()
    _, status, used = os.wait4(child.pid, 0)
    print('  status %d, %d MB' % (os.waitstatus_to_exitcode(status), used.ru_maxrss // 1024))


def main() -> None:
    args = argparse.ArgumentParser(description=__doc__, formatter_class=argparse.RawDescriptionHelpFormatter)
    args.add_argument('--program', default=os.path.join(TOP, 'crates/taskback/out/taskback'))
    args.add_argument('levels', nargs='*', type=int, default=[2000, 4000, 8000, 16384])
    given = args.parse_args()
    # A call a level would want more.
    resource.setrlimit(resource.RLIMIT_STACK, (256 * 1024, resource.getrlimit(resource.RLIMIT_STACK)[1]))
    for levels in given.levels:
        measure(os.path.abspath(given.program), levels)


if __name__ == '__main__':
    main()
