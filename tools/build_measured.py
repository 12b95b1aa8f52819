#!/usr/bin/env python3
"""Builds a program without proof, for measurements: as fast as the proved one, within a few percent.

    tools/build_measured.py [--crate NAME] TARGET

NAME is the program's crate: `taskback` where none is named, or `taskcheck`.

`rt try` compiles a program with a check at each step that a proof would spare it, fills what is
declared before it is written, and follows no hints on inlining. Here the checks and the fillings are
taken out of the compiler's input, the functions of this repository and of the kit get the hints that
are in their sources, and the whole is compiled as a proved program is. What this builds stops at
no fault, so it is to be measured and not to be trusted.
"""
import glob
import os
import re
import subprocess
import sys
import tempfile
from collections.abc import Iterable, Iterator, Sequence

import build_unproved as unproved

HINTS = {'inline(always)': 'alwaysinline', 'inline(never)': 'noinline', 'inline': 'inlinehint', 'cold': 'cold'}
HINT = re.compile(r'#\[(%s)\]' % '|'.join(re.escape(name) for name in HINTS))
NAME = re.compile(r'\bfn (\w+)')
DEFINED = re.compile(r'^define .*? @"?([^"(]+)"?\(')


# The hints of a function, by the path of its module and its name.
Hints = dict[tuple[str, str], set[str]]


def hints_of(folders: Sequence[str]) -> Hints:
    """The hints at functions of these sources, by the path of the module and the function's name."""
    found: Hints = {}
    for folder in folders:
        for file in glob.glob(os.path.join(folder, '*', 'src', '**', '*.rt'), recursive=True):
            crate, _, module = os.path.relpath(file, folder)[:-3].split(os.sep, 2)
            path = '::'.join([crate] + [part for part in module.split(os.sep) if part not in ('lib', 'mod')])
            with open(file, encoding='utf-8') as source:
                text = source.read()
            for hint in HINT.finditer(text):
                name = NAME.search(text, hint.end())
                if name:
                    found.setdefault((path, name.group(1)), set()).add(HINTS[hint.group(1)])
    return found


def hints_at(found: Hints, symbol: str) -> Iterable[str]:
    """The hints of a function of the program. A method may be in another file than its type."""
    parts = re.sub(r'::<#?[^>]*>', '', symbol).split('::')
    for end in range(len(parts) - 1, 0, -1):
        hints = found.get(('::'.join(parts[:end]), parts[-1]))
        if hints:
            return hints
    elsewhere = [hints for (path, name), hints in found.items() if name == parts[-1] and path.split('::')[0] == parts[0]]
    is_method = len(parts) > 2 and parts[-2][:1].isupper() and parts[0].startswith('tb_')
    return elsewhere[0] if is_method and len(elsewhere) == 1 else ()


def is_dropped(line: str) -> bool:
    """Whether the line calls a check, fills what isn't written yet, or stops at a fault."""
    checks = line.startswith('  call') and 'rattle-llvm-checks::' in line and 'Unreachable' not in line
    return checks or ('memset' in line and 'i8 -86' in line) or line == '  call void @llvm.trap()\n'


def rewritten(lines: Iterable[str], found: Hints) -> Iterator[str]:
    for line in lines:
        if is_dropped(line):
            continue
        if line.startswith('define'):
            symbol = DEFINED.match(line)
            hints = set(hints_at(found, symbol.group(1))) if symbol else set()
            if 'rattle-llvm-checks::' in line:
                hints.add('alwaysinline')
            line = re.sub(r'( #\d+)? \{$', lambda end: ' '.join(['', *sorted(hints)]) * bool(hints) + end.group(0), line.rstrip('\n')) + '\n'
        elif line.startswith('attributes #'):
            line = line.replace(' sanitize_address', '').replace('"frame-pointer"="all"', '"frame-pointer"="none"')
            line = line.replace('"probe-stack"="inline-asm"', '')
        yield line


def main(words: list[str]) -> int:
    crate = unproved.crate_of(words)
    if len(words) != 1 or words[0].startswith('-'):
        print(__doc__, file=sys.stderr)
        return 2
    found = hints_of([os.path.join(unproved.TOP, 'crates'), os.path.join(unproved.kit(), 'rattle')])
    clang = os.path.join(unproved.kit(), 'toolchain', 'bin', 'clang')
    with tempfile.TemporaryDirectory(prefix='taskback-') as folder:
        log, text = os.path.join(folder, 'log'), os.path.join(folder, 'measured.ll')
        try:
            with open(log, 'wb') as said:
                module = unproved.taken_module(folder, said, crate)
            subprocess.run([clang, '-x', 'ir', module, '-S', '-emit-llvm', '-Xclang', '-disable-llvm-passes', '-o', text + '.checked'], check=True)
            with open(text + '.checked', encoding='utf-8') as old, open(text, 'w', encoding='utf-8') as new:
                new.writelines(rewritten(old, found))
            unproved.compiled(text, os.path.abspath(words[0]), '-O3')
        except (OSError, subprocess.CalledProcessError) as fault:
            with open(log, errors='replace') as output:
                print(output.read() + 'build_measured: %s' % fault, file=sys.stderr)
            return 1
    return 0


if __name__ == '__main__':
    sys.exit(main(sys.argv[1:]))
