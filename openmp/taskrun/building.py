"""Compiles a program with its instrumentation, links the recorder, and runs it."""

import contextlib
import fcntl
import hashlib
import os
import shutil
import signal
import subprocess
import sys
import tempfile
from collections.abc import Iterator

from .directives import words_for_loops

RECORDER = os.path.join(os.path.dirname(os.path.dirname(os.path.abspath(__file__))), "recorder")
JUDGE = os.path.join(os.path.dirname(RECORDER), "judge")
PARTS = ["buffers.c", "packing.c", "accesses.c", "functions.c", "atomics.c", "tool.c", "wraps.c", "reductions.c", "loops.c", "lanes.c", "locks.c",
         "memory.c", "signals.c", "strings.c", "formats.c", "numbers.c", "operators.c", "stubs.c"]
CXX_ENDINGS = (".cc", ".cpp", ".cxx", ".C", ".c++", ".cp", ".CPP")
SOURCE_ENDINGS = (".c",) + CXX_ENDINGS
OBJECT_ENDINGS = (".o", ".a", ".so")
# Functions and atomic operations by the thread instrumentation's calls; loads and stores by a pass of our own, or, where
# LLVM's headers aren't there, by the coverage's calls, which are made for variables too that nobody else can know of. No
# runtime of either is linked. Frames keep their pointers, by which the recorder sees where a task's part of the stack
# begins. With its assertions the C++ library has its strings made in the program, where they are seen.
COMPILING = ["-g", "-fopenmp", "-fsanitize=thread", "-fno-omit-frame-pointer", "-fno-optimize-sibling-calls",
             "-mllvm", "-tsan-instrument-memory-accesses=0", "-U_FORTIFY_SOURCE", "-D_GLIBCXX_ASSERTIONS"]
COVERAGE = ["-fsanitize-coverage=func,trace-loads,trace-stores"]
LOOP_KINDS = ("4", "4u", "8", "8u")
RUNTIME_CALLS = ["omp_task_alloc", "omp_task", "omp_task_with_deps", "omp_task_begin_if0", "omp_wait_deps",
                 "omp_taskwait_deps_51", "taskloop", "task_allow_completion_event", "taskred_init",
                 "taskred_modifier_init", "task_reduction_modifier_fini", "task_reduction_get_th_data", "end_taskgroup",
                 "reduce", "reduce_nowait", "end_reduce", "end_reduce_nowait", "for_static_fini", "single", "end_single",
                 "master", "end_master", "masked", "end_masked", "ordered", "end_ordered", "doacross_init",
                 "doacross_post", "doacross_wait", "push_num_threads", "push_num_teams", "push_num_teams_51",
                 "serialized_parallel", "flush", "alloc", "aligned_alloc", "free",
                 *(f"{name}_{kind}" for name in ("for_static_init", "dispatch_init", "dispatch_next")
                   for kind in LOOP_KINDS)]
OTHER_CALLS = ["omp_get_thread_num", "omp_get_team_num", "omp_set_num_threads", "omp_alloc", "omp_calloc",
               "omp_aligned_alloc", "omp_aligned_calloc", "omp_realloc", "omp_free",
               "malloc", "calloc", "realloc", "reallocarray", "aligned_alloc", "posix_memalign", "memalign", "valloc",
               "free", "mmap", "mmap64", "munmap", "memcpy", "memmove", "memset", "strcpy", "stpcpy", "strcat", "strncpy",
               "strncat", "strlen", "atoi", "atol", "atof", "strtol", "strtoul", "strtoll", "strtoull", "strtod", "strchr",
               "strrchr", "strcmp", "strcasecmp", "strstr",
               "strncmp", "memcmp", "strdup", "strndup", "qsort", "bsearch", "printf", "fprintf", "sprintf", "snprintf",
               "puts", "fputs", "fgets", "fread", "fwrite", "strpbrk", "strspn", "strcspn", "strtok", "strtok_r", "memchr",
               "asprintf", "vprintf", "vfprintf", "vsprintf", "vsnprintf", "sscanf", "scanf", "fscanf", "__isoc99_sscanf",
               "__isoc99_scanf", "__isoc99_fscanf", "getline",
               "pthread_mutex_lock", "pthread_mutex_trylock", "pthread_mutex_timedlock", "pthread_mutex_unlock",
               "pthread_spin_lock", "pthread_spin_trylock", "pthread_spin_unlock", "pthread_rwlock_rdlock",
               "pthread_rwlock_tryrdlock", "pthread_rwlock_wrlock", "pthread_rwlock_trywrlock", "pthread_rwlock_unlock",
               "sem_post", "sem_wait", "sem_trywait", "sem_timedwait", "pthread_barrier_wait",
               "pthread_mutex_clocklock", "pthread_rwlock_timedwrlock", "pthread_rwlock_clockwrlock",
               "pthread_rwlock_timedrdlock", "pthread_rwlock_clockrdlock", "pthread_cond_wait", "pthread_cond_timedwait",
               "pthread_cond_clockwait", "_ZNSt18condition_variable4waitERSt11unique_lockISt5mutexE",
               "pthread_once", "__cxa_guard_acquire", "__cxa_guard_release"]
# A program may have one of its own by such a name.
NUMBER_CALLS = ["frexp", "frexpf", "modf", "modff", "remquo", "lgamma_r", "time", "clock_gettime", "localtime_r", "gmtime_r",
                "localtime", "gmtime", "asctime", "ctime",
                "gettimeofday", "sincos", "sincosf", "rand_r", "erand48", "rand", "random", "drand48", "lrand48", "mrand48",
                "srand", "srandom", "srand48"]
OPERATORS = ["_Znwm", "_Znam", "_ZnwmRKSt9nothrow_t", "_ZnamRKSt9nothrow_t", "_ZnwmSt11align_val_t",
             "_ZnamSt11align_val_t", "_ZdlPv", "_ZdaPv", "_ZdlPvm", "_ZdaPvm", "_ZdlPvRKSt9nothrow_t",
             "_ZdaPvRKSt9nothrow_t", "_ZdlPvSt11align_val_t", "_ZdaPvSt11align_val_t", "_ZdlPvmSt11align_val_t",
             "_ZdaPvmSt11align_val_t", "__cxa_allocate_exception"]


class CannotBuild(Exception):
    """There is no such compiler, or it isn't clang."""


def clang() -> str | None:
    """The compiler's path, or None where there is none."""
    named = os.environ.get("TASKBACK_CLANG")
    return shutil.which(named) if named else shutil.which("clang-14") or shutil.which("clang")


def driver_of(compiler: str, is_cxx: bool) -> str:
    """The command that compiles C++ where that is wanted: beside the one that compiles C, by its own name."""
    if not is_cxx:
        return compiler
    folder, name = os.path.split(compiler)
    if "clang++" in name:
        return compiler
    return os.path.join(folder, name.replace("clang", "clang++", 1))


def has_runtime() -> bool:
    """Whether clang and its OpenMP runtime are there: whether a program with a directive can be linked."""
    compiler = clang()
    if not compiler:
        return False
    with tempfile.TemporaryDirectory() as folder:
        source = os.path.join(folder, "probe.c")
        with open(source, "w", encoding="utf-8") as file:
            file.write("#include <omp.h>\n#include <omp-tools.h>\n"
                       "int main(void) { return omp_get_max_threads() < 0; }\n")
        done = subprocess.run([compiler, "-fopenmp", source, "-o", os.path.join(folder, "probe")],
                              stdout=subprocess.DEVNULL, stderr=subprocess.DEVNULL, check=False)
    return done.returncode == 0


def need_clang() -> str:
    """The compiler's path; CannotBuild where there is none, or it is another one."""
    compiler = clang()
    if not compiler:
        raise CannotBuild("no clang; TASKBACK_CLANG names one")
    told = subprocess.run([compiler, "--version"], capture_output=True, text=True, check=False).stdout
    if "clang version" not in told:
        first = told.splitlines()[0] if told else compiler
        raise CannotBuild(f"{compiler} is {first}: the recorder needs clang and its runtime libomp; gcc's runtime libgomp "
                          "has no OMPT, by which the recorder sees tasks")
    return compiler


def cache_folder() -> str:
    """Where what is compiled at first use is kept: beside the recorder, or where the user keeps such, if nobody may
    write there."""
    beside = os.path.dirname(RECORDER)
    if os.access(beside, os.W_OK):
        return os.path.join(beside, ".cache")
    return os.path.join(os.environ.get("XDG_CACHE_HOME") or os.path.expanduser("~/.cache"), "taskback")


def is_newer(made: str, *sources: str) -> bool:
    """Whether the file is there and newer than all of these."""
    return os.path.exists(made) and os.path.getmtime(made) > max(os.path.getmtime(source) for source in sources)


@contextlib.contextmanager
def alone_at(made: str) -> Iterator[None]:
    """While one process makes this file, others wait."""
    with open(made + ".lock", "w", encoding="ascii") as file:
        fcntl.flock(file, fcntl.LOCK_EX)
        yield


def compile_whole(command: list[str], made: str, told: int | None = None) -> None:
    """Runs the command with ` -o FILE`, and puts the file in its place when it is whole; what it says goes to `told`."""
    handle, part = tempfile.mkstemp(dir=os.path.dirname(made), suffix=os.path.splitext(made)[1])
    os.close(handle)
    try:
        subprocess.run([*command, "-o", part], check=True, stderr=told)
        os.replace(part, made)
    finally:
        if os.path.exists(part):
            os.remove(part)


def folder_for(compiler: str) -> str:
    """The part of the cache that belongs to this compiler."""
    real = os.path.realpath(compiler)
    name = f"{os.path.basename(compiler)}-{hashlib.sha1(real.encode()).hexdigest()[:8]}"
    folder = os.path.join(cache_folder(), name)
    os.makedirs(folder, exist_ok=True)
    return folder


def recorder_objects(compiler: str, names: list[str]) -> list[str]:
    """The recorder's parts, compiled where they aren't or are older than their text."""
    folder = folder_for(compiler)
    headers = [os.path.join(RECORDER, name) for name in ("recorder.h", "event.h", "packing.h", "writing.h", "touches.h")]
    objects = []
    for name in names:
        source = os.path.join(RECORDER, name)
        made = os.path.join(folder, name[:-2] + ".o")
        objects.append(made)
        if not is_newer(made, source, *headers):
            compile_whole([compiler, "-O2", "-fPIE", "-fno-builtin", "-fno-omit-frame-pointer",
                           "-Wall", "-Wextra", "-Wno-frame-address", "-c", source], made)
    return objects


def judge() -> str:
    """The program that judges traces, compiled by this clang where it isn't or is older than its text."""
    compiler = need_clang()
    sources = [os.path.join(JUDGE, name) for name in sorted(os.listdir(JUDGE)) if name.endswith((".cc", ".h"))]
    made = os.path.join(folder_for(compiler), "judge")
    parts = [os.path.join(RECORDER, "event.h"), os.path.join(RECORDER, "packing.h"), *sources]
    if is_newer(made, *parts):
        return made
    with alone_at(made):
        if not is_newer(made, *parts):
            print(f"the judge is compiled by {compiler}, once; it takes half a minute", file=sys.stderr, flush=True)
            texts = [source for source in sources if source.endswith(".cc")]
            compile_whole([driver_of(compiler, True), "-std=c++17", "-O2", "-Wall", "-Wextra", *texts], made)
    return made


def pass_plugin(compiler: str) -> str | None:
    """The pass that puts calls in front of loads and stores, compiled where it isn't or is older than its text; None where
    LLVM's headers aren't there (llvm-14-dev), or TASKBACK_PLUGIN is 0."""
    source = os.path.join(RECORDER, "instrument.cc")
    made = os.path.join(folder_for(compiler), "instrument.so")
    if os.environ.get("TASKBACK_PLUGIN") == "0":
        return None
    sources = [source, *(os.path.join(RECORDER, name) for name in ("known.h", "stretches.h"))]
    if is_newer(made, *sources):
        return made
    told = subprocess.run([compiler, "-print-resource-dir"], capture_output=True, text=True, check=False).stdout.strip()
    root = os.path.join(told, "..", "..", "..")
    config = os.path.join(root, "bin", "llvm-config")
    if not os.path.exists(config) or not os.path.isdir(os.path.join(root, "include", "llvm")):
        return None
    options = subprocess.run([config, "--cxxflags"], capture_output=True, text=True, check=False).stdout.split()
    with alone_at(made):
        try:
            if not is_newer(made, *sources):
                compile_whole([driver_of(compiler, True), *options, "-O2", "-fPIC", "-shared", source], made, subprocess.DEVNULL)
        except subprocess.CalledProcessError:
            return None
    return made


def instrumenting(compiler: str) -> list[str]:
    """The words by which clang puts the recorder's calls into a program."""
    plugin = pass_plugin(compiler)
    return COMPILING + ([f"-fpass-plugin={plugin}"] if plugin else COVERAGE)


def tell_tools() -> int:
    """Writes the paths of the compilers of C and C++ and of the judge, for scripts; the exit status."""
    try:
        compiler = need_clang()
    except CannotBuild as fault:
        print(f"record: {fault}", file=sys.stderr)
        return 64
    print(compiler, driver_of(compiler, True), judge(), sep="\n")
    return 0


def compile_options(words: list[str]) -> list[str]:
    """The words that aren't files, and don't speak of what is linked."""
    options, skip = [], False
    for word in words:
        if skip or word == "-o":
            skip = not skip
        elif word.startswith("-") and not word.startswith(("-l", "-L", "-Wl,")) and word not in ("-shared", "-static"):
            options.append(word)
        elif options and options[-1] in ("-I", "-D", "-U", "-include", "-isystem", "-x", "-MF", "-MT", "-MQ"):
            options.append(word)
    return options


def defined_in(words: list[str]) -> set[str]:
    """The functions that the object files and archives among these define."""
    objects = [word for word in words if word.endswith((".o", ".a")) and os.path.exists(word)]
    if not objects:
        return set()
    listed = subprocess.run(["nm", "--defined-only", *objects], capture_output=True, text=True, check=False).stdout
    return {line.split()[-1] for line in listed.splitlines() if " T " in line}


def wraps(words: list[str]) -> list[str]:
    """The linker's words by which the calls of what these link are led through the recorder."""
    own = defined_in(words)
    names = ["__kmpc_" + name for name in RUNTIME_CALLS] + OTHER_CALLS + OPERATORS
    names += [name for name in NUMBER_CALLS if name not in own]
    return [f"-Wl,--wrap={name}" for name in names]


def unseen_objects(words: list[str]) -> list[str]:
    """The object files and archives among these that have code and none of the instrumentation's calls."""
    found = []
    for word in words:
        if not word.endswith(OBJECT_ENDINGS) or not os.path.exists(word):
            continue
        listed = subprocess.run(["nm", word], capture_output=True, text=True, check=False).stdout
        if " T " in listed and "__tsan_func_entry" not in listed and "__sanitizer_cov_" not in listed:
            found.append(os.path.basename(word))
    return found


def list_of_unseen(compiler: str, names: list[str], folder: str) -> list[str]:
    """An object that names them, or nothing."""
    if not names:
        return []
    source, made = os.path.join(folder, "unseen.c"), os.path.join(folder, "unseen.o")
    text = "".join(letter if letter.isprintable() and letter not in '"\\?' else "_" for letter in " ".join(names))
    with open(source, "w", encoding="utf-8") as file:
        file.write(f'const char taskback_unseen_objects[] = "{text[:900]}";\n')
    subprocess.run([compiler, "-c", source, "-o", made], check=True)
    return [made]


def is_in_cxx(words: list[str], sources: list[str]) -> bool:
    """Whether C++ is linked: by a source's name, or by what an object calls."""
    if any(word.endswith(CXX_ENDINGS) for word in sources):
        return True
    objects = [word for word in words if word.endswith((".o", ".a")) and os.path.exists(word)]
    if not objects:
        return False
    listed = subprocess.run(["nm", *objects], capture_output=True, text=True, check=False).stdout
    return " U __gxx_personality_v0" in listed or " U _Zn" in listed or " U _ZSt" in listed or " U _ZNSt" in listed


def compile_program(words: list[str], is_cxx: bool = False) -> int:
    """As clang with these words; the exit status."""
    try:
        compiler = need_clang()
    except CannotBuild as fault:
        print(f"record: {fault}", file=sys.stderr)
        return 64
    inputs = inputs_of(words)
    sources = [word for word in inputs if word.endswith(SOURCE_ENDINGS)]
    is_cxx = is_cxx or is_in_cxx(inputs, sources)
    driver = driver_of(compiler, is_cxx)
    options = compile_options(words)
    with tempfile.TemporaryDirectory() as folder:
        loops = words_for_loops(driver, sources, options, folder)
        if {"-c", "-S", "-E", "-M", "-MM", "-fsyntax-only"} & set(words) or not inputs:
            return subprocess.run([driver, *instrumenting(compiler), *loops, *words], check=False).returncode
        linking = list(words)
        for number, source in enumerate(sources):
            made = os.path.join(folder, f"{number}.o")
            one = driver if source.endswith(CXX_ENDINGS) or is_cxx else compiler
            status = subprocess.run([one, *instrumenting(compiler), *options, *loops, "-c", source, "-o", made],
                                    check=False).returncode
            if status != 0:
                return status
            replace_input(linking, source, made)
        return link_program(compiler, driver, linking, words, folder)


def replace_input(words: list[str], source: str, made: str) -> None:
    """Puts the object in the source's place, which isn't behind `-o`."""
    for at, word in enumerate(words):
        if word == source and (at == 0 or words[at - 1] != "-o"):
            words[at] = made
            return


def inputs_of(words: list[str]) -> list[str]:
    """The words that name what is compiled or linked."""
    return [word for before, word in zip(["", *words], words)
            if before != "-o" and not word.startswith("-") and word.endswith(SOURCE_ENDINGS + OBJECT_ENDINGS)]


def link_program(compiler: str, driver: str, linking: list[str], words: list[str], folder: str) -> int:
    """Links these; a shared library has its calls led through the recorder that the program has."""
    if "-shared" in words:
        return subprocess.run([driver, "-fopenmp", *linking, *wraps(linking)], check=False).returncode
    parts = recorder_objects(compiler, PARTS) + list_of_unseen(compiler, unseen_objects(words), folder)
    return subprocess.run([driver, "-fopenmp", "-rdynamic", *linking, *parts, *wraps(linking), *runtime_of(compiler),
                           "-Wl,--no-as-needed", "-lm"],
                          check=False).returncode


def runtime_of(compiler: str) -> list[str]:
    """The linker's words by which a program runs with the runtime of the clang that has compiled it, where there are
    several."""
    told = subprocess.run([compiler, "-print-file-name=libomp.so"], capture_output=True, text=True, check=False).stdout.strip()
    return [f"-Wl,--enable-new-dtags,-rpath,{os.path.dirname(os.path.realpath(told))}"] if os.path.isabs(told) else []


def run_program(trace: str, words: list[str]) -> int:
    """Runs the program; its exit status, or 64 where it left no trace. An interrupt goes to the program."""
    try:
        with open(trace, "wb"):
            pass
        os.remove(trace)
    except OSError as fault:
        print(f"record: can't write {trace}: {fault.strerror}", file=sys.stderr)
        return 64
    environment = {**os.environ, "TASKBACK_TRACE": os.path.abspath(trace), "OMP_TOOL": "enabled"}
    before = signal.signal(signal.SIGINT, signal.SIG_IGN)
    try:
        child = subprocess.Popen(words, env=environment, restore_signals=True,
                                 preexec_fn=lambda: signal.signal(signal.SIGINT, before))
        status = child.wait()
    except OSError as fault:
        print(f"record: can't run {words[0]}: {fault.strerror}", file=sys.stderr)
        return 64
    finally:
        signal.signal(signal.SIGINT, before)
    if not os.path.exists(trace):
        print(f"record: {words[0]} left no trace (status {status}): was it compiled by `record cc`?", file=sys.stderr)
        return 64
    return status if status >= 0 else 128 - status
