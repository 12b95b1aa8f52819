/* Memory that the program takes, gives back and copies, by `ld --wrap`. */
#include <malloc.h>
#include <stdlib.h>
#include <string.h>
#include <sys/mman.h>

#include "recorder.h"

void *__real_malloc(size_t);
void *__real_calloc(size_t, size_t);
void *__real_realloc(void *, size_t);
void *__real_aligned_alloc(size_t, size_t);
int __real_posix_memalign(void **, size_t, size_t);
void *__real_memalign(size_t, size_t);
void *__real_valloc(size_t);
void *__real_reallocarray(void *, size_t, size_t);
void __real_free(void *);
void *__real_memcpy(void *, const void *, size_t);
void *__real_memmove(void *, const void *, size_t);
void *__real_memset(void *, int, size_t);

/* What the program has asked for may be less than what it is given. */
void *taskback_taken(void *block, uint64_t place) {
    if (block)
        taskback_new_memory(own_state(), (uint64_t)block, malloc_usable_size(block), place);
    return block;
}

/* Giving back counts as a write of all of it: nobody may use it at the same time. */
void taskback_given_back(void *block, uint64_t place) {
    if (block)
        taskback_access(WRITE, (uint64_t)block, malloc_usable_size(block), place, FREED);
}

void *__wrap_malloc(size_t size) { return taskback_taken(__real_malloc(size), PLACE); }
void *__wrap_calloc(size_t count, size_t size) { return taskback_taken(__real_calloc(count, size), PLACE); }
void *__wrap_aligned_alloc(size_t align, size_t size) { return taskback_taken(__real_aligned_alloc(align, size), PLACE); }

int __wrap_posix_memalign(void **block, size_t align, size_t size) {
    int status = __real_posix_memalign(block, align, size);
    if (status == 0)
        taskback_taken(*block, PLACE);
    return status;
}

void *__wrap_memalign(size_t align, size_t size) { return taskback_taken(__real_memalign(align, size), PLACE); }
void *__wrap_valloc(size_t size) { return taskback_taken(__real_valloc(size), PLACE); }

void *__wrap_reallocarray(void *block, size_t count, size_t size) {
    taskback_given_back(block, PLACE);
    return taskback_taken(__real_reallocarray(block, count, size), PLACE);
}

void *__wrap_realloc(void *block, size_t size) {
    taskback_given_back(block, PLACE);
    return taskback_taken(__real_realloc(block, size), PLACE);
}

void __wrap_free(void *block) {
    taskback_given_back(block, PLACE);
    __real_free(block);
}

/* ---- OpenMP's allocators: by its functions, and by the clause `allocate`. What the runtime gives for them isn't malloc's,
   so the judge looks up how large it was. */

static void *taken_of(void *block, size_t size, uint64_t place) {
    if (block)
        taskback_new_memory(own_state(), (uint64_t)block, size, place);
    return block;
}

static void given_back_whole(void *block, uint64_t place) {
    if (block)
        taskback_access(WRITE, (uint64_t)block, 0, place, FREED);
}

/* Which memory it is stands in a number of the size of a pointer. */
typedef uintptr_t kind_of_memory;

#define ALLOCATES(name, parameters, size, ...)                                             \
    __attribute__((weak)) void *__real_##name parameters;                                  \
    void *__wrap_##name parameters { return taken_of(__real_##name(__VA_ARGS__), size, PLACE); }
ALLOCATES(omp_alloc, (size_t size, kind_of_memory kind), size, size, kind)
ALLOCATES(omp_calloc, (size_t count, size_t size, kind_of_memory kind), count * size, count, size, kind)
ALLOCATES(omp_aligned_alloc, (size_t align, size_t size, kind_of_memory kind), size, align, size, kind)
ALLOCATES(omp_aligned_calloc, (size_t align, size_t count, size_t size, kind_of_memory kind), count * size, align, count,
          size, kind)
ALLOCATES(__kmpc_alloc, (int32_t thread, size_t size, kind_of_memory kind), size, thread, size, kind)
ALLOCATES(__kmpc_aligned_alloc, (int32_t thread, size_t align, size_t size, kind_of_memory kind), size, thread, align, size, kind)

__attribute__((weak)) void *__real_omp_realloc(void *, size_t, kind_of_memory, kind_of_memory);
void *__wrap_omp_realloc(void *block, size_t size, kind_of_memory kind, kind_of_memory before) {
    given_back_whole(block, PLACE);
    return taken_of(__real_omp_realloc(block, size, kind, before), size, PLACE);
}

__attribute__((weak)) void __real_omp_free(void *, kind_of_memory);
void __wrap_omp_free(void *block, kind_of_memory kind) {
    given_back_whole(block, PLACE);
    __real_omp_free(block, kind);
}

__attribute__((weak)) void __real___kmpc_free(int32_t, void *, kind_of_memory);
void __wrap___kmpc_free(int32_t thread, void *block, kind_of_memory kind) {
    given_back_whole(block, PLACE);
    __real___kmpc_free(thread, block, kind);
}

/* Memory of the system, whole pages of it. */
#define MAPS(name)                                                                                              \
    void *__real_##name(void *, size_t, int, int, int, off_t);                                                 \
    void *__wrap_##name(void *wanted, size_t size, int rights, int flags, int file, off_t offset) {             \
        void *block = __real_##name(wanted, size, rights, flags, file, offset);                                \
        if (block != MAP_FAILED)                                                                               \
            taskback_new_memory(own_state(), (uint64_t)block, size, PLACE);                                    \
        return block;                                                                                          \
    }
MAPS(mmap)
MAPS(mmap64)

int __real_munmap(void *, size_t);
int __wrap_munmap(void *block, size_t size) {
    taskback_access(WRITE, (uint64_t)block, size, PLACE, FREED);
    taskback_settle(own_state());
    return __real_munmap(block, size);
}

static void copied(void *to, const void *from, size_t size, uint64_t place) {
    if (size == 0)
        return;
    if (from)
        taskback_access(READ, (uint64_t)from, size, place, 0);
    taskback_access(WRITE, (uint64_t)to, size, place, 0);
}

void *__wrap_memcpy(void *to, const void *from, size_t size) {
    copied(to, from, size, PLACE);
    return __real_memcpy(to, from, size);
}

void *__wrap_memmove(void *to, const void *from, size_t size) {
    copied(to, from, size, PLACE);
    return __real_memmove(to, from, size);
}

void *__wrap_memset(void *to, int byte, size_t size) {
    copied(to, 0, size, PLACE);
    return __real_memset(to, byte, size);
}

void *__tsan_memcpy(void *to, const void *from, size_t size) {
    copied(to, from, size, PLACE);
    return __real_memcpy(to, from, size);
}

void *__tsan_memmove(void *to, const void *from, size_t size) {
    copied(to, from, size, PLACE);
    return __real_memmove(to, from, size);
}

void *__tsan_memset(void *to, int byte, size_t size) {
    copied(to, 0, size, PLACE);
    return __real_memset(to, byte, size);
}

/* By the pass: nobody else sees what is copied or filled. */
void taskback_copy(void *to, const void *from, size_t size) { __real_memmove(to, from, size); }
void taskback_fill(void *to, uint8_t byte, size_t size) { __real_memset(to, byte, size); }
