/* Memory by the operators of C++; linked where a program is in C++. Their names are those that C++ gives them. */
#include "recorder.h"

#define TAKES(name, parameters, ...)    \
    __attribute__((weak)) void *__real_##name parameters; \
    void *__wrap_##name parameters { return taskback_taken(__real_##name(__VA_ARGS__), PLACE); }
TAKES(_Znwm, (size_t size), size)
TAKES(_Znam, (size_t size), size)
TAKES(_ZnwmRKSt9nothrow_t, (size_t size, const void *mark), size, mark)
TAKES(_ZnamRKSt9nothrow_t, (size_t size, const void *mark), size, mark)
TAKES(_ZnwmSt11align_val_t, (size_t size, size_t align), size, align)
TAKES(_ZnamSt11align_val_t, (size_t size, size_t align), size, align)

/* An exception that is thrown, which the library has from malloc or from a store of its own. */
__attribute__((weak)) void *__real___cxa_allocate_exception(size_t);
void *__wrap___cxa_allocate_exception(size_t size) {
    void *block = __real___cxa_allocate_exception(size);
    if (block)
        taskback_new_memory(own_state(), (uint64_t)block, size, PLACE);
    return block;
}

#define GIVES_BACK(name, parameters, ...)       \
    __attribute__((weak)) void __real_##name parameters; \
    void __wrap_##name parameters {             \
        taskback_given_back(block, PLACE);      \
        __real_##name(__VA_ARGS__);             \
    }
GIVES_BACK(_ZdlPv, (void *block), block)
GIVES_BACK(_ZdaPv, (void *block), block)
GIVES_BACK(_ZdlPvm, (void *block, size_t size), block, size)
GIVES_BACK(_ZdaPvm, (void *block, size_t size), block, size)
GIVES_BACK(_ZdlPvRKSt9nothrow_t, (void *block, const void *mark), block, mark)
GIVES_BACK(_ZdaPvRKSt9nothrow_t, (void *block, const void *mark), block, mark)
GIVES_BACK(_ZdlPvSt11align_val_t, (void *block, size_t align), block, align)
GIVES_BACK(_ZdaPvSt11align_val_t, (void *block, size_t align), block, align)
GIVES_BACK(_ZdlPvmSt11align_val_t, (void *block, size_t size, size_t align), block, size, align)
GIVES_BACK(_ZdaPvmSt11align_val_t, (void *block, size_t size, size_t align), block, size, align)
