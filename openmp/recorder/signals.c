/* Semaphores and barriers of POSIX: who has waited comes after who was there, in this run. A condition is no order: who waits
   for it may wake by itself, and goes by what it reads under its lock. */
#include <pthread.h>
#include <semaphore.h>

#include "recorder.h"

static void note_signal(enum kind kind, const void *where, uint64_t place) {
    struct own *own = own_state();
    begin_loud_part(own);
    taskback_note(own, kind, own->task, (uint64_t)where, 0, place)->mark = kind == RELEASE ? KEEPS : 0;
}

static int waited(int status, const void *where, uint64_t place) {
    if (status == 0)
        note_signal(ACQUIRE, where, place);
    return status;
}

int __real_sem_post(sem_t *);
int __wrap_sem_post(sem_t *where) {
    note_signal(RELEASE, where, PLACE);
    return __real_sem_post(where);
}

#define WAITS(name, parameters, ...)               \
    int __real_##name parameters;                  \
    int __wrap_##name parameters { return waited(__real_##name(__VA_ARGS__), where, PLACE); }
WAITS(sem_wait, (sem_t *where), where)
WAITS(sem_trywait, (sem_t *where), where)
WAITS(sem_timedwait, (sem_t *where, const struct timespec *end), where, end)

int __real_pthread_barrier_wait(pthread_barrier_t *);
int __wrap_pthread_barrier_wait(pthread_barrier_t *barrier) {
    note_signal(RELEASE, barrier, PLACE);
    int status = __real_pthread_barrier_wait(barrier);
    note_signal(ACQUIRE, barrier, PLACE);
    return status;
}
