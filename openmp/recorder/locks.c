/* Locks that aren't OpenMP's: of POSIX, which C++'s are too, and the guards of a function's static variables. */
#include <pthread.h>

#include "recorder.h"

int __real_pthread_mutex_lock(pthread_mutex_t *);
int __real_pthread_mutex_trylock(pthread_mutex_t *);
int __real_pthread_mutex_timedlock(pthread_mutex_t *, const struct timespec *);
int __real_pthread_mutex_unlock(pthread_mutex_t *);
int __real_pthread_spin_lock(pthread_spinlock_t *);
int __real_pthread_spin_trylock(pthread_spinlock_t *);
int __real_pthread_spin_unlock(pthread_spinlock_t *);
int __real_pthread_rwlock_rdlock(pthread_rwlock_t *);
int __real_pthread_rwlock_tryrdlock(pthread_rwlock_t *);
int __real_pthread_rwlock_wrlock(pthread_rwlock_t *);
int __real_pthread_rwlock_trywrlock(pthread_rwlock_t *);
int __real_pthread_rwlock_unlock(pthread_rwlock_t *);
int __real_pthread_once(pthread_once_t *, void (*)(void));
__attribute__((weak)) int __real___cxa_guard_acquire(uint64_t *);
__attribute__((weak)) void __real___cxa_guard_release(uint64_t *);

static int taken(int status, const volatile void *lock, uint64_t place) {
    if (status == 0)
        taskback_note_lock(LOCK, (const void *)lock, place);
    return status;
}

#define TAKES(name, type) \
    int __wrap_##name(type *lock) { return taken(__real_##name(lock), lock, PLACE); }
#define GIVES(name, type)                              \
    int __wrap_##name(type *lock) {                    \
        taskback_note_lock(UNLOCK, (const void *)lock, PLACE); \
        return __real_##name(lock);                    \
    }
TAKES(pthread_mutex_lock, pthread_mutex_t)
TAKES(pthread_mutex_trylock, pthread_mutex_t)
GIVES(pthread_mutex_unlock, pthread_mutex_t)
TAKES(pthread_spin_lock, pthread_spinlock_t)
TAKES(pthread_spin_trylock, pthread_spinlock_t)
GIVES(pthread_spin_unlock, pthread_spinlock_t)
TAKES(pthread_rwlock_wrlock, pthread_rwlock_t)
TAKES(pthread_rwlock_trywrlock, pthread_rwlock_t)

int __wrap_pthread_mutex_timedlock(pthread_mutex_t *lock, const struct timespec *end) {
    return taken(__real_pthread_mutex_timedlock(lock, end), lock, PLACE);
}

/* Not in each C library. */
__attribute__((weak)) int __real_pthread_mutex_clocklock(pthread_mutex_t *, clockid_t, const struct timespec *);
int __wrap_pthread_mutex_clocklock(pthread_mutex_t *lock, clockid_t clock, const struct timespec *end) {
    return taken(__real_pthread_mutex_clocklock(lock, clock, end), lock, PLACE);
}

int __real_pthread_rwlock_timedwrlock(pthread_rwlock_t *, const struct timespec *);
int __wrap_pthread_rwlock_timedwrlock(pthread_rwlock_t *lock, const struct timespec *end) {
    return taken(__real_pthread_rwlock_timedwrlock(lock, end), lock, PLACE);
}

__attribute__((weak)) int __real_pthread_rwlock_clockwrlock(pthread_rwlock_t *, clockid_t, const struct timespec *);
int __wrap_pthread_rwlock_clockwrlock(pthread_rwlock_t *lock, clockid_t clock, const struct timespec *end) {
    return taken(__real_pthread_rwlock_clockwrlock(lock, clock, end), lock, PLACE);
}

/* Readers of such a lock aren't kept apart from each other, but from who writes. */
static int taken_to_read(int status, const void *lock, uint64_t place) {
    if (status == 0) {
        struct own *own = own_state();
        begin_loud_part(own);
        taskback_note(own, LOCK, own->task, (uint64_t)lock, 0, place)->mark = SHARED;
    }
    return status;
}

int __wrap_pthread_rwlock_rdlock(pthread_rwlock_t *lock) {
    return taken_to_read(__real_pthread_rwlock_rdlock(lock), lock, PLACE);
}

int __wrap_pthread_rwlock_tryrdlock(pthread_rwlock_t *lock) {
    return taken_to_read(__real_pthread_rwlock_tryrdlock(lock), lock, PLACE);
}

int __real_pthread_rwlock_timedrdlock(pthread_rwlock_t *, const struct timespec *);
int __wrap_pthread_rwlock_timedrdlock(pthread_rwlock_t *lock, const struct timespec *end) {
    return taken_to_read(__real_pthread_rwlock_timedrdlock(lock, end), lock, PLACE);
}

__attribute__((weak)) int __real_pthread_rwlock_clockrdlock(pthread_rwlock_t *, clockid_t, const struct timespec *);
int __wrap_pthread_rwlock_clockrdlock(pthread_rwlock_t *lock, clockid_t clock, const struct timespec *end) {
    return taken_to_read(__real_pthread_rwlock_clockrdlock(lock, clock, end), lock, PLACE);
}

GIVES(pthread_rwlock_unlock, pthread_rwlock_t)

/* Who waits for a condition gives the lock away until then. */
#define WAITS(name, parameters, lock, ...)                         \
    __attribute__((weak)) int __real_##name parameters;            \
    int __wrap_##name parameters {                                 \
        taskback_note_lock(UNLOCK, (const void *)(lock), PLACE);   \
        int status = __real_##name(__VA_ARGS__);                   \
        taskback_note_lock(LOCK, (const void *)(lock), PLACE);     \
        return status;                                             \
    }
WAITS(pthread_cond_wait, (pthread_cond_t *where, pthread_mutex_t *lock), lock, where, lock)
WAITS(pthread_cond_timedwait, (pthread_cond_t *where, pthread_mutex_t *lock, const struct timespec *end), lock, where, lock, end)
WAITS(pthread_cond_clockwait, (pthread_cond_t *where, pthread_mutex_t *lock, clockid_t clock, const struct timespec *end), lock,
      where, lock, clock, end)

/* C++'s, within its library: a `unique_lock` begins with a pointer to its mutex, which is one of POSIX. */
__attribute__((weak)) void __real__ZNSt18condition_variable4waitERSt11unique_lockISt5mutexE(void *, void **);
void __wrap__ZNSt18condition_variable4waitERSt11unique_lockISt5mutexE(void *where, void **guard) {
    taskback_note_lock(UNLOCK, *guard, PLACE);
    __real__ZNSt18condition_variable4waitERSt11unique_lockISt5mutexE(where, guard);
    taskback_note_lock(LOCK, *guard, PLACE);
}

/* What `pthread_once` does once comes in front of what all that call it do then; that is written down before it lets
   others go on. */
struct once {
    pthread_once_t *lock;
    void (*function)(void);
    uint64_t place;
    int is_done;
};

static __thread struct once *once;

static void note_once(const struct once *now, enum kind kind, int mark) {
    struct own *own = own_state();
    begin_loud_part(own);
    taskback_note(own, kind, own->task, (uint64_t)now->lock, 0, now->place)->mark = (uint8_t)mark;
}

static void do_once(void) {
    struct once *now = once;
    now->function();
    now->is_done = 1;
    note_once(now, RELEASE, GUARD);
}

int __wrap_pthread_once(pthread_once_t *lock, void (*function)(void)) {
    struct once *before = once, now = {lock, function, PLACE, 0};
    once = &now;
    int status = __real_pthread_once(lock, do_once);
    once = before;
    if (!now.is_done)
        note_once(&now, ACQUIRE, 0);
    return status;
}

/* Who finds a static variable made comes after its making, whoever made it. */
int __wrap___cxa_guard_acquire(uint64_t *guard) {
    int makes = __real___cxa_guard_acquire(guard);
    struct own *own = own_state();
    begin_loud_part(own);
    if (!makes)
        taskback_note(own, ACQUIRE, own->task, (uint64_t)guard, 0, PLACE);
    return makes;
}

void __wrap___cxa_guard_release(uint64_t *guard) {
    struct own *own = own_state();
    begin_loud_part(own);
    taskback_note(own, RELEASE, own->task, (uint64_t)guard, 0, PLACE)->mark = GUARD;
    __real___cxa_guard_release(guard);
}
