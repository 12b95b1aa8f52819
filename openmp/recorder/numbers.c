/* Functions of C's library that give a result by a pointer, and those that count on from a number of the library's own. They
   are weak: a program may have one of its own by such a name, which isn't led through here. */
#define _GNU_SOURCE
#include <math.h>
#include <stdlib.h>
#include <sys/time.h>
#include <time.h>

#include "recorder.h"

#define reads(address, size, place) taskback_touches(READ, address, size, place)
#define writes(address, size, place) taskback_touches(WRITE, address, size, place)

/* What it gives by a pointer is written after the call. */
#define GIVES(type, name, parameters, result, ...)     \
    __attribute__((weak)) type __real_##name parameters;                     \
    type __wrap_##name parameters {                    \
        type given = __real_##name(__VA_ARGS__);       \
        writes(result, sizeof *(result), PLACE);       \
        return given;                                  \
    }
GIVES(double, frexp, (double of, int *power), power, of, power)
GIVES(float, frexpf, (float of, int *power), power, of, power)
GIVES(double, modf, (double of, double *whole), whole, of, whole)
GIVES(float, modff, (float of, float *whole), whole, of, whole)
GIVES(double, remquo, (double of, double by, int *quotient), quotient, of, by, quotient)
GIVES(double, lgamma_r, (double of, int *sign), sign, of, sign)
GIVES(time_t, time, (time_t *now), now, now)
GIVES(int, clock_gettime, (clockid_t clock, struct timespec *now), now, clock, now)
GIVES(struct tm *, localtime_r, (const time_t *of, struct tm *parts), parts, of, parts)
GIVES(struct tm *, gmtime_r, (const time_t *of, struct tm *parts), parts, of, parts)

/* These give what the library has for all. */
#define GIVES_ITS_OWN(type, name, parameters, size, ...)    \
    __attribute__((weak)) type *__real_##name parameters;   \
    type *__wrap_##name parameters {                        \
        type *given = __real_##name(__VA_ARGS__);           \
        if (given)                                          \
            taskback_access(WRITE, (uint64_t)given, size, PLACE, 0); \
        return given;                                       \
    }
GIVES_ITS_OWN(struct tm, localtime, (const time_t *of), sizeof *given, of)
GIVES_ITS_OWN(struct tm, gmtime, (const time_t *of), sizeof *given, of)
GIVES_ITS_OWN(char, asctime, (const struct tm *of), __builtin_strlen(given) + 1, of)
GIVES_ITS_OWN(char, ctime, (const time_t *of), __builtin_strlen(given) + 1, of)

__attribute__((weak)) int __real_gettimeofday(struct timeval *, void *);
int __wrap_gettimeofday(struct timeval *now, void *zone) {
    int status = __real_gettimeofday(now, zone);
    writes(now, sizeof *now, PLACE);
    return status;
}

#define GIVES_TWO(name, type)                              \
    __attribute__((weak)) void __real_##name(type, type *, type *);              \
    void __wrap_##name(type of, type *sine, type *cosine) {\
        __real_##name(of, sine, cosine);                   \
        writes(sine, sizeof *sine, PLACE);                 \
        writes(cosine, sizeof *cosine, PLACE);             \
    }
GIVES_TWO(sincos, double)
GIVES_TWO(sincosf, float)

/* ---- random numbers */

/* The caller's number is read, and the next one left there. */
__attribute__((weak)) int __real_rand_r(unsigned *);
int __wrap_rand_r(unsigned *seed) {
    reads(seed, sizeof *seed, PLACE);
    int given = __real_rand_r(seed);
    writes(seed, sizeof *seed, PLACE);
    return given;
}

__attribute__((weak)) double __real_erand48(unsigned short[3]);
double __wrap_erand48(unsigned short seed[3]) {
    reads(seed, 3 * sizeof *seed, PLACE);
    double given = __real_erand48(seed);
    writes(seed, 3 * sizeof *seed, PLACE);
    return given;
}

/* The library's own number, behind a lock of the library's: who calls first gets another number than who calls next. */
static char library_number;

static void count_on(uint64_t place) {
    if (own_state()->is_alone)
        return;
    taskback_note_lock(LOCK, &library_number, place);
    reads(&library_number, 1, place);
    writes(&library_number, 1, place);
    taskback_note_lock(UNLOCK, &library_number, place);
}

#define COUNTS_ON(type, name, parameters, ...)     \
    __attribute__((weak)) type __real_##name parameters;                 \
    type __wrap_##name parameters {                \
        count_on(PLACE);                           \
        return __real_##name(__VA_ARGS__);         \
    }
COUNTS_ON(int, rand, (void))
COUNTS_ON(long, random, (void))
COUNTS_ON(double, drand48, (void))
COUNTS_ON(long, lrand48, (void))
COUNTS_ON(long, mrand48, (void))
COUNTS_ON(void, srand, (unsigned seed), seed)
COUNTS_ON(void, srandom, (unsigned seed), seed)
COUNTS_ON(void, srand48, (long seed), seed)
