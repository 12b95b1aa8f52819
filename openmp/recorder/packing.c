/* Packs the events of a piece: by eight parts at once where the processor can. */
#include "writing.h"

#ifdef __x86_64__
#include <immintrin.h>

/* For each choice of parts their numbers, a byte each. */
static uint64_t numbers[1 << PARTS];
static int is_wide;

__attribute__((constructor(101))) static void find_numbers(void) {
    for (uint32_t follow = 0; follow < 1 << PARTS; follow++)
        for (uint32_t left = follow, at = 0; left; left &= left - 1, at += 8)
            numbers[follow] |= (uint64_t)__builtin_ctz(left) << at;
    __builtin_cpu_init();
    is_wide = __builtin_cpu_supports("avx2") && __builtin_cpu_supports("popcnt");
}
#endif

/* Whether the stamp is one more than that of the event before. */
static inline uint32_t is_step(const struct event *event) { return event->stamp - event[-1].stamp == 1; }

static inline unsigned char *put_control(unsigned char *to, uint32_t family, uint32_t follow, uint32_t step) {
    uint16_t control = (uint16_t)(family | follow << PARTS_SHIFT | step << STEP_SHIFT);
    __builtin_memcpy(to, &control, sizeof control);
    return to + CONTROL;
}

#ifdef __x86_64__
__attribute__((target("avx2,popcnt"))) static unsigned char *pack_wide(const struct event **last, const struct event *event,
                                                                       const struct event *end, unsigned char *to) {
    const __m256i one = _mm256_setr_epi32(0, 0, 0, 0, 1, 0, 0, 0);
    for (; event != end; event++) {
        const uint32_t family = family_of(event);
        const __m256i prior = _mm256_loadu_si256((const __m256i *)last[family]);
        const __m256i before = _mm256_loadu_si256((const __m256i *)(event - 1)), now = _mm256_loadu_si256((const __m256i *)event);
        const __m256i same = _mm256_cmpeq_epi32(now, _mm256_blend_epi32(prior, before, 3 << STAMP_PART));
        const __m256i next = _mm256_cmpeq_epi32(now, _mm256_add_epi32(before, one));
        const uint32_t step = (uint32_t)_mm256_movemask_ps(_mm256_castsi256_ps(next)) & 1 << STAMP_PART;
        const uint32_t left_out = (uint32_t)_mm256_movemask_ps(_mm256_castsi256_ps(same)) | step;
        const uint32_t follow = ~left_out & 0xff;
        const __m256i order = _mm256_cvtepu8_epi32(_mm_loadl_epi64((const __m128i *)&numbers[follow]));
        last[family] = event;
        to = put_control(to, family, follow, step >> STAMP_PART);
        _mm256_storeu_si256((__m256i *)to, _mm256_permutevar8x32_epi32(now, order));
        to += PART_SIZE * __builtin_popcount(follow);
    }
    return to;
}
#endif

static unsigned char *pack_each(const struct event **last, const struct event *event, const struct event *end, unsigned char *to) {
    for (; event != end; event++) {
        const uint32_t family = family_of(event), step = is_step(event);
        uint32_t now[PARTS], prior[PARTS], follow = 0;
        unsigned char *at = to + CONTROL;
        __builtin_memcpy(now, event, sizeof now);
        __builtin_memcpy(prior, last[family], sizeof prior);
        __builtin_memcpy(&prior[STAMP_PART], &event[-1].stamp, 2 * PART_SIZE);
        prior[STAMP_PART] += step;
        for (uint32_t i = 0; i < PARTS; i++) {
            const uint32_t differs = now[i] != prior[i];
            __builtin_memcpy(at, &now[i], PART_SIZE);
            at += PART_SIZE * differs;
            follow |= differs << i;
        }
        last[family] = event;
        put_control(to, family, follow, step);
        to = at;
    }
    return to;
}

unsigned char *taskback_pack(const struct event *first, const struct event *end, unsigned char *to) {
    const struct event *last[FAMILIES];
    for (int i = 0; i < FAMILIES; i++)
        ((const struct event *volatile *)last)[i] = first;
#ifdef __x86_64__
    if (is_wide)
        return pack_wide(last, first + 1, end, to);
#endif
    return pack_each(last, first + 1, end, to);
}
