/* A full piece in a fraction of its bytes, since most of what a long trace costs is that it is written: of each event only
   what differs from others. The recorder packs, the judge and openmp/taskrun/trace.py unpack.

   An event is eight parts of four bytes. Two bytes say which follow: the lowest seven bits are the family (its kind, and one
   bit of its mark, by which a WRITE that frees is none of the others), the next eight have a bit for each part that follows,
   and the last one says that the stamp is one more than that of the event before. What doesn't follow is, of stamp and task,
   as of the event before, else as of the last event of the family. Before there is one the piece's first event stands for it,
   with the value 0. */
#ifndef TASKBACK_PACKING_H
#define TASKBACK_PACKING_H

#include "event.h"

enum { FAMILIES = 128, FREED_SHIFT = 5, CONTROL = 2, PARTS = 8, PART_SIZE = 4, LONGEST_EVENT = CONTROL + PARTS * PART_SIZE,
       END_MARK = 8, STAMP_PART = 4, PARTS_SHIFT = 7, STEP_SHIFT = 15 };

static inline uint32_t family_of(const struct event *event) { return event->kind | (event->mark & FREED) << FREED_SHIFT; }

static inline uint64_t word_at(const void *at) {
    uint64_t word;
    __builtin_memcpy(&word, at, sizeof word);
    return word;
}

static inline void put_word(void *at, uint64_t word) { __builtin_memcpy(at, &word, sizeof word); }

/* Where the next event begins, or 0 where this one doesn't end in front of `end`, behind which eight bytes may be read. */
static inline const unsigned char *unpack_event(const struct event **last, struct event *event, const unsigned char *from,
                                                const unsigned char *end) {
    const uint32_t control = (uint32_t)word_at(from) & 0xffff, family = control % FAMILIES;
    uint32_t follow = control >> PARTS_SHIFT & 0xff, parts[PARTS];
    from += CONTROL;
    if ((int64_t)(end - from) < (int64_t)PART_SIZE * __builtin_popcount(follow))
        return 0;
    __builtin_memcpy(parts, last[family], sizeof parts);
    __builtin_memcpy(&parts[STAMP_PART], &event[-1].stamp, 2 * PART_SIZE);
    parts[STAMP_PART] += control >> STEP_SHIFT;
    for (; follow; follow &= follow - 1, from += PART_SIZE)
        __builtin_memcpy(&parts[__builtin_ctz(follow)], from, PART_SIZE);
    __builtin_memcpy(event, parts, sizeof parts);
    last[family] = event;
    return from;
}
#endif
