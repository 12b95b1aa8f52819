/* Functions of C's library that read and write the program's memory: what they touch is written down in front of them,
   or after them where only they know how much it is. */
#define _GNU_SOURCE
#include <stdio.h>
#include <stdlib.h>
#include <string.h>

#include "recorder.h"

#define reads(address, size, place) taskback_touches(READ, address, size, place)
#define writes(address, size, place) taskback_touches(WRITE, address, size, place)

void taskback_touches(enum kind kind, const void *address, size_t size, uint64_t place) {
    if (address && size)
        taskback_access(kind, (uint64_t)address, size, place, LIBRARY);
}

/* What the recorder itself calls isn't led through it. */
size_t __real_strlen(const char *);
static size_t whole(const char *text) { return text ? __real_strlen(text) + 1 : 0; }

/* ---- strings */

#define COPIES(name, written)                              \
    char *__real_##name(char *, const char *);             \
    char *__wrap_##name(char *to, const char *from) {      \
        reads(from, whole(from), PLACE);                   \
        writes(written, whole(from), PLACE);               \
        return __real_##name(to, from);                    \
    }
COPIES(strcpy, to)
COPIES(stpcpy, to)
COPIES(strcat, to + __real_strlen(to))

#define COPIES_MOST(name, written, count)                          \
    char *__real_##name(char *, const char *, size_t);             \
    char *__wrap_##name(char *to, const char *from, size_t most) { \
        reads(from, strnlen(from, most), PLACE);                   \
        writes(written, count, PLACE);                             \
        return __real_##name(to, from, most);                      \
    }
COPIES_MOST(strncpy, to, most)
COPIES_MOST(strncat, to + __real_strlen(to), strnlen(from, most) + 1)

#define READS_ONE(type, name)                              \
    type __real_##name(const char *);                      \
    type __wrap_##name(const char *text) {                 \
        reads(text, whole(text), PLACE);                   \
        return __real_##name(text);                        \
    }
#define NUMBER_OF(type, name)                                          \
    type __real_##name(const char *, char **, int);                    \
    type __wrap_##name(const char *text, char **end, int base) {       \
        reads(text, whole(text), PLACE);                               \
        type given = __real_##name(text, end, base);                   \
        writes(end, sizeof *end, PLACE);                               \
        return given;                                                  \
    }
#define SEEKS(name)                                        \
    char *__real_##name(const char *, int);                \
    char *__wrap_##name(const char *text, int letter) {    \
        reads(text, whole(text), PLACE);                   \
        return __real_##name(text, letter);                \
    }
#define COMPARES(type, name)                                       \
    type __real_##name(const char *, const char *);                \
    type __wrap_##name(const char *one, const char *other) {       \
        reads(one, whole(one), PLACE);                             \
        reads(other, whole(other), PLACE);                         \
        return __real_##name(one, other);                          \
    }
READS_ONE(size_t, strlen)
READS_ONE(int, atoi)
READS_ONE(long, atol)
READS_ONE(double, atof)
NUMBER_OF(long, strtol)
NUMBER_OF(unsigned long, strtoul)
NUMBER_OF(long long, strtoll)
NUMBER_OF(unsigned long long, strtoull)
SEEKS(strchr)
SEEKS(strrchr)
COMPARES(int, strcmp)
COMPARES(int, strcasecmp)
COMPARES(char *, strstr)
COMPARES(char *, strpbrk)
COMPARES(size_t, strspn)
COMPARES(size_t, strcspn)

/* A piece of the text is found, and the sign behind it overwritten. Where the rest begins the library keeps, for all. */
static char rest_of_tokens;

char *__real_strtok(char *, const char *);
char *__wrap_strtok(char *text, const char *signs) {
    if (!text)
        taskback_access(READ, (uint64_t)&rest_of_tokens, 1, PLACE, 0);
    taskback_access(WRITE, (uint64_t)&rest_of_tokens, 1, PLACE, 0);
    reads(text, whole(text), PLACE);
    char *found = __real_strtok(text, signs);
    if (found) {
        reads(found, whole(found), PLACE);
        writes(found + __real_strlen(found), 1, PLACE);
    }
    return found;
}

char *__real_strtok_r(char *, const char *, char **);
char *__wrap_strtok_r(char *text, const char *signs, char **rest) {
    char *left = text ? text : *rest;
    reads(left, whole(left), PLACE);
    char *found = __real_strtok_r(text, signs, rest);
    if (found)
        writes(found + __real_strlen(found), 1, PLACE);
    writes(rest, sizeof *rest, PLACE);
    return found;
}

void *__real_memchr(const void *, int, size_t);
void *__wrap_memchr(const void *block, int byte, size_t size) {
    char *found = __real_memchr(block, byte, size);
    reads(block, found ? (size_t)(found - (const char *)block) + 1 : size, PLACE);
    return found;
}

double __real_strtod(const char *, char **);
double __wrap_strtod(const char *text, char **end) {
    reads(text, whole(text), PLACE);
    double given = __real_strtod(text, end);
    writes(end, sizeof *end, PLACE);
    return given;
}

int __real_strncmp(const char *, const char *, size_t);
int __wrap_strncmp(const char *one, const char *other, size_t most) {
    reads(one, strnlen(one, most), PLACE);
    reads(other, strnlen(other, most), PLACE);
    return __real_strncmp(one, other, most);
}

int __real_memcmp(const void *, const void *, size_t);
int __wrap_memcmp(const void *one, const void *other, size_t size) {
    reads(one, size, PLACE);
    reads(other, size, PLACE);
    return __real_memcmp(one, other, size);
}

char *__real_strdup(const char *);
char *__wrap_strdup(const char *text) {
    reads(text, whole(text), PLACE);
    return taskback_taken(__real_strdup(text), PLACE);
}

char *__real_strndup(const char *, size_t);
char *__wrap_strndup(const char *text, size_t most) {
    reads(text, strnlen(text, most), PLACE);
    return taskback_taken(__real_strndup(text, most), PLACE);
}

/* ---- arrays */

typedef int compare_function(const void *, const void *);
void __real_qsort(void *, size_t, size_t, compare_function *);
void *__real_bsearch(const void *, const void *, size_t, size_t, compare_function *);
void *__real_malloc(size_t);
void __real_free(void *);
void *__real_memcpy(void *, const void *, size_t);

struct sort {
    size_t size;
    compare_function *compare;
};

/* As the library sorts; here, so that it is known which memory is the sort's own. */
static void merge_sort(char *array, char *room, size_t count, const struct sort *sort) {
    if (count < 2)
        return;
    size_t size = sort->size;
    char *left = array, *middle = array + count / 2 * size, *right = middle, *end = array + count * size, *to = room;
    merge_sort(array, room, count / 2, sort);
    merge_sort(middle, room, count - count / 2, sort);
    while (left < middle && right < end) {
        char **from = sort->compare(left, right) <= 0 ? &left : &right;
        __real_memcpy(to, *from, size);
        *from += size;
        to += size;
    }
    __real_memcpy(to, left, (size_t)(middle - left));
    __real_memcpy(array, room, (size_t)(to - room) + (size_t)(middle - left));
}

/* What the function that compares does to other memory than the array is the program's own. */
void __wrap_qsort(void *array, size_t count, size_t size, compare_function *compare) {
    reads(array, count * size, PLACE);
    writes(array, count * size, PLACE);
    void *room = count * size ? __real_malloc(count * size) : 0;
    if (!room) {
        __real_qsort(array, count, size, compare);
        return;
    }
    struct own *own = own_state();
    struct sorted before = own->sorted;
    taskback_settle(own);
    begin_part(own);
    own->sorted = (struct sorted){(uint64_t)array, (uint64_t)room, count * size};
    merge_sort(array, room, count, &(struct sort){size, compare});
    taskback_settle(own);
    own->sorted = before;
    __real_free(room);
}

void *__wrap_bsearch(const void *key, const void *array, size_t count, size_t size, compare_function *compare) {
    reads(array, count * size, PLACE);
    return __real_bsearch(key, array, count, size, compare);
}

/* ---- input and output */

int __real_puts(const char *);
int __wrap_puts(const char *text) {
    reads(text, whole(text), PLACE);
    return __real_puts(text);
}

int __real_fputs(const char *, FILE *);
int __wrap_fputs(const char *text, FILE *file) {
    reads(text, whole(text), PLACE);
    return __real_fputs(text, file);
}

char *__real_fgets(char *, int, FILE *);
char *__wrap_fgets(char *to, int most, FILE *file) {
    char *got = __real_fgets(to, most, file);
    writes(got, whole(got), PLACE);
    return got;
}

size_t __real_fread(void *, size_t, size_t, FILE *);
size_t __wrap_fread(void *to, size_t size, size_t count, FILE *file) {
    size_t got = __real_fread(to, size, count, file);
    writes(to, got * size, PLACE);
    return got;
}

size_t __real_fwrite(const void *, size_t, size_t, FILE *);
size_t __wrap_fwrite(const void *from, size_t size, size_t count, FILE *file) {
    reads(from, size * count, PLACE);
    return __real_fwrite(from, size, count, file);
}
