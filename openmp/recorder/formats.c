/* Functions of C's library that go by a format: the strings that it prints are read, and what it scans is written. */
#define _GNU_SOURCE
#include <stdarg.h>
#include <stdio.h>
#include <stdlib.h>
#include <string.h>

#include "recorder.h"

#define reads(address, size, place) taskback_touches(READ, address, size, place)
#define writes(address, size, place) taskback_touches(WRITE, address, size, place)

/* What the recorder itself calls isn't led through it. */
size_t __real_strlen(const char *);
char *__real_strchr(const char *, int);
int __real_atoi(const char *);
static size_t whole(const char *text) { return text ? __real_strlen(text) + 1 : 0; }

/* Takes the arguments of one conversion; gives the string that it prints. */
static const char *argument(char conversion, int longs, va_list *arguments) {
    switch (conversion) {
    case 's': return longs ? (va_arg(*arguments, void *), (const char *)0) : va_arg(*arguments, const char *);
    case 'p': case 'n': va_arg(*arguments, void *); return 0;
    case 'a': case 'A': case 'e': case 'E': case 'f': case 'F': case 'g': case 'G':
        if (longs == 'L')
            va_arg(*arguments, long double);
        else
            va_arg(*arguments, double);
        return 0;
    case '%': case 'm': return 0;
    default:
        if (longs)
            va_arg(*arguments, long);
        else
            va_arg(*arguments, int);
        return 0;
    }
}

static void reads_of(const char *format, va_list *arguments, uint64_t place) {
    while ((format = __real_strchr(format, '%')) != 0) {
        int longs = 0, most = -1;
        for (format++; *format && __real_strchr("-+ #0123456789.'*hljztLq", *format); format++) {
            if (*format == '*') {
                int given = va_arg(*arguments, int);
                most = format[-1] == '.' ? given : most;
            } else if (*format == '.') {
                most = __real_atoi(format + 1);
            } else if (__real_strchr("ljztLq", *format)) {
                longs = *format;
            }
        }
        if (!*format)
            return;
        const char *text = argument(*format++, longs, arguments);
        if (text)
            reads(text, most >= 0 ? strnlen(text, (size_t)most) : whole(text), place);
    }
}

/* ---- printing */

/* The text is in a block that the library has taken. */
static void given_text(char **to, int length, uint64_t place) {
    if (length < 0)
        return;
    taskback_taken(*to, place);
    writes(*to, (size_t)length + 1, place);
    writes(to, sizeof *to, place);
}

#define FORMATTED(type, name, parameters, arguments, real, after)   \
    type __wrap_##name parameters {                                 \
        va_list list, again;                                        \
        va_start(list, format);                                     \
        va_copy(again, list);                                       \
        reads_of(format, &again, PLACE);                            \
        va_end(again);                                              \
        type done = real arguments;                                 \
        va_end(list);                                               \
        after;                                                      \
        return done;                                                \
    }
FORMATTED(int, printf, (const char *format, ...), (format, list), vprintf, )
FORMATTED(int, fprintf, (FILE *file, const char *format, ...), (file, format, list), vfprintf, )
FORMATTED(int, sprintf, (char *to, const char *format, ...), (to, format, list), vsprintf,
          writes(to, done < 0 ? 0 : (size_t)done + 1, PLACE))
FORMATTED(int, snprintf, (char *to, size_t most, const char *format, ...), (to, most, format, list), vsnprintf,
          writes(to, done < 0 ? 0 : (size_t)done < most ? (size_t)done + 1 : most, PLACE))

FORMATTED(int, asprintf, (char **to, const char *format, ...), (to, format, list), vasprintf, given_text(to, done, PLACE))

#define FORMATTED_LIST(name, parameters, arguments, after)          \
    int __real_##name parameters;                                   \
    int __wrap_##name parameters {                                  \
        va_list again;                                              \
        va_copy(again, list);                                       \
        reads_of(format, &again, PLACE);                            \
        va_end(again);                                              \
        int done = __real_##name arguments;                         \
        after;                                                      \
        return done;                                                \
    }
FORMATTED_LIST(vprintf, (const char *format, va_list list), (format, list), )
FORMATTED_LIST(vfprintf, (FILE *file, const char *format, va_list list), (file, format, list), )
FORMATTED_LIST(vsprintf, (char *to, const char *format, va_list list), (to, format, list),
               writes(to, done < 0 ? 0 : (size_t)done + 1, PLACE))
FORMATTED_LIST(vsnprintf, (char *to, size_t most, const char *format, va_list list), (to, most, format, list),
               writes(to, done < 0 ? 0 : (size_t)done < most ? (size_t)done + 1 : most, PLACE))

/* ---- scanning */

/* How many bytes a conversion that isn't a string writes. */
static size_t size_of(char conversion, const char *length) {
    int is_real = __real_strchr("aAeEfFgG", conversion) != 0;
    switch (length[0]) {
    case 'h': return length[1] == 'h' ? 1 : 2;
    case 'l': case 'j': case 'z': case 't': case 'q': return 8;
    case 'L': return is_real ? sizeof(long double) : 8;
    default: return conversion == 'p' ? 8 : 4;
    }
}

/* Behind the conversion, of which `[..]` has several letters. */
static const char *behind(const char *format) {
    if (*format != '[')
        return format + 1;
    format += format[1] == '^' ? 2 : 1;
    format = __real_strchr(format + (*format == ']'), ']');
    return format ? format + 1 : "";
}

/* The first `count` places that are given are written. */
static void writes_of(const char *format, va_list *arguments, int count, uint64_t place) {
    while (count > 0 && (format = __real_strchr(format, '%')) != 0) {
        int is_left_out = *++format == '*';
        format += is_left_out;
        int width = __real_atoi(format);
        while (*format && __real_strchr("0123456789m'", *format))
            format++;
        const char *length = format;
        while (*format && __real_strchr("hljztLq", *format))
            format++;
        char conversion = *format;
        if (!conversion)
            return;
        format = behind(format);
        if (conversion == '%' || is_left_out)
            continue;
        char *to = va_arg(*arguments, char *);
        if (conversion == 's' || conversion == '[')
            writes(to, whole(to), place);
        else
            writes(to, conversion == 'c' ? (size_t)(width ? width : 1) : size_of(conversion, length), place);
        count -= conversion != 'n';
    }
}

#define SCANNED(name, parameters, first, arguments, real)           \
    int __wrap_##name parameters {                                  \
        va_list list, again;                                        \
        va_start(list, format);                                     \
        va_copy(again, list);                                       \
        first;                                                      \
        int done = real arguments;                                  \
        writes_of(format, &again, done, PLACE);                     \
        va_end(again);                                              \
        va_end(list);                                               \
        return done;                                                \
    }
SCANNED(sscanf, (const char *text, const char *format, ...), reads(text, whole(text), PLACE), (text, format, list), vsscanf)
SCANNED(scanf, (const char *format, ...), , (format, list), vscanf)
SCANNED(fscanf, (FILE *file, const char *format, ...), , (file, format, list), vfscanf)
/* The headers give these other names. */
SCANNED(__isoc99_sscanf, (const char *text, const char *format, ...), reads(text, whole(text), PLACE), (text, format, list), vsscanf)
SCANNED(__isoc99_scanf, (const char *format, ...), , (format, list), vscanf)
SCANNED(__isoc99_fscanf, (FILE *file, const char *format, ...), , (file, format, list), vfscanf)

ssize_t __real_getline(char **, size_t *, FILE *);
ssize_t __wrap_getline(char **line, size_t *size, FILE *file) {
    char *before = *line;
    ssize_t got = __real_getline(line, size, file);
    if (*line != before)
        taskback_taken(*line, PLACE);
    writes(*line, got < 0 ? 0 : (size_t)got + 1, PLACE);
    writes(line, sizeof *line, PLACE);
    writes(size, sizeof *size, PLACE);
    return got;
}
