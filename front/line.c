#include "line.h"

#include <stdarg.h>
#include <stdio.h>

static struct line *line; /* the one that is being said */

void say_on(struct line *to) { line = to; }

struct line *say_to(struct line *to) {
    struct line *before = line;
    to->length = 0;
    to->at[0] = '\0';
    say_on(to);
    return before;
}

void say(const char *format, ...) {
    size_t room = sizeof line->at - line->length;
    va_list values;
    int length;
    va_start(values, format);
    length = vsnprintf(line->at + line->length, room, format, values);
    va_end(values);
    if (length > 0)
        line->length += (size_t)length < room ? (size_t)length : room - 1;
}
