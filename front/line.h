/* Lines that are said: made whole, kept so that they can be said again, and written at once. */
#ifndef LINE_H
#define LINE_H

#include <stddef.h>

enum { LINE_MAX_WRITTEN = 4096 }; /* room for the longest answer */

struct line {
    size_t length;
    char at[LINE_MAX_WRITTEN];
};

/* What is said from now on goes on this line, from its beginning. Gives the line that it went on
 * before. */
struct line *say_to(struct line *line);

/* What is said from now on goes on at the end of this line. */
void say_on(struct line *line);

/* As printf. What a line has no room for is left out. */
void say(const char *format, ...);

#endif
