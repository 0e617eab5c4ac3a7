/* Where keys come from and answers go, and what is said on standard error where that fails. */
#ifndef STREAMS_H
#define STREAMS_H

#include <stdbool.h>
#include <stdio.h>

#include "text.h"

/* "keys: the log notes.txt cannot be written: No space left on device", by the last error. */
void complain(const char *what, const char *name, const char *cannot);

/* Whether input and output are open; says which is not. */
bool streams_open(void);

/* Reads the next line without its line feed; false at the end of the input, and where it cannot be
 * read: that is said, and *failed. Of a line that is too long one character more than the most is
 * kept, which tells so. */
bool read_line(struct text *line, bool *failed);

#endif
