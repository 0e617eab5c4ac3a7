/* Lines of the paper sheet, ev=NAME arg=HEX: taken as keys, and written to a log. */
#ifndef SHEET_H
#define SHEET_H

#include <stdio.h>

#include "call.h"

/* Whether a line is meant for the sheet. */
bool is_sheet(struct text line);

/* The call of a line that the sheet takes, and its octets; false for another line. */
bool read_sheet(struct text line, enum call *call, struct octets *arg);

/* Writes a call as such a line; false if that failed. */
bool write_sheet(FILE *file, const struct told *t);

#endif
