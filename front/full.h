/* The full line: the fields of the paper sheet, then the same in plain words. */
#ifndef FULL_H
#define FULL_H

#include "call.h"

void say_full(const struct told *t);

#endif
