/* Refusals in brief: the number, then what stands in the way. */
#ifndef REFUSAL_H
#define REFUSAL_H

#include "call.h"

/* "8, nothing stored", "5, close 2 unanswered". No two numbers share a reason. */
void say_refusal(const struct told *t);

#endif
