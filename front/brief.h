/* The brief line: what a call did, in few words that can be told apart by ear.
 *
 * A line has letters, digits, blanks and commas alone. Its first word tells whether the call was
 * taken: a number is the refusal, a word what was done. Quantities are decimal; an identifier is
 * said as it is typed, over 9 by its two hex digits. */
#ifndef BRIEF_H
#define BRIEF_H

#include "call.h"

/* "9, no credit", "pushed 4 octets on 2, more", "got create OK, .." */
void say_brief(const struct told *t);

/* How many configuration parameters the brief line has, if some are left for the key more; else 0. */
size_t listed_in_brief(const struct told *t);

/* The configuration parameters of the call from one on. Gives the number of the next. */
size_t say_listed_after(const struct told *t, size_t from);

#endif
