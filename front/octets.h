/* The octets of a call, in breaths. */
#ifndef OCTETS_H
#define OCTETS_H

#include "call.h"

/* Says octets of one part, after so many that were said: "up 1 of 2, 4 0, 0 0, 0 1, 0 0, more". The
 * parts are the packets put, the message, the packet taken; where there is none, the octets typed.
 * Gives how many were said in all. */
size_t say_octets_after(const struct told *t, size_t said);

#endif
