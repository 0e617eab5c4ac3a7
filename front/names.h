/* Numbers and names in brief, as an ear can tell them apart. */
#ifndef NAMES_H
#define NAMES_H

#include <stdbool.h>
#include <stddef.h>
#include <stdint.h>

/* An identifier, no quantity, as it is typed: over 9 by its two hex digits. */
void say_id(unsigned id);

/* One hex digit; a letter is a word, "foxtrot". */
void say_digit(unsigned digit);

/* Octets as pairs of digits, "4 0, 0 0, alfa foxtrot". */
void say_pairs(const uint8_t *octets, size_t length);

/* "1 octet", "2 octets" */
void say_count(size_t count, const char *one);

/* "2 credits", "no flow control" */
void say_grant(unsigned credits);

void say_status(unsigned status);
void say_protocol(unsigned protocol);

bool has_mode(unsigned mode);
void say_mode(unsigned mode);

/* "to idle" */
void say_deactivation(unsigned type);

/* "by endpoint" */
void say_reason(unsigned reason);

/* "more" and the two kinds of last, of a discovery's notification. */
void say_follows(unsigned type);

/* "idle", "wait host select" */
void say_rf(unsigned state);

#endif
