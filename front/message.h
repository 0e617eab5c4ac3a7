/* Control messages in brief, by the names of their keys. */
#ifndef MESSAGE_H
#define MESSAGE_H

#include <stddef.h>
#include <stdint.h>

#include "words.h"

/* "create", or "unknown 0 3 foxtrot" */
void say_name(unsigned gid, unsigned oid);

/* A command that was typed: its name and arguments, "close connection 2". */
void say_arguments(unsigned gid, unsigned oid, const uint8_t *payload, size_t length);

/* A control packet: "create OK, connection 2, payload 4, 2 credits", "reset notice type 1". */
void say_control(const struct packet *p);

#endif
