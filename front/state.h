/* The octets of nci_state in brief. */
#ifndef STATE_H
#define STATE_H

#include <stddef.h>
#include <stdint.h>

#include "call.h"

/* RF states as nci_state has them. */
enum { RF_IDLE, RF_DISCOVERY, RF_W4_ALL_DISCOVERIES, RF_W4_HOST_SELECT, RF_POLL_ACTIVE, RF_LISTEN_ACTIVE,
       RF_LISTEN_SLEEP };

/* The unanswered command: "create", "close 2". */
void say_pending(const uint8_t *state);

/* "state poll active" */
void say_state_alone(unsigned rf);

/* In W4_HOST_SELECT: "selected ID 1, ISO DEP" or "none selected". */
void say_selection(const uint8_t *state);

/* The state from a clause on, "discovery, create unanswered, open 2 and 3, in hand on 2, 1 down, 2 up":
 * as many clauses as are heard in 8 seconds, with ", more" where some are left. Gives the clause that
 * comes next. */
size_t say_state(const struct kept *state, size_t from);

#endif
