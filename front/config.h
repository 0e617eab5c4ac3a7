/* Configuration messages in brief: the parameters that they list, "bail out A 1, bit rate F 2". */
#ifndef CONFIG_H
#define CONFIG_H

#include "parameter.h"
#include "words.h"

/* What stands behind the name of a command, or behind the status of its response: the parameters, as
 * many as are heard in 8 seconds, with ", more" where some are left. False, with nothing said, for
 * another form than its own. */
bool say_set(const uint8_t *payload, size_t length);
bool say_get(const uint8_t *payload, size_t length);
bool say_was_set(const uint8_t *payload, size_t length); /* OK */
bool say_not_set(const uint8_t *payload, size_t length); /* with invalid parameters */
bool say_got(const uint8_t *payload, size_t length);     /* OK, or with those that are not known */

/* How many parameters of a message are said there, if some are left; else 0. */
size_t listed_at_first(const struct packet *p);

/* The parameters of a message from one on, in the same way. Gives the number of the next. */
size_t say_listed_from(const struct packet *p, size_t from);

/* "bit rate F ID 1 8" */
void say_name_and_id(const struct parameter *parameter);

/* All parameters from one on, in the same way. */
size_t say_names(size_t from);

#endif
