/* An answer in both forms. Each is made of every answer, so that it can be said again in the other. */
#ifndef ANSWER_H
#define ANSWER_H

#include "key.h"
#include "line.h"

/* Says a part of what is known of a call, from a place on, and gives the place of the next part. */
typedef size_t say_part(const struct told *t, size_t from);

struct answer {
    struct line full, brief;
    say_part *rest; /* what the key more goes on with */
    size_t from;
};

/* A call's answer. The key more goes on with its octets, or with parameters that its brief line has
 * no room for. */
void answer_call(struct answer *a, const struct told *t);

/* The answer of a key that is no call: a text, in full as its field says. */
void answer_text(struct answer *a, const char *name, const char *text);

/* The answer of such a key in parts: one of them, from a place on. */
void answer_part(struct answer *a, const char *name, const struct told *t, say_part *part, size_t from);

/* The answer to a line that is no key: why, and in brief. */
void answer_bad(struct answer *a, const char *why, const char *brief);

/* The answer to octets that a key does not take: why, then how it is typed. */
void answer_untaken(struct answer *a, const struct key *key, const char *why);

#endif
