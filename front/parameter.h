/* Configuration parameters: their names, and the lists of them that CORE_SET_CONFIG and
 * CORE_GET_CONFIG have. */
#ifndef PARAMETER_H
#define PARAMETER_H

#include "text.h"

struct parameter {
    unsigned id;
    const char *name;   /* in the standard */
    const char *spoken; /* in brief */
};

/* The parameters in the order of their IDs, from 0 on; NULL past the last. */
const struct parameter *parameter_at(size_t i);

/* The parameter of an ID, or NULL. */
const struct parameter *parameter_of(unsigned id);

/* Adds the octets of a word: the ID of the parameter that it names in the standard, or octets in
 * hex; false for another word. */
bool add_id(struct octets *to, struct text word);

/* The parameter of such a word, or NULL. */
const struct parameter *parameter_named(struct text word);

/* A list that is being read: a count, then for each parameter its ID and, in some messages, the
 * length of its value and the value. */
struct list {
    const uint8_t *at; /* what is not read yet */
    size_t octets;
    unsigned left;     /* parameters that are not read yet */
    bool values;
};

struct listed {
    unsigned id;
    const uint8_t *value;
    size_t length;
};

/* The list that some octets begin with. */
struct list list_at(const uint8_t *octets, size_t length, bool values);

/* Reads the next parameter; false at the end, and where the list is cut short. */
bool next_listed(struct list *list, struct listed *listed);

/* Whether a list has all its octets, and none to spare. */
bool is_whole(struct list list);

#endif
